//! A refusal: its number in the paper's table, its place (array, step, side or 0) and its ordinality
//! (with 3, 12 and 13; with 8 the figure of what differs; with 15 and 16 a byte place; else 0).

#[derive(Clone, Copy, Debug, PartialEq, Eq)]
pub struct Refusal {
    pub number: u32,
    pub place: u32,
    pub ordinality: u32,
}

/// A refusal that names nothing but its place.
pub fn refused(number: u32, place: u32) -> Refusal {
    Refusal { number, place, ordinality: 0 }
}

/// A refusal that names a cell by its ordinality, an axis and what differs there, or a byte of a text.
pub fn refused_at(number: u32, place: u32, ordinality: u32) -> Refusal {
    Refusal { number, place, ordinality }
}
