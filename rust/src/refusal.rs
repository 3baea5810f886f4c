//! A refusal: why the engine gave no answer, and where; in figures and in words.

use std::error::Error;
use std::fmt;
use std::hash::{Hash, Hasher};

use crate::differs::Differs;

/// A refusal of the engine. It prints as `refused 8 3 22`: number, place, ordinality.
///
/// | Number | Given exactly when |
/// |---|---|
/// | 1 | bundle mark, version, count, type or axis count is bad, or bytes are short or left over |
/// | 2 | bad name, equal names, limit out of range or crossed, extent outside maximum, over 4,096 cells |
/// | 3 | a cell is not one; first ordinality |
/// | 4 | recipe length; unknown operation, operand, operator; unused byte not zero; no such array |
/// | 5 | axis index not in A; for a reference, wrong number of coordinates |
/// | 6 | a trim pair, a position or a patch outside A; a coordinate beyond the maximum; an ordinality or walking place outside |
/// | 7 | types or scalar unfit; listing of a result that isn't BOOLEAN; FLOAT as JSON |
/// | 8 | axis count, or names or limits compared, differ; the first axis that does, and in what |
/// | 9 | the result has no axis, over 4,096 cells, a limit out of range or crossed, bad or equal names |
/// | 10 | work area under nine bytes for each cell of all results |
/// | 11 | no room for one row; start 0 or over cells + 1 |
/// | 12 | an INT result doesn't fit or a FLOAT result isn't finite, 13 aside |
/// | 13 | a filled cell or a scalar is divided by zero (either sign), or MOD zero |
/// | 14 | the output buffer is shorter than the bundle packed, the JSON text or the head |
/// | 15 | the text is not one JSON object nested to 16 levels with one member `data`; the byte where that is seen |
/// | 16 | a value or bracket of `data` doesn't fit the type and extent; its first byte |
///
/// Two refusals are equal if these three figures are.
#[derive(Clone, Copy, Debug)]
pub struct Refusal {
    /// 1 to 16, as in the table above.
    pub number: u32,
    /// The array, the step or the side, counted from 1; 0 for what belongs to none.
    pub place: u32,
    /// The cell, with 3, 12 and 13; with 15 and 16 the byte of the text, counted from 1, or [`u32::MAX`] where it lies there or after it;
    /// with 8 what differs first: 4 for the axis count, else ten times the axis's index in A (or in the left array of a stretch), and 1 for
    /// its name, 2 for its lower limit, 3 for its upper one; else 0.
    pub ordinality: u32,
    /// What the place counts.
    pub counts: Counts,
}

/// What a refusal's place counts.
#[derive(Clone, Copy, Debug, PartialEq, Eq, PartialOrd, Ord, Hash)]
pub enum Counts {
    /// The arrays of a bundle.
    Arrays,
    /// The steps of a recipe.
    Steps,
    /// The sides of a stretch: 1 is the left one, 2 the right one.
    Sides,
    /// Nothing: JSON is read into one array, and the place is 0.
    Nothing,
}

impl Refusal {
    /// Number, place, ordinality.
    pub fn figures(&self) -> [u32; 3] {
        [self.number, self.place, self.ordinality]
    }

    /// The refusal as one plain sentence, with its place and its cell, its axis, or its byte of a text. [`words_in`](Refusal::words_in)
    /// shows that text too, and [`words_for`](Refusal::words_for) what stands on that axis in the two arrays.
    ///
    /// ```
    /// use rovgrint::{Counts, Refusal};
    ///
    /// let refusal = Refusal { number: 8, place: 3, ordinality: 22, counts: Counts::Steps };
    /// assert_eq!(refusal.words(), "step 3, axis 2: the lower limits of the two arrays differ");
    /// assert_eq!(refusal.to_string(), "refused 8 3 22");
    /// ```
    pub fn words(&self) -> String {
        let place = match (self.counts, self.place) {
            (_, 0) | (Counts::Nothing, _) => String::new(),
            (Counts::Arrays, k) => format!("array {k}"),
            (Counts::Steps, k) => format!("step {k}"),
            (Counts::Sides, 1) => "the left side".to_string(),
            (Counts::Sides, _) => "the right side".to_string(),
        };
        let counted = match (self.number, self.ordinality) {
            (_, 0) => String::new(),
            (8, _) => self.differs().and_then(Differs::axis).map_or(String::new(), |index| format!("axis {index}")),
            (15 | 16, u32::MAX) => format!("byte {} or after it", u32::MAX),
            (15 | 16, byte) => format!("byte {byte}"),
            (_, cell) => format!("cell {cell}"),
        };
        let places: Vec<String> = [place, counted].into_iter().filter(|text| !text.is_empty()).collect();
        let reason = self.reason();
        if places.is_empty() {
            reason.to_string()
        } else {
            format!("{}: {reason}", places.join(", "))
        }
    }

    /// What differs first, with 8, if its ordinality says it.
    pub(crate) fn differs(&self) -> Option<Differs> {
        (self.number == 8).then(|| Differs::of(self.ordinality)).flatten()
    }

    /// What its number says of an array, a step or a side.
    fn reason(&self) -> &'static str {
        match (self.number, self.counts, self.place) {
            (1, Counts::Arrays, 0) => "the bundle's mark, version, number of arrays or length is bad",
            (1, Counts::Nothing, _) => "the array's type or axis count is bad",
            (1, _, _) => "its type, axis count or number of bytes is bad",
            (2, Counts::Nothing, _) => "the array's extent is bad: a name, a limit, or over 4,096 cells",
            (2, _, _) => "its extent is bad: a name, a limit, the declared maximum, or over 4,096 cells",
            (3, _, _) => "this is no cell of the array's type",
            (4, Counts::Arrays, _) => "there is no such array",
            (4, _, 0) => "a recipe is one to sixteen steps, of 36 bytes for a bundle of version 1, of 100 for one of version 2",
            (4, _, _) => "the operation, an operand or the operator is unknown, or a byte that is not used is not zero",
            (5, Counts::Arrays, _) => "a coordinate has one number for each axis",
            (5, _, _) => "there is no such axis",
            (6, Counts::Arrays, _) => "the coordinate lies beyond the declared maximum, or the walking place outside the array",
            (6, Counts::Steps, _) => "the limits, the position or the patch lie outside the array",
            (6, _, _) => "the ordinality lies outside the glued array",
            (7, Counts::Arrays, _) => "this cannot be asked of an array of that type",
            (7, Counts::Steps, _) => "the types do not fit, or a listing's last result is not BOOLEAN",
            (7, Counts::Sides, _) => "the two arrays have different types",
            (7, Counts::Nothing, _) => "JSON is not read into a FLOAT array",
            (8, _, _) => self.differs().map_or("the two arrays do not agree in axes, names or limits", Differs::reason),
            (9, _, _) => "the result's extent is bad: no axis, a name, a limit, or over 4,096 cells",
            (10, _, _) => "the work area is under nine bytes for each cell of all results",
            (11, _, _) => "the row buffer has no room for one row, or the start is outside the listing",
            (12, Counts::Arrays, _) => "the sum or the average does not fit",
            (12, _, _) => "the value does not fit",
            (13, _, _) => "division by zero",
            (14, _, _) => "the output buffer is too short",
            (15, _, _) => "the text is not one JSON object, nested to 16 levels at most, with one member data",
            (16, _, _) => "a value or bracket of the text's data does not fit the array's type and extent",
            _ => "no such refusal",
        }
    }
}

impl PartialEq for Refusal {
    fn eq(&self, other: &Refusal) -> bool {
        self.figures() == other.figures()
    }
}

impl Eq for Refusal {}

impl Hash for Refusal {
    fn hash<H: Hasher>(&self, state: &mut H) {
        self.figures().hash(state);
    }
}

impl PartialOrd for Refusal {
    fn partial_cmp(&self, other: &Refusal) -> Option<std::cmp::Ordering> {
        Some(self.cmp(other))
    }
}

impl Ord for Refusal {
    fn cmp(&self, other: &Refusal) -> std::cmp::Ordering {
        self.figures().cmp(&other.figures())
    }
}

impl fmt::Display for Refusal {
    fn fmt(&self, f: &mut fmt::Formatter<'_>) -> fmt::Result {
        write!(f, "refused {} {} {}", self.number, self.place, self.ordinality)
    }
}

impl Error for Refusal {}
