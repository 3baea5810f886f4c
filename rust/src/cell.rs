//! A cell as a value, and its nine bytes: nine zeros when empty, else 1 and eight bytes that its array's type tells how to read.

/// The bytes of a cell.
pub const CELL: usize = 9;

/// The type of an array's cells.
#[derive(Clone, Copy, Debug, PartialEq, Eq, Hash)]
pub enum Kind {
    /// INT: signed, 64 bits.
    Int = 1,
    /// FLOAT: finite binary64.
    Float = 2,
    /// BOOLEAN.
    Boolean = 3,
}

impl Kind {
    /// The type of a number that the engine answered.
    pub(crate) fn of(number: u32) -> Kind {
        match number {
            1 => Kind::Int,
            2 => Kind::Float,
            3 => Kind::Boolean,
            _ => unreachable!("type {number} is refused by the engine"),
        }
    }
}

/// A cell: empty, a whole number, a binary64 number or a truth value.
#[derive(Clone, Copy, Debug, PartialEq)]
pub enum Cell {
    /// Nothing was entered.
    Empty,
    /// A cell of an INT array.
    Int(i64),
    /// A cell of a FLOAT array. Negative zero is kept; NaN and infinities are not cells, and the engine refuses them.
    Float(f64),
    /// A cell of a BOOLEAN array.
    Truth(bool),
}

impl Cell {
    /// The cell's eight bytes and their type; nothing for an empty one.
    pub(crate) fn word(self) -> Option<(Kind, [u8; 8])> {
        match self {
            Cell::Empty => None,
            Cell::Int(number) => Some((Kind::Int, number.to_le_bytes())),
            Cell::Float(number) => Some((Kind::Float, number.to_le_bytes())),
            Cell::Truth(truth) => Some((Kind::Boolean, u64::from(truth).to_le_bytes())),
        }
    }

    /// The cell's nine bytes in an array of that type. A cell of another type has none: it is written as nine bytes that are no cell
    /// (they begin with 2), which the engine refuses with 3.
    pub fn to_bytes(self, kind: Kind) -> [u8; CELL] {
        let mut bytes = [0; CELL];
        match self.word() {
            None => {}
            Some((own, word)) if own == kind => {
                bytes[0] = 1;
                bytes[1..].copy_from_slice(&word);
            }
            Some(_) => bytes[0] = 2,
        }
        bytes
    }

    /// The cell that nine bytes are in an array of that type; nothing where they are no cell, or not nine.
    pub fn from_bytes(kind: Kind, bytes: &[u8]) -> Option<Cell> {
        let bytes: [u8; CELL] = bytes.try_into().ok()?;
        let [mark, word @ ..] = bytes;
        match (mark, kind) {
            (0, _) => (word == [0; 8]).then_some(Cell::Empty),
            (1, Kind::Int) => Some(Cell::Int(i64::from_le_bytes(word))),
            (1, Kind::Float) => Some(f64::from_le_bytes(word)).filter(|x| x.is_finite()).map(Cell::Float),
            (1, Kind::Boolean) => match u64::from_le_bytes(word) {
                0 => Some(Cell::Truth(false)),
                1 => Some(Cell::Truth(true)),
                _ => None,
            },
            _ => None,
        }
    }

    /// The cell in bytes that the engine has judged, or has written itself.
    pub(crate) fn judged(kind: Kind, bytes: &[u8]) -> Cell {
        Cell::from_bytes(kind, bytes).expect("the engine answers cells of the array's type")
    }
}
