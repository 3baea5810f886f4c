//! What a cell holds, the three types, and the nine bytes of a cell: 0 and eight zeros when empty, or 1 and
//! eight bytes. Negative zero is kept; NaN, the infinities and truth values other than 0 and 1 are not cells.

#[derive(Clone, Copy, Debug, PartialEq)]
pub enum Cell {
    Empty,
    Int(i64),
    Float(f64),
    Truth(bool),
}

#[derive(Clone, Copy, Debug, PartialEq, Eq)]
pub enum Type {
    Int,
    Float,
    Boolean,
}

pub const CELL_BYTES: usize = 9;

impl Type {
    pub fn of_byte(byte: u8) -> Option<Type> {
        match byte {
            1 => Some(Type::Int),
            2 => Some(Type::Float),
            3 => Some(Type::Boolean),
            _ => None,
        }
    }

    pub fn byte(self) -> u8 {
        match self {
            Type::Int => 1,
            Type::Float => 2,
            Type::Boolean => 3,
        }
    }

    pub fn is_number(self) -> bool {
        self != Type::Boolean
    }

    /// The filled cell of this type that the eight bytes stand for, if they stand for one.
    pub fn filled(self, eight: &[u8]) -> Option<Cell> {
        let bits = u64::from_le_bytes(eight.try_into().ok()?);
        match self {
            Type::Int => Some(Cell::Int(bits as i64)),
            Type::Float => Some(f64::from_bits(bits)).filter(|number| number.is_finite()).map(Cell::Float),
            Type::Boolean if bits <= 1 => Some(Cell::Truth(bits == 1)),
            Type::Boolean => None,
        }
    }

    /// The cell of this type that the nine bytes stand for, if they stand for one.
    pub fn cell(self, nine: &[u8]) -> Option<Cell> {
        match nine[0] {
            0 if nine[1..].iter().all(|&byte| byte == 0) => Some(Cell::Empty),
            1 => self.filled(&nine[1..]),
            _ => None,
        }
    }
}

impl Cell {
    pub fn bytes(self) -> [u8; CELL_BYTES] {
        let (filled, bits) = match self {
            Cell::Empty => (0, 0),
            Cell::Int(number) => (1, number as u64),
            Cell::Float(number) => (1, number.to_bits()),
            Cell::Truth(truth) => (1, u64::from(truth)),
        };
        let mut nine = [filled; CELL_BYTES];
        nine[1..].copy_from_slice(&bits.to_le_bytes());
        nine
    }
}
