//! (a), the straightforward one: a vector of an enum, one match a cell, not inlined. (a2), INLINED: the same program, its operator
//! function inlined into the loop. A vector of the enum at its best.
use super::{Step, With, RESULTS, SLOTS};

#[derive(Clone, Copy, PartialEq)]
pub enum Cell {
    Empty,
    Int(i64),
    Float(f64),
    Truth(bool),
}
use Cell::*;

#[inline(always)]
fn read(bytes: &[u8], kind: u8) -> Option<Cell> {
    let word = u64::from_le_bytes(bytes[1..9].try_into().unwrap());
    match bytes[0] {
        0 if word == 0 => Some(Empty),
        1 => filled(word, kind),
        _ => None,
    }
}

#[inline(always)]
fn filled(word: u64, kind: u8) -> Option<Cell> {
    match kind {
        1 => Some(Int(word as i64)),
        2 => Some(Float(f64::from_bits(word))).filter(|_| f64::from_bits(word).is_finite()),
        _ if word < 2 => Some(Truth(word == 1)),
        _ => None,
    }
}

fn finite(x: f64) -> Result<Cell, u8> {
    if x.is_finite() {
        Ok(Float(x))
    } else {
        Err(12)
    }
}

#[inline(always)]
fn ints(operator: u8, x: i64, y: i64) -> Result<Cell, u8> {
    Ok(match operator {
        1 => Int(x.checked_add(y).ok_or(12)?),
        2 => Int(x.checked_sub(y).ok_or(12)?),
        3 => Int(x.checked_mul(y).ok_or(12)?),
        4 if y != 0 => Int(x.checked_div(y).ok_or(12)?),
        5 if y != 0 => Int(x.wrapping_rem(y)),
        4 | 5 => return Err(13),
        6 => Truth(x == y),
        7 => Truth(x != y),
        8 => Truth(x < y),
        9 => Truth(x <= y),
        10 => Truth(x > y),
        11 => Truth(x >= y),
        _ => return Err(7),
    })
}

#[inline(always)]
fn floats(operator: u8, x: f64, y: f64) -> Result<Cell, u8> {
    Ok(match operator {
        1 => finite(x + y)?,
        2 => finite(x - y)?,
        3 => finite(x * y)?,
        4 if y != 0.0 => finite(x / y)?,
        4 => return Err(13),
        6 => Truth(x == y),
        7 => Truth(x != y),
        8 => Truth(x < y),
        9 => Truth(x <= y),
        10 => Truth(x > y),
        11 => Truth(x >= y),
        _ => return Err(7),
    })
}

#[inline(always)]
fn apply(operator: u8, a: Cell, b: Cell) -> Result<Cell, u8> {
    match (a, b) {
        (Int(x), Int(y)) => ints(operator, x, y),
        (Float(x), Float(y)) => floats(operator, x, y),
        (Truth(x), Truth(y)) => Ok(Truth(match operator {
            6 => x == y,
            7 => x != y,
            12 => x && y,
            13 => x || y,
            _ => return Err(7),
        })),
        (Empty, c) | (c, Empty) => Ok(match operator {
            12 if c == Truth(false) => c,
            13 if c == Truth(true) => c,
            _ => Empty,
        }),
        _ => Err(7),
    }
}

#[inline(never)]
fn apply_called(operator: u8, a: Cell, b: Cell) -> Result<Cell, u8> {
    apply(operator, a, b)
}

pub struct Cells<const INLINED: bool>(Vec<Vec<Cell>>);

impl<const INLINED: bool> Default for Cells<INLINED> {
    fn default() -> Self {
        Cells(vec![Vec::new(); SLOTS])
    }
}

impl<const INLINED: bool> Cells<INLINED> {
    /// One match a cell.
    #[inline(always)]
    fn apply(operator: u8, x: Cell, y: Cell, k: usize) -> Result<Cell, (u8, usize)> {
        if INLINED { apply(operator, x, y) } else { apply_called(operator, x, y) }.map_err(|number| (number, k))
    }

    #[inline(never)]
    fn pair(operator: u8, a: &[Cell], b: &[Cell], d: &mut [Cell]) -> Result<(), (u8, usize)> {
        for (k, (z, (&x, &y))) in d.iter_mut().zip(a.iter().zip(b)).enumerate() {
            *z = Self::apply(operator, x, y, k)?;
        }
        Ok(())
    }

    #[inline(never)]
    fn right(operator: u8, a: &[Cell], scalar: Cell, d: &mut [Cell]) -> Result<(), (u8, usize)> {
        for (k, (z, &x)) in d.iter_mut().zip(a).enumerate() {
            *z = Self::apply(operator, x, scalar, k)?;
        }
        Ok(())
    }

    #[inline(never)]
    fn left(operator: u8, scalar: Cell, a: &[Cell], d: &mut [Cell]) -> Result<(), (u8, usize)> {
        for (k, (z, &x)) in d.iter_mut().zip(a).enumerate() {
            *z = Self::apply(operator, scalar, x, k)?;
        }
        Ok(())
    }

    /// The bytes of the steps' results, as a work area has them.
    pub fn bytes(&self, steps: usize) -> Vec<u8> {
        let nine = |cell: &Cell| {
            let (filled, word) = match *cell {
                Empty => (0, 0),
                Int(x) => (1, x as u64),
                Float(x) => (1, x.to_bits()),
                Truth(x) => (1, u64::from(x)),
            };
            let mut nine = [filled; 9];
            nine[1..].copy_from_slice(&word.to_le_bytes());
            nine
        };
        self.0[RESULTS..RESULTS + steps].iter().flatten().flat_map(nine).collect()
    }
}

impl<const INLINED: bool> super::Cells for Cells<INLINED> {
    #[inline(always)]
    fn read(&mut self, slot: usize, kind: u8, bytes: &[u8]) -> Result<(), usize> {
        let cells = &mut self.0[slot];
        cells.clear();
        for (k, nine) in bytes.chunks_exact(9).enumerate() {
            cells.push(read(nine, kind).ok_or(k)?);
        }
        Ok(())
    }

    #[inline(always)]
    fn work_out(&mut self, slot: usize, step: Step) -> Result<(), (u8, usize)> {
        let mut d = std::mem::take(&mut self.0[slot]);
        let a = &self.0[step.a];
        d.resize(a.len(), Empty);
        let scalar = |word| filled(word, step.kind).unwrap_or(Empty);
        match step.with {
            With::Array(b) => Self::pair(step.operator, a, &self.0[b], &mut d),
            With::Right(word) => Self::right(step.operator, a, scalar(word), &mut d),
            With::Left(word) => Self::left(step.operator, scalar(word), a, &mut d),
        }?;
        self.0[slot] = d;
        Ok(())
    }

    #[inline(always)]
    fn truths(&self, slot: usize) -> impl Fn(usize) -> bool {
        let cells = &self.0[slot];
        |k| cells[k] == Truth(true)
    }
}
