//! The operators at one cell: arithmetic, comparisons, AND and OR on two cells, and the seven single operators.
//! What has no value is refused: 13 for a division by zero or MOD zero, 12 for a result that doesn't fit.

use super::cell::Cell::{self, *};
use std::cmp::Ordering;

/// A pair operator (1 +, 2 -, 3 *, 4 /, 5 MOD, 6 =, 7 <>, 8 <, 9 <=, 10 >, 11 >=, 12 AND, 13 OR) on two cells.
pub fn pair(operator: u8, left: Cell, right: Cell) -> Result<Cell, u32> {
    match operator {
        1..=5 => arithmetic(operator, left, right),
        6..=11 => Ok(compare(operator, left, right)),
        12 => Ok(both(left, right)),
        _ => Ok(negated(both(negated(left), negated(right)))),
    }
}

/// A single operator (1 negate, 2 absolute, 3 NOT, 4 is-empty, 5 is-true, 6 is-false, 7 is-unknown) on a cell.
pub fn single(operator: u8, cell: Cell) -> Result<Cell, u32> {
    match (operator, cell) {
        (1, Int(number)) => fitting(-i128::from(number)),
        (2, Int(number)) => fitting(i128::from(number).abs()),
        (1, Float(number)) => Ok(Float(f64::from_bits(number.to_bits() ^ SIGN))),
        (2, Float(number)) => Ok(Float(f64::from_bits(number.to_bits() & !SIGN))),
        (3, _) => Ok(negated(cell)),
        (5, _) => Ok(Truth(cell == Truth(true))),
        (6, _) => Ok(Truth(cell == Truth(false))),
        (4 | 7, _) => Ok(Truth(cell == Empty)),
        _ => Ok(Empty),
    }
}

const SIGN: u64 = 1 << 63;

/// Arithmetic on an empty cell is empty, a zero divisor included.
fn arithmetic(operator: u8, left: Cell, right: Cell) -> Result<Cell, u32> {
    match (left, right) {
        (Int(left), Int(right)) => whole(operator, i128::from(left), i128::from(right)),
        (Float(left), Float(right)) => binary(operator, left, right),
        _ => Ok(Empty),
    }
}

/// Worked out exactly. Division goes toward zero, MOD has the dividend's sign.
fn whole(operator: u8, left: i128, right: i128) -> Result<Cell, u32> {
    match operator {
        1 => fitting(left + right),
        2 => fitting(left - right),
        3 => fitting(left * right),
        _ if right == 0 => Err(13),
        4 => fitting(left / right),
        _ => fitting(left % right),
    }
}

fn fitting(exact: i128) -> Result<Cell, u32> {
    i64::try_from(exact).map(Int).map_err(|_| 12)
}

/// Rounded once, to nearest, ties to even; a zero divisor of either sign is 13.
fn binary(operator: u8, left: f64, right: f64) -> Result<Cell, u32> {
    let result = match operator {
        1 => left + right,
        2 => left - right,
        3 => left * right,
        _ if right == 0.0 => return Err(13),
        _ => left / right,
    };
    if result.is_finite() {
        Ok(Float(result))
    } else {
        Err(12)
    }
}

/// A comparison with an empty cell among its two is an empty cell, SQL's unknown; so empty = empty is one too.
fn compare(operator: u8, left: Cell, right: Cell) -> Cell {
    let order = match (left, right) {
        (Int(left), Int(right)) => Some(left.cmp(&right)),
        (Float(left), Float(right)) => left.partial_cmp(&right),
        (Truth(left), Truth(right)) => Some(left.cmp(&right)),
        _ => None,
    };
    let holds = |order: Ordering| match operator {
        6 => order == Ordering::Equal,
        7 => order != Ordering::Equal,
        8 => order == Ordering::Less,
        9 => order != Ordering::Greater,
        10 => order == Ordering::Greater,
        _ => order != Ordering::Less,
    };
    order.map_or(Empty, |order| Truth(holds(order)))
}

/// AND, with empty as SQL's unknown: FALSE if either is, else unknown if either is, else TRUE.
fn both(left: Cell, right: Cell) -> Cell {
    if left == Truth(false) || right == Truth(false) {
        Truth(false)
    } else if left == Empty || right == Empty {
        Empty
    } else {
        Truth(true)
    }
}

/// NOT: unknown stays unknown.
fn negated(cell: Cell) -> Cell {
    match cell {
        Truth(truth) => Truth(!truth),
        _ => Empty,
    }
}
