//! Questions to one bundle array: a reference, a step of a walk, and the six totals. The order is bundle, 4, 5, 7, 6, 12,
//! and the place of their refusals is the array asked for.

use super::array::{Array, Declared};
use super::cell::{Cell, Type};
use super::refusal::{refused, refused_at, Refusal};

/// Inside the extent the cell; inside the maximum but not the extent empty; beyond the maximum 6.
pub fn refer(declared: &Declared, array: u32, coordinate: &[i32]) -> Result<Cell, Refusal> {
    if coordinate.len() != declared.array.extent.axes.len() {
        return Err(refused(5, array));
    }
    let inside = |(&position, &(lowest, highest)): (&i32, &(i32, i32))| lowest <= position && position <= highest;
    if !coordinate.iter().zip(&declared.maximum).all(inside) {
        return Err(refused(6, array));
    }
    Ok(declared.array.cells.get(coordinate).copied().unwrap_or(Cell::Empty))
}

/// The cell at the walking place, or none at cells + 1; elsewhere outside 6.
pub fn walk(declared: &Declared, array: u32, walking_place: u32) -> Result<Option<Cell>, Refusal> {
    let in_order = declared.array.in_order();
    let here = in_order.iter().find(|(ordinality, ..)| *ordinality == walking_place);
    let end = in_order.len() as u64 + 1;
    match here {
        Some((_, _, cell)) => Ok(Some(*cell)),
        None if u64::from(walking_place) == end => Ok(None),
        None => Err(refused(6, array)),
    }
}

/// The total that is asked for: 1 count of filled, 2 count of TRUE, 3 smallest, 4 largest, 5 sum, 6 average.
pub fn total(declared: &Declared, array: u32, which: u32) -> Result<Cell, Refusal> {
    let of = declared.array.of;
    let fit = match which {
        1 => true,
        2 => of == Type::Boolean,
        3..=5 => of.is_number(),
        6 => of == Type::Float,
        _ => return Err(refused(4, array)),
    };
    if !fit {
        return Err(refused(7, array));
    }
    let filled = filled(&declared.array);
    match which {
        1 => Ok(Cell::Int(filled.len() as i64)),
        2 => Ok(Cell::Int(filled.iter().filter(|(_, cell)| *cell == Cell::Truth(true)).count() as i64)),
        3 => Ok(first_best(&filled, |one, best| one < best)),
        4 => Ok(first_best(&filled, |one, best| one > best)),
        5 if of == Type::Int => int_sum(&filled, array),
        5 => float_sum(&filled, array),
        _ => average(&filled, array),
    }
}

/// The filled cells in row-major order, each with its ordinality among all cells.
fn filled(array: &Array) -> Vec<(u32, Cell)> {
    let cells = array.in_order().into_iter().map(|(ordinality, _, cell)| (ordinality, cell));
    cells.filter(|(_, cell)| *cell != Cell::Empty).collect()
}

/// The first cell that none is better than; empty if nothing is filled.
fn first_best(filled: &[(u32, Cell)], better: fn(&Number, &Number) -> bool) -> Cell {
    let mut best = Cell::Empty;
    for &(_, cell) in filled {
        if best == Cell::Empty || better(&number(cell), &number(best)) {
            best = cell;
        }
    }
    best
}

/// A number to be ordered; within one array all are of one type.
#[derive(PartialEq, PartialOrd)]
enum Number {
    Whole(i64),
    Binary(f64),
}

fn number(cell: Cell) -> Number {
    match cell {
        Cell::Int(whole) => Number::Whole(whole),
        Cell::Float(binary) => Number::Binary(binary),
        other => unreachable!("no number: {other:?}"),
    }
}

/// The exact total; 12 with ordinality 0 if it is no INT.
fn int_sum(filled: &[(u32, Cell)], array: u32) -> Result<Cell, Refusal> {
    if filled.is_empty() {
        return Ok(Cell::Empty);
    }
    let whole = |&(_, cell): &(u32, Cell)| match cell {
        Cell::Int(whole) => i128::from(whole),
        other => unreachable!("no INT: {other:?}"),
    };
    let exact: i128 = filled.iter().map(whole).sum();
    i64::try_from(exact).map(Cell::Int).map_err(|_| refused(12, array))
}

/// The sum in row-major order from the first filled cell; 12 names the cell whose addition fails.
fn float_sum(filled: &[(u32, Cell)], array: u32) -> Result<Cell, Refusal> {
    let mut sum: Option<f64> = None;
    for &(ordinality, cell) in filled {
        let Cell::Float(number) = cell else { unreachable!("no FLOAT: {cell:?}") };
        let longer = sum.map_or(number, |before| before + number);
        if !longer.is_finite() {
            return Err(refused_at(12, array, ordinality));
        }
        sum = Some(longer);
    }
    Ok(sum.map_or(Cell::Empty, Cell::Float))
}

/// That sum, divided once by the number of filled cells.
fn average(filled: &[(u32, Cell)], array: u32) -> Result<Cell, Refusal> {
    match float_sum(filled, array)? {
        Cell::Float(sum) => Ok(Cell::Float(sum / filled.len() as f64)),
        _ => Ok(Cell::Empty),
    }
}
