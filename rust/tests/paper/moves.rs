//! A judged step carried out on whole arrays, coordinate by coordinate. Those that move cells say which coordinate
//! gets which cell; those with an operator work at each coordinate, and the first in row-major order that refuses is named.

use super::array::{Array, Cells, Shape};
use super::cell::Cell;
use super::recipe::{Operation::*, Step};
use super::values;

/// The result, or the number of the refusal and the ordinality of its cell in the result.
pub fn carry_out(step: &Step, shape: &Shape, a: &Array, b: Option<&Array>) -> Result<Array, (u32, u32)> {
    let cells = match (step.operation, b) {
        (Trim, _) => trim(a, &step.pairs(a.extent.axes.len())),
        (Slice, _) => slice(a, step.axis_at(), step.position()),
        (Reshape, _) => reshape(a, shape),
        (Shift, _) => shift(a, &step.amounts(a.extent.axes.len())),
        (Update, Some(b)) => update(a, b),
        (Place, Some(b)) => place(a, b, step.axis_at(), step.position()),
        (Glue, Some(b)) => glue(a, b, step.axis_at()),
        (Rename, _) => a.cells.clone(),
        _ => operate(step, a, b)?,
    };
    Ok(Array { of: shape.of, extent: shape.extent.clone(), cells })
}

/// The coordinates of A that lie in the pairs.
fn trim(a: &Array, pairs: &[(i32, i32)]) -> Cells {
    let inside = |at: &[i32]| at.iter().zip(pairs).all(|(&position, &(lower, upper))| lower <= position && position <= upper);
    a.cells.iter().filter(|(at, _)| inside(at)).map(|(at, cell)| (at.clone(), *cell)).collect()
}

/// The coordinates of A at that position of the axis, the axis removed.
fn slice(a: &Array, axis: usize, position: i32) -> Cells {
    let mut cells = Cells::new();
    for (at, cell) in a.cells.iter().filter(|(at, _)| at[axis] == position) {
        let mut shorter = at.clone();
        shorter.remove(axis);
        cells.insert(shorter, *cell);
    }
    cells
}

/// Shared coordinates keep their cells, others are empty.
fn reshape(a: &Array, shape: &Shape) -> Cells {
    let kept = |at: &Vec<i32>| a.cells.get(at).copied().unwrap_or(Cell::Empty);
    shape.extent.coordinates().into_iter().map(|at| (at.clone(), kept(&at))).collect()
}

/// Each cell moved by the amounts.
fn shift(a: &Array, amounts: &[i32]) -> Cells {
    let moved = |at: &Vec<i32>| at.iter().zip(amounts).map(|(position, amount)| position + amount).collect();
    a.cells.iter().map(|(at, cell)| (moved(at), *cell)).collect()
}

/// A with B's cells, empty ones too, at B's coordinates.
fn update(a: &Array, b: &Array) -> Cells {
    let mut cells = a.cells.clone();
    cells.extend(b.cells.iter().map(|(at, cell)| (at.clone(), *cell)));
    cells
}

/// A with B's cells, empty ones too, at that position of the axis.
fn place(a: &Array, b: &Array, axis: usize, position: i32) -> Cells {
    let mut cells = a.cells.clone();
    for (at, cell) in &b.cells {
        let mut longer = at.clone();
        longer.insert(axis, position);
        cells.insert(longer, *cell);
    }
    cells
}

/// A's cells where they are; B's follow along the axis, its first position right after A's last.
fn glue(a: &Array, b: &Array, axis: usize) -> Cells {
    let mut cells = a.cells.clone();
    for (at, cell) in &b.cells {
        let mut behind = at.clone();
        behind[axis] = a.extent.axes[axis].upper + 1 + (at[axis] - b.extent.axes[axis].lower);
        cells.insert(behind, *cell);
    }
    cells
}

/// An operator at each coordinate of A, in row-major order (the order of the map).
fn operate(step: &Step, a: &Array, b: Option<&Array>) -> Result<Cells, (u32, u32)> {
    let mut cells = Cells::new();
    for (at, &cell) in &a.cells {
        let other = b.map_or(Cell::Empty, |b| b.cells[at]);
        let value = operate_at(step, a, cell, other).map_err(|number| (number, a.extent.ordinality(at)))?;
        cells.insert(at.clone(), value);
    }
    Ok(cells)
}

fn operate_at(step: &Step, a: &Array, cell: Cell, other: Cell) -> Result<Cell, u32> {
    let scalar = || a.of.filled(step.scalar()).expect("a scalar that was judged");
    match step.operation {
        Pair => values::pair(step.operator(), cell, other),
        RightScalar => values::pair(step.operator(), cell, scalar()),
        LeftScalar => values::pair(step.operator(), scalar(), cell),
        _ => values::single(step.operator(), cell),
    }
}
