//! JSON read into an array whose type and extent are told, request [5] of paper 02: the report's F the other way round. It goes down the
//! axes, the first one outermost, and puts each value of `data` down by the coordinate that it went down by. The order of refusals, all
//! at place 0, is 1 (version, head), 2 (extent), 7 (FLOAT), then for the text 15 and 16 with a byte place, then 14.

use super::array::{Array, Cells};
use super::cell::{Cell, Type, CELL_BYTES};
use super::extent::{Extent, Proposed};
use super::json_text::{is_data, members, Kind, Number, Value};
use super::pack::head_in;
use super::refusal::{refused, refused_at, Refusal};
use super::version::Sizes;

/// The number of cells; `cells` then begins with them. A refusal leaves `cells` as it is.
pub fn read(version: u32, head: &[u8], text: &[u8], cells: &mut [u8]) -> Result<u32, Refusal> {
    let (of, extent) = named(version, head)?;
    let members = members(text).map_err(|fault| refused_at(15, 0, ordinality(fault.at)))?;
    let data = members.iter().find(|member| is_data(&member.name)).expect("an object without `data` is a fault");
    let array = fitted(of, &extent, &data.value).map_err(|misfit| refused_at(16, 0, ordinality(misfit.at)))?;
    let bytes = array.cell_bytes();
    cells.get_mut(..bytes.len()).ok_or(refused(14, 0))?.copy_from_slice(&bytes);
    Ok((bytes.len() / CELL_BYTES) as u32)
}

/// The type and extent that a head names, which is not FLOAT. Its maxima aren't looked at.
pub fn named(version: u32, head: &[u8]) -> Result<(Type, Extent), Refusal> {
    let sizes = Sizes::of_version(version).ok_or(refused(1, 0))?;
    let whole = Some(head).filter(|head| head.len() == sizes.head());
    let (of, axes) = whole.and_then(|head| head_in(sizes, head)).ok_or(refused(1, 0))?;
    let proposed: Vec<Proposed> = axes.into_iter().map(|axis| axis.axis).collect();
    let extent = Extent::judged(&proposed).ok_or(refused(2, 0))?;
    match of {
        Type::Float => Err(refused(7, 0)),
        Type::Int | Type::Boolean => Ok((of, extent)),
    }
}

/// A byte place as the four bytes of an ordinality tell it: it never wraps.
pub fn ordinality(place: u64) -> u32 {
    u32::try_from(place).unwrap_or(u32::MAX)
}

/// The first byte of the first value or bracket that doesn't fit, and how it doesn't.
#[derive(Clone, Copy, Debug, PartialEq, Eq)]
pub struct Misfit {
    pub at: u64,
    pub why: Unfit,
}

#[derive(Clone, Copy, Debug, PartialEq, Eq)]
pub enum Unfit {
    /// A closing bracket, where one more cell, or one more bracket, is due.
    Missing,
    /// A value or a bracket, where the closing bracket is due.
    Surplus,
    /// Something else, where a bracket is due.
    NoBracket,
    /// Something else, where a cell of that type is due.
    NoCell,
}

/// The array that `data` is, of that type and extent.
pub fn fitted(of: Type, extent: &Extent, data: &Value) -> Result<Array, Misfit> {
    let mut cells = Cells::new();
    fit(of, extent, data, &[], &mut cells)?;
    Ok(Array { of, extent: extent.clone(), cells })
}

/// Fits a value to the part of the extent that has these positions on its first axes: a cell, where all have one; else brackets with a
/// value for each position of the next axis, from its lower limit to its upper one. Places grow as it goes, so the first misfit is the
/// lowest.
fn fit(of: Type, extent: &Extent, value: &Value, positions: &[i32], cells: &mut Cells) -> Result<(), Misfit> {
    let Some(axis) = extent.axes.get(positions.len()) else {
        let cell = cell(of, &value.kind).ok_or(Misfit { at: value.at, why: Unfit::NoCell })?;
        cells.insert(positions.to_vec(), cell);
        return Ok(());
    };
    let Kind::Array(values, close) = &value.kind else {
        return Err(Misfit { at: value.at, why: Unfit::NoBracket });
    };
    let mut left = values.iter();
    for position in axis.lower..=axis.upper {
        let value = left.next().ok_or(Misfit { at: *close, why: Unfit::Missing })?;
        fit(of, extent, value, &[positions, &[position]].concat(), cells)?;
    }
    left.next().map_or(Ok(()), |surplus| Err(Misfit { at: surplus.at, why: Unfit::Surplus }))
}

/// The cell that a value is in an array of that type: `null` in any; INT whole, in range, without fraction or exponent.
fn cell(of: Type, kind: &Kind) -> Option<Cell> {
    match (of, kind) {
        (_, Kind::Null) => Some(Cell::Empty),
        (Type::Int, Kind::Number(Number::Whole(number))) => Some(Cell::Int(*number)),
        (Type::Boolean, Kind::Truth(truth)) => Some(Cell::Truth(*truth)),
        _ => None,
    }
}
