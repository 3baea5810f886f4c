//! A glued array read without being built: which side owns the cell at an ordinality, and which part of that side's cell
//! buffer runs from there up to where the other side begins (or the end). Cells aren't judged, nor maxima looked at. The version of
//! both heads is told.

use super::array::Shape;
use super::cell::CELL_BYTES;
use super::extent::{Coordinate, Extent, Proposed};
use super::judge::{glue_differences, glued_extent};
use super::pack::head_in;
use super::refusal::{refused, refused_at, Refusal};
use super::version::Sizes;

/// A part of one side's cell buffer.
#[derive(Clone, Copy, Debug, PartialEq, Eq)]
pub struct Part {
    pub side: u32,
    pub from: u32,
    pub up_to: u32,
}

/// The stretch from that ordinality of left glued with right.
pub fn stretch(version: u32, left: (&[u8], &[u8]), right: (&[u8], &[u8]), axis: u32, ordinality: u32) -> Result<Part, Refusal> {
    let sizes = Sizes::of_version(version).ok_or(refused(1, 0))?;
    let left = side(sizes, left, 1)?;
    let right = side(sizes, right, 2)?;
    if axis == 0 || axis as usize > left.extent.axes.len() {
        return Err(refused(5, 0));
    }
    let axis = axis as usize - 1;
    if left.of != right.of {
        return Err(refused(7, 0));
    }
    if let Some(&first) = glue_differences(&left.extent, &right.extent, axis).first() {
        return Err(refused_at(8, 0, first));
    }
    let glued = glued_extent(&left.extent, &right.extent, axis).ok_or(refused(9, 0))?;
    let owners: Vec<Owner> = glued.coordinates().iter().map(|at| owner(at, &left.extent, &right.extent, axis)).collect();
    if ordinality == 0 || ordinality as usize > owners.len() {
        return Err(refused(6, 0));
    }
    Ok(part_from(&owners[ordinality as usize - 1..]))
}

/// One side judged: head (1), extent (2), then a buffer of exactly nine bytes a cell (1).
fn side(sizes: Sizes, (head, cells): (&[u8], &[u8]), place: u32) -> Result<Shape, Refusal> {
    if head.len() != sizes.head() {
        return Err(refused(1, place));
    }
    let (of, axes) = head_in(sizes, head).ok_or(refused(1, place))?;
    let proposed: Vec<Proposed> = axes.into_iter().map(|axis| axis.axis).collect();
    let extent = Extent::judged(&proposed).ok_or(refused(2, place))?;
    if cells.len() != CELL_BYTES * extent.cells() as usize {
        return Err(refused(1, place));
    }
    Ok(Shape { of, extent })
}

/// The side that a glued cell comes from, and its ordinality there.
struct Owner {
    side: u32,
    ordinality: u32,
}

fn owner(at: &Coordinate, left: &Extent, right: &Extent, axis: usize) -> Owner {
    if left.holds(at) {
        return Owner { side: 1, ordinality: left.ordinality(at) };
    }
    let mut there = at.clone();
    there[axis] = right.axes[axis].lower + (at[axis] - left.axes[axis].upper - 1);
    Owner { side: 2, ordinality: right.ordinality(&there) }
}

/// From the first of these cells up to where the other side begins.
fn part_from(owners: &[Owner]) -> Part {
    let first = &owners[0];
    let run = owners.iter().take_while(|owner| owner.side == first.side).last().unwrap_or(first);
    let byte = |ordinality: u32| ordinality * CELL_BYTES as u32;
    Part { side: first.side, from: byte(first.ordinality - 1), up_to: byte(run.ordinality) }
}
