//! Arrays packed as a bundle.

use crate::call;
use crate::cell::{Cell, CELL};
use crate::extent::Head;
use crate::refusal::Refusal;
use crate::version::Version;

/// Packs one to four arrays as a bundle of that version, the cells of all of them in turn, and answers the bundle's length. `out` then
/// begins with the bundle; the rest stays, and a refusal leaves it untouched.
///
/// Refused as reading would refuse the bundle (1 also for no array or a fifth; for more axes than the version has; for cells missing, or
/// left over; 2 also for a name of more letters than the version has; 3 for a cell of another type than its array's); then 14 where
/// `out` is too short.
///
/// A branch's bundle of version 1, packed anew in version 2:
///
/// ```
/// use rovgrint::{pack, Axis, Bundle, Cell, Head, Kind, Version};
///
/// let mut bytes = [0; 50];
/// pack(Version::One, &[Head { kind: Kind::Int, axes: vec![Axis::new("location", 1, 2)] }], &[4, 5].map(Cell::Int), &mut bytes)?;
/// let old = Bundle::read(&bytes)?;
///
/// let mut head = old.array(1)?.head().clone();
/// head.axes[0].name = "location_of_rest".to_string();
/// let cells: Vec<Cell> = old.array(1)?.cells().collect();
/// let mut out = [0; 58]; // eight bytes more an axis
/// assert_eq!(pack(Version::Two, &[head], &cells, &mut out)?, 58);
/// assert_eq!(Bundle::read(&out)?.array(1)?.axes()[0].name, "location_of_rest");
/// # Ok::<(), rovgrint::Refusal>(())
/// ```
pub fn pack(version: Version, heads: &[Head], cells: &[Cell], out: &mut [u8]) -> Result<usize, Refusal> {
    let head_bytes: Vec<u8> = heads.iter().flat_map(|head| head.to_bytes(version)).collect();
    let said = call::pack(version, &head_bytes, &cell_bytes(heads, cells), out)?;
    Ok(said.number(0) as usize)
}

/// The cells' bytes, each in the type of the array that it falls to. Cells left over are empty ones: the engine counts them only.
fn cell_bytes(heads: &[Head], cells: &[Cell]) -> Vec<u8> {
    let mut bytes = Vec::with_capacity(cells.len() * CELL);
    let mut left = cells;
    for head in heads {
        let (own, rest) = left.split_at(head.cells().min(left.len()));
        bytes.extend(own.iter().flat_map(|cell| cell.to_bytes(head.kind)));
        left = rest;
    }
    bytes.resize(cells.len() * CELL, 0);
    bytes
}
