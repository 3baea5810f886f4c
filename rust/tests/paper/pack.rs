//! Packing in the version that is told: heads, cells and an output buffer are tested as reading does, then 14. What is written is
//! made from the arrays themselves: the first six bytes, and for each array its type, axis count, axes, and cells in row-major order.

use super::array::{Declared, Shape};
use super::bundle::{axis_bytes, axis_in, judge_extent, read_cells, AxisBytes, Bundle};
use super::bytes::Reader;
use super::cell::Type;
use super::refusal::{refused, Refusal};
use super::version::Sizes;

/// Type and axes in a head's bytes, if its type and axis count are good: type byte, axis count byte, slots for the most axes.
pub fn head_in(sizes: Sizes, head: &[u8]) -> Option<(Type, Vec<AxisBytes>)> {
    let of = Type::of_byte(head[0])?;
    let count = usize::from(head[1]);
    let slots = head[2..].chunks(sizes.axis);
    sizes.fits_axes(count).then(|| (of, slots.take(count).map(|slot| axis_in(sizes, slot)).collect()))
}

/// The bundle's length; `out` then begins with the bundle. A refusal leaves `out` as it is.
pub fn pack(version: u32, heads: &[u8], cells: &[u8], out: &mut [u8]) -> Result<u32, Refusal> {
    let sizes = Sizes::of_version(version).ok_or(refused(1, 0))?;
    let bundle = write(&judge(sizes, heads, cells)?);
    let room = out.get_mut(..bundle.len()).ok_or(refused(14, 0))?;
    room.copy_from_slice(&bundle);
    Ok(bundle.len() as u32)
}

/// The arrays lent for packing, or the refusal that reading would give.
fn judge(sizes: Sizes, heads: &[u8], cells: &[u8]) -> Result<Bundle, Refusal> {
    if !heads.len().is_multiple_of(sizes.head()) || !(1..=4).contains(&(heads.len() / sizes.head())) {
        return Err(refused(1, 0));
    }
    let mut reader = Reader::new(cells);
    let mut arrays = vec![];
    for (place, head) in (1..).zip(heads.chunks(sizes.head())) {
        let (of, axes) = head_in(sizes, head).ok_or(refused(1, place))?;
        let (extent, maximum) = judge_extent(&axes).ok_or(refused(2, place))?;
        let array = read_cells(&mut reader, Shape { of, extent }, place)?;
        arrays.push(Declared { array, maximum, cells_begin: 0 });
    }
    if reader.all_read() {
        Ok(Bundle { sizes, arrays })
    } else {
        Err(refused(1, 0))
    }
}

/// The bytes of a bundle.
pub fn write(bundle: &Bundle) -> Vec<u8> {
    let mut bytes = b"RMA".to_vec();
    bytes.extend((bundle.sizes.version as u16).to_le_bytes());
    bytes.push(bundle.arrays.len() as u8);
    for Declared { array, maximum, .. } in &bundle.arrays {
        bytes.push(array.of.byte());
        bytes.push(array.extent.axes.len() as u8);
        let axes = array.extent.axes.iter().zip(maximum);
        axes.for_each(|(axis, &maximum)| bytes.extend(axis_bytes(bundle.sizes, axis, maximum)));
        bytes.extend(array.cell_bytes());
    }
    bytes
}
