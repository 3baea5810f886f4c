//! The bundle, read in the order of the paper: the first six bytes; for each array type, axis count and axis bytes (1),
//! extent (2), all its cell bytes present (1), cells (3); leftover bytes last. Its version, 1 or 2, stands in the first six bytes.

use super::array::{Array, Declared, Shape};
use super::bytes::{signed, Reader};
use super::cell::{Cell, Type, CELL_BYTES};
use super::extent::{in_range, name_bytes, name_in, Axis, Extent, Proposed};
use super::refusal::{refused, refused_at, Refusal};
use super::version::Sizes;

/// A bundle that was read: the sizes of its version, and its arrays.
#[derive(Clone, Debug)]
pub struct Bundle {
    pub sizes: Sizes,
    pub arrays: Vec<Declared>,
}

impl Bundle {
    /// The array of that number, or 4 with the number asked for as the place.
    pub fn array(&self, number: u32) -> Result<&Declared, Refusal> {
        let index = (number as usize).checked_sub(1).ok_or(refused(4, number))?;
        self.arrays.get(index).ok_or(refused(4, number))
    }
}

/// What the bytes of an axis say: its name and limits, and the limits of its maximum.
pub struct AxisBytes {
    pub axis: Proposed,
    pub maximum: (i32, i32),
}

/// Name, lower, upper, maximum lower, maximum upper.
pub fn axis_in(sizes: Sizes, bytes: &[u8]) -> AxisBytes {
    let (name, limits) = bytes.split_at(sizes.name);
    let limit = |index: usize| signed(&limits[4 * index..]);
    let axis = Proposed { name: name_in(name), lower: i64::from(limit(0)), upper: i64::from(limit(1)) };
    AxisBytes { axis, maximum: (limit(2), limit(3)) }
}

/// The axis as it stands in a bundle or a head.
pub fn axis_bytes(sizes: Sizes, axis: &Axis, maximum: (i32, i32)) -> Vec<u8> {
    let limits = [axis.lower, axis.upper, maximum.0, maximum.1];
    name_bytes(sizes, &axis.name).into_iter().chain(limits.into_iter().flat_map(i32::to_le_bytes)).collect()
}

/// The bundle in these bytes, or its refusal.
pub fn read(bytes: &[u8]) -> Result<Bundle, Refusal> {
    let mut reader = Reader::new(bytes);
    let (sizes, count) = first_six(&mut reader).ok_or(refused(1, 0))?;
    let mut arrays = vec![];
    for place in 1..=count {
        arrays.push(read_array(&mut reader, sizes, place)?);
    }
    if reader.all_read() {
        Ok(Bundle { sizes, arrays })
    } else {
        Err(refused(1, 0))
    }
}

/// Mark, a version that is 1 or 2, and a count of 1 to 4.
fn first_six(reader: &mut Reader) -> Option<(Sizes, u32)> {
    let mark = reader.take(3)?;
    let version = reader.take(2)?;
    let count = u32::from(reader.byte()?);
    let sizes = Sizes::of_version(u32::from(u16::from_le_bytes([version[0], version[1]])))?;
    (mark == b"RMA" && (1..=4).contains(&count)).then_some((sizes, count))
}

fn read_array(reader: &mut Reader, sizes: Sizes, place: u32) -> Result<Declared, Refusal> {
    let (of, axes) = read_axes(reader, sizes).ok_or(refused(1, place))?;
    let (extent, maximum) = judge_extent(&axes).ok_or(refused(2, place))?;
    let cells_begin = reader.at;
    let array = read_cells(reader, Shape { of, extent }, place)?;
    Ok(Declared { array, maximum, cells_begin })
}

fn read_axes(reader: &mut Reader, sizes: Sizes) -> Option<(Type, Vec<AxisBytes>)> {
    let of = Type::of_byte(reader.byte()?)?;
    let count = usize::from(reader.byte()?);
    if !sizes.fits_axes(count) {
        return None;
    }
    let axes = reader.take(count * sizes.axis)?;
    Some((of, axes.chunks(sizes.axis).map(|bytes| axis_in(sizes, bytes)).collect()))
}

/// The extent with its maximum, if the extent is sound, the maximum in range, and the extent inside it.
pub fn judge_extent(axes: &[AxisBytes]) -> Option<(Extent, Vec<(i32, i32)>)> {
    let proposed: Vec<Proposed> = axes.iter().map(|bytes| bytes.axis.clone()).collect();
    let extent = Extent::judged(&proposed)?;
    let maximum: Vec<(i32, i32)> = axes.iter().map(|bytes| bytes.maximum).collect();
    let fits = extent.axes.iter().zip(&maximum).all(|(axis, &(lowest, highest))| {
        in_range(i64::from(lowest)) && in_range(i64::from(highest)) && lowest <= axis.lower && axis.upper <= highest
    });
    fits.then_some((extent, maximum))
}

/// First whether all cell bytes are present (1), then each cell (3).
pub fn read_cells(reader: &mut Reader, shape: Shape, place: u32) -> Result<Array, Refusal> {
    let length = shape.extent.cells() as usize * CELL_BYTES;
    let bytes = reader.take(length).ok_or(refused(1, place))?;
    let mut cells: Vec<Cell> = vec![];
    for (ordinality, nine) in (1..).zip(bytes.chunks(CELL_BYTES)) {
        cells.push(shape.of.cell(nine).ok_or(refused_at(3, place, ordinality))?);
    }
    Ok(Array::of_cells(shape, cells))
}
