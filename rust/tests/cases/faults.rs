//! Faults put into sound bundles and heads: each of the paper's reasons for 1, 2 and 3, and bytes changed, cut or added.
//! Sometimes there are several at once, so that their order is seen.

use super::bundles::{bad_name, bundle_bytes, new_name, RawArray, RawAxis};
use super::cells::no_cell;
use super::dice::Dice;
use crate::paper::version::Sizes;

/// The bundle's bytes, with one fault or more.
pub fn damaged(dice: &mut Dice, sizes: Sizes, arrays: &[RawArray]) -> Vec<u8> {
    let mut arrays = arrays.to_vec();
    let faults = dice.pick(&[1, 1, 1, 1, 2, 2, 3]);
    let of_arrays = dice.index(faults + 1);
    for _ in 0..of_arrays {
        spoil_array(dice, sizes, &mut arrays);
    }
    let mut bytes = bundle_bytes(sizes, &arrays);
    for _ in of_arrays..faults {
        spoil_bytes(dice, &mut bytes);
    }
    bytes
}

/// A fault in one of the arrays: type, axis count, extent or a cell.
pub fn spoil_array(dice: &mut Dice, sizes: Sizes, arrays: &mut [RawArray]) {
    let which = dice.index(arrays.len());
    let array = &mut arrays[which];
    match dice.below(16) {
        0 => array.of = dice.pick(&[0, 4, 255, 128]),
        1 => array.count = dice.pick(&[0, 5, 6, 7, 255, array.count.wrapping_add(1), array.count.wrapping_sub(1)]),
        2..=6 => spoil_extent(dice, sizes, array),
        12 => more_axes(dice, sizes, array),
        7 => {
            array.cells.pop();
        }
        8 => array.cells.push([0; 9]),
        _ if array.cells.is_empty() => {}
        _ => {
            let at = dice.index(array.cells.len());
            let at = dice.pick(&[at, 0, array.cells.len() - 1]);
            array.cells[at] = no_cell(dice, array.of);
        }
    }
}

/// Five to seven axes, the added ones of one position: too many, or as many as version 2 has.
pub fn more_axes(dice: &mut Dice, sizes: Sizes, array: &mut RawArray) {
    let count = dice.pick(&[5, 6, 7, 7]);
    while array.axes.len() < count {
        let name = new_name(dice, sizes, &array.axes);
        array.axes.push(RawAxis { name, lower: 1, upper: 1, lowest: 0, highest: 1 });
    }
    array.count = array.axes.len() as u8;
}

/// A bad name, equal names, a limit out of range or crossed, an extent outside its maximum, or too many cells.
fn spoil_extent(dice: &mut Dice, sizes: Sizes, array: &mut RawArray) {
    if array.axes.is_empty() {
        return;
    }
    let which = dice.index(array.axes.len());
    let first_name = array.axes[0].name;
    let axis = &mut array.axes[which];
    match dice.below(10) {
        0 | 1 => axis.name = bad_name(dice, sizes),
        2 => array.axes.iter_mut().for_each(|axis| axis.name = first_name),
        3 => axis.lower = axis.upper.saturating_add(1),
        4 => axis.lowest = axis.lower.saturating_add(1),
        5 => axis.highest = axis.upper.saturating_sub(1),
        6 => axis.lowest = dice.pick(&[-1_000_001, i32::MIN, i32::MAX]),
        7 => axis.highest = dice.pick(&[1_000_001, i32::MAX, i32::MIN]),
        8 => push_out(dice, axis),
        _ => too_many(dice, array),
    }
}

/// The extent one past an end of the range, with a maximum to match.
fn push_out(dice: &mut Dice, axis: &mut RawAxis) {
    let width = axis.upper.saturating_sub(axis.lower);
    if dice.one_in(2) {
        (axis.lower, axis.upper) = (-1_000_001, -1_000_001 + width);
        axis.lowest = dice.pick(&[-1_000_001, -1_000_000, i32::MIN]);
    } else {
        (axis.lower, axis.upper) = (1_000_001 - width, 1_000_001);
        axis.highest = dice.pick(&[1_000_001, 1_000_000, i32::MAX]);
    }
}

/// Over 4,096 cells: just so, or so many that a product wraps.
fn too_many(dice: &mut Dice, array: &mut RawArray) {
    let width = dice.pick(&[4_097, 4_097, 65_536, 2_000_001, 1 << 20, 8_192, 4_099]);
    let others = dice.one_in(2);
    for (at, axis) in array.axes.iter_mut().enumerate() {
        if at == 0 || others {
            (axis.lowest, axis.highest) = (-1_000_000, 1_000_000);
            axis.lower = -1_000_000;
            axis.upper = axis.lower + width - 1;
        }
    }
    if array.axes.len() == 1 && width == 4_097 && dice.one_in(4) {
        array.cells = vec![[0; 9]; 4_097];
    }
}

/// A byte changed, bytes cut or added, count, version or mark changed.
pub fn spoil_bytes(dice: &mut Dice, bytes: &mut Vec<u8>) {
    let length = bytes.len();
    match dice.below(12) {
        10 | 11 if length > 5 => {
            let version = dice.pick(&[0, 0, 3, 3, 257, 257, 258, 258, 1, 2, 256, 512, 513, 65_535]);
            bytes[3..5].copy_from_slice(&u16::to_le_bytes(version));
        }
        0 | 1 if length > 0 => change_byte(dice, bytes),
        2 if length > 5 => bytes[5] = dice.pick(&[0, 5, 255, bytes[5].wrapping_add(1), bytes[5].wrapping_sub(1)]),
        3 if length > 5 => bytes[dice.index(5)] ^= 1 << dice.index(8),
        4 => bytes.truncate(dice.index(length.min(40) + 1)),
        5 => bytes.truncate(dice.index(length + 1)),
        6 => bytes.truncate(length.saturating_sub(1 + dice.index(10))),
        7 => bytes.extend(vec![0; 1 + dice.index(10)]),
        8 => {
            let added = 1 + dice.index(130);
            let more = dice.bytes(added);
            bytes.extend(more);
        }
        _ => bytes.push(dice.number() as u8),
    }
}

/// One byte set to another value, oftener near the front, where the heads are.
pub fn change_byte(dice: &mut Dice, bytes: &mut [u8]) {
    let near = bytes.len().min(80);
    let anywhere = dice.index(bytes.len());
    let at = dice.pick(&[anywhere, anywhere % near]);
    bytes[at] = match dice.below(4) {
        0 => dice.number() as u8,
        1 => bytes[at] ^ (1 << dice.below(8)),
        2 => bytes[at].wrapping_add(1),
        _ => bytes[at].wrapping_sub(1),
    };
}
