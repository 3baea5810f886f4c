//! Cases for writing JSON: INT cells of every number of digits and about each power of ten, of either sign, empty ones now and then,
//! BOOLEAN and FLOAT arrays, 1 to 6 axes with widths of 1 among them; array numbers that are none; faults in the array asked for and
//! in others; and buffers of exactly the text's length, one less, one more, all others up to there, and much longer.

use super::bundles::{axes_of_widths, bundle_bytes, declare, RawArray, RawAxis};
use super::cells::{cell, filled, no_cell, Mood};
use super::dice::Dice;
use super::faults::damaged;
use super::{said, version, Case, Function};
use crate::paper::bundle::{read, Bundle};
use crate::paper::cell::Type;
use crate::paper::json::text;
use crate::paper::version::Sizes;

/// The bytes of the longest text there is (RMA_JSON).
const LONGEST: usize = 126_986;

/// A few writings from one set of arrays; now and then one of a small text, with a buffer of each length.
pub fn writings(dice: &mut Dice) -> Vec<Case> {
    let sizes = version(dice);
    let count = dice.pick(&[1, 1, 2, 2, 3, 4]);
    let arrays: Vec<RawArray> = (0..count).map(|_| array(dice, sizes)).collect();
    let sound = read(&bundle_bytes(sizes, &arrays)).expect("a sound bundle");
    let mut cases = vec![];
    for _ in 0..1 + dice.index(3) {
        let number = array_number(dice, arrays.len());
        let bundle = bundle(dice, sizes, &arrays, number);
        let right = read(&bundle).map_or_else(|_| length(&sound, number), |bundle| length(&bundle, number));
        if right <= 48 && dice.one_in(120) {
            let of_room = |room: usize| case(dice, &bundle, number, room);
            cases.extend((0..right + 3).map(of_room));
        } else {
            let room = room(dice, right);
            cases.push(case(dice, &bundle, number, room));
        }
    }
    cases
}

fn case(dice: &mut Dice, bundle: &[u8], number: u32, room: usize) -> Case {
    let lent = vec![dice.bytes(room), said(dice)];
    Case { function: Function::WriteJson, shared: vec![bundle.to_vec()], numbers: vec![number], lent }
}

/// One of the arrays, or the number of none: just outside, or one whose lowest bytes are those of a good one.
fn array_number(dice: &mut Dice, count: usize) -> u32 {
    let good = 1 + dice.index(count) as u32;
    if dice.one_in(10) {
        return dice.pick(&[0, count as u32 + 1, u32::MAX, 256 + good, 65_536 + good, (1 << 31) + good]);
    }
    good
}

/// The bundle's bytes: mostly sound, else with faults anywhere, or with bytes that are no cell in another array than that one.
fn bundle(dice: &mut Dice, sizes: Sizes, arrays: &[RawArray], number: u32) -> Vec<u8> {
    let others: Vec<usize> = (0..arrays.len()).filter(|at| at + 1 != number as usize).collect();
    let mut spoilt = arrays.to_vec();
    match (dice.below(24), dice.pick_if_any(&others)) {
        (0..=2, _) => return damaged(dice, sizes, arrays),
        (3, Some(other)) => {
            let at = dice.index(spoilt[other].cells.len());
            spoilt[other].cells[at] = no_cell(dice, spoilt[other].of);
        }
        _ => {}
    }
    bundle_bytes(sizes, &spoilt)
}

/// The length of the text that is asked for; where there is none, a length that might be one.
fn length(bundle: &Bundle, number: u32) -> usize {
    let array = &bundle.array(number).unwrap_or(&bundle.arrays[0]).array;
    match array.of {
        Type::Float => 10 + array.cells.len() * (19 + 2 * array.extent.axes.len()),
        _ => text(array).len(),
    }
}

/// The length of a buffer for a text of that length.
fn room(dice: &mut Dice, right: usize) -> usize {
    match dice.below(24) {
        0..=8 => right,
        9..=11 => right - 1,
        12..=14 => right + 1,
        15 | 16 => right + dice.index(64),
        17 if dice.one_in(8) => LONGEST,
        17 => right + 200 + dice.index(2_000),
        18 => 0,
        19 | 20 => dice.index(12),
        21 | 22 => dice.index(right),
        _ => dice.index(2 * right),
    }
}

/// An array on 1 axis to the most: mostly small, seldom as large as may be.
fn array(dice: &mut Dice, sizes: Sizes) -> RawArray {
    let widths = widths(dice, sizes);
    let mut axes = axes_of_widths(dice, sizes, &widths);
    axes.iter_mut().for_each(|axis| declare(dice, axis));
    let of = dice.pick(&[1, 1, 1, 1, 1, 1, 3, 3, 3, 3, 2, 2]);
    let cells = cells(dice, of, axes.iter().map(RawAxis::width).product());
    RawArray { of, count: axes.len() as u8, axes, cells }
}

/// Widths on 1 axis to the most: mostly small ones, seldom as large as may be.
pub fn widths(dice: &mut Dice, sizes: Sizes) -> Vec<i32> {
    let large: [&[i32]; 8] =
        [&[4_096], &[64, 64], &[16, 16, 16], &[8, 8, 8, 8], &[4_096, 1, 1, 1], &[1, 1, 1, 4_096], &[1, 4_095], &[4, 3, 11, 31]];
    let deep: [&[i32]; 4] = [&[4; 6], &[4_096, 1, 1, 1, 1, 1], &[1, 1, 1, 1, 1, 4_096], &[3, 5, 1, 7, 39]];
    match dice.below(100) {
        0 if sizes.most_axes == 6 && dice.one_in(2) => dice.pick(&deep).to_vec(),
        0 => dice.pick(&large).to_vec(),
        1..=4 => vec![dice.between(5, 60)],
        _ => (0..1 + dice.index(sizes.most_axes)).map(|axis| dice.pick(&[1, 1, 2, 2, 2, 3, 4][..7 - axis])).collect(),
    }
}

/// So many cells of that type: all of them empty, many, few or hardly any; or one and the same INT wherever one is filled.
pub fn cells(dice: &mut Dice, of: u8, count: usize) -> Vec<[u8; 9]> {
    let empty_in = dice.pick(&[1, 2, 6, 6, 6, 40, 40, 40]);
    let same = int(dice);
    let repeats = dice.one_in(10);
    let mut one = |_| match of {
        _ if dice.one_in(empty_in) => [0; 9],
        1 if repeats => filled(same as u64),
        1 => filled(int(dice) as u64),
        3 => filled(dice.below(2)),
        _ => cell(dice, of, Mood::Mixed),
    };
    (0..count).map(&mut one).collect()
}

/// An INT of 1 to 19 digits, or a power of ten or a number next to it, of either sign; or an end of the range, 0 or -1.
fn int(dice: &mut Dice) -> i64 {
    let power = 10i64.pow(dice.index(19) as u32);
    let most = power.checked_mul(10).map_or(i64::MAX, |next| next - 1);
    let of_its_length = power + dice.below((most - power) as u64 + 1) as i64;
    let sign = dice.pick(&[1, -1]);
    match dice.below(10) {
        0 => dice.pick(&[i64::MIN, i64::MAX, i64::MIN + 1, 0, -1]),
        1..=3 => sign * (power + i64::from(dice.between(-1, 1))),
        _ => sign * of_its_length,
    }
}
