//! Cases for the questions to a bundle: read, array, references, walks and totals.
//! Whole walks are chained: each call gets the place as the last one left it.

use super::answers::paper_answers;
use super::bundles::{any_mood, arrays, bundle_bytes, RawArray, RawAxis};
use super::dice::Dice;
use super::faults::damaged;
use super::{said, version, Case, Function};
use crate::paper::version::Sizes;

/// Arrays, and the bytes of their bundle: sound but for one in `faulty`.
fn bundle(dice: &mut Dice, sizes: Sizes, faulty: u64) -> (Vec<RawArray>, Vec<u8>) {
    let arrays = arrays(dice, sizes, any_mood);
    let bytes = if dice.one_in(faulty) { damaged(dice, sizes, &arrays) } else { bundle_bytes(sizes, &arrays) };
    (arrays, bytes)
}

pub fn read(dice: &mut Dice) -> Case {
    let sizes = version(dice);
    let (arrays, mut bytes) = bundle(dice, sizes, 3);
    match dice.below(4) {
        0 => bytes = damaged(dice, sizes, &arrays),
        1 if dice.one_in(20) => {
            let length = dice.index(40);
            bytes = dice.bytes(length);
        }
        _ => {}
    }
    Case { function: Function::Read, shared: vec![bytes], numbers: vec![], lent: vec![said(dice)] }
}

pub fn array(dice: &mut Dice) -> Case {
    let sizes = version(dice);
    let (arrays, bytes) = bundle(dice, sizes, 5);
    let array = dice.array(arrays.len());
    Case { function: Function::Array, shared: vec![bytes], numbers: vec![array], lent: vec![said(dice)] }
}

/// A few references to one bundle.
pub fn refers(dice: &mut Dice) -> Vec<Case> {
    let sizes = version(dice);
    let (arrays, bytes) = bundle(dice, sizes, 6);
    let mut cases = vec![];
    for _ in 0..1 + dice.index(4) {
        let array = dice.array(arrays.len());
        let asked = &arrays[(array as usize).clamp(1, arrays.len()) - 1];
        let coordinate = coordinate(dice, asked);
        let shared = vec![bytes.clone(), coordinate];
        cases.push(Case { function: Function::Refer, shared, numbers: vec![array], lent: vec![said(dice)] });
    }
    cases
}

/// Inside the extent, inside the maximum only, just beyond it, or anywhere; sometimes of a wrong length.
fn coordinate(dice: &mut Dice, array: &RawArray) -> Vec<u8> {
    let mut positions: Vec<i32> = array.axes.iter().map(|axis| dice.between(axis.lower, axis.upper)).collect();
    for (axis, position) in array.axes.iter().zip(&mut positions) {
        if dice.one_in(4) {
            *position = odd_position(dice, axis);
        }
    }
    match dice.below(16) {
        0 => {
            positions.pop();
        }
        1 => positions.push(dice.between(-1, 1)),
        2 | 3 => positions.resize(dice.index(9), 0),
        _ => {}
    }
    let mut bytes: Vec<u8> = positions.iter().flat_map(|position| position.to_le_bytes()).collect();
    if dice.one_in(12) {
        bytes.resize(dice.index(32), 0);
    }
    bytes
}

fn odd_position(dice: &mut Dice, axis: &RawAxis) -> i32 {
    let extreme = dice.extreme();
    let in_maximum = dice.between(axis.lowest, axis.highest);
    let edges = [axis.lower, axis.upper, axis.lowest, axis.highest, axis.lower - 1, axis.upper + 1];
    match dice.below(8) {
        0 => dice.pick(&[axis.lowest - 1, axis.highest + 1]),
        1 => extreme,
        2..=4 => in_maximum,
        _ => dice.pick(&edges),
    }
}

/// One step of a walk from a place of any kind, or a small array walked whole.
pub fn walks(dice: &mut Dice) -> Vec<Case> {
    let sizes = version(dice);
    let (arrays, bytes) = bundle(dice, sizes, 6);
    let array = dice.array(arrays.len());
    let cells = arrays[(array as usize).clamp(1, arrays.len()) - 1].cells.len() as u32;
    let whole = cells <= 24 && dice.one_in(8);
    let inside = dice.index(cells as usize + 1) as u32;
    let from = dice.pick(&[0, 1, inside, inside, inside, cells, cells + 1, cells + 2, u32::MAX, u32::MAX - 1, 1 << 31]);
    let mut place = if whole { 1u32 } else { from }.to_le_bytes().to_vec();
    let length = dice.pick(&[4, 4, 4, 4, 4, 4, 5, 8, 11]);
    place.resize(if dice.one_in(14) { dice.index(4) } else { length }, 0xA5);
    let mut cases = vec![];
    for _ in 0..if whole { cells + 2 } else { 1 } {
        let lent = vec![place, said(dice)];
        let case = Case { function: Function::Walk, shared: vec![bytes.clone()], numbers: vec![array], lent };
        place = paper_answers(&case).lent.swap_remove(0);
        cases.push(case);
    }
    cases
}

/// One total, or every total of one array.
pub fn totals(dice: &mut Dice) -> Vec<Case> {
    let sizes = version(dice);
    let (mut arrays, mut bytes) = bundle(dice, sizes, 6);
    if dice.one_in(3) {
        balance(dice, &mut arrays);
        bytes = bundle_bytes(sizes, &arrays);
    }
    let array = dice.array(arrays.len());
    let odd = dice.pick(&[0, 7, 8, u32::MAX, 256 + 5]);
    let one = dice.pick(&[odd, 1, 1, 2, 2, 3, 3, 3, 4, 4, 4, 5, 5, 5, 5, 5, 6, 6, 6, 6]);
    let which: Vec<u32> = if dice.one_in(40) { (0..=8).collect() } else { vec![one] };
    let of_which =
        |which: u32| Case { function: Function::Total, shared: vec![bytes.clone()], numbers: vec![array, which], lent: vec![said(dice)] };
    which.into_iter().map(of_which).collect()
}

/// INT arrays filled so that their sum leaves the range on the way and ends at its very end, or one past it.
fn balance(dice: &mut Dice, arrays: &mut [RawArray]) {
    for array in arrays.iter_mut().filter(|array| array.of == 1) {
        let run: &[i64] = match dice.below(6) {
            0 => &[i64::MAX, 1, -1],
            1 => &[i64::MAX, 1],
            2 => &[i64::MIN, -1, 1],
            3 => &[i64::MIN, -1],
            4 => &[i64::MAX, i64::MAX, i64::MIN, i64::MIN, 1, 1],
            _ => &[i64::MIN, i64::MIN, i64::MAX, 1],
        };
        for (at, cell) in array.cells.iter_mut().enumerate() {
            *cell = run.get(at).map_or([0; 9], |&number| super::cells::filled(number as u64));
        }
    }
}
