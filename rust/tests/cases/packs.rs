//! Cases for packing: versions that are told, sound and unsound heads, cells short, left over and bad, output buffers of every
//! length; and bundles that were packed and are then read.

use super::answers::paper_answers;
use super::bundles::{any_mood, arrays, RawArray};
use super::dice::Dice;
use super::faults::{change_byte, more_axes, spoil_array};
use super::{lent, said, told, version, Case, Function};
use crate::paper::version::Sizes;

/// Type, axis count and slots for the most axes; slots past the last axis hold anything.
pub fn head(dice: &mut Dice, sizes: Sizes, array: &RawArray) -> Vec<u8> {
    let mut head = vec![array.of, array.count];
    head.extend(array.axis_bytes(sizes));
    head.truncate(sizes.head());
    let rest = sizes.head() - head.len();
    let anything = if dice.one_in(2) { dice.bytes(rest) } else { vec![0; rest] };
    head.extend(anything);
    head
}

/// A pack case, followed by reading what was packed.
pub fn packs(dice: &mut Dice) -> Vec<Case> {
    let sizes = version(dice);
    let mut arrays = arrays(dice, sizes, any_mood);
    let right = 6 + arrays.iter().map(|array| 2 + sizes.axis * array.axes.len() + 9 * array.cells.len()).sum::<usize>();
    if dice.one_in(3) {
        for _ in 0..1 + dice.index(2) {
            spoil_array(dice, sizes, &mut arrays);
        }
    }
    if dice.one_in(10) {
        let which = dice.index(arrays.len());
        more_axes(dice, sizes, &mut arrays[which]);
    }
    let mut heads: Vec<u8> = arrays.iter().flat_map(|array| head(dice, sizes, array)).collect();
    let mut cells: Vec<u8> = arrays.iter().flat_map(RawArray::cell_bytes).collect();
    if dice.one_in(6) {
        spoil_lent(dice, sizes, &mut heads, &mut cells);
    }
    let out = lent(dice, right);
    let numbers = vec![told(dice, sizes)];
    let case = Case { function: Function::Pack, shared: vec![heads, cells], numbers, lent: vec![out, said(dice)] };
    let answer = paper_answers(&case);
    let mut cases = vec![case];
    if let (0, Some(length), true) = (answer.number, answer.lent[1].first_chunk(), dice.one_in(3)) {
        let bundle = answer.lent[0][..u32::from_le_bytes(*length) as usize].to_vec();
        cases.push(Case { function: Function::Read, shared: vec![bundle], numbers: vec![], lent: vec![said(dice)] });
    }
    cases
}

/// Heads of a wrong length, cells cut, added or changed.
fn spoil_lent(dice: &mut Dice, sizes: Sizes, heads: &mut Vec<u8>, cells: &mut Vec<u8>) {
    match dice.below(8) {
        0 => heads.truncate(dice.index(heads.len() + 1)),
        1 => heads.push(0),
        2 => {
            let five = heads.repeat(5);
            *heads = five[..sizes.head() * 5].to_vec();
        }
        3 => change_byte(dice, heads),
        4 => cells.truncate(cells.len().saturating_sub(1 + dice.index(12))),
        5 => cells.extend(vec![0; 1 + dice.index(12)]),
        6 if !cells.is_empty() => change_byte(dice, cells),
        _ => heads.truncate(heads.len() - sizes.head()),
    }
}
