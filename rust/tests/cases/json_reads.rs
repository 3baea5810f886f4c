//! Cases for reading JSON: an array of any type and extent, told by a head that is mostly sound, and texts for it (`json_texts`), one or
//! a few; of small texts now and then all that they are cut to; cell buffers of exactly the cells' length, shorter and longer; versions
//! that are told; and the text that was written for an array, read again.

use super::bundles::{axes_of_widths, declare, RawArray, RawAxis};
use super::dice::Dice;
use super::faults::{more_axes, spoil_array};
use super::json::{cells, widths};
use super::json_texts::text;
use super::packs::head;
use super::{lent, other_version, said, told, version, Case, Function};
use crate::paper::version::{Sizes, ONE};

/// A few readings into one array.
pub fn reads(dice: &mut Dice) -> Vec<Case> {
    let sizes = version(dice);
    let array = array(dice, sizes);
    let widths: Vec<usize> = array.axes.iter().map(RawAxis::width).collect();
    let mut cases = vec![];
    for _ in 0..1 + dice.index(3) {
        let text = text(dice, array.of, &widths, &array.cells);
        let cuts = if text.len() <= 48 && dice.one_in(300) { 0..text.len() + 1 } else { text.len()..text.len() + 1 };
        for length in cuts {
            cases.push(case(dice, sizes, &array, &text[..length]));
        }
    }
    cases
}

fn case(dice: &mut Dice, sizes: Sizes, array: &RawArray, text: &[u8]) -> Case {
    let right = 9 * array.cells.len();
    let head = named(dice, sizes, array);
    let version = if dice.one_in(4) { told(dice, sizes) } else { sizes.version };
    let cells = if dice.one_in(40) { dice.bytes(right + 1) } else { lent(dice, right) };
    let lent = vec![cells, said(dice)];
    Case { function: Function::ReadJson, shared: vec![head, text.to_vec()], numbers: vec![version], lent }
}

/// A sound array on 1 axis to the most, its cells those that a text is made from; a FLOAT array's are INT.
fn array(dice: &mut Dice, sizes: Sizes) -> RawArray {
    let axes = {
        let widths = widths(dice, sizes);
        axes_of_widths(dice, sizes, &widths)
    };
    let of = if dice.one_in(18) { 2 } else { dice.pick(&[1, 1, 1, 3, 3]) };
    let cells = cells(dice, if of == 2 { 1 } else { of }, axes.iter().map(RawAxis::width).product());
    RawArray { of, count: axes.len() as u8, axes, cells }
}

/// Its head: maxima may hold anything; now and then type, axis count or extent are bad, a name was too long for version 1, or the head has
/// another length.
fn named(dice: &mut Dice, sizes: Sizes, array: &RawArray) -> Vec<u8> {
    let mut array = array.clone();
    for axis in &mut array.axes {
        declare(dice, axis);
        if dice.one_in(6) {
            (axis.lowest, axis.highest) = (dice.extreme(), dice.extreme());
        }
    }
    match dice.below(if array.of == 2 { 9 } else { 40 }) {
        0..=2 => spoil_array(dice, sizes, std::slice::from_mut(&mut array)),
        3 => more_axes(dice, sizes, &mut array),
        4 if sizes == ONE => {
            let which = dice.index(array.axes.len());
            array.axes[which].name = dice.pick(&[[0; 16], [0xFF; 16]]);
        }
        _ => {}
    }
    let mut head = head(dice, sizes, &array);
    match dice.below(120) {
        0 => head.truncate(dice.index(sizes.head())),
        1 => head.push(0),
        2 | 3 => head.resize(other_version(sizes).head(), 0),
        _ => {}
    }
    head
}
