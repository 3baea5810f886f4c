//! Cases for stretches: two sides that mostly fit on one axis, every axis and ordinality of small ones, and sides that
//! differ in axis count, names, limits or type, or are lent with short or long buffers; and versions that are told.

use super::apart::{another, change, late, part, Kind};
use super::bundles::{any_mood, arrays, deep_arrays, good_name, nearly_same, new_name, RawArray, RawAxis};
use super::cells::Mood;
use super::dice::Dice;
use super::faults::{more_axes, spoil_array};
use super::packs::head;
use super::{other_version, said, told, version, Case, Function};
use crate::paper::version::{Sizes, ONE, TWO};

/// One question about two sides, or all questions about small ones.
pub fn stretches(dice: &mut Dice) -> Vec<Case> {
    let apart = dice.one_in(2);
    let sizes = if apart { dice.pick(&[ONE, TWO, TWO]) } else { version(dice) };
    let (left, right, axis) = if apart { sides_apart(dice, sizes) } else { sides(dice, sizes) };
    let faulty = !apart || dice.one_in(3);
    let shared = lent_sides(dice, sizes, &left, &right, faulty);
    let cells = (left.cells.len() + right.cells.len()) as u32;
    if cells <= 16 && dice.one_in(if apart { 64 } else { 20 }) {
        let (first, last) = if dice.one_in(4) { (0, left.axes.len() as u32 + 1) } else { (axis as u32 + 1, axis as u32 + 1) };
        let axes = first..=last;
        let questions = axes.flat_map(|axis| (0..=cells + 1).map(move |ordinality| vec![sizes.version, axis, ordinality]));
        let case = |numbers: Vec<u32>| Case { function: Function::Stretch, shared: shared.clone(), numbers, lent: vec![said(dice)] };
        return questions.map(case).collect();
    }
    let inside = 1 + dice.index(cells as usize) as u32;
    let odd = dice.pick(&[0, 1, cells, cells + 1, cells + 2, u32::MAX]);
    let ordinality = if dice.one_in(5) { odd } else { inside };
    let axis = if dice.one_in(12) { dice.pick(&[0, 1, 2, 3, 4, 5, 6, 7, u32::MAX, 257]) } else { axis as u32 + 1 };
    let told = if faulty { told(dice, sizes) } else { sizes.version };
    vec![Case { function: Function::Stretch, shared, numbers: vec![told, axis, ordinality], lent: vec![said(dice)] }]
}

/// A left side, a right side made from it, and the axis on which they should fit.
fn sides(dice: &mut Dice, sizes: Sizes) -> (RawArray, RawArray, usize) {
    let left = arrays(dice, sizes, any_mood).swap_remove(0);
    let mut right = left.clone();
    let axis = dice.index(left.axes.len());
    let glued = &mut right.axes[axis];
    let others = left.cells.len() / glued.width();
    let room = (4_096 - left.cells.len()) / others;
    let width = 1 + dice.index(room.clamp(1, 4)) as i32;
    let width = if dice.one_in(7) { (room as i32 + dice.between(0, 1)).max(1) } else { width };
    glued.lower = dice.between(-3, 3);
    glued.upper = glued.lower + width - 1;
    if dice.one_in(4) {
        for _ in 0..1 + dice.index(2) {
            disagree(dice, sizes, &mut right);
        }
    }
    right.fill(dice, Mood::Mixed);
    (left, right, axis)
}

/// Two sides, mostly of many axes, that differ on an axis that was drawn, by chance the gluing one, seldom in type too, and now and then
/// in nothing but the gluing axis's limits; and the axis to glue on.
fn sides_apart(dice: &mut Dice, sizes: Sizes) -> (RawArray, RawArray, usize) {
    let made = if dice.one_in(4) { arrays } else { deep_arrays };
    let left = made(dice, sizes, any_mood).swap_remove(0);
    let mut right = left.clone();
    let at = late(dice, left.axes.len());
    let kind = dice.pick(&[Kind::Name, Kind::Name, Kind::Lower, Kind::Lower, Kind::Lower, Kind::Upper, Kind::Upper, Kind::Upper]);
    let axis = if dice.one_in(if kind == Kind::Name { 2 } else { 8 }) { at } else { another(dice, left.axes.len(), at) };
    match dice.below(12) {
        0 => other_count(dice, sizes, &mut right, at),
        1 => {}
        _ => part(dice, sizes, &mut right.axes, at, kind),
    }
    if axis < right.axes.len() && dice.one_in(2) {
        let limit = dice.pick(&[Kind::Lower, Kind::Upper]);
        change(dice, sizes, &mut right.axes, axis, limit);
    }
    if dice.one_in(16) {
        right.of = 1 + right.of % 3;
    }
    right.fill(dice, Mood::Mixed);
    (left, right, axis)
}

/// Sides that differ in type, a name, a limit or the axis count.
fn disagree(dice: &mut Dice, sizes: Sizes, right: &mut RawArray) {
    let which = dice.index(right.axes.len());
    match dice.below(8) {
        0 => right.of = 1 + right.of % 3,
        1 => right.axes[which].name = good_name(dice, sizes),
        5..=7 => nearly_same(dice, sizes, &mut right.axes),
        2 => right.axes[which].upper += 1,
        _ => other_count(dice, sizes, right, which),
    }
}

/// An axis fewer, or one more.
fn other_count(dice: &mut Dice, sizes: Sizes, right: &mut RawArray, which: usize) {
    let count = right.axes.len();
    if count == 1 || count < sizes.most_axes && dice.one_in(2) {
        let name = new_name(dice, sizes, &right.axes);
        right.axes.push(RawAxis { name, lower: 0, upper: 0, lowest: 0, highest: 0 });
    } else {
        right.axes.remove(which);
    }
    right.count = right.axes.len() as u8;
}

/// Heads and cell buffers of both sides, with faults in some if there may be; maxima may hold anything, and so may cells.
fn lent_sides(dice: &mut Dice, sizes: Sizes, left: &RawArray, right: &RawArray, faulty: bool) -> Vec<Vec<u8>> {
    let mut sides = [left.clone(), right.clone()];
    if faulty && dice.one_in(5) {
        spoil_array(dice, sizes, &mut sides);
    }
    if faulty && dice.one_in(12) {
        let which = dice.index(2);
        more_axes(dice, sizes, &mut sides[which]);
    }
    for axis in sides.iter_mut().flat_map(|side| &mut side.axes) {
        if dice.one_in(6) {
            (axis.lowest, axis.highest) = (dice.extreme(), dice.extreme());
        }
    }
    let mut shared = vec![];
    for side in &sides {
        let mut head = head(dice, sizes, side);
        let mut cells = if dice.one_in(3) { dice.bytes(9 * side.cells.len()) } else { side.cell_bytes() };
        match dice.below(90) {
            _ if !faulty => {}
            0 => cells.push(1),
            1 => cells.truncate(cells.len().saturating_sub(1)),
            2 => cells.truncate(dice.index(cells.len() + 1)),
            3 => head.truncate(dice.index(sizes.head())),
            4 if dice.one_in(3) => head.push(0),
            5..=8 => head.resize(other_version(sizes).head(), 0),
            _ => {}
        }
        shared.extend([head, cells]);
    }
    shared
}
