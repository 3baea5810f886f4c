//! Bundles of either version made up: arrays that are related to each other (equal extents, parts, continuations, one axis fewer),
//! so that recipes over them have something to do, written to bytes without being judged.

use super::cells::{self, Mood};
use super::dice::Dice;
use crate::paper::version::Sizes;

/// A name's bytes, padded with zeros: room for either version. As many are written as the version has.
pub type Name = [u8; 16];

#[derive(Clone, Debug, PartialEq)]
pub struct RawAxis {
    pub name: Name,
    pub lower: i32,
    pub upper: i32,
    pub lowest: i32,
    pub highest: i32,
}

#[derive(Clone, Debug)]
pub struct RawArray {
    pub of: u8,
    pub count: u8,
    pub axes: Vec<RawAxis>,
    pub cells: Vec<[u8; 9]>,
}

const NAMES: [&str; 12] = ["x", "y", "z", "i", "j", "who", "turn", "abcdefgh", "a_1", "z9_z9_z9", "az", "x0"];

/// Names of 9 to 16 letters; some are the same in their first eight, one of these like a shorter name.
const LONGER: [&str; 10] = [
    "abcdefghi",
    "abcdefghijklmnop",
    "abcdefghijklmnoq",
    "location_a",
    "location_b",
    "z9_z9_z9_",
    "turn_of_week",
    "person_on_call",
    "x23456789012345",
    "week_of_the_year",
];

const BAD: [&str; 17] = ["aB", "1a", "_a", "", "a\0b", "a b", "A", "a{", "a`", "a/", "a:", "abcdefg ", "\0a", "abcdefgH", "a-", "a@", "a["];

/// Names that are bad past their first eight bytes only.
const BAD_LONGER: [&str; 9] = [
    "abcdefgh\0i",
    "abcdefghI",
    "abcdefgh ",
    "abcdefghi\0j",
    "abcdefghijklmnoP",
    "abcdefghijklmno{",
    "abcdefghijklmn\0p",
    "a\0\0\0\0\0\0\0b",
    "a\0\0\0\0\0\0\0\0\0\0\0\0\0\0b",
];

pub fn padded(name: &str) -> Name {
    let mut bytes = [0; 16];
    bytes[..name.len()].copy_from_slice(name.as_bytes());
    bytes
}

/// The letters of a name.
pub fn letters(name: &Name) -> usize {
    name.iter().take_while(|&&byte| byte != 0).count()
}

pub fn good_name(dice: &mut Dice, sizes: Sizes) -> Name {
    let longer = sizes.name > 8 && dice.one_in(2);
    padded(if longer { dice.pick(&LONGER) } else { dice.pick(&NAMES) })
}

pub fn bad_name(dice: &mut Dice, sizes: Sizes) -> Name {
    let longer = sizes.name > 8 && dice.one_in(2);
    let mut name = padded(if longer { dice.pick(&BAD_LONGER) } else { dice.pick(&BAD) });
    if dice.one_in(5) {
        name[dice.index(sizes.name)] = 128 + dice.below(128) as u8;
    }
    name
}

/// A good name that is the other one but for its last letter, or one letter longer.
pub fn twin_name(dice: &mut Dice, sizes: Sizes, name: &Name) -> Name {
    let (mut twin, letters) = (*name, letters(name));
    let at = if letters < sizes.name && dice.one_in(2) { letters } else { letters.max(1) - 1 };
    twin[at] = if twin[at] == b'q' { b'r' } else { b'q' };
    twin
}

/// Whether two lists of names are not the same, but are so in the names' first eight letters.
pub fn alike(left: &[&str], right: &[&str]) -> bool {
    let cut = |names: &[&str]| names.iter().map(|name| name[..name.len().min(8)].to_string()).collect::<Vec<String>>();
    left != right && cut(left) == cut(right)
}

impl RawAxis {
    pub fn width(&self) -> usize {
        (i64::from(self.upper) - i64::from(self.lower) + 1).max(0) as usize
    }

    fn bytes(&self, sizes: Sizes) -> Vec<u8> {
        let limits = [self.lower, self.upper, self.lowest, self.highest];
        self.name[..sizes.name].iter().copied().chain(limits.iter().flat_map(|limit| limit.to_le_bytes())).collect()
    }
}

impl RawArray {
    pub fn axis_bytes(&self, sizes: Sizes) -> Vec<u8> {
        self.axes.iter().flat_map(|axis| axis.bytes(sizes)).collect()
    }

    pub fn cell_bytes(&self) -> Vec<u8> {
        self.cells.concat()
    }

    pub fn fill(&mut self, dice: &mut Dice, mood: Mood) {
        let count = self.axes.iter().map(RawAxis::width).product();
        self.cells = (0..count).map(|_| cells::cell(dice, self.of, mood)).collect();
    }
}

/// The bytes of a bundle of these arrays, sound or not.
pub fn bundle_bytes(sizes: Sizes, arrays: &[RawArray]) -> Vec<u8> {
    let mut bytes = b"RMA".to_vec();
    bytes.extend([sizes.version as u8, 0, arrays.len() as u8]);
    for array in arrays {
        bytes.extend([array.of, array.count]);
        bytes.extend(array.axis_bytes(sizes));
        bytes.extend(array.cell_bytes());
    }
    bytes
}

/// 1 to 4 sound arrays, each after the first mostly related to an earlier one.
pub fn arrays(dice: &mut Dice, sizes: Sizes, moody: fn(&mut Dice) -> Mood) -> Vec<RawArray> {
    let first = fresh(dice, sizes);
    arrays_from(dice, sizes, first, moody)
}

/// Such arrays, the first of which has as many axes as there may be, or one or two fewer.
pub fn deep_arrays(dice: &mut Dice, sizes: Sizes, moody: fn(&mut Dice) -> Mood) -> Vec<RawArray> {
    let count = sizes.most_axes - dice.pick(&[0, 0, 0, 0, 0, 0, 0, 0, 0, 1, 1, 2]);
    let widths: Vec<i32> = (0..count).map(|_| dice.pick(&[1, 1, 2, 2])).collect();
    let first = RawArray { of: dice.pick(&[1, 1, 2, 3]), count: 0, axes: axes_of_widths(dice, sizes, &widths), cells: vec![] };
    arrays_from(dice, sizes, first, moody)
}

fn arrays_from(dice: &mut Dice, sizes: Sizes, first: RawArray, moody: fn(&mut Dice) -> Mood) -> Vec<RawArray> {
    let count = dice.pick(&[1, 1, 2, 2, 2, 3, 3, 4]);
    let (mut next, mut arrays): (Option<RawArray>, Vec<RawArray>) = (Some(first), vec![]);
    for _ in 0..count {
        let mut array = next.take().unwrap_or_else(|| fresh(dice, sizes));
        if !arrays.is_empty() && !dice.one_in(6) {
            let other = dice.index(arrays.len());
            array = related(dice, sizes, &arrays[other]);
        }
        for axis in &mut array.axes {
            declare(dice, axis);
        }
        array.count = array.axes.len() as u8;
        let mood = moody(dice);
        array.fill(dice, mood);
        arrays.push(array);
    }
    arrays
}

/// Any mood, for questions to one array.
pub fn any_mood(dice: &mut Dice) -> Mood {
    dice.pick(&cells::MOODS)
}

/// An array of any type with a new extent: mostly small, now and then thin, seldom as large as may be.
fn fresh(dice: &mut Dice, sizes: Sizes) -> RawArray {
    let of = dice.pick(&[1, 1, 1, 1, 2, 2, 2, 3, 3]);
    let widths: Vec<i32> = match dice.below(400) {
        0 => vec![64, 64],
        1 => vec![4_096],
        2 => vec![dice.between(2, 9), dice.between(2, 9), dice.between(2, 8), dice.between(2, 6)],
        3 if sizes.most_axes == 6 => vec![4; 6],
        3 => vec![8; 4],
        4..=12 => vec![dice.between(1, 60)],
        13..=60 => thin(dice, sizes),
        _ => {
            let count = dice.pick(&[1, 2, 2, 2, 2, 3, 3, 4, 5, 5, 6, 6]);
            match count {
                ..=4 => (0..count).map(|_| dice.pick(&[1, 2, 2, 2, 3, 3, 4])).collect(),
                _ => (0..count.min(sizes.most_axes)).map(|_| dice.pick(&[1, 1, 2, 2, 2, 3])).collect(),
            }
        }
    };
    RawArray { of, count: widths.len() as u8, axes: axes_of_widths(dice, sizes, &widths), cells: vec![] }
}

/// The widths of one cell, one row or one column, on two axes or more.
fn thin(dice: &mut Dice, sizes: Sizes) -> Vec<i32> {
    let mut widths = vec![1; dice.pick(&[2, 2, 3, 3, 4, 5, 6]).min(sizes.most_axes)];
    let last = widths.len() - 1;
    match dice.below(4) {
        0 => widths[last] = dice.between(2, 6),
        1 => widths[0] = dice.between(2, 6),
        _ => {}
    }
    widths
}

/// Axes of these widths, with different names; mostly about zero, now and then at an end of the range. Their maximum is `*`.
pub fn axes_of_widths(dice: &mut Dice, sizes: Sizes, widths: &[i32]) -> Vec<RawAxis> {
    let mut axes: Vec<RawAxis> = vec![];
    for width in widths {
        let lower = match dice.below(40) {
            0 => -1_000_000,
            1 => 1_000_000 - (width - 1),
            _ => dice.between(-3, 3),
        };
        let name = new_name(dice, sizes, &axes);
        axes.push(RawAxis { name, lower, upper: lower + width - 1, lowest: -1_000_000, highest: 1_000_000 });
    }
    axes
}

/// A name that none of the axes has.
pub fn new_name(dice: &mut Dice, sizes: Sizes, axes: &[RawAxis]) -> Name {
    loop {
        let name = good_name(dice, sizes);
        if axes.iter().all(|axis| axis.name != name) {
            return name;
        }
    }
}

/// An array whose extent has to do with another's: equal, a part, moved, longer on one axis, one axis fewer or more, or with a name
/// that is nearly the same.
fn related(dice: &mut Dice, sizes: Sizes, other: &RawArray) -> RawArray {
    let mut array = other.clone();
    if dice.one_in(5) {
        array.of = dice.pick(&[1, 2, 3]);
    }
    let which = dice.index(array.axes.len());
    match dice.below(12) {
        0..=3 => {}
        4 => array.axes.iter_mut().for_each(|axis| part(dice, axis)),
        5 if dice.one_in(2) => nudge(dice, &mut array.axes),
        5 => {
            let which = dice.pick(&[which, array.axes.len() - 1]);
            part(dice, &mut array.axes[which]);
        }
        6 => {
            let by = dice.between(-2, 2);
            array.axes[which].lower = (array.axes[which].lower + by).clamp(-1_000_000, 999_990);
            array.axes[which].upper = array.axes[which].lower + dice.between(0, 2);
        }
        7 | 8 | 10 if array.axes.len() > 1 => {
            array.axes.remove(which);
            match dice.below(6) {
                0 | 1 => nudge(dice, &mut array.axes),
                2 => array.axes.iter_mut().for_each(|axis| part(dice, axis)),
                _ => {}
            }
        }
        9 if array.axes.len() < sizes.most_axes && other.cells.len() < 200 => {
            let name = new_name(dice, sizes, &array.axes);
            array.axes.insert(which, RawAxis { name, lower: 0, upper: dice.between(0, 2), lowest: 0, highest: 0 });
        }
        11 => nearly_same(dice, sizes, &mut array.axes),
        _ => {}
    }
    if array.axes.iter().map(RawAxis::width).product::<usize>() > 4_096 {
        return other.clone();
    }
    array
}

/// One of the axes, of those whose names are long if there are any, with a name that is nearly the same.
pub fn nearly_same(dice: &mut Dice, sizes: Sizes, axes: &mut [RawAxis]) {
    let long: Vec<usize> = (0..axes.len()).filter(|&at| letters(&axes[at].name) >= 8).collect();
    let which = dice.pick_if_any(&long).unwrap_or(dice.index(axes.len()));
    let twin = twin_name(dice, sizes, &axes[which].name);
    if axes.iter().all(|axis| axis.name != twin) {
        axes[which].name = twin;
    }
}

/// One of the axes longer by one at either end.
fn nudge(dice: &mut Dice, axes: &mut [RawAxis]) {
    let which = dice.index(axes.len());
    if dice.one_in(2) {
        axes[which].lower = (axes[which].lower - 1).max(-1_000_000);
    } else {
        axes[which].upper = (axes[which].upper + 1).min(1_000_000);
    }
}

/// An axis cut to a part of itself, now and then to all but its two ends.
fn part(dice: &mut Dice, axis: &mut RawAxis) {
    if axis.width() > 2 && dice.one_in(3) {
        (axis.lower, axis.upper) = (axis.lower + 1, axis.upper - 1);
        return;
    }
    let lower = dice.between(axis.lower, axis.upper);
    axis.upper = dice.between(lower, axis.upper);
    axis.lower = lower;
}

/// A maximum that holds the extent: equal, `*`, wider on either side.
pub fn declare(dice: &mut Dice, axis: &mut RawAxis) {
    let wide = |dice: &mut Dice| dice.pick(&[0, 0, 1, 2, 5, 100, 3_000_000]);
    axis.lowest = axis.lower.saturating_sub(wide(dice)).max(-1_000_000);
    axis.highest = axis.upper.saturating_add(wide(dice)).min(1_000_000);
}
