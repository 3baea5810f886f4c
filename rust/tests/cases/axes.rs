//! Request [3] of paper 02 as its readings were settled, point by point, 3.1 to 3.7: which axis doesn't match, written by hand. Each is put
//! to whoever answers (paper or library), in either version. A figure is 10 times the axis's index in A, and 1 for its name, 2 for its
//! lower limit, 3 for its upper one; 4 is the axis count.

use super::bundles::RawArray;
use super::printed::{counting, ints, refused, Ask, Limits};
use super::steps::numbers;
use super::{Answer, Function};

/// An INT array of these axes.
fn array(axes: &[Limits]) -> RawArray {
    let cells: i64 = axes.iter().map(|(_, lower, upper)| i64::from(upper - lower + 1)).product();
    ints(axes, &counting(cells))
}

/// What plan, extent, run and page say of the recipe.
fn answers(ask: Ask, arrays: &[RawArray], recipe: &[Vec<u8>]) -> [Answer; 4] {
    let call = |function, numbers: &[u32], lent: &[usize]| ask.call(function, vec![ask.bundle(arrays), recipe.concat()], numbers, lent);
    [
        call(Function::Plan, &[], &[]),
        call(Function::Extent, &[], &[200]),
        call(Function::Run, &[], &[9_999]),
        call(Function::Page, &[1], &[9_999, 200]),
    ]
}

/// Each of the four refuses so, and leaves what it was lent.
fn all_refuse(ask: Ask, arrays: &[RawArray], recipe: &[Vec<u8>], refusal: [u32; 3]) {
    for answer in answers(ask, arrays, recipe) {
        assert_eq!(refused(&answer), refusal);
        let (said, lent) = answer.lent.split_last().expect("said");
        assert!(said[8..].iter().chain(lent.iter().flatten()).all(|&byte| byte == 0x77), "a refusal writes its place and figure only");
    }
}

/// A step of two arrays, A and B, which is operation 6 to 9 on that axis.
fn compared(ask: Ask, operation: u8, axis: u8, position: i32) -> Vec<u8> {
    match operation {
        7 => ask.step(7, 1, 2, axis, &numbers(&[position])),
        8 => ask.step(8, 1, 2, axis, &[]),
        9 => ask.step(9, 1, 2, 0, &[6]),
        _ => ask.step(operation, 1, 2, 0, &[]),
    }
}

/// A pair of these two is refused with 8 and that figure, in either order.
fn pair(ask: Ask, a: &[Limits], b: &[Limits], figure: u32) {
    for arrays in [[array(a), array(b)], [array(b), array(a)]] {
        all_refuse(ask, &arrays, &[compared(ask, 9, 0, 0)], [8, 1, figure]);
    }
}

/// The step, over a bundle of these two, is refused with 8 and that figure.
fn step_refused(ask: Ask, step: Vec<u8>, a: &[Limits], b: &[Limits], figure: u32) {
    all_refuse(ask, &[array(a), array(b)], &[step], [8, 1, figure]);
}

/// The stretch from ordinality 1 of these two glued on that axis.
fn stretch(ask: Ask, left: &RawArray, right: &RawArray, axis: u32) -> Answer {
    let shared = vec![ask.head(left), left.cell_bytes(), ask.head(right), right.cell_bytes()];
    ask.call(Function::Stretch, shared, &[ask.sizes.version, axis, 1], &[])
}

fn r3_1_the_first_axis_and_then_what_differs(ask: Ask) {
    let a = [("x", 1, 2), ("y", 1, 2), ("z", 1, 2)];
    let table: [([Limits; 3], u32); 14] = [
        ([("q", 1, 2), ("y", 1, 2), ("z", 1, 2)], 11),
        ([("x", 0, 2), ("y", 1, 2), ("z", 1, 2)], 12),
        ([("x", 1, 3), ("y", 1, 2), ("z", 1, 2)], 13),
        ([("x", 1, 2), ("q", 1, 2), ("z", 1, 2)], 21),
        ([("x", 1, 2), ("y", 2, 2), ("z", 1, 2)], 22),
        ([("x", 1, 2), ("y", 1, 1), ("z", 1, 2)], 23),
        ([("x", 1, 3), ("q", 1, 2), ("z", 1, 2)], 13), // the first axis's limit, not the second one's name
        ([("x", 0, 2), ("q", 0, 3), ("p", 0, 3)], 12),
        ([("x", 1, 2), ("y", 1, 3), ("q", 1, 2)], 23),
        ([("q", 0, 3), ("y", 1, 2), ("z", 1, 2)], 11), // the name before the limits of one axis
        ([("x", 0, 3), ("y", 1, 2), ("z", 1, 2)], 12), // the lower limit before the upper one
        ([("x", 2, 3), ("y", 1, 2), ("z", 1, 2)], 12),
        ([("y", 1, 2), ("x", 1, 2), ("z", 1, 2)], 11), // the same names in another order
        ([("x", 1, 2), ("z", 1, 2), ("y", 1, 2)], 21),
    ];
    for (b, figure) in table {
        pair(ask, &a, &b, figure);
        let (left, right) = (array(&a), array(&b));
        step_refused(ask, compared(ask, 8, 3, 0), &a, &b, figure);
        assert_eq!(refused(&stretch(ask, &left, &right, 3)), [8, 0, figure]);
    }
}

fn r3_2_place_counts_in_a(ask: Ask) {
    let a = [("t", 1, 2), ("x", 1, 2), ("y", 1, 2)];
    let placed = |axis: u8, b: &[Limits], figure: u32| step_refused(ask, compared(ask, 7, axis, 1), &a, b, figure);
    placed(1, &[("q", 1, 2), ("y", 1, 2)], 21);
    placed(1, &[("x", 1, 2), ("q", 1, 2)], 31);
    placed(1, &[("q", 1, 2), ("p", 1, 2)], 21);
    placed(1, &[("t", 1, 2), ("x", 1, 2)], 21);
    placed(2, &[("q", 1, 2), ("y", 1, 2)], 11);
    placed(2, &[("t", 1, 2), ("q", 1, 2)], 31);
    placed(2, &[("t", 1, 2), ("x", 1, 2)], 31);
    placed(3, &[("q", 1, 2), ("x", 1, 2)], 11);
    placed(3, &[("t", 1, 2), ("q", 1, 2)], 21);
    for axis in 1..=3 {
        placed(axis, &a, 4);
        placed(axis, &[("q", 1, 2), ("p", 1, 2), ("y", 1, 2)], 4);
        placed(axis, &[("x", 1, 2)], 4);
        placed(axis, &[("t", 1, 2), ("x", 1, 2), ("y", 1, 2), ("z", 1, 2)], 4);
    }
}

fn r3_3_a_stretch_with_place_0(ask: Ask) {
    let left = array(&[("x", 1, 2), ("y", 1, 2)]);
    let figure = |right: &[Limits], axis: u32| refused(&stretch(ask, &left, &array(right), axis));
    assert_eq!(figure(&[("x", 1, 2)], 1), [8, 0, 4]);
    assert_eq!(figure(&[("x", 1, 2), ("y", 1, 2), ("z", 1, 1)], 2), [8, 0, 4]);
    assert_eq!(figure(&[("q", 7, 9), ("y", 1, 2)], 1), [8, 0, 11]);
    assert_eq!(figure(&[("x", 7, 9), ("q", 1, 2)], 1), [8, 0, 21]);
    assert_eq!(figure(&[("x", 7, 9), ("y", 0, 2)], 1), [8, 0, 22]);
    assert_eq!(figure(&[("x", 7, 9), ("y", 1, 3)], 1), [8, 0, 23]);
    assert_eq!(figure(&[("x", 0, 2), ("q", 1, 2)], 2), [8, 0, 12]);
    assert_eq!(figure(&[("x", 1, 3), ("q", 1, 2)], 2), [8, 0, 13]);
    assert_eq!(figure(&[("x", 1, 2), ("q", 7, 9)], 2), [8, 0, 21]);
    assert_eq!(figure(&[("q", 1, 2)], 3), [5, 0, 0], "5 comes first");
    let of_truth = RawArray { of: 3, cells: vec![[0; 9]; 2], ..array(&[("q", 1, 2)]) };
    assert_eq!(refused(&stretch(ask, &left, &of_truth, 1)), [7, 0, 0], "7 comes first");
    let wide = array(&[("x", 1, 1), ("q", 1, 4_095)]);
    assert_eq!(refused(&stretch(ask, &array(&[("x", 1, 1), ("y", 1, 4_095)]), &wide, 2)), [8, 0, 21], "9 comes after it");
}

fn r3_4_limits_that_are_not_compared(ask: Ask) {
    let a = [("x", 1, 3), ("y", 1, 3)];
    let done = |step: Vec<u8>, b: &[Limits]| {
        let answers = answers(ask, &[array(&a), array(b)], &[step]);
        assert_eq!(answers.map(|answer| answer.number), [0, 0, 0, 7], "done, and no listing");
    };
    done(compared(ask, 8, 1, 0), &[("x", 5, 5), ("y", 1, 3)]);
    done(compared(ask, 8, 2, 0), &[("x", 1, 3), ("y", -9, 9)]);
    assert_eq!(stretch(ask, &array(&a), &array(&[("x", 5, 5), ("y", 1, 3)]), 1).number, 0);
    for (axis, b, figure) in [
        (1, [("q", 5, 5), ("y", 1, 3)], 11),
        (1, [("q", 5, 5), ("y", 1, 4)], 11),
        (1, [("x", 5, 5), ("q", 1, 4)], 21),
        (1, [("x", 5, 5), ("y", 2, 3)], 22),
        (2, [("x", 1, 3), ("q", 5, 5)], 21),
        (2, [("x", 1, 2), ("q", 5, 5)], 13),
    ] {
        step_refused(ask, compared(ask, 8, axis, 0), &a, &b, figure);
        assert_eq!(refused(&stretch(ask, &array(&a), &array(&b), u32::from(axis))), [8, 0, figure]);
    }
    done(compared(ask, 6, 0, 0), &[("x", 2, 2), ("y", 1, 2)]);
    step_refused(ask, compared(ask, 6, 0, 0), &a, &[("x", 2, 2), ("q", 1, 2)], 21);
    step_refused(ask, compared(ask, 6, 0, 0), &a, &[("x", 7, 9), ("q", 1, 2)], 21); // 6 comes after it
    step_refused(ask, compared(ask, 6, 0, 0), &a, &[("q", 7, 9), ("p", 1, 2)], 11);
    step_refused(ask, compared(ask, 6, 0, 0), &a, &[("x", 1, 3)], 4);
    all_refuse(ask, &[array(&a), array(&[("x", 2, 4), ("y", 1, 3)])], &[compared(ask, 6, 0, 0)], [6, 1, 0]);
    done(compared(ask, 7, 1, 3), &[("y", 2, 2)]);
    step_refused(ask, compared(ask, 7, 1, 9), &a, &[("q", 0, 9)], 21); // 6 comes after it
    all_refuse(ask, &[array(&a), array(&[("y", 0, 3)])], &[compared(ask, 7, 1, 3)], [6, 1, 0]);
}

fn r3_5_placing_into_one_axis(ask: Ask) {
    let a = [("x", 1, 2)];
    for b in [&[("x", 1, 2)][..], &[("q", 1, 2)], &[("x", 1, 1), ("y", 1, 1)], &[("x", 1, 1), ("y", 1, 1), ("z", 1, 1)]] {
        step_refused(ask, compared(ask, 7, 1, 1), &a, b, 4);
        all_refuse(ask, &[array(&a), array(b)], &[compared(ask, 7, 2, 1)], [5, 1, 0]);
    }
    let of_truth = RawArray { of: 3, cells: vec![[0; 9]; 2], ..array(&a) };
    all_refuse(ask, &[array(&a), of_truth], &[compared(ask, 7, 1, 1)], [7, 1, 0]);
}

const NAMES: [&str; 6] = ["a", "b", "c", "d", "e", "f"];

/// So many axes, each 4:5.
fn axes(count: usize) -> Vec<Limits<'static>> {
    NAMES[..count].iter().map(|name| (*name, 4, 5)).collect()
}

/// The axes, of which one, from 1, differs in what the kind says.
fn differing(count: usize, index: u32, kind: u32) -> Vec<Limits<'static>> {
    let mut axes = axes(count);
    let (name, lower, upper) = &mut axes[index as usize - 1];
    match kind {
        1 => *name = "z",
        2 => *lower = 5,
        _ => *upper = 4,
    }
    axes
}

fn r3_6_every_axis_up_to_the_last(ask: Ask) {
    let count = ask.sizes.most_axes;
    let (a, last) = (axes(count), count as u32);
    for (index, kind) in (1..=last).flat_map(|index| [1, 2, 3].map(|kind| (index, kind))) {
        let (b, figure) = (differing(count, index, kind), 10 * index + kind);
        pair(ask, &a, &b, figure);
        for axis in (1..=last).filter(|axis| kind == 1 || *axis != index) {
            step_refused(ask, compared(ask, 8, axis as u8, 0), &a, &b, figure);
            assert_eq!(refused(&stretch(ask, &array(&a), &array(&b), axis)), [8, 0, figure]);
        }
        if kind == 1 {
            step_refused(ask, compared(ask, 6, 0, 0), &a, &b, figure);
        }
        for placed in (1..=last).filter(|placed| kind == 1 && *placed != index) {
            let mut patch = b.clone();
            patch.remove(placed as usize - 1);
            step_refused(ask, compared(ask, 7, placed as u8, 4), &a, &patch, figure);
        }
    }
    for (of_a, of_b) in (1..=count).flat_map(|of_a| (1..=count).map(move |of_b| (of_a, of_b))) {
        let (a, b) = (axes(of_a), axes(of_b));
        if of_a != of_b {
            for operation in [6, 8, 9] {
                step_refused(ask, compared(ask, operation, 1, 0), &a, &b, 4);
            }
            assert_eq!(refused(&stretch(ask, &array(&a), &array(&b), 1)), [8, 0, 4]);
        }
        if of_a != of_b + 1 {
            step_refused(ask, compared(ask, 7, 1, 4), &a, &b, 4);
        }
    }
}

const ROSTER: &[u8] = include_bytes!("../../../example/no-shift/roster.rma");
const NO_SHIFT: &[u8] = include_bytes!("../../../example/no-shift/recipe.bin");

/// Paper 01's own case, from the files that `rests` reads; and a later step, after steps that are done. An answer that is cut has what
/// fits of its figure.
fn r3_7_whoever_passes_8_on(ask: Ask) {
    for (function, numbers, lent) in [
        (Function::Plan, &[][..], &[][..]),
        (Function::Extent, &[], &[98]),
        (Function::Run, &[], &[32_768]),
        (Function::Page, &[1], &[32_768, 1_200]),
    ] {
        let answer = ask.call(function, vec![ROSTER.to_vec(), NO_SHIFT.to_vec()], numbers, lent);
        assert_eq!(refused(&answer), [8, 3, 22], "rests without the shift");
    }
    let a = [("x", 1, 2), ("y", 1, 2)];
    let steps = [
        ask.step(4, 1, 0, 0, &numbers(&[0, 1])), // y is 2:3
        ask.step(1, 17, 0, 0, &numbers(&[1, 2, 2, 2])),
        ask.step(9, 1, 17, 0, &[1]),
    ];
    all_refuse(ask, &[array(&a)], &steps, [8, 3, 22]);
    let upper = ask.step(9, 17, 18, 0, &[1]);
    all_refuse(ask, &[array(&a)], &[&steps[..2], &[upper]].concat(), [8, 3, 23]);
    let name = [ask.step(5, 1, 0, 0, &[b"x".to_vec(), vec![0; ask.sizes.name - 1], b"q".to_vec()].concat()), ask.step(6, 17, 1, 0, &[])];
    all_refuse(ask, &[array(&a)], &name, [8, 2, 21]);
    let count = [ask.step(2, 1, 0, 1, &numbers(&[1])), ask.step(8, 1, 17, 2, &[])];
    all_refuse(ask, &[array(&a)], &count, [8, 2, 4]);
}

/// All of them, in one version.
pub fn all(ask: Ask) {
    let readings: [fn(Ask); 7] = [
        r3_1_the_first_axis_and_then_what_differs,
        r3_2_place_counts_in_a,
        r3_3_a_stretch_with_place_0,
        r3_4_limits_that_are_not_compared,
        r3_5_placing_into_one_axis,
        r3_6_every_axis_up_to_the_last,
        r3_7_whoever_passes_8_on,
    ];
    readings.iter().for_each(|put| put(ask));
}
