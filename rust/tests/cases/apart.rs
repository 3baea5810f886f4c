//! Axes that differ where it was drawn: first of all on one axis, in its name, its lower limit or its upper one, and often in something
//! that comes after it; and steps that compare two operands which differ so, with the steps before them that make one from the other.

use super::bundles::{new_name, padded, twin_name, RawAxis};
use super::dice::Dice;
use super::steps::{numbers, operands, pair_operator, slots, step, StepBytes};
use crate::paper::array::Shape;
use crate::paper::extent::Extent;
use crate::paper::judge::Shapes;
use crate::paper::version::Sizes;

/// What is to differ first; on the gluing axis, limits aren't compared.
#[derive(Clone, Copy, PartialEq, Eq)]
pub enum Kind {
    Name,
    Lower,
    Upper,
}

const KINDS: [Kind; 3] = [Kind::Name, Kind::Lower, Kind::Upper];

/// An axis of so many, from 0: oftener one of the last two.
pub fn late(dice: &mut Dice, count: usize) -> usize {
    let any = dice.index(count);
    match dice.below(10) {
        0..=2 => count - 1,
        3 | 4 => count.max(2) - 2,
        _ => any,
    }
}

/// Makes that axis differ in what is drawn, and in nothing that comes before it; now and then in what comes after it on that axis, and
/// on a later axis, or in two names that are exchanged.
pub fn part(dice: &mut Dice, sizes: Sizes, axes: &mut [RawAxis], at: usize, kind: Kind) {
    let later = at + 1 + dice.index((axes.len() - at).max(2) - 1);
    if kind == Kind::Name && later < axes.len() && dice.one_in(6) {
        swap_names(axes, at, later);
    } else {
        change(dice, sizes, axes, at, kind);
    }
    if kind != Kind::Upper && dice.one_in(3) {
        let after = if kind == Kind::Name { dice.pick(&KINDS[1..]) } else { Kind::Upper };
        change(dice, sizes, axes, at, after);
    }
    if later < axes.len() && dice.one_in(2) {
        let kind = dice.pick(&KINDS);
        change(dice, sizes, axes, later, kind);
    }
}

fn swap_names(axes: &mut [RawAxis], at: usize, later: usize) {
    let name = axes[at].name;
    axes[at].name = axes[later].name;
    axes[later].name = name;
}

/// Another name that none of the axes has, often one that is nearly the same; or a limit moved by one, if there is room for that.
pub fn change(dice: &mut Dice, sizes: Sizes, axes: &mut [RawAxis], at: usize, kind: Kind) {
    let fresh = new_name(dice, sizes, axes);
    let twin = twin_name(dice, sizes, &axes[at].name);
    let twin = if axes.iter().any(|axis| axis.name == twin) { fresh } else { twin };
    let RawAxis { lower, upper, .. } = axes[at];
    let moved = |dice: &mut Dice, limit: i32| dice.pick(&[limit - 1, limit + 1]).clamp(-1_000_000, 1_000_000);
    match kind {
        Kind::Name => axes[at].name = dice.pick(&[fresh, twin]),
        Kind::Lower if lower < upper => axes[at].lower = moved(dice, lower),
        Kind::Lower => axes[at].lower = (lower - 1).max(-1_000_000),
        Kind::Upper if lower < upper => axes[at].upper = moved(dice, upper),
        Kind::Upper => axes[at].upper = (upper + 1).min(1_000_000),
    }
}

/// What the last step is to be refused with: for that kind, for the axis counts, or not at all, only limits of the gluing axis differing.
#[derive(Clone, Copy, PartialEq, Eq)]
enum Drawn {
    First(Kind),
    Count,
    Nothing,
}

use Drawn::*;

/// An operation, and one of what it compares; oftener one that compares more.
fn drawn(dice: &mut Dice) -> (u8, Drawn) {
    let operation = match dice.below(35) {
        0..=4 => 6,
        5..=9 => 7,
        10..=22 => 8,
        _ => 9,
    };
    let kind = if operation < 8 { Kind::Name } else { dice.pick(&KINDS) };
    match dice.below(32) {
        0..=2 => (operation, Count),
        3 | 4 if operation == 8 => (operation, Nothing),
        3..=6 if operation < 8 => (operation, Count),
        _ => (operation, First(kind)),
    }
}

/// The most steps that `steps` gives.
pub const MOST: usize = 4;

/// An operand in the making: its number, its axes as they are now, and the steps that make it.
struct Made {
    sizes: Sizes,
    number: u8,
    next: u8,
    axes: Vec<RawAxis>,
    steps: Vec<StepBytes>,
}

impl Made {
    /// One of those at hand.
    fn of(shapes: &Shapes, number: u8) -> Made {
        let axes = raw(&shapes.operand(number).expect("an operand at hand").extent);
        Made { sizes: shapes.sizes, number, next: 17 + shapes.steps.len() as u8, axes, steps: vec![] }
    }

    fn add(&mut self, operation: u8, axis: u8, detail: &[u8]) {
        self.steps.push(step(self.sizes, operation, self.number, 0, axis, detail));
        (self.number, self.next) = (self.next, self.next + 1);
    }

    /// A slice at that axis, from 0, which is not the only one.
    fn slice(&mut self, dice: &mut Dice, at: usize) {
        let gone = self.axes.remove(at);
        let position = dice.between(gone.lower, gone.upper);
        self.add(2, at as u8 + 1, &numbers(&[position]));
    }

    /// A rename and a reshape to these axes, or one of them, or neither.
    fn become_of(&mut self, axes: Vec<RawAxis>) {
        let names = |axes: &[RawAxis]| axes.iter().map(|axis| axis.name).collect::<Vec<_>>();
        let limits = |axes: &[RawAxis]| axes.iter().flat_map(|axis| [axis.lower, axis.upper]).collect::<Vec<i32>>();
        if names(&axes) != names(&self.axes) {
            self.add(5, 0, &slots(self.sizes, &names(&axes)));
        }
        if limits(&axes) != limits(&self.axes) {
            self.add(3, 0, &numbers(&limits(&axes)));
        }
        self.axes = axes;
    }
}

fn raw(extent: &Extent) -> Vec<RawAxis> {
    let axes = extent.axes.iter();
    axes.map(|axis| RawAxis { name: padded(&axis.name), lower: axis.lower, upper: axis.upper, lowest: 0, highest: 0 }).collect()
}

/// Steps of which the last compares two operands that differ where it was drawn.
pub fn steps(dice: &mut Dice, shapes: &Shapes) -> Vec<StepBytes> {
    let all = operands(shapes);
    let deepest = all.iter().copied().max_by_key(|&which| shapes.operand(which).map_or(0, |shape| shape.extent.axes.len()));
    let a = if dice.one_in(3) { dice.pick(&all) } else { deepest.expect("a bundle has an array") };
    let shape = shapes.operand(a).expect("an operand at hand");
    let mut made = Made::of(shapes, a);
    let last = match drawn(dice) {
        (7, drawn) => place(dice, shape, a, &mut made, drawn),
        (operation, drawn) => beside(dice, shape, [operation, a], &mut made, drawn),
    };
    [made.steps, vec![last]].concat()
}

/// An update, glue or pair of A and what is made from it, in either order.
fn beside(dice: &mut Dice, shape: &Shape, [operation, a]: [u8; 2], made: &mut Made, drawn: Drawn) -> StepBytes {
    let count = made.axes.len();
    let at = late(dice, count);
    let glued = if drawn == First(Kind::Name) && dice.one_in(2) { at } else { another(dice, count, at) };
    match drawn {
        Count if count > 1 => made.slice(dice, at),
        Count => {}
        _ => {
            let mut axes = made.axes.clone();
            if let First(kind) = drawn {
                part(dice, made.sizes, &mut axes, at, kind);
            }
            if operation != 9 && (drawn == Nothing || dice.one_in(2)) {
                let uncompared = if operation == 8 { glued } else { dice.index(count) };
                let kind = dice.pick(&KINDS[1..]);
                change(dice, made.sizes, &mut axes, uncompared, kind);
            }
            made.become_of(axes);
        }
    }
    let turned = dice.one_in(2);
    let [left, right] = if turned { [made.number, a] } else { [a, made.number] };
    let of_left = if turned { made.axes.len() } else { count };
    match operation {
        8 => step(made.sizes, 8, left, right, axis_index(dice, glued.min(of_left - 1), of_left), &[]),
        9 => step(made.sizes, 9, left, right, 0, &[pair_operator(dice, shape.of)]),
        _ => step(made.sizes, 6, left, right, 0, &[]),
    }
}

/// One of so many, from 0, that is not this one, if there is another.
pub fn another(dice: &mut Dice, count: usize, at: usize) -> usize {
    (at + 1 + dice.index(count.max(2) - 1)) % count
}

/// A place of a slice of A, of which a name differs that isn't the placed axis's; or of A itself, or of a slice of a slice.
fn place(dice: &mut Dice, shape: &Shape, a: u8, made: &mut Made, drawn: Drawn) -> StepBytes {
    let count = made.axes.len();
    let at = late(dice, count);
    let placed = another(dice, count, at);
    let position = dice.between(shape.extent.axes[placed].lower, shape.extent.axes[placed].upper);
    let of_b = at - usize::from(placed < at);
    if drawn != Count && count > 1 {
        made.slice(dice, placed);
        let mut axes = made.axes.clone();
        part(dice, made.sizes, &mut axes, of_b, Kind::Name);
        if dice.one_in(2) {
            let (uncompared, kind) = (dice.index(axes.len()), dice.pick(&KINDS[1..]));
            change(dice, made.sizes, &mut axes, uncompared, kind);
        }
        made.become_of(axes);
    } else if count > 2 && !dice.one_in(4) {
        made.slice(dice, placed);
        made.slice(dice, of_b);
    }
    step(made.sizes, 7, a, made.number, axis_index(dice, placed, count), &numbers(&[position]))
}

/// The index of an axis, from 0, of so many; seldom one that isn't there, which is refused before what differs.
fn axis_index(dice: &mut Dice, at: usize, count: usize) -> u8 {
    let none = dice.pick(&[0, count as u8 + 1, 255]);
    if dice.one_in(20) {
        none
    } else {
        at as u8 + 1
    }
}
