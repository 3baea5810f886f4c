//! One step made up over the shapes at hand: fitting ones, in which operands, limits, positions and operators are chosen to
//! pass, and loose ones, in which several things may be wrong at once.

use super::bundles::{alike, bad_name, good_name, padded, twin_name, Name};
use super::cells::{edge_float, edge_int, no_value};
use super::dice::Dice;
use crate::paper::array::Shape;
use crate::paper::cell::Type;
use crate::paper::extent::Axis;
use crate::paper::judge::{judge, Shapes};
use crate::paper::version::Sizes;

pub type StepBytes = Vec<u8>;

/// The operand numbers that name something.
pub fn operands(shapes: &Shapes) -> Vec<u8> {
    let bundle = 1..=shapes.bundle.len() as u8;
    let steps = (17..).take(shapes.steps.len());
    bundle.chain(steps).collect()
}

/// An operand: any of those at hand, oftener the latest.
pub fn operand(dice: &mut Dice, shapes: &Shapes) -> u8 {
    let all = operands(shapes);
    let any = dice.pick(&all);
    dice.pick(&[any, any, all[all.len() - 1]])
}

/// The bytes of a step; the detail is filled with zeros.
pub fn step(sizes: Sizes, operation: u8, a: u8, b: u8, axis: u8, detail: &[u8]) -> StepBytes {
    let mut bytes = vec![operation, a, b, axis];
    bytes.extend(detail);
    bytes.resize(sizes.step, 0);
    bytes
}

pub fn numbers(list: &[i32]) -> Vec<u8> {
    list.iter().flat_map(|number| number.to_le_bytes()).collect()
}

/// A step that should pass, if there is one of the operation drawn.
pub fn fitting(dice: &mut Dice, shapes: &Shapes) -> Option<StepBytes> {
    let (sizes, a) = (shapes.sizes, operand(dice, shapes));
    let shape = shapes.operand(a)?;
    match dice.pick(&[1, 1, 2, 3, 4, 4, 5, 6, 6, 7, 7, 7, 8, 8, 9, 9, 9, 9, 10, 10, 10, 11, 11, 11, 12, 12]) {
        1 => Some(step(sizes, 1, a, 0, 0, &pairs(dice, shape, part))),
        2 => slice(dice, sizes, a, shape),
        3 => Some(step(sizes, 3, a, 0, 0, &reshaped(dice, shape))),
        4 => Some(step(sizes, 4, a, 0, 0, &amounts(dice, shape))),
        5 => Some(step(sizes, 5, a, 0, 0, &names(dice, sizes, shape))),
        6 if !dice.one_in(4) => patch(dice, shapes, 6).or_else(|| two_operands(dice, shapes, 6, a)),
        7 => patch(dice, shapes, 7),
        operation @ 6..=9 => two_operands(dice, shapes, operation, a),
        operation @ 10..=11 => Some(scalar_step(dice, sizes, operation, a, shape)),
        _ => Some(step(sizes, 12, a, 0, 0, &[single_operator(dice, shape.of)])),
    }
}

/// A fitting step that ends in truth values.
pub fn truth(dice: &mut Dice, shapes: &Shapes) -> Option<StepBytes> {
    let bytes = fitting(dice, shapes)?;
    let (_, shape) = judge(&bytes, shapes).ok()?;
    (shape.of == Type::Boolean).then_some(bytes)
}

/// A comparison of two operands of that type.
pub fn comparison(dice: &mut Dice, sizes: Sizes, of: Type, a: u8, b: u8) -> StepBytes {
    let comparisons = if of.is_number() { 6 } else { 2 };
    step(sizes, 9, a, b, 0, &[6 + dice.index(comparisons) as u8])
}

/// A step that takes truth values of which some are unknown: NOT or a single operator of 5 to 7, AND or OR with a scalar, or a pair
/// with an operand that fits, on either side.
pub fn on_unknown(dice: &mut Dice, shapes: &Shapes, unknown: u8) -> Option<StepBytes> {
    let sizes = shapes.sizes;
    match dice.below(6) {
        0..=2 => Some(step(sizes, 12, unknown, 0, 0, &[dice.pick(&[3, 3, 5, 6, 7])])),
        3 => Some(with_scalar(sizes, dice.pick(&[10, 11]), unknown, dice.pick(&[12, 13]), dice.below(2))),
        _ => {
            let mut bytes = two_operands(dice, shapes, 9, unknown)?;
            if dice.one_in(2) {
                bytes.swap(1, 2);
            }
            Some(bytes)
        }
    }
}

/// Arithmetic at which a value may well refuse: edges and zeros as scalars, pairs, negate and absolute.
pub fn risky(dice: &mut Dice, shapes: &Shapes) -> Option<StepBytes> {
    let (sizes, a) = (shapes.sizes, operand(dice, shapes));
    let shape = shapes.operand(a)?;
    if !shape.of.is_number() {
        return None;
    }
    let operation = dice.pick(&[9, 9, 9, 10, 10, 11, 11, 12, 12]);
    match operation {
        9 => two_operands(dice, shapes, 9, a),
        12 => Some(step(sizes, 12, a, 0, 0, &[dice.pick(&[1, 2])])),
        _ => {
            let of_int = dice.pick(&[0, 0, -1, i64::MAX, i64::MIN, 1 << 62]) as u64;
            let of_float = dice.pick(&[0.0, -0.0, f64::MAX, 1e-300, 1e300]).to_bits();
            let (bits, last) = if shape.of == Type::Int { (of_int, 5) } else { (of_float, 4) };
            Some(with_scalar(sizes, operation, a, 1 + dice.index(last) as u8, bits))
        }
    }
}

fn pairs(dice: &mut Dice, shape: &Shape, of_axis: fn(&mut Dice, &Axis) -> [i32; 2]) -> Vec<u8> {
    let pairs: Vec<i32> = shape.extent.axes.iter().flat_map(|axis| of_axis(dice, axis)).collect();
    numbers(&pairs)
}

/// A part of an axis, often the whole, now and then all but its two ends.
fn part(dice: &mut Dice, axis: &Axis) -> [i32; 2] {
    match dice.below(16) {
        0..=7 => return [axis.lower, axis.upper],
        8 if axis.width() > 2 => return [axis.lower + 1, axis.upper - 1],
        _ => {}
    }
    let lower = dice.between(axis.lower, axis.upper);
    [lower, dice.between(lower, axis.upper)]
}

/// New limits near the old ones; now and then as many cells as there may be, or just more.
fn reshaped(dice: &mut Dice, shape: &Shape) -> Vec<u8> {
    if dice.one_in(300) {
        let others: u128 = shape.extent.axes[1..].iter().map(Axis::width).product();
        let width = (4_096 / others) as i32 + dice.pick(&[0, 0, 1]);
        let first = &shape.extent.axes[0];
        let mut limits: Vec<i32> = shape.extent.axes.iter().flat_map(|axis| [axis.lower, axis.upper]).collect();
        (limits[0], limits[1]) = (first.lower, first.lower.saturating_add(width - 1));
        return numbers(&limits);
    }
    pairs(dice, shape, |dice, axis| {
        let lower = axis.lower + dice.pick(&[-1, 0, 0, 1]);
        [lower, (axis.upper + dice.pick(&[-1, 0, 0, 1])).max(lower)]
    })
}

/// Small amounts; sometimes just to an end of the range.
fn amounts(dice: &mut Dice, shape: &Shape) -> Vec<u8> {
    let of_axis = |axis: &Axis| match dice.below(24) {
        0 => 1_000_000 - axis.upper,
        1 => -1_000_000 - axis.lower,
        2 => -axis.lower,
        _ => dice.pick(&[0, 0, 1, -1, 2]),
    };
    numbers(&shape.extent.axes.iter().map(of_axis).collect::<Vec<i32>>())
}

/// New names; now and then the old ones but for one, which is nearly the same.
fn names(dice: &mut Dice, sizes: Sizes, shape: &Shape) -> Vec<u8> {
    if dice.one_in(3) {
        let mut names: Vec<Name> = shape.extent.names().iter().map(|name| padded(name)).collect();
        let which = dice.index(names.len());
        names[which] = twin_name(dice, sizes, &names[which]);
        return slots(sizes, &names);
    }
    let mut names: Vec<Name> = vec![];
    while names.len() < shape.extent.axes.len() {
        let name = good_name(dice, sizes);
        if !names.contains(&name) {
            names.push(name);
        }
    }
    slots(sizes, &names)
}

/// The names as they stand in a detail.
pub fn slots(sizes: Sizes, names: &[Name]) -> Vec<u8> {
    names.iter().flat_map(|name| name[..sizes.name].to_vec()).collect()
}

fn slice(dice: &mut Dice, sizes: Sizes, a: u8, shape: &Shape) -> Option<StepBytes> {
    let axis = dice.index(shape.extent.axes.len());
    let Axis { lower, upper, .. } = shape.extent.axes[axis];
    let position = dice.between(lower, upper);
    (shape.extent.axes.len() > 1).then(|| step(sizes, 2, a, 0, axis as u8 + 1, &numbers(&[position])))
}

/// Update or place with an operand of another extent, in any that it fits.
fn patch(dice: &mut Dice, shapes: &Shapes, operation: u8) -> Option<StepBytes> {
    let (all, fewer) = (operands(shapes), usize::from(operation == 7));
    let mut list = vec![];
    for (a, b) in all.iter().flat_map(|&a| all.iter().map(move |&b| (a, b))) {
        let (whole, patch) = (shapes.operand(a)?, shapes.operand(b)?);
        let axes_fit = whole.extent.axes.len() == patch.extent.axes.len() + fewer;
        if axes_fit && whole.of == patch.of && whole.extent != patch.extent {
            list.extend(with_b(dice, shapes.sizes, whole, [operation, a, b], inside));
        }
    }
    list.retain(|bytes| judge(bytes, shapes).is_ok());
    (!list.is_empty()).then(|| list.swap_remove(dice.index(list.len())))
}

/// Update, glue or pair with one of the operands that fit, if any does; seldom with A itself.
fn two_operands(dice: &mut Dice, shapes: &Shapes, operation: u8, a: u8) -> Option<StepBytes> {
    let mut fitting = candidates(dice, shapes, operation, a, inside);
    fitting.retain(|bytes| judge(bytes, shapes).is_ok());
    let others: Vec<StepBytes> = fitting.iter().filter(|bytes| bytes[2] != a).cloned().collect();
    let list = if others.is_empty() || dice.one_in(8) { fitting } else { others };
    (!list.is_empty()).then(|| list[dice.index(list.len())].clone())
}

/// The operation with A and each operand as B, on each axis, at a position drawn for it.
fn candidates(dice: &mut Dice, shapes: &Shapes, operation: u8, a: u8, at: At) -> Vec<StepBytes> {
    let shape = shapes.operand(a).expect("an operand at hand");
    operands(shapes).into_iter().flat_map(|b| with_b(dice, shapes.sizes, shape, [operation, a, b], at)).collect()
}

/// How a position is drawn for an axis.
type At = fn(&mut Dice, &Axis) -> i32;

/// The operation with A, which has that shape, and B, on each axis, at a position drawn for it.
fn with_b(dice: &mut Dice, sizes: Sizes, shape: &Shape, [operation, a, b]: [u8; 3], at: At) -> Vec<StepBytes> {
    let mut steps = vec![];
    for (index, axis) in (1..).zip(&shape.extent.axes) {
        let position = at(dice, axis);
        steps.push(match operation {
            7 => step(sizes, 7, a, b, index, &numbers(&[position])),
            8 => step(sizes, 8, a, b, index, &[]),
            9 => step(sizes, 9, a, b, 0, &[pair_operator(dice, shape.of)]),
            _ => step(sizes, 6, a, b, 0, &[]),
        });
    }
    steps
}

/// A step that is refused with a number drawn beforehand, if one is found in a few tries; else a loose one.
pub fn aimed(dice: &mut Dice, shapes: &Shapes) -> StepBytes {
    let number = dice.pick(&[5, 5, 6, 6, 6, 7, 7, 8, 9, 9]);
    for _ in 0..12 {
        let a = operand(dice, shapes);
        let operation = dice.pick(&[6, 7, 7, 8, 9]);
        let mut list = candidates(dice, shapes, operation, a, near);
        list.push(loose(dice, shapes));
        list.retain(|bytes| judge(bytes, shapes).is_err_and(|(refusal, _)| refusal == number));
        if !list.is_empty() {
            return list.swap_remove(dice.index(list.len()));
        }
    }
    loose(dice, shapes)
}

/// A step whose operands have names that are the same in their first eight letters, and not in all, if there are such.
pub fn of_alike(dice: &mut Dice, shapes: &Shapes) -> Option<StepBytes> {
    let all = operands(shapes);
    let names = |which: u8| shapes.operand(which).expect("an operand at hand").extent.names();
    let pairs = all.iter().flat_map(|&a| all.iter().map(move |&b| (a, b)));
    let found: Vec<(u8, u8)> = pairs.filter(|&(a, b)| alike(&names(a), &names(b))).collect();
    let (a, b) = dice.pick_if_any(&found)?;
    let operation = dice.pick(&[6, 8, 9]);
    let list = with_b(dice, shapes.sizes, shapes.operand(a)?, [operation, a, b], inside);
    Some(list[dice.index(list.len())].clone())
}

pub fn pair_operator(dice: &mut Dice, of: Type) -> u8 {
    match of {
        Type::Int => dice.pick(&[1, 1, 2, 2, 3, 4, 5, 6, 7, 8, 9, 10, 11]),
        Type::Float => dice.pick(&[1, 1, 2, 2, 3, 4, 6, 7, 8, 9, 10, 11]),
        Type::Boolean => dice.pick(&[6, 7, 12, 12, 13, 13]),
    }
}

fn single_operator(dice: &mut Dice, of: Type) -> u8 {
    if of == Type::Boolean {
        dice.pick(&[3, 3, 4, 5, 6, 7])
    } else {
        dice.pick(&[1, 1, 2, 2, 4])
    }
}

fn scalar_step(dice: &mut Dice, sizes: Sizes, operation: u8, a: u8, shape: &Shape) -> StepBytes {
    let operator = pair_operator(dice, shape.of);
    let bits = match shape.of {
        Type::Int if dice.one_in(10) => edge_int(dice) as u64,
        Type::Int => i64::from(dice.pick(&[-7, -2, -1, 1, 2, 3, 5, 0])) as u64,
        Type::Float if dice.one_in(10) => edge_float(dice).to_bits(),
        Type::Float => dice.pick(&[-2.0f64, -0.5, 0.1, 1.0, 3.0, 0.0, -0.0, 1e3]).to_bits(),
        Type::Boolean => dice.below(2),
    };
    with_scalar(sizes, operation, a, operator, bits)
}

fn with_scalar(sizes: Sizes, operation: u8, a: u8, operator: u8, bits: u64) -> StepBytes {
    let detail = [&[operator, 0, 0, 0], bits.to_le_bytes().as_slice()].concat();
    step(sizes, operation, a, 0, 0, &detail)
}

/// A step whose form is right and whose operands are there, but which is otherwise drawn without looking.
pub fn loose(dice: &mut Dice, shapes: &Shapes) -> StepBytes {
    let sizes = shapes.sizes;
    let (a, mut b) = (operand(dice, shapes), operand(dice, shapes));
    let shape = shapes.operand(a).expect("an operand at hand").clone();
    let count = shape.extent.axes.len();
    let axis = if dice.one_in(6) { dice.pick(&[0, 5, 7, count as u8 + 1, 255]) } else { 1 + dice.index(count) as u8 };
    if dice.one_in(3) {
        b = a;
    }
    match dice.pick(&[1, 1, 2, 2, 3, 4, 5, 5, 6, 6, 7, 7, 7, 8, 8, 8, 9, 9, 10, 11, 12, 12, 12]) {
        operation @ (1 | 3) => step(sizes, operation, a, 0, 0, &pairs(dice, &shape, near_pair)),
        2 => step(sizes, 2, a, 0, axis, &numbers(&[near(dice, &shape.extent.axes[usize::from(axis).clamp(1, count) - 1])])),
        4 => {
            let amounts: Vec<i32> = (0..count).map(|_| dice.extreme()).collect();
            step(sizes, 4, a, 0, 0, &numbers(&amounts))
        }
        5 => step(sizes, 5, a, 0, 0, &loose_names(dice, sizes, count)),
        6 => step(sizes, 6, a, b, 0, &[]),
        7 => step(sizes, 7, a, b, axis, &numbers(&[near(dice, &shape.extent.axes[usize::from(axis).clamp(1, count) - 1])])),
        8 => step(sizes, 8, a, b, axis, &[]),
        9 => step(sizes, 9, a, b, 0, &[1 + dice.index(13) as u8]),
        operation @ (10 | 11) => loose_scalar(dice, sizes, operation, a, &shape),
        _ => step(sizes, 12, a, 0, 0, &[dice.pick(&[1, 2, 3, 4, 5, 5, 6, 6, 7, 7, 8, 8])]),
    }
}

fn inside(dice: &mut Dice, axis: &Axis) -> i32 {
    dice.between(axis.lower, axis.upper)
}

/// A position in an axis, just outside it, or far away.
fn near(dice: &mut Dice, axis: &Axis) -> i32 {
    let inside = inside(dice, axis);
    let extreme = dice.extreme();
    dice.pick(&[inside, inside, inside, axis.lower, axis.upper, axis.lower - 1, axis.upper + 1, extreme])
}

fn near_pair(dice: &mut Dice, axis: &Axis) -> [i32; 2] {
    [near(dice, axis), near(dice, axis)]
}

/// Names that may be bad or equal; now and then one in the slot past the last axis, if there is one.
fn loose_names(dice: &mut Dice, sizes: Sizes, count: usize) -> Vec<u8> {
    let past = usize::from(dice.one_in(4));
    let bad_in = dice.pick(&[4, 8, 1_000]);
    let name = |dice: &mut Dice| if dice.one_in(bad_in) { bad_name(dice, sizes) } else { good_name(dice, sizes) };
    let names: Vec<Name> = (0..(count + past).min(sizes.most_axes)).map(|_| name(dice)).collect();
    slots(sizes, &names)
}

fn loose_scalar(dice: &mut Dice, sizes: Sizes, operation: u8, a: u8, shape: &Shape) -> StepBytes {
    let bits = if dice.one_in(2) { no_value(dice, shape.of.byte()) } else { dice.below(3) };
    with_scalar(sizes, operation, a, 1 + dice.index(13) as u8, bits)
}
