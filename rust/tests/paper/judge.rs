//! Each step judged before any cell is worked out, in the order 4, 5, 7, 8, 6, 9: a question for each number; and where its operands
//! differ, if that is 8. A step that passes has a shape: the type and extent of its result.

use super::array::Shape;
use super::bundle::Bundle;
use super::cell::Type;
use super::extent::{Axis, Extent, Proposed};
use super::recipe::{Operation::*, Step};
use super::version::Sizes;

/// The shapes that a step may use: those of the bundle, and those of the steps before; and the sizes of the bundle's version.
pub struct Shapes {
    pub sizes: Sizes,
    pub bundle: Vec<Shape>,
    pub steps: Vec<Shape>,
}

impl Shapes {
    /// Those of a bundle, before any step.
    pub fn of_bundle(bundle: &Bundle) -> Shapes {
        let shapes = bundle.arrays.iter().map(|declared| declared.array.shape()).collect();
        Shapes { sizes: bundle.sizes, bundle: shapes, steps: vec![] }
    }

    /// Operand 1..4 is a bundle array, 17..32 the result of step 1..16, earlier steps only.
    pub fn operand(&self, operand: u8) -> Option<&Shape> {
        match operand {
            1..=4 => self.bundle.get(usize::from(operand) - 1),
            17..=32 => self.steps.get(usize::from(operand) - 17),
            _ => None,
        }
    }
}

/// The step with the shape of its result, or the number of its refusal and its ordinality: what differs first with 8, else 0.
pub fn judge(bytes: &[u8], shapes: &Shapes) -> Result<(Step, Shape), (u32, u32)> {
    let step = Step::of_bytes(shapes.sizes, bytes).ok_or((4, 0))?;
    let a = shapes.operand(step.a).ok_or((4, 0))?;
    let b = if step.uses_b() { Some(shapes.operand(step.b).ok_or((4, 0))?) } else { None };
    if !step.operator_known() || !step.unused_are_zero(a.extent.axes.len()) {
        return Err((4, 0));
    }
    if step.uses_axis() && !(1..=a.extent.axes.len()).contains(&usize::from(step.axis)) {
        return Err((5, 0));
    }
    if !types_fit(&step, a, b) {
        return Err((7, 0));
    }
    if let Some(first) = b.and_then(|b| differences(&step, &a.extent, &b.extent).first().copied()) {
        return Err((8, first));
    }
    if outside(&step, &a.extent, b.map(|b| &b.extent)) {
        return Err((6, 0));
    }
    let extent = result_extent(&step, &a.extent, b.map(|b| &b.extent)).ok_or((9, 0))?;
    let of = result_type(&step, a.of);
    Ok((step, Shape { of, extent }))
}

/// 7: two operands have one type, the operator takes it, and a scalar is a value of it.
fn types_fit(step: &Step, a: &Shape, b: Option<&Shape>) -> bool {
    let one_type = b.is_none_or(|b| b.of == a.of);
    let operator_fits = match step.operation {
        Pair | RightScalar | LeftScalar => pair_operator_takes(step.operator(), a.of),
        Single => single_operator_takes(step.operator(), a.of),
        _ => true,
    };
    let scalar_fits = match step.operation {
        RightScalar | LeftScalar => a.of.filled(step.scalar()).is_some(),
        _ => true,
    };
    one_type && operator_fits && scalar_fits
}

fn pair_operator_takes(operator: u8, of: Type) -> bool {
    match operator {
        1..=4 | 8..=11 => of.is_number(),
        5 => of == Type::Int,
        6 | 7 => true,
        _ => of == Type::Boolean,
    }
}

fn single_operator_takes(operator: u8, of: Type) -> bool {
    match operator {
        1 | 2 => of.is_number(),
        4 => true,
        _ => of == Type::Boolean,
    }
}

/// 8: what differs of what each operation compares, axis by axis, and on an axis its name before its lower limit before its upper one.
/// Each is a figure: 10 times the axis's index in A, and 1 for the name, 2 for the lower limit, 3 for the upper one. If the axis counts
/// differ, 4 and no other, as no axis is compared.
pub fn differences(step: &Step, a: &Extent, b: &Extent) -> Vec<u32> {
    match step.operation {
        Update => figures(&indexed(a), b, |_| false),
        Place => figures(&without(&indexed(a), step.axis_at()), b, |_| false),
        Glue => glue_differences(a, b, step.axis_at()),
        _ => figures(&indexed(a), b, |_| true),
    }
}

/// All names, and limits but the gluing axis's.
pub fn glue_differences(a: &Extent, b: &Extent, axis: usize) -> Vec<u32> {
    figures(&indexed(a), b, |index| index as usize != axis + 1)
}

/// The axes with their indexes, from 1.
fn indexed(extent: &Extent) -> Vec<(u32, &Axis)> {
    (1..).zip(&extent.axes).collect()
}

/// The figures of what differs in these axes of A and all of B; whether limits are compared is told for each index in A.
fn figures(a: &[(u32, &Axis)], b: &Extent, limits: impl Fn(u32) -> bool) -> Vec<u32> {
    if a.len() != b.axes.len() {
        return vec![4];
    }
    let mut figures = vec![];
    for (&(index, of_a), of_b) in a.iter().zip(&b.axes) {
        let differs = [of_a.name != of_b.name, limits(index) && of_a.lower != of_b.lower, limits(index) && of_a.upper != of_b.upper];
        figures.extend((1..).zip(differs).filter(|(_, differs)| *differs).map(|(kind, _)| 10 * index + kind));
    }
    figures
}

/// The list with that item left out.
fn without<T: Clone>(list: &[T], left_out: usize) -> Vec<T> {
    list.iter().enumerate().filter(|(at, _)| *at != left_out).map(|(_, item)| item.clone()).collect()
}

/// 6: either end of a trim pair, a position or a patch outside A.
fn outside(step: &Step, a: &Extent, b: Option<&Extent>) -> bool {
    match (step.operation, b) {
        (Trim, _) => {
            let pairs = step.pairs(a.axes.len());
            a.axes.iter().zip(pairs).any(|(axis, (lower, upper))| !axis.holds(lower) || !axis.holds(upper))
        }
        (Slice, _) => !a.axes[step.axis_at()].holds(step.position()),
        (Update, Some(patch)) => !lies_inside(patch, a),
        (Place, Some(patch)) => {
            let rest = Extent { axes: without(&a.axes, step.axis_at()) };
            !a.axes[step.axis_at()].holds(step.position()) || !lies_inside(patch, &rest)
        }
        _ => false,
    }
}

/// Whether all coordinates of the patch are coordinates of the other (a box lies inside if both its far corners do).
fn lies_inside(patch: &Extent, other: &Extent) -> bool {
    let first: Vec<i32> = patch.axes.iter().map(|axis| axis.lower).collect();
    let last: Vec<i32> = patch.axes.iter().map(|axis| axis.upper).collect();
    other.holds(&first) && other.holds(&last)
}

/// The extent of the result, or none: 9.
fn result_extent(step: &Step, a: &Extent, b: Option<&Extent>) -> Option<Extent> {
    let count = a.axes.len();
    let named = |index: usize, lower: i64, upper: i64| Proposed { lower, upper, ..a.axes[index].proposed() };
    match (step.operation, b) {
        (Trim | Reshape, _) => {
            let pairs = step.pairs(count);
            let limits = (0..count).map(|i| named(i, i64::from(pairs[i].0), i64::from(pairs[i].1)));
            Extent::judged(&limits.collect::<Vec<_>>())
        }
        (Slice, _) => Extent::judged(&without(&a.proposed(), step.axis_at())),
        (Shift, _) => {
            let amounts = step.amounts(count);
            let moved = |limit: i32, i: usize| i64::from(limit) + i64::from(amounts[i]);
            let limits = (0..count).map(|i| named(i, moved(a.axes[i].lower, i), moved(a.axes[i].upper, i)));
            Extent::judged(&limits.collect::<Vec<_>>())
        }
        (Rename, _) => {
            let names = step.names(count).into_iter();
            let renamed = names.zip(a.proposed()).map(|(name, axis)| Proposed { name, ..axis });
            Extent::judged(&renamed.collect::<Vec<_>>())
        }
        (Glue, Some(b)) => glued_extent(a, b, step.axis_at()),
        _ => Some(a.clone()),
    }
}

/// A then B along the axis; A's lower limit kept.
pub fn glued_extent(a: &Extent, b: &Extent, axis: usize) -> Option<Extent> {
    let mut axes = a.proposed();
    axes[axis].upper += b.axes[axis].width() as i64;
    Extent::judged(&axes)
}

/// Arithmetic, negate and absolute give A's type, as do the operations that move cells; the others truth values.
fn result_type(step: &Step, of: Type) -> Type {
    match step.operation {
        Pair | RightScalar | LeftScalar if step.operator() > 5 => Type::Boolean,
        Single if step.operator() > 2 => Type::Boolean,
        _ => of,
    }
}
