//! What request [3] of paper 02 changed, counted: each figure that 8 can have, by what compares (pair, update, place, glue, stretch) and by
//! what passes it on; what else differed beside the axis that is told; axis counts on both sides; and differences that aren't compared.
//! All of it is worked out from the paper; what the library answers has no part in it.

use super::{Case, Function, FUNCTIONS};
use crate::paper::array::Shape;
use crate::paper::bundle::{read, Bundle};
use crate::paper::extent::{Axis, Extent, Proposed};
use crate::paper::judge::{differences, glue_differences, Shapes};
use crate::paper::listing::Plan;
use crate::paper::pack::head_in;
use crate::paper::recipe::{Operation, Step};
use crate::paper::version::{Sizes, TWO};

/// What compares two arrays.
#[derive(Clone, Copy, Debug, PartialEq, Eq)]
enum By {
    Pair,
    Update,
    Place,
    Glue,
    Stretch,
}

use By::*;

/// A thing that a case meets; what it meets twice counts once.
#[derive(Clone, Debug, PartialEq, Eq)]
enum Thing {
    /// Refused with 8 and that figure.
    Figure(By, u32),
    /// Refused by that function, with that last digit of the figure.
    Passed(Function, u32),
    /// Refused on an axis, with a later one differing too.
    TwoAxes(By),
    /// Refused for a name, a limit of that axis differing too; for a lower limit, the upper one differing too.
    NameAndLimit(By),
    BothLimits(By),
    /// Refused for a limit, the name of a later axis differing too.
    LimitBeforeName(By),
    /// Refused on an axis, with a limit of an earlier one differing that isn't compared.
    PastUncompared(By),
    /// Refused for the name of the gluing axis; whether its limits differ too.
    GluingName(By, bool),
    /// A place refused on an axis of A that is before, or after, the placed one.
    Placed(&'static str),
    /// Refused for the axis counts, B having so many axes: those of A and this.
    Counts(By, i32),
    /// A place into an A of one axis: refused for the axis counts.
    OneAxis,
    /// Done, with limits differing that aren't compared: of the gluing axis, or of any.
    Uncompared(By),
}

const WITH_RECIPE: [Function; 4] = [Function::Plan, Function::Extent, Function::Run, Function::Page];
const ALL: [By; 5] = [Pair, Update, Place, Glue, Stretch];

impl By {
    fn of(operation: Operation) -> Option<By> {
        match operation {
            Operation::Pair => Some(Pair),
            Operation::Update => Some(Update),
            Operation::Place => Some(Place),
            Operation::Glue => Some(Glue),
            _ => None,
        }
    }

    /// Whether it compares limits at all.
    fn limits(self) -> bool {
        matches!(self, Pair | Glue | Stretch)
    }

    /// The figures that it can give.
    fn figures(self) -> Vec<u32> {
        let kinds = if self.limits() { 3 } else { 1 };
        let of_axes = (1..=TWO.most_axes as u32).flat_map(|index| (1..=kinds).map(move |kind| 10 * index + kind));
        std::iter::once(4).chain(of_axes).collect()
    }
}

impl Thing {
    /// Every thing, those of one line together.
    fn all() -> Vec<Thing> {
        let figures = ALL.into_iter().flat_map(|by| by.figures().into_iter().map(move |figure| Thing::Figure(by, figure)));
        let mut all: Vec<Thing> = figures.collect();
        for function in WITH_RECIPE.into_iter().chain([Function::Stretch]) {
            all.extend((1..=4).map(|kind| Thing::Passed(function, kind)));
        }
        all.extend(ALL.map(Thing::TwoAxes));
        let with_limits = [Pair, Glue, Stretch];
        all.extend(with_limits.map(Thing::NameAndLimit));
        all.extend(with_limits.map(Thing::BothLimits));
        all.extend(with_limits.map(Thing::LimitBeforeName));
        let not_all = [Update, Place, Glue, Stretch];
        all.extend(not_all.map(Thing::PastUncompared));
        all.extend([Glue, Stretch].iter().flat_map(|&by| [false, true].map(|limits| Thing::GluingName(by, limits))));
        all.extend(["before", "after"].map(Thing::Placed));
        let more_or_fewer = [Pair, Update, Glue, Stretch].into_iter().flat_map(|by| [-1, 1].map(|more| Thing::Counts(by, more)));
        all.extend(more_or_fewer.chain([-2, 0].map(|more| Thing::Counts(Place, more))));
        all.push(Thing::OneAxis);
        all.extend(not_all.map(Thing::Uncompared));
        all
    }

    fn line(&self) -> String {
        match self {
            Thing::Figure(by, _) => format!("refused by a {}, by figure", by.name()),
            Thing::Passed(function, _) => format!("{} refused, by what differs", FUNCTIONS[*function as usize].1),
            Thing::TwoAxes(_) => "a later axis differs too".to_string(),
            Thing::NameAndLimit(_) => "a name, and a limit of that axis differs too".to_string(),
            Thing::BothLimits(_) => "a lower limit, and the upper one differs too".to_string(),
            Thing::LimitBeforeName(_) => "a limit, and a later name differs too".to_string(),
            Thing::PastUncompared(_) => "a limit of an earlier axis differs, and isn't compared".to_string(),
            Thing::GluingName(..) => "the gluing axis's name".to_string(),
            Thing::Placed(_) => "a place, the axis and the placed one".to_string(),
            Thing::Counts(..) | Thing::OneAxis => "axis counts".to_string(),
            Thing::Uncompared(_) => "done, and limits differ that aren't compared".to_string(),
        }
    }

    fn words(&self) -> String {
        match self {
            Thing::Figure(_, figure) => figure.to_string(),
            Thing::Passed(_, kind) => ["a name", "a lower limit", "an upper limit", "the axis count"][*kind as usize - 1].to_string(),
            Thing::GluingName(by, true) => format!("{}, its limits too", by.name()),
            Thing::Placed(side) => side.to_string(),
            Thing::Counts(by, more) => format!("{} with B's {more:+}", by.name()),
            Thing::OneAxis => "place in one axis".to_string(),
            Thing::TwoAxes(by) | Thing::NameAndLimit(by) | Thing::BothLimits(by) | Thing::LimitBeforeName(by) => by.name(),
            Thing::PastUncompared(by) | Thing::GluingName(by, _) | Thing::Uncompared(by) => by.name(),
        }
    }
}

impl By {
    fn name(self) -> String {
        format!("{self:?}").to_lowercase()
    }
}

/// How many cases met each.
pub struct MetAxes {
    counts: Vec<(Thing, u64)>,
}

impl MetAxes {
    pub fn new() -> MetAxes {
        MetAxes { counts: Thing::all().into_iter().map(|thing| (thing, 0)).collect() }
    }

    /// Counts what a case meets that the paper answers with that number.
    pub fn count(&mut self, case: &Case, number: u32) {
        let met = match number {
            0 | 8 if case.function == Function::Stretch => met_stretch(case),
            0 | 8 if WITH_RECIPE.contains(&case.function) => met_recipe(case, number),
            _ => return,
        };
        self.counts.iter_mut().filter(|(thing, _)| met.contains(thing)).for_each(|(_, count)| *count += 1);
    }

    /// Each line in words.
    pub fn lines(&self) -> Vec<String> {
        let of_line = |line: String| {
            let counts = self.counts.iter().filter(|(thing, _)| thing.line() == line);
            let words: Vec<String> = counts.map(|(thing, count)| format!("{count} {}", thing.words())).collect();
            format!("cases of request [3], {line}: {}", words.join(", "))
        };
        let mut lines: Vec<String> = self.counts.iter().map(|(thing, _)| thing.line()).collect();
        lines.dedup();
        lines.into_iter().map(of_line).collect()
    }

    /// What fewer cases than that met.
    pub fn seldom(&self, least: u64) -> Vec<String> {
        let seldom = self.counts.iter().filter(|(_, count)| *count < least);
        seldom.map(|(thing, count)| format!("{}: {count} {}", thing.line(), thing.words())).collect()
    }
}

/// Two extents that are compared, what differs of what is, and the axis that is placed or glued on, from 1; 0 for none.
struct Compared<'a> {
    by: By,
    a: &'a Extent,
    b: &'a Extent,
    figures: Vec<u32>,
    axis: u32,
}

/// What a stretch meets whose sides are judged good.
fn met_stretch(case: &Case) -> Vec<Thing> {
    let sizes = Sizes::of_version(case.numbers[0]).expect("a version that was taken");
    let extent = |head: &[u8]| {
        let (_, axes) = head_in(sizes, head).expect("a head that was taken");
        let proposed: Vec<Proposed> = axes.into_iter().map(|axis| axis.axis).collect();
        Extent::judged(&proposed).expect("an extent that was taken")
    };
    let (a, b, axis) = (extent(&case.shared[0]), extent(&case.shared[2]), case.numbers[1]);
    let figures = glue_differences(&a, &b, axis as usize - 1);
    Compared { by: Stretch, a: &a, b: &b, figures, axis }.met(Function::Stretch)
}

/// What the steps of an accepted recipe meet, or the one at which it is refused.
fn met_recipe(case: &Case, number: u32) -> Vec<Thing> {
    let (bundle, recipe) = (read(&case.shared[0]).expect("a bundle that was accepted"), &case.shared[1]);
    let length = bundle.sizes.step;
    let done = match Plan::of_recipe(&bundle, recipe) {
        Err(refusal) => length * (refusal.place as usize - 1),
        Ok(_) => recipe.len(),
    };
    let shapes = shapes_of(&bundle, &recipe[..done]);
    let judged = if number == 8 { &recipe[done..done + length] } else { recipe };
    let met_step = |bytes: &[u8]| -> Option<Vec<Thing>> {
        let step = Step::of_bytes(bundle.sizes, bytes)?;
        let by = By::of(step.operation)?;
        let (a, b): (&Shape, &Shape) = (shapes.operand(step.a)?, shapes.operand(step.b)?);
        let figures = differences(&step, &a.extent, &b.extent);
        Some(Compared { by, a: &a.extent, b: &b.extent, figures, axis: u32::from(step.axis) }.met(case.function))
    };
    judged.chunks(length).filter_map(met_step).flatten().collect()
}

/// The shapes after the steps of an accepted recipe, or of none.
fn shapes_of(bundle: &Bundle, recipe: &[u8]) -> Shapes {
    let steps = Plan::of_recipe(bundle, recipe).map_or(vec![], |plan| plan.shapes);
    Shapes { steps, ..Shapes::of_bundle(bundle) }
}

impl Compared<'_> {
    fn met(&self, function: Function) -> Vec<Thing> {
        let by = self.by;
        let Some(&first) = self.figures.first() else {
            return if self.uncompared().is_empty() { vec![] } else { vec![Thing::Uncompared(by)] };
        };
        let mut met = vec![Thing::Figure(by, first), Thing::Passed(function, first % 10)];
        if first == 4 {
            met.push(Thing::Counts(by, self.b.axes.len() as i32 - self.a.axes.len() as i32));
            met.extend((by == Place && self.a.axes.len() == 1).then_some(Thing::OneAxis));
            return met;
        }
        let (index, kind) = (first / 10, first % 10);
        let rest = &self.figures[1..];
        let same = rest.iter().any(|figure| figure / 10 == index);
        let later = |kind: u32| rest.iter().any(|figure| figure / 10 > index && figure % 10 == kind);
        met.extend((1..=3).any(later).then_some(Thing::TwoAxes(by)));
        met.extend((kind == 1 && same).then_some(Thing::NameAndLimit(by)));
        met.extend((kind == 2 && same).then_some(Thing::BothLimits(by)));
        met.extend((kind != 1 && later(1)).then_some(Thing::LimitBeforeName(by)));
        met.extend(self.uncompared().iter().any(|axis| *axis < index).then_some(Thing::PastUncompared(by)));
        match by {
            Place => met.push(Thing::Placed(if index < self.axis { "before" } else { "after" })),
            Glue | Stretch if index == self.axis => met.push(Thing::GluingName(by, self.uncompared().contains(&index))),
            _ => {}
        }
        met
    }

    /// The axes of A that differ in a limit that isn't compared, where the axis counts fit.
    fn uncompared(&self) -> Vec<u32> {
        let indexed = (1..).zip(&self.a.axes).filter(|(index, _)| self.by != Place || *index != self.axis);
        let other = |a: &Axis, b: &Axis| (a.lower, a.upper) != (b.lower, b.upper);
        let differ = indexed.zip(&self.b.axes).filter(|((_, a), b)| other(a, b)).map(|((index, _), _)| index);
        differ.filter(|index| !self.by.limits() || *index == self.axis).collect()
    }
}
