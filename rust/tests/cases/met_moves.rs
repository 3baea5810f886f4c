//! The moves (operations 1 to 8) and the odd shapes they met, counted: how many accepted run and page cases had each move on an operand
//! A of one cell, one row, one column, four axes and six, where blanks and B's cells lay in a row, and on which axis B was placed.
//! All of it is worked out from the paper's plan; what the library answers has no part in it.

use super::{Case, Function};
use crate::paper::bundle::{read, Bundle};
use crate::paper::extent::{Axis, Extent};
use crate::paper::listing::Plan;
use crate::paper::recipe::{Operation, Step};

/// A form of operand A. An array of four or six axes may have another of these forms besides.
#[derive(Clone, Copy, PartialEq, Eq)]
enum Form {
    /// At least two axes, all of width 1.
    Cell,
    /// At least two axes, of which only the last is wider than 1.
    Row,
    /// At least two axes, the last of width 1, the first wider.
    Column,
    FourAxes,
    SixAxes,
}

/// A thing that an accepted case meets; what it meets twice counts once.
#[derive(Clone, Copy, PartialEq, Eq)]
enum Thing {
    /// That move, with an operand A of that form.
    Move(Form, Operation),
    /// A reshape that keeps a cell: whether its last axis grows below, so that a row has blanks before it, and whether above.
    Blanks(bool, bool),
    /// A trim that leaves one cell of each row, of two or more.
    OneLeft,
    /// An update with A's cells on both sides of B's in a row.
    Between,
    /// That move with a B of one cell a row, where A has more.
    OneOfRow(Operation),
    /// A place on the first, a middle or the last axis.
    PlaceOn(&'static str),
}

const FORMS: [Form; 5] = [Form::Cell, Form::Row, Form::Column, Form::FourAxes, Form::SixAxes];

const MOVES: [(Operation, &str); 8] = [
    (Operation::Trim, "trim"),
    (Operation::Slice, "slice"),
    (Operation::Reshape, "reshape"),
    (Operation::Shift, "shift"),
    (Operation::Rename, "rename"),
    (Operation::Update, "update"),
    (Operation::Place, "place"),
    (Operation::Glue, "glue"),
];

fn name(operation: Operation) -> &'static str {
    MOVES.iter().find(|(of, _)| *of == operation).map_or("", |(_, name)| *name)
}

impl Form {
    /// Whether an array of that extent has the form.
    fn fits(self, extent: &Extent) -> bool {
        let widths: Vec<u128> = extent.axes.iter().map(Axis::width).collect();
        let [first, .., last] = widths[..] else { return false };
        match self {
            Form::Cell => extent.cells() == 1,
            Form::Row => last > 1 && extent.cells() == last,
            Form::Column => last == 1 && first > 1,
            Form::FourAxes => widths.len() == 4,
            Form::SixAxes => widths.len() == 6,
        }
    }
}

impl Thing {
    /// Every thing, those of one line together.
    fn all() -> Vec<Thing> {
        let moves = FORMS.into_iter().flat_map(|form| MOVES.map(|(operation, _)| Thing::Move(form, operation)));
        let blanks = [(true, false), (false, true), (true, true)].map(|(before, after)| Thing::Blanks(before, after));
        let rows = [Thing::OneLeft, Thing::Between, Thing::OneOfRow(Operation::Update), Thing::OneOfRow(Operation::Place)];
        let axes = ["first", "middle", "last"].map(Thing::PlaceOn);
        moves.chain(blanks).chain(rows).chain(axes).collect()
    }

    fn line(self) -> &'static str {
        match self {
            Thing::Move(Form::Cell, _) => "A of one cell",
            Thing::Move(Form::Row, _) => "A of one row",
            Thing::Move(Form::Column, _) => "A of one column",
            Thing::Move(Form::FourAxes, _) => "A of four axes",
            Thing::Move(Form::SixAxes, _) => "A of six axes",
            Thing::PlaceOn(_) => "place, by axis",
            _ => "in a row",
        }
    }

    fn words(self) -> String {
        match self {
            Thing::Move(_, operation) => name(operation).to_string(),
            Thing::Blanks(true, false) => "reshape with blanks before".to_string(),
            Thing::Blanks(false, _) => "reshape with blanks after".to_string(),
            Thing::Blanks(..) => "reshape with blanks on both sides".to_string(),
            Thing::OneLeft => "trim to one cell".to_string(),
            Thing::Between => "update with cells of A on both sides".to_string(),
            Thing::OneOfRow(operation) => format!("{} with one cell of B", name(operation)),
            Thing::PlaceOn(axis) => axis.to_string(),
        }
    }
}

/// How many cases met each.
pub struct MetMoves {
    counts: Vec<(Thing, u64)>,
}

impl MetMoves {
    pub fn new() -> MetMoves {
        MetMoves { counts: Thing::all().into_iter().map(|thing| (thing, 0)).collect() }
    }

    /// Counts what a case meets that the paper answers with that number.
    pub fn count(&mut self, case: &Case, number: u32) {
        if number != 0 || !matches!(case.function, Function::Run | Function::Page) {
            return;
        }
        let bundle = read(&case.shared[0]).expect("a bundle that was accepted");
        let met = met(&bundle, &case.shared[1]);
        self.counts.iter_mut().filter(|(thing, _)| met.contains(thing)).for_each(|(_, count)| *count += 1);
    }

    /// Each line in words.
    pub fn lines(&self) -> Vec<String> {
        let of_line = |line: &str| {
            let counts = self.counts.iter().filter(|(thing, _)| thing.line() == line);
            let words: Vec<String> = counts.map(|(thing, count)| format!("{count} {}", thing.words())).collect();
            format!("cases of moves, {line}: {}", words.join(", "))
        };
        let mut lines: Vec<&str> = self.counts.iter().map(|(thing, _)| thing.line()).collect();
        lines.dedup();
        lines.into_iter().map(of_line).collect()
    }

    /// What fewer cases than that met.
    pub fn seldom(&self, least: u64) -> Vec<String> {
        let seldom = self.counts.iter().filter(|(_, count)| *count < least);
        seldom.map(|(thing, count)| format!("{}: {count} {}", thing.line(), thing.words())).collect()
    }
}

/// What the steps of an accepted recipe meet.
fn met(bundle: &Bundle, recipe: &[u8]) -> Vec<Thing> {
    let plan = Plan::of_recipe(bundle, recipe).expect("a recipe that was accepted");
    let extent = |which: u8| match which {
        1..=4 => &bundle.arrays[usize::from(which) - 1].array.extent,
        _ => &plan.shapes[usize::from(which) - 17].extent,
    };
    let mut met = vec![];
    for (step, shape) in plan.steps.iter().zip(&plan.shapes) {
        let a = extent(step.a);
        met.extend(FORMS.into_iter().filter(|form| form.fits(a)).map(|form| Thing::Move(form, step.operation)));
        if step.uses_b() {
            met.extend(met_patch(step, a, extent(step.b)));
        } else {
            met.extend(met_row(step.operation, a, &shape.extent));
        }
    }
    met
}

fn last(extent: &Extent) -> &Axis {
    extent.axes.last().expect("an extent has an axis")
}

/// What a reshape or trim makes of a row.
fn met_row(operation: Operation, a: &Extent, result: &Extent) -> Option<Thing> {
    let (of, to) = (last(a), last(result));
    match operation {
        Operation::Reshape => {
            let kept = a.axes.iter().zip(&result.axes).all(|(of, to)| of.lower <= to.upper && to.lower <= of.upper);
            kept.then_some(Thing::Blanks(to.lower < of.lower, to.upper > of.upper))
        }
        Operation::Trim => (of.width() > 1 && to.width() == 1).then_some(Thing::OneLeft),
        _ => None,
    }
}

/// Where an update or place puts B.
fn met_patch(step: &Step, a: &Extent, b: &Extent) -> Vec<Thing> {
    let (row, of_row) = (last(a), last(b));
    let between = row.lower < of_row.lower && of_row.upper < row.upper;
    let mut met = vec![];
    match step.operation {
        Operation::Update => met.extend(between.then_some(Thing::Between)),
        Operation::Place => met.push(Thing::PlaceOn(match step.axis_at() {
            0 => "first",
            axis if axis + 1 == a.axes.len() => "last",
            _ => "middle",
        })),
        _ => return met,
    }
    met.extend((row.width() > 1 && of_row.width() == 1).then_some(Thing::OneOfRow(step.operation)));
    met
}
