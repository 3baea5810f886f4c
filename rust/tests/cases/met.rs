//! What request [1] of paper 02 changed, counted: how many run and page cases met the single operators that join, done and
//! refused, the comparisons with an empty cell among their two, and the operators that take what such a comparison gave.
//! All of it is worked out from the paper's plan and values; what the library answers has no part in it.

use super::{Case, Function};
use crate::paper::array::{Array, Declared};
use crate::paper::bundle::{read, Bundle};
use crate::paper::cell::Cell;
use crate::paper::listing::{operand, Plan};
use crate::paper::recipe::{Operation, Step};
use crate::paper::refusal::Refusal;

/// A line of the counts. What is done counts in accepted cases only; what a case meets twice counts once.
#[derive(Clone, Copy, PartialEq, Eq)]
enum Line {
    /// A single operator.
    Done,
    /// A single operator refused with that number at its step, and for nothing else.
    Refused(u32),
    /// A comparison by that operation, with an empty cell among its two.
    WithEmpty(Operation),
    /// A comparison by operation 9: whether the left cell is empty, and whether the right one is.
    PairOf(bool, bool),
    /// An operator on the result of a comparison with an empty cell.
    OnUnknown,
}

/// A line, and a name that stands in it.
type Meeting = (Line, &'static str);

const LINES: [Line; 10] = [
    Line::Done,
    Line::Refused(7),
    Line::Refused(4),
    Line::WithEmpty(Operation::Pair),
    Line::WithEmpty(Operation::RightScalar),
    Line::WithEmpty(Operation::LeftScalar),
    Line::PairOf(true, false),
    Line::PairOf(false, true),
    Line::PairOf(true, true),
    Line::OnUnknown,
];

/// The comparisons of each type, in the order of type and operator.
const COMPARISONS: [&str; 14] = [
    "INT =",
    "INT <>",
    "INT <",
    "INT <=",
    "INT >",
    "INT >=",
    "FLOAT =",
    "FLOAT <>",
    "FLOAT <",
    "FLOAT <=",
    "FLOAT >",
    "FLOAT >=",
    "BOOLEAN =",
    "BOOLEAN <>",
];

impl Line {
    fn title(self) -> &'static str {
        match self {
            Line::Done => "done",
            Line::Refused(7) => "refused 7 at its step, for the type alone",
            Line::Refused(_) => "refused 4 at its step, for the operator alone",
            Line::WithEmpty(Operation::Pair) => "operation 9 with an empty cell",
            Line::WithEmpty(Operation::RightScalar) => "operation 10 with an empty cell",
            Line::WithEmpty(_) => "operation 11 with an empty cell",
            Line::PairOf(true, false) => "operation 9 with the left cell alone empty",
            Line::PairOf(false, _) => "operation 9 with the right cell alone empty",
            Line::PairOf(..) => "operation 9 with both cells empty",
            Line::OnUnknown => "on a comparison with an empty cell",
        }
    }

    fn names(self) -> &'static [&'static str] {
        match self {
            Line::Done | Line::Refused(7) => &["is-true", "is-false", "is-unknown"],
            Line::Refused(_) => &["single operator 8"],
            Line::WithEmpty(_) | Line::PairOf(..) => &COMPARISONS,
            Line::OnUnknown => &["NOT", "AND", "OR", "is-true", "is-false", "is-unknown"],
        }
    }
}

/// How many cases met each.
pub struct Met {
    counts: Vec<(Meeting, u64)>,
}

impl Met {
    pub fn new() -> Met {
        let of_line = |line: Line| line.names().iter().map(move |name| ((line, *name), 0));
        Met { counts: LINES.into_iter().flat_map(of_line).collect() }
    }

    /// Counts what a case meets that the paper answers with that number.
    pub fn count(&mut self, case: &Case, number: u32) {
        if !matches!(case.function, Function::Run | Function::Page) {
            return;
        }
        let (Ok(bundle), recipe) = (read(&case.shared[0]), &case.shared[1]) else { return };
        let meetings = match Plan::of_recipe(&bundle, recipe) {
            Err(refusal) => met_refused(&bundle, recipe, refusal).into_iter().collect(),
            Ok(plan) if number == 0 => met_done(&bundle.arrays, &plan),
            Ok(_) => vec![],
        };
        self.counts.iter_mut().filter(|(meeting, _)| meetings.contains(meeting)).for_each(|(_, count)| *count += 1);
    }

    /// Each line in words.
    pub fn lines(&self) -> Vec<String> {
        let of_line = |line: Line| {
            let counts = self.counts.iter().filter(|((of, _), _)| *of == line);
            let words: Vec<String> = counts.map(|((_, name), count)| format!("{count} {name}")).collect();
            format!("cases of request [1], {}: {}", line.title(), words.join(", "))
        };
        LINES.into_iter().map(of_line).collect()
    }

    /// What fewer cases than that met.
    pub fn seldom(&self, least: u64) -> Vec<String> {
        let seldom = self.counts.iter().filter(|(_, count)| *count < least);
        seldom.map(|((line, name), count)| format!("{}: {count} {name}", line.title())).collect()
    }
}

/// The single operator that is refused at its step, if nothing else is wrong there: with is-empty in its stead the step is good.
fn met_refused(bundle: &Bundle, recipe: &[u8], refusal: Refusal) -> Option<Meeting> {
    let length = bundle.sizes.step;
    let mut mended = recipe.get(..length * refusal.place as usize)?.to_vec();
    let bytes = mended.chunks_mut(length).last()?;
    let refused = Step::of_bytes(bundle.sizes, bytes).filter(|step| step.operation == Operation::Single)?;
    bytes[4] = 4;
    let name = if refused.operator() == 8 { "single operator 8" } else { takes_truth(&refused)? };
    Plan::of_recipe(bundle, &mended).is_ok().then_some((Line::Refused(refusal.number), name))
}

/// What the steps of an accepted case meet.
fn met_done(arrays: &[Declared], plan: &Plan) -> Vec<Meeting> {
    let results = plan.results(arrays).expect("values that were accepted");
    let (mut meetings, mut unknown) = (vec![], vec![]);
    for (number, step) in (17..).zip(&plan.steps) {
        let compared = met_compared(step, arrays, &results);
        if !compared.is_empty() {
            unknown.push(number);
        }
        meetings.extend(compared);
        let Some(name) = takes_truth(step) else { continue };
        meetings.push((Line::Done, name));
        if unknown.contains(&step.a) || unknown.contains(&step.b) {
            meetings.push((Line::OnUnknown, name));
        }
    }
    meetings
}

/// If the step is a comparison that has an empty cell among its two at some coordinate: that, and for operation 9 on which side.
fn met_compared(step: &Step, arrays: &[Declared], results: &[Array]) -> Vec<Meeting> {
    if !step.compares() {
        return vec![];
    }
    let a = operand(arrays, results, step.a);
    let b = step.uses_b().then(|| operand(arrays, results, step.b));
    let empty_in_b = |at: &Vec<i32>| b.is_some_and(|b| b.cells[at] == Cell::Empty);
    let name = COMPARISONS[6 * usize::from(a.of.byte() - 1) + usize::from(step.operator() - 6)];
    let mut meetings = vec![];
    for empty in [(true, false), (false, true), (true, true)] {
        if a.cells.iter().any(|(at, cell)| (*cell == Cell::Empty, empty_in_b(at)) == empty) {
            meetings.push((Line::WithEmpty(step.operation), name));
            meetings.extend(b.map(|_| (Line::PairOf(empty.0, empty.1), name)));
        }
    }
    meetings
}

/// The name of an operator that takes truth values and nothing else.
fn takes_truth(step: &Step) -> Option<&'static str> {
    match (step.operation, step.operator()) {
        (Operation::Single, 3) => Some("NOT"),
        (Operation::Single, 5) => Some("is-true"),
        (Operation::Single, 6) => Some("is-false"),
        (Operation::Single, 7) => Some("is-unknown"),
        (Operation::Pair | Operation::RightScalar | Operation::LeftScalar, 12) => Some("AND"),
        (Operation::Pair | Operation::RightScalar | Operation::LeftScalar, 13) => Some("OR"),
        _ => None,
    }
}
