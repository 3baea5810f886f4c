//! What request [2] of paper 02 brought, counted: how many writings of JSON were done and refused, by type, axes and number, what stood
//! in the texts, and how often a buffer was of the text's very length or one byte short of it.
//! All of it is worked out from the paper's arrays and texts; what the library answers has no part in it.

use super::{Case, Function};
use crate::paper::array::Array;
use crate::paper::bundle::read;
use crate::paper::cell::{Cell, Type};
use crate::paper::json::text;

/// A thing that a case meets; what it meets twice counts once. What stands in a text counts in cases that are done.
#[derive(Clone, Copy, PartialEq, Eq)]
enum Thing {
    /// Done: the type, and the number of axes.
    Done(Type, usize),
    /// Done with so many bytes of the buffer left.
    Left(usize),
    /// A number of so many digits, `true` for negative ones.
    Digits(usize, bool),
    /// That very number.
    Number(i64),
    Truth(bool),
    Empty,
    AllEmpty,
    /// Refused with that number.
    Refused(u32),
    /// Refused with 3 for another array than the one asked for, which is in the bundle.
    Elsewhere,
    /// Refused with 7 though no text at all would have had room.
    FloatAndShort,
    /// Refused with 14 where one byte is missing.
    OneMissing,
}

/// The bytes of the shortest text there is, `{"data":[0]}`.
const SHORTEST: usize = 12;

impl Thing {
    /// Every thing, those of one line together.
    fn all() -> Vec<Thing> {
        let done = [Type::Int, Type::Boolean].into_iter().flat_map(|of| (1..=6).map(move |axes| Thing::Done(of, axes)));
        let left = [0, 1].map(Thing::Left);
        let digits = [false, true].into_iter().flat_map(|negative| (1..=19).map(move |digits| Thing::Digits(digits, negative)));
        let numbers = [0, i64::MAX, i64::MIN].map(Thing::Number);
        let others = [Thing::Truth(true), Thing::Truth(false), Thing::Empty, Thing::AllEmpty];
        let refused = [1, 2, 3, 4, 7, 14].map(Thing::Refused);
        let narrow = [Thing::Elsewhere, Thing::FloatAndShort, Thing::OneMissing];
        done.chain(left).chain(digits).chain(numbers).chain(others).chain(refused).chain(narrow).collect()
    }

    fn line(self) -> &'static str {
        match self {
            Thing::Done(..) => "done, by type and number of axes",
            Thing::Left(_) => "done, by the buffer's length",
            Thing::Digits(..) => "numbers written, by sign and digits",
            Thing::Number(_) | Thing::Truth(_) | Thing::Empty | Thing::AllEmpty => "cells written",
            Thing::Refused(_) | Thing::Elsewhere | Thing::FloatAndShort | Thing::OneMissing => "refused",
        }
    }

    fn words(self) -> String {
        match self {
            Thing::Done(Type::Int, axes) => format!("INT {axes}"),
            Thing::Done(_, axes) => format!("BOOLEAN {axes}"),
            Thing::Left(0) => "the text's".to_string(),
            Thing::Left(bytes) => format!("the text's and {bytes}"),
            Thing::Digits(digits, negative) => format!("{}{digits}", if negative { "-" } else { "+" }),
            Thing::Number(0) => "zero".to_string(),
            Thing::Number(number) => format!("{} INT", if number < 0 { "smallest" } else { "largest" }),
            Thing::Truth(truth) => truth.to_string(),
            Thing::Empty => "null".to_string(),
            Thing::AllEmpty => "nothing but null".to_string(),
            Thing::Refused(number) => format!("with {number}"),
            Thing::Elsewhere => "with 3 for another array than asked for".to_string(),
            Thing::FloatAndShort => format!("with 7 in under {SHORTEST} bytes"),
            Thing::OneMissing => "with 14 for one byte".to_string(),
        }
    }
}

/// How many cases met each.
pub struct MetJson {
    counts: Vec<(Thing, u64)>,
}

impl MetJson {
    pub fn new() -> MetJson {
        MetJson { counts: Thing::all().into_iter().map(|thing| (thing, 0)).collect() }
    }

    /// Counts what a case meets that the paper answers with that number.
    pub fn count(&mut self, case: &Case, number: u32) {
        if case.function != Function::WriteJson {
            return;
        }
        let met = met(case, number);
        self.counts.iter_mut().filter(|(thing, _)| met.contains(thing)).for_each(|(_, count)| *count += 1);
    }

    /// Each line in words.
    pub fn lines(&self) -> Vec<String> {
        let of_line = |line: &str| {
            let counts = self.counts.iter().filter(|(thing, _)| thing.line() == line);
            let words: Vec<String> = counts.map(|(thing, count)| format!("{count} {}", thing.words())).collect();
            format!("cases of request [2], {line}: {}", words.join(", "))
        };
        let mut lines: Vec<&str> = self.counts.iter().map(|(thing, _)| thing.line()).collect();
        lines.dedup();
        lines.into_iter().map(of_line).collect()
    }

    /// What fewer cases than that met.
    pub fn seldom(&self, least: u64) -> Vec<String> {
        let seldom = self.counts.iter().filter(|(_, count)| *count < least);
        seldom.map(|(thing, count)| format!("{}: {count} {}", thing.line(), thing.words())).collect()
    }
}

/// What a case meets: the text that was written, or the refusal and how narrow it was.
fn met(case: &Case, number: u32) -> Vec<Thing> {
    let (room, asked) = (case.lent[0].len(), case.numbers[0]);
    let read = read(&case.shared[0]);
    let array = read.as_ref().ok().and_then(|bundle| bundle.array(asked).ok()).map(|declared| &declared.array);
    let narrow = match (number, array) {
        (0, Some(array)) => return met_done(array, room),
        (3, _) => {
            let other = read.is_err_and(|refusal| refusal.place != asked);
            (other && (1..=u32::from(case.shared[0][5])).contains(&asked)).then_some(Thing::Elsewhere)
        }
        (7, _) => (room < SHORTEST).then_some(Thing::FloatAndShort),
        (14, Some(array)) => (room + 1 == text(array).len()).then_some(Thing::OneMissing),
        _ => None,
    };
    narrow.into_iter().chain([Thing::Refused(number)]).collect()
}

fn met_done(array: &Array, room: usize) -> Vec<Thing> {
    let mut met = vec![Thing::Done(array.of, array.extent.axes.len()), Thing::Left(room - text(array).len())];
    for cell in array.cells.values() {
        match *cell {
            Cell::Int(number) => {
                let digits = number.unsigned_abs().to_string().len();
                met.extend([Thing::Digits(digits, number < 0), Thing::Number(number)]);
            }
            Cell::Truth(truth) => met.push(Thing::Truth(truth)),
            _ => met.push(Thing::Empty),
        }
    }
    if array.cells.values().all(|cell| *cell == Cell::Empty) {
        met.push(Thing::AllEmpty);
    }
    met
}
