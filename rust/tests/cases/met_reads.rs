//! What request [5] of paper 02 brought, counted: how many readings of JSON were done and refused, and in how many each situation was met
//! that its settled readings, 5.1 to 5.24, speak of; their numbers stand in the lines.
//! All of it is worked out from the paper's reading of the text; what the library answers has no part in it.

use super::met_text::{features, Feature};
use super::{Case, Function};
use crate::paper::cell::Type;
use crate::paper::extent::Extent;
use crate::paper::json_read::{fitted, named, Misfit, Unfit};
use crate::paper::json_text::{is_data, members, Fault, Kind, Member, Number, Value, Why};

/// A thing that a case meets; what it meets twice counts once.
#[derive(Clone, Copy, Debug, PartialEq, Eq)]
enum Thing {
    /// Done: the type, and the number of axes; so many bytes of the buffer left, two standing for more; what stood in the text.
    Done(Type, usize),
    Left(usize),
    Read(Feature),
    /// Refused with that number; with 14 where one byte is missing, and where there is no byte.
    Refused(u32),
    OneMissing,
    NoRoom,
    /// Refused with that number before the text is looked at, which is no object, or would have been read.
    Unread(u32, bool),
    /// Refused with 2 though the type is FLOAT; for a name that was too long for version 1.
    FloatAndExtent,
    TooLong,
    /// Refused with 15: what was due, and whether the text ended there.
    Fault(Why, bool),
    Narrow(Narrow),
    /// Refused with 16: how it doesn't fit, and what is found there; and where a cell of that type is due.
    Unfit(Unfit, Found),
    NoCell(Type, Found),
    /// Refused with 16 though there is no room for a cell.
    UnfitAndShort,
}

/// A narrower case of 15.
#[derive(Clone, Copy, Debug, PartialEq, Eq)]
enum Narrow {
    Empty,
    Blanks,
    ByteOrderMark,
    /// A byte over 127 outside a string.
    NotAscii,
    /// The byte before one that may not follow it, though it goes on with some letter: E0, ED, F0, F4.
    Second(u8),
    /// A first byte that is none: one that goes on, C0 or C1, F5 and above.
    GoesOn,
    TooManyBytes,
    TooHigh,
    /// The second `data`: the text ends with its name; there is a third; one of the two has escapes.
    SecondAtEnd,
    Third,
    SecondEscaped,
    /// The text ends inside the name of a second `data`, of which only the quote is missing.
    SecondUnclosed,
    /// A whole object that lacks `data`, and blanks behind it; one in which an inner object has it.
    LacksBeforeBlanks,
    LacksOutermost,
    /// Something before the fault doesn't fit.
    AfterMisfit,
    /// The 17th bracket stands inside `data`.
    DeepInData,
}

/// What is found where something doesn't fit.
#[derive(Clone, Copy, Debug, PartialEq, Eq)]
enum Found {
    Close,
    Null,
    Truth,
    /// Any number, where none fits; else one that is not in range, or not whole as it is written.
    Number,
    Beyond,
    Fraction,
    Exponent,
    String,
    Bracket,
    Brace,
}

const EVERY: [Found; 6] = [Found::Null, Found::Truth, Found::Number, Found::String, Found::Bracket, Found::Brace];
const NO_INT: [Found; 7] = [Found::Truth, Found::Beyond, Found::Fraction, Found::Exponent, Found::String, Found::Bracket, Found::Brace];
const NO_TRUTH: [Found; 4] = [Found::Number, Found::String, Found::Bracket, Found::Brace];

/// What may be due where a fault lies, in words: where another byte stands, and where the text ends.
const DUE: [(Why, &str, bool, bool); 21] = [
    (Why::Object, "the object (5.2)", true, true),
    (Why::FirstName, "a name or the end (5.1)", true, true),
    (Why::NextName, "a name (5.1)", true, true),
    (Why::Colon, "a colon (5.1)", true, true),
    (Why::FirstValue, "a value or the end (5.1)", true, true),
    (Why::NextValue, "a value (5.1)", true, true),
    (Why::CommaOrEnd, "a comma or the end (5.1, 5.5)", true, true),
    (Why::Level, "no level any more (5.6)", true, false),
    (Why::Word, "a letter of a word (5.5)", true, true),
    (Why::NoDigit, "no digit after a zero (5.5)", true, false),
    (Why::WholeDigit, "a digit (5.5)", true, true),
    (Why::FractionDigit, "a digit of a fraction (5.5)", true, true),
    (Why::ExponentDigit, "a digit of an exponent (5.5)", true, true),
    (Why::Letter, "a letter or the quote (5.3, 5.18)", true, true),
    (Why::NoControl, "no control byte (5.3)", true, false),
    (Why::GoesOn, "the rest of a letter (5.3, 5.19)", true, true),
    (Why::Escape, "an escape (5.4, 5.19)", true, true),
    (Why::Hex, "a digit in hex (5.4, 5.19)", true, true),
    (Why::Nothing, "nothing (5.1)", true, false),
    (Why::OneData, "no second data (5.7)", true, false),
    (Why::Data, "a data (5.8)", false, true),
];

const NARROW: [Narrow; 19] = [
    Narrow::Empty,
    Narrow::Blanks,
    Narrow::ByteOrderMark,
    Narrow::NotAscii,
    Narrow::Second(0xE0),
    Narrow::Second(0xED),
    Narrow::Second(0xF0),
    Narrow::Second(0xF4),
    Narrow::GoesOn,
    Narrow::TooManyBytes,
    Narrow::TooHigh,
    Narrow::SecondAtEnd,
    Narrow::Third,
    Narrow::SecondEscaped,
    Narrow::SecondUnclosed,
    Narrow::LacksBeforeBlanks,
    Narrow::LacksOutermost,
    Narrow::AfterMisfit,
    Narrow::DeepInData,
];

impl Thing {
    /// Every thing, those of one line together.
    fn all() -> Vec<Thing> {
        let types = [Type::Int, Type::Boolean];
        let mut all: Vec<Thing> = types.iter().flat_map(|of| (1..=6).map(move |axes| Thing::Done(*of, axes))).collect();
        all.extend([0, 1, 2].map(Thing::Left));
        all.extend(Feature::all().into_iter().map(Thing::Read));
        all.extend([1, 2, 7, 15, 16, 14].map(Thing::Refused));
        all.extend([Thing::OneMissing, Thing::NoRoom, Thing::UnfitAndShort, Thing::FloatAndExtent, Thing::TooLong]);
        all.extend([1, 2, 7].iter().flat_map(|number| [false, true].map(|sound| Thing::Unread(*number, sound))));
        all.extend(DUE.iter().filter(|due| due.2).map(|due| Thing::Fault(due.0, false)));
        all.extend(DUE.iter().filter(|due| due.3).map(|due| Thing::Fault(due.0, true)));
        all.extend(NARROW.map(Thing::Narrow));
        all.push(Thing::Unfit(Unfit::Missing, Found::Close));
        all.extend(EVERY.map(|found| Thing::Unfit(Unfit::Surplus, found)));
        let no_bracket = EVERY.into_iter().filter(|found| *found != Found::Bracket);
        all.extend(no_bracket.map(|found| Thing::Unfit(Unfit::NoBracket, found)));
        all.extend(NO_INT.map(|found| Thing::NoCell(Type::Int, found)));
        all.extend(NO_TRUTH.map(|found| Thing::NoCell(Type::Boolean, found)));
        all
    }

    fn line(self) -> String {
        match self {
            Thing::Done(..) => "done, by type and number of axes".to_string(),
            Thing::Left(_) => "done, by the buffer's length (5.12, 5.23)".to_string(),
            Thing::Read(feature) => format!("done, {}", feature.line()),
            Thing::Refused(_) | Thing::OneMissing | Thing::NoRoom | Thing::UnfitAndShort => "refused (5.12)".to_string(),
            Thing::FloatAndExtent | Thing::TooLong => "refused (5.12)".to_string(),
            Thing::Unread(..) => "refused, and the text (5.22)".to_string(),
            Thing::Fault(_, false) => "refused 15, where it is due".to_string(),
            Thing::Fault(_, true) => "refused 15, where the text ends and it is due".to_string(),
            Thing::Narrow(_) => "refused 15, narrowly".to_string(),
            Thing::Unfit(Unfit::Missing, _) => "refused 16, too few (5.10, 5.15)".to_string(),
            Thing::Unfit(Unfit::Surplus, _) => "refused 16, too many (5.10)".to_string(),
            Thing::Unfit(..) => "refused 16, where a bracket is due (5.10, 5.21)".to_string(),
            Thing::NoCell(of, _) => format!("refused 16, where a cell is due, {of:?} (5.10, 5.11, 5.20)"),
        }
    }

    fn words(self) -> String {
        match self {
            Thing::Done(of, axes) => format!("{of:?} {axes}"),
            Thing::Left(0) => "the cells'".to_string(),
            Thing::Left(1) => "the cells' and 1".to_string(),
            Thing::Left(_) => "longer".to_string(),
            Thing::Read(feature) => feature.words(),
            Thing::Refused(number) => format!("with {number}"),
            Thing::OneMissing => "with 14 for one byte".to_string(),
            Thing::NoRoom => "with 14 for all bytes".to_string(),
            Thing::UnfitAndShort => "with 16 and no room".to_string(),
            Thing::FloatAndExtent => "with 2 and FLOAT".to_string(),
            Thing::TooLong => "with 2 for a name put down as too long".to_string(),
            Thing::Unread(number, true) => format!("with {number}, the text an object with data"),
            Thing::Unread(number, false) => format!("with {number}, the text none"),
            Thing::Fault(why, _) => due(why).to_string(),
            Thing::Narrow(narrow) => narrow.words(),
            Thing::Unfit(_, found) | Thing::NoCell(_, found) => format!("{found:?}").to_lowercase(),
        }
    }
}

fn due(why: Why) -> &'static str {
    DUE.iter().find(|due| due.0 == why).map_or("something", |due| due.1)
}

impl Narrow {
    fn words(self) -> String {
        match self {
            Narrow::Empty => "no byte (5.2)".to_string(),
            Narrow::Blanks => "only blanks (5.2)".to_string(),
            Narrow::ByteOrderMark => "a byte order mark (5.2)".to_string(),
            Narrow::NotAscii => "over 127 outside a string (5.24)".to_string(),
            Narrow::Second(first) => format!("second byte after {first:X} (5.3)"),
            Narrow::GoesOn => "80 to BF alone (5.3)".to_string(),
            Narrow::TooManyBytes => "C0 or C1 (5.3)".to_string(),
            Narrow::TooHigh => "F5 or above (5.3)".to_string(),
            Narrow::SecondAtEnd => "second data at the text's end (5.7)".to_string(),
            Narrow::Third => "a third data (5.7)".to_string(),
            Narrow::SecondEscaped => "second data, by an escape (5.4, 5.7)".to_string(),
            Narrow::SecondUnclosed => "second data unclosed (5.18)".to_string(),
            Narrow::LacksBeforeBlanks => "no data, and blanks behind the object (5.8)".to_string(),
            Narrow::LacksOutermost => "data in an inner object alone (5.7, 5.8)".to_string(),
            Narrow::AfterMisfit => "behind a misfit (5.9)".to_string(),
            Narrow::DeepInData => "the 17th bracket inside data (5.17)".to_string(),
        }
    }
}

/// How many cases met each.
pub struct MetReads {
    counts: Vec<(Thing, u64)>,
}

impl MetReads {
    pub fn new() -> MetReads {
        MetReads { counts: Thing::all().into_iter().map(|thing| (thing, 0)).collect() }
    }

    /// Counts what a case meets that the paper answers with that number.
    pub fn count(&mut self, case: &Case, number: u32) {
        if case.function != Function::ReadJson {
            return;
        }
        let met = met(case, number);
        self.counts.iter_mut().filter(|(thing, _)| met.contains(thing)).for_each(|(_, count)| *count += 1);
    }

    /// Each line in words.
    pub fn lines(&self) -> Vec<String> {
        let of_line = |line: String| {
            let counts = self.counts.iter().filter(|(thing, _)| thing.line() == line);
            let words: Vec<String> = counts.map(|(thing, count)| format!("{count} {}", thing.words())).collect();
            format!("cases of request [5], {line}: {}", words.join(", "))
        };
        let mut lines: Vec<String> = self.counts.iter().map(|(thing, _)| thing.line()).collect();
        lines.dedup();
        lines.into_iter().map(of_line).collect()
    }

    /// What fewer cases than that met.
    pub fn seldom(&self, least: u64) -> Vec<String> {
        let seldom = self.counts.iter().filter(|(_, count)| *count < least);
        seldom.map(|(thing, count)| format!("{}: {count} {}", thing.line(), thing.words())).collect()
    }
}

/// What a case meets.
fn met(case: &Case, number: u32) -> Vec<Thing> {
    let (head, text, room) = (&case.shared[0], &case.shared[1], case.lent[0].len());
    let read = members(text);
    let Ok((of, extent)) = named(case.numbers[0], head) else {
        return [vec![Thing::Refused(number), Thing::Unread(number, read.is_ok())], met_head(head, number)].concat();
    };
    let narrow = match read {
        Err(fault) => met_fault(of, &extent, text, fault),
        Ok(members) => met_object(of, &extent, text, &members, room),
    };
    if number == 0 {
        narrow
    } else {
        [narrow, vec![Thing::Refused(number)]].concat()
    }
}

/// What a head meets that is refused.
fn met_head(head: &[u8], number: u32) -> Vec<Thing> {
    let float = (number == 2 && head[0] == Type::Float.byte()).then_some(Thing::FloatAndExtent);
    let slots = head.get(2..).unwrap_or_default().chunks(24).take(usize::from(head.get(1).copied().unwrap_or(0)));
    let too_long = slots.map(|slot| &slot[..8.min(slot.len())]).any(|name| name == [0; 8] || name == [0xFF; 8]);
    let too_long = (number == 2 && head.len() == 98 && too_long).then_some(Thing::TooLong);
    float.into_iter().chain(too_long).collect()
}

/// What an object with one `data` meets.
fn met_object(of: Type, extent: &Extent, text: &[u8], members: &[Member], room: usize) -> Vec<Thing> {
    let data = data_of(members).expect("an object without `data` is a fault");
    match fitted(of, extent, data) {
        Err(misfit) => {
            let short = (room == 0).then_some(Thing::UnfitAndShort);
            let found = found(of, data, misfit);
            let unfit = if misfit.why == Unfit::NoCell { Thing::NoCell(of, found) } else { Thing::Unfit(misfit.why, found) };
            short.into_iter().chain([unfit]).collect()
        }
        Ok(array) => match room.checked_sub(9 * array.cells.len()) {
            Some(left) => {
                let done = [Thing::Done(of, extent.axes.len()), Thing::Left(left.min(2))];
                done.into_iter().chain(features(text, members).into_iter().map(Thing::Read)).collect()
            }
            None if room == 0 => vec![Thing::NoRoom],
            None => (room + 1 == 9 * array.cells.len()).then_some(Thing::OneMissing).into_iter().collect(),
        },
    }
}

fn data_of(members: &[Member]) -> Option<&Value> {
    members.iter().find(|member| is_data(&member.name)).map(|member| &member.value)
}

/// What stands at the place of a misfit: the value that begins there, or a closing bracket.
fn found(of: Type, data: &Value, misfit: Misfit) -> Found {
    let int_due = of == Type::Int && misfit.why == Unfit::NoCell;
    match value_at(data, misfit.at).map(|value| &value.kind) {
        None => Found::Close,
        Some(Kind::Null) => Found::Null,
        Some(Kind::Truth(_)) => Found::Truth,
        Some(Kind::Number(_)) if !int_due => Found::Number,
        Some(Kind::Number(Number::Whole(_))) => unreachable!("a cell"),
        Some(Kind::Number(Number::Beyond)) => Found::Beyond,
        Some(Kind::Number(Number::Fraction)) => Found::Fraction,
        Some(Kind::Number(Number::Exponent)) => Found::Exponent,
        Some(Kind::String(_)) => Found::String,
        Some(Kind::Array(..)) => Found::Bracket,
        Some(Kind::Object(_)) => Found::Brace,
    }
}

fn value_at(value: &Value, at: u64) -> Option<&Value> {
    match &value.kind {
        _ if value.at == at => Some(value),
        Kind::Array(values, _) => values.iter().find_map(|value| value_at(value, at)),
        _ => None,
    }
}

/// What a text meets that is no such object.
fn met_fault(of: Type, extent: &Extent, text: &[u8], fault: Fault) -> Vec<Thing> {
    let before = &text[..fault.at as usize - 1];
    let byte = text.get(before.len()).copied().unwrap_or(0);
    let mut met = vec![Thing::Fault(fault.why, fault.ends)];
    met.extend(narrow(fault, before, byte).map(Thing::Narrow));
    met.extend(narrow_data(text, fault, before).into_iter().map(Thing::Narrow));
    let outside = !matches!(fault.why, Why::Letter | Why::NoControl | Why::GoesOn | Why::Escape | Why::Hex | Why::OneData);
    met.extend((outside && byte > 127).then_some(Thing::Narrow(Narrow::NotAscii)));
    let whole = members(&mended(before, fault.why)).unwrap_or_default();
    let misfit = data_of(&whole).and_then(|data| fitted(of, extent, data).err());
    if matches!(fault.why, Why::Nothing | Why::OneData) && misfit.is_some() {
        met.push(Thing::Narrow(Narrow::AfterMisfit));
    }
    if fault.why == Why::Level && whole.last().is_some_and(|member| is_data(&member.name)) {
        met.push(Thing::Narrow(Narrow::DeepInData));
    }
    met
}

/// What the fault's byte and the one before it tell.
fn narrow(fault: Fault, before: &[u8], byte: u8) -> Option<Narrow> {
    match (fault.why, fault.ends) {
        (Why::Object, true) => Some(if before.is_empty() { Narrow::Empty } else { Narrow::Blanks }),
        (Why::Object, false) => (byte == 0xEF).then_some(Narrow::ByteOrderMark),
        (Why::GoesOn, false) => before.last().filter(|_| (0x80..0xC0).contains(&byte)).map(|first| Narrow::Second(*first)),
        (Why::Letter, false) => match byte {
            0x80..0xC0 => Some(Narrow::GoesOn),
            0xC0..0xC2 => Some(Narrow::TooManyBytes),
            _ => Some(Narrow::TooHigh),
        },
        _ => None,
    }
}

/// What a second `data`, or a whole object without any, tells.
fn narrow_data(text: &[u8], fault: Fault, before: &[u8]) -> Vec<Narrow> {
    let rest = &text[before.len()..];
    match fault.why {
        Why::OneData => {
            // A name of the text's own in the stead of the second: `data` is there still, and so would be a third.
            let quote = rest.iter().skip(1).position(|&byte| byte == b'"').map_or(rest.len(), |at| at + 2);
            let other = [before, b"\"\"", &rest[quote..]].concat();
            let third = members(&other).is_err_and(|fault| fault.why == Why::OneData).then_some(Narrow::Third);
            let at_end = (quote == rest.len()).then_some(Narrow::SecondAtEnd);
            let escaped = rest[..quote].contains(&b'\\').then_some(Narrow::SecondEscaped);
            third.into_iter().chain(at_end).chain(escaped).collect()
        }
        Why::Data => {
            let blanks = before.last().is_some_and(|byte| *byte != b'}').then_some(Narrow::LacksBeforeBlanks);
            let inner = before.windows(6).any(|name| name == b"\"data\"").then_some(Narrow::LacksOutermost);
            blanks.into_iter().chain(inner).collect()
        }
        Why::Letter if fault.ends => {
            let closed = members(&[text, b"\""].concat()).is_err_and(|fault| fault.why == Why::OneData);
            closed.then_some(Narrow::SecondUnclosed).into_iter().collect()
        }
        _ => vec![],
    }
}

/// What comes before a fault, made whole: a zero for the bracket that is too deep, no comma before a second `data`, and all brackets
/// closed.
fn mended(before: &[u8], why: Why) -> Vec<u8> {
    let mut text = before.to_vec();
    match why {
        Why::Level => text.push(b'0'),
        Why::OneData => {
            let comma = text.iter().rposition(|&byte| byte == b',').unwrap_or(0);
            text.truncate(comma);
        }
        _ => {}
    }
    let (mut open, mut string, mut escaped) = (vec![], false, false);
    for &byte in &text {
        match byte {
            _ if escaped => escaped = false,
            b'\\' => escaped = string,
            b'"' => string = !string,
            b'[' if !string => open.push(b']'),
            b'{' if !string => open.push(b'}'),
            b']' | b'}' if !string => drop(open.pop()),
            _ => {}
        }
    }
    text.extend(open.iter().rev());
    text
}
