//! What stands in a JSON text that was read, for the counts of request [5] of paper 02: blanks, escapes, letters, levels, names and kinds
//! of the members that are skipped, and the values of `data`. It goes by the tree that the paper reads, and by the bytes at its places.

use crate::paper::json_text::{is_data, Kind, Member, Number, Value};

#[derive(Clone, Copy, Debug, PartialEq, Eq)]
pub enum Feature {
    /// That blank before the object, inside it, behind it.
    Before(u8),
    Inside(u8),
    Behind(u8),
    /// No blank at all, and `data` alone: what the writer writes.
    Plain,
    /// In a string, a letter of so many bytes; byte 127; an escape by that letter; one in hex of either case; half of a pair alone.
    Letter(usize),
    Delete,
    Escape(u8),
    Hex(bool),
    Half,
    /// The name of `data` by escapes, with hex of lower case (`t` has none of its own) or upper case alike.
    Escaped,
    /// A skipped member of that kind, before `data` or behind it.
    Skipped(&'static str, bool),
    /// Levels of the whole text, from 14 on.
    Levels(usize),
    /// `data` as a name in an inner object; a name that is nearly `data`; two members of one name.
    Inner,
    Near(&'static str),
    Equal,
    /// A number elsewhere with a fraction, with an exponent, outside INT.
    Elsewhere(Number),
    /// In `data`, that very number; `-0`; `null` beside a number; `null` beside a truth value; nothing but `null`.
    Int(i64),
    MinusZero,
    NullAndInt,
    NullAndTruth,
    AllNull,
}

const BLANKS: [u8; 4] = *b" \t\n\r";
const KINDS: [&str; 6] = ["null", "truth", "number", "string", "array", "object"];

/// Names that are not `data`, with their escapes undone, and in words.
const NEAR: [(&str, &str); 6] = [
    ("Data", "Data"),
    ("d\\u0061ta", "an escaped backslash"),
    ("data\0", "a zero behind"),
    ("data ", "a blank behind"),
    ("dataa", "longer"),
    ("", "none"),
];

impl Feature {
    pub fn all() -> Vec<Feature> {
        let mut all = vec![Feature::Plain];
        for of in [Feature::Before, Feature::Inside, Feature::Behind] {
            all.extend(BLANKS.map(of));
        }
        all.extend([1, 2, 3, 4].map(Feature::Letter));
        all.push(Feature::Delete);
        all.extend(br#""\/bfnrtu"#.map(Feature::Escape));
        all.extend([Feature::Hex(false), Feature::Hex(true), Feature::Half, Feature::Escaped]);
        all.extend(KINDS.iter().flat_map(|kind| [true, false].map(|before| Feature::Skipped(kind, before))));
        all.extend([14, 15, 16].map(Feature::Levels));
        all.extend([Feature::Inner, Feature::Equal]);
        all.extend(NEAR.map(|(_, words)| Feature::Near(words)));
        all.extend([Number::Fraction, Number::Exponent, Number::Beyond].map(Feature::Elsewhere));
        all.extend([0, i64::MAX, i64::MIN].map(Feature::Int));
        all.extend([Feature::MinusZero, Feature::NullAndInt, Feature::NullAndTruth, Feature::AllNull]);
        all
    }

    pub fn line(self) -> &'static str {
        match self {
            Feature::Before(_) | Feature::Inside(_) | Feature::Behind(_) | Feature::Plain => "by blanks (5.1)",
            Feature::Letter(_) | Feature::Delete => "by a string's letters (5.3)",
            Feature::Escape(_) | Feature::Hex(_) | Feature::Half | Feature::Escaped => "by escapes (5.4)",
            Feature::Skipped(..) => "by the members skipped",
            Feature::Levels(_) => "by levels (5.6)",
            Feature::Inner | Feature::Near(_) | Feature::Equal => "by other names (5.7, 5.13, 5.16)",
            Feature::Elsewhere(_) => "by numbers elsewhere (5.5, 5.20)",
            Feature::Int(_) | Feature::MinusZero => "by numbers in data (5.11, 5.20)",
            Feature::NullAndInt | Feature::NullAndTruth | Feature::AllNull => "by null in data (5.21)",
        }
    }

    pub fn words(self) -> String {
        let shown = |byte: u8| byte.escape_ascii().to_string().replace(' ', "space");
        match self {
            Feature::Before(blank) => format!("{} before", shown(blank)),
            Feature::Inside(blank) => format!("{} inside", shown(blank)),
            Feature::Behind(blank) => format!("{} behind", shown(blank)),
            Feature::Plain => "as it is written".to_string(),
            Feature::Letter(bytes) => format!("of {bytes} bytes"),
            Feature::Delete => "byte 127".to_string(),
            Feature::Escape(letter) => format!("\\{}", char::from(letter)),
            Feature::Hex(upper) => if upper { "upper hex" } else { "lower hex" }.to_string(),
            Feature::Half => "half of a pair alone".to_string(),
            Feature::Escaped => "data escaped".to_string(),
            Feature::Skipped(kind, true) => format!("{kind} before data"),
            Feature::Skipped(kind, false) => format!("{kind} behind data"),
            Feature::Levels(levels) => levels.to_string(),
            Feature::Inner => "data in an inner object".to_string(),
            Feature::Near(words) => words.to_string(),
            Feature::Equal => "two equal".to_string(),
            Feature::Elsewhere(number) => format!("{number:?}").to_lowercase(),
            Feature::Int(0) => "zero".to_string(),
            Feature::Int(number) => format!("{} INT", if number < 0 { "smallest" } else { "largest" }),
            Feature::MinusZero => "-0".to_string(),
            Feature::NullAndInt => "beside a number".to_string(),
            Feature::NullAndTruth => "beside a truth value".to_string(),
            Feature::AllNull => "nothing else".to_string(),
        }
    }
}

/// What stands in a text that was read.
pub fn features(text: &[u8], members: &[Member]) -> Vec<Feature> {
    let data = members.iter().position(|member| is_data(&member.name)).expect("`data`");
    let mut all = blanks(text, members.len());
    all.extend(strings(text));
    all.extend(data_in(text, &members[data]));
    for (at, member) in members.iter().enumerate().filter(|(at, _)| *at != data) {
        all.push(Feature::Skipped(kind(&member.value), at < data));
        all.extend(inside(&member.value));
        let near = NEAR.iter().find(|(name, _)| name.chars().map(u32::from).eq(member.name.iter().copied()));
        all.extend(near.map(|(_, words)| Feature::Near(words)));
        all.extend(members[..at].iter().any(|before| before.name == member.name).then_some(Feature::Equal));
    }
    let levels = 1 + members.iter().map(|member| levels(&member.value)).max().unwrap_or(0);
    all.push(Feature::Levels(levels));
    all
}

/// The blanks outside strings, by where they stand.
fn blanks(text: &[u8], members: usize) -> Vec<Feature> {
    let open = text.iter().position(|&byte| byte == b'{').expect("an object");
    let close = text.iter().rposition(|&byte| byte == b'}').expect("an object");
    let before = text[..open].iter().copied().map(Feature::Before);
    let behind = text[close + 1..].iter().copied().map(Feature::Behind);
    let inside: Vec<u8> = outside_strings(&text[open..close]).into_iter().filter(|byte| BLANKS.contains(byte)).collect();
    let plain = members == 1 && inside.is_empty() && open == 0 && close + 1 == text.len() && text.starts_with(b"{\"data\"");
    let plain = plain.then_some(Feature::Plain);
    before.chain(behind).chain(inside.into_iter().map(Feature::Inside)).chain(plain).collect()
}

/// The strings of a text, each without its quotes, and its other bytes.
fn split(text: &[u8]) -> (Vec<Vec<u8>>, Vec<u8>) {
    let (mut strings, mut others, mut at) = (vec![], vec![], 0);
    while at < text.len() {
        let from = at + 1;
        at += 1;
        if text[from - 1] != b'"' {
            others.push(text[from - 1]);
            continue;
        }
        while text.get(at).is_some_and(|&byte| byte != b'"') {
            at += if text[at] == b'\\' { 2 } else { 1 };
        }
        strings.push(text[from..at.min(text.len())].to_vec());
        at += 1;
    }
    (strings, others)
}

fn outside_strings(text: &[u8]) -> Vec<u8> {
    split(text).1
}

/// Letters and escapes of all strings.
fn strings(text: &[u8]) -> Vec<Feature> {
    let strings: Vec<String> = split(text).0.into_iter().map(|string| String::from_utf8(string).expect("UTF-8")).collect();
    strings.iter().flat_map(|string| letters(string)).collect()
}

fn letters(string: &str) -> Vec<Feature> {
    let (mut all, mut left) = (vec![], string);
    while let Some(letter) = left.chars().next() {
        if letter != '\\' {
            all.push(if letter == '\u{7f}' { Feature::Delete } else { Feature::Letter(letter.len_utf8()) });
            left = &left[letter.len_utf8()..];
            continue;
        }
        let escape = left.as_bytes()[1];
        all.push(Feature::Escape(escape));
        let length = if escape == b'u' { 6 } else { 2 };
        if escape == b'u' {
            all.extend(hex(&left[2..6], &left[6..]));
        }
        left = &left[length..];
    }
    all
}

/// An escape in hex, and what comes after it.
fn hex(digits: &str, after: &str) -> Vec<Feature> {
    let number = u32::from_str_radix(digits, 16).expect("hex");
    let low_follows = after.strip_prefix("\\u").is_some_and(|next| next.to_lowercase().starts_with(['d']) && next.len() >= 4);
    let half = (0xD800..0xDC00).contains(&number) && !low_follows;
    let upper = digits.bytes().any(|digit| digit.is_ascii_uppercase()).then_some(Feature::Hex(true));
    let lower = digits.bytes().any(|digit| digit.is_ascii_lowercase()).then_some(Feature::Hex(false));
    upper.into_iter().chain(lower).chain(half.then_some(Feature::Half)).collect()
}

/// The name and the values of `data`.
fn data_in(text: &[u8], member: &Member) -> Vec<Feature> {
    let mut values = vec![];
    leaves(&member.value, &mut values);
    let null = values.iter().any(|value| value.kind == Kind::Null);
    let number = values.iter().any(|value| matches!(value.kind, Kind::Number(_)));
    let truth = values.iter().any(|value| matches!(value.kind, Kind::Truth(_)));
    let beside = match (null, number, truth) {
        (true, true, _) => Some(Feature::NullAndInt),
        (true, _, true) => Some(Feature::NullAndTruth),
        (true, _, _) => Some(Feature::AllNull),
        _ => None,
    };
    let escaped =
        (text[member.at as usize..].iter().take_while(|&&byte| byte != b'"').any(|&byte| byte == b'\\')).then_some(Feature::Escaped);
    let numbers = values.iter().filter_map(|value| match value.kind {
        Kind::Number(Number::Whole(number)) => Some((value.at as usize - 1, number)),
        _ => None,
    });
    let numbers = numbers.map(|(at, number)| if text[at..].starts_with(b"-0") { Feature::MinusZero } else { Feature::Int(number) });
    beside.into_iter().chain(escaped).chain(numbers).collect()
}

fn leaves<'a>(value: &'a Value, all: &mut Vec<&'a Value>) {
    match &value.kind {
        Kind::Array(values, _) => values.iter().for_each(|value| leaves(value, all)),
        _ => all.push(value),
    }
}

fn kind(value: &Value) -> &'static str {
    match value.kind {
        Kind::Null => KINDS[0],
        Kind::Truth(_) => KINDS[1],
        Kind::Number(_) => KINDS[2],
        Kind::String(_) => KINDS[3],
        Kind::Array(..) => KINDS[4],
        Kind::Object(_) => KINDS[5],
    }
}

/// What a skipped value holds: numbers that would not fit, and inner names.
fn inside(value: &Value) -> Vec<Feature> {
    match &value.kind {
        Kind::Number(Number::Whole(_)) => vec![],
        Kind::Number(number) => vec![Feature::Elsewhere(*number)],
        Kind::Array(values, _) => values.iter().flat_map(inside).collect(),
        Kind::Object(members) => {
            let inner = members.iter().any(|member| is_data(&member.name)).then_some(Feature::Inner);
            inner.into_iter().chain(members.iter().flat_map(|member| inside(&member.value))).collect()
        }
        _ => vec![],
    }
}

/// The levels of a value's own brackets and braces.
fn levels(value: &Value) -> usize {
    match &value.kind {
        Kind::Array(values, _) => 1 + values.iter().map(levels).max().unwrap_or(0),
        Kind::Object(members) => 1 + members.iter().map(|member| levels(&member.value)).max().unwrap_or(0),
        _ => 0,
    }
}
