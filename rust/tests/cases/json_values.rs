//! Pieces of JSON made up, each as its bytes: strings, numbers, words and values of every kind, as the grammar has them; pieces that break
//! the grammar at a place of their own; and pieces that are cut, for a text that ends in them.

use super::dice::Dice;

/// Letters of one to four bytes, those at both ends of each length among them; and bytes that only look odd.
const LETTERS: [&str; 20] = [
    "a",
    "Z",
    "7",
    " ",
    "/",
    "'",
    "\u{7f}",
    "\u{80}",
    "\u{e9}",
    "\u{7ff}",
    "\u{800}",
    "\u{20ac}",
    "\u{d7ff}",
    "\u{e000}",
    "\u{feff}",
    "\u{ffff}",
    "\u{10000}",
    "\u{1f600}",
    "\u{fffff}",
    "\u{10ffff}",
];

/// Every escape of one letter, and those in hex: both cases, halves of pairs alone, turned round and together, and what needs no escape.
const ESCAPES: [&str; 20] = [
    r#"\""#,
    r"\\",
    r"\/",
    r"\b",
    r"\f",
    r"\n",
    r"\r",
    r"\t",
    r"\u0061",
    r"\u00e9",
    r"\u00E9",
    r"\uFEFF",
    r"\uabcd",
    r"\uABCD",
    r"\uD800",
    r"\udfff",
    r"\udc00\ud800",
    r"\uD83D\uDE00",
    r"\u0000",
    r"\u0022",
];

/// Bytes that begin no letter of UTF-8: such as go on with one, and such as would tell a letter in too many bytes, or one over 10FFFF.
const NO_FIRST: [&[u8]; 12] = [
    &[0x80],
    &[0xBF],
    &[0x80, 0x80],
    &[0x9F, 0x80],
    &[0xC0, 0x80],
    &[0xC0],
    &[0xC0, 0xAF],
    &[0xC1, 0xBF],
    &[0xF5, 0x80, 0x80, 0x80],
    &[0xF8, 0x88, 0x80, 0x80, 0x80],
    &[0xFE],
    &[0xFF],
];

/// Bytes of which the second tells that the letter has too many, is half of a pair, or lies over 10FFFF.
const NO_SECOND: [&[u8]; 8] = [
    &[0xE0, 0x80, 0x80],
    &[0xE0, 0x9F, 0xBF],
    &[0xED, 0xA0, 0x80],
    &[0xED, 0xA0, 0xBD, 0xED, 0xB8, 0x80],
    &[0xF0, 0x80, 0x80, 0x80],
    &[0xF0, 0x8F, 0xBF, 0xBF],
    &[0xF4, 0x90, 0x80, 0x80],
    &[0xF4, 0xBF, 0xBF, 0xBF],
];

/// Letters that don't go on.
const NO_REST: [&[u8]; 9] =
    [&[0xC3], &[0xC3, 0xC3], &[0xE2], &[0xE2, 0x82], &[0xE2, 0x28, 0xA1], &[0xE1, 0x80, 0xC0], &[0xF0, 0x9F], &[0xF0, 0x9F, 0x98], &[0xF1]];

const NO_ESCAPES: [&str; 12] =
    [r"\a", r"\'", r"\U0061", r"\x61", r"\0", r"\u", r"\u00", r"\u006", r"\u00g1", r"\u 061", r"\u+061", "\\\u{e9}"];

const NO_NUMBERS: [&str; 24] = [
    "01", "-01", "00", "-00", "-", "-x", "--1", "- 1", "1.", "-0.", "1.e3", "1.x", "2.-1", ".5", "1e", "1E+", "1e-x", "1e+-1", "3E*", "+1",
    "0x1F", "02", "1.2.3", "-03",
];

const NO_WORDS: [&str; 12] = ["tru", "True", "truE", "nul", "nulL", "NULL", "nil", "fals", "falsy", "undefined", "truee", "null0"];

const NO_LISTS: [&str; 12] =
    ["[,]", "[1,]", "[1 2]", "[1}", "{]", "{,}", "{\"a\":1,}", "{\"a\"}", "{\"a\" 1}", "{\"a\":}", "{1:2}", "{\"a\":1 \"b\":2}"];

/// What is no value from its first byte on.
const NO_VALUES: [&str; 13] = ["\u{e9}", "\u{feff}1", "\u{661}", "'a'", "", "/**/1", "]", "}", "a", ":", "\u{0}", "\u{b}1", "(1)"];

/// Values that are cut: the text ends in them.
const CUT: [&[u8]; 34] = [
    b"\"",
    b"\"ab",
    b"\"\\n",
    b"\"\\",
    b"\"a\\",
    b"\"\\u",
    b"\"\\u0",
    b"\"\\u00e",
    b"\"\\u00e9",
    b"\"\xc3",
    b"\"\xe2",
    b"\"\xe2\x82",
    b"\"\xf0\x9f\x98",
    b"-",
    b"1.",
    b"-0.",
    b"1e",
    b"1E+",
    b"0.5e-",
    b"t",
    b"tru",
    b"nul",
    b"f",
    b"[",
    b"[1",
    b"[1,",
    b"[[],",
    b"{",
    b"{\"a\"",
    b"{\"a\":",
    b"{\"a\":1",
    b"{\"a\":1,",
    b"1",
    b"true",
];

/// A string that the grammar has: a few letters and escapes, or a name that might be taken for `data`.
pub fn string(dice: &mut Dice) -> Vec<u8> {
    if dice.one_in(6) {
        return dice.pick(&["\"\"", "\"data\"", "\"Data\"", r#""d\\u0061ta""#, "\"null\"", "\"1\""]).into();
    }
    let letters: Vec<&str> = (0..dice.index(5)).map(|_| if dice.one_in(3) { dice.pick(&ESCAPES) } else { dice.pick(&LETTERS) }).collect();
    format!("\"{}\"", letters.concat()).into()
}

/// A string with a fault: bytes that are no UTF-8, a control byte, an escape that is none.
pub fn broken_string(dice: &mut Dice) -> Vec<u8> {
    let fault: Vec<u8> = match dice.below(10) {
        0..=2 => dice.pick(&NO_FIRST).to_vec(),
        3..=5 => dice.pick(&NO_SECOND).to_vec(),
        6 => dice.pick(&NO_REST).to_vec(),
        7 => vec![dice.below(32) as u8],
        _ => dice.pick(&NO_ESCAPES).into(),
    };
    let mut string = string(dice);
    let at = dice.pick(&[1, string.len() - 1]);
    string.splice(at..at, fault);
    string
}

/// The name of `data`, some of its letters as escapes, in either case of hex.
pub fn data_name(dice: &mut Dice) -> Vec<u8> {
    let plain = dice.one_in(2);
    let mut letter = |letter: char| match dice.below(3) {
        _ if plain => letter.to_string(),
        0 => format!("\\u{:04x}", u32::from(letter)),
        1 => format!("\\u{:04X}", u32::from(letter)),
        _ => letter.to_string(),
    };
    format!("\"{}\"", "data".chars().map(&mut letter).collect::<String>()).into()
}

/// A name that is not `data`: nearly so, or any string.
pub fn other_name(dice: &mut Dice) -> Vec<u8> {
    let near = [
        "Data",
        "DATA",
        "data ",
        " data",
        "dat",
        "dataa",
        "",
        r"d\\u0061ta",
        r"data\u0000",
        r"\u0044ata",
        "da\u{301}ta",
        r"\ud864ata",
        "a",
        "a",
    ];
    loop {
        let name = if dice.one_in(2) { format!("\"{}\"", dice.pick(&near)).into() } else { string(dice) };
        if name != b"\"data\"" {
            return name;
        }
    }
}

/// Digits, mostly few, now and then very many.
fn digits(dice: &mut Dice) -> String {
    let count = if dice.one_in(4) { 19 + dice.index(60) } else { 1 + dice.index(4) };
    (0..count).map(|_| char::from(b'0' + dice.below(10) as u8)).collect()
}

/// A number that the grammar has, of every form.
pub fn number(dice: &mut Dice) -> Vec<u8> {
    let whole = if dice.one_in(4) { "0".to_string() } else { format!("{}{}", 1 + dice.below(9), digits(dice)) };
    let fraction = if dice.one_in(3) { format!(".{}", digits(dice)) } else { String::new() };
    let exponent =
        if dice.one_in(3) { format!("{}{}{}", dice.pick(&["e", "E"]), dice.pick(&["", "+", "-"]), digits(dice)) } else { String::new() };
    format!("{}{whole}{fraction}{exponent}", dice.pick(&["", "-"])).into()
}

/// A whole number that is not in INT range, or a number that isn't whole or isn't written so.
pub fn no_int(dice: &mut Dice) -> Vec<u8> {
    let beyond = [
        "9223372036854775808",
        "-9223372036854775809",
        "18446744073709551615",
        "18446744073709551616",
        "-18446744073709551616",
        "10000000000000000000",
        "340282366920938463463374607431768211457",
    ];
    match dice.below(4) {
        0 => dice.pick(&beyond).into(),
        1 | 2 => dice.pick(&["1.0", "-0.0", "2.5", "0.5", "-7.25", "9223372036854775807.0", "1e2", "0e0", "10E-1", "-1.5e1"]).into(),
        _ => format!("{}{}{}", dice.pick(&["", "-"]), 1 + dice.below(9), digits(dice).repeat(20)).into(),
    }
}

/// A value of any kind, of at most so many levels.
pub fn value(dice: &mut Dice, levels: usize) -> Vec<u8> {
    match dice.below(if levels == 0 { 5 } else { 8 }) {
        0 => b"null".to_vec(),
        1 => dice.pick(&["true", "false"]).into(),
        2 => number(dice),
        3 | 4 => string(dice),
        5 | 6 => list(dice, levels, "[", "]", |_| vec![]),
        _ => list(dice, levels, "{", "}", |dice| [any_name(dice), blank(dice), b":".to_vec(), blank(dice)].concat()),
    }
}

fn any_name(dice: &mut Dice) -> Vec<u8> {
    if dice.one_in(3) {
        data_name(dice)
    } else {
        other_name(dice)
    }
}

/// Values between brackets, each after what `front` gives.
fn list(dice: &mut Dice, levels: usize, open: &str, close: &str, front: fn(&mut Dice) -> Vec<u8>) -> Vec<u8> {
    let values: Vec<Vec<u8>> =
        (0..dice.index(4)).map(|_| [blank(dice), front(dice), value(dice, levels - 1), blank(dice)].concat()).collect();
    [open.as_bytes(), &values.join(&b","[..]), close.as_bytes()].concat()
}

/// A value of exactly so many levels, of brackets and braces.
pub fn nested(dice: &mut Dice, levels: usize) -> Vec<u8> {
    if levels == 0 {
        return value(dice, 0);
    }
    let inner = if levels == 1 && dice.one_in(3) { vec![] } else { nested(dice, levels - 1) };
    let beside: &[u8] = if dice.one_in(6) && !inner.is_empty() { b"[],{}," } else { b"" };
    match dice.below(3) {
        0 if !inner.is_empty() => [b"{\"a\":", inner.as_slice(), b"}"].concat(),
        _ => [b"[", beside, inner.as_slice(), b"]"].concat(),
    }
}

/// A value with a fault.
pub fn broken_value(dice: &mut Dice) -> Vec<u8> {
    match dice.below(10) {
        0..=3 => broken_string(dice),
        4..=6 => dice.pick(&NO_NUMBERS).into(),
        7 => dice.pick(&NO_WORDS).into(),
        8 => dice.pick(&NO_LISTS).into(),
        _ => dice.pick(&NO_VALUES).into(),
    }
}

/// A value that is cut; often a number where a digit is due, or a string inside an escape or a letter.
pub fn cut_value(dice: &mut Dice) -> Vec<u8> {
    let strings: [&[u8]; 7] = [b"\"\\", b"\"\\", b"\"a\\", b"\"\xe2", b"\"\xe2\x82", b"\"\xf0\x9f", b"\"\\u00"];
    match dice.below(3) {
        0 => dice.pick(&["-", "-", "1.", "-0.", "1e", "1E+"]).into(),
        1 => dice.pick(&strings).to_vec(),
        _ => dice.pick(&CUT).to_vec(),
    }
}

/// A few blanks, mostly none.
pub fn blank(dice: &mut Dice) -> Vec<u8> {
    let count = dice.pick(&[0, 0, 0, 0, 1, 1, 2, 5]);
    (0..count).map(|_| dice.pick(b" \t\n\r")).collect()
}
