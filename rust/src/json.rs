//! JSON read into the cells of an array whose type and axes the caller names; and a refused text shown to a person, with the byte at
//! which it was refused and what stands around it.

use crate::call;
use crate::cell::{Cell, CELL};
use crate::extent::Head;
use crate::refusal::Refusal;
use crate::version::Version;

/// The most cells of an array; the engine refuses a head with more of them before it looks at the text.
const MOST_CELLS: usize = 4_096;

/// Reads a JSON text into the array that `head` names, and answers its cells in row-major order. Declared maxima aren't looked at.
///
/// The text is one object in UTF-8, nested to 16 levels. Its member `data` counts, names compared with escapes undone: a bracket for each
/// axis, the first axis outermost, and in them whole numbers, or `true` and `false`, as the type has it, and `null` for an empty cell.
/// Other members are skipped. What [`Array::to_json`](crate::Array::to_json) writes is read as the cells that were written.
///
/// Refused with place 0: 1 for the number of axes, 2 for the extent (also for a name that the version has no room for), 7 for FLOAT; 15
/// where the text is no such object or has not one `data`; 16 where a value or bracket of `data` doesn't fit. The ordinality of 15 and 16
/// is the byte, counted from 1; [`Refusal::words_in`] shows it in the text.
///
/// ```
/// use rovgrint::{read_json, Axis, Cell, Head, Kind, Version};
///
/// let rests = Head { kind: Kind::Int, axes: vec![Axis::new("who", 1, 2), Axis::new("turn", 1, 2)] };
/// let sent = r#"{ "from": "depot 7", "data": [[960, null], [360, 1560]] }"#;
/// let cells = read_json(Version::One, &rests, sent)?;
/// assert_eq!(cells, [Cell::Int(960), Cell::Empty, Cell::Int(360), Cell::Int(1560)]);
///
/// let refused = |text: &str| read_json(Version::One, &rests, text).unwrap_err().figures();
/// assert_eq!(refused(r#"{"data":[[960,null],[360]]}"#), [16, 0, 25]); // a turn is missing: its closing bracket
/// assert_eq!(refused(r#"{"data":[[960,null],[360,1560]]"#), [15, 0, 32]); // the text ends early: one past its end
/// # Ok::<(), rovgrint::Refusal>(())
/// ```
pub fn read_json(version: Version, head: &Head, text: impl AsRef<[u8]>) -> Result<Vec<Cell>, Refusal> {
    let mut bytes = vec![0; CELL * head.cells().min(MOST_CELLS)];
    let count = call::read_json(version, &head.to_bytes(version), text.as_ref(), &mut bytes)?.number(0) as usize;
    Ok(bytes[..CELL * count].chunks_exact(CELL).map(|cell| Cell::judged(head.kind, cell)).collect())
}

/// The most bytes that are shown before a byte of a text, and from it on.
const BEFORE: usize = 32;
const FROM: usize = 16;

impl Refusal {
    /// The refusal in words, and for 15 and 16 what stands in that text around its byte. The text is the one that was refused, and may be
    /// any bytes: control characters are shown as escapes, bytes that are no UTF-8 as `\xff`. Other refusals are [`words`](Refusal::words)
    /// alone, and so are 15 and 16 where the text has no such byte.
    ///
    /// ```
    /// use rovgrint::{read_json, Axis, Head, Kind, Version};
    ///
    /// let turns = Head { kind: Kind::Boolean, axes: vec![Axis::new("turn", 1, 2)] };
    /// let text = r#"{"data":[true,1]}"#;
    /// let refusal = read_json(Version::One, &turns, text).unwrap_err();
    /// let sentence = "byte 15: a value or bracket of the text's data does not fit the array's type and extent";
    /// assert_eq!(refusal.words(), sentence);
    /// assert_eq!(refusal.words_in(text), format!(r#"{sentence}; after {{"data":[true, comes 1]}}"#));
    ///
    /// let cut = &text[..14];
    /// let refusal = read_json(Version::One, &turns, cut).unwrap_err();
    /// assert!(refusal.words_in(cut).ends_with(r#"; after {"data":[true, the text ends"#));
    /// ```
    pub fn words_in(&self, text: impl AsRef<[u8]>) -> String {
        match (self.number, around(text.as_ref(), self.ordinality)) {
            (15 | 16, Some(piece)) => format!("{}; {piece}", self.words()),
            _ => self.words(),
        }
    }
}

/// What stands around a byte of a text, counted from 1, or at its end; nothing where there is no such byte, or where it isn't told.
fn around(text: &[u8], byte: u32) -> Option<String> {
    if byte == u32::MAX {
        return None;
    }
    let (before, from) = text.split_at_checked(usize::try_from(byte).ok()?.checked_sub(1)?)?;
    Some(match (before.is_empty(), from.is_empty()) {
        (true, true) => "the text is empty".to_string(),
        (true, false) => format!("the text begins with {}", first_of(from)),
        (false, true) => format!("after {} the text ends", last_of(before)),
        (false, false) => format!("after {} comes {}", last_of(before), first_of(from)),
    })
}

/// The last bytes before a place, and dots where there are more. A letter of several bytes is not cut.
fn last_of(before: &[u8]) -> String {
    let mut at = before.len().saturating_sub(BEFORE);
    while at > 0 && at < before.len() && goes_on(before[at]) {
        at += 1;
    }
    format!("{}{}", if at > 0 { "..." } else { "" }, shown(&before[at..]))
}

/// The first bytes from a place on, and dots where there are more. A letter of several bytes is not cut.
fn first_of(from: &[u8]) -> String {
    let mut end = from.len().min(FROM);
    while end > 1 && end < from.len() && goes_on(from[end]) {
        end -= 1;
    }
    format!("{}{}", shown(&from[..end]), if end < from.len() { "..." } else { "" })
}

/// Whether a byte goes on with a letter of UTF-8 that an earlier one begins.
fn goes_on(byte: u8) -> bool {
    byte & 0xc0 == 0x80
}

/// Bytes for a person: letters as they are, but those that don't show (control characters among them) and bytes that are no UTF-8 escaped.
fn shown(bytes: &[u8]) -> String {
    let mut line = String::new();
    for chunk in bytes.utf8_chunks() {
        chunk.valid().chars().for_each(|letter| show(&mut line, letter));
        line.extend(chunk.invalid().iter().map(|byte| format!("\\x{byte:02x}")));
    }
    line
}

fn show(line: &mut String, letter: char) {
    match letter {
        '"' | '\'' | '\\' => line.push(letter),
        _ => line.extend(letter.escape_debug()),
    }
}

#[cfg(test)]
mod tests {
    use super::*;
    use crate::refusal::Counts;

    fn words_in(number: u32, byte: u32, text: &[u8]) -> String {
        Refusal { number, place: 0, ordinality: byte, counts: Counts::Nothing }.words_in(text)
    }

    /// What follows the sentence.
    fn piece(byte: u32, text: &[u8]) -> String {
        let words = words_in(15, byte, text);
        words.split_once("; ").map_or(String::new(), |(_, piece)| piece.to_string())
    }

    #[test]
    fn a_piece_of_the_text() {
        assert_eq!(piece(1, b""), "the text is empty");
        assert_eq!(piece(1, b"[1]"), "the text begins with [1]");
        assert_eq!(piece(3, b"{}x"), "after {} comes x");
        assert_eq!(piece(2, b"{"), "after { the text ends");
        assert_eq!(piece(41, &[b'7'; 60]), format!("after ...{} comes {}...", "7".repeat(32), "7".repeat(16)));
        assert_eq!(piece(33, &[b'7'; 48]), format!("after {} comes {}", "7".repeat(32), "7".repeat(16)));
    }

    #[test]
    fn bytes_that_do_not_show() {
        assert_eq!(piece(3, b"{\"\xff\"}"), r#"after {" comes \xff"}"#);
        assert_eq!(piece(3, b"{\n\x00\x7f"), r"after {\n comes \0\u{7f}");
        assert_eq!(piece(3, b"\"\xe0\x80\""), r#"after "\xe0 comes \x80""#);
        assert_eq!(piece(6, "\"\u{e4}\u{202e}x".as_bytes()), "after \"\u{e4}\\xe2\\x80 comes \\xaex");
        assert_eq!(piece(2, "\"M\u{fc}ller\"".as_bytes()), "after \" comes M\u{fc}ller\"");
    }

    #[test]
    fn letters_are_not_cut() {
        let text = "\u{20ac}".repeat(30);
        assert_eq!(piece(46, text.as_bytes()), format!("after ...{} comes {}...", "\u{20ac}".repeat(10), "\u{20ac}".repeat(5)));
        for byte in 1..=text.len() as u32 + 1 {
            assert!(!piece(byte, text.as_bytes()).is_empty());
            assert!(!piece(byte, &[0x80; 91]).is_empty());
        }
    }

    #[test]
    fn no_such_byte_and_other_refusals() {
        for byte in [0, 4, 5, u32::MAX] {
            assert_eq!(piece(byte, b"{}"), "", "byte {byte}");
        }
        assert!(words_in(15, u32::MAX, b"{}").starts_with("byte 4294967295 or after it: the text is not one JSON object"));
        assert!(words_in(16, 2, b"{}").ends_with("; after { comes }"));
        for number in (0..15).chain([17]) {
            let plain = Refusal { number, place: 0, ordinality: 2, counts: Counts::Nothing }.words();
            assert_eq!(words_in(number, 2, b"{}"), plain);
        }
    }
}
