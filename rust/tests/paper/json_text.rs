//! A text as one JSON object in UTF-8, request [5] of paper 02: read from the front, byte by byte, each rule of the grammar in a function
//! of its own. A byte is read only if some text that begins so is one object nested to 16 levels; the first that isn't is the fault. What
//! is read is a tree whose values know the byte place at which they begin; what the cells make of it is `json_read`'s.

/// The levels of brackets and braces, the object being the first.
const MOST_LEVELS: usize = 16;

/// The byte place, from 1, of the first byte that is not taken, or one past the end; and what was due there, or what is wrong with it.
#[derive(Clone, Copy, Debug, PartialEq, Eq)]
pub struct Fault {
    pub at: u64,
    pub why: Why,
    /// Whether it is the end of the text that is met.
    pub ends: bool,
}

/// What is due where a fault lies.
#[derive(Clone, Copy, Debug, PartialEq, Eq)]
pub enum Why {
    /// The brace that opens the object; a name's quote, or the closing brace; a name's quote after a comma; a colon; a value, or the
    /// closing bracket; a value after a comma or a colon; a comma or the closing bracket.
    Object,
    FirstName,
    NextName,
    Colon,
    FirstValue,
    NextValue,
    CommaOrEnd,
    /// No bracket or brace any more: it would be the 17th.
    Level,
    /// The next letter of `true`, `false` or `null`.
    Word,
    /// No digit, after a zero that begins a number; a number's first digit; the first of its fraction; the first of its exponent.
    NoDigit,
    WholeDigit,
    FractionDigit,
    ExponentDigit,
    /// A letter of a string, or its closing quote: a byte that begins no letter; a control byte.
    Letter,
    NoControl,
    /// The next byte of a letter of several bytes.
    GoesOn,
    /// What may come after a backslash; one of the four digits in hex.
    Escape,
    Hex,
    /// Nothing but blanks: the object is closed.
    Nothing,
    /// No second `data`, whose quote this is; a `data`, which the whole object lacks.
    OneData,
    Data,
}

/// A value, and the byte place of its first byte.
#[derive(Clone, Debug, PartialEq, Eq)]
pub struct Value {
    pub at: u64,
    pub kind: Kind,
}

#[derive(Clone, Debug, PartialEq, Eq)]
pub enum Kind {
    Null,
    Truth(bool),
    Number(Number),
    String(Letters),
    /// The values between brackets, and the byte place of the closing one.
    Array(Vec<Value>, u64),
    Object(Vec<Member>),
}

/// A number: whole and in INT range; whole and outside it; or with a fraction or an exponent, whatever it amounts to.
#[derive(Clone, Copy, Debug, PartialEq, Eq)]
pub enum Number {
    Whole(i64),
    Beyond,
    Fraction,
    Exponent,
}

/// A member: the byte place of its name's quote, its name with escapes undone, its value.
#[derive(Clone, Debug, PartialEq, Eq)]
pub struct Member {
    pub at: u64,
    pub name: Letters,
    pub value: Value,
}

/// The letters of a string with its escapes undone: Unicode's numbers; of an escape `\u` the number that it tells, half of a pair too.
pub type Letters = Vec<u32>;

/// Whether a name is `data`, letter by letter.
pub fn is_data(name: &[u32]) -> bool {
    name.iter().copied().eq("data".chars().map(u32::from))
}

/// The members of the object that the text is, in their order. One of them is `data`.
pub fn members(text: &[u8]) -> Result<Vec<Member>, Fault> {
    let mut reader = Reader { text, at: 0 };
    reader.blanks();
    if reader.next() != Some(b'{') {
        return Err(reader.fault(Why::Object));
    }
    let members = reader.object(1)?;
    reader.blanks();
    match reader.next() {
        Some(_) => Err(reader.fault(Why::Nothing)),
        None if members.iter().any(|member| is_data(&member.name)) => Ok(members),
        None => Err(reader.fault(Why::Data)),
    }
}

/// The text, and how many of its bytes were taken.
struct Reader<'a> {
    text: &'a [u8],
    at: usize,
}

impl Reader<'_> {
    fn next(&self) -> Option<u8> {
        self.text.get(self.at).copied()
    }

    /// Takes the next byte if it is one of these.
    fn take(&mut self, wanted: impl Fn(u8) -> bool) -> Option<u8> {
        let byte = self.next().filter(|byte| wanted(*byte))?;
        self.at += 1;
        Some(byte)
    }

    /// Takes the next byte, which must be one of these.
    fn due(&mut self, why: Why, wanted: impl Fn(u8) -> bool) -> Result<u8, Fault> {
        self.take(wanted).ok_or(self.fault(why))
    }

    /// The byte place of the next byte, or one past the end.
    fn place(&self) -> u64 {
        self.at as u64 + 1
    }

    fn fault(&self, why: Why) -> Fault {
        Fault { at: self.place(), why, ends: self.next().is_none() }
    }

    /// Space, tab, line feed, carriage return.
    fn blanks(&mut self) {
        while self.take(|byte| matches!(byte, b' ' | b'\t' | b'\n' | b'\r')).is_some() {}
    }

    fn value(&mut self, level: usize, why: Why) -> Result<Value, Fault> {
        self.blanks();
        let at = self.place();
        let kind = match self.next() {
            Some(b'{') => Kind::Object(self.object(level + 1)?),
            Some(b'[') => self.array(level + 1)?,
            Some(b'"') => Kind::String(self.string()?),
            Some(b'-' | b'0'..=b'9') => Kind::Number(self.number()?),
            Some(b't') => self.word("true", Kind::Truth(true))?,
            Some(b'f') => self.word("false", Kind::Truth(false))?,
            Some(b'n') => self.word("null", Kind::Null)?,
            _ => return Err(self.fault(why)),
        };
        Ok(Value { at, kind })
    }

    /// Takes the bracket or brace that opens a level, and the blanks after it.
    fn open(&mut self, level: usize) -> Result<(), Fault> {
        if level > MOST_LEVELS {
            return Err(self.fault(Why::Level));
        }
        self.at += 1;
        self.blanks();
        Ok(())
    }

    /// After a member or a value: whether a comma comes, or the closing bracket.
    fn goes_on(&mut self, close: u8) -> Result<bool, Fault> {
        self.blanks();
        self.due(Why::CommaOrEnd, |byte| byte == b',' || byte == close).map(|byte| byte == b',')
    }

    fn object(&mut self, level: usize) -> Result<Vec<Member>, Fault> {
        self.open(level)?;
        let mut members = vec![];
        if self.take(|byte| byte == b'}').is_some() {
            return Ok(members);
        }
        loop {
            let member = self.member(level, &members)?;
            members.push(member);
            if !self.goes_on(b'}')? {
                return Ok(members);
            }
        }
    }

    /// A name, a colon, a value. A second `data` of the outermost object is seen once its name is closed, and its first quote is the fault:
    /// whatever is wrong behind it stands at a higher place.
    fn member(&mut self, level: usize, before: &[Member]) -> Result<Member, Fault> {
        self.blanks();
        let at = self.place();
        if self.next() != Some(b'"') {
            return Err(self.fault(if before.is_empty() { Why::FirstName } else { Why::NextName }));
        }
        let name = self.string()?;
        if level == 1 && is_data(&name) && before.iter().any(|member| is_data(&member.name)) {
            return Err(Fault { at, why: Why::OneData, ends: false });
        }
        self.blanks();
        self.due(Why::Colon, |byte| byte == b':')?;
        let value = self.value(level, Why::NextValue)?;
        Ok(Member { at, name, value })
    }

    fn array(&mut self, level: usize) -> Result<Kind, Fault> {
        self.open(level)?;
        let mut values = vec![];
        if self.take(|byte| byte == b']').is_some() {
            return Ok(Kind::Array(values, self.place() - 1));
        }
        loop {
            let why = if values.is_empty() { Why::FirstValue } else { Why::NextValue };
            values.push(self.value(level, why)?);
            if !self.goes_on(b']')? {
                return Ok(Kind::Array(values, self.place() - 1));
            }
        }
    }

    fn word(&mut self, word: &str, kind: Kind) -> Result<Kind, Fault> {
        for letter in word.bytes() {
            self.due(Why::Word, |byte| byte == letter)?;
        }
        Ok(kind)
    }

    /// A minus or none; a zero alone, or digits that begin with another; a fraction or none; an exponent or none.
    fn number(&mut self) -> Result<Number, Fault> {
        let from = self.at;
        self.take(|byte| byte == b'-');
        if self.take(|byte| byte == b'0').is_none() {
            self.digits(Why::WholeDigit)?;
        } else if self.next().is_some_and(|byte| byte.is_ascii_digit()) {
            return Err(self.fault(Why::NoDigit));
        }
        let mut number = whole(&self.text[from..self.at]);
        if self.take(|byte| byte == b'.').is_some() {
            self.digits(Why::FractionDigit)?;
            number = Number::Fraction;
        }
        if self.take(|byte| byte == b'e' || byte == b'E').is_some() {
            self.take(|byte| byte == b'+' || byte == b'-');
            self.digits(Why::ExponentDigit)?;
            number = Number::Exponent;
        }
        Ok(number)
    }

    /// One digit or more.
    fn digits(&mut self, why: Why) -> Result<(), Fault> {
        self.due(why, |byte| byte.is_ascii_digit())?;
        while self.take(|byte| byte.is_ascii_digit()).is_some() {}
        Ok(())
    }

    /// A string from quote to quote, its escapes undone.
    fn string(&mut self) -> Result<Letters, Fault> {
        self.at += 1;
        let mut letters = vec![];
        loop {
            match self.next() {
                Some(b'"') => {
                    self.at += 1;
                    return Ok(letters);
                }
                Some(b'\\') => letters.push(self.escape()?),
                Some(0..=31) => return Err(self.fault(Why::NoControl)),
                _ => letters.push(self.letter()?),
            }
        }
    }

    /// A backslash, and a letter that stands for another, or `u` and four digits in hex of either case.
    fn escape(&mut self) -> Result<u32, Fault> {
        self.at += 1;
        let letter = self.due(Why::Escape, |byte| br#""\/bfnrtu"#.contains(&byte))?;
        Ok(match letter {
            b'b' => 8,
            b'f' => 12,
            b'n' => 10,
            b'r' => 13,
            b't' => 9,
            b'u' => self.hex()?,
            other => u32::from(other),
        })
    }

    fn hex(&mut self) -> Result<u32, Fault> {
        let mut number = 0;
        for _ in 0..4 {
            let digit = self.due(Why::Hex, |byte| byte.is_ascii_hexdigit())?;
            number = 16 * number + char::from(digit).to_digit(16).expect("a digit in hex");
        }
        Ok(number)
    }

    /// A letter in UTF-8 (RFC 3629): its first byte tells how many follow, and what the second may be, so that no letter is told in more
    /// bytes than it needs, none is half of a pair, and none lies over 10FFFF. The others are 80 to BF.
    fn letter(&mut self) -> Result<u32, Fault> {
        let Some(first) = self.next() else { return Err(self.fault(Why::Letter)) };
        let (bits, second, more) = match first {
            0x00..=0x7F => (first, 0..=0, 0),
            0xC2..=0xDF => (first & 0x1F, 0x80..=0xBF, 1),
            0xE0 => (0, 0xA0..=0xBF, 2),
            0xED => (0x0D, 0x80..=0x9F, 2),
            0xE1..=0xEF => (first & 0x0F, 0x80..=0xBF, 2),
            0xF0 => (0, 0x90..=0xBF, 3),
            0xF1..=0xF3 => (first & 0x07, 0x80..=0xBF, 3),
            0xF4 => (4, 0x80..=0x8F, 3),
            _ => return Err(self.fault(Why::Letter)),
        };
        self.at += 1;
        let mut letter = u32::from(bits);
        for follower in 0..more {
            let may_be = if follower == 0 { second.clone() } else { 0x80..=0xBF };
            let byte = self.due(Why::GoesOn, |byte| may_be.contains(&byte))?;
            letter = letter << 6 | u32::from(byte & 0x3F);
        }
        Ok(letter)
    }
}

/// A whole number as it is written: a minus or none, and digits, as many as there are. Minus zero is zero.
fn whole(written: &[u8]) -> Number {
    let (sign, digits) = if written[0] == b'-' { (-1, &written[1..]) } else { (1, written) };
    let mut number: i128 = 0;
    for digit in digits {
        number = 10 * number + i128::from(digit - b'0');
        if number > 1 << 63 {
            return Number::Beyond;
        }
    }
    i64::try_from(sign * number).map_or(Number::Beyond, Number::Whole)
}

#[cfg(test)]
mod tests {
    use super::*;

    /// A sound text, cut anywhere, ends early there, and every byte that it has may stand; without `data` too.
    #[test]
    fn cut_anywhere() {
        let text =
            "{ \"a\\u00e9\u{20ac}\u{1f600}\\n\" : [ true , -1.5e+3, {\"b\":null,\"\":[]} , false ] ,\"data\":[[0,-12],[null, 3]]}\n "
                .as_bytes();
        assert!(members(text).is_ok());
        let whole = text.len() - 2;
        for length in 0..whole {
            let fault = members(&text[..length]).expect_err("cut");
            assert_eq!((fault.at, fault.ends), (length as u64 + 1, true), "cut to {length}");
        }
        assert!((whole..=text.len()).all(|length| members(&text[..length]).is_ok()));
    }

    /// Which bytes are letters, against the language's own reading of UTF-8: up to where they are sound, and whether they end too early.
    #[test]
    fn letters_in_utf8() {
        let firsts = [0x7F, 0x80, 0xBF, 0xC0, 0xC1, 0xC2, 0xDF, 0xE0, 0xE1, 0xEC, 0xED, 0xEE, 0xEF, 0xF0, 0xF1, 0xF3, 0xF4, 0xF5, 0xFF];
        let others = [0x41, 0x7F, 0x80, 0x8F, 0x90, 0x9F, 0xA0, 0xBF, 0xC0, 0xC2, 0xE0, 0xFF];
        for first in firsts {
            for (a, b, c) in others.iter().flat_map(|&a| others.iter().flat_map(move |&b| others.map(|c| (a, b, c)))) {
                let letters = [first, a, b, c];
                let text = [b"{\"data\":0,\"", &letters[..], b"\":0}"].concat();
                let sound = std::str::from_utf8(&letters);
                match (members(&text), sound) {
                    (Ok(members), Ok(sound)) => assert!(members[1].name.iter().copied().eq(sound.chars().map(u32::from))),
                    (Err(fault), Err(error)) => {
                        let begins = 12 + error.valid_up_to() as u64;
                        assert!((begins..begins + 4).contains(&fault.at) && matches!(fault.why, Why::Letter | Why::GoesOn), "{letters:x?}");
                        let taken = fault.at - begins; // bytes of the letter that is not sound
                        let of_language = error.error_len().unwrap_or(letters.len() - error.valid_up_to()) as u64;
                        assert_eq!(taken.max(1), of_language, "{letters:x?}");
                    }
                    (read, sound) => panic!("{letters:x?}: {read:?}, {sound:?}"),
                }
            }
        }
    }

    /// What a string's escapes stand for.
    #[test]
    fn escapes_undone() {
        let text = r#"{"data":"\"\\\/\b\f\n\r\tA\u0041\u00fF\ud83d\uDE00"}"#;
        let members = members(text.as_bytes()).expect("an object");
        let letters = [34, 92, 47, 8, 12, 10, 13, 9, 65, 65, 255, 0xD83D, 0xDE00];
        assert_eq!(members[0].value.kind, Kind::String(letters.to_vec()));
    }
}
