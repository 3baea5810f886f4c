//! Reads JSON into cells as a careful engineer would write it for this one shape: one pass over the bytes, a function a rule, brackets
//! counted against the extent as they come, cells laid down as they are read. It validates all of the text, skips other members, and keeps
//! the promise of `rma_read_json` about what is accepted; of a refusal it tells a byte, the first that it meets, and no number.

/// One before the byte place of what is wrong.
#[derive(Debug, PartialEq)]
pub struct Fault(pub usize);
type Read<T> = Result<T, Fault>;

const MOST_LEVELS: usize = 16;

struct Reader<'a> {
    text: &'a [u8],
    at: usize,
    boolean: bool,
    out: &'a mut [u8],
    done: usize,
}

/// (g): lays the cells down in `out`, nine bytes each; a refusal leaves some there. The number of cells.
#[inline(never)]
pub fn read(text: &[u8], boolean: bool, widths: &[usize], out: &mut [u8]) -> Read<usize> {
    if 9 * widths.iter().product::<usize>() > out.len() {
        return Err(Fault(text.len()));
    }
    std::str::from_utf8(text).map_err(|error| Fault(error.valid_up_to()))?;
    let mut reader = Reader { text, at: 0, boolean, out, done: 0 };
    reader.whole(widths)?;
    Ok(reader.done)
}

/// (h): as (g), but into a buffer of its own first, so that a refusal leaves `out` as it was.
#[inline(never)]
pub fn read_apart(text: &[u8], boolean: bool, widths: &[usize], own: &mut [u8], out: &mut [u8]) -> Read<usize> {
    let cells = read(text, boolean, widths, own)?;
    out.get_mut(..9 * cells).ok_or(Fault(text.len()))?.copy_from_slice(&own[..9 * cells]);
    Ok(cells)
}

impl Reader<'_> {
    fn peek(&self) -> Option<u8> {
        self.text.get(self.at).copied()
    }

    fn fault<T>(&self) -> Read<T> {
        Err(Fault(self.at))
    }

    fn blanks(&mut self) {
        while let Some(b' ' | b'\t' | b'\n' | b'\r') = self.peek() {
            self.at += 1;
        }
    }

    fn take(&mut self, byte: u8) -> bool {
        let there = self.peek() == Some(byte);
        self.at += there as usize;
        there
    }

    fn expect(&mut self, byte: u8) -> Read<()> {
        if self.take(byte) {
            Ok(())
        } else {
            self.fault()
        }
    }

    fn word(&mut self, word: &[u8]) -> Read<()> {
        if !self.text[self.at..].starts_with(word) {
            return self.fault();
        }
        self.at += word.len();
        Ok(())
    }

    /// The object, with its one `data`, and nothing but blanks behind it.
    fn whole(&mut self, widths: &[usize]) -> Read<()> {
        self.blanks();
        self.expect(b'{')?;
        let mut found = false;
        self.blanks();
        if !self.take(b'}') {
            loop {
                self.blanks();
                if self.name()? {
                    if found {
                        return self.fault();
                    }
                    found = true;
                    self.colon()?;
                    self.brackets(widths)?;
                } else {
                    self.colon()?;
                    self.skip(1)?;
                }
                self.blanks();
                if !self.take(b',') {
                    break;
                }
            }
            self.expect(b'}')?;
        }
        self.blanks();
        if found && self.at == self.text.len() {
            return Ok(());
        }
        self.fault()
    }

    fn colon(&mut self) -> Read<()> {
        self.blanks();
        self.expect(b':')?;
        self.blanks();
        Ok(())
    }

    /// The brackets of these widths, and the cells in them.
    fn brackets(&mut self, widths: &[usize]) -> Read<()> {
        let [width, others @ ..] = widths else { return self.cell() };
        self.expect(b'[')?;
        for i in 0..*width {
            self.blanks();
            if i > 0 {
                self.expect(b',')?;
                self.blanks();
            }
            if others.is_empty() {
                self.cell()?;
            } else {
                self.brackets(others)?;
            }
        }
        self.blanks();
        self.expect(b']')
    }

    fn cell(&mut self) -> Read<()> {
        let word = match self.peek() {
            Some(b'n') => return self.word(b"null").map(|()| self.lay(0, 0)),
            Some(b't') if self.boolean => self.word(b"true").map(|()| 1)?,
            Some(b'f') if self.boolean => self.word(b"false").map(|()| 0)?,
            Some(b'-' | b'0'..=b'9') if !self.boolean => self.whole_number()? as u64,
            _ => return self.fault(),
        };
        self.lay(1, word);
        Ok(())
    }

    fn lay(&mut self, mark: u8, word: u64) {
        let to = &mut self.out[9 * self.done..9 * self.done + 9];
        to[0] = mark;
        to[1..].copy_from_slice(&word.to_le_bytes());
        self.done += 1;
    }

    /// A whole number in range, without fraction or exponent.
    fn whole_number(&mut self) -> Read<i64> {
        let from = self.at;
        let negative = self.take(b'-');
        let first = self.at;
        let mut size: u64 = 0;
        while let Some(digit @ b'0'..=b'9') = self.peek() {
            size = size.checked_mul(10).and_then(|n| n.checked_add(u64::from(digit - b'0'))).ok_or(Fault(from))?;
            self.at += 1;
        }
        let digits = self.at - first;
        if digits == 0 || (digits > 1 && self.text[first] == b'0') || matches!(self.peek(), Some(b'.' | b'e' | b'E')) {
            return self.fault();
        }
        let fits = if negative { size <= 1 << 63 } else { size < 1 << 63 };
        match fits {
            true if negative => Ok((size as i64).wrapping_neg()),
            true => Ok(size as i64),
            false => Err(Fault(from)),
        }
    }

    /// Any value, inside so many levels.
    fn skip(&mut self, levels: usize) -> Read<()> {
        match self.peek() {
            Some(b'"') => self.string(),
            Some(b'{' | b'[') if levels == MOST_LEVELS => self.fault(),
            Some(b'{') => self.skip_list(b'}', levels + 1),
            Some(b'[') => self.skip_list(b']', levels + 1),
            Some(b't') => self.word(b"true"),
            Some(b'f') => self.word(b"false"),
            Some(b'n') => self.word(b"null"),
            _ => self.number(),
        }
    }

    /// The values of an array, or the members of an object, up to the bracket that closes it.
    fn skip_list(&mut self, close: u8, levels: usize) -> Read<()> {
        self.at += 1;
        self.blanks();
        if self.take(close) {
            return Ok(());
        }
        loop {
            self.blanks();
            if close == b'}' {
                if self.peek() != Some(b'"') {
                    return self.fault();
                }
                self.string()?;
                self.colon()?;
            }
            self.skip(levels)?;
            self.blanks();
            if !self.take(b',') {
                return self.expect(close);
            }
        }
    }

    fn digits(&mut self) -> Read<()> {
        let from = self.at;
        while let Some(b'0'..=b'9') = self.peek() {
            self.at += 1;
        }
        if self.at == from {
            return self.fault();
        }
        Ok(())
    }

    fn number(&mut self) -> Read<()> {
        self.take(b'-');
        if !self.take(b'0') {
            self.digits()?;
        }
        if self.take(b'.') {
            self.digits()?;
        }
        if self.take(b'e') || self.take(b'E') {
            let _ = self.take(b'+') || self.take(b'-');
            self.digits()?;
        }
        Ok(())
    }

    /// A string from quote to quote; that it is UTF-8 is known.
    fn string(&mut self) -> Read<()> {
        self.at += 1;
        loop {
            match self.peek() {
                Some(b'"') => {
                    self.at += 1;
                    return Ok(());
                }
                Some(b'\\') => {
                    self.escape()?;
                }
                Some(32..) => self.at += 1,
                _ => return self.fault(),
            }
        }
    }

    /// An escape, and the letter that it tells, if that is one of ASCII's.
    fn escape(&mut self) -> Read<u8> {
        self.at += 1;
        let letter = self.peek().unwrap_or(0);
        self.at += 1;
        match letter {
            b'"' | b'\\' | b'/' => Ok(letter),
            b'b' | b'f' | b'n' | b'r' | b't' => Ok(0),
            b'u' => {
                let mut code = 0;
                for _ in 0..4 {
                    let digit = self.peek().and_then(|byte| (byte as char).to_digit(16)).ok_or(Fault(self.at))?;
                    code = 16 * code + digit;
                    self.at += 1;
                }
                Ok(u8::try_from(code).unwrap_or(0))
            }
            _ => Err(Fault(self.at - 1)),
        }
    }

    /// A name: whether it is `data`, its escapes undone.
    fn name(&mut self) -> Read<bool> {
        if self.text[self.at..].starts_with(b"\"data\"") {
            self.at += 6;
            return Ok(true);
        }
        let from = self.at;
        if self.peek() != Some(b'"') {
            return self.fault();
        }
        self.string()?;
        let end = self.at;
        self.at = from + 1;
        let mut left = &b"data"[..];
        while self.at < end - 1 {
            let letter = match self.text[self.at] {
                b'\\' => self.escape()?,
                letter => {
                    self.at += 1;
                    letter
                }
            };
            match left.split_first() {
                Some((due, others)) if *due == letter => left = others,
                _ => {
                    self.at = end;
                    return Ok(false);
                }
            }
        }
        self.at = end;
        Ok(left.is_empty())
    }
}
