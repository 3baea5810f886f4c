//! Reading from lent bytes from the front, little-endian, never past their end.
//! What is short is `None`; who asks says which refusal that is.

pub struct Reader<'a> {
    bytes: &'a [u8],
    pub at: usize,
}

impl<'a> Reader<'a> {
    pub fn new(bytes: &'a [u8]) -> Reader<'a> {
        Reader { bytes, at: 0 }
    }

    /// The next `count` bytes, if that many are left.
    pub fn take(&mut self, count: usize) -> Option<&'a [u8]> {
        let part = self.bytes.get(self.at..self.at.checked_add(count)?)?;
        self.at += count;
        Some(part)
    }

    pub fn byte(&mut self) -> Option<u8> {
        self.take(1).map(|part| part[0])
    }

    pub fn all_read(&self) -> bool {
        self.at == self.bytes.len()
    }
}

/// The signed 32-bit number in four bytes.
pub fn signed(four: &[u8]) -> i32 {
    i32::from_le_bytes([four[0], four[1], four[2], four[3]])
}

/// The unsigned 32-bit number in four bytes.
pub fn unsigned(four: &[u8]) -> u32 {
    u32::from_le_bytes([four[0], four[1], four[2], four[3]])
}

/// The signed 32-bit numbers that stand in the bytes one after the other.
pub fn signed_numbers(bytes: &[u8]) -> Vec<i32> {
    bytes.chunks_exact(4).map(signed).collect()
}
