//! An array without its cells: its type and its axes, and the bytes that tell them to the engine.

use crate::cell::Kind;
use crate::version::Version;

/// The range of every limit. `*` in a declared maximum stands for its ends.
pub const STAR: (i32, i32) = (-1_000_000, 1_000_000);

/// An axis: a name, closed limits, and the declared maximum of these.
///
/// Any text and any numbers can stand here; the engine judges them when they are handed to it. A name is a letter a-z, then letters,
/// digits or underscore, 8 at most in version 1 and 16 in version 2.
#[derive(Clone, Debug, PartialEq, Eq, Hash)]
pub struct Axis {
    /// The name.
    pub name: String,
    /// The lower limit.
    pub lower: i32,
    /// The upper limit.
    pub upper: i32,
    /// The declared maximum's lower limit.
    pub max_lower: i32,
    /// The declared maximum's upper limit.
    pub max_upper: i32,
}

impl Axis {
    /// An axis whose declared maximum is `*`.
    pub fn new(name: &str, lower: i32, upper: i32) -> Axis {
        Axis { name: name.to_string(), lower, upper, max_lower: STAR.0, max_upper: STAR.1 }
    }

    /// The same axis with that declared maximum.
    pub fn within(self, max_lower: i32, max_upper: i32) -> Axis {
        Axis { max_lower, max_upper, ..self }
    }

    /// The positions on the axis; none where the limits are crossed.
    fn width(&self) -> usize {
        usize::try_from(i64::from(self.upper) - i64::from(self.lower) + 1).unwrap_or(0)
    }

    /// The axis as it stands in a bundle of that version.
    fn to_bytes(&self, version: Version) -> Vec<u8> {
        let limits = [self.lower, self.upper, self.max_lower, self.max_upper].map(i32::to_le_bytes);
        [name_bytes(version, &self.name), limits.concat()].concat()
    }

    /// The axis in the bytes of a bundle that the engine has read, or of a head that it has written.
    pub(crate) fn judged(version: Version, bytes: &[u8]) -> Axis {
        let (name, limits) = bytes.split_at(version.most_letters());
        let name = name.iter().take_while(|&&byte| byte != 0).map(|&byte| char::from(byte)).collect();
        let limit = |k: usize| i32::from_le_bytes(limits[4 * k..4 * k + 4].try_into().expect("four bytes"));
        Axis { name, lower: limit(0), upper: limit(1), max_lower: limit(2), max_upper: limit(3) }
    }
}

/// A name's bytes in that version, padded with zeros. Text that they can't tell (empty, longer, or with a zero byte) is not cut: it is
/// written as bytes that are no name, which the engine refuses, with 2 in an extent, with 9 in a rename, and with 4 past the last axis.
pub(crate) fn name_bytes(version: Version, name: &str) -> Vec<u8> {
    let (text, room) = (name.as_bytes(), version.most_letters());
    if text.is_empty() || text.len() > room || text.contains(&0) {
        return vec![0xff; room];
    }
    let mut bytes = text.to_vec();
    bytes.resize(room, 0);
    bytes
}

/// An array without its cells.
#[derive(Clone, Debug, PartialEq, Eq, Hash)]
pub struct Head {
    /// The type of its cells.
    pub kind: Kind,
    /// Its axes, one to four in version 1, to six in version 2; the engine refuses another number with 1.
    pub axes: Vec<Axis>,
}

impl Head {
    /// The number of cells inside the axes' limits; as much as a `usize` holds where there are more.
    pub fn cells(&self) -> usize {
        self.axes.iter().fold(1, |cells: usize, axis| cells.saturating_mul(axis.width()))
    }

    /// The head in bytes that the engine has written.
    pub(crate) fn judged(version: Version, bytes: &[u8]) -> Head {
        let slots = bytes[2..].chunks_exact(version.axis()).take(usize::from(bytes[1]));
        Head { kind: Kind::of(u32::from(bytes[0])), axes: slots.map(|slot| Axis::judged(version, slot)).collect() }
    }

    /// The head's bytes, as the engine takes them in that version. More axes than there is room for are told by their number alone, which
    /// is refused.
    pub(crate) fn to_bytes(&self, version: Version) -> Vec<u8> {
        let mut bytes = vec![self.kind as u8, u8::try_from(self.axes.len()).unwrap_or(u8::MAX)];
        let axes = self.axes.iter().take(version.most_axes());
        bytes.extend(axes.flat_map(|axis| axis.to_bytes(version)));
        bytes.resize(version.head(), 0);
        bytes
    }
}
