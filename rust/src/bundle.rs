//! A bundle of arrays in bytes: read, and asked about one array at a time.

use std::iter::FusedIterator;

use crate::call;
use crate::cell::{Cell, Kind, CELL};
use crate::extent::{Axis, Head};
use crate::recipe::Recipe;
use crate::refusal::Refusal;
use crate::version::{Version, OPENING};

/// A bundle of one to four arrays that the engine has read and accepted. Arrays are counted from 1.
#[derive(Clone, Debug, PartialEq, Eq)]
pub struct Bundle<'a> {
    pub(crate) bytes: &'a [u8],
    version: Version,
    arrays: Vec<Lies>,
}

/// Where an array lies in a bundle that was accepted.
#[derive(Clone, Copy, Debug, PartialEq, Eq)]
struct Lies {
    kind: Kind,
    /// The bytes at which its axes and its cells begin, and at which its cells end.
    axes: usize,
    cells: usize,
    end: usize,
}

impl Lies {
    /// The array that begins at byte `from` of an accepted bundle: type, axis count, axes, cells.
    fn at(version: Version, bytes: &[u8], from: usize) -> Lies {
        let axes = from + 2;
        let cells = axes + version.axis() * usize::from(bytes[from + 1]);
        let head = Head { kind: Kind::of(u32::from(bytes[from])), axes: axes_in(version, &bytes[axes..cells]) };
        Lies { kind: head.kind, axes, cells, end: cells + CELL * head.cells() }
    }
}

/// The axes in bytes of a bundle that was accepted.
fn axes_in(version: Version, bytes: &[u8]) -> Vec<Axis> {
    bytes.chunks_exact(version.axis()).map(|axis| Axis::judged(version, axis)).collect()
}

impl<'a> Bundle<'a> {
    /// Reads a bundle: the engine judges it, once; where its arrays lie then stands in the accepted bytes. Refused 1, 2, 3.
    pub fn read(bytes: &'a [u8]) -> Result<Bundle<'a>, Refusal> {
        let count = call::read(bytes)?.number(0);
        let version = Version::judged(bytes);
        let mut arrays: Vec<Lies> = Vec::new();
        for _ in 0..count {
            arrays.push(Lies::at(version, bytes, arrays.last().map_or(OPENING, |before| before.end)));
        }
        Ok(Bundle { bytes, version, arrays })
    }

    /// Its version.
    pub fn version(&self) -> Version {
        self.version
    }

    /// A recipe of no step yet, for this bundle: one of its version.
    pub fn recipe(&self) -> Recipe {
        Recipe::new(self.version)
    }

    /// The number of arrays.
    pub fn count(&self) -> u32 {
        self.arrays.len() as u32
    }

    /// The bundle's bytes.
    pub fn bytes(&self) -> &'a [u8] {
        self.bytes
    }

    /// Array k: its type, its axes, its cells. Refused 4.
    pub fn array(&self, k: u32) -> Result<Array<'a>, Refusal> {
        let lies = self.lies(k)?;
        let head = Head { kind: lies.kind, axes: axes_in(self.version, &self.bytes[lies.axes..lies.cells]) };
        Ok(Array { head, bytes: &self.bytes[lies.cells..lies.end], bundle: self.bytes, number: k })
    }

    /// Where array k lies, or the engine's refusal.
    fn lies(&self, k: u32) -> Result<Lies, Refusal> {
        match k.checked_sub(1).and_then(|at| self.arrays.get(at as usize)) {
            Some(lies) => Ok(*lies),
            None => Err(call::array(self.bytes, k).err().expect("an array that isn't there is refused")),
        }
    }

    /// The cell of array k at a coordinate: empty where that lies inside the declared maximum but not in the array. Refused 4, then 5
    /// for the wrong number of coordinates, then 6 beyond the maximum.
    pub fn refer(&self, k: u32, coordinate: &[i32]) -> Result<Cell, Refusal> {
        let positions: Vec<u8> = coordinate.iter().flat_map(|position| position.to_le_bytes()).collect();
        let said = call::refer(self.bytes, k, &positions)?;
        Ok(self.told(k, &said.bytes()[..CELL]))
    }

    /// The cell of array k at a walking place, which is moved forward past it; nothing at the end (cells + 1), where the place stays.
    /// Refused 4, then 6 for a walking place of 0 or beyond the end; the place stays.
    pub fn walk_on(&self, k: u32, place: &mut u32) -> Result<Option<Cell>, Refusal> {
        let mut at = place.to_le_bytes();
        let said = call::walk(self.bytes, k, &mut at)?;
        *place = u32::from_le_bytes(at);
        let seen = said.bytes()[0] == 1;
        Ok(seen.then(|| self.told(k, &said.bytes()[1..=CELL])))
    }

    /// All cells of array k in row-major order, as a walk from 1 on sees them, with no further judging of the bundle. Refused 4.
    pub fn walk(&self, k: u32) -> Result<Walk<'a>, Refusal> {
        let lies = self.lies(k)?;
        Ok(Walk { kind: lies.kind, left: &self.bytes[lies.cells..lies.end] })
    }

    /// A total of array k, its empty cells skipped; a count is a [`Cell::Int`]. Refused 4, then 7 for a type that it isn't for, then 12
    /// for a sum that doesn't fit or isn't finite.
    pub fn total(&self, k: u32, which: Total) -> Result<Cell, Refusal> {
        let said = call::total(self.bytes, k, which as u32)?;
        let bytes = &said.bytes()[..CELL];
        Ok(match which {
            Total::Filled | Total::True => Cell::judged(Kind::Int, bytes),
            Total::Smallest | Total::Largest | Total::Sum | Total::Average => self.told(k, bytes),
        })
    }

    /// A cell that the engine answered of array k; there is such an array, or it had refused.
    fn told(&self, k: u32, bytes: &[u8]) -> Cell {
        Cell::judged(self.arrays[k as usize - 1].kind, bytes)
    }
}

/// Which total of an array.
#[derive(Clone, Copy, Debug, PartialEq, Eq, Hash)]
pub enum Total {
    /// The count of filled cells, of any type.
    Filled = 1,
    /// The count of TRUE cells, BOOLEAN.
    True = 2,
    /// The smallest cell, INT or FLOAT; the first of equals.
    Smallest = 3,
    /// The largest cell, INT or FLOAT; the first of equals.
    Largest = 4,
    /// The sum, INT (exact) or FLOAT (in row-major order).
    Sum = 5,
    /// The average, FLOAT.
    Average = 6,
}

/// One array of a bundle. Two are equal if their types, axes and cells are, wherever they stand.
#[derive(Clone, Debug)]
pub struct Array<'a> {
    head: Head,
    bytes: &'a [u8],
    /// The bundle that it stands in, and its number there.
    bundle: &'a [u8],
    number: u32,
}

impl PartialEq for Array<'_> {
    fn eq(&self, other: &Self) -> bool {
        self.head == other.head && self.bytes == other.bytes
    }
}

impl Eq for Array<'_> {}

impl<'a> Array<'a> {
    /// Its type and axes.
    pub fn head(&self) -> &Head {
        &self.head
    }

    /// The type of its cells.
    pub fn kind(&self) -> Kind {
        self.head.kind
    }

    /// Its axes, with limits and declared maxima.
    pub fn axes(&self) -> &[Axis] {
        &self.head.axes
    }

    /// The bytes of its cells in row-major order, nine each: a part of the bundle.
    pub fn bytes(&self) -> &'a [u8] {
        self.bytes
    }

    /// Its cells in row-major order.
    pub fn cells(&self) -> impl ExactSizeIterator<Item = Cell> + 'a {
        let kind = self.kind();
        self.bytes.chunks_exact(CELL).map(move |bytes| Cell::judged(kind, bytes))
    }

    /// The array as JSON: an object with one member `data`, a bracket deeper for each axis, the first axis outermost, with no space and
    /// no newline. INT in shortest decimal, BOOLEAN as `true` and `false`, an empty cell as `null`. [`read_json`](crate::read_json())
    /// reads it back. Refused 7 for FLOAT.
    ///
    /// ```
    /// use rovgrint::{pack, Axis, Bundle, Cell, Head, Kind, Version};
    ///
    /// let square = Head { kind: Kind::Int, axes: vec![Axis::new("x", 1, 2), Axis::new("y", 1, 2)] };
    /// let mut bytes = [0; 92];
    /// let length = pack(Version::One, &[square], &[Cell::Int(1), Cell::Int(2), Cell::Empty, Cell::Int(-6)], &mut bytes)?;
    /// let bundle = Bundle::read(&bytes[..length])?;
    /// assert_eq!(bundle.array(1)?.to_json()?, r#"{"data":[[1,2],[null,-6]]}"#);
    /// # Ok::<(), rovgrint::Refusal>(())
    /// ```
    pub fn to_json(&self) -> Result<String, Refusal> {
        let most = 10 + self.cells().len() * (19 + 2 * self.axes().len()); // proved: no text is longer
        let mut out = vec![0; most];
        let length = call::write_json(self.bundle, self.number, &mut out)?.number(0) as usize;
        out.truncate(length);
        Ok(String::from_utf8(out).expect("the text is ASCII"))
    }
}

/// A walk over an array's cells, begun at ordinality 1; see [`Bundle::walk`].
#[derive(Clone, Debug)]
pub struct Walk<'a> {
    kind: Kind,
    /// The bytes of the cells that were not seen yet.
    left: &'a [u8],
}

impl Iterator for Walk<'_> {
    type Item = Cell;

    fn next(&mut self) -> Option<Cell> {
        let (cell, left) = self.left.split_at_checked(CELL)?;
        self.left = left;
        Some(Cell::judged(self.kind, cell))
    }

    fn size_hint(&self) -> (usize, Option<usize>) {
        (self.left.len() / CELL, Some(self.left.len() / CELL))
    }
}

impl ExactSizeIterator for Walk<'_> {}

impl FusedIterator for Walk<'_> {}
