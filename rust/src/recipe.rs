//! A recipe built step by step for a version: one function an operation. The engine judges it when it is run.

use crate::cell::Cell;
use crate::extent::name_bytes;
use crate::version::Version;

/// The operation that removes an axis, and the one that takes a B without one.
const SLICE: u8 = 2;
pub(crate) const PLACE: u8 = 7;

/// The result of step k is operand k and this.
pub(crate) const STEPS_FROM: usize = 16;

/// The operand that is the result of step k, 1 to 16, of the recipe. (Operands 1 to 4 are the bundle's arrays.)
pub const fn step(k: u8) -> u8 {
    k.saturating_add(STEPS_FROM as u8)
}

/// An operator between two cells, or a cell and a scalar.
///
/// Arithmetic and comparisons with an empty cell give an empty cell: an empty cell divided by zero, and an empty cell compared with an
/// empty one, too. AND and OR take it as SQL's unknown: FALSE AND empty is FALSE, TRUE OR empty is TRUE, with the other truth value, or
/// with another empty cell, it stays empty.
#[derive(Clone, Copy, Debug, PartialEq, Eq, Hash)]
pub enum Operator {
    /// `+`, of INT or FLOAT.
    Plus = 1,
    /// `-`, of INT or FLOAT.
    Minus = 2,
    /// `*`, of INT or FLOAT.
    Times = 3,
    /// `/`, of INT (toward zero) or FLOAT.
    Divide = 4,
    /// MOD, of INT; the dividend's sign.
    Mod = 5,
    /// `=`, of any type.
    Equal = 6,
    /// `<>`, of any type.
    Unequal = 7,
    /// `<`, of INT or FLOAT.
    Less = 8,
    /// `<=`, of INT or FLOAT.
    LessOrEqual = 9,
    /// `>`, of INT or FLOAT.
    Greater = 10,
    /// `>=`, of INT or FLOAT.
    GreaterOrEqual = 11,
    /// AND, of BOOLEAN.
    And = 12,
    /// OR, of BOOLEAN.
    Or = 13,
}

/// An operator on one cell. On an empty cell [`Negate`](Single::Negate), [`Absolute`](Single::Absolute) and [`Not`](Single::Not) give an
/// empty one; the others give TRUE or FALSE, whatever the cell.
///
/// Which turns have eleven hours of rest? NOT of "below 660" leaves a turn that nobody entered unknown, so that it isn't listed; with
/// is-true before it, NOT lists that turn too; is-unknown lists just such turns:
///
/// ```
/// use rovgrint::{pack, step, Axis, Bundle, Cell, Head, Kind, Operator, Recipe, Single, Version};
///
/// let turns = Head { kind: Kind::Int, axes: vec![Axis::new("turn", 1, 3)] };
/// let mut bytes = [0; 59];
/// pack(Version::One, &[turns], &[Cell::Int(960), Cell::Empty, Cell::Int(360)], &mut bytes)?;
/// let rests = Bundle::read(&bytes)?;
/// let below = rests.recipe().right_scalar(1, Operator::Less, Cell::Int(660)); // FALSE, empty, TRUE
/// let listed = |recipe: Recipe| -> Result<Vec<i32>, rovgrint::Refusal> {
///     let (mut work, mut page) = ([0; 81], [0; 24]);
///     let rows = rests.rows(recipe.bytes(), &mut work, &mut page)?;
///     Ok(rows.map(|row| row.coordinate[0]).collect())
/// };
///
/// assert_eq!(listed(below.clone().single(step(1), Single::Not))?, [1]);
/// assert_eq!(listed(below.clone().single(step(1), Single::IsTrue).single(step(2), Single::Not))?, [1, 2]);
/// assert_eq!(listed(below.clone().single(step(1), Single::IsFalse))?, [1]);
/// assert_eq!(listed(below.single(step(1), Single::IsUnknown))?, [2]);
/// # Ok::<(), rovgrint::Refusal>(())
/// ```
#[derive(Clone, Copy, Debug, PartialEq, Eq, Hash)]
pub enum Single {
    /// The sign changed, of INT or FLOAT.
    Negate = 1,
    /// Without the sign, of INT or FLOAT.
    Absolute = 2,
    /// NOT, of BOOLEAN.
    Not = 3,
    /// Whether the cell is empty, of any type.
    IsEmpty = 4,
    /// Whether the cell is TRUE, of BOOLEAN; FALSE of an empty one.
    IsTrue = 5,
    /// Whether the cell is FALSE, of BOOLEAN; FALSE of an empty one.
    IsFalse = 6,
    /// Whether the cell is unknown, which is what an empty one is, of BOOLEAN.
    IsUnknown = 7,
}

/// The bytes of a recipe. Each function adds a step and gives the recipe back; operands are arrays (1 to 4) or [`step`]s.
///
/// A recipe is built for one version, that of the bundle which it is for: [`Bundle::recipe`](crate::Bundle::recipe) begins one. Over a
/// bundle of the other version it is refused with 4, place 0.
///
/// Pairs, amounts and names are given for each axis of A in turn. A step doesn't know A: a slot left out is zeros, so a pair left out
/// is `0:0`. What a step has no bytes for (a pair, amount or name more than the version's most axes; an empty scalar) makes it a step of
/// no known operation, which the engine refuses with 4 there. A name longer than the version's is no name: refused with 9 at its step.
///
/// ```
/// use rovgrint::{Recipe, Version};
///
/// let renamed = |version| Recipe::new(version).rename(1, &["person_on_call", "turn"]);
/// assert_eq!(renamed(Version::One).bytes().len(), 36); // will be refused with 9: the first name has 14 letters
/// assert_eq!(renamed(Version::Two).bytes().len(), 100);
/// ```
#[derive(Clone, Debug, PartialEq, Eq, Hash)]
pub struct Recipe {
    version: Version,
    bytes: Vec<u8>,
}

impl AsRef<[u8]> for Recipe {
    fn as_ref(&self) -> &[u8] {
        self.bytes()
    }
}

impl Recipe {
    /// A recipe of no step yet, for bundles of that version.
    pub fn new(version: Version) -> Recipe {
        Recipe { version, bytes: vec![] }
    }

    /// The version that it is built for.
    pub fn version(&self) -> Version {
        self.version
    }

    /// The recipe's bytes.
    pub fn bytes(&self) -> &[u8] {
        &self.bytes
    }

    /// Operation 1: those coordinates of A, which lie inside A. A pair is the lower and the upper limit.
    pub fn trim(self, a: u8, pairs: &[(i32, i32)]) -> Recipe {
        self.with_slots([1, a, 0, 0], pairs, pair_bytes)
    }

    /// Operation 2: that position of A, the axis removed.
    pub fn slice(self, a: u8, axis: u8, position: i32) -> Recipe {
        self.with([SLICE, a, 0, axis], Some(position.to_le_bytes().to_vec()))
    }

    /// Operation 3: A with new limits; shared coordinates keep their cells, others are empty.
    pub fn reshape(self, a: u8, pairs: &[(i32, i32)]) -> Recipe {
        self.with_slots([3, a, 0, 0], pairs, pair_bytes)
    }

    /// Operation 4: A's limits moved by these amounts, and its cells with them.
    pub fn shift(self, a: u8, amounts: &[i32]) -> Recipe {
        self.with_slots([4, a, 0, 0], amounts, |amount| amount.to_le_bytes())
    }

    /// Operation 5: A with other names.
    pub fn rename(self, a: u8, names: &[&str]) -> Recipe {
        let version = self.version;
        self.with_slots([5, a, 0, 0], names, |name| name_bytes(version, name))
    }

    /// Operation 6: A with B's cells, empty ones too, at B's coordinates, all inside A.
    pub fn update(self, a: u8, b: u8) -> Recipe {
        self.with([6, a, b, 0], Some(vec![]))
    }

    /// Operation 7: A with B's cells, empty ones too, at that position of the axis; B has one axis fewer.
    pub fn place(self, a: u8, b: u8, axis: u8, position: i32) -> Recipe {
        self.with([PLACE, a, b, axis], Some(position.to_le_bytes().to_vec()))
    }

    /// Operation 8: A then B along the axis; A's lower limit is kept.
    pub fn glue(self, a: u8, b: u8, axis: u8) -> Recipe {
        self.with([8, a, b, axis], Some(vec![]))
    }

    /// Operation 9: A and B cell by cell; their extents are equal.
    pub fn pair(self, a: u8, b: u8, operator: Operator) -> Recipe {
        self.with([9, a, b, 0], Some(vec![operator as u8]))
    }

    /// Operation 10: each cell of A, operator, scalar. The scalar has A's type; the engine reads its eight bytes as such.
    pub fn right_scalar(self, a: u8, operator: Operator, scalar: Cell) -> Recipe {
        self.with([10, a, 0, 0], scalar_bytes(operator, scalar))
    }

    /// Operation 11: scalar, operator, each cell of A. The scalar has A's type; the engine reads its eight bytes as such.
    pub fn left_scalar(self, a: u8, operator: Operator, scalar: Cell) -> Recipe {
        self.with([11, a, 0, 0], scalar_bytes(operator, scalar))
    }

    /// Operation 12: the operator on each cell of A.
    pub fn single(self, a: u8, operator: Single) -> Recipe {
        self.with([12, a, 0, 0], Some(vec![operator as u8]))
    }

    /// Adds a step whose detail has a slot for each axis; of more slots than the most axes there is no detail.
    fn with_slots<T, Slot: IntoIterator<Item = u8>>(self, front: [u8; 4], slots: &[T], bytes: impl Fn(&T) -> Slot) -> Recipe {
        let fits = slots.len() <= self.version.most_axes();
        self.with(front, fits.then(|| slots.iter().flat_map(bytes).collect()))
    }

    /// Adds a step: operation, operands and axis index, then its detail, both padded with zeros. With no detail it is all zeros, which
    /// is no operation.
    fn with(mut self, front: [u8; 4], detail: Option<Vec<u8>>) -> Recipe {
        let end = self.bytes.len() + self.version.step();
        if let Some(detail) = detail {
            self.bytes.extend(front);
            self.bytes.extend(detail);
        }
        self.bytes.resize(end, 0);
        self
    }
}

/// Lower and upper limit, four bytes each.
fn pair_bytes(&(lower, upper): &(i32, i32)) -> [u8; 8] {
    let [a, b, c, d] = lower.to_le_bytes();
    let [e, f, g, h] = upper.to_le_bytes();
    [a, b, c, d, e, f, g, h]
}

/// The detail of an operator and a scalar, whose eight bytes begin at byte 4; none of an empty scalar.
fn scalar_bytes(operator: Operator, scalar: Cell) -> Option<Vec<u8>> {
    let (_, word) = scalar.word()?;
    Some([&[operator as u8, 0, 0, 0][..], &word].concat())
}
