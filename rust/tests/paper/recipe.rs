//! The recipe's steps as written, 36 bytes each in version 1, 100 in version 2: operation, operand A, operand B, axis index, and
//! the detail; which of these bytes each operation uses, and what it reads in them.

use super::bytes::{signed, signed_numbers};
use super::extent::name_in;
use super::refusal::{refused, Refusal};
use super::version::Sizes;

pub const MOST_STEPS: usize = 16;

#[derive(Clone, Copy, Debug, PartialEq, Eq)]
pub enum Operation {
    Trim,
    Slice,
    Reshape,
    Shift,
    Rename,
    Update,
    Place,
    Glue,
    Pair,
    RightScalar,
    LeftScalar,
    Single,
}

use Operation::*;

pub const OPERATIONS: [Operation; 12] = [Trim, Slice, Reshape, Shift, Rename, Update, Place, Glue, Pair, RightScalar, LeftScalar, Single];

/// A step's bytes, its operation known, and the sizes by which they are read.
#[derive(Clone, Debug)]
pub struct Step {
    pub sizes: Sizes,
    pub operation: Operation,
    pub a: u8,
    pub b: u8,
    pub axis: u8,
    pub detail: Vec<u8>,
}

/// The steps' bytes, if the recipe is 1 to 16 whole steps of the bundle's version.
pub fn steps_in(sizes: Sizes, recipe: &[u8]) -> Result<Vec<&[u8]>, Refusal> {
    let right = recipe.len().is_multiple_of(sizes.step) && (1..=MOST_STEPS).contains(&(recipe.len() / sizes.step));
    if right {
        Ok(recipe.chunks(sizes.step).collect())
    } else {
        Err(refused(4, 0))
    }
}

impl Step {
    /// The step, if its operation is known.
    pub fn of_bytes(sizes: Sizes, bytes: &[u8]) -> Option<Step> {
        let operation = *OPERATIONS.get(usize::from(bytes[0]).checked_sub(1)?)?;
        Some(Step { sizes, operation, a: bytes[1], b: bytes[2], axis: bytes[3], detail: bytes[4..].to_vec() })
    }

    pub fn uses_b(&self) -> bool {
        matches!(self.operation, Update | Place | Glue | Pair)
    }

    pub fn uses_axis(&self) -> bool {
        matches!(self.operation, Slice | Place | Glue)
    }

    /// Whether the operation uses that detail byte when A has so many axes.
    fn uses_detail(&self, byte: usize, axes_of_a: usize) -> bool {
        match self.operation {
            Trim | Reshape => byte < 8 * axes_of_a,
            Rename => byte < self.sizes.name * axes_of_a,
            Shift => byte < 4 * axes_of_a,
            Slice | Place => byte < 4,
            Update | Glue => false,
            Pair | Single => byte == 0,
            RightScalar | LeftScalar => byte == 0 || (4..12).contains(&byte),
        }
    }

    /// Whether all bytes that the step doesn't use are zero.
    pub fn unused_are_zero(&self, axes_of_a: usize) -> bool {
        let unused_b = self.uses_b() || self.b == 0;
        let unused_axis = self.uses_axis() || self.axis == 0;
        let unused = |(byte, value): (usize, &u8)| *value == 0 || self.uses_detail(byte, axes_of_a);
        unused_b && unused_axis && self.detail.iter().enumerate().all(unused)
    }

    /// Whether the operator, if the step has one, is known.
    pub fn operator_known(&self) -> bool {
        match self.operation {
            Pair | RightScalar | LeftScalar => (1..=13).contains(&self.operator()),
            Single => (1..=7).contains(&self.operator()),
            _ => true,
        }
    }

    pub fn operator(&self) -> u8 {
        self.detail[0]
    }

    /// Whether the step compares: =, <>, <, <=, > or >= in operations 9 to 11.
    pub fn compares(&self) -> bool {
        matches!(self.operation, Pair | RightScalar | LeftScalar) && (6..=11).contains(&self.operator())
    }

    pub fn pairs(&self, axes_of_a: usize) -> Vec<(i32, i32)> {
        signed_numbers(&self.detail[..8 * axes_of_a]).chunks(2).map(|pair| (pair[0], pair[1])).collect()
    }

    pub fn amounts(&self, axes_of_a: usize) -> Vec<i32> {
        signed_numbers(&self.detail[..4 * axes_of_a])
    }

    pub fn position(&self) -> i32 {
        signed(&self.detail[..4])
    }

    pub fn names(&self, axes_of_a: usize) -> Vec<Option<String>> {
        self.detail[..self.sizes.name * axes_of_a].chunks(self.sizes.name).map(name_in).collect()
    }

    pub fn scalar(&self) -> &[u8] {
        &self.detail[4..12]
    }

    /// Which axis of A the axis index names, counted from zero; meant only where the index is in A.
    pub fn axis_at(&self) -> usize {
        usize::from(self.axis) - 1
    }
}
