//! An array: its type, its extent, and a map that has one cell for each coordinate of the extent.
//! Bundle arrays have a declared maximum beside it; step results have none (`*` everywhere).

use super::cell::{Cell, Type};
use super::extent::{Coordinate, Extent};
use std::collections::BTreeMap;

pub type Cells = BTreeMap<Coordinate, Cell>;

#[derive(Clone, Debug, PartialEq)]
pub struct Array {
    pub of: Type,
    pub extent: Extent,
    pub cells: Cells,
}

/// What is known of an array before its cells are.
#[derive(Clone, Debug, PartialEq)]
pub struct Shape {
    pub of: Type,
    pub extent: Extent,
}

/// An array of a bundle: lower and upper of the maximum for each axis, and the byte at which its cells begin.
#[derive(Clone, Debug)]
pub struct Declared {
    pub array: Array,
    pub maximum: Vec<(i32, i32)>,
    pub cells_begin: usize,
}

impl Array {
    /// The array whose cells are given in row-major order.
    pub fn of_cells(shape: Shape, in_order: Vec<Cell>) -> Array {
        let cells = shape.extent.coordinates().into_iter().zip(in_order).collect();
        Array { of: shape.of, extent: shape.extent, cells }
    }

    pub fn shape(&self) -> Shape {
        Shape { of: self.of, extent: self.extent.clone() }
    }

    /// Coordinates with their ordinality and cell, in row-major order.
    pub fn in_order(&self) -> Vec<(u32, Coordinate, Cell)> {
        let coordinates = self.extent.coordinates().into_iter();
        coordinates.map(|coordinate| (self.extent.ordinality(&coordinate), coordinate.clone(), self.cells[&coordinate])).collect()
    }

    /// The cells' bytes in row-major order.
    pub fn cell_bytes(&self) -> Vec<u8> {
        self.extent.coordinates().iter().flat_map(|coordinate| self.cells[coordinate].bytes()).collect()
    }
}
