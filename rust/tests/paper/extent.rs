//! Axes and places: names, closed limits, extents, and row-major ordinality.
//! An extent exists only if it is sound: good and different names, limits in range and not crossed, at most 4,096 cells.

use super::version::Sizes;

pub const LOWEST: i64 = -1_000_000;
pub const HIGHEST: i64 = 1_000_000;
pub const MOST_CELLS: u128 = 4_096;

/// One position for each axis, in axis order.
pub type Coordinate = Vec<i32>;

#[derive(Clone, Debug, PartialEq, Eq)]
pub struct Axis {
    pub name: String,
    pub lower: i32,
    pub upper: i32,
}

#[derive(Clone, Debug, PartialEq, Eq)]
pub struct Extent {
    pub axes: Vec<Axis>,
}

/// An axis that nobody has judged yet: perhaps no good name, limits of any size.
#[derive(Clone, Debug)]
pub struct Proposed {
    pub name: Option<String>,
    pub lower: i64,
    pub upper: i64,
}

/// A letter a-z, then letters, digits or underscore, padded with zeros to the end of the bytes; it may fill them all.
pub fn name_in(bytes: &[u8]) -> Option<String> {
    let length = bytes.iter().position(|&byte| byte == 0).unwrap_or(bytes.len());
    let (name, padding) = bytes.split_at(length);
    let good_first = name.first().is_some_and(|byte| byte.is_ascii_lowercase());
    let good_rest = name.iter().all(|&byte| byte.is_ascii_lowercase() || byte.is_ascii_digit() || byte == b'_');
    let good_padding = padding.iter().all(|&byte| byte == 0);
    (good_first && good_rest && good_padding).then(|| name.iter().map(|&byte| byte as char).collect())
}

/// A name as its bytes in that version, which has room for all of it.
pub fn name_bytes(sizes: Sizes, name: &str) -> Vec<u8> {
    let mut bytes = vec![0; sizes.name];
    bytes[..name.len()].copy_from_slice(name.as_bytes());
    bytes
}

/// Whether a limit lies in -1,000,000..1,000,000.
pub fn in_range(limit: i64) -> bool {
    (LOWEST..=HIGHEST).contains(&limit)
}

impl Proposed {
    fn judged(&self) -> Option<Axis> {
        let sound = in_range(self.lower) && in_range(self.upper) && self.lower <= self.upper;
        let name = self.name.clone()?;
        sound.then_some(Axis { name, lower: self.lower as i32, upper: self.upper as i32 })
    }
}

impl Axis {
    pub fn width(&self) -> u128 {
        (i64::from(self.upper) - i64::from(self.lower) + 1) as u128
    }

    pub fn holds(&self, position: i32) -> bool {
        self.lower <= position && position <= self.upper
    }

    /// The axis before anyone judges what is changed of it.
    pub fn proposed(&self) -> Proposed {
        Proposed { name: Some(self.name.clone()), lower: i64::from(self.lower), upper: i64::from(self.upper) }
    }
}

impl Extent {
    /// The extent of the proposed axes, if it is sound. (No axis at all is not.)
    pub fn judged(proposed: &[Proposed]) -> Option<Extent> {
        let axes: Vec<Axis> = proposed.iter().map(Proposed::judged).collect::<Option<_>>()?;
        let equal_names = (0..axes.len()).any(|later| (0..later).any(|one| axes[one].name == axes[later].name));
        let extent = Extent { axes };
        (!extent.axes.is_empty() && !equal_names && extent.cells() <= MOST_CELLS).then_some(extent)
    }

    pub fn proposed(&self) -> Vec<Proposed> {
        self.axes.iter().map(Axis::proposed).collect()
    }

    pub fn cells(&self) -> u128 {
        self.axes.iter().map(Axis::width).product()
    }

    pub fn names(&self) -> Vec<&str> {
        self.axes.iter().map(|axis| axis.name.as_str()).collect()
    }

    pub fn holds(&self, coordinate: &[i32]) -> bool {
        coordinate.len() == self.axes.len() && self.axes.iter().zip(coordinate).all(|(axis, &position)| axis.holds(position))
    }

    /// 1 plus the sum over axes of L (the position less the lower limit) times the product of all later E (widths).
    pub fn ordinality(&self, coordinate: &[i32]) -> u32 {
        let mut ordinality = 1;
        for (index, axis) in self.axes.iter().enumerate() {
            let distance = (i64::from(coordinate[index]) - i64::from(axis.lower)) as u128;
            let later: u128 = self.axes[index + 1..].iter().map(Axis::width).product();
            ordinality += distance * later;
        }
        ordinality as u32
    }

    /// All coordinates, the last axis running fastest.
    pub fn coordinates(&self) -> Vec<Coordinate> {
        let mut all = vec![vec![]];
        for axis in &self.axes {
            let longer = |begun: &Coordinate| (axis.lower..=axis.upper).map(|p| [begun.as_slice(), &[p]].concat()).collect();
            all = all.iter().flat_map::<Vec<Coordinate>, _>(longer).collect();
        }
        all
    }
}
