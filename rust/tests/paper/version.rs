//! The two versions of a bundle, request [6] of paper 02: one record of sizes with two values. What reads or writes bytes goes by
//! it; nothing about coordinates, values or pages does.

#[derive(Clone, Copy, Debug, PartialEq, Eq)]
pub struct Sizes {
    /// The version's number, in a bundle's bytes or told.
    pub version: u32,
    /// The bytes of a name.
    pub name: usize,
    pub most_axes: usize,
    /// The bytes of an axis: its name and four limits.
    pub axis: usize,
    /// The bytes of a step's detail, and of the whole step.
    pub detail: usize,
    pub step: usize,
}

pub const ONE: Sizes = Sizes { version: 1, name: 8, most_axes: 4, axis: 24, detail: 32, step: 36 };
pub const TWO: Sizes = Sizes { version: 2, name: 16, most_axes: 6, axis: 32, detail: 96, step: 100 };

/// Both versions.
pub const VERSIONS: [Sizes; 2] = [ONE, TWO];

impl Sizes {
    /// The sizes of the version with that number: 1 or 2, and no other.
    pub fn of_version(number: u32) -> Option<Sizes> {
        VERSIONS.into_iter().find(|sizes| sizes.version == number)
    }

    /// The bytes of a head: type byte, axis count byte, room for the most axes.
    pub fn head(self) -> usize {
        2 + self.most_axes * self.axis
    }

    /// Whether an array may have so many axes.
    pub fn fits_axes(self, count: usize) -> bool {
        (1..=self.most_axes).contains(&count)
    }
}

#[cfg(test)]
mod tests {
    use super::*;

    /// The request's own figures, and how they hang together: a name and four limits make an axis, a name an axis fills the detail.
    #[test]
    fn sizes_of_both() {
        for sizes in VERSIONS {
            assert_eq!(sizes.axis, sizes.name + 16);
            assert_eq!(sizes.detail, sizes.name * sizes.most_axes);
            assert_eq!(sizes.step, 4 + sizes.detail);
        }
        assert_eq!(VERSIONS.map(Sizes::head), [98, 194]);
        assert_eq!(
            [0, 1, 2, 3, 257, 258, 65_537, 65_538, u32::MAX].map(|n| Sizes::of_version(n).is_some()),
            [false, true, true, false, false, false, false, false, false]
        );
    }
}
