//! The two versions of a bundle: how long a name may be, and how many axes there may be; the sizes in bytes follow from these two.

/// A version of the bundle. The versions differ in their names and in the number of axes, and in nothing else: types, limits, cells,
/// operations, listings and refusals are the same.
///
/// A bundle that is read knows its version ([`Bundle::version`](crate::Bundle::version)); [`pack`](crate::pack()),
/// [`stretch`](crate::stretch()) and [`read_json`](crate::read_json()) are told it; a [`Recipe`](crate::Recipe) is built for it. What one version can't say is refused,
/// never cut:
///
/// ```
/// use rovgrint::{pack, Axis, Bundle, Cell, Head, Kind, Version};
///
/// let names = ["location", "half_hour", "week_of_the_year", "depot", "line", "crew"]; // of 8, 9 and 16 letters, and shorter
/// let head = Head { kind: Kind::Int, axes: names.map(|name| Axis::new(name, 1, 1)).to_vec() };
/// let (cells, mut bytes) = ([Cell::Int(480)], [0; 209]);
/// pack(Version::Two, std::slice::from_ref(&head), &cells, &mut bytes)?;
/// let bundle = Bundle::read(&bytes)?;
/// assert_eq!((bundle.version(), bundle.array(1)?.head()), (Version::Two, &head));
///
/// let told = |axes: usize| {
///     let fewer = Head { axes: head.axes[..axes].to_vec(), ..head.clone() };
///     pack(Version::One, &[fewer], &cells, &mut [0; 209]).map_err(|refusal| refusal.figures())
/// };
/// assert_eq!(told(1), Ok(41)); // `location` just fits
/// assert_eq!(told(2), Err([2, 1, 0])); // `half_hour` has nine letters: refused 2, place the array
/// assert_eq!(told(5), Err([1, 1, 0])); // five axes, which comes first: refused 1, place the array
/// # Ok::<(), rovgrint::Refusal>(())
/// ```
#[derive(Clone, Copy, Debug, PartialEq, Eq, PartialOrd, Ord, Hash)]
pub enum Version {
    /// Names of up to 8 letters, up to 4 axes.
    One = 1,
    /// Names of up to 16 letters, up to 6 axes.
    Two = 2,
}

/// The bytes of an axis's four limits, and those of a step before its detail.
const LIMITS: usize = 16;
const FRONT: usize = 4;

impl Version {
    /// The most letters of an axis's name, which are the bytes that it has room for: 8 or 16.
    pub const fn most_letters(self) -> usize {
        match self {
            Version::One => 8,
            Version::Two => 16,
        }
    }

    /// The most axes of an array: 4 or 6.
    pub const fn most_axes(self) -> usize {
        match self {
            Version::One => 4,
            Version::Two => 6,
        }
    }

    /// The bytes of an axis in a bundle or a head: its name and four limits.
    pub(crate) const fn axis(self) -> usize {
        self.most_letters() + LIMITS
    }

    /// The bytes of a head: type, axis count, room for the most axes.
    pub(crate) const fn head(self) -> usize {
        2 + self.most_axes() * self.axis()
    }

    /// The bytes of a recipe's step: four, and a detail with room for a name an axis.
    pub(crate) const fn step(self) -> usize {
        FRONT + self.most_axes() * self.most_letters()
    }

    /// The version of a bundle that the engine has read.
    pub(crate) fn judged(bundle: &[u8]) -> Version {
        match bundle[VERSION..COUNT] {
            [1, 0] => Version::One,
            [2, 0] => Version::Two,
            _ => unreachable!("another version is refused by the engine"),
        }
    }
}

/// The bytes of a bundle at which its version and its count stand, and at which its first array begins.
const VERSION: usize = 3;
const COUNT: usize = 5;
pub(crate) const OPENING: usize = 6;
