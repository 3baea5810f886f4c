//! Two arrays read as if they were glued, without building the glued array.

use crate::call;
use crate::extent::Head;
use crate::refusal::Refusal;
use crate::version::Version;

/// The stretch of the array that `left` and `right` glued along `axis` would be, from the cell at `ordinality` up to where the other side
/// begins, or to the end: a part of the left or the right cells, whichever owns it.
///
/// Cells are nine bytes each and aren't judged; maxima aren't looked at. The version tells how long names may be, and how many axes there
/// may be. Refused for left (place 1), then right (place 2): 1 for the number of axes, 2 for the extent (also for a name that the version
/// has no room for), 1 for cells that aren't nine bytes each; then with place 0 as a glue is, 5, 7, 8, 9, and 8 says which axis differs;
/// then 6 for an ordinality of 0 or past the end.
///
/// ```
/// use rovgrint::{stretch, Axis, Cell, Head, Kind, Version};
///
/// let days = |upper: i32| Head { kind: Kind::Int, axes: vec![Axis::new("day_of_month", 1, upper)] };
/// let hours = |numbers: &[i64]| numbers.iter().flat_map(|&n| Cell::Int(n).to_bytes(Kind::Int)).collect::<Vec<u8>>();
/// let (january, february) = (hours(&[8; 31]), hours(&[7; 28]));
/// let from = |version, ordinality| stretch(version, &days(31), &january, &days(28), &february, 1, ordinality);
/// assert_eq!(from(Version::Two, 31)?, &january[270..]); // the last cell of January, then February begins
/// assert_eq!(from(Version::Two, 32)?, &february[..]);
/// assert_eq!(from(Version::One, 32).unwrap_err().figures(), [2, 1, 0]); // twelve letters: refused 2, place 1, the left side
/// # Ok::<(), rovgrint::Refusal>(())
/// ```
pub fn stretch<'a>(
    version: Version,
    left_head: &Head,
    left_cells: &'a [u8],
    right_head: &Head,
    right_cells: &'a [u8],
    axis: u32,
    ordinality: u32,
) -> Result<&'a [u8], Refusal> {
    let left = (&left_head.to_bytes(version)[..], left_cells);
    let right = (&right_head.to_bytes(version)[..], right_cells);
    let said = call::stretch(version, left, right, axis, ordinality)?;
    let owner = if said.number(0) == 1 { left_cells } else { right_cells };
    Ok(&owner[said.number(1) as usize..said.number(2) as usize])
}
