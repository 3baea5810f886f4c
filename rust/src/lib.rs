//! Rovgrint from Rust: a proved engine for small multi-dimensional arrays, for people who plan other people's work.
//!
//! It has one rule that nobody can switch off. A cell inside an array's declared maximum but not in the array is empty; a cell beyond
//! the maximum is refused; two arrays meet only where their axes agree by name and limits. Bytes of any length and content get an
//! answer: a value, or a [`Refusal`] with its number, place and ordinality.
//!
//! The engine is the static library `librma.a`, proved in Rattle. This crate adds types and iterators, and judges nothing itself: what
//! a type here can say and the engine's bytes can't (a name that is too long, a FLOAT among INTs, a pair too many) is handed on as bytes
//! that the engine refuses, at the place where it stands. [`raw`] has the thirteen functions as they are; the repository's `docs/FORMAT.md`
//! has every byte that they take and give.
//!
//! # Eleven hours
//!
//! Two people, three turns, starts and ends in minutes. Whose rest before the next turn is below 660 minutes? The next turn's start
//! has to be moved onto this turn first.
//!
//! ```
//! use rovgrint::{pack, step, Axis, Bundle, Cell, Head, Kind, Operator, Row, Version};
//!
//! let turns = Head { kind: Kind::Int, axes: vec![Axis::new("who", 1, 2), Axis::new("turn", 1, 3)] };
//! let starts = [1320, 2760, 4200, 360, 1200, 3240].map(Cell::Int);
//! let ends = [1800, 3240, 4680, 840, 1680, 3720].map(Cell::Int);
//! let mut bytes = [0; 214];
//! let length = pack(Version::One, &[turns.clone(), turns], &[starts, ends].concat(), &mut bytes)?;
//! let roster = Bundle::read(&bytes[..length])?;
//!
//! let recipe = roster
//!     .recipe() // of no step yet, in the roster's version
//!     .trim(1, &[(1, 2), (2, 3)]) // step 1: starts of the turns 2:3
//!     .shift(step(1), &[0, -1]) // step 2: each at the turn before it
//!     .trim(2, &[(1, 2), (1, 2)]) // step 3: ends of the turns 1:2
//!     .pair(step(2), step(3), Operator::Minus) // step 4: the rests
//!     .right_scalar(step(4), Operator::Less, Cell::Int(660)); // step 5: those below eleven hours
//!
//! let rows: Vec<Row> = roster.listing(&recipe)?.collect();
//! assert_eq!(rows, [Row { ordinality: 3, coordinate: vec![2, 1] }]); // person 2, turn 1
//!
//! let no_shift = roster
//!     .recipe()
//!     .trim(1, &[(1, 2), (2, 3)])
//!     .trim(2, &[(1, 2), (1, 2)])
//!     .pair(step(1), step(2), Operator::Minus) // the turns 2:3 and 1:2 don't meet
//!     .right_scalar(step(3), Operator::Less, Cell::Int(660));
//! let refusal = roster.listing(&no_shift).unwrap_err();
//! assert_eq!(refusal.to_string(), "refused 8 3 22"); // axis 2, its lower limit
//! assert_eq!(refusal.words(), "step 3, axis 2: the lower limits of the two arrays differ");
//! let by_name = "step 3: axis 2, turn, begins at 2 in step 1's result and at 1 in step 2's result";
//! assert_eq!(refusal.words_for(&roster, &no_shift), by_name);
//! # Ok::<(), rovgrint::Refusal>(())
//! ```
//!
//! # Longer names, six axes
//!
//! A bundle of [`Version::Two`] has names of up to 16 letters and arrays of up to 6 axes; [`Version::One`], as above, has 8 and 4. The
//! version is told where a bundle is made, and stands in its bytes; everything else is called alike. A recipe is built for the version
//! of its bundle: [`Bundle::recipe`] knows it, [`Recipe::new`] is told it. A recipe of the other version is refused with 4.
//!
//! ```
//! use rovgrint::{pack, Axis, Bundle, Cell, Head, Kind, Operator, Recipe, Row, Version};
//!
//! let axes = ["branch", "depot", "line", "person_on_call", "week", "turn"].map(|name| Axis::new(name, 1, 1));
//! let mut rests = Head { kind: Kind::Int, axes: axes.to_vec() };
//! (rests.axes[3].upper, rests.axes[5].upper) = (2, 2);
//! let mut bytes = [0; 236];
//! let length = pack(Version::Two, &[rests], &[960, 960, 360, 1560].map(Cell::Int), &mut bytes)?;
//! let bundle = Bundle::read(&bytes[..length])?;
//!
//! let below = bundle.recipe().right_scalar(1, Operator::Less, Cell::Int(660));
//! let rows: Vec<Row> = bundle.listing(&below)?.collect();
//! assert_eq!(rows, [Row { ordinality: 3, coordinate: vec![1, 1, 1, 2, 1, 1] }]); // person 2, turn 1
//!
//! let of_version_one = Recipe::new(Version::One).right_scalar(1, Operator::Less, Cell::Int(660));
//! assert_eq!(bundle.listing(&of_version_one).unwrap_err().figures(), [4, 0, 0]);
//! # Ok::<(), rovgrint::Refusal>(())
//! ```

#![deny(missing_docs)]
#![deny(unsafe_code)]
#![forbid(unsafe_op_in_unsafe_fn)]

mod bundle;
#[allow(unsafe_code)]
mod call;
mod cell;
mod differs;
mod extent;
mod json;
mod listing;
mod pack;
pub mod raw;
mod recipe;
mod refusal;
mod stretch;
mod version;

pub use bundle::{Array, Bundle, Total, Walk};
pub use cell::{Cell, Kind, CELL};
pub use extent::{Axis, Head, STAR};
pub use json::read_json;
pub use listing::{Page, Plan, Row, Rows, MOST_WORK};
pub use pack::pack;
pub use recipe::{step, Operator, Recipe, Single};
pub use refusal::{Counts, Refusal};
pub use stretch::stretch;
pub use version::Version;
