//! Paper 01 and requests [1], [2], [3], [5] and [6] of paper 02 in plain Rust, written from their words alone and sharing nothing with the
//! engine that is proved. An array is a map from coordinate to cell, and each operation is said over coordinates, as the paper says
//! it. `face` answers the thirteen callable parts with it; bytes are met only in `bytes`, `bundle`, `pack`, `recipe`, `json_text` and
//! `face`, and how many of them a version has is told by `version` alone.

pub mod array;
pub mod bundle;
pub mod bytes;
pub mod cell;
pub mod extent;
pub mod face;
pub mod json;
pub mod json_read;
pub mod json_text;
pub mod judge;
pub mod listing;
pub mod moves;
pub mod pack;
pub mod question;
pub mod recipe;
pub mod refusal;
pub mod stretch;
pub mod values;
pub mod version;
