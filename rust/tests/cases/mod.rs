//! The cases that library and paper are both asked: which function, the shared inputs, the numbers, and the lent buffers
//! with what they hold before. The submodules make them up, from a seed.

pub mod answers;
pub mod apart;
pub mod axes;
pub mod bundles;
pub mod cells;
pub mod dice;
pub mod faults;
pub mod json;
pub mod json_reads;
pub mod json_texts;
pub mod json_values;
pub mod met;
pub mod met_axes;
pub mod met_json;
pub mod met_moves;
pub mod met_reads;
pub mod met_text;
pub mod met_versions;
pub mod packs;
pub mod printed;
pub mod questions;
pub mod readings;
pub mod recipes;
pub mod runs;
pub mod same;
pub mod steps;
pub mod stretches;

use crate::paper::version::{Sizes, VERSIONS};
use dice::Dice;

#[derive(Clone, Copy, Debug, PartialEq, Eq)]
pub enum Function {
    Read,
    Array,
    Pack,
    Refer,
    Walk,
    Total,
    WriteJson,
    ReadJson,
    Plan,
    Extent,
    Run,
    Page,
    Stretch,
}

/// Each function with its name and its weight among the cases.
pub const FUNCTIONS: [(Function, &str, u64); 13] = [
    (Function::Read, "rma_read", 20),
    (Function::Array, "rma_array", 14),
    (Function::Pack, "rma_pack", 22),
    (Function::Refer, "rma_refer", 24),
    (Function::Walk, "rma_walk", 20),
    (Function::Total, "rma_total", 26),
    (Function::WriteJson, "rma_write_json", 27),
    (Function::ReadJson, "rma_read_json", 56),
    (Function::Plan, "rma_plan", 24),
    (Function::Extent, "rma_extent", 24),
    (Function::Run, "rma_run", 46),
    (Function::Page, "rma_page", 64),
    (Function::Stretch, "rma_stretch", 40),
];

/// The arguments of one call: slices that are only read, numbers, and lent buffers (`said` is the last), each in order.
#[derive(Clone, Debug)]
pub struct Case {
    pub function: Function,
    pub shared: Vec<Vec<u8>>,
    pub numbers: Vec<u32>,
    pub lent: Vec<Vec<u8>>,
}

/// What one call gave: the number of its refusal, 0 for none, and every lent buffer after.
#[derive(Clone, Debug, PartialEq, Eq)]
pub struct Answer {
    pub number: u32,
    pub lent: Vec<Vec<u8>>,
}

impl Case {
    pub fn name(&self) -> &'static str {
        FUNCTIONS[self.function as usize].1
    }
}

/// One case of that function, or a chain of cases that follow from each other.
pub fn of_function(dice: &mut Dice, function: Function) -> Vec<Case> {
    match function {
        Function::Read => vec![questions::read(dice)],
        Function::Array => vec![questions::array(dice)],
        Function::Pack => packs::packs(dice),
        Function::Refer => questions::refers(dice),
        Function::Walk => questions::walks(dice),
        Function::Total => questions::totals(dice),
        Function::WriteJson => json::writings(dice),
        Function::ReadJson => json_reads::reads(dice),
        Function::Plan => vec![runs::plan(dice)],
        Function::Extent => vec![runs::extent(dice)],
        Function::Run => vec![runs::run(dice)],
        Function::Page => runs::pages(dice),
        Function::Stretch => stretches::stretches(dice),
    }
}

/// The version of a case: either.
pub fn version(dice: &mut Dice) -> Sizes {
    dice.pick(&VERSIONS)
}

/// The version that it isn't.
pub fn other_version(sizes: Sizes) -> Sizes {
    let [one, two] = VERSIONS;
    if sizes == one {
        two
    } else {
        one
    }
}

/// The version that a pack, a stretch or a reading of JSON is told: mostly that of its heads, else the other one, or a number that is no
/// version, often one whose lowest bytes are those of a version.
pub fn told(dice: &mut Dice, sizes: Sizes) -> u32 {
    let right = sizes.version;
    match dice.below(48) {
        0 | 1 => other_version(sizes).version,
        2 => 0,
        3 => 3,
        4 | 5 => 65_536 + right,
        6 => dice.pick(&[1 << 8, 1 << 17, 1 << 24, 1 << 31]) + right,
        7 => dice.pick(&[4, 255, 65_535, 65_536, u32::MAX, u32::MAX - 1, right << 16]),
        _ => right,
    }
}

/// A buffer for the answer: mostly room for every answer, sometimes less; filled with random bytes.
pub fn said(dice: &mut Dice) -> Vec<u8> {
    let length = match dice.below(20) {
        0..=11 => 16,
        12..=16 => dice.between(17, 40) as usize,
        _ => dice.index(16),
    };
    dice.bytes(length)
}

/// A buffer to be lent where `right` bytes are needed: now right, now longer, now short; filled with random bytes.
pub fn lent(dice: &mut Dice, right: usize) -> Vec<u8> {
    let length = match dice.below(24) {
        0..=11 => right,
        12..=14 => right + 1 + dice.index(8),
        15..=20 => right + dice.index(64),
        21 => right.saturating_sub(1),
        22 => 0,
        _ => dice.index(right + 1),
    };
    dice.bytes(length)
}
