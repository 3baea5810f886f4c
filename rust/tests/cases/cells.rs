//! Cells in their nine bytes: calm ones, those at the edges of each type, and bytes that are not cells.
//! A mood says what one array is filled with.

use super::dice::Dice;

#[derive(Clone, Copy, PartialEq, Eq)]
pub enum Mood {
    Calm,
    Positive,
    Sparse,
    Edges,
    Mixed,
    Nothing,
    Huge,
    NegativeZeros,
    Zeros,
}

pub const MOODS: [Mood; 9] =
    [Mood::Calm, Mood::Positive, Mood::Sparse, Mood::Edges, Mood::Mixed, Mood::Nothing, Mood::Huge, Mood::NegativeZeros, Mood::Zeros];

/// A mood for arrays whose recipes should mostly be accepted.
pub fn calm_mood(dice: &mut Dice) -> Mood {
    if dice.one_in(7) {
        return dice.pick(&MOODS);
    }
    dice.pick(&[Mood::Calm, Mood::Calm, Mood::Positive, Mood::Positive, Mood::Sparse])
}

pub fn filled(bits: u64) -> [u8; 9] {
    let mut nine = [1; 9];
    nine[1..].copy_from_slice(&bits.to_le_bytes());
    nine
}

/// A cell of that type (1 INT, 2 FLOAT, 3 BOOLEAN) in that mood.
pub fn cell(dice: &mut Dice, of: u8, mood: Mood) -> [u8; 9] {
    let empty_in = match mood {
        Mood::Nothing => 1,
        Mood::Sparse => 2,
        _ => 8,
    };
    if dice.one_in(empty_in) {
        return [0; 9];
    }
    filled(match of {
        1 => int(dice, mood) as u64,
        2 => float(dice, mood).to_bits(),
        _ => dice.below(2),
    })
}

fn int(dice: &mut Dice, mood: Mood) -> i64 {
    match mood {
        Mood::Positive => i64::from(dice.between(1, 9)),
        Mood::Edges => edge_int(dice),
        Mood::Huge => dice.pick(&[i64::MAX, i64::MIN, i64::MAX - 1, i64::MIN + 1, 1, -1]),
        Mood::Mixed if dice.one_in(5) => edge_int(dice),
        _ => i64::from(dice.between(-9, 9)),
    }
}

/// Numbers at which an INT result stops fitting.
pub fn edge_int(dice: &mut Dice) -> i64 {
    let powers = [0, 1 << 31, 1 << 32, 1 << 62, 3_037_000_499, 3_037_000_500, i64::MAX, i64::MIN];
    let near = i64::from(dice.between(-1, 1));
    match dice.below(6) {
        0 => dice.number() as i64,
        1 => -dice.pick(&powers[..6]),
        _ => dice.pick(&powers).wrapping_add(near),
    }
}

fn float(dice: &mut Dice, mood: Mood) -> f64 {
    match mood {
        Mood::Positive => f64::from(dice.between(1, 40)) / 8.0,
        Mood::Edges => edge_float(dice),
        Mood::Huge => dice.pick(&[1e308, -1e308, f64::MAX, -f64::MAX, 5e307]),
        Mood::NegativeZeros => -0.0,
        Mood::Zeros => dice.pick(&[0.0, -0.0]),
        Mood::Mixed if dice.one_in(5) => edge_float(dice),
        _ => dice.pick(&[0.0, -0.0, 0.1, -0.1, 1.0, -1.0, 2.5, 1e-3, 7.0, -3.25, 1e10]),
    }
}

/// Zeros of both signs, subnormals, the largest, and any finite bits.
pub fn edge_float(dice: &mut Dice) -> f64 {
    let any = f64::from_bits(dice.number());
    let subnormal = f64::from_bits(dice.below(1 << 52));
    let known = [0.0, -0.0, f64::MAX, -f64::MAX, f64::MIN_POSITIVE, f64::from_bits(1), -f64::from_bits(1), 1e154, 1.4e154, 1e-200];
    match dice.below(6) {
        0 if any.is_finite() => any,
        1 => subnormal,
        2 => -subnormal,
        _ => dice.pick(&known),
    }
}

/// Eight bytes that are no value of that type; any will do for INT.
pub fn no_value(dice: &mut Dice, of: u8) -> u64 {
    match of {
        2 => dice.pick(&[0x7FF0 << 48, 0xFFF0 << 48, 0x7FF8 << 48, (0x7FF0 << 48) + 1, u64::MAX, 0xFFF8 << 48]),
        _ => dice.pick(&[2, 256, 1 << 63, u64::MAX, 1 << 32, 257]),
    }
}

/// Nine bytes that are no cell.
pub fn no_cell(dice: &mut Dice, of: u8) -> [u8; 9] {
    let mut nine = cell(dice, of, Mood::Mixed);
    match dice.below(4) {
        0 => nine[0] = dice.pick(&[2, 7, 255, 128, 3]),
        1 => {
            nine = [0; 9];
            nine[1 + dice.index(8)] = 1 + dice.below(255) as u8;
        }
        _ if of == 1 => nine[0] = 2 + dice.below(254) as u8,
        _ => nine = filled(no_value(dice, of)),
    }
    nine
}
