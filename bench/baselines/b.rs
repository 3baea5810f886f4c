//! (b), a good engineer's: vectors of Option by type, the operator matched once a step, a loop for each operator and each form of step.
use super::{Step, With, SLOTS};

#[derive(Default, Clone)]
struct Column {
    ints: Vec<Option<i64>>,
    floats: Vec<Option<f64>>,
    truths: Vec<Option<bool>>,
}

/// What a step goes over: two arrays, or an array and a scalar to its right or to its left.
#[derive(Clone, Copy)]
enum Over<'a, T> {
    Pair(&'a [Option<T>], &'a [Option<T>]),
    Right(&'a [Option<T>], T),
    Left(T, &'a [Option<T>]),
}

/// An error is a refusal's number and the place of its cell.
type Done = Result<(), (u8, usize)>;

#[inline(always)]
fn read<T: Copy>(column: &mut Vec<Option<T>>, bytes: &[u8], value: impl Fn(u64) -> Option<T>) -> Result<(), usize> {
    column.resize(bytes.len() / 9, None);
    for (k, (cell, nine)) in column.iter_mut().zip(bytes.chunks_exact(9)).enumerate() {
        let word = u64::from_le_bytes(nine[1..9].try_into().unwrap());
        *cell = match nine[0] {
            1 => match value(word) {
                None => return Err(k),
                filled => filled,
            },
            0 if word == 0 => None,
            _ => return Err(k),
        };
    }
    Ok(())
}

/// All filled: f; else empty.
#[inline(always)]
fn each<T: Copy, U: Copy>(over: Over<T>, d: &mut Vec<Option<U>>, f: impl Fn(T, T) -> Result<U, u8>) -> Done {
    match over {
        Over::Pair(a, b) => two(a, b, d, f),
        Over::Right(a, scalar) => one(a, d, |x| f(x, scalar)),
        Over::Left(scalar, a) => one(a, d, |x| f(scalar, x)),
    }
}

#[inline(always)]
fn two<T: Copy, U: Copy>(a: &[Option<T>], b: &[Option<T>], d: &mut Vec<Option<U>>, f: impl Fn(T, T) -> Result<U, u8>) -> Done {
    d.resize(a.len(), None);
    for (k, (z, (&x, &y))) in d.iter_mut().zip(a.iter().zip(b)).enumerate() {
        *z = match (x, y) {
            (Some(x), Some(y)) => Some(f(x, y).map_err(|number| (number, k))?),
            _ => None,
        };
    }
    Ok(())
}

#[inline(always)]
fn one<T: Copy, U: Copy>(a: &[Option<T>], d: &mut Vec<Option<U>>, f: impl Fn(T) -> Result<U, u8>) -> Done {
    d.resize(a.len(), None);
    for (k, (z, &x)) in d.iter_mut().zip(a).enumerate() {
        *z = match x {
            Some(x) => Some(f(x).map_err(|number| (number, k))?),
            None => None,
        };
    }
    Ok(())
}

fn compare<T: Copy + PartialOrd>(operator: u8, over: Over<T>, d: &mut Vec<Option<bool>>) -> Done {
    match operator {
        6 => each(over, d, |x, y| Ok(x == y)),
        7 => each(over, d, |x, y| Ok(x != y)),
        8 => each(over, d, |x, y| Ok(x < y)),
        9 => each(over, d, |x, y| Ok(x <= y)),
        10 => each(over, d, |x, y| Ok(x > y)),
        _ => each(over, d, |x, y| Ok(x >= y)),
    }
}

/// AND, where FALSE wins, and OR, where TRUE does: what wins, wins over empty too.
fn logic(wins: bool, over: Over<bool>, d: &mut Vec<Option<bool>>) -> Done {
    match over {
        Over::Pair(a, b) => {
            d.resize(a.len(), None);
            for (z, (&x, &y)) in d.iter_mut().zip(a.iter().zip(b)) {
                *z = match (x, y) {
                    (Some(x), Some(y)) => Some(if x == wins { x } else { y }),
                    (Some(x), None) | (None, Some(x)) if x == wins => Some(x),
                    _ => None,
                };
            }
        }
        Over::Right(a, scalar) | Over::Left(scalar, a) => {
            d.clear();
            d.extend(a.iter().map(|&x| if scalar == wins { Some(wins) } else { x }));
        }
    }
    Ok(())
}

#[inline(never)]
fn ints(operator: u8, over: Over<i64>, d: &mut Column) -> Done {
    match operator {
        1 => each(over, &mut d.ints, |x, y| x.checked_add(y).ok_or(12)),
        2 => each(over, &mut d.ints, |x, y| x.checked_sub(y).ok_or(12)),
        3 => each(over, &mut d.ints, |x, y| x.checked_mul(y).ok_or(12)),
        4 => each(over, &mut d.ints, |x, y| if y == 0 { Err(13) } else { x.checked_div(y).ok_or(12) }),
        5 => each(over, &mut d.ints, |x, y| if y == 0 { Err(13) } else { Ok(x.wrapping_rem(y)) }),
        _ => compare(operator, over, &mut d.truths),
    }
}

#[inline(never)]
fn floats(operator: u8, over: Over<f64>, d: &mut Column) -> Done {
    let finite = |x: f64| if x.is_finite() { Ok(x) } else { Err(12) };
    match operator {
        1 => each(over, &mut d.floats, |x, y| finite(x + y)),
        2 => each(over, &mut d.floats, |x, y| finite(x - y)),
        3 => each(over, &mut d.floats, |x, y| finite(x * y)),
        4 => each(over, &mut d.floats, |x, y| if y == 0.0 { Err(13) } else { finite(x / y) }),
        _ => compare(operator, over, &mut d.truths),
    }
}

#[inline(never)]
fn truths(operator: u8, over: Over<bool>, d: &mut Column) -> Done {
    match operator {
        12 => logic(false, over, &mut d.truths),
        13 => logic(true, over, &mut d.truths),
        _ => compare(operator, over, &mut d.truths),
    }
}

pub struct Cells(Vec<Column>);

impl Default for Cells {
    fn default() -> Self {
        Cells(vec![Column::default(); SLOTS])
    }
}

impl Cells {
    /// What a step goes over, given a column's vector of A's type and a scalar's word as a value of it.
    #[inline(always)]
    fn over<T: Copy>(&self, step: Step, vector: impl Fn(&Column) -> &[Option<T>], value: impl Fn(u64) -> T) -> Over<'_, T> {
        let a = vector(&self.0[step.a]);
        match step.with {
            With::Array(b) => Over::Pair(a, vector(&self.0[b])),
            With::Right(word) => Over::Right(a, value(word)),
            With::Left(word) => Over::Left(value(word), a),
        }
    }
}

impl super::Cells for Cells {
    #[inline(always)]
    fn read(&mut self, slot: usize, kind: u8, bytes: &[u8]) -> Result<(), usize> {
        let column = &mut self.0[slot];
        match kind {
            1 => read(&mut column.ints, bytes, |word| Some(word as i64)),
            2 => read(&mut column.floats, bytes, |word| Some(f64::from_bits(word)).filter(|x| x.is_finite())),
            _ => read(&mut column.truths, bytes, |word| if word < 2 { Some(word == 1) } else { None }),
        }
    }

    #[inline(always)]
    fn work_out(&mut self, slot: usize, step: Step) -> Done {
        let mut d = std::mem::take(&mut self.0[slot]);
        match step.kind {
            1 => ints(step.operator, self.over(step, |column| &column.ints, |word| word as i64), &mut d),
            2 => floats(step.operator, self.over(step, |column| &column.floats, f64::from_bits), &mut d),
            _ => truths(step.operator, self.over(step, |column| &column.truths, |word| word == 1), &mut d),
        }?;
        self.0[slot] = d;
        Ok(())
    }

    #[inline(always)]
    fn truths(&self, slot: usize) -> impl Fn(usize) -> bool {
        let truths = &self.0[slot].truths;
        |k| truths[k] == Some(true)
    }
}
