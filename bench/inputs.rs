//! What the contestants are given: bundles of two arrays of 64 by 64 cells, and recipes of 16 steps that end in a comparison and list
//! over 2,000 rows.

pub const SIDE: usize = 64;
pub const CELLS: usize = SIDE * SIDE;
pub const STEPS: usize = 16;

/// Rows that a page has room for: the first fills, the second holds every listing.
pub const PAGES: [usize; 2] = [2000, CELLS];

pub struct Input {
    pub label: String,
    /// Pair steps over INT or FLOAT, with arithmetic: what the request asks for.
    pub asked: bool,
    pub bundle: Vec<u8>,
    pub recipe: Vec<u8>,
}

/// A pair step: A, operator, B.
type Pair = (u8, u8, u8);

/// All five kinds of arithmetic, comparisons and AND, OR.
#[rustfmt::skip]
const MIXED: [Pair; STEPS] = [
    (2, 2, 1), (2, 1, 1), (17, 3, 18), (19, 4, 17), (19, 5, 2), (20, 1, 21), (22, 2, 17), (17, 8, 21),
    (23, 11, 22), (24, 13, 25), (24, 6, 26), (26, 12, 27), (21, 3, 17), (29, 2, 23), (30, 1, 19), (21, 10, 17),
];

/// Sums, differences and comparisons only: nothing hides the cost of a cell's coming and going.
#[rustfmt::skip]
const SUMS: [Pair; STEPS] = [
    (2, 2, 1), (2, 1, 1), (18, 2, 17), (19, 1, 17), (20, 2, 1), (21, 8, 20), (21, 1, 17), (23, 2, 2),
    (24, 11, 17), (24, 1, 19), (26, 2, 21), (27, 1, 20), (28, 2, 27), (29, 6, 20), (29, 1, 17), (31, 10, 17),
];

/// FLOAT: four arithmetic operators and comparisons, AND, OR.
#[rustfmt::skip]
const FLOATS: [Pair; STEPS] = [
    (2, 2, 1), (2, 1, 1), (17, 3, 18), (19, 4, 17), (19, 2, 2), (20, 1, 21), (22, 2, 17), (17, 8, 21),
    (23, 11, 22), (24, 13, 25), (24, 6, 26), (26, 12, 27), (21, 3, 17), (29, 2, 23), (30, 1, 19), (31, 10, 17),
];

/// BOOLEAN: <>, then AND and OR in turn, then =.
#[rustfmt::skip]
const LOGIC: [Pair; STEPS] = [
    (1, 7, 2), (1, 12, 2), (1, 13, 2), (17, 12, 19), (18, 13, 17), (20, 12, 21), (22, 13, 1), (23, 12, 2),
    (24, 13, 17), (25, 12, 1), (26, 13, 18), (27, 12, 19), (28, 13, 20), (29, 12, 23), (30, 13, 24), (31, 6, 30),
];

/// A scalar step: A, operator, scalar; or scalar, operator, A.
#[derive(Clone, Copy)]
enum Scalar<T> {
    Right(u8, u8, T),
    Left(T, u8, u8),
}
use Scalar::{Left, Right};

/// All five kinds of arithmetic and all six comparisons. No divisor is 0.
#[rustfmt::skip]
const SCALAR_INTS: [Scalar<i64>; STEPS] = [
    Right(2, 2, 480), Right(1, 1, 660), Left(10080, 2, 1), Right(2, 5, 1440), Right(20, 3, 7), Left(604_800, 4, 18),
    Right(21, 4, 60), Right(20, 8, 360), Left(1200, 9, 20), Left(3, 3, 19), Right(17, 6, 0), Left(100_003, 5, 18),
    Right(22, 11, 100), Left(60, 1, 26), Right(30, 7, 5000), Left(20_000, 10, 30),
];

/// All four kinds of arithmetic and all six comparisons. No divisor is 0.
#[rustfmt::skip]
const SCALAR_FLOATS: [Scalar<f64>; STEPS] = [
    Right(2, 2, 120.0), Right(1, 1, 165.5), Left(2520.0, 2, 1), Right(2, 3, 0.125), Right(20, 3, 7.0), Left(151_200.0, 4, 18),
    Right(21, 4, 60.0), Right(20, 8, 90.0), Left(300.0, 9, 20), Left(3.0, 3, 19), Right(17, 6, 0.0), Left(1.0e5, 4, 18),
    Right(22, 11, 100.0), Left(15.0, 1, 26), Right(30, 7, 1250.0), Left(5000.0, 10, 30),
];

fn step(operation: u8, a: u8, b: u8, operator: u8, word: u64) -> [u8; 36] {
    let mut bytes = [0; 36];
    bytes[..5].copy_from_slice(&[operation, a, b, 0, operator]);
    bytes[8..16].copy_from_slice(&word.to_le_bytes());
    bytes
}

fn pairs(steps: [Pair; STEPS]) -> Vec<u8> {
    steps.map(|(a, operator, b)| step(9, a, b, operator, 0)).concat()
}

fn scalars<T: Copy>(steps: [Scalar<T>; STEPS], word: fn(T) -> u64) -> Vec<u8> {
    let bytes = steps.map(|scalar| match scalar {
        Right(a, operator, value) => step(10, a, 0, operator, word(value)),
        Left(value, operator, a) => step(11, a, 0, operator, word(value)),
    });
    bytes.concat()
}

/// Xorshift: the same numbers in every run.
pub struct Random(pub u64);

impl Random {
    pub fn next(&mut self) -> u64 {
        self.0 ^= self.0 << 13;
        self.0 ^= self.0 >> 7;
        self.0 ^= self.0 << 17;
        self.0
    }
}

/// The words of a turn in both arrays: where it is entered.
type Turn = [Option<u64>; 2];

/// A roster, in minutes: array 1 starts, array 2 ends; one turn in `gap` not entered (0: all entered). FLOAT in quarters of them.
fn roster(kind: u8, gap: u64) -> Vec<u8> {
    let mut random = Random(88172645463325252);
    let turn = |_| {
        let (start, long) = (1 + random.next() % 10000, 240 + random.next() % 480);
        let word = |minutes: u64| if kind == 2 { (minutes as f64 * 0.25).to_bits() } else { minutes };
        let entered = gap == 0 || random.next() % gap != 0;
        [start, start + long].map(|minutes| entered.then_some(word(minutes)))
    };
    bundle(kind, &(0..CELLS).map(turn).collect::<Vec<Turn>>())
}

/// Truth values; one in 16 not entered, in each array by itself, so that AND and OR meet all nine pairs.
fn answers() -> Vec<u8> {
    let mut random = Random(88172645463325252);
    let mut truth = || Some(random.next()).filter(|bits| bits % 16 != 0).map(|bits| bits >> 8 & 1);
    bundle(3, &(0..CELLS).map(|_| [truth(), truth()]).collect::<Vec<Turn>>())
}

fn bundle(kind: u8, turns: &[Turn]) -> Vec<u8> {
    let mut bytes = b"RMA\x01\x00\x02".to_vec();
    for array in 0..2 {
        bytes.extend([kind, 2]);
        for name in [b"who\0\0\0\0\0", b"turn\0\0\0\0"] {
            bytes.extend(name);
            [1, SIDE as i32, -1_000_000, 1_000_000].iter().for_each(|limit| bytes.extend(limit.to_le_bytes()));
        }
        for turn in turns {
            bytes.push(u8::from(turn[array].is_some()));
            bytes.extend(turn[array].unwrap_or(0).to_le_bytes());
        }
    }
    bytes
}

/// The eight inputs.
pub fn all() -> Vec<Input> {
    let input = |label: &str, asked, bundle, recipe| Input { label: label.into(), asked, bundle, recipe };
    vec![
        input("mixed INT, 1 in 16 empty", true, roster(1, 16), pairs(MIXED)),
        input("mixed INT, none empty", true, roster(1, 0), pairs(MIXED)),
        input("sums and comparisons INT, 1 in 16 empty", true, roster(1, 16), pairs(SUMS)),
        input("sums and comparisons INT, none empty", true, roster(1, 0), pairs(SUMS)),
        input("FLOAT, 1 in 16 empty", true, roster(2, 16), pairs(FLOATS)),
        input("scalars INT, 1 in 16 empty", false, roster(1, 16), scalars(SCALAR_INTS, |value| value as u64)),
        input("scalars FLOAT, 1 in 16 empty", false, roster(2, 16), scalars(SCALAR_FLOATS, f64::to_bits)),
        input("AND and OR alone, 1 in 16 empty", false, answers(), pairs(LOGIC)),
    ]
}

/// Each operator alone: 15 steps of it over the bundle's arrays (AND and OR over step 1's result), then a comparison.
pub fn operators() -> Vec<Input> {
    let mut inputs = Vec::new();
    for (kind, name, operators) in [(1, "INT", 1..=13), (2, "FLOAT", 1..=11)] {
        for operator in operators.filter(|&operator| kind == 1 || operator != 5) {
            let mut steps = [(2, operator, 1); STEPS];
            if operator > 11 {
                steps = [(17, operator, 17); STEPS];
                steps[0] = (2, 8, 1);
            }
            steps[STEPS - 1] = (2, 10, 1);
            let label = format!("operator {operator}, {name}");
            inputs.push(Input { label, asked: false, bundle: roster(kind, 16), recipe: pairs(steps) });
        }
    }
    inputs
}
