//! Times writing a 64 by 64 array as JSON side by side: three plain Rust programs, and the engine by `rma_write_json` of librma.a, as a
//! caller in Rust or C has it. All contestants run in turn in every round, so that a busy machine slows them alike; ratios are taken
//! within a round. See README.md for the command line.
use std::fmt::{Display, Write};
use std::{env, hint::black_box, time::Instant};

extern "C" {
    fn rma_write_json(
        bundle: *const u8,
        bundle_len: usize,
        array: u32,
        out: *mut u8,
        out_len: usize,
        said: *mut u8,
        said_len: usize,
    ) -> u32;
}

const SIDE: usize = 64;
const LONGEST: usize = 110_602; // bytes: room for every text on up to four axes
const HEAD: usize = 6 + 2 + 2 * 24; // bytes of a bundle of one array on two axes, before its cells
const NAMES: [&str; 4] = ["rust (d)", "rust (e)", "rust (f)", "engine"];

/// What a cell can hold: the type's number, how it is written by hand, and a cell's eight bytes judged and read.
trait Value: Copy + Display {
    const TYPE: u8;
    fn put(self, out: &mut Vec<u8>);
    fn of(word: u64) -> Option<Self>;
    fn word(self) -> u64;
}

impl Value for i64 {
    const TYPE: u8 = 1;
    fn put(self, out: &mut Vec<u8>) {
        let (mut digits, mut at, mut left) = ([0u8; 20], 20, self.unsigned_abs());
        loop {
            at -= 1;
            digits[at] = b'0' + (left % 10) as u8;
            left /= 10;
            if left == 0 {
                break;
            }
        }
        if self < 0 {
            at -= 1;
            digits[at] = b'-';
        }
        out.extend_from_slice(&digits[at..]);
    }
    fn of(word: u64) -> Option<i64> {
        Some(word as i64)
    }
    fn word(self) -> u64 {
        self as u64
    }
}

impl Value for bool {
    const TYPE: u8 = 3;
    fn put(self, out: &mut Vec<u8>) {
        out.extend_from_slice(if self { b"true" } else { b"false" });
    }
    fn of(word: u64) -> Option<bool> {
        (word < 2).then_some(word == 1)
    }
    fn word(self) -> u64 {
        self as u64
    }
}

/// (d): `write!` into a String.
#[inline(never)]
fn by_write<'a, T: Value>(cells: &[Option<T>], columns: usize, out: &'a mut String) -> &'a [u8] {
    out.clear();
    out.push_str("{\"data\":[");
    for (i, row) in cells.chunks_exact(columns).enumerate() {
        out.push_str(if i > 0 { ",[" } else { "[" });
        for (j, cell) in row.iter().enumerate() {
            if j > 0 {
                out.push(',');
            }
            match cell {
                Some(value) => write!(out, "{value}").unwrap(),
                None => out.push_str("null"),
            }
        }
        out.push(']');
    }
    out.push_str("]}");
    out.as_bytes()
}

/// (e): digits by hand into a vector of bytes.
#[inline(never)]
fn by_hand<'a, T: Value>(cells: &[Option<T>], columns: usize, out: &'a mut Vec<u8>) -> &'a [u8] {
    out.clear();
    out.extend_from_slice(b"{\"data\":[");
    for (i, row) in cells.chunks_exact(columns).enumerate() {
        out.extend_from_slice(if i > 0 { b",[" } else { b"[" });
        for (j, cell) in row.iter().enumerate() {
            if j > 0 {
                out.push(b',');
            }
            match cell {
                Some(value) => value.put(out),
                None => out.extend_from_slice(b"null"),
            }
        }
        out.push(b']');
    }
    out.extend_from_slice(b"]}");
    out
}

/// (f): as (e), from the nine bytes of each cell in the bundle, each judged as the engine judges it. None: not such a bundle.
#[inline(never)]
fn from_bytes<'a, T: Value>(bundle: &[u8], out: &'a mut Vec<u8>) -> Option<&'a [u8]> {
    let number = |at: usize| Some(i32::from_le_bytes(bundle.get(at..at + 4)?.try_into().ok()?));
    let (rows, columns) = ((number(20)? - number(16)? + 1) as usize, (number(44)? - number(40)? + 1) as usize);
    if !bundle.starts_with(b"RMA\x01\x00\x01") || bundle[6..8] != [T::TYPE, 2] || bundle.len() != HEAD + 9 * rows * columns {
        return None;
    }
    out.clear();
    out.extend_from_slice(b"{\"data\":[");
    for (i, row) in bundle[HEAD..].chunks_exact(9 * columns).enumerate() {
        out.extend_from_slice(if i > 0 { b",[" } else { b"[" });
        for (j, cell) in row.chunks_exact(9).enumerate() {
            if j > 0 {
                out.push(b',');
            }
            match (cell[0], u64::from_le_bytes(cell[1..].try_into().ok()?)) {
                (1, word) => T::of(word)?.put(out),
                (0, 0) => out.extend_from_slice(b"null"),
                _ => return None,
            }
        }
        out.push(b']');
    }
    out.extend_from_slice(b"]}");
    Some(out)
}

/// The engine's call.
#[inline(never)]
fn by_engine<'a>(bundle: &[u8], out: &'a mut [u8]) -> &'a [u8] {
    let mut said = [0u8; 16];
    let (at, len) = (out.as_mut_ptr(), out.len());
    let refused = unsafe { rma_write_json(bundle.as_ptr(), bundle.len(), 1, at, len, said.as_mut_ptr(), said.len()) };
    assert!(refused == 0, "refused {refused}");
    &out[..u32::from_le_bytes(said[..4].try_into().unwrap()) as usize]
}

/// An input, both ways, and the contestants' buffers: enough for every text from the start, and not cleared between runs.
struct Contest<T> {
    cells: Vec<Option<T>>,
    bundle: Vec<u8>,
    string: String,
    bytes: [Vec<u8>; 2],
    room: Vec<u8>,
}

impl<T: Value> Contest<T> {
    fn new(cells: Vec<Option<T>>) -> Self {
        let mut bundle = [b"RMA\x01\x00\x01", &[T::TYPE, 2][..]].concat();
        for name in [b"who\0\0\0\0\0", b"turn\0\0\0\0"] {
            bundle.extend(name);
            bundle.extend([1, SIDE as i32, -1_000_000, 1_000_000].map(i32::to_le_bytes).concat());
        }
        for cell in &cells {
            bundle.push(cell.is_some() as u8);
            bundle.extend(cell.map_or(0, T::word).to_le_bytes());
        }
        let bytes = [Vec::with_capacity(LONGEST), Vec::with_capacity(LONGEST)];
        Contest { cells, bundle, string: String::with_capacity(LONGEST), bytes, room: vec![0; LONGEST] }
    }

    /// One call of a contestant; its text.
    fn call(&mut self, contestant: usize) -> &[u8] {
        let (cells, columns, bundle) = (black_box(&self.cells[..]), black_box(SIDE), black_box(&self.bundle[..]));
        match contestant {
            0 => by_write(cells, columns, &mut self.string),
            1 => by_hand(cells, columns, &mut self.bytes[0]),
            2 => from_bytes::<T>(bundle, &mut self.bytes[1]).expect("a bundle"),
            _ => by_engine(bundle, &mut self.room),
        }
    }
}

fn quantile(v: &[f64], q: f64) -> f64 {
    let mut v = v.to_vec();
    v.sort_by(f64::total_cmp);
    v[((v.len() - 1) as f64 * q).round() as usize]
}

/// Compares the texts, then runs all contestants in turn in each round, and prints their times.
fn run<T: Value>(label: &str, cells: Vec<Option<T>>) {
    if env::var("CASE").is_ok_and(|case| !label.starts_with(&case)) {
        return;
    }
    let arg = |i: usize, d: usize| env::args().nth(i).and_then(|s| s.parse().ok()).unwrap_or(d);
    let (rounds, reps, only) = (arg(1, 60), arg(2, 10), env::var("ONLY").ok());
    let mut contest = Contest::new(cells);
    let text = contest.call(0).to_vec();
    for (i, name) in NAMES.iter().enumerate() {
        assert!(contest.call(i) == text, "{name}: another text");
    }
    let mut times = vec![Vec::new(); NAMES.len()];
    for _ in 0..rounds {
        for (i, name) in NAMES.iter().enumerate() {
            let start = Instant::now();
            for _ in 0..if only.as_ref().is_some_and(|o| o != name) { 0 } else { reps } {
                black_box(contest.call(i));
            }
            times[i].push(start.elapsed().as_nanos() as f64 / reps as f64 / 1000.0);
        }
    }
    println!("== {label}: {SIDE} by {SIDE}, {} bytes of text; {rounds} rounds of {reps} calls", text.len());
    print_times(&times, text.len());
}

fn print_times(times: &[Vec<f64>], len: usize) {
    let [d, e, f] = ["(d)", "(e)", "(f)"].map(|name| format!("to {name}: median [10%..90%]"));
    println!("{:10} {:>8} {:>8} {:>6}  {d:>26}  {e:>26}  {f:>26}", "", "best us", "median", "MB/s");
    for (i, name) in NAMES.iter().enumerate() {
        let [d, e, f] = [0, 1, 2].map(|j: usize| {
            let ratios: Vec<f64> = times[i].iter().zip(&times[j]).map(|(x, y)| x / y).collect();
            format!("{:.2} [{:.2}..{:.2}]", quantile(&ratios, 0.5), quantile(&ratios, 0.1), quantile(&ratios, 0.9))
        });
        let best = quantile(&times[i], 0.0);
        let speed = len as f64 / best;
        println!("{name:10} {best:8.1} {:8.1} {speed:6.0}  {d:>26}  {e:>26}  {f:>26}", quantile(&times[i], 0.5));
    }
}

fn main() {
    let mut state = 88172645463325252u64;
    let mut next = move || {
        state ^= state << 13;
        state ^= state >> 7;
        state ^= state << 17;
        state
    };
    let mut cells = |value: &dyn Fn(u64, u64) -> Option<i64>| (0..SIDE * SIDE).map(|_| value(next(), next())).collect::<Vec<_>>();
    run("INT, minutes of a roster, 1 in 16 empty", cells(&|r, s| (s % 16 > 0).then_some(1 + (r % 10_000) as i64)));
    run("INT, 0 to 99", cells(&|r, _| Some((r % 100) as i64)));
    run("INT, full range", cells(&|r, _| Some(r as i64)));
    let digits = |r: u64, s: u64| {
        let least = 10i64.pow((s >> 1) as u32 % 19);
        let number = least + (r % (least.saturating_mul(10) - least) as u64) as i64;
        Some(number * [1, -1][(s % 2) as usize])
    };
    run("INT, 1 to 19 digits, both signs", cells(&digits));
    let truths = cells(&|r, s| (s % 16 > 0).then_some((r % 2) as i64));
    run("BOOLEAN, 1 in 16 empty", truths.iter().map(|cell| cell.map(|n| n == 1)).collect());
}
