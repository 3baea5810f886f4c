//! Times each call that judges a bundle and then answers a small question, on a bundle of four arrays of 64 by 64 INT cells, beside one
//! copy of the bundle's bytes (memcpy). All run in turn in every round, so that a busy machine slows them alike; ratios are taken within a
//! round. See README.md for the command line.
use std::{env, hint::black_box, time::Instant};

type Said = [u8; 16];

extern "C" {
    fn rma_read(b: *const u8, b_len: usize, said: *mut u8, said_len: usize) -> u32;
    fn rma_array(b: *const u8, b_len: usize, array: u32, said: *mut u8, said_len: usize) -> u32;
    fn rma_refer(b: *const u8, b_len: usize, array: u32, at: *const u8, at_len: usize, said: *mut u8, said_len: usize) -> u32;
    fn rma_walk(b: *const u8, b_len: usize, array: u32, place: *mut u8, place_len: usize, said: *mut u8, said_len: usize) -> u32;
    fn rma_total(b: *const u8, b_len: usize, array: u32, which: u32, said: *mut u8, said_len: usize) -> u32;
    fn rma_plan(b: *const u8, b_len: usize, r: *const u8, r_len: usize, said: *mut u8, said_len: usize) -> u32;
    fn rma_extent(b: *const u8, b_len: usize, r: *const u8, r_len: usize, e: *mut u8, e_len: usize, said: *mut u8, said_len: usize) -> u32;
}

const SIDE: i32 = 64;
const ARRAYS: u8 = 4;

/// A bundle of four arrays of 64 by 64 INT cells, one cell in sixteen empty.
fn bundle() -> Vec<u8> {
    let mut bytes = b"RMA\x01\x00".to_vec();
    bytes.push(ARRAYS);
    for array in 0..ARRAYS {
        bytes.extend([1, 2]);
        for name in [b"who\0\0\0\0\0", b"turn\0\0\0\0"] {
            bytes.extend(name);
            bytes.extend([1, SIDE, -1_000_000, 1_000_000].iter().flat_map(|limit: &i32| limit.to_le_bytes()));
        }
        for cell in 0..SIDE * SIDE {
            let filled = cell % 16 != 5;
            bytes.push(u8::from(filled));
            bytes.extend(if filled { (i64::from(cell) * 31 + i64::from(array)).to_le_bytes() } else { [0; 8] });
        }
    }
    bytes
}

/// Sixteen sums of arrays 1 and 2.
fn recipe() -> Vec<u8> {
    let mut step = [0; 36];
    (step[0], step[1], step[2], step[4]) = (9, 1, 2, 1);
    step.repeat(16)
}

fn number(said: &Said, at: usize) -> u32 {
    u32::from_le_bytes(said[at..at + 4].try_into().unwrap())
}

/// Seconds that one call takes, of `reps` in a row.
fn timed(reps: u32, call: &mut dyn FnMut()) -> f64 {
    let began = Instant::now();
    (0..reps).for_each(|_| call());
    began.elapsed().as_secs_f64() / f64::from(reps)
}

fn median(mut values: Vec<f64>) -> f64 {
    values.sort_by(f64::total_cmp);
    values[values.len() / 2]
}

fn main() {
    let setting = |at: usize, other: u32| env::args().nth(at).and_then(|text| text.parse().ok()).unwrap_or(other);
    let (rounds, reps) = (setting(1, 60), setting(2, 10));
    let (bytes, steps) = (bundle(), recipe());
    let (b, b_len, r, r_len) = (bytes.as_ptr(), bytes.len(), steps.as_ptr(), steps.len());
    let mut copy = vec![0; b_len];
    let (mut said, mut extent): (Said, [u8; 98]) = ([0; 16], [0; 98]);
    let at: [u8; 8] = [64, 0, 0, 0, 64, 0, 0, 0];
    let s = said.as_mut_ptr();
    // SAFETY: each pointer and length are one buffer's, which outlives the calls, and none that is written to overlaps another.
    unsafe {
        assert_eq!((rma_read(b, b_len, s, 16), number(&said, 0)), (0, u32::from(ARRAYS)));
        assert_eq!((rma_refer(b, b_len, 4, at.as_ptr(), 8, s, 16), number(&said, 1)), (0, 4095 * 31 + 3));
        assert_eq!((rma_total(b, b_len, 4, 1, s, 16), number(&said, 1)), (0, 3840));
        assert_eq!((rma_plan(b, b_len, r, r_len, s, 16), number(&said, 0)), (0, 65_536));
        assert_eq!((rma_extent(b, b_len, r, r_len, extent.as_mut_ptr(), 98, s, 16), extent[1]), (0, 2));
    }
    let mut calls: Vec<(&str, Box<dyn FnMut()>)> = vec![
        ("memcpy of the bundle", Box::new(|| copy.copy_from_slice(black_box(&bytes)))),
        (
            "rma_read",
            Box::new(|| unsafe {
                black_box(rma_read(b, b_len, s, 16));
            }),
        ),
        (
            "rma_array",
            Box::new(|| unsafe {
                black_box(rma_array(b, b_len, 4, s, 16));
            }),
        ),
        (
            "rma_refer",
            Box::new(|| unsafe {
                black_box(rma_refer(b, b_len, 4, at.as_ptr(), 8, s, 16));
            }),
        ),
        (
            "rma_walk, one step",
            Box::new(|| unsafe {
                black_box(rma_walk(b, b_len, 4, [1u8, 0, 0, 0].as_mut_ptr(), 4, s, 16));
            }),
        ),
        (
            "rma_total, filled",
            Box::new(|| unsafe {
                black_box(rma_total(b, b_len, 4, 1, s, 16));
            }),
        ),
        (
            "rma_total, sum",
            Box::new(|| unsafe {
                black_box(rma_total(b, b_len, 4, 5, s, 16));
            }),
        ),
        (
            "rma_plan, 16 steps",
            Box::new(|| unsafe {
                black_box(rma_plan(b, b_len, r, r_len, s, 16));
            }),
        ),
        (
            "rma_extent, 16 steps",
            Box::new(|| unsafe {
                black_box(rma_extent(b, b_len, r, r_len, extent.as_mut_ptr(), 98, s, 16));
            }),
        ),
    ];
    let mut times: Vec<Vec<f64>> = vec![vec![]; calls.len()];
    for _ in 0..rounds {
        calls.iter_mut().zip(&mut times).for_each(|((_, call), taken)| taken.push(timed(reps, call)));
    }
    println!("a bundle of {b_len} bytes, {rounds} rounds of {reps} calls: best us, and the median of the ratios to the memcpy");
    for ((name, _), taken) in calls.iter().zip(&times) {
        let best = taken.iter().copied().fold(f64::INFINITY, f64::min) * 1e6;
        let ratio = median(taken.iter().zip(&times[0]).map(|(call, memcpy)| call / memcpy).collect());
        println!("{name:22} {best:8.2} us  {ratio:6.2}");
    }
}
