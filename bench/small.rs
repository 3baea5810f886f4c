//! Makes one small call of the engine over and over, on a bundle of two INT arrays of 2 by 2 cells: what a call costs where there is hardly a
//! cell to work on. Run as `small CALL VERSION TIMES` by small_instructions.sh, which counts its instructions.
use std::env;

extern "C" {
    fn rma_read(b: *const u8, b_len: usize, said: *mut u8, said_len: usize) -> u32;
    fn rma_refer(b: *const u8, b_len: usize, array: u32, at: *const u8, at_len: usize, said: *mut u8, said_len: usize) -> u32;
    fn rma_plan(b: *const u8, b_len: usize, r: *const u8, r_len: usize, said: *mut u8, said_len: usize) -> u32;
    fn rma_run(b: *const u8, b_len: usize, r: *const u8, r_len: usize, w: *mut u8, w_len: usize, said: *mut u8, said_len: usize) -> u32;
    fn rma_page(
        b: *const u8,
        b_len: usize,
        r: *const u8,
        r_len: usize,
        w: *mut u8,
        w_len: usize,
        start: u32,
        rows: *mut u8,
        rows_len: usize,
        said: *mut u8,
        said_len: usize,
    ) -> u32;
}

const STEPS: u8 = 16;

/// Two arrays of 2 by 2 INT cells, none empty, with names of `name` bytes.
fn bundle(version: u8, name: usize) -> Vec<u8> {
    let mut bytes = [b"RMA", &[version, 0, 2][..]].concat();
    for _ in 0..2 {
        bytes.extend([1, 2]);
        for letters in ["who", "turn"] {
            bytes.extend(letters.bytes().chain(std::iter::repeat(0)).take(name));
            bytes.extend([1, 2, -1_000_000, 1_000_000].iter().flat_map(|limit: &i32| limit.to_le_bytes()));
        }
        for cell in 0..4i64 {
            bytes.push(1);
            bytes.extend(cell.to_le_bytes());
        }
    }
    bytes
}

/// So many pair steps of `long` bytes: sums of the last result and array 2; of several the last is a comparison.
fn recipe(steps: u8, long: usize) -> Vec<u8> {
    let mut bytes = Vec::new();
    for step in 1..=steps {
        let (a, operator) = (if step == 1 { 1 } else { 15 + step }, if step == STEPS { 8 } else { 1 });
        bytes.extend([9, a, 2, 0, operator]);
        bytes.resize(usize::from(step) * long, 0);
    }
    bytes
}

fn main() {
    let words: Vec<String> = env::args().collect();
    let (version, times): (u8, u32) = (words[2].parse().unwrap(), words[3].parse().unwrap());
    let (name, long) = if version == 1 { (8, 36) } else { (16, 100) };
    let (b, r) = (bundle(version, name), recipe(if words[1].ends_with("16") { STEPS } else { 1 }, long));
    let (mut work, mut rows, mut said, at) = ([0; 1024], [0; 1024], [0; 16], [1u8, 0, 0, 0, 2, 0, 0, 0]);
    let (b, b_len, r, r_len) = (b.as_ptr(), b.len(), r.as_ptr(), r.len());
    let (w, w_len, said, rows, rows_len) = (work.as_mut_ptr(), work.len(), said.as_mut_ptr(), rows.as_mut_ptr(), rows.len());
    for _ in 0..times {
        let refused = unsafe {
            match words[1].as_str() {
                "read" => rma_read(b, b_len, said, 16),
                "refer" => rma_refer(b, b_len, 1, at.as_ptr(), at.len(), said, 16),
                "plan" | "plan16" => rma_plan(b, b_len, r, r_len, said, 16),
                "run" => rma_run(b, b_len, r, r_len, w, w_len, said, 16),
                "page16" => rma_page(b, b_len, r, r_len, w, w_len, 1, rows, rows_len, said, 16),
                other => panic!("no such call: {other}"),
            }
        };
        assert_eq!(refused, 0);
    }
}
