//! A case put to the paper and to the library. The library's buffers all lie in one allocation with guard bytes before, between
//! and after them; whatever it writes outside a lent buffer is a fault.

use super::{Answer, Case, Function};
use crate::paper::face;
use rovgrint::raw;

/// What the paper answers.
pub fn paper_answers(case: &Case) -> Answer {
    let mut lent = case.lent.clone();
    let (shared, n) = (&case.shared, &case.numbers);
    let (first, said) = lent.split_at_mut(case.lent.len() - 1);
    let said = &mut said[0];
    let number = match case.function {
        Function::Read => face::rma_read(&shared[0], said),
        Function::Array => face::rma_array(&shared[0], n[0], said),
        Function::Pack => face::rma_pack(n[0], &shared[0], &shared[1], &mut first[0], said),
        Function::Refer => face::rma_refer(&shared[0], n[0], &shared[1], said),
        Function::Walk => face::rma_walk(&shared[0], n[0], &mut first[0], said),
        Function::Total => face::rma_total(&shared[0], n[0], n[1], said),
        Function::WriteJson => face::rma_write_json(&shared[0], n[0], &mut first[0], said),
        Function::ReadJson => face::rma_read_json(n[0], &shared[0], &shared[1], &mut first[0], said),
        Function::Plan => face::rma_plan(&shared[0], &shared[1], said),
        Function::Extent => face::rma_extent(&shared[0], &shared[1], &mut first[0], said),
        Function::Run => face::rma_run(&shared[0], &shared[1], &mut first[0], said),
        Function::Page => {
            let [work, rows] = first else { unreachable!("a page lends work and rows") };
            face::rma_page(&shared[0], &shared[1], work, n[0], rows, said)
        }
        Function::Stretch => face::rma_stretch(n[0], (&shared[0], &shared[1]), (&shared[2], &shared[3]), n[1], n[2], said),
    };
    Answer { number, lent }
}

/// A part of the one allocation.
#[derive(Clone, Copy)]
struct Part {
    from: usize,
    length: usize,
}

/// The one allocation: guard bytes, and between them each slice of the case.
struct Ground {
    bytes: Vec<u8>,
    shared: Vec<Part>,
    lent: Vec<Part>,
}

const GUARD: usize = 19;

impl Ground {
    fn new(case: &Case) -> Ground {
        let mut bytes = vec![];
        let mut lay = |slice: &Vec<u8>| {
            bytes.extend((0..GUARD).map(|byte| 0xC3 ^ byte as u8));
            let from = bytes.len();
            bytes.extend(slice);
            Part { from, length: slice.len() }
        };
        let shared = case.shared.iter().map(&mut lay).collect();
        let lent = case.lent.iter().map(&mut lay).collect();
        lay(&vec![]);
        Ground { bytes, shared, lent }
    }

    /// The lent buffers taken out, and zeros put in their stead.
    fn take_lent(&mut self) -> Vec<Vec<u8>> {
        let mut lent = vec![];
        for part in &self.lent {
            let room = &mut self.bytes[part.from..part.from + part.length];
            lent.push(room.to_vec());
            room.fill(0);
        }
        lent
    }
}

/// What the library answers, or what it changed that was not lent to it.
pub fn library_answers(case: &Case) -> Result<Answer, String> {
    let mut ground = Ground::new(case);
    let number = call(case, &mut ground);
    let lent = ground.take_lent();
    let mut before = Ground::new(case);
    before.take_lent();
    match before.bytes.iter().zip(&ground.bytes).position(|(before, after)| before != after) {
        None => Ok(Answer { number, lent }),
        Some(at) => {
            let place = |part: &Part| at as i64 - part.from as i64;
            let shared: Vec<i64> = ground.shared.iter().map(place).collect();
            let lent: Vec<i64> = ground.lent.iter().map(place).collect();
            Err(format!("changed what was not lent: byte {shared:?} of the shared slices, {lent:?} of the lent buffers"))
        }
    }
}

/// The call itself. All slices lie in one allocation and don't overlap.
fn call(case: &Case, ground: &mut Ground) -> u32 {
    let n = &case.numbers;
    let base = ground.bytes.as_mut_ptr();
    // SAFETY: each part lies inside `ground.bytes`, which nobody else touches during the call.
    let read = |at: usize| unsafe { base.add(ground.shared[at].from).cast_const() };
    let read_length = |at: usize| ground.shared[at].length;
    let write = |at: usize| unsafe { base.add(ground.lent[at].from) };
    let length = |at: usize| ground.lent[at].length;
    let (a, a_len) = (read(0), read_length(0));
    let last = ground.lent.len() - 1;
    let (said, said_len) = (write(last), length(last));
    unsafe {
        match case.function {
            Function::Read => raw::rma_read(a, a_len, said, said_len),
            Function::Array => raw::rma_array(a, a_len, n[0], said, said_len),
            Function::Pack => raw::rma_pack(n[0], a, a_len, read(1), read_length(1), write(0), length(0), said, said_len),
            Function::Refer => raw::rma_refer(a, a_len, n[0], read(1), read_length(1), said, said_len),
            Function::Walk => raw::rma_walk(a, a_len, n[0], write(0), length(0), said, said_len),
            Function::Total => raw::rma_total(a, a_len, n[0], n[1], said, said_len),
            Function::WriteJson => raw::rma_write_json(a, a_len, n[0], write(0), length(0), said, said_len),
            Function::ReadJson => raw::rma_read_json(n[0], a, a_len, read(1), read_length(1), write(0), length(0), said, said_len),
            Function::Plan => raw::rma_plan(a, a_len, read(1), read_length(1), said, said_len),
            Function::Extent => raw::rma_extent(a, a_len, read(1), read_length(1), write(0), length(0), said, said_len),
            Function::Run => raw::rma_run(a, a_len, read(1), read_length(1), write(0), length(0), said, said_len),
            Function::Page => {
                let (recipe, recipe_len) = (read(1), read_length(1));
                raw::rma_page(a, a_len, recipe, recipe_len, write(0), length(0), n[0], write(1), length(1), said, said_len)
            }
            Function::Stretch => {
                let left = (read(1), read_length(1));
                let right = (read(2), read_length(2), read(3), read_length(3));
                raw::rma_stretch(n[0], a, a_len, left.0, left.1, right.0, right.1, right.2, right.3, n[1], n[2], said, said_len)
            }
        }
    }
}
