//! The five that run: four plain Rust programs, and the engine by `rma_page` of librma.a, as a caller in Rust or C has it. Each entry is
//! a function of its own, so that a profile tells them apart (`instructions.sh`).
use crate::baselines::{a, b, c, Engine};
use crate::inputs::{Input, CELLS, STEPS};

extern "C" {
    fn rma_page(
        bundle: *const u8,
        bundle_len: usize,
        recipe: *const u8,
        recipe_len: usize,
        work: *mut u8,
        work_len: usize,
        start: u32,
        rows: *mut u8,
        rows_len: usize,
        said: *mut u8,
        said_len: usize,
    ) -> u32;
}

pub const NAMES: [&str; 5] = ["rust (a)", "rust (b)", "rust (a2)", "rust (c)", "engine"];
pub const A: usize = 0;
pub const B: usize = 1;
pub const A2: usize = 2;
pub const ENGINE: usize = 4;

#[inline(never)]
fn by_a(engine: &mut Engine<a::Cells<false>>, bundle: &[u8], recipe: &[u8], rows: &mut [u8]) -> u64 {
    engine.page(bundle, recipe, 1, rows)
}

#[inline(never)]
fn by_a2(engine: &mut Engine<a::Cells<true>>, bundle: &[u8], recipe: &[u8], rows: &mut [u8]) -> u64 {
    engine.page(bundle, recipe, 1, rows)
}

#[inline(never)]
fn by_b(engine: &mut Engine<b::Cells>, bundle: &[u8], recipe: &[u8], rows: &mut [u8]) -> u64 {
    engine.page(bundle, recipe, 1, rows)
}

#[inline(never)]
fn by_c(engine: &mut Engine<c::Cells>, bundle: &[u8], recipe: &[u8], rows: &mut [u8]) -> u64 {
    engine.page(bundle, recipe, 1, rows)
}

/// The engine's answer in one number, as the baselines give it: rows written and where to go on.
#[inline(never)]
fn by_engine(work: &mut [u8], bundle: &[u8], recipe: &[u8], rows: &mut [u8]) -> u64 {
    let mut said = [0u8; 16];
    let (bundle, bundle_len, recipe, recipe_len) = (bundle.as_ptr(), bundle.len(), recipe.as_ptr(), recipe.len());
    let (work, work_len, rows, rows_len) = (work.as_mut_ptr(), work.len(), rows.as_mut_ptr(), rows.len());
    // SAFETY: each pointer and length are one slice's; those written to are borrowed alone.
    let refused =
        unsafe { rma_page(bundle, bundle_len, recipe, recipe_len, work, work_len, 1, rows, rows_len, said.as_mut_ptr(), said.len()) };
    assert!(refused == 0, "refused {refused}");
    let number = |at: usize| u64::from(u32::from_le_bytes(said[at..at + 4].try_into().unwrap()));
    number(0) << 32 | number(4)
}

/// What each keeps between calls, and the rows that all write to. Nothing is cleared.
pub struct Contest {
    a: Engine<a::Cells<false>>,
    a2: Engine<a::Cells<true>>,
    b: Engine<b::Cells>,
    c: Engine<c::Cells>,
    work: Vec<u8>,
    pub rows: Vec<u8>,
}

impl Contest {
    pub fn new(page: usize) -> Contest {
        Contest {
            a: Engine::default(),
            a2: Engine::default(),
            b: Engine::default(),
            c: Engine::default(),
            work: vec![7; 9 * STEPS * CELLS],
            rows: vec![7; 12 * page],
        }
    }

    /// A page call of one of the five.
    pub fn call(&mut self, who: usize, bundle: &[u8], recipe: &[u8]) -> u64 {
        let rows = &mut self.rows;
        match who {
            A => by_a(&mut self.a, bundle, recipe, rows),
            B => by_b(&mut self.b, bundle, recipe, rows),
            A2 => by_a2(&mut self.a2, bundle, recipe, rows),
            ENGINE => by_engine(&mut self.work, bundle, recipe, rows),
            _ => by_c(&mut self.c, bundle, recipe, rows),
        }
    }

    /// All five give one answer and the same rows, and the engine's work area has (a)'s results. The page fills, or has room for all.
    pub fn compare(&mut self, input: &Input) {
        self.rows.fill(7);
        self.work.fill(7);
        let answer = self.call(A, &input.bundle, &input.recipe);
        let (count, room, fills) = ((answer >> 32) as usize, self.rows.len() / 12, self.rows.len() / 12 < CELLS);
        assert!(count > 2000 || fills && count == room, "{}: no full page, {count} rows ({answer:x})", input.label);
        assert!(fills || answer as u32 as usize == CELLS + 1, "{}: not all listed", input.label);
        let rows = self.rows.clone();
        for (who, name) in NAMES.iter().enumerate() {
            self.rows.fill(7);
            assert!(self.call(who, &input.bundle, &input.recipe) == answer, "{}: {name} answers otherwise", input.label);
            assert!(self.rows == rows, "{}: {name} has other rows", input.label);
        }
        assert!(self.work == self.a.cells.bytes(STEPS), "{}: another work area", input.label);
    }
}
