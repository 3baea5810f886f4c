//! The thirteen functions over slices: all of the crate's unsafe code. A slice's pointer is never null and points to its length's bytes; a
//! `&mut` slice overlaps no other argument, by the borrow rules; the engine keeps none. That is all that the functions ask for.

use crate::raw;
use crate::refusal::{Counts, Refusal};
use crate::version::Version;

/// What a call said: its answer, then zeros.
pub(crate) struct Said([u8; raw::SAID]);

impl Said {
    /// The answer's bytes.
    pub(crate) fn bytes(&self) -> &[u8] {
        &self.0
    }

    /// The answer's k-th number of four bytes, from 0.
    pub(crate) fn number(&self, k: usize) -> u32 {
        u32::from_le_bytes(self.0[4 * k..4 * k + 4].try_into().expect("four bytes"))
    }
}

/// An answer, or a refusal with its place and ordinality.
pub(crate) type Answer = Result<Said, Refusal>;

/// Lends `said` to a call, and takes what it answers apart. The bundle is judged first, by array; a call of another kind then counts as told.
fn answer(counts: Counts, call: impl FnOnce(&mut [u8]) -> u32) -> Answer {
    let mut said = Said([0; raw::SAID]);
    match call(&mut said.0) {
        0 => Ok(said),
        number => {
            let counts = if counts == Counts::Steps && number <= LAST_OF_BUNDLE { Counts::Arrays } else { counts };
            Err(Refusal { number, place: said.number(0), ordinality: said.number(1), counts })
        }
    }
}

/// The last refusal that a bundle is refused with.
const LAST_OF_BUNDLE: u32 = 3;

pub(crate) fn read(bundle: &[u8]) -> Answer {
    answer(Counts::Arrays, |said| {
        // SAFETY: each pointer and length are one slice's; `said`, which is written to, is borrowed alone.
        unsafe { raw::rma_read(bundle.as_ptr(), bundle.len(), said.as_mut_ptr(), said.len()) }
    })
}

pub(crate) fn array(bundle: &[u8], array: u32) -> Answer {
    answer(Counts::Arrays, |said| {
        // SAFETY: each pointer and length are one slice's; `said`, which is written to, is borrowed alone.
        unsafe { raw::rma_array(bundle.as_ptr(), bundle.len(), array, said.as_mut_ptr(), said.len()) }
    })
}

pub(crate) fn pack(version: Version, heads: &[u8], cells: &[u8], out: &mut [u8]) -> Answer {
    answer(Counts::Arrays, |said| {
        // SAFETY: each pointer and length are one slice's; `out` and `said`, which are written to, are borrowed alone.
        unsafe {
            raw::rma_pack(
                version as u32,
                heads.as_ptr(),
                heads.len(),
                cells.as_ptr(),
                cells.len(),
                out.as_mut_ptr(),
                out.len(),
                said.as_mut_ptr(),
                said.len(),
            )
        }
    })
}

pub(crate) fn refer(bundle: &[u8], array: u32, coordinate: &[u8]) -> Answer {
    let (at, len) = (coordinate.as_ptr(), coordinate.len());
    answer(Counts::Arrays, |said| {
        // SAFETY: each pointer and length are one slice's; `said`, which is written to, is borrowed alone.
        unsafe { raw::rma_refer(bundle.as_ptr(), bundle.len(), array, at, len, said.as_mut_ptr(), said.len()) }
    })
}

pub(crate) fn walk(bundle: &[u8], array: u32, place: &mut [u8]) -> Answer {
    answer(Counts::Arrays, |said| {
        let (at, len) = (place.as_mut_ptr(), place.len());
        // SAFETY: each pointer and length are one slice's; `place` and `said`, which are written to, are borrowed alone.
        unsafe { raw::rma_walk(bundle.as_ptr(), bundle.len(), array, at, len, said.as_mut_ptr(), said.len()) }
    })
}

pub(crate) fn total(bundle: &[u8], array: u32, which: u32) -> Answer {
    answer(Counts::Arrays, |said| {
        // SAFETY: each pointer and length are one slice's; `said`, which is written to, is borrowed alone.
        unsafe { raw::rma_total(bundle.as_ptr(), bundle.len(), array, which, said.as_mut_ptr(), said.len()) }
    })
}

pub(crate) fn write_json(bundle: &[u8], array: u32, out: &mut [u8]) -> Answer {
    answer(Counts::Arrays, |said| {
        let (at, len) = (out.as_mut_ptr(), out.len());
        // SAFETY: each pointer and length are one slice's; `out` and `said`, which are written to, are borrowed alone.
        unsafe { raw::rma_write_json(bundle.as_ptr(), bundle.len(), array, at, len, said.as_mut_ptr(), said.len()) }
    })
}

pub(crate) fn read_json(version: Version, head: &[u8], text: &[u8], cells: &mut [u8]) -> Answer {
    answer(Counts::Nothing, |said| {
        // SAFETY: each pointer and length are one slice's; `cells` and `said`, which are written to, are borrowed alone.
        unsafe {
            raw::rma_read_json(
                version as u32,
                head.as_ptr(),
                head.len(),
                text.as_ptr(),
                text.len(),
                cells.as_mut_ptr(),
                cells.len(),
                said.as_mut_ptr(),
                said.len(),
            )
        }
    })
}

pub(crate) fn plan(bundle: &[u8], recipe: &[u8]) -> Answer {
    answer(Counts::Steps, |said| {
        // SAFETY: each pointer and length are one slice's; `said`, which is written to, is borrowed alone.
        unsafe { raw::rma_plan(bundle.as_ptr(), bundle.len(), recipe.as_ptr(), recipe.len(), said.as_mut_ptr(), said.len()) }
    })
}

pub(crate) fn extent(bundle: &[u8], recipe: &[u8], extent: &mut [u8]) -> Answer {
    answer(Counts::Steps, |said| {
        // SAFETY: each pointer and length are one slice's; `extent` and `said`, which are written to, are borrowed alone.
        unsafe {
            raw::rma_extent(
                bundle.as_ptr(),
                bundle.len(),
                recipe.as_ptr(),
                recipe.len(),
                extent.as_mut_ptr(),
                extent.len(),
                said.as_mut_ptr(),
                said.len(),
            )
        }
    })
}

pub(crate) fn run(bundle: &[u8], recipe: &[u8], work: &mut [u8]) -> Answer {
    answer(Counts::Steps, |said| {
        // SAFETY: each pointer and length are one slice's; `work` and `said`, which are written to, are borrowed alone.
        unsafe {
            raw::rma_run(
                bundle.as_ptr(),
                bundle.len(),
                recipe.as_ptr(),
                recipe.len(),
                work.as_mut_ptr(),
                work.len(),
                said.as_mut_ptr(),
                said.len(),
            )
        }
    })
}

pub(crate) fn page(bundle: &[u8], recipe: &[u8], work: &mut [u8], start: u32, rows: &mut [u8]) -> Answer {
    answer(Counts::Steps, |said| {
        // SAFETY: each pointer and length are one slice's; `work`, `rows` and `said`, which are written to, are borrowed alone.
        unsafe {
            raw::rma_page(
                bundle.as_ptr(),
                bundle.len(),
                recipe.as_ptr(),
                recipe.len(),
                work.as_mut_ptr(),
                work.len(),
                start,
                rows.as_mut_ptr(),
                rows.len(),
                said.as_mut_ptr(),
                said.len(),
            )
        }
    })
}

/// One side of a glue: its head's bytes and its cells'.
type Side<'a> = (&'a [u8], &'a [u8]);

pub(crate) fn stretch(version: Version, left: Side<'_>, right: Side<'_>, axis: u32, ordinality: u32) -> Answer {
    answer(Counts::Sides, |said| {
        // SAFETY: each pointer and length are one slice's; `said`, which is written to, is borrowed alone.
        unsafe {
            raw::rma_stretch(
                version as u32,
                left.0.as_ptr(),
                left.0.len(),
                left.1.as_ptr(),
                left.1.len(),
                right.0.as_ptr(),
                right.0.len(),
                right.1.as_ptr(),
                right.1.len(),
                axis,
                ordinality,
                said.as_mut_ptr(),
                said.len(),
            )
        }
    })
}
