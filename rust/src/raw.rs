//! The engine's thirteen functions as the static library has them. `include/rma.h` tells the same in C.
//!
//! Each byte slice is two arguments, a pointer and its length. Pointers are never null, also for length 0, and point to as many bytes.
//! A buffer that a call writes to (`out`, `work`, `rows`, `place`, `extent`, `said`, `cells` of [`rma_read_json`]) overlaps no other
//! argument. Numbers in bytes are little-endian. No call keeps a pointer, allocates or prints, and none has another condition to meet: bytes of any length and
//! content get an answer.
//!
//! A call returns the number of its refusal, 0 for none. Refused, `said` begins with the place and the ordinality (two u32); else with
//! the bytes that the function names. Bytes of `said` after these stay; an answer longer than `said` is cut there. [`SAID`] bytes are
//! room for every answer. The ordinality is a cell with 3, 12 and 13, a byte of the text with 15 and 16, and with 8 what differs first: 4
//! for the axis count, else ten times the axis's index and 1 for its name, 2 for its lower limit, 3 for its upper one.
//!
//! A bundle is of version 1 or 2; what takes a bundle finds its version in its bytes, and [`rma_pack`], [`rma_stretch`] and
//! [`rma_read_json`] are told it as their first argument. A told version other than 1 and 2, in all its 32 bits, is refused with 1, place 0, before all else.
//!
//! A head is type, axis count, then slots as in a bundle, an axis each: in version 1 [`HEAD_1`] bytes with four slots of 24, in version 2
//! [`HEAD_2`] bytes with six slots of 32. Slots past the last axis are not looked at, and an axis count over 4, in version 2 over 6, is
//! taken as 0, which is refused. A recipe's step has 36 bytes in version 1 and 100 in version 2.

/// The bytes of the longest answer.
pub const SAID: usize = 16;

/// The bytes of a head in version 1.
pub const HEAD_1: usize = 98;

/// The bytes of a head in version 2.
pub const HEAD_2: usize = 194;

/// The bytes of the longest text of [`rma_write_json`].
pub const JSON: usize = 126_986;

extern "C" {
    /// Judges a bundle. `said`: the count of its arrays. Refused 1, 2, 3.
    pub fn rma_read(bundle: *const u8, bundle_len: usize, said: *mut u8, said_len: usize) -> u32;

    /// Tells where an array lies. `said`: type, axis count, number of cells, and the byte of the bundle at which its cells begin (its
    /// axes end there, 24 bytes each in version 1, 32 in version 2). Refused as [`rma_read`], then 4.
    pub fn rma_array(bundle: *const u8, bundle_len: usize, array: u32, said: *mut u8, said_len: usize) -> u32;

    /// Packs the arrays of 1 to 4 heads of that version; `cells` of all of them in turn. `said`: the bundle's length. `out`: the bundle,
    /// then what was there; untouched by a refusal. Refused as [`rma_read`] refuses the bundle, 1 with place 0 for the version and for
    /// heads of another length, then 14.
    pub fn rma_pack(
        version: u32,
        heads: *const u8,
        heads_len: usize,
        cells: *const u8,
        cells_len: usize,
        out: *mut u8,
        out_len: usize,
        said: *mut u8,
        said_len: usize,
    ) -> u32;

    /// Refers to the cell at a coordinate, an i32 for each axis. `said`: the cell's nine bytes. Refused as [`rma_read`], then 4, 5 (also
    /// for a length over 24 or no multiple of 4), 6.
    pub fn rma_refer(
        bundle: *const u8,
        bundle_len: usize,
        array: u32,
        coordinate: *const u8,
        coordinate_len: usize,
        said: *mut u8,
        said_len: usize,
    ) -> u32;

    /// Walks on by one cell. `place`: the walking place (u32), moved forward past a cell, else kept. `said`: 1 and the cell's nine
    /// bytes; at the end ten zeros. Refused as [`rma_read`], then 4, 6.
    pub fn rma_walk(
        bundle: *const u8,
        bundle_len: usize,
        array: u32,
        place: *mut u8,
        place_len: usize,
        said: *mut u8,
        said_len: usize,
    ) -> u32;

    /// Totals an array: 1 count of filled, 2 count of TRUE, 3 smallest, 4 largest, 5 sum, 6 average. `said`: a cell's nine bytes, a
    /// count as an INT. Refused as [`rma_read`], then 4 (another `which` too), 7, 12.
    pub fn rma_total(bundle: *const u8, bundle_len: usize, array: u32, which: u32, said: *mut u8, said_len: usize) -> u32;

    /// Writes an array as JSON. `said`: the text's length. `out`: the text, then what was there; untouched by a refusal. Refused as
    /// [`rma_read`], then 4, 7 (FLOAT), 14 (`out` is shorter than the text). [`JSON`] bytes are room for every text.
    pub fn rma_write_json(
        bundle: *const u8,
        bundle_len: usize,
        array: u32,
        out: *mut u8,
        out_len: usize,
        said: *mut u8,
        said_len: usize,
    ) -> u32;

    /// Reads JSON into the array that a head of that version names. `said`: the number of cells. `cells`: the cells in row-major order, then
    /// what was there; untouched by a refusal. Refused, with place 0, 1 for the version, the head's length, type or axis count, 2, 7 (FLOAT),
    /// then 15 and 16 with the byte of the text, from 1 (4,294,967,295 where it is over that), then 14 (`cells` is under nine bytes a cell).
    pub fn rma_read_json(
        version: u32,
        head: *const u8,
        head_len: usize,
        text: *const u8,
        text_len: usize,
        cells: *mut u8,
        cells_len: usize,
        said: *mut u8,
        said_len: usize,
    ) -> u32;

    /// Plans a recipe: lends nothing, runs nothing. `said`: T, the cells of all results, and the type, axis count and number of cells of the
    /// last one. Refused as [`rma_read`], then 4 to 9 by step.
    pub fn rma_plan(bundle: *const u8, bundle_len: usize, recipe: *const u8, recipe_len: usize, said: *mut u8, said_len: usize) -> u32;

    /// Tells the last result's extent. `said`: the head's length. `extent`: a whole head of the bundle's version, the maxima -1,000,000 and
    /// 1,000,000, slots past the last axis zeros, then what was there; untouched by a refusal. Refused as [`rma_plan`], then 14 (`extent` is
    /// shorter than such a head).
    pub fn rma_extent(
        bundle: *const u8,
        bundle_len: usize,
        recipe: *const u8,
        recipe_len: usize,
        extent: *mut u8,
        extent_len: usize,
        said: *mut u8,
        said_len: usize,
    ) -> u32;

    /// Runs a recipe. `said`: T, the cells of all results. `work`: these cells in step order, 9T bytes, then what was there; with 12 and
    /// 13 9T zeros in their place; untouched by the other refusals. Refused as [`rma_read`], then 4 to 9 by step, 10, 12 or 13.
    pub fn rma_run(
        bundle: *const u8,
        bundle_len: usize,
        recipe: *const u8,
        recipe_len: usize,
        work: *mut u8,
        work_len: usize,
        said: *mut u8,
        said_len: usize,
    ) -> u32;

    /// Runs a recipe and lists the TRUE cells of its last result from `start` on. `said`: rows written, and where to go on. `rows`: the
    /// rows, then what was there; untouched by a refusal. `work` as [`rma_run`] leaves it. Refused as [`rma_run`], and with 7 at the
    /// last step before 10, with 11 after it.
    pub fn rma_page(
        bundle: *const u8,
        bundle_len: usize,
        recipe: *const u8,
        recipe_len: usize,
        work: *mut u8,
        work_len: usize,
        start: u32,
        rows: *mut u8,
        rows_len: usize,
        said: *mut u8,
        said_len: usize,
    ) -> u32;

    /// Reads two arrays, told by heads of that version, as if they were glued. `said`: the side (1 left, 2 right), and from which byte up to
    /// which byte of its cells the stretch goes. Refused 1 at place 0 for the version, 1, 2 at place 1, then at place 2, then 5, 7, 8, 9, 6
    /// at place 0.
    pub fn rma_stretch(
        version: u32,
        left_head: *const u8,
        left_head_len: usize,
        left_cells: *const u8,
        left_cells_len: usize,
        right_head: *const u8,
        right_head_len: usize,
        right_cells: *const u8,
        right_cells_len: usize,
        axis: u32,
        ordinality: u32,
        said: *mut u8,
        said_len: usize,
    ) -> u32;
}
