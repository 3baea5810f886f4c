//! A cell that is none of the paper's forms, at every place of arrays of every small length and of the largest, for each type: the reading
//! is refused with 3 at its ordinality, and at the first of two. Cells are judged some at a time, so a place's remainder matters.
use rovgrint::{raw, Bundle};

type Nine = [u8; 9];

const INT: u8 = 1;
const FLOAT: u8 = 2;
const BOOLEAN: u8 = 3;

fn cell(mark: u8, word: u64) -> Nine {
    let mut nine = [mark; 9];
    nine[1..].copy_from_slice(&word.to_le_bytes());
    nine
}

/// Cells of a type, empty ones among them.
fn sound(kind: u8) -> Vec<Nine> {
    let words: &[u64] = match kind {
        INT => &[0, 1, u64::MAX, 1 << 63, i64::MAX as u64],
        FLOAT => &[0, 1 << 63, 1, 1.5f64.to_bits(), f64::MAX.to_bits(), f64::MIN.to_bits()],
        _ => &[0, 1],
    };
    words.iter().map(|&word| cell(1, word)).chain([cell(0, 0)]).collect()
}

/// What is no cell of the type: other marks, an empty cell with a number, and numbers that don't fit.
fn bad(kind: u8) -> Vec<Nine> {
    let words: &[u64] = match kind {
        INT => &[],
        FLOAT => &[0x7ff0 << 48, 0xfff0 << 48, 0x7ff8 << 48, u64::MAX, (0x7ff0 << 48) + 1],
        _ => &[2, 3, 256, 1 << 63, u64::MAX],
    };
    let marked = [2, 3, 4, 128, 255].iter().flat_map(|&mark| [cell(mark, 0), cell(mark, 1)]);
    let unmarked = [1, 2, 256, 1 << 63, u64::MAX].iter().map(|&word| cell(0, word));
    words.iter().map(|&word| cell(1, word)).chain(marked).chain(unmarked).collect()
}

/// A version, and the bytes of its names and its heads.
type Version = (u8, usize, usize);

const VERSIONS: [Version; 2] = [(1, 8, raw::HEAD_1), (2, 16, raw::HEAD_2)];

/// One array on one axis, from its type to its last cell.
fn array((_, name, _): Version, kind: u8, cells: &[Nine]) -> Vec<u8> {
    let limits = [1, cells.len() as i32, -1_000_000, 1_000_000].map(i32::to_le_bytes).concat();
    let padded = [&b"turn"[..], &vec![0; name - 4]].concat();
    [&[kind, 1], &padded[..], &limits, &cells.concat()].concat()
}

/// A bundle of that array.
fn bundle_in(version: Version, kind: u8, cells: &[Nine]) -> Vec<u8> {
    [&b"RMA"[..], &[version.0, 0, 1], &array(version, kind, cells)].concat()
}

/// A bundle of version 1.
fn bundle(kind: u8, cells: &[Nine]) -> Vec<u8> {
    bundle_in(VERSIONS[0], kind, cells)
}

/// Number, place and ordinality of the refusal; zeros for none.
fn read(bytes: &[u8]) -> [u32; 3] {
    Bundle::read(bytes).map_or_else(|refusal| [refusal.number, refusal.place, refusal.ordinality], |_| [0; 3])
}

/// An array of so many sound cells, in turn.
fn cells(kind: u8, length: usize) -> Vec<Nine> {
    sound(kind).into_iter().cycle().take(length).collect()
}

#[test]
fn every_bad_cell_at_every_place() {
    let mut cases = 0;
    for kind in [INT, FLOAT, BOOLEAN] {
        for length in 1..=17 {
            assert_eq!(read(&bundle(kind, &cells(kind, length))), [0; 3]);
            for at in 0..length {
                for wrong in bad(kind) {
                    let mut held = cells(kind, length);
                    held[at] = wrong;
                    assert_eq!(read(&bundle(kind, &held)), [3, 1, at as u32 + 1], "type {kind}, {length} cells, {wrong:?} at {at}");
                    cases += 1;
                }
            }
        }
    }
    assert_eq!(cases, 153 * (15 + 20 + 20));
}

#[test]
fn the_first_of_two() {
    for kind in [INT, FLOAT, BOOLEAN] {
        let wrong = bad(kind);
        for first in 0..12 {
            for second in first + 1..13 {
                let mut held = cells(kind, 13);
                (held[first], held[second]) = (wrong[first % wrong.len()], wrong[second % wrong.len()]);
                assert_eq!(read(&bundle(kind, &held)), [3, 1, first as u32 + 1]);
            }
        }
    }
}

#[test]
fn in_the_largest() {
    for (version, kind) in VERSIONS.iter().flat_map(|version| [INT, FLOAT, BOOLEAN].map(|kind| (*version, kind))) {
        for at in [0, 1, 2, 3, 2047, 2048, 4092, 4093, 4094, 4095] {
            for wrong in bad(kind) {
                let mut held = cells(kind, 4096);
                held[at] = wrong;
                assert_eq!(read(&bundle_in(version, kind, &held)), [3, 1, at as u32 + 1]);
            }
        }
    }
}

/// Packing judges the cells that it is handed as reading does, in either version.
#[test]
fn packing_too() {
    for (version, kind) in VERSIONS.iter().flat_map(|version| [INT, FLOAT, BOOLEAN].map(|kind| (*version, kind))) {
        for at in 0..9 {
            for wrong in bad(kind) {
                let mut held = cells(kind, 9);
                held[at] = wrong;
                let (number, name, length) = version;
                let bytes = array(version, kind, &held);
                let (head, cells) = bytes.split_at(2 + name + 16);
                let head = [head, &vec![0; length - head.len()]].concat();
                let (mut out, mut said) = ([7; 200], [7; 8]);
                let (version, heads, held) = (u32::from(number), head.as_ptr(), cells.as_ptr());
                // SAFETY: each pointer and length are one slice's; those written to are borrowed alone.
                let refused = unsafe {
                    raw::rma_pack(version, heads, head.len(), held, cells.len(), out.as_mut_ptr(), out.len(), said.as_mut_ptr(), said.len())
                };
                assert_eq!((refused, said[4..].to_vec()), (3, (at as u32 + 1).to_le_bytes().to_vec()));
                assert_eq!(out, [7; 200]);
            }
        }
    }
}
