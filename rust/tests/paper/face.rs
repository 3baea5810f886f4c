//! The thirteen callable parts of the C face, answered by the paper: the returned number, the bytes of `said`, and
//! every lent buffer after. Each slice of the face is one slice here.

use super::array::Declared;
use super::bundle::read;
use super::bytes::{signed_numbers, unsigned};
use super::cell::Cell;
use super::refusal::Refusal;
use super::{json, json_read, listing, pack, question, stretch};

/// The answer's bytes, or place and ordinality, as far as `said` has room; then the number.
fn say(answer: Result<Vec<u8>, Refusal>, said: &mut [u8]) -> u32 {
    let (number, bytes) = match answer {
        Ok(bytes) => (0, bytes),
        Err(refusal) => (refusal.number, numbers(&[refusal.place, refusal.ordinality])),
    };
    said.iter_mut().zip(bytes).for_each(|(room, byte)| *room = byte);
    number
}

fn numbers(list: &[u32]) -> Vec<u8> {
    list.iter().flat_map(|number| number.to_le_bytes()).collect()
}

pub fn rma_read(bundle: &[u8], said: &mut [u8]) -> u32 {
    say(read(bundle).map(|bundle| numbers(&[bundle.arrays.len() as u32])), said)
}

pub fn rma_array(bundle: &[u8], array: u32, said: &mut [u8]) -> u32 {
    let described = |declared: &Declared| {
        let Declared { array, cells_begin, .. } = declared;
        let axes = array.extent.axes.len() as u32;
        numbers(&[u32::from(array.of.byte()), axes, array.cells.len() as u32, *cells_begin as u32])
    };
    say(read(bundle).and_then(|bundle| bundle.array(array).map(described)), said)
}

pub fn rma_pack(version: u32, heads: &[u8], cells: &[u8], out: &mut [u8], said: &mut [u8]) -> u32 {
    say(pack::pack(version, heads, cells, out).map(|length| numbers(&[length])), said)
}

/// A length that is no multiple of 4, or over 24, is a coordinate of no numbers.
pub fn rma_refer(bundle: &[u8], array: u32, coordinate: &[u8], said: &mut [u8]) -> u32 {
    let whole = coordinate.len().is_multiple_of(4) && coordinate.len() <= 24;
    let positions = if whole { signed_numbers(coordinate) } else { vec![] };
    let answer = read(bundle).and_then(|bundle| question::refer(bundle.array(array)?, array, &positions));
    say(answer.map(|cell| cell.bytes().to_vec()), said)
}

/// A place shorter than four bytes is walking place 0 and stays.
pub fn rma_walk(bundle: &[u8], array: u32, place: &mut [u8], said: &mut [u8]) -> u32 {
    let here = if place.len() < 4 { 0 } else { unsigned(place) };
    let answer = read(bundle).and_then(|bundle| question::walk(bundle.array(array)?, array, here));
    if let Ok(Some(_)) = answer {
        place[..4].copy_from_slice(&(here + 1).to_le_bytes());
    }
    let walked = |cell: Option<Cell>| match cell {
        Some(cell) => [&[1], cell.bytes().as_slice()].concat(),
        None => vec![0; 10],
    };
    say(answer.map(walked), said)
}

pub fn rma_total(bundle: &[u8], array: u32, which: u32, said: &mut [u8]) -> u32 {
    let answer = read(bundle).and_then(|bundle| question::total(bundle.array(array)?, array, which));
    say(answer.map(|cell| cell.bytes().to_vec()), said)
}

pub fn rma_write_json(bundle: &[u8], array: u32, out: &mut [u8], said: &mut [u8]) -> u32 {
    let answer = read(bundle).and_then(|bundle| json::write(&bundle, array, out));
    say(answer.map(|length| numbers(&[length])), said)
}

pub fn rma_read_json(version: u32, head: &[u8], text: &[u8], cells: &mut [u8], said: &mut [u8]) -> u32 {
    say(json_read::read(version, head, text, cells).map(|count| numbers(&[count])), said)
}

pub fn rma_plan(bundle: &[u8], recipe: &[u8], said: &mut [u8]) -> u32 {
    let answer = read(bundle).and_then(|bundle| listing::plan(&bundle, recipe));
    say(answer.map(|figures| numbers(&figures)), said)
}

pub fn rma_extent(bundle: &[u8], recipe: &[u8], extent: &mut [u8], said: &mut [u8]) -> u32 {
    let answer = read(bundle).and_then(|bundle| listing::extent(&bundle, recipe, extent));
    say(answer.map(|length| numbers(&[length])), said)
}

pub fn rma_run(bundle: &[u8], recipe: &[u8], work: &mut [u8], said: &mut [u8]) -> u32 {
    let answer = read(bundle).and_then(|bundle| listing::run(&bundle, recipe, work));
    say(answer.map(|cells| numbers(&[cells])), said)
}

pub fn rma_page(bundle: &[u8], recipe: &[u8], work: &mut [u8], start: u32, rows: &mut [u8], said: &mut [u8]) -> u32 {
    let answer = read(bundle).and_then(|bundle| listing::page(&bundle, recipe, work, start, rows));
    say(answer.map(|(written, go_on)| numbers(&[written, go_on])), said)
}

/// One side of a stretch: its head and its cells.
type Side<'a> = (&'a [u8], &'a [u8]);

pub fn rma_stretch(version: u32, left: Side, right: Side, axis: u32, ordinality: u32, said: &mut [u8]) -> u32 {
    let answer = stretch::stretch(version, left, right, axis, ordinality);
    say(answer.map(|part| numbers(&[part.side, part.from, part.up_to])), said)
}
