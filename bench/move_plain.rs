//! The moves and the eleven-hours recipe as a good engineer writes them by hand: on vectors of Option that are kept between calls, rows
//! copied whole, one copy where what is copied lies together, and a loop over cells where a row has only one. Of a few ways to write each,
//! the quickest. Widths come with the arrays. `resize` writes nothing where a kept vector has its length.
use std::slice::ChunksExact;

pub type Cells = Vec<Option<i64>>;

/// What a step works on: A and B, and the width of their last axis. No B: no cells.
pub struct Arrays {
    pub a: Cells,
    pub b: Cells,
    pub a_width: usize,
    pub b_width: usize,
}

/// Where a slice or a place is made, counted from 0.
pub const AT: usize = 4;

/// Rows and columns before the patch of an update, and of a place that isn't whole.
pub const BEFORE: usize = 16;

fn rows(cells: &[Option<i64>], width: usize) -> ChunksExact<'_, Option<i64>> {
    cells.chunks_exact(width)
}

/// All but the first cell of each row.
fn without_first(cells: &[Option<i64>], width: usize, to: &mut Cells) {
    to.resize(cells.len() / width * (width - 1), None);
    rows(cells, width).zip(to.chunks_exact_mut(width - 1)).for_each(|(row, to)| to.copy_from_slice(&row[1..]));
}

/// All but the first row.
pub fn trim_row(of: &Arrays, to: &mut Cells) {
    to.clear();
    to.extend_from_slice(&of.a[of.a_width..]);
}

/// All but the first column.
pub fn trim_column(of: &Arrays, to: &mut Cells) {
    without_first(&of.a, of.a_width, to);
}

/// All but the first row and the first column.
pub fn trim_both(of: &Arrays, to: &mut Cells) {
    without_first(&of.a[of.a_width..], of.a_width, to);
}

/// The last column alone: what is left of two when the first goes.
pub fn trim_to_last(of: &Arrays, to: &mut Cells) {
    let last = of.a_width - 1;
    to.clear();
    to.extend(rows(&of.a, of.a_width).map(|row| row[last]));
}

/// Four axes of one width, the first position of each left out.
pub fn trim_four(of: &Arrays, to: &mut Cells) {
    let (width, left) = (of.a_width, of.a_width - 1);
    to.resize(left * left * left * left, None);
    let mut to = to.chunks_exact_mut(left);
    for cube in rows(&of.a, width * width * width).skip(1) {
        for plane in rows(cube, width * width).skip(1) {
            rows(&plane[width..], width).zip(&mut to).for_each(|(row, to)| to.copy_from_slice(&row[1..]));
        }
    }
}

/// Three axes, the last two of two positions, the first position of each left out: the last cell of each plane.
pub fn trim_planes(of: &Arrays, to: &mut Cells) {
    let plane = of.a_width * of.a_width;
    to.clear();
    to.extend(rows(&of.a[plane..], plane).map(|cells| cells[plane - 1]));
}

pub fn slice_first(of: &Arrays, to: &mut Cells) {
    to.clear();
    to.extend_from_slice(&of.a[AT * of.a_width..(AT + 1) * of.a_width]);
}

pub fn slice_last(of: &Arrays, to: &mut Cells) {
    to.clear();
    to.extend(rows(&of.a, of.a_width).map(|row| row[AT]));
}

/// A blank row and a blank column on the low side; the last of each go.
pub fn reshape_both(of: &Arrays, to: &mut Cells) {
    to.resize(of.a.len(), None);
    to[..of.a_width].fill(None);
    for (row, to) in rows(&of.a, of.a_width).zip(to[of.a_width..].chunks_exact_mut(of.a_width)) {
        to[0] = None;
        to[1..].copy_from_slice(&row[..of.a_width - 1]);
    }
}

/// A blank column, and the first of two.
pub fn reshape_to_first(of: &Arrays, to: &mut Cells) {
    to.resize(of.a.len(), None);
    for (row, to) in rows(&of.a, of.a_width).zip(to.chunks_exact_mut(of.a_width)) {
        (to[0], to[1]) = (None, row[0]);
    }
}

/// Shift and rename: the cells as they are.
pub fn copy(of: &Arrays, to: &mut Cells) {
    to.clear();
    to.extend_from_slice(&of.a);
}

pub fn update(of: &Arrays, to: &mut Cells) {
    copy(of, to);
    for (row, patch) in to.chunks_exact_mut(of.a_width).skip(BEFORE).zip(rows(&of.b, of.b_width)) {
        row[BEFORE..BEFORE + of.b_width].copy_from_slice(patch);
    }
}

pub fn place_row(of: &Arrays, to: &mut Cells) {
    copy(of, to);
    to[AT * of.a_width..(AT + 1) * of.a_width].copy_from_slice(&of.b);
}

pub fn place_part(of: &Arrays, to: &mut Cells) {
    let start = AT * of.a_width + BEFORE;
    copy(of, to);
    to[start..start + of.b.len()].copy_from_slice(&of.b);
}

pub fn place_column(of: &Arrays, to: &mut Cells) {
    copy(of, to);
    to.chunks_exact_mut(of.a_width).zip(&of.b).for_each(|(row, &cell)| row[AT] = cell);
}

pub fn glue_first(of: &Arrays, to: &mut Cells) {
    copy(of, to);
    to.extend_from_slice(&of.b);
}

pub fn glue_last(of: &Arrays, to: &mut Cells) {
    to.clear();
    for (left, right) in rows(&of.a, of.a_width).zip(rows(&of.b, of.b_width)) {
        to.extend_from_slice(left);
        to.extend_from_slice(right);
    }
}

/// All but the last cell of each row.
fn without_last(cells: &[Option<i64>], width: usize, to: &mut Cells) {
    to.resize(cells.len() / width * (width - 1), None);
    rows(cells, width).zip(to.chunks_exact_mut(width - 1)).for_each(|(row, to)| to.copy_from_slice(&row[..width - 1]));
}

/// The five results of the eleven-hours recipe.
#[derive(Default)]
pub struct Hours {
    pub starts: Cells,
    pub moved: Cells,
    pub ends: Cells,
    pub rests: Cells,
    pub below: Vec<Option<bool>>,
}

/// A: starts, B: ends of turns, in minutes. All five results are kept, so the shift copies too; a rest that doesn't fit ends the program.
/// Cells are worked out one by one and pushed, as most would write it.
pub fn eleven_hours(of: &Arrays, to: &mut Hours) {
    moved_starts_and_ends(of, to);
    to.rests.clear();
    for (&start, &end) in to.moved.iter().zip(&to.ends) {
        to.rests.push(rest_between(start, end));
    }
    to.below.clear();
    for rest in &to.rests {
        to.below.push(rest.map(|minutes| minutes < 660));
    }
}

/// The same, written for speed: into vectors that have their length, so that the compiler has no test of room in its loops.
pub fn eleven_hours_ready(of: &Arrays, to: &mut Hours) {
    moved_starts_and_ends(of, to);
    to.rests.resize(to.moved.len(), None);
    for (rest, (&start, &end)) in to.rests.iter_mut().zip(to.moved.iter().zip(&to.ends)) {
        *rest = rest_between(start, end);
    }
    to.below.clear();
    to.below.extend(to.rests.iter().map(|rest| rest.map(|minutes| minutes < 660)));
}

fn moved_starts_and_ends(of: &Arrays, to: &mut Hours) {
    trim_column(of, &mut to.starts);
    to.moved.clear();
    to.moved.extend_from_slice(&to.starts);
    without_last(&of.b, of.b_width, &mut to.ends);
}

fn rest_between(start: Option<i64>, end: Option<i64>) -> Option<i64> {
    match (start, end) {
        (Some(start), Some(end)) => Some(start.checked_sub(end).expect("a rest that fits")),
        _ => None,
    }
}
