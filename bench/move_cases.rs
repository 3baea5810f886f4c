//! What is timed: each move alone, over INT arrays with one cell in sixteen empty, and the eleven-hours recipe. For the engine a bundle and
//! a recipe, for the plain program the same arrays as vectors.
use crate::inputs::{Random, SIDE};
use crate::move_plain::{self as plain, Arrays, Cells, Hours, AT, BEFORE};

/// How often a case's step stands in its recipe.
pub const STEPS: usize = 13;

/// The plain program of a case.
#[derive(Clone, Copy)]
pub enum Plain {
    Step(fn(&Arrays, &mut Cells)),
    Recipe(fn(&Arrays, &mut Hours)),
}

pub struct Case {
    pub name: &'static str,
    /// `side`: a move of 64 by 64; `thin`: one of another shape; `recipe`.
    pub kind: &'static str,
    pub bundle: Vec<u8>,
    /// The step 13 times; or the whole recipe.
    pub recipe: Vec<u8>,
    /// Bytes of the recipe that has the step once; or of the whole.
    pub once: usize,
    pub arrays: Arrays,
    pub plain: Plain,
}

/// An axis: its name and limits.
type Axis = (&'static str, i32, i32);

const SIDES: i32 = SIDE as i32;
const WHO: Axis = ("who", 1, SIDES);
const TURN: Axis = ("turn", 1, SIDES);
const POSITION: i32 = AT as i32 + 1;

fn text(name: &str) -> [u8; 8] {
    let mut bytes = [0; 8];
    bytes[..name.len()].copy_from_slice(name.as_bytes());
    bytes
}

fn width(axis: &Axis) -> usize {
    (axis.2 - axis.1 + 1) as usize
}

/// An INT array of a bundle.
fn array(axes: &[Axis], cells: &[Option<i64>]) -> Vec<u8> {
    let mut bytes = vec![1, axes.len() as u8];
    for &(name, lower, upper) in axes {
        bytes.extend(text(name));
        [lower, upper, -1_000_000, 1_000_000].iter().for_each(|limit| bytes.extend(limit.to_le_bytes()));
    }
    bytes.extend(nine(cells, |value| value));
    bytes
}

/// Nine bytes a cell.
pub fn nine<T: Copy>(cells: &[Option<T>], word: fn(T) -> i64) -> Vec<u8> {
    let mut bytes = Vec::with_capacity(9 * cells.len());
    for cell in cells {
        bytes.push(u8::from(cell.is_some()));
        bytes.extend(cell.map_or(0, word).to_le_bytes());
    }
    bytes
}

/// A step: operation, A, B, axis; then the detail.
fn step(operation: u8, [a, b, axis]: [u8; 3], detail: &[u8]) -> Vec<u8> {
    let mut bytes = [&[operation, a, b, axis], detail].concat();
    bytes.resize(36, 0);
    bytes
}

fn numbers(numbers: &[i32]) -> Vec<u8> {
    numbers.iter().flat_map(|number| number.to_le_bytes()).collect()
}

/// A step that works on A alone, with numbers as its detail.
fn alone(operation: u8, detail: &[i32]) -> Vec<u8> {
    step(operation, [1, 0, 0], &numbers(detail))
}

/// Numbers over the whole range, one cell in sixteen empty; none of an array that has no axis.
fn cells(random: &mut Random, axes: &[Axis]) -> Cells {
    let count = if axes.is_empty() { 0 } else { axes.iter().map(width).product() };
    (0..count).map(|_| Some(random.next() as i64).filter(|_| random.next() % 16 != 0)).collect()
}

/// A case of one step over A, and B if it has axes.
fn case(name: &'static str, kind: &'static str, [a, b]: [&[Axis]; 2], step: Vec<u8>, plain: fn(&Arrays, &mut Cells)) -> Case {
    let mut random = Random(88172645463325252);
    let last = |axes: &[Axis]| axes.last().map_or(0, width);
    let arrays = Arrays { a: cells(&mut random, a), b: cells(&mut random, b), a_width: last(a), b_width: last(b) };
    let mut bundle = [b"RMA\x01\x00", &[if b.is_empty() { 1 } else { 2 }][..], &array(a, &arrays.a)].concat();
    if !b.is_empty() {
        bundle.extend(array(b, &arrays.b));
    }
    Case { name, kind, bundle, recipe: step.repeat(STEPS), once: step.len(), arrays, plain: Plain::Step(plain) }
}

/// Operations 1 to 5 on 64 by 64.
fn of_one() -> Vec<Case> {
    let (row, column) = (step(2, [1, 0, 1], &numbers(&[POSITION])), step(2, [1, 0, 2], &numbers(&[POSITION])));
    let names = step(5, [1, 0, 0], &[text("person"), text("day")].concat());
    let side = |name, step, plain| case(name, "side", [&[WHO, TURN], &[]], step, plain);
    vec![
        side("1 trim, a row and a column", alone(1, &[2, SIDES, 2, SIDES]), plain::trim_both),
        side("1 trim, a column", alone(1, &[1, SIDES, 2, SIDES]), plain::trim_column),
        side("2 slice, first axis", row, plain::slice_first),
        side("2 slice, last axis", column, plain::slice_last),
        side("3 reshape, a row and a column", alone(3, &[0, SIDES - 1, 0, SIDES - 1]), plain::reshape_both),
        side("4 shift", alone(4, &[3, -1]), plain::copy),
        side("5 rename", names, plain::copy),
    ]
}

/// Operations 6 to 8, whose results have 64 by 64 cells.
fn of_two() -> Vec<Case> {
    let side = |name, axes, step, plain| case(name, "side", axes, step, plain);
    let (who, turn, half) = (("who", 1, SIDES / 2), ("turn", 1, SIDES / 2), BEFORE as i32 + SIDES / 2);
    let (patch, part) = ([("who", 17, half), ("turn", 17, half)], ("turn", 17, BEFORE as i32 + SIDES / 4));
    let place = |axis| step(7, [1, 2, axis], &numbers(&[POSITION]));
    let glue = |axis| step(8, [1, 2, axis], &[]);
    vec![
        side("6 update, a quarter", [&[WHO, TURN], &patch], step(6, [1, 2, 0], &[]), plain::update),
        side("7 place, a quarter of a row", [&[WHO, TURN], &[part]], place(1), plain::place_part),
        side("7 place, a row", [&[WHO, TURN], &[TURN]], place(1), plain::place_row),
        side("7 place, a column", [&[WHO, TURN], &[WHO]], place(2), plain::place_column),
        side("8 glue, first axis", [&[who, TURN], &[who, TURN]], glue(1), plain::glue_first),
        side("8 glue, last axis", [&[WHO, turn], &[WHO, turn]], glue(2), plain::glue_last),
    ]
}

/// Shapes whose rows, or what is copied of them, have one cell or a few.
fn thin() -> Vec<Case> {
    let thin = |name, axes, step, plain| case(name, "thin", [axes, &[]], step, plain);
    let pairs: &[Axis] = &[("who", 1, 2048), ("turn", 1, 2)];
    let (three, four) = ([("who", 1, 1024), ("turn", 1, 2), ("half", 1, 2)], ["a", "b", "c", "d"].map(|name| (name, 1, 8)));
    vec![
        thin("1 trim of 4,096 by 1, a row", &[("who", 1, 4096), ("turn", 1, 1)], alone(1, &[2, 4096, 1, 1]), plain::trim_row),
        thin("1 trim of 2,048 by 2, a column", pairs, alone(1, &[1, 2048, 2, 2]), plain::trim_to_last),
        thin("3 reshape of 2,048 by 2, a column", pairs, alone(3, &[1, 2048, 0, 1]), plain::reshape_to_first),
        thin("1 trim of 8 by 8 by 8 by 8, each axis", &four, alone(1, &[2, 8, 2, 8, 2, 8, 2, 8]), plain::trim_four),
        thin("1 trim of 1,024 by 2 by 2, each axis", &three, alone(1, &[2, 1024, 2, 2, 2, 2]), plain::trim_planes),
    ]
}

/// Starts and ends of everybody's turns in minutes, one turn in sixteen not entered; a rest is 400 to 999 minutes. Other numbers, other
/// rosters.
fn roster(number: u64) -> [Cells; 2] {
    let mut random = Random(88172645463325252 ^ number);
    let mut roster = [vec![], vec![]];
    for _ in 0..SIDE {
        let mut now = 0;
        for _ in 0..SIDE {
            let mut below = |most: u64| (random.next() % most) as i64;
            let (start, long) = (now + 400 + below(600), 240 + below(480));
            let entered = random.next() % 16 != 0;
            now = start + long;
            [start, now].iter().zip(&mut roster).for_each(|(&minutes, cells)| cells.push(entered.then_some(minutes)));
        }
    }
    roster
}

/// Whose rest before the next turn is below eleven hours: the next turns' starts are moved onto the turns before them.
fn eleven_hours(name: &'static str, program: fn(&Arrays, &mut Hours), number: u64) -> Case {
    let [a, b] = roster(number);
    let bundle = [b"RMA\x01\x00\x02".to_vec(), array(&[WHO, TURN], &a), array(&[WHO, TURN], &b)].concat();
    let below = [&[8, 0, 0, 0][..], &660i64.to_le_bytes()].concat();
    let recipe = [
        alone(1, &[1, SIDES, 2, SIDES]),
        step(4, [17, 0, 0], &numbers(&[0, -1])),
        step(1, [2, 0, 0], &numbers(&[1, SIDES, 1, SIDES - 1])),
        step(9, [18, 19, 0], &[2]),
        step(10, [20, 0, 0], &below),
    ]
    .concat();
    let once = recipe.len();
    let arrays = Arrays { a, b, a_width: SIDE, b_width: SIDE };
    Case { name, kind: "recipe", bundle, recipe, once, arrays, plain: Plain::Recipe(program) }
}

/// All cases; no name is the beginning of another.
pub fn all() -> Vec<Case> {
    let recipes = [
        eleven_hours("eleven hours, the whole recipe", plain::eleven_hours, 0),
        eleven_hours("eleven hours, beside ready vectors", plain::eleven_hours_ready, 0),
    ];
    [of_one(), of_two(), thin(), recipes.into()].into_iter().flatten().collect()
}

/// The eleven-hours recipe on so many rosters: called in turn, so that no call finds the blanks where the last one had them.
pub fn rosters(count: u64) -> Vec<Case> {
    (0..count).map(|number| eleven_hours("eleven hours, 64 rosters in turn", plain::eleven_hours, number)).collect()
}
