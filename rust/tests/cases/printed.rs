//! The cases that the paper itself prints: the example of eleven hours, whole, and "Both sides of each line"; what request [1] of
//! paper 02 tells of blank turns; the JSON texts of request [2] and of the report's table 5; the figures of request [3]; and what request
//! [6] tells of the versions.
//! Each is put to whoever answers (paper or library), in either version, and held against the values printed; what the requests tell in
//! words only is worked out by hand.

use super::bundles::{bundle_bytes, padded, RawArray, RawAxis};
use super::cells::filled;
use super::steps::{self, numbers};
use super::{Answer, Case, Function};
use crate::paper::version::{Sizes, ONE, TWO};

/// An axis: its name, its lower and its upper limit.
pub type Limits<'a> = (&'a str, i32, i32);

/// Who answers, and the version in which it is asked.
#[derive(Clone, Copy)]
pub struct Ask<'a> {
    pub sizes: Sizes,
    pub answers: &'a dyn Fn(&Case) -> Answer,
}

impl Ask<'_> {
    /// One call. `said` is lent after the other buffers.
    pub fn call(&self, function: Function, shared: Vec<Vec<u8>>, numbers: &[u32], lent: &[usize]) -> Answer {
        let lent = lent.iter().chain(&[16]).map(|&length| vec![0x77; length]).collect();
        (self.answers)(&Case { function, shared, numbers: numbers.to_vec(), lent })
    }

    pub fn bundle(&self, arrays: &[RawArray]) -> Vec<u8> {
        bundle_bytes(self.sizes, arrays)
    }

    pub fn step(&self, operation: u8, a: u8, b: u8, axis: u8, detail: &[u8]) -> Vec<u8> {
        steps::step(self.sizes, operation, a, b, axis, detail)
    }

    fn right_scalar(&self, a: u8, operator: u8, scalar: i64) -> Vec<u8> {
        self.step(10, a, 0, 0, &[&[operator, 0, 0, 0], scalar.to_le_bytes().as_slice()].concat())
    }

    fn single(&self, a: u8, operator: u8) -> Vec<u8> {
        self.step(12, a, 0, 0, &[operator])
    }

    fn read(&self, array: RawArray) -> Answer {
        self.call(Function::Read, vec![self.bundle(&[array])], &[], &[])
    }

    fn run(&self, arrays: &[RawArray], recipe: &[Vec<u8>], work: usize) -> Answer {
        self.call(Function::Run, vec![self.bundle(arrays), recipe.concat()], &[], &[work])
    }

    /// A page of 200 bytes.
    fn page(&self, arrays: &[RawArray], recipe: &[Vec<u8>], work: usize, start: u32) -> Answer {
        self.call(Function::Page, vec![self.bundle(arrays), recipe.concat()], &[start], &[work, 200])
    }

    fn refer(&self, array: &RawArray, coordinate: &[i32]) -> Answer {
        self.call(Function::Refer, vec![self.bundle(std::slice::from_ref(array)), numbers(coordinate)], &[1], &[])
    }

    fn json(&self, arrays: &[RawArray], array: u32, room: usize) -> Answer {
        self.call(Function::WriteJson, vec![self.bundle(arrays)], &[array], &[room])
    }

    /// The array's head, with zeros past its last axis.
    pub fn head(&self, array: &RawArray) -> Vec<u8> {
        let mut head = [&[array.of, array.count], array.axis_bytes(self.sizes).as_slice()].concat();
        head.resize(self.sizes.head(), 0);
        head
    }

    /// Packs the array, told that version, with that head.
    fn pack(&self, version: u32, head: Vec<u8>, array: &RawArray, room: usize) -> Answer {
        self.call(Function::Pack, vec![head, array.cell_bytes()], &[version], &[room])
    }

    /// The stretch from that ordinality of the array glued to itself on axis 1, told that version, with these heads.
    fn stretch(&self, version: u32, heads: [Vec<u8>; 2], array: &RawArray, ordinality: u32) -> Answer {
        let [left, right] = heads;
        let shared = vec![left, array.cell_bytes(), right, array.cell_bytes()];
        self.call(Function::Stretch, shared, &[version, 1, ordinality], &[])
    }
}

const EMPTY: i64 = i64::MIN + 7;

/// An INT array with declared maximum `*`; EMPTY stands for an empty cell.
pub fn ints(axes: &[Limits], values: &[i64]) -> RawArray {
    let axis = |&(name, lower, upper): &Limits| RawAxis { name: padded(name), lower, upper, lowest: -1_000_000, highest: 1_000_000 };
    let cell = |&value: &i64| if value == EMPTY { [0; 9] } else { filled(value as u64) };
    let axes: Vec<RawAxis> = axes.iter().map(axis).collect();
    RawArray { of: 1, count: axes.len() as u8, axes, cells: values.iter().map(cell).collect() }
}

pub fn counting(count: i64) -> Vec<i64> {
    (1..=count).collect()
}

fn said_number(answer: &Answer, at: usize) -> u32 {
    let said = answer.lent.last().expect("said");
    u32::from_le_bytes(said[4 * at..4 * at + 4].try_into().expect("four bytes"))
}

/// Number, place and ordinality of a refusal.
pub fn refused(answer: &Answer) -> [u32; 3] {
    [answer.number, said_number(answer, 0), said_number(answer, 1)]
}

fn said_cell(answer: &Answer) -> &[u8] {
    assert_eq!(answer.number, 0);
    &answer.lent.last().expect("said")[..9]
}

fn cells_of(values: &[i64]) -> Vec<u8> {
    ints(&[], values).cell_bytes()
}

fn starts_and_ends() -> Vec<RawArray> {
    let axes = [("who", 1, 2), ("turn", 1, 3)];
    vec![ints(&axes, &[1320, 2760, 4200, 360, 1200, 3240]), ints(&axes, &[1800, 3240, 4680, 840, 1680, 3720])]
}

pub fn eleven_hours(ask: Ask) {
    let arrays = starts_and_ends();
    let trim_starts = ask.step(1, 1, 0, 0, &numbers(&[1, 2, 2, 3]));
    let shift = ask.step(4, 17, 0, 0, &numbers(&[0, -1]));
    let trim_ends = ask.step(1, 2, 0, 0, &numbers(&[1, 2, 1, 2]));
    let whole = [trim_starts.clone(), shift, trim_ends.clone(), ask.step(9, 18, 19, 0, &[2]), ask.right_scalar(20, 8, 660)];
    let answer = ask.page(&arrays, &whole, 180, 1);
    assert_eq!((answer.number, said_number(&answer, 0), said_number(&answer, 1)), (0, 1, 5), "found 1");
    assert_eq!(answer.lent[1][..12], numbers(&[3, 2, 1]), "3 2 1");
    assert!(answer.lent[1][12..].iter().all(|&byte| byte == 0x77), "bytes after the rows stay");
    assert_eq!(answer.lent[0][108..144], cells_of(&[960, 960, 360, 1560]), "the rests");
    assert_eq!(refused(&ask.page(&arrays, &whole, 179, 1)), [10, 0, 0]);
    let without = [trim_starts, trim_ends, ask.step(9, 17, 18, 0, &[2]), ask.right_scalar(19, 8, 660)];
    assert_eq!(refused(&ask.page(&arrays, &without, 180, 1)), [8, 3, 22], "without the shift");
}

pub fn places(ask: Ask) {
    let cube = ints(&[("x", 0, 1), ("y", 1, 2), ("z", 2, 3)], &counting(8));
    for (coordinate, number) in [([0, 1, 2], 1), ([1, 1, 2], 5), ([1, 2, 3], 8)] {
        assert_eq!(said_cell(&ask.refer(&cube, &coordinate)), filled(number), "{coordinate:?}");
        let answer = ask.page(std::slice::from_ref(&cube), &[ask.right_scalar(1, 6, number as i64)], 72, 1);
        let row = [&[number as i32], coordinate.as_slice()].concat();
        assert_eq!(answer.lent[1][..16], numbers(&row), "ordinality of {coordinate:?}");
    }
    let mut square = ints(&[("i", -1, 1), ("j", -1, 1)], &counting(9));
    square.axes.iter_mut().for_each(|axis| (axis.lowest, axis.highest) = (-100, 100));
    assert_eq!(said_cell(&ask.refer(&square, &[0, 0])), filled(5));
    assert_eq!(said_cell(&ask.refer(&square, &[50, 0])), [0; 9]);
    assert_eq!(refused(&ask.refer(&square, &[-1, 1000])), [6, 1, 0]);
    let trim = |lower: i32| [ask.step(1, 1, 0, 0, &numbers(&[lower, 1, -1, 1]))];
    let done = ask.run(std::slice::from_ref(&square), &trim(-1), 81);
    assert_eq!((done.number, said_number(&done, 0)), (0, 9));
    assert_eq!(refused(&ask.run(&[square], &trim(-2), 81)), [6, 1, 0]);
}

pub fn gluing(ask: Ask) {
    let square = ints(&[("i", -1, 1), ("j", -1, 1)], &counting(9));
    let line = ints(&[("i", 0, 0), ("j", -1, 1)], &[31, 32, 33]);
    let both = [square.clone(), line.clone()];
    let answer = ask.run(&both, &[ask.step(8, 1, 2, 1, &[])], 108);
    assert_eq!((answer.number, said_number(&answer, 0)), (0, 12));
    assert_eq!(answer.lent[0][81..90], filled(31), "ordinality 10 is the second's first cell");
    let listed = ask.page(&both, &[ask.step(8, 1, 2, 1, &[]), ask.right_scalar(17, 6, 31)], 216, 1);
    assert_eq!(listed.lent[1][..12], numbers(&[10, 2, -1]), "i(-1:2)");
    let shared = vec![ask.head(&square), square.cell_bytes(), ask.head(&line), line.cell_bytes()];
    let answer = ask.call(Function::Stretch, shared, &[ask.sizes.version, 1, 10], &[]);
    let part = [answer.number, said_number(&answer, 0), said_number(&answer, 1), said_number(&answer, 2)];
    assert_eq!(part, [0, 2, 0, 27], "the right buffer, whole");
}

pub fn values(ask: Ask) {
    let one = |value: i64| [ints(&[("x", 1, 1)], &[value])];
    let value = |left: i64, operator: u8, right: i64| ask.run(&one(left), &[ask.right_scalar(1, operator, right)], 9);
    assert_eq!(value(7, 4, -2).lent[0], filled(-3i64 as u64));
    assert_eq!(value(-7, 5, 2).lent[0], filled(-1i64 as u64));
    assert_eq!(value(i64::MIN, 5, -1).lent[0], filled(0));
    assert_eq!(value(EMPTY, 4, 0).lent[0], [0; 9]);
    assert_eq!(value(EMPTY, 4, 0).number, 0);
    let refusal = value(i64::MIN, 4, -1);
    assert_eq!((refused(&refusal), refusal.lent[0].as_slice()), ([12, 1, 1], [0; 9].as_slice()));
    let sum = |values: &[i64]| {
        let line = ints(&[("x", 1, values.len() as i32)], values);
        ask.call(Function::Total, vec![ask.bundle(&[line])], &[1, 5], &[])
    };
    assert_eq!(said_cell(&sum(&[i64::MAX, 1, -1])), filled(i64::MAX as u64));
    assert_eq!(refused(&sum(&[i64::MAX, 1])), [12, 1, 0]);
}

pub fn ends(ask: Ask) {
    let edge = ints(&[("x", -1_000_000, -999_999)], &[1, 2]);
    assert_eq!(refused(&ask.run(&[edge], &[ask.step(4, 1, 0, 0, &numbers(&[-1]))], 18)), [9, 1, 0]);
    let four = [ints(&[("x", 1, 4)], &counting(4))];
    let page = |start: u32| ask.page(&four, &[ask.right_scalar(1, 10, 0)], 36, start);
    let answer = page(5);
    assert_eq!((answer.number, said_number(&answer, 0), said_number(&answer, 1)), (0, 0, 5), "start 5 of 4 cells");
    assert_eq!(refused(&page(6)), [11, 0, 0]);
    let answer = ask.read(ints(&[("x", 1, 64), ("y", 1, 64)], &counting(4_096)));
    assert_eq!((answer.number, said_number(&answer, 0)), (0, 1), "64 by 64");
    assert_eq!(refused(&ask.read(ints(&[("x", 1, 4_097)], &counting(4_097)))), [2, 1, 0]);
}

/// Request [1]: two people's rests after three turns, (1, 3) blank. Not below 660 are (1, 1), (2, 1) and (2, 3).
pub fn blank_turns(ask: Ask) {
    let rests = [ints(&[("who", 1, 2), ("turn", 1, 3)], &[960, 360, EMPTY, 660, 659, 1560])];
    let of_below_660 = |operators: &[u8]| {
        let singles = (17..).zip(operators).map(|(a, &operator)| ask.single(a, operator));
        let recipe: Vec<Vec<u8>> = std::iter::once(ask.right_scalar(1, 8, 660)).chain(singles).collect();
        ask.page(&rests, &recipe, 54 * recipe.len(), 1)
    };
    let lists = |operators: &[u8], rows: &[[i32; 3]]| {
        let answer = of_below_660(operators);
        assert_eq!((answer.number, said_number(&answer, 0), said_number(&answer, 1)), (0, rows.len() as u32, 7), "{operators:?}");
        assert_eq!(answer.lent[1][..12 * rows.len()], numbers(&rows.concat()), "{operators:?}");
        assert!(answer.lent[1][12 * rows.len()..].iter().all(|&byte| byte == 0x77), "bytes after the rows stay");
    };
    lists(&[], &[[2, 1, 2], [5, 2, 2]]);
    lists(&[3], &[[1, 1, 1], [4, 2, 1], [6, 2, 3]]); // NOT: rest enough, and not the blank one
    lists(&[5, 3], &[[1, 1, 1], [3, 1, 3], [4, 2, 1], [6, 2, 3]]); // is-true before NOT: the blank one too
    lists(&[6], &[[1, 1, 1], [4, 2, 1], [6, 2, 3]]); // is-false
    lists(&[7], &[[3, 1, 3]]); // is-unknown
    let cells = of_below_660(&[5, 3]).lent.swap_remove(0);
    let (truth, falsity) = (filled(1), filled(0));
    assert_eq!(cells[..54], [falsity, truth, [0; 9], falsity, truth, falsity].concat(), "below 660, the blank one unknown");
    assert_eq!(cells[54..108], [falsity, truth, falsity, falsity, truth, falsity].concat(), "is-true is never empty");
    for operator in [5, 6, 7] {
        assert_eq!(refused(&ask.run(&rests, &[ask.single(1, operator)], 54)), [7, 1, 0], "{operator} on INT");
    }
    assert_eq!(refused(&ask.run(&rests, &[ask.right_scalar(1, 8, 660), ask.single(1, 5)], 108)), [7, 2, 0]);
    assert_eq!(refused(&ask.run(&rests, &[ask.single(1, 8)], 54)), [4, 1, 0], "8 on INT");
    assert_eq!(refused(&of_below_660(&[8])), [4, 2, 0], "8 on BOOLEAN");
}

/// Request [1]: each comparison with an empty cell among its two is an empty cell, in operations 9, 10 and 11; empty = empty too.
pub fn comparisons_with_empty(ask: Ask) {
    let line = |of: u8, values: &[i64]| RawArray { of, ..ints(&[("x", 1, 3)], values) };
    let comparisons = (6..=11).map(|operator| (1, operator)).chain((6..=11).map(|operator| (2, operator))).chain([(3, 6), (3, 7)]);
    for (of, operator) in comparisons {
        let arrays = [line(of, &[1, EMPTY, EMPTY]), line(of, &[EMPTY, 1, EMPTY])];
        let pair = ask.run(&arrays, &[ask.step(9, 1, 2, 0, &[operator])], 27);
        assert_eq!((pair.number, pair.lent[0].as_slice()), (0, [0; 27].as_slice()), "operation 9, operator {operator}, type {of}");
        let right = ask.right_scalar(1, operator, 1);
        let left = [&[11], &right[1..]].concat();
        let equal = filled(u64::from([6, 9, 11].contains(&operator)));
        for scalar in [right, left] {
            let answer = ask.run(&arrays, std::slice::from_ref(&scalar), 27);
            let cells = [equal, [0; 9], [0; 9]].concat();
            assert_eq!((answer.number, &answer.lent[0]), (0, &cells), "operation {}, operator {operator}, type {of}", scalar[0]);
        }
    }
}

/// Refused so, with a buffer of that length, which is left as it was.
fn refuses_json(ask: Ask, arrays: &[RawArray], array: u32, room: usize, refusal: [u32; 3]) {
    let answer = ask.json(arrays, array, room);
    assert_eq!((refused(&answer), &answer.lent[0]), (refusal, &vec![0x77; room]), "array {array}, {room} bytes");
}

/// The array is that text: done with a buffer of its length and with longer ones, which stay after the text; refused with 14 in one
/// that is a byte shorter.
fn is_text(ask: Ask, array: &RawArray, text: &str) {
    let arrays = std::slice::from_ref(array);
    for more in [0, 1, 300] {
        let answer = ask.json(arrays, 1, text.len() + more);
        assert_eq!((answer.number, said_number(&answer, 0)), (0, text.len() as u32), "{text}");
        assert_eq!(String::from_utf8_lossy(&answer.lent[0][..text.len()]), text);
        assert_eq!(answer.lent[0][text.len()..], vec![0x77; more], "bytes after {text} stay");
        assert_eq!(answer.lent[1][4..], [0x77; 12], "bytes after the length stay");
    }
    refuses_json(ask, arrays, 1, text.len() - 1, [14, 0, 0]);
}

/// Request [2]: its own example, the report's table 5 without the spaces, and what its words tell of the values.
pub fn json_texts(ask: Ask) {
    is_text(ask, &ints(&[("x", 1, 2), ("y", 1, 2)], &[1, 2, 5, 6]), r#"{"data":[[1,2],[5,6]]}"#);
    is_text(ask, &ints(&[("x", 1, 6)], &counting(6)), r#"{"data":[1,2,3,4,5,6]}"#);
    let kernel = ints(&[("i", -1, 1), ("j", -1, 1)], &[-1, -1, -1, -1, 8, -1, -1, -1, -1]);
    is_text(ask, &kernel, r#"{"data":[[-1,-1,-1],[-1,8,-1],[-1,-1,-1]]}"#);
    is_text(ask, &ints(&[("t", 0, 0), ("x", 0, 2), ("y", 0, 1)], &counting(6)), r#"{"data":[[[1,2],[3,4],[5,6]]]}"#);
    let four = [("a", 0, 1), ("b", 5, 5), ("c", -1, 0), ("d", 1, 3)];
    is_text(ask, &ints(&four, &counting(12)), r#"{"data":[[[[1,2,3],[4,5,6]]],[[[7,8,9],[10,11,12]]]]}"#);
    let (least, most) = (r#"{"data":[-9223372036854775808]}"#, r#"{"data":[9223372036854775807]}"#);
    is_text(ask, &ints(&[("x", 1, 1)], &[i64::MIN]), least);
    is_text(ask, &ints(&[("x", 1, 1)], &[i64::MAX]), most);
    is_text(ask, &ints(&[("x", 1, 7)], &[0, -1, 9, 10, -99, -100, 101]), r#"{"data":[0,-1,9,10,-99,-100,101]}"#);
    is_text(ask, &ints(&[("x", 1, 2), ("y", 1, 3)], &[EMPTY; 6]), r#"{"data":[[null,null,null],[null,null,null]]}"#);
    is_text(ask, &ints(&[("x", 1, 3)], &[-5, EMPTY, 5]), r#"{"data":[-5,null,5]}"#);
    let truths = RawArray { of: 3, ..ints(&[("x", 1, 1), ("y", 1, 3)], &[1, 0, EMPTY]) };
    is_text(ask, &truths, r#"{"data":[[true,false,null]]}"#);
}

/// Request [6]: the longest text of a version, each cell a bracket deeper for each axis but the first.
pub fn longest_text(ask: Ask) {
    let deeper = ask.sizes.most_axes - 1;
    let axes = [("a", 1, 4_096), ("b", 1, 1), ("c", 1, 1), ("d", 1, 1), ("e", 1, 1), ("f", 1, 1)];
    let longest = ints(&axes[..=deeper], &[i64::MIN; 4_096]);
    let cell = format!("{}-9223372036854775808{}", "[".repeat(deeper), "]".repeat(deeper));
    let text = format!(r#"{{"data":[{}]}}"#, vec![cell; 4_096].join(","));
    assert_eq!(text.len(), if ask.sizes == ONE { 110_602 } else { rovgrint::raw::JSON }, "the longest text");
    is_text(ask, &longest, &text);
}

/// Request [2]: 1 to 3 for any array of the bundle, then 4 and 7 at the array asked for, 7 before 14.
pub fn json_refusals(ask: Ask) {
    let line = ints(&[("x", 1, 2)], &[1, 2]);
    let float = RawArray { of: 2, ..ints(&[("x", 1, 2)], &[EMPTY; 2]) };
    let arrays = [line.clone(), float.clone()];
    for room in [0, 14, 200] {
        refuses_json(ask, &arrays, 2, room, [7, 2, 0]);
        for none in [0, 3, 257, u32::MAX] {
            refuses_json(ask, &arrays, none, room, [4, none, 0]);
        }
        let no_cell = RawArray { cells: vec![[0; 9], [2; 9]], ..float.clone() };
        refuses_json(ask, &[line.clone(), no_cell], 1, room, [3, 2, 2]);
        let crossed = ints(&[("x", 2, 1)], &[]);
        refuses_json(ask, &[float.clone(), crossed], 1, room, [2, 2, 0]);
        let no_type = RawArray { of: 4, ..line.clone() };
        refuses_json(ask, &[line.clone(), no_type], 3, room, [1, 2, 0]);
        refuses_json(ask, &[], 1, room, [1, 0, 0]);
    }
}

/// So many axes, the last one 1:2, with names that fill all their bytes and differ in the last letter only.
fn deep(ask: Ask, count: usize) -> RawArray {
    let name = |index: usize| format!("{}{}", &"axis_of_a_depot"[..ask.sizes.name - 1], (b'a' + index as u8) as char);
    let names: Vec<String> = (0..count).map(name).collect();
    let limits: Vec<Limits> = names.iter().map(|name| (name.as_str(), 1, 1)).collect();
    let mut array = ints(&limits, &[7, 8]);
    array.axes[count - 1].upper = 2;
    array
}

/// Request [6]: versions other than 1 and 2 are (1, 0, 0), in a bundle's bytes and where they are told, whatever else is wrong.
pub fn other_versions(ask: Ask) {
    let array = deep(ask, 1);
    let head = ask.head(&array);
    let length = 6 + 2 + ask.sizes.axis + 18;
    let mut bundle = ask.bundle(std::slice::from_ref(&array));
    assert_eq!(ask.call(Function::Read, vec![bundle.clone()], &[], &[]).number, 0);
    for version in [0u16, 3, 4, 255, 256, 257, 258, 512, 513, 65_535] {
        bundle[3..5].copy_from_slice(&version.to_le_bytes());
        assert_eq!(refused(&ask.call(Function::Read, vec![bundle.clone()], &[], &[])), [1, 0, 0], "version {version}");
    }
    let right = ask.sizes.version;
    let packed = ask.pack(right, head.clone(), &array, length);
    assert_eq!((packed.number, said_number(&packed, 0)), (0, length as u32));
    assert_eq!(packed.lent[0], ask.bundle(std::slice::from_ref(&array)));
    let glued = ask.stretch(right, [head.clone(), head.clone()], &array, 3);
    assert_eq!((glued.number, said_number(&glued, 0)), (0, 2));
    for version in [0, 3, 256 + right, 65_536 + right, 65_537, 65_538, (1 << 31) + right, u32::MAX] {
        for bad in [head.clone(), vec![9; head.len()], vec![]] {
            let packed = ask.pack(version, bad.clone(), &array, length);
            assert_eq!((refused(&packed), &packed.lent[0]), ([1, 0, 0], &vec![0x77; length]), "version {version}");
            assert_eq!(refused(&ask.stretch(version, [bad, head.clone()], &array, 0)), [1, 0, 0], "version {version}");
        }
    }
}

/// Request [6]: heads of another length than the told version's: at place 0 in a pack, at the side's in a stretch.
pub fn other_heads(ask: Ask) {
    let array = deep(ask, 1);
    let head = ask.head(&array);
    let version = ask.sizes.version;
    for length in [0, 97, 98, 99, 193, 194, 195, 196, 388, 776, 5 * head.len()] {
        let mut other = head.repeat(8);
        other.truncate(length);
        if ![1, 2, 4].contains(&(length / head.len())) || !length.is_multiple_of(head.len()) {
            assert_eq!(refused(&ask.pack(version, other.clone(), &array, 300)), [1, 0, 0], "{length} bytes");
        }
        if length != head.len() {
            assert_eq!(refused(&ask.stretch(version, [other.clone(), other.clone()], &array, 1)), [1, 1, 0], "{length} bytes");
            assert_eq!(refused(&ask.stretch(version, [head.clone(), other], &array, 1)), [1, 2, 0], "{length} bytes");
        }
    }
}

/// Request [6]: up to four axes in version 1 and up to six in version 2, with names that fill all their bytes; one more is refused with
/// 1 at the array, in a bundle, a pack and a stretch.
pub fn most_axes(ask: Ask) {
    for count in 1..=7 {
        let array = deep(ask, count);
        let arrays = [ints(&[("x", 1, 1)], &[1]), array.clone()];
        let fits = count <= ask.sizes.most_axes;
        let read = ask.call(Function::Read, vec![ask.bundle(&arrays)], &[], &[]);
        let head = ask.head(&array);
        let packed = ask.pack(ask.sizes.version, head.clone(), &array, 300);
        let glued = ask.stretch(ask.sizes.version, [head.clone(), head], &array, 1);
        if fits {
            assert_eq!((read.number, packed.number, glued.number), (0, 0, 0), "{count} axes");
            let told = ask.call(Function::Array, vec![ask.bundle(&arrays)], &[2], &[]);
            let first = 6 + 2 + ask.sizes.axis + 9 + 2;
            let figures = [0, 1, 2, 3].map(|at| said_number(&told, at) as usize);
            assert_eq!(figures, [1, count, 2, first + count * ask.sizes.axis], "{count} axes end where the cells begin");
            rows_and_head(ask, &array);
        } else {
            assert_eq!(refused(&read), [1, 2, 0], "{count} axes");
            assert_eq!(refused(&packed), [1, 1, 0], "{count} axes");
            assert_eq!(refused(&glued), [1, 1, 0], "{count} axes");
        }
    }
}

/// A reference, the row of the second cell of two, and the head of the result: one position and one slot for each axis.
fn rows_and_head(ask: Ask, array: &RawArray) {
    let arrays = std::slice::from_ref(array);
    let count = array.axes.len();
    let mut coordinate = vec![1; count];
    coordinate[count - 1] = 2;
    assert_eq!(said_cell(&ask.refer(array, &coordinate)), filled(8));
    for positions in (0..=7).filter(|positions| *positions != count) {
        assert_eq!(refused(&ask.refer(array, &vec![1; positions])), [5, 1, 0], "{positions} positions for {count} axes");
    }
    let above = ask.right_scalar(1, 10, 7);
    let page = ask.page(arrays, std::slice::from_ref(&above), 18, 1);
    assert_eq!((page.number, said_number(&page, 0), said_number(&page, 1)), (0, 1, 3));
    assert_eq!(page.lent[1][..4 + 4 * count], numbers(&[&[2], coordinate.as_slice()].concat()));
    assert!(page.lent[1][4 + 4 * count..].iter().all(|&byte| byte == 0x77), "bytes after the row stay");
    let mut result = RawArray { of: 3, ..array.clone() };
    result.axes.iter_mut().for_each(|axis| (axis.lowest, axis.highest) = (-1_000_000, 1_000_000));
    let length = ask.sizes.head();
    let head = |room: usize| ask.call(Function::Extent, vec![ask.bundle(arrays), above.clone()], &[], &[room]);
    let answer = head(length + 3);
    assert_eq!((answer.number, said_number(&answer, 0)), (0, length as u32));
    assert_eq!(answer.lent[0], [ask.head(&result), vec![0x77; 3]].concat());
    assert_eq!(refused(&head(length - 1)), [14, 0, 0]);
}

/// Request [6]: a recipe goes by the bundle's version: 36 bytes a step or 100, 1 to 16 of them; the other's steps are (4, 0, 0).
pub fn recipe_lengths(ask: Ask) {
    let array = deep(ask, 1);
    let arrays = std::slice::from_ref(&array);
    let step = ask.single(1, 1);
    let of_bytes = |length: usize| {
        let mut recipe = step.repeat(17);
        recipe.resize(length, 0);
        ask.run(arrays, &[recipe], 18 * 16)
    };
    for steps in 1..=16 {
        let answer = of_bytes(steps * ask.sizes.step);
        assert_eq!((answer.number, said_number(&answer, 0)), (0, 2 * steps as u32), "{steps} steps");
        let other = if ask.sizes == ONE { TWO } else { ONE };
        assert_eq!(refused(&of_bytes(steps * other.step)), [4, 0, 0], "{steps} steps of the other version");
    }
    for length in [0, 1, 35, 37, 99, 101, 17 * ask.sizes.step, 16 * ask.sizes.step + 1] {
        assert_eq!(refused(&of_bytes(length)), [4, 0, 0], "{length} bytes");
    }
}

/// Request [6]: a detail's bytes that a step doesn't use are zero up to its last; rename has a slot of a name's length for each axis.
pub fn whole_detail(ask: Ask) {
    let sizes = ask.sizes;
    let (count, name) = (sizes.most_axes - 1, sizes.name);
    let array = deep(ask, count);
    let arrays = [array.clone(), RawArray { cells: vec![filled(9)], ..slice_of(&array) }];
    let names: Vec<u8> = (0..count).flat_map(|index| padded(&format!("n{index}"))[..name].to_vec()).collect();
    let full: Vec<u8> = array.axes.iter().rev().flat_map(|axis| axis.name[..name].to_vec()).collect();
    let pairs: Vec<i32> = array.axes.iter().flat_map(|axis| [axis.lower, axis.upper]).collect();
    let scalar = [&[1, 0, 0, 0], 5i64.to_le_bytes().as_slice()].concat();
    let uses: [(Vec<u8>, usize); 13] = [
        (ask.step(1, 1, 0, 0, &numbers(&pairs)), 8 * count),
        (ask.step(2, 1, 0, 1, &numbers(&[1])), 4),
        (ask.step(3, 1, 0, 0, &numbers(&pairs)), 8 * count),
        (ask.step(4, 1, 0, 0, &numbers(&vec![1; count])), 4 * count),
        (ask.step(5, 1, 0, 0, &names), name * count),
        (ask.step(5, 1, 0, 0, &full), name * count),
        (ask.step(6, 1, 1, 0, &[]), 0),
        (ask.step(7, 1, 2, count as u8, &numbers(&[1])), 4),
        (ask.step(8, 1, 1, 1, &[]), 0),
        (ask.step(9, 1, 1, 0, &[1]), 1),
        (ask.step(10, 1, 0, 0, &scalar), 12),
        (ask.step(11, 1, 0, 0, &scalar), 12),
        (ask.step(12, 1, 0, 0, &[1]), 1),
    ];
    for (step, used) in uses {
        assert_eq!(ask.run(&arrays, std::slice::from_ref(&step), 36).number, 0, "{step:?}");
        for byte in used..sizes.detail {
            let mut wrong = step.clone();
            wrong[4 + byte] = 1;
            assert_eq!(refused(&ask.run(&arrays, &[wrong], 36)), [4, 1, 0], "operation {}, detail byte {byte}", step[0]);
        }
    }
    for byte in 0..name {
        let mut wrong = ask.step(5, 1, 0, 0, &full);
        wrong[4 + name * (count - 1) + byte] = b'A';
        assert_eq!(refused(&ask.run(&arrays, &[wrong], 36)), [9, 1, 0], "a bad letter {byte} of the last name");
    }
    let equal: Vec<u8> = full[..name].repeat(count);
    assert_eq!(refused(&ask.run(&arrays, &[ask.step(5, 1, 0, 0, &equal)], 36)), [9, 1, 0], "equal names");
}

/// The array without its last axis.
fn slice_of(array: &RawArray) -> RawArray {
    let axes = array.axes[..array.axes.len() - 1].to_vec();
    RawArray { count: axes.len() as u8, axes, ..array.clone() }
}

/// Request [6]: names are compared in all their bytes. Two that differ in the last letter only are two names in one array, and don't
/// agree in two.
pub fn whole_names(ask: Ask) {
    let array = deep(ask, 2);
    let mut other = array.clone();
    other.axes[0].name[ask.sizes.name - 1] = b'z';
    let arrays = [array.clone(), other.clone()];
    for step in [ask.step(6, 1, 2, 0, &[]), ask.step(8, 1, 2, 2, &[]), ask.step(9, 1, 2, 0, &[1])] {
        assert_eq!(refused(&ask.run(&arrays, std::slice::from_ref(&step), 36)), [8, 1, 11], "operation {}", step[0]);
        let same = [&step[..2], &[1], &step[3..]].concat();
        assert_eq!(ask.run(&arrays, &[same], 36).number, 0, "operation {}", step[0]);
    }
    let heads = |right: &RawArray| [ask.head(&array), ask.head(right)];
    assert_eq!(refused(&ask.stretch(ask.sizes.version, heads(&other), &array, 1)), [8, 0, 11]);
    assert_eq!(ask.stretch(ask.sizes.version, heads(&array), &array, 1).number, 0);
    let mut equal = array.clone();
    equal.axes[1].name = equal.axes[0].name;
    assert_eq!(refused(&ask.read(equal)), [2, 1, 0]);
    for byte in 0..ask.sizes.name {
        let mut bad = array.clone();
        bad.axes[1].name[byte] = b'A';
        assert_eq!(refused(&ask.read(bad)), [2, 1, 0], "letter {byte} is no letter a-z");
        let mut gap = array.clone();
        gap.axes[1].name[byte] = 0;
        let answer = ask.read(gap);
        let last = byte + 1 == ask.sizes.name;
        assert_eq!(answer.number, if last { 0 } else { 2 }, "a zero at {byte}, and letters after it");
    }
}

/// All of them, in one version.
pub fn all(ask: Ask) {
    let printed: [fn(Ask); 16] = [
        eleven_hours,
        places,
        gluing,
        values,
        ends,
        blank_turns,
        comparisons_with_empty,
        json_texts,
        longest_text,
        json_refusals,
        other_versions,
        other_heads,
        most_axes,
        recipe_lengths,
        whole_detail,
        whole_names,
    ];
    printed.iter().for_each(|put| put(ask));
}
