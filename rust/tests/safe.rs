//! The safe layer, tried: the requirements' cases on both sides of each line, iterators against the calls that they stand on, what
//! a Rust value can say and a bundle can't, which the engine has to refuse, and both versions of the bundle.

use rovgrint::{
    pack, step, stretch, Axis, Bundle, Cell, Counts, Head, Kind, Operator, Page, Recipe, Refusal, Row, Single, Total, Version, CELL,
    MOST_WORK,
};

const ONE: Version = Version::One;
const TWO: Version = Version::Two;

fn refused(number: u32, place: u32, ordinality: u32) -> Refusal {
    Refusal { number, place, ordinality, counts: Counts::Arrays } // equal by its figures
}

fn ints(numbers: impl IntoIterator<Item = i64>) -> Vec<Cell> {
    numbers.into_iter().map(Cell::Int).collect()
}

fn int_head(axes: &[(&str, i32, i32)]) -> Head {
    Head { kind: Kind::Int, axes: axes.iter().map(|&(name, lower, upper)| Axis::new(name, lower, upper)).collect() }
}

/// One array on one axis `i` from 1 on.
fn line(kind: Kind, cells: &[Cell]) -> Vec<u8> {
    packed(&[Head { kind, axes: vec![Axis::new("i", 1, cells.len() as i32)] }], cells)
}

/// The packed bundle of version 1, where packing must go well.
fn packed(heads: &[Head], cells: &[Cell]) -> Vec<u8> {
    packed_in(ONE, heads, cells)
}

/// The packed bundle of that version, where packing must go well.
fn packed_in(version: Version, heads: &[Head], cells: &[Cell]) -> Vec<u8> {
    let mut out = vec![0; 1 << 16];
    let length = pack(version, heads, cells, &mut out).expect("packs");
    out.truncate(length);
    out
}

/// The last result's cells, n of them, after a run.
fn last_cells(bundle: &[u8], recipe: &Recipe, kind: Kind, n: usize) -> Result<Vec<Cell>, Refusal> {
    let mut work = vec![0; MOST_WORK];
    let all = Bundle::read(bundle)?.run(recipe.bytes(), &mut work)? as usize;
    let bytes = &work[(all - n) * CELL..all * CELL];
    Ok(bytes.chunks(CELL).map(|nine| Cell::from_bytes(kind, nine).expect("a cell")).collect())
}

/// The requirements' roster of two people and three turns.
fn roster() -> Vec<u8> {
    let turns = int_head(&[("who", 1, 2), ("turn", 1, 3)]);
    let minutes = ints([1320, 2760, 4200, 360, 1200, 3240, 1800, 3240, 4680, 840, 1680, 3720]);
    packed(&[turns.clone(), turns], &minutes)
}

/// The recipe that finds the rests below eleven hours: five steps of 4 cells.
fn rests() -> Recipe {
    let moved = Recipe::new(ONE).trim(1, &[(1, 2), (2, 3)]).shift(step(1), &[0, -1]).trim(2, &[(1, 2), (1, 2)]);
    moved.pair(step(2), step(3), Operator::Minus).right_scalar(step(4), Operator::Less, Cell::Int(660))
}

mod both_sides_of_each_line {
    use super::*;

    #[test]
    fn references() {
        let bytes = packed(&[int_head(&[("x", 0, 1), ("y", 1, 2), ("z", 2, 3)])], &ints(1..=8));
        let bundle = Bundle::read(&bytes).unwrap();
        for (coordinate, number) in [([0, 1, 2], 1), ([1, 1, 2], 5), ([1, 2, 3], 8)] {
            assert_eq!(bundle.refer(1, &coordinate), Ok(Cell::Int(number)));
        }
    }

    #[test]
    fn maximum() {
        let mut head = int_head(&[("i", -1, 1), ("j", -1, 1)]);
        head.axes = head.axes.into_iter().map(|axis| axis.within(-100, 100)).collect();
        let bytes = packed(&[head], &ints(1..=9));
        let bundle = Bundle::read(&bytes).unwrap();
        assert_eq!(bundle.refer(1, &[0, 0]), Ok(Cell::Int(5)));
        assert_eq!(bundle.refer(1, &[50, 0]), Ok(Cell::Empty));
        assert_eq!(bundle.refer(1, &[-1, 1000]), Err(refused(6, 1, 0)));
    }

    #[test]
    fn trim() {
        let bytes = packed(&[int_head(&[("i", -1, 1), ("j", -1, 1)])], &ints(1..=9));
        let inside = Recipe::new(ONE).trim(1, &[(-1, 1), (-1, 1)]);
        assert_eq!(last_cells(&bytes, &inside, Kind::Int, 9), Ok(ints(1..=9)));
        let outside = Recipe::new(ONE).trim(1, &[(-2, 1), (-1, 1)]);
        assert_eq!(last_cells(&bytes, &outside, Kind::Int, 9), Err(refused(6, 1, 0)));
    }

    #[test]
    fn glue() {
        let heads = [int_head(&[("i", -1, 1), ("j", -1, 1)]), int_head(&[("i", 0, 0), ("j", -1, 1)])];
        let bytes = packed(&heads, &ints(1..=12));
        let glued = Recipe::new(ONE).glue(1, 2, 1);
        assert_eq!(last_cells(&bytes, &glued, Kind::Int, 12), Ok(ints(1..=12)));
        let tenth = glued.right_scalar(step(1), Operator::Equal, Cell::Int(10));
        let (mut work, mut page) = (vec![0; MOST_WORK], [0; 12]);
        let bundle = Bundle::read(&bytes).unwrap();
        let rows: Vec<Row> = bundle.rows(tenth.bytes(), &mut work, &mut page).unwrap().collect();
        assert_eq!(rows, [Row { ordinality: 10, coordinate: vec![2, -1] }]);
    }

    #[test]
    fn division() {
        let of = |cell: Cell, operator, scalar| {
            let recipe = Recipe::new(ONE).right_scalar(1, operator, Cell::Int(scalar));
            last_cells(&line(Kind::Int, &[cell]), &recipe, Kind::Int, 1).map(|cells| cells[0])
        };
        let smallest = Cell::Int(i64::MIN);
        assert_eq!(of(Cell::Int(7), Operator::Divide, -2), Ok(Cell::Int(-3)));
        assert_eq!(of(Cell::Int(-7), Operator::Mod, 2), Ok(Cell::Int(-1)));
        assert_eq!(of(smallest, Operator::Mod, -1), Ok(Cell::Int(0)));
        assert_eq!(of(smallest, Operator::Divide, -1), Err(refused(12, 1, 1)));
        assert_eq!(of(Cell::Empty, Operator::Divide, 0), Ok(Cell::Empty));
        assert_eq!(of(Cell::Int(7), Operator::Divide, 0), Err(refused(13, 1, 1)));
    }

    #[test]
    fn exact_sum() {
        let sum = |numbers: &[i64]| Bundle::read(&line(Kind::Int, &ints(numbers.iter().copied())))?.total(1, Total::Sum);
        assert_eq!(sum(&[i64::MAX, 1, -1]), Ok(Cell::Int(i64::MAX)));
        assert_eq!(sum(&[i64::MAX, 1]), Err(refused(12, 1, 0)));
    }

    #[test]
    fn shift_and_start() {
        let bytes = packed(&[int_head(&[("i", -1_000_000, -999_999)])], &ints([1, 2]));
        let below = Recipe::new(ONE).shift(1, &[-1]);
        assert_eq!(last_cells(&bytes, &below, Kind::Int, 2), Err(refused(9, 1, 0)));
        let bytes = roster();
        let (mut work, mut rows) = ([0; 180], [0; 12]);
        let mut start = |at| Bundle::read(&bytes)?.page(rests().bytes(), &mut work, at, &mut rows);
        assert_eq!(start(5), Ok(Page { written: 0, next: 5 }));
        assert_eq!(start(6), Err(refused(11, 0, 0)));
    }

    #[test]
    fn most_cells() {
        let square = packed(&[int_head(&[("i", 1, 64), ("j", 1, 64)])], &ints(1..=4096));
        assert_eq!(Bundle::read(&square).unwrap().array(1).unwrap().cells().len(), 4096);
        let mut out = vec![0; 1 << 16];
        assert_eq!(pack(ONE, &[int_head(&[("i", 1, 4097)])], &ints(1..=4097), &mut out), Err(refused(2, 1, 0)));
    }

    #[test]
    fn work_area() {
        let bytes = roster();
        let bundle = Bundle::read(&bytes).unwrap();
        assert_eq!(bundle.run(rests().bytes(), &mut [0; 180]), Ok(20));
        assert_eq!(bundle.run(rests().bytes(), &mut [0; 179]), Err(refused(10, 0, 0)));
    }
}

/// A comparison with an empty cell is unknown; is-true, is-false and is-unknown tell it apart.
mod blank_turns {
    use super::*;

    const COMPARISONS: [Operator; 6] =
        [Operator::Equal, Operator::Unequal, Operator::Less, Operator::LessOrEqual, Operator::Greater, Operator::GreaterOrEqual];

    /// Who and turn of the rows listed, of the roster with person 1's turn 3 not entered: the rests are 960, none, 360 and 1560.
    fn listed(recipe: Recipe) -> Vec<[i32; 2]> {
        let turns = int_head(&[("who", 1, 2), ("turn", 1, 3)]);
        let mut minutes = ints([1320, 2760, 4200, 360, 1200, 3240, 1800, 3240, 4680, 840, 1680, 3720]);
        (minutes[2], minutes[8]) = (Cell::Empty, Cell::Empty);
        let bytes = packed(&[turns.clone(), turns], &minutes);
        let (mut work, mut page) = (vec![0; MOST_WORK], [0; 48]);
        let bundle = Bundle::read(&bytes).unwrap();
        let rows = bundle.rows(recipe.bytes(), &mut work, &mut page).unwrap();
        rows.map(|row| row.coordinate.try_into().expect("two axes")).collect()
    }

    #[test]
    fn rest_enough() {
        let below = rests();
        assert_eq!(listed(below.clone()), [[2, 1]]);
        assert_eq!(listed(below.clone().single(step(5), Single::Not)), [[1, 1], [2, 2]]);
        assert_eq!(listed(below.clone().single(step(5), Single::IsTrue).single(step(6), Single::Not)), [[1, 1], [1, 2], [2, 2]]);
        assert_eq!(listed(below.clone().single(step(5), Single::IsFalse)), [[1, 1], [2, 2]]);
        assert_eq!(listed(below.single(step(5), Single::IsUnknown)), [[1, 2]]);
    }

    /// Each comparison of a filled and an empty cell, and of two empty ones: as a pair, and with a scalar on either side.
    #[test]
    fn comparisons() {
        let kinds = [(Kind::Int, Cell::Int(660)), (Kind::Float, Cell::Float(0.5)), (Kind::Boolean, Cell::Truth(true))];
        for (kind, filled) in kinds {
            let heads = vec![Head { kind, axes: vec![Axis::new("i", 1, 2)] }; 2];
            let bytes = packed(&heads, &[filled, Cell::Empty, Cell::Empty, Cell::Empty]);
            for operator in COMPARISONS {
                let pair = Recipe::new(ONE).pair(1, 2, operator);
                let right = Recipe::new(ONE).right_scalar(2, operator, filled);
                let left = Recipe::new(ONE).left_scalar(2, operator, filled);
                let taken = kind != Kind::Boolean || matches!(operator, Operator::Equal | Operator::Unequal);
                let expected = if taken { Ok(vec![Cell::Empty; 2]) } else { Err(refused(7, 1, 0)) };
                for recipe in [pair, right, left] {
                    assert_eq!(last_cells(&bytes, &recipe, Kind::Boolean, 2), expected, "{operator:?} of {kind:?}");
                }
            }
        }
    }

    #[test]
    fn told_apart() {
        let [yes, no] = [true, false].map(Cell::Truth);
        let bytes = line(Kind::Boolean, &[yes, no, Cell::Empty]);
        let expected = [(Single::IsTrue, [yes, no, no]), (Single::IsFalse, [no, yes, no]), (Single::IsUnknown, [no, no, yes])];
        for (operator, cells) in expected {
            let recipe = Recipe::new(ONE).single(1, operator);
            assert_eq!(last_cells(&bytes, &recipe, Kind::Boolean, 3), Ok(cells.to_vec()), "{operator:?}");
            for kind in [Kind::Int, Kind::Float] {
                let number = line(kind, &[Cell::Empty]);
                assert_eq!(last_cells(&number, &recipe, Kind::Boolean, 1), Err(refused(7, 1, 0)), "{operator:?} of {kind:?}");
            }
        }
    }

    /// A step of the single operator with that number: 8 is none.
    #[test]
    fn eighth_single_operator() {
        let bytes = line(Kind::Boolean, &[Cell::Empty]);
        let bundle = Bundle::read(&bytes).unwrap();
        let step_of = |operator: u8| [&[12, 1, 0, 0, operator][..], &[0; 31]].concat();
        assert_eq!(bundle.run(&step_of(7), &mut [0; 9]), Ok(1));
        assert_eq!(bundle.run(&step_of(8), &mut [0; 9]), Err(refused(4, 1, 0)));
    }
}

mod json {
    use super::*;

    fn text(kind: Kind, axes: &[(&str, i32, i32)], cells: &[Cell]) -> Result<String, Refusal> {
        let head = Head { kind, axes: axes.iter().map(|&(name, lower, upper)| Axis::new(name, lower, upper)).collect() };
        let bytes = packed(&[head], cells);
        Bundle::read(&bytes).unwrap().array(1).unwrap().to_json()
    }

    #[test]
    fn printed() {
        let square = text(Kind::Int, &[("x", 1, 2), ("y", 1, 2)], &ints([1, 2, 5, 6])).unwrap();
        assert_eq!(square, r#"{"data":[[1,2],[5,6]]}"#);
        let solid = text(Kind::Int, &[("t", 0, 0), ("x", 0, 2), ("y", 0, 1)], &ints(1..=6)).unwrap();
        assert_eq!(solid, r#"{"data":[[[1,2],[3,4],[5,6]]]}"#);
        let truths = text(Kind::Boolean, &[("x", 7, 9)], &[Cell::Truth(true), Cell::Empty, Cell::Truth(false)]).unwrap();
        assert_eq!(truths, r#"{"data":[true,null,false]}"#);
    }

    #[test]
    fn every_number_of_digits() {
        let powers = (0..19).flat_map(|k| [-1, 0, 1].map(|near| 10i64.pow(k) + near));
        let numbers: Vec<i64> = powers.flat_map(|n| [n, -n]).chain([i64::MIN, i64::MAX]).collect();
        let written = text(Kind::Int, &[("x", 1, numbers.len() as i32)], &ints(numbers.clone())).unwrap();
        let texts: Vec<String> = numbers.iter().map(i64::to_string).collect();
        assert_eq!(written, format!("{{\"data\":[{}]}}", texts.join(",")));
    }

    #[test]
    fn the_longest() {
        let axes = [("a", 1, 4096), ("b", 1, 1), ("c", 1, 1), ("d", 1, 1)];
        let longest = text(Kind::Int, &axes, &vec![Cell::Int(i64::MIN); 4096]).unwrap();
        assert_eq!(longest.len(), 110_602);
    }

    #[test]
    fn refused_at_its_array() {
        let heads = [int_head(&[("x", 1, 1)]), Head { kind: Kind::Float, axes: vec![Axis::new("x", 1, 1)] }];
        let bytes = packed(&heads, &[Cell::Int(1), Cell::Empty]);
        let bundle = Bundle::read(&bytes).unwrap();
        assert_eq!(bundle.array(2).unwrap().to_json(), Err(refused(7, 2, 0)));
        assert_eq!(bundle.array(1).unwrap().to_json().unwrap(), r#"{"data":[1]}"#);
    }

    /// Equal arrays are equal wherever they stand.
    #[test]
    fn equal_arrays() {
        let head = int_head(&[("x", 1, 1)]);
        let bytes = packed(&[head.clone(), head], &ints([5, 5]));
        let bundle = Bundle::read(&bytes).unwrap();
        assert_eq!(bundle.array(1), bundle.array(2));
    }
}

mod iterators {
    use super::*;

    /// 105 INT cells on three axes, every fourth empty; those below 5 are listed.
    fn mixed() -> (Vec<u8>, Recipe) {
        let cells: Vec<Cell> = (0..105).map(|n| if n % 4 == 3 { Cell::Empty } else { Cell::Int(n * 37 % 11) }).collect();
        let bytes = packed(&[int_head(&[("a", -2, 2), ("b", 0, 6), ("c", 9, 11)])], &cells);
        (bytes, Recipe::new(ONE).right_scalar(1, Operator::Less, Cell::Int(5)))
    }

    #[test]
    fn page_by_page_equals_one_page() {
        let (bytes, recipe) = mixed();
        let bundle = Bundle::read(&bytes).unwrap();
        let (mut work, mut whole) = (vec![0; 105 * CELL], [0; 105 * 16]);
        let all = bundle.page(recipe.bytes(), &mut work, 1, &mut whole).unwrap();
        assert_eq!(all.next, 106);
        let one_page: Vec<Row> = whole.chunks(16).take(all.written as usize).map(Row::from_bytes).collect();
        assert!(one_page.len() > 20 && one_page.iter().all(|row| bundle.refer(1, &row.coordinate).unwrap() != Cell::Empty));
        for room in (16..200).chain([105 * 16]) {
            let mut page = vec![0; room];
            let rows: Vec<Row> = bundle.rows(recipe.bytes(), &mut work, &mut page).unwrap().collect();
            assert_eq!(rows, one_page, "row buffer of {room} bytes");
        }
    }

    #[test]
    fn rows_of_one_to_four_axes() {
        let names = ["a", "b", "c", "d"].map(|name| (name, 4, 5));
        for axes in 1..=4 {
            let bytes = packed(&[int_head(&names[..axes])], &ints(0..1 << axes));
            let bundle = Bundle::read(&bytes).unwrap();
            let recipe = Recipe::new(ONE).right_scalar(1, Operator::GreaterOrEqual, Cell::Int(0));
            let (mut work, mut page) = (vec![0; 16 * CELL], [0; 20]);
            let rows: Vec<Row> = bundle.rows(recipe.bytes(), &mut work, &mut page).unwrap().collect();
            let last = Row { ordinality: 1 << axes, coordinate: vec![5; axes] };
            assert_eq!((rows.len(), rows.last()), (1 << axes, Some(&last)));
        }
    }

    /// Each slice removes an axis; glue and compare keep them: a row's length follows the last result.
    #[test]
    fn rows_of_a_sliced_result() {
        let bytes = packed(&[int_head(&[("a", 1, 2), ("b", 3, 4), ("c", 5, 6)])], &ints(0..8));
        let bundle = Bundle::read(&bytes).unwrap();
        let recipe = Recipe::new(ONE)
            .slice(1, 2, 4) // step 1: a, c: 2 3, 6 7
            .slice(step(1), 1, 2) // step 2: c: 6 7
            .glue(step(2), step(2), 1) // step 3: c 5:8: 6 7 6 7
            .right_scalar(step(3), Operator::Equal, Cell::Int(7));
        let (mut work, mut page) = (vec![0; 14 * CELL], [0; 19]); // room for two rows, and three bytes
        let rows: Vec<Row> = bundle.rows(recipe.bytes(), &mut work, &mut page).unwrap().collect();
        assert_eq!(rows, [2, 4].map(|ordinality| Row { ordinality, coordinate: vec![4 + ordinality as i32] }));
        let plane = Recipe::new(ONE).slice(1, 2, 4).right_scalar(step(1), Operator::Greater, Cell::Int(6));
        let rows: Vec<Row> = bundle.rows(plane.bytes(), &mut work, &mut page).unwrap().collect();
        assert_eq!(rows, [Row { ordinality: 4, coordinate: vec![2, 6] }]);
    }

    #[test]
    fn refused_as_one_page_is() {
        let bytes = line(Kind::Int, &ints([1, 0]));
        let bundle = Bundle::read(&bytes).unwrap();
        let divided = Recipe::new(ONE).left_scalar(1, Operator::Divide, Cell::Int(9));
        let listed = divided.clone().right_scalar(step(1), Operator::Less, Cell::Int(5));
        let ask =
            |recipe: &Recipe, work: &mut [u8], room: usize| bundle.rows(recipe.bytes(), work, &mut vec![0; room]).map(|_| ()).unwrap_err();
        let mut work = [7; 40];
        assert_eq!(ask(&divided, &mut work, 8), refused(7, 1, 0));
        assert_eq!(ask(&listed, &mut work[..35], 8), refused(10, 0, 0));
        assert_eq!(ask(&listed, &mut work, 7), refused(11, 0, 0));
        assert_eq!(work, [7; 40]);
        assert_eq!(ask(&listed, &mut work, 8), refused(13, 1, 2));
        assert_eq!((&work[..36], &work[36..]), (&[0; 36][..], &[7; 4][..]));
    }

    #[test]
    fn walk_equals_cells() {
        let (bytes, _) = mixed();
        let bundle = Bundle::read(&bytes).unwrap();
        let walked: Vec<Cell> = bundle.walk(1).unwrap().collect();
        let array = bundle.array(1).unwrap();
        assert_eq!(walked, array.cells().collect::<Vec<_>>());
        assert_eq!(walked.len(), array.head().cells());
        assert_eq!(bundle.walk(2).map(|_| ()), Err(refused(4, 2, 0)));
    }

    #[test]
    fn walking_place() {
        let bytes = line(Kind::Boolean, &[Cell::Truth(true), Cell::Empty]);
        let bundle = Bundle::read(&bytes).unwrap();
        let step_from = |mut place: u32| {
            let seen = bundle.walk_on(1, &mut place);
            (seen, place)
        };
        assert_eq!(step_from(1), (Ok(Some(Cell::Truth(true))), 2));
        assert_eq!(step_from(2), (Ok(Some(Cell::Empty)), 3));
        assert_eq!(step_from(3), (Ok(None), 3));
        for outside in [0, 4, u32::MAX] {
            assert_eq!(step_from(outside), (Err(refused(6, 1, 0)), outside));
        }
    }

    #[test]
    fn stretches_joined_are_the_glued_array() {
        let sides = [int_head(&[("a", 0, 1), ("b", 1, 3), ("c", 0, 1)]), int_head(&[("a", 0, 1), ("b", 7, 8), ("c", 0, 1)])];
        let bytes = packed(&sides, &ints(1..=20));
        let bundle = Bundle::read(&bytes).unwrap();
        let mut glued = [0; 20 * CELL];
        assert_eq!(bundle.run(Recipe::new(ONE).glue(1, 2, 2).bytes(), &mut glued), Ok(20));
        let (left, right) = (bundle.array(1).unwrap(), bundle.array(2).unwrap());
        let (mut joined, mut parts) = (vec![], 0);
        let end = loop {
            let ordinality = (joined.len() / CELL + 1) as u32;
            match stretch(ONE, left.head(), left.bytes(), right.head(), right.bytes(), 2, ordinality) {
                Ok(part) => joined.extend_from_slice(part),
                Err(refusal) => break refusal,
            }
            parts += 1;
        };
        assert_eq!((end, parts), (refused(6, 0, 0), 4));
        assert_eq!(joined, glued);
        let first = stretch(ONE, left.head(), left.bytes(), right.head(), right.bytes(), 2, 1).unwrap();
        assert_eq!(first.as_ptr(), left.bytes().as_ptr(), "a part of the left buffer, not a copy");
    }
}

mod values {
    use super::*;

    #[test]
    fn packed_and_read_back() {
        let heads = [
            int_head(&[("i", -3, -2)]),
            Head { kind: Kind::Float, axes: vec![Axis::new("lon_8chr", 0, 1).within(-5, 5)] },
            Head { kind: Kind::Boolean, axes: vec![Axis::new("a", 1, 1), Axis::new("b", 0, 1)] },
        ];
        let cells = [Cell::Int(i64::MIN), Cell::Empty, Cell::Float(-0.0), Cell::Float(f64::MAX), Cell::Truth(true), Cell::Truth(false)];
        let bytes = packed(&heads, &cells);
        let bundle = Bundle::read(&bytes).unwrap();
        assert_eq!((bundle.count(), bundle.bytes()), (3, &bytes[..]));
        for (k, head) in (1..).zip(&heads) {
            let array = bundle.array(k).unwrap();
            assert_eq!((array.head(), array.kind(), array.axes()), (head, head.kind, &head.axes[..]));
            assert_eq!(array.cells().collect::<Vec<_>>(), cells[k as usize * 2 - 2..][..2]);
        }
        let Cell::Float(zero) = bundle.refer(2, &[0]).unwrap() else { panic!("a FLOAT") };
        assert!(zero == 0.0 && zero.is_sign_negative());
        assert_eq!(bundle.array(4), Err(refused(4, 4, 0)));
        assert_eq!(bundle.array(0), Err(refused(4, 0, 0)));
    }

    #[test]
    fn totals() {
        let bytes = line(Kind::Float, &[Cell::Empty, Cell::Float(2.5), Cell::Float(-1.0)]);
        let floats = Bundle::read(&bytes).unwrap();
        let expected = [
            (Total::Filled, Ok(Cell::Int(2))),
            (Total::True, Err(refused(7, 1, 0))),
            (Total::Smallest, Ok(Cell::Float(-1.0))),
            (Total::Largest, Ok(Cell::Float(2.5))),
            (Total::Sum, Ok(Cell::Float(1.5))),
            (Total::Average, Ok(Cell::Float(0.75))),
        ];
        for (which, answer) in expected {
            assert_eq!(floats.total(1, which), answer, "{which:?}");
        }
        let bytes = line(Kind::Boolean, &[Cell::Truth(true), Cell::Truth(false)]);
        let truths = Bundle::read(&bytes).unwrap();
        assert_eq!(truths.total(1, Total::True), Ok(Cell::Int(1)));
        assert_eq!(truths.total(1, Total::Sum), Err(refused(7, 1, 0)));
        assert_eq!(truths.total(2, Total::Filled), Err(refused(4, 2, 0)));
    }

    #[test]
    fn every_operation() {
        let bytes = packed(&[int_head(&[("i", 1, 2), ("j", 1, 2)]), int_head(&[("j", 1, 2)])], &ints([1, 2, 3, 4, 8, 9]));
        let of = |recipe: Recipe, n: usize| last_cells(&bytes, &recipe, Kind::Int, n);
        assert_eq!(of(Recipe::new(ONE).slice(1, 1, 2), 2), Ok(ints([3, 4])));
        let wider = [ints([1, 2, 3, 4]), vec![Cell::Empty; 2]].concat();
        assert_eq!(of(Recipe::new(ONE).reshape(1, &[(1, 3), (1, 2)]), 6), Ok(wider));
        assert_eq!(of(Recipe::new(ONE).place(1, 2, 1, 1), 4), Ok(ints([8, 9, 3, 4])));
        let renamed = Recipe::new(ONE).rename(1, &["k", "l"]);
        assert_eq!(of(renamed.clone().update(1, step(1)), 4), Err(refused(8, 2, 11)));
        assert_eq!(of(renamed.rename(step(1), &["i", "j"]).update(1, step(2)), 4), Ok(ints([1, 2, 3, 4])));
        assert_eq!(of(Recipe::new(ONE).single(1, Single::Negate), 4), Ok(ints([-1, -2, -3, -4])));
        assert_eq!(of(Recipe::new(ONE).left_scalar(1, Operator::Minus, Cell::Int(10)), 4), Ok(ints([9, 8, 7, 6])));
        let filled = Recipe::new(ONE).single(1, Single::IsEmpty).single(step(1), Single::Not);
        assert_eq!(last_cells(&bytes, &filled, Kind::Boolean, 4), Ok(vec![Cell::Truth(true); 4]));
    }

    #[test]
    fn cells_in_bytes() {
        assert_eq!(Cell::from_bytes(Kind::Int, &[0; 8]), None);
        assert_eq!(Cell::from_bytes(Kind::Int, &[0, 1, 0, 0, 0, 0, 0, 0, 0]), None);
        assert_eq!(Cell::from_bytes(Kind::Boolean, &[1, 2, 0, 0, 0, 0, 0, 0, 0]), None);
        assert_eq!(Cell::from_bytes(Kind::Float, &Cell::Float(f64::NAN).to_bytes(Kind::Float)), None);
        assert_eq!(Cell::from_bytes(Kind::Int, &Cell::Int(-2).to_bytes(Kind::Int)), Some(Cell::Int(-2)));
        assert_eq!(Cell::from_bytes(Kind::Int, &Cell::Float(1.0).to_bytes(Kind::Int)), None);
    }
}

mod not_hidden {
    use super::*;

    /// Packing must be refused so, and leave the buffer untouched.
    fn pack_refused(heads: &[Head], cells: &[Cell], refusal: Refusal) {
        let mut out = [7; 1000];
        assert_eq!(pack(ONE, heads, cells, &mut out), Err(refusal), "{heads:?}");
        assert_eq!(out, [7; 1000]);
    }

    #[test]
    fn names_that_eight_bytes_cannot_tell() {
        for name in ["", "nine_long", "a\0", "a\0b", "\0", "é", "A"] {
            pack_refused(&[int_head(&[(name, 1, 1)])], &ints([1]), refused(2, 1, 0));
            let bytes = line(Kind::Int, &ints([1]));
            let rename = |names: &[&str]| last_cells(&bytes, &Recipe::new(ONE).rename(1, names), Kind::Int, 1);
            assert_eq!(rename(&[name]), Err(refused(9, 1, 0)), "{name:?}");
            assert_eq!(rename(&["a", name]), Err(refused(4, 1, 0)), "{name:?}");
        }
    }

    #[test]
    fn arrays_axes_and_cells_too_many_or_too_few() {
        let one = int_head(&[("i", 1, 1)]);
        pack_refused(&[], &[], refused(1, 0, 0));
        pack_refused(&[one.clone(), one.clone(), one.clone(), one.clone(), one.clone()], &ints(1..=5), refused(1, 0, 0));
        pack_refused(std::slice::from_ref(&one), &ints([1, 2]), refused(1, 0, 0));
        pack_refused(&[one.clone(), one.clone()], &ints([1]), refused(1, 2, 0));
        for axes in [0, 5, 256, 257] {
            let head = Head { kind: Kind::Int, axes: vec![Axis::new("i", 1, 1); axes] };
            pack_refused(std::slice::from_ref(&head), &ints([1]), refused(1, 1, 0));
            assert_eq!(stretch(ONE, &head, &[0; 9], &one, &[0; 9], 1, 1), Err(refused(1, 1, 0)));
        }
        pack_refused(&[int_head(&[("i", 2, 1)])], &[], refused(2, 1, 0));
        pack_refused(&[int_head(&[("i", i32::MIN, i32::MAX)])], &[], refused(2, 1, 0));
        assert_eq!(pack(ONE, &[one], &ints([1]), &mut [0; 40]), Err(refused(14, 0, 0)));
    }

    #[test]
    fn cells_of_another_type() {
        let heads = [int_head(&[("i", 1, 2)]), Head { kind: Kind::Float, axes: vec![Axis::new("i", 1, 2)] }];
        let cells = [Cell::Int(1), Cell::Empty, Cell::Float(1.0), Cell::Empty];
        assert_eq!(packed(&heads, &cells).len(), 6 + 2 * (2 + 24 + 18));
        for (at, wrong, place) in [(1, Cell::Float(1.0), 1), (0, Cell::Truth(true), 1), (3, Cell::Int(1), 2), (2, Cell::Float(f64::NAN), 2)]
        {
            let mut cells = cells;
            cells[at] = wrong;
            pack_refused(&heads, &cells, refused(3, place, at as u32 % 2 + 1));
        }
    }

    #[test]
    fn steps_that_have_no_bytes() {
        let bytes = line(Kind::Int, &ints([1]));
        let of = |recipe: Recipe| last_cells(&bytes, &recipe, Kind::Int, 1);
        let front = || Recipe::new(ONE).trim(1, &[(1, 1)]);
        assert_eq!(of(front()), Ok(ints([1])));
        assert_eq!(of(front().trim(1, &[(1, 1), (0, 0), (0, 0), (0, 0), (0, 0)])), Err(refused(4, 2, 0)));
        assert_eq!(of(front().shift(1, &[0; 5])), Err(refused(4, 2, 0)));
        assert_eq!(of(front().right_scalar(1, Operator::Plus, Cell::Empty)), Err(refused(4, 2, 0)));
        assert_eq!(of(front().single(step(0), Single::Negate)), Err(refused(4, 2, 0)));
        assert_eq!(of(front().single(step(255), Single::Negate)), Err(refused(4, 2, 0)));
        assert_eq!(of(Recipe::new(ONE)), Err(refused(4, 0, 0)));
        assert_eq!(of((0..17).fold(Recipe::new(ONE), |recipe, _| recipe.shift(1, &[0]))), Err(refused(4, 0, 0)));
    }

    #[test]
    fn coordinates_of_another_number() {
        let bytes = roster();
        let bundle = Bundle::read(&bytes).unwrap();
        for coordinate in [&[][..], &[1], &[1, 1, 1], &[1, 1, 1, 1, 1]] {
            assert_eq!(bundle.refer(1, coordinate), Err(refused(5, 1, 0)));
        }
        assert_eq!(bundle.refer(3, &[1, 1]), Err(refused(4, 3, 0)));
    }

    #[test]
    fn bytes_that_are_no_bundle() {
        assert_eq!(Bundle::read(&[]).map(|_| ()), Err(refused(1, 0, 0)));
        let bytes = roster();
        assert_eq!(Bundle::read(&bytes[..bytes.len() - 1]).map(|_| ()), Err(refused(1, 2, 0)));
        assert_eq!(refused(8, 3, 22).to_string(), "refused 8 3 22");
    }
}

/// A plan before a run: what it tells, what it refuses, and listings that lend themselves what the plan says.
mod plans {
    use super::*;
    use rovgrint::{raw, Plan, STAR};

    #[test]
    fn the_figures_of_eleven_hours() {
        let bytes = roster();
        let bundle = Bundle::read(&bytes).unwrap();
        let plan = bundle.plan(&rests()).unwrap();
        assert_eq!(plan, Plan { total: 20, kind: Kind::Boolean, axes: 2, cells: 4 });
        assert_eq!((plan.work(), plan.row(), plan.rows()), (180, 12, 48));
        let mut work = vec![0; plan.work()];
        assert_eq!(bundle.run(rests().bytes(), &mut work), Ok(20));
        assert_eq!(bundle.run(rests().bytes(), &mut work[1..]), Err(refused(10, 0, 0)));
    }

    #[test]
    fn the_last_results_head() {
        let bytes = roster();
        let head = Bundle::read(&bytes).unwrap().extent(&rests()).unwrap();
        let axes = vec![Axis::new("who", 1, 2), Axis::new("turn", 1, 2)];
        assert_eq!((axes[0].max_lower, axes[0].max_upper), STAR);
        assert_eq!(head, Head { kind: Kind::Boolean, axes });
    }

    #[test]
    fn refused_as_a_run_before_its_buffers() {
        let bytes = roster();
        let bundle = Bundle::read(&bytes).unwrap();
        let bad = [
            (Recipe::new(ONE), refused(4, 0, 0)),
            (Recipe::new(ONE).trim(5, &[(1, 2), (2, 3)]), refused(4, 1, 0)),
            (Recipe::new(ONE).slice(1, 3, 1), refused(5, 1, 0)),
            (Recipe::new(ONE).slice(1, 1, 1).slice(step(1), 1, 9), refused(6, 2, 0)),
            (Recipe::new(ONE).right_scalar(1, Operator::And, Cell::Int(1)), refused(7, 1, 0)),
            (Recipe::new(ONE).trim(1, &[(1, 1), (1, 3)]).pair(1, step(1), Operator::Minus), refused(8, 2, 13)),
            (Recipe::new(ONE).reshape(1, &[(1, 64), (1, 65)]), refused(9, 1, 0)),
        ];
        for (recipe, refusal) in bad {
            assert_eq!(bundle.plan(&recipe), Err(refusal));
            assert_eq!(bundle.plan(recipe.bytes()), Err(refusal));
            assert_eq!(bundle.extent(&recipe), Err(refusal));
            assert_eq!(bundle.run(recipe.bytes(), &mut [0; MOST_WORK]), Err(refusal));
            assert_eq!(bundle.listing(&recipe).err(), Some(refusal));
        }
        let no_truth = Recipe::new(ONE).pair(1, 2, Operator::Plus);
        assert_eq!(bundle.plan(&no_truth).map(|plan| plan.kind), Ok(Kind::Int));
        assert_eq!(bundle.listing(&no_truth).err(), Some(refused(7, 1, 0)));
    }

    #[test]
    fn a_whole_head_or_nothing() {
        let bytes = roster();
        let recipe = Recipe::new(ONE).slice(1, 1, 2);
        let (mut said, mut extent) = ([9; 16], [9; 100]);
        let mut ask = |extent: &mut [u8]| {
            let (at, len) = (extent.as_mut_ptr(), extent.len());
            // SAFETY: each pointer and length are one slice's, and none overlaps another.
            unsafe {
                let recipe = recipe.bytes();
                raw::rma_extent(bytes.as_ptr(), bytes.len(), recipe.as_ptr(), recipe.len(), at, len, said.as_mut_ptr(), said.len())
            }
        };
        assert_eq!(ask(&mut extent[..97]), 14);
        assert_eq!(extent, [9; 100], "no byte of a buffer that is too short");
        assert_eq!(ask(&mut extent), 0);
        assert_eq!(extent[..26], [&[1, 1][..], b"turn\0\0\0\0", &[1, 0, 0, 0, 3, 0, 0, 0, 192, 189, 240, 255, 64, 66, 15, 0]].concat());
        assert_eq!((&extent[26..98], &extent[98..]), (&[0; 72][..], &[9; 2][..]));
        assert_eq!(said[..4], [98, 0, 0, 0]);
    }

    #[test]
    fn a_listing_that_is_lent_nothing() {
        let bytes = packed(&[int_head(&[("x", -3, 8), ("y", 1, 5)])], &ints(1..=60));
        let bundle = Bundle::read(&bytes).unwrap();
        let odd = Recipe::new(ONE).right_scalar(1, Operator::Mod, Cell::Int(2)).right_scalar(step(1), Operator::Equal, Cell::Int(1));
        let none = Recipe::new(ONE).right_scalar(1, Operator::Less, Cell::Int(0));
        let rows: Vec<Row> = bundle.listing(&odd).unwrap().collect();
        assert_eq!(rows.len(), 30);
        assert!(rows.iter().all(|row| row.ordinality % 2 == 1));
        assert_eq!(bundle.listing(&none).unwrap().count(), 0);
        let plan = bundle.plan(&odd).unwrap();
        for room in [plan.row(), 2 * plan.row() + 1, plan.rows()] {
            let (mut work, mut page) = (vec![0; plan.work()], vec![0; room]);
            let lent: Vec<Row> = bundle.rows(odd.bytes(), &mut work, &mut page).unwrap().collect();
            assert_eq!(lent, rows);
        }
    }
}

/// A refusal in words.
mod words {
    use super::*;

    #[test]
    fn speak_of_what_the_place_counts() {
        let bytes = roster();
        let bundle = Bundle::read(&bytes).unwrap();
        let said = |refusal: Option<Refusal>| refusal.expect("refused").words();
        let apart = Recipe::new(ONE).trim(1, &[(1, 1), (1, 3)]).pair(1, step(1), Operator::Minus);
        assert_eq!(said(bundle.plan(&apart).err()), "step 2, axis 1: the upper limits of the two arrays differ");
        assert_eq!(said(bundle.total(2, Total::True).err()), "array 2: this cannot be asked of an array of that type");
        assert_eq!(said(bundle.array(3).err()), "array 3: there is no such array");
        assert_eq!(
            said(bundle.plan(&Recipe::new(ONE)).err()),
            "a recipe is one to sixteen steps, of 36 bytes for a bundle of version 1, of 100 for one of version 2"
        );
        let by_zero = Recipe::new(ONE).right_scalar(1, Operator::Divide, Cell::Int(0));
        assert_eq!(said(bundle.run(by_zero.bytes(), &mut [0; 54]).err()), "step 1, cell 1: division by zero");
        let head = int_head(&[("x", 1, 2)]);
        let crossed = int_head(&[("x", 2, 1)]);
        let side = stretch(ONE, &head, &[0; 18], &crossed, &[0; 0], 1, 1).err();
        assert!(said(side).starts_with("the right side: its extent is bad"));
        assert!(said(Bundle::read(&bytes[..7]).err()).starts_with("array 1: its type"));
        assert!(said(Bundle::read(b"RMB").err()).starts_with("the bundle's mark"));
    }

    #[test]
    fn there_are_some_for_every_number_and_for_no_other() {
        let words = |number, place, counts| Refusal { number, place, ordinality: 0, counts }.words();
        for counts in [Counts::Arrays, Counts::Steps, Counts::Sides, Counts::Nothing] {
            let sentences: Vec<String> = (1..=16).map(|number| words(number, 0, counts)).collect();
            assert!(sentences.iter().all(|sentence| !sentence.contains("no such refusal")));
            assert!((1..16).all(|n| !sentences[..n].contains(&sentences[n])), "two numbers in the same words");
            assert_eq!(words(0, 0, counts), "no such refusal");
            assert_eq!(words(17, 2, counts).split(": ").last(), Some("no such refusal"));
        }
    }
}

/// Two arrays that don't match: the figure of 8, and both ways to say it.
mod which_axis {
    use super::*;

    const GENERAL: &str = "the two arrays do not agree in axes, names or limits";

    fn figure_of(counts: Counts, place: u32, ordinality: u32) -> String {
        Refusal { number: 8, place, ordinality, counts }.words()
    }

    #[test]
    fn words_of_each_figure() {
        for (index, kind) in
            (1..=6).flat_map(|index| [(1, "axis names"), (2, "lower limits"), (3, "upper limits")].map(|kind| (index, kind)))
        {
            let sentence = format!("axis {index}: the {} of the two arrays differ", kind.1);
            assert_eq!(figure_of(Counts::Steps, 3, 10 * index + kind.0), format!("step 3, {sentence}"));
            assert_eq!(figure_of(Counts::Sides, 0, 10 * index + kind.0), sentence);
        }
        assert_eq!(figure_of(Counts::Steps, 3, 4), "step 3: the numbers of axes of the two arrays do not fit");
        assert_eq!(figure_of(Counts::Sides, 0, 4), "the numbers of axes of the two arrays do not fit");
    }

    /// By hand only: the engine gives none of these.
    #[test]
    fn no_such_figure() {
        for none in [0, 1, 2, 3, 5, 9, 10, 14, 19, 20, 24, 60, 64, 70, 71, 73, 111, 1_000_011, u32::MAX] {
            assert_eq!(figure_of(Counts::Steps, 3, none), format!("step 3: {GENERAL}"), "{none}");
            assert_eq!(figure_of(Counts::Sides, 0, none), GENERAL, "{none}");
        }
    }

    /// Three axes; two, of which the second has another name; the three with other limits on the last two; and one axis.
    fn arrays() -> [Head; 4] {
        let days = int_head(&[("depot", 1, 2), ("who", 1, 2), ("turn", 1, 2)]);
        let one_depot = int_head(&[("who", 1, 2), ("week", 1, 2)]);
        let later = int_head(&[("depot", 1, 2), ("who", 1, 3), ("turn", 2, 3)]);
        [days, one_depot, later, int_head(&[("turn", 1, 2)])]
    }

    /// The refusal of the recipe over the arrays above: its figures, and the words for bundle and recipe.
    fn said(version: Version, cooked: impl Fn(Recipe) -> Recipe) -> ([u32; 3], String) {
        let heads = arrays();
        let cells = vec![Cell::Empty; heads.iter().map(Head::cells).sum()];
        let bytes = packed_in(version, &heads, &cells);
        let bundle = Bundle::read(&bytes).unwrap();
        let recipe = cooked(bundle.recipe());
        let refusal = bundle.plan(&recipe).unwrap_err();
        let mut work = [0; MOST_WORK];
        assert_eq!(bundle.extent(&recipe), Err(refusal));
        assert_eq!(bundle.run(recipe.bytes(), &mut work), Err(refusal));
        assert_eq!(bundle.page(recipe.bytes(), &mut work, 1, &mut [0; 28]), Err(refusal));
        assert_eq!(bundle.listing(&recipe).err(), Some(refusal));
        assert_eq!(refusal.words_for(&bundle, recipe.bytes()), refusal.words_for(&bundle, &recipe));
        (refusal.figures(), refusal.words_for(&bundle, &recipe))
    }

    /// The recipe is refused with these figures, and these are its words for bundle and recipe, in either version.
    fn says(cooked: impl Fn(Recipe) -> Recipe, figures: [u32; 3], sentence: &str) {
        for version in [ONE, TWO] {
            assert_eq!(said(version, &cooked), (figures, sentence.to_string()));
        }
    }

    #[test]
    fn words_for_a_limit() {
        let plus = |recipe: Recipe, a: u8, b: u8| recipe.pair(a, b, Operator::Plus);
        says(|recipe| plus(recipe, 1, 3), [8, 1, 23], "step 1: axis 2, who, ends at 2 in array 1 and at 3 in array 3");
        says(|recipe| recipe.glue(3, 1, 2), [8, 1, 32], "step 1: axis 3, turn, begins at 2 in array 3 and at 1 in array 1");
        let moved = |recipe: Recipe| recipe.shift(1, &[-9, 0, 0]);
        says(
            |recipe| plus(moved(recipe), 1, step(1)),
            [8, 2, 12],
            "step 2: axis 1, depot, begins at 1 in array 1 and at -8 in step 1's result",
        );
        says(
            |recipe| plus(moved(recipe).trim(step(1), &[(-8, -8), (1, 2), (1, 2)]), step(2), step(1)),
            [8, 3, 13],
            "step 3: axis 1, depot, ends at -8 in step 2's result and at -7 in step 1's result",
        );
    }

    #[test]
    fn words_for_a_name() {
        let renamed = |recipe: Recipe| recipe.rename(1, &["depot", "shift", "turn"]);
        says(|recipe| renamed(recipe).update(1, step(1)), [8, 2, 21], "step 2: axis 2 is who in array 1 and shift in step 1's result");
        says(|recipe| renamed(recipe).glue(step(1), 1, 2), [8, 2, 21], "step 2: axis 2 is shift in step 1's result and who in array 1");
        says(
            |recipe| renamed(recipe).pair(3, step(1), Operator::Less),
            [8, 2, 21],
            "step 2: axis 2 is who in array 3 and shift in step 1's result",
        );
    }

    /// The placed axis is left out of A: before it the two have one index, behind it B's is one lower.
    #[test]
    fn words_for_a_place() {
        says(|recipe| recipe.place(1, 2, 1, 1), [8, 1, 31], "step 1: axis 3 is turn in array 1 and axis 2 is week in array 2");
        says(|recipe| recipe.place(1, 2, 3, 1), [8, 1, 11], "step 1: axis 1 is depot in array 1 and who in array 2");
        let renamed = |recipe: Recipe| recipe.rename(2, &["depot", "week"]);
        says(
            |recipe| renamed(recipe).place(1, step(1), 2, 1),
            [8, 2, 31],
            "step 2: axis 3 is turn in array 1 and axis 2 is week in step 1's result",
        );
        says(|recipe| renamed(recipe).place(1, step(1), 3, 1), [8, 2, 21], "step 2: axis 2 is who in array 1 and week in step 1's result");
    }

    #[test]
    fn words_for_the_axis_count() {
        says(|recipe| recipe.pair(1, 2, Operator::Plus), [8, 1, 4], "step 1: array 1 has 3 axes and array 2 has 2");
        says(|recipe| recipe.glue(4, 1, 1), [8, 1, 4], "step 1: array 4 has 1 axis and array 1 has 3");
        let sliced = |recipe: Recipe| recipe.slice(1, 1, 1);
        says(|recipe| sliced(recipe).update(1, step(1)), [8, 2, 4], "step 2: array 1 has 3 axes and step 1's result has 2");
        says(|recipe| recipe.place(1, 3, 1, 1), [8, 1, 4], "step 1: array 1 has 3 axes, and array 3 has 3 where 2 would fit");
        says(|recipe| recipe.place(1, 4, 2, 1), [8, 1, 4], "step 1: array 1 has 3 axes, and array 4 has 1 where 2 would fit");
        says(
            |recipe| sliced(recipe).place(step(1), 2, 1, 1),
            [8, 2, 4],
            "step 2: step 1's result has 2 axes, and array 2 has 2 where 1 would fit",
        );
        says(|recipe| recipe.place(4, 4, 1, 1), [8, 1, 4], "step 1: array 4 has 1 axis, so nothing can be placed in it");
    }

    /// The sixth axis of version 2, with names of 16 letters.
    #[test]
    fn words_for_the_sixth_axis() {
        let head = |letter: char, upper: i32| {
            let name = |k: u8| format!("axis_of_a_depot{}", if k == b'f' { letter } else { k as char });
            let mut axes: Vec<Axis> = (b'a'..=b'f').map(|k| Axis::new(&name(k), 1, 1)).collect();
            axes[5].upper = upper;
            Head { kind: Kind::Int, axes }
        };
        let bytes = packed_in(TWO, &[head('f', 1), head('g', 1), head('f', 2)], &ints(1..=4));
        let bundle = Bundle::read(&bytes).unwrap();
        for (b, figure, sentence) in [
            (2, 61, "step 1: axis 6 is axis_of_a_depotf in array 1 and axis_of_a_depotg in array 2"),
            (3, 63, "step 1: axis 6, axis_of_a_depotf, ends at 1 in array 1 and at 2 in array 3"),
        ] {
            let recipe = bundle.recipe().pair(1, b, Operator::Plus);
            let refusal = bundle.plan(&recipe).unwrap_err();
            assert_eq!((refusal.figures(), refusal.words_for(&bundle, &recipe)), ([8, 1, figure], sentence.to_string()));
        }
    }

    #[test]
    fn words_of_a_stretch() {
        let [days, one_depot, later, _] = arrays();
        let glued = |left: &Head, right: &Head, axis: u32| {
            let cells = |head: &Head| vec![0; head.cells() * CELL];
            stretch(ONE, left, &cells(left), right, &cells(right), axis, 1).unwrap_err()
        };
        let bytes = roster();
        let roster = Bundle::read(&bytes).unwrap();
        for (refusal, figures, sentence) in [
            (glued(&days, &later, 2), [8, 0, 32], "axis 3: the lower limits of the two arrays differ"),
            (glued(&days, &later, 3), [8, 0, 23], "axis 2: the upper limits of the two arrays differ"),
            (glued(&days, &one_depot, 1), [8, 0, 4], "the numbers of axes of the two arrays do not fit"),
            (
                glued(&one_depot, &int_head(&[("who", 1, 2), ("day", 1, 2)]), 2),
                [8, 0, 21],
                "axis 2: the axis names of the two arrays differ",
            ),
        ] {
            assert_eq!((refusal.figures(), refusal.words()), (figures, sentence.to_string()));
            assert_eq!(refusal.words_for(&roster, &rests()), sentence, "a stretch has no step");
        }
    }

    /// A refusal that isn't the recipe's over the bundle is said in words alone: another number, no such step, a recipe that is done, other
    /// operands, another figure, another bundle, a recipe of the other version, bytes that are none.
    #[test]
    fn a_refusal_of_something_else() {
        let bytes = roster();
        let bundle = Bundle::read(&bytes).unwrap();
        let trimmed = bundle.recipe().trim(1, &[(1, 2), (2, 3)]).trim(2, &[(1, 2), (1, 2)]);
        let no_shift = trimmed.clone().pair(step(1), step(2), Operator::Minus);
        let refusal = bundle.plan(&no_shift).unwrap_err();
        let plain = "step 3, axis 2: the lower limits of the two arrays differ";
        let by_name = "step 3: axis 2, turn, begins at 2 in step 1's result and at 1 in step 2's result";
        assert_eq!((refusal.figures(), refusal.words_for(&bundle, &no_shift)), ([8, 3, 22], by_name.to_string()));
        assert_eq!(refusal.words_for(&bundle, &no_shift.clone().single(step(3), Single::Negate)), by_name, "later steps are not looked at");

        let turned = trimmed.clone().pair(step(2), step(2), Operator::Minus);
        let other_version = Recipe::new(TWO).trim(1, &[(1, 2), (2, 3)]).trim(2, &[(1, 2), (1, 2)]).pair(step(1), step(2), Operator::Minus);
        for recipe in [rests(), trimmed, turned, bundle.recipe(), other_version] {
            assert_eq!(refusal.words_for(&bundle, &recipe), plain);
        }
        for bytes in [&[][..], &[8], &no_shift.bytes()[..107], &[no_shift.bytes(), &[0]].concat()] {
            assert_eq!(refusal.words_for(&bundle, bytes), plain);
        }
        let one = line(Kind::Int, &ints([1]));
        assert_eq!(refusal.words_for(&Bundle::read(&one).unwrap(), &no_shift), plain);

        for (place, ordinality) in
            [(3, 21), (3, 23), (3, 12), (3, 4), (3, 0), (3, 62), (2, 22), (4, 22), (0, 22), (u32::MAX, 22), (3, u32::MAX)]
        {
            let other = Refusal { place, ordinality, ..refusal };
            assert_eq!(other.words_for(&bundle, &no_shift), other.words(), "{other}");
        }
        let of_arrays = Refusal { counts: Counts::Arrays, ..refusal };
        assert_eq!(of_arrays.words_for(&bundle, &no_shift), of_arrays.words(), "its place is no step");
        let outside = bundle.recipe().trim(1, &[(1, 2), (2, 4)]);
        let refusal = bundle.plan(&outside).unwrap_err();
        assert_eq!(refusal.words_for(&bundle, &outside), refusal.words());
        let by_zero = bundle.recipe().right_scalar(1, Operator::Divide, Cell::Int(0));
        let refusal = bundle.run(by_zero.bytes(), &mut [0; 54]).unwrap_err();
        assert_eq!(refusal.words_for(&bundle, &by_zero), "step 1, cell 1: division by zero");
    }
}

/// The words of the C header: one sentence a number, with no place in them.
#[test]
fn the_header_has_words_for_every_number() {
    let header = include_str!("../../include/rma.h");
    let table = header.split("words[] = {").nth(1).and_then(|rest| rest.split("};").next()).expect("rma_words");
    let sentences: Vec<&str> = table.lines().filter_map(|line| line.trim().strip_prefix('"')?.strip_suffix("\",")).collect();
    assert_eq!((sentences.len(), sentences[0]), (17, "done"));
    for number in 8..=16 {
        let refusal = Refusal { number, place: 0, ordinality: 0, counts: Counts::Steps };
        assert_eq!(sentences[number as usize], refusal.words());
    }
}

/// A bundle is judged once, and its arrays are found where the engine says that they lie.
mod judged_once {
    use super::*;
    use rovgrint::raw;

    #[test]
    fn arrays_lie_where_the_engine_says() {
        let heads = [
            int_head(&[("a", -5, 5)]),
            Head { kind: Kind::Boolean, axes: vec![Axis::new("b", 1, 2), Axis::new("c", 0, 0).within(-1, 1)] },
            Head { kind: Kind::Float, axes: ["d", "e", "f", "g"].map(|name| Axis::new(name, 1, 3)).to_vec() },
            int_head(&[("h", 7, 7)]),
        ];
        let cells: Vec<Cell> = heads.iter().flat_map(|head| vec![Cell::Empty; head.cells()]).collect();
        let bytes = packed(&heads, &cells);
        let bundle = Bundle::read(&bytes).unwrap();
        for (k, head) in (1..).zip(&heads) {
            let mut said = [0; 16];
            // SAFETY: each pointer and length are one slice's, and `said` overlaps none.
            let number = unsafe { raw::rma_array(bytes.as_ptr(), bytes.len(), k, said.as_mut_ptr(), said.len()) };
            let figure = |at: usize| u32::from_le_bytes(said[at..at + 4].try_into().unwrap()) as usize;
            let array = bundle.array(k).unwrap();
            assert_eq!((number, array.head()), (0, head));
            assert_eq!((array.kind() as usize, array.axes().len(), array.cells().len()), (figure(0), figure(4), figure(8)));
            assert_eq!(array.bytes().as_ptr(), bytes[figure(12)..].as_ptr());
            assert_eq!(bundle.walk(k).unwrap().len(), figure(8));
        }
        assert_eq!(bundle.walk(0).err(), Some(refused(4, 0, 0)));
        assert_eq!(bundle.array(5).err(), Some(refused(4, 5, 0)));
    }

    #[test]
    fn a_walk_sees_what_the_engine_walks() {
        let bytes = roster();
        let bundle = Bundle::read(&bytes).unwrap();
        let (mut place, mut seen) = (1, vec![]);
        while let Some(cell) = bundle.walk_on(2, &mut place).unwrap() {
            seen.push(cell);
        }
        assert_eq!(bundle.walk(2).unwrap().collect::<Vec<Cell>>(), seen);
    }
}

/// Version 1 and version 2: names, axes, recipes, and what is refused where one is told and not the other.
mod versions {
    use super::*;
    use rovgrint::raw;

    const BOTH: [Version; 2] = [ONE, TWO];
    const LETTERS: &str = "abcdefghijklmnopq";

    /// So many axes of one position, with names of so many letters.
    fn deep(axes: usize, letters: usize) -> Head {
        let name = |k: usize| format!("{}{}", &LETTERS[..letters - 1], (b'a' + k as u8 % 26) as char);
        Head { kind: Kind::Int, axes: (0..axes).map(|k| Axis::new(&name(k), 1, 1)).collect() }
    }

    /// Packing told that version, with room for every answer.
    fn told(version: Version, heads: &[Head], cells: &[Cell]) -> Result<usize, Refusal> {
        pack(version, heads, cells, &mut [0; 2000])
    }

    #[test]
    fn sizes() {
        let version_one = (ONE.most_letters(), ONE.most_axes(), Recipe::new(ONE).single(1, Single::Not).bytes().len());
        assert_eq!((version_one, raw::HEAD_1), ((8, 4, 36), 98));
        let version_two = (TWO.most_letters(), TWO.most_axes(), Recipe::new(TWO).single(1, Single::Not).bytes().len());
        assert_eq!((version_two, raw::HEAD_2), ((16, 6, 100), 194));
        assert_eq!(BOTH.map(|version| version as u32), [1, 2]);
        assert_eq!(BOTH.map(|version| Recipe::new(version).version()), BOTH);
    }

    /// A name fits if the version has room for its letters; else it is refused with 2 at its array or its side, and never cut.
    #[test]
    fn names_of_every_length() {
        let short = deep(1, 1);
        for version in BOTH {
            for letters in 1..=17 {
                let head = deep(1, letters);
                let fits = letters <= version.most_letters();
                let heads = [short.clone(), head.clone()];
                let expected = if fits { Ok(()) } else { Err(refused(2, 2, 0)) };
                assert_eq!(told(version, &heads, &ints([1, 2])).map(|_| ()), expected, "{letters} letters in {version:?}");
                let glued = |left: &Head, right: &Head| stretch(version, left, &[0; 9], right, &[0; 9], 1, 1).map(|part| part.len());
                assert_eq!(glued(&head, &head), if fits { Ok(9) } else { Err(refused(2, 1, 0)) });
                let beside = match letters {
                    1 => Ok(9),
                    _ if fits => Err(refused(8, 0, 11)), // two names, which don't agree
                    _ => Err(refused(2, 2, 0)),
                };
                assert_eq!(glued(&short, &head), beside, "{letters} letters in {version:?}");
                if fits {
                    let bytes = packed_in(version, &heads, &ints([1, 2]));
                    let bundle = Bundle::read(&bytes).unwrap();
                    assert_eq!((bundle.version(), bundle.array(2).unwrap().head()), (version, &head));
                }
            }
        }
    }

    #[test]
    fn axes_of_every_number() {
        let one = deep(1, 1);
        for version in BOTH {
            for axes in [0, 1, 2, 3, 4, 5, 6, 7, 8, 255, 256, 257, 258] {
                let head = deep(axes, 8);
                let fits = (1..=version.most_axes()).contains(&axes);
                let expected = if fits { Ok(()) } else { Err(refused(1, 2, 0)) };
                assert_eq!(told(version, &[one.clone(), head.clone()], &ints([1, 2])).map(|_| ()), expected, "{axes} axes in {version:?}");
                let glued = stretch(version, &head, &[0; 9], &head, &[0; 9], 1, 2).map(|part| part.len());
                assert_eq!(glued, if fits { Ok(9) } else { Err(refused(1, 1, 0)) }, "{axes} axes in {version:?}");
            }
        }
    }

    /// Told version 1, a name of nine letters is met where any bad name is: after what comes before its array's extent, and before the rest.
    #[test]
    fn a_long_name_in_turn() {
        let (good, long) = (deep(1, 8), deep(1, 9));
        let two = [good.clone(), long.clone()];
        assert_eq!(told(ONE, &two, &ints([1, 2])), Err(refused(2, 2, 0)));
        assert_eq!(told(ONE, &two, &[Cell::Truth(true), Cell::Int(2)]), Err(refused(3, 1, 1)), "array 1's cells come first");
        assert_eq!(told(ONE, &two, &[]), Err(refused(1, 1, 0)), "array 1's cells come first");
        assert_eq!(told(ONE, &two, &ints([1])), Err(refused(2, 2, 0)), "its own cells come after it");
        assert_eq!(told(ONE, &two, &[Cell::Int(1), Cell::Truth(true)]), Err(refused(2, 2, 0)), "its own cells come after it");
        assert_eq!(told(ONE, &two, &ints([1, 2, 3])), Err(refused(2, 2, 0)), "cells left over come after it");
        assert_eq!(told(ONE, &[long.clone(), deep(5, 1)], &ints([1, 2])), Err(refused(2, 1, 0)), "array 2 comes after it");
        assert_eq!(told(ONE, &[deep(5, 9), good.clone()], &ints([1, 2])), Err(refused(1, 1, 0)), "the axis count comes first");
        assert_eq!(told(ONE, &vec![long.clone(); 5], &ints(1..=5)), Err(refused(1, 0, 0)), "the number of arrays comes first");
        let mut out = [7; 60];
        assert_eq!(pack(ONE, std::slice::from_ref(&long), &ints([1]), &mut out[..3]), Err(refused(2, 1, 0)), "14 is last");
        assert_eq!(pack(ONE, &two, &ints([1, 2]), &mut out), Err(refused(2, 2, 0)));
        assert_eq!(out, [7; 60]);

        let glued = |left: &Head, right: &Head, cells: [usize; 2], axis| {
            let [left_cells, right_cells] = cells.map(|bytes| vec![0; bytes]);
            stretch(ONE, left, &left_cells, right, &right_cells, axis, 1).map(|part| part.len())
        };
        assert_eq!(glued(&good, &good, [9, 9], 1), Ok(9));
        assert_eq!(glued(&good, &long, [8, 9], 1), Err(refused(1, 1, 0)), "the left cells come first");
        assert_eq!(glued(&good, &long, [9, 8], 1), Err(refused(2, 2, 0)), "the right cells come after it");
        assert_eq!(glued(&long, &good, [8, 8], 1), Err(refused(2, 1, 0)), "so do the left ones");
        assert_eq!(glued(&good, &long, [9, 9], 5), Err(refused(2, 2, 0)), "the axis comes after it");
        assert_eq!(glued(&deep(5, 9), &long, [9, 9], 1), Err(refused(1, 1, 0)), "the axis count comes first");
    }

    /// The requirements' example in either version: the same rows, by a recipe of that version only.
    #[test]
    fn eleven_hours_in_both() {
        let old = roster();
        let old = Bundle::read(&old).unwrap();
        let heads: Vec<Head> = (1..=2).map(|k| old.array(k).unwrap().head().clone()).collect();
        let cells: Vec<Cell> = (1..=2).flat_map(|k| old.array(k).unwrap().cells().collect::<Vec<Cell>>()).collect();
        let recipe = |version: Version| {
            let moved = Recipe::new(version).trim(1, &[(1, 2), (2, 3)]).shift(step(1), &[0, -1]).trim(2, &[(1, 2), (1, 2)]);
            moved.pair(step(2), step(3), Operator::Minus).right_scalar(step(4), Operator::Less, Cell::Int(660))
        };
        for (version, other) in [(ONE, TWO), (TWO, ONE)] {
            let bytes = packed_in(version, &heads, &cells);
            let bundle = Bundle::read(&bytes).unwrap();
            assert_eq!((bundle.version(), bundle.array(1), bundle.array(2)), (version, old.array(1), old.array(2)));
            assert_eq!(bundle.recipe(), Recipe::new(version));
            let rows: Vec<Row> = bundle.listing(&recipe(version)).unwrap().collect();
            assert_eq!(rows, [Row { ordinality: 3, coordinate: vec![2, 1] }]);
            assert_eq!(bundle.extent(&recipe(version)), old.extent(&rests()));
            assert_eq!(bundle.plan(&recipe(version)), old.plan(&rests()));
            let wrong = recipe(other);
            assert_eq!(bundle.plan(&wrong), Err(refused(4, 0, 0)));
            assert_eq!(bundle.extent(&wrong), Err(refused(4, 0, 0)));
            assert_eq!(bundle.run(wrong.bytes(), &mut [0; 180]), Err(refused(4, 0, 0)));
            assert_eq!(bundle.listing(&wrong).err(), Some(refused(4, 0, 0)));
        }
    }

    /// Rows, references, heads of results and JSON on as many axes as a version has.
    #[test]
    fn every_rank() {
        for version in BOTH {
            for axes in 1..=version.most_axes() {
                let mut head = deep(axes, version.most_letters());
                head.axes.iter_mut().for_each(|axis| (axis.lower, axis.upper) = (4, 5));
                let bytes = packed_in(version, std::slice::from_ref(&head), &ints(0..1 << axes));
                let bundle = Bundle::read(&bytes).unwrap();
                assert_eq!(bytes.len(), 6 + 2 + axes * (version.most_letters() + 16) + (CELL << axes));
                let all = bundle.recipe().right_scalar(1, Operator::GreaterOrEqual, Cell::Int(0));
                let rows: Vec<Row> = bundle.listing(&all).unwrap().collect();
                assert_eq!((rows.len(), bundle.plan(&all).unwrap().row()), (1 << axes, 4 + 4 * axes));
                for row in &rows {
                    assert_eq!(bundle.refer(1, &row.coordinate), Ok(Cell::Int(i64::from(row.ordinality) - 1)));
                }
                for wrong in (0..=8).filter(|positions| *positions != axes) {
                    assert_eq!(bundle.refer(1, &vec![4; wrong]), Err(refused(5, 1, 0)), "{wrong} positions for {axes} axes");
                }
                assert_eq!(bundle.extent(&all), Ok(Head { kind: Kind::Boolean, ..head.clone() }));
                let text = bundle.array(1).unwrap().to_json().unwrap();
                let (open, close) = ("[".repeat(axes), "]".repeat(axes));
                assert!(text.starts_with(&format!("{{\"data\":{open}0,1")) && text.ends_with(&format!("{}{close}}}", (1 << axes) - 1)));
            }
        }
    }

    /// Slots for the most axes: a name, pair or amount for each, of full length; one more is no step.
    #[test]
    fn steps_of_full_length() {
        for version in BOTH {
            let (axes, letters) = (version.most_axes(), version.most_letters());
            let head = deep(axes, letters);
            let bytes = packed_in(version, std::slice::from_ref(&head), &ints([7]));
            let bundle = Bundle::read(&bytes).unwrap();
            let names: Vec<&str> = head.axes.iter().rev().map(|axis| axis.name.as_str()).collect();
            let renamed = bundle.extent(&bundle.recipe().rename(1, &names)).unwrap();
            assert_eq!(renamed.axes.iter().map(|axis| axis.name.as_str()).collect::<Vec<&str>>(), names);
            let too_long = &LETTERS[..=letters];
            let with_long: Vec<&str> = names[1..].iter().copied().chain([too_long]).collect();
            assert_eq!(bundle.extent(&bundle.recipe().rename(1, &with_long)), Err(refused(9, 1, 0)));
            let one_more: Vec<&str> = names.iter().copied().chain(["x"]).collect();
            let moved = bundle.extent(&bundle.recipe().shift(1, &vec![9; axes]).reshape(step(1), &vec![(10, 11); axes])).unwrap();
            assert!(moved.axes.iter().all(|axis| (axis.lower, axis.upper) == (10, 11)));
            let no_steps = [
                bundle.recipe().rename(1, &one_more),
                bundle.recipe().trim(1, &vec![(1, 1); axes + 1]),
                bundle.recipe().reshape(1, &vec![(1, 1); axes + 1]),
                bundle.recipe().shift(1, &vec![0; axes + 1]),
            ];
            for recipe in no_steps {
                assert_eq!(bundle.plan(&recipe), Err(refused(4, 1, 0)));
            }
        }
    }

    /// Text that a name of either version can't tell: refused with 2 in a head, with 9 in a rename, with 4 past the last axis.
    #[test]
    fn names_that_are_none() {
        for version in BOTH {
            let bytes = packed_in(version, &[deep(1, 1)], &ints([1]));
            let bundle = Bundle::read(&bytes).unwrap();
            for name in ["", &LETTERS[..=version.most_letters()], "a\0", "abcdefgh\0i", "\0", "é", "abcdefghÉ", "A", "abcdefg h"] {
                let head = Head { kind: Kind::Int, axes: vec![Axis::new(name, 1, 1)] };
                assert_eq!(told(version, &[head], &ints([1])), Err(refused(2, 1, 0)), "{name:?} in {version:?}");
                assert_eq!(bundle.plan(&bundle.recipe().rename(1, &[name])), Err(refused(9, 1, 0)), "{name:?} in {version:?}");
                assert_eq!(bundle.plan(&bundle.recipe().rename(1, &["a", name])), Err(refused(4, 1, 0)), "{name:?} in {version:?}");
            }
        }
    }

    /// Names are compared in all their letters.
    #[test]
    fn names_that_differ_in_the_last_letter() {
        for version in BOTH {
            let head = deep(2, version.most_letters());
            let other = Head { axes: vec![head.axes[1].clone(), head.axes[0].clone()], ..head.clone() };
            let bytes = packed_in(version, &[head.clone(), other.clone()], &ints([1, 2]));
            let bundle = Bundle::read(&bytes).unwrap();
            assert_eq!(bundle.plan(&bundle.recipe().pair(1, 2, Operator::Plus)), Err(refused(8, 1, 11)));
            assert_eq!(stretch(version, &head, &[0; 9], &other, &[0; 9], 1, 1), Err(refused(8, 0, 11)));
        }
    }

    /// Arrays of six axes lie where the engine says, and are read where they lie.
    #[test]
    fn arrays_lie_where_the_engine_says() {
        let mut heads = [deep(6, 16), deep(1, 9), deep(5, 8), deep(6, 1)];
        heads[2].kind = Kind::Float;
        heads[0].axes[2].upper = 3;
        let cells: Vec<Cell> = heads.iter().flat_map(|head| vec![Cell::Empty; head.cells()]).collect();
        let bytes = packed_in(TWO, &heads, &cells);
        let bundle = Bundle::read(&bytes).unwrap();
        for (k, head) in (1..).zip(&heads) {
            let mut said = [0; 16];
            // SAFETY: each pointer and length are one slice's, and `said` overlaps none.
            let number = unsafe { raw::rma_array(bytes.as_ptr(), bytes.len(), k, said.as_mut_ptr(), said.len()) };
            let figure = |at: usize| u32::from_le_bytes(said[at..at + 4].try_into().unwrap()) as usize;
            let array = bundle.array(k).unwrap();
            assert_eq!((number, array.head()), (0, head));
            assert_eq!((figure(0), figure(4), figure(8)), (head.kind as usize, head.axes.len(), head.cells()));
            assert_eq!(array.bytes().as_ptr(), bytes[figure(12)..].as_ptr());
        }
    }

    #[test]
    fn the_longest_text() {
        let mut head = deep(6, 16);
        head.axes[0].upper = 4096;
        let bytes = packed_in(TWO, &[head], &vec![Cell::Int(i64::MIN); 4096]);
        assert_eq!(Bundle::read(&bytes).unwrap().array(1).unwrap().to_json().unwrap().len(), raw::JSON);
    }

    /// A head of 194 bytes, or nothing.
    #[test]
    fn a_whole_head_or_nothing() {
        let bytes = packed_in(TWO, &[deep(1, 16)], &ints([1]));
        let recipe = Recipe::new(TWO).single(1, Single::IsEmpty);
        let (mut said, mut extent) = ([9; 16], [9; 200]);
        let mut ask = |extent: &mut [u8]| {
            let (at, len) = (extent.as_mut_ptr(), extent.len());
            // SAFETY: each pointer and length are one slice's, and none overlaps another.
            unsafe {
                let recipe = recipe.bytes();
                raw::rma_extent(bytes.as_ptr(), bytes.len(), recipe.as_ptr(), recipe.len(), at, len, said.as_mut_ptr(), said.len())
            }
        };
        assert_eq!(ask(&mut extent[..193]), 14);
        assert_eq!(extent, [9; 200], "no byte of a buffer that is too short");
        assert_eq!(ask(&mut extent[..194]), 0);
        assert_eq!(extent[..34], [&[3, 1][..], b"abcdefghijklmnoa", &[1, 0, 0, 0, 1, 0, 0, 0, 192, 189, 240, 255, 64, 66, 15, 0]].concat());
        assert_eq!((&extent[34..194], &extent[194..]), (&[0; 160][..], &[9; 6][..]));
        assert_eq!(said[..4], [194, 0, 0, 0]);
    }

    /// Other versions in a bundle's bytes.
    #[test]
    fn other_versions_are_refused() {
        for version in BOTH {
            let mut bytes = packed_in(version, &[deep(1, 1)], &ints([1]));
            for (low, high) in [(0, 0), (3, 0), (1, 1), (2, 1), (0, 1), (0, 2), (255, 255)] {
                (bytes[3], bytes[4]) = (low, high);
                assert_eq!(Bundle::read(&bytes).err(), Some(refused(1, 0, 0)), "version {low} {high}");
            }
            let other = 3 - version as u8;
            (bytes[3], bytes[4]) = (other, 0);
            assert_ne!(Bundle::read(&bytes).err(), None, "the sizes of the other version");
        }
    }
}
