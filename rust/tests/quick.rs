//! Every operator, on each type that it takes, in each form of step (operations 9 to 12), over arrays of the bundle and over results in
//! the work area: the engine's run and page against the second implementation in `paper`, every byte lent; and the same in version 2 of
//! the bundle, which must leave the same bytes. What refuses is expected from the requirements' own words: number, step and ordinality,
//! and the buffers after it. Each test counts its cases.

#[allow(dead_code)] // the differential test uses all of it
mod paper;

use paper::face;
use rovgrint::raw;

type Nine = [u8; 9];

const INT: u8 = 1;
const FLOAT: u8 = 2;
const BOOLEAN: u8 = 3;
const EMPTY: Nine = [0; 9];

fn filled(word: u64) -> Nine {
    let mut nine = [1; 9];
    nine[1..].copy_from_slice(&word.to_le_bytes());
    nine
}

fn int(number: i64) -> Nine {
    filled(number as u64)
}

fn float(number: f64) -> Nine {
    filled(number.to_bits())
}

fn truth(truth: bool) -> Nine {
    filled(u64::from(truth))
}

/// The widths of two axes.
type Shape = (usize, usize);

const LARGE: Shape = (64, 64);
const ODD: Shape = (7, 9);
const ONE: Shape = (1, 1);

/// Two arrays of one type and one extent, whose limits begin at -3 and 5.
fn bundle(kind: u8, shape: Shape, arrays: [&[Nine]; 2]) -> Vec<u8> {
    let mut bytes = b"RMA\x01\x00\x02".to_vec();
    for cells in arrays {
        bytes.extend([kind, 2]);
        for (name, lower, width) in [(b"who\0\0\0\0\0", -3, shape.0), (b"turn\0\0\0\0", 5, shape.1)] {
            bytes.extend(name);
            [lower, lower + width as i32 - 1, -1_000_000, 1_000_000].iter().for_each(|limit| bytes.extend(limit.to_le_bytes()));
        }
        bytes.extend(cells.concat());
    }
    bytes
}

/// Such a bundle as one of version 2: names of 16 bytes.
fn bundle_in_version_2(bundle: &[u8]) -> Vec<u8> {
    let mut bytes = b"RMA\x02\x00\x02".to_vec();
    for array in bundle[6..].chunks((bundle.len() - 6) / 2) {
        let (head, cells) = array.split_at(2 + 2 * 24);
        bytes.extend(&head[..2]);
        for axis in head[2..].chunks(24) {
            bytes.extend([&axis[..8], &[0; 8], &axis[8..]].concat());
        }
        bytes.extend(cells);
    }
    bytes
}

/// Steps as those of version 2: 100 bytes each.
fn recipe_in_version_2(recipe: &[u8]) -> Vec<u8> {
    recipe.chunks(36).flat_map(|step| [step, &[0; 64]].concat()).collect()
}

/// How a step meets its cells.
#[derive(Clone, Copy, Debug)]
enum Form {
    Pair,
    Right(Nine),
    Left(Nine),
    Single,
}

fn step(form: Form, a: u8, b: u8, operator: u8) -> [u8; 36] {
    let mut bytes = [0; 36];
    let (operation, b, scalar) = match form {
        Form::Pair => (9, b, EMPTY),
        Form::Right(scalar) => (10, 0, scalar),
        Form::Left(scalar) => (11, 0, scalar),
        Form::Single => (12, 0, EMPTY),
    };
    bytes[..5].copy_from_slice(&[operation, a, b, 0, operator]);
    bytes[8..16].copy_from_slice(&scalar[1..]);
    bytes
}

/// A shift by nothing: the array's cells, as a result in the work area.
fn same(a: u8) -> [u8; 36] {
    let mut bytes = [0; 36];
    bytes[..2].copy_from_slice(&[4, a]);
    bytes
}

/// Where the operands are: arrays of the bundle, or results of steps before.
#[derive(Clone, Copy, Debug)]
enum From {
    Bundle,
    Results,
}

const SOURCES: [From; 2] = [From::Bundle, From::Results];

/// The recipe whose last step is asked about, and that step's number.
fn recipe(from: From, form: Form, operator: u8) -> (Vec<u8>, u32) {
    match from {
        From::Bundle => (step(form, 1, 2, operator).to_vec(), 1),
        From::Results => ([same(1), same(2), step(form, 17, 18, operator)].concat(), 3),
    }
}

/// The recipe with a step that makes its last result BOOLEAN, if it isn't: at least array 1.
fn listed(recipe: &[u8], last: u32, gives_boolean: bool) -> Vec<u8> {
    let at_least = if gives_boolean { vec![] } else { step(Form::Pair, 16 + last as u8, 1, 11).to_vec() };
    [recipe, &at_least].concat()
}

/// One call: a run, or a page with room for so many rows.
struct Call<'a> {
    bundle: &'a [u8],
    recipe: &'a [u8],
    shape: Shape,
    page: Option<usize>,
}

const AROUND: usize = 33; // bytes that are not lent, on both sides of a buffer
const SPARE: usize = 11; // bytes lent over what is needed
const BEFORE: u8 = 0xA5; // what all bytes are before a call

/// What a call leaves: its number, and its buffers with what lies around them.
#[derive(Clone, PartialEq)]
struct After {
    number: u32,
    said: Vec<u8>,
    work: Vec<u8>,
    rows: Vec<u8>,
}

impl After {
    fn number_at(&self, at: usize) -> u32 {
        u32::from_le_bytes(self.said[at..at + 4].try_into().expect("four bytes"))
    }
}

impl Call<'_> {
    /// The bytes of all results.
    fn results(&self) -> usize {
        let step = if self.bundle[3] == 1 { 36 } else { 100 };
        9 * self.shape.0 * self.shape.1 * (self.recipe.len() / step)
    }

    /// What the engine leaves of the same call in version 2.
    fn by_engine_in_version_2(&self) -> After {
        let (bundle, recipe) = (bundle_in_version_2(self.bundle), recipe_in_version_2(self.recipe));
        Call { bundle: &bundle, recipe: &recipe, ..*self }.by_engine()
    }

    fn before(&self) -> After {
        let room = |bytes: usize| vec![BEFORE; AROUND + bytes + SPARE + AROUND];
        After { number: 0, said: vec![BEFORE; raw::SAID], work: room(self.results()), rows: room(12 * self.page.unwrap_or(0)) }
    }

    fn by_paper(&self) -> After {
        let mut after = self.before();
        let (work, rows) = (lent(&mut after.work), lent(&mut after.rows));
        after.number = match self.page {
            None => face::rma_run(self.bundle, self.recipe, work, &mut after.said),
            Some(_) => face::rma_page(self.bundle, self.recipe, work, 1, rows, &mut after.said),
        };
        after
    }

    fn by_engine(&self) -> After {
        let mut after = self.before();
        let (work, rows, said) = (lent(&mut after.work), lent(&mut after.rows), &mut after.said);
        let (work, work_len, rows, rows_len) = (work.as_mut_ptr(), work.len(), rows.as_mut_ptr(), rows.len());
        let (said, said_len) = (said.as_mut_ptr(), said.len());
        let (bundle, bundle_len, recipe, recipe_len) = (self.bundle.as_ptr(), self.bundle.len(), self.recipe.as_ptr(), self.recipe.len());
        // SAFETY: each pointer and length are one slice's; those written to are of three vectors that nothing else touches.
        after.number = unsafe {
            match self.page {
                None => raw::rma_run(bundle, bundle_len, recipe, recipe_len, work, work_len, said, said_len),
                Some(_) => raw::rma_page(bundle, bundle_len, recipe, recipe_len, work, work_len, 1, rows, rows_len, said, said_len),
            }
        };
        after
    }

    /// What the engine leaves, which is what the paper does.
    fn by_both(&self, what: &str) -> After {
        let (engine, paper) = (self.by_engine(), self.by_paper());
        assert_eq!((engine.number, &engine.said), (paper.number, &paper.said), "{what}: number and answer");
        assert!(engine.work == paper.work, "{what}: the work area differs at byte {:?}", first_difference(&engine.work, &paper.work));
        assert!(engine.rows == paper.rows, "{what}: the rows differ at byte {:?}", first_difference(&engine.rows, &paper.rows));
        assert!(engine == self.by_engine_in_version_2(), "{what}: version 2 differs");
        engine
    }

    /// Refused with this number at this step and ordinality: 9T zeros in the work area, and nothing else touched.
    fn refuses(&self, what: &str, number: u32, place: u32, ordinality: u32) {
        let after = self.by_both(what);
        assert_eq!((after.number, after.number_at(0), after.number_at(4)), (number, place, ordinality), "{what}");
        let mut expected = self.before();
        expected.work[AROUND..AROUND + self.results()].fill(0);
        assert!(after.work == expected.work, "{what}: not 9T zeros, or more touched");
        assert!(after.rows == expected.rows, "{what}: rows touched");
        assert_eq!(after.said[8..], expected.said[8..], "{what}: more said");
    }
}

/// The part of a buffer that is lent.
fn lent(buffer: &mut [u8]) -> &mut [u8] {
    let end = buffer.len() - AROUND;
    &mut buffer[AROUND..end]
}

/// The first byte that differs, counted from the lent part's beginning.
fn first_difference(left: &[u8], right: &[u8]) -> Option<i64> {
    left.iter().zip(right).position(|(x, y)| x != y).map(|at| at as i64 - AROUND as i64)
}

/// The pair operators that a type takes: arithmetic (MOD for INT only), comparisons (= and <> alone for BOOLEAN), AND and OR.
fn pair_operators(kind: u8) -> Vec<u8> {
    match kind {
        INT => (1..=11).collect(),
        FLOAT => (1..=4).chain(6..=11).collect(),
        _ => vec![6, 7, 12, 13],
    }
}

/// The single operators that a type takes: negate, absolute and is-empty; of BOOLEAN NOT, is-empty, is-true, is-false, is-unknown.
fn single_operators(kind: u8) -> Vec<u8> {
    match kind {
        BOOLEAN => vec![3, 4, 5, 6, 7],
        _ => vec![1, 2, 4],
    }
}

fn gives_boolean(kind: u8, form: Form, operator: u8) -> bool {
    kind == BOOLEAN || matches!(form, Form::Single) && operator > 2 || !matches!(form, Form::Single) && operator > 5
}

/// Arithmetic of two, and of one INT.
fn can_refuse(kind: u8, form: Form, operator: u8) -> bool {
    let single_float = kind == FLOAT && matches!(form, Form::Single);
    !gives_boolean(kind, form, operator) && !single_float
}

/// Values that no operator refuses, none a zero; where nothing can refuse, those at the edges too.
fn values(kind: u8, calm: bool) -> Vec<Nine> {
    match (kind, calm) {
        (INT, true) => [-9, -7, -2, -1, 1, 2, 3, 8].map(int).to_vec(),
        (INT, false) => [i64::MIN, i64::MIN + 1, -1, 0, 1, 2, i64::MAX - 1, i64::MAX].map(int).to_vec(),
        (FLOAT, true) => [-9.5, -0.1, -1e-3, 1.0, 0.3, 2.5, 7.0, 1e10].map(float).to_vec(),
        (FLOAT, false) => [-f64::MAX, -1.0, -f64::from_bits(1), -0.0, 0.0, f64::from_bits(1), 1.0, f64::MAX].map(float).to_vec(),
        _ => [false, true].map(truth).to_vec(),
    }
}

/// How many cells are empty.
#[derive(Clone, Copy, Debug, PartialEq)]
enum Gaps {
    None,
    Some,
    All,
}

/// Cells of these values in a mixed order, another one for each salt.
fn cells(values: &[Nine], shape: Shape, gaps: Gaps, salt: u64) -> Vec<Nine> {
    let mut state = 88172645463325252 ^ salt << 32;
    let mut next = || {
        state ^= state << 13;
        state ^= state >> 7;
        state ^= state << 17;
        state
    };
    let mut cell = || match gaps {
        Gaps::All => EMPTY,
        Gaps::Some if next() % 4 == 0 => EMPTY,
        _ => values[(next() >> 8) as usize % values.len()],
    };
    (0..shape.0 * shape.1).map(|_| cell()).collect()
}

/// The forms in which a type's operators come, each scalar form with two scalars that it doesn't refuse.
fn forms(kind: u8, operator: u8) -> Vec<Form> {
    let arithmetic = operator < 6;
    let scalars = match kind {
        INT if arithmetic => [int(3), int(-4)],
        INT => [int(0), int(i64::MIN)],
        FLOAT if arithmetic => [float(2.5), float(-0.125)],
        FLOAT => [float(0.0), float(-0.0)],
        _ => [truth(false), truth(true)],
    };
    let [first, second] = scalars;
    vec![Form::Pair, Form::Right(first), Form::Right(second), Form::Left(first), Form::Left(second)]
}

/// All types with their operators and forms.
fn questions() -> Vec<(u8, u8, Form)> {
    let mut all = vec![];
    for kind in [INT, FLOAT, BOOLEAN] {
        let pairs =
            pair_operators(kind).into_iter().flat_map(|operator| forms(kind, operator).into_iter().map(move |form| (operator, form)));
        let singles = single_operators(kind).into_iter().map(|operator| (operator, Form::Single));
        all.extend(pairs.chain(singles).map(|(operator, form)| (kind, operator, form)));
    }
    all
}

/// A run, a page of seven rows and a page for all: none is refused, and the page for all tells how many cells are TRUE.
fn done(what: &str, bundle: &[u8], shape: Shape, recipe: &[u8], listing: &[u8]) -> u32 {
    let cells = (shape.0 * shape.1) as u32;
    let ran = Call { bundle, recipe, shape, page: None }.by_both(what);
    assert_eq!((ran.number, ran.number_at(0)), (0, cells * (recipe.len() / 36) as u32), "{what}: T");
    let page = |room: usize| {
        let after = Call { bundle, recipe: listing, shape, page: Some(room) }.by_both(what);
        assert_eq!(after.number, 0, "{what}: a page");
        (after.number_at(0), after.number_at(4))
    };
    let (all, go_on) = page(cells as usize);
    assert!(all <= cells && (go_on == cells + 1 || all == cells), "{what}: not all listed");
    assert_eq!(page(7).0, all.min(7), "{what}: seven rows, or fewer at the end");
    all
}

/// Every operator, form, source, size and share of empty cells.
#[test]
fn every_operator_in_every_form() {
    let (mut cases, mut with_rows, mut without_rows) = (0, 0, 0);
    let sizes = [(LARGE, Gaps::None), (LARGE, Gaps::Some), (ODD, Gaps::Some), (ODD, Gaps::All), (ONE, Gaps::None), (ONE, Gaps::All)];
    for (kind, operator, form) in questions() {
        for (shape, gaps) in sizes {
            let [a, b] = [1, 2].map(|salt| cells(&values(kind, can_refuse(kind, form, operator)), shape, gaps, salt));
            let bundle = bundle(kind, shape, [&a, &b]);
            for from in SOURCES {
                let what = format!("type {kind}, operator {operator}, {form:?}, {from:?}, {shape:?}, {gaps:?} empty");
                let (recipe, last) = recipe(from, form, operator);
                let listing = listed(&recipe, last, gives_boolean(kind, form, operator));
                let rows = done(&what, &bundle, shape, &recipe, &listing);
                cases += 1;
                *(if rows > 0 { &mut with_rows } else { &mut without_rows }) += 1;
            }
        }
    }
    // 25 pair operators in a pair and with two scalars on either side, 11 single ones; six sizes; two sources
    assert_eq!((cases, cases), ((25 * 5 + 11) * 6 * 2, 1632));
    assert!(with_rows > 600 && without_rows > 300, "{with_rows} and {without_rows}");
}

/// Two values and an operator: they just fit, or are refused with this number.
type Brink = (u8, u8, Nine, Nine);
type Refused = (u8, u8, Nine, Nine, u32);

/// INT results at both ends of the range, and what looks like a division by zero or an overflow and is none.
fn just_fitting() -> Vec<Brink> {
    const MIN: i64 = i64::MIN;
    const MAX: i64 = i64::MAX;
    let ints = [
        (1, vec![(MAX, 0), (MIN, 0), (MAX - 1, 1), (MIN, MAX), (1 << 62, (1 << 62) - 1), (MIN / 2, MIN / 2)]),
        (2, vec![(MIN, 0), (MAX, 0), (-1, MAX), (-2, MAX - 1), (MAX, MAX), (MIN, MIN), (-1, MIN)]),
        (3, vec![(MAX, 1), (MAX, -1), (MIN, 1), (3_037_000_499, 3_037_000_499), (1 << 32, MIN >> 32), (MIN, 0), (MIN / 2, 2)]),
        (4, vec![(MIN, 1), (MAX, -1), (MIN, MIN), (MAX, MIN), (7, -2), (-7, 2), (0, -1), (MIN, 2), (MIN + 1, -1)]),
        (5, vec![(MIN, -1), (MIN, 1), (MIN, MAX), (MAX, MIN), (-7, 2), (7, -2), (0, 5), (-1, MIN)]),
    ];
    let floats = [
        (1, vec![(f64::MAX, 0.0), (-f64::MAX, f64::MAX), (-0.0, -0.0), (-0.0, 0.0), (f64::MAX, 1e291), (1e16, 1.0)]),
        (2, vec![(f64::MAX, f64::MAX), (0.0, 0.0), (-0.0, 0.0), (f64::MIN_POSITIVE, f64::from_bits(1)), (-f64::MAX, 1e291)]),
        (3, vec![(1e154, 1e154), (1e-200, -1e-200), (-0.0, 5.0), (f64::MAX, 1.0), (f64::from_bits(1), 0.5), (0.1, 3.0)]),
        (4, vec![(f64::MAX, 1.0), (1.0, 3.0), (-0.0, 5.0), (f64::from_bits(1), f64::MAX), (1.0, f64::MAX), (1e-3, 1e305)]),
    ];
    let ints = ints.into_iter().flat_map(|(operator, pairs)| pairs.into_iter().map(move |(x, y)| (INT, operator, int(x), int(y))));
    let floats =
        floats.into_iter().flat_map(|(operator, pairs)| pairs.into_iter().map(move |(x, y)| (FLOAT, operator, float(x), float(y))));
    ints.chain(floats).collect()
}

/// Every third cell has such a pair, the others are empty, on one side or on both: nothing refuses.
#[test]
fn values_that_just_fit() {
    let mut cases = 0;
    for (kind, operator, x, y) in just_fitting() {
        for (form, left, right) in [(Form::Pair, x, y), (Form::Right(y), x, EMPTY), (Form::Left(x), y, EMPTY)] {
            let every_third =
                |cell: Nine, also: usize| (0..63).map(|k| if k % 3 == 0 || k % 9 == also { cell } else { EMPTY }).collect::<Vec<_>>();
            let bundle = bundle(kind, ODD, [&every_third(left, 1), &every_third(right, 2)]);
            for from in SOURCES {
                let what = format!("type {kind}, operator {operator}, {x:?} and {y:?}, {form:?}, {from:?}");
                let (recipe, last) = recipe(from, form, operator);
                done(&what, &bundle, ODD, &recipe, &listed(&recipe, last, false));
                cases += 1;
            }
        }
    }
    assert_eq!((cases, cases), ((6 + 7 + 7 + 9 + 8 + 6 + 5 + 6 + 6) * 3 * 2, 360));
}

/// Two values that an operator refuses, none of which a small number beside it would: 12 doesn't fit or isn't finite, 13 divides by zero.
fn refused_pairs() -> Vec<Refused> {
    let large = 1 << 62;
    let ints = [
        (1, large, large, 12),
        (2, -large - 1, large, 12),
        (3, 3_037_000_500, 3_037_000_500, 12),
        (4, i64::MIN, -1, 12),
        (4, 7, 0, 13),
        (4, i64::MIN, 0, 13),
        (5, 7, 0, 13),
        (5, 0, 0, 13),
    ];
    let floats = [
        (1, 1e308, 1e308, 12),
        (2, -1e308, 1e308, 12),
        (3, 1e200, 1e200, 12),
        (4, 1e300, 1e-300, 12),
        (4, 1.0, 0.0, 13),
        (4, 1.0, -0.0, 13),
        (4, 0.0, 0.0, 13),
    ];
    let ints = ints.map(|(operator, x, y, number)| (INT, operator, int(x), int(y), number));
    let floats = floats.map(|(operator, x, y, number)| (FLOAT, operator, float(x), float(y), number));
    ints.into_iter().chain(floats).collect()
}

/// A step with cells that refuse, and how: its type, operator and form, and what a cell of each array must be.
#[derive(Clone, Copy, Debug)]
struct Trap {
    kind: u8,
    operator: u8,
    form: Form,
    a: Nine,
    b: Nine,
    number: u32,
}

/// Each pair that is refused, in the three forms; and the smallest INT, which has no negative and no absolute.
fn traps() -> Vec<Trap> {
    let in_forms = |(kind, operator, x, y, number): Refused| {
        let trap = move |form, a, b| Trap { kind, operator, form, a, b, number };
        [trap(Form::Pair, x, y), trap(Form::Right(y), x, EMPTY), trap(Form::Left(x), y, EMPTY)]
    };
    let single = |operator| Trap { kind: INT, operator, form: Form::Single, a: int(i64::MIN), b: EMPTY, number: 12 };
    refused_pairs().into_iter().flat_map(in_forms).chain([1, 2].map(single)).collect()
}

impl Trap {
    fn name(&self) -> String {
        format!("type {}, operator {}, {:?}", self.kind, self.operator, self.form)
    }

    /// Small numbers, with some cells empty; beside an empty cell, in a pair, what would refuse. Where the scalar is a zero divisor, all
    /// are empty. These cells refuse nothing.
    fn calm(&self, shape: Shape) -> [Vec<Nine>; 2] {
        let all_empty = self.number == 13 && matches!(self.form, Form::Right(_));
        let small = |number: usize| if self.kind == INT { int(number as i64) } else { float(number as f64) };
        let cell = |k: usize| match k {
            _ if all_empty || k % 5 == 3 => (EMPTY, self.b),
            _ if matches!(self.form, Form::Pair) && k % 7 == 4 => (self.a, EMPTY),
            _ => (small(1 + k % 9), small(1 + k % 8)),
        };
        (0..shape.0 * shape.1).map(cell).unzip().into()
    }

    /// A bundle whose cells at these ordinalities refuse, and no others.
    fn bundle(&self, shape: Shape, ordinalities: &[u32]) -> Vec<u8> {
        let [mut a, mut b] = self.calm(shape);
        for &ordinality in ordinalities {
            let k = ordinality as usize - 1;
            (a[k], b[k]) = (self.a, self.b);
        }
        bundle(self.kind, shape, [&a, &b])
    }

    /// A run and a page, with operands in the bundle and in the work area, are refused at the first of these cells.
    fn springs(&self, shape: Shape, ordinalities: &[u32]) -> usize {
        let bundle = self.bundle(shape, ordinalities);
        let first = *ordinalities.iter().min().expect("a cell that refuses");
        for from in SOURCES {
            let what = format!("{}, {from:?}, {shape:?}, cells {ordinalities:?}", self.name());
            let (recipe, last) = recipe(from, self.form, self.operator);
            Call { bundle: &bundle, recipe: &recipe, shape, page: None }.refuses(&what, self.number, last, first);
            let listing = listed(&recipe, last, false);
            Call { bundle: &bundle, recipe: &listing, shape, page: Some(9) }.refuses(&what, self.number, last, first);
        }
        SOURCES.len() * 2
    }
}

/// The cells beside a trap refuse nothing: what the other tests find is the trap.
#[test]
fn the_cells_around_refuse_nothing() {
    let mut cases = 0;
    for trap in traps() {
        let bundle = trap.bundle(ODD, &[]);
        for from in SOURCES {
            let (recipe, last) = recipe(from, trap.form, trap.operator);
            done(&trap.name(), &bundle, ODD, &recipe, &listed(&recipe, last, false));
            cases += 1;
        }
    }
    assert_eq!((cases, cases), ((15 * 3 + 2) * 2, 94));
}

/// One cell refuses: the first, the second, one in the middle, the last but one, the last; or the only one.
#[test]
fn one_refusing_cell() {
    let mut cases = 0;
    for trap in traps() {
        cases += [1, 2, 2048, 4095, 4096].map(|ordinality| trap.springs(LARGE, &[ordinality])).iter().sum::<usize>();
        cases += trap.springs(ONE, &[1]);
    }
    assert_eq!((cases, cases), ((15 * 3 + 2) * (5 + 1) * 4, 1128));
}

/// Two cells refuse: the first in row-major order is named, whichever was put there first.
#[test]
fn two_refusing_cells() {
    let mut cases = 0;
    for trap in traps() {
        cases += [[1, 4096], [2, 3], [4096, 4095], [2048, 2]].map(|two| trap.springs(LARGE, &two)).iter().sum::<usize>();
        cases += trap.springs(ODD, &[63, 62]);
    }
    assert_eq!((cases, cases), ((15 * 3 + 2) * 5 * 4, 940));
}

/// Two cells refuse for two reasons, in both orders: the first cell's number is given.
#[test]
fn two_reasons() {
    let mut cases = 0;
    let ints = (INT, [(int(i64::MIN), int(-1), 12), (int(7), int(0), 13)]);
    let floats = (FLOAT, [(float(1e300), float(1e-300), 12), (float(0.0), float(-0.0), 13)]);
    for (kind, [one, other]) in [ints, floats] {
        for (first, second) in [(one, other), (other, one)] {
            for [low, high] in [[1, 2], [2, 4096], [2048, 4095]] {
                let trap = Trap { kind, operator: 4, form: Form::Pair, a: first.0, b: first.1, number: first.2 };
                let [mut a, mut b] = trap.calm(LARGE);
                (a[low - 1], b[low - 1]) = (first.0, first.1);
                (a[high - 1], b[high - 1]) = (second.0, second.1);
                let bundle = bundle(kind, LARGE, [&a, &b]);
                let recipe = step(Form::Pair, 1, 2, 4);
                let what = format!("{} at {low}, {} at {high}", first.2, second.2);
                Call { bundle: &bundle, recipe: &recipe, shape: LARGE, page: None }.refuses(&what, first.2, 1, low as u32);
                cases += 1;
            }
        }
    }
    assert_eq!(cases, 12);
}

/// Step 1 is fine and step 2 refuses, by what step 1 gave; and a refusal of step 1 comes before one of step 2 at an earlier cell.
#[test]
fn the_first_step_that_refuses() {
    let mut cases = 0;
    for ordinality in [1, 2, 2048, 4095, 4096] {
        let at = |k: usize, there: i64, else_: i64| int(if k + 1 == ordinality { there } else { else_ });
        let a: Vec<Nine> = (0..4096).map(|k| at(k, i64::MAX - 5, 1)).collect();
        let b: Vec<Nine> = (0..4096).map(|k| at(k, 5, 2)).collect();
        let sums = bundle(INT, LARGE, [&a, &b]);
        let twice = [step(Form::Pair, 1, 2, 1), step(Form::Pair, 17, 2, 1), step(Form::Pair, 18, 1, 10)].concat();
        for (recipe, page) in [(&twice[..72], None), (&twice[..], Some(40))] {
            let call = Call { bundle: &sums, recipe, shape: LARGE, page };
            call.refuses(&format!("a sum that fits, then one that doesn't, at {ordinality}"), 12, 2, ordinality as u32);
            cases += 1;
        }
        let mut zero_first = b.clone();
        zero_first[0] = int(0);
        let quotients = bundle(INT, LARGE, [&a, &zero_first]);
        let sum_then_quotient = [step(Form::Right(int(6)), 1, 0, 1), step(Form::Pair, 1, 2, 4)].concat();
        let call = Call { bundle: &quotients, recipe: &sum_then_quotient, shape: LARGE, page: None };
        call.refuses(&format!("step 1 at {ordinality}, step 2 at 1"), 12, 1, ordinality as u32);
        cases += 1;
    }
    assert_eq!(cases, 15);
}
