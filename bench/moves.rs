//! Times each move (operations 1 to 8) alone, and the eleven-hours recipe: the engine by `rma_run` of librma.a, as a caller in Rust or C
//! has it, beside a plain Rust program on vectors that it keeps. A move's time is that of one step more: of a recipe that has the step 13
//! times, less one that has it once, divided by 12; so neither reading nor judging the bundle is in it. The recipe's time is that of the
//! whole call. All run in turn in every round, so that a busy machine slows them alike; ratios are taken within a round. See README.md for
//! the command line.
#[allow(dead_code)]
mod inputs;
mod move_cases;
mod move_plain;
use move_cases::{nine, Case, Plain, STEPS};
use move_plain::{Cells, Hours};
use std::{env, fs, hint::black_box, time::Instant};

extern "C" {
    fn rma_run(
        bundle: *const u8,
        bundle_len: usize,
        recipe: *const u8,
        recipe_len: usize,
        work: *mut u8,
        work_len: usize,
        said: *mut u8,
        said_len: usize,
    ) -> u32;
}

const WORK: usize = 589_824; // bytes: room for every recipe's results

/// What each side keeps between calls. Nothing is cleared.
struct Kept {
    work: Vec<u8>,
    results: Vec<Cells>,
    hours: Hours,
}

/// One of the four calls that are timed, and what two of them take in microseconds.
type Call = fn(&Case, &mut Kept);
type Times = [f64; 2];

/// The engine's call: the number of cells of all results.
fn run(case: &Case, recipe: &[u8], work: &mut [u8]) -> usize {
    let mut said = [0u8; 16];
    let (bundle, bundle_len, recipe, recipe_len) = (case.bundle.as_ptr(), case.bundle.len(), recipe.as_ptr(), recipe.len());
    let (work, work_len) = (work.as_mut_ptr(), work.len());
    // SAFETY: each pointer and length are one slice's; those written to are borrowed alone.
    let refused = unsafe { rma_run(bundle, bundle_len, recipe, recipe_len, work, work_len, said.as_mut_ptr(), said.len()) };
    assert!(refused == 0, "{}: refused {refused}", case.name);
    u32::from_le_bytes(said[..4].try_into().unwrap()) as usize
}

/// The plain program: as many of the step's results, each into a vector of its own, as the engine keeps; or the recipe.
#[inline(always)]
fn work_out(case: &Case, kept: &mut Kept, steps: usize) {
    match case.plain {
        Plain::Step(step) => kept.results[..steps].iter_mut().for_each(|to| step(black_box(&case.arrays), to)),
        Plain::Recipe(program) => program(black_box(&case.arrays), &mut kept.hours),
    }
}

// Each is a function of its own, so that a profile tells them apart.
#[inline(never)]
fn engine_once(case: &Case, kept: &mut Kept) {
    black_box(run(black_box(case), &case.recipe[..case.once], &mut kept.work));
}

#[inline(never)]
fn engine_often(case: &Case, kept: &mut Kept) {
    black_box(run(black_box(case), &case.recipe, &mut kept.work));
}

#[inline(never)]
fn plain_once(case: &Case, kept: &mut Kept) {
    work_out(case, black_box(kept), 1);
}

#[inline(never)]
fn plain_often(case: &Case, kept: &mut Kept) {
    work_out(case, black_box(kept), STEPS);
}

/// The plain program's results, nine bytes a cell.
fn bytes_of(case: &Case, kept: &Kept) -> Vec<u8> {
    let ints = |cells: &Cells| nine(cells, |value| value);
    let hours = &kept.hours;
    match case.plain {
        Plain::Step(_) => kept.results.iter().flat_map(ints).collect(),
        Plain::Recipe(_) => {
            let moves = [&hours.starts, &hours.moved, &hours.ends, &hours.rests].map(ints).concat();
            [moves, nine(&hours.below, i64::from)].concat()
        }
    }
}

/// The engine's results are the plain program's, byte for byte, and it writes nothing after them. Gives the last result.
fn compare(case: &Case, kept: &mut Kept) -> Vec<u8> {
    kept.work.fill(7);
    plain_often(case, kept);
    let cells = run(case, &case.recipe, &mut kept.work);
    let expected = bytes_of(case, kept);
    assert!(9 * cells == expected.len(), "{}: {cells} cells", case.name);
    let (results, rest) = kept.work.split_at(expected.len());
    assert!(results == expected, "{}: another result", case.name);
    assert!(rest.iter().all(|&byte| byte == 7), "{}: more is written", case.name);
    results[results.len() - results.len() / (case.recipe.len() / 36)..].to_vec()
}

/// One call of one of the four, or none: for `moves_instructions.sh`.
fn count(which: &str, case: &Case, kept: &mut Kept) {
    match which {
        "engine_once" => engine_once(case, kept),
        "engine_often" => engine_often(case, kept),
        "plain_once" => plain_once(case, kept),
        "plain_often" => plain_often(case, kept),
        _ => (),
    }
}

/// Microseconds of the shortest of `reps` calls, so that one that the machine interrupts doesn't count, after one that fills the caches.
fn timed(reps: u32, call: Call, case: &Case, kept: &mut Kept) -> f64 {
    call(case, kept);
    let times = (0..reps).map(|_| {
        let start = Instant::now();
        call(case, kept);
        start.elapsed().as_nanos() as f64 / 1000.0
    });
    times.fold(f64::INFINITY, f64::min)
}

/// The times of a round by side, the engine first: with the step once, and 13 times; of the whole recipe once.
fn round(reps: u32, case: &Case, kept: &mut Kept) -> [Times; 2] {
    let sides: [[Call; 2]; 2] = [[engine_once, engine_often], [plain_once, plain_often]];
    let calls = if let Plain::Step(_) = case.plain { 2 } else { 1 };
    sides.map(|side| {
        let mut times = [0.0; 2];
        times.iter_mut().zip(&side[..calls]).for_each(|(time, call)| *time = timed(reps, *call, case, kept));
        times
    })
}

/// What one step more takes; or the whole recipe.
fn one_more(case: &Case, [once, often]: Times) -> f64 {
    match case.plain {
        Plain::Step(_) => (often - once) / (STEPS - 1) as f64,
        Plain::Recipe(_) => once,
    }
}

fn quantile(mut values: Vec<f64>, q: f64) -> f64 {
    values.sort_by(f64::total_cmp);
    values[((values.len() - 1) as f64 * q).round() as usize]
}

/// Best and median of one side. The best is told from the shortest of all calls with the step once, and 13 times.
fn best_and_median(case: &Case, times: &[Times]) -> [f64; 2] {
    let shortest = [0, 1].map(|calls| quantile(times.iter().map(|time| time[calls]).collect(), 0.0));
    [one_more(case, shortest), quantile(times.iter().map(|&time| one_more(case, time)).collect(), 0.5)]
}

fn print_times(case: &Case, cells: usize, times: &[[Times; 2]]) {
    let [engine, plain] = [0, 1].map(|side| best_and_median(case, &times.iter().map(|round| round[side]).collect::<Vec<Times>>()));
    let ratios: Vec<f64> = times.iter().map(|&[engine, plain]| one_more(case, engine) / one_more(case, plain)).collect();
    let [median, low, high] = [0.5, 0.1, 0.9].map(|q| quantile(ratios.clone(), q));
    let ratio = format!("{median:.2} [{low:.2}..{high:.2}]");
    println!("{:38} {cells:5} {:8.2} {:8.2} {:8.2} {:8.2}   {ratio:>22}", case.name, engine[0], engine[1], plain[0], plain[1]);
}

/// The case's bundle, its recipe with the step once, and the result, as files, for `moves.py`.
fn write_files(folder: &str, case: &Case, result: &[u8]) {
    for (kind, bytes) in [("rma", &case.bundle[..]), ("bin", &case.recipe[..case.once]), ("cells", result)] {
        fs::write(format!("{folder}/{}.{kind}", case.name), bytes).expect("WRITE names a folder");
    }
}

/// The recipe on many rosters in turn: a round is one call on each, and its time is told for a call.
fn time_in_turn(rounds: u32, rosters: &[Case], kept: &mut Kept) {
    let cells = rosters.iter().map(|case| compare(case, kept).len() / 9).max().unwrap_or(0);
    let mut timed = |call: Call| {
        let start = Instant::now();
        rosters.iter().for_each(|case| call(case, kept));
        start.elapsed().as_nanos() as f64 / 1000.0 / rosters.len() as f64
    };
    let times: Vec<[Times; 2]> = (0..rounds).map(|_| [engine_once, plain_once].map(|call: Call| [timed(call), 0.0])).collect();
    print_times(&rosters[0], cells, &times);
}

fn time_rounds(rounds: u32, reps: u32, cases: &[Case], cells: &[usize], kept: &mut Kept) {
    let mut times = vec![vec![]; cases.len()];
    for _ in 0..rounds {
        cases.iter().zip(&mut times).for_each(|(case, taken)| taken.push(round(reps, case, kept)));
    }
    println!("== moves of INT, 1 cell in 16 empty, one step more, and a whole recipe; {rounds} rounds, the best of {reps} calls");
    println!("{:38} {:>5} {:>17} {:>17}   {:>22}", "", "", "engine", "plain rust", "engine to plain:");
    println!("{:38} {:>5} {:>8} {:>8} {:>8} {:>8}   {:>22}", "", "cells", "best us", "median", "best us", "median", "median [10%..90%]");
    cases.iter().zip(cells).zip(&times).for_each(|((case, &cells), times)| print_times(case, cells, times));
}

fn main() {
    let arg = |at: usize, other: u32| env::args().nth(at).and_then(|text| text.parse().ok()).unwrap_or(other);
    let setting = |name: &str| env::var(name).ok().filter(|value| !value.is_empty());
    let chosen = |case: &Case| setting("CASE").is_none_or(|prefix| case.name.starts_with(&prefix));
    let cases: Vec<Case> = move_cases::all().into_iter().filter(chosen).collect();
    let mut kept = Kept { work: vec![7; WORK], results: vec![vec![]; STEPS], hours: Hours::default() };
    let results: Vec<Vec<u8>> = cases.iter().map(|case| compare(case, &mut kept)).collect();
    let cells: Vec<usize> = results.iter().map(|result| result.len() / 9).collect();
    if setting("LIST").is_some() {
        cases.iter().zip(cells).for_each(|(case, cells)| println!("{}\t{cells}\t{}", case.name, case.kind));
    } else if let Some(folder) = setting("WRITE") {
        cases.iter().zip(&results).for_each(|(case, result)| write_files(&folder, case, result));
    } else if let Some(which) = setting("COUNT") {
        cases.iter().for_each(|case| count(&which, case, &mut kept));
    } else if !cases.is_empty() {
        time_rounds(arg(1, 60).max(1), arg(2, 10).max(1), &cases, &cells, &mut kept);
        let rosters: Vec<Case> = move_cases::rosters(64).into_iter().filter(chosen).collect();
        if !rosters.is_empty() {
            time_in_turn(arg(1, 60).max(1), &rosters, &mut kept);
        }
    }
}
