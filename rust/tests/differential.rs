//! The library held against the paper: the same cases are put to both, and every answer and every byte that was lent must be equal.
//! `RMA_SEED` gives the seed (else the clock), `RMA_CASES` the number of cases (else 240,000). From that many cases on, each thing that
//! `cases::met`, `cases::met_json`, `cases::met_reads`, `cases::met_moves` and `cases::met_versions` count must have been met in a
//! hundred of them, and each that `cases::met_axes` counts in two hundred. Each case of version 1 that can be said in version 2 is
//! rewritten so, and the library must answer both alike (`cases::same`). What is reported goes straight to standard output, so that it is
//! seen whether the test passes or not.

mod cases;
mod paper;

use cases::answers::{library_answers, paper_answers};
use cases::dice::Dice;
use cases::met::Met;
use cases::met_axes::MetAxes;
use cases::met_json::MetJson;
use cases::met_moves::MetMoves;
use cases::met_reads::MetReads;
use cases::met_versions::MetVersions;
use cases::printed::Ask;
use cases::{axes, printed, readings, same, Answer, Case, Function, FUNCTIONS};
use paper::version::VERSIONS;
use std::io::Write;
use std::time::{Instant, SystemTime, UNIX_EPOCH};

const CASES: u64 = 240_000;
const PRINTED_DIFFERENCES: u64 = 20;
const LEAST_MET: u64 = 100;
const LEAST_AXES: u64 = 200;

/// How many cases a function had, and how many ended with each number (0: done).
#[derive(Clone, Copy, Default)]
struct Tally {
    cases: u64,
    ended: [u64; 17],
}

/// The cases so far: their tallies, what they met, and how many differ; how many of version 1 were rewritten, and how many of these are
/// answered otherwise in version 2.
struct Report {
    seed: u64,
    tallies: [Tally; FUNCTIONS.len()],
    rewritten: [u64; FUNCTIONS.len()],
    met: Met,
    met_axes: MetAxes,
    met_json: MetJson,
    met_reads: MetReads,
    met_moves: MetMoves,
    met_versions: MetVersions,
    cases: u64,
    differ: u64,
    apart: u64,
}

fn print(line: &str) {
    writeln!(std::io::stdout(), "{line}").expect("standard output");
}

fn setting(name: &str) -> Option<u64> {
    let text = std::env::var(name).ok()?;
    Some(text.trim().parse().unwrap_or_else(|_| panic!("{name} is not a number: {text}")))
}

fn clock() -> u64 {
    SystemTime::now().duration_since(UNIX_EPOCH).map_or(1, |time| time.as_nanos() as u64)
}

fn hex(bytes: &[u8]) -> String {
    bytes.iter().map(|byte| format!("{byte:02x}")).collect()
}

impl Report {
    fn new(seed: u64) -> Report {
        let (met, met_axes, met_json, met_reads) = (Met::new(), MetAxes::new(), MetJson::new(), MetReads::new());
        let (met_moves, met_versions) = (MetMoves::new(), MetVersions::new());
        let (tallies, rewritten) = ([Tally::default(); FUNCTIONS.len()], [0; FUNCTIONS.len()]);
        Report { seed, tallies, rewritten, met, met_axes, met_json, met_reads, met_moves, met_versions, cases: 0, differ: 0, apart: 0 }
    }

    /// The function that is furthest behind its share of the cases.
    fn next_function(&self) -> Function {
        let behind = |(at, (_, _, weight)): &(usize, &(Function, &str, u64))| self.tallies[*at].cases * 10_000 / weight;
        let next = FUNCTIONS.iter().enumerate().min_by_key(behind);
        next.map_or(Function::Page, |(_, (function, _, _))| *function)
    }

    /// Puts one case to both.
    fn compare(&mut self, case: &Case) {
        self.cases += 1;
        let paper = paper_answers(case);
        let tally = &mut self.tallies[case.function as usize];
        tally.cases += 1;
        tally.ended[paper.number as usize] += 1;
        self.met.count(case, paper.number);
        self.met_axes.count(case, paper.number);
        self.met_json.count(case, paper.number);
        self.met_reads.count(case, paper.number);
        self.met_moves.count(case, paper.number);
        self.met_versions.count(case, paper.number);
        let library = library_answers(case);
        if library.as_ref() != Ok(&paper) {
            self.differ += 1;
            if self.differ <= PRINTED_DIFFERENCES {
                self.print_difference("the paper", case, &paper, &library);
            }
        } else if let Some(twin) = same::rewritten(case) {
            self.compare_versions(case, &twin, &paper);
        }
    }

    /// Puts a case of version 1, rewritten as one of version 2, to the library: it must answer as it answered the case.
    fn compare_versions(&mut self, case: &Case, twin: &Case, answer: &Answer) {
        self.rewritten[case.function as usize] += 1;
        let (expected, library) = (same::expected(case, twin, answer), library_answers(twin));
        if library.as_ref() != Ok(&expected) {
            self.apart += 1;
            if self.apart <= PRINTED_DIFFERENCES {
                self.print_difference("version 1", twin, &expected, &library);
            }
        }
    }

    fn print_difference(&self, expected: &str, case: &Case, paper: &Answer, library: &Result<Answer, String>) {
        print(&format!("DIFFERENT: seed {}, case {}, {}", self.seed, self.cases, case.name()));
        let answer = |who: &str, answer: &Answer| {
            print(&format!("  {who} answers {}", answer.number));
            answer.lent.iter().for_each(|after| print(&format!("    lent, after: {}", hex(after))));
        };
        answer(expected, paper);
        match library {
            Ok(library) => answer("the library", library),
            Err(fault) => print(&format!("  the library {fault}")),
        }
        case.shared.iter().for_each(|slice| print(&format!("  shared: {}", hex(slice))));
        print(&format!("  numbers: {:?}", case.numbers));
        case.lent.iter().for_each(|before| print(&format!("  lent, before: {}", hex(before))));
    }

    fn print_tallies(&self) {
        for ((_, name, _), tally) in FUNCTIONS.iter().zip(&self.tallies) {
            let refused = (1..17).filter(|&number| tally.ended[number] > 0);
            let counts: Vec<String> = refused.map(|number| format!("{number}: {}", tally.ended[number])).collect();
            print(&format!("{name} {} cases: {} done, refused {}", tally.cases, tally.ended[0], counts.join(", ")));
        }
        let lines = [self.met.lines(), self.met_axes.lines(), self.met_json.lines(), self.met_reads.lines()];
        let more = [self.met_moves.lines(), self.met_versions.lines()];
        lines.iter().chain(&more).flatten().for_each(|line| print(line));
        let rewritten = FUNCTIONS.iter().zip(&self.rewritten).map(|((_, name, _), count)| format!("{count} {name}"));
        print(&format!("cases of version 1 rewritten as version 2: {}", rewritten.collect::<Vec<String>>().join(", ")));
    }

    /// What fewer cases than that met, and the functions of which fewer cases were rewritten; and where 8 was met too seldom.
    fn seldom(&self, least: u64) -> Vec<String> {
        let rewritten = FUNCTIONS.iter().zip(&self.rewritten).filter(|(_, count)| **count < least);
        let rewritten = rewritten.map(|((_, name, _), count)| format!("{count} {name} rewritten")).collect();
        let met = [self.met.seldom(least), self.met_json.seldom(least), self.met_reads.seldom(least), self.met_moves.seldom(least)];
        [met.concat(), self.met_axes.seldom(LEAST_AXES), self.met_versions.seldom(least), rewritten].concat()
    }
}

#[test]
fn library_and_paper_answer_alike() {
    let began = Instant::now();
    let seed = setting("RMA_SEED").unwrap_or_else(clock);
    let wanted = setting("RMA_CASES").unwrap_or(CASES);
    print(&format!("seed {seed}"));
    let mut dice = Dice::new(seed);
    let mut report = Report::new(seed);
    while report.cases < wanted {
        for case in cases::of_function(&mut dice, report.next_function()) {
            report.compare(&case);
        }
    }
    report.print_tallies();
    let rewritten: u64 = report.rewritten.iter().sum();
    print(&format!("sameness: {rewritten} cases of version 1 put as version 2, {} differ", report.apart));
    print(&format!("differential: {} cases, {} differ, {} s", report.cases, report.differ, began.elapsed().as_secs()));
    assert_eq!(report.differ, 0, "cases that differ, of {}", report.cases);
    assert_eq!(report.apart, 0, "cases of version 1 that version 2 answers otherwise, of {rewritten}");
    let seldom = report.seldom(LEAST_MET);
    assert!(report.cases < CASES || seldom.is_empty(), "met in too few cases: {seldom:?}");
}

/// The paper's demands on itself: valid bytes read and packed are those bytes, ordinalities count the coordinates in row-major
/// order, and each result has exactly the coordinates of its extent.
#[test]
fn the_paper_holds_together() {
    let mut dice = Dice::new(setting("RMA_SEED").unwrap_or_else(clock));
    for _ in 0..2_000 {
        let case = cases::of_function(&mut dice, Function::Run).swap_remove(0);
        let Ok(bundle) = paper::bundle::read(&case.shared[0]) else { continue };
        assert_eq!(paper::pack::write(&bundle), case.shared[0]);
        let Ok(plan) = paper::listing::Plan::of_recipe(&bundle, &case.shared[1]) else { continue };
        for result in plan.results(&bundle.arrays).unwrap_or_default() {
            let coordinates = result.extent.coordinates();
            assert!(result.cells.keys().eq(&coordinates));
            assert!(coordinates.iter().map(|at| result.extent.ordinality(at)).eq(1..=coordinates.len() as u32));
        }
    }
}

/// The report's words beside F and G: cells in row-major order, each change of an axis marked with brackets. So before a cell there
/// are as many brackets as last axes that begin with it, and after it as many as end with it.
#[test]
fn the_paper_writes_in_row_major_order() {
    let mut dice = Dice::new(setting("RMA_SEED").unwrap_or_else(clock));
    for _ in 0..1_000 {
        let case = cases::of_function(&mut dice, Function::WriteJson).swap_remove(0);
        let Ok(bundle) = paper::bundle::read(&case.shared[0]) else { continue };
        for declared in bundle.arrays.iter().filter(|declared| declared.array.of != paper::cell::Type::Float) {
            let axes = &declared.array.extent.axes;
            let in_order = declared.array.in_order().into_iter().map(|(_, at, cell)| {
                let first = axes.iter().zip(&at).rev().take_while(|(axis, position)| axis.lower == **position).count();
                let last = axes.iter().zip(&at).rev().take_while(|(axis, position)| axis.upper == **position).count();
                format!("{}{}{}", "[".repeat(first), paper::json::value(cell), "]".repeat(last))
            });
            let row_major = format!("{{\"data\":{}}}", in_order.collect::<Vec<String>>().join(","));
            assert_eq!(paper::json::text(&declared.array), row_major);
        }
    }
}

/// Request [5]'s demand on the paper itself: what is written of an array, read with its type and extent, is that array.
#[test]
fn the_paper_reads_what_it_writes() {
    let mut dice = Dice::new(setting("RMA_SEED").unwrap_or_else(clock));
    for _ in 0..1_000 {
        let case = cases::of_function(&mut dice, Function::WriteJson).swap_remove(0);
        let Ok(bundle) = paper::bundle::read(&case.shared[0]) else { continue };
        for array in bundle.arrays.iter().map(|declared| &declared.array).filter(|array| array.of != paper::cell::Type::Float) {
            let members = paper::json_text::members(paper::json::text(array).as_bytes()).expect("an object with `data`");
            assert_eq!(paper::json_read::fitted(array.of, &array.extent, &members[0].value), Ok(array.clone()));
        }
    }
}

/// Request [6]'s demand on the paper itself: a case of version 1 and the same case as one of version 2 have one answer, but for the bytes
/// that are the format's.
#[test]
fn the_paper_answers_both_versions_alike() {
    let mut dice = Dice::new(setting("RMA_SEED").unwrap_or_else(clock));
    for (function, name, _) in FUNCTIONS {
        let mut rewritten = 0;
        while rewritten < 300 {
            for case in cases::of_function(&mut dice, function).iter().filter(|case| case.function == function) {
                let Some(twin) = same::rewritten(case) else { continue };
                assert_eq!(paper_answers(&twin), same::expected(case, &twin, &paper_answers(case)), "{name}: {case:?}");
                rewritten += 1;
            }
        }
    }
}

#[test]
fn the_paper_answers_as_it_prints() {
    for sizes in VERSIONS {
        printed::all(Ask { sizes, answers: &paper_answers });
        axes::all(Ask { sizes, answers: &paper_answers });
        readings::all(Ask { sizes, answers: &paper_answers });
    }
}

#[test]
fn the_library_answers_as_the_paper_prints() {
    let library = |case: &Case| library_answers(case).expect("nothing changed that was not lent");
    for sizes in VERSIONS {
        printed::all(Ask { sizes, answers: &library });
        axes::all(Ask { sizes, answers: &library });
        readings::all(Ask { sizes, answers: &library });
    }
}
