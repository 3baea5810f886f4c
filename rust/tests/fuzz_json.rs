//! Reading JSON, fuzzed: texts mutated again and again are put to the engine and to the second implementation, and every answer and every
//! byte that was lent must be equal. It is no part of the gate: `cargo test --test fuzz_json -- --ignored`. `RMA_SEED` gives
//! the seed (else the clock), `RMA_TEXTS` the number of texts (else 10,000,000); both are printed, so that a run can be had again on any
//! machine.

#[allow(dead_code)] // the differential test uses all of it
mod cases;
#[allow(dead_code)] // the differential test uses all of it
mod paper;

use cases::answers::{library_answers, paper_answers};
use cases::dice::Dice;
use cases::{json_reads, Answer, Case};
use paper::json_read::named;
use paper::json_text::members;
use std::io::Write;
use std::sync::atomic::{AtomicU64, Ordering};
use std::sync::Mutex;
use std::time::{Instant, SystemTime, UNIX_EPOCH};

const TEXTS: u64 = 10_000_000;
const PRINTED_DIFFERENCES: u64 = 20;

/// The texts are put in so many runs, each with dice of its own, so that the seed alone tells every text, however many threads there are.
const RUNS: u64 = 64;

/// The cases of a run that texts are mutated from, and the most bytes of a text.
const POOL: usize = 256;
const LONGEST: usize = 2_000;

/// What mutations put in: pieces that mean something to the reader.
const PIECES: [&[u8]; 36] = [
    b"\"data\"",
    b"\"data\":",
    b",\"data\":[1]",
    b"\"d\\u0061ta\"",
    b"null",
    b"true",
    b"false",
    b"-0",
    b"0",
    b"01",
    b"1.5",
    b"1e9",
    b"-",
    b"9223372036854775807",
    b"9223372036854775808",
    b"-9223372036854775808",
    b"-9223372036854775809",
    b"[",
    b"]",
    b"{",
    b"}",
    b",",
    b":",
    b"[]",
    b"{}",
    b"[[[[[[[[",
    b"]]]]]]]]",
    b"\"",
    b"\\",
    b"\\u00e9",
    b"\\ud800",
    b"\xc3\xa9",
    b"\xe2\x82\xac",
    b"\xf0\x9f\x98\x80",
    b"\xed\xa0\x80",
    b" \t\r\n",
];

fn print(line: &str) {
    writeln!(std::io::stdout(), "{line}").expect("standard output");
}

fn setting(name: &str) -> Option<u64> {
    let text = std::env::var(name).ok()?;
    Some(text.trim().parse().unwrap_or_else(|_| panic!("{name} is not a number: {text}")))
}

fn clock() -> u64 {
    SystemTime::now().duration_since(UNIX_EPOCH).map_or(1, |time| time.as_nanos() as u64)
}

/// A case whose head is sound, so that its text is looked at; mostly one whose text is an object with one `data`.
fn fresh(dice: &mut Dice) -> Case {
    loop {
        let case = json_reads::reads(dice).swap_remove(0);
        let looked_at = named(case.numbers[0], &case.shared[0]).is_ok() && case.shared[1].len() <= LONGEST;
        if looked_at && (dice.one_in(8) || members(&case.shared[1]).is_ok()) {
            return case;
        }
    }
}

/// One change of a text that mostly leaves it an object: blanks put between tokens, or another value in the stead of a number or a word.
fn change(dice: &mut Dice, text: &mut Vec<u8>) {
    let values: [&[u8]; 13] =
        [b"null", b"true", b"false", b"0", b"-0", b"7", b"-12", b"1.0", b"1e2", b"\"\"", b"[]", b"{}", b"9223372036854775808"];
    let is_value = |byte: &u8| byte.is_ascii_alphanumeric() || b"+-.".contains(byte);
    let at = dice.index(text.len() + 1);
    let from = at + text[at..].iter().take_while(|byte| !b"[]{},:".contains(byte)).count();
    let after = (from + 1).min(text.len());
    let end = after + text[after..].iter().take_while(|byte| is_value(byte)).count();
    if end > after && dice.one_in(2) {
        text.splice(after..end, dice.pick(&values).iter().copied());
    } else {
        let at = dice.pick(&[from, after]);
        text.splice(at..at, dice.pick(&[&b" "[..], b"\n", b"\t\r", b"  "]).iter().copied());
    }
    text.truncate(LONGEST);
}

/// One change of a text: bytes changed, put in, taken out, doubled, moved, cut, or taken from another text.
fn mutate(dice: &mut Dice, text: &mut Vec<u8>, other: &[u8]) {
    let at = dice.index(text.len() + 1);
    let (from, to) = part(dice, text.len());
    match dice.below(10) {
        0 | 1 if at < text.len() => text[at] ^= 1 << dice.below(8),
        2 if at < text.len() => text[at] = dice.number() as u8,
        3 => text.insert(at, dice.pick(b"{}[],:\"\\-.eE0159 \ntfnu")),
        4 => drop(text.drain(from..to)),
        5 => text.truncate(at),
        6 => {
            let again = text[from..to].to_vec();
            text.splice(at..at, again);
        }
        7 => {
            let (begin, end) = part(dice, other.len());
            text.splice(from..to, other[begin..end].iter().copied());
        }
        _ => {
            let end = if dice.one_in(2) { at } else { text.len().min(at + 1 + dice.index(4)) };
            text.splice(at..end, dice.pick(&PIECES).iter().copied());
        }
    }
    text.truncate(LONGEST);
}

/// A part of so many bytes, mostly a short one.
fn part(dice: &mut Dice, length: usize) -> (usize, usize) {
    let from = dice.index(length + 1);
    let most = if dice.one_in(4) { length - from } else { (length - from).min(8) };
    (from, from + dice.index(most + 1))
}

/// How texts ended, by number (0: done), and how many differ.
#[derive(Default)]
struct Ended {
    by_number: [u64; 17],
    differ: u64,
}

/// So many texts from dice of their own: each a case of the pool, changed once or a few times. It may take that case's place, so that
/// changes add up, oftener if it is an object still; and now and then a fresh one does.
fn run(seed: u64, number: u64, texts: u64, ended: &Mutex<Ended>) {
    let mut dice = Dice::new(seed ^ number.wrapping_mul(0xD1B5_4A32_D192_ED03));
    let mut pool: Vec<Case> = (0..POOL).map(|_| fresh(&mut dice)).collect();
    let mut own = Ended::default();
    for text in 0..texts {
        let (at, other) = (dice.index(POOL), dice.index(POOL));
        let mut case = pool[at].clone();
        let other = pool[other].shared[1].clone();
        let kindly = dice.one_in(2);
        for _ in 0..dice.pick(&[1, 1, 1, 2, 2, 3, 5, 8]) {
            if kindly {
                change(&mut dice, &mut case.shared[1]);
            } else {
                mutate(&mut dice, &mut case.shared[1], &other);
            }
        }
        let paper = paper_answers(&case);
        own.by_number[paper.number as usize] += 1;
        let library = library_answers(&case);
        if library.as_ref() != Ok(&paper) {
            own.differ += 1;
            print_difference(&format!("seed {seed}, run {number}, text {text}"), &case, &paper, &library, own.differ);
        }
        match dice.below(80) {
            0 | 1 => pool[at] = fresh(&mut dice),
            2 => pool[at] = case,
            3..=19 if paper.number != 15 => pool[at] = case,
            _ => {}
        }
    }
    let mut ended = ended.lock().expect("no thread panics");
    ended.differ += own.differ;
    ended.by_number.iter_mut().zip(own.by_number).for_each(|(all, own)| *all += own);
}

fn print_difference(which: &str, case: &Case, paper: &Answer, library: &Result<Answer, String>, count: u64) {
    if count > PRINTED_DIFFERENCES {
        return;
    }
    print(&format!("DIFFERENT: {which}: version {}, head {:02x?}", case.numbers[0], case.shared[0]));
    print(&format!("  text: {}", case.shared[1].escape_ascii()));
    print(&format!("  the paper answers {paper:02x?}"));
    print(&format!("  the library answers {library:02x?}"));
}

#[test]
#[ignore = "ten million texts; outside the gate"]
fn engine_and_second_implementation_read_alike() {
    let began = Instant::now();
    let seed = setting("RMA_SEED").unwrap_or_else(clock);
    let texts = setting("RMA_TEXTS").unwrap_or(TEXTS);
    print(&format!("seed {seed}, {texts} texts"));
    let (ended, next) = (Mutex::new(Ended::default()), AtomicU64::new(0));
    std::thread::scope(|scope| {
        for _ in 0..std::thread::available_parallelism().map_or(1, usize::from) {
            scope.spawn(|| loop {
                let number = next.fetch_add(1, Ordering::Relaxed);
                if number >= RUNS {
                    return;
                }
                run(seed, number, texts / RUNS + u64::from(number < texts % RUNS), &ended);
            });
        }
    });
    let ended = ended.into_inner().expect("no thread panics");
    let counts: Vec<String> = [0, 14, 15, 16].iter().map(|&number| format!("{number}: {}", ended.by_number[number])).collect();
    print(&format!("fuzz: {texts} texts, ended {}, {} differ, {} s", counts.join(", "), ended.differ, began.elapsed().as_secs()));
    assert_eq!(ended.differ, 0, "texts that differ, of {texts}");
    let every = [0, 14, 15, 16].iter().all(|&number| ended.by_number[number] > 0);
    assert!(texts < 100_000 || every, "a number that no text ended with");
}
