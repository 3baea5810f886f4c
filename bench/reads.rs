//! Times the judging of a bundle, `rma_read`, on one array of 64 by 64 cells of each type, with no cell empty, one in sixteen and every
//! second by chance: the same array again and again, and 64 arrays in turn. Beside it a plain Rust program that goes from cell to cell
//! with a branch on each mark. See README.md for the command line.
use std::{env, hint::black_box, time::Instant};

extern "C" {
    fn rma_read(b: *const u8, b_len: usize, said: *mut u8, said_len: usize) -> u32;
}

const SIDE: i32 = 64;
const ARRAYS: usize = 64;

/// By a linear congruence, the high half of each number.
struct Chance(u64);

impl Chance {
    fn next(&mut self) -> u64 {
        self.0 = self.0.wrapping_mul(6_364_136_223_846_793_005).wrapping_add(1_442_695_040_888_963_407);
        self.0 >> 32
    }
}

/// A bundle of one array; of `of` cells, `empty` are empty.
fn bundle(kind: u8, empty: u64, of: u64, chance: &mut Chance) -> Vec<u8> {
    let mut bytes = b"RMA\x01\x00\x01".to_vec();
    bytes.extend([kind, 2]);
    for name in [b"who\0\0\0\0\0", b"turn\0\0\0\0"] {
        bytes.extend(name);
        bytes.extend([1, SIDE, -1_000_000, 1_000_000].iter().flat_map(|limit: &i32| limit.to_le_bytes()));
    }
    for _ in 0..SIDE * SIDE {
        let (filled, number) = (chance.next() % of >= empty, chance.next());
        let word = match kind {
            1 => number,
            2 => (number as f64 / 7.0).to_bits(),
            _ => number % 2,
        };
        bytes.push(u8::from(filled));
        bytes.extend(if filled { word.to_le_bytes() } else { [0; 8] });
    }
    bytes
}

fn engine(bytes: &[u8]) -> bool {
    let mut said = [0; 16];
    // SAFETY: each pointer and length are one slice's, and what is written to is borrowed alone.
    unsafe { rma_read(bytes.as_ptr(), bytes.len(), said.as_mut_ptr(), said.len()) == 0 }
}

/// Whether all cells are cells of the type; the head is not looked at.
fn plain(bytes: &[u8]) -> bool {
    let (kind, cells) = (bytes[6], &bytes[56..]);
    cells.chunks_exact(9).all(|cell| {
        let word = u64::from_le_bytes(cell[1..].try_into().unwrap());
        match (cell[0], kind) {
            (0, _) => word == 0,
            (1, 1) => true,
            (1, 2) => f64::from_bits(word).is_finite(),
            (1, _) => word <= 1,
            _ => false,
        }
    })
}

/// Best microseconds a call over the rounds, of `reps` calls each that take the bundles in turn.
fn best(rounds: u32, reps: usize, bundles: &[Vec<u8>], judge: fn(&[u8]) -> bool) -> f64 {
    let mut least = f64::INFINITY;
    let mut turn = bundles.iter().cycle();
    for _ in 0..rounds {
        let began = Instant::now();
        (0..reps).for_each(|_| assert!(judge(black_box(turn.next().unwrap()))));
        least = least.min(began.elapsed().as_secs_f64() / reps as f64);
    }
    least * 1e6
}

fn main() {
    let setting = |at: usize, other: u32| env::args().nth(at).and_then(|text| text.parse().ok()).unwrap_or(other);
    let (rounds, reps) = (setting(1, 60), setting(2, 10) as usize * ARRAYS);
    println!("one array judged, best us of {rounds} rounds of {reps} calls");
    println!("{:26} {:>22} {:>22}", "", "the same array", "64 arrays in turn");
    println!("{:26} {:>11}{:>11} {:>11}{:>11}", "", "engine", "plain rust", "engine", "plain rust");
    for (kind, name) in [(1, "INT"), (2, "FLOAT"), (3, "BOOLEAN")] {
        for (empty, of, blanks) in [(0, 1, "none empty"), (1, 16, "1 in 16 empty"), (1, 2, "every second empty")] {
            let mut chance = Chance(20_261_117);
            let bundles: Vec<Vec<u8>> = (0..ARRAYS).map(|_| bundle(kind, empty, of, &mut chance)).collect();
            let label = format!("{name}, {blanks}");
            print!("{label:26}");
            for some in [&bundles[..1], &bundles[..]] {
                print!(" {:11.2}{:11.2}", best(rounds, reps, some, engine), best(rounds, reps, some, plain));
            }
            println!();
        }
    }
}
