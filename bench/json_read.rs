//! Times reading JSON into an array side by side: a plain Rust reader, Python's json.loads, and the engine by `rma_read_json` of librma.a,
//! as a caller in Rust or C has it. All contestants run in turn in every round, so that a busy machine slows them alike; ratios are taken
//! within a round. See README.md for the command line.
mod plain_read;
mod texts;
use std::io::{BufRead, BufReader, Write};
use std::process::{Child, ChildStdin, ChildStdout, Command, Stdio};
use std::{env, fs, hint::black_box, time::Instant};
use texts::{Input, MOST};

extern "C" {
    fn rma_read_json(
        version: u32,
        head: *const u8,
        head_len: usize,
        text: *const u8,
        text_len: usize,
        cells: *mut u8,
        cells_len: usize,
        said: *mut u8,
        said_len: usize,
    ) -> u32;
}

const NAMES: [&str; 4] = ["rust (g)", "rust (h)", "python", "engine"];
const PYTHON: usize = 2;

/// The engine's call: the number of cells, or the refusal's number and ordinality.
#[inline(never)]
fn by_engine(input: &Input, text: &[u8], out: &mut [u8]) -> Result<usize, (u32, u32)> {
    let (mut said, head) = ([0u8; 16], &input.head[..]);
    let (to, room, answer, long) = (out.as_mut_ptr(), out.len(), said.as_mut_ptr(), said.len());
    // SAFETY: each pointer and length are one buffer's, and the two that are written to overlap no other.
    let refused = unsafe { rma_read_json(input.version, head.as_ptr(), head.len(), text.as_ptr(), text.len(), to, room, answer, long) };
    let number = |at: usize| u32::from_le_bytes(said[at..at + 4].try_into().unwrap());
    if refused == 0 {
        Ok(number(0) as usize)
    } else {
        Err((refused, number(4)))
    }
}

/// Python in a process of its own, which is told how often to call and tells how long it took.
struct Python {
    child: Child,
    ask: ChildStdin,
    answers: BufReader<ChildStdout>,
}

impl Python {
    /// None where there is no Python, or where it isn't wanted. Its cells are counted and summed up, and compared.
    fn new(input: &Input) -> Option<Python> {
        let file = env::temp_dir().join(format!("json_read_{}.json", std::process::id()));
        fs::write(&file, &input.text).ok()?;
        let mut command = Command::new("python3");
        command.args(["-c", include_str!("loads.py")]).arg(&file).stdin(Stdio::piped()).stdout(Stdio::piped());
        let mut child = command.spawn().ok()?;
        let (ask, answers) = (child.stdin.take()?, BufReader::new(child.stdout.take()?));
        let mut python = Python { child, ask, answers };
        let (mut line, sum) = (String::new(), input.cells.iter().flatten().map(|&cell| i128::from(cell)).sum::<i128>());
        python.answers.read_line(&mut line).ok()?;
        fs::remove_file(&file).ok()?;
        assert_eq!(line.trim(), format!("{} {sum}", input.cells.len()), "python: other cells");
        Some(python)
    }

    /// Nanoseconds of so many calls.
    fn call(&mut self, times: usize) -> f64 {
        let mut line = String::new();
        writeln!(self.ask, "{times}").and_then(|()| self.answers.read_line(&mut line)).expect("python answers");
        line.trim().parse().expect("nanoseconds")
    }
}

impl Drop for Python {
    fn drop(&mut self) {
        let _ = self.child.kill();
        let _ = self.child.wait();
    }
}

/// The contestants' buffers; not cleared between runs.
struct Contest {
    rooms: [Vec<u8>; 4],
    own: Vec<u8>,
}

impl Contest {
    /// One call of a contestant that is no Python: the number of cells, if the text is accepted.
    fn call(&mut self, who: usize, input: &Input, text: &[u8]) -> Option<usize> {
        let (text, widths, room) = (black_box(text), black_box(&input.widths[..]), &mut self.rooms[who][..]);
        match who {
            0 => plain_read::read(text, input.boolean, widths, room).ok(),
            1 => plain_read::read_apart(text, input.boolean, widths, &mut self.own, room).ok(),
            _ => by_engine(black_box(input), text, room).ok(),
        }
    }

    /// All must read the cells; and of a text that is cut or has one byte changed they must say alike whether it is accepted.
    fn compare(&mut self, input: &Input) {
        let bytes = input.cell_bytes();
        for who in [0, 1, 3] {
            assert_eq!(self.call(who, input, &input.text), Some(input.cells.len()), "{}: {}", input.label, NAMES[who]);
            assert!(self.rooms[who][..bytes.len()] == bytes, "{}: {}: other cells", input.label, NAMES[who]);
        }
        for text in input.spoiled() {
            let said = [0, 1, 3].map(|who| self.call(who, input, &text));
            let cells = self.rooms[0][..bytes.len()] == self.rooms[3][..bytes.len()];
            let alike = said[0] == said[1] && said[1] == said[2] && (said[0].is_none() || cells);
            assert!(alike, "{said:?} for {}", String::from_utf8_lossy(&text));
        }
    }

    /// The times of all contestants in microseconds, by round, in turn.
    fn times(&mut self, input: &Input, rounds: usize, reps: usize, mut python: Option<Python>) -> Vec<Vec<f64>> {
        let mut times = vec![Vec::new(); NAMES.len()];
        for _ in 0..rounds {
            for (who, taken) in times.iter_mut().enumerate() {
                let nanoseconds = match (who, &mut python) {
                    (PYTHON, Some(python)) => python.call(reps),
                    (PYTHON, None) => f64::NAN,
                    _ => {
                        let start = Instant::now();
                        for _ in 0..reps {
                            black_box(self.call(who, input, &input.text));
                        }
                        start.elapsed().as_nanos() as f64
                    }
                };
                taken.push(nanoseconds / reps as f64 / 1000.0);
            }
        }
        times
    }
}

fn quantile(values: &[f64], q: f64) -> f64 {
    let mut sorted = values.to_vec();
    sorted.sort_by(f64::total_cmp);
    sorted[((sorted.len() - 1) as f64 * q).round() as usize]
}

fn print_times(times: &[Vec<f64>], len: usize) {
    let [g, h, python] = ["(g)", "(h)", "python"].map(|name| format!("to {name}: median [10%..90%]"));
    println!("{:10} {:>9} {:>9} {:>6}  {g:>26}  {h:>26}  {python:>29}", "", "best us", "median", "MB/s");
    for (who, name) in NAMES.iter().enumerate() {
        let [g, h, python] = [0, 1, PYTHON].map(|to| {
            let ratios: Vec<f64> = times[who].iter().zip(&times[to]).map(|(x, y)| x / y).collect();
            format!("{:.3} [{:.3}..{:.3}]", quantile(&ratios, 0.5), quantile(&ratios, 0.1), quantile(&ratios, 0.9))
        });
        let (best, median) = (quantile(&times[who], 0.0), quantile(&times[who], 0.5));
        println!("{name:10} {best:9.3} {median:9.3} {:6.0}  {g:>26}  {h:>26}  {python:>29}", len as f64 / median);
    }
}

fn main() {
    let arg = |i: usize, default: usize| env::args().nth(i).and_then(|text| text.parse().ok()).unwrap_or(default);
    let setting = |name: &str| env::var(name).ok().filter(|value| !value.is_empty());
    let (rounds, reps) = (arg(1, 60), arg(2, 10));
    let mut contest = Contest { rooms: [(); 4].map(|()| vec![0; 9 * MOST]), own: vec![0; 9 * MOST] };
    for input in texts::all().iter().filter(|input| setting("CASE").is_none_or(|case| input.label.starts_with(&case))) {
        if setting("LIST").is_some() {
            println!("{}\t{}\t{}", input.label, input.cells.len(), input.text.len());
            continue;
        }
        if let Some(calls) = setting("CALLS") {
            let who = NAMES.iter().position(|name| setting("ONLY").as_deref() == Some(name)).expect("ONLY names a contestant");
            (0..calls.parse().expect("a number")).for_each(|_: u32| assert!(contest.call(who, input, &input.text).is_some()));
            continue;
        }
        contest.compare(input);
        let reps = reps * (1000 / input.text.len()).max(1);
        let times = contest.times(input, rounds, reps, Python::new(input));
        println!("== {}: {} cells, {} bytes of text; {rounds} rounds of {reps} calls", input.label, input.cells.len(), input.text.len());
        print_times(&times, input.text.len());
    }
}
