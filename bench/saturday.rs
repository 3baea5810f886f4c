//! What two hundred recipes take: 200 page calls in a row, by the engine and by (b), the five inputs of pair steps in turn, each with a
//! page that has room for all 4,096 rows. Both run in turn in every round; the ratio is taken within a round.
#[allow(dead_code)]
mod baselines;
#[allow(dead_code)]
mod contest;
#[allow(dead_code)]
mod inputs;
use contest::{Contest, B, ENGINE, NAMES};
use inputs::{Input, CELLS};
use std::{env, hint::black_box, time::Instant};

const RECIPES: usize = 200;

/// Milliseconds that all the recipes take, one after the other.
fn morning(contest: &mut Contest, who: usize, inputs: &[Input]) -> f64 {
    let start = Instant::now();
    for input in inputs.iter().cycle().take(RECIPES) {
        black_box(contest.call(who, black_box(&input.bundle), black_box(&input.recipe)));
    }
    start.elapsed().as_nanos() as f64 / 1e6
}

fn best_and_median(mut values: Vec<f64>) -> (f64, f64) {
    values.sort_by(f64::total_cmp);
    (values[0], values[values.len() / 2])
}

fn main() {
    let rounds = env::args().nth(1).and_then(|text| text.parse().ok()).unwrap_or(60).max(1);
    let inputs: Vec<Input> = inputs::all().into_iter().filter(|input| input.asked).collect();
    let mut contest = Contest::new(CELLS);
    inputs.iter().for_each(|input| contest.compare(input));
    let [mut plain, mut engine] = [B, ENGINE].map(|_| Vec::with_capacity(rounds));
    for _ in 0..rounds {
        plain.push(morning(&mut contest, B, &inputs));
        engine.push(morning(&mut contest, ENGINE, &inputs));
    }
    let (_, ratio) = best_and_median(engine.iter().zip(&plain).map(|(x, y)| x / y).collect());
    println!("== {RECIPES} recipes of 16 pair steps in a row, 64 by 64, pages of {CELLS} rows; {rounds} rounds");
    println!("{:10} {:>8} {:>8}", "", "best ms", "median");
    for (who, times) in [(B, plain), (ENGINE, engine)] {
        let (best, median) = best_and_median(times);
        println!("{:10} {best:8.1} {median:8.1}", NAMES[who]);
    }
    println!("engine to (b): {ratio:.2}");
}
