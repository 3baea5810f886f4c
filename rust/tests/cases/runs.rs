//! Cases for plan, extent, run and page: bundles of either version with recipes of theirs, now and then of the other's steps; extent
//! buffers of exactly a head, one less, more or none; work areas of exactly 9T, one less, more or none; row buffers from nothing to all
//! rows and odd bytes; every kind of start; and pages chained to the end, whose rows joined must be the TRUE cells, each once.

use super::answers::paper_answers;
use super::bundles::{any_mood, arrays, bundle_bytes, deep_arrays};
use super::cells::calm_mood;
use super::dice::Dice;
use super::faults::damaged;
use super::recipes::{of_other_steps, recipe, Aim};
use super::{lent, said, version, Case, Function};
use crate::paper::bundle::{read, Bundle};
use crate::paper::listing::{true_cells, Plan};
use crate::paper::version::{ONE, TWO};

/// A bundle's bytes, what they say (as it was before any fault, if they can't be read), and a recipe over it.
struct Meal {
    bytes: Vec<u8>,
    bundle: Bundle,
    recipe: Vec<u8>,
}

/// Of forty meals, so many have operands that differ on an axis that was drawn: oftener in version 2, and oftener with many axes.
fn meal(dice: &mut Dice, truth: bool, of_forty: u64) -> Meal {
    let (refusing, apart) = (dice.one_in(3), dice.below(40) < of_forty);
    let sizes = if apart { dice.pick(&[ONE, TWO, TWO]) } else { version(dice) };
    let made = if apart && !dice.one_in(4) { deep_arrays } else { arrays };
    let raw = made(dice, sizes, if refusing { any_mood } else { calm_mood });
    let sound = bundle_bytes(sizes, &raw);
    let bundle = read(&sound).expect("a sound bundle");
    let mut recipe = recipe(dice, &bundle, Aim { truth, refusing, apart });
    if dice.one_in(32) {
        recipe = of_other_steps(sizes, &recipe);
    }
    let bytes = if dice.one_in(8) { damaged(dice, sizes, &raw) } else { sound };
    Meal { bundle: read(&bytes).unwrap_or(bundle), bytes, recipe }
}

pub fn plan(dice: &mut Dice) -> Case {
    let truth = dice.one_in(2);
    let meal = meal(dice, truth, 22);
    Case { function: Function::Plan, shared: vec![meal.bytes, meal.recipe], numbers: vec![], lent: vec![said(dice)] }
}

pub fn extent(dice: &mut Dice) -> Case {
    let truth = dice.one_in(2);
    let meal = meal(dice, truth, 22);
    let lent = vec![lent(dice, meal.bundle.sizes.head()), said(dice)];
    Case { function: Function::Extent, shared: vec![meal.bytes, meal.recipe], numbers: vec![], lent }
}

pub fn run(dice: &mut Dice) -> Case {
    let meal = meal(dice, false, 6);
    let cells = Plan::of_recipe(&meal.bundle, &meal.recipe).map_or(4, |plan| plan.cells());
    let lent = vec![lent(dice, 9 * cells), said(dice)];
    Case { function: Function::Run, shared: vec![meal.bytes, meal.recipe], numbers: vec![], lent }
}

/// One page from anywhere, or all pages from ordinality 1 until the end is named.
pub fn pages(dice: &mut Dice) -> Vec<Case> {
    let truth = !dice.one_in(12);
    let meal = meal(dice, truth, 6);
    let plan = Plan::of_recipe(&meal.bundle, &meal.recipe).ok();
    let last = plan.as_ref().and_then(|plan| plan.shapes.last());
    let (axes, cells) = last.map_or((2, 4), |shape| (shape.extent.axes.len(), shape.extent.cells() as usize));
    let all = plan.as_ref().map_or(4, Plan::cells);
    let row = 4 + 4 * axes;
    if let (Some(plan), true) = (&plan, cells <= 64 && dice.one_in(12)) {
        return chain(dice, &meal, plan, row);
    }
    let work = lent(dice, 9 * all);
    let rows = rows(dice, row, cells);
    let start = start(dice, cells);
    vec![Case { function: Function::Page, shared: vec![meal.bytes, meal.recipe], numbers: vec![start], lent: vec![work, rows, said(dice)] }]
}

fn rows(dice: &mut Dice, row: usize, cells: usize) -> Vec<u8> {
    let length = match dice.below(20) {
        0 => 0,
        1 => row - 1,
        2..=5 => row,
        6 => dice.index(row),
        7..=10 => row * cells,
        11..=13 => row * cells + dice.index(2 * row),
        _ => row + dice.index(row * cells.min(8)),
    };
    dice.bytes(length)
}

fn start(dice: &mut Dice, cells: usize) -> u32 {
    let cells = cells as u32;
    let inside = 1 + dice.index(cells as usize) as u32;
    match dice.below(20) {
        0 => dice.pick(&[0, cells + 2, u32::MAX, 1 << 31, cells + 3]),
        1 => cells + 1,
        2 => cells,
        3..=12 => 1,
        _ => inside,
    }
}

/// Page after page, each starting where the last said.
fn chain(dice: &mut Dice, meal: &Meal, plan: &Plan, row: usize) -> Vec<Case> {
    let mut work = vec![0x5A; 9 * plan.cells() + dice.index(3)];
    let room = row * (1 + dice.index(3)) + dice.index(row);
    let end = plan.shapes.last().map_or(0, |shape| shape.extent.cells() as u32 + 1);
    let (mut start, mut joined, mut cases) = (1, vec![], vec![]);
    loop {
        let said = dice.bytes(16);
        let lent = vec![work, dice.bytes(room), said];
        let case = Case { function: Function::Page, shared: vec![meal.bytes.clone(), meal.recipe.clone()], numbers: vec![start], lent };
        let mut answer = paper_answers(&case);
        cases.push(case);
        let number = |at: usize| u32::from_le_bytes(answer.lent[2][at..at + 4].try_into().expect("four bytes"));
        let (written, go_on) = (number(0) as usize, number(4));
        if answer.number != 0 {
            return cases;
        }
        joined.extend(answer.lent[1][..written * row].to_vec());
        if go_on == end {
            check_joined(meal, plan, &joined);
            return cases;
        }
        start = go_on;
        work = answer.lent.swap_remove(0);
    }
}

/// Demand 3, for the paper's own pages: each coordinate whose cell is TRUE, and no other, once, in row-major order.
fn check_joined(meal: &Meal, plan: &Plan, joined: &[u8]) {
    let results = plan.results(&meal.bundle.arrays).expect("values that were accepted");
    let listed = true_cells(results.last().expect("a last result")).into_iter().flat_map(|(ordinality, coordinate)| {
        let positions = coordinate.into_iter().flat_map(|position| position.to_le_bytes());
        ordinality.to_le_bytes().into_iter().chain(positions).collect::<Vec<u8>>()
    });
    assert_eq!(listed.collect::<Vec<u8>>(), joined, "pages joined are not the TRUE cells");
}
