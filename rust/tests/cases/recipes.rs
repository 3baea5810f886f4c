//! Recipes made up over a bundle: built step by step so that most pass and have values, with a loose step in some, with operands that
//! differ on an axis that was drawn in others, and damaged afterwards in some.

use super::apart;
use super::dice::Dice;
use super::faults::change_byte;
use super::other_version;
use super::steps::{self, StepBytes};
use crate::paper::array::Array;
use crate::paper::bundle::Bundle;
use crate::paper::cell::Cell;
use crate::paper::judge::{judge, Shapes};
use crate::paper::listing::operand;
use crate::paper::moves::carry_out;
use crate::paper::recipe::{Step, MOST_STEPS};
use crate::paper::version::Sizes;

/// A recipe in the making: the shapes so far, and the arrays so far while every value is known.
struct Kitchen<'a> {
    bundle: &'a Bundle,
    shapes: Shapes,
    results: Option<Vec<Array>>,
    recipe: Vec<u8>,
    most_cells: u128,
}

/// What a recipe should come to: a last step in truth values, a value that refuses, two operands that differ.
#[derive(Clone, Copy)]
pub struct Aim {
    pub truth: bool,
    pub refusing: bool,
    pub apart: bool,
}

/// A recipe over the bundle that mostly comes to its aim.
pub fn recipe(dice: &mut Dice, bundle: &Bundle, aim: Aim) -> Vec<u8> {
    let (sizes, shapes) = (bundle.sizes, Shapes::of_bundle(bundle));
    let most_cells = dice.pick(&[48, 48, 48, 4_096]);
    let mut kitchen = Kitchen { bundle, shapes, results: Some(vec![]), recipe: vec![], most_cells };
    let count = match dice.below(20) {
        0 => 16,
        1..=3 => 7 + dice.index(10),
        _ => 1 + dice.index(6),
    };
    let apart_at = if aim.apart { dice.index(count.min(1 + MOST_STEPS - apart::MOST)) } else { count };
    let loose_at = if !aim.apart && dice.one_in(3) { dice.index(count) } else { count };
    let refusing_at = if aim.refusing { dice.index(count) } else { count };
    let mut number = 0;
    while number < count {
        if number == apart_at {
            apart::steps(dice, &kitchen.shapes).iter().for_each(|bytes| kitchen.add(bytes));
        } else if number == loose_at {
            let shapes = &kitchen.shapes;
            let bytes = match dice.below(2) {
                0 => steps::loose(dice, shapes),
                _ => steps::of_alike(dice, shapes).unwrap_or_else(|| steps::aimed(dice, shapes)),
            };
            kitchen.add(&bytes);
        } else if number != refusing_at || !kitchen.add_refusing(dice) {
            kitchen.add_fitting(dice, aim.truth && number + 1 == count);
        }
        number = kitchen.recipe.len() / sizes.step;
    }
    damaged(dice, sizes, kitchen.recipe, if aim.apart { 32 } else { 8 })
}

/// The recipe as it is, or one in so many with a fault in its bytes.
fn damaged(dice: &mut Dice, sizes: Sizes, mut recipe: Vec<u8>, faulty: u64) -> Vec<u8> {
    if dice.one_in(faulty) {
        damage(dice, sizes, &mut recipe);
    }
    if sizes.detail > 32 && dice.one_in(10) {
        far_down(dice, sizes, &mut recipe);
    }
    recipe
}

/// A byte from 32 on of one step's detail set to something: past what version 1 has.
fn far_down(dice: &mut Dice, sizes: Sizes, recipe: &mut [u8]) {
    let seldom: Vec<usize> = (0..recipe.len()).step_by(sizes.step).filter(|&at| [2, 3, 4, 7].contains(&recipe[at])).collect();
    let any = sizes.step * dice.index(recipe.len() / sizes.step + 1);
    let at = dice.pick_if_any(&seldom).filter(|_| dice.one_in(2)).unwrap_or(any);
    let anywhere = 32 + dice.index(sizes.detail - 32);
    let byte = dice.pick(&[32, anywhere, anywhere, sizes.detail - 1]);
    recipe.iter_mut().skip(at + 4 + byte).take(1).for_each(|byte| *byte = 1 + dice.below(255) as u8);
}

/// The recipe in steps of the other version: each detail cut, or filled with zeros.
pub fn of_other_steps(sizes: Sizes, recipe: &[u8]) -> Vec<u8> {
    let length = other_version(sizes).step;
    recipe.chunks(sizes.step).flat_map(|step| step.iter().copied().chain(std::iter::repeat(0)).take(length)).collect()
}

impl Kitchen<'_> {
    /// A step that passes and has values, after a few tries; if none does, is-empty of the latest.
    fn add_fitting(&mut self, dice: &mut Dice, truth: bool) {
        for _ in 0..24 {
            let passes = |bytes: &StepBytes| self.passes(bytes);
            if let Some(bytes) = self.proposed(dice, truth).filter(passes) {
                return self.add(&bytes);
            }
        }
        let latest = steps::operand(dice, &self.shapes);
        self.add(&steps::step(self.bundle.sizes, 12, latest, 0, 0, &[4]));
    }

    /// A step that should pass; where they can be had, often one on what a comparison with an empty cell gave, and now and then a
    /// comparison with an empty cell on one side alone.
    fn proposed(&self, dice: &mut Dice, truth: bool) -> Option<StepBytes> {
        let with_empty = match dice.below(16) {
            0..=2 => self.on_unknown(dice),
            3 | 4 => self.one_empty(dice),
            _ => None,
        };
        let any = |dice: &mut Dice| if truth { steps::truth(dice, &self.shapes) } else { steps::fitting(dice, &self.shapes) };
        with_empty.or_else(|| any(dice))
    }

    /// A step on one of those steps so far that are comparisons with an empty cell in their result.
    fn on_unknown(&self, dice: &mut Dice) -> Option<StepBytes> {
        let sizes = self.bundle.sizes;
        let compares = |bytes: &[u8]| Step::of_bytes(sizes, bytes).is_some_and(|step| step.compares());
        let unknown = |(bytes, result): (&[u8], &Array)| compares(bytes) && result.cells.values().any(|cell| *cell == Cell::Empty);
        let steps = (17..).zip(self.recipe.chunks(sizes.step).zip(self.results.as_ref()?));
        let found: Vec<u8> = steps.filter(|(_, step)| unknown(*step)).map(|(operand, _)| operand).collect();
        let which = dice.pick_if_any(&found)?;
        steps::on_unknown(dice, &self.shapes, which)
    }

    /// A comparison of two operands of which one is empty where the other is filled.
    fn one_empty(&self, dice: &mut Dice) -> Option<StepBytes> {
        let results = self.results.as_ref()?;
        let array = |which: u8| operand(&self.bundle.arrays, results, which);
        let all = steps::operands(&self.shapes);
        let pairs = all.iter().flat_map(|&a| all.iter().map(move |&b| (a, b)));
        let found: Vec<(u8, u8)> = pairs.filter(|&(a, b)| emptied_apart(array(a), array(b))).collect();
        let (a, b) = dice.pick_if_any(&found)?;
        Some(steps::comparison(dice, self.bundle.sizes, array(a).of, a, b))
    }

    /// A step that is judged good and has a cell that refuses, if one is found in a few tries.
    fn add_refusing(&mut self, dice: &mut Dice) -> bool {
        for _ in 0..24 {
            let Some(bytes) = steps::risky(dice, &self.shapes) else { continue };
            let refuses = |results: &Vec<Array>| self.carried_out(&bytes, results).is_none();
            if judge(&bytes, &self.shapes).is_ok() && self.results.as_ref().is_some_and(refuses) {
                self.add(&bytes);
                return true;
            }
        }
        false
    }

    /// Whether the step is judged good, its result not too large, and no cell of it refuses.
    fn passes(&self, bytes: &[u8]) -> bool {
        let Ok((_, shape)) = judge(bytes, &self.shapes) else { return false };
        let small = shape.extent.cells() <= self.most_cells;
        small && self.results.as_ref().is_none_or(|results| self.carried_out(bytes, results).is_some())
    }

    fn carried_out(&self, bytes: &[u8], results: &[Array]) -> Option<Array> {
        let (step, shape) = judge(bytes, &self.shapes).ok()?;
        let b = step.uses_b().then(|| operand(&self.bundle.arrays, results, step.b));
        carry_out(&step, &shape, operand(&self.bundle.arrays, results, step.a), b).ok()
    }

    /// The step as it is. If it doesn't pass, later steps see A's shape in its stead.
    fn add(&mut self, bytes: &[u8]) {
        let known = self.results.take();
        self.results = known.and_then(|mut results| {
            results.push(self.carried_out(bytes, &results)?);
            Some(results)
        });
        let stead = self.shapes.operand(bytes[1]).cloned();
        let shape = judge(bytes, &self.shapes).ok().map(|(_, shape)| shape).or(stead);
        self.shapes.steps.extend(shape);
        self.recipe.extend(bytes);
    }
}

/// Whether two arrays of one type and extent have a coordinate at which one of them is empty and the other filled.
fn emptied_apart(a: &Array, b: &Array) -> bool {
    let empty = |cell: &Cell| *cell == Cell::Empty;
    a.of == b.of && a.extent == b.extent && a.cells.values().zip(b.cells.values()).any(|(a, b)| empty(a) != empty(b))
}

/// One fault in the recipe's bytes.
fn damage(dice: &mut Dice, sizes: Sizes, recipe: &mut Vec<u8>) {
    let count = recipe.len() / sizes.step;
    let at = sizes.step * dice.index(count);
    match dice.below(16) {
        0 => change_byte(dice, recipe),
        1 => recipe.truncate(dice.index(recipe.len())),
        2 => recipe.resize(recipe.len() + 1 + dice.index(40), 0),
        3 => recipe.clear(),
        4 => {
            let last = recipe[recipe.len() - sizes.step..].to_vec();
            (count..17).for_each(|_| recipe.extend(&last));
        }
        5 => recipe[at] = dice.pick(&[0, 13, 255, 14]),
        6 => recipe[at + 1 + dice.index(2)] = dice.pick(&[0, 5, 16, 33, 255, 32, 17 + (at / sizes.step) as u8, 4, 3]),
        7 => recipe[at + 3] = dice.pick(&[0, 1, 2, 5, 255]),
        8 => recipe[at + 4] = dice.pick(&[0, 14, 255, 5, 13, 7, 8]),
        9 => recipe[at + 4 + dice.index(sizes.detail)] = 1 + dice.below(255) as u8,
        10 | 11 => recipe[at + dice.pick(&[5, 6, 7, 2, 3, 16, 35, sizes.step - 1])] = 1,
        _ => {
            let slot = at + 4 + 4 * dice.index(4);
            recipe[slot..slot + 4].copy_from_slice(&dice.extreme().to_le_bytes());
        }
    }
}
