//! Plan, extent, run and page: the recipe judged step by step, then listing type (7), work area (10) and rows (11), then values,
//! step by step, one whole array at a time. Says what each lent buffer holds afterwards.

use super::array::{Array, Declared, Shape};
use super::bundle::{axis_bytes, Bundle};
use super::cell::{Cell, Type, CELL_BYTES};
use super::extent::{HIGHEST, LOWEST};
use super::judge::{judge, Shapes};
use super::recipe::{steps_in, Step};
use super::refusal::{refused, refused_at, Refusal};

/// A recipe whose every step was judged good, with the shapes of its results.
pub struct Plan {
    pub steps: Vec<Step>,
    pub shapes: Vec<Shape>,
}

impl Plan {
    /// The plan of a recipe over a bundle, or the first refusal.
    pub fn of_recipe(bundle: &Bundle, recipe: &[u8]) -> Result<Plan, Refusal> {
        let mut shapes = Shapes::of_bundle(bundle);
        let mut steps = vec![];
        for (number, bytes) in (1..).zip(steps_in(bundle.sizes, recipe)?) {
            let (step, shape) = judge(bytes, &shapes).map_err(|(refusal, ordinality)| refused_at(refusal, number, ordinality))?;
            steps.push(step);
            shapes.steps.push(shape);
        }
        Ok(Plan { steps, shapes: shapes.steps })
    }

    /// T: the number of cells of all step results together.
    pub fn cells(&self) -> usize {
        self.shapes.iter().map(|shape| shape.extent.cells() as usize).sum()
    }

    fn last(&self) -> &Shape {
        self.shapes.last().expect("a recipe has a step")
    }

    /// The results of all steps in step order, or the first cell that refuses.
    pub fn results(&self, arrays: &[Declared]) -> Result<Vec<Array>, Refusal> {
        let mut results: Vec<Array> = vec![];
        for (number, (step, shape)) in (1..).zip(self.steps.iter().zip(&self.shapes)) {
            let b = step.uses_b().then(|| operand(arrays, &results, step.b));
            let result = super::moves::carry_out(step, shape, operand(arrays, &results, step.a), b);
            let result = result.map_err(|(refusal, ordinality)| refused_at(refusal, number, ordinality))?;
            results.push(result);
        }
        Ok(results)
    }

    /// Values after all judging: the work area then begins with all results, or with 9T zeros if a cell refuses.
    fn fill(&self, arrays: &[Declared], work: &mut [u8]) -> Result<Array, Refusal> {
        let begin = &mut work[..CELL_BYTES * self.cells()];
        match self.results(arrays) {
            Ok(mut results) => {
                begin.copy_from_slice(&results.iter().flat_map(Array::cell_bytes).collect::<Vec<u8>>());
                Ok(results.pop().expect("a recipe has a step"))
            }
            Err(refusal) => {
                begin.fill(0);
                Err(refusal)
            }
        }
    }
}

/// The array that an operand of a judged step names: 1..4 of the bundle, 17..32 the result of step 1..16.
pub fn operand<'a>(arrays: &'a [Declared], results: &'a [Array], which: u8) -> &'a Array {
    match which {
        1..=4 => &arrays[usize::from(which) - 1].array,
        _ => &results[usize::from(which) - 17],
    }
}

/// The plan call: T, and the last result's type, axis count and number of cells.
pub fn plan(bundle: &Bundle, recipe: &[u8]) -> Result<[u32; 4], Refusal> {
    let plan = Plan::of_recipe(bundle, recipe)?;
    let last = plan.last();
    Ok([plan.cells() as u32, u32::from(last.of.byte()), last.extent.axes.len() as u32, last.extent.cells() as u32])
}

/// The extent call: the length of a head of the bundle's version, and the last result's head at the beginning of `head`: each axis
/// with the widest maximum, then zeros.
pub fn extent(bundle: &Bundle, recipe: &[u8], head: &mut [u8]) -> Result<u32, Refusal> {
    let (sizes, plan) = (bundle.sizes, Plan::of_recipe(bundle, recipe)?);
    let room = head.get_mut(..sizes.head()).ok_or(refused(14, 0))?;
    let axes = &plan.last().extent.axes;
    let mut bytes = vec![plan.last().of.byte(), axes.len() as u8];
    axes.iter().for_each(|axis| bytes.extend(axis_bytes(sizes, axis, (LOWEST as i32, HIGHEST as i32))));
    bytes.resize(sizes.head(), 0);
    room.copy_from_slice(&bytes);
    Ok(sizes.head() as u32)
}

/// The run call: T, and the work area filled.
pub fn run(bundle: &Bundle, recipe: &[u8], work: &mut [u8]) -> Result<u32, Refusal> {
    let plan = Plan::of_recipe(bundle, recipe)?;
    if work.len() < CELL_BYTES * plan.cells() {
        return Err(refused(10, 0));
    }
    plan.fill(&bundle.arrays, work)?;
    Ok(plan.cells() as u32)
}

/// The page call: rows written and where to go on, the work area filled, and the rows at the beginning of `rows`.
pub fn page(bundle: &Bundle, recipe: &[u8], work: &mut [u8], start: u32, rows: &mut [u8]) -> Result<(u32, u32), Refusal> {
    let plan = Plan::of_recipe(bundle, recipe)?;
    let row_bytes = 4 + 4 * plan.last().extent.axes.len();
    let past_last = plan.last().extent.cells() as u32 + 1;
    if plan.last().of != Type::Boolean {
        return Err(refused(7, plan.steps.len() as u32));
    }
    if work.len() < CELL_BYTES * plan.cells() {
        return Err(refused(10, 0));
    }
    if rows.len() < row_bytes || start == 0 || start > past_last {
        return Err(refused(11, 0));
    }
    let result = plan.fill(&bundle.arrays, work)?;
    let room = rows.len() / row_bytes;
    let listed: Vec<_> = true_cells(&result).into_iter().filter(|(ordinality, _)| *ordinality >= start).take(room).collect();
    for (row, (ordinality, coordinate)) in rows.chunks_exact_mut(row_bytes).zip(&listed) {
        let numbers = coordinate.iter().flat_map(|position| position.to_le_bytes());
        row.copy_from_slice(&ordinality.to_le_bytes().into_iter().chain(numbers).collect::<Vec<u8>>());
    }
    let filled = listed.len() == room;
    let go_on = if filled { listed[room - 1].0 + 1 } else { past_last };
    Ok((listed.len() as u32, go_on))
}

/// Ordinality and coordinate of each cell that is TRUE, in row-major order.
pub fn true_cells(array: &Array) -> Vec<(u32, Vec<i32>)> {
    let cells = array.in_order().into_iter().filter(|(_, _, cell)| *cell == Cell::Truth(true));
    cells.map(|(ordinality, coordinate, _)| (ordinality, coordinate)).collect()
}
