//! Two arrays that do not match, refused with 8: what differs first, and what stands there in both of them.

use crate::bundle::Bundle;
use crate::extent::Axis;
use crate::recipe::{PLACE, STEPS_FROM};
use crate::refusal::{Counts, Refusal};
use crate::version::Version;

/// What differs first, as the ordinality of an 8 says it; an axis by its index in A, from 1.
#[derive(Clone, Copy)]
pub(crate) enum Differs {
    Count,
    Name(usize),
    Lower(usize),
    Upper(usize),
}

impl Differs {
    /// What that ordinality says, if the engine gives such a one.
    pub(crate) fn of(ordinality: u32) -> Option<Differs> {
        let index = ordinality as usize / 10;
        match (ordinality, ordinality % 10) {
            (4, _) => Some(Differs::Count),
            _ if !(1..=Version::Two.most_axes()).contains(&index) => None,
            (_, 1) => Some(Differs::Name(index)),
            (_, 2) => Some(Differs::Lower(index)),
            (_, 3) => Some(Differs::Upper(index)),
            _ => None,
        }
    }

    /// The axis, unless it is the number of axes that differs.
    pub(crate) fn axis(self) -> Option<usize> {
        match self {
            Differs::Count => None,
            Differs::Name(index) | Differs::Lower(index) | Differs::Upper(index) => Some(index),
        }
    }

    /// What is said of the two arrays, of a place too, whose B has one axis fewer.
    pub(crate) fn reason(self) -> &'static str {
        match self {
            Differs::Count => "the numbers of axes of the two arrays do not fit",
            Differs::Name(_) => "the axis names of the two arrays differ",
            Differs::Lower(_) => "the lower limits of the two arrays differ",
            Differs::Upper(_) => "the upper limits of the two arrays differ",
        }
    }
}

impl Refusal {
    /// The refusal in words, and for an 8 at a step by the axis's name and what stands there in both arrays. Bundle and recipe are those
    /// that were refused; the engine is asked what they are. Other refusals are [`words`](Refusal::words) alone, and so is an 8 that isn't
    /// this recipe's over this bundle.
    ///
    /// ```
    /// use rovgrint::{pack, step, Axis, Bundle, Cell, Head, Kind, Operator, Version};
    ///
    /// let turns = Head { kind: Kind::Int, axes: vec![Axis::new("who", 1, 2), Axis::new("turn", 1, 3)] };
    /// let (starts, ends) = ([1320, 2760, 4200, 360, 1200, 3240], [1800, 3240, 4680, 840, 1680, 3720]);
    /// let mut bytes = [0; 214];
    /// pack(Version::One, &[turns.clone(), turns], &[starts, ends].concat().into_iter().map(Cell::Int).collect::<Vec<_>>(), &mut bytes)?;
    /// let roster = Bundle::read(&bytes)?;
    ///
    /// let trimmed = roster.recipe().trim(1, &[(1, 2), (2, 3)]).trim(2, &[(1, 2), (1, 2)]);
    /// let recipe = trimmed.pair(step(1), step(2), Operator::Minus).right_scalar(step(3), Operator::Less, Cell::Int(660));
    /// let refusal = roster.listing(&recipe).unwrap_err();
    /// assert_eq!(refusal.to_string(), "refused 8 3 22");
    /// assert_eq!(refusal.words(), "step 3, axis 2: the lower limits of the two arrays differ");
    /// let by_name = "step 3: axis 2, turn, begins at 2 in step 1's result and at 1 in step 2's result";
    /// assert_eq!(refusal.words_for(&roster, &recipe), by_name);
    /// # Ok::<(), rovgrint::Refusal>(())
    /// ```
    pub fn words_for(&self, bundle: &Bundle<'_>, recipe: &(impl AsRef<[u8]> + ?Sized)) -> String {
        let belongs = self.counts == Counts::Steps && bundle.plan(recipe).err() == Some(*self);
        let on_both = belongs.then(|| on_both_sides(self, bundle, recipe.as_ref())).flatten();
        on_both.map_or_else(|| self.words(), |sentence| format!("step {}: {sentence}", self.place))
    }
}

/// What stands in the two operands of the step where the refusal says that they differ.
fn on_both_sides(refusal: &Refusal, bundle: &Bundle<'_>, recipe: &[u8]) -> Option<String> {
    let differs = refusal.differs()?;
    let at = bundle.version().step() * (refusal.place as usize).checked_sub(1)?;
    let (before, from) = recipe.split_at_checked(at)?;
    let [operation, a, b, axis] = *from.first_chunk()?;
    let (a, b) = (Operand::find(bundle, before, a)?, Operand::find(bundle, before, b)?);
    let placed = (operation == PLACE).then_some(usize::from(axis));
    let Some(index) = differs.axis() else {
        return Some(counts(&a, &b, placed.is_some()));
    };
    let behind = placed.is_some_and(|placed| placed < index);
    let index_in_b = index - usize::from(behind);
    let (in_a, in_b) = (a.axis(index)?, b.axis(index_in_b)?);
    let name = &in_a.name;
    Some(match differs {
        Differs::Lower(_) => format!("axis {index}, {name}, begins at {} in {} and at {} in {}", in_a.lower, a.name, in_b.lower, b.name),
        Differs::Upper(_) => format!("axis {index}, {name}, ends at {} in {} and at {} in {}", in_a.upper, a.name, in_b.upper, b.name),
        _ if behind => format!("axis {index} is {name} in {} and axis {index_in_b} is {} in {}", a.name, in_b.name, b.name),
        _ => format!("axis {index} is {name} in {} and {} in {}", a.name, in_b.name, b.name),
    })
}

/// How many axes both have, and for a place how many B would need.
fn counts(a: &Operand, b: &Operand, placed: bool) -> String {
    let (of_a, of_b) = (a.axes.len(), b.axes.len());
    let axes = if of_a == 1 { "axis" } else { "axes" };
    match (placed, of_a) {
        (false, _) => format!("{} has {of_a} {axes} and {} has {of_b}", a.name, b.name),
        (true, ..=1) => format!("{} has {of_a} {axes}, so nothing can be placed in it", a.name),
        (true, _) => format!("{} has {of_a} {axes}, and {} has {of_b} where {} would fit", a.name, b.name, of_a - 1),
    }
}

/// An operand of a step: what it is called, and its axes.
struct Operand {
    name: String,
    axes: Vec<Axis>,
}

impl Operand {
    /// The operand with that number: an array of the bundle, or the result of one of the steps before.
    fn find(bundle: &Bundle<'_>, before: &[u8], number: u8) -> Option<Operand> {
        let number = usize::from(number);
        let Some(step) = number.checked_sub(STEPS_FROM) else {
            let axes = bundle.array(number as u32).ok()?.axes().to_vec();
            return Some(Operand { name: format!("array {number}"), axes });
        };
        let up_to = before.get(..step * bundle.version().step())?;
        Some(Operand { name: format!("step {step}'s result"), axes: bundle.extent(up_to).ok()?.axes })
    }

    /// The axis with that index, from 1.
    fn axis(&self, index: usize) -> Option<&Axis> {
        self.axes.get(index.checked_sub(1)?)
    }
}
