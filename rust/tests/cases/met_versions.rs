//! What request [6] of paper 02 changed, counted: how each function ended in version 2, what was told as a version and stood in a
//! bundle as one, heads and steps of the other version, five axes and more, coordinates of every length, names of 9 letters and more, and
//! unused bytes far down a detail. All of it is worked out from the paper; what the library answers has no part in it.

use super::answers::paper_answers;
use super::bundles::alike;
use super::{other_version, Case, Function, FUNCTIONS};
use crate::paper::array::Shape;
use crate::paper::bundle::{read, Bundle};
use crate::paper::extent::{name_in, Extent};
use crate::paper::judge::{judge, Shapes};
use crate::paper::listing::Plan;
use crate::paper::recipe::{Operation, Step, OPERATIONS};
use crate::paper::refusal::Refusal;
use crate::paper::version::{Sizes, ONE, TWO, VERSIONS};

/// A thing that a case meets; what it meets twice counts once.
#[derive(Clone, Debug, PartialEq, Eq)]
enum Thing {
    /// The function ended with that number (0: done) in version 2.
    Ended(Function, u32),
    /// The function done in version 2, with so many axes: of an array packed or glued, of a result's rows or of its head.
    Deep(Function, usize),
    /// Told that version, which is none: refused with 1 at place 0.
    Told(Function, &'static str),
    /// Told that version, with heads of the other one's length: refused with 1 at that place.
    OtherHeads(Function, u32, u32),
    /// A bundle that is refused with 1 at place 0 for its version alone, which is that.
    Stands(&'static str),
    /// In that version, so many axes in an array of a bundle, or a head of a call that is told it: whether taken, or refused with 1 there.
    Axes(u32, Function, usize, bool),
    /// A coordinate of that length: whether it is a cell's, or refused with 5.
    Coordinate(&'static str, bool),
    /// Over a bundle of that version, whole steps of the other: refused with 4 at place 0.
    OtherSteps(u32, Function),
    /// A bundle of version 2, done, with a name of so many letters.
    Letters(usize),
    /// A bundle of version 2, done, with two names in one array that are the same in their first eight letters.
    Alike,
    /// Refused with 8, the names being the same in their first eight letters.
    Apart(Function),
    /// A recipe of version 2 done, with that operation.
    Operated(Operation),
    /// A rename of version 2 done, with so many names; with a name of so many letters.
    Renamed(usize),
    RenamedTo(usize),
    /// Refused at a rename of version 2: with 4 for a slot past the last axis alone, with 9 for a name that is bad past its eighth byte.
    SlotPast,
    BadPastEight,
    /// Refused with 4 at a step of version 2, for unused bytes from 32 on alone.
    FarDown(Operation),
}

const WITH_RECIPE: [Function; 4] = [Function::Plan, Function::Extent, Function::Run, Function::Page];
const TOLD: [Function; 3] = [Function::Pack, Function::Stretch, Function::ReadJson];
const NO_VERSIONS: [&str; 5] = ["0", "3", "65537", "65538", "another"];
const NOT_STANDING: [&str; 5] = ["0", "3", "257", "258", "another"];
const LENGTHS: [&str; 8] = ["0", "4", "8", "12", "16", "20", "24", "28"];
const NO_POSITIONS: [&str; 2] = ["no multiple of 4 up to 23", "no multiple of 4 over 24"];

/// The numbers that a function may end with.
fn endings(function: Function) -> &'static [u32] {
    match function {
        Function::Read => &[0, 1, 2, 3],
        Function::Array => &[0, 1, 2, 3, 4],
        Function::Pack => &[0, 1, 2, 3, 14],
        Function::Refer => &[0, 1, 2, 3, 4, 5, 6],
        Function::Walk => &[0, 1, 2, 3, 4, 6],
        Function::Total => &[0, 1, 2, 3, 4, 7, 12],
        Function::WriteJson => &[0, 1, 2, 3, 4, 7, 14],
        Function::ReadJson => &[0, 1, 2, 7, 14, 15, 16],
        Function::Plan => &[0, 1, 2, 3, 4, 5, 6, 7, 8, 9],
        Function::Extent => &[0, 1, 2, 3, 4, 5, 6, 7, 8, 9, 14],
        Function::Run => &[0, 1, 2, 3, 4, 5, 6, 7, 8, 9, 10, 12, 13],
        Function::Page => &[0, 1, 2, 3, 4, 5, 6, 7, 8, 9, 10, 11, 12, 13],
        Function::Stretch => &[0, 1, 2, 5, 6, 7, 8, 9],
    }
}

fn name(function: Function) -> &'static str {
    FUNCTIONS[function as usize].1
}

impl Thing {
    /// Every thing, those of one line together.
    fn all() -> Vec<Thing> {
        let mut all = vec![];
        let numbered = FUNCTIONS.iter().flat_map(|(function, ..)| endings(*function).iter().map(|number| (*function, *number)));
        all.extend(numbered.map(|(function, number)| Thing::Ended(function, number)));
        for function in [Function::Pack, Function::Extent, Function::Page, Function::Stretch, Function::ReadJson] {
            all.extend((1..=TWO.most_axes).map(|axes| Thing::Deep(function, axes)));
        }
        for function in TOLD {
            all.extend(NO_VERSIONS.map(|version| Thing::Told(function, version)));
        }
        for told in VERSIONS.map(|sizes| sizes.version) {
            let places = [(Function::Pack, 0), (Function::Stretch, 1), (Function::Stretch, 2), (Function::ReadJson, 0)];
            all.extend(places.map(|(function, place)| Thing::OtherHeads(function, told, place)));
        }
        all.extend(NOT_STANDING.map(Thing::Stands));
        let with_axes = [Function::Read, Function::Pack, Function::Stretch, Function::ReadJson];
        for (sizes, function) in with_axes.iter().flat_map(|f| VERSIONS.map(|s| (s, *f))) {
            all.extend((5..=7).map(|axes| Thing::Axes(sizes.version, function, axes, sizes.fits_axes(axes))));
        }
        all.extend(LENGTHS[1..7].iter().map(|length| Thing::Coordinate(length, true)));
        all.extend(LENGTHS.iter().chain(&NO_POSITIONS).map(|length| Thing::Coordinate(length, false)));
        for sizes in VERSIONS {
            all.extend(WITH_RECIPE.map(|function| Thing::OtherSteps(sizes.version, function)));
        }
        all.extend([1, 8, 9, 10, 12, 14, 15, 16].map(Thing::Letters));
        all.extend([Thing::Alike, Thing::Apart(Function::Run), Thing::Apart(Function::Stretch)]);
        all.extend(OPERATIONS.map(Thing::Operated));
        all.extend((1..=TWO.most_axes).map(Thing::Renamed));
        all.extend([8, 9, 16].map(Thing::RenamedTo));
        all.extend([Thing::SlotPast, Thing::BadPastEight]);
        all.extend(OPERATIONS.map(Thing::FarDown));
        all
    }

    fn line(&self) -> String {
        match self {
            Thing::Ended(function, _) => format!("{} in version 2", name(*function)),
            Thing::Deep(function, _) => format!("{} done in version 2, by axes", name(*function)),
            Thing::Told(function, _) => format!("{} refused 1 0 0 for the version told", name(*function)),
            Thing::OtherHeads(..) => "refused 1 for heads of the other version's length".to_string(),
            Thing::Stands(_) => "refused 1 0 0 for the bundle's version alone".to_string(),
            Thing::Axes(version, _, _, true) => format!("taken in version {version}"),
            Thing::Axes(version, _, _, false) => format!("refused 1 at its array in version {version}"),
            Thing::Coordinate(_, true) => "a cell's coordinate, by bytes".to_string(),
            Thing::Coordinate(_, false) => "a coordinate refused 5, by bytes".to_string(),
            Thing::OtherSteps(..) => "refused 4 0 0 for steps of the other version".to_string(),
            Thing::Letters(_) => "done in version 2, with a name of so many letters".to_string(),
            Thing::Alike | Thing::Apart(_) => "names the same in their first eight letters".to_string(),
            Thing::Operated(_) => "done in version 2, by operation".to_string(),
            Thing::Renamed(_) => "rename done in version 2, by axes".to_string(),
            Thing::RenamedTo(_) => "rename done in version 2, to a name of so many letters".to_string(),
            Thing::SlotPast | Thing::BadPastEight => "rename refused in version 2".to_string(),
            Thing::FarDown(_) => "refused 4 in version 2, for detail bytes from 32 on alone, by operation".to_string(),
        }
    }

    fn words(&self) -> String {
        match self {
            Thing::Ended(_, 0) => "done".to_string(),
            Thing::Ended(_, number) => format!("refused {number}"),
            Thing::Told(_, version) => version.to_string(),
            Thing::OtherHeads(function, told, place) => format!("{} told {told}, place {place}", name(*function)),
            Thing::Stands(version) => version.to_string(),
            Thing::Axes(_, Function::Read, axes, _) => format!("{axes} axes in a bundle"),
            Thing::Axes(_, function, axes, _) => format!("{axes} axes in {}", name(*function)),
            Thing::Coordinate(length, _) => length.to_string(),
            Thing::OtherSteps(version, function) => format!("{} over version {version}", name(*function)),
            Thing::Letters(letters) | Thing::RenamedTo(letters) => letters.to_string(),
            Thing::Alike => "done, in one array".to_string(),
            Thing::Apart(Function::Stretch) => "refused 8 by a stretch".to_string(),
            Thing::Apart(_) => "refused 8 at a step".to_string(),
            Thing::Deep(_, axes) | Thing::Renamed(axes) => axes.to_string(),
            Thing::SlotPast => "with 4 for a slot past the last axis alone".to_string(),
            Thing::BadPastEight => "with 9 for a name that is bad past its eighth byte".to_string(),
            Thing::Operated(operation) | Thing::FarDown(operation) => format!("{operation:?}"),
        }
    }
}

/// How many cases met each.
pub struct MetVersions {
    counts: Vec<(Thing, u64)>,
}

impl MetVersions {
    pub fn new() -> MetVersions {
        MetVersions { counts: Thing::all().into_iter().map(|thing| (thing, 0)).collect() }
    }

    /// Counts what a case meets that the paper answers with that number.
    pub fn count(&mut self, case: &Case, number: u32) {
        let met = if TOLD.contains(&case.function) { met_told(case, number) } else { met_bundle(case, number) };
        self.counts.iter_mut().filter(|(thing, _)| met.contains(thing)).for_each(|(_, count)| *count += 1);
    }

    /// Each line in words.
    pub fn lines(&self) -> Vec<String> {
        let of_line = |line: String| {
            let counts = self.counts.iter().filter(|(thing, _)| thing.line() == line);
            let words: Vec<String> = counts.map(|(thing, count)| format!("{count} {}", thing.words())).collect();
            format!("cases of request [6], {line}: {}", words.join(", "))
        };
        let mut lines: Vec<String> = vec![];
        for (thing, _) in &self.counts {
            if !lines.contains(&thing.line()) {
                lines.push(thing.line());
            }
        }
        lines.into_iter().map(of_line).collect()
    }

    /// What fewer cases than that met.
    pub fn seldom(&self, least: u64) -> Vec<String> {
        let seldom = self.counts.iter().filter(|(_, count)| *count < least);
        seldom.map(|(thing, count)| format!("{}: {count} {}", thing.line(), thing.words())).collect()
    }
}

/// The place of a refusal, also where `said` is too short for it.
fn place(case: &Case) -> u32 {
    let mut whole = case.clone();
    *whole.lent.last_mut().expect("said") = vec![0; 16];
    let answer = paper_answers(&whole);
    u32::from_le_bytes(*answer.lent.last().and_then(|said| said.first_chunk()).expect("four bytes"))
}

/// The axis counts in heads of that length.
fn counts_in(heads: &[u8], length: usize) -> Vec<usize> {
    heads.chunks(length).filter(|head| head.len() == length).map(|head| usize::from(head[1])).collect()
}

/// What a pack, a stretch or a reading of JSON meets, which is told its version.
fn met_told(case: &Case, number: u32) -> Vec<Thing> {
    let (function, told) = (case.function, case.numbers[0]);
    let Some(sizes) = Sizes::of_version(told) else {
        return vec![Thing::Told(function, listed(&NO_VERSIONS, told))];
    };
    let mut met = vec![];
    if sizes == TWO {
        met.push(Thing::Ended(function, number));
    }
    let heads = if function == Function::Stretch { vec![&case.shared[0], &case.shared[2]] } else { vec![&case.shared[0]] };
    let counts: Vec<usize> = heads.iter().flat_map(|heads| counts_in(heads, sizes.head())).collect();
    if number == 0 {
        met.extend(counts.iter().map(|axes| Thing::Axes(told, function, *axes, true)));
        if sizes == TWO {
            met.extend(counts.iter().map(|axes| Thing::Deep(function, *axes)));
        }
    }
    if number == 1 {
        let (place, other) = (place(case), other_version(sizes).head());
        let of_other = |heads: &Vec<u8>| !heads.is_empty() && heads.len() <= 4 * other && heads.len().is_multiple_of(other);
        if heads.get((place as usize).max(1) - 1).is_some_and(|heads| of_other(heads)) {
            met.push(Thing::OtherHeads(function, told, place));
        }
        let at = if function == Function::ReadJson { counts.first() } else { counts.get((place as usize).wrapping_sub(1)) };
        met.extend(at.map(|axes| Thing::Axes(told, function, *axes, false)));
    }
    if number == 8 && function == Function::Stretch && heads_alike(sizes, &heads) {
        met.push(Thing::Apart(function));
    }
    met
}

/// The number as it is listed, else the last of the list.
fn listed(list: &[&'static str], number: u32) -> &'static str {
    let text = number.to_string();
    list.iter().find(|word| **word == text).unwrap_or(&list[list.len() - 1])
}

/// Whether the names of two judged heads are the same in their first eight letters, and not in all.
fn heads_alike(sizes: Sizes, heads: &[&Vec<u8>]) -> bool {
    let names = |head: &Vec<u8>| {
        let slots = head[2..].chunks(sizes.axis).take(usize::from(head[1]));
        slots.filter_map(|slot| name_in(&slot[..sizes.name])).collect::<Vec<String>>()
    };
    let [left, right] = [names(heads[0]), names(heads[1])];
    alike(&texts(&left), &texts(&right))
}

fn texts(names: &[String]) -> Vec<&str> {
    names.iter().map(String::as_str).collect()
}

/// What a call meets that goes by its bundle's version.
fn met_bundle(case: &Case, number: u32) -> Vec<Thing> {
    let bytes = &case.shared[0];
    let Some(version) = bytes.get(3..5).map(|two| u32::from(u16::from_le_bytes([two[0], two[1]]))) else { return vec![] };
    let Some(sizes) = Sizes::of_version(version) else {
        let mended = VERSIONS.iter().any(|sizes| read(&[&bytes[..3], &[sizes.version as u8, 0], &bytes[5..]].concat()).is_ok());
        return mended.then(|| Thing::Stands(listed(&NOT_STANDING, version))).into_iter().collect();
    };
    let mut met = vec![];
    if sizes == TWO {
        met.push(Thing::Ended(case.function, number));
    }
    match read(bytes) {
        Err(refusal) => met.extend(count_at(sizes, bytes, refusal).map(|axes| Thing::Axes(version, Function::Read, axes, false))),
        Ok(bundle) => met.extend(met_read(case, number, &bundle)),
    }
    met
}

/// The axis count of the array that is refused with 1.
fn count_at(sizes: Sizes, bytes: &[u8], refusal: Refusal) -> Option<usize> {
    if refusal.number != 1 || refusal.place == 0 {
        return None;
    }
    let limit = |at: usize| i32::from_le_bytes(bytes[at..at + 4].try_into().expect("four bytes"));
    let mut at = 6;
    for _ in 1..refusal.place {
        let axes = (0..usize::from(bytes[at + 1])).map(|axis| at + 2 + axis * sizes.axis + sizes.name);
        let cells: i32 = axes.map(|limits| limit(limits + 4) - limit(limits) + 1).product();
        at += 2 + usize::from(bytes[at + 1]) * sizes.axis + 9 * cells as usize;
    }
    bytes.get(at + 1).map(|count| usize::from(*count))
}

/// What a call meets whose bundle is accepted.
fn met_read(case: &Case, number: u32, bundle: &Bundle) -> Vec<Thing> {
    let extents: Vec<&Extent> = bundle.arrays.iter().map(|declared| &declared.array.extent).collect();
    let version = bundle.sizes.version;
    let mut met: Vec<Thing> = extents.iter().map(|extent| Thing::Axes(version, Function::Read, extent.axes.len(), true)).collect();
    if number == 0 && bundle.sizes == TWO {
        met.extend(extents.iter().flat_map(|extent| extent.names()).map(|name| Thing::Letters(name.len())));
        if extents.iter().any(|extent| two_alike(&extent.names())) {
            met.push(Thing::Alike);
        }
    }
    if case.function == Function::Refer && [0, 5].contains(&number) {
        met.push(Thing::Coordinate(length_of(&case.shared[1]), number == 0));
    }
    if WITH_RECIPE.contains(&case.function) {
        met.extend(met_recipe(case, number, bundle));
    }
    met
}

/// Whether two of the names are the same in their first eight letters.
fn two_alike(names: &[&str]) -> bool {
    (0..names.len()).any(|later| names[..later].iter().any(|name| alike(&[name], &[names[later]])))
}

fn length_of(coordinate: &[u8]) -> &'static str {
    match coordinate.len() {
        length if length.is_multiple_of(4) => LENGTHS[(length / 4).min(7)],
        ..=23 => NO_POSITIONS[0],
        _ => NO_POSITIONS[1],
    }
}

/// What a recipe over an accepted bundle meets.
fn met_recipe(case: &Case, number: u32, bundle: &Bundle) -> Vec<Thing> {
    let (recipe, other) = (&case.shared[1], other_version(bundle.sizes));
    if number == 4 && recipe.len().is_multiple_of(other.step) && (1..=16).contains(&(recipe.len() / other.step)) {
        return vec![Thing::OtherSteps(bundle.sizes.version, case.function)];
    }
    if bundle.sizes == ONE {
        return vec![];
    }
    match Plan::of_recipe(bundle, recipe) {
        Err(refusal) if refusal.place > 0 => met_refused(bundle, recipe, refusal),
        Ok(plan) if number == 0 => met_done(case.function, &plan),
        _ => vec![],
    }
}

fn met_done(function: Function, plan: &Plan) -> Vec<Thing> {
    let last = plan.shapes.last().expect("a recipe has a step");
    let mut met = vec![Thing::Deep(function, last.extent.axes.len())];
    met.extend(plan.steps.iter().map(|step| Thing::Operated(step.operation)));
    for (step, shape) in plan.steps.iter().zip(&plan.shapes).filter(|(step, _)| step.operation == Operation::Rename) {
        met.push(Thing::Renamed(step.names(shape.extent.axes.len()).len()));
        met.extend(shape.extent.names().iter().map(|name| Thing::RenamedTo(name.len())));
    }
    met
}

/// What the step meets at which a recipe of version 2 is refused.
fn met_refused(bundle: &Bundle, recipe: &[u8], refusal: Refusal) -> Vec<Thing> {
    let before = (refusal.place as usize - 1) * TWO.step;
    let mut shapes = Shapes::of_bundle(bundle);
    shapes.steps = Plan::of_recipe(bundle, &recipe[..before]).map_or(vec![], |plan| plan.shapes);
    let bytes = &recipe[before..before + TWO.step];
    let Some(step) = Step::of_bytes(TWO, bytes) else { return vec![] };
    let Some(a) = shapes.operand(step.a) else { return vec![] };
    match refusal.number {
        4 => met_unused(&step, a, &shapes, bytes),
        8 => {
            let b = shapes.operand(step.b).expect("an operand that was compared");
            let mut left = a.extent.names();
            if step.operation == Operation::Place {
                left.remove(step.axis_at());
            }
            alike(&left, &b.extent.names()).then_some(Thing::Apart(Function::Run)).into_iter().collect()
        }
        9 if step.operation == Operation::Rename => {
            let slots: Vec<&[u8]> = bytes[4..].chunks(TWO.name).take(a.extent.axes.len()).collect();
            let bad_past_eight = slots.iter().any(|slot| name_in(slot).is_none() && name_in(&slot[..ONE.name]).is_some());
            bad_past_eight.then_some(Thing::BadPastEight).into_iter().collect()
        }
        _ => vec![],
    }
}

/// A step that is refused with 4: whether with zeros from byte 32 of the detail on, or in the slots past the last axis, it is not.
fn met_unused(step: &Step, a: &Shape, shapes: &Shapes, bytes: &[u8]) -> Vec<Thing> {
    let mended = |from: usize| {
        let mut mended = bytes.to_vec();
        mended.iter_mut().skip(4 + from).for_each(|byte| *byte = 0);
        judge(&mended, shapes).err() != Some((4, 0))
    };
    let used = match step.operation {
        Operation::Rename => TWO.name * a.extent.axes.len(),
        Operation::Trim | Operation::Reshape => 8 * a.extent.axes.len(),
        _ => 0,
    };
    let mut met = vec![];
    if mended(used.max(ONE.detail)) {
        met.push(Thing::FarDown(step.operation));
    }
    if step.operation == Operation::Rename && mended(used) {
        met.push(Thing::SlotPast);
    }
    met
}
