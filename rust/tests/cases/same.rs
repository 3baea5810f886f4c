//! A case of version 1 rewritten as one of version 2, request [6] of paper 02: names padded to 16 bytes, steps to 100, and the buffers
//! whose length follows from the format made longer by the format's difference. Its answer must be the same, but for the bytes that are
//! the format's: a packed bundle and its length, the head of a result and its length, and the byte at which an array's cells begin.

use super::{Answer, Case, Function};
use crate::paper::bundle::{read, Bundle};
use crate::paper::recipe::{Operation, Step, MOST_STEPS};
use crate::paper::version::{ONE, TWO};

/// The bytes that an axis has more in version 2.
const MORE_AN_AXIS: usize = TWO.axis - ONE.axis;

/// The case as one of version 2: a version 1 case whose bundle is accepted and whose recipe, if it has one, is 1 to 16 whole steps; or a
/// packing, a stretch or a reading of JSON, told version 1, whose heads are whole and have 1 to 4 axes.
pub fn rewritten(case: &Case) -> Option<Case> {
    let mut case = case.clone();
    match case.function {
        Function::Pack => {
            tell_two(&mut case)?;
            let more = MORE_AN_AXIS * axes_of_heads(&case.shared[0])?;
            lengthen(&mut case.lent[0], more);
            case.shared[0] = heads(&case.shared[0])?;
        }
        Function::Stretch => {
            tell_two(&mut case)?;
            for side in [0, 2] {
                case.shared[side] = one_head(&case.shared[side])?;
            }
        }
        Function::ReadJson => {
            tell_two(&mut case)?;
            case.shared[0] = one_head(&case.shared[0])?;
        }
        function => {
            let bundle = read(&case.shared[0]).ok().filter(|bundle| bundle.sizes == ONE)?;
            if matches!(function, Function::Plan | Function::Extent | Function::Run | Function::Page) {
                case.shared[1] = recipe(&case.shared[1])?;
            }
            if function == Function::Extent {
                lengthen(&mut case.lent[0], TWO.head() - ONE.head());
            }
            case.shared[0] = bundle_bytes(&case.shared[0], &bundle);
        }
    }
    Some(case)
}

fn tell_two(case: &mut Case) -> Option<()> {
    let told = &mut case.numbers[0];
    (std::mem::replace(told, TWO.version) == ONE.version).then_some(())
}

/// Longer by so many bytes, which hold something.
fn lengthen(buffer: &mut Vec<u8>, more: usize) {
    buffer.resize(buffer.len() + more, 0x3C);
}

/// Bytes that are one axis or more of version 1, each name padded.
fn axes(bytes: &[u8]) -> Vec<u8> {
    bytes.chunks(ONE.axis).flat_map(|axis| [padded(&axis[..ONE.name]), axis[ONE.name..].to_vec()].concat()).collect()
}

fn padded(name: &[u8]) -> Vec<u8> {
    let mut name = name.to_vec();
    name.resize(TWO.name, 0);
    name
}

/// Whole heads of 1 to 4 axes each, the slots that version 2 has more filled with something.
fn heads(bytes: &[u8]) -> Option<Vec<u8>> {
    axes_of_heads(bytes)?;
    let head = |head: &[u8]| {
        let mut longer = [&head[..2], &axes(&head[2..])].concat();
        lengthen(&mut longer, TWO.head() - 2 - ONE.most_axes * TWO.axis);
        longer
    };
    Some(bytes.chunks(ONE.head()).flat_map(head).collect())
}

/// One whole head of 1 to 4 axes.
fn one_head(bytes: &[u8]) -> Option<Vec<u8>> {
    Some(bytes).filter(|head| head.len() == ONE.head()).and_then(heads)
}

/// The number of axes that whole heads have together, if each has 1 to 4.
fn axes_of_heads(bytes: &[u8]) -> Option<usize> {
    let count = |head: &[u8]| Some(usize::from(head[1])).filter(|count| head.len() == ONE.head() && ONE.fits_axes(*count));
    bytes.chunks(ONE.head()).map(|head| if head.len() < 2 { None } else { count(head) }).sum()
}

/// A recipe of 1 to 16 whole steps, each step's detail filled with zeros, and the names of a rename padded slot by slot.
fn recipe(bytes: &[u8]) -> Option<Vec<u8>> {
    let whole = bytes.len().is_multiple_of(ONE.step) && (1..=MOST_STEPS).contains(&(bytes.len() / ONE.step));
    let step = |step: &[u8]| {
        let renames = Step::of_bytes(ONE, step).is_some_and(|step| step.operation == Operation::Rename);
        let (front, detail) = step.split_at(ONE.step - ONE.detail);
        let detail = if renames { detail.chunks(ONE.name).flat_map(padded).collect() } else { detail.to_vec() };
        let mut longer = [front, &detail].concat();
        longer.resize(TWO.step, 0);
        longer
    };
    whole.then(|| bytes.chunks(ONE.step).flat_map(step).collect())
}

/// The bytes of a bundle that was read so.
fn bundle_bytes(bytes: &[u8], bundle: &Bundle) -> Vec<u8> {
    let mut longer = [&bytes[..3], &[TWO.version as u8, 0, bytes[5]]].concat();
    let mut from = 6;
    for declared in &bundle.arrays {
        let end = declared.cells_begin + 9 * declared.array.cells.len();
        longer.extend(&bytes[from..from + 2]);
        longer.extend(axes(&bytes[from + 2..declared.cells_begin]));
        longer.extend(&bytes[declared.cells_begin..end]);
        from = end;
    }
    longer
}

/// What the rewritten case must give, where the case gave that answer.
pub fn expected(case: &Case, twin: &Case, answer: &Answer) -> Answer {
    let mut answer = answer.clone();
    let refused = answer.number != 0;
    match case.function {
        Function::Pack => {
            let axes = axes_of_heads(&case.shared[0]).expect("heads that were rewritten");
            let length = 6 + 2 * (case.shared[0].len() / ONE.head()) + ONE.axis * axes + case.shared[1].len();
            let packed = |bytes: &[u8]| bundle_bytes(bytes, &read(bytes).expect("a bundle that was packed"));
            rewrite(&mut answer, refused, twin, length, packed);
        }
        Function::Extent => rewrite(&mut answer, refused, twin, ONE.head(), head_of_result),
        Function::Array if !refused => {
            let bundle = read(&case.shared[0]).expect("a bundle that was accepted");
            let before = &bundle.arrays[..case.numbers[0] as usize];
            let axes: usize = before.iter().map(|declared| declared.array.extent.axes.len()).sum();
            let begin = before.last().expect("an array").cells_begin + MORE_AN_AXIS * axes;
            say(&mut answer, 12, begin);
        }
        _ => {}
    }
    answer
}

/// The first of the lent buffers: untouched by a refusal; else its first bytes, so many, are rewritten, what comes after them stays, and
/// their new number is said.
fn rewrite(answer: &mut Answer, refused: bool, twin: &Case, length: usize, new: impl Fn(&[u8]) -> Vec<u8>) {
    let mut after = twin.lent[0].clone();
    if !refused {
        let written = new(&answer.lent[0][..length]);
        after[..written.len()].copy_from_slice(&written);
        say(answer, 0, written.len());
    }
    answer.lent[0] = after;
}

/// A number said at that byte, as far as there is room.
fn say(answer: &mut Answer, at: usize, number: usize) {
    let said = answer.lent.last_mut().expect("said");
    said.iter_mut().skip(at).zip((number as u32).to_le_bytes()).for_each(|(room, byte)| *room = byte);
}

/// A result's head: its axes padded, zeros past the last.
fn head_of_result(head: &[u8]) -> Vec<u8> {
    let end = 2 + ONE.axis * usize::from(head[1]);
    let mut longer = [&head[..2], &axes(&head[2..end])].concat();
    longer.resize(TWO.head(), 0);
    longer
}
