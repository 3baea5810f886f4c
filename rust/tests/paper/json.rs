//! An array as JSON, request [2] of paper 02: the report's G and F (5.6.1), without spaces. F goes down the axes, the first one
//! outermost, and looks each cell up by the coordinate that it went down by.
//! The order of refusals is the bundle's own 1 to 3, then at the array asked for 4 and 7 (FLOAT), then 14 at place 0.

use super::array::Array;
use super::bundle::Bundle;
use super::cell::{Cell, Type};
use super::refusal::{refused, Refusal};

/// The text's length; `out` then begins with the text. A refusal leaves `out` as it is.
pub fn write(bundle: &Bundle, number: u32, out: &mut [u8]) -> Result<u32, Refusal> {
    let array = &bundle.array(number)?.array;
    if array.of == Type::Float {
        return Err(refused(7, number));
    }
    let text = text(array);
    let room = out.get_mut(..text.len()).ok_or(refused(14, 0))?;
    room.copy_from_slice(text.as_bytes());
    Ok(text.len() as u32)
}

/// G: an object with one member, `data`, whose value is F of the whole array, which is not FLOAT.
pub fn text(array: &Array) -> String {
    format!("{{\"data\":{}}}", brackets(array, &[]))
}

/// F of the part of the array that has these positions on its first axes: the brackets of the next axis. In them, from its lower
/// limit to its upper one, stand the cells if that axis is the last, else F of the parts that have one more position.
fn brackets(array: &Array, positions: &[i32]) -> String {
    let axes = &array.extent.axes;
    let next = &axes[positions.len()];
    let part = |position: i32| {
        let longer = [positions, &[position]].concat();
        if longer.len() == axes.len() {
            value(array.cells[&longer])
        } else {
            brackets(array, &longer)
        }
    };
    let parts: Vec<String> = (next.lower..=next.upper).map(part).collect();
    format!("[{}]", parts.join(","))
}

/// INT in shortest decimal, BOOLEAN as `true` and `false`, empty as `null`.
pub fn value(cell: Cell) -> String {
    match cell {
        Cell::Empty => "null".to_string(),
        Cell::Int(number) => number.to_string(),
        Cell::Truth(true) => "true".to_string(),
        Cell::Truth(false) => "false".to_string(),
        Cell::Float(number) => unreachable!("a FLOAT array is refused: {number}"),
    }
}

#[cfg(test)]
mod tests {
    use super::*;
    use crate::paper::extent::{Axis, Extent};

    /// An array whose cells are told by their coordinates, in any order.
    fn array(of: Type, axes: &[(&str, i32, i32)], cells: &[(&[i32], Cell)]) -> Array {
        let axis = |&(name, lower, upper): &(&str, i32, i32)| Axis { name: name.to_string(), lower, upper };
        let extent = Extent { axes: axes.iter().map(axis).collect() };
        Array { of, extent, cells: cells.iter().map(|(at, cell)| (at.to_vec(), *cell)).collect() }
    }

    /// The request's array, and the three of the report's table 5 with their spaces left out.
    #[test]
    fn printed_texts() {
        let int = Cell::Int;
        let square: [(&[i32], Cell); 4] = [(&[2, 2], int(6)), (&[1, 1], int(1)), (&[2, 1], int(5)), (&[1, 2], int(2))];
        assert_eq!(text(&array(Type::Int, &[("x", 1, 2), ("y", 1, 2)], &square)), r#"{"data":[[1,2],[5,6]]}"#);
        let line: [(&[i32], Cell); 6] = [(&[6], int(6)), (&[5], int(5)), (&[4], int(4)), (&[3], int(3)), (&[2], int(2)), (&[1], int(1))];
        assert_eq!(text(&array(Type::Int, &[("x", 1, 6)], &line)), r#"{"data":[1,2,3,4,5,6]}"#);
        let around = [[-1, -1], [-1, 0], [-1, 1], [0, -1], [0, 1], [1, -1], [1, 0], [1, 1]];
        let mut kernel: Vec<(&[i32], Cell)> = around.iter().map(|at| (at.as_slice(), int(-1))).collect();
        kernel.push((&[0, 0], int(8)));
        let kernel = array(Type::Int, &[("i", -1, 1), ("j", -1, 1)], &kernel);
        assert_eq!(text(&kernel), r#"{"data":[[-1,-1,-1],[-1,8,-1],[-1,-1,-1]]}"#);
        let deep: [(&[i32], Cell); 6] = [
            (&[0, 2, 1], int(6)),
            (&[0, 2, 0], int(5)),
            (&[0, 0, 0], int(1)),
            (&[0, 1, 0], int(3)),
            (&[0, 0, 1], int(2)),
            (&[0, 1, 1], int(4)),
        ];
        assert_eq!(text(&array(Type::Int, &[("t", 0, 0), ("x", 0, 2), ("y", 0, 1)], &deep)), r#"{"data":[[[1,2],[3,4],[5,6]]]}"#);
    }

    /// Each kind of value, and the shortest text there is.
    #[test]
    fn values_in_words() {
        let words: [(&[i32], Cell); 3] = [(&[3], Cell::Empty), (&[1], Cell::Truth(true)), (&[2], Cell::Truth(false))];
        assert_eq!(text(&array(Type::Boolean, &[("x", 1, 3)], &words)), r#"{"data":[true,false,null]}"#);
        let numbers = [i64::MIN, -10, -1, 0, 9, i64::MAX].map(|number| value(Cell::Int(number)));
        assert_eq!(numbers, ["-9223372036854775808", "-10", "-1", "0", "9", "9223372036854775807"]);
        assert_eq!(text(&array(Type::Int, &[("x", 7, 7)], &[(&[7], Cell::Int(0))])), r#"{"data":[0]}"#);
    }

    /// The longest of the texts of all extents that have up to so many axes more outside of these: `cells` of them, `axes` deep, of
    /// `length` bytes with their brackets. No text of n cells on d axes is longer than 10 + n * (19 + 2 * d).
    fn longest(cells: usize, axes: usize, length: usize, more: usize) -> usize {
        let text = r#"{"data":}"#.len() + length;
        assert!(axes == 0 || text <= 10 + cells * (19 + 2 * axes), "{cells} cells on {axes} axes");
        let widths = 1..=if more == 0 { 0 } else { 4_096 / cells };
        let wider = widths.map(|width| longest(cells * width, axes + 1, 2 + width * length + width - 1, more - 1));
        wider.max().unwrap_or(0).max(text)
    }

    /// By trying every extent of at most 4,096 cells, from the innermost axis outward, each cell 20 bytes: as many as the smallest INT.
    #[test]
    fn longest_texts() {
        let cell = value(Cell::Int(i64::MIN)).len();
        let of_axes = [1, 2, 3, 4, 5, 6].map(|axes| longest(1, 0, cell, axes));
        assert_eq!(of_axes, [86_026, 94_218, 102_410, 110_602, 118_794, 126_986]);
        let widest = [("a", 1, 2), ("b", 1, 1), ("c", 1, 1)];
        let cells: [(&[i32], Cell); 2] = [(&[1, 1, 1], Cell::Int(i64::MIN)), (&[2, 1, 1], Cell::Int(i64::MIN))];
        assert_eq!(
            text(&array(Type::Int, &widest, &cells)).len(),
            10 + 2 * (19 + 2 * 3),
            "the bound is met where the first axis has all cells"
        );
    }
}
