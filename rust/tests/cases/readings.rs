//! Request [5] of paper 02 as its readings were settled, point by point, 5.1 to 5.24: a table of text and answer for each, written by hand.
//! Each is put to whoever answers (paper or library), in either version.

use super::printed::Ask;
use super::{Answer, Function};
use crate::paper::cell::Cell;
use crate::paper::extent::name_bytes;
use crate::paper::json_read::ordinality;
use crate::paper::version::{Sizes, ONE, TWO};

/// A head of these axes, with maxima that nothing may be read from.
fn head(sizes: Sizes, of: u8, axes: &[(&str, i32, i32)]) -> Vec<u8> {
    let axis = |&(name, lower, upper): &(&str, i32, i32)| {
        let limits = [lower, upper, i32::MAX, i32::MIN].map(i32::to_le_bytes).concat();
        [name_bytes(sizes, name), limits].concat()
    };
    let mut head = [vec![of, axes.len() as u8], axes.iter().flat_map(axis).collect()].concat();
    head.resize(sizes.head(), 0xEE);
    head
}

/// The cells' bytes, or number, place and ordinality, with a buffer of that length. Bytes after the cells stay; refused, it stays whole.
fn with_room(ask: Ask, version: u32, head: &[u8], text: &[u8], room: usize) -> Result<Vec<u8>, [u32; 3]> {
    let Answer { number, lent } = ask.call(Function::ReadJson, vec![head.to_vec(), text.to_vec()], &[version], &[room]);
    let [first, second] = [0, 4].map(|at| u32::from_le_bytes(lent[1][at..at + 4].try_into().expect("four bytes")));
    let written = if number == 0 { 9 * first as usize } else { 0 };
    assert!(lent[0][written..].iter().all(|&byte| byte == 0x77), "bytes after the cells stay: {}", text.escape_ascii());
    if number == 0 {
        Ok(lent[0][..written].to_vec())
    } else {
        Err([number, first, second])
    }
}

/// With a buffer of 32 cells and seven bytes.
fn asked(ask: Ask, version: u32, head: &[u8], text: &[u8]) -> Result<Vec<u8>, [u32; 3]> {
    with_room(ask, version, head, text, 32 * 9 + 7)
}

/// The arrays that the tables read into: three INT cells on one axis, two by two on two, one cell on one axis, and three BOOLEAN cells.
#[derive(Clone, Copy)]
enum Into {
    Three,
    Square,
    One,
    Truths,
}

impl Into {
    fn head(self, sizes: Sizes) -> Vec<u8> {
        match self {
            Into::Three => head(sizes, 1, &[("x", -1, 1)]),
            Into::Square => head(sizes, 1, &[("x", 1, 2), ("y", 5, 6)]),
            Into::One => head(sizes, 1, &[("x", 7, 7)]),
            Into::Truths => head(sizes, 3, &[("x", 1, 3)]),
        }
    }
}

const NULL: Cell = Cell::Empty;

fn ints<const N: usize>(numbers: [i64; N]) -> Vec<Cell> {
    numbers.map(Cell::Int).to_vec()
}

/// Read into that array, the text is these cells.
fn is(ask: Ask, into: Into, text: impl AsRef<[u8]>, cells: &[Cell]) {
    let (text, bytes) = (text.as_ref(), cells.iter().flat_map(|cell| cell.bytes()).collect::<Vec<u8>>());
    assert_eq!(asked(ask, ask.sizes.version, &into.head(ask.sizes), text), Ok(bytes), "{}", text.escape_ascii());
}

/// Read into that array, each text is refused with that number at that byte.
fn refuses<T: AsRef<[u8]>>(ask: Ask, into: Into, number: u32, table: &[(T, u32)]) {
    for (text, byte) in table {
        let answer = asked(ask, ask.sizes.version, &into.head(ask.sizes), text.as_ref());
        assert_eq!(answer, Err([number, 0, *byte]), "{}", text.as_ref().escape_ascii());
    }
}

fn no_object<T: AsRef<[u8]>>(ask: Ask, table: &[(T, u32)]) {
    refuses(ask, Into::Three, 15, table);
}

/// `{"data":` in front, `}` behind.
fn data(value: &str) -> String {
    format!("{{\"data\":{value}}}")
}

/// Each value in a place of three cells: the number and byte are those of the whole text, whose value begins at byte 10.
fn cell_refused(ask: Ask, into: Into, table: &[(&str, u32)]) {
    for (value, byte) in table {
        refuses(ask, into, 16, &[(data(&format!("[{value},null,null]")), *byte)]);
    }
}

/// `"data":[1,2,3]` as a member.
const MEMBER: &str = r#""data":[1,2,3]"#;

/// That member is skipped, before `data` and behind it.
fn skipped(ask: Ask, member: &str) {
    for text in [format!("{{{member},{MEMBER}}}"), format!("{{{MEMBER},{member}}}")] {
        is(ask, Into::Three, text, &ints([1, 2, 3]));
    }
}

fn r5_1_the_first_byte_that_begins_no_object_and_blanks_around_it(ask: Ask) {
    is(ask, Into::Three, " \t\r\n{ \"data\"\n:\t[ 1 ,2\r, 3 ] } \n\r\t ", &ints([1, 2, 3]));
    no_object(
        ask,
        &[
            ("{\"data\":[1,2,3]}x", 17),
            ("{\"data\":[1,2,3]} {", 18),
            ("{\"data\":[1,2,3]},", 17),
            ("{\"data\":[1,2,3]}\u{0}", 17),
            ("{\"data\":[1,2,3],}", 17),
            ("{,\"data\":[1,2,3]}", 2),
            ("{data:[1,2,3]}", 2),
            ("{'data':[1,2,3]}", 2),
            ("{\"data\",[1,2,3]}", 8),
            ("{\"data\" [1,2,3]}", 9),
            ("{\"data\"::[1,2,3]}", 9),
            ("{\"data\":}", 9),
            ("{\"data\":[1,2,3,]}", 16),
            ("{\"data\":[,1,2,3]}", 10),
            ("{\"data\":[1 2,3]}", 12),
            ("{\"data\":[1,2,3}}", 15),
            ("{\"data\":[1,2,3]]", 16),
            ("{\"data\":(1,2,3)}", 9),
            ("{\"data\":[1,2,3] /**/}", 17),
            ("{\"data\":[+1,2,3]}", 10),
            ("{\"data\":[.5,2,3]}", 10),
            ("{\"data\":[NaN,2,3]}", 10),
            ("{\"data\":[True,2,3]}", 10),
            ("\u{b}{}", 1),
            ("\u{c}{}", 1),
            ("{\u{a0}}", 2),
        ],
    );
}

fn r5_2_byte_order_mark_no_object_nothing(ask: Ask) {
    no_object(
        ask,
        &[
            ("\u{feff}{\"data\":[1,2,3]}", 1),
            ("[1]", 1),
            ("[1,2,3]", 1),
            ("null", 1),
            ("\"data\"", 1),
            ("7", 1),
            ("}", 1),
            (" x", 2),
            ("", 1),
            (" ", 2),
            ("\t\n\r  ", 6),
        ],
    );
}

fn r5_3_utf8_byte_by_byte(ask: Ask) {
    let in_string = |bytes: &[u8]| [b"{\"", bytes, b"\":0}"].concat(); // the bytes begin at place 3
    for bad in [0x80, 0x9F, 0xA0, 0xBF, 0xC0, 0xC1, 0xF5, 0xF8, 0xFE, 0xFF] {
        no_object(ask, &[(in_string(&[bad, 0x80, 0x80, 0x80]), 3)]);
    }
    for two in [[0xE0, 0x80], [0xE0, 0x9F], [0xED, 0xA0], [0xED, 0xBF], [0xF0, 0x80], [0xF0, 0x8F], [0xF4, 0x90], [0xF4, 0xBF]] {
        no_object(ask, &[(in_string(&[two[0], two[1], 0x80, 0x80]), 4)]);
    }
    for cut in [&[0xC3][..], &[0xE2], &[0xE2, 0x82], &[0xF0, 0x9F], &[0xF0, 0x9F, 0x98], &[0xF3]] {
        no_object(ask, &[(in_string(cut), 3 + cut.len() as u32), (in_string(&[cut, b"a"].concat()), 3 + cut.len() as u32)]);
        no_object(ask, &[(in_string(&[cut, &[0xC3]].concat()), 3 + cut.len() as u32)]);
    }
    for control in 0..32 {
        no_object(ask, &[(in_string(&[control]), 3), (in_string(&[b'a', control]), 4)]);
    }
    for letter in ["\u{7f}", " ", "\u{80}", "\u{7ff}", "\u{800}", "\u{d7ff}", "\u{e000}", "\u{feff}", "\u{ffff}", "\u{10000}", "\u{10ffff}"]
    {
        skipped(ask, &format!("\"{letter}\":\"{letter}\""));
    }
}

fn r5_4_escapes(ask: Ask) {
    for name in [r"d\u0061ta", r"\u0064\u0061\u0074\u0061", r"dat\u0061"] {
        is(ask, Into::Three, format!("{{\"{name}\":[1,2,3]}}"), &ints([1, 2, 3]));
    }
    for other in [r"\ud800", r"\udc00\ud800", r"\uDFFF", r"\uD83D\uDE00", r"\u004a\u004A\u00fF", r#"\"\\\/\b\f\n\r\t"#, r"\u0000"] {
        skipped(ask, &format!("\"{other}\":\"{other}\""));
    }
    no_object(
        ask,
        &[
            (r#"{"\a":0}"#, 4),
            (r#"{"\'":0}"#, 4),
            (r#"{"\U0061":0}"#, 4),
            (r#"{"\x61":0}"#, 4),
            (r#"{"\u":0}"#, 5),
            (r#"{"\u006":0}"#, 8),
            (r#"{"\u00g1":0}"#, 7),
            (r#"{"\u 061":0}"#, 5),
            (r#"{"d\ud800ta":[1,2,3]}"#, 22),
            (r#"{"\ud864ata":[1,2,3]}"#, 22),
        ],
    );
}

fn r5_5_numbers_elsewhere(ask: Ask) {
    for number in ["0", "-0", "7", "-12", "0.0", "-0.50", "1e9", "1E+9", "1e-9", "0e0", "-0.0E-00", "123456789012345678901234567890.1e999"]
    {
        skipped(ask, &format!("\"n\":{number}"));
    }
    no_object(
        ask,
        &[
            (r#"{"n":01}"#, 7),
            (r#"{"n":-01}"#, 8),
            (r#"{"n":00}"#, 7),
            (r#"{"n":-x}"#, 7),
            (r#"{"n":--1}"#, 7),
            (r#"{"n":-}"#, 7),
            (r#"{"n":1.}"#, 8),
            (r#"{"n":1.e3}"#, 8),
            (r#"{"n":1e}"#, 8),
            (r#"{"n":1e+}"#, 9),
            (r#"{"n":1e+-1}"#, 9),
            (r#"{"n":1.2.3}"#, 9),
            (r#"{"n":1e2e3}"#, 9),
            (r#"{"n":1e2.3}"#, 9),
            (r#"{"n":0x1}"#, 7),
            (r#"{"n":1_0}"#, 7),
            (r#"{"n":1"#, 7),
            (r#"{"n":-"#, 7),
            (r#"{"n":1."#, 8),
            (r#"{"n":1e"#, 8),
            (r#"{"n":tru"#, 9),
            (r#"{"n":tru}"#, 9),
            (r#"{"n":true1}"#, 10),
            (r#"{"n":nil}"#, 7),
            (r#"{"n":falsy}"#, 10),
        ],
    );
}

fn r5_6_levels(ask: Ask) {
    let nested = |open: &str, close: &str, levels: usize| format!("\"n\":{}{}", open.repeat(levels), close.repeat(levels));
    for (open, close) in [("[", "]"), ("{\"n\":", "}")] {
        let inner =
            |levels: usize| if open == "[" { nested(open, close, levels) } else { nested(open, close, levels).replace(":}", ":0}") };
        skipped(ask, &inner(15));
        let before = format!("{{{},{MEMBER}}}", inner(16));
        let fault = 5 + 15 * open.len() as u32 + 1;
        no_object(ask, &[(before, fault)]);
    }
    no_object(ask, &[(format!("{{{MEMBER},\"n\":{}", "[".repeat(99)), 36), (format!("{{\"n\":{}{{", "[".repeat(15)), 21)]);
}

fn r5_7_a_second_data(ask: Ask) {
    no_object(
        ask,
        &[
            (r#"{"data":1,"data":[1,2,3]}"#, 11),
            (r#"{"data":[1,2,3],"data":[1,2,3]}"#, 17),
            (r#"{"data":[1,2,3],"d\u0061ta":0}"#, 17),
            (r#"{"d\u0061ta":[1,2,3], "data":0}"#, 23),
            (r#"{"data":1,"data""#, 11),
            (r#"{"data":1,"data"x"#, 11),
            (r#"{"data":1,"data":01"#, 11),
            (r#"{"data":1,"data":2,"data":3}"#, 11),
            (r#"{"data":1,"x":[01],"data":3}"#, 17),
            ("{\"data\":1,\"data\u{1}\":3}", 16),
            (r#"{"data":1,"dat\a":3}"#, 16),
        ],
    );
    is(ask, Into::Three, r#"{"x":{"data":0,"data":1},"data":[1,2,3],"y":[{"data":2}]}"#, &ints([1, 2, 3]));
}

fn r5_8_an_object_that_lacks_data(ask: Ask) {
    no_object(
        ask,
        &[("{}", 3), ("{} ", 4), (" { } \n", 7), (r#"{"a":1}"#, 8), (r#"{"a":{"data":[1,2,3]}}   "#, 26), ("{}x", 3), ("{} x", 4)],
    );
}

fn r5_9_all_of_15_before_16(ask: Ask) {
    no_object(
        ask,
        &[
            (r#"{"data":[true,2,3],"x":01}"#, 25),
            (r#"{"data":[[],2,3]}}"#, 18),
            (r#"{"data":7,"data":[1,2,3]}"#, 11),
            (r#"{"data":[1.5,2,3]"#, 18),
            (r#"{"data":[1,2,3,4,5"#, 19),
        ],
    );
}

fn r5_10_what_does_not_fit(ask: Ask) {
    let too_few = [("[]", 10), ("[1]", 11), ("[1,2]", 13), ("[ 1 , 2 ]", 17)];
    let too_many =
        [("[1,2,3,4]", 16), ("[1,2,3,[]]", 16), ("[1,2,3, {}]", 17), ("[1,2,3,4,5]", 16), ("[1,2,3,null]", 16), ("[1,2,3,4.5]", 16)];
    let no_bracket = [("null", 9), ("1", 9), ("-1", 9), ("\"\"", 9), ("{}", 9), (" true", 10), ("{\"x\":[1,2,3]}", 9)];
    for (value, byte) in too_few.into_iter().chain(too_many).chain(no_bracket) {
        refuses(ask, Into::Three, 16, &[(data(value), byte)]);
    }
    let square = [
        ("[1,2,3,4]", 10),
        ("[[1,2],3]", 16),
        ("[[1,2]]", 15),
        ("[[1],[2,3]]", 12),
        ("[[1,2,3],[4]]", 15),
        ("[[1,2],[3,4],[5,6]]", 22),
        ("[[1,2],[3,4],5]", 22),
        ("[[[1],2],[3,4]]", 11),
        ("[[1,2],[3,{}]]", 19),
        ("[[1,2],null]", 16),
        ("[]", 10),
        ("[[],[]]", 11),
    ];
    for (value, byte) in square {
        refuses(ask, Into::Square, 16, &[(data(value), byte)]);
    }
    let no_int = [("true", 10), ("false", 10), ("\"1\"", 10), ("{}", 10), ("[]", 10), ("[1]", 10), ("-1.5", 10), (" 1.5", 11)];
    cell_refused(ask, Into::Three, &no_int);
    cell_refused(ask, Into::Truths, &[("1", 10), ("0", 10), ("-0", 10), ("\"true\"", 10), ("[true]", 10), ("{}", 10), ("1.5", 10)]);
    is(ask, Into::Square, data("[[1,2],[3,4]]"), &ints([1, 2, 3, 4]));
    is(ask, Into::Truths, data("[true,false,true]"), &[true, false, true].map(Cell::Truth));
}

fn r5_11_minus_zero_and_whole_numbers_written_otherwise(ask: Ask) {
    is(ask, Into::Three, data("[-0,0,1]"), &ints([0, 0, 1]));
    cell_refused(ask, Into::Three, &[("1.0", 10), ("1e2", 10), ("1E0", 10), ("-0.0", 10), ("0e0", 10), ("10e-1", 10), ("1.0e1", 10)]);
}

fn r5_12_place_0_and_the_order(ask: Ask) {
    let (sizes, good) = (ask.sizes, data("[1,2,3]"));
    let read = |of: u8, axes: &[(&str, i32, i32)]| asked(ask, sizes.version, &head(sizes, of, axes), b"x");
    assert_eq!(read(4, &[("x", 2, 1)]), Err([1, 0, 0]));
    assert_eq!(read(2, &[("x", 2, 1)]), Err([2, 0, 0]));
    assert_eq!(read(2, &[("x", 1, 2), ("x", 1, 2)]), Err([2, 0, 0]));
    assert_eq!(read(2, &[("x", 1, 2)]), Err([7, 0, 0]));
    assert_eq!(read(1, &[("x", 1, 2)]), Err([15, 0, 1]));
    let of_room = |room: usize, text: &str| with_room(ask, sizes.version, &Into::Three.head(sizes), text.as_bytes(), room);
    assert_eq!((of_room(26, &data("[1,2]")), of_room(26, "{")), (Err([16, 0, 13]), Err([15, 0, 2])));
    assert_eq!((of_room(26, &good), of_room(0, &good)), (Err([14, 0, 0]), Err([14, 0, 0])));
    let cells = Ok([1, 2, 3].map(|number| Cell::Int(number).bytes()).concat());
    assert_eq!((of_room(27, &good), of_room(28, &good)), (cells.clone(), cells));
}

fn r5_13_equal_names_of_other_members(ask: Ask) {
    is(ask, Into::Three, r#"{"a":1,"a":2,"":0,"":0,"data":[1,2,3],"a":{"a":1,"a":2}}"#, &ints([1, 2, 3]));
}

/// A text of over 4 GB isn't made, so nobody is asked; what the paper tells of its place is the largest ordinality.
fn r5_14_a_place_never_wraps(_: Ask) {
    let told = [1, 4_294_967_294, 4_294_967_295, 4_294_967_296, 4_294_967_297, u64::MAX].map(ordinality);
    assert_eq!(told, [1, u32::MAX - 1, u32::MAX, u32::MAX, u32::MAX, u32::MAX]);
}

fn r5_15_the_closing_bracket_and_no_look_inside(ask: Ask) {
    refuses(ask, Into::Square, 16, &[(data("[[1,2],[3]]"), 18), (data("[[1,2]]"), 15)]);
    refuses(ask, Into::Three, 16, &[(data(r#"[1,{"a":[]}]"#), 12), (data("[[[[]]],2.5,[]]"), 10)]);
}

fn r5_16_names_letter_by_letter(ask: Ask) {
    for name in ["Data", "DATA", "data ", " data", "dat", "dataa", r"d\\u0061ta", r"data\u0000", r"\u0044ata", "da\u{301}ta", "\u{ff44}ata"]
    {
        let text = format!("{{\"{name}\":[1,2,3]}}");
        no_object(ask, &[(&text, text.len() as u32 + 1)]);
        skipped(ask, &format!("\"{name}\":0"));
    }
}

fn r5_17_too_deep_inside_data(ask: Ask) {
    no_object(ask, &[(data(&format!("{}{}", "[".repeat(16), "]".repeat(16))), 24)]);
    refuses(ask, Into::Three, 16, &[(data(&format!("{}{}", "[".repeat(15), "]".repeat(15))), 10)]);
}

fn r5_18_cut_inside_a_second_data(ask: Ask) {
    no_object(ask, &[(r#"{"data":[1,2,3],"data"#, 22), (r#"{"data":[1,2,3],"d\u0061t"#, 26), (r#"{"data":[1,2,3],""#, 18)]);
}

fn r5_19_cut_inside_a_letter_or_an_escape(ask: Ask) {
    no_object(
        ask,
        &[(b"{\"\xe2".as_slice(), 4), (b"{\"\xe2\x82", 5), (b"{\"\xf0\x9f\x98", 6), (b"{\"\\", 4), (b"{\"\\u", 5), (b"{\"\\u00a", 8)],
    );
}

fn r5_20_numbers_of_any_length(ask: Ask) {
    is(ask, Into::Three, data("[9223372036854775807,-9223372036854775808,null]"), &[Cell::Int(i64::MAX), Cell::Int(i64::MIN), NULL]);
    let long = "1".repeat(500);
    let wraps = ["18446744073709551616", "18446744073709551617", "340282366920938463463374607431768211456", "-18446744073709551615"];
    for number in ["9223372036854775808", "-9223372036854775809", "10000000000000000000", &long, &format!("-{long}")].iter().chain(&wraps) {
        cell_refused(ask, Into::Three, &[(number, 10)]);
        skipped(ask, &format!("\"n\":{number}"));
    }
}

fn r5_21_null(ask: Ask) {
    is(ask, Into::Three, data("[null,null,null]"), &[NULL; 3]);
    is(ask, Into::Truths, data("[null,true,null]"), &[NULL, Cell::Truth(true), NULL]);
    refuses(ask, Into::Square, 16, &[(data("[null,[1,2]]"), 10), (data("null"), 9)]);
}

fn r5_22_the_text_is_not_looked_at(ask: Ask) {
    let text = data("[1,2,3]");
    let five = ["a", "b", "c", "d", "e", "f"].map(|name| (name, 1, 1));
    for of in [1, 2, 3] {
        assert_eq!(asked(ask, 1, &head(ONE, of, &five[..4]), b""), Err(if of == 2 { [7, 0, 0] } else { [15, 0, 1] }));
        assert_eq!(asked(ask, 2, &head(TWO, of, &[("x", 1, 64), ("y", 1, 65)]), text.as_bytes()), Err([2, 0, 0]));
    }
    let mut of_five = head(TWO, 1, &five);
    assert_eq!(asked(ask, 2, &of_five, data("[[[[[[8]]]]]]").as_bytes()), Ok(Cell::Int(8).bytes().to_vec()));
    of_five.truncate(ONE.head());
    assert_eq!(asked(ask, 1, &of_five, text.as_bytes()), Err([1, 0, 0]), "six axes are none in version 1");
    for version in [0, 3, 256, 257, 65_537, 1 << 31, u32::MAX] {
        assert_eq!(asked(ask, version, &Into::Three.head(ONE), text.as_bytes()), Err([1, 0, 0]));
    }
    for length in [0, 1, 97, 99, 193, 194, 195] {
        assert_eq!(asked(ask, 1, &vec![1; length], text.as_bytes()), Err([1, 0, 0]), "a head of {length} bytes");
    }
}

fn r5_23_the_number_of_cells_and_their_bytes(ask: Ask) {
    let answer = asked(ask, 1, &Into::Three.head(ONE), data("[-2,null,258]").as_bytes());
    assert_eq!(answer, Ok([[1, 254, 255, 255, 255, 255, 255, 255, 255], [0; 9], [1, 2, 1, 0, 0, 0, 0, 0, 0]].concat()));
}

fn r5_24_outside_a_string(ask: Ask) {
    no_object(ask, &[("{\u{e4}", 2), ("{\"data\":\u{661}", 9), ("{\"data\":[1,2,3]\u{3000}}", 16), ("{\"data\":[1,2,3]}\u{e9}", 17)]);
    no_object(ask, &[(b"{\"data\":[1\xff".as_slice(), 11), (b"{\"data\":tr\xc3\xbc", 11)]);
}

/// One cell is read as well as many.
fn one_cell(ask: Ask) {
    is(ask, Into::One, data("[5]"), &ints([5]));
    refuses(ask, Into::One, 16, &[(data("[5,6]"), 12), (data("[]"), 10), (data("5"), 9), (data("[[5]]"), 10)]);
}

/// All of them, in one version.
pub fn all(ask: Ask) {
    let readings: [fn(Ask); 25] = [
        r5_1_the_first_byte_that_begins_no_object_and_blanks_around_it,
        r5_2_byte_order_mark_no_object_nothing,
        r5_3_utf8_byte_by_byte,
        r5_4_escapes,
        r5_5_numbers_elsewhere,
        r5_6_levels,
        r5_7_a_second_data,
        r5_8_an_object_that_lacks_data,
        r5_9_all_of_15_before_16,
        r5_10_what_does_not_fit,
        r5_11_minus_zero_and_whole_numbers_written_otherwise,
        r5_12_place_0_and_the_order,
        r5_13_equal_names_of_other_members,
        r5_14_a_place_never_wraps,
        r5_15_the_closing_bracket_and_no_look_inside,
        r5_16_names_letter_by_letter,
        r5_17_too_deep_inside_data,
        r5_18_cut_inside_a_second_data,
        r5_19_cut_inside_a_letter_or_an_escape,
        r5_20_numbers_of_any_length,
        r5_21_null,
        r5_22_the_text_is_not_looked_at,
        r5_23_the_number_of_cells_and_their_bytes,
        r5_24_outside_a_string,
        one_cell,
    ];
    readings.iter().for_each(|put| put(ask));
}
