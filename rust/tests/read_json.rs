//! Reading JSON by the safe layer, tried: what was written is read back, in both versions; each refusal, on both sides of its line; the
//! refused text shown in words; and by the C function itself what a refusal and an answer leave in the buffers that were lent.

use rovgrint::{pack, raw, read_json, Axis, Bundle, Cell, Head, Kind, Refusal, Version};

const BOTH: [Version; 2] = [Version::One, Version::Two];

fn head(kind: Kind, axes: &[(&str, i32, i32)]) -> Head {
    Head { kind, axes: axes.iter().map(|&(name, lower, upper)| Axis::new(name, lower, upper)).collect() }
}

/// Three INT cells on one axis.
fn three() -> Head {
    head(Kind::Int, &[("x", 0, 2)])
}

fn figures(answer: Result<Vec<Cell>, Refusal>) -> Result<Vec<Cell>, [u32; 3]> {
    answer.map_err(|refusal| refusal.figures())
}

#[test]
fn what_was_written_is_read() {
    let ints = [i64::MIN, -1, 0, i64::MAX, 7].map(Cell::Int);
    let numbers = [&ints[..], &[Cell::Empty]].concat();
    let truths = [Cell::Truth(true), Cell::Empty, Cell::Truth(false)].repeat(2);
    let axes = [("a", -1, 1), ("b", 5, 5), ("c", 0, 1)];
    for (kind, cells) in [(Kind::Int, numbers), (Kind::Boolean, truths)] {
        for version in BOTH {
            let mut bytes = [0; 300];
            let length = pack(version, &[head(kind, &axes)], &cells, &mut bytes).expect("packs");
            let text = Bundle::read(&bytes[..length]).unwrap().array(1).unwrap().to_json().unwrap();
            assert_eq!(read_json(version, &head(kind, &axes), &text), Ok(cells.clone()), "{text}");
            assert_eq!(read_json(version, &head(kind, &axes), text.replace(',', " ,\r\n\t")), Ok(cells.clone()));
        }
    }
}

#[test]
fn as_many_cells_as_there_may_be() {
    let cells: Vec<Cell> = (0..4_096).map(|n| if n % 5 == 0 { Cell::Empty } else { Cell::Int(n * n - 77) }).collect();
    let widest = head(Kind::Int, &[("x", 1, 4_096), ("y", 0, 0), ("z", 9, 9)]);
    let mut bytes = vec![0; 40_000];
    let length = pack(Version::Two, std::slice::from_ref(&widest), &cells, &mut bytes).expect("packs");
    let text = Bundle::read(&bytes[..length]).unwrap().array(1).unwrap().to_json().unwrap();
    assert_eq!(read_json(Version::One, &widest, &text), Ok(cells));
}

#[test]
fn refused_before_the_text() {
    let read = |version, head: &Head| figures(read_json(version, head, "no JSON"));
    let names = ["a", "b", "c", "d", "e", "f", "g"].map(|name| (name, 1, 1));
    for version in BOTH {
        let most = version.most_axes();
        assert_eq!(read(version, &head(Kind::Int, &[])), Err([1, 0, 0]));
        assert_eq!(read(version, &head(Kind::Int, &names[..most + 1])), Err([1, 0, 0]));
        assert_eq!(read(version, &head(Kind::Int, &names[..most])), Err([15, 0, 1]));
        assert_eq!(read(version, &head(Kind::Float, &names[..1])), Err([7, 0, 0]));
        for bad in [("x", 2, 1), ("X", 1, 1), ("", 1, 1), ("x", 1, 4_097), ("x", -1_000_001, 0), ("x", i32::MIN, i32::MAX)] {
            assert_eq!(read(version, &head(Kind::Float, &[bad])), Err([2, 0, 0]), "{bad:?}");
        }
        assert_eq!(read(version, &head(Kind::Boolean, &[("x", 1, 2), ("x", 1, 2)])), Err([2, 0, 0]));
    }
    let long = head(Kind::Int, &[("location_", 1, 1)]);
    assert_eq!((read(Version::One, &long), read(Version::Two, &long)), (Err([2, 0, 0]), Err([15, 0, 1])));
    let outside = Head { kind: Kind::Int, axes: vec![Axis::new("x", 5, 5).within(i32::MAX, i32::MIN)] };
    assert_eq!(read_json(Version::One, &outside, r#"{"data":[4]}"#), Ok(vec![Cell::Int(4)]), "maxima aren't looked at");
}

#[test]
fn texts_of_any_kind() {
    let cells = Ok([1, 2, 3].map(Cell::Int).to_vec());
    let text = r#"{"data":[1,2,3]}"#;
    assert_eq!(read_json(Version::One, &three(), text), cells);
    assert_eq!(read_json(Version::One, &three(), String::from(text)), cells);
    assert_eq!(read_json(Version::One, &three(), text.as_bytes()), cells);
    assert_eq!(read_json(Version::One, &three(), Vec::from(text)), cells);
    assert_eq!(figures(read_json(Version::One, &three(), b"{\"\xff\":1}")), Err([15, 0, 3]));
    assert_eq!(figures(read_json(Version::One, &three(), [])), Err([15, 0, 1]));
}

#[test]
fn shown_in_the_text() {
    let words = |text: &[u8]| read_json(Version::Two, &three(), text).unwrap_err().words_in(text);
    let grammar = "the text is not one JSON object, nested to 16 levels at most, with one member data";
    let fit = "a value or bracket of the text's data does not fit the array's type and extent";
    assert_eq!(words(b""), format!("byte 1: {grammar}; the text is empty"));
    assert_eq!(words(b"{\"data\":[1,2,3],}"), format!("byte 17: {grammar}; after {{\"data\":[1,2,3], comes }}"));
    assert_eq!(words(b"{\"a\":0}\n"), format!("byte 9: {grammar}; after {{\"a\":0}}\\n the text ends"));
    assert_eq!(words(b"{\"data\":[1,2.5,3]}"), format!("byte 12: {fit}; after {{\"data\":[1, comes 2.5,3]}}"));
    assert_eq!(words(b"{\"\xc3\x28\""), format!("byte 4: {grammar}; after {{\"\\xc3 comes (\""));
    let float = read_json(Version::One, &head(Kind::Float, &[("x", 1, 1)]), "").unwrap_err();
    assert_eq!((float.words_in(""), float.words()), ("JSON is not read into a FLOAT array".to_string(), float.words_in("{}")));
}

/// The C function over slices.
fn asked(version: u32, head: &[u8], text: &[u8], cells: &mut [u8], said: &mut [u8]) -> u32 {
    let (h, h_len, t, t_len, c_len, s_len) = (head.as_ptr(), head.len(), text.as_ptr(), text.len(), cells.len(), said.len());
    // SAFETY: each pointer and length are one slice's; `cells` and `said`, which are written to, are borrowed alone.
    unsafe { raw::rma_read_json(version, h, h_len, t, t_len, cells.as_mut_ptr(), c_len, said.as_mut_ptr(), s_len) }
}

/// A head of version 1: two INT cells; its maxima, which aren't looked at, are crossed.
fn two_cells() -> [u8; raw::HEAD_1] {
    let mut head = [9; raw::HEAD_1];
    head[..26].copy_from_slice(&[&[1, 1][..], b"x\0\0\0\0\0\0\0", &[1, 0, 0, 0, 2, 0, 0, 0], &[255, 255, 255, 127, 0, 0, 0, 128]].concat());
    head
}

#[test]
fn what_is_lent() {
    let (head, text) = (two_cells(), br#"{"data":[258,null]}"#);
    let (mut cells, mut said) = ([7; 20], [8; raw::SAID]);
    assert_eq!(asked(1, &head, text, &mut cells[..17], &mut said), 14);
    assert_eq!((cells, &said[..8], &said[8..]), ([7; 20], &[0; 8][..], &[8; 8][..]));
    assert_eq!(asked(1, &head, b"{\"data\":[258,nul]}", &mut cells, &mut said), 15);
    assert_eq!((cells, &said[..8]), ([7; 20], &[0, 0, 0, 0, 17, 0, 0, 0][..]));
    assert_eq!(asked(1, &head, b"{\"data\":[258,false]}", &mut cells[..3], &mut said), 16);
    assert_eq!((cells, &said[..8]), ([7; 20], &[0, 0, 0, 0, 14, 0, 0, 0][..]));
    let mut said = [8; raw::SAID];
    assert_eq!(asked(1, &head, text, &mut cells, &mut said), 0);
    assert_eq!((&cells[..9], &cells[9..18], &cells[18..]), (&[1, 2, 1, 0, 0, 0, 0, 0, 0][..], &[0; 9][..], &[7; 2][..]));
    assert_eq!((&said[..4], &said[4..]), (&[2, 0, 0, 0][..], &[8; 12][..]));
    let mut short = [8; 3];
    assert_eq!(asked(1, &head, text, &mut cells[..18], &mut short), 0);
    assert_eq!(short, [2, 0, 0]);
    assert_eq!(asked(1, &head, b"", &mut [], &mut []), 15, "nothing is lent");
}

#[test]
fn versions_and_heads() {
    let (head, text, mut cells, mut said) = (two_cells(), br#"{"data":[1,2]}"#, [7; 18], [8; raw::SAID]);
    for version in [0, 2, 3, 257, 65_537, 65_538, (1 << 31) + 1, u32::MAX] {
        assert_eq!(asked(version, &head, text, &mut cells, &mut said), 1, "version {version}");
        assert_eq!((cells, &said[..8]), ([7; 18], &[0; 8][..]));
    }
    for length in (0..raw::HEAD_1).chain([raw::HEAD_1 + 1, raw::HEAD_2]) {
        let mut other = head.to_vec();
        other.resize(length, 0);
        assert_eq!(asked(1, &other, text, &mut cells, &mut said), 1, "a head of {length} bytes");
    }
    for (of, axes) in [(0, 1), (4, 1), (255, 1), (1, 0), (1, 5), (1, 255), (2, 0)] {
        let mut other = head;
        (other[0], other[1]) = (of, axes);
        assert_eq!(asked(1, &other, text, &mut cells, &mut said), 1, "type {of}, {axes} axes");
    }
    assert_eq!((cells, asked(1, &head, text, &mut cells.clone(), &mut said)), ([7; 18], 0));
}
