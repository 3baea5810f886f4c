//! JSON texts made up for an array: what the writer writes, with blanks, with other members before and after; then made not to fit the
//! array, by its values and brackets; then made no object, by its members, its tokens or its bytes. Often there are several of these at
//! once.

use super::dice::Dice;
use super::json_values::{blank, broken_string, broken_value, cut_value, data_name, nested, no_int, number, other_name, string, value};

/// The value of `data`: a cell's text or what stands in its stead, or brackets.
#[derive(Clone)]
enum Tree {
    Leaf(Vec<u8>),
    List(Vec<Tree>),
}

/// A name with its quotes, and a value.
type Member = (Vec<u8>, Vec<u8>);

/// A text before it is written: the members before `data`, its name and value, and the members behind it.
struct Draft {
    before: Vec<Member>,
    name: Vec<u8>,
    data: Tree,
    after: Vec<Member>,
}

/// A text for an array of that type (1 INT, 3 BOOLEAN), of these widths and cells.
pub fn text(dice: &mut Dice, of: u8, widths: &[usize], cells: &[[u8; 9]]) -> Vec<u8> {
    let mut leaves = cells.iter().map(|cell| leaf(dice, of, cell)).collect::<Vec<Vec<u8>>>().into_iter();
    let mut draft = Draft { before: vec![], name: b"\"data\"".to_vec(), data: tree(widths, &mut leaves), after: vec![] };
    let plain = dice.one_in(4);
    if !plain {
        draft.name = data_name(dice);
        draft.before = members(dice);
        draft.after = members(dice);
    }
    let faults = dice.below(27);
    if matches!(faults, 0..=6) {
        (0..dice.pick(&[1, 1, 1, 2])).for_each(|_| misfit(dice, of, &mut draft.data));
    }
    if matches!(faults, 6..=12) {
        spoil_members(dice, &mut draft);
    }
    let mut tokens = tokens(&draft);
    if matches!(faults, 13..=17) {
        spoil_tokens(dice, &mut tokens);
    }
    let mut text = if plain { tokens.concat() } else { spaced(dice, &tokens) };
    if matches!(faults, 12 | 18..=20) {
        spoil_text(dice, &mut text);
    }
    text
}

/// A cell as it is written; a zero now and then as `-0`.
fn leaf(dice: &mut Dice, of: u8, cell: &[u8; 9]) -> Vec<u8> {
    let number = i64::from_le_bytes(cell[1..].try_into().expect("eight bytes"));
    match (cell[0], of) {
        (0, _) => b"null".to_vec(),
        (_, 3) => if number == 1 { "true" } else { "false" }.into(),
        _ if number == 0 && dice.one_in(2) => b"-0".to_vec(),
        _ => number.to_string().into(),
    }
}

/// Brackets of the first of the widths; in them those of the others, or leaves.
fn tree(widths: &[usize], leaves: &mut impl Iterator<Item = Vec<u8>>) -> Tree {
    match widths {
        [] => Tree::Leaf(leaves.next().expect("a leaf for each cell")),
        [first, others @ ..] => Tree::List((0..*first).map(|_| tree(others, leaves)).collect()),
    }
}

/// Other members, mostly none or one; their names may be equal.
fn members(dice: &mut Dice) -> Vec<Member> {
    let count = dice.pick(&[0, 0, 0, 1, 1, 2, 3]);
    (0..count).map(|_| (other_name(dice), any_value(dice))).collect()
}

/// A value of a few levels, or of as many as there may be behind the object's own, or nearly.
fn any_value(dice: &mut Dice) -> Vec<u8> {
    if dice.one_in(8) {
        let levels = 13 + dice.index(3);
        return nested(dice, levels);
    }
    value(dice, 3)
}

/// A value or bracket somewhere in the tree that doesn't fit any more.
fn misfit(dice: &mut Dice, of: u8, data: &mut Tree) {
    if dice.one_in(12) {
        *data = Tree::Leaf(unfit(dice, of));
        return;
    }
    match data {
        Tree::Leaf(bytes) => *bytes = unfit(dice, of),
        Tree::List(list) => match dice.below(16) {
            0 => drop(list.pop()),
            1..=3 => {
                let same = list.last().cloned().unwrap_or(Tree::List(vec![]));
                let more = if dice.one_in(4) { same } else { Tree::Leaf(surplus(dice, of)) };
                list.push(more);
            }
            4 => *data = Tree::List(vec![data.clone()]),
            5 if list.len() == 1 => *data = list.remove(0),
            _ if list.is_empty() => list.push(Tree::List(vec![])),
            _ => {
                let at = dice.index(list.len());
                misfit(dice, of, &mut list[at]);
            }
        },
    }
}

/// A value of any kind, whether it would be a cell or not.
fn surplus(dice: &mut Dice, of: u8) -> Vec<u8> {
    if dice.one_in(4) {
        unfit(dice, of)
    } else {
        dice.pick(&["null", "null", "1", "-7", "true", "false", "\"\"", "\"a\"", "{}", "{\"a\":[]}", "[]", "1.5"]).into()
    }
}

/// A value that is no cell of that type, or none of any; `null`, which is one, may stand where a bracket is due.
fn unfit(dice: &mut Dice, of: u8) -> Vec<u8> {
    match dice.below(10) {
        0 => string(dice),
        1 => dice.pick(&["1.5", "-0.0", "2e0", "1E1"]).into(),
        2 => value(dice, 2),
        3 => b"{}".to_vec(),
        4 => dice.pick(&["[]", "null"]).into(),
        5 if dice.one_in(2) => {
            let levels = 1 + dice.index(14);
            nested(dice, levels)
        }
        6 if of == 3 || dice.one_in(3) => number(dice),
        6 => dice.pick(&["true", "false"]).into(),
        _ if of == 3 => dice.pick(&["0", "1", "\"true\"", "\"\"", "{}", "{}"]).into(),
        7 => dice.pick(&["true", "false"]).into(),
        _ => no_int(dice),
    }
}

/// A fault among the members: another `data`, none, a value or a name with a fault, or levels about the sixteenth.
fn spoil_members(dice: &mut Dice, draft: &mut Draft) {
    let levels = dice.pick(&[13, 14, 15, 16, 16, 16, 17]);
    let member = match dice.below(10) {
        0 => (data_name(dice), value(dice, 2)),
        1 => (data_name(dice), broken_value(dice)),
        2 => {
            draft.name = other_name(dice);
            (other_name(dice), dice.pick(&["{\"data\":1}", "[{\"data\":[]}]", "\"data\"", "[]", "0"]).into())
        }
        3..=5 => (other_name(dice), broken_value(dice)),
        6 | 7 => (broken_string(dice), value(dice, 1)),
        8 => (other_name(dice), nested(dice, levels)),
        _ => {
            draft.data = Tree::Leaf(nested(dice, levels));
            (other_name(dice), value(dice, 1))
        }
    };
    if dice.one_in(4) {
        draft.after.push((data_name(dice), value(dice, 1)));
    }
    let side = if dice.one_in(2) { &mut draft.before } else { &mut draft.after };
    let at = dice.index(side.len() + 1);
    side.insert(at, member);
}

/// The tokens of a text: braces, brackets, commas, colons, names and leaves.
fn tokens(draft: &Draft) -> Vec<Vec<u8>> {
    let mut tokens = vec![b"{".to_vec()];
    let own = [(draft.name.clone(), None)];
    let other = |member: &Member| (member.0.clone(), Some(member.1.clone()));
    let all = draft.before.iter().map(other).chain(own).chain(draft.after.iter().map(other));
    for (at, (name, value)) in all.enumerate() {
        if at > 0 {
            tokens.push(b",".to_vec());
        }
        tokens.extend([name, b":".to_vec()]);
        match value {
            Some(value) => tokens.push(value),
            None => tokens_of(&draft.data, &mut tokens),
        }
    }
    tokens.push(b"}".to_vec());
    tokens
}

fn tokens_of(tree: &Tree, tokens: &mut Vec<Vec<u8>>) {
    match tree {
        Tree::Leaf(bytes) => tokens.push(bytes.clone()),
        Tree::List(list) => {
            tokens.push(b"[".to_vec());
            for (at, part) in list.iter().enumerate() {
                if at > 0 {
                    tokens.push(b",".to_vec());
                }
                tokens_of(part, tokens);
            }
            tokens.push(b"]".to_vec());
        }
    }
}

/// A token less, one twice, another in its stead, two turned round, one more behind or in front, or a value cut with all that follows.
fn spoil_tokens(dice: &mut Dice, tokens: &mut Vec<Vec<u8>>) {
    let at = dice.index(tokens.len());
    let others: [&[u8]; 14] =
        [b"{", b"}", b"[", b"]", b",", b":", b"null", b"1", b"\"a\"", b"", b"\xef\xbb\xbf", b"\xc3\xa9", b"true", b"\"data\""];
    let other = dice.pick(&others).to_vec();
    match dice.below(17) {
        0 => drop(tokens.remove(at)),
        1 => tokens.insert(at, tokens[at].clone()),
        2 | 3 => tokens[at] = other,
        4 if at > 0 => tokens.swap(at - 1, at),
        5 => tokens.push(other),
        6 => tokens.insert(0, other),
        7 => tokens.truncate(at),
        8..=10 => end_in_name(dice, tokens),
        _ => {
            let values: Vec<usize> = (1..tokens.len()).filter(|&at| [&b":"[..], b"[", b","].contains(&tokens[at - 1].as_slice())).collect();
            tokens.truncate(dice.pick_if_any(&values).unwrap_or(at));
            tokens.push(cut_value(dice));
        }
    }
}

/// The text ends with a comma, with a name, mostly that of a second `data`, or inside it.
fn end_in_name(dice: &mut Dice, tokens: &mut Vec<Vec<u8>>) {
    let mut name = if dice.one_in(4) { other_name(dice) } else { data_name(dice) };
    match dice.below(5) {
        0 => name.clear(),
        1 | 2 => name.truncate(name.len() - dice.pick(&[1, 1, 1, 1, 2])),
        _ => {}
    }
    tokens.pop();
    tokens.extend([b",".to_vec(), name]);
}

/// The tokens with blanks between them: as a pretty printer sets them, or anywhere; before and after the object too.
fn spaced(dice: &mut Dice, tokens: &[Vec<u8>]) -> Vec<u8> {
    let pretty = dice.one_in(3);
    let mut text = if dice.one_in(4) { blank(dice) } else { vec![] };
    let (mut levels, line) = (0usize, dice.pick(&["\n", "\r\n", "\n\t"]));
    for token in tokens {
        levels = levels.saturating_sub(usize::from(matches!(token.as_slice(), b"]" | b"}")));
        if pretty && matches!(text.last(), Some(b'[' | b'{' | b',')) {
            text.extend([line.as_bytes(), &vec![b' '; 2 * levels]].concat());
        }
        text.extend(token);
        levels += usize::from(matches!(token.as_slice(), b"[" | b"{"));
        text.extend(if pretty { vec![] } else { blank(dice) });
    }
    text
}

/// A fault among the bytes: the text cut, or one byte changed, put in or taken out, anywhere; or another text altogether.
pub fn spoil_text(dice: &mut Dice, text: &mut Vec<u8>) {
    if text.is_empty() || dice.one_in(3) {
        *text = other_text(dice);
        return;
    }
    let at = dice.index(text.len());
    match dice.below(8) {
        0..=2 => text.truncate(at),
        3 => drop(text.remove(at)),
        4 => text.insert(at, any_byte(dice)),
        5 => text.push(any_byte(dice)),
        6 => text[at] ^= 1 << dice.below(8),
        _ => text[at] = any_byte(dice),
    }
}

/// A byte that means something in JSON, or any byte.
fn any_byte(dice: &mut Dice) -> u8 {
    if dice.one_in(3) {
        dice.number() as u8
    } else {
        dice.pick(b"{}[],:\"\\/-+.eE0123456789 \t\n\rtfnu\x7f\x80\xc2\xe0\xff\x00")
    }
}

/// Texts that are no object from the first byte on, or have nothing in them.
fn other_text(dice: &mut Dice) -> Vec<u8> {
    let objects = ["\u{feff}{\"data\":[1]}", "\u{feff}{}", "{}", "{ } ", "{", " {\n"];
    let others = ["", "", " ", "\n\t \r", "\r\n", "[1]", "null", "7", "\"data\"", "\u{e9}", "}", " x"];
    if dice.one_in(2) { dice.pick(&objects) } else { dice.pick(&others) }.into()
}
