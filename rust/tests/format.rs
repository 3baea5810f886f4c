//! The examples in hex of docs/FORMAT.md, read out of the page and put to the engine: the bundle is read, each operation's step is run over
//! it and leaves the cells that the page prints, the rows and the answer of a page are those printed, so are a plan and the head of a result,
//! and a head packs to its bundle; and so for the example in version 2. The table of JSON texts is read too, each text put to the engine in
//! both versions, and the steps that say what 8 says. What the page's tables say of both versions is looked up too, and that every refusal
//! has a row.

use std::collections::BTreeMap;
use std::fs;
use std::path::PathBuf;

use rovgrint::{raw, read_json, Axis, Bundle, Cell, Head, Kind, Operator, Recipe, Row, Version};

fn page() -> String {
    let path = PathBuf::from(env!("CARGO_MANIFEST_DIR")).join("../docs/FORMAT.md");
    fs::read_to_string(path).expect("docs/FORMAT.md")
}

/// The blocks marked `hex`, by the name after the mark.
fn blocks() -> BTreeMap<String, Vec<u8>> {
    let page = page();
    let mut found = BTreeMap::new();
    for block in page.split("\n```hex ").skip(1) {
        let (name, rest) = block.split_once('\n').expect("a name on the fence's line");
        let (lines, _) = rest.split_once("\n```").expect("the block's end");
        assert!(found.insert(name.to_string(), bytes(lines)).is_none(), "two blocks named {name}");
    }
    found
}

/// The bytes of lines of hex, each up to its `#`.
fn bytes(lines: &str) -> Vec<u8> {
    let digits = lines.lines().map(|line| line.split('#').next().expect("a first part"));
    let each = |text: &str| u8::from_str_radix(text, 16).unwrap_or_else(|_| panic!("{text} is no byte in hex"));
    digits.flat_map(|line| line.split_whitespace().map(each).collect::<Vec<u8>>()).collect()
}

#[test]
fn bundle_reads() {
    let blocks = blocks();
    let bundle = Bundle::read(&blocks["bundle"]).expect("the page's bundle");
    assert_eq!(bundle.count(), 4);
}

#[test]
fn each_operation_leaves_its_cells() {
    let blocks = blocks();
    let bundle = Bundle::read(&blocks["bundle"]).expect("the page's bundle");
    let steps: Vec<(&str, &Vec<u8>)> = blocks.iter().filter_map(|(name, step)| Some((name.strip_prefix("step ")?, step))).collect();
    let mut operations: Vec<u8> = steps.iter().map(|(_, step)| step[0]).collect();
    operations.sort_unstable();
    assert_eq!(operations, (1..=12).collect::<Vec<u8>>(), "an example for each operation");
    for (name, step) in steps {
        let cells = &blocks[&format!("cells {name}")];
        assert_eq!((step.len(), cells.len() % 9), (36, 0), "{name}");
        let mut work = vec![7; cells.len() + 1];
        assert_eq!(bundle.run(step, &mut work), Ok(cells.len() as u32 / 9), "{name}");
        assert_eq!((&work[..cells.len()], work[cells.len()]), (&cells[..], 7), "{name}");
    }
}

#[test]
fn rows_and_their_answer() {
    let blocks = blocks();
    let bundle = Bundle::read(&blocks["bundle"]).expect("the page's bundle");
    let rows = &blocks["rows"];
    let (mut work, mut page) = ([0; 54], vec![0; rows.len()]);
    let answer = bundle.page(&blocks["step right scalar"], &mut work, 1, &mut page).expect("a page");
    assert_eq!(&page, rows);
    let said: Vec<u8> = [answer.written, answer.next].iter().flat_map(|number| number.to_le_bytes()).collect();
    assert_eq!(said, blocks["said page"]);
    assert_eq!(Row::from_bytes(&rows[..12]), Row { ordinality: 1, coordinate: vec![1, 1] });
}

/// The head of a recipe's result is that block.
fn extent_is(bundle: &[u8], recipe: &[u8], head: &[u8]) {
    let (mut said, mut extent) = ([0; 4], vec![7; head.len()]);
    let (b, b_len, r, r_len) = (bundle.as_ptr(), bundle.len(), recipe.as_ptr(), recipe.len());
    // SAFETY: each pointer and length are one slice's; `said` and `extent`, which are written to, are borrowed alone.
    let refused = unsafe { raw::rma_extent(b, b_len, r, r_len, extent.as_mut_ptr(), extent.len(), said.as_mut_ptr(), said.len()) };
    assert_eq!((refused, u32::from_le_bytes(said)), (0, head.len() as u32));
    assert_eq!(extent, head);
}

#[test]
fn plan_and_head_of_the_result() {
    let blocks = blocks();
    let (bundle, recipe) = (&blocks["bundle"], &blocks["step right scalar"]);
    let mut said = [0; 16];
    let (b, b_len, r, r_len) = (bundle.as_ptr(), bundle.len(), recipe.as_ptr(), recipe.len());
    // SAFETY: each pointer and length are one slice's; `said`, which is written to, is borrowed alone.
    let refused = unsafe { raw::rma_plan(b, b_len, r, r_len, said.as_mut_ptr(), said.len()) };
    assert_eq!((refused, &said[..]), (0, &blocks["said plan"][..]));
    assert_eq!(blocks["head of the result"].len(), raw::HEAD_1);
    extent_is(bundle, recipe, &blocks["head of the result"]);
}

/// A head and cells, told that version, pack to that bundle.
fn packs_to(version: Version, head: &[u8], cells: &[u8], packed: &[u8]) {
    let (mut out, mut said) = (vec![0; packed.len()], [0; 4]);
    let (heads, heads_len, held, held_len, out_len) = (head.as_ptr(), head.len(), cells.as_ptr(), cells.len(), out.len());
    // SAFETY: each pointer and length are one slice's; `out` and `said`, which are written to, are borrowed alone.
    let refused =
        unsafe { raw::rma_pack(version as u32, heads, heads_len, held, held_len, out.as_mut_ptr(), out_len, said.as_mut_ptr(), 4) };
    assert_eq!((refused, u32::from_le_bytes(said)), (0, packed.len() as u32));
    assert_eq!(out, packed);
}

#[test]
fn head_packs_to_its_bundle() {
    let blocks = blocks();
    assert_eq!(blocks["head"].len(), raw::HEAD_1);
    packs_to(Version::One, &blocks["head"], &blocks["cells packed"], &blocks["packed"]);
}

/// The example in version 2: where its array lies, its rows, a rename to six names, the head of a result, and its own head.
#[test]
fn in_version_2() {
    let blocks = blocks();
    let block = |name: &str| &blocks[&format!("version 2 {name}")];
    let bundle = Bundle::read(block("bundle")).expect("the page's bundle");
    assert_eq!((bundle.version(), bundle.array(1).unwrap().axes().len()), (Version::Two, 6));
    let mut said = [0; 16];
    // SAFETY: each pointer and length are one slice's; `said`, which is written to, is borrowed alone.
    let refused = unsafe { raw::rma_array(bundle.bytes().as_ptr(), bundle.bytes().len(), 1, said.as_mut_ptr(), said.len()) };
    assert_eq!((refused, &said[..]), (0, &block("said array")[..]));

    let (mut work, mut page) = ([0; 36], [7; 56]);
    let answer = bundle.page(block("step right scalar"), &mut work, 1, &mut page).expect("a page");
    assert_eq!((&page[..28], &page[28..]), (&block("rows")[..], &[7; 28][..]));
    assert_eq!([answer.written, answer.next].map(u32::to_le_bytes).concat(), block("said page")[..]);

    let renamed = bundle.extent(block("step rename")).expect("a rename");
    assert_eq!(renamed.axes.iter().map(|axis| axis.name.as_str()).collect::<Vec<&str>>(), ["b", "d", "l", "who", "w", "turn"]);
    for step in ["step right scalar", "step rename", "step slice"] {
        assert_eq!(block(step).len(), 100, "{step}");
    }
    extent_is(bundle.bytes(), block("step slice"), block("head of the result"));
    assert_eq!((block("head").len(), block("head of the result").len()), (raw::HEAD_2, raw::HEAD_2));
    packs_to(Version::Two, block("head"), bundle.array(1).unwrap().bytes(), block("bundle"));
}

/// The cells that a row of the table of texts prints, or the refusal's number and byte.
fn answer(printed: &str) -> Result<Vec<Cell>, [u32; 3]> {
    let words: Vec<&str> = printed.split([' ', ',']).collect();
    if let [number, "at", byte, ..] = words[..] {
        return Err([number, "0", byte].map(|figure| figure.parse().expect("a figure")));
    }
    let cell = |word: &&str| if *word == "empty" { Cell::Empty } else { Cell::Int(word.parse().expect("a number")) };
    Ok(words.iter().map(cell).collect())
}

#[test]
fn texts_are_read_as_printed() {
    let page = page();
    let (_, from_section) = page.split_once("\n## A JSON text\n").expect("the section");
    let section = from_section.split("\n## ").next().expect("a first part");
    let head = Head { kind: Kind::Int, axes: vec![Axis::new("x", 1, 2), Axis::new("y", 1, 2)] };
    let rows: Vec<&str> = section.lines().filter_map(|line| line.strip_prefix("| `")?.strip_suffix(" |")).collect();
    for row in &rows {
        let (text, printed) = row.split_once("` | ").expect("a text and its answer");
        for version in [Version::One, Version::Two] {
            assert_eq!(read_json(version, &head, text).map_err(|refusal| refusal.figures()), answer(printed), "{text}");
        }
    }
    let of_number = |number: &str| rows.iter().filter(|row| row.contains(&format!("` | {number} at "))).count();
    assert_eq!((rows.len(), of_number("15"), of_number("16")), (18, 6, 8));
}

/// A row for each refusal, and no other.
#[test]
fn table_of_refusals() {
    let page = page();
    let (_, section) = page.split_once("\n## Refusals\n").expect("the section");
    let numbers = section.lines().filter_map(|line| line.strip_prefix("| ")?.split(" |").next()?.parse::<u32>().ok());
    assert_eq!(numbers.collect::<Vec<u32>>(), (1..=16).collect::<Vec<u32>>());
}

/// The steps of the section "What 8 says", put to the engine: each answers as its row prints.
#[test]
fn what_8_says() {
    let (page, blocks) = (page(), blocks());
    let (_, section) = page.split_once("\n### What 8 says\n").expect("the section");
    let bundle = Bundle::read(&blocks["bundle"]).expect("the page's bundle");
    let steps = [
        ("pair of arrays 1 and 3", bundle.recipe().pair(1, 3, Operator::Plus)),
        ("pair of arrays 1 and 2", bundle.recipe().pair(1, 2, Operator::Plus)),
        ("glue of arrays 1 and 2 along `x`", bundle.recipe().glue(1, 2, 1)),
        ("glue of arrays 1 and 2 along `y`", bundle.recipe().glue(1, 2, 2)),
        ("place of array 3 into array 1, on `x`", bundle.recipe().place(1, 3, 1, 1)),
        ("update of array 1 with array 2", bundle.recipe().update(1, 2)),
    ];
    let rows: Vec<&str> = section.lines().skip_while(|line| !line.starts_with("| Step |")).skip(2).collect();
    assert_eq!(rows.len(), steps.len(), "a row for each of them, and none behind them");
    for (row, (words, recipe)) in rows.iter().zip(steps) {
        let printed = row.strip_prefix(&format!("| {words} | ")).unwrap_or_else(|| panic!("no row {words}"));
        let figures = match bundle.plan(&recipe) {
            Ok(_) => "done".to_string(),
            Err(refusal) => refusal.figures().map(|figure| figure.to_string()).join(", "),
        };
        assert_eq!(printed.split(':').next(), Some(&figures[..]), "{words}");
    }
}

/// The figures of the table of versions.
#[test]
fn table_of_versions() {
    let page = page();
    let figures = |row: &str| {
        let line = page.lines().find(|line| line.starts_with(&format!("| {row}"))).unwrap_or_else(|| panic!("no row {row}"));
        let cells: Vec<String> = line.split('|').map(|cell| cell.trim().replace(',', "")).collect();
        [2, 3].map(|at| cells[at].clone())
    };
    let both = [Version::One, Version::Two];
    assert_eq!(figures("letters of a name"), both.map(|version| version.most_letters().to_string()));
    assert_eq!(figures("axes of an array, and slots"), both.map(|version| version.most_axes().to_string()));
    assert_eq!(figures("bytes of an axis"), both.map(|version| (version.most_letters() + 16).to_string()));
    let step = both.map(|version| Recipe::new(version).update(1, 1).bytes().len());
    assert_eq!(figures("bytes of a step "), step.map(|bytes| bytes.to_string()));
    assert_eq!(figures("bytes of a step's detail"), step.map(|bytes| (bytes - 4).to_string()));
    assert_eq!(figures("bytes of a recipe"), step.map(|bytes| format!("{bytes} to {}", 16 * bytes)));
    assert_eq!(figures("bytes of a coordinate"), both.map(|version| (4 * version.most_axes()).to_string()));
    assert_eq!(figures("bytes of a row"), both.map(|version| (4 + 4 * version.most_axes()).to_string()));
    assert_eq!(figures("bytes of a head"), [raw::HEAD_1, raw::HEAD_2].map(|bytes| bytes.to_string()));
    assert_eq!(figures("bytes of a JSON text"), ["110602".to_string(), raw::JSON.to_string()]);
}
