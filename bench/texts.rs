//! The texts that bench/json_read.rs has read: an array's cells, its head, and the JSON that the engine or another program writes of it;
//! and what becomes of such a text where a byte is missing or another.

pub const MOST: usize = 4096;
const SIDE: usize = 64;

/// A text, and the array that it is.
pub struct Input {
    pub label: &'static str,
    pub version: u32,
    pub boolean: bool,
    pub widths: Vec<usize>,
    pub head: Vec<u8>,
    pub cells: Vec<Option<i64>>,
    pub text: Vec<u8>,
}

impl Input {
    fn new(label: &'static str, boolean: bool, widths: &[usize], cells: Vec<Option<i64>>) -> Input {
        assert_eq!(widths.iter().product::<usize>(), cells.len());
        let (version, name) = if widths.len() <= 4 { (1, 8) } else { (2, 16) };
        let mut head = vec![if boolean { 3 } else { 1 }, widths.len() as u8];
        for (axis, width) in widths.iter().enumerate() {
            head.extend([b'a' + axis as u8].iter().chain(&[0; 15]).take(name));
            head.extend([1, *width as i32, -1_000_000, 1_000_000].iter().flat_map(|limit: &i32| limit.to_le_bytes()));
        }
        head.resize(if version == 1 { 98 } else { 194 }, 0);
        let mut input = Input { label, version, boolean, widths: widths.to_vec(), head, cells, text: vec![] };
        input.text = format!("{{\"data\":{}}}", input.brackets(0, 0..input.cells.len(), "")).into_bytes();
        input
    }

    /// The text of these cells, from an axis on, without blanks; or, with `line`, each on a line of its own, indented by two more.
    fn brackets(&self, axis: usize, cells: std::ops::Range<usize>, line: &str) -> String {
        let Some(width) = self.widths.get(axis) else {
            return match self.cells[cells.start] {
                None => "null".into(),
                Some(number) if self.boolean => (number == 1).to_string(),
                Some(number) => number.to_string(),
            };
        };
        let (part, deeper) = (cells.len() / width, if line.is_empty() { String::new() } else { format!("{line}  ") });
        let parts: Vec<String> =
            (0..*width).map(|i| self.brackets(axis + 1, cells.start + i * part..cells.start + (i + 1) * part, &deeper)).collect();
        format!("[{deeper}{}{line}]", parts.join(&format!(",{deeper}")))
    }

    /// The same as Python's `indent=2` writes it.
    fn indented(mut self) -> Input {
        self.text = format!("{{\n  \"data\": {}\n}}", self.brackets(0, 0..self.cells.len(), "\n  ")).into_bytes();
        self
    }

    /// The same behind other members: records with strings, escapes, letters of several bytes, numbers, lists.
    fn among_others(mut self) -> Input {
        let records: Vec<String> = (0..600)
            .map(|i| {
                let name = format!("\"name\":\"Müller-{i}, \\\"night\\\" turn\",\"rate\":{}.25e-1,\"days\":[1,2,3,5,{i}]", i % 40);
                format!("{{\"id\":{i},{name},\"ok\":{},\"left\":null,\"note\":\"a longer line of plain words\"}}", i % 2 == 0)
            })
            .collect();
        let data = String::from_utf8(self.text).unwrap();
        self.text = format!("{{\"records\":[{}],{}", records.join(","), &data[1..]).into_bytes();
        self
    }

    /// The cells as they must be laid down.
    pub fn cell_bytes(&self) -> Vec<u8> {
        let nine = |cell: &Option<i64>| [&[cell.is_some() as u8][..], &cell.unwrap_or(0).to_le_bytes()].concat();
        self.cells.iter().flat_map(nine).collect()
    }

    /// A short text cut at every byte, and with every byte in turn replaced by others.
    pub fn spoiled(&self) -> Vec<Vec<u8>> {
        if self.text.len() > 300 {
            return vec![];
        }
        let others = b" \t\n\"\\/-+.0159eEbunrtf[]{}:,\x00\x1f\x7f\x80\xc3\xff";
        let cut = (0..self.text.len()).map(|len| self.text[..len].to_vec());
        let changed =
            (0..self.text.len()).flat_map(|at| others.iter().map(move |&byte| [&self.text[..at], &[byte], &self.text[at + 1..]].concat()));
        cut.chain(changed).collect()
    }
}

/// A text of all kinds for the comparison before the times, short enough to be spoiled at every byte.
fn small() -> Input {
    let mut input = Input::new("INT, 2 by 2 among other members", false, &[2, 2], vec![Some(-10), None, Some(0), Some(i64::MIN)]);
    let others = "{\"é\\u00e9\\n\\\\\" : [ true,-1.5e+3,{\"data\":null,\"\":[]},false ] ,\r\n";
    let data = "\t\"d\\u0061ta\": [[-10 ,null], [-0,-9223372036854775808]],\"datum\":\"\u{20ac}\"} ";
    input.text = [others, data].concat().into_bytes();
    input
}

/// All inputs: 64 by 64 cells, the longest text that the engine writes, and texts with hardly a cell.
pub fn all() -> Vec<Input> {
    let mut state = 88172645463325252u64;
    let mut next = move || {
        state ^= state << 13;
        state ^= state >> 7;
        state ^= state << 17;
        state
    };
    let mut cells = |value: &dyn Fn(u64, u64) -> Option<i64>| (0..MOST).map(|_| value(next(), next())).collect::<Vec<_>>();
    let digits = |r: u64, s: u64| {
        let least = 10i64.pow((s >> 1) as u32 % 19);
        let number = least + (r % (least.saturating_mul(10) - least) as u64) as i64;
        Some(number * [1, -1][(s % 2) as usize])
    };
    let square = [SIDE, SIDE];
    vec![
        Input::new("INT, full range", false, &square, cells(&|r, _| Some(r as i64))),
        Input::new("INT, 0 to 99", false, &square, cells(&|r, _| Some((r % 100) as i64))),
        Input::new(
            "INT, minutes of a roster, 1 in 16 empty",
            false,
            &square,
            cells(&|r, s| (s % 16 > 0).then_some(1 + (r % 10_000) as i64)),
        ),
        Input::new("INT, 1 to 19 digits, both signs", false, &square, cells(&digits)),
        Input::new("BOOLEAN, 1 in 16 empty", true, &square, cells(&|r, s| (s % 16 > 0).then_some((r % 2) as i64))),
        Input::new("INT on six axes, the longest text", false, &[MOST, 1, 1, 1, 1, 1], vec![Some(i64::MIN); MOST]),
        Input::new("INT indented by two, 0 to 99", false, &square, cells(&|r, _| Some((r % 100) as i64))).indented(),
        Input::new("one cell behind 600 records", false, &[1], vec![Some(7)]).among_others(),
        Input::new("one cell alone", false, &[1], vec![Some(7)]),
        small(),
    ]
}
