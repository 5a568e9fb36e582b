//! The tour of a folder, for the producer's tools: its table with the typed text of each row, its lists, and its state in words.
use crate::l6::{self, numbers, Answer, Lent, Report, State};
use std::collections::BTreeMap;
use std::path::Path;

pub const ENTRY: usize = 16; // the go-to of row 1, where a tour starts
pub const LIMIT: u64 = 100_000; // steps, as tourrun takes them
const WORDS: usize = 4096;

/// A row as typed: its line, counted from 1, and its words: a parenthesis, or the whole line for the row of a line.
pub struct Typed {
    pub line: usize,
    pub text: String,
}

pub struct Folder {
    pub width: u64,
    pub table: Vec<u64>,
    pub rows: Vec<Typed>,
    pub input: Vec<u8>,
    pub corrections: Vec<u64>,
    pub windows: Vec<u64>,
    pub exceptions: Vec<u64>,
}

/// The rows of typed lines in their order: each line's row before its tests, and those before its operations.
fn typed(text: &str) -> Vec<Typed> {
    let mut rows = vec![Typed { line: 0, text: String::new() }];
    for (i, line) in text.lines().enumerate() {
        rows.push(Typed { line: i + 1, text: line.trim().to_string() });
        let pieces =
            line.split('(').skip(1).map(|piece| format!("({}", piece.split_once(')').map_or(piece, |(inside, _)| inside)) + ")");
        rows.extend(pieces.map(|text| Typed { line: i + 1, text }));
    }
    rows
}

impl Folder {
    /// Reads a folder. A missing file counts as empty; the typed lines of tour.l6 are those of tour.tab.
    pub fn read(folder: &str, width: u64) -> Folder {
        let load = |name: &str| std::fs::read(Path::new(folder).join(name)).unwrap_or_default();
        let text = String::from_utf8_lossy(&load("tour.l6")).into_owned();
        Folder {
            width,
            table: numbers(&load("tour.tab")),
            rows: typed(&text),
            input: load("stops.in").into_iter().take(WORDS).collect(),
            corrections: numbers(&load("corrections.tab")),
            windows: numbers(&load("windows.tab")),
            exceptions: numbers(&load("exceptions.tab")),
        }
    }
    /// A row in words: the line that it stands in and its own words.
    pub fn at(&self, row: usize) -> String {
        match self.rows.get(row) {
            Some(typed) if typed.line > 0 => format!("line {}, row {row}, {}", typed.line, typed.text),
            _ => format!("row {row}"),
        }
    }
}

/// A tour that is played step by step.
#[derive(Clone)]
pub struct Played {
    pub state: State,
    pub storage: Vec<u64>,
    pub output: Vec<u8>,
    pub steps: u64,
    pub answer: Answer,
}

impl Played {
    pub fn start(width: u64) -> Result<Played, String> {
        let state = State::fresh(width).map_err(|refusal| refusal.to_string())?;
        Ok(Played { state, storage: vec![0; WORDS], output: vec![0; WORDS], steps: 0, answer: Answer::Running })
    }
    pub fn step(&mut self, table: &[u64], input: &[u8]) -> Report {
        let mut lent = Lent { table, storage: &mut self.storage, input, output: &mut self.output };
        let (answer, report) = self.state.step(&mut lent);
        (self.answer, self.steps) = (answer, self.steps + 1);
        report
    }
    /// Gives the tour all the words there are, in whole blocks, as the example hosts do where a block has no room.
    pub fn extend(&mut self) -> bool {
        let [d, s1, _] = self.state.setup();
        let last = (s1 + self.storage.len() / d * d - 1).min(32767);
        self.state.extend(&mut self.storage, last as u64).is_ok()
    }
    fn number(&self, at: usize, length: usize) -> u64 {
        self.state.bytes()[at..at + length].iter().rev().fold(0, |number, &byte| number << 8 | byte as u64)
    }
    /// The row of the line where the tour stands; 0 at its end.
    pub fn line(&self) -> usize {
        self.number(3, 2) as usize
    }
    /// How many DOs are not done.
    pub fn depth(&self) -> u64 {
        self.number(27 + 16, 8)
    }
    pub fn bug(&self, letter: usize) -> u64 {
        self.number(51 + 8 * letter, 8)
    }
    /// Word, left and right bit of a field that is defined.
    pub fn field(&self, name: usize) -> Option<[u64; 3]> {
        let at = 1283 + 4 * name;
        (self.number(at, 1) != 0).then(|| [1, 2, 3].map(|i| self.number(at + i, 1)))
    }
    pub fn word(&self, address: u64) -> u64 {
        self.storage[address as usize - self.state.setup()[1]]
    }
    /// The contents of a field of a word.
    pub fn bits(&self, word: u64, [_, left, right]: [u64; 3]) -> u64 {
        if left > right {
            return 0;
        }
        let width = right - left + 1;
        word >> (self.state.width() - 1 - right) & ((1 << width) - 1)
    }
    /// The live blocks by their addresses.
    pub fn blocks(&self) -> BTreeMap<u64, u64> {
        self.state.live_blocks().unwrap_or_default().iter().map(|block| (block.address, block.size)).collect()
    }
    /// What a reference holds, as far as it can be followed.
    pub fn value(&self, names: &[usize], blocks: &BTreeMap<u64, u64>) -> Option<u64> {
        let (&bug, fields) = names.split_first()?;
        fields.iter().try_fold(self.bug(bug.checked_sub(10)?), |pointer, &name| {
            let field = self.field(name)?;
            let size = blocks.get(&pointer)?;
            (field[0] < *size).then(|| self.bits(self.word(pointer + field[0]), field))
        })
    }
}

/// The names of a reference: base-64 digits, each a name's number plus one.
pub fn names(mut reference: u64) -> Vec<usize> {
    let mut names = vec![];
    while reference > 0 {
        names.insert(0, (reference % 64) as usize - 1);
        reference /= 64;
    }
    names
}
pub fn spelled(names: &[usize]) -> String {
    names.iter().map(|&name| l6::field_name(name as u64)).collect()
}
