//! The cases of the program `comparison`, as its input, and what it must print.
//!
//! The input is numbers, each in groups of seven bits, the lowest first, every byte but the last with 128 added: how many cases
//! there are; then for each case how many numbers it has, these, the length of its label and its characters. The numbers of a case
//! are the lengths of the table, the input, the storage and the output, the steps before the damages, how many damages there are,
//! the limit of the steps after them, the width, then the table, the input, and for each damage the index of a byte of the state
//! and its new value (from 6,676 on, of a word of the storage). After the cases stands for each count of the cases of 36 bits, and
//! then of 48, what it is of, its length before it.
//!
//! A case starts from a fresh engine over a storage and an output of known patterns. After the steps and damages that it
//! begins with, it is stepped until its limit, a finish or a refusal; and from the start again, run with that limit.
use crate::bytes::*;
use crate::engine::*;
use crate::generator::*;
use crate::raw::*;

#[derive(Clone, Default)]
pub struct Trial {
    bits: u64,
    label: String,
    table: Vec<u64>,
    input: Vec<u8>,
    storage: usize,
    output: usize,
    before: u64,
    damages: Vec<Damage>,
    pub limit: u64,
}

impl Trial {
    fn of(label: &str, case: &Case) -> Trial {
        let Case { bits, input, storage, output, limit, .. } = case.clone();
        let label = if bits == 36 { label.to_string() } else { format!("{label}, {bits} bits") };
        Trial { bits, label, table: case.table(), input, storage, output, limit, ..Trial::default() }
    }
    fn numbers(&self) -> Vec<u64> {
        let lengths = [self.table.len(), self.input.len(), self.storage, self.output];
        let damages: Vec<(usize, u64)> = self.damages.iter().flat_map(|d| d.bytes()).collect();
        let mut all = lengths.map(|n| n as u64).to_vec();
        all.extend([self.before, damages.len() as u64, self.limit, self.bits]);
        all.extend(&self.table);
        all.extend(self.input.iter().map(|&byte| byte as u64));
        all.extend(damages.iter().flat_map(|&(index, value)| [index as u64, value]));
        all
    }
    /// The engine with what is lent, and its numbers after the steps and damages that the case begins with.
    pub fn started(&self) -> (Engine, Raw) {
        let storage: Vec<u64> = (1..=self.storage as u64).map(next).collect();
        let output: Vec<u8> = (0..self.output).map(|i| 128 + (i % 128) as u8).collect();
        let mut engine = Engine::fresh(self.table.clone(), self.input.clone(), vec![], self.output, self.bits);
        let mut raw = Raw::fresh(self.bits, storage, output);
        for _ in 0..self.before {
            if raw.step(&mut engine).0 != Answer::Running {
                break;
            }
        }
        self.damages.iter().for_each(|&damage| raw.change(damage));
        (engine, raw)
    }
}

// ---------------------------------------------------------------- checksums

/// A shift register of 64 bits.
fn next(state: u64) -> u64 {
    let a = state ^ state << 13;
    let b = a ^ a >> 7;
    b ^ b << 17
}
fn fold(sum: u64, numbers: &[u64]) -> u64 {
    numbers.iter().fold(sum, |sum, &number| next(sum ^ number))
}
/// The state's bytes, the storage and the output.
fn left_sum(raw: Raw) -> u64 {
    let Tour { state, storage, output } = written(raw);
    let wide = |bytes: &[u8]| bytes.iter().map(|&byte| byte as u64).collect::<Vec<_>>();
    fold(fold(fold(1, &wide(&state)), &storage), &wide(&output))
}
/// One more step: its report, its answer and the place after it.
fn step_sum(sum: u64, answer: Answer, place: [u64; 3], r: &Report) -> u64 {
    let sum = fold(sum, &[r.freed, r.delivered, r.size, r.copied]);
    let sum = [r.first, r.second].iter().fold(sum, |sum, s| fold(sum, &[s.address, s.left, s.right, s.kept]));
    fold(fold(sum, &[answer_number(answer)]), &place)
}
/// 0 running, 100 finished, otherwise the refusal.
fn answer_number(answer: Answer) -> u64 {
    match answer {
        Answer::Running => 0,
        Answer::Finished => 100,
        Answer::Refused(k) => k,
    }
}

// ---------------------------------------------------------------- what the cases reach

const OPERATIONS: [&str; 36] = [
    "set up",
    "define",
    "get",
    "free",
    "duplicate",
    "copy",
    "interchange",
    "add",
    "subtract",
    "multiply",
    "divide",
    "or",
    "and",
    "exclusive or",
    "complement",
    "count ones",
    "count zeros",
    "leftmost one",
    "rightmost one",
    "leftmost zero",
    "rightmost zero",
    "left shift",
    "right shift",
    "input",
    "print",
    "blanks to zeros",
    "decimal to binary",
    "octal to binary",
    "binary to decimal",
    "binary to octal",
    "zeros to blanks",
    "save contents",
    "restore contents",
    "save definition",
    "restore definition",
    "do",
];
const TESTS: [&str; 7] = ["equal", "unequal", "greater", "less", "same pointer", "ones", "zeros"];
const MODES: [&str; 5] = ["THEN", "IFALL", "IFANY", "IFNONE", "IFNALL"];

/// What each count is of for a width, in the order of the counts.
fn names() -> Vec<String> {
    let mut names: Vec<String> = (1..).zip(OPERATIONS).map(|(code, name)| format!("operation {code}, {name}")).collect();
    for (code, name) in (1..).zip(TESTS) {
        for held in ["not held", "held"] {
            names.push(format!("test {code}, {name}, {held}"))
        }
    }
    for mode in MODES {
        for how in ["not satisfied", "satisfied"] {
            names.push(format!("{mode}, {how}"))
        }
    }
    names.remove(50); // THEN is never not satisfied
    for k in 1..=22 {
        names.push(format!("refusal {k}"))
    }
    for k in 0..8 {
        names.push(format!("set up with d {}", 1 << k))
    }
    for what in ["a bug", "a whole word", "a narrow field", "a null field"] {
        names.push(format!("store into {what}"))
    }
    for what in ["no free block", "a free block too small"] {
        names.push(format!("refusal 17 with {what}"))
    }
    names.push("refusal 31".to_string());
    names
}
/// The counts that a step adds to; `before` is the place that it was taken from.
fn reached(table: &[u64], before: [u64; 3], after: &Raw, answer: Answer, report: &Report) -> Vec<usize> {
    let number = |row: u64, i: usize| table.get(10 * row as usize + i).map_or(0, |&n| n as usize);
    let [kind, row, line] = before;
    if let Answer::Refused(k) = answer {
        let free = after.map.iter().any(|tag| tag % 2 == 1) as usize;
        return match k {
            17 => vec![75, 93 + free],
            31 => vec![95],
            _ => vec![58 + k as usize],
        };
    }
    if kind == 0 {
        let (mode, test, satisfied) = (number(line, 2), number(line, 4) as u64, matches!(after.place[0], 1 | 2));
        let mut all = vec![49 + 2 * mode + satisfied as usize];
        let alone = mode != 0 && number(test, 1) == 0; // its outcome is known from the line's
        if alone {
            all.push(34 + 2 * number(test, 2) + (satisfied == (mode <= 2)) as usize)
        }
        return all;
    }
    if kind != 1 {
        return vec![];
    }
    let code = number(row, 2);
    let mut all = vec![code - 1];
    if code == 1 {
        all.push(81 + after.setup[0].trailing_zeros() as usize)
    }
    if matches!(code, 6 | 8..=24 | 26..=31 | 33) {
        all.push(stored(number(row, 5) as u64, report.first, after.width))
    }
    all
}
/// The count of a first store, by its destination's reference and its report.
fn stored(reference: u64, store: Store, bits: u64) -> usize {
    if reference < 64 {
        89
    } else if store.address == 0 {
        92
    } else if store.right + 1 == bits + store.left {
        90
    } else {
        91
    }
}

// ---------------------------------------------------------------- the cases

fn literal(value: u64) -> (u64, u64) {
    (1, value)
}
/// Set-up with d = 8, s1 = 8, s2 = 23, then the operations in one line; and more lines.
fn bench_case(bits: u64, operations: &[Row], more: &[Line]) -> Case {
    let set_up = row(3, 1, 0, &[literal(8), literal(8), literal(23)]);
    let first = Line { operations: [&[set_up], operations].concat(), ..Line::default() };
    let lines = [&[first], more].concat();
    Case { bits, lines, input: vec![1, 2, 3, 4, 5, 6, 7, 8, 9], storage: 20, output: 40, limit: 100, ..Case::default() }
}
/// The bench cases without a star, and the like at 48 bits. What is to be equal is tested, and the divisor is 0 if it is not.
fn bench(bits: u64) -> Vec<Trial> {
    let (count, wrap) = (bits / 6, 10u64.pow(bits as u32 / 6));
    let (x, y) = (named("X"), named("Y"));
    let decimal = |bug, value| [row(3, 6, 0, &[bug, literal(value)]), row(3, 29, 0, &[bug, bug])];
    let unequal =
        Line { mode: 1, tests: vec![row(2, 2, 0, &[x, y])], operations: vec![row(3, 11, 0, &[x, literal(0)])], ..Line::default() };
    let input = |count| bench_case(bits, &[row(3, 24, 0, &[x, literal(count)])], &[]);
    let print = [3, 0, 25, 0, 1, 2, 1, 7, 0, 0];
    let example = [[0; 10], [1, 0, 0, 0, 0, 2, 0, 0, 0, 0], [3, 3, 1, 0, 1, 8, 1, 8, 1, 23], print].concat();
    let example = Case { bits, table: Some(example), storage: 4096, output: 4096, limit: 100_000, ..Case::default() };
    vec![
        Trial::of(
            &format!("{} converts as 607", wrap + 607),
            &bench_case(bits, &[decimal(x, wrap + 607), decimal(y, 607)].concat(), &[unequal]),
        ),
        Trial::of(&format!("{count} input characters"), &input(count)),
        Trial::of(&format!("{} input characters", count + 1), &input(count + 1)),
        Trial::of("the example of tourrun", &example),
        Trial::of(&format!("{count} characters where there are no stops yet"), &Case { input: vec![], ..input(count) }),
        Trial::of(&format!("{} characters where there are no stops yet", count + 1), &Case { input: vec![], ..input(count + 1) }),
    ]
}
/// Tables of each length at the bounds of refusal 1, their rows after the first two zero.
fn lengths(bits: u64) -> Vec<Trial> {
    let of = |&length: &usize| {
        let mut table = [[0; 10], [1, 0, 0, 0, 0, 0, DONE, 0, 0, 0]].concat();
        table.resize(length, 0);
        let case = Case { bits, table: Some(table), storage: 4, output: 4, limit: 9, ..Case::default() };
        Trial::of(&format!("table of {length} numbers"), &case)
    };
    [0, 10, 19, 20, 21, 8000, 8010].iter().map(of).collect()
}
/// For each d a set-up whose last address is 32767, and blocks of d words until there are none. Then for each d a list of
/// blocks of one word over the whole storage, of which every other one is freed, and two words wanted.
fn storages(bits: u64) -> Vec<Trial> {
    let (w, x, z, link) = (named("W"), named("X"), named("Z"), named("WA"));
    let mut trials = vec![];
    for d in (0..8).map(|k| 1 << k) {
        let first = |n| Line {
            operations: vec![
                row(3, 1, 0, &[literal(d), literal(32768 - n), literal(32767)]),
                row(3, 2, 10, &[literal(0), literal(bits - 18), literal(bits - 1)]),
            ],
            ..Line::default()
        };
        let case = |n: u64, lines: &[Line]| {
            let lines = [&[first(n)], lines].concat();
            Case { bits, lines, storage: n as usize + 3, limit: 5000, ..Case::default() }
        };
        let gets = Line { operations: vec![row(3, 3, 0, &[w, literal(d), link])], goto: 2, ..Line::default() };
        trials.push(Trial::of(&format!("full, d {d}"), &case(32 * d, &[gets])));
        let n = (4 * d).max(16);
        let gets = Line {
            mode: 1,
            tests: vec![row(2, 4, 0, &[z, literal(n)])],
            operations: vec![row(3, 3, 0, &[w, literal(1), link]), row(3, 8, 0, &[z, literal(1)])],
            goto: 2,
            ..Line::default()
        };
        let onward = row(3, 6, 0, &[w, link]);
        let frees = Line {
            mode: 1,
            tests: vec![row(2, 2, 0, &[w, literal(0)])],
            operations: vec![row(3, 6, 0, &[x, w]), onward, row(3, 4, 0, &[x, literal(0)]), onward],
            goto: 3,
            ..Line::default()
        };
        let two = Line { operations: vec![row(3, 3, 0, &[x, literal(2)])], ..Line::default() };
        trials.push(Trial::of(&format!("every other block freed, d {d}"), &case(n, &[gets, frees, two])));
    }
    trials
}

/// Eleven steps of this program leave an entry in each stack, two characters taken and three written, a live block of four
/// words and free ones of four and eight, field A a whole word and field B narrow. The place is then row 12 of line 11.
fn base(bits: u64) -> Case {
    let (w, x) = (named("W"), named("X"));
    let add = |n| row(3, 8, 0, &[x, literal(n)]);
    let mut case = bench_case(
        bits,
        &[
            row(3, 2, 10, &[literal(0), literal(0), literal(bits - 1)]),
            row(3, 2, 11, &[literal(1), literal(bits - 18), literal(bits - 1)]),
            row(3, 3, 0, &[w, literal(4), named("WB")]),
            row(3, 32, 0, &[w]),
            row(3, 34, 10, &[]),
            row(3, 24, 0, &[x, literal(2)]),
            row(3, 25, 0, &[literal(3), x]),
            row(3, 36, 0, &[literal(2)]),
        ],
        &[Line { sub: true, operations: vec![add(1), row(3, 6, 0, &[named("WB"), x]), add(2)], goto: DONE, ..Line::default() }],
    );
    case.output = 12;
    case
}
/// A state that no run gives: damages after so many steps of the program above.
fn damaged(bits: u64, before: u64, label: &str, damages: &[(What, usize, u64)]) -> Trial {
    let damages = damages.iter().map(|&(what, index, value)| Damage { what, index, value }).collect();
    Trial { before, damages, limit: 9, ..Trial::of(label, &base(bits)) }
}
/// Set-up numbers broken alone, for which the blocks and words around them have to be changed too. No map tells blocks past
/// 4,096 words, so that n is broken together with them.
fn set_ups(bits: u64) -> Vec<Trial> {
    use crate::raw::What::*;
    let mut three = vec![(SetUp, 0, 3), (SetUp, 1, 9), (SetUp, 2, 23)];
    three.extend((0..15).map(|i| (Map, i, 2)));
    let mut large = vec![(SetUp, 0, 256), (SetUp, 1, 256), (SetUp, 2, 511), (Map, 0, 17), (Map, 4, 0), (Map, 8, 0)];
    large.extend((16..256).map(|i| (Storage, i, 0)));
    let mut long = vec![(SetUp, 2, 4351)];
    long.extend((4096..4224).map(|i| (Storage, i, 0)));
    let set_up = row(3, 1, 0, &[literal(128), literal(128), literal(4223)]);
    let line = Line { operations: vec![set_up], ..Line::default() };
    let Trial { damages, limit, .. } = damaged(bits, 2, "", &long);
    let whole = Trial::of("n above 4,096", &Case { bits, lines: vec![line], storage: 4224, ..Case::default() });
    vec![
        damaged(bits, 11, "d no power of two", &three),
        Trial { storage: 256, ..damaged(bits, 11, "d of 256", &large) },
        Trial { before: 2, damages, limit, ..whole },
    ]
}
/// Each clause of refusal 11 broken alone, states as near that are sound, and widths that are none.
fn clauses(bits: u64) -> Vec<Trial> {
    use crate::raw::What::*;
    let big = 1 << bits;
    let all: &[(u64, &str, &[(What, usize, u64)])] = &[
        // unsound
        (11, "a bug of 2^b", &[(Bug, 25, big)]),
        (11, "a set-up word of 2^b", &[(Storage, 15, big)]),
        (11, "d of 0 after a set-up", &[(SetUp, 0, 0)]),
        (11, "s1 zero", &[(SetUp, 1, 0), (SetUp, 2, 15)]),
        (11, "s1 no multiple of d", &[(SetUp, 1, 12), (SetUp, 2, 27), (Map, 4, 7), (Map, 8, 0), (Map, 12, 5)]),
        (11, "s2 below s1, no block", &[(SetUp, 1, 32), (Map, 0, 0), (Map, 4, 0), (Map, 8, 0)]),
        (11, "s2 above 32,767", &[(SetUp, 1, 32760), (SetUp, 2, 32775)]),
        (11, "n no multiple of d", &[(SetUp, 2, 19), (Map, 8, 5)]),
        (11, "n above the lent storage", &[(SetUp, 2, 31), (Map, 16, 7)]),
        (11, "a definition's word of 128", &[(Definition, 41, 128)]),
        (11, "a definition's left bit of b", &[(Definition, 42, bits)]),
        (11, "a definition's right bit of b", &[(Definition, 43, bits)]),
        (11, "a field defined with a word of 255", &[(Definition, 140, 1), (Definition, 141, 255)]),
        (11, "a place of kind 4", &[(Place, 0, 4)]),
        (11, "a place of kind 3 with a line", &[(Place, 0, 3), (Place, 1, 0)]),
        (11, "a place of kind 3 with a row", &[(Place, 0, 3), (Place, 2, 0)]),
        (11, "a place at an operation of row 0", &[(Place, 1, 0)]),
        (11, "a place at an operation of row 800", &[(Place, 1, 800)]),
        (11, "a place of line 0", &[(Place, 2, 0)]),
        (11, "a place of line 800", &[(Place, 2, 800)]),
        (11, "a place at tests with a row", &[(Place, 0, 0)]),
        (11, "a place at an exit with a row", &[(Place, 0, 2)]),
        (11, "129 contents", &[(Count, 0, 129)]),
        (11, "129 saved definitions", &[(Count, 1, 129)]),
        (11, "129 saved places", &[(Count, 2, 129)]),
        (11, "contents of 2^b saved", &[(Contents, 0, big)]),
        (11, "a saved definition's word of 128", &[(Saved, 1, 128)]),
        (11, "a saved definition's left bit of b", &[(Saved, 2, bits)]),
        (11, "a saved definition's right bit of b", &[(Saved, 3, bits)]),
        (11, "a saved place of kind 4", &[(Calls, 0, 4)]),
        (11, "a saved place that is finished", &[(Calls, 0, 3), (Calls, 2, 0)]),
        (11, "a saved place of line 0", &[(Calls, 2, 0)]),
        (11, "a saved place of line 800", &[(Calls, 2, 800)]),
        (11, "a saved operation of row 800", &[(Calls, 0, 1), (Calls, 1, 800)]),
        (11, "a saved exit with a row", &[(Calls, 1, 5)]),
        (11, "a block larger than d", &[(SetUp, 1, 16), (SetUp, 2, 31), (Map, 0, 9), (Map, 4, 0), (Map, 8, 0)]),
        (11, "a byte that is no tag", &[(Map, 8, 255)]),
        (11, "a live block that is not aligned", &[(Map, 0, 3), (Map, 2, 6), (Map, 4, 0), (Map, 6, 3)]),
        (11, "a live block over a free one", &[(Map, 0, 8)]),
        (11, "a free block in a live one", &[(Map, 1, 1)]),
        (11, "two free halves", &[(Map, 0, 5)]),
        (11, "two free halves of one word", &[(Map, 4, 1), (Map, 5, 1), (Map, 6, 4)]),
        (11, "words in no block", &[(Map, 8, 0)]),
        (11, "a block past the set-up words", &[(Map, 16, 7)]),
        (11, "the map's last byte", &[(Map, 4095, 1)]),
        (11, "one character more taken than lent", &[(Stream, 0, 8)]),
        (11, "one character more written than lent", &[(Stream, 1, 13)]),
        (1, "a block before the set-up", &[(Map, 0, 7)]),
        (1, "d before the set-up", &[(SetUp, 0, 8)]),
        (1, "s1 before the set-up", &[(SetUp, 1, 8)]),
        (1, "s2 before the set-up", &[(SetUp, 2, 23)]),
        (0, "a fresh engine at row 0", &[(Place, 2, 0)]),
        (11, "unsound and finished", &[(Place, 0, 3), (Place, 1, 0), (Place, 2, 0), (Bug, 0, big)]),
        (11, "of width 0", &[(Width, 0, 0)]),
        (11, "of width 40", &[(Width, 0, 40)]),
        (11, "of width 40, unsound and finished", &[(Width, 0, 40), (Place, 0, 3), (Bug, 0, u64::MAX)]),
        (0, "a fresh engine of width 47", &[(Width, 0, 47)]),
        // sound, but for those whose words are too wide for the other width
        (11, "of the other width", &[(Width, 0, 84 - bits)]),
        (11, "no damage", &[]),
        (11, "a bug of 2^b - 1", &[(Bug, 25, big - 1)]),
        (11, "a set-up word of 2^b - 1", &[(Storage, 15, big - 1)]),
        (11, "a word of 2^b past the set-up words", &[(Storage, 16, big)]),
        (1, "a word of 2^b before the set-up", &[(Storage, 0, big)]),
        (11, "the set-up moved", &[(SetUp, 1, 32752), (SetUp, 2, 32767)]),
        (11, "a definition's word of 127", &[(Definition, 45, 127)]),
        (11, "a null field", &[(Definition, 46, bits - 1), (Definition, 47, 0)]),
        (11, "an undefined field's numbers", &[(Definition, 141, 255), (Definition, 142, bits), (Definition, 143, 99)]),
        (11, "a place at an operation of row 799", &[(Place, 1, 799)]),
        (11, "a place of line 799", &[(Place, 2, 799)]),
        (11, "a place at the tests of line 1", &[(Place, 0, 0), (Place, 1, 0), (Place, 2, 1)]),
        (11, "a place at an exit", &[(Place, 0, 2), (Place, 1, 0)]),
        (11, "finished", &[(Place, 0, 3), (Place, 1, 0), (Place, 2, 0)]),
        (11, "an unused entry of contents", &[(Contents, 1, big)]),
        (11, "an unused saved definition", &[(Saved, 4, 1), (Saved, 5, 128)]),
        (11, "an unused saved place", &[(Calls, 3, 9), (Calls, 4, 800)]),
        (11, "a saved definition that is undefined", &[(Saved, 0, 0), (Saved, 1, 255)]),
        (11, "a saved operation of row 799", &[(Calls, 0, 1), (Calls, 1, 799), (Calls, 2, 799)]),
        (11, "no saved place", &[(Count, 2, 0)]),
        (11, "all input taken", &[(Stream, 0, 7)]),
        (11, "all output written", &[(Stream, 1, 12)]),
        (11, "a free block made live", &[(Map, 4, 6)]),
        (11, "the live block made free", &[(Map, 0, 7), (Map, 4, 0)]),
        (11, "blocks of one word", &[(Map, 4, 1), (Map, 5, 2), (Map, 6, 2), (Map, 7, 1)]),
    ];
    let mut trials: Vec<Trial> = all.iter().map(|&(before, label, damages)| damaged(bits, before, label, damages)).collect();
    trials.extend(set_ups(bits));
    let short = Trial { table: vec![0; 19], ..damaged(bits, 0, "unsound, and a table of 19 numbers", &[(Bug, 0, big)]) };
    trials.push(short.clone());
    let end = damaged(bits, 0, "finished, and a table of 19 numbers", &[(Place, 0, 3), (Place, 2, 0)]);
    trials.push(Trial { table: short.table, ..end });
    trials
}
/// Full stacks: 128 entries that are all in range, and a step that saves one more or takes one off.
fn full_stacks(bits: u64) -> Vec<Trial> {
    let (w, name) = (named("W"), 10);
    let rows =
        [row(3, 32, 0, &[w]), row(3, 33, 0, &[w]), row(3, 34, name, &[]), row(3, 35, name, &[]), row(3, 36, 0, &[literal(2)])];
    let labels = ["contents saved", "contents restored", "a definition saved", "a definition restored", "a place saved"];
    rows.iter()
        .zip(labels)
        .map(|(&row, label)| {
            let more = [Line { operations: vec![row], goto: DONE, ..Line::default() }];
            let counts = (0..3).map(|i| Damage { what: What::Count, index: i, value: 128 });
            let lines = (0..128).map(|i| Damage { what: What::Calls, index: 3 * i + 2, value: 1 });
            let damages = counts.chain(lines).collect();
            Trial { before: 3, damages, limit: 3, ..Trial::of(&format!("full stacks, {label}"), &bench_case(bits, &[], &more)) }
        })
        .collect()
}
/// A generated program whose state is damaged at one number (or those that belong together) after some steps of it.
fn drawn_damage(bits: u64, seed: u64, i: u64) -> Trial {
    let mut rng = Rng(!seed ^ i << 32);
    let case = make(bits, seed, i);
    let mut trial = Trial::of("generated, damaged", &case);
    let steps = case.engine().run(case.limit).1;
    trial.before = rng.below(steps);
    let (_, raw) = trial.started();
    let [d, s1, s2] = raw.setup;
    let word = |rng: &mut Rng| rng.pick(&[0, s1, (1 << bits) - 1, 1 << bits, u64::MAX]);
    let four = |rng: &mut Rng| [1, rng.pick(&[0, 1, 127, 128]), rng.pick(&[0, bits - 1, bits]), rng.pick(&[0, 17, bits - 1, bits])];
    let three = |rng: &mut Rng| [rng.below(4), rng.pick(&[0, 1, 2, 3, 799, 800]), rng.pick(&[0, 1, 1, 2, 799, 800])];
    let entry = |rng: &mut Rng, i: usize| rng.below(raw.counts[i].max(1)) as usize;
    let (what, first, values): (What, usize, Vec<u64>) = match rng.below(15) {
        0 => (What::Place, 0, three(&mut rng).to_vec()),
        1 => (What::Bug, rng.below(26) as usize, vec![word(&mut rng)]),
        2 => (What::Definition, 4 * rng.below(36) as usize, four(&mut rng).to_vec()),
        3 => (What::Contents, entry(&mut rng, 0), vec![word(&mut rng)]),
        4 => (What::Saved, 4 * entry(&mut rng, 1), four(&mut rng).to_vec()),
        5 => (What::Calls, 3 * entry(&mut rng, 2), three(&mut rng).to_vec()),
        6 => (What::Count, rng.below(3) as usize, vec![rng.pick(&[0, 129, u64::MAX])]),
        7 => (What::SetUp, 0, rng.pick(&[[d, s1 + d, s2 + d], [2 * d, s1, s2], [d, s1, s2 + d], [d / 2, s1, s2]]).to_vec()),
        8 => (What::Stream, 0, vec![trial.input.len() as u64 + rng.below(2)]),
        9 => (What::Stream, 1, vec![trial.output as u64 + rng.below(2)]),
        11 => (What::Width, 0, vec![rng.pick(&[0, 35, 37, 40, 47, 49, 84 - bits])]),
        10 => (What::Storage, rng.below(trial.storage as u64) as usize, vec![word(&mut rng)]),
        _ => (What::Map, rng.below(s2 + 2 - s1) as usize, vec![rng.below(18)]),
    };
    let damage = |(i, value): (usize, u64)| Damage { what, index: first + i, value };
    trial.damages = values.into_iter().enumerate().map(damage).collect();
    trial.limit = 20;
    trial
}
/// The cases above that are not drawn.
pub fn fixed(bits: u64) -> Vec<Trial> {
    [bench(bits), lengths(bits), storages(bits), clauses(bits), full_stacks(bits)].concat()
}
/// All cases: of each width those, then generated programs, of which the last quarter with damaged states.
fn trials(seed: u64, count: u64) -> Vec<Trial> {
    let mut all = vec![];
    for bits in [36, 48] {
        all.extend(fixed(bits));
        let drawn = |i| if i < count / 4 * 3 { Trial::of("generated", &make(bits, seed, i)) } else { drawn_damage(bits, seed, i) };
        all.extend((0..count).map(drawn));
    }
    all
}
/// The names of all counts: those of 36 bits, and then of 48.
fn all_names() -> Vec<String> {
    ["36", "48"].iter().flat_map(|bits| names().into_iter().map(move |name| format!("{bits} bits, {name}"))).collect()
}

// ---------------------------------------------------------------- what is written

/// The program's input.
pub fn stdin(seed: u64, count: u64) -> Vec<u8> {
    let all = trials(seed, count);
    let mut numbers = vec![all.len() as u64];
    let text = |label: &str| [vec![label.len() as u64], label.bytes().map(u64::from).collect()].concat();
    for trial in &all {
        let its = trial.numbers();
        numbers.push(its.len() as u64);
        numbers.extend(its);
        numbers.extend(text(&trial.label));
    }
    all_names().iter().for_each(|name| numbers.extend(text(name)));
    numbers.into_iter().flat_map(seven_bits).collect()
}
fn seven_bits(mut number: u64) -> Vec<u8> {
    let mut bytes = vec![];
    while number >= 128 {
        bytes.push((number % 128) as u8 + 128);
        number /= 128;
    }
    bytes.push(number as u8);
    bytes
}
/// What the program must print: a line for each case, then a line for each count.
pub fn stdout(seed: u64, count: u64) -> String {
    let (names, mut text) = (all_names(), String::new());
    let mut counts = vec![0; names.len()];
    for (i, trial) in trials(seed, count).iter().enumerate() {
        let (mut engine, mut raw) = trial.started();
        let (mut answer, mut steps, mut sum) = (Answer::Running, 0, 1);
        while steps < trial.limit && answer == Answer::Running {
            let before = raw.place;
            let report;
            (answer, report) = raw.step(&mut engine);
            steps += 1;
            sum = step_sum(sum, answer, raw.place, &report);
            for which in reached(&trial.table, before, &raw, answer, &report) {
                counts[which + if trial.bits == 48 { names.len() / 2 } else { 0 }] += 1
            }
        }
        let word = match answer {
            Answer::Running => "running".to_string(),
            Answer::Finished => "finished".to_string(),
            Answer::Refused(k) => k.to_string(),
        };
        let left = left_sum(raw);
        text += &format!("{i} {word} {steps} {sum:016x} {left:016x}, run {word} {steps} {left:016x}: {}\n", trial.label);
    }
    for (name, count) in names.iter().zip(counts) {
        text += &format!("{name}: {count}\n")
    }
    text
}
