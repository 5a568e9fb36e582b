//! Drafts of tables for the check of fields: a few lines with tests and chains of operations, some shared, DOs, DONEs, go-tos,
//! definitions, saves and restores of few names, references to them, and now and then a row that is spoilt.
use crate::defined::{check, fields_of, Finding};
use crate::engine::{Row, DONE};
use crate::generator::Rng;

const NAMES: u64 = 4;

/// A reference: a bug, and up to five of a few fields.
fn reference(rng: &mut Rng, fields: u64) -> (u64, u64) {
    let count = if rng.below(100) < fields { 1 + rng.below(5).min(rng.below(5)) } else { 0 };
    (2, (0..count).fold(33, |sum, _| sum * 64 + 11 + rng.below(NAMES)))
}
fn operand(rng: &mut Rng, fields: u64) -> (u64, u64) {
    if rng.below(3) == 0 {
        (1, rng.below(8))
    } else {
        reference(rng, fields)
    }
}
fn row(kind: u64, next: u64, code: u64, name: u64, pairs: &[(u64, u64)]) -> Row {
    let mut row = [kind, next, code, name, 0, 0, 0, 0, 0, 0];
    for (i, pair) in pairs.iter().enumerate() {
        (row[4 + 2 * i], row[5 + 2 * i]) = *pair
    }
    row
}

/// An operation: mostly a definition, a save or a restore, a DO, or one with references.
fn operation(rng: &mut Rng, next: u64, lines: u64, fields: u64, calls: u64) -> Row {
    let name = 10 + rng.below(NAMES);
    match rng.below(20) {
        0..=6 => row(3, next, 2, name, &[(1, rng.below(2)), (1, 0), (1, 35)]),
        7 => row(3, next, 2, name, &[operand(rng, fields), (1, 0), (1, 35)]),
        8 => row(3, next, 34, name, &[]),
        9 => row(3, next, 35, name, &[]),
        10..=12 if calls > 0 => row(3, next, 36, 0, &[(1, 1 + rng.below(lines))]),
        13 => row(3, next, 3, 0, &[reference(rng, fields), (1, 2), reference(rng, fields)]),
        14 => row(3, next, 7, 0, &[reference(rng, fields), reference(rng, fields)]),
        15 => row(3, next, 25, 0, &[(1, rng.below(3)), operand(rng, fields)]),
        _ => row(3, next, rng.pick(&[6, 8, 12]), 0, &[reference(rng, fields), operand(rng, fields)]),
    }
}

/// A draft: the set-up and definitions of some names come first in most.
pub fn draft(rng: &mut Rng) -> Vec<u64> {
    let lines = 1 + rng.below(5);
    let (chains, operations, tests) = (1 + rng.below(lines + 1), 1 + rng.below(6), 1 + rng.below(3));
    let (fields, calls) = (rng.pick(&[0, 10, 30, 60]), rng.below(3));
    let defined = rng.pick(&[0, 2, 3, NAMES, NAMES, NAMES]);
    let first_test = lines + 1;
    let start = first_test + tests;
    let total = start + 1 + defined + chains * operations;
    let mut rows: Vec<Row> = vec![[0; 10]];
    for l in 1..=lines {
        let chain = start + 1 + defined + rng.below(chains) * operations + rng.below(operations);
        let next = if l < lines && rng.below(4) > 0 { l + 1 + rng.below(lines - l) } else { 0 };
        let go_to = match rng.below(5) {
            0 | 1 => 1 + rng.below(lines),
            2 => DONE,
            _ => 0,
        };
        let mode = rng.below(5);
        let test = if mode == 0 { 0 } else { first_test + rng.below(tests) };
        let operation = if l == 1 {
            start
        } else if go_to != 0 && rng.below(6) == 0 {
            0
        } else {
            chain
        };
        rows.push(row(1, next, mode, 0, &[(test, operation), (go_to, 0)]));
    }
    for t in 0..tests {
        let next = if t + 1 < tests && rng.below(2) == 0 { first_test + t + 1 } else { 0 };
        rows.push(row(2, next, 1 + rng.below(7), 0, &[reference(rng, fields), operand(rng, fields)]));
    }
    rows.push(row(
        3,
        if defined > 0 { start + 1 } else { start + 1 + rng.below(chains) * operations },
        1,
        0,
        &[(1, 8), (1, 8), (1, 63)],
    ));
    for i in 0..defined {
        let after = if i + 1 < defined { start + 2 + i } else { start + 1 + defined + rng.below(chains) * operations };
        rows.push(row(3, after, 2, 10 + i, &[(1, i % 2), (1, 0), (1, 35)]));
    }
    for _ in 0..chains {
        for i in 0..operations {
            let here = rows.len() as u64;
            let next = if i + 1 < operations { here + 1 } else { 0 };
            rows.push(operation(rng, next, lines, fields, calls));
        }
    }
    if rng.below(8) == 0 {
        let (r, i) = (1 + rng.below(total - 1) as usize, rng.below(10) as usize);
        rows[r][i] = rng.pick(&[0, 1, 2, 3, 5, 36, first_test, start, total - 1, total, DONE, 33 * 64 + 11]);
    }
    let mut table = rows.concat();
    if rng.below(60) == 0 {
        table.truncate(rng.below(table.len() as u64 + 1) as usize)
    }
    table
}

/// Whether some row refers to a field.
pub fn refers(table: &[u64]) -> bool {
    table.chunks_exact(10).any(|row| row[0] != 1 && !fields_of(row.try_into().unwrap()).is_empty())
}

// ---------------------------------------------------------------- the program `drafts`

fn line(next: u64, test: u64, operation: u64, go_to: u64) -> Row {
    row(1, next, (test != 0) as u64, 0, &[(test, operation), (go_to, 0)])
}
fn test(next: u64, c: u64) -> Row {
    row(2, next, 1, 0, &[(2, c), (1, 0)])
}
fn define(next: u64) -> Row {
    row(3, next, 2, 10, &[(1, 0), (1, 0), (1, 35)])
}
fn restore(next: u64) -> Row {
    row(3, next, 35, 10, &[])
}
fn uses(next: u64) -> Row {
    row(3, next, 6, 0, &[(2, WA), (1, 1)])
}
fn call(next: u64, line: u64) -> Row {
    row(3, next, 36, 0, &[(1, line)])
}
fn copy(next: u64) -> Row {
    row(3, next, 6, 0, &[(2, 33), (1, 1)])
}

/// W and field A.
const WA: u64 = 33 * 64 + 11;

/// The tables that have a label: rows from row 1 on.
fn edges() -> Vec<(&'static str, Vec<Row>)> {
    let five = ((((33 * 64 + 11) * 64 + 11) * 64 + 11) * 64 + 11) * 64 + 12;
    let get = row(3, 0, 3, 0, &[(2, 33), (1, 1), (2, WA)]);
    let both = row(3, 0, 7, 0, &[(2, 33 * 64 + 12), (2, WA)]);
    let own = row(3, 0, 2, 10, &[(2, WA), (1, 0), (1, 35)]);
    vec![
        ("no rows besides row 0", vec![]),
        ("an ill-formed row", vec![line(0, 0, 2, 0), [3; 10]]),
        ("row 1 is a test", vec![test(0, 33), line(0, 0, 3, 0), copy(0)]),
        ("a go-to that names an operation", vec![line(0, 0, 2, 2), copy(0)]),
        ("a DO that names an operation", vec![line(0, 0, 2, 0), call(0, 2)]),
        ("a first test row that is an operation", vec![line(0, 2, 2, 0), copy(0)]),
        ("a first operation row that is a test", vec![line(0, 0, 2, 0), test(0, 33)]),
        ("a line's next that is an operation", vec![line(2, 0, 2, 0), copy(0)]),
        ("a test's next that is an operation", vec![line(0, 2, 3, 0), test(3, 33), copy(0)]),
        ("an operation's next that is a test", vec![line(0, 0, 2, 0), copy(3), test(0, 33)]),
        ("a wrong kind where no path comes", vec![line(0, 0, 3, 0), line(0, 0, 1, 0), copy(0)]),
        ("no field", vec![line(0, 0, 2, 0), copy(0)]),
        ("a field that is nowhere defined", vec![line(0, 0, 2, 0), uses(0)]),
        ("a field defined and then used", vec![line(0, 0, 2, 0), define(3), uses(0)]),
        ("a definition that reads its own field", vec![line(0, 0, 2, 0), own]),
        ("a field restored and then used", vec![line(0, 0, 2, 0), define(3), restore(4), uses(0)]),
        ("a field saved and then used", vec![line(0, 0, 2, 0), define(3), row(3, 4, 34, 10, &[]), uses(0)]),
        ("defined on one outcome of a test alone", vec![line(2, 3, 4, 2), line(0, 0, 5, 0), test(0, 33), define(0), uses(0)]),
        (
            "defined before a test",
            vec![line(2, 0, 5, 0), line(3, 4, 7, 0), line(0, 0, 7, 0), test(0, 33), define(6), copy(0), uses(0)],
        ),
        ("used in a line's second test", vec![line(0, 2, 4, 0), test(3, 33), test(0, WA), define(0)]),
        ("defined in a called line", vec![line(0, 0, 3, 0), line(0, 0, 5, DONE), call(4, 2), uses(0), define(0)]),
        ("not defined in a called line", vec![line(0, 0, 3, 0), line(0, 0, 5, DONE), call(4, 2), uses(0), copy(0)]),
        (
            "after a DO in a line that is never reached",
            vec![line(0, 0, 4, DONE), line(0, 0, 5, 0), line(0, 0, 7, 0), copy(0), call(6, 3), uses(0), copy(0)],
        ),
        ("a DONE without any DO", vec![line(0, 0, 3, DONE), line(0, 0, 4, 0), copy(0), uses(0)]),
        ("a DO that is never returned from", vec![line(0, 0, 3, 0), line(0, 0, 5, 0), call(4, 2), uses(0), copy(0)]),
        (
            "a chain shared by two lines, one of them without the definition",
            vec![line(2, 3, 4, 0), line(0, 0, 5, 0), test(0, 33), define(5), uses(0)],
        ),
        (
            "a chain shared by two lines after the definition",
            vec![line(2, 0, 5, 0), line(3, 4, 6, 0), line(0, 0, 6, 0), test(0, 33), define(6), uses(0)],
        ),
        (
            "a loop that loses the definition on the way back",
            vec![line(2, 0, 4, 0), line(3, 0, 5, 0), line(0, 0, 6, 2), define(0), uses(0), restore(0)],
        ),
        (
            "a loop that keeps the definition",
            vec![line(2, 0, 4, 0), line(3, 0, 5, 0), line(0, 0, 6, 2), define(0), uses(0), copy(0)],
        ),
        ("the last of five names", vec![line(0, 0, 2, 0), define(3), row(3, 0, 6, 0, &[(2, five), (1, 1)])]),
        ("the third operand", vec![line(0, 0, 2, 0), get]),
        ("two fields of one row", vec![line(0, 0, 2, 0), both]),
        ("two rows, the higher one come to first", vec![line(0, 0, 4, 2), line(0, 0, 3, 0), uses(0), both]),
        ("a use where no path comes", vec![line(0, 0, 3, 0), line(0, 0, 4, 0), copy(0), uses(0)]),
    ]
}

/// All tables: the labelled ones, and drawn ones without a label.
fn all(seed: u64, drawn: u64) -> Vec<(&'static str, Vec<u64>)> {
    let mut rng = Rng(seed);
    let labelled = edges().into_iter().map(|(label, rows)| (label, [vec![[0; 10]], rows].concat().concat()));
    labelled.chain((0..drawn).map(|_| ("", draft(&mut rng)))).collect()
}

/// A number in groups of seven bits, the lowest first, every byte but the last with 128 added.
pub fn put(bytes: &mut Vec<u8>, mut n: u64) {
    while n > 127 {
        bytes.push(n as u8 | 128);
        n >>= 7
    }
    bytes.push(n as u8);
}
/// What the program reads: numbers so written.
pub fn stdin(seed: u64, drawn: u64) -> Vec<u8> {
    let tables = all(seed, drawn);
    let mut bytes = vec![];
    put(&mut bytes, tables.len() as u64);
    for (label, table) in tables {
        put(&mut bytes, table.len() as u64);
        for number in table {
            put(&mut bytes, number)
        }
        put(&mut bytes, label.len() as u64);
        bytes.extend(label.bytes());
    }
    bytes
}

/// The program's checksum after one more result: a shift register of 64 bits.
pub fn fold(sum: u64, result: u64) -> u64 {
    let mut x = sum ^ result;
    x ^= x << 13;
    x ^= x >> 7;
    x ^ x << 17
}

/// What it has to print.
pub fn stdout(seed: u64, drawn: u64) -> String {
    let (mut text, mut counts, mut sum) = (String::new(), [0; 5], 0);
    for (label, table) in all(seed, drawn) {
        let (kind, told, words) = match check(36, &table) {
            Finding::Yes => (0, 0, "yes".to_string()),
            Finding::No(row, field) => (1, fold(fold(3, row), field), format!("no, row {row}, field {field}")),
            Finding::NoWidth => unreachable!(),
            Finding::BadLength => (2, 1, "refusal 1".to_string()),
            Finding::IllFormed(row) => (3, fold(2, row), format!("ill-formed, row {row}")),
            Finding::WrongKind(row) => (4, fold(30, row), format!("refusal 30, row {row}")),
        };
        counts[kind] += 1;
        sum = fold(sum, told);
        if !label.is_empty() {
            text += &format!("{label}: {words}\n")
        }
    }
    text += &format!("all answers: {}\n", sum % (1 << 63));
    for (name, count) in ["yes", "no", "refusal 1", "ill-formed", "refusal 30"].iter().zip(counts) {
        text += &format!("{name}: {count}\n")
    }
    text
}
