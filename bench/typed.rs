//! Typed lines read by libplayer.a and by plain Rust (reference/typed.rs): milliseconds a call, the least of some calls, as rows of
//! a table. The argument is the text of the sample museum.
#[path = "../host/l6.rs"]
mod l6;
#[allow(dead_code)]
#[path = "../reference/typed.rs"]
mod typed;

use std::time::Instant;

/// So many lines with a label and a go-to each: to the last label, which is found last, or to the line after it.
fn labelled(lines: usize, last: bool) -> String {
    (1..=lines).map(|i| format!("L{i} THEN L{}\n", if last { lines } else { i % lines + 1 })).collect()
}
/// One line of so many operations of the last form of Table II.
fn operations(count: usize) -> String {
    format!(" THEN {}\n", "(W,CH,ZZZZZZ)".repeat(count))
}
/// One line of so many DOs, each of another label, and the lines that declare these.
fn calls(count: usize) -> String {
    let calls: String = (0..count).map(|i| format!("(DO,L{i})")).collect();
    let lines: String = (0..count).map(|i| format!("L{i} THEN DONE\n")).collect();
    format!(" THEN {calls}\n{lines}")
}
/// Three capital letters and digits, another word for each number.
fn label(i: usize) -> String {
    [i / 1296, i / 36, i].iter().map(|n| char::from_digit((n % 36) as u32, 36).unwrap().to_ascii_uppercase()).collect()
}
/// So many lines, each with a label of four, that none of the others below declares.
fn others(count: usize) -> String {
    (0..count).map(|i| format!("X{} THEN A\n", label(i % 40_000))).collect()
}
/// A megabyte: one line of DOs of so many labels, other lines, and the lines that declare these, the first label last.
fn late(count: usize) -> String {
    let calls: String = (0..count).map(|i| format!("(DO,{})", label(i))).collect();
    let lines: String = (0..count).rev().map(|i| format!("{} THEN A\n", label(i))).collect();
    format!(" THEN {calls}\n{}{lines}", others((1_000_000 - calls.len() - lines.len()) / 12))
}
/// A megabyte: one line of DOs of so many labels in turn, 800 others, long broken lines that begin like declarations of these, and
/// the declarations. Half of it are DOs.
fn broken(labels: usize) -> String {
    let calls: String = (0..62_500).map(|i| format!("(DO,{})", label(i % labels))).collect();
    let lines: String = (0..1_000).map(|i| format!("{} THEN {}.\n", label(i % labels), "(A,CH,B)".repeat(60))).collect();
    let declared: String = (0..labels).map(|i| format!("{} THEN A\n", label(i))).collect();
    format!(" THEN {calls}\n{}{lines}{declared}", others(800))
}

/// The least time of some calls, of one where it takes longer than a second.
fn least(mut call: impl FnMut()) -> f64 {
    let mut least = f64::MAX;
    for _ in 0..9 {
        let start = Instant::now();
        call();
        least = least.min(start.elapsed().as_secs_f64() * 1e3);
        if least > 1e3 {
            break;
        }
    }
    least
}

fn main() {
    let museum = std::fs::read_to_string(std::env::args().nth(1).expect("the museum's museum.l6")).unwrap();
    let texts = [
        ("the sample museum", museum),
        ("799 lines, each with a label and a go-to to the line after it", labelled(799, false)),
        ("799 lines, each with a label and a go-to to the last one", labelled(799, true)),
        ("one line of 798 operations of the last form", operations(798)),
        ("a megabyte: one line of operations of the last form", operations(80_000)),
        ("a megabyte: lines with a label and a go-to", labelled(64_000, false)),
        ("a megabyte: one line of DOs, each of another label", calls(37_000)),
        ("a megabyte: one line of DOs of one label, and broken lines that begin like its own", broken(1)),
        ("a megabyte: one line of DOs of 801 labels in turn, and broken lines that begin like theirs", broken(801)),
        ("a megabyte: one line of DOs of 25,000 labels, declared in the other order after 43,750 other lines", late(25_000)),
    ];
    for (name, text) in texts {
        let (bytes, mut table) = (text.as_bytes(), vec![77; 8000]);
        let wanted = typed::read(36, bytes, table.len()).map(|rows| rows.len() / 10);
        let answer = wanted.map_or_else(|(refusal, line)| format!("{refusal}, line {line}"), |rows| format!("{rows} rows"));
        let proved =
            least(|| assert_eq!(l6::read(36, bytes, &mut table).map_err(|(refusal, line)| (refusal.number(), line)), wanted));
        let plain = least(|| assert_eq!(typed::read(36, bytes, 8000).map(|rows| rows.len() / 10), wanted));
        println!("| {name} | {} | {answer} | {proved:.3} | {plain:.3} |", bytes.len());
    }
}
