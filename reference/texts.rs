//! Drawn texts of L6 lines: tours with labels, go-tos, DOs and every form of Table II, as many of them damaged, some of about 800
//! rows, and random bytes. With each goes a length of the lent table.
use crate::generator::Rng;
use crate::typed::{read, MODES, OPERATIONS, ROWS, TESTS};

const NAMES: &[u8] = b"0123456789ABCDEFGHIJKLMNOPQRSTUVWXYZ";
/// Words that are labels but look as if they were none, or the other way round.
const ODD: [&str; 16] =
    ["IF", "NOT", "FAIL", "STATE", "DO", "1", "ZZZZZZ", "THEN1", "DONE0", "0THEN", "THEN", "DONE", "IFNALL", "ABCDEFG", "A.B", ""];
/// What a damaged place becomes.
const MARKS: &[u8] = b" (),.\n\t-/09:@AZ[az\x00\xff89DOHTHEN";

fn some(rng: &mut Rng, from: &[u8], most: u64) -> String {
    (0..1 + rng.below(most)).map(|_| rng.pick(from) as char).collect()
}
fn field(rng: &mut Rng) -> String {
    let names = if rng.chance(50) { 0 } else { rng.below(6) };
    let bug = rng.pick(&NAMES[10..]) as char;
    (0..names).fold(bug.to_string(), |word, _| word + &(rng.pick(NAMES) as char).to_string())
}
/// A number below 2^36, now and then one about a bound of either width, and now and then with zeros before it.
fn number(rng: &mut Rng, octal: bool) -> String {
    let bounds = [(1 << 36) - 1, 1 << 36, (1 << 48) - 1, 1 << 48];
    let value = if rng.chance(5) { rng.pick(&bounds) } else { rng.next() >> (28 + rng.below(36)) };
    let zeros = "0".repeat(if rng.chance(10) { rng.below(20) as usize } else { 0 });
    if octal {
        format!("{zeros}{value:o}")
    } else {
        format!("{zeros}{value}")
    }
}
fn argument(rng: &mut Rng, kind: &str, labels: &[String]) -> String {
    match kind {
        "a" | "c" => field(rng),
        "d" => number(rng, false),
        "o" => number(rng, true),
        "h" => {
            let most = rng.pick(&[6, 6, 6, 6, 6, 6, 6, 9]);
            some(rng, b"0123456789ABCDEFGHIJKLMNOPQRSTUVWXYZ.", most)
        }
        "cd" if rng.chance(50) => number(rng, false),
        "co" if rng.chance(50) => number(rng, true),
        "cd" | "co" => field(rng),
        "f" => some(rng, NAMES, 1),
        "Df" => format!("D{}", some(rng, NAMES, 1)),
        "s" => labels[rng.below(labels.len() as u64) as usize].clone(),
        itself => itself.to_string(),
    }
}
/// A test or an operation in a drawn form; every thirtieth operation is the abbreviation of two arguments.
fn paren(rng: &mut Rng, forms: &[(u64, &str)], labels: &[String]) -> String {
    if forms == OPERATIONS && rng.below(30) == 0 {
        let whole = field(rng) + "A";
        let at = 1 + rng.below(whole.len() as u64 - 1) as usize;
        return format!("({},{})", &whole[..at], &whole[at..]);
    }
    let all: Vec<&str> = forms.iter().flat_map(|(_, text)| text.split(' ')).collect();
    let form = all[rng.below(all.len() as u64) as usize];
    if form == "DO,s" && labels.is_empty() {
        return "(W,E,1)".to_string();
    }
    let arguments: Vec<String> = form.split(',').map(|kind| argument(rng, kind, labels)).collect();
    format!("({})", arguments.join(","))
}
/// A line in words and parentheses with so many operations, laid out with drawn blanks.
fn line(rng: &mut Rng, label: &str, operations: u64, labels: &[String]) -> String {
    let mode = rng.below(5) as usize;
    let mut pieces = vec![MODES[mode].to_string()];
    if mode != 0 {
        for _ in 0..1 + rng.below(3) {
            pieces.push(paren(rng, TESTS, labels))
        }
    }
    if mode != 0 && operations > 0 {
        pieces.push("THEN".to_string())
    }
    for _ in 0..operations {
        pieces.push(paren(rng, OPERATIONS, labels))
    }
    if operations == 0 || rng.chance(50) {
        let done = labels.is_empty() || rng.chance(15);
        pieces.push(if done { "DONE".to_string() } else { labels[rng.below(labels.len() as u64) as usize].clone() })
    }
    let (mut text, mut word) = (label.to_string(), true);
    for piece in pieces {
        let next = !piece.starts_with('(');
        let least = (word && next) as usize;
        text += &" ".repeat(least + if rng.chance(40) { rng.below(3) as usize } else { 0 });
        (text, word) = (text + &piece, next);
    }
    text + "\n"
}
/// Different labels, one for a line each, or none.
fn labels(rng: &mut Rng, lines: usize) -> Vec<String> {
    let percent = rng.pick(&[0, 40, 100]);
    let mut given: Vec<String> = vec![];
    for i in 0..lines {
        let word = if rng.chance(10) { ODD[rng.below(10) as usize].to_string() } else { format!("L{i}") };
        given.push(if rng.chance(percent) && !given.contains(&word) { word } else { String::new() });
    }
    given
}
/// A text of so many lines that breaks no rule.
fn sound(rng: &mut Rng, lines: usize) -> String {
    let own = labels(rng, lines);
    let named: Vec<String> = own.iter().filter(|word| !word.is_empty()).cloned().collect();
    let most = rng.pick(&[1, 3, 6]);
    own.iter()
        .map(|label| {
            let count = rng.below(most + 1);
            line(rng, label, count, &named)
        })
        .collect()
}
/// A text of nearly, just or over 800 rows.
fn long(rng: &mut Rng) -> String {
    let rows = 797 + rng.below(6) as usize;
    let (mut text, mut left) = (String::new(), rows - 1);
    let short = rng.chance(50);
    while left > 0 {
        let operations = if short { 1 } else { 1 + rng.below(30) as usize }.min(left - 1);
        let end = if operations == 0 || rng.chance(30) { "DONE" } else { "" };
        text += &format!(" THEN {}{end}\n", "(W,E,1)".repeat(operations));
        left -= 1 + operations;
    }
    text
}

/// One damage of a text.
fn spoil(rng: &mut Rng, text: &mut Vec<u8>) {
    let at = rng.below(text.len() as u64) as usize;
    if text.is_empty() {
        return;
    }
    let start = text[..at].iter().rposition(|&byte| byte == 10).map_or(0, |i| i + 1);
    let end = at + text[at..].iter().position(|&byte| byte == 10).map_or(0, |i| i + 1);
    match rng.below(12) {
        0 | 1 => text[at] = rng.pick(MARKS),
        2 => text[at] = rng.pick(NAMES),
        3 => {
            text.remove(at);
        }
        4 => text.insert(at, text[at]),
        5 => text.insert(at, rng.pick(MARKS)),
        6 => text.truncate(at),
        7 if start < end => {
            let twice = text[start..end].to_vec();
            text.splice(end..end, twice);
        }
        8 if start < end => {
            text.drain(start..end);
        }
        9 | 10 => {
            // a word, or the empty one at a place between, becomes an odd one
            let is_name = |b: &u8| NAMES.contains(b);
            let from = text[..at].iter().rposition(|b| !is_name(b)).map_or(0, |i| i + 1);
            let to = at + text[at..].iter().position(|b| !is_name(b)).unwrap_or(text.len() - at);
            text.splice(from..to, rng.pick(&ODD).bytes());
        }
        _ => {
            let last = text.len() - 1;
            text.swap(at, (at + 1).min(last))
        }
    }
}

/// A drawn text.
pub fn text(rng: &mut Rng) -> Vec<u8> {
    match rng.below(100) {
        0 => {
            let mut text = long(rng).into_bytes();
            if rng.chance(30) {
                spoil(rng, &mut text)
            }
            text
        }
        1 => (0..rng.below(200)).map(|_| rng.next() as u8).collect(),
        2..=4 => (0..rng.below(60)).map(|_| rng.pick(MARKS)).collect(),
        5 => {
            let lines = 100 + rng.below(400) as usize;
            sound(rng, lines).into_bytes()
        }
        drawn => {
            let lines = 1 + rng.below(8) as usize;
            let mut text = sound(rng, lines).into_bytes();
            if drawn >= 40 {
                for _ in 0..1 + rng.below(3).min(rng.below(3)) {
                    spoil(rng, &mut text)
                }
            }
            text
        }
    }
}
/// How many numbers are lent for a text at a width: mostly enough, or about as many as its table has.
pub fn room(rng: &mut Rng, bits: u64, text: &[u8]) -> usize {
    let whole = read(bits, text, 10 * ROWS).map_or(30, |rows| rows.len());
    let fewer = rng.below(whole as u64 + 1) as usize;
    let near = rng.pick(&[whole, whole, whole + 5, whole - 1, whole - 10, fewer, 10 * ROWS + 10, 10 * ROWS - 10, 0]);
    if rng.chance(60) {
        10 * ROWS
    } else {
        near
    }
}
