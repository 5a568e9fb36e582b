//! Typed lines of a table that typed lines gave, in one form for each row and with labels L1, L2 .. where a row is named: read
//! again they give the same table.
use crate::typed::{MODES, OPERATIONS, TESTS};

fn names(reference: u64) -> String {
    let digits: Vec<u64> = (0..6).rev().map(|k| reference >> (6 * k) & 63).skip_while(|&digit| digit == 0).collect();
    digits.into_iter().map(|digit| name(digit - 1)).collect()
}
fn name(number: u64) -> char {
    char::from_digit(number as u32, 36).unwrap().to_ascii_uppercase()
}

/// A row in a form, where its operands are of the form's kinds and none is left.
fn in_form(form: &str, row: &[u64]) -> Option<String> {
    let mut pairs: Vec<[u64; 2]> = row[4..].chunks(2).map(|pair| [pair[0], pair[1]]).filter(|pair| pair[0] != 0).collect();
    if (row[0], row[2]) == (3, 1) {
        pairs.swap(0, 1)
    } // (s1, SS, d, s2)
    pairs.reverse();
    let argument = |kind: &str| match kind {
        "f" => Some(name(row[3]).to_string()),
        "Df" => Some(format!("D{}", name(row[3]))),
        "a" | "c" | "d" | "cd" | "co" | "s" | "0" => match (kind, pairs.pop()?) {
            ("a" | "c" | "cd" | "co", [2, reference]) => Some(names(reference)),
            ("d" | "cd", [1, value]) => Some(value.to_string()),
            ("co", [1, value]) => Some(format!("{value:o}")),
            ("s", [1, row]) => Some(format!("L{row}")),
            ("0", [1, 0]) => Some("0".to_string()),
            _ => None,
        },
        "o" | "h" => None,
        itself => Some(itself.to_string()),
    };
    let arguments = form.split(',').map(argument).collect::<Option<Vec<String>>>()?;
    pairs.is_empty().then(|| format!("({})", arguments.join(",")))
}
/// The rows of a chain in their forms.
fn chain(table: &[u64], first: u64, forms: &[(u64, &str)]) -> String {
    let (mut text, mut at) = (String::new(), first as usize);
    while at != 0 {
        let row = &table[10 * at..10 * at + 10];
        let (_, all) = forms.iter().find(|(code, _)| *code == row[2]).expect("a code of Table II");
        text += &all.split(' ').find_map(|form| in_form(form, row)).expect("a form of its code");
        at = row[1] as usize;
    }
    text
}

pub fn printed(table: &[u64]) -> String {
    let rows: Vec<&[u64]> = table.chunks(10).collect();
    let named = |r: u64| rows.iter().any(|row| (row[0] == 1 && row[6] == r) || (row[0] == 3 && row[2] == 36 && row[5] == r));
    let (mut text, mut at) = (String::new(), 1);
    while at != 0 {
        let row = rows[at];
        let label = if named(at as u64) { format!("L{at}") } else { String::new() };
        let then = if row[2] != 0 && row[5] != 0 { "THEN" } else { "" };
        let go_to = match row[6] {
            0 => String::new(),
            65535 => "DONE".to_string(),
            row => format!("L{row}"),
        };
        let parts = [MODES[row[2] as usize], &chain(table, row[4], TESTS), then, &chain(table, row[5], OPERATIONS), &go_to];
        text += &label;
        for part in parts {
            if !part.is_empty() {
                text += &format!(" {part}")
            }
        }
        text += "\n";
        at = row[1] as usize;
    }
    text
}
