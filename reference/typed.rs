//! Another reader of tours typed as L6 lines, from document 02 (ticket 3), document 01 and Tables I and II of document 000. It
//! takes a line apart as text: into words and parentheses by their blanks, a parenthesis by its commas, and looks its arguments up
//! in a table of forms that is text too. Gives the table of rows, or the refusal with its line.
use std::collections::HashMap;

pub const MODES: [&str; 5] = ["THEN", "IFALL", "IFANY", "IFNONE", "IFNALL"];
/// The go-to of DONE.
const DONE: u64 = 65535;
pub const ROWS: usize = 800;

/// Table II, I. Tests: code, and its forms without their parentheses. Small letters are those of Table I.
pub const TESTS: &[(u64, &str)] = &[
    (1, "c,E,cd c,EO,o c,EH,h"),
    (2, "c,N,cd c,NO,o c,NH,h"),
    (3, "c,G,cd c,GO,o c,GH,h"),
    (4, "c,L,cd c,LO,o c,LH,h"),
    (5, "c,P,c"),
    (6, "c,O,co c,OD,d c,OH,h"),
    (7, "c,Z,co c,ZD,d c,ZH,h"),
];
/// Table II, II. Operations. Code 1 has its operands in another order, d first: see `operands`.
pub const OPERATIONS: &[(u64, &str)] = &[
    (1, "d,SS,d,d"),
    (2, "cd,Df,cd,cd"),
    (3, "a,GT,cd a,GT,cd,a"),
    (4, "a,FR,0 a,FR,c"),
    (5, "a,DP,c"),
    (6, "a,E,cd a,EO,o a,EH,h a,P,c"),
    (7, "a,IC,a"),
    (8, "a,A,cd a,AO,o a,AH,h"),
    (9, "a,S,cd a,SO,o a,SH,h"),
    (10, "a,M,cd a,MO,o a,MH,h"),
    (11, "a,V,cd a,VO,o a,VH,h"),
    (12, "a,O,co a,OD,d a,OH,h"),
    (13, "a,N,co a,ND,d a,NH,h"),
    (14, "a,X,co a,XD,d a,XH,h"),
    (15, "a,C,co a,CD,d a,CH,h"),
    (16, "a,OS,c"),
    (17, "a,ZS,c"),
    (18, "a,LO,c"),
    (19, "a,RO,c"),
    (20, "a,LZ,c"),
    (21, "a,RZ,c"),
    (22, "a,L,cd"),
    (23, "a,R,cd"),
    (24, "a,IN,cd"),
    (25, "cd,PR,co cd,PRH,h"),
    (26, "a,BZ,c"),
    (27, "a,DB,c"),
    (28, "a,OB,c"),
    (29, "a,BD,c"),
    (30, "a,BO,c"),
    (31, "a,ZB,c"),
    (32, "S,FC,c"),
    (33, "R,FC,c"),
    (34, "S,FD,f"),
    (35, "R,FD,f"),
    (36, "DO,s"),
];

/// What an argument gives a row: an operand's form and value, a field's name, or a label.
enum Part {
    Pair(u64, u64),
    Name(u64),
    Label(String),
    Nothing,
}
/// A test or an operation: its code and what its arguments give.
struct Item {
    code: u64,
    parts: Vec<Part>,
}
struct Line {
    label: String,
    mode: u64,
    tests: Vec<Item>,
    operations: Vec<Item>,
    go_to: String,
}

fn is_name(c: char) -> bool {
    c.is_ascii_digit() || c.is_ascii_uppercase()
}
fn name_number(c: char) -> u64 {
    c.to_digit(36).unwrap() as u64
}
/// "one to six capital letters and digits ... No label is a mode word or DONE."
fn is_label(word: &str) -> bool {
    (1..=6).contains(&word.len()) && word.chars().all(is_name) && !MODES.contains(&word) && word != "DONE"
}
/// The 7094's code of a character except blank.
fn code(c: char) -> Option<u64> {
    let from = |first: char, octal: u64| octal + c as u64 - first as u64;
    Some(match c {
        '0'..='9' => from('0', 0),
        'A'..='I' => from('A', 0o21),
        'J'..='R' => from('J', 0o41),
        'S'..='Z' => from('S', 0o62),
        '.' => 0o33,
        _ => return None,
    })
}
fn packed(numbers: impl Iterator<Item = u64>) -> u64 {
    numbers.fold(0, |sum, n| 64 * sum + n)
}

/// "A reference is a bug, then up to five field names."
fn field(word: &str) -> Option<Part> {
    let good = word.starts_with(|c: char| c.is_ascii_uppercase()) && word.len() <= 6 && word.chars().all(is_name);
    good.then(|| Part::Pair(2, packed(word.chars().map(|c| name_number(c) + 1))))
}
/// "literals are below 2^36"; below 2^48 at 48 bits
fn number(word: &str, base: u32, bits: u64) -> Option<Part> {
    let digits = !word.is_empty() && word.chars().all(|c| c.is_digit(base));
    let value = u64::from_str_radix(&format!("0{}", word.trim_start_matches('0')), base).ok()?;
    (digits && value < 1 << bits).then_some(Part::Pair(1, value))
}
/// "one or more of document 01's characters except blank, a word's worth at most, flush right over zeros"
fn hollerith(word: &str, bits: u64) -> Option<Part> {
    let codes: Vec<u64> = word.chars().map(code).collect::<Option<_>>()?;
    (1..=bits as usize / 6).contains(&codes.len()).then(|| Part::Pair(1, packed(codes.into_iter())))
}
fn name(word: &str) -> Option<Part> {
    let mut characters = word.chars();
    let first = characters.next().filter(|&c| is_name(c))?;
    characters.next().is_none().then(|| Part::Name(name_number(first)))
}
/// What an argument gives where a form has this kind; nothing where it is not of the kind.
fn part(kind: &str, word: &str, bits: u64) -> Option<Part> {
    match kind {
        "a" | "c" => field(word),
        "d" => number(word, 10, bits),
        "o" => number(word, 8, bits),
        "h" => hollerith(word, bits),
        "cd" => field(word).or(number(word, 10, bits)),
        "co" => field(word).or(number(word, 8, bits)),
        "f" => name(word),
        "Df" => name(word.strip_prefix('D')?),
        "s" => is_label(word).then(|| Part::Label(word.to_string())),
        "0" => (word == "0").then_some(Part::Pair(1, 0)),
        itself => (word == itself).then_some(Part::Nothing),
    }
}
fn in_form(code: u64, form: &str, arguments: &[String], bits: u64) -> Option<Item> {
    let kinds: Vec<&str> = form.split(',').collect();
    if kinds.len() != arguments.len() {
        return None;
    }
    let parts = kinds.iter().zip(arguments).map(|(kind, word)| part(kind, word, bits)).collect::<Option<_>>()?;
    Some(Item { code, parts })
}
/// What a parenthesis says by the one form that it has. "each with only one reading"
fn item(forms: &[(u64, &str)], paren: &str, bits: u64) -> Option<Item> {
    let inner = paren.strip_prefix('(')?.strip_suffix(')')?;
    let mut arguments: Vec<String> = inner.split(',').map(str::to_string).collect();
    if arguments.iter().any(|word| word.is_empty()) {
        return None;
    }
    if forms == OPERATIONS && arguments.len() == 2 && arguments[0] != "DO" {
        arguments = vec![arguments[0].clone(), "P".to_string(), arguments.concat()]
        // (a, Δ) = abbrev. for (a, P, aΔ)
    }
    let all = forms.iter().flat_map(|&(code, text)| text.split(' ').map(move |form| (code, form)));
    let mut read: Vec<Item> = all.filter_map(|(code, form)| in_form(code, form, &arguments, bits)).collect();
    assert!(read.len() < 2, "{paren} has two readings");
    read.pop()
}

/// A line without its byte 10; nothing where it breaks the grammar.
fn line(text: &str, bits: u64) -> Option<Line> {
    if text.ends_with(' ') {
        return None;
    } // blanks stand between
    let apart = text.replace('(', " (").replace(')', ") ");
    let mut words: Vec<&str> = apart.split(' ').filter(|word| !word.is_empty()).collect();
    words.reverse();
    let label = if text.starts_with(' ') { "" } else { words.pop().filter(|word| is_label(word))? };
    let mode = words.pop().and_then(|word| MODES.iter().position(|&mode| mode == word))? as u64;
    let parens = |words: &mut Vec<&str>, forms| -> Option<Vec<Item>> {
        let mut items = vec![];
        while words.last().is_some_and(|word| word.starts_with('(')) {
            items.push(item(forms, words.pop()?, bits)?)
        }
        Some(items)
    };
    let tests = if mode == 0 { vec![] } else { parens(&mut words, TESTS)? };
    if mode != 0 && tests.is_empty() {
        return None;
    }
    let then = mode != 0 && words.last() == Some(&"THEN");
    if then {
        words.pop();
    }
    let operations = if mode == 0 || then { parens(&mut words, OPERATIONS)? } else { vec![] };
    if then && operations.is_empty() {
        return None;
    }
    let go_to = words.pop().unwrap_or("");
    let good = is_label(go_to) || go_to == "DONE" || go_to.is_empty() && !operations.is_empty();
    (good && words.is_empty()).then(|| Line { label: label.to_string(), mode, tests, operations, go_to: go_to.to_string() })
}

impl Line {
    fn rows(&self) -> usize {
        1 + self.tests.len() + self.operations.len()
    }
    /// The labels that it uses: those of its DOs and its go-to.
    fn uses(&self) -> impl Iterator<Item = &str> {
        let parts = self.operations.iter().flat_map(|operation| &operation.parts);
        let called = parts.filter_map(|part| if let Part::Label(label) = part { Some(label.as_str()) } else { None });
        called.chain([self.go_to.as_str()]).filter(|&label| !label.is_empty() && label != "DONE")
    }
}

/// Numbers 4 to 10 of a row: name and pairs. Operands are those of document 01: 1 set up (d, s1, s2), typed (s1, SS, d, s2).
fn operands(kind: u64, item: &Item, row_of: &dyn Fn(&str) -> u64) -> [u64; 7] {
    let (mut numbers, mut pairs) = ([0; 7], vec![]);
    for part in &item.parts {
        match part {
            Part::Pair(form, value) => pairs.push([*form, *value]),
            Part::Label(label) => pairs.push([1, row_of(label)]),
            Part::Name(name) => numbers[0] = *name,
            Part::Nothing => {}
        }
    }
    if (kind, item.code) == (3, 1) {
        pairs.swap(0, 1)
    }
    for (i, number) in pairs.concat().into_iter().enumerate() {
        numbers[1 + i] = number
    }
    numbers
}
/// "Rows are given from 1 in the order of the text, each line's row before its tests and those before its operations."
fn table(lines: &[Line], row_of: &dyn Fn(&str) -> u64) -> Vec<u64> {
    let mut numbers = vec![0; 10];
    for (i, line) in lines.iter().enumerate() {
        let row = numbers.len() as u64 / 10;
        let (tests, operations) = (line.tests.len() as u64, line.operations.len() as u64);
        let first = |count: u64, row: u64| if count == 0 { 0 } else { row };
        let next = if i + 1 < lines.len() { row + line.rows() as u64 } else { 0 };
        let go_to = match line.go_to.as_str() {
            "" => 0,
            "DONE" => DONE,
            label => row_of(label),
        };
        numbers.extend([1, next, line.mode, 0, first(tests, row + 1), first(operations, row + 1 + tests), go_to, 0, 0, 0]);
        for (kind, items) in [(2, &line.tests), (3, &line.operations)] {
            for (k, item) in items.iter().enumerate() {
                let next = if k + 1 < items.len() { numbers.len() as u64 / 10 + 1 } else { 0 };
                numbers.extend([kind, next, item.code]);
                numbers.extend(operands(kind, item, row_of));
            }
        }
    }
    numbers
}

/// The rows that a text says at a width, where so many numbers are lent, or the refusal and the line of its fault, counted from 1.
pub fn read(bits: u64, text: &[u8], lent: usize) -> Result<Vec<u64>, (u64, u64)> {
    if bits != 36 && bits != 48 {
        return Err((31, 0));
    }
    let text: String = text.iter().map(|&byte| byte as char).collect();
    let ended = text.split_inclusive('\n').map(|typed| typed.strip_suffix('\n').and_then(|typed| line(typed, bits)));
    let lines: Vec<Option<Line>> = ended.collect();
    let (mut declared, mut row) = (HashMap::new(), 1);
    for (i, line) in lines.iter().enumerate() {
        let Some(line) = line else { continue };
        if !line.label.is_empty() {
            declared.entry(line.label.clone()).or_insert((i, row));
        }
        row += line.rows();
    }
    let mut rows = 1;
    for (i, line) in lines.iter().enumerate() {
        let refused = |number| Err((number, i as u64 + 1));
        let Some(line) = line else { return refused(23) };
        let again = !line.label.is_empty() && declared[&line.label].0 != i;
        if again || line.uses().any(|label| !declared.contains_key(label)) {
            return refused(24);
        }
        rows += line.rows();
        if rows > ROWS || 10 * rows > lent {
            return refused(25);
        }
    }
    if lines.is_empty() {
        return Err((23, 1));
    }
    let lines: Vec<Line> = lines.into_iter().flatten().collect();
    Ok(table(&lines, &|label| declared[label].1 as u64))
}
