//! Commands over the reference engine.
//! Usage: reference gen|cover SEED N | comparison|drafts|scripts SEED N stdin|stdout | bench | tourrun | tourlist
#[allow(dead_code)]
mod bytes;
mod comparison;
mod defined;
#[allow(dead_code)]
mod drafts;
mod engine;
mod generator;
mod raw;
mod scripts;
mod texts;
mod typed;

use engine::*;
use generator::*;
use std::io::Write;

fn list<T: std::fmt::Display>(numbers: &[T]) -> String {
    format!("[{}]", numbers.iter().map(|n| n.to_string()).collect::<Vec<_>>().join(" "))
}
/// Blocks in address order, as address size address size ...
fn ordered(blocks: &[Block]) -> Vec<u64> {
    let mut pairs: Vec<[u64; 2]> = blocks.iter().map(|b| [b.start, b.size]).collect();
    pairs.sort();
    pairs.concat()
}
fn answer_code(answer: Answer) -> u64 {
    match answer {
        Answer::Running => 0,
        Answer::Finished => 1,
        Answer::Refused(k) => 100 + k,
    }
}
/// One case and its outcome as a line of text.
fn show(case: &Case) -> String {
    let mut engine = case.engine();
    let (answer, count, r) = engine.run(case.limit);
    let code = answer_code(answer);
    let (s, lent) = (&engine.state, &engine.lent);
    let words = s.setup.map_or(&[][..], |(_, s1, s2)| &s.storage[..(s2 - s1 + 1) as usize]);
    let [a, b] = [r.first, r.second].map(|s| [s.address, s.left, s.right, s.kept]);
    let report = [[r.freed, r.delivered, r.size, r.copied], a, b].concat();
    format!(
        "limit {} | table {} | input {} | storage {} | output {} | answer {code} | count {count} | written {} | bugs {} | \
         words {} | free {} | live {} | report {}",
        case.limit,
        list(&lent.table),
        list(&lent.input),
        case.storage,
        case.output,
        list(&s.written),
        list(&s.bugs),
        list(words),
        list(&ordered(&s.free)),
        list(&ordered(&s.live)),
        list(&report)
    )
}
fn generate(seed: u64, count: u64) {
    let mut out = std::io::BufWriter::new(std::io::stdout().lock());
    (0..count).for_each(|i| writeln!(out, "{}", show(&make(36, seed, i))).unwrap());
}
/// How often operations, tests, modes and answers came up: successes in all, and cases with one at least.
fn cover(seed: u64, count: u64) {
    let (mut hits, mut cases) = ([0; 61], [0; 61]);
    let (mut answers, mut reports) = ([0; 122], 0);
    for i in 0..count {
        let case = make(36, seed, i);
        let mut engine = case.engine();
        let (answer, _, report) = engine.run(case.limit);
        let t = &engine.state.tally;
        let all = [&t.operations[1..], &t.tests[1..].concat(), &t.modes.concat()].concat();
        for (j, n) in all.into_iter().enumerate() {
            (hits[j], cases[j]) = (hits[j] + n, cases[j] + (n > 0) as u64)
        }
        answers[answer_code(answer) as usize] += 1;
        reports += (report != Report::default()) as u64;
    }
    let label = |j: usize| match j {
        0..=35 => format!("operation {}", j + 1),
        36..=49 => format!("test {} {}", (j - 36) / 2 + 1, (j - 36) % 2 == 1),
        _ => format!("{} {}", ["THEN", "IFALL", "IFANY", "IFNONE", "IFNALL"][(j - 50) / 2], (j - 50) % 2 == 1),
    };
    for j in (0..60).filter(|&j| j != 50) {
        println!("{:16} {:7} times, in {:5} cases", label(j), hits[j], cases[j])
    }
    for (code, n) in answers.iter().enumerate().filter(|(_, n)| **n > 0) {
        println!("answer {code:9} {n:7} cases")
    }
    println!("last step reports something in {reports} of {count} cases");
}

/// Bench cases: the engine that tourrun runs.
fn files_engine(table: &[u8], input: &[u8]) -> Engine {
    let bad = table.len() % 8 != 0 || table.len() > 64000; // "counts as refusal 1 at the first step"
    let numbers = table.chunks_exact(8).map(|eight| u64::from_le_bytes(eight.try_into().unwrap()));
    let numbers = if bad { vec![] } else { numbers.collect() };
    Engine::fresh(numbers, input[..input.len().min(4096)].to_vec(), vec![0; 4096], 4096, 36)
}

/// Bench cases: what tourrun prints.
fn tour(table: &[u8], input: &[u8]) -> String {
    let mut engine = files_engine(table, input);
    let (answer, count, _) = engine.run(100_000);
    let codes: Vec<String> = engine.state.written.iter().map(|code| format!("{code:02o}")).collect();
    let word = match answer {
        Answer::Running => "running".to_string(),
        Answer::Finished => "finished".to_string(),
        Answer::Refused(k) => k.to_string(),
    };
    format!("{}\n{word} {count}\n", codes.join(" "))
}

/// What tourlist prints: the state that tourrun's run leaves, by blocks.
fn listed(table: &[u8], input: &[u8]) -> String {
    let mut engine = files_engine(table, input);
    engine.run(100_000);
    let s = &engine.state;
    let (d, s1, s2) = s.setup.unwrap_or((0, 0, 0));
    let mut lines = vec![format!("set-up {d} {s1} {s2}")];
    for (letter, &word) in ('A'..='Z').zip(&s.bugs) {
        if word > 0 {
            lines.push(format!("bug {letter} {word:012o}"))
        }
    }
    for (name, field) in ('0'..='9').chain('A'..='Z').zip(&s.fields) {
        if let Some(f) = field {
            lines.push(format!("field {name} {} {} {}", f.word, f.left, f.right))
        }
    }
    let mut blocks: Vec<(&Block, bool)> = s.live.iter().map(|b| (b, true)).chain(s.free.iter().map(|b| (b, false))).collect();
    blocks.sort_by_key(|(b, _)| b.start);
    for (b, live) in blocks {
        let last = b.start + b.size - 1;
        lines.push(format!("{} {} {last} {}", if live { "block" } else { "free" }, b.start, b.size));
        for address in (b.start..=last).filter(|_| live) {
            lines.push(format!("{address:05o} {:012o}", s.storage[(address - s1) as usize]))
        }
    }
    lines.push(format!("stacks {} {} {}", s.contents.len(), s.definitions.len(), s.returns.len()));
    lines.extend(s.contents.iter().map(|word| format!("contents {word:012o}")));
    lines.extend(s.definitions.iter().map(|saved| match saved {
        Some(f) => format!("definition {} {} {}", f.word, f.left, f.right),
        None => "definition undefined".to_string(),
    }));
    lines.extend(s.returns.iter().map(|place| match place {
        Place::Tests(line) => format!("place 0 0 {line}"),
        Place::Operation(row, line) => format!("place 1 {row} {line}"),
        Place::Exit(line) => format!("place 2 0 {line}"),
        Place::Finished => "place 3 0 0".to_string(),
    }));
    lines.join("\n") + "\n"
}

/// A bench program: set-up with d = 8, s1 = 8, s2 = 23, then the operations, run on seven input characters.
fn try_out(operations: &[Row]) -> (Answer, State) {
    let set_up = row(3, 1, 0, &[(1, 8), (1, 8), (1, 23)]);
    let line = Line { operations: [&[set_up], operations].concat(), ..Line::default() };
    let mut engine = Case { lines: vec![line], input: vec![1; 7], storage: 16, output: 40, ..Case::default() }.engine();
    (engine.run(100).0, engine.state)
}
/// Bench cases, the ten starred ones and the rest.
fn bench() {
    let check = |what: &str, good: bool| println!("{} {what}", if good { "PASS" } else { "FAIL" });
    let lit = |value: u64| (1, value);
    let (w, x, y) = (named("W"), named("X"), named("Y"));
    let get = |bug, size| row(3, 3, 0, &[bug, lit(size)]);
    let on_x = |code, start, other| try_out(&[row(3, 6, 0, &[x, lit(start)]), row(3, code, 0, &[x, other])]);
    let bug_x = |(_, state): (Answer, State)| state.bugs[33 - 10];
    let refused = |(answer, _): (Answer, State), k| answer == Answer::Refused(k);
    let size = |n| try_out(&[get(w, n)]).1.live[0].size;
    check("* sizes 3, 5, 9", size(3) == 4 && size(5) == 8 && refused(try_out(&[get(w, 9)]), 8));
    check("* two gets of 8, then 1", refused(try_out(&[get(w, 8), get(x, 8), get(y, 1)]), 17));
    let again = |bug| try_out(&[get(w, 8), get(x, 8), row(3, 4, 0, &[bug, lit(0)]), get(y, 8)]).1.bugs[34 - 10];
    check("* free either, get 8", again(w) == 8 && again(x) == 16);
    let field = |left: u64, right: u64| row(3, 2, 12, &[lit(0), lit(left), lit(right)]);
    let (full, wc) = (row(3, 2, 15, &[lit(0), lit(0), lit(35)]), named("WC"));
    let ones = row(3, 6, 0, &[named("WF"), lit(mask(36))]);
    let stored = try_out(&[full, field(6, 20), get(w, 1), ones, row(3, 6, 0, &[wc, lit(32769)])]);
    check("* 32,769 into bits 6-20", stored.1.storage[0] == 0o770000177777);
    let less = try_out(&[field(6, 20), get(w, 1), row(3, 9, 0, &[wc, lit(1)]), row(3, 6, 0, &[x, wc])]);
    check("* 0 - 1 into 15 bits", bug_x(less) == 32767);
    check("* 2^35 x 3", bug_x(on_x(10, 1 << 35, lit(3))) == 1 << 35);
    check("* 607 to decimal", bug_x(on_x(29, 607, x)) == 0o000000060007);
    check("* zeros to blanks", bug_x(on_x(31, 0o60007, x)) == 0o606060060007);
    let eight = try_out(&[row(3, 25, 0, &[lit(8), lit(0o60007)])]);
    check("* eight printed of o60007", eight.1.written == [48, 48, 0, 0, 0, 6, 0, 7]);
    check("* o606060060007 to binary", refused(on_x(27, 0o606060060007, x), 6));
    check("1,000,607 converts as 607", bug_x(on_x(29, 1_000_607, x)) == 0o000000060007);
    let six = on_x(24, 0, lit(6)).0 == Answer::Finished;
    check("six input characters pass, seven give 10", six && refused(on_x(24, 0, lit(7)), 10));
    let print = [3, 0, 25, 0, 1, 2, 1, 7, 0, 0u64];
    let example = [[0; 10], [1, 0, 0, 0, 0, 2, 0, 0, 0, 0], [3, 3, 1, 0, 1, 8, 1, 8, 1, 23], print];
    let bytes: Vec<u8> = example.concat().iter().flat_map(|n| n.to_le_bytes()).collect();
    check("tourrun's example", tour(&bytes, &[]) == "00 07\nfinished 4\n");
    check("tourrun of nothing", tour(&[], &[]) == "\n1 1\n" && tour(&bytes[1..], &[]) == "\n1 1\n");
}

fn main() {
    let arguments: Vec<String> = std::env::args().collect();
    let number = |i: usize| arguments.get(i).and_then(|a| a.parse().ok()).unwrap_or(0);
    let file = |name| std::fs::read(name).unwrap_or_default(); // "A missing file counts as empty"
    match arguments.get(1).map(String::as_str) {
        Some("gen") => generate(number(2), number(3)),
        Some("cover") => cover(number(2), number(3)),
        Some("comparison") if arguments.get(4).is_some_and(|a| a == "stdin") => {
            std::io::stdout().write_all(&comparison::stdin(number(2), number(3))).unwrap()
        }
        Some("drafts") if arguments.get(4).is_some_and(|a| a == "stdin") => {
            std::io::stdout().write_all(&drafts::stdin(number(2), number(3))).unwrap()
        }
        Some("scripts") if arguments.get(4).is_some_and(|a| a == "stdin") => {
            std::io::stdout().write_all(&scripts::stdin(number(2), number(3))).unwrap()
        }
        Some("scripts") => print!("{}", scripts::stdout(number(2), number(3))),
        Some("drafts") => print!("{}", drafts::stdout(number(2), number(3))),
        Some("comparison") => print!("{}", comparison::stdout(number(2), number(3))),
        Some("bench") => bench(),
        Some("tourlist") => print!("{}", listed(&file("tour.tab"), &file("stops.in"))),
        Some("tourrun") => print!("{}", tour(&file("tour.tab"), &file("stops.in"))),
        _ => eprintln!(
            "usage: reference gen|cover SEED N | comparison|drafts|scripts SEED N stdin|stdout | bench | tourrun | tourlist"
        ),
    }
}
