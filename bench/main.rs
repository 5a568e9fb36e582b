//! The program of the engine written for speed, in a folder with tour.tab and stops.in.
//!   rival run LIMIT CALLS WIDTH   so many calls of run, one where CALLS is left out
//!   rival step CALLS WIDTH        so many calls of step
//! Words have WIDTH bits, 36 where it is left out. Both print what the program laps prints: the last answer's number (0 running,
//! 100 finished), the count of steps and a checksum over the reports of the calls of step, the bugs and the storage.
//!   rival tour              what tourrun prints
mod engine;

use engine::{Answer, Lent, Report, State, Store};

/// The checksum after one more number: a shift register of 64 bits.
fn fold(sum: u64, number: u64) -> u64 {
    let a = sum ^ number;
    let b = a ^ (a << 13);
    let c = b ^ (b >> 7);
    c ^ (c << 17)
}

/// The table of tour.tab: none where its length is that of no table.
fn table() -> Vec<u64> {
    let bytes = std::fs::read("tour.tab").unwrap_or_default();
    let (numbers, rest) = bytes.as_chunks();
    if !rest.is_empty() || bytes.len() > 64000 {
        return vec![];
    }
    numbers.iter().map(|&number| u64::from_le_bytes(number)).collect()
}

fn fold_store(sum: u64, store: Store) -> u64 {
    [store.address, store.left.into(), store.right.into(), store.bits].into_iter().fold(sum, fold)
}
fn fold_report(sum: u64, report: Report) -> u64 {
    let sum = [report.freed, report.delivered, report.size, report.copied].into_iter().fold(sum, fold);
    fold_store(fold_store(sum, report.first), report.second)
}

/// Calls of run as long as the answer is running: the last answer, the count of steps and the first checksum.
fn runs(state: &mut State, lent: &mut Lent, limit: u64, calls: u64) -> (Answer, u64, u64) {
    let (mut answer, mut count, mut left) = (Answer::Running, 0, calls);
    while left > 0 && answer == Answer::Running {
        let (next, steps) = state.run(lent, limit);
        answer = next;
        count += steps;
        left -= 1;
    }
    (answer, count, 1)
}

/// Calls of step as long as the answer is running: the last answer, the count and the checksum over the reports.
fn steps(state: &mut State, lent: &mut Lent, calls: u64) -> (Answer, u64, u64) {
    let (mut answer, mut count, mut sum) = (Answer::Running, 0, 1);
    while count < calls && answer == Answer::Running {
        let (next, report) = state.step(lent);
        answer = next;
        count += 1;
        sum = fold_report(sum, report);
    }
    (answer, count, sum)
}

fn tour(state: &mut State, lent: &mut Lent) {
    let (answer, count) = state.run(lent, 100_000);
    let codes: Vec<String> = lent.output[..state.written].iter().map(|code| format!("{code:02o}")).collect();
    let word = match answer {
        Answer::Running => "running".to_string(),
        Answer::Finished => "finished".to_string(),
        Answer::Refused(refusal) => (refusal as u64).to_string(),
    };
    println!("{}\n{word} {count}", codes.join(" "));
}

fn main() {
    let arguments: Vec<String> = std::env::args().skip(1).collect();
    let number = |i: usize, missing| arguments.get(i).and_then(|text| text.parse().ok()).unwrap_or(missing);
    let (table, mut input) = (table(), std::fs::read("stops.in").unwrap_or_default());
    input.truncate(4096);
    let (mut storage, mut output) = ([0; 4096], [0; 4096]);
    let mut lent = Lent { table: &table, storage: &mut storage, input: &input, output: &mut output };
    let mode = arguments.first().map(String::as_str);
    let width = number(if mode == Some("step") { 2 } else { 3 }, 36);
    let mut state = State::fresh((width % 256) as u8);
    let (answer, count, reports) = match mode {
        Some("run") => runs(&mut state, &mut lent, number(1, 0), number(2, 1)),
        Some("step") => steps(&mut state, &mut lent, number(1, 0)),
        _ => return tour(&mut state, &mut lent),
    };
    let told = match answer {
        Answer::Running => 0,
        Answer::Finished => 100,
        Answer::Refused(refusal) => refusal as u64,
    };
    let sum = state.bugs.iter().chain(&storage).copied().fold(reports, fold);
    println!("{told} {count} {sum}");
}
