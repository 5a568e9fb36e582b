//! The proved engine through libplayer.a, in a folder with tour.tab and stops.in: what the program laps does and prints.
//!   boundary run LIMIT CALLS WIDTH   so many calls of run, one where CALLS is left out
//!   boundary step CALLS WIDTH        so many calls of step
//! Words have WIDTH bits, 36 where it is left out.
#[path = "../host/l6.rs"]
mod l6;

use l6::{Answer, Lent, Report, State};

/// The checksum after one more number: a shift register of 64 bits.
fn fold(sum: u64, number: u64) -> u64 {
    let a = sum ^ number;
    let b = a ^ (a << 13);
    let c = b ^ (b >> 7);
    c ^ (c << 17)
}
fn fold_report(sum: u64, report: Report) -> u64 {
    let stores = [report.first, report.second].map(|store| [store.address, store.left, store.right, store.bits]);
    let blocks = [report.freed, report.delivered, report.size, report.copied];
    blocks.into_iter().chain(stores.into_iter().flatten()).fold(sum, fold)
}
fn numbers(bytes: &[u8]) -> impl Iterator<Item = u64> + '_ {
    bytes.chunks_exact(8).map(|eight| u64::from_le_bytes(eight.try_into().unwrap()))
}

fn main() {
    let arguments: Vec<String> = std::env::args().skip(1).collect();
    let number = |i: usize, missing| arguments.get(i).and_then(|text| text.parse().ok()).unwrap_or(missing);
    let load = |name| std::fs::read(name).unwrap_or_default();
    let (table, input): (Vec<u64>, Vec<u8>) = (numbers(&load("tour.tab")).collect(), load("stops.in"));
    let (mut storage, mut output) = ([0; 4096], [0; 4096]);
    let mut lent = Lent { table: &table, storage: &mut storage, input: &input, output: &mut output };
    let steps = arguments.first().is_some_and(|mode| mode == "step");
    let width = number(if steps { 2 } else { 3 }, 36);
    let (mut state, mut answer, mut count, mut sum) = (State::fresh(width).unwrap(), Answer::Running, 0, 1);
    let limit = number(1, 0);
    let mut left = if steps { limit } else { number(2, 1) };
    while left > 0 && answer == Answer::Running {
        if steps {
            let (given, report) = state.step(&mut lent);
            (answer, count, sum) = (given, count + 1, fold_report(sum, report));
        } else {
            let (given, taken) = state.run(&mut lent, limit);
            (answer, count) = (given, count + taken);
        }
        left -= 1;
    }
    let told = match answer {
        Answer::Running => 0,
        Answer::Finished => 100,
        Answer::Refused(refusal) => refusal.number(),
    };
    let sum = numbers(&state.bytes()[51..259]).chain(storage).fold(sum, fold);
    println!("{told} {count} {sum}");
}
