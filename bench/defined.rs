//! The check of fields by libplayer.a: milliseconds a call, the least of some calls, as rows of a table. The argument is the table
//! of the sample museum; the others have 799 rows and are made so that the check takes long: lines that all share one chain of
//! operations and lead backward from each to the one before it, so that what is known comes to one more line in each round, and 35
//! fields that are lost one round after the other. `visits` counts the rows of chains that such rounds walk, by the same rounds in
//! plain Rust.
#[path = "../host/l6.rs"]
mod l6;

use std::time::Instant;

const DONE: u64 = 65535;
const FIELDS: u64 = 35;

/// A table of 799 rows whose shared chain has `long` rows of this operation.
fn slow(long: u64, code: u64) -> Vec<u64> {
    let (first, ring) = (2, 2 + 2 * FIELDS);
    let lines = 799 - ring - 1 - 36 - FIELDS - long;
    let test = ring + lines;
    let (definitions, restores, chain) = (test + 1, test + 37, test + 37 + FIELDS);
    let entry = ring + lines - 1;
    let mut rows = vec![[0; 10], [1, 0, 0, 0, 0, definitions, first + 2 * (FIELDS - 1), 0, 0, 0]];
    for i in 0..FIELDS {
        let (row, back) = (first + 2 * i, if i == 0 { entry } else { first + 2 * i - 2 });
        rows.push([1, row + 1, 1, 0, test, 0, back, 0, 0, 0]);
        rows.push([1, 0, 0, 0, 0, restores + i, entry, 0, 0, 0]);
    }
    for k in 0..lines {
        rows.push([1, 0, 0, 0, 0, chain, if k == 0 { DONE } else { ring + k - 1 }, 0, 0, 0])
    }
    rows.push([2, 0, 1, 0, 2, 33, 1, 0, 0, 0]);
    for i in 0..36 {
        rows.push([3, if i < 35 { definitions + i + 1 } else { 0 }, 2, i, 1, 1, 1, 0, 1, 5])
    }
    for i in 0..FIELDS {
        rows.push([3, 0, 35, i, 0, 0, 0, 0, 0, 0])
    }
    for i in 0..long {
        let next = if i + 1 < long { chain + i + 1 } else { 0 };
        rows.push(match code {
            36 => [3, next, 36, 0, 1, 1, 0, 0, 0, 0],
            _ => [3, next, code, 35, 0, 0, 0, 0, 0, 0],
        });
    }
    rows.concat()
}

/// How many rows of chains the rounds walk.
fn visits(table: &[u64]) -> u64 {
    let row = |r: u64| &table[10 * r as usize..10 * r as usize + 10];
    let lines: Vec<u64> = (1..table.len() as u64 / 10).filter(|&r| row(r)[0] == 1).collect();
    let (mut sets, mut walked, mut visits) = ([0u64; 800], [0u64; 800], 0);
    sets[1] = (1 << 37) - 1;
    let mut walk = |sets: &mut [u64; 800], line: u64, start: u64, done: u64| {
        let (mut r, mut x) = (row(line)[5], start);
        while r != 0 {
            visits += 1;
            match row(r)[2] {
                36 => {
                    sets[row(r)[5] as usize] |= x;
                    x = done;
                }
                2 => x &= !(1 << row(r)[3]),
                35 if x >> 36 != 0 => x |= 1 << row(r)[3],
                _ => {}
            }
            r = row(r)[1];
        }
        match row(line)[6] {
            DONE => sets[0] |= x,
            0 if row(line)[1] == 0 => {}
            0 => sets[row(line)[1] as usize] |= x,
            to => sets[to as usize] |= x,
        }
    };
    while sets != walked {
        for &line in &lines {
            let x = sets[line as usize];
            if walked[line as usize] == x {
                continue;
            }
            walked[line as usize] = x;
            if row(line)[4] != 0 && row(line)[1] != 0 {
                sets[row(line)[1] as usize] |= x
            }
            walk(&mut sets, line, x, 0);
        }
        let done = sets[0];
        if walked[0] != done {
            walked[0] = done;
            for &line in &lines {
                walk(&mut sets, line, 0, done)
            }
        }
    }
    visits
}

fn least(mut call: impl FnMut()) -> f64 {
    let times = (0..9).map(|_| {
        let start = Instant::now();
        call();
        start.elapsed().as_secs_f64() * 1e3
    });
    times.fold(f64::MAX, f64::min)
}

fn main() {
    let museum = l6::numbers(&std::fs::read(std::env::args().nth(1).expect("the museum's tour.tab")).unwrap());
    let tables = [
        ("the sample museum", museum),
        ("a shared chain of 327 saves", slow(327, 34)),
        ("a shared chain of 327 restores", slow(327, 35)),
        ("a shared chain of 327 DOs", slow(327, 36)),
        ("a shared chain of 100 restores", slow(100, 35)),
    ];
    for (name, table) in tables {
        let time = least(|| assert_eq!(l6::defined(36, &table), Ok(())));
        println!("| {name} | {} | {} | {time:.4} |", table.len() / 10, visits(&table));
    }
}
