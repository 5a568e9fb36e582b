//! The lines that the program `openings` must write: its edges and lists, answered by hours.rs.
use crate::hours::open_at;
use crate::{figure, fold, Case, Generator, CASES, SEED};

fn next(drawn: u64) -> u64 {
    Generator(drawn).next()
}

/// Entries of n numbers, of which 41 numbers are made.
fn entries(n: usize, day: u64, seed: u64) -> Vec<u64> {
    let (mut list, mut g) = (vec![], Generator(seed));
    while list.len() < 41 {
        let drawn = g.next();
        let named = drawn >> 40;
        let (open, row) = (drawn % 48 * 30, drawn / 65536 % 799 + 1);
        let close = open + 1 + drawn / 64 % (1440 - open);
        list.extend(match (n, drawn >> 62) {
            (4, _) => vec![named % 7, open, close, row],
            (_, 0) => vec![day.wrapping_add(named % 8), 0, 0, 0, 1],
            _ => vec![day.wrapping_add(named % 8), open, close, row, 0],
        });
    }
    list.truncate(41);
    list
}

/// A number drawn anew in a quarter of the cases.
fn damage(list: &mut [u64], a: u64, y: u64) {
    let near = [0, 1, 2, 6, 7, 799, 800, 1440, 1441, u64::MAX, y / 16 % 1440, y];
    if a % 4 == 0 {
        list[(a / 4 % 41) as usize] = near[(y % 12) as usize];
    }
}

fn answer(Case { a, x, y }: Case) -> u64 {
    let day = [x % 15, u64::MAX - x % 15, x, x][(a % 4) as usize];
    let (mut windows, mut exceptions) = (entries(4, day, next(a)), entries(5, day, next(next(a))));
    damage(&mut windows, y / 8, x);
    damage(&mut exceptions, x / 8, y);
    let minute = match (a / 16 % 8, a / 128 % 16) {
        (0, _) => windows[1],
        (1, _) => windows[6],
        (2, _) => exceptions[1],
        (3, _) => exceptions[7],
        (_, 0) => 0,
        (_, 1) => 1439,
        (_, 2) => 1440,
        (_, 3) => y,
        _ => y % 1440,
    };
    let lengths = a / 2048;
    let n = lengths % 11 * 4 + (lengths / 256 % 24 == 23) as u64;
    let m = lengths / 65536 % 9 * 5 + (lengths / 16777216 % 24 == 23) as u64;
    told(open_at(&windows[..n as usize], &exceptions[..m as usize], day, minute))
}

fn told(answer: Result<Option<u64>, u64>) -> u64 {
    figure(answer.map(|row| row.unwrap_or(0)))
}

/// The edges on a few windows and exceptions.
fn edges() {
    let windows = [[5, 0, 1440, 7], [0, 60, 120, 8], [6, 1, 1440, 9]].concat();
    let exceptions = [[7, 0, 0, 0, 1], [u64::MAX, 1439, 1440, 799, 0]].concat();
    let asked = [
        ("day 0, a Saturday", 0, 0),
        ("day 0", 0, 1439),
        ("day 0", 0, 1440),
        ("day 2, a Monday", 2, 59),
        ("day 2", 2, 60),
        ("day 2", 2, 119),
        ("day 2", 2, 120),
        ("day 7, closed", 7, 0),
        ("day 14", 14, 0),
        ("day 2^64 - 1", u64::MAX, 1438),
        ("day 2^64 - 1", u64::MAX, 1439),
        ("day 2^64 - 8, a Sunday", u64::MAX - 7, 1),
    ];
    for (label, day, minute) in asked {
        match open_at(&windows, &exceptions, day, minute) {
            Err(refusal) => println!("{label}, minute {minute}: refusal {refusal}"),
            Ok(row) => println!("{label}, minute {minute}: {}", row.unwrap_or(0)),
        }
    }
}

pub fn lines() {
    edges();
    let mut g = Generator(SEED);
    let all: Vec<u64> = (0..CASES).map(|_| answer(g.case())).collect();
    println!("all answers: {}", all.iter().fold(0, |sum, &told| fold(sum, told)) / 2);
    println!("rows: {}", all.iter().filter(|&&told| (1..800).contains(&told)).count());
    println!("closed: {}", all.iter().filter(|&&told| told == 0).count());
    println!("refusals: {}", all.iter().filter(|&&told| told > 800).count());
}
