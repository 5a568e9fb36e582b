//! Re-recorded stops by libplayer.a and by plain Rust with the same checks and a hash map: milliseconds a call, the least of some
//! calls, and nanoseconds a row of it, as rows of a table. Lists are drawn: each stop has as many records as another, and the chain
//! goes through all rows in a drawn order.
#[path = "../host/l6.rs"]
mod l6;

use std::collections::HashMap;
use std::time::Instant;

/// The same answer by a map from each stop to its place and its standing row.
fn plain(list: &[u64], output: &mut [u64]) -> Option<usize> {
    let rows = list.len() / 4;
    if rows == 0 || list.len() % 4 != 0 || list[1..4] != [0; 3] || list.chunks(4).any(|row| row[0] >= rows as u64) {
        return None;
    }
    let (mut places, mut standing, mut at, mut steps) = (HashMap::new(), vec![], list[0] as usize, 1);
    while at != 0 {
        if steps == rows {
            return None;
        }
        let row = &list[4 * at..4 * at + 4];
        let place = *places.entry(row[1]).or_insert(standing.len());
        if place == standing.len() {
            standing.push(row)
        } else if standing[place][2] <= row[2] {
            standing[place] = row
        }
        (at, steps) = (row[0] as usize, steps + 1);
    }
    if output.len() < 2 * standing.len() {
        return None;
    }
    for (pair, row) in output.chunks_mut(2).zip(&standing) {
        pair.copy_from_slice(&[row[1], row[3]])
    }
    Some(standing.len())
}

fn drawn(rows: usize, stops: usize) -> Vec<u64> {
    let mut state = 1966u64;
    let mut next = || {
        state ^= state << 13;
        state ^= state >> 7;
        state ^= state << 17;
        state as usize
    };
    let mut order: Vec<usize> = (1..=rows).collect();
    for i in 1..rows {
        order.swap(i, next() % (i + 1))
    }
    let mut list = vec![0; 4 * rows + 4];
    let mut at = 0;
    for (i, &row) in order.iter().enumerate() {
        list[4 * at] = row as u64;
        list[4 * row + 1..4 * row + 4].copy_from_slice(&[(i % stops * 7919) as u64, (next() % 9000) as u64, next() as u64]);
        at = row;
    }
    list
}

fn least(mut call: impl FnMut()) -> f64 {
    let times = (0..7).map(|_| {
        let start = Instant::now();
        call();
        start.elapsed().as_secs_f64() * 1e3
    });
    times.fold(f64::MAX, f64::min)
}

fn main() {
    for (rows, stops) in
        [(1000, 100), (1000, 1000), (5000, 200), (5000, 1000), (5000, 5000), (10000, 10000), (100000, 1000), (100000, 100000)]
    {
        let list = drawn(rows, stops);
        let (mut ample, mut exact, mut other) = (vec![0; 2 * rows], vec![0; 2 * stops], vec![0; 2 * stops]);
        let times = [
            least(|| assert_eq!(l6::recordings(&list, &mut ample), Ok(stops))),
            least(|| assert_eq!(l6::recordings(&list, &mut exact), Ok(stops))),
            least(|| assert_eq!(plain(&list, &mut other), Some(stops))),
        ];
        assert!(ample[..2 * stops] == other && exact == other);
        let of_a_row = |ms: f64| ms * 1e6 / rows as f64;
        println!(
            "| {rows} | {stops} | {:.3} | {:.3} | {:.3} | {:.1} | {:.1} |",
            times[0],
            times[1],
            times[2],
            of_a_row(times[0]),
            of_a_row(times[2])
        );
    }
}
