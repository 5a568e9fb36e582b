//! Drawn lists for compare.rs: windows and exceptions with a day and a minute, and corrections, some with a number or a length that
//! breaks the rules; stops on display with pairs of stop and recording.
use crate::generator::Rng;

pub struct Lists {
    pub windows: Vec<u64>,
    pub exceptions: Vec<u64>,
    pub day: u64,
    pub minute: u64,
}

/// The opening and the closing minute and the row of an entry.
fn open(rng: &mut Rng) -> [u64; 3] {
    let opening = rng.below(1440);
    let closing = 1440 - rng.below(1440 - opening);
    [opening, rng.pick(&[opening + 1, 1440, closing]), 1 + rng.below(799)]
}

/// Damages a list seldom: a number near a bound, one number more or fewer.
fn spoil(rng: &mut Rng, list: &mut Vec<u64>) {
    let any = rng.next();
    let i = rng.below(list.len() as u64 + 1) as usize;
    match rng.below(16) {
        0 => list.push(any),
        1 => list.truncate(i),
        2 | 3 if i < list.len() => list[i] = rng.pick(&[0, 1, 2, 6, 7, 799, 800, 1440, 1441, u64::MAX, any]),
        _ => {}
    }
}

pub fn lists(rng: &mut Rng) -> Lists {
    let any = rng.next();
    let day = rng.pick(&[0, 1, 5, any, any % 8000, u64::MAX, u64::MAX - any % 8]);
    let mut windows: Vec<u64> = (0..rng.below(30)).flat_map(|_| [&[rng.below(7)], &open(rng)[..]].concat()).collect();
    let exceptions = (0..rng.below(6)).flat_map(|_| {
        let day = day.wrapping_add(rng.pick(&[0, 0, 1, 7, u64::MAX, 1 << 32]));
        if rng.below(3) == 0 {
            vec![day, 0, 0, 0, 1]
        } else {
            [&[day], &open(rng)[..], &[0]].concat()
        }
    });
    let mut exceptions: Vec<u64> = exceptions.collect();
    spoil(rng, &mut windows);
    spoil(rng, &mut exceptions);
    let (first, last) = (windows.get(1).copied().unwrap_or(0), exceptions.get(2).copied().unwrap_or(0));
    let drawn = rng.below(1440);
    let minute =
        rng.pick(&[0, 1439, 1440, any, first, first.wrapping_sub(1), last, last.wrapping_sub(1), drawn, drawn, drawn, drawn]);
    Lists { windows, exceptions, day, minute }
}

/// A list of corrections: its chain goes through some of its rows in a drawn order, a few come back to a row of it, and there are
/// few stops or many. Some are spoilt.
pub fn corrections(rng: &mut Rng) -> Vec<u64> {
    let rows = rng.below(40) as usize;
    let mut order: Vec<usize> = (1..=rows).collect();
    for i in 1..rows {
        order.swap(i, rng.below(i as u64 + 1) as usize)
    }
    order.truncate(rng.below(rows as u64 + 1) as usize);
    let (stops, days) = (rng.pick(&[1, 3, 10, u64::MAX]), rng.pick(&[1, 3, u64::MAX]));
    let mut list: Vec<u64> = vec![0; 4];
    for _ in 0..rows {
        list.extend([rng.below(rows as u64 + 1), rng.below(stops), rng.below(days), rng.next()])
    }
    let back = if rng.below(6) == 0 { rng.below(rows as u64 + 1) } else { 0 };
    let mut at = 0;
    for &row in &order {
        list[4 * at] = row as u64;
        at = row;
    }
    list[4 * at] = back;
    let (i, any) = (rng.below(list.len() as u64) as usize, rng.next());
    match rng.below(20) {
        0 => list.push(any),
        1 => list.truncate(i),
        2 | 3 => list[i] = rng.pick(&[0, 1, rows as u64, rows as u64 + 1, u64::MAX, 1 << 62, any]),
        4 => list[rng.below(4) as usize] = rng.pick(&[0, 1, any]),
        _ => {}
    }
    list
}

/// Stops on display and pairs of stop and recording: of few numbers or many, so that some stops stand twice, some have no pair, one
/// without a recording, or several; every third list of pairs has one number more or fewer. Pairs of most stops of the list are
/// there in their order.
pub fn displayed(rng: &mut Rng) -> (Vec<u64>, Vec<u64>) {
    let range = rng.pick(&[2, 10, 60, 1000, u64::MAX]);
    let stops: Vec<u64> = (0..rng.below(40)).map(|_| rng.below(range)).collect();
    let heard = rng.pick(&[0, 50, 90, 100]);
    let mut pairs: Vec<u64> = vec![];
    for &stop in &stops {
        if rng.chance(heard) {
            pairs.extend([stop, rng.pick(&[1, 1, 1, 7, u64::MAX])])
        }
        if rng.chance(20) {
            pairs.extend([rng.below(range), rng.pick(&[0, 0, 1])])
        }
    }
    match rng.below(6) {
        0 => pairs.push(stops.last().copied().unwrap_or(1)),
        1 => {
            pairs.pop();
        }
        _ => {}
    }
    (stops, pairs)
}
