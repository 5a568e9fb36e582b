//! Re-recorded stops from document 02's ticket 6 alone: stop and recording of each standing record, or the refusal.
use std::collections::{BTreeMap, HashSet};

pub fn standing(list: &[u64], room: usize) -> Result<Vec<(u64, u64)>, u64> {
    let rows: Vec<&[u64]> = list.chunks(4).collect();
    let inside = |row: &&[u64]| row[0] < rows.len() as u64;
    if list.is_empty() || list.len() % 4 != 0 || rows[0][1..] != [0; 3] || !rows.iter().all(inside) {
        return Err(26);
    }
    let (mut chain, mut passed, mut at) = (vec![], HashSet::new(), rows[0][0]);
    while at != 0 {
        if !passed.insert(at) {
            return Err(27);
        }
        chain.push(rows[at as usize]);
        at = rows[at as usize][0];
    }
    // All records of each stop by day and place in the chain: the last one stands. Stops by where they first occur.
    let mut records: BTreeMap<u64, Vec<(u64, usize)>> = BTreeMap::new();
    for (place, row) in chain.iter().enumerate() {
        records.entry(row[1]).or_default().push((row[2], place));
    }
    let mut stops: Vec<(usize, u64, u64)> =
        records.iter().map(|(&stop, all)| (all[0].1, stop, chain[all.iter().max().unwrap().1][3])).collect();
    stops.sort();
    if stops.len() * 2 > room {
        return Err(28);
    }
    Ok(stops.into_iter().map(|(_, stop, recording)| (stop, recording)).collect())
}

/// What the call leaves in an output.
pub fn written(list: &[u64], output: &mut [u64]) -> Result<u64, u64> {
    let stops = standing(list, output.len())?;
    for (i, (stop, recording)) in stops.iter().enumerate() {
        (output[2 * i], output[2 * i + 1]) = (*stop, *recording);
    }
    Ok(stops.len() as u64)
}
