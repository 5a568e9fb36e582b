//! Silent and repeated stops, by sets and counts.
use std::collections::{HashMap, HashSet};

/// Puts stops at the start of an output and counts them, or refuses.
fn told(found: Vec<u64>, output: &mut [u64]) -> Result<u64, u64> {
    output.get_mut(..found.len()).ok_or(28u64)?.copy_from_slice(&found);
    Ok(found.len() as u64)
}

pub fn silent(stops: &[u64], pairs: &[u64], output: &mut [u64]) -> Result<u64, u64> {
    let heard: HashSet<u64> = pairs.chunks_exact(2).filter(|pair| pair[1] > 0).map(|pair| pair[0]).collect();
    told(stops.iter().copied().filter(|stop| !heard.contains(stop)).collect(), output)
}

pub fn repeated(stops: &[u64], output: &mut [u64]) -> Result<u64, u64> {
    let mut places: HashMap<u64, Vec<usize>> = HashMap::new();
    stops.iter().enumerate().for_each(|(place, &stop)| places.entry(stop).or_default().push(place));
    let mut twice: Vec<(usize, u64)> = places.into_iter().filter(|(_, at)| at.len() > 1).map(|(stop, at)| (at[0], stop)).collect();
    twice.sort();
    told(twice.into_iter().map(|(_, stop)| stop).collect(), output)
}
