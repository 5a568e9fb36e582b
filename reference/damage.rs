//! Damages of a tour on its way: of the state's bytes, the storage, the table, the input, or a length.
use crate::bytes::*;
use crate::calls::Given;
use crate::engine::*;
use crate::generator::Rng;

/// Any number, or one at a bound of something.
fn number(rng: &mut Rng) -> u64 {
    match rng.below(4) {
        0 => rng.next() >> rng.below(64),
        1 => rng.below(40),
        2 => rng.pick(&[799, 800, DONE - 1, DONE, 32767, 32768, 4096, u64::MAX]),
        _ => rng.pick(&[(1 << 36) - 1, (1 << 48) - 1]) + rng.below(2),
    }
}
/// A byte of a part of the state: where it stands. In a stack it mostly belongs to a used entry, in the map to a set-up word.
fn place_in(rng: &mut Rng, state: &[u8]) -> usize {
    let part = rng.below(PARTS.len() as u64) as usize; // the width is a part of its own
    let end = PARTS.get(part + 1).copied().unwrap_or(STATE);
    let count = |i: usize| state[PARTS[3] + 8 * i] as usize;
    let near = match part {
        5 => 8 * count(0),
        7 => 4 * count(1),
        8 => 5 * count(2),
        9 => 40,
        _ => end - PARTS[part],
    };
    let room = if rng.chance(80) { near.clamp(1, end - PARTS[part]) } else { end - PARTS[part] };
    PARTS[part] + rng.below(room as u64) as usize
}
/// A byte of the state with one bit flipped, or replaced, or one more or less; or a definition, perhaps a saved one, made
/// undefined, its numbers left.
fn spoil_state(rng: &mut Rng, state: &mut [u8]) {
    if rng.chance(15) {
        let definitions = 36 + state[PARTS[3] + 8] as u64;
        state[PARTS[6] + 4 * rng.below(definitions) as usize] = 0;
        return;
    }
    let i = place_in(rng, state);
    state[i] = match rng.below(4) {
        0 | 1 => state[i] ^ 1 << rng.below(8),
        2 => rng.pick(&[0, 1, 2, 3, 4, 5, 10, 35, 36, 47, 48, 127, 128, 255]),
        _ => state[i].wrapping_add(rng.pick(&[1, 255])),
    }
}
fn spoil_table(rng: &mut Rng, table: &mut Vec<u64>) {
    let length = table.len();
    if length == 0 || rng.chance(10) {
        return table.resize(rng.pick(&[0, 10, 19, 20, length + 1, length + 10, 8000, 8010]), 0);
    }
    let i = rng.below(length as u64) as usize;
    table[i] = match rng.below(3) {
        0 => table[i] ^ 1 << rng.below(8),
        1 => table[rng.below(length as u64) as usize],
        _ => number(rng),
    }
}
fn spoil_input(rng: &mut Rng, input: &mut Vec<u8>) {
    let length = input.len();
    if length == 0 || rng.chance(40) {
        return input.resize(rng.below(length as u64 + 4) as usize, rng.below(70) as u8);
    }
    input[rng.below(length as u64) as usize] = rng.next() as u8;
}
/// One damage.
pub fn spoil(rng: &mut Rng, given: &mut Given, tour: &mut Tour) {
    let (words, room) = (tour.storage.len() as u64, tour.output.len() as u64);
    match rng.below(100) {
        0..=64 => spoil_state(rng, &mut tour.state),
        65..=74 if words > 0 => tour.storage[rng.below(words) as usize] = number(rng),
        75..=86 => spoil_table(rng, &mut given.table),
        87..=93 => spoil_input(rng, &mut given.input),
        94..=96 => tour.storage.resize(rng.below(words + 3) as usize, 7),
        _ => tour.output.resize(rng.below(room + 3) as usize, 7),
    }
}
