//! A tour as a player keeps it, the state's bytes with storage and output, and what the reference engine makes of it.
use crate::engine::*;
use crate::raw::*;

pub const STATE: usize = 6676;
/// Where the parts of a state start, in the order of its bytes: the place, taken and written, the set-up, how many entries of each
/// stack are used, the bugs, the contents saved, the definitions, those saved, the places saved, the block map, the width.
pub const PARTS: [usize; 11] = [0, 5, 21, 27, 51, 259, 1283, 1427, 1939, MAP, WIDTH];
const MAP: usize = 2579;
const WIDTH: usize = 6675;

#[derive(Clone, PartialEq)]
pub struct Tour {
    pub state: Vec<u8>,
    pub storage: Vec<u64>,
    pub output: Vec<u8>,
}

/// Every number of a state but the map, in the order of its bytes, with how many bytes it has.
fn numbers(raw: &mut Raw) -> Vec<(&mut u64, usize)> {
    let Raw { place, bugs, definitions, contents, saved, calls, counts, setup, streams, .. } = raw;
    let mut all = Vec::with_capacity(1400);
    all.extend(place.iter_mut().zip([1, 2, 2]));
    all.extend(streams.iter_mut().map(|n| (n, 8)));
    all.extend(setup.iter_mut().map(|n| (n, 2)));
    all.extend(counts.iter_mut().chain(bugs).chain(contents).map(|n| (n, 8)));
    all.extend(definitions.iter_mut().chain(saved).flatten().map(|n| (n, 1)));
    for place in calls {
        all.extend(place.iter_mut().zip([1, 2, 2]))
    }
    all
}
/// The numbers of a tour. A definition whose flag is not 0 is defined.
fn read(tour: Tour) -> Raw {
    let Tour { state, storage, output } = tour;
    let mut raw = Raw::fresh(36, vec![], vec![]);
    let mut rest = &state[..];
    for (number, length) in numbers(&mut raw) {
        *number = rest[..length].iter().rev().fold(0, |number, &byte| number << 8 | byte as u64);
        rest = &rest[length..];
    }
    for four in raw.definitions.iter_mut().chain(&mut raw.saved) {
        four[0] = (four[0] != 0) as u64
    }
    raw.map = rest[..WIDTH - MAP].try_into().unwrap();
    raw.width = state[WIDTH] as u64;
    Raw { storage, output, ..raw }
}
/// The bytes of these numbers.
pub fn written(mut raw: Raw) -> Tour {
    let mut state = Vec::with_capacity(STATE);
    for (number, length) in numbers(&mut raw) {
        state.extend(&number.to_le_bytes()[..length])
    }
    state.extend(raw.map);
    state.push(raw.width as u8);
    Tour { state, storage: raw.storage, output: raw.output }
}

/// Answers by the library's numbers.
fn number(answer: Answer) -> u64 {
    match answer {
        Answer::Running => 0,
        Answer::Finished => 100,
        Answer::Refused(k) => k,
    }
}
fn report_numbers(r: Report) -> [u64; 12] {
    let [f, s] = [r.first, r.second];
    [r.freed, r.delivered, r.size, r.copied, f.address, f.left, f.right, f.kept, s.address, s.left, s.right, s.kept]
}

impl Tour {
    pub fn fresh(bits: u64, storage: Vec<u64>, output: Vec<u8>) -> Tour {
        written(Raw::fresh(bits, storage, output))
    }
    /// Up to so many steps: the answer, the count of steps, and the last one's report. The bytes are written anew where a step was
    /// carried out.
    pub fn walk(&mut self, engine: &mut Engine, limit: u64) -> (u64, u64, [u64; 12]) {
        let (mut answer, mut count, mut report, mut carried) = (Answer::Running, 0, Report::default(), false);
        let mut raw = read(self.clone());
        while count < limit && answer == Answer::Running {
            let finished = raw.place[0] == 3;
            (answer, report) = raw.step(engine);
            count += 1;
            if matches!(answer, Answer::Refused(_)) || finished {
                break;
            }
            carried = true;
        }
        if carried {
            *self = written(raw)
        }
        (number(answer), count, report_numbers(report))
    }
    /// An extension to a new last address: its answer. The bytes are written anew where it is not refused.
    pub fn extend(&mut self, last: u64) -> u64 {
        let mut raw = read(self.clone());
        let extended = raw.extend(last);
        if extended.is_ok() {
            *self = written(raw)
        }
        extended.err().unwrap_or(0)
    }
    /// The set-up's d, first and last address.
    pub fn setup(&self) -> [u64; 3] {
        read(self.clone()).setup
    }
    /// Address and size of the live blocks, and of the free ones; 31 or 11 where the width is none, or the set-up numbers or the
    /// blocks are not sound.
    pub fn blocks(&self) -> Result<[Vec<u64>; 2], u64> {
        let raw = read(self.clone());
        if !is_width(raw.width) {
            return Err(31);
        }
        let [d, s1, s2] = raw.setup;
        let absent = raw.setup == [0; 3];
        let sound = (absent || set_up_fits(d, s1, s2, 4096)) && raw.blocks_sound(if absent { 0 } else { s2 - s1 + 1 });
        let those = |wanted| raw.blocks().into_iter().filter(|b| b.1 == wanted).flat_map(|(b, _)| [b.start, b.size]).collect();
        if sound {
            Ok([those(true), those(false)])
        } else {
            Err(11)
        }
    }
}

/// The table check: the lowest ill-formed row, 0 if none; 31 or 1 where the width or the length is refused.
pub fn lowest_ill_formed(bits: u64, table: &[u64]) -> Result<u64, u64> {
    if !is_width(bits) {
        return Err(31);
    }
    let rows = table.len() as u64 / 10;
    let formed = |&row: &u64| well_formed(table[10 * row as usize..][..10].try_into().unwrap(), row, rows, bits);
    let length = (20..=8000).contains(&table.len()) && table.len() % 10 == 0;
    if length {
        Ok((1..rows).find(|row| !formed(row)).unwrap_or(0))
    } else {
        Err(1)
    }
}
