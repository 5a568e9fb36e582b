//! A state as numbers, as a host may lend it, with storage and output. Refusal 11 is judged on it, clause by clause, from
//! document 01 alone, and before it 31 (document 02, ticket 9); a sound one is stepped by the engine.
use crate::engine::*;

/// The block map has a byte for each word: that of the first word of a block of 2^k words is 2k + 1 if the block is free
/// and 2k + 2 if it is live; every other byte is zero. The first counts[i] entries of stack i are used.
#[derive(Clone)]
pub struct Raw {
    pub place: [u64; 3], // kind (0 a line's tests, 1 an operation, 2 a line's exit, 3 finished), row, line
    pub bugs: [u64; 26],
    pub definitions: [[u64; 4]; 36], // each: defined (0 or 1), word, left, right
    pub contents: [u64; STACK],
    pub saved: [[u64; 4]; STACK], // definitions
    pub calls: [[u64; 3]; STACK], // places
    pub counts: [u64; 3],         // of contents, saved, calls
    pub setup: [u64; 3],          // d, s1, s2, all zero before a set-up
    pub streams: [u64; 2],        // taken, written
    pub map: [u8; 4096],
    pub width: u64,
    pub storage: Vec<u64>,
    pub output: Vec<u8>,
}

/// A number of a state that is changed: which numbers, which one of them (of definitions 4 times the index and the part, of
/// places 3 times), and its new value.
#[derive(Clone, Copy)]
pub struct Damage {
    pub what: What,
    pub index: usize,
    pub value: u64,
}
/// Where these numbers start among the bytes of a state, and after these the words of the storage.
#[derive(Clone, Copy)]
pub enum What {
    Place = 0,
    Stream = 5,
    SetUp = 21,
    Count = 27,
    Bug = 51,
    Contents = 259,
    Definition = 1283,
    Saved = 1427,
    Calls = 1939,
    Map = 2579,
    Width = 6675,
    Storage = 6676,
}

impl Damage {
    /// The bytes that it changes, each by its index and its new value, or the word.
    pub fn bytes(self) -> Vec<(usize, u64)> {
        let Damage { what, index: i, value } = self;
        let (offset, length) = match what {
            What::Place | What::Calls => (5 * (i / 3) + [0, 1, 3][i % 3], [1, 2, 2][i % 3]),
            What::SetUp => (2 * i, 2),
            What::Stream | What::Count | What::Bug | What::Contents => (8 * i, 8),
            What::Definition | What::Saved | What::Map | What::Width => (i, 1),
            What::Storage => return vec![(what as usize + i, value)],
        };
        (0..length).map(|k| (what as usize + offset + k, value >> (8 * k) & 255)).collect()
    }
}

/// "a width of 36 or 48"
pub fn is_width(bits: u64) -> bool {
    [36, 48].contains(&bits)
}
fn definition(field: Option<Field>) -> [u64; 4] {
    field.map_or([0; 4], |f| [1, f.word, f.left, f.right])
}
fn field([defined, word, left, right]: [u64; 4]) -> Option<Field> {
    (defined != 0).then_some(Field { word, left, right })
}
fn numbers(place: Place) -> [u64; 3] {
    match place {
        Place::Tests(line) => [0, 0, line],
        Place::Operation(row, line) => [1, row, line],
        Place::Exit(line) => [2, 0, line],
        Place::Finished => [3, 0, 0],
    }
}
fn place([kind, row, line]: [u64; 3]) -> Place {
    match kind {
        0 => Place::Tests(line),
        1 => Place::Operation(row, line),
        2 => Place::Exit(line),
        _ => Place::Finished,
    }
}

/// "definitions ... out of range": an undefined one's numbers mean nothing.
fn definition_sound([defined, word, left, right]: [u64; 4], bits: u64) -> bool {
    defined == 0 || word <= 127 && left < bits && right < bits
}
/// "a place names rows 1-799"; only an operation has a row besides its line's.
fn place_sound([kind, row, line]: [u64; 3]) -> bool {
    let named = |row| (1..=799).contains(&row);
    named(line)
        && match kind {
            0 | 2 => row == 0,
            1 => named(row),
            _ => false,
        }
}
/// "a stack over 128 or with a used entry out of range".
fn stack_sound<T: Copy>(count: u64, entries: &[T], sound: impl Fn(T) -> bool) -> bool {
    count <= STACK as u64 && entries[..count as usize].iter().all(|&entry| sound(entry))
}

/// What document 01 leaves open, and the reference engine's lists do not hold: entries of a stack that are no longer used stay as
/// they are, and an undefined definition has the numbers that it had; a save or restore (of field `name`) moves them along.
fn keep_unused(before: &Raw, after: &mut Raw, name: usize) {
    let used = after.counts.map(|count| count as usize);
    after.contents[used[0]..].copy_from_slice(&before.contents[used[0]..]);
    after.saved[used[1]..].copy_from_slice(&before.saved[used[1]..]);
    after.calls[used[2]..].copy_from_slice(&before.calls[used[2]..]);
    let undefined = |four: &[u64; 4]| four[0] == 0;
    let saves = after.counts[1] > before.counts[1];
    let restores = after.counts[1] < before.counts[1];
    for (i, four) in after.saved[..used[1]].iter_mut().enumerate().filter(|(_, four)| undefined(four)) {
        *four = if saves && i + 1 == used[1] { before.definitions[name] } else { before.saved[i] }
    }
    for (i, four) in after.definitions.iter_mut().enumerate().filter(|(_, four)| undefined(four)) {
        *four = if restores && i == name { before.saved[used[1]] } else { before.definitions[i] }
    }
}

impl Raw {
    /// A fresh engine over a lent storage and output. Its saved places that are not used are the tests of row 1.
    pub fn fresh(bits: u64, storage: Vec<u64>, output: Vec<u8>) -> Raw {
        let state = Engine::fresh(vec![], vec![], storage, output.len(), bits).state;
        Raw { calls: [[0, 0, 1]; STACK], ..Raw::of(&state, &output) }
    }
    /// The numbers of a state; `output` is the lent buffer, of which the written bytes are replaced.
    pub fn of(state: &State, output: &[u8]) -> Raw {
        let (d, s1, s2) = state.setup.unwrap_or((0, 0, 0));
        let mut map = [0; 4096];
        for (blocks, tag) in [(&state.free, 1), (&state.live, 2)] {
            for b in blocks {
                map[(b.start - s1) as usize] = tag + 2 * b.size.trailing_zeros() as u8
            }
        }
        let (mut contents, mut saved, mut calls) = ([0; STACK], [[0; 4]; STACK], [[0; 3]; STACK]);
        for (i, &word) in state.contents.iter().enumerate() {
            contents[i] = word
        }
        for (i, &field) in state.definitions.iter().enumerate() {
            saved[i] = definition(field)
        }
        for (i, &place) in state.returns.iter().enumerate() {
            calls[i] = numbers(place)
        }
        let counts = [state.contents.len(), state.definitions.len(), state.returns.len()].map(|n| n as u64);
        Raw {
            place: numbers(state.place),
            bugs: state.bugs,
            definitions: state.fields.map(definition),
            contents,
            saved,
            calls,
            counts,
            setup: [d, s1, s2],
            streams: [state.taken as u64, state.written.len() as u64],
            map,
            width: state.bits,
            storage: state.storage.clone(),
            output: [&state.written, &output[state.written.len()..]].concat(),
        }
    }
    /// The state of sound numbers.
    fn state(&self) -> State {
        let [d, s1, s2] = self.setup;
        let mut state = Engine::fresh(vec![], vec![], self.storage.clone(), 0, self.width).state;
        for (block, live) in self.blocks() {
            if live {
                state.live.push(block)
            } else {
                state.free.push(block)
            }
        }
        state.setup = (d != 0).then_some((d, s1, s2));
        state.bugs = self.bugs;
        state.fields = self.definitions.map(field);
        state.contents = self.contents[..self.counts[0] as usize].to_vec();
        state.definitions = self.saved[..self.counts[1] as usize].iter().map(|&four| field(four)).collect();
        state.returns = self.calls[..self.counts[2] as usize].iter().map(|&three| place(three)).collect();
        state.place = place(self.place);
        state.taken = self.streams[0] as usize;
        state.written = self.output[..self.streams[1] as usize].to_vec();
        state
    }

    /// The blocks that the map tells, in the order of addresses, with whether they are live.
    pub fn blocks(&self) -> Vec<(Block, bool)> {
        let tagged = (0..4096).filter(|&i| self.map[i] != 0);
        tagged
            .map(|i| {
                let (start, tag) = (self.setup[1] + i as u64, self.map[i]);
                (Block { start, size: 1 << ((tag - 1) / 2).min(63) }, tag % 2 == 0)
            })
            .collect()
    }
    /// "blocks breaking their section": sizes up to d, each on an address that its size divides, tiling the set-up words,
    /// and no two free halves of one block standing separately.
    pub fn blocks_sound(&self, words: u64) -> bool {
        let [d, s1, _] = self.setup;
        let (blocks, mut next) = (self.blocks(), s1);
        for (block, _) in &blocks {
            if block.start != next || block.size > d || block.start % block.size != 0 {
                return false;
            }
            next += block.size;
        }
        let halves = |(x, x_live): (Block, bool), (y, y_live): (Block, bool)| {
            !x_live && !y_live && x.size == y.size && 2 * x.size <= d && x.start % (2 * x.size) == 0
        };
        next == s1 + words && !blocks.windows(2).any(|pair| halves(pair[0], pair[1]))
    }
    /// Refusal 11, with the length of the lent input.
    pub fn sound(&self, input: usize) -> bool {
        self.engine_sound() && self.streams[0] <= input as u64 && self.streams[1] <= self.output.len() as u64
    }
    /// The same, counts of input and output aside.
    fn engine_sound(&self) -> bool {
        let [d, s1, s2] = self.setup;
        let absent = self.setup == [0; 3];
        if !absent && !set_up_fits(d, s1, s2, self.storage.len()) {
            return false;
        }
        let words = if absent { 0 } else { s2 - s1 + 1 };
        let is_word = |word: u64| word < 1 << self.width;
        let is_definition = |four: [u64; 4]| definition_sound(four, self.width);
        self.storage[..words as usize].iter().chain(&self.bugs).all(|&word| is_word(word))
            && self.definitions.iter().all(|&four| is_definition(four))
            && (place_sound(self.place) || self.place == [3, 0, 0])
            && stack_sound(self.counts[0], &self.contents, is_word)
            && stack_sound(self.counts[1], &self.saved, is_definition)
            && stack_sound(self.counts[2], &self.calls, place_sound)
            && self.blocks_sound(words)
    }

    /// One step of any state, sound or not; a refused one changes nothing.
    pub fn step(&mut self, engine: &mut Engine) -> (Answer, Report) {
        if !is_width(self.width) {
            return (Answer::Refused(31), Report::default());
        }
        if !self.sound(engine.lent.input.len()) {
            return (Answer::Refused(11), Report::default());
        }
        engine.state = self.state();
        let (answer, report) = engine.step();
        if !matches!(answer, Answer::Refused(_)) {
            let before = std::mem::replace(self, Raw::of(&engine.state, &self.output));
            let name = engine.lent.table.get(10 * before.place[1] as usize + 3).map_or(0, |&name| name as usize);
            keep_unused(&before, self, name);
        }
        (answer, report)
    }
    /// An extension of any state, sound or not; a refused one changes nothing.
    pub fn extend(&mut self, last: u64) -> Result<(), Refusal> {
        if !is_width(self.width) {
            return Err(31);
        }
        if !self.engine_sound() {
            return Err(11);
        }
        let before = self.clone();
        self.streams = [0; 2];
        let mut state = self.state();
        let extended = state.extend(last);
        if extended.is_ok() {
            *self = Raw::of(&state, &self.output);
            keep_unused(&before, self, 0);
        }
        self.streams = before.streams;
        extended
    }
    pub fn change(&mut self, Damage { what, index: i, value }: Damage) {
        match what {
            What::Place => self.place[i] = value,
            What::Bug => self.bugs[i] = value,
            What::Definition => self.definitions[i / 4][i % 4] = value,
            What::Contents => self.contents[i] = value,
            What::Saved => self.saved[i / 4][i % 4] = value,
            What::Calls => self.calls[i / 3][i % 3] = value,
            What::Count => self.counts[i] = value,
            What::SetUp => self.setup[i] = value,
            What::Stream => self.streams[i] = value,
            What::Map => self.map[i] = value as u8,
            What::Width => self.width = value,
            What::Storage => self.storage[i] = value,
        }
    }
}
