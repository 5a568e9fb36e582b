//! An independent reference engine for the L6 tour engine of document 01 (01-scope.md), of words of either width (document 02,
//! ticket 9), written only to be compared with. It favours plainness: a step works on a clone of the state, and the clone is kept
//! only if not refused. Refusal 11 is judged in raw.rs, on a state as numbers: the lists here cannot hold most states that break
//! it.
use std::convert::TryInto;

pub type Refusal = u64; // the numbers of "From the input" and "From the state"
pub type Row = [u64; 10]; // The table: kind, next, code, name, then three pairs
pub const DONE: u64 = 65535; // "go-to may be 65535, meaning DONE"
pub const BLANK: u64 = 0o60; // "blank 60"
pub const STACK: usize = 128; // "Three stacks, 128 entries each"

#[derive(Clone, Copy, PartialEq)]
pub enum Answer {
    Running,
    Finished,
    Refused(Refusal),
}
/// Steps: "A place is a line's tests, one operation (its row and its line's), or a line's exit".
#[derive(Clone, Copy, PartialEq)]
pub enum Place {
    Tests(u64),
    Operation(u64, u64),
    Exit(u64),
    Finished,
}
/// Fields: "a word (0-127), a left and a right bit (0-35)"; to 47 at 48 bits.
#[derive(Clone, Copy)]
pub struct Field {
    pub word: u64,
    pub left: u64,
    pub right: u64,
}
#[derive(Clone, Copy, PartialEq)]
pub struct Block {
    pub start: u64,
    pub size: u64,
}
/// An operand that has been located.
#[derive(Clone, Copy)]
pub enum Spot {
    Literal(u64),
    Bug(usize),
    Field(Block, Field),
}
/// Steps: a reported store (address, left, right, bits kept), and "A step also reports the freed address, ...".
#[derive(Clone, Copy, Default, PartialEq)]
pub struct Store {
    pub address: u64,
    pub left: u64,
    pub right: u64,
    pub kept: u64,
}
#[derive(Clone, Copy, Default, PartialEq)]
pub struct Report {
    pub freed: u64,
    pub delivered: u64,
    pub size: u64,
    pub copied: u64,
    pub first: Store,
    pub second: Store,
}
/// For `cover`, what succeeded: operations by code, tests by code and outcome, lines by mode and outcome.
#[derive(Clone)]
pub struct Tally {
    pub operations: [u64; 37],
    pub tests: [[u64; 2]; 8],
    pub modes: [[u64; 2]; 5],
}
/// What is lent and only read, and the length of the lent output.
pub struct Lent {
    pub table: Vec<u64>,
    pub input: Vec<u8>,
    pub output: usize,
}
#[derive(Clone)]
pub struct State {
    pub bits: u64, // of a word: 36 or 48
    pub storage: Vec<u64>,
    pub setup: Option<(u64, u64, u64)>,
    pub live: Vec<Block>,
    pub free: Vec<Block>,
    pub bugs: [u64; 26],
    pub fields: [Option<Field>; 36],
    pub contents: Vec<u64>,
    pub definitions: Vec<Option<Field>>,
    pub returns: Vec<Place>,
    pub place: Place,
    pub taken: usize,
    pub written: Vec<u8>,
    pub tally: Tally,
}
pub struct Engine {
    pub lent: Lent,
    pub state: State,
}

// ---------------------------------------------------------------- the table

/// The table: "names' numbers plus one as base-64 digits, first name first"; a bug, then up to five fields.
fn names_of(reference: u64) -> Option<Vec<usize>> {
    let (mut names, mut rest) = (vec![], reference);
    while rest > 0 {
        if !(1..=36).contains(&(rest % 64)) {
            return None;
        }
        names.insert(0, (rest % 64) as usize - 1);
        rest /= 64;
    }
    let bug_first = names.first().is_some_and(|&name| name >= 10);
    (bug_first && names.len() <= 6).then_some(names)
}
/// The inverse of `names_of`.
pub fn encode(names: &[usize]) -> u64 {
    names.iter().fold(0, |sum, &name| sum * 64 + name as u64 + 1)
}

/// Operations: each code's operands. a and c reference, x reference or literal (cd), l literal, o optional reference,
/// z reference or literal 0, r literal row, - absent.
pub fn forms(code: u64) -> &'static str {
    match code {
        1 => "lll",
        2 => "xxx",
        3 => "axo",
        4 => "az-",
        7 => "aa-",
        25 => "xx-",
        36 => "r--",
        5 | 16..=21 | 26..=31 => "ac-",
        32 | 33 => "a--",
        34 | 35 => "---",
        _ => "ax-", // 6, 8 to 15, 22 to 24
    }
}
/// The table: "0 absent, 1 literal below 2^36, 2 reference"; "Unused numbers are zero".
fn operands_formed(row: &Row, wanted: &str, rows: u64, bits: u64) -> bool {
    wanted.chars().zip(row[4..].chunks(2)).all(|(wanted, pair)| {
        let (form, value) = (pair[0], pair[1]);
        let (absent, literal) = (form == 0 && value == 0, form == 1 && value < 1 << bits);
        let reference = form == 2 && names_of(value).is_some();
        match wanted {
            'a' | 'c' => reference,
            'l' => literal,
            'x' => reference || literal,
            'o' => reference || absent,
            'z' => reference || literal && value == 0,
            'r' => literal && value >= 1 && value < rows,
            _ => absent,
        }
    })
}
/// The table: "Kind 1, a line ..."; go-to is a row or DONE; "without operations a go-to is needed".
fn line_formed(row: &Row, rows: u64) -> bool {
    let [_, _, mode, name, test, operation, goto, unused @ ..] = *row;
    mode <= 4
        && name == 0
        && unused == [0; 3]
        && test < rows
        && operation < rows
        && (goto < rows || goto == DONE)
        && (mode == 0) == (test == 0)
        && (operation != 0 || goto != 0)
}
/// The table: "A row is ill-formed when it breaks this section or its code's operands".
pub fn well_formed(row: &Row, number: u64, rows: u64, bits: u64) -> bool {
    let [kind, next, code, name, ..] = *row;
    let highest_name = if matches!(code, 2 | 34 | 35) { 35 } else { 0 };
    (next == 0 || next > number && next < rows)
        && match kind {
            1 => line_formed(row, rows),
            2 => (1..=7).contains(&code) && name == 0 && operands_formed(row, "cx-", rows, bits),
            3 => (1..=36).contains(&code) && name <= highest_name && operands_formed(row, forms(code), rows, bits),
            _ => false,
        }
}
impl Lent {
    /// 2: "the place's row, or a test row reached, is missing, ill-formed or of another kind".
    fn row(&self, number: u64, kind: u64, bits: u64) -> Result<Row, Refusal> {
        let rows = self.table.len() as u64 / 10;
        if number == 0 || number >= rows {
            return Err(2);
        }
        let row: Row = self.table[10 * number as usize..][..10].try_into().unwrap();
        if row[0] == kind && well_formed(&row, number, rows, bits) {
            Ok(row)
        } else {
            Err(2)
        }
    }
}

// ---------------------------------------------------------------- fields and references

pub fn mask(width: u64) -> u64 {
    (1 << width) - 1
}
/// Fields: "Width is right - left + 1, or 0" (left > right makes a null field).
fn width(spot: Spot, bits: u64) -> u64 {
    if let Spot::Field(_, f) = spot {
        (f.right + 1).saturating_sub(f.left)
    } else {
        bits
    }
}
/// Operations: "a field holds width/6 rounded up (a literal six)"; at 48 bits eight.
fn held(spot: Spot, bits: u64) -> usize {
    (width(spot, bits) as usize).div_ceil(6)
}

impl State {
    pub fn live_at(&self, start: u64) -> Option<Block> {
        self.live.iter().copied().find(|b| b.start == start)
    }
    /// Set-up: "Address s1 is the first lent word".
    fn index(&self, address: u64) -> usize {
        (address - self.setup.unwrap().1) as usize
    }
    /// Fields: "Per link, in order: field defined (14), pointer is the start of a live block (15), word inside (16)".
    pub fn locate(&self, reference: u64) -> Result<Spot, Refusal> {
        let names = names_of(reference).ok_or(2u64)?;
        let mut spot = Spot::Bug(names[0] - 10);
        for &name in &names[1..] {
            let field = self.fields[name].ok_or(14u64)?;
            let block = self.live_at(self.read(spot)).ok_or(15u64)?;
            if field.word >= block.size {
                return Err(16);
            }
            spot = Spot::Field(block, field);
        }
        Ok(spot)
    }
    /// A row's operand i, located; an absent one is never used.
    fn operand(&self, row: &Row, i: usize) -> Result<Spot, Refusal> {
        let (form, value) = (row[4 + 2 * i], row[5 + 2 * i]);
        if form == 2 {
            self.locate(value)
        } else {
            Ok(Spot::Literal(value))
        }
    }
    /// Fields: contents of a bug (a whole word), a field (a null one reads 0), or a literal.
    pub fn read(&self, spot: Spot) -> u64 {
        match spot {
            Spot::Literal(value) => value,
            Spot::Bug(bug) => self.bugs[bug],
            Spot::Field(b, f) => {
                self.storage[self.index(b.start + f.word)] >> (self.bits - 1 - f.right) & mask(width(spot, self.bits))
            }
        }
    }
    /// Fields: "A store keeps the value's rightmost bits that fit and changes no other bit".
    /// Steps: a store is reported as zero "also where it goes to a bug or a null field".
    fn store(&mut self, spot: Spot, value: u64) -> Store {
        match spot {
            Spot::Bug(bug) => self.bugs[bug] = value & mask(self.bits),
            Spot::Field(block, f) if width(spot, self.bits) > 0 => {
                let fits = mask(width(spot, self.bits));
                let (address, shift) = (block.start + f.word, self.bits - 1 - f.right);
                let i = self.index(address);
                self.storage[i] = self.storage[i] & !(fits << shift) | (value & fits) << shift;
                return Store { address, left: f.left, right: f.right, kept: value & fits };
            }
            _ => {}
        }
        Store::default()
    }

    // ------------------------------------------------------------ set-up and blocks

    /// Refusal 3; "A fresh set-up is all free"; "Set-up zeroes n words".
    fn set_up(&mut self, d: u64, s1: u64, s2: u64) -> Result<Report, Refusal> {
        if !set_up_fits(d, s1, s2, self.storage.len()) {
            return Err(3);
        }
        let n = s2 - s1 + 1;
        self.storage[..n as usize].fill(0);
        self.free = (s1..=s2).step_by(d as usize).map(|start| Block { start, size: d }).collect();
        self.setup = Some((d, s1, s2));
        Ok(Report::default())
    }
    /// Document 02, ticket 11: the words up to a new last address are zeroed and become free blocks of size d. Refusals 12 and 32.
    pub fn extend(&mut self, last: u64) -> Result<(), Refusal> {
        let (d, s1, s2) = self.setup.ok_or(12u64)?;
        if last <= s2 || (last - s2) % d != 0 || last > 32767 {
            return Err(32);
        }
        if last - s1 + 1 > 4096.min(self.storage.len() as u64) {
            return Err(32);
        }
        for address in s2 + 1..=last {
            let i = self.index(address);
            self.storage[i] = 0;
        }
        self.free.extend((s2 + 1..=last).step_by(d as usize).map(|start| Block { start, size: d }));
        self.setup = Some((d, s1, last));
        Ok(())
    }
    /// Blocks: "A larger free block is halved until the wanted size is reached"; refusal 17. The lowest aligned run
    /// outside the live blocks is the front of the lowest free block that is large enough. "Delivered words are zero".
    fn deliver(&mut self, size: u64) -> Result<u64, Refusal> {
        let fitting = (0..self.free.len()).filter(|&i| self.free[i].size >= size);
        let lowest = fitting.min_by_key(|&i| self.free[i].start).ok_or(17u64)?;
        let Block { start, size: mut whole } = self.free.remove(lowest);
        while whole > size {
            whole /= 2;
            self.free.push(Block { start: start + whole, size: whole });
        }
        self.live.push(Block { start, size });
        let i = self.index(start);
        self.storage[i..i + size as usize].fill(0);
        Ok(start)
    }

    // ------------------------------------------------------------ places

    /// Steps: "Tests are taken in order, and evaluating stops at the first that settles the line".
    fn satisfied(&mut self, lent: &Lent, line: &Row) -> Result<bool, Refusal> {
        let (mode, mut number) = (line[2], line[4]);
        while number != 0 {
            let test = lent.row(number, 2, self.bits)?;
            let c = self.operand(&test, 0)?;
            let cd = self.operand(&test, 1)?;
            let truth = holds(test[2], self.read(c), self.read(cd));
            self.tally.tests[test[2] as usize][truth as usize] += 1;
            match (mode, truth) {
                (1, false) | (3, true) => return Ok(false), // IFALL, IFNONE
                (2, true) | (4, false) => return Ok(true),  // IFANY, IFNALL
                _ => number = test[1],
            }
        }
        Ok(matches!(mode, 0 | 1 | 3))
    }
    /// Steps: one step at the present place. Order: 1 ("table length under 20, above 8,000 or no multiple of ten"), 2,
    /// then what the place brings.
    fn advance(&mut self, lent: &Lent) -> Result<Report, Refusal> {
        let length = lent.table.len();
        if length < 20 || length > 8000 || length % 10 != 0 {
            return Err(1);
        }
        match self.place {
            Place::Tests(number) => {
                let line = lent.row(number, 1, self.bits)?;
                let satisfied = self.satisfied(lent, &line)?;
                self.tally.modes[line[2] as usize][satisfied as usize] += 1;
                self.place = if satisfied { place_in(number, line[5]) } else { line_at(line[1]) };
            }
            Place::Operation(number, line) => {
                let row = lent.row(number, 3, self.bits)?;
                self.place = place_in(line, row[1]); // DO changes this
                self.tally.operations[row[2] as usize] += 1;
                return self.operate(lent, &row);
            }
            Place::Exit(number) => {
                let line = lent.row(number, 1, self.bits)?;
                self.place = match line[6] {
                    DONE => self.returns.pop().ok_or(20u64)?,
                    0 => line_at(line[1]),
                    goto => Place::Tests(goto),
                };
            }
            Place::Finished => {} // "A finished engine answers finished and changes nothing"; `step` sees to it
        }
        Ok(Report::default())
    }

    // ------------------------------------------------------------ operations

    /// Order: 12 or 13, then "operands as written" (a2 of get comes later), then the operation's own.
    fn operate(&mut self, lent: &Lent, row: &Row) -> Result<Report, Refusal> {
        let code = row[2];
        if self.setup.is_none() && code != 1 {
            return Err(12);
        }
        if self.setup.is_some() && code == 1 {
            return Err(13);
        }
        let x = self.operand(row, 0)?;
        let y = self.operand(row, 1)?;
        let z = if code == 3 { Spot::Literal(0) } else { self.operand(row, 2)? };
        match code {
            1 => self.set_up(row[5], row[7], row[9]),
            2 => self.define(row[3] as usize, self.read(x), self.read(y), self.read(z)),
            3 => self.get(x, self.read(y), (row[8] == 2).then_some(row[9])),
            4 => self.free_block(x, self.read(y)),
            5 => self.duplicate(x, self.read(y)),
            7 => self.interchange(x, y),
            24 => self.input(lent, x, self.read(y)),
            25 => self.print(lent, self.read(x), y),
            32..=36 => self.stacks(code, x, row),
            _ => self.put(x, compute(code, self.read(x), width(x, self.bits), self.read(y), y, self.bits)?),
        }
    }
    /// A step whose only effect is one store.
    fn put(&mut self, a: Spot, value: u64) -> Result<Report, Refusal> {
        Ok(Report { first: self.store(a, value), ..Report::default() })
    }
    /// 2 define name (word, left, right); refusal 7.
    fn define(&mut self, name: usize, word: u64, left: u64, right: u64) -> Result<Report, Refusal> {
        if word > 127 || left >= self.bits || right >= self.bits {
            return Err(7);
        }
        self.fields[name] = Some(Field { word, left, right });
        Ok(Report::default())
    }
    /// 3 get: "old a is read, the block's address stored in a, then a2 located and given old a". Own: 8, 17, a2.
    fn get(&mut self, a: Spot, wanted: u64, a2: Option<u64>) -> Result<Report, Refusal> {
        let size = wanted.next_power_of_two(); // "raised to the next"
        if wanted == 0 || size > self.setup.unwrap().0 {
            return Err(8);
        }
        let old = self.read(a);
        let delivered = self.deliver(size)?;
        let first = self.store(a, delivered);
        let mut second = Store::default();
        if let Some(reference) = a2 {
            let spot = self.locate(reference)?;
            second = self.store(spot, old);
        }
        Ok(Report { delivered, size, first, second, ..Report::default() })
    }
    /// 4 free: "free a's block, then a gets c's old contents"; "freeing changes no word". Own: 15, 18.
    fn free_block(&mut self, a: Spot, value: u64) -> Result<Report, Refusal> {
        let block = self.live_at(self.read(a)).ok_or(15u64)?;
        if matches!(a, Spot::Field(around, _) if around == block) {
            return Err(18);
        }
        self.live.retain(|b| b.start != block.start);
        self.free.push(block);
        rejoin(&mut self.free, self.setup.unwrap().0);
        Ok(Report { freed: block.start, first: self.store(a, value), ..Report::default() })
    }
    /// 5 duplicate: "a points to a new block like c's before the step". Own: 15, 17.
    fn duplicate(&mut self, a: Spot, pointer: u64) -> Result<Report, Refusal> {
        let Block { start: copied, size } = self.live_at(pointer).ok_or(15u64)?;
        let delivered = self.deliver(size)?;
        let (from, to) = (self.index(copied), self.index(delivered));
        self.storage.copy_within(from..from + size as usize, to);
        Ok(Report { delivered, size, copied, first: self.store(a, delivered), ..Report::default() })
    }
    /// 7 interchange: both read before, "a1 stored first".
    fn interchange(&mut self, a1: Spot, a2: Spot) -> Result<Report, Refusal> {
        let (old1, old2) = (self.read(a1), self.read(a2));
        let first = self.store(a1, old2);
        Ok(Report { first, second: self.store(a2, old1), ..Report::default() })
    }
    /// 24 input: "cd six-bit characters (0-6), leading zeros", at 48 bits 0-8, "first taken leftmost". Own: 10, 5, 4.
    fn input(&mut self, lent: &Lent, a: Spot, count: u64) -> Result<Report, Refusal> {
        if count > self.bits / 6 {
            return Err(10);
        }
        if lent.input.is_empty() {
            return self.put(a, (0..count).fold(0, |sum, _| sum * 64 + 0o77));
        } // ticket 4
        let rest = &lent.input[self.taken..];
        if rest.len() < count as usize {
            return Err(5);
        }
        let bytes = &rest[..count as usize];
        if bytes.iter().any(|&byte| byte > 63) {
            return Err(4);
        }
        self.taken += bytes.len();
        self.put(a, bytes.iter().fold(0, |sum, &byte| sum * 64 + byte as u64))
    }
    /// 25 print: "count 0-120, from the right end; ... and blanks (octal 60) lead". Own: 10, 21.
    fn print(&mut self, lent: &Lent, count: u64, what: Spot) -> Result<Report, Refusal> {
        if count > 120 {
            return Err(10);
        }
        let count = count as usize;
        if self.written.len() + count > lent.output {
            return Err(21);
        }
        let line = [vec![BLANK; count], characters(self.read(what), held(what, self.bits))].concat();
        self.written.extend(line[line.len() - count..].iter().map(|&code| code as u8));
        Ok(Report::default())
    }
    /// 32 save, 33 restore contents; 34 save, 35 restore definition, "undefined included"; 36 DO: "saves the place
    /// after it". Own: 19, 20.
    fn stacks(&mut self, code: u64, a: Spot, row: &Row) -> Result<Report, Refusal> {
        let (name, value) = (row[3] as usize, self.read(a));
        match code {
            32 => push(&mut self.contents, value)?,
            33 => {
                let saved = self.contents.pop().ok_or(20u64)?;
                return self.put(a, saved);
            }
            34 => push(&mut self.definitions, self.fields[name])?,
            35 => self.fields[name] = self.definitions.pop().ok_or(20u64)?,
            _ => {
                push(&mut self.returns, self.place)?;
                self.place = Place::Tests(row[5]);
            }
        }
        Ok(Report::default())
    }
}

/// Blocks: "Two free halves of one block no larger than d are rejoined", as long as there are any.
fn rejoin(free: &mut Vec<Block>, d: u64) {
    let halves =
        |x: &Block, y: &Block| x.size == y.size && x.size < d && x.start % (2 * x.size) == 0 && y.start == x.start + x.size;
    while let Some(low) = free.iter().copied().find(|x| free.iter().any(|y| halves(x, y))) {
        free.retain(|x| x.start != low.start && x.start != low.start + low.size);
        free.push(Block { start: low.start, size: 2 * low.size });
    }
}
/// Words and set-up: d, s1 and s2 against each other and the length of the lent storage.
pub fn set_up_fits(d: u64, s1: u64, s2: u64, lent: usize) -> bool {
    let placed = [1, 2, 4, 8, 16, 32, 64, 128].contains(&d) && s1 > 0 && s1 % d == 0 && s2 >= s1 && s2 <= 32767;
    placed && (s2 - s1 + 1) % d == 0 && s2 - s1 + 1 <= (lent as u64).min(4096)
}
/// Three stacks: refusal 19.
fn push<T>(stack: &mut Vec<T>, entry: T) -> Result<(), Refusal> {
    if stack.len() == STACK {
        return Err(19);
    }
    stack.push(entry);
    Ok(())
}
/// Steps: "first operation, or exit if none", "its next, or the exit".
fn place_in(line: u64, operation: u64) -> Place {
    if operation == 0 {
        Place::Exit(line)
    } else {
        Place::Operation(operation, line)
    }
}
/// Steps: "the next line, or finished if next is 0".
fn line_at(number: u64) -> Place {
    if number == 0 {
        Place::Finished
    } else {
        Place::Tests(number)
    }
}

/// Test codes 1 to 7.
fn holds(code: u64, c: u64, cd: u64) -> bool {
    match code {
        1 | 5 => c == cd,
        2 => c != cd,
        3 => c > cd,
        4 => c < cd,
        6 => c & cd == cd,
        _ => c & cd == 0,
    }
}
/// "the nearest whole number, and at an exact half the even neighbour"; none where the divisor is 0.
fn nearest(x: u64, y: u64) -> Option<u64> {
    let (down, up) = (x.checked_div(y)?, x / y + 1);
    let (below, above) = (x - down * y, up as u128 * y as u128 - x as u128); // y times the distances from the exact quotient
    Some(match (below as u128).cmp(&above) {
        std::cmp::Ordering::Less => down,
        std::cmp::Ordering::Greater => up,
        std::cmp::Ordering::Equal => {
            if down % 2 == 0 {
                down
            } else {
                up
            }
        }
    })
}

/// Operations with one result for a: x is a's contents (width wx), y those of the other operand, c.
fn compute(code: u64, x: u64, wx: u64, y: u64, c: Spot, b: u64) -> Result<u64, Refusal> {
    let wide = |n: u128| (n % (1 << b)) as u64; // "whole numbers modulo 2^36"
    Ok(match code {
        6 => y,
        8 => wide(x as u128 + y as u128),
        9 => x.checked_sub(y).ok_or(22u64)?, // ticket 1
        10 => wide(x as u128 * y as u128),
        11 => nearest(x, y).ok_or(9u64)?, // ticket 10
        12 => x | y,
        13 => x & y,
        14 => x ^ y,
        15 => y ^ mask(b),
        16..=21 => bits(code, y, width(c, b)),
        22 => {
            if y >= wx {
                0
            } else {
                (x << y) & mask(wx)
            }
        }
        23 => {
            if y >= wx {
                0
            } else {
                x >> y
            }
        }
        _ => convert(code, y, c, b)?,
    })
}
/// 16 to 21: counts, and places "in c's field from the left, or the width"; bit 0 is leftmost.
fn bits(code: u64, value: u64, width: u64) -> u64 {
    let wanted = if matches!(code, 16 | 18 | 19) { 1 } else { 0 };
    let mut places = (0..width).filter(|place| value >> (width - 1 - place) & 1 == wanted);
    match code {
        16 | 17 => places.count() as u64,
        18 | 20 => places.next().unwrap_or(width),
        _ => places.last().unwrap_or(width),
    }
}
/// The rightmost `count` six-bit characters of a word, leftmost first.
fn characters(word: u64, count: usize) -> Vec<u64> {
    (0..count).rev().map(|i| word >> (6 * i) & 63).collect()
}
fn join(characters: &[u64], base: u64) -> u64 {
    characters.iter().fold(0, |sum, &c| sum * base + c)
}
/// 27, 28: refusal 6, "a character is no digit of the base".
fn number(characters: &[u64], base: u64) -> Result<u64, Refusal> {
    if characters.iter().any(|&c| c >= base) {
        Err(6)
    } else {
        Ok(join(characters, base))
    }
}
/// 29 "keeps the last six digits", 30 "keeps 18 bits": the six characters of a number; eight at 48 bits.
fn spell(value: u64, base: u64, count: usize) -> u64 {
    join(&(0..count as u32).rev().map(|place| value / base.pow(place) % base).collect::<Vec<_>>(), 64)
}
/// 26, 31: leading characters `from` become `to`.
fn relead(all: &mut [u64], from: u64, to: u64) -> u64 {
    all.iter_mut().take_while(|c| **c == from).for_each(|c| *c = to);
    join(all, 64)
}
/// 26 to 31: "on six characters; narrow fields get leading zeros, for 26 leading blanks"; on eight at 48 bits.
fn convert(code: u64, value: u64, c: Spot, bits: u64) -> Result<u64, Refusal> {
    let count = bits as usize / 6;
    let mut all = characters(value, count);
    if code == 26 {
        all[..count - held(c, bits)].fill(BLANK)
    }
    Ok(match code {
        26 => relead(&mut all, BLANK, 0),
        27 => number(&all, 10)?,
        28 => number(&all, 8)?,
        29 => spell(value, 10, count),
        30 => spell(value, 8, count),
        _ => relead(&mut all, 0, BLANK),
    })
}

impl Engine {
    /// Steps: "a fresh engine is at the tests of row 1, with no set-up, definition or stack entry ...".
    pub fn fresh(table: Vec<u64>, input: Vec<u8>, storage: Vec<u64>, output: usize, bits: u64) -> Engine {
        let tally = Tally { operations: [0; 37], tests: [[0; 2]; 8], modes: [[0; 2]; 5] };
        let state = State {
            bits,
            storage,
            setup: None,
            live: vec![],
            free: vec![],
            bugs: [0; 26],
            fields: [None; 36],
            contents: vec![],
            definitions: vec![],
            returns: vec![],
            place: Place::Tests(1),
            taken: 0,
            written: vec![],
            tally,
        };
        Engine { lent: Lent { table, input, output }, state }
    }
    /// Steps: "A finished engine answers finished"; Order: "A refused step changes nothing and reports zeros".
    pub fn step(&mut self) -> (Answer, Report) {
        if self.state.place == Place::Finished {
            return (Answer::Finished, Report::default());
        }
        let mut changed = self.state.clone();
        match changed.advance(&self.lent) {
            Err(refusal) => (Answer::Refused(refusal), Report::default()),
            Ok(report) => {
                self.state = changed;
                (if self.state.place == Place::Finished { Answer::Finished } else { Answer::Running }, report)
            }
        }
    }
    /// Steps: a run "is that many steps, or fewer up to a finish or refusal (counted)"; with the last step's report.
    pub fn run(&mut self, limit: u64) -> (Answer, u64, Report) {
        let (mut answer, mut count, mut report) = (Answer::Running, 0, Report::default());
        while count < limit && answer == Answer::Running {
            (answer, report) = self.step();
            count += 1;
        }
        (answer, count, report)
    }
}
