//! An engine for L6 tours (document 01) written for speed in plain safe Rust: one state that is changed in place, with the
//! same calls, checks, order of refusals and addresses as the proved engine. `make bench` times the two beside each other.
//! What a call does is compiled for each width of words B, 36 and 48; the state's width chooses once a call.

pub type Row = [u64; 10]; // kind, next, code, name, then three pairs
type Checked<T> = Result<T, Refusal>;

const BLANK: u64 = 0o60;
const BLANKS: u64 = 0o6060606060606060;
const DONE: u64 = 65535;

/// Document 01's refusals, and 31 of ticket 9, by their numbers.
#[derive(Clone, Copy, PartialEq)]
pub enum Refusal {
    TableLength = 1,
    BadRow,
    SetUpNumbers,
    InputByte,
    InputShort,
    NotADigit,
    DefinitionNumber,
    BlockSize,
    ZeroDivisor,
    CharacterCount,
    Unsound,
    BeforeSetUp,
    SecondSetUp,
    UndefinedField,
    NotABlock,
    OutsideBlock,
    NoRun,
    FieldFreed,
    StackFull,
    StackEmpty,
    OutputFull,
    SubtrahendGreater,
    NoWidth = 31,
}
use Refusal::*;

#[derive(Clone, Copy, PartialEq)]
pub enum Answer {
    Running,
    Finished,
    Refused(Refusal),
}

#[derive(Clone, Copy, PartialEq)]
pub enum Place {
    Tests(u16),
    Operation { row: u16, line: u16 },
    Exit(u16),
    Finished,
}

#[derive(Clone, Copy)]
pub struct Field {
    pub word: u8,
    pub left: u8,
    pub right: u8,
}

#[derive(Clone, Copy)]
pub struct SetUp {
    pub d: u16,
    pub s1: u16,
    pub s2: u16,
}

/// The first `count` entries are used.
#[derive(Clone)]
pub struct Stack<T> {
    pub entries: [T; 128],
    pub count: usize,
}

/// A host may hand in any state. The block map has a byte for each word: at the first word of a block of 2^k words 2k + 1 if
/// the block is free and 2k + 2 if it is live, otherwise zero.
#[derive(Clone)]
pub struct State {
    pub width: u8,
    pub place: Place,
    pub bugs: [u64; 26],
    pub fields: [Option<Field>; 36],
    pub contents: Stack<u64>,
    pub saved: Stack<Option<Field>>,
    pub calls: Stack<Place>,
    pub setup: Option<SetUp>,
    pub taken: usize,
    pub written: usize,
    pub map: [u8; 4096],
}

#[derive(Clone, Copy, Default)]
pub struct Store {
    pub address: u64,
    pub left: u8,
    pub right: u8,
    pub bits: u64,
}

#[derive(Clone, Copy, Default)]
pub struct Report {
    pub freed: u64,
    pub delivered: u64,
    pub size: u64,
    pub copied: u64,
    pub first: Store,
    pub second: Store,
}

/// What a host lends to a call.
pub struct Lent<'a> {
    pub table: &'a [u64],
    pub storage: &'a mut [u64],
    pub input: &'a [u8],
    pub output: &'a mut [u8],
}

// ---------------------------------------------------------------- words and fields

fn ones(width: u32) -> u64 {
    (1 << width) - 1
}

impl Field {
    /// The width, 0 for a null field.
    fn width(self) -> u32 {
        (u32::from(self.right) + 1).saturating_sub(u32::from(self.left))
    }
    fn shift<const B: u32>(self) -> u32 {
        B - 1 - u32::from(self.right)
    }
    fn of<const B: u32>(self, word: u64) -> u64 {
        word >> self.shift::<B>() & ones(self.width())
    }
}

impl SetUp {
    /// Document 01's conditions on set-up numbers.
    fn new(d: u64, s1: u64, s2: u64, lent: usize) -> Option<SetUp> {
        let placed = d.is_power_of_two() && d <= 128 && s1 > 0 && s1 % d == 0 && s2 >= s1 && s2 <= 32767;
        if !placed {
            return None;
        }
        let words = s2 - s1 + 1;
        let fits = words % d == 0 && words <= 4096 && words <= lent as u64;
        fits.then_some(SetUp { d: d as u16, s1: s1 as u16, s2: s2 as u16 })
    }
    fn words(self) -> usize {
        usize::from(self.s2 - self.s1) + 1
    }
}

impl<T: Copy> Stack<T> {
    fn new(entry: T) -> Stack<T> {
        Stack { entries: [entry; 128], count: 0 }
    }
    fn push(&mut self, entry: T) -> Checked<()> {
        *self.entries.get_mut(self.count).ok_or(StackFull)? = entry;
        self.count += 1;
        Ok(())
    }
    fn pop(&mut self) -> Checked<T> {
        self.count = self.count.checked_sub(1).ok_or(StackEmpty)?;
        Ok(self.entries[self.count])
    }
    fn used(&self) -> Option<&[T]> {
        self.entries.get(..self.count)
    }
}

// ---------------------------------------------------------------- the table

/// Names' numbers plus one as base-64 digits: a bug and up to five fields.
fn is_reference(value: u64) -> bool {
    let mut rest = value;
    while rest >= 64 {
        if !(1..=36).contains(&(rest & 63)) {
            return false;
        }
        rest >>= 6;
    }
    (11..=36).contains(&rest) && value < 1 << 36
}

/// What an operand may be.
#[derive(Clone, Copy)]
enum Operand {
    Absent,
    Literal,
    Reference,
    Either,
    MaybeReference,
    ReferenceOrZero,
    Row,
}
use Operand::*;

fn operands(code: u64) -> [Operand; 3] {
    match code {
        1 => [Literal, Literal, Literal],
        2 => [Either, Either, Either],
        3 => [Reference, Either, MaybeReference],
        4 => [Reference, ReferenceOrZero, Absent],
        5 | 7 | 16..=21 | 26..=31 => [Reference, Reference, Absent],
        25 => [Either, Either, Absent],
        32 | 33 => [Reference, Absent, Absent],
        34 | 35 => [Absent, Absent, Absent],
        36 => [Row, Absent, Absent],
        _ => [Reference, Either, Absent],
    }
}

fn is_operand<const B: u32>(form: u64, value: u64, wanted: Operand, rows: u64) -> bool {
    match (wanted, form) {
        (Absent | MaybeReference, 0) => value == 0,
        (Literal | Either, 1) => value <= ones(B),
        (ReferenceOrZero, 1) => value == 0,
        (Row, 1) => (1..rows).contains(&value),
        (Reference | Either | MaybeReference | ReferenceOrZero, 2) => is_reference(value),
        _ => false,
    }
}

fn are_operands<const B: u32>(row: &Row, wanted: [Operand; 3], rows: u64) -> bool {
    is_operand::<B>(row[4], row[5], wanted[0], rows)
        && is_operand::<B>(row[6], row[7], wanted[1], rows)
        && is_operand::<B>(row[8], row[9], wanted[2], rows)
}

fn is_line(row: &Row, rows: u64) -> bool {
    let [_, _, mode, name, test, operation, goto, unused @ ..] = *row;
    mode <= 4
        && name == 0
        && unused == [0; 3]
        && test < rows
        && operation < rows
        && (goto < rows || goto == DONE)
        && (mode == 0) == (test == 0)
        && (operation != 0 || goto != 0)
}

fn is_well_formed<const B: u32>(row: &Row, number: u64, rows: u64) -> bool {
    let [kind, next, code, name, ..] = *row;
    if next != 0 && !(number + 1..rows).contains(&next) {
        return false;
    }
    match kind {
        1 => is_line(row, rows),
        2 => (1..=7).contains(&code) && name == 0 && are_operands::<B>(row, [Reference, Either, Absent], rows),
        3 => {
            let highest = if matches!(code, 2 | 34 | 35) { 35 } else { 0 };
            (1..=36).contains(&code) && name <= highest && are_operands::<B>(row, operands(code), rows)
        }
        _ => false,
    }
}

fn is_table<const B: u32>(rows: &[Row]) -> bool {
    rows.iter().enumerate().skip(1).all(|(number, row)| is_well_formed::<B>(row, number as u64, rows.len() as u64))
}

// ---------------------------------------------------------------- soundness

fn are_words<const B: u32>(words: &[u64]) -> bool {
    let joined = |part: &[u64]| part.iter().fold(0, |all, word| all | word);
    let parts = words.chunks_exact(64);
    let rest = joined(parts.remainder());
    parts.fold(rest, |all, part| all | joined(part)) <= ones(B)
}
fn are_zero(bytes: &[u8]) -> bool {
    bytes.iter().fold(0, |all, byte| all | byte) == 0
}
/// How many bytes are not zero, counted in parts of 128, which fit a byte.
#[inline(always)]
fn marks(bytes: &[u8]) -> usize {
    let count = |part: &[u8]| usize::from(part.iter().map(|&byte| u8::from(byte != 0)).sum::<u8>());
    let (parts, rest) = bytes.as_chunks::<128>();
    parts.iter().map(|part| count(part)).sum::<usize>() + count(rest)
}
fn is_field<const B: u32>(field: &Option<Field>) -> bool {
    field.is_none_or(|f| f.word <= 127 && u32::from(f.left) < B && u32::from(f.right) < B)
}
fn is_place(place: &Place) -> bool {
    let named = |row: u16| (1..=799).contains(&row);
    match *place {
        Place::Tests(line) | Place::Exit(line) => named(line),
        Place::Operation { row, line } => named(row) && named(line),
        Place::Finished => false,
    }
}

impl State {
    /// Refusal 11.
    fn is_sound<const B: u32>(&self, lent: &Lent) -> bool {
        are_words::<B>(&self.bugs)
            && self.fields.iter().all(is_field::<B>)
            && (self.place == Place::Finished || is_place(&self.place))
            && self.contents.used().is_some_and(are_words::<B>)
            && self.saved.used().is_some_and(|saved| saved.iter().all(is_field::<B>))
            && self.calls.used().is_some_and(|calls| calls.iter().all(is_place))
            && self.is_storage_sound::<B>(lent.storage)
            && self.taken <= lent.input.len()
            && self.written <= lent.output.len()
    }
    fn is_storage_sound<const B: u32>(&self, storage: &[u64]) -> bool {
        let Some(SetUp { d, s1, s2 }) = self.setup else { return are_zero(&self.map) };
        let Some(setup) = SetUp::new(d.into(), s1.into(), s2.into(), storage.len()) else { return false };
        self.blocks(setup) == Some(marks(&self.map)) && are_words::<B>(&storage[..setup.words()])
    }
    /// How many blocks of up to d words tile the words, each on a place that its size divides, no two free halves standing
    /// separately. It is the number of bytes of the whole map that are not zero exactly where every other byte is zero.
    #[inline(always)]
    fn blocks(&self, setup: SetUp) -> Option<usize> {
        let (d, largest) = (setup.d as u8, free_tag(u32::from(setup.d).ilog2()));
        let map = &self.map[..setup.words()];
        if d > 16 {
            return trees(map, d, largest);
        }
        let (parts, rest) = map.as_chunks();
        let mut blocks = 0;
        for part in parts {
            let whole = part[0].wrapping_sub(largest) <= 1 && are_whole(part, d, largest);
            blocks += if whole { 128 >> level(largest) } else { trees(part, d, largest)? };
        }
        Some(blocks + trees(rest, d, largest)?)
    }
}

/// Whether the blocks of d words in a part are not halved: what is left of their tags, that of a free one taken away, is joined by
/// "or".
#[inline(always)]
fn are_whole(part: &[u8; 128], d: u8, largest: u8) -> bool {
    let mut all = 0;
    for (i, &tag) in part.iter().enumerate() {
        let starts = if i as u8 & (d - 1) == 0 { 255 } else { 0 };
        all |= tag.wrapping_sub(largest) & starts;
    }
    all <= 1
}
/// How many blocks these blocks of d words have.
#[inline(always)]
fn trees(bytes: &[u8], d: u8, largest: u8) -> Option<usize> {
    let mut blocks = 0;
    for tree in bytes.chunks_exact(d.into()) {
        blocks += if tree[0].wrapping_sub(largest) <= 1 { 1 } else { halves(tree, largest)? };
    }
    Some(blocks)
}
/// How many blocks the halves of a block of d words have.
#[inline(always)]
fn halves(tree: &[u8], largest: u8) -> Option<usize> {
    let (mut i, mut blocks) = (0, 0);
    while let Some(&tag) = tree.get(i) {
        if tag.wrapping_sub(1) >= largest - 1 {
            return None;
        }
        let size = 1 << level(tag);
        if i & (size - 1) != 0 || is_free(tag) && i & size != 0 && tree[i - size] == tag {
            return None;
        }
        blocks += 1;
        i += size;
    }
    Some(blocks)
}

// ---------------------------------------------------------------- blocks

fn free_tag(level: u32) -> u8 {
    2 * level as u8 + 1
}
fn live_tag(level: u32) -> u8 {
    2 * level as u8 + 2
}
fn level(tag: u8) -> u32 {
    u32::from(tag - 1) / 2
}
fn is_free(tag: u8) -> bool {
    tag % 2 == 1
}

/// The lowest aligned run of a level outside the live blocks, as an offset.
fn lowest_run(map: &[u8], wanted: u32) -> Option<usize> {
    let least = free_tag(wanted);
    let mut i = 0;
    while let Some(&tag) = map.get(i) {
        if tag < least {
            i += 1 << wanted; // smaller blocks, none of them as large as the run
        } else if is_free(tag) {
            return Some(i);
        } else {
            i += 1 << level(tag);
        }
    }
    None
}

/// Delivers the first words of the free block at an offset; what is left of it stays free in halves.
fn take_block(map: &mut [u8], at: usize, wanted: u32) {
    for half in wanted..level(map[at]) {
        map[at + (1 << half)] = free_tag(half);
    }
    map[at] = live_tag(wanted);
}

/// Frees the live block at an offset and rejoins free halves up to the largest level.
fn free_block(map: &mut [u8], at: usize, largest: u32) {
    let mut at = at;
    let mut level = level(map[at]);
    while level < largest && map[at ^ (1 << level)] == free_tag(level) {
        map[at | (1 << level)] = 0;
        at &= !(1 << level);
        level += 1;
    }
    map[at] = free_tag(level);
}

// ---------------------------------------------------------------- operations on values

/// The three characters of 0 to 999.
static TRIPLES: [u32; 1000] = {
    let mut triples = [0; 1000];
    let mut n = 0;
    while n < 1000 {
        triples[n] = (n as u32 / 100) << 12 | (n as u32 / 10 % 10) << 6 | n as u32 % 10;
        n += 1;
    }
    triples
};

/// 26: leading blanks of the characters that the field holds become zeros.
fn blanks_to_zeros(value: u64, width: u32) -> u64 {
    let mut left = 6 * width.div_ceil(6);
    while left > 0 && value >> (left - 6) & 63 == BLANK {
        left -= 6;
    }
    value & ones(left)
}
/// 27, 28.
fn to_binary<const B: u32>(value: u64, base: u64) -> Checked<u64> {
    let mut number = 0;
    for place in (0..B / 6).rev() {
        let digit = value >> (6 * place) & 63;
        if digit >= base {
            return Err(NotADigit);
        }
        number = number * base + digit;
    }
    Ok(number)
}
/// 29: the last six digits, of words of 48 bits the last eight.
fn to_decimal<const B: u32>(value: u64) -> u64 {
    let six = (value % 1_000_000) as usize;
    let low = u64::from(TRIPLES[six / 1000]) << 18 | u64::from(TRIPLES[six % 1000]);
    if B == 36 {
        low
    } else {
        u64::from(TRIPLES[(value / 1_000_000 % 100) as usize]) << 36 | low
    }
}
/// 30: a digit of three bits for each character.
fn to_octal<const B: u32>(value: u64) -> u64 {
    (0..B / 6).fold(0, |all, place| all | (value >> (3 * place) & 7) << (6 * place))
}
/// 31: leading zeros of a word's characters become blanks.
fn zeros_to_blanks<const B: u32>(value: u64) -> u64 {
    let used = (64 - value.leading_zeros()).next_multiple_of(6);
    value | BLANKS & ones(B) & !ones(used)
}

/// The value that an operation stores in a; x and y are the contents of a and of the other operand.
#[inline(always)]
fn compute<const B: u32>(code: u64, x: u64, x_width: u32, y: u64, y_width: u32) -> Checked<u64> {
    let value = match code {
        6 => y,
        8 => x.wrapping_add(y),
        9 => x.checked_sub(y).ok_or(SubtrahendGreater)?,
        10 => x.wrapping_mul(y),
        11 => {
            let down = x.checked_div(y).ok_or(ZeroDivisor)?;
            let rest = x % y;
            down + u64::from(y - rest < rest + down % 2)
        }
        12 => x | y,
        13 => x & y,
        14 => x ^ y,
        15 => !y,
        16 => y.count_ones().into(),
        17 => (y_width - y.count_ones()).into(),
        18 => leftmost_one(y, y_width),
        19 => rightmost_one(y, y_width),
        20 => leftmost_one(!y & ones(y_width), y_width),
        21 => rightmost_one(!y & ones(y_width), y_width),
        22 if y < x_width.into() => x << y & ones(x_width),
        23 if y < x_width.into() => x >> y,
        22 | 23 => 0,
        26 => blanks_to_zeros(y, y_width),
        27 => to_binary::<B>(y, 10)?,
        28 => to_binary::<B>(y, 8)?,
        29 => to_decimal::<B>(y),
        30 => to_octal::<B>(y),
        _ => zeros_to_blanks::<B>(y),
    };
    Ok(value & ones(B))
}
/// The place of the leftmost one from the left of a field, or the width.
fn leftmost_one(value: u64, width: u32) -> u64 {
    (value.leading_zeros() + width - 64).into()
}
fn rightmost_one(value: u64, width: u32) -> u64 {
    if value == 0 {
        width.into()
    } else {
        (width - 1 - value.trailing_zeros()).into()
    }
}

fn holds(code: u64, c: u64, cd: u64) -> bool {
    match code {
        1 | 5 => c == cd,
        2 => c != cd,
        3 => c > cd,
        4 => c < cd,
        6 => c & cd == cd,
        _ => c & cd == 0,
    }
}

// ---------------------------------------------------------------- a walk: one step after the other

/// Where a reference leads: a bug, or a field of the word at an offset.
#[derive(Clone, Copy)]
enum Spot {
    Bug(usize),
    Word(usize, Field),
}

impl Spot {
    fn width<const B: u32>(self) -> u32 {
        match self {
            Spot::Bug(_) => B,
            Spot::Word(_, field) => field.width(),
        }
    }
}

struct Walk<'a, const B: u32> {
    state: &'a mut State,
    rows: &'a [Row],
    storage: &'a mut [u64],
    input: &'a [u8],
    output: &'a mut [u8],
    judged: bool, // every row is well-formed
    report: Report,
}

impl<'a, const B: u32> Walk<'a, B> {
    /// 2: row missing, ill-formed or of another kind.
    #[inline(always)]
    fn row(&self, number: u64, kind: u64) -> Checked<&'a Row> {
        let row = self.rows.get(number as usize).ok_or(BadRow)?;
        let usable = row[0] == kind && (self.judged || is_well_formed::<B>(row, number, self.rows.len() as u64));
        if usable {
            Ok(row)
        } else {
            Err(BadRow)
        }
    }

    // ------------------------------------------------------------ operands

    /// The offset and size of the live block that starts at an address.
    #[inline(always)]
    fn live_block(&self, address: u64) -> Checked<(usize, usize)> {
        let setup = self.state.setup.ok_or(NotABlock)?;
        let offset = address.wrapping_sub(setup.s1.into()) as usize;
        match self.state.map.get(offset) {
            Some(&tag) if tag != 0 && !is_free(tag) => Ok((offset, 1 << level(tag))),
            _ => Err(NotABlock),
        }
    }
    /// Follows a reference. The words of a block that is being delivered at the offset `new` count as zero.
    fn follow(&self, reference: u64, new: Option<usize>) -> Checked<Spot> {
        let mut shift = reference.ilog2() / 6 * 6;
        let bug = (reference >> shift) as usize - 11;
        let mut spot = Spot::Bug(bug);
        let mut pointer = self.state.bugs[bug];
        while shift > 0 {
            shift -= 6;
            let name = (reference >> shift & 63) as usize - 1;
            let field = self.state.fields[name].ok_or(UndefinedField)?;
            let (start, size) = self.live_block(pointer)?;
            if usize::from(field.word) >= size {
                return Err(OutsideBlock);
            }
            let at = start + usize::from(field.word);
            spot = Spot::Word(at, field);
            pointer = if new == Some(start) { 0 } else { field.of::<B>(self.storage[at]) };
        }
        Ok(spot)
    }
    #[inline(always)]
    fn locate(&self, reference: u64) -> Checked<Spot> {
        if reference < 64 {
            return Ok(Spot::Bug(reference as usize - 11));
        }
        self.follow(reference, None)
    }
    #[inline(always)]
    fn read(&self, spot: Spot) -> u64 {
        match spot {
            Spot::Bug(bug) => self.state.bugs[bug],
            Spot::Word(at, field) => field.of::<B>(self.storage[at]),
        }
    }
    /// An operand's contents and width.
    #[inline(always)]
    fn operand(&self, form: u64, value: u64) -> Checked<(u64, u32)> {
        if form != 2 {
            return Ok((value, B));
        }
        let spot = self.locate(value)?;
        Ok((self.read(spot), spot.width::<B>()))
    }
    /// Stores the rightmost bits that fit, and gives what is to be reported.
    #[inline(always)]
    fn store(&mut self, spot: Spot, value: u64) -> Store {
        match spot {
            Spot::Bug(bug) => self.state.bugs[bug] = value,
            Spot::Word(at, field) if field.width() > 0 => {
                let fits = ones(field.width());
                let bits = value & fits;
                let word = &mut self.storage[at];
                *word = *word & !(fits << field.shift::<B>()) | bits << field.shift::<B>();
                let address = at as u64 + self.state.setup.map_or(0, |setup| setup.s1.into());
                return Store { address, left: field.left, right: field.right, bits };
            }
            Spot::Word(..) => {}
        }
        Store::default()
    }

    // ------------------------------------------------------------ places

    /// One step: the answer's place is set, or nothing is changed.
    fn step(&mut self) -> Checked<()> {
        self.report = Report::default();
        self.state.place = match self.state.place {
            Place::Tests(line) => self.tests(line)?,
            Place::Operation { row, line } => self.operation(row, line)?,
            Place::Exit(line) => self.exit(line)?,
            Place::Finished => Place::Finished,
        };
        Ok(())
    }
    fn tests(&self, line: u16) -> Checked<Place> {
        let row = self.row(line.into(), 1)?;
        Ok(if self.is_satisfied(row[2], row[4])? { place_in(line, row[5]) } else { next_line(row[1]) })
    }
    /// Evaluating stops at the first test that settles the line.
    fn is_satisfied(&self, mode: u64, first: u64) -> Checked<bool> {
        let mut number = first;
        while number != 0 {
            let test = self.row(number, 2)?;
            let (c, _) = self.operand(test[4], test[5])?;
            let (cd, _) = self.operand(test[6], test[7])?;
            match (mode, holds(test[2], c, cd)) {
                (1, false) | (3, true) => return Ok(false),
                (2, true) | (4, false) => return Ok(true),
                _ => number = test[1],
            }
        }
        Ok(matches!(mode, 0 | 1 | 3))
    }
    fn exit(&mut self, line: u16) -> Checked<Place> {
        let row = self.row(line.into(), 1)?;
        match row[6] {
            DONE => self.state.calls.pop(),
            0 => Ok(next_line(row[1])),
            goto => Ok(Place::Tests(goto as u16)),
        }
    }
    fn operation(&mut self, number: u16, line: u16) -> Checked<Place> {
        let row = self.row(number.into(), 3)?;
        let to = place_in(line, row[1]);
        match (row[2], self.state.setup) {
            (1, None) => self.set_up(row)?,
            (1, Some(_)) => return Err(SecondSetUp),
            (_, None) => return Err(BeforeSetUp),
            (36, _) => {
                self.state.calls.push(to)?;
                return Ok(Place::Tests(row[5] as u16));
            }
            (code, Some(setup)) => self.operate(code, setup, row)?,
        }
        Ok(to)
    }

    // ------------------------------------------------------------ operations

    fn operate(&mut self, code: u64, setup: SetUp, row: &Row) -> Checked<()> {
        match code {
            2 => return self.define(row),
            7 => return self.interchange(row),
            25 => return self.print(row),
            32 | 33 => return self.stack_contents(code, row),
            34 => return self.state.saved.push(self.state.fields[row[3] as usize]),
            35 => {
                self.state.fields[row[3] as usize] = self.state.saved.pop()?;
                return Ok(());
            }
            _ => {}
        }
        let a = self.locate(row[5])?;
        let (y, y_width) = self.operand(row[6], row[7])?;
        match code {
            3 => self.get(setup, a, y, row),
            4 => self.free(setup, a, y),
            5 => self.duplicate(setup, a, y),
            24 => self.take_input(a, y),
            _ => {
                let value = compute::<B>(code, self.read(a), a.width::<B>(), y, y_width)?;
                self.report.first = self.store(a, value);
                Ok(())
            }
        }
    }
    /// 1: refusal 3.
    fn set_up(&mut self, row: &Row) -> Checked<()> {
        let setup = SetUp::new(row[5], row[7], row[9], self.storage.len()).ok_or(SetUpNumbers)?;
        let words = setup.words();
        self.storage[..words].fill(0);
        self.state.map = [0; 4096];
        let largest = free_tag(u32::from(setup.d).ilog2());
        self.state.map[..words].iter_mut().step_by(setup.d.into()).for_each(|tag| *tag = largest);
        self.state.setup = Some(setup);
        Ok(())
    }
    /// 2: refusal 7.
    fn define(&mut self, row: &Row) -> Checked<()> {
        let (word, _) = self.operand(row[4], row[5])?;
        let (left, _) = self.operand(row[6], row[7])?;
        let (right, _) = self.operand(row[8], row[9])?;
        if word > 127 || left >= B.into() || right >= B.into() {
            return Err(DefinitionNumber);
        }
        let field = Field { word: word as u8, left: left as u8, right: right as u8 };
        self.state.fields[row[3] as usize] = Some(field);
        Ok(())
    }
    fn zero(&mut self, at: usize, size: usize) {
        self.storage[at..at + size].fill(0);
    }
    /// 3: refusals 8 and 17, then those of the second destination, which is located after the delivery.
    fn get(&mut self, setup: SetUp, a: Spot, wanted: u64, row: &Row) -> Checked<()> {
        if wanted == 0 || wanted > setup.d.into() {
            return Err(BlockSize);
        }
        let level = wanted.next_power_of_two().ilog2();
        let at = lowest_run(&self.state.map[..setup.words()], level).ok_or(NoRun)?;
        let delivered = u64::from(setup.s1) + at as u64;
        let old = self.read(a);
        take_block(&mut self.state.map, at, level);
        let first = self.store(a, delivered);
        let second = match row[8] {
            2 => match self.follow(row[9], Some(at)) {
                Ok(a2) => Some(a2),
                Err(refusal) => {
                    self.store(a, old);
                    free_block(&mut self.state.map, at, u32::from(setup.d).ilog2());
                    return Err(refusal);
                }
            },
            _ => None,
        };
        self.zero(at, 1 << level);
        self.report = Report { delivered, size: 1 << level, first, ..Report::default() };
        if let Some(a2) = second {
            self.report.second = self.store(a2, old);
        }
        Ok(())
    }
    /// 4: refusals 15 and 18.
    fn free(&mut self, setup: SetUp, a: Spot, value: u64) -> Checked<()> {
        let pointer = self.read(a);
        let (start, size) = self.live_block(pointer)?;
        if matches!(a, Spot::Word(at, _) if (start..start + size).contains(&at)) {
            return Err(FieldFreed);
        }
        free_block(&mut self.state.map, start, u32::from(setup.d).ilog2());
        self.report.freed = pointer;
        self.report.first = self.store(a, value);
        Ok(())
    }
    /// 5: refusals 15 and 17.
    fn duplicate(&mut self, setup: SetUp, a: Spot, copied: u64) -> Checked<()> {
        let (start, size) = self.live_block(copied)?;
        let at = lowest_run(&self.state.map[..setup.words()], size.ilog2()).ok_or(NoRun)?;
        let delivered = u64::from(setup.s1) + at as u64;
        take_block(&mut self.state.map, at, size.ilog2());
        self.storage.copy_within(start..start + size, at);
        let first = self.store(a, delivered);
        self.report = Report { delivered, size: size as u64, copied, first, ..Report::default() };
        Ok(())
    }
    /// 7: the first is stored first.
    fn interchange(&mut self, row: &Row) -> Checked<()> {
        let a1 = self.locate(row[5])?;
        let a2 = self.locate(row[7])?;
        let (old1, old2) = (self.read(a1), self.read(a2));
        self.report.first = self.store(a1, old2);
        self.report.second = self.store(a2, old1);
        Ok(())
    }
    /// 24: refusals 10, 5, 4.
    fn take_input(&mut self, a: Spot, count: u64) -> Checked<()> {
        if count > (B / 6).into() {
            return Err(CharacterCount);
        }
        if self.input.is_empty() {
            self.report.first = self.store(a, ones(6 * count as u32));
            return Ok(());
        }
        let end = self.state.taken + count as usize;
        let codes = self.input.get(self.state.taken..end).ok_or(InputShort)?;
        if codes.iter().any(|&code| code > 63) {
            return Err(InputByte);
        }
        let value = codes.iter().fold(0, |all, &code| all << 6 | u64::from(code));
        self.state.taken = end;
        self.report.first = self.store(a, value);
        Ok(())
    }
    /// 25: refusals 10 and 21.
    fn print(&mut self, row: &Row) -> Checked<()> {
        let (count, _) = self.operand(row[4], row[5])?;
        let (value, width) = self.operand(row[6], row[7])?;
        if count > 120 {
            return Err(CharacterCount);
        }
        let end = self.state.written + count as usize;
        let line = self.output.get_mut(self.state.written..end).ok_or(OutputFull)?;
        line.fill(BLANK as u8);
        for (place, code) in line.iter_mut().rev().take(width.div_ceil(6) as usize).enumerate() {
            *code = (value >> (6 * place) & 63) as u8;
        }
        self.state.written = end;
        Ok(())
    }
    /// 32 and 33: refusals 19 and 20, after those of a.
    fn stack_contents(&mut self, code: u64, row: &Row) -> Checked<()> {
        let a = self.locate(row[5])?;
        if code == 32 {
            return self.state.contents.push(self.read(a));
        }
        let value = self.state.contents.pop()?;
        self.report.first = self.store(a, value);
        Ok(())
    }
}

/// An operation of a line, or its exit.
fn place_in(line: u16, row: u64) -> Place {
    if row == 0 {
        Place::Exit(line)
    } else {
        Place::Operation { row: row as u16, line }
    }
}
/// The next line, or finished.
fn next_line(next: u64) -> Place {
    if next == 0 {
        Place::Finished
    } else {
        Place::Tests(next as u16)
    }
}

// ---------------------------------------------------------------- what a host calls

impl State {
    /// At the tests of row 1, nothing set up, defined, saved, taken or written.
    pub fn fresh(width: u8) -> State {
        State {
            width,
            place: Place::Tests(1),
            bugs: [0; 26],
            fields: [None; 36],
            contents: Stack::new(0),
            saved: Stack::new(None),
            calls: Stack::new(Place::Finished),
            setup: None,
            taken: 0,
            written: 0,
            map: [0; 4096],
        }
    }
    pub fn step(&mut self, lent: &mut Lent) -> (Answer, Report) {
        let (answer, report, _) = self.walk(lent, 1);
        (answer, report)
    }
    /// Up to `limit` steps: the answer and the count.
    pub fn run(&mut self, lent: &mut Lent, limit: u64) -> (Answer, u64) {
        if limit == 0 {
            return (Answer::Running, 0);
        }
        let (answer, _, count) = self.walk(lent, limit);
        (answer, count)
    }
    /// The width is judged once, refusal 31.
    fn walk(&mut self, lent: &mut Lent, limit: u64) -> (Answer, Report, u64) {
        match self.width {
            36 => self.walk_words::<36>(lent, limit),
            48 => self.walk_words::<48>(lent, limit),
            _ => (Answer::Refused(NoWidth), Report::default(), 1),
        }
    }
    /// Refusal 11, a finish and refusal 1 are judged once; the whole table too where there are steps enough.
    fn walk_words<const B: u32>(&mut self, lent: &mut Lent, limit: u64) -> (Answer, Report, u64) {
        let stopped = |answer| (answer, Report::default(), 1);
        if !self.is_sound::<B>(lent) {
            return stopped(Answer::Refused(Unsound));
        }
        if self.place == Place::Finished {
            return stopped(Answer::Finished);
        }
        let (rows, rest) = lent.table.as_chunks();
        if !(2..=800).contains(&rows.len()) || !rest.is_empty() {
            return stopped(Answer::Refused(TableLength));
        }
        let judged = limit >= rows.len() as u64 && is_table::<B>(rows);
        let Lent { storage, input, output, .. } = lent;
        let mut walk = Walk::<B> { state: self, rows, storage, input, output, judged, report: Report::default() };
        let mut count = 0;
        while count < limit {
            count += 1;
            if let Err(refusal) = walk.step() {
                return (Answer::Refused(refusal), Report::default(), count);
            }
            if walk.state.place == Place::Finished {
                return (Answer::Finished, walk.report, count);
            }
        }
        (Answer::Running, walk.report, count)
    }
}
