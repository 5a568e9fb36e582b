//! The L6 tour engine (libplayer.a) for Rust: add this file to a program as a module. It needs no crate. docs/EMBEDDING.md says how
//! to link the archive, and include/l6.h what each function of it does.
//!
//! A tour is a [`State`] and what a host lends to each call, a [`Lent`]: the table and the stop list, which are only read, and
//! storage and output, which the tour goes on with. Whoever saves a tour saves state, storage and output. All of them may hold
//! anything: a call answers with a [`Refusal`] where they are not sound.
//!
//!     let mut state = State::fresh(36)?;
//!     let (mut storage, mut output) = (vec![0; 4096], vec![0; 4096]);
//!     let mut lent = Lent { table: &table, storage: &mut storage, input: &stops, output: &mut output };
//!     match state.run(&mut lent, 100_000).0 {
//!         Answer::Running => println!("not at its end yet"),
//!         Answer::Finished => println!("{}", text(&lent.output[..state.written()])),
//!         Answer::Refused(refusal) => println!("row {}: {refusal}", state.row()),
//!     }
#![allow(dead_code)] // a host need not use all of it

use std::fmt;

/// The version of the library that this file goes with.
pub const VERSION: u64 = 1;
/// That of the library that is linked.
pub fn version() -> u64 {
    unsafe { raw::l6_version() }
}

/// How many bytes a state has.
pub const STATE_LENGTH: usize = 6676;
const REPORT_LENGTH: usize = 12;

/// Why a call is refused, by its number: 1 to 21 are document 01's, those from 22 on of the later tickets, and 23 to 32 are answers
/// of other calls than a step. What refuses [`save`] and [`load`] is a [`NotKept`]. As text it is explained in words.
#[derive(Clone, Copy, Debug, PartialEq, Eq)]
pub enum Refusal {
    TableLength = 1,
    BadRow,
    SetUpNumbers,
    InputByte,
    InputShort,
    NotADigit,
    DefinitionNumber,
    BlockSize,
    ZeroDivisor,
    CharacterCount,
    Unsound,
    BeforeSetUp,
    SecondSetUp,
    UndefinedField,
    NotABlock,
    OutsideBlock,
    NoRun,
    FieldFreed,
    StackFull,
    StackEmpty,
    OutputFull,
    SubtrahendGreater,
    TypedLine,
    TypedLabel,
    TypedTooLong,
    Corrections,
    CorrectionsLoop,
    CorrectionsShort,
    Hours,
    Kinds,
    NoWidth,
    LastAddress,
}
use Refusal::*;

/// Every [`Refusal`] in the order of its number, and what it means in words.
pub const REFUSALS: [(Refusal, &str); 32] = [
    (TableLength, "the table has fewer than 20 numbers, more than 8,000, or no multiple of ten"),
    (BadRow, "the row, or a test of it, is missing, ill-formed or of another kind than is needed here"),
    (SetUpNumbers, "the set-up's numbers are not allowed, or ask for more words than there are"),
    (InputByte, "a byte of the stop list is above 63"),
    (InputShort, "the stop list has too few characters left"),
    (NotADigit, "a character to convert is no digit"),
    (DefinitionNumber, "a number of a field's definition is out of range"),
    (BlockSize, "a block of no words, or of more than the set-up allows, is wanted"),
    (ZeroDivisor, "a division by zero"),
    (CharacterCount, "more characters to take than a word has, or more than 120 to print"),
    (Unsound, "the state is damaged, or does not go with the storage, stop list and output"),
    (BeforeSetUp, "an operation before the set-up"),
    (SecondSetUp, "a second set-up"),
    (UndefinedField, "a field that is not defined"),
    (NotABlock, "a pointer that leads to no block in use"),
    (OutsideBlock, "a field whose word lies outside its block"),
    (NoRun, "no room for a block of that size"),
    (FieldFreed, "the field to change lies in the block that is freed"),
    (StackFull, "a stack has 128 entries already"),
    (StackEmpty, "a stack has no entry to restore or to return to"),
    (OutputFull, "there is no room for more output"),
    (SubtrahendGreater, "a subtraction below zero"),
    (TypedLine, "this line breaks the grammar"),
    (TypedLabel, "a label that this line uses is missing, or its own is declared again"),
    (TypedTooLong, "with this line the table has too many rows"),
    (Corrections, "the list of corrections has a wrong length, a wrong row 0 or a next index outside"),
    (CorrectionsLoop, "the chain of corrections reaches a row a second time"),
    (CorrectionsShort, "there is no room for the stops to write"),
    (Hours, "the opening hours break their rules, or the minute is above 1,439"),
    (Kinds, "row 1 is no line, or a row names one of the wrong kind"),
    (NoWidth, "the width is neither 36 nor 48"),
    (LastAddress, "the new last address is none, or asks for more words than there are"),
];

impl Refusal {
    /// Its number.
    pub fn number(self) -> u64 {
        self as u64
    }
    /// The refusal of a number. Any other number comes from an archive that this file does not belong to.
    fn of(number: u64) -> Refusal {
        let found = REFUSALS.iter().find(|(refusal, _)| refusal.number() == number);
        found.unwrap_or_else(|| panic!("libplayer.a answers {number}, which l6.rs does not know")).0
    }
}
impl fmt::Display for Refusal {
    fn fmt(&self, f: &mut fmt::Formatter) -> fmt::Result {
        f.write_str(REFUSALS.iter().find(|(refusal, _)| refusal == self).map_or("", |(_, words)| words))
    }
}
impl std::error::Error for Refusal {}

/// What a step or a run answers.
#[derive(Clone, Copy, Debug, PartialEq, Eq)]
pub enum Answer {
    Running,
    Finished,
    Refused(Refusal),
}
impl Answer {
    fn of(number: u64) -> Answer {
        match number {
            0 => Answer::Running,
            100 => Answer::Finished,
            _ => Answer::Refused(Refusal::of(number)),
        }
    }
}

/// What a host lends to each step and run of one tour.
pub struct Lent<'a> {
    pub table: &'a [u64],
    pub storage: &'a mut [u64],
    pub input: &'a [u8],
    pub output: &'a mut [u8],
}

/// A store into storage: its address, leftmost and rightmost bit, and the bits kept; all 0 where there is none.
#[derive(Clone, Copy, Debug, Default, PartialEq, Eq)]
pub struct Store {
    pub address: u64,
    pub left: u64,
    pub right: u64,
    pub bits: u64,
}

/// What a step reports, each 0 where there is none: addresses of the block freed, of the one delivered with its size, and of the
/// one that it is a copy of.
#[derive(Clone, Copy, Debug, Default, PartialEq, Eq)]
pub struct Report {
    pub freed: u64,
    pub delivered: u64,
    pub size: u64,
    pub copied: u64,
    pub first: Store,
    pub second: Store,
}
impl Report {
    fn of(numbers: [u64; REPORT_LENGTH]) -> Report {
        let [freed, delivered, size, copied, ..] = numbers;
        let store = |i: usize| Store { address: numbers[i], left: numbers[i + 1], right: numbers[i + 2], bits: numbers[i + 3] };
        Report { freed, delivered, size, copied, first: store(4), second: store(8) }
    }
}

/// Where a tour stands. Only a state that is refused as unsound stands nowhere.
#[derive(Clone, Copy, Debug, PartialEq, Eq)]
pub enum Place {
    Tests,
    Operation,
    Exit,
    Finished,
    Nowhere,
}

/// A block of the storage.
#[derive(Clone, Copy, Debug, PartialEq, Eq)]
pub struct Block {
    pub address: u64,
    pub size: u64,
}

/// Where a tour stands and what it has set up, defined and saved. Its bytes can be kept and handed to another process.
#[derive(Clone, PartialEq, Eq)]
pub struct State([u8; STATE_LENGTH]);

impl State {
    /// A tour of words of 36 or 48 bits at the tests of row 1, nothing set up, defined, saved, taken or written.
    pub fn fresh(width: u64) -> Result<State, Refusal> {
        let mut state = State([0; STATE_LENGTH]);
        done(unsafe { raw::l6_fresh(width, state.0.as_mut_ptr(), STATE_LENGTH) })?;
        Ok(state)
    }
    /// How many bits its words have.
    pub fn width(&self) -> u64 {
        self.0[STATE_LENGTH - 1] as u64
    }
    /// The state of bytes that were saved. `None` where they are not STATE_LENGTH; any others are a state, if no sound one.
    pub fn from_bytes(bytes: &[u8]) -> Option<State> {
        Some(State(bytes.try_into().ok()?))
    }
    pub fn bytes(&self) -> &[u8; STATE_LENGTH] {
        &self.0
    }

    /// One step, and what it reports. A refused one changes nothing and reports zeros.
    pub fn step(&mut self, lent: &mut Lent) -> (Answer, Report) {
        let (Lent { table, storage, input, output }, state) = (lent, &mut self.0);
        let mut report = [0; REPORT_LENGTH];
        let answer = unsafe {
            raw::l6_step(
                table.as_ptr(),
                table.len(),
                storage.as_mut_ptr(),
                storage.len(),
                input.as_ptr(),
                input.len(),
                output.as_mut_ptr(),
                output.len(),
                state.as_mut_ptr(),
                state.len(),
                report.as_mut_ptr(),
                report.len(),
            )
        };
        (Answer::of(answer), Report::of(report))
    }
    /// As many steps as the limit says, or fewer up to the end of the tour or to a refusal, and how many were taken, a refused one
    /// included. The steps before a refused one stand.
    pub fn run(&mut self, lent: &mut Lent, limit: u64) -> (Answer, u64) {
        let (Lent { table, storage, input, output }, state) = (lent, &mut self.0);
        let mut count = 0;
        let answer = unsafe {
            raw::l6_run(
                table.as_ptr(),
                table.len(),
                storage.as_mut_ptr(),
                storage.len(),
                input.as_ptr(),
                input.len(),
                output.as_mut_ptr(),
                output.len(),
                state.as_mut_ptr(),
                state.len(),
                limit,
                &mut count,
            )
        };
        (Answer::of(answer), count)
    }

    /// More storage between steps: the words up to a new last address, the old one plus a multiple of the largest block size,
    /// become free blocks. The tour goes on as it was, after [`NoRun`] too. A refused extension changes nothing.
    pub fn extend(&mut self, storage: &mut [u64], last: u64) -> Result<(), Refusal> {
        done(unsafe { raw::l6_extend(storage.as_mut_ptr(), storage.len(), self.0.as_mut_ptr(), STATE_LENGTH, last) })
    }

    /// The set-up's largest block size, first and last address; zeros before it.
    pub fn setup(&self) -> [usize; 3] {
        [21, 23, 25].map(|at| self.number(at, 2))
    }
    /// How many words are set up; 0 before a set-up. The first word of the storage is that of the first address. In an unsound
    /// state this is any number.
    pub fn words(&self) -> usize {
        let [d, s1, s2] = self.setup();
        if d == 0 {
            0
        } else {
            s2.wrapping_sub(s1).wrapping_add(1)
        }
    }
    /// Where the tour stands.
    pub fn place(&self) -> Place {
        [Place::Tests, Place::Operation, Place::Exit, Place::Finished].get(self.0[0] as usize).copied().unwrap_or(Place::Nowhere)
    }
    /// The row that the next step takes: that of the operation, or of the line; 0 where the tour is finished. After a refusal it is
    /// the row that was refused.
    pub fn row(&self) -> usize {
        self.number(if self.place() == Place::Operation { 1 } else { 3 }, 2)
    }
    /// How many bytes of the input are taken.
    pub fn taken(&self) -> usize {
        self.number(5, 8)
    }
    /// How many bytes of the output are written. In an unsound state this may be more than there are.
    pub fn written(&self) -> usize {
        self.number(13, 8)
    }
    fn number(&self, at: usize, length: usize) -> usize {
        self.0[at..at + length].iter().rev().fold(0, |number, &byte| number << 8 | byte as usize)
    }

    /// How many blocks are live, and how many are free; refused where the blocks in the state are unsound.
    pub fn count_blocks(&self) -> Result<[u64; 2], Refusal> {
        let mut counts = [0; 2];
        done(unsafe { raw::l6_count_blocks(self.0.as_ptr(), STATE_LENGTH, counts.as_mut_ptr(), 2) })?;
        Ok(counts)
    }
    /// The blocks in use, the lowest first.
    pub fn live_blocks(&self) -> Result<Vec<Block>, Refusal> {
        self.list_blocks(1)
    }
    /// The free blocks, the lowest first.
    pub fn free_blocks(&self) -> Result<Vec<Block>, Refusal> {
        self.list_blocks(0)
    }
    fn list_blocks(&self, live: u64) -> Result<Vec<Block>, Refusal> {
        let [used, free] = self.count_blocks()?;
        let mut list = vec![0; 2 * if live != 0 { used } else { free } as usize];
        done(unsafe { raw::l6_list_blocks(self.0.as_ptr(), STATE_LENGTH, live, list.as_mut_ptr(), list.len()) })?;
        Ok(list.chunks_exact(2).map(|pair| Block { address: pair[0], size: pair[1] }).collect())
    }
}

/// What is wrong with a table.
#[derive(Clone, Copy, Debug, PartialEq, Eq)]
pub enum BadTable {
    Width,
    Length,
    Row(u64),
}
impl fmt::Display for BadTable {
    fn fmt(&self, f: &mut fmt::Formatter) -> fmt::Result {
        match self {
            BadTable::Width => write!(f, "{NoWidth}"),
            BadTable::Length => write!(f, "{TableLength}"),
            BadTable::Row(row) => write!(f, "row {row} is ill-formed"),
        }
    }
}
impl std::error::Error for BadTable {}

/// The table check: whether every row is well-formed for words of so many bits, those too that no step comes to. If not, the lowest
/// that is not.
pub fn check(width: u64, table: &[u64]) -> Result<(), BadTable> {
    let mut row = 0;
    let answer = done(unsafe { raw::l6_check(width, table.as_ptr(), table.len(), &mut row) });
    answer.map_err(|refusal| if refusal == NoWidth { BadTable::Width } else { BadTable::Length })?;
    if row == 0 {
        Ok(())
    } else {
        Err(BadTable::Row(row))
    }
}

/// Why the fields of a table do not pass: the width, its length, the lowest ill-formed row, row 1 that is no line or the lowest row
/// that names one of the wrong kind, or the lowest row that uses a field where it is not defined, with the field's name number.
#[derive(Clone, Copy, Debug, PartialEq, Eq)]
pub enum NotDefined {
    Width,
    Length,
    Row(u64),
    Kinds(u64),
    Field { row: u64, field: u64 },
}
impl fmt::Display for NotDefined {
    fn fmt(&self, f: &mut fmt::Formatter) -> fmt::Result {
        match self {
            NotDefined::Width => write!(f, "{NoWidth}"),
            NotDefined::Length => write!(f, "{TableLength}"),
            NotDefined::Row(row) => write!(f, "row {row} is ill-formed"),
            NotDefined::Kinds(row) => write!(f, "row {row} names a row of the wrong kind, or is row 1 and no line"),
            NotDefined::Field { row, field } => {
                write!(f, "row {row} uses field {}, which is not defined there", field_name(*field))
            }
        }
    }
}
impl std::error::Error for NotDefined {}

/// The name of a field by its number, 0 to 35; `?` for a number that names none.
pub fn field_name(field: u64) -> char {
    b"0123456789ABCDEFGHIJKLMNOPQRSTUVWXYZ".get(field as usize).map_or('?', |&name| name as char)
}

/// Whether each field of a table for words of so many bits is defined before it is used (l6.h). A fresh tour played with such a
/// table alone never meets [`Refusal::UndefinedField`].
pub fn defined(width: u64, table: &[u64]) -> Result<(), NotDefined> {
    let (mut row, mut field) = (0, 0);
    match unsafe { raw::l6_defined(width, table.as_ptr(), table.len(), &mut row, &mut field) } {
        0 => Ok(()),
        1 => Err(NotDefined::Length),
        30 => Err(NotDefined::Kinds(row)),
        31 => Err(NotDefined::Width),
        107 => Err(NotDefined::Row(row)),
        _ => Err(NotDefined::Field { row, field }),
    }
}

/// What opening hours say of a day and a minute.
#[derive(Clone, Copy, Debug, PartialEq, Eq)]
pub enum Opening {
    Row(u64),
    Closed,
    Refused(Refusal),
}
impl Opening {
    /// The row, or in words why there is none.
    pub fn row(self) -> Result<u64, String> {
        match self {
            Opening::Row(row) => Ok(row),
            Opening::Closed => Err("closed at this time".to_string()),
            Opening::Refused(refusal) => Err(refusal.to_string()),
        }
    }
}

/// The row of the entry line at which a tour starts on a day, at a minute. Windows are four numbers each, exceptions five (l6.h).
pub fn hours(windows: &[u64], exceptions: &[u64], day: u64, minute: u64) -> Opening {
    let mut row = 0;
    match unsafe { raw::l6_hours(windows.as_ptr(), windows.len(), exceptions.as_ptr(), exceptions.len(), day, minute, &mut row) } {
        0 => Opening::Row(row),
        104 => Opening::Closed,
        refusal => Opening::Refused(Refusal::of(refusal)),
    }
}

/// A tour typed as L6 lines (docs/TOURS.md) for words of so many bits: its table at the start of the one lent, and how many rows it
/// has, ten numbers each. The other numbers stay; all do where it is refused, and then the line of the fault is told, counted from
/// 1; 0 where the width is none.
pub fn read(width: u64, text: &[u8], table: &mut [u64]) -> Result<usize, (Refusal, u64)> {
    let (mut count, mut line) = (0, 0);
    done(unsafe { raw::l6_read(width, text.as_ptr(), text.len(), table.as_mut_ptr(), table.len(), &mut count, &mut line) })
        .map_err(|refusal| (refusal, line))?;
    Ok(count as usize)
}

/// Re-recorded stops: stop and recording of each row of a list of corrections that stands (l6.h), at the start of the output, and
/// how many rows they are. The other numbers stay; all do where it is refused. Two numbers for each row of the list are room
/// enough.
pub fn recordings(list: &[u64], output: &mut [u64]) -> Result<usize, Refusal> {
    let mut count = 0;
    done(unsafe { raw::l6_recordings(list.as_ptr(), list.len(), output.as_mut_ptr(), output.len(), &mut count) })?;
    Ok(count as usize)
}

/// Silent stops: those of the stops on display that no pair of stop and recording has with a recording other than 0 (l6.h), at the
/// start of the output in their order, and how many they are. The other numbers stay; all do where it is refused.
pub fn silent(stops: &[u64], pairs: &[u64], output: &mut [u64]) -> Result<usize, Refusal> {
    let mut count = 0;
    done(unsafe {
        raw::l6_silent(stops.as_ptr(), stops.len(), pairs.as_ptr(), pairs.len(), output.as_mut_ptr(), output.len(), &mut count)
    })?;
    Ok(count as usize)
}

/// Repeated stops: those that stand twice or more, each once, as [`silent`] writes its stops.
pub fn repeated(stops: &[u64], output: &mut [u64]) -> Result<usize, Refusal> {
    let mut count = 0;
    done(unsafe { raw::l6_repeated(stops.as_ptr(), stops.len(), output.as_mut_ptr(), output.len(), &mut count) })?;
    Ok(count as usize)
}

/// The numbers of a file, of eight bytes each, the low one first. No multiple of eight bytes counts as one number, which no table,
/// no list of hours and no list of corrections has.
pub fn numbers(bytes: &[u8]) -> Vec<u64> {
    if bytes.len() % 8 != 0 {
        return vec![0];
    }
    bytes.chunks(8).map(|eight| u64::from_le_bytes(eight.try_into().unwrap())).collect()
}

/// Why words are not saved or loaded, with its number. As text it is explained in words.
#[derive(Clone, Copy, Debug, PartialEq, Eq)]
pub enum NotKept {
    NoWidth = 31,
    WordTooWide = 33,
    NotSaved,
    OutputShort,
}
/// Every such reason, and what it means.
pub const NOT_KEPT: [(NotKept, &str); 4] = [
    (NotKept::NoWidth, "the width is neither 36 nor 48"),
    (NotKept::WordTooWide, "a word to save does not fit the width"),
    (NotKept::NotSaved, "the bytes to load are not those of so many saved words"),
    (NotKept::OutputShort, "there is no room for what is saved or loaded"),
];
impl NotKept {
    /// Its number.
    pub fn number(self) -> u64 {
        self as u64
    }
    /// Whether a call did what it was asked for.
    fn done(answer: u64) -> Result<(), NotKept> {
        match NOT_KEPT.iter().find(|(reason, _)| reason.number() == answer) {
            Some((reason, _)) => Err(*reason),
            None if answer == 0 => Ok(()),
            None => panic!("libplayer.a answers {answer}, which l6.rs does not know"),
        }
    }
}
impl fmt::Display for NotKept {
    fn fmt(&self, f: &mut fmt::Formatter) -> fmt::Result {
        f.write_str(NOT_KEPT.iter().find(|(reason, _)| reason == self).map_or("", |(_, words)| words))
    }
}
impl std::error::Error for NotKept {}

/// How many bytes so many words have by bit columns: the width, 36 or 48, for each group of eight.
pub fn saved_length(width: u64, words: usize) -> usize {
    words.div_ceil(8) * width as usize
}
/// Saves words by bit columns at the start of the bytes, and says how many it wrote. The others stay; all do where it is refused.
pub fn save(width: u64, words: &[u64], bytes: &mut [u8]) -> Result<usize, NotKept> {
    let mut count = 0;
    NotKept::done(unsafe { raw::l6_save(width, words.as_ptr(), words.len(), bytes.as_mut_ptr(), bytes.len(), &mut count) })?;
    Ok(count as usize)
}
/// Loads n words, whose bytes are all of these, at the start of the words. The others stay; all do where it is refused.
pub fn load(width: u64, bytes: &[u8], n: usize, words: &mut [u64]) -> Result<(), NotKept> {
    NotKept::done(unsafe { raw::l6_load(width, bytes.as_ptr(), bytes.len(), n, words.as_mut_ptr(), words.len()) })
}

/// The character of a code of the output: a line's end for octal 77, '?' for a code that has no character.
pub fn character(code: u8) -> char {
    let all = b"0123456789???????ABCDEFGHI?.?????JKLMNOPQR?????? ?STUVWXYZ?????\n";
    all.get(code as usize).map_or('?', |&byte| byte as char)
}
/// What the codes of an output say.
pub fn text(codes: &[u8]) -> String {
    codes.iter().map(|&code| character(code)).collect()
}

/// Whether a call did what it was asked for.
fn done(answer: u64) -> Result<(), Refusal> {
    if answer == 0 {
        Ok(())
    } else {
        Err(Refusal::of(answer))
    }
}

/// The functions of libplayer.a, as l6.h declares them. The pointers lead to so many numbers or bytes as the lengths after them
/// say.
pub mod raw {
    #[link(name = "player", kind = "static")]
    unsafe extern "C" {
        pub fn l6_version() -> u64;
        pub fn l6_fresh(width: u64, state: *mut u8, state_length: usize) -> u64;
        pub fn l6_step(
            table: *const u64,
            table_length: usize,
            storage: *mut u64,
            storage_length: usize,
            input: *const u8,
            input_length: usize,
            output: *mut u8,
            output_length: usize,
            state: *mut u8,
            state_length: usize,
            report: *mut u64,
            report_length: usize,
        ) -> u64;
        pub fn l6_run(
            table: *const u64,
            table_length: usize,
            storage: *mut u64,
            storage_length: usize,
            input: *const u8,
            input_length: usize,
            output: *mut u8,
            output_length: usize,
            state: *mut u8,
            state_length: usize,
            limit: u64,
            count: *mut u64,
        ) -> u64;
        pub fn l6_check(width: u64, table: *const u64, table_length: usize, row: *mut u64) -> u64;
        pub fn l6_defined(width: u64, table: *const u64, table_length: usize, row: *mut u64, field: *mut u64) -> u64;
        pub fn l6_count_blocks(state: *const u8, state_length: usize, counts: *mut u64, counts_length: usize) -> u64;
        pub fn l6_list_blocks(state: *const u8, state_length: usize, live: u64, list: *mut u64, list_length: usize) -> u64;
        pub fn l6_hours(
            windows: *const u64,
            windows_length: usize,
            exceptions: *const u64,
            exceptions_length: usize,
            day: u64,
            minute: u64,
            row: *mut u64,
        ) -> u64;
        pub fn l6_extend(storage: *mut u64, storage_length: usize, state: *mut u8, state_length: usize, last: u64) -> u64;
        pub fn l6_read(
            width: u64,
            text: *const u8,
            text_length: usize,
            table: *mut u64,
            table_length: usize,
            count: *mut u64,
            line: *mut u64,
        ) -> u64;
        pub fn l6_recordings(list: *const u64, list_length: usize, output: *mut u64, output_length: usize, count: *mut u64) -> u64;
        pub fn l6_silent(
            stops: *const u64,
            stops_length: usize,
            pairs: *const u64,
            pairs_length: usize,
            output: *mut u64,
            output_length: usize,
            count: *mut u64,
        ) -> u64;
        pub fn l6_repeated(stops: *const u64, stops_length: usize, output: *mut u64, output_length: usize, count: *mut u64) -> u64;
        pub fn l6_save(
            width: u64,
            words: *const u64,
            words_length: usize,
            bytes: *mut u8,
            bytes_length: usize,
            count: *mut u64,
        ) -> u64;
        pub fn l6_load(width: u64, bytes: *const u8, bytes_length: usize, n: usize, words: *mut u64, words_length: usize) -> u64;
    }
}
