//! The library's functions, called through the header (header.c) or through the Rust module, with buffers of any length.
use crate::bytes::Tour;
use crate::l6::raw as module;
use crate::lists::Lists;
use std::ffi::c_char;

type Step = unsafe extern "C" fn(
    *const u64,
    usize,
    *mut u64,
    usize,
    *const u8,
    usize,
    *mut u8,
    usize,
    *mut u8,
    usize,
    *mut u64,
    usize,
) -> u64;
type Run = unsafe extern "C" fn(
    *const u64,
    usize,
    *mut u64,
    usize,
    *const u8,
    usize,
    *mut u8,
    usize,
    *mut u8,
    usize,
    u64,
    *mut u64,
) -> u64;
type Hours = unsafe extern "C" fn(*const u64, usize, *const u64, usize, u64, u64, *mut u64) -> u64;
type Recordings = unsafe extern "C" fn(*const u64, usize, *mut u64, usize, *mut u64) -> u64;
type Silent = unsafe extern "C" fn(*const u64, usize, *const u64, usize, *mut u64, usize, *mut u64) -> u64;
type Read = unsafe extern "C" fn(u64, *const u8, usize, *mut u64, usize, *mut u64, *mut u64) -> u64;
type Save = unsafe extern "C" fn(u64, *const u64, usize, *mut u8, usize, *mut u64) -> u64;
type Load = unsafe extern "C" fn(u64, *const u8, usize, usize, *mut u64, usize) -> u64;

pub struct Calls {
    fresh: unsafe extern "C" fn(u64, *mut u8, usize) -> u64,
    step: Step,
    run: Run,
    check: unsafe extern "C" fn(u64, *const u64, usize, *mut u64) -> u64,
    defined: unsafe extern "C" fn(u64, *const u64, usize, *mut u64, *mut u64) -> u64,
    count_blocks: unsafe extern "C" fn(*const u8, usize, *mut u64, usize) -> u64,
    list_blocks: unsafe extern "C" fn(*const u8, usize, u64, *mut u64, usize) -> u64,
    hours: Hours,
    recordings: Recordings,
    silent: Silent,
    repeated: Recordings,
    read: Read,
    save: Save,
    load: Load,
    extend: unsafe extern "C" fn(*mut u64, usize, *mut u8, usize, u64) -> u64,
}

extern "C" {
    fn header_fresh(width: u64, state: *mut u8, length: usize) -> u64;
    fn header_step(
        table: *const u64,
        numbers: usize,
        storage: *mut u64,
        words: usize,
        input: *const u8,
        given: usize,
        output: *mut u8,
        room: usize,
        state: *mut u8,
        length: usize,
        report: *mut u64,
        reports: usize,
    ) -> u64;
    fn header_run(
        table: *const u64,
        numbers: usize,
        storage: *mut u64,
        words: usize,
        input: *const u8,
        given: usize,
        output: *mut u8,
        room: usize,
        state: *mut u8,
        length: usize,
        limit: u64,
        count: *mut u64,
    ) -> u64;
    fn header_check(width: u64, table: *const u64, numbers: usize, row: *mut u64) -> u64;
    fn header_defined(width: u64, table: *const u64, numbers: usize, row: *mut u64, field: *mut u64) -> u64;
    fn header_count_blocks(state: *const u8, length: usize, counts: *mut u64, numbers: usize) -> u64;
    fn header_list_blocks(state: *const u8, length: usize, live: u64, list: *mut u64, numbers: usize) -> u64;
    fn header_hours(windows: *const u64, n: usize, exceptions: *const u64, m: usize, day: u64, minute: u64, row: *mut u64) -> u64;
    fn header_recordings(list: *const u64, given: usize, output: *mut u64, room: usize, count: *mut u64) -> u64;
    fn header_silent(
        stops: *const u64,
        n: usize,
        pairs: *const u64,
        m: usize,
        output: *mut u64,
        room: usize,
        count: *mut u64,
    ) -> u64;
    fn header_repeated(stops: *const u64, n: usize, output: *mut u64, room: usize, count: *mut u64) -> u64;
    fn header_read(width: u64, text: *const u8, given: usize, table: *mut u64, room: usize, count: *mut u64, line: *mut u64)
        -> u64;
    fn header_save(width: u64, words: *const u64, given: usize, bytes: *mut u8, room: usize, count: *mut u64) -> u64;
    fn header_load(width: u64, bytes: *const u8, given: usize, n: usize, words: *mut u64, room: usize) -> u64;
    fn header_extend(storage: *mut u64, words: usize, state: *mut u8, length: usize, last: u64) -> u64;
    // what else the header has
    pub fn header_reads(state: *const u8, numbers: *mut u64);
    pub fn header_version(numbers: *mut u64);
    pub fn header_words(answer: u64) -> *const c_char;
    pub fn header_character(code: u8) -> u8;
    pub fn header_field(field: u64) -> u8;
    pub static header_undefined: [u64; 3];
    pub static header_constants: [u64; 36];
    pub fn header_saved_length(width: u64, words: usize) -> usize;
    pub static header_kept: [u64; 3];
    pub static header_typed: [u64; 3];
}

pub static HEADER: Calls = Calls {
    fresh: header_fresh,
    step: header_step,
    run: header_run,
    check: header_check,
    defined: header_defined,
    count_blocks: header_count_blocks,
    list_blocks: header_list_blocks,
    hours: header_hours,
    recordings: header_recordings,
    silent: header_silent,
    repeated: header_repeated,
    read: header_read,
    save: header_save,
    load: header_load,
    extend: header_extend,
};
pub static MODULE: Calls = Calls {
    fresh: module::l6_fresh,
    step: module::l6_step,
    run: module::l6_run,
    check: module::l6_check,
    defined: module::l6_defined,
    count_blocks: module::l6_count_blocks,
    list_blocks: module::l6_list_blocks,
    hours: module::l6_hours,
    recordings: module::l6_recordings,
    silent: module::l6_silent,
    repeated: module::l6_repeated,
    read: module::l6_read,
    save: module::l6_save,
    load: module::l6_load,
    extend: module::l6_extend,
};

/// What is lent and only read.
#[derive(Clone)]
pub struct Given {
    pub table: Vec<u64>,
    pub input: Vec<u8>,
}

impl Calls {
    pub fn fresh(&self, width: u64, state: &mut [u8]) -> u64 {
        unsafe { (self.fresh)(width, state.as_mut_ptr(), state.len()) }
    }
    pub fn step(&self, Given { table, input }: &Given, tour: &mut Tour, report: &mut [u64]) -> u64 {
        let Tour { state, storage, output } = tour;
        unsafe {
            (self.step)(
                table.as_ptr(),
                table.len(),
                storage.as_mut_ptr(),
                storage.len(),
                input.as_ptr(),
                input.len(),
                output.as_mut_ptr(),
                output.len(),
                state.as_mut_ptr(),
                state.len(),
                report.as_mut_ptr(),
                report.len(),
            )
        }
    }
    pub fn run(&self, Given { table, input }: &Given, tour: &mut Tour, limit: u64, count: &mut u64) -> u64 {
        let Tour { state, storage, output } = tour;
        unsafe {
            (self.run)(
                table.as_ptr(),
                table.len(),
                storage.as_mut_ptr(),
                storage.len(),
                input.as_ptr(),
                input.len(),
                output.as_mut_ptr(),
                output.len(),
                state.as_mut_ptr(),
                state.len(),
                limit,
                count,
            )
        }
    }
    pub fn extend(&self, tour: &mut Tour, last: u64) -> u64 {
        let Tour { state, storage, .. } = tour;
        unsafe { (self.extend)(storage.as_mut_ptr(), storage.len(), state.as_mut_ptr(), state.len(), last) }
    }
    pub fn check(&self, width: u64, table: &[u64], row: &mut u64) -> u64 {
        unsafe { (self.check)(width, table.as_ptr(), table.len(), row) }
    }
    pub fn defined(&self, width: u64, table: &[u64], row: &mut u64, field: &mut u64) -> u64 {
        unsafe { (self.defined)(width, table.as_ptr(), table.len(), row, field) }
    }
    pub fn count_blocks(&self, state: &[u8], counts: &mut [u64]) -> u64 {
        unsafe { (self.count_blocks)(state.as_ptr(), state.len(), counts.as_mut_ptr(), counts.len()) }
    }
    pub fn list_blocks(&self, state: &[u8], live: u64, list: &mut [u64]) -> u64 {
        unsafe { (self.list_blocks)(state.as_ptr(), state.len(), live, list.as_mut_ptr(), list.len()) }
    }
    pub fn hours(&self, Lists { windows, exceptions, day, minute }: &Lists, row: &mut u64) -> u64 {
        unsafe { (self.hours)(windows.as_ptr(), windows.len(), exceptions.as_ptr(), exceptions.len(), *day, *minute, row) }
    }
    pub fn recordings(&self, list: &[u64], output: &mut [u64], count: &mut u64) -> u64 {
        unsafe { (self.recordings)(list.as_ptr(), list.len(), output.as_mut_ptr(), output.len(), count) }
    }
    pub fn silent(&self, stops: &[u64], pairs: &[u64], output: &mut [u64], count: &mut u64) -> u64 {
        unsafe { (self.silent)(stops.as_ptr(), stops.len(), pairs.as_ptr(), pairs.len(), output.as_mut_ptr(), output.len(), count) }
    }
    pub fn repeated(&self, stops: &[u64], output: &mut [u64], count: &mut u64) -> u64 {
        unsafe { (self.repeated)(stops.as_ptr(), stops.len(), output.as_mut_ptr(), output.len(), count) }
    }
    pub fn read(&self, width: u64, text: &[u8], table: &mut [u64], count: &mut u64, line: &mut u64) -> u64 {
        unsafe { (self.read)(width, text.as_ptr(), text.len(), table.as_mut_ptr(), table.len(), count, line) }
    }
    pub fn save(&self, width: u64, words: &[u64], bytes: &mut [u8], count: &mut u64) -> u64 {
        unsafe { (self.save)(width, words.as_ptr(), words.len(), bytes.as_mut_ptr(), bytes.len(), count) }
    }
    pub fn load(&self, width: u64, bytes: &[u8], n: usize, words: &mut [u64]) -> u64 {
        unsafe { (self.load)(width, bytes.as_ptr(), bytes.len(), n, words.as_mut_ptr(), words.len()) }
    }
}
