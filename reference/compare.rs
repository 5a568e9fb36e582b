//! Holds libplayer.a against the reference engine, byte for byte.   compare SEED STEPS
//! Tours have words of 36 and of 48 bits in turn, and widths that are none are among the damages.
//! First come the cases of `comparison` that are not drawn and set-ups of 4,096 words, then generated tours until so many steps are
//! compared: each is stepped and run from its start, and again from places on its way after damages of its state's bytes, storage,
//! table, input or lengths. Calls go through the header and through the Rust module in turn; wrong lengths are tried with both.
//! With each tour go drawn opening hours, and between steps storage is extended, to drawn last addresses, refused ones among them.
//! Pairs of tours free the same blocks in two orders and then get the same sizes (ticket 14).
//! Before the generated tours, 20,000 lists of words and bytes are saved and loaded by bit columns, as many lists of corrections
//! answered, damaged ones among them, and as many lists of stops looked through for silent and repeated ones, with both and with
//! the safe calls. Before these, 40,000 drafts of tables are checked for fields that are used before they are defined, and those
//! that got a yes are run. Before these, 20,000 texts of L6 lines are read, damaged ones among them, into tables of drawn lengths;
//! each table passes the table check, and printed as typed lines it is read again.
//! Prints how many steps and answers of each number there were, and how many differences.
#![allow(dead_code)]
mod bytes;
mod calls;
mod columns;
mod comparison;
mod damage;
mod defined;
mod drafts;
mod engine;
mod generator;
mod hours;
#[path = "../host/l6.rs"]
mod l6;
mod lists;
mod printed;
mod raw;
mod recordings;
mod silence;
mod texts;
mod typed;

use bytes::*;
use calls::*;
use engine::*;
use generator::*;
use l6::{BadTable, State};
use raw::is_width;
use std::ffi::CStr;

/// Widths that are none.
const OTHERS: [u64; 8] = [0, 35, 37, 40, 47, 49, 1 << 32 | 36, u64::MAX];

/// How many lists are saved and loaded by bit columns, and how many lists of corrections and of stops on display are answered.
const LISTS: u64 = 20_000;

/// How many texts of L6 lines are read.
const TEXTS: u64 = 20_000;

/// How many drafts of tables are checked for fields that are used before they are defined.
const DRAFTS: u64 = 40_000;

/// What was compared so far; `label` says of what the present case is.
#[derive(Default)]
struct Compared {
    steps: u64,
    calls: u64,
    extensions: u64,
    answers: Vec<u64>,
    differences: u64,
    label: String,
    checked: [u64; 5],
    runs: u64,
    used: u64,
    read: [u64; 5],
}

/// Gets and frees in a drawn order, so that live blocks come to stand between free ones.
fn gets_and_frees(rng: &mut Rng) -> Case {
    let d = 1 << rng.below(8);
    let n = d * (1 + rng.below(4096 / d).min(15));
    let mut held = [false; 26];
    let mut operations = vec![row(3, 1, 0, &[(1, d), (1, 7 * d), (1, 7 * d + n - 1)])];
    for _ in 0..300 {
        let (i, largest) = (rng.below(26) as usize, d >> rng.below(8));
        let (bug, size) = ((2, 11 + i as u64), 1 + rng.below(largest));
        operations.push(if held[i] { row(3, 4, 0, &[bug, (1, 0)]) } else { row(3, 3, 0, &[bug, (1, size)]) });
        held[i] = !held[i];
    }
    operations.push(row(3, 3, 0, &[(2, 11), (1, rng.pick(&[0, d, d + 1, 2 * d]))]));
    let lines = vec![Line { operations, ..Line::default() }];
    Case { lines, storage: (n + rng.pick(&[2, d, 2 * d, 16 * d])) as usize, limit: 310, ..Case::default() }
}
/// Rooms that are built, closed in an order, and then others built: gets of sizes, frees of some of them, gets of other sizes.
fn closing(sizes: &[u64], order: &[u64], wanted: &[u64]) -> Given {
    let bug = |i: u64| (2, 11 + i);
    let get = |(i, &size): (u64, &u64)| row(3, 3, 0, &[bug(i), (1, size)]);
    let mut operations = vec![row(3, 1, 0, &[(1, 16), (1, 16), (1, 111)])];
    operations.extend((0..).zip(sizes).map(get));
    operations.extend(order.iter().map(|&i| row(3, 4, 0, &[bug(i), (1, 0)])));
    operations.extend((12..).zip(wanted).map(get));
    let lines = vec![Line { operations, ..Line::default() }];
    Given { table: Case { lines, ..Case::default() }.table(), input: vec![] }
}
/// The reference engine on what is lent.
fn engine_of(given: &Given, tour: &Tour) -> Engine {
    Engine::fresh(given.table.clone(), given.input.clone(), vec![], tour.output.len(), 36)
    // it goes by the tour's width
}

impl Compared {
    fn same<T: PartialEq>(&mut self, what: &str, library: T, reference: T) -> bool {
        let same = library == reference;
        if !same {
            self.differences += 1;
            if self.differences <= 20 {
                eprintln!("{}: {what} differs", self.label)
            }
        }
        same
    }
    fn same_tour(&mut self, library: &Tour, reference: &Tour) -> bool {
        self.same("the state", &library.state, &reference.state)
            & self.same("the storage", &library.storage, &reference.storage)
            & self.same("the output", &library.output, &reference.output)
    }
    fn answered(&mut self, answer: u64, steps: u64) {
        self.steps += steps;
        self.calls += 1;
        self.answers[answer.min(108) as usize] += 1;
    }

    // ------------------------------------------------------------ walks

    /// Up to so many calls of step, with extensions between. Gives the tours on the way.
    fn by_steps(&mut self, calls: &Calls, rng: &mut Rng, given: &Given, start: &Tour, limit: u64) -> Vec<Tour> {
        let (mut engine, mut tour, mut passed) = (engine_of(given, start), start.clone(), vec![start.clone()]);
        for _ in 0..limit {
            if rng.below(16) == 0 {
                let Some(longer) = self.extended(calls, rng, &tour) else { break };
                tour = longer.clone();
                passed.push(longer);
            }
            let mut report = [77; 12];
            let answer = calls.step(given, &mut tour, &mut report);
            let mut other = passed[passed.len() - 1].clone();
            let (expected, _, reported) = other.walk(&mut engine, 1);
            self.answered(answer, 1);
            let same = self.same("a step's answer", answer, expected) & self.same("a report", report, reported);
            if !(self.same_tour(&tour, &other) & same) {
                break;
            }
            passed.push(other);
            if answer == 17 {
                let Some(longer) = self.extended(calls, rng, &tour) else { break };
                if longer == tour {
                    break;
                }
                tour = longer.clone();
                passed.push(longer);
            } else if answer != 0 {
                break;
            }
        }
        passed
    }
    /// An extension to a drawn last address, mostly of the right form. Gives the tour after it.
    fn extended(&mut self, calls: &Calls, rng: &mut Rng, tour: &Tour) -> Option<Tour> {
        let [d, s1, s2] = tour.setup();
        let blocks = rng.pick(&[1, 1, 1, 2, 3, 16, 4096]);
        let near = [s2 + d, s2 + d / 2, s2 + 1, s2, s2 - s2.min(d), s1, 0, 32767, 32768, 1 << 16 | (s2 + d), u64::MAX];
        let last = if rng.chance(60) { s2 + d * blocks } else { rng.pick(&near) };
        let (mut library, mut other) = (tour.clone(), tour.clone());
        let (answer, expected) = (calls.extend(&mut library, last), other.extend(last));
        self.answered(answer, 0);
        self.extensions += (answer == 0) as u64;
        let same = self.same("an extension's answer", answer, expected);
        (self.same_tour(&library, &other) & same).then_some(other)
    }
    /// Calls of run with drawn limits, until so many steps are taken or a run does not go on.
    fn by_runs(&mut self, calls: &Calls, rng: &mut Rng, given: &Given, start: &Tour, limit: u64) {
        let (mut engine, mut tour, mut other, mut left) = (engine_of(given, start), start.clone(), start.clone(), limit);
        while left > 0 {
            let portion = rng.pick(&[0, 1, 2, 7, 30, 100, left]).min(left);
            let mut count = 77;
            let answer = calls.run(given, &mut tour, portion, &mut count);
            let (expected, taken, _) = other.walk(&mut engine, portion);
            self.answered(answer, taken);
            let same = self.same("a run's answer", answer, expected) & self.same("a count", count, taken);
            if !(self.same_tour(&tour, &other) & same) || answer != 0 {
                break;
            }
            left -= taken;
        }
    }

    // ------------------------------------------------------------ the other calls

    /// The blocks of a state: counts and both lists.
    fn blocks(&mut self, calls: &Calls, tour: &Tour) {
        let expected = tour.blocks();
        let mut counts = [77; 2];
        let answer = calls.count_blocks(&tour.state, &mut counts);
        self.answered(answer, 0);
        let wanted = expected.as_ref().map_or([77; 2], |lists| [0, 1].map(|i| lists[i].len() as u64 / 2));
        let refusal = expected.as_ref().err().copied().unwrap_or(0);
        self.same("an answer on counts of blocks", answer, refusal);
        self.same("counts of blocks", counts, wanted);
        for (live, which) in [(1, 0), (u64::MAX, 0), (0, 1)] {
            let wanted = expected.as_ref().map_or(vec![77; 4], |lists| lists[which].clone());
            let mut list = vec![77; wanted.len()];
            let answer = calls.list_blocks(&tour.state, live, &mut list);
            self.answered(answer, 0);
            self.same("an answer on a list of blocks", answer, refusal);
            self.same("a list of blocks", list, wanted);
        }
    }
    fn table(&mut self, calls: &Calls, rng: &mut Rng, table: &[u64]) {
        for width in [36, 48, rng.pick(&OTHERS)] {
            let mut row = 77;
            let answer = calls.check(width, table, &mut row);
            self.answered(answer, 0);
            let expected = lowest_ill_formed(width, table).map_or_else(|refusal| (refusal, 77), |lowest| (0, lowest));
            self.same("the table check", (answer, row), expected);
        }
    }
    /// The check of fields by a call, and by the Rust module's safe one. Gives whether the table got a yes.
    fn fields(&mut self, calls: &Calls, width: u64, table: &[u64]) -> bool {
        let (mut row, mut field) = (77, 77);
        let answer = calls.defined(width, table, &mut row, &mut field);
        self.answered(answer, 0);
        let expected = defined::check(width, table);
        let (wanted, safe) = match expected {
            defined::Finding::Yes => ((0, 77, 77), Ok(())),
            defined::Finding::No(row, field) => ((106, row, field), Err(l6::NotDefined::Field { row, field })),
            defined::Finding::NoWidth => ((31, 77, 77), Err(l6::NotDefined::Width)),
            defined::Finding::BadLength => ((1, 77, 77), Err(l6::NotDefined::Length)),
            defined::Finding::IllFormed(row) => ((107, row, 77), Err(l6::NotDefined::Row(row))),
            defined::Finding::WrongKind(row) => ((30, row, 77), Err(l6::NotDefined::Kinds(row))),
        };
        self.same("the check of fields", (answer, row, field), wanted);
        self.same("a safe check of fields", l6::defined(width, table), safe);
        answer == 0
    }
    /// A draft of a table: checked, and run from fresh engines with drawn stops where it got a yes; no run may meet 14.
    fn draft(&mut self, rng: &mut Rng, turn: u64) {
        let table = drafts::draft(rng);
        let calls = if turn % 2 == 0 { &HEADER } else { &MODULE };
        let width = [36, 36, 48, 48][turn as usize % 4];
        let yes = self.fields(calls, width, &table);
        let kind = match defined::check(width, &table) {
            defined::Finding::Yes => 0,
            defined::Finding::No(..) => 1,
            defined::Finding::NoWidth | defined::Finding::BadLength => 2,
            defined::Finding::IllFormed(_) => 3,
            defined::Finding::WrongKind(_) => 4,
        };
        self.checked[kind] += 1;
        if !yes {
            return;
        }
        for _ in 0..4 {
            let given = Given { table: table.clone(), input: (0..rng.below(40)).map(|_| rng.below(10) as u8).collect() };
            let mut tour = Tour::fresh(width, (0..64).map(|_| rng.next() >> 28).collect(), vec![0; 64]);
            let mut count = 77;
            let answer = calls.run(&given, &mut tour, 500, &mut count);
            self.answered(answer, 0);
            self.runs += 1;
            self.used += drafts::refers(&table) as u64;
            self.same("a run of a table that got a yes", answer == 14, false);
        }
    }
    /// Numbers, words and names of the header against the Rust module's.
    fn defined_constants(&mut self) {
        self.same("the header's numbers of the check of fields", unsafe { header_undefined }, [30, 106, 107]);
        for field in 0..40 {
            self.same("a field's name", unsafe { header_field(field) } as char, l6::field_name(field));
        }
    }
    /// Opening hours by a call, and by the Rust module's safe one.
    fn opening(&mut self, calls: &Calls, rng: &mut Rng) {
        let lists = lists::lists(rng);
        let mut row = 77;
        let answer = calls.hours(&lists, &mut row);
        self.answered(answer, 0);
        let expected = hours::open_at(&lists.windows, &lists.exceptions, lists.day, lists.minute);
        let (wanted, safe) = match expected {
            Ok(Some(row)) => ((0, row), l6::Opening::Row(row)),
            Ok(None) => ((104, 77), l6::Opening::Closed),
            Err(refusal) => ((refusal, 77), l6::Opening::Refused(l6::Refusal::Hours)),
        };
        self.same("opening hours", (answer, row), wanted);
        self.same("safe opening hours", l6::hours(&lists.windows, &lists.exceptions, lists.day, lists.minute), safe);
    }
    /// Buffers of fixed length that have another one: the answers in their order, and nothing changed.
    fn lengths(&mut self, calls: &Calls, rng: &mut Rng, given: &Given, tour: &Tour) {
        let blocks = tour.blocks();
        let state = rng.pick(&[0, 1, STATE - 1, STATE, STATE, STATE + 1, 2 * STATE]);
        let numbers = rng.pick(&[0, 1, 3, 11, 13, 24]);
        let mut wrong = tour.clone();
        wrong.state.resize(state, 5);
        let (before, mut list, mut count) = (wrong.clone(), vec![77; numbers], 77);
        let bad = |otherwise| if state == STATE { otherwise } else { 101 };
        let answer = calls.step(given, &mut wrong, &mut list);
        self.answered(answer, 0);
        self.same("an answer on lengths of a step", answer, bad(if blocks == Err(31) { 31 } else { 102 }));
        if state != STATE {
            let answers =
                [calls.run(given, &mut wrong, 9, &mut count), calls.fresh(48, &mut wrong.state), calls.extend(&mut wrong, 15)];
            for answer in answers {
                self.answered(answer, 0)
            }
            self.same("answers on a state's length", answers, [101; 3]);
        }
        let answer = calls.count_blocks(&wrong.state, &mut list);
        self.answered(answer, 0);
        self.same("an answer on lengths of counts", answer, bad(if blocks == Err(31) { 31 } else { 103 }));
        for (live, which) in [(0, 1), (1, 0)] {
            let fits = blocks.as_ref().is_ok_and(|lists| lists[which].len() == numbers);
            if state == STATE && fits {
                continue;
            }
            let answer = calls.list_blocks(&wrong.state, live, &mut list);
            self.answered(answer, 0);
            self.same("an answer on lengths of a list", answer, bad(blocks.as_ref().err().copied().unwrap_or(103)));
        }
        self.same("what is lent with wrong lengths", (list, count), (vec![77; numbers], 77));
        self.same_tour(&wrong, &before);
    }
    /// The Rust module's safe calls, and what both it and the header read of a state.
    fn wrapped(&mut self, given: &Given, start: &Tour) {
        let (mut engine, mut tour, mut other) = (engine_of(given, start), start.clone(), start.clone());
        let mut state = State::from_bytes(&start.state).unwrap();
        let mut lent = l6::Lent { table: &given.table, storage: &mut tour.storage, input: &given.input, output: &mut tour.output };
        let number = |answer| match answer {
            l6::Answer::Running => 0,
            l6::Answer::Finished => 100,
            l6::Answer::Refused(k) => k.number(),
        };
        let ((stepped, report), (ran, count)) = (state.step(&mut lent), state.run(&mut lent, 5));
        tour.state = state.bytes().to_vec();
        let (a, _, reported) = other.walk(&mut engine, 1);
        let (b, taken, _) = other.walk(&mut engine, 5);
        self.answered(number(stepped), 1);
        self.answered(number(ran), taken);
        let stores = [report.first, report.second].map(|s| [s.address, s.left, s.right, s.bits]);
        let report = [&[report.freed, report.delivered, report.size, report.copied][..], &stores.concat()].concat();
        self.same("a safe step", (number(stepped), &report[..]), (a, &reported[..]));
        self.same("a safe run", (number(ran), count), (b, taken));
        let [d, _, s2] = other.setup();
        let longer = state.extend(&mut tour.storage, s2 + d).map_or_else(|refusal| refusal.number(), |_| 0);
        tour.state = state.bytes().to_vec();
        self.same("a safe extension", longer, other.extend(s2 + d));
        self.same_tour(&tour, &other);
        let list = |blocks: Vec<l6::Block>| blocks.iter().flat_map(|b| [b.address, b.size]).collect::<Vec<_>>();
        let lists = state.live_blocks().and_then(|live| Ok([list(live), list(state.free_blocks()?)]));
        self.same("a safe list", lists.map_err(|refusal| refusal.number()), other.blocks());
        for width in [36, 48, 40] {
            let expected = match lowest_ill_formed(width, &given.table) {
                Err(31) => Err(BadTable::Width),
                Err(_) => Err(BadTable::Length),
                Ok(0) => Ok(()),
                Ok(k) => Err(BadTable::Row(k)),
            };
            self.same("a safe check", l6::check(width, &given.table), expected);
        }
        let mut reads = [0; 10];
        unsafe { header_reads(tour.state.as_ptr(), reads.as_mut_ptr()) };
        let two = |i: usize| tour.state[i] as u64 + 256 * tour.state[i + 1] as u64;
        let row = if tour.state[0] == 1 { two(1) } else { two(3) };
        let eight = |i: usize| u64::from_le_bytes(tour.state[i..i + 8].try_into().unwrap());
        let words = if two(21) == 0 { 0 } else { two(25).wrapping_sub(two(23)).wrapping_add(1) };
        let wanted = [
            tour.state[0] as u64,
            row,
            two(3),
            eight(5),
            eight(13),
            two(21),
            two(23),
            two(25),
            tour.state[STATE - 1] as u64,
            words,
        ];
        self.same("what the header reads", reads, wanted);
        let safe = [state.place() as usize, state.row(), state.taken(), state.written()].map(|n| n as u64);
        self.same("what the module reads", safe, [tour.state[0].min(4) as u64, row, eight(5), eight(13)]);
        self.same("the width that the module reads", state.width(), tour.state[STATE - 1] as u64);
        self.same("the set-up that the module reads", state.setup().map(|n| n as u64), [two(21), two(23), two(25)]);
        self.same("the words that the module reads", state.words() as u64, words);
    }
    /// Numbers and words of the header against the Rust module's.
    fn constants(&mut self) {
        let numbers: Vec<u64> = [6676, 12].into_iter().chain(0..=22).chain(26..=29).chain([31, 32]).chain(100..=104).collect();
        self.same("the header's numbers", unsafe { header_constants }, numbers[..].try_into().unwrap());
        self.same("the module's length", l6::STATE_LENGTH, STATE);
        let mut versions = [0; 2];
        unsafe { header_version(versions.as_mut_ptr()) };
        self.same("the versions", [versions[0], versions[1], l6::VERSION, l6::version()], [1; 4]);
        let words = |answer| unsafe { CStr::from_ptr(header_words(answer)) }.to_str().unwrap();
        self.same("words of closed", words(104), &l6::Opening::Closed.row().unwrap_err());
        for (refusal, _) in l6::REFUSALS {
            self.same("words", words(refusal.number()), &refusal.to_string());
        }
        let characters = |code| (unsafe { header_character(code) } as char, l6::character(code));
        (0..=255).for_each(|code| {
            let (c, rust) = characters(code);
            self.same("a character", c, rust);
        });
        for calls in [&HEADER, &MODULE] {
            for width in [36, 48, 0, 35, 37, 40, 47, 49, 1 << 8 | 36, 1 << 32 | 48, u64::MAX] {
                let mut state = vec![77; STATE];
                let answer = calls.fresh(width, &mut state);
                self.same("an answer on a width without a state", calls.fresh(width, &mut []), if answer == 0 { 101 } else { 31 });
                let expected = if is_width(width) { (0, Tour::fresh(width, vec![], vec![]).state) } else { (31, vec![77; STATE]) };
                self.same("a fresh state", (answer, &state), (expected.0, &expected.1));
                let safe = State::fresh(width).map(|made| made.bytes().to_vec()).map_err(|refusal| refusal.number());
                self.same("a safe fresh state", safe, if expected.0 == 0 { Ok(expected.1) } else { Err(31) });
            }
        }
    }

    /// Re-recorded stops of drawn corrections.
    fn corrected(&mut self, rng: &mut Rng) {
        let list = lists::corrections(rng);
        let enough = list.len() / 2;
        let room = rng.pick(&[enough, enough, enough / 2, enough / 4, 0, 1, 2, 3]);
        let mut wanted = vec![77; room];
        let expected = recordings::written(&list, &mut wanted);
        for calls in [&HEADER, &MODULE] {
            let (mut output, mut count) = (vec![77; room], 77);
            let answer = calls.recordings(&list, &mut output, &mut count);
            self.answered(answer, 0);
            self.same("corrections", (answer, count, &output), (expected.err().unwrap_or(0), expected.unwrap_or(77), &wanted));
        }
        let mut output = vec![77; room];
        let safe = l6::recordings(&list, &mut output).map_or_else(|refusal| Err(refusal.number()), |count| Ok(count as u64));
        self.same("safe corrections", (safe, output), (expected, wanted));
    }

    /// Silent and repeated stops of drawn lists, with room for all, for one fewer and for a drawn number.
    fn displayed(&mut self, rng: &mut Rng) {
        let (stops, pairs) = lists::displayed(rng);
        let all = stops.len();
        let found = silence::silent(&stops, &pairs, &mut vec![0; all]).unwrap() as usize;
        let twice = silence::repeated(&stops, &mut vec![0; all]).unwrap() as usize;
        let drawn = rng.below(all as u64 + 1) as usize;
        for room in [all + 1, found, found.saturating_sub(1), twice, twice.saturating_sub(1), drawn] {
            let mut wanted = [vec![77; room], vec![77; room]];
            let expected = [silence::silent(&stops, &pairs, &mut wanted[0]), silence::repeated(&stops, &mut wanted[1])];
            for calls in [&HEADER, &MODULE] {
                let (mut output, mut count) = ([vec![77; room], vec![77; room]], [77; 2]);
                let answers = [
                    calls.silent(&stops, &pairs, &mut output[0], &mut count[0]),
                    calls.repeated(&stops, &mut output[1], &mut count[1]),
                ];
                answers.iter().for_each(|&answer| self.answered(answer, 0));
                let told = (expected.map(|e| e.err().unwrap_or(0)), expected.map(|e| e.unwrap_or(77)), &wanted);
                self.same("silent and repeated stops", (answers, count, &output), told);
            }
            let mut output = [vec![77; room], vec![77; room]];
            let safe = [l6::silent(&stops, &pairs, &mut output[0]), l6::repeated(&stops, &mut output[1])];
            let safe = safe.map(|told| told.map(|count| count as u64).map_err(|refusal| refusal.number()));
            self.same("safe silent and repeated stops", (safe, output), (expected, wanted));
        }
    }

    /// Ticket 14: rooms closed in two drawn orders. What is delivered afterwards, and where there is no room, is the same.
    fn rooms(&mut self, rng: &mut Rng) -> Vec<u64> {
        let sizes: Vec<u64> = (0..12).map(|_| 1 + rng.below(8)).collect();
        let wanted: Vec<u64> = (0..12).map(|_| 1 + rng.below(16)).collect();
        let mut order: Vec<u64> = (0..12).filter(|_| rng.chance(60)).collect();
        let mut answers = [vec![], vec![]];
        for (turn, calls) in [&HEADER, &MODULE].into_iter().enumerate() {
            (1..order.len()).for_each(|i| order.swap(i, rng.below(i as u64 + 1) as usize));
            let (given, mut tour, mut report) =
                (closing(&sizes, &order, &wanted), Tour::fresh([36, 48][turn], vec![0; 96], vec![]), [0; 12]);
            let mut answer = 0;
            while answer == 0 {
                answer = calls.step(&given, &mut tour, &mut report);
                self.answered(answer, 1);
                answers[turn].push(if report[2] == 0 { answer } else { report[1] });
            }
        }
        self.same("rooms closed in either order", &answers[0], &answers[1]);
        answers[0].split_off(14 + order.len())
    }
    /// A drawn text of L6 lines, read into a drawn length of table; what is read passes the table check.
    fn typed(&mut self, rng: &mut Rng) {
        let text = texts::text(rng);
        let width = rng.pick(&[36, 36, 36, 48, 48, 48, 40]);
        let room = texts::room(rng, width, &text);
        let expected = typed::read(width, &text, room);
        let (answer, told) = expected.as_ref().err().copied().unwrap_or((0, 77));
        let line = if answer == 31 { 77 } else { told };
        let rows = expected.as_ref().map_or(77, |rows| rows.len() as u64 / 10);
        let mut wanted = expected.unwrap_or_default();
        let read = wanted.len();
        wanted.resize(room, 77);
        for calls in [&HEADER, &MODULE] {
            let (mut table, mut count, mut at) = (vec![77; room], 77, 77);
            let found = calls.read(width, &text, &mut table, &mut count, &mut at);
            self.answered(found, 0);
            self.same("typed lines", (found, count, at), (answer, rows, line));
            self.same("the table of typed lines", &table, &wanted);
            if found != 0 {
                continue;
            }
            let mut lowest = 77;
            let checked = calls.check(width, &table[..read], &mut lowest);
            self.same("the check of a table that was typed", (checked, lowest), (0, 0));
        }
        if answer == 0 {
            let mut again = vec![77; room];
            let back = l6::read(width, printed::printed(&wanted[..read]).as_bytes(), &mut again).ok();
            self.same("a table printed as typed lines and read again", (back, &again), (Some(rows as usize), &wanted));
        }
        let mut table = vec![77; room];
        let safe = l6::read(width, &text, &mut table).map_err(|(refusal, line)| (refusal.number(), line));
        self.same("typed lines read safely", safe, if answer == 0 { Ok(rows as usize) } else { Err((answer, told)) });
        self.same("the table of typed lines read safely", table, wanted);
        self.read[match answer {
            0 => 0,
            31 => 4,
            _ => answer as usize - 22,
        }] += 1;
    }

    // ------------------------------------------------------------ storage kept by bit columns

    /// What a call left in a buffer of 77s, and what the reference says: answer, and what is written at the start.
    fn kept<T: PartialEq + Copy + From<u8>>(&mut self, what: &str, answer: u64, buffer: &[T], expected: &Result<Vec<T>, u64>) {
        self.answered(answer, 0);
        let mut wanted = expected.clone().unwrap_or_default();
        wanted.resize(buffer.len(), T::from(77));
        self.same(what, (answer, buffer), (expected.as_ref().err().copied().unwrap_or(0), &wanted[..]));
    }
    fn saved(&mut self, b: u64, words: &[u64], room: usize) {
        let expected = columns::save(b, words, room);
        for calls in [&HEADER, &MODULE] {
            let (mut bytes, mut count) = (vec![77; room], 77);
            let answer = calls.save(b, words, &mut bytes, &mut count);
            self.kept("what is saved", answer, &bytes, &expected);
            self.same("a count of bytes", count, expected.as_ref().map_or(77, |bytes| bytes.len() as u64));
        }
        let mut bytes = vec![77; room];
        let answer = l6::save(b, words, &mut bytes);
        self.kept("what is saved safely", answer.map_or_else(|reason| reason.number(), |_| 0), &bytes, &expected);
        self.same("a safe count of bytes", answer.ok(), expected.ok().map(|bytes| bytes.len()));
    }
    fn loaded(&mut self, b: u64, bytes: &[u8], n: usize, room: usize) {
        let expected = columns::load(b, bytes, n, room);
        for calls in [&HEADER, &MODULE] {
            let mut words = vec![77; room];
            let answer = calls.load(b, bytes, n, &mut words);
            self.kept("what is loaded", answer, &words, &expected);
        }
        let mut words = vec![77; room];
        let answer = l6::load(b, bytes, n, &mut words).map_or_else(|reason| reason.number(), |_| 0);
        self.kept("what is loaded safely", answer, &words, &expected);
    }
    /// Drawn words saved and loaded, some of them, their bytes, widths and lengths damaged.
    fn columns(&mut self, rng: &mut Rng) {
        let width = rng.pick(&[36, 48]);
        let mut words: Vec<u64> = (0..rng.below(70)).map(|_| rng.next() >> (64 - width) >> rng.below(width)).collect();
        let length = columns::groups(words.len()) * width as usize;
        let mut bytes = columns::save(width, &words, length).unwrap();
        let (given, room) = (words.len(), words.len());
        if !words.is_empty() && rng.below(4) == 0 {
            words[rng.below(room as u64) as usize] ^= 1 << rng.below(64)
        }
        if !bytes.is_empty() && rng.below(3) == 0 {
            let last = bytes.len() as u64 - 1;
            bytes[(last - rng.below(last + 1).min(rng.next() % 200)) as usize] ^= 1 << rng.below(8);
        }
        if rng.below(8) == 0 {
            bytes.resize(rng.pick(&[0, 35, 36, 37, 48, length + 1, length + 36, length.saturating_sub(1)]), 0)
        }
        let b = if rng.below(8) == 0 { rng.pick(&[0, 1, 8, 35, 37, 47, 49, 64, 292, 1 << 32 | 36, u64::MAX]) } else { width };
        let near = |rng: &mut Rng, n: usize| rng.pick(&[n, n, n, n, n + 1, n + 100, n.saturating_sub(1), 0]);
        let most = [given, given, given, given + 1, given + 8, given.saturating_sub(1), 0, usize::MAX, usize::MAX - 7, 1 << 63];
        let (to, n, room) = (near(rng, length), rng.pick(&most), near(rng, room));
        self.saved(b, &words, to);
        self.loaded(b, &bytes, n, room);
    }
    /// Numbers, words and lengths of the header against the Rust module's.
    fn kept_constants(&mut self) {
        self.same("the header's numbers of what is kept", unsafe { header_kept }, [33, 34, 35]);
        for (reason, _) in l6::NOT_KEPT {
            let words = unsafe { CStr::from_ptr(header_words(reason.number())) }.to_str().unwrap();
            self.same("words of what is kept", words, &reason.to_string());
        }
        for n in 0..100 {
            for b in [36, 48] {
                let lengths = [unsafe { header_saved_length(b, n) }, l6::saved_length(b, n)];
                self.same("a length of what is saved", lengths, [columns::groups(n) * b as usize; 2]);
            }
        }
    }

    // ------------------------------------------------------------ the cases

    /// Everything on one tour from its start.
    fn whole(&mut self, turn: u64, rng: &mut Rng, given: &Given, start: &Tour, limit: u64) -> Vec<Tour> {
        let (one, other) = if turn % 2 == 0 { (&HEADER, &MODULE) } else { (&MODULE, &HEADER) };
        let passed = self.by_steps(one, rng, given, start, limit);
        self.by_runs(other, rng, given, start, limit);
        let last = &passed[passed.len() - 1];
        self.blocks(one, last);
        self.table(other, rng, &given.table);
        for width in [36, 48, 40] {
            self.fields(one, width, &given.table);
        }
        for calls in [one, other] {
            self.opening(calls, rng)
        }
        self.lengths(one, rng, given, last);
        self.lengths(other, rng, given, start);
        self.wrapped(given, &passed[passed.len() / 2]);
        passed
    }
    /// A generated tour, every eighth of gets and frees alone, and again after damages on its way.
    fn drawn(&mut self, seed: u64, i: u64) {
        let mut rng = Rng(seed ^ !i << 20);
        let bits = [36, 48][i as usize % 2];
        let case = if i % 8 >= 6 { Case { bits, ..gets_and_frees(&mut rng) } } else { make(bits, seed, i) };
        let given = Given { table: case.table(), input: case.input };
        let storage = (0..case.storage).map(|_| rng.next() >> rng.below(64)).collect();
        let start = Tour::fresh(bits, storage, (0..case.output).map(|_| rng.next() as u8).collect());
        let passed = self.whole(i, &mut rng, &given, &start, case.limit);
        for turn in 0..12 {
            let mut tour = passed[rng.below(passed.len() as u64) as usize].clone();
            let mut given = given.clone();
            for _ in 0..rng.pick(&[1, 1, 1, 2, 5]) {
                damage::spoil(&mut rng, &mut given, &mut tour)
            }
            self.whole(turn, &mut rng, &given, &tour, 60);
        }
    }
    /// A set-up of 4,096 words with each d, and gets of one word.
    fn large(&mut self) {
        for d in (0..8).map(|k| 1 << k) {
            let set_up = row(3, 1, 0, &[(1, d), (1, d), (1, d + 4095)]);
            let gets = Line { operations: vec![row(3, 3, 0, &[named("W"), (1, 1)])], goto: 2, ..Line::default() };
            let lines = vec![Line { operations: vec![set_up], ..Line::default() }, gets];
            let given = Given { table: Case { lines, ..Case::default() }.table(), input: vec![] };
            let start = Tour::fresh(if d % 3 == 1 { 36 } else { 48 }, vec![u64::MAX; 4100], vec![]);
            for tour in self.whole(d, &mut Rng(d), &given, &start, 100) {
                self.blocks(&HEADER, &tour)
            }
        }
    }
}

fn main() {
    let arguments: Vec<u64> = std::env::args().skip(1).filter_map(|text| text.parse().ok()).collect();
    let [seed, steps] = arguments[..] else { return eprintln!("usage: compare SEED STEPS") };
    let mut compared = Compared { answers: vec![0; 109], label: "constants".to_string(), ..Compared::default() };
    compared.constants();
    compared.label = "large set-ups".to_string();
    compared.large();
    for (i, trial) in [comparison::fixed(36), comparison::fixed(48)].concat().iter().enumerate() {
        compared.label = format!("case {i} of comparison");
        let (engine, raw) = trial.started();
        let given = Given { table: engine.lent.table, input: engine.lent.input };
        compared.whole(i as u64, &mut Rng(i as u64), &given, &written(raw), trial.limit);
    }
    compared.kept_constants();
    compared.defined_constants();
    compared.same("the header's numbers of typed lines", unsafe { header_typed }, [23, 24, 25]);
    let mut rng = Rng(seed ^ 23);
    for i in 0..TEXTS {
        compared.label = format!("text {i} of seed {seed}");
        compared.typed(&mut rng);
    }
    let mut rng = Rng(seed ^ 14);
    for i in 0..DRAFTS {
        compared.label = format!("draft {i} of seed {seed}");
        compared.draft(&mut rng, i);
    }
    let mut rng = Rng(seed ^ 3648);
    for i in 0..LISTS {
        compared.label = format!("lists {i} of seed {seed}");
        compared.columns(&mut rng);
        compared.corrected(&mut rng);
    }
    let mut rng_of_stops = Rng(seed ^ 32);
    for i in 0..LISTS {
        compared.label = format!("stops {i} of seed {seed}");
        compared.displayed(&mut rng_of_stops);
    }
    let mut rooms = vec![];
    for i in 0..1000 {
        compared.label = format!("rooms {i} of seed {seed}");
        rooms = compared.rooms(&mut rng);
    }
    let mut i = 0;
    while compared.steps < steps {
        compared.label = format!("tour {i} of seed {seed}");
        compared.drawn(seed, i);
        i += 1;
    }
    println!("{} steps in {} calls, {i} generated tours of seed {seed}", compared.steps, compared.calls);
    println!("{} extensions of storage that were not refused", compared.extensions);
    println!("1,000 pairs of tours that close rooms in two orders; the last two both go on at {rooms:?}");
    println!("{LISTS} lists saved, as many loaded, and as many of corrections, each by three calls");
    let [yes, no, length, rows, kinds] = compared.checked;
    println!(
        "{DRAFTS} drafts checked: {yes} yes ({} in a hundred), {no} no, {kinds} by 30, {rows} ill-formed, {length} by 1; \
         {} runs of those with a yes, {} of them with references to fields",
        100 * yes / DRAFTS,
        compared.runs,
        compared.used
    );
    let [tables, lines, labels, lengths, widths] = compared.read;
    println!(
        "{TEXTS} texts read, each by three calls: {tables} tables, {lines} by 23, {labels} by 24, \
         {lengths} by 25, {widths} by 31; the tables printed and read again"
    );
    for (answer, count) in compared.answers.iter().enumerate() {
        match answer {
            0 => println!("running, or done: {count} calls"),
            100 => println!("finished: {count}"),
            101..=103 => println!("wrong length, {answer}: {count}"),
            104 => println!("closed: {count}"),
            106 => println!("a field not defined: {count}"),
            107 => println!("an ill-formed row: {count}"),
            1..=35 => println!("refusal {answer}: {count}"),
            _ if *count > 0 => println!("an unknown answer, {answer}: {count}"),
            _ => {}
        }
    }
    println!("{} differences", compared.differences);
    std::process::exit((compared.differences > 0) as i32);
}
