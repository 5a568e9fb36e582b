//! What a producer wants to know before the opening, line by line, with the faults counted.
use crate::folder::{Folder, Played, ENTRY, LIMIT};
use crate::l6::{self, Answer, Refusal};
use std::collections::BTreeSet;

/// Where the columns of a stop list stand: each a first character, counted from 0, and how many there are; and what ends the list.
pub struct Form {
    none: bool,
    record: usize,
    stop: [usize; 2],
    recording: [usize; 2],
    branch: [usize; 2],
    end: u8,
}

const BLANK: u8 = 48;

impl Form {
    /// A form of its lines: `record LENGTH`, `end CODE`, and `stop`, `recording`, `branch` with first character and length; or
    /// `none`, for a list that has no stops.
    pub fn of(text: &str) -> Result<Form, String> {
        let mut form = Form { none: false, record: 0, stop: [0; 2], recording: [0; 2], branch: [0; 2], end: 0 };
        for line in text.lines().map(|line| line.split('#').next().unwrap_or("").trim()).filter(|line| !line.is_empty()) {
            let mut words = line.split_whitespace();
            let (name, told) = (words.next().unwrap_or(""), words.map(|word| word.parse().ok()).collect::<Option<Vec<usize>>>());
            match (name, told.as_deref()) {
                ("none", Some(&[])) => form.none = true,
                ("record", Some(&[length])) => form.record = length,
                ("end", Some(&[code])) => form.end = code as u8,
                ("stop", Some(&[at, length])) => form.stop = [at, length],
                ("recording", Some(&[at, length])) => form.recording = [at, length],
                ("branch", Some(&[at, length])) => form.branch = [at, length],
                _ => return Err(format!("the form of the stop list has a line that says nothing: {line}")),
            }
        }
        let inside = [form.stop, form.recording, form.branch].iter().all(|[at, length]| at + length <= form.record);
        if !form.none && (form.record == 0 || !inside) {
            Err("the form of the stop list has a column outside its record".into())
        } else {
            Ok(form)
        }
    }
    /// The records of a list, and what follows the last.
    fn records<'a>(&self, input: &'a [u8]) -> (Vec<&'a [u8]>, &'a [u8]) {
        let mut rest = input;
        let mut records = vec![];
        while rest.len() >= self.record && rest[0] != self.end {
            let (record, later) = rest.split_at(self.record);
            records.push(record);
            rest = later;
        }
        (records, rest)
    }
}

/// A column's number: none where it is blank, and a fault where it has other characters than digits.
fn number(record: &[u8], [at, length]: [usize; 2]) -> Result<Option<u64>, ()> {
    let column = &record[at..at + length];
    if column.iter().all(|&code| code == BLANK) {
        return Ok(None);
    }
    if column.iter().any(|&code| code > 9) {
        return Err(());
    }
    Ok(Some(column.iter().fold(0, |number, &digit| 10 * number + digit as u64)))
}

#[derive(Default)]
pub struct Rehearsal {
    pub faults: u64,
}

impl Rehearsal {
    fn says(&mut self, what: &str, words: String) {
        println!("{what}: {words}");
    }
    fn fault(&mut self, what: &str, words: String) {
        self.faults += 1;
        println!("{what}: FAULT: {words}");
    }
    /// Each stop of a list that no pair has with a recording (l6_silent), once.
    fn silent(stops: &[u64], pairs: &[u64]) -> BTreeSet<u64> {
        let mut told = vec![0; stops.len()];
        let count = l6::silent(stops, pairs, &mut told).expect("an output as long as the list has room");
        told[..count].iter().copied().collect()
    }

    /// Corrections: those that stand, put into the stop list.
    fn correct(&mut self, folder: &Folder, form: &Form) -> Vec<u8> {
        let mut input = folder.input.clone();
        if folder.corrections.is_empty() || form.none {
            return input;
        }
        let mut standing = vec![0; folder.corrections.len() / 2];
        let count = match l6::recordings(&folder.corrections, &mut standing) {
            Ok(count) => count,
            Err(refusal) => {
                self.fault("corrections", format!("{} {refusal}", refusal.number()));
                return input;
            }
        };
        self.says("corrections", format!("{count} recordings stand"));
        let [at, length] = form.recording;
        for pair in standing.chunks(2).take(count) {
            let mut found = false;
            let end = input.len() - form.records(&input).1.len();
            for record in input[..end].chunks_mut(form.record).filter(|record| number(record, form.stop) == Ok(Some(pair[0]))) {
                found = true;
                for (i, digit) in record[at..at + length].iter_mut().rev().enumerate() {
                    *digit = (pair[1] / 10u64.pow(i as u32) % 10) as u8
                }
            }
            if !found {
                self.fault("corrections", format!("stop {} is not in the stop list", pair[0]))
            }
        }
        input
    }

    /// Silent, repeated and unknown stops.
    fn stops(&mut self, form: &Form, input: &[u8], display: &[u64]) {
        if form.none {
            return self.says("stops", "the stop list has none, as its form says".into());
        }
        if input.is_empty() {
            return self.says("stops", "there is no stop list yet".into());
        }
        let (records, rest) = form.records(input);
        if rest.first() != Some(&form.end) {
            self.fault("stops", format!("the list does not end as it should after {} records", records.len()))
        }
        let (mut stops, mut pairs, mut branches) = (vec![], vec![], vec![]);
        for (i, record) in records.iter().enumerate() {
            let Ok(Some(stop)) = number(record, form.stop) else {
                self.fault("stops", format!("record {} has no stop number", i + 1));
                continue;
            };
            stops.push(stop);
            match number(record, form.recording) {
                Ok(recording) => pairs.extend([stop, recording.unwrap_or(0)]),
                Err(()) => self.fault("stops", format!("the recording of stop {stop} is no number")),
            }
            match number(record, form.branch) {
                Ok(None) => {}
                Ok(Some(branch)) => branches.push([stop, branch]),
                Err(()) => self.fault("stops", format!("the branch of stop {stop} is no number")),
            }
        }
        self.says(
            "stops",
            format!("{} in the list, {} on display", stops.len(), if display.is_empty() { stops.len() } else { display.len() }),
        );
        let shown = if display.is_empty() { &stops } else { display };
        for stop in Self::silent(shown, &pairs) {
            self.fault("stops", format!("stop {stop} has no recording"))
        }
        let mut twice = vec![0; stops.len()];
        let count = l6::repeated(&stops, &mut twice).expect("an output as long as the list has room");
        for stop in &twice[..count] {
            self.fault("stops", format!("stop {stop} stands twice"))
        }
        let known: Vec<u64> = stops.iter().flat_map(|&stop| [stop, 1]).collect();
        let unknown = Self::silent(&branches.iter().map(|pair| pair[1]).collect::<Vec<_>>(), &known);
        for [stop, branch] in branches.iter().filter(|pair| unknown.contains(&pair[1])) {
            self.fault("stops", format!("stop {stop} branches to stop {branch}, which is not in the list"));
        }
    }

    /// Opening hours: the rows that they name, which have to be lines.
    fn entries(&mut self, folder: &Folder) -> Vec<u64> {
        if folder.windows.len() + folder.exceptions.len() == 0 {
            return vec![];
        }
        if let l6::Opening::Refused(refusal) = l6::hours(&folder.windows, &folder.exceptions, 0, 0) {
            self.fault("opening hours", format!("{} {refusal}", refusal.number()));
            return vec![];
        }
        self.says("opening hours", format!("{} windows, {} exceptions", folder.windows.len() / 4, folder.exceptions.len() / 5));
        let rows = folder.windows.chunks(4).chain(folder.exceptions.chunks(5)).map(|entry| entry[3]).filter(|&row| row > 0);
        let (lines, others): (BTreeSet<u64>, BTreeSet<u64>) =
            rows.partition(|&row| folder.table.get(10 * row as usize) == Some(&1));
        for row in others {
            self.fault("opening hours", format!("row {row} is no line of the tour"))
        }
        lines.into_iter().collect()
    }

    /// Plays the tour to its end, or to where it stops. A pass starts where the tour, with no DO to be done, goes back to an
    /// earlier line.
    fn play(&mut self, what: &str, folder: &Folder, table: &[u64], input: &[u8]) -> Result<(), String> {
        let mut tour = Played::start(folder.width)?;
        let (mut extended, mut line, mut passes, mut before) = (false, 0, 1, 0);
        while tour.answer == Answer::Running && tour.steps < LIMIT {
            let here = tour.state.row();
            if tour.depth() == 0 && tour.state.place() == l6::Place::Tests {
                if here < line {
                    (passes, before) = (passes + 1, tour.blocks().len())
                }
                line = here;
            }
            tour.step(table, input);
            if tour.answer == Answer::Refused(Refusal::NoRun) && !extended && tour.extend() {
                (extended, tour.answer) = (true, Answer::Running);
                self.says(what, format!("no room for a block at {}: the storage is extended to all its words", folder.at(here)));
            }
        }
        let steps = tour.steps;
        match tour.answer {
            Answer::Finished => self.says(what, format!("to its end, {steps} steps")),
            Answer::Running => self.fault(what, format!("not at its end after {steps} steps, at {}", folder.at(tour.state.row()))),
            Answer::Refused(r) => {
                let at = folder.at(tour.state.row());
                self.fault(what, format!("it stops at step {steps}, {at}: {} {r}", r.number()));
            }
        }
        let taken = tour.state.taken().min(input.len());
        let words = format!("{taken} of {} characters of the stop list taken", input.len());
        if input[taken..].iter().all(|&code| code == BLANK) {
            self.says(what, words)
        } else {
            self.fault(what, words)
        }
        let blocks = tour.blocks();
        let (live, held) = (blocks.len(), blocks.values().sum::<u64>());
        self.says(
            what,
            format!("{live} blocks in use at the end, {held} words; {before} at the start of the last pass, of {passes}"),
        );
        Ok(())
    }

    pub fn all(&mut self, folder: &Folder, form: &Form, display: &[u64]) -> Result<(), String> {
        let input = self.correct(folder, form);
        self.stops(form, &input, display);
        let entries = self.entries(folder);
        if entries.is_empty() {
            return self.play("played", folder, &folder.table, &input);
        }
        for row in entries {
            let mut table = folder.table.clone();
            if let Some(go_to) = table.get_mut(ENTRY) {
                *go_to = row
            }
            self.play(
                &format!("played from {}", folder.at(row as usize).split(", ").next().unwrap_or("")),
                folder,
                &table,
                &input,
            )?;
        }
        Ok(())
    }
}
