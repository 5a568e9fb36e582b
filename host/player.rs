//! An example host: plays the tour of a folder.   player FOLDER [--width 36|48] [--stop-after STEPS] [--at SECONDS] It reads the
//! table tour.tab, or where there is none the typed lines tour.l6, and the stop list stops.in, and prints what the guide says;
//! progress goes to standard error. Where there are opening hours, windows.tab and exceptions.tab, the tour starts at the entry
//! line for the time of UTC, or not at all; --at gives another time, in seconds since 1970. Where there are corrections,
//! corrections.tab, the recordings that stand are put into the stop list (that of tours/museum.l6). With --stop-after it stops
//! after so many steps and saves the tour as tour.saved; the next call goes on from there. It is saved too where a refused tour can
//! go on with more than was lent to it, and stays as it was after any other refusal. Where a tour has no room for a block, its
//! storage is extended once to all the words there are, and it goes on. Words have 36 bits where no width is given; a saved tour
//! goes on at its own.
mod l6;

use l6::{numbers, Answer, Lent, Refusal, State, STATE_LENGTH, VERSION};
use std::process::ExitCode;

const ENTRY: usize = 16; // the go-to of row 1, where a tour starts
const DAY: u64 = 86400; // in seconds
const DAYS_TO_2000: u64 = 10957; // since 1970

/// What a tour goes on with, state, storage and output: these are saved together, after the version of the library and with the
/// entry.
struct Tour(State, Vec<u64>, Vec<u8>, u64);

impl Tour {
    fn of_bytes(bytes: &[u8]) -> Option<Tour> {
        let (state, rest) = bytes.split_at_checked(STATE_LENGTH)?;
        let (storage, rest) = rest.split_at_checked(8 * 4096)?;
        let (output, entry) = rest.split_at_checked(4096)?;
        Some(Tour(State::from_bytes(state)?, numbers(storage), output.to_vec(), numbers(entry.get(..8)?)[0]))
    }
    /// Takes up a saved tour.
    fn resume(bytes: &[u8]) -> Result<Tour, &str> {
        match bytes.split_at_checked(8) {
            Some((version, _)) if version != VERSION.to_le_bytes() => Err("tour.saved is of another version of the library"),
            Some((_, rest)) => Tour::of_bytes(rest).ok_or("tour.saved is no saved tour"),
            None => Err("tour.saved is no saved tour"),
        }
    }
    fn bytes(&self) -> Vec<u8> {
        let Tour(state, storage, output, entry) = self;
        let storage: Vec<u8> = storage.iter().flat_map(|word| word.to_le_bytes()).collect();
        [&VERSION.to_le_bytes(), &state.bytes()[..], &storage, output, &entry.to_le_bytes()].concat()
    }
    /// Saves it: a new file takes the place of the old one only when all of it is there.
    fn save(&self) -> std::io::Result<()> {
        std::fs::write("tour.saving", self.bytes())?;
        std::fs::rename("tour.saving", "tour.saved")
    }
}

/// What a tour can go on with after a refusal.
fn wanted(refusal: Refusal) -> Option<&'static str> {
    match refusal {
        Refusal::InputShort => Some("a longer stop list"),
        Refusal::NoRun => Some("more storage"),
        Refusal::OutputFull => Some("a longer output"),
        _ => None,
    }
}

/// Where a tour starts: the entry line for the time, or the table's own where no hours are kept. A clock that stands before 2000
/// shows no time, and the museum is closed.
fn enter(windows: &[u64], exceptions: &[u64], now: u64, own: u64) -> Result<u64, String> {
    if windows.len() + exceptions.len() == 0 {
        return Ok(own);
    }
    let Some(day) = (now / DAY).checked_sub(DAYS_TO_2000) else {
        eprintln!("the clock stands before 2000");
        return l6::Opening::Closed.row();
    };
    l6::hours(windows, exceptions, day, now % DAY / 60).row()
}

/// Gives a tour all the words there are, in whole blocks.
fn extend(state: &mut State, storage: &mut [u64]) -> bool {
    let [d, s1, _] = state.setup();
    let last = (s1 + storage.len() / d * d - 1).min(32767);
    let done = state.extend(storage, last as u64).is_ok();
    if done {
        eprintln!("no room for a block: extended to address {last}");
    }
    done
}
/// Puts the recordings that stand into a stop list: records of ten codes, a room's letter and three digits each for the stop, its
/// recording and the stop to branch to.
fn correct(list: &[u64], input: &mut [u8]) -> Result<(), String> {
    let mut standing = vec![0; list.len() / 2];
    let count = if list.is_empty() { 0 } else { l6::recordings(list, &mut standing).map_err(|refusal| refusal.to_string())? };
    for record in input.chunks_exact_mut(10) {
        let stop = record[1..4].iter().fold(0, |number, &digit| 10 * number + digit as u64);
        if let Some(pair) = standing.chunks(2).take(count).find(|pair| pair[0] == stop) {
            for (digit, tens) in record[4..7].iter_mut().zip([100, 10, 1]) {
                *digit = (pair[1] / tens % 10) as u8
            }
        }
    }
    Ok(())
}

/// The table of tour.tab, or where there is none that of the typed lines of tour.l6. A text of more than 65,535 bytes is not taken.
fn table(width: u64) -> Result<Vec<u64>, String> {
    let typed = std::fs::read("tour.l6").unwrap_or_default();
    match std::fs::read("tour.tab") {
        Ok(bytes) => Ok(numbers(&bytes)),
        Err(_) if typed.is_empty() => Ok(vec![]),
        Err(_) if typed.len() > 65535 => Err("tour.l6 has more than 65535 bytes".into()),
        Err(_) => {
            let mut table = vec![0; 8000];
            let rows = l6::read(width, &typed, &mut table).map_err(|(refusal, line)| match refusal {
                Refusal::NoWidth => refusal.to_string(),
                _ => format!("tour.l6: {line} {} {refusal}", refusal.number()),
            })?;
            table.truncate(10 * rows);
            Ok(table)
        }
    }
}

/// Plays the tour of a folder: how it ended, or why it did not.
fn play(folder: &str, [asked, mut left, now]: [u64; 3]) -> Result<&str, String> {
    if l6::version() != VERSION {
        return Err("libplayer.a and l6.rs are of two versions".into());
    }
    std::env::set_current_dir(folder).map_err(|_| "there is no such folder")?;
    let load = |name| std::fs::read(name).unwrap_or_default(); // a missing file counts as empty
    let saved = match std::fs::read("tour.saved") {
        Ok(bytes) => Some(Tour::resume(&bytes)?),
        Err(_) => None,
    };
    let width = saved.as_ref().map_or(asked, |tour| tour.0.width());
    let (mut table, windows, exceptions) = (table(width)?, numbers(&load("windows.tab")), numbers(&load("exceptions.tab")));
    let mut input: Vec<u8> = load("stops.in").into_iter().take(4096).collect();
    correct(&numbers(&load("corrections.tab")), &mut input)?;
    let own = table.get(ENTRY).copied().unwrap_or(0);
    let Tour(mut state, mut storage, mut output, entry) = match saved {
        Some(tour) => tour,
        None => {
            let state = State::fresh(width).map_err(|refusal| refusal.to_string())?;
            Tour(state, vec![0; 4096], vec![0; 4096], enter(&windows, &exceptions, now, own)?)
        }
    };
    table.iter_mut().skip(ENTRY).take(1).for_each(|go_to| *go_to = entry);
    l6::check(width, &table).map_err(|bad| bad.to_string())?;

    let mut lent = Lent { table: &table, storage: &mut storage, input: &input, output: &mut output };
    let (mut steps, mut answer, mut extended) = (0, Answer::Running, false);
    while answer == Answer::Running && left > 0 {
        let (said, taken);
        (said, (answer, taken)) = (state.written(), state.run(&mut lent, left.min(1000)));
        (left, steps) = (left - taken, steps + taken);
        print!("{}", l6::text(lent.output.get(said..state.written()).unwrap_or_default()));
        eprintln!("{steps} steps, row {}, {} characters read", state.row(), state.taken());
        if answer == Answer::Refused(Refusal::NoRun) && !extended && extend(&mut state, lent.storage) {
            (extended, answer) = (true, Answer::Running);
        }
    }

    let (row, tour) = (state.row(), Tour(state, storage, output, entry));
    match answer {
        Answer::Running => tour.save().map(|()| "saved").map_err(|_| "can't save".into()),
        Answer::Finished => {
            let _ = std::fs::remove_file("tour.saved");
            Ok("the tour has come to its end")
        }
        Answer::Refused(refusal) => {
            let why = format!("refused at row {row} by {}: {refusal}", refusal.number());
            match wanted(refusal) {
                Some(more) if tour.save().is_ok() => Err(format!("{why}\nsaved: it can go on with {more}")),
                _ => Err(why),
            }
        }
    }
}

/// The width, the number of steps and the time that the arguments after the folder ask for.
fn asked(options: &[String]) -> Option<[u64; 3]> {
    let now = std::time::UNIX_EPOCH.elapsed().unwrap_or_default().as_secs();
    let mut numbers = [36, u64::MAX, now];
    for pair in options.chunks(2) {
        let option = ["--width", "--stop-after", "--at"].iter().position(|name| *name == pair[0])?;
        let digits = pair.get(1).filter(|text| text.starts_with(|first: char| first.is_ascii_digit()))?;
        numbers[option] = digits.parse().ok()?;
    }
    Some(numbers)
}

fn main() -> ExitCode {
    let arguments: Vec<String> = std::env::args().skip(1).collect();
    let Some((folder, Some(numbers))) = arguments.split_first().map(|(folder, options)| (folder, asked(options))) else {
        eprintln!("usage: player FOLDER [--width 36|48] [--stop-after STEPS] [--at SECONDS]");
        return ExitCode::from(2);
    };
    let ended = play(folder, numbers);
    eprintln!("{}", ended.as_deref().unwrap_or_else(|why| why));
    ExitCode::from(ended.is_err() as u8)
}
