//! The steps of a tour, one a line: its typed words, what it read, and what it did to bugs and storage.
use crate::folder::{names, spelled, Folder, Played, LIMIT};
use crate::l6::{Answer, Place, Report, Store};

/// A row's operands that are references, by their names.
fn references(row: &[u64]) -> Vec<Vec<usize>> {
    row[4..].chunks(2).filter(|pair| pair[0] == 2).map(|pair| names(pair[1])).collect()
}

/// The references that the step at a place reads, each once: those of the tests of a line, or of an operation.
fn read_at(table: &[u64], tour: &Played) -> Vec<Vec<usize>> {
    let row = |at: usize| table.get(10 * at..10 * at + 10);
    let at = tour.state.row();
    let mut found = match tour.state.place() {
        Place::Operation => row(at).map(references).unwrap_or_default(),
        Place::Tests => {
            let mut next = row(at).map_or(0, |line| line[4] as usize);
            let mut all = vec![];
            while let Some(test) = row(next).filter(|_| next > 0) {
                all.extend(references(test));
                next = test[1] as usize;
            }
            all
        }
        _ => vec![],
    };
    let mut seen = vec![];
    found.retain(|one| {
        !seen.contains(one) && {
            seen.push(one.clone());
            true
        }
    });
    found
}

/// A number as a writer may want it: octal, and decimal beside it.
fn shown(value: u64) -> String {
    if value < 8 {
        format!("{value}")
    } else {
        format!("o{value:o} ({value})")
    }
}

fn stored(store: Store) -> Option<String> {
    (store.address > 0).then(|| format!("word {} bits {}-{} = {}", store.address, store.left, store.right, shown(store.bits)))
}

/// What a step did: blocks, stores into storage, bugs, characters taken and printed.
fn done(report: Report, before: &Played, after: &Played, input: &[u8]) -> Vec<String> {
    let mut done = vec![];
    if report.freed > 0 {
        done.push(format!("freed {}", report.freed))
    }
    if report.delivered > 0 {
        done.push(format!("delivered {} of {}", report.delivered, report.size))
    }
    if report.copied > 0 {
        done.push(format!("copied from {}", report.copied))
    }
    done.extend([report.first, report.second].into_iter().filter_map(stored));
    for letter in (0..26).filter(|&letter| before.bug(letter) != after.bug(letter)) {
        done.push(format!("{} = {}", (b'A' + letter as u8) as char, shown(after.bug(letter))));
    }
    let taken = before.state.taken()..after.state.taken();
    if !taken.is_empty() {
        done.push(format!("took {}", crate::l6::text(&input[taken])))
    }
    let written = before.state.written()..after.state.written();
    if !written.is_empty() {
        done.push(format!("printed {}", crate::l6::text(&after.output[written]).replace('\n', "/")))
    }
    done
}

/// Where a tour went: a line's tests that are not satisfied, and go-tos, DOs and DONEs.
fn went(folder: &Folder, after: &Played) -> String {
    if after.state.place() == Place::Finished {
        return "finished".into();
    }
    let row = after.state.row();
    folder.rows.get(row).map_or(String::new(), |typed| format!("to line {}", typed.line))
}

pub fn trace(folder: &Folder, from: u64, to: u64) -> Result<(), String> {
    let mut tour = Played::start(folder.width)?;
    while tour.answer == Answer::Running && tour.steps < to.min(LIMIT) {
        let shows = tour.steps + 1 >= from;
        let (place, row, line) = (tour.state.place(), tour.state.row(), tour.line());
        let before = if shows { Some(tour.clone()) } else { None };
        let report = tour.step(&folder.table, &folder.input);
        let Some(before) = before else { continue };
        let blocks = before.blocks();
        let read: Vec<String> = read_at(&folder.table, &before)
            .iter()
            .map(|one| format!("{} {}", spelled(one), before.value(one, &blocks).map_or("?".into(), shown)))
            .collect();
        let words = match place {
            Place::Operation => folder.rows.get(row).map_or(String::new(), |typed| typed.text.clone()),
            Place::Exit => "exit".to_string(),
            _ => "tests".to_string(),
        };
        let number = folder.rows.get(line).map_or(0, |typed| typed.line);
        let mut end = done(report, &before, &tour, &folder.input);
        let moved = after_line(&before, &tour);
        if moved {
            end.push(went(folder, &tour))
        }
        if let Answer::Refused(refusal) = tour.answer {
            end.push(format!("REFUSED: {} {refusal}", refusal.number()))
        }
        println!(
            "{:6} line {number:3}  {words:24} {}{}",
            tour.steps,
            if read.is_empty() { String::new() } else { format!("[{}] ", read.join(", ")) },
            end.join("; ")
        );
    }
    Ok(())
}

/// Whether a step led to another line or to the end.
fn after_line(before: &Played, after: &Played) -> bool {
    before.line() != after.line() || after.state.place() == Place::Finished
}
