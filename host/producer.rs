//! Tools for producers, on the tour of a folder that has its table (tour.tab) and typed lines (tour.l6) side by side. The scripts
//! tours/rehearse, tours/trace and tours/draw make such a folder and call it:
//!     producer WIDTH rehearse FOLDER FORM FAULTS   what a producer wants to know before the opening, after so many faults
//!     producer WIDTH at FOLDER ROW                 a row in words
//!     producer WIDTH trace FOLDER FROM TO          the steps from one to another
//!     producer WIDTH draw FOLDER                   a picture of the blocks that the tour leaves
mod draw;
mod folder;
mod l6;
mod rehearse;
mod trace;

use std::process::ExitCode;

/// The numbers of a text file, one or more a line; none where there is no file.
fn listed(path: std::path::PathBuf) -> Result<Vec<u64>, String> {
    let text = std::fs::read_to_string(path).unwrap_or_default();
    text.split_whitespace()
        .map(|word| word.parse().map_err(|_| format!("the list of stops on display has no number: {word}")))
        .collect()
}

fn run(arguments: &[&str]) -> Result<bool, String> {
    let number = |word: &str| word.parse::<u64>().map_err(|_| format!("no number: {word}"));
    let [width, tool, path, rest @ ..] = arguments else {
        return Err("usage: producer WIDTH rehearse|at|trace|draw FOLDER ..".into());
    };
    let folder = folder::Folder::read(path, number(width)?);
    match (*tool, rest) {
        ("rehearse", [form, faults]) => {
            let mut rehearsal = rehearse::Rehearsal { faults: number(faults)? };
            let text = std::fs::read_to_string(form).map_err(|_| format!("there is no {form}"))?;
            let display = listed(std::path::Path::new(path).join("display"))?;
            rehearsal.all(&folder, &rehearse::Form::of(&text)?, &display)?;
            let faults = rehearsal.faults;
            if faults == 0 {
                println!("ready")
            } else {
                println!("not ready: {faults} fault{}", if faults == 1 { "" } else { "s" })
            }
            Ok(faults == 0)
        }
        ("at", [row]) => {
            println!("{}", folder.at(number(row)? as usize));
            Ok(true)
        }
        ("trace", [from, to]) => {
            trace::trace(&folder, number(from)?, number(to)?)?;
            Ok(true)
        }
        ("draw", []) => {
            print!("{}", draw::draw(&folder)?);
            Ok(true)
        }
        _ => Err(format!("no such tool: {tool}")),
    }
}

fn main() -> ExitCode {
    let arguments: Vec<String> = std::env::args().skip(1).collect();
    match run(&arguments.iter().map(String::as_str).collect::<Vec<_>>()) {
        Ok(good) => {
            if good {
                ExitCode::SUCCESS
            } else {
                ExitCode::FAILURE
            }
        }
        Err(why) => {
            eprintln!("{why}");
            ExitCode::from(2)
        }
    }
}
