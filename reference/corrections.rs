//! The lines that the program `corrections` must write: its edges and lists, answered by recordings.rs.
use crate::recordings::written;
use crate::{figure, fold, Case, Generator, CASES, SEED};

/// A list of some rows besides row 0, of which 48 numbers are made. Its chain goes on by `step` rows, round and round.
fn list_of(Case { a, y, .. }: Case, rows: u64) -> Vec<u64> {
    let round = |places: u64| 1 + places % rows;
    let first = if a >> 7 & 7 == 0 { 0 } else { round(a / 2048 % 64) };
    let (step, last) = (a / 8 % 10 + 1, round(a >> 50));
    let after = if a >> 20 & 7 == 0 { round(y) } else { 0 };
    let any = a >> 24 & 3 == 0;
    let (mut list, mut g) = (vec![first, 0, 0, 0], Generator(a));
    g.next();
    g.next();
    for row in 1..12 {
        let drawn = g.next();
        let next = if row == last { after } else { round(row - 1 + step) };
        let stop = match drawn % 5 {
            _ if any => drawn,
            4 => u64::MAX,
            few => few,
        };
        let day = match drawn / 8 % 16 {
            0 => u64::MAX,
            few => few % 3,
        };
        list.extend([next, stop, day, drawn / 64]);
    }
    list
}

/// A number drawn anew in a quarter of the cases.
fn damage(list: &mut [u64], rows: u64, a: u64, x: u64) {
    let near = [0, 1, 2, rows, rows + 1, u64::MAX, x / 16 % 12, x];
    if a % 4 == 0 {
        list[(a / 4 % 48) as usize] = near[(x % 8) as usize];
    }
}

/// The answer on a case, and a checksum with all of the output.
fn answer(case: Case) -> (u64, u64) {
    let Case { a, x, y } = case;
    let rows = [1, 2, 3, 5, 7, 11][(a % 6) as usize];
    let mut list = list_of(case, rows);
    damage(&mut list, rows, x / 8, y / 8);
    let lengths = a >> 30;
    let missing = if lengths % 16 == 0 { 1 + lengths / 16 % 4 } else { 0 };
    let mut output = [77; 26];
    let room = (a >> 40) % 27;
    let told = figure(written(&list[..(4 * rows + 4 - missing) as usize], &mut output[..room as usize]));
    (told, output.iter().fold(told, |sum, &number| fold(sum, number)))
}

/// The edges: the refusal, or the recording of the stop that is written first.
fn edges() {
    let row = |list: &[[u64; 4]]| list.concat();
    let first = [1, 0, 0, 0];
    let edges = [
        ("no numbers", vec![], 4),
        ("three numbers", vec![0; 3], 4),
        ("row 0 alone", vec![0; 4], 0),
        ("row 0 names a row that is missing", row(&[first]), 4),
        ("row 0 with a recording", vec![0, 0, 0, 5], 4),
        ("one record", row(&[first, [0, 7, 3, 70]]), 2),
        ("two of one day", row(&[first, [2, 7, 3, 70], [0, 7, 3, 71]]), 4),
        ("an earlier day later in the chain", row(&[first, [2, 7, 4, 70], [0, 7, 3, 71]]), 4),
        ("the chain from the last row", row(&[[2, 0, 0, 0], [0, 7, 3, 70], [1, 7, 3, 71]]), 4),
        ("a stop again after another", row(&[first, [2, 7, 3, 70], [3, 8, 9, 80], [0, 7, 3, 72]]), 4),
        ("a row that is its own next", row(&[first, [1, 7, 3, 70]]), 4),
        ("a loop past the first row", row(&[first, [2, 7, 3, 70], [3, 7, 3, 71], [2, 7, 3, 72]]), 4),
        ("a next index outside, the chain empty", row(&[[0; 4], [2, 7, 3, 70]]), 4),
        ("room for one stop of two", row(&[first, [2, 7, 3, 70], [0, 8, 3, 80]]), 3),
        ("a loop, and no room", row(&[first, [2, 7, 3, 70], [1, 8, 3, 80]]), 0),
    ];
    for (label, list, room) in edges {
        let mut output = [77; 4];
        match written(&list, &mut output[..room]) {
            Err(refusal) => println!("{label}: refusal {refusal}"),
            Ok(_) => println!("{label}: {}", output[1]),
        }
    }
}

pub fn lines() {
    edges();
    let mut g = Generator(SEED);
    let all: Vec<(u64, u64)> = (0..CASES).map(|_| answer(g.case())).collect();
    println!("all answers: {}", all.iter().fold(0, |sum, &(_, given)| fold(sum, given)) / 2);
    let count = |kind: &dyn Fn(u64) -> bool| all.iter().filter(|(told, _)| kind(*told)).count();
    println!("no stop: {}", count(&|told| told == 0));
    println!("stops: {}", count(&|told| (1..12).contains(&told)));
    for refusal in 26..=28 {
        println!("refusals {refusal}: {}", count(&|told| told == figure(Err(refusal))));
    }
}
