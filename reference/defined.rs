//! Fields defined before they are used, from document 02's ticket 8, by paths: for each field alone, every place of the table that
//! some path reaches, with the field defined or not, is visited once. Only the rows' form (document 01's table check) is the
//! reference engine's.
use crate::engine::{well_formed, Row, DONE};
use std::collections::HashSet;

#[derive(Clone, Copy, Debug, PartialEq, Eq)]
pub enum Finding {
    Yes,
    NoWidth,
    No(u64, u64),
    BadLength,
    IllFormed(u64),
    WrongKind(u64),
}

/// A place of a path: a line, a test or an operation of a line, or a line's exit.
#[derive(Clone, Copy, PartialEq, Eq, Hash)]
enum At {
    Line(u64),
    Test(u64, u64),
    Operation(u64, u64),
    Exit(u64),
}

struct Table {
    rows: Vec<Row>,
}

/// The fields that a row refers to, in its order: of each pair of form 2 all digits but the first, which is the bug.
pub fn fields_of(row: &Row) -> Vec<u64> {
    let mut fields = vec![];
    for pair in row[4..].chunks(2).filter(|pair| pair[0] == 2) {
        let mut digits = vec![];
        let mut rest = pair[1];
        while rest > 0 {
            digits.insert(0, rest % 64);
            rest /= 64;
        }
        fields.extend(digits.iter().skip(1).map(|digit| digit - 1));
    }
    fields
}

impl Table {
    fn row(&self, r: u64) -> &Row {
        &self.rows[r as usize]
    }
    fn kind(&self, r: u64) -> u64 {
        self.rows.get(r as usize).map_or(0, |row| row[0])
    }
    fn operation(&self, line: u64, r: u64) -> At {
        if r == 0 {
            At::Exit(line)
        } else {
            At::Operation(r, line)
        }
    }
    fn lines(&self) -> impl Iterator<Item = u64> + '_ {
        (1..self.rows.len() as u64).filter(|&r| self.kind(r) == 1)
    }

    /// 30: whether a row names rows of the right kinds.
    fn names(&self, r: u64) -> bool {
        let row = self.row(r);
        let named = |r: u64, kind: u64| r == 0 || self.kind(r) == kind;
        named(row[1], row[0])
            && match row[0] {
                1 => named(row[4], 2) && named(row[5], 3) && (row[6] == DONE || named(row[6], 1)),
                3 => row[2] != 36 || self.kind(row[5]) == 1,
                _ => true,
            }
    }
    /// The places after all DOs of all lines' chains.
    fn returns(&self) -> Vec<At> {
        let mut places = vec![];
        for line in self.lines() {
            let mut r = self.row(line)[5];
            while r != 0 {
                let row = self.row(r);
                if row[2] == 36 {
                    places.push(self.operation(line, row[1]))
                }
                r = row[1];
            }
        }
        places
    }
    /// Where a place leads.
    fn leads(&self, at: At, returns: &[At]) -> Vec<At> {
        let line_or_none = |r: u64| if r == 0 { vec![] } else { vec![At::Line(r)] };
        match at {
            At::Line(l) if self.row(l)[4] == 0 => vec![self.operation(l, self.row(l)[5])],
            At::Line(l) => vec![At::Test(self.row(l)[4], l)],
            At::Test(t, l) => {
                let more = self.row(t)[1];
                let mut places = line_or_none(self.row(l)[1]);
                places.push(self.operation(l, self.row(l)[5]));
                if more != 0 {
                    places.push(At::Test(more, l))
                }
                places
            }
            At::Operation(r, _) if self.row(r)[2] == 36 => vec![At::Line(self.row(r)[5])],
            At::Operation(r, l) => vec![self.operation(l, self.row(r)[1])],
            At::Exit(l) => match self.row(l)[6] {
                DONE => returns.to_vec(),
                0 => line_or_none(self.row(l)[1]),
                go_to => vec![At::Line(go_to)],
            },
        }
    }
    /// The rows that some path reaches with this field not defined.
    fn without(&self, field: u64, returns: &[At]) -> HashSet<u64> {
        let (mut seen, mut left, mut rows) = (HashSet::new(), vec![(At::Line(1), false)], HashSet::new());
        while let Some((at, defined)) = left.pop() {
            if !seen.insert((at, defined)) {
                continue;
            }
            let mut after = defined;
            if let At::Test(r, _) | At::Operation(r, _) = at {
                if !defined {
                    rows.insert(r);
                }
                let row = self.row(r);
                if row[0] == 3 && row[3] == field && matches!(row[2], 2 | 35) {
                    after = row[2] == 2
                }
            }
            left.extend(self.leads(at, returns).into_iter().map(|place| (place, after)));
        }
        rows
    }
}

/// The whole check at a width: 31, 1, the lowest ill-formed row, 30, then yes or no.
pub fn check(bits: u64, table: &[u64]) -> Finding {
    if bits != 36 && bits != 48 {
        return Finding::NoWidth;
    }
    let n = table.len();
    if n < 20 || n > 8000 || n % 10 != 0 {
        return Finding::BadLength;
    }
    let table = Table { rows: table.chunks(10).map(|row| row.try_into().unwrap()).collect() };
    let count = table.rows.len() as u64;
    if let Some(r) = (1..count).find(|&r| !well_formed(table.row(r), r, count, bits)) {
        return Finding::IllFormed(r);
    }
    if table.kind(1) != 1 {
        return Finding::WrongKind(1);
    }
    if let Some(r) = (1..count).find(|&r| !table.names(r)) {
        return Finding::WrongKind(r);
    }
    let returns = table.returns();
    let without: Vec<HashSet<u64>> = (0..36).map(|field| table.without(field, &returns)).collect();
    for r in 1..count {
        if table.kind(r) == 1 {
            continue;
        }
        if let Some(field) = fields_of(table.row(r)).into_iter().find(|&field| without[field as usize].contains(&r)) {
            return Finding::No(r, field);
        }
    }
    Finding::Yes
}
