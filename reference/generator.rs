//! The generator: programs that grow by trying each addition on the engine, so that they mean something and go far.
use crate::engine::*;

pub struct Rng(pub u64);

impl Rng {
    pub fn next(&mut self) -> u64 {
        self.0 = self.0.wrapping_add(0x9E3779B97F4A7C15);
        let x = (self.0 ^ self.0 >> 30).wrapping_mul(0xBF58476D1CE4E5B9);
        let x = (x ^ x >> 27).wrapping_mul(0x94D049BB133111EB);
        x ^ x >> 31
    }
    pub fn below(&mut self, n: u64) -> u64 {
        self.next() % n.max(1)
    }
    pub fn chance(&mut self, percent: u64) -> bool {
        self.below(100) < percent
    }
    pub fn pick<T: Copy>(&mut self, from: &[T]) -> T {
        from[self.below(from.len() as u64) as usize]
    }
    /// Mostly below n, now and then below a larger bound.
    fn small(&mut self, n: u64, large: u64) -> u64 {
        if self.chance(90) {
            self.below(n)
        } else {
            self.below(large)
        }
    }
}

/// A line before its rows are numbered; go-to and DO name a line by its index plus one.
#[derive(Clone, Default)]
pub struct Line {
    pub sub: bool,
    pub mode: u64,
    pub tests: Vec<Row>,
    pub operations: Vec<Row>,
    pub goto: u64,
}

/// A case; `table` is there when it is not what the lines give; `spread` lays all lines before tests and operations.
#[derive(Clone)]
pub struct Case {
    pub bits: u64,
    pub lines: Vec<Line>,
    pub spread: bool,
    pub table: Option<Vec<u64>>,
    pub input: Vec<u8>,
    pub storage: usize,
    pub output: usize,
    pub limit: u64,
}

impl Default for Case {
    fn default() -> Case {
        let (lines, input) = (vec![], vec![]);
        Case { bits: 36, lines, spread: false, table: None, input, storage: 0, output: 0, limit: 0 }
    }
}
impl Case {
    /// Appends a line's tests and operations, chained.
    fn chains(&self, line: usize, at: usize, rows: &mut Vec<Row>) {
        for (first, chain) in [(4, &self.lines[line].tests), (5, &self.lines[line].operations)] {
            for (j, row) in chain.iter().enumerate() {
                let number = rows.len();
                if j == 0 {
                    rows[at][first] = number as u64
                } else {
                    rows[number - 1][1] = number as u64
                }
                rows.push(*row);
            }
        }
    }
    /// The table: main lines chained from row 1, then those of the subroutines; go-tos and DOs get their rows.
    pub fn table(&self) -> Vec<u64> {
        if let Some(table) = &self.table {
            return table.clone();
        }
        let mut order: Vec<usize> = (0..self.lines.len()).collect();
        order.sort_by_key(|&i| self.lines[i].sub);
        let (mut rows, mut row_of) = (vec![[0; 10]], vec![0; order.len()]);
        for &i in &order {
            row_of[i] = rows.len();
            rows.push([1, 0, self.lines[i].mode, 0, 0, 0, self.lines[i].goto, 0, 0, 0]);
            if !self.spread {
                self.chains(i, row_of[i], &mut rows)
            }
        }
        for &i in &order {
            if self.spread {
                self.chains(i, row_of[i], &mut rows)
            }
        }
        for pair in order.windows(2) {
            if self.lines[pair[0]].sub == self.lines[pair[1]].sub {
                rows[row_of[pair[0]]][1] = row_of[pair[1]] as u64
            }
        }
        for row in &mut rows {
            let i = match (row[0], row[2]) {
                (1, _) => 6,
                (3, 36) => 5,
                _ => continue,
            };
            if row[i] != 0 && row[i] != DONE {
                row[i] = row_of[row[i] as usize - 1] as u64
            }
        }
        rows.concat()
    }
    pub fn engine(&self) -> Engine {
        Engine::fresh(self.table(), self.input.clone(), vec![0; self.storage], self.output, self.bits)
    }
    /// The main lines, or those of subroutines.
    fn those(&self, sub: bool) -> Vec<usize> {
        (0..self.lines.len()).filter(|&i| self.lines[i].sub == sub).collect()
    }
    /// The operations of the last main line.
    fn tail(&mut self) -> &mut Vec<Row> {
        let last = *self.those(false).last().unwrap();
        &mut self.lines[last].operations
    }
}

pub fn row(kind: u64, code: u64, name: u64, pairs: &[(u64, u64)]) -> Row {
    let mut row = [kind, 0, code, name, 0, 0, 0, 0, 0, 0];
    for (i, pair) in pairs.iter().enumerate() {
        (row[4 + 2 * i], row[5 + 2 * i]) = *pair
    }
    row
}

/// A reference by its names, as an operand.
pub fn named(text: &str) -> (u64, u64) {
    (2, encode(&text.chars().map(|c| c.to_digit(36).unwrap() as usize).collect::<Vec<_>>()))
}

/// Makes a case by trying each addition on the engine; `state` and `count` are those after the run so far. When `wild`,
/// references and numbers need not mean anything.
struct Maker {
    rng: Rng,
    wild: bool,
    d: u64,
    case: Case,
    state: State,
    count: u64,
}

impl Maker {
    fn literal(&mut self) -> u64 {
        match self.rng.below(10) {
            0..=2 => self.rng.below(9),
            3 => mask(self.case.bits) - self.rng.below(4),
            4 => 1 << self.rng.below(self.case.bits),
            5 => self.rng.next() & mask(self.case.bits),
            6 => self.rng.below(3 * 10u64.pow(self.case.bits as u32 / 6)),
            7 => self.state.live.first().map_or(1, |b| b.start),
            _ => self.digits(),
        }
    }
    /// A word of characters: digits after leading blanks or zeros.
    fn digits(&mut self) -> u64 {
        let count = self.case.bits / 6;
        let (lead, blank, base) = (self.rng.below(count + 1), self.rng.pick(&[0, BLANK]), self.rng.pick(&[8, 10, 10]));
        (0..count).fold(0, |sum, i| sum * 64 + if i < lead { blank } else { self.rng.below(base) })
    }
    fn name(&mut self) -> usize {
        if self.rng.chance(85) {
            self.rng.pick(&[0, 1, 10, 11, 12, 13, 14])
        } else {
            self.rng.below(36) as usize
        }
    }
    /// What a reference stands for, its contents, and the block it points to; nothing if it is refused.
    fn look(&self, reference: u64) -> (Option<Spot>, u64, Option<Block>) {
        let spot = self.state.locate(reference).ok();
        let value = spot.map_or(0, |spot| self.state.read(spot));
        (spot, value, self.state.live_at(value))
    }
    /// A reference that goes on while its pointers and fields allow it, or anyhow when wild.
    fn reference(&mut self) -> u64 {
        let sitting: Vec<usize> = (10..36).filter(|&b| self.state.live_at(self.state.bugs[b - 10]).is_some()).collect();
        let any = 10 + if self.rng.chance(85) { self.rng.below(5) } else { self.rng.below(26) } as usize;
        let mut names = vec![if !sitting.is_empty() && self.rng.chance(70) { self.rng.pick(&sitting) } else { any }];
        while names.len() < 6 && self.rng.chance(65) {
            let size = self.look(encode(&names)).2.map_or(0, |block| block.size);
            let fits = |&f: &usize| self.state.fields[f].is_some_and(|field| field.word < size);
            let fitting: Vec<usize> = (0..36).filter(fits).collect();
            if self.wild && self.rng.chance(40) {
                names.push(self.name())
            } else if fitting.is_empty() {
                break;
            } else {
                names.push(self.rng.pick(&fitting))
            }
        }
        encode(&names)
    }
    /// Draws references until one is liked, or the patience is over.
    fn liked(&mut self, patience: u64, likes: impl Fn(&Maker, u64) -> bool) -> u64 {
        let mut reference = self.reference();
        for _ in 0..patience {
            if !likes(self, reference) {
                reference = self.reference()
            }
        }
        reference
    }
    /// Something that points to a live block.
    fn pointer(&mut self) -> u64 {
        self.liked(12, |maker, r| maker.look(r).2.is_some())
    }
    /// A destination, rather a field than a bug, and rather none that points to a block.
    fn target(&mut self) -> u64 {
        let patience = 1 + self.rng.below(7);
        self.liked(patience, |maker, r| matches!(maker.look(r), (Some(Spot::Field(..)), _, None)))
    }
    fn operand(&mut self, form: char) -> (u64, u64) {
        match form {
            'a' => (2, self.target()),
            'x' if self.rng.chance(50) => (1, self.literal()),
            'z' if self.rng.chance(50) => (1, 0),
            'c' | 'x' | 'z' => (2, self.liked(4, |maker, r| maker.look(r).1 != 0 && r > 64)), // a field, not zero
            'l' => (1, self.literal()),
            _ => (0, 0),
        }
    }
    /// Word and bits of a field: full, narrow, null; out of range when wild.
    fn definition(&mut self) -> Vec<(u64, u64)> {
        let last = self.case.bits - 1;
        let usual =
            [(0, last), (18, last), (0, 17), (6, 20), (last - 14, last), (last - 5, last), (12, last), (0, 23), (last, 0), (9, 8)];
        let (one, other) = (self.rng.below(last + 1), self.rng.below(last + 1));
        let (left, right) = if self.rng.chance(70) { self.rng.pick(&usual) } else { (one.min(other), one.max(other)) };
        let mut pairs = vec![(1, self.rng.small(self.d.min(4), 128)), (1, left), (1, right)];
        if self.wild {
            pairs[self.rng.below(3) as usize].1 = self.rng.pick(&[last, last + 1, 127, 128, mask(last + 1)])
        }
        pairs
    }
    /// An operation row of a code, with operands that mean something in the present state.
    fn operation(&mut self, code: u64) -> Row {
        let mut pairs: Vec<(u64, u64)> = forms(code).chars().map(|form| self.operand(form)).collect();
        let name = if matches!(code, 2 | 34 | 35) { self.name() as u64 } else { 0 };
        let usual = self.rng.chance(85);
        match code {
            2 if usual => pairs = self.definition(),
            3 => {
                if usual {
                    pairs[1] = (1, self.rng.small(self.d, 3 * self.d) + !self.wild as u64)
                }
                if self.rng.chance(40) {
                    pairs[0].1 = 11 + self.rng.below(10)
                } else if self.rng.chance(30) {
                    pairs[0].1 = self.pointer()
                }
                if self.rng.chance(40) {
                    pairs[2] = (2, pairs[0].1 % (1 << 30) * 64 + self.name() as u64 + 1)
                } else if self.rng.chance(20) {
                    pairs[2] = (2, self.reference())
                }
            }
            4 => pairs[0].1 = self.pointer(),
            5 => pairs[1].1 = self.pointer(),
            11 if self.wild => pairs[1] = (1, 0),
            22 | 23 if usual => pairs[1] = (1, self.rng.small(12, self.case.bits + 9)),
            24 if usual => pairs[1] = (1, self.rng.below(self.case.bits / 6 + if self.wild { 3 } else { 1 })),
            25 if usual => pairs[0] = (1, if self.rng.chance(90) { self.rng.below(10) } else { 119 + self.rng.below(3) }),
            _ => {}
        }
        row(3, code, name, &pairs)
    }
    /// Any operation but set-up and DO; those that bring blocks and stack entries more often.
    fn any_operation(&mut self) -> Row {
        let (any, often) = (2 + self.rng.below(34), self.rng.pick(&[2, 3, 3, 4, 5, 6, 7, 24, 25, 32, 32, 34]));
        let mut code = if self.rng.chance(75) { any } else { often };
        if self.state.live.is_empty() && self.rng.chance(40) {
            code = 3
        }
        if !self.state.contents.is_empty() && self.rng.chance(25) {
            code = 33
        }
        if !self.state.definitions.is_empty() && self.rng.chance(25) {
            code = 35
        }
        self.operation(code)
    }
    /// A literal into a field or bug, and an operation that uses it.
    fn prepared(&mut self) -> [Row; 2] {
        let (place, code) = ((2, self.target()), 8 + self.rng.below(24));
        let mut second = self.operation(code);
        (second[6], second[7]) = place;
        let value = if code > 23 { self.digits() } else { self.literal() };
        [row(3, 6, 0, &[place, (1, value)]), second]
    }
    /// A test, often against a literal near the contents.
    fn test(&mut self) -> Row {
        let (c, any) = (self.operand('c'), self.operand('x'));
        let near = (1, (self.look(c.1).1 + self.rng.below(3)).saturating_sub(1) & mask(self.case.bits));
        row(2, 1 + self.rng.below(7), 0, &[c, if self.rng.chance(40) { near } else { any }])
    }
    fn line(&mut self, conditional: bool, goto: u64) -> Line {
        let (mode, count) = if conditional { (1 + self.rng.below(4), 1 + self.rng.below(3)) } else { (0, 0) };
        let tests = (0..count).map(|_| self.test()).collect();
        let operations = if goto != 0 && self.rng.chance(20) { vec![] } else { vec![self.any_operation()] };
        Line { sub: false, mode, tests, operations, goto }
    }
    /// Counts up a bug (X, Y or Z) and goes back, or does itself again, while it is below a bound.
    fn counted(&mut self, sub: bool, goto: u64) -> Line {
        let bug = (2, 34 + self.rng.below(3));
        let tests = vec![row(2, 4, 0, &[bug, (1, 1 + self.rng.below(4))])];
        Line { sub, mode: 1, tests, operations: vec![row(3, 8, 0, &[bug, (1, 1)]), self.any_operation()], goto }
    }
    /// A DO of a subroutine, new or there already; a new one may do itself again.
    fn subroutine(&mut self, case: &mut Case) {
        let present = case.those(true);
        let old = !present.is_empty() && self.rng.chance(40);
        let entry = if old { self.rng.pick(&present) } else { case.lines.len() };
        let call = row(3, 36, 0, &[(1, entry as u64 + 1)]);
        if !old && self.rng.chance(35) {
            let mut line = self.counted(true, DONE);
            line.operations.insert(1 + self.rng.below(2) as usize, call);
            case.lines.push(line);
        }
        if !old {
            case.lines.push(Line { sub: true, ..self.line(false, DONE) })
        }
        case.tail().push(call);
    }
    /// A main line other than the first, or the one to come, as a go-to.
    fn back(&mut self) -> u64 {
        let mains = [&self.case.those(false)[1..], &[self.case.lines.len()]].concat();
        self.rng.pick(&mains) as u64 + 1
    }
    /// Runs a candidate from fresh and keeps it if the answer, and whether it went further, suit.
    fn keep(&mut self, case: Case, suits: impl Fn(Answer, bool) -> bool) -> bool {
        let mut engine = case.engine();
        let (answer, count, _) = engine.run(900);
        let good = suits(answer, count > self.count || self.rng.chance(10));
        if good {
            (self.case, self.state, self.count) = (case, engine.state, count)
        }
        good
    }
    /// One attempt to let the program grow: an operation or two, a line, a subroutine, a loop, or a jump.
    fn grow(&mut self) {
        let (mut case, back, new) = (self.case.clone(), self.back(), self.case.lines.len() as u64);
        let conditional = self.rng.chance(75);
        match self.rng.below(100) {
            0..=39 => case.tail().push(self.any_operation()),
            40..=59 => case.tail().extend(&self.prepared()),
            60..=79 => case.lines.push(self.line(conditional, 0)),
            80..=87 => self.subroutine(&mut case),
            88..=93 => case.lines.push(self.counted(false, back)),
            _ => case.lines.extend([self.line(true, new + 3), self.line(false, 0), self.line(false, 0)]),
        }
        self.keep(case, |answer, further| answer == Answer::Finished && further);
    }
    /// Limit, set-up, storage, input and output.
    fn begin(&mut self) {
        self.case.limit = 900;
        self.d = self.rng.pick(&[1, 2, 4, 4, 8, 8, 16, 16, 32, 64, 128]);
        let n = self.d * if self.rng.chance(20) { 1 } else { 1 + self.rng.below(32 / self.d) };
        let s1 = self.d * (1 + self.rng.small(6, (32767 - n) / self.d - 1));
        let set_up = row(3, 1, 0, &[(1, self.d), (1, s1), (1, s1 + n - 1)]);
        self.case.lines = vec![Line { operations: vec![set_up], ..Line::default() }];
        self.case.storage = (n + self.rng.below(5)) as usize;
        self.case.output = if self.rng.chance(85) { 40 + self.rng.below(100) } else { self.rng.below(12) } as usize;
        for _ in 0..self.rng.below(30) {
            let (any, digit) = (self.rng.below(64), self.rng.below(10));
            self.case.input.push(self.rng.pick(&[digit, digit, any, BLANK]) as u8);
        }
        if self.rng.chance(10) {
            self.case.input.clear()
        }
        self.case.spread = self.rng.chance(30);
        let case = self.case.clone();
        self.keep(case, |_, _| true);
    }
    /// Some definitions and blocks, at times many gets and frees, then growth up to a number of rows.
    fn base(&mut self, aimed: bool) {
        let sizes: &[usize] = if aimed { &[12, 18, 25] } else { &[3, 5, 8, 12, 18, 20, 22, 25, 25, 25, 25, 25, 25, 25, 28] };
        let rows = if self.rng.chance(4) { 60 } else { self.rng.pick(sizes) };
        let many = if rows < 9 {
            0
        } else if self.rng.chance(30) {
            24
        } else {
            7
        };
        for &code in &[2, 2, 3, 2, 3, 6, 6, 3, 3, 3, 3, 3, 4, 3, 4, 5, 3, 4, 4, 3, 4, 4, 5, 4][..many] {
            let mut case = self.case.clone();
            case.tail().push(self.operation(code));
            self.keep(case, |answer, further| answer == Answer::Finished && further);
        }
        for _ in 0..4 * rows {
            if self.case.table().len() < 10 * rows {
                self.grow()
            }
        }
    }
    /// Changes a number of a line, the head of another row, or an operand into something ill-formed or nearly so.
    fn ruin(&mut self, table: &mut [u64]) {
        let rows = table.len() as u64 / 10;
        let own_rule = |&r: &u64| table[10 * r as usize] == 3 && matches!(table[10 * r as usize + 2], 4 | 36); // free, DO
        let (mut number, p) = (1 + self.rng.below(rows - 1), self.rng.pick(&[4, 6, 8]));
        if let Some(special) = (1..rows).find(own_rule) {
            if self.rng.chance(15) {
                number = special
            }
        }
        let row = &mut table[10 * number as usize..][..10];
        let v = row[p + 1];
        if row[0] == 1 || self.rng.chance(30) {
            let values = [0, 0, 0, 0, 1, 2, 5, 8, 36, 37, number, number + 1, rows, rows - 1, DONE, DONE - 1];
            row[self.rng.pick(&[0, 1, 1, 2, 2, 3, 4, 4, 5, 5, 6, 6, 7])] = self.rng.pick(&values);
        } else {
            let names = [(1, v), (0, 0), (2, v << 6), (2, v << 6 | 37), (2, 10), (2, encode(&[32; 7])), (3, v)];
            (row[p], row[p + 1]) = match row[p] {
                2 => self.rng.pick(&names),
                1 if row[2] == 36 => self.rng.pick(&[(1, 0), (1, rows)]),
                1 => self.rng.pick(&[(2, v), (0, 0), (1, v + 1), (1, 0), (1, rows), (1, 1 << self.case.bits), (3, v)]),
                _ => self.rng.pick(&[(1, 0), (0, 1), (2, 33)]),
            };
        }
    }
    /// A set-up with numbers just out of what is allowed, at times with more storage lent.
    fn bad_set_up(&mut self, case: &mut Case) {
        let (d, s1, s2) = self.state.setup.unwrap();
        let n = s2 - s1 + 1;
        let bad = [
            (d, 0, n - 1),
            (d, s1 + 1, s2 + 1),
            (d, 32768 - n + d, 32767 + d),
            (d, s1, s2 + 1),
            (d, s1, s1 - 1),
            (3, 3, 8),
            (d, s1, s2 + 4 * d),
            (d, s1, s1 + 4096 + d - 1),
            (0, 8, 8),
            (256, 256, 511),
            (d, s1, mask(self.case.bits)),
        ];
        let (d, s1, s2) = self.rng.pick(&bad);
        case.storage = self.rng.pick(&[case.storage, case.storage, 5000]);
        case.lines[0].operations[0] = row(3, 1, 0, &[(1, d), (1, s1), (1, s2)]);
    }
    /// An operation that may be refused by k; line `new` is the one it will stand in if that is a new one.
    fn faulty(&mut self, k: u64, new: u64) -> Row {
        let mixed = [2 + self.rng.below(34), 4, 5];
        let code = self.rng.pick::<u64>(match k {
            4 | 5 => &[24],
            6 => &[27, 28],
            7 => &[2],
            8 => &[3],
            9 => &[11],
            22 => &[9],
            10 => &[24, 25],
            17 => &[3, 5],
            18 => &[4],
            19 => &[32, 34, 36],
            20 => &[33, 35],
            21 => &[25],
            15 => &mixed,
            _ => &mixed[..1],
        });
        if code == 36 {
            return row(3, 36, 0, &[(1, new + 1)]);
        }
        let (mut operation, i) = (self.operation(code), self.rng.pick(&[4, 6]));
        let wrong = |maker: &Maker, r| match maker.look(r) {
            (Some(_), _, pointed) => k == 15 && pointed.is_none(),
            _ => maker.state.locate(r).err() == Some(k),
        };
        if matches!(k, 14..=16) && operation[i] == 2 {
            operation[i + 1] = self.liked(30, wrong)
        }
        operation
    }
    /// Before a 14, 16 or 18: a definition is lost, or lies beyond the block, or in it with a pointer to it. Gives the
    /// reference to use.
    fn lead_up(&mut self, k: u64, case: &mut Case) -> u64 {
        let (own, f, any) = (self.pointer() % (1 << 30), self.name() as u64, self.name() as u64);
        let word = if k == 16 { self.d + self.rng.below(3) } else { 0 };
        let define = row(3, 2, f, &[(1, word), (1, 0), (1, self.case.bits - 1)]);
        case.tail().extend(if k == 14 { vec![row(3, 34, any, &[]), row(3, 35, f, &[])] } else { vec![define] });
        case.tail().push(row(3, 6, 0, &[(2, own * 64 + f + 1), (2, own)]));
        own * 64 + f + 1
    }
    /// A candidate that may end in refusal k.
    fn spoil(&mut self, k: u64) -> Case {
        let (mut case, new, taken) = (self.case.clone(), self.case.lines.len() as u64, self.state.taken);
        let (mut operation, twice, few) = (self.faulty(k, new), self.rng.chance(30), self.rng.below(4) as usize);
        if k == 12 || k == 2 && self.rng.chance(10) {
            case.lines[0].operations[0] = operation
        }
        let mut table = case.table();
        let length = table.len();
        if matches!(k, 4..=10 | 13 | 18 | 21 | 22) && self.rng.chance(50) {
            case.lines.push(Line::default())
        }
        match k {
            1 => table.resize(self.rng.pick(&[0, 10, 19, length - 1, length + 3, 8010]), 0),
            2 => self.ruin(&mut table),
            3 => self.bad_set_up(&mut case),
            4 => {
                case.input.truncate(taken);
                case.input.extend(&[few as u8, 64 + self.rng.small(1, 192) as u8, 9, 0, 0, 0]);
            }
            5 => {
                case.input.truncate(taken + few);
                if twice {
                    case.input.push(64)
                }
            }
            13 => {
                operation = case.lines[0].operations[0];
                if twice {
                    operation[5] = self.rng.below(9)
                }
            }
            14 | 16 | 18 if twice || k == 18 => operation[5] = self.lead_up(k, &mut case),
            21 => case.output = self.state.written.len() + few,
            _ => {}
        }
        match k {
            1 | 2 => case.table = Some(table),
            3 | 12 => {}
            14..=16 if self.rng.chance(40) => case.lines.push(self.line(true, 0)),
            17 | 19 => case.lines.push(Line { operations: vec![operation], goto: new + 1, ..Line::default() }),
            20 if twice => case.lines.push(self.line(false, DONE)),
            _ => case.tail().push(operation),
        }
        case
    }
    /// Changes a reference of the last operation, so that a step has two faults.
    fn second_fault(&mut self) {
        let (mut case, i, patience) = (self.case.clone(), self.rng.pick(&[4, 6, 8]), self.rng.pick(&[0, 9]));
        let bad = self.liked(patience, |maker, r| maker.look(r).0.is_none());
        if let Some(row) = case.tail().last_mut() {
            if row[i] == 2 {
                row[i + 1] = bad
            }
        }
        self.keep(case, |answer, _| matches!(answer, Answer::Refused(_)));
    }
    /// An ending in refusal k, at times with a second fault.
    fn aim(&mut self, k: u64) {
        self.wild = true;
        for _ in 0..300 {
            let case = self.spoil(k);
            if self.keep(case, |answer, _| answer == Answer::Refused(k)) {
                break;
            }
        }
        if self.rng.chance(30) {
            (0..8).for_each(|_| self.second_fault())
        }
    }
    /// Another ending: an endless loop, a ruined row that is not read, a limit within the run, or nothing special.
    fn ending(&mut self) {
        match self.rng.below(20) {
            0 => {
                let (mut case, back) = (self.case.clone(), self.back());
                case.lines.push(self.line(false, back));
                case.limit = 30 + self.rng.below(300);
                self.keep(case, |_, _| true);
            }
            1 => {
                for _ in 0..40 {
                    let case = self.spoil(2);
                    if self.keep(case, |answer, _| answer == Answer::Finished) {
                        break;
                    }
                }
            }
            2..=13 => self.cut(),
            _ => {}
        }
    }
    /// A limit within the run, mostly at a step that reports something.
    fn cut(&mut self) {
        let mut engine = self.case.engine();
        let telling: Vec<u64> = (1..=self.count).filter(|_| engine.step().1 != Report::default()).collect();
        let any = self.rng.below(self.count + 2);
        self.case.limit = if telling.is_empty() || self.rng.chance(25) { any } else { self.rng.pick(&telling) };
    }
}

/// Case i of a seed, of words of so many bits; every sixth aims at a refusal, each in its turn.
pub fn make(bits: u64, seed: u64, i: u64) -> Case {
    let (case, state) = (Case { bits, ..Case::default() }, Engine::fresh(vec![], vec![], vec![], 0, bits).state);
    let rng = Rng(seed.wrapping_mul(0x2545F4914F6CDD1D) ^ i << 32);
    let mut maker = Maker { rng, wild: false, d: 1, case, state, count: 0 };
    let mut ks: Vec<u64> = (1..=22).filter(|&k| k != 11).collect();
    ks.extend(&[2, 2, 2, 2, 2, 2, 2, 3, 3, 6, 14, 15, 16, 18]);
    maker.begin();
    maker.base(i % 6 == 5);
    if i % 6 == 5 {
        maker.aim(ks[i as usize / 6 % ks.len()])
    } else {
        maker.ending()
    }
    maker.case
}
