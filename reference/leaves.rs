// The lines that the programs `leaves`, `allocations`, `triples`, `openings`, `corrections` and `cards` must write (the argument
// names the program), computed from documents 01 and 02 by other means: words are lists of single bits, products and differences
// are 128 bits wide, numbers become characters by way of text, a table's rules are read row by row, and the allocator is a list of
// live blocks, from which its map is drawn and through which references lead. Only the generator of cases and the checksum are the
// programs'. `make expected` writes their files stdout with it.

mod columns;
mod corrections;
mod hours;
mod openings;
mod recordings;

// ---- The generator ----

const SEED: u64 = 1966;
const CASES: usize = 8000;

// A number for choices, and two values.
#[derive(Clone, Copy)]
struct Case {
    a: u64,
    x: u64,
    y: u64,
}

struct Generator(u64);

impl Generator {
    fn next(&mut self) -> u64 {
        self.0 ^= self.0 << 13;
        self.0 ^= self.0 >> 7;
        self.0 ^= self.0 << 17;
        self.0
    }

    fn value(&mut self) -> u64 {
        let drawn = self.next();
        let places = drawn % 64;
        match drawn / 64 % 4 {
            0 => u64::MAX >> places,
            1 => 1 << places,
            _ => Generator(drawn).next() >> places,
        }
    }

    fn case(&mut self) -> Case {
        Case { a: self.next(), x: self.value(), y: self.value() }
    }
}

fn width_of(drawn: u64) -> usize {
    [(0..37).collect::<Vec<_>>(), vec![48]].concat()[drawn as usize % 38]
}

fn fold(sum: u64, result: u64) -> u64 {
    Generator(sum ^ result).next()
}

// An answer is a value, or the number of a refusal.
type Answer = Result<u64, u64>;

fn figure(answer: Answer) -> u64 {
    answer.unwrap_or_else(|refusal| (1 << 63) + refusal)
}

fn line(label: &str, f: impl Fn(Case) -> u64) {
    let mut g = Generator(SEED);
    println!("{label}: {}", (0..CASES).fold(0, |sum, _| fold(sum, f(g.case()))) / 2);
}

// ---- Words: lists of bits, the leftmost first ----

type Bits = Vec<bool>;

fn bits(b: usize, x: u64) -> Bits {
    let mut left = x;
    let mut found: Bits = (0..b)
        .map(|_| {
            let odd = left % 2 == 1;
            left /= 2;
            odd
        })
        .collect();
    found.reverse();
    found
}

fn value(bits: &[bool]) -> u64 {
    bits.iter().fold(0, |v, &bit| v * 2 + bit as u64)
}

fn modulo(b: usize, x: i128) -> u64 {
    x.rem_euclid((0..b).fold(1, |p, _| p + p)) as u64
}

fn each(b: usize, x: u64, y: u64, f: impl Fn(bool, bool) -> bool) -> u64 {
    value(&bits(b, x).iter().zip(bits(b, y)).map(|(&p, q)| f(p, q)).collect::<Bits>())
}

// Long division, a bit at a time, one bit past the point; what is left tells whether that is all.
fn nearest(x: u64, y: u64) -> u64 {
    let (mut q, mut rest) = (0, 0u128);
    for bit in bits(64, x) {
        rest = rest * 2 + bit as u128;
        q *= 2;
        if rest >= y as u128 {
            rest -= y as u128;
            q += 1;
        }
    }
    let (past, exact) = (rest * 2 >= y as u128, rest * 2 == y as u128);
    if exact {
        q + q % 2
    } else {
        q + past as u64
    }
}

// A field's bits moved left by n places (right where `right` is), zeros coming in.
fn moved(w: usize, v: u64, n: u64, right: bool) -> u64 {
    let old = bits(w, v);
    let n = n.min(w as u64) as usize;
    let new = (0..w).map(|p| if right { p >= n && old[p - n] } else { p + n < w && old[p + n] });
    value(&new.collect::<Bits>())
}

fn places(left: usize, right: usize) -> Vec<usize> {
    (0..=right).filter(|&p| p >= left).collect()
}

fn read(b: usize, left: usize, right: usize, w: u64) -> u64 {
    let word = bits(b, w);
    value(&places(left, right).iter().map(|&p| word[p]).collect::<Bits>())
}

fn keep(left: usize, right: usize, v: u64) -> u64 {
    value(&bits(places(left, right).len(), v))
}

fn store(b: usize, left: usize, right: usize, w: u64, v: u64) -> u64 {
    let mut word = bits(b, w);
    let mut rest = v;
    for &p in places(left, right).iter().rev() {
        word[p] = rest % 2 == 1;
        rest /= 2;
    }
    value(&word)
}

fn words() {
    line("power", |c| (0..c.a % 64).fold(1, |p, _| p + p));
    line("low_bits", |c| value(&bits(width_of(c.a), c.y)));
    line("add", |c| modulo(width_of(c.a), c.x as i128 + c.y as i128));
    line("subtract", |c| (c.x as i128 / 4 + c.y as i128 / 4 - c.y as i128 / 4) as u64);
    line("multiply", |c| (c.x as u128 * c.y as u128 % (1u128 << width_of(c.a))) as u64);
    line("divide", |c| nearest(c.x >> (c.a % 64), 1 + c.y % 64));
    line("or", |c| each(width_of(c.a), c.x, c.y, |p, q| p || q));
    line("and", |c| each(width_of(c.a), c.x, c.y, |p, q| p && q));
    line("exclusive_or", |c| each(width_of(c.a), c.x, c.y, |p, q| p != q));
    line("complement", |c| each(width_of(c.a), c.x, 0, |p, _| !p));
    let count = |wanted: bool| move |c: Case| bits(width_of(c.a), c.x).iter().filter(|&&bit| bit == wanted).count() as u64;
    let leftmost = |wanted: bool| {
        move |c: Case| {
            let field = bits(width_of(c.a), c.x);
            field.iter().position(|&bit| bit == wanted).unwrap_or(field.len()) as u64
        }
    };
    let rightmost = |wanted: bool| {
        move |c: Case| {
            let field = bits(width_of(c.a), c.x);
            field.iter().rposition(|&bit| bit == wanted).unwrap_or(field.len()) as u64
        }
    };
    line("count_ones", count(true));
    line("count_zeros", count(false));
    line("leftmost_one", leftmost(true));
    line("rightmost_one", rightmost(true));
    line("leftmost_zero", leftmost(false));
    line("rightmost_zero", rightmost(false));
    line("left_shift", |c| moved(width_of(c.a), c.x, c.y, false));
    line("right_shift", |c| moved(width_of(c.a), c.x, c.y, true));
}

fn fields() {
    // A word of b bits, its left bit zero, and a field in it.
    let field = |c: Case| {
        let b = width_of(c.a) + 1;
        let right = (c.a / 64) as usize % b;
        let left = (c.a / 4096) as usize % (right + 2);
        (b, left, right, value(&bits(b - 1, c.x)))
    };
    line("width", |c| {
        let (_, left, right, _) = field(c);
        places(left, right).len() as u64
    });
    line("read_field", |c| {
        let (b, left, right, word) = field(c);
        read(b, left, right, word)
    });
    line("kept_bits", |c| {
        let (_, left, right, _) = field(c);
        keep(left, right, c.y)
    });
    line("store_field", |c| {
        let (b, left, right, word) = field(c);
        store(b, left, right, word, c.y)
    });
}

// ---- Characters: lists of codes, the leftmost first ----

const BLANK: u8 = 0o60;

fn codes(n: usize, v: u64) -> Vec<u8> {
    let all = bits(6 * n, v);
    all.chunks(6).map(|six| value(six) as u8).collect()
}

fn packed(codes: &[u8]) -> u64 {
    codes.iter().fold(0, |v, &code| v * 64 + code as u64)
}

// The last n digits of a number's text.
fn last_digits(n: usize, text: String) -> u64 {
    let padded = "0".repeat(n) + &text;
    packed(&padded[padded.len() - n..].bytes().map(|digit| digit - b'0').collect::<Vec<_>>())
}

fn decimal(n: usize, v: u64) -> u64 {
    last_digits(n, format!("{v}"))
}

fn octal(n: usize, v: u64) -> u64 {
    last_digits(n, format!("{v:o}"))
}

fn to_binary(base: u32, n: usize, v: u64) -> Answer {
    let text: Option<String> = codes(n, v).iter().map(|&code| char::from_digit(code as u32, 36)).collect();
    text.and_then(|text| u64::from_str_radix(&format!("0{text}"), base).ok()).ok_or(6)
}

// The characters that a field holds: as many as it takes to have all its bits.
fn held(width: usize) -> usize {
    (0..).find(|n| 6 * n >= width).unwrap()
}

fn printed(count: usize, width: usize, v: u64) -> Vec<u8> {
    let line = [vec![BLANK; count], codes(held(width), v)].concat();
    line[line.len() - count..].to_vec()
}

fn lead(old: u8, new: u8, mut codes: Vec<u8>) -> u64 {
    codes.iter_mut().take_while(|code| **code == old).for_each(|code| *code = new);
    packed(&codes)
}

// The case's ten characters: digits more or less often, led by blanks or not.
fn ten(c: Case) -> u64 {
    let most = [63, 15, 7][(c.a % 3) as usize];
    let mut made: Vec<u8> = codes(10, c.x ^ c.y).iter().map(|code| code & most).collect();
    let leading = 10 - (c.a / 4 % 11) as usize;
    if c.a / 64 % 2 == 1 {
        made[..leading].fill(BLANK);
    }
    packed(&made)
}

// A print into output that holds no characters before.
fn output(at: usize, count: usize, width: usize, v: u64) -> Vec<u8> {
    let mut all = vec![64; 160];
    all.splice(at..at + count, printed(count, width, v));
    all
}

fn input(taken: &[u8]) -> Answer {
    if taken.iter().any(|&code| code > 63) {
        Err(4)
    } else {
        Ok(packed(taken))
    }
}

fn folded(bytes: &[u8]) -> u64 {
    bytes.iter().fold(1, |sum, &byte| fold(sum, byte as u64))
}

fn characters() {
    let n = |c: Case| (c.a / 128 % 11) as usize;
    let output_of = |c: Case| output((c.a % 41) as usize, (c.a / 64 % 121) as usize, (c.a / 8192 % 65) as usize, ten(c));
    line("holds", |c| held((c.a % 65) as usize) as u64);
    line("from_binary_octal", |c| octal(n(c), c.x));
    line("from_binary_decimal", |c| decimal(n(c) % 10, c.x));
    line("to_binary, octal", |c| figure(to_binary(8, n(c), ten(c))));
    line("to_binary, decimal", |c| figure(to_binary(10, n(c), ten(c))));
    line("blanks_to_zeros", |c| lead(BLANK, 0, printed(n(c), (c.a / 2048 % 65) as usize, ten(c))));
    line("zeros_to_blanks", |c| lead(0, BLANK, codes(n(c), ten(c))));
    line("print_into", |c| folded(&output_of(c)));
    line("pack_input", |c| {
        let from = (c.y % 151) as usize;
        figure(input(&output_of(c)[from..from + n(c)]))
    });
}

// ---- Tables ----

// The names of a reference, each its digit in base 64, first name first.
fn names(v: u64) -> Option<Vec<u64>> {
    fn digits(v: u64) -> Vec<u64> {
        if v == 0 {
            vec![]
        } else {
            [digits(v / 64), vec![v % 64]].concat()
        }
    }
    let found = digits(v);
    let letters = |d: &u64| (11..=36).contains(d);
    let any = |d: &u64| (1..=36).contains(d);
    let good = found.len() <= 6 && found.first().map_or(false, letters) && found.iter().all(any);
    if good {
        Some(found)
    } else {
        None
    }
}

// What an operand may be: L a literal, R a reference, 0 absent, Z the literal zero, D a row to DO.
fn pair_is(what: char, rows: u64, form: u64, value: u64) -> bool {
    match (what, form) {
        ('0', 0) => value == 0,
        ('L', 1) => value < 1 << 36,
        ('R', 2) => names(value).is_some(),
        ('Z', 1) => value == 0,
        ('D', 1) => value >= 1 && value < rows,
        _ => false,
    }
}

fn operands(code: u64) -> Option<[&'static str; 3]> {
    Some(match code {
        1 => ["L", "L", "L"],
        2 => ["LR", "LR", "LR"],
        3 => ["R", "LR", "R0"],
        4 => ["R", "RZ", "0"],
        5 | 7 => ["R", "R", "0"],
        6 | 8..=15 | 22..=24 => ["R", "LR", "0"],
        16..=21 | 26..=31 => ["R", "R", "0"],
        25 => ["LR", "LR", "0"],
        32 | 33 => ["R", "0", "0"],
        34 | 35 => ["0", "0", "0"],
        36 => ["D", "0", "0"],
        _ => return None,
    })
}

fn pairs_are(wanted: [&str; 3], rows: u64, row: &[u64]) -> bool {
    (0..3).all(|i| wanted[i].chars().any(|what| pair_is(what, rows, row[4 + 2 * i], row[5 + 2 * i])))
}

fn well_formed(rows: u64, r: u64, row: &[u64]) -> bool {
    let [kind, next, code, name] = [row[0], row[1], row[2], row[3]];
    if next != 0 && !(next > r && next < rows) {
        return false;
    }
    match kind {
        1 => {
            let [test, operation, go_to] = [row[4], row[5], row[6]];
            let there = |n: u64| n < rows;
            code <= 4
                && name == 0
                && there(test)
                && there(operation)
                && (there(go_to) || go_to == 65535)
                && (code == 0) == (test == 0)
                && (operation > 0 || go_to > 0)
                && row[7..].iter().all(|&n| n == 0)
        }
        2 => (1..=7).contains(&code) && name == 0 && pairs_are(["R", "LR", "0"], rows, row),
        3 => match operands(code) {
            Some(wanted) => pairs_are(wanted, rows, row) && if [2, 34, 35].contains(&code) { name < 36 } else { name == 0 },
            None => false,
        },
        _ => false,
    }
}

fn length_fits(t: &[u64]) -> bool {
    (20..=8000).step_by(10).any(|n| n == t.len())
}

// 1,000 for refusal 1.
fn check(t: &[u64]) -> u64 {
    fn lowest(rows: u64, r: u64, rest: &[u64]) -> u64 {
        match rest {
            [] => 0,
            _ if well_formed(rows, r, &rest[..10]) => lowest(rows, r + 1, &rest[10..]),
            _ => r,
        }
    }
    if length_fits(t) {
        lowest(t.len() as u64 / 10, 1, &t[10..])
    } else {
        1000
    }
}

fn usable(kind: u64, t: &[u64], r: usize) -> bool {
    let row = t.chunks(10).skip(1).zip(1..).find(|&(_, at)| at == r);
    row.map_or(false, |(row, _)| row[0] == kind && well_formed(t.len() as u64 / 10, r as u64, row))
}

// The program's generated references and tables.
fn candidate(c: Case) -> u64 {
    let digits: u64 = codes(6, c.x ^ c.y).iter().fold(0, |v, &code| v * 64 + (code as u64 & 31) + 5);
    let some = digits >> (6 * (c.a % 6));
    if c.a / 8 % 2 == 0 {
        some
    } else {
        some ^ 1 << (c.a / 16 % 40)
    }
}

const GOOD: [[u64; 10]; 8] = [
    [9, 9, 9, 9, 9, 9, 9, 9, 9, 9],
    [1, 7, 0, 0, 0, 2, 0, 0, 0, 0],
    [3, 3, 1, 0, 1, 8, 1, 8, 1, 23],
    [3, 4, 3, 0, 2, 33, 1, 4, 2, 33],
    [3, 5, 2, 35, 1, 1, 2, 36, 1, 35],
    [3, 0, 25, 0, 1, 1, 2, 33, 0, 0],
    [2, 0, 7, 0, 2, 33, 2, 33, 0, 0],
    [1, 0, 4, 0, 6, 0, 1, 0, 0, 0],
];

// Eight rows, in one of which the code and then any number are drawn.
fn table(c: Case) -> (usize, Vec<u64>) {
    let (r, drawn) = ((c.a % 8) as usize, c.a / 8);
    let mut rows = GOOD;
    rows[r][2] = drawn / 64 % 38;
    rows[r][(drawn / 4096 % 10) as usize] = c.y >> (drawn % 64);
    (r, rows.concat())
}

// Which of the three kinds a row is usable as.
fn kinds(t: &[u64], r: usize) -> u64 {
    let as_kind = |kind: u64| usable(kind, t, r) as u64;
    fold(fold(as_kind(1), as_kind(2)), as_kind(3))
}

fn tables() {
    line("is_reference", |c| names(candidate(c)).is_some() as u64);
    line("names_in", |c| match names(candidate(c)) {
        Some(found) => found[1..].iter().fold(found[0] - 11, |sum, name| fold(sum, name - 1)),
        None => 1000,
    });
    line("has_length and check by length", |c| {
        let zeros = vec![0; (c.a % 802 * 10 + if c.a / 1024 % 24 >= 20 { 9 } else { 0 }) as usize];
        fold(length_fits(&zeros) as u64, check(&zeros))
    });
    line("check", |c| check(&table(c).1));
    line("row_at", |c| {
        let (r, t) = table(c);
        t[10 * r + 1..10 * r + 10].iter().fold(t[10 * r], |sum, &n| fold(sum, n))
    });
    line("is_usable", |c| {
        let (r, t) = table(c);
        kinds(&t, if c.a / 32768 % 8 == 7 { r + 5 } else { r })
    });
}

// ---- Blocks: a set-up and its live blocks, each an address and a size ----

#[derive(Clone)]
struct Blocks {
    d: u64,
    s1: u64,
    s2: u64,
    live: Vec<(u64, u64)>,
}

const BYTES: usize = 1030;
const STEPS: u64 = 4000;

impl Blocks {
    fn new(d: u64, s1: u64, s2: u64) -> Blocks {
        Blocks { d, s1, s2, live: vec![] }
    }

    // None of the words from a to before a + n is in a live block.
    fn outside(&self, a: u64, n: u64) -> bool {
        (a..a + n).all(|word| self.around(word).is_none())
    }

    fn around(&self, word: u64) -> Option<usize> {
        self.live.iter().position(|&(a, n)| a <= word && word < a + n)
    }

    fn get(&mut self, n: u64) -> Answer {
        let size = (0..8).map(|k| 1 << k).find(|&size| n > 0 && size >= n && size <= self.d).ok_or(8u64)?;
        let runs = (self.s1..=self.s2).filter(|a| a % size == 0 && a + size - 1 <= self.s2);
        let at = runs.into_iter().find(|&a| self.outside(a, size)).ok_or(17u64)?;
        self.live.push((at, size));
        Ok(at)
    }

    // Whether a live block starts at the word rounded down to 1, 2, 4 .. or 128 words; the first that does is one no more.
    fn free(&mut self, word: u64) -> bool {
        let starts = (0..8).map(|k| word >> k << k);
        let found = starts.into_iter().find_map(|start| self.live.iter().position(|block| block.0 == start));
        found.map(|i| self.live.remove(i)).is_some()
    }

    fn size_at(&self, a: u64) -> u64 {
        self.live.iter().find(|block| block.0 == a).map_or(0, |block| block.1)
    }

    // The map: a tag at each live block, and at each free one. A free block is as large as can be.
    fn map(&self) -> Vec<u8> {
        let mut map = vec![0; BYTES];
        let tag = |size: u64| 2 * (0..).find(|&k| 1 << k == size).unwrap() as u8 + 1;
        for &(a, size) in &self.live {
            map[(a - self.s1) as usize] = tag(size) + 1;
        }
        let mut word = self.s1;
        while word <= self.s2 {
            if let Some(i) = self.around(word) {
                word = self.live[i].0 + self.live[i].1;
                continue;
            }
            let sizes = (0..8).rev().map(|k| 1 << k).filter(|size| *size <= self.d && word % size == 0);
            let size = sizes.into_iter().find(|&size| self.outside(word, size)).unwrap();
            map[(word - self.s1) as usize] = tag(size);
            word += size;
        }
        map
    }

    // Whether bytes are a map: blocks one after the other, each a tag and zeros, aligned, no two free halves apart, then zeros.
    fn keeps(&self, map: &[u8]) -> bool {
        let words = (self.s2 - self.s1 + 1) as usize;
        let mut free = vec![];
        let mut at = 0;
        while at < words {
            let tag = map[at] as usize;
            let size = if tag == 0 || tag > 16 { 0 } else { 1 << ((tag - 1) / 2) };
            if size == 0 || size > self.d as usize || at % size > 0 || map[at + 1..at + size].iter().any(|&byte| byte > 0) {
                return false;
            }
            if tag % 2 == 1 {
                free.push((at, size));
            }
            at += size;
        }
        let halves = |&(at, size): &(usize, usize)| size < self.d as usize && free.contains(&(at ^ size, size));
        map[words..].iter().all(|&byte| byte == 0) && !free.iter().any(halves)
    }

    fn operate(&mut self, operation: u64, n: u64) -> Answer {
        match operation {
            1 => self.get(n),
            2 => Ok(self.free(n) as u64),
            3 => Ok(self.size_at(n)),
            _ => {
                let mut map = self.map();
                map[n as usize % BYTES] = (n as usize / BYTES % 20) as u8;
                Ok(self.keeps(&map) as u64)
            }
        }
    }

    // A size or an address, small ones more often, or what damages a map.
    fn operand(&self, operation: u64, a: u64) -> u64 {
        match operation {
            1 => a / 4 % (self.d + 3) >> (a % 4),
            4 => a % 20600,
            _ => a / 4 % (self.s2 + 3) >> (a % 4),
        }
    }

    fn drawn_step(&mut self, turn: u64, drawn: u64) -> u64 {
        let operation = 1 + (turn + drawn % 8) / 3;
        figure(self.operate(operation, self.operand(operation, drawn / 8)))
    }

    fn sequence(mut self) {
        let mut g = Generator(STEPS);
        let mut sum = 0;
        for left in (0..STEPS).rev() {
            let answer = self.drawn_step(left / 256 % 2 * 4, g.next());
            sum = fold(fold(sum, answer), folded(&self.map()));
        }
        println!("blocks, d {}, s1 {}, s2 {}: {}", self.d, self.s1, self.s2, sum / 2);
    }
}

fn blocks() {
    line("size_of", |c| (0..c.a % 8).fold(1, |size, _| size + size));
    let level = |most: u64, n: u64| (0..most).find(|k| 1 << k >= n).unwrap_or(most);
    line("level_of", |c| level(c.a % 8, c.x % 256));
    line("top_of", |c| level(7, c.x % 65536));
    line("words_of", |c| if c.a % 9 == 0 { 0 } else { (c.x % 65536..c.y % 65536 + 1).count() as u64 });
    for (d, s1, s2) in [(8, 8, 23), (128, 128, 1151), (1, 1, 40), (16, 32, 95)] {
        Blocks::new(d, s1, s2).sequence();
    }
}

// ---- References: a list of fields, each a word, a left and a right bit ----

const FIELDS: [(u64, usize, usize); 10] = [
    (0, 18, 35),
    (0, 0, 17),
    (0, 30, 35),
    (0, 12, 17),
    (1, 18, 35),
    (1, 0, 17),
    (2, 30, 35),
    (0, 20, 10),
    (127, 0, 35),
    (0, 0, 35),
];

enum Location {
    Bug(u64),
    Field(u64, usize, usize),
}

// Bugs, the storage word by word, and blocks.
struct World<'a> {
    bugs: Vec<u64>,
    storage: Vec<u64>,
    blocks: &'a Blocks,
}

impl World<'_> {
    fn contents(&self, at: &Location) -> u64 {
        match at {
            Location::Bug(letter) => self.bugs[*letter as usize],
            Location::Field(address, left, right) => read(36, *left, *right, self.storage[(address - self.blocks.s1) as usize]),
        }
    }

    fn link(&self, from: Location, name: u64) -> Result<Location, u64> {
        let &(word, left, right) = FIELDS.get(name as usize).ok_or(14u64)?;
        let pointer = self.contents(&from);
        let &(start, size) = self.blocks.live.iter().find(|block| block.0 == pointer).ok_or(15u64)?;
        if word < size {
            Ok(Location::Field(start + word, left, right))
        } else {
            Err(16)
        }
    }

    // Where a reference leads and what stands there.
    fn followed(&self, v: u64) -> Answer {
        let digits = names(v).unwrap();
        let at = digits[1..].iter().try_fold(Location::Bug(digits[0] - 11), |from, digit| self.link(from, digit - 1))?;
        let numbers = match at {
            Location::Bug(letter) => vec![1, letter],
            Location::Field(address, left, right) => vec![2, address, left as u64, right as u64],
        };
        Ok(fold(numbers[1..].iter().fold(numbers[0], |sum, &n| fold(sum, n)), self.contents(&at)))
    }
}

// The program's generated words and references: an address is 8, 12, 16 or 20, seldom up to 3 more.
fn address(drawn: u64) -> u64 {
    8 + drawn / 4 % 4 * 4 + (drawn & drawn / 256) % 4
}

fn address_pairs(seed: u64) -> Vec<(u64, u64)> {
    let mut g = Generator(seed);
    (0..26).map(|_| g.next()).map(|drawn| (address(drawn >> 18), address(drawn))).collect()
}

fn reference(a: u64, drawn: u64) -> u64 {
    let digit = |place: u64| {
        let [own, first, second, third] = [0, 1, 2, 3].map(|further| drawn >> (6 * (place + further)));
        own & 7 | first & second & third & 8
    };
    let names: Vec<u64> = (0..5).rev().map(|place| digit(place) + 1).collect();
    let kept = 5 - (a % 6) as usize;
    names[..kept].iter().fold(a / 8 % 26 + 11, |v, name| v * 64 + name)
}

fn references() {
    let mut blocks = Blocks::new(8, 8, 23);
    let mut g = Generator(SEED);
    let mut sum = 0;
    for _ in 0..CASES {
        let c = g.case();
        sum = fold(sum, blocks.drawn_step(0, c.a));
        let bugs = address_pairs(c.x).iter().map(|pair| pair.1).collect();
        let storage = address_pairs(g.0).iter().map(|pair| pair.0 << 18 | pair.1).collect();
        sum = fold(sum, figure(World { bugs, storage, blocks: &blocks }.followed(reference(c.a, g.0))));
    }
    println!("locate and contents: {}", sum / 2);
}

// ---- The bench cases ----

fn tell(label: &str, answer: Answer) {
    match answer {
        Ok(value) => println!("{label}: {value}"),
        Err(refusal) => println!("{label}: refusal {refusal}"),
    }
}

fn bench_leaves() {
    let ones = value(&[true; 36]);
    println!("32769 into bits 6-20 of all ones, octal: {:o}", store(36, 6, 20, ones, 32769));
    println!("32768 - 1 into 15 bits, octal: {:o}", read(36, 21, 35, store(36, 21, 35, 0, modulo(36, 32768 - 1))));
    println!("2^35 times 3, octal: {:o}", modulo(36, 3 << 35));
    println!("607 to decimal, octal: {:o}", decimal(6, 607));
    println!("1000607 to decimal, octal: {:o}", decimal(6, 1000607));
    println!("zeros to blanks, octal: {:o}", lead(0, BLANK, codes(6, decimal(6, 607))));
    println!("eight printed of o60007, octal: {:o}", packed(&printed(8, 36, 0o60007)));
    tell("o606060060007 to binary", to_binary(10, 6, 0o606060060007));
    tell("o000000060007 to binary", to_binary(10, 6, 0o000000060007));
}

fn bench_blocks() {
    let fresh = Blocks::new(8, 8, 23);
    for n in [3, 5] {
        let mut one = fresh.clone();
        let at = one.get(n).unwrap();
        tell(&format!("get {n}, its size"), Ok(one.size_at(at)));
    }
    tell("get 9", fresh.clone().get(9));
    let mut full = fresh.clone();
    let found = [full.get(8).unwrap(), full.get(8).unwrap()];
    tell("get 8, 8, 1", full.get(1));
    for (which, at) in ["first", "second"].iter().zip(found) {
        let mut one = full.clone();
        one.free(at);
        tell(&format!("get 8, 8, 1, free the {which}, get 8"), one.get(8));
    }
}

// The three-character list: the decimal text of each number below 1,000, each digit as a character, which is two octal digits.
fn triples() {
    for k in 0..1000 {
        let line: String = format!("{k:03}").chars().map(|c| format!("{:02o}", c.to_digit(10).unwrap())).collect();
        println!("{line}");
    }
}

// ---- Storage kept by bit columns ----

fn drawn_words(b: u64, drawn: u64) -> Vec<u64> {
    let mut g = Generator(drawn);
    (0..48).map(|_| g.next() >> if b == 36 { 28 } else { 16 }).collect()
}

fn whole(b: u64, groups: u64) -> u64 {
    groups * if b == 36 { 36 } else { 48 }
}

fn near(b: u64, a: u64) -> usize {
    (whole(b, a / 64 % 7) + a / 512 % 3).saturating_sub(1) as usize
}

// What a call answers and leaves: what it writes stands at the start of a buffer of so many 77.
fn left<T: Copy + From<u8> + Into<u64>>(length: usize, answer: Result<Vec<T>, u64>) -> u64 {
    let written = answer.as_ref().map_or(vec![], |written| written.clone());
    let after = vec![T::from(77); length - written.len()];
    let sum = written.iter().chain(&after).fold(1, |sum, &x| fold(sum, x.into()));
    fold(figure(answer.map(|written| written.len() as u64)), sum)
}

fn saved(b: u64, a: u64, y: u64) -> u64 {
    let mut words = drawn_words(b, y);
    if a / 4 % 4 == 3 {
        words[y as usize / 64 % 48] ^= 1 << (a / 16 % 64)
    }
    left(300, columns::save(b, &words[..y as usize % 41], near(b, a)))
}

fn loaded(b: u64, a: u64, y: u64) -> u64 {
    let n = y as usize % 41;
    let mut bytes = columns::save(b, &drawn_words(b, y)[..n], 300).unwrap_or_default();
    bytes.resize(300, 0);
    if a / 4 % 4 == 3 {
        bytes[y as usize / 64 % 288] ^= 1 << (a / 16 % 8)
    }
    let seldom = |from: u64, one: usize, other: usize| if a / from % 4 == 0 { one } else { other };
    let given = seldom(8192, near(b, a), whole(b, columns::groups(n) as u64) as usize);
    let wanted = seldom(32768, y as usize / 4096 % 41, n);
    let room = seldom(131072, y as usize / 262144 % 49, 48);
    left(48, columns::load(b, &bytes[..given], wanted, room))
}

fn cards() {
    for (name, call) in [("save", saved as fn(u64, u64, u64) -> u64), ("load", loaded)] {
        for width in ["width 36", "width 48", "any width"] {
            let b = |a, x| match width {
                "width 36" => 36,
                "width 48" => 48,
                _ => x >> (a % 64),
            };
            let mut g = Generator(SEED);
            let sum = (0..CASES).fold(0, |sum, _| {
                let c = g.case();
                fold(sum, call(b(c.a, c.x), c.a, g.0))
            });
            println!("{name}, {width}: {}", sum / 2);
        }
    }
}

fn main() {
    match std::env::args().nth(1).as_deref() {
        Some("leaves") => {
            words();
            fields();
            characters();
            tables();
            bench_leaves();
        }
        Some("allocations") => {
            blocks();
            references();
            bench_blocks();
        }
        Some("triples") => triples(),
        Some("openings") => openings::lines(),
        Some("corrections") => corrections::lines(),
        Some("cards") => cards(),
        _ => println!("leaves, allocations, triples, openings, corrections or cards"),
    }
}
