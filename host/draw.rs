//! A picture of the blocks that a tour leaves: each a box with its address, its words and its fields' contents, arrows along the
//! fields that hold the address of a block, and bugs as round labels, as Knowlton draws them.
//!
//! Blocks are laid out by chains. A chain follows the first of the fields that lead to blocks, from left to right; a block's other
//! fields lead down, to chains of the next level. So a list of rooms stands in a row, and below each room its list of stops.
use crate::folder::{Folder, Played, LIMIT};
use crate::l6::{self, Answer};
use std::collections::{BTreeMap, BTreeSet};
use std::fmt::Write;

const WIDE: u64 = 208; // of a box
const STEP: u64 = 268; // from box to box
const LINE: u64 = 16; // of text
const HEAD: u64 = 22; // of a box
const ABOVE: u64 = 104; // room for labels and arrows above a level
const MARGIN: u64 = 28;
const COLOURS: [&str; 6] = ["#1f4e9c", "#b3541e", "#2c7a3f", "#7a2c78", "#8a6d00", "#00717a"];

/// A field of a block: its name, its word, what it holds, and the block that it leads to, if it does.
struct Held {
    name: usize,
    word: u64,
    bits: u64,
    width: u64,
    leads: Option<u64>,
}

struct Picture {
    tour: Played,
    blocks: BTreeMap<u64, u64>,
    held: BTreeMap<u64, Vec<Held>>,
}

impl Picture {
    fn of(tour: Played) -> Picture {
        let blocks = tour.blocks();
        let fields: Vec<(usize, [u64; 3])> = (0..36).filter_map(|name| Some((name, tour.field(name)?))).collect();
        let held = blocks.iter().map(|(&address, &size)| {
            let inside = fields.iter().filter(|(_, [word, left, right])| *word < size && left <= right);
            let held = inside.map(|&(name, field)| {
                let bits = tour.bits(tour.word(address + field[0]), field);
                Held {
                    name,
                    word: field[0],
                    bits,
                    width: field[2] - field[1] + 1,
                    leads: blocks.contains_key(&bits).then_some(bits),
                }
            });
            (address, held.collect())
        });
        let held = held.collect();
        Picture { tour, blocks, held }
    }
    /// The fields that lead to blocks, by their names.
    fn leading(&self) -> Vec<usize> {
        let all: BTreeSet<usize> = self.held.values().flatten().filter(|held| held.leads.is_some()).map(|held| held.name).collect();
        all.into_iter().collect()
    }
    fn leads(&self, block: u64, name: usize) -> Option<u64> {
        self.held[&block].iter().find(|held| held.name == name)?.leads
    }
    fn bugs(&self) -> Vec<(char, u64)> {
        (0..26).map(|letter| ((b'A' + letter as u8) as char, self.tour.bug(letter))).filter(|(_, word)| *word > 0).collect()
    }
}

/// A chain of blocks, each with the chains below it.
struct Chain {
    blocks: Vec<(u64, Vec<Chain>)>,
}

impl Chain {
    fn wide(&self) -> u64 {
        self.blocks.iter().map(|(_, below)| below.iter().map(Chain::wide).sum::<u64>().max(1)).sum()
    }
    /// Column and level of each block.
    fn place(&self, mut column: u64, level: usize, places: &mut BTreeMap<u64, (u64, usize)>) {
        for (block, below) in &self.blocks {
            places.insert(*block, (column, level));
            let mut at = column;
            for chain in below {
                chain.place(at, level + 1, places);
                at += chain.wide();
            }
            column += below.iter().map(Chain::wide).sum::<u64>().max(1);
        }
    }
}

/// The chain from a block on, of blocks that have no place yet.
fn chain(picture: &Picture, start: u64, leading: &[usize], taken: &mut BTreeSet<u64>) -> Vec<u64> {
    let mut blocks = vec![];
    let mut at = Some(start);
    while let Some(block) = at.filter(|&block| taken.insert(block)) {
        blocks.push(block);
        at = leading.first().and_then(|&name| picture.leads(block, name));
    }
    blocks
}

/// All chains, level by level: those that bugs point to and then what is left at the top, the others below the blocks that lead to
/// them.
fn chains(picture: &Picture) -> Vec<Chain> {
    let leading = picture.leading();
    let mut taken = BTreeSet::new();
    let targets: BTreeSet<u64> = picture.held.values().flatten().filter_map(|held| held.leads).collect();
    let pointed: Vec<u64> =
        picture.bugs().into_iter().map(|(_, word)| word).filter(|word| picture.blocks.contains_key(word)).collect();
    let first = |block: &&u64| !targets.contains(*block);
    let starts: Vec<u64> =
        pointed.iter().filter(first).chain(picture.blocks.keys().filter(first)).chain(picture.blocks.keys()).copied().collect();
    // (level by level, each chain as its blocks and the block above it)
    let mut found: Vec<(Vec<u64>, Option<u64>)> = vec![];
    for start in starts {
        let mut level = vec![(start, None)];
        while !level.is_empty() {
            let mut next = vec![];
            for (block, above) in level {
                let blocks = chain(picture, block, &leading, &mut taken);
                next.extend(blocks.iter().flat_map(|&block| {
                    leading.iter().skip(1).filter_map(move |&name| Some((picture.leads(block, name)?, Some(block))))
                }));
                if !blocks.is_empty() {
                    found.push((blocks, above))
                }
            }
            level = next;
        }
    }
    fn grow(found: &[(Vec<u64>, Option<u64>)], blocks: &[u64]) -> Chain {
        let below =
            |block: u64| found.iter().filter(|(_, above)| *above == Some(block)).map(|(blocks, _)| grow(found, blocks)).collect();
        Chain { blocks: blocks.iter().map(|&block| (block, below(block))).collect() }
    }
    found.iter().filter(|(_, above)| above.is_none()).map(|(blocks, _)| grow(&found, blocks)).collect()
}

fn clean(text: &str) -> String {
    text.replace('&', "&amp;").replace('<', "&lt;").replace('>', "&gt;").replace('\n', "/")
}

/// What a field holds: the address that it leads to, or its octal digits and, where it holds whole characters, these.
fn contents(held: &Held) -> String {
    if let Some(address) = held.leads {
        return format!("to {address}");
    }
    let octal = format!("{:0wide$o}", held.bits, wide = held.width.div_ceil(3) as usize);
    if held.width % 6 != 0 {
        return octal;
    }
    let codes: Vec<u8> = (0..held.width / 6).rev().map(|i| (held.bits >> (6 * i) & 63) as u8).collect();
    format!("{octal} \u{2018}{}\u{2019}", clean(&l6::text(&codes)))
}

pub fn draw(folder: &Folder) -> Result<String, String> {
    let mut tour = Played::start(folder.width)?;
    while tour.answer == Answer::Running && tour.steps < LIMIT {
        tour.step(&folder.table, &folder.input);
    }
    let picture = Picture::of(tour);
    let (mut places, mut column) = (BTreeMap::new(), 0);
    for chain in chains(&picture) {
        chain.place(column, 0, &mut places);
        column += chain.wide();
    }
    Ok(svg(&picture, &places, column.max(2)))
}

/// Where a box stands: left, top, height.
type Boxes = BTreeMap<u64, (u64, u64, u64)>;

fn boxes(picture: &Picture, places: &BTreeMap<u64, (u64, usize)>) -> (Boxes, u64) {
    let high = |block: u64| HEAD + LINE * (picture.blocks[&block] + picture.held[&block].len() as u64) + 10;
    let levels = places.values().map(|(_, level)| level + 1).max().unwrap_or(0);
    let (mut tops, mut top) = (vec![], MARGIN);
    for level in 0..levels {
        tops.push(top + ABOVE);
        top += ABOVE + places.iter().filter(|(_, place)| place.1 == level).map(|(&block, _)| high(block)).max().unwrap_or(0);
    }
    let boxes =
        places.iter().map(|(&block, &(column, level))| (block, (MARGIN + STEP * column, tops[level], high(block)))).collect();
    (boxes, top + ABOVE)
}

fn svg(picture: &Picture, places: &BTreeMap<u64, (u64, usize)>, columns: u64) -> String {
    let (boxes, high) = boxes(picture, places);
    let wide = 2 * MARGIN + STEP * columns;
    let leading = picture.leading();
    let colour = |name: usize| COLOURS[leading.iter().position(|&one| one == name).unwrap_or(0) % COLOURS.len()];
    let mut out = String::new();
    let _ = writeln!(
        out,
        "<svg xmlns=\"http://www.w3.org/2000/svg\" width=\"{wide}\" height=\"{high}\" viewBox=\"0 0 {wide} {high}\" \
         font-family=\"monospace\" font-size=\"12\">"
    );
    let _ = writeln!(out, "<rect width=\"{wide}\" height=\"{high}\" fill=\"white\"/>\n<defs>");
    for (i, colour) in COLOURS.iter().chain(&["#444444"]).enumerate() {
        let _ = writeln!(
            out,
            "<marker id=\"m{i}\" markerWidth=\"9\" markerHeight=\"8\" refX=\"8\" refY=\"4\" orient=\"auto\">\
             <path d=\"M0,0 L9,4 L0,8 z\" fill=\"{colour}\"/></marker>"
        );
    }
    out += "</defs>\n";
    let [d, s1, s2] = picture.tour.state.setup();
    let _ = writeln!(
        out,
        "<text x=\"{MARGIN}\" y=\"24\" font-size=\"14\">set-up {d} {s1} {s2}: {} blocks in use</text>",
        picture.blocks.len()
    );
    let mut lanes = 0;
    for (&block, &(x, y, tall)) in &boxes {
        out += &boxed(picture, block, x, y, tall, &colour)
    }
    for (&block, &(x, y, _)) in &boxes {
        for (i, held) in picture.held[&block].iter().enumerate() {
            let Some(target) = held.leads else { continue };
            let from = (x + WIDE, y + HEAD + LINE * (picture.blocks[&block] + i as u64) + 9);
            let marker = leading.iter().position(|&one| one == held.name).unwrap_or(0) % COLOURS.len();
            out += &arrow(from, &boxes, block, target, colour(held.name), marker, &mut lanes);
        }
    }
    out += &labels(picture, &boxes, high);
    out + "</svg>\n"
}

/// A box: its address and size, its words, its fields.
fn boxed(picture: &Picture, block: u64, x: u64, y: u64, tall: u64, colour: &dyn Fn(usize) -> &'static str) -> String {
    let size = picture.blocks[&block];
    let digits = picture.tour.state.width().div_ceil(3) as usize;
    let mut out = String::new();
    let _ =
        writeln!(out, "<rect x=\"{x}\" y=\"{y}\" width=\"{WIDE}\" height=\"{tall}\" rx=\"3\" fill=\"#fdfdf8\" stroke=\"#333\"/>");
    let _ = writeln!(out, "<path d=\"M{x},{} h{WIDE}\" stroke=\"#333\"/>", y + HEAD);
    let _ = writeln!(
        out,
        "<text x=\"{}\" y=\"{}\" font-weight=\"bold\">{block}</text>\
         <text x=\"{}\" y=\"{}\" text-anchor=\"end\" fill=\"#555\">octal {block:o}</text>",
        x + 8,
        y + 15,
        x + WIDE - 8,
        y + 15
    );
    let mut line = y + HEAD + 14;
    for i in 0..size {
        let _ = writeln!(
            out,
            "<text x=\"{}\" y=\"{line}\" fill=\"#888\">{i}</text><text x=\"{}\" y=\"{line}\">{:0digits$o}</text>",
            x + 8,
            x + 32,
            picture.tour.word(block + i)
        );
        line += LINE;
    }
    let _ = writeln!(out, "<path d=\"M{x},{} h{WIDE}\" stroke=\"#bbb\"/>", line - 10);
    line += 3;
    for held in &picture.held[&block] {
        let fill = if held.leads.is_some() { colour(held.name) } else { "#222" };
        let _ = writeln!(
            out,
            "<text x=\"{}\" y=\"{line}\" fill=\"{fill}\" xml:space=\"preserve\"><tspan font-weight=\"bold\">{}</tspan>  {}</text>\
             <text x=\"{}\" y=\"{line}\" fill=\"#999\" text-anchor=\"end\">{}</text>",
            x + 8,
            l6::field_name(held.name as u64),
            contents(held),
            x + WIDE - 8,
            held.word
        );
        line += LINE;
    }
    out
}

/// An arrow from the right side of a box at a height: to the left side of the next box of its row, to the top of one below, and by
/// a lane of its own below the row of any other into that.
fn arrow((x, y): (u64, u64), boxes: &Boxes, block: u64, target: u64, colour: &str, marker: usize, lanes: &mut u64) -> String {
    let ((left, top, tall), (own, own_top, own_tall)) = (boxes[&target], boxes[&block]);
    let next =
        top == own_top && left > own && !boxes.values().any(|&(between, row, _)| row == top && between > own && between < left);
    let path = if next {
        format!("M{x},{y} C{},{y} {},{} {left},{}", x + 34, left - 34, top + 11, top + 11)
    } else if top > own_top {
        let (middle, bend, low) = (left + WIDE / 2, x + 16, own_top + own_tall);
        format!(
            "M{x},{y} H{} Q{bend},{y} {bend},{} V{low} C{bend},{} {middle},{} {middle},{top}",
            x + 10,
            y + 6,
            low + 34,
            top - 40
        )
    } else {
        let lane = *lanes;
        *lanes += 1;
        let (down, up) = (x + 16 + 7 * (lane % 5), left + WIDE - 20 - 18 * (lane % 5));
        let bottom = |row: u64| boxes.values().filter(|(_, at, _)| *at == row).map(|(_, at, tall)| at + tall).max().unwrap_or(row);
        let (low, deep) = (top + tall, bottom(top) + 20 + 11 * (lane % 5));
        let (turned, on) = if top < own_top { (y - 6, deep + 8) } else { (y + 6, deep - 8) };
        let (leave, arrive) = if up < down { (down - 8, up + 8) } else { (down + 8, up - 8) };
        format!(
            "M{x},{y} H{} Q{down},{y} {down},{turned} V{on} Q{down},{deep} {leave},{deep} H{arrive} Q{up},{deep} {up},{} V{low}",
            down - 6,
            deep - 8
        )
    };
    format!(
        "<path d=\"{path}\" fill=\"none\" stroke=\"{colour}\" stroke-width=\"1.4\" marker-end=\"url(#m{marker})\"/>\
         <circle cx=\"{x}\" cy=\"{y}\" r=\"2.4\" fill=\"{colour}\"/>\n"
    )
}

/// Bugs: round, above the block that they point to; the others in a row at the end.
fn labels(picture: &Picture, boxes: &Boxes, high: u64) -> String {
    let mut out = String::new();
    let mut above: BTreeMap<u64, u64> = BTreeMap::new();
    let mut alone = MARGIN + 14;
    for (letter, word) in picture.bugs() {
        let round = |x: u64, y: u64| {
            format!(
                "<circle cx=\"{x}\" cy=\"{y}\" r=\"13\" fill=\"#fff3c4\" stroke=\"#333\"/>\
                 <text x=\"{x}\" y=\"{}\" text-anchor=\"middle\" font-weight=\"bold\">{letter}</text>",
                y + 4
            )
        };
        match boxes.get(&word) {
            Some(&(x, y, _)) => {
                let n = above.entry(word).or_default();
                let at = x + 18 + 32 * *n;
                *n += 1;
                let _ = writeln!(
                    out,
                    "{}<path d=\"M{at},{} V{y}\" stroke=\"#444444\" marker-end=\"url(#m{})\"/>",
                    round(at, y - 40),
                    y - 27,
                    COLOURS.len()
                );
            }
            None => {
                let text = format!("{word:o}");
                let _ = writeln!(out, "{}<text x=\"{}\" y=\"{}\">{text}</text>", round(alone, high - 30), alone + 19, high - 26);
                alone += 44 + 8 * text.len() as u64;
            }
        }
    }
    out
}
