//! What it costs at the least in plain Rust to take an edit: std alone, no attributes, no checks of form, no rebasing, no record
//! and no disk. A letter at a random place is looked at (the length of its text, and the newlines that it says it keeps), made,
//! and kept as a revision with its author, and its change is answered. The text is one that is copied by each edit, or stands
//! in blocks that are altered in place, so that no older text is left.
//!
//! Prints a line an item: name, edits per second, microseconds each (the best of so many pads), note, with tabs between.
//! Built by `rustc -O taking.rs`.
use std::hint::black_box;
use std::time::{Duration, Instant};

const NEWLINE: u16 = 10;
/// A block has at most so many units.
const MOST: usize = 2048;
const EDITS: usize = 300;

struct Draws(u64);

impl Draws {
    fn pick(&mut self, limit: usize) -> usize {
        self.0 = self.0.wrapping_mul(6364136223846793005).wrapping_add(1442695040888963407);
        ((self.0 >> 33) % limit as u64) as usize
    }
}

fn lines(text: &[u16]) -> u32 {
    text.iter().map(|unit| u32::from(*unit == NEWLINE)).sum()
}

/// Units are kept, with so many newlines among them, or inserted.
#[derive(Clone, Copy)]
enum Run {
    Keep { units: u32, lines: u32 },
    Insert { units: u32 },
}

#[derive(Clone)]
struct Change {
    old: usize,
    runs: Vec<Run>,
    bank: Vec<u16>,
}

fn letter(text: &[u16], at: usize) -> Change {
    let kept = Run::Keep { units: at as u32, lines: lines(&text[..at]) };
    Change { old: text.len(), runs: vec![kept, Run::Insert { units: 1 }], bank: vec![120] }
}

trait Text {
    fn of(text: &[u16]) -> Self;
    /// Makes a change, where it fits.
    fn take(&mut self, change: &Change) -> bool;
}

struct Flat(Vec<u16>);

impl Text for Flat {
    fn of(text: &[u16]) -> Flat {
        Flat(text.to_vec())
    }

    fn take(&mut self, change: &Change) -> bool {
        if change.old != self.0.len() {
            return false;
        }
        let mut out = Vec::with_capacity(self.0.len() + change.bank.len());
        let (mut at, mut used) = (0, 0);
        for run in &change.runs {
            match *run {
                Run::Keep { units, lines: said } => {
                    let kept = &self.0[at..at + units as usize];
                    if lines(kept) != said {
                        return false;
                    }
                    out.extend_from_slice(kept);
                    at += units as usize;
                }
                Run::Insert { units } => {
                    out.extend_from_slice(&change.bank[used..used + units as usize]);
                    used += units as usize;
                }
            }
        }
        out.extend_from_slice(&self.0[at..]);
        self.0 = out;
        true
    }
}

/// Blocks with their newlines.
struct Blocks {
    units: usize,
    blocks: Vec<(Vec<u16>, u32)>,
}

impl Blocks {
    /// The block that has a place, the place in it, and the newlines before it.
    fn find(&self, at: usize) -> (usize, usize, u32) {
        let (mut i, mut left, mut before) = (0, at, 0);
        while i + 1 < self.blocks.len() && left > self.blocks[i].0.len() {
            left -= self.blocks[i].0.len();
            before += self.blocks[i].1;
            i += 1;
        }
        (i, left, before + lines(&self.blocks[i].0[..left]))
    }

    fn insert(&mut self, i: usize, at: usize, text: &[u16]) {
        let (block, count) = &mut self.blocks[i];
        block.splice(at..at, text.iter().copied());
        *count += lines(text);
        if block.len() > MOST {
            let later = block.split_off(MOST / 2);
            *count = lines(block);
            let counted = lines(&later);
            self.blocks.insert(i + 1, (later, counted));
        }
    }
}

impl Text for Blocks {
    fn of(text: &[u16]) -> Blocks {
        let blocks = text.chunks(MOST / 2).map(|part| {
            let mut block = Vec::with_capacity(MOST);
            block.extend_from_slice(part);
            (block, lines(part))
        });
        Blocks { units: text.len(), blocks: blocks.collect() }
    }

    fn take(&mut self, change: &Change) -> bool {
        let [Run::Keep { units, lines: said }, Run::Insert { .. }] = change.runs[..] else {
            return false;
        };
        let (i, at, before) = self.find(units as usize);
        if change.old != self.units || before != said {
            return false;
        }
        self.insert(i, at, &change.bank);
        self.units += change.bank.len();
        true
    }
}

struct Revision {
    change: Change,
    author: Vec<u16>,
    session: (u64, u64),
    time: u64,
}

struct Pad<T> {
    text: T,
    revisions: Vec<Revision>,
}

impl<T: Text> Pad<T> {
    fn take(&mut self, change: &Change, author: &[u16], session: (u64, u64), time: u64) -> Option<(usize, Change)> {
        if !self.text.take(change) {
            return None;
        }
        self.revisions.push(Revision { change: change.clone(), author: author.to_vec(), session, time });
        Some((self.revisions.len(), change.clone()))
    }
}

/// Letters, each at a place of what those before it make of a text; and that text.
fn letters(text: &[u16], draws: &mut Draws) -> (Vec<Change>, Vec<u16>) {
    let mut now = text.to_vec();
    let changes = (0..EDITS).map(|_| {
        let at = draws.pick(now.len());
        let change = letter(&now, at);
        now.insert(at, 120);
        change
    }).collect();
    (changes, now)
}

/// The time of the calls in a row, with edits that were made before.
fn time<T: Text>(text: &[u16], draws: &mut Draws) -> Duration {
    let author: Vec<u16> = "a.s8oes9dhwrvt0zif".encode_utf16().collect();
    let mut pad = Pad { text: T::of(text), revisions: vec![] };
    let (changes, now) = letters(text, draws);
    let start = Instant::now();
    for (edit, change) in changes.iter().enumerate() {
        let answer = pad.take(change, &author, (1, 1), edit as u64);
        assert!(black_box(answer).is_some());
    }
    let spent = start.elapsed();
    let kept = pad.revisions.last().map(|r| (r.change.old, r.author.len(), r.session, r.time));
    assert_eq!(black_box(kept), Some((now.len() - 1, author.len(), (1, 1), EDITS as u64 - 1)));
    spent
}

fn item<T: Text>(name: &str, units: usize, pads: usize, note: &str) {
    let mut draws = Draws(7);
    let text: Vec<u16> = (0..units).map(|_| if draws.pick(60) == 0 { NEWLINE } else { 97 + draws.pick(26) as u16 }).collect();
    let best = (0..pads).map(|_| time::<T>(&text, &mut draws)).min().unwrap_or_default();
    let each = best.as_secs_f64() / EDITS as f64;
    println!("{name}\t{:.0}\t{:.3}\t{note}", 1.0 / each, each * 1e6);
}

fn main() {
    for (label, units, pads) in [("10KB", 10_000, 100), ("1MB", 1_000_000, 5)] {
        item::<Flat>(&format!("{label}/take by copying"), units, pads, "one letter, the text is copied");
        item::<Blocks>(&format!("{label}/take in blocks"), units, pads, "one letter, a block is altered in place");
    }
}
