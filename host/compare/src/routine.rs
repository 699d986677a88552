//! One comparison for every routine: a row of words goes to ours and to theirs, and the answers are compared word by word.

use crate::generate::{self, Edge, Kind, Part};
use crate::words::{In, Out, Words, MOST};
use crate::{same, portion, threads};
use std::fmt;
use std::sync::{Mutex, PoisonError};

/// The gate's rows a routine.
pub const GATE: u64 = 1_000_000;

/// The rows of this run: the gate's, or their share, or more where the environment has FOSAVALO_CASES.
pub fn cases() -> u64 {
    std::env::var("FOSAVALO_CASES").ok().and_then(|text| text.parse().ok()).unwrap_or(0).max(portion::of(GATE))
}

type Side = Box<dyn Fn(&mut In, &mut Out) + Send + Sync>;

pub struct Routine {
    pub name: &'static str,
    pub takes: Vec<Part>,
    /// The words of an answer.
    pub gives: usize,
    edge: Option<Edge>,
    ours: Side,
    theirs: Side,
}

impl Routine {
    pub fn new<A: Words, B: Words>(
        name: &'static str,
        takes: &[Part],
        ours: impl Fn(&mut In) -> A + Send + Sync + 'static,
        theirs: impl Fn(&mut In) -> B + Send + Sync + 'static,
    ) -> Self {
        Routine {
            name,
            takes: takes.to_vec(),
            gives: A::LEN,
            edge: None,
            ours: Box::new(move |i, o| ours(i).put(o)),
            theirs: Box::new(move |i, o| theirs(i).put(o)),
        }
    }

    /// With rows near what the routine decides by.
    pub fn near(mut self, edge: Edge) -> Self {
        self.edge = Some(edge);
        self
    }

    /// The same routine, its inputs and theirs, with another in the place of ours.
    pub fn with_ours<A: Words>(self, name: &'static str, ours: impl Fn(&mut In) -> A + Send + Sync + 'static) -> Self {
        Routine { name, ours: Box::new(move |i, o| ours(i).put(o)), ..self }
    }

    /// The words of an argument.
    pub fn inputs(&self) -> usize {
        self.takes.iter().map(|part| part.count()).sum()
    }

    /// How many of n rows are different from each other: a routine that takes nothing has one.
    pub fn rows(&self, n: u64) -> u64 {
        if self.takes.is_empty() {
            1
        } else {
            n
        }
    }

    /// Compares the rows from `from` up to `to`; the first that differs.
    pub fn compare(&self, from: u64, to: u64) -> Option<Mismatch> {
        let mut words = [0.0; MOST];
        let words = &mut words[..self.inputs().min(MOST)];
        for row in from..to {
            generate::fill(&self.takes, self.edge, self.name, row, words);
            if let Some(found) = self.compare_at(words) {
                return Some(Mismatch { row, ..found });
            }
        }
        None
    }

    /// The row with this number.
    pub fn row(&self, row: u64) -> Vec<f32> {
        let mut words = vec![0.0; self.inputs()];
        generate::fill(&self.takes, self.edge, self.name, row, &mut words);
        words
    }

    /// What ours answers to the row with this number.
    pub fn answer(&self, row: u64) -> Vec<f32> {
        run(&self.ours, &self.row(row)).0.words().to_vec()
    }

    /// What the Rust answers to these words.
    pub fn oracle(&self, words: &[f32]) -> Vec<f32> {
        run(&self.theirs, words).0.words().to_vec()
    }

    /// Compares one row. Both sides have to take and to give the words that the table says.
    pub fn compare_at(&self, words: &[f32]) -> Option<Mismatch> {
        let (ours, taken) = run(&self.ours, words);
        let (theirs, taken_too) = run(&self.theirs, words);
        let counted = taken == words.len() && taken_too == words.len() && ours.count() == self.gives && theirs.count() == self.gives;
        if counted && alike(ours.words(), theirs.words()) {
            return None;
        }
        Some(Mismatch { routine: self.name, row: 0, words: words.to_vec(), ours: ours.words().to_vec(), theirs: theirs.words().to_vec() })
    }
}

#[inline]
fn run(side: &Side, words: &[f32]) -> (Out, usize) {
    let (mut i, mut o) = (In::new(words), Out::new());
    side(&mut i, &mut o);
    (o, i.taken())
}

/// As many words, and all the same.
pub fn alike(a: &[f32], b: &[f32]) -> bool {
    a.len() == b.len() && a.iter().zip(b).all(|(x, y)| same(*x, *y))
}

/// A row on which the two sides differ.
#[derive(Debug)]
pub struct Mismatch {
    pub routine: &'static str,
    pub row: u64,
    pub words: Vec<f32>,
    pub ours: Vec<f32>,
    pub theirs: Vec<f32>,
}

/// Words in hex.
pub struct Hex<'a>(pub &'a [f32]);

impl fmt::Display for Hex<'_> {
    fn fmt(&self, f: &mut fmt::Formatter<'_>) -> fmt::Result {
        self.0.iter().try_for_each(|w| write!(f, " {:08x}", w.to_bits()))
    }
}

impl fmt::Display for Mismatch {
    fn fmt(&self, f: &mut fmt::Formatter<'_>) -> fmt::Result {
        let kind: Kind = generate::kind(self.row);
        writeln!(f, "{}: row {} ({kind:?})", self.routine, self.row)?;
        writeln!(f, "  given  {}", Hex(&self.words))?;
        writeln!(f, "  ours   {}", Hex(&self.ours))?;
        write!(f, "  theirs {}", Hex(&self.theirs))
    }
}

/// Rows that one thread does at a time.
const CHUNK: u64 = 20_000;

/// Compares `n` rows of each routine on all threads, and gives the first mismatch of each routine that has one, in the table's order.
pub fn compare_all(table: &[Routine], n: u64) -> Vec<Mismatch> {
    let chunks: Vec<(usize, u64, u64)> = table
        .iter()
        .enumerate()
        .flat_map(|(at, routine)| {
            let rows = routine.rows(n);
            (0..rows.div_ceil(CHUNK)).map(move |c| (at, c * CHUNK, rows.min((c + 1) * CHUNK)))
        })
        .collect();
    let found: Mutex<Vec<Option<Mismatch>>> = Mutex::new(table.iter().map(|_| None).collect());
    threads::each(chunks.len() as u64, |job| {
        let (at, from, to) = chunks[job as usize];
        if let Some(new) = table[at].compare(from, to) {
            let mut found = found.lock().unwrap_or_else(PoisonError::into_inner);
            if found[at].as_ref().is_none_or(|old| new.row < old.row) {
                found[at] = Some(new);
            }
        }
        false
    });
    found.into_inner().unwrap_or_else(PoisonError::into_inner).into_iter().flatten().collect()
}
