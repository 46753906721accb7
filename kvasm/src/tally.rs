//! Counts of the lines that a program has to print, and of the opens at the limits of what is at hand.
use crate::model::{Line, Played, Refusal, FULL, NO_LAYER, NO_ROOM, OUTSIDE, SEQ_ENDS, TORN};
use crate::records::{Met, Reader, Record};
use crate::shape::{Shape, CELLS_AT_HAND, SCALES_AT_HAND};
use std::collections::BTreeMap;
use std::fmt;

/// The refusals that a program can give.
const REFUSALS: [Refusal; 6] = [OUTSIDE, NO_ROOM, NO_LAYER, TORN, FULL, SEQ_ENDS];

/// What was played.
#[derive(Default)]
pub struct Tally {
    pub files: u64,
    pub bytes: u64,
    pub ok: u64,
    pub reports: u64,
    pub bad: u64,
    pub refusals: BTreeMap<Refusal, u64>,
    pub edges: Edges,
}

/// Opens that need all of what is at hand, or just more, while the other buffer is enough.
#[derive(Debug, Default)]
pub struct Edges {
    pub all_cells: u64,
    pub more_cells: u64,
    pub all_scales: u64,
    pub more_scales: u64,
}

impl Edges {
    fn count(&mut self, shape: &Shape) {
        let (cells, scales) = (shape.cells(), shape.scales());
        let (few_cells, few_scales) = (cells <= CELLS_AT_HAND, scales <= SCALES_AT_HAND);
        self.all_cells += u64::from(cells == CELLS_AT_HAND && few_scales);
        self.more_cells += u64::from(!few_cells && cells <= CELLS_AT_HAND + 8 && few_scales);
        self.all_scales += u64::from(scales == SCALES_AT_HAND && few_cells);
        self.more_scales += u64::from(!few_scales && scales <= SCALES_AT_HAND + 2 && few_cells);
    }

    fn join(&mut self, other: Edges) {
        self.all_cells += other.all_cells;
        self.more_cells += other.more_cells;
        self.all_scales += other.all_scales;
        self.more_scales += other.more_scales;
    }
}

impl Tally {
    /// Counts a file and its lines.
    pub fn count(&mut self, file: &[u8], played: &Played) {
        self.files += 1;
        self.bytes += file.len() as u64;
        for line in &played.lines {
            *self.counter(line) += 1;
        }
        if played.place.is_some() {
            self.count_edges(file);
        }
    }

    /// Counts the opens of a file that is walked.
    fn count_edges(&mut self, file: &[u8]) {
        let mut reader = Reader::new(file);
        while let Met::Record(record) = reader.meet() {
            match record {
                Record::Open(shape) if shape.is_within_limits() => self.edges.count(&shape),
                _ => {}
            }
        }
    }

    fn counter(&mut self, line: &Line) -> &mut u64 {
        match line {
            Line::Ok => &mut self.ok,
            Line::No(refusal) => self.refusals.entry(*refusal).or_default(),
            Line::Report(_) => &mut self.reports,
            Line::BadAt(_) => &mut self.bad,
        }
    }

    /// How often a refusal was given.
    pub fn refused(&self, refusal: Refusal) -> u64 {
        self.refusals.get(&refusal).copied().unwrap_or(0)
    }

    /// Takes in what another tally holds.
    pub fn join(&mut self, other: Tally) {
        self.files += other.files;
        self.bytes += other.bytes;
        self.ok += other.ok;
        self.reports += other.reports;
        self.bad += other.bad;
        for (refusal, count) in other.refusals {
            *self.refusals.entry(refusal).or_default() += count;
        }
        self.edges.join(other.edges);
    }
}

impl fmt::Display for Tally {
    fn fmt(&self, text: &mut fmt::Formatter) -> fmt::Result {
        write!(text, "files {} bytes {}, ", self.files, self.bytes)?;
        write!(text, "lines: {} ok, {} report, ", self.ok, self.reports)?;
        for refusal in REFUSALS {
            write!(text, "{} 'no {refusal}', ", self.refused(refusal))?;
        }
        let edges = &self.edges;
        write!(text, "{} bad, opens: ", self.bad)?;
        write!(
            text,
            "{} all cells, {} more, ",
            edges.all_cells, edges.more_cells
        )?;
        write!(
            text,
            "{} all scale words, {} more",
            edges.all_scales, edges.more_scales
        )
    }
}
