//! A case: one encoding call with everything that is lent to it, and how the label that it draws is read back.
use crate::model::capacity;
use gatemurmur::raw::{Record, SCRATCH};

#[derive(Clone, Copy, PartialEq, Eq, Debug)]
pub enum Entry {
    Text,
    Binary,
    Segments,
    Codewords,
}

#[derive(Clone, Debug)]
pub struct Case {
    pub entry: Entry,
    /// The text, the binary data or the data codewords.
    pub text: Vec<u8>,
    /// Records, of the segment entry alone.
    pub records: Vec<Record>,
    pub level: u8,
    /// The version bounds; the codeword entry has its version in `first`.
    pub first: u8,
    pub last: u8,
    pub mask: u8,
    pub boost: bool,
    /// Bytes that the grid has more than the label takes, or fewer.
    pub grid: i64,
    /// Bytes of scratch.
    pub scratch: usize,
    /// How the drawn label is read.
    pub reading: Reading,
}

/// What a drawn grid is before it is read, and what is lent to the reader.
#[derive(Clone, Debug)]
pub struct Reading {
    /// Places, and what the bytes there are xored with.
    pub edits: Vec<(usize, u8)>,
    /// Bytes that the grid has more than the drawn one, or fewer.
    pub resize: i64,
    /// The size that is told, where it is not the drawn one.
    pub size: Option<usize>,
    /// Bytes and records that the buffers have more than the label takes, or fewer.
    pub text: i64,
    pub records: i64,
    pub scratch: usize,
}

impl Default for Reading {
    fn default() -> Self {
        Reading { edits: vec![], resize: 0, size: None, text: 0, records: 0, scratch: SCRATCH }
    }
}

impl Case {
    /// A call with plain settings: level Low, all versions, mask 0, no boost, buffers that just do.
    pub fn new(entry: Entry, text: Vec<u8>) -> Self {
        Case {
            entry,
            text,
            records: vec![],
            level: 0,
            first: 1,
            last: 40,
            mask: 0,
            boost: false,
            grid: 0,
            scratch: SCRATCH,
            reading: Reading::default(),
        }
    }

    /// How much there is to read in a case; a smaller one shows a difference better.
    fn weight(&self) -> u64 {
        let bytes: u64 = self.text.iter().map(|&b| 4 + u64::from(b != b'0')).sum();
        let records: u64 = self
            .records
            .iter()
            .map(|r| 1000 + r.kind.min(9) + r.length.min(9999) + r.start.min(9999) + r.assign.min(9999))
            .sum();
        let settings = u64::from(self.level)
            + u64::from(self.first)
            + u64::from(40u8.abs_diff(self.last))
            + u64::from(self.mask)
            + u64::from(self.boost);
        let lent = self.grid.unsigned_abs() + self.scratch.abs_diff(SCRATCH) as u64;
        let r = &self.reading;
        let read = 50 * r.edits.len() as u64
            + r.resize.unsigned_abs()
            + u64::from(r.size.is_some())
            + r.text.unsigned_abs()
            + r.records.unsigned_abs()
            + r.scratch.abs_diff(SCRATCH) as u64;
        100 * (bytes + records) + 10 * (read + lent) + settings
    }

    /// The smallest case, found step by step, that still fails.
    pub fn shrink(self, fails: impl Fn(&Case) -> bool) -> Case {
        let mut best = self;
        let mut tries = 0;
        'again: loop {
            for next in best.simpler() {
                tries += 1;
                if tries > 3_000 {
                    return best;
                }
                if next.weight() < best.weight() && fails(&next) {
                    best = next;
                    continue 'again;
                }
            }
            return best;
        }
    }

    // Cases that are like this one with something taken away.
    fn simpler(&self) -> Vec<Case> {
        let mut all = Vec::new();
        for (from, to) in parts(self.records.len()) {
            let mut c = self.clone();
            c.records.drain(from..to);
            all.push(c);
        }
        for (from, to) in parts(self.text.len()) {
            all.push(self.without(from, to));
        }
        for (from, to) in parts(self.reading.edits.len()) {
            let mut c = self.clone();
            c.reading.edits.drain(from..to);
            all.push(c);
        }
        self.plainer(&mut all);
        if self.entry == Entry::Codewords && (1..=40).contains(&self.first) && self.level < 4 {
            for v in 1..self.first {
                let mut c = self.clone();
                c.first = v;
                c.text.truncate(capacity(v, self.level) / 8);
                all.push(c);
            }
        }
        for i in 0..self.text.len() {
            let mut c = self.clone();
            c.text[i] = b'0';
            all.push(c);
        }
        all
    }

    // The case without a part of its text; records that start behind it move, those that hold it shorten.
    fn without(&self, from: usize, to: usize) -> Case {
        let mut c = self.clone();
        c.text.drain(from..to);
        let (a, b) = (from as u64, to as u64);
        for r in c.records.iter_mut().filter(|r| r.kind < 3) {
            let end = r.start.saturating_add(r.length);
            let before = |x: u64| if x >= b { x - (b - a) } else { x.min(a) };
            r.length = before(end).saturating_sub(before(r.start));
            r.start = before(r.start);
        }
        c
    }

    // The case with one setting made plain.
    fn plainer(&self, all: &mut Vec<Case>) {
        let plain = Case::new(self.entry, vec![]);
        let mut change = |f: &dyn Fn(&mut Case)| {
            let mut c = self.clone();
            f(&mut c);
            all.push(c);
        };
        change(&|c| c.reading = Reading::default());
        change(&|c| c.reading.size = None);
        change(&|c| c.reading.resize = 0);
        change(&|c| c.reading.text = 0);
        change(&|c| c.reading.records = 0);
        change(&|c| c.reading.scratch = SCRATCH);
        change(&|c| c.level = plain.level);
        change(&|c| c.first = plain.first);
        change(&|c| c.last = plain.last);
        change(&|c| c.mask = plain.mask);
        change(&|c| c.boost = plain.boost);
        change(&|c| c.grid = plain.grid);
        change(&|c| c.scratch = plain.scratch);
    }
}

// Parts of a list of n that can be taken away: halves, quarters and so on, down to one.
fn parts(n: usize) -> Vec<(usize, usize)> {
    let mut all = Vec::new();
    let mut width = n;
    while width > 0 {
        all.extend((0..n).step_by(width).map(|i| (i, (i + width).min(n))));
        width /= 2;
    }
    all
}
