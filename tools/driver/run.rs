//! Runs a case: the port's call, its answer, every module, what was lent, and the label read back.
use crate::case::{Case, Entry};
use crate::model::{self, side, Expected, Label};
use crate::random::Random;
use gatemurmur::raw::{self, Answer, Record, SCRATCH};

/// A wrong answer put in by hand, to see that it is found; `tools/compare --selftest` tries each.
#[derive(Clone, Copy, PartialEq, Eq, Debug)]
pub enum Fault {
    None,
    Module,
    Version,
    Detail,
    ScratchLeft,
    BehindGrid,
    BehindScratch,
    RefusedWrites,
    ReadByte,
    ReadStart,
    ReadDetail,
    ReadAccepts,
    BehindText,
    BehindRecords,
    ReadScratch,
    Outside,
}

pub const FAULTS: [Fault; 15] = [
    Fault::Module,
    Fault::Version,
    Fault::Detail,
    Fault::ScratchLeft,
    Fault::BehindGrid,
    Fault::BehindScratch,
    Fault::RefusedWrites,
    Fault::ReadByte,
    Fault::ReadStart,
    Fault::ReadDetail,
    Fault::ReadAccepts,
    Fault::BehindText,
    Fault::BehindRecords,
    Fault::ReadScratch,
    Fault::Outside,
];

/// What was seen in a case: the encoder's refusal or the version, and the reader's refusal where it was asked.
pub struct Seen {
    pub number: u32,
    pub version: u8,
    pub read: Option<u32>,
}

/// Memory that is lent, and what it held before.
pub struct Worker {
    fault: Fault,
    /// Bytes that no call writes by chance.
    pattern: Vec<u8>,
    zeros: Vec<u8>,
    grid: Vec<u8>,
    scratch: Vec<u8>,
    text: Vec<u8>,
    records: Vec<Record>,
}

/// Bytes that lie behind what is lent.
const BEHIND: usize = 64;
const MARK: Record = Record { kind: 0xABAB_ABAB_ABAB_ABAB, start: 0xCDCD, length: 0xEFEF, assign: 0x9797 };

impl Worker {
    pub fn new(fault: Fault) -> Self {
        let mut random = Random::of(0, "pattern", 0);
        Worker {
            fault,
            pattern: (0..50_000).map(|_| random.byte() | 2).collect(),
            zeros: vec![0; SCRATCH],
            grid: vec![0; 50_000],
            scratch: vec![0; 50_000],
            text: vec![0; 50_000],
            records: vec![MARK; 5_000],
        }
    }

    /// Runs a case; an error tells the difference.
    pub fn run(&mut self, case: &Case) -> Result<Seen, String> {
        let expected = model::answer(case);
        let version = match &expected {
            Expected::Drawn { version, .. } => *version,
            _ => case.last.clamp(1, 40),
        };
        let area = side(version) * side(version);
        let lent = (area as i64 + case.grid).max(0) as usize;
        self.grid[..lent + BEHIND].copy_from_slice(&self.pattern[..lent + BEHIND]);
        self.scratch[..case.scratch + BEHIND].copy_from_slice(&self.pattern[..case.scratch + BEHIND]);
        let answer = self.encode(case, lent)?;
        let refused = match &expected {
            Expected::Refused(number, first, second) => Some((*number, *first, *second)),
            _ if lent < area => Some((8, area as u64, 0)),
            _ if case.scratch < SCRATCH => Some((9, SCRATCH as u64, 0)),
            _ => None,
        };
        if let Some((number, first, second)) = refused {
            same("answer", &answer, &Answer { number, first, second, ..Answer::default() })?;
            self.kept("grid", &self.grid, 0, lent)?;
            self.kept("scratch", &self.scratch, 0, case.scratch)?;
            return Ok(Seen { number, version: 0, read: None });
        }
        self.drawn(case, expected, answer, lent)
    }

    // Holds an accepted call to what was expected of it, and reads its label back.
    fn drawn(&mut self, case: &Case, expected: Expected, answer: Answer, lent: usize) -> Result<Seen, String> {
        let Expected::Drawn { version, level, mask, modules, label } = expected else {
            return Err("a refusal was expected".into());
        };
        same("answer", &answer, &Answer { number: 0, version, level, mask, first: 0, second: 0 })?;
        let n = side(version);
        if let Some(i) = (0..n * n).find(|&i| self.grid[i] != modules[i]) {
            return Err(format!("module in column {}, row {}: {} for {}", i % n, i / n, self.grid[i], modules[i]));
        }
        self.kept("grid", &self.grid, n * n, lent)?;
        self.cleared(case.scratch)?;
        self.ask_modules(&modules, version)?;
        let read = self.read(case, modules, version, label.as_ref())?;
        Ok(Seen { number: 0, version, read: Some(read) })
    }

    // Calls the port with the lent parts; text and records must stay as they are.
    fn encode(&mut self, case: &Case, lent: usize) -> Result<Answer, String> {
        let (text, records) = (case.text.clone(), case.records.clone());
        let (grid, scratch) = (&mut self.grid[..lent], &mut self.scratch[..case.scratch]);
        let mut answer = match case.entry {
            Entry::Text => {
                raw::encode_text(&text, case.level, case.first, case.last, case.mask, case.boost, grid, scratch)
            }
            Entry::Binary => {
                raw::encode_binary(&text, case.level, case.first, case.last, case.mask, case.boost, grid, scratch)
            }
            Entry::Segments => raw::encode_segments(
                &text, &records, case.level, case.first, case.last, case.mask, case.boost, grid, scratch,
            ),
            Entry::Codewords => raw::encode_codewords(case.first, case.level, &text, case.mask, grid, scratch),
        };
        if text != case.text || records != case.records {
            return Err("the text or the records were changed".into());
        }
        let drawn = answer.number == 0;
        match self.fault {
            Fault::Module if drawn && case.text.len() >= 3 => self.grid[220] ^= 1,
            Fault::Version if drawn && answer.version == 3 => answer.version = 4,
            Fault::Detail if answer.number == 7 => answer.second += 8,
            Fault::ScratchLeft if drawn => self.scratch[SCRATCH - 1] = 7,
            Fault::BehindGrid if drawn => self.grid[lent] ^= 1,
            Fault::BehindScratch if drawn => self.scratch[case.scratch] ^= 1,
            Fault::RefusedWrites if answer.number == 9 => self.grid[0] ^= 1,
            _ => {}
        }
        Ok(answer)
    }

    // Lent bytes, from a place on, and those behind them are what they were.
    fn kept(&self, name: &str, bytes: &[u8], from: usize, lent: usize) -> Result<(), String> {
        if bytes[from..lent + BEHIND] == self.pattern[from..lent + BEHIND] {
            return Ok(());
        }
        let i = (from..lent + BEHIND).find(|&i| bytes[i] != self.pattern[i]).unwrap();
        Err(format!("{name} of {lent} bytes: byte {i} was changed to {}", bytes[i]))
    }

    // The first 40,000 bytes of scratch are zero and the others what they were.
    fn cleared(&self, lent: usize) -> Result<(), String> {
        if self.scratch[..SCRATCH] != self.zeros[..] {
            let i = (0..SCRATCH).find(|&i| self.scratch[i] != 0).unwrap();
            return Err(format!("scratch: byte {i} is {} and not 0", self.scratch[i]));
        }
        self.kept("scratch", &self.scratch, SCRATCH, lent)
    }

    // Asks for modules inside and outside of the grid that was drawn.
    fn ask_modules(&mut self, modules: &[u8], version: u8) -> Result<(), String> {
        let n = side(version);
        let end = n as i32;
        let places = [
            (-1, 0),
            (0, -1),
            (end, 0),
            (0, end),
            (end - 1, end - 1),
            (i32::MIN, i32::MAX),
            (i32::MAX, 0),
            (8, end - 8),
            (end / 2, end - 3),
            (n as i32 / 3, 9),
        ];
        for (x, y) in places {
            let inside = (0..end).contains(&x) && (0..end).contains(&y);
            let dark = inside && modules[y as usize * n + x as usize] == 1;
            let told = raw::get_module(modules, n, x, y) ^ (self.fault == Fault::Outside && x == end);
            same(&format!("module asked for in column {x}, row {y}"), &told, &dark)?;
        }
        for (grid, size) in
            [(modules, n + 1), (&modules[..n * n - 1], n), (modules, 0), (modules, 17), (modules, usize::MAX)]
        {
            same("module of a grid that is none", &raw::get_module(grid, size, 0, 0), &false)?;
        }
        Ok(())
    }

    // Reads a drawn grid, edited as the case has it, and holds answer and buffers to the label.
    fn read(&mut self, case: &Case, modules: Vec<u8>, version: u8, label: Option<&Label>) -> Result<u32, String> {
        let args = &case.reading;
        let mut grid = modules.clone();
        for &(place, byte) in &args.edits {
            let n = grid.len();
            grid[place % n] ^= byte;
        }
        grid.resize((grid.len() as i64 + args.resize).max(0) as usize, 0);
        let shown = if grid == modules { label } else { None };
        let size = args.size.unwrap_or(side(version));
        let lend = |n: usize, more: i64| (n as i64 + more).max(0) as usize;
        let text = lend(label.map_or(0, |l| l.text.len()), args.text);
        let records = lend(label.map_or(0, |l| l.records.len()), args.records);
        self.text[..text + BEHIND].copy_from_slice(&self.pattern[..text + BEHIND]);
        self.records[..records + BEHIND].fill(MARK);
        self.scratch[..args.scratch + BEHIND].copy_from_slice(&self.pattern[..args.scratch + BEHIND]);
        let told = self.call_read(&grid, size, text, records, args.scratch);
        let expected = model::reading(&grid, size, text, records, args.scratch, shown);
        self.hold(told, expected, text, records, args.scratch)
    }

    // Calls the reader with the lent parts.
    fn call_read(&mut self, grid: &[u8], size: usize, text: usize, records: usize, scratch: usize) -> raw::Reading {
        let before = grid.to_vec();
        let mut told =
            raw::read(grid, size, &mut self.text[..text], &mut self.records[..records], &mut self.scratch[..scratch]);
        if before != grid {
            told.number = u32::MAX; // no number of a refusal: the reader wrote to the grid
        }
        let (read, long) = (told.number == 0, told.text >= 3);
        match self.fault {
            Fault::ReadByte if read && long => self.text[2] ^= 1,
            Fault::ReadStart if read && told.records >= 2 => self.records[1].start += 1,
            Fault::ReadDetail if told.number == 15 => told.first += 1,
            Fault::ReadAccepts if told.number == 14 => told.number = 0,
            Fault::BehindText if read => self.text[text] ^= 1,
            Fault::BehindRecords if read => self.records[records].kind = 0,
            Fault::ReadScratch if told.number == 14 => self.scratch[0] = 1,
            _ => {}
        }
        told
    }

    // Holds a reading and the buffers to what is expected; answers the refusal's number.
    fn hold(
        &self,
        told: raw::Reading,
        expected: Result<&Label, (u32, u64)>,
        text: usize,
        records: usize,
        scratch: usize,
    ) -> Result<u32, String> {
        let wanted = match expected {
            Ok(l) => raw::Reading {
                number: 0,
                version: l.version,
                level: l.level,
                mask: l.mask,
                records: l.records.len() as u64,
                text: l.text.len() as u64,
                first: 0,
                second: 0,
            },
            Err((number, first)) => raw::Reading { number, first, ..raw::Reading::default() },
        };
        same("reading", &told, &wanted)?;
        let (chars, list): (&[u8], &[Record]) = expected.map_or((&[], &[]), |l| (&l.text, &l.records));
        same("text read", &&self.text[..chars.len()], &chars)?;
        same("records read", &&self.records[..list.len()], &list)?;
        self.kept("text buffer", &self.text, chars.len(), text)?;
        if self.records[list.len()..records + BEHIND].iter().any(|r| *r != MARK) {
            return Err(format!("record buffer of {records}: a record behind the label's {} was changed", list.len()));
        }
        match wanted.number {
            0 | 14..=16 => self.cleared(scratch)?,
            _ => self.kept("scratch of the reader", &self.scratch, 0, scratch)?,
        }
        Ok(wanted.number)
    }
}

fn same<T: PartialEq + std::fmt::Debug>(what: &str, told: &T, expected: &T) -> Result<(), String> {
    if told == expected {
        return Ok(());
    }
    Err(format!("{what}: {told:?} for {expected:?}"))
}

/// Runs a case of the original's domain through the Rust crate's own names.
pub fn run_bindings(case: &Case) -> Result<Seen, String> {
    let expected = model::answer(case);
    let ecl = [
        gatemurmur::QrCodeEcc::Low,
        gatemurmur::QrCodeEcc::Medium,
        gatemurmur::QrCodeEcc::Quartile,
        gatemurmur::QrCodeEcc::High,
    ][usize::from(case.level)];
    let (first, last) = (gatemurmur::Version::new(case.first), gatemurmur::Version::new(case.last));
    let mask = (case.mask < 8).then(|| gatemurmur::Mask::new(case.mask));
    let result = match case.entry {
        Entry::Codewords => Ok(gatemurmur::QrCode::encode_codewords(first, ecl, &case.text, mask)),
        _ => gatemurmur::QrCode::encode_segments_advanced(&bound_segments(case)?, ecl, first, last, mask, case.boost),
    };
    match (expected, result) {
        (Expected::Refused(6, ..), Err(gatemurmur::DataTooLong::SegmentTooLong)) => {
            Ok(Seen { number: 6, version: 0, read: None })
        }
        (Expected::Refused(7, a, b), Err(gatemurmur::DataTooLong::DataOverCapacity(bits, capacity))) => {
            same("details", &(bits as u64, capacity as u64), &(a, b))?;
            Ok(Seen { number: 7, version: 0, read: None })
        }
        (Expected::Drawn { version, level, mask, modules, label }, Ok(qr)) => {
            let told = (qr.version().value(), qr.error_correction_level() as u8, qr.mask().value());
            same("label", &told, &(version, level, mask))?;
            same("size", &qr.size(), &(side(version) as i32))?;
            bound_modules(&qr, &modules)?;
            read_bound(&qr, label)
        }
        (Expected::Refused(number, ..), _) => Err(format!("refusal {number} was expected")),
        (_, Err(e)) => Err(format!("a label was expected: {e}")),
    }
}

// Every module, and a border of one around them.
fn bound_modules(qr: &gatemurmur::QrCode, modules: &[u8]) -> Result<(), String> {
    let n = qr.size();
    for i in 0..(n + 2) * (n + 2) {
        let (x, y) = (i % (n + 2) - 1, i / (n + 2) - 1);
        let inside = (0..n).contains(&x) && (0..n).contains(&y);
        same("module", &qr.get_module(x, y), &(inside && modules[(y * n + x) as usize] == 1))?;
    }
    Ok(())
}

// The crate's segments of a call; its own text rule for the text entry.
fn bound_segments(case: &Case) -> Result<Vec<gatemurmur::QrSegment>, String> {
    use gatemurmur::QrSegment;
    let part = |r: &Record| &case.text[r.start as usize..][..r.length as usize];
    let str = |r: &Record| std::str::from_utf8(part(r)).unwrap().to_string();
    Ok(match case.entry {
        Entry::Text => QrSegment::make_segments(std::str::from_utf8(&case.text).map_err(|e| e.to_string())?),
        Entry::Binary => vec![QrSegment::make_bytes(&case.text)],
        _ => case
            .records
            .iter()
            .map(|r| match r.kind {
                0 => QrSegment::make_numeric(&str(r)),
                1 => QrSegment::make_alphanumeric(&str(r)),
                2 => QrSegment::make_bytes(part(r)),
                _ => QrSegment::make_eci(r.assign as u32),
            })
            .collect(),
    })
}

// The label that the crate reads of its own drawing.
fn read_bound(qr: &gatemurmur::QrCode, label: Option<Label>) -> Result<Seen, String> {
    let read = gatemurmur::read(qr.modules(), qr.size() as usize);
    let number = match (read, label) {
        (Err(e), None) => {
            same("refusal", &e.number, &14)?;
            14
        }
        (Ok(l), Some(wanted)) => {
            same("text read", &l.text, &wanted.text)?;
            let kinds: Vec<(u64, usize, u32)> =
                l.segments.iter().map(|s| (s.mode() as u64, s.num_chars(), s.eci().unwrap_or(0))).collect();
            let records: Vec<(u64, usize, u32)> =
                wanted.records.iter().map(|r| (r.kind, r.length as usize, r.assign as u32)).collect();
            same("segments read", &kinds, &records)?;
            same(
                "label read",
                &(l.version, l.error_correction_level, l.mask),
                &(qr.version(), qr.error_correction_level(), qr.mask()),
            )?;
            0
        }
        (Err(e), Some(_)) => return Err(format!("not read: {e}")),
        (Ok(_), None) => return Err("read, and no label has this grid".into()),
    };
    Ok(Seen { number: 0, version: qr.version().value(), read: Some(number) })
}
