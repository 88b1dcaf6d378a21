//! What a call must answer: the original's answer where it has one, and the rules of docs/SPECIFICATION.md around it.
use crate::case::{Case, Entry};
use gatemurmur::raw::{Record, SCRATCH};
use qrcodegen::{DataTooLong, Mask, QrCode, QrCodeEcc, QrSegment, Version};
use std::sync::OnceLock;

/// A label as it is read: version, level, mask, the joined characters, and records whose starts run on from 0.
#[derive(Clone, PartialEq, Eq, Debug)]
pub struct Label {
    pub version: u8,
    pub level: u8,
    pub mask: u8,
    pub text: Vec<u8>,
    pub records: Vec<Record>,
}

/// What an encoding call must answer.
pub enum Expected {
    /// A refusal: its number and details.
    Refused(u32, u64, u64),
    /// A label: the original's modules, and what they are read as; there is nothing to read in some codewords.
    Drawn { version: u8, level: u8, mask: u8, modules: Vec<u8>, label: Option<Label> },
}

pub const LEVELS: [QrCodeEcc; 4] = [QrCodeEcc::Low, QrCodeEcc::Medium, QrCodeEcc::Quartile, QrCodeEcc::High];
pub const ALPHABET: &[u8; 45] = b"0123456789ABCDEFGHIJKLMNOPQRSTUVWXYZ $%*+-./:";

pub fn side(version: u8) -> usize {
    4 * usize::from(version) + 17
}

/// Width of the count field of a kind at a version.
pub fn width(kind: usize, version: u8) -> usize {
    let class = if version <= 9 {
        0
    } else if version <= 26 {
        1
    } else {
        2
    };
    [[10, 12, 14], [9, 11, 13], [8, 16, 16], [0, 0, 0]][kind][class]
}

/// Bits of a segment of n characters, or of an ECI number, at a version.
pub fn bits(kind: usize, n: usize, version: u8) -> usize {
    let payload = match kind {
        0 => n / 3 * 10 + [0, 4, 7][n % 3],
        1 => n / 2 * 11 + n % 2 * 6,
        2 => 8 * n,
        _ => {
            if n < 128 {
                8
            } else if n < 16_384 {
                16
            } else {
                24
            }
        }
    };
    4 + width(kind, version) + payload
}

/// Capacity in bits, as the original tells it when a list does not fit.
pub fn capacity(version: u8, level: u8) -> usize {
    static TABLE: OnceLock<Vec<usize>> = OnceLock::new();
    let table = TABLE.get_or_init(|| {
        let long: Vec<QrSegment> = (0..20).map(|_| QrSegment::make_bytes(&[0; 200])).collect();
        let ask = |v: u8, l: usize| match QrCode::encode_segments_advanced(
            &long,
            LEVELS[l],
            Version::new(v),
            Version::new(v),
            None,
            false,
        ) {
            Err(DataTooLong::DataOverCapacity(_, capacity)) => capacity,
            _ => panic!("4,000 bytes fit no version"),
        };
        (0..160).map(|i| ask(i / 4 + 1, i as usize % 4)).collect()
    });
    table[usize::from(version - 1) * 4 + usize::from(level)]
}

/// The most characters of a kind at a version and level.
pub fn most(kind: usize, version: u8, level: u8) -> usize {
    let room = capacity(version, level);
    let mut n = room.saturating_sub(4 + width(kind, version)) / [3, 5, 8][kind];
    while n > 0 && bits(kind, n, version) > room {
        n -= 1;
    }
    n.min((1 << width(kind, version)) - 1)
}

/// Whether a byte is a character of a kind.
fn of_kind(kind: u64, b: u8) -> bool {
    match kind {
        0 => b.is_ascii_digit(),
        1 => ALPHABET.contains(&b),
        _ => true,
    }
}

/// Whether a record over a text is as section 3.1 of the specification has it.
fn well_made(r: &Record, text: &[u8]) -> bool {
    match r.kind {
        0..=2 => {
            let end = u128::from(r.start) + u128::from(r.length);
            r.assign == 0
                && end <= text.len() as u128
                && text[r.start as usize..end as usize].iter().all(|&b| of_kind(r.kind, b))
        }
        3 => r.start == 0 && r.length == 0 && r.assign < 1_000_000,
        _ => false,
    }
}

/// The records that the text or byte entry stands for, or the segment entry's own.
fn list(case: &Case) -> Vec<Record> {
    let whole = |kind| Record { kind, start: 0, length: case.text.len() as u64, assign: 0 };
    match case.entry {
        Entry::Segments => case.records.clone(),
        Entry::Binary => vec![whole(2)],
        _ if case.text.is_empty() => vec![],
        _ => vec![whole((0..2).find(|&k| case.text.iter().all(|&b| of_kind(k, b))).unwrap_or(2))],
    }
}

/// The original's segments of a call: by its own text rule where the text is valid UTF-8.
fn segments(case: &Case, records: &[Record]) -> Vec<QrSegment> {
    if case.entry == Entry::Text {
        if let Ok(text) = std::str::from_utf8(&case.text) {
            return QrSegment::make_segments(text);
        }
    }
    records.iter().map(|r| segment(r, &case.text)).collect()
}

fn segment(r: &Record, text: &[u8]) -> QrSegment {
    let part = || &text[r.start as usize..][..r.length as usize];
    match r.kind {
        0 => QrSegment::make_numeric(std::str::from_utf8(part()).unwrap()),
        1 => QrSegment::make_alphanumeric(std::str::from_utf8(part()).unwrap()),
        2 => QrSegment::make_bytes(part()),
        _ => QrSegment::make_eci(r.assign as u32),
    }
}

/// The mask that is asked for, or none.
pub fn mask(number: u8) -> Option<Mask> {
    (number < 8).then(|| Mask::new(number))
}

fn modules(qr: &QrCode) -> Vec<u8> {
    let n = qr.size();
    (0..n * n).map(|i| u8::from(qr.get_module(i % n, i / n))).collect()
}

/// Refusals 1, 2 and 3, which every encoding call has first.
fn settings(case: &Case) -> Option<Expected> {
    let last = if case.entry == Entry::Codewords { case.first } else { case.last };
    let version = 1..=40;
    if case.level > 3 {
        Some(Expected::Refused(1, case.level.into(), 0))
    } else if !version.contains(&case.first) || !version.contains(&last) || case.first > last {
        Some(Expected::Refused(2, case.first.into(), last.into()))
    } else if case.mask > 8 {
        Some(Expected::Refused(3, case.mask.into(), 0))
    } else {
        None
    }
}

/// What a call must answer, the buffers' lengths left aside.
pub fn answer(case: &Case) -> Expected {
    if let Some(refused) = settings(case) {
        return refused;
    }
    if case.entry == Entry::Codewords {
        return codewords(case);
    }
    let records = list(case);
    if records.len() > 2048 {
        return Expected::Refused(4, records.len() as u64, 0);
    }
    if let Some(i) = records.iter().position(|r| !well_made(r, &case.text)) {
        return Expected::Refused(5, i as u64, 0);
    }
    let (ecl, first, last) = (LEVELS[usize::from(case.level)], Version::new(case.first), Version::new(case.last));
    match QrCode::encode_segments_advanced(&segments(case, &records), ecl, first, last, mask(case.mask), case.boost) {
        Err(DataTooLong::SegmentTooLong) => Expected::Refused(6, 0, 0),
        Err(DataTooLong::DataOverCapacity(bits, capacity)) => Expected::Refused(7, bits as u64, capacity as u64),
        Ok(qr) => drawn(&qr, |version, level, mask| Some(label(version, level, mask, &records, &case.text))),
    }
}

fn drawn(qr: &QrCode, label: impl Fn(u8, u8, u8) -> Option<Label>) -> Expected {
    let (version, level, mask) = (qr.version().value(), qr.error_correction_level() as u8, qr.mask().value());
    Expected::Drawn { version, level, mask, modules: modules(qr), label: label(version, level, mask) }
}

/// The label of a list: its characters joined, and records whose starts run on.
fn label(version: u8, level: u8, mask: u8, records: &[Record], text: &[u8]) -> Label {
    let mut joined = Vec::new();
    let records = records
        .iter()
        .map(|r| {
            let start = if r.kind == 3 { 0 } else { joined.len() as u64 };
            joined.extend_from_slice(&text[r.start as usize..][..r.length as usize]);
            Record { start, ..*r }
        })
        .collect();
    Label { version, level, mask, text: joined, records }
}

/// What the codeword entry must answer. The codewords show a label if a list that they spell is drawn alike.
fn codewords(case: &Case) -> Expected {
    let right = capacity(case.first, case.level) / 8;
    if case.text.len() != right {
        return Expected::Refused(10, right as u64, 0);
    }
    let (version, ecl) = (Version::new(case.first), LEVELS[usize::from(case.level)]);
    let qr = QrCode::encode_codewords(version, ecl, &case.text, mask(case.mask));
    drawn(&qr, |v, level, m| {
        let (text, records) = spelled(&case.text, v)?;
        let segs: Vec<QrSegment> = records.iter().map(|r| segment(r, &text)).collect();
        let again = QrCode::encode_segments_advanced(&segs, ecl, version, version, Some(qr.mask()), false).ok()?;
        (again == qr).then(|| label(v, level, m, &records, &text))
    })
}

/// The list that data codewords spell, read with no look at padding or shortest forms; none if they break off.
fn spelled(data: &[u8], version: u8) -> Option<(Vec<u8>, Vec<Record>)> {
    let mut at = 0;
    let mut take = |n: usize| {
        at += n;
        if at > 8 * data.len() {
            return None;
        }
        Some((at - n..at).fold(0usize, |v, i| 2 * v + usize::from(data[i / 8] >> (7 - i % 8) & 1)))
    };
    let (mut text, mut records) = (Vec::new(), Vec::new());
    while let Some(mode) = take(4) {
        let kind = match mode {
            0 => break,
            1 => 0,
            2 => 1,
            4 => 2,
            7 => 3,
            _ => return None,
        };
        let n = take(width(kind, version))?;
        let start = text.len();
        let assign = if kind == 3 { number(&mut take)? } else { characters(kind, n, &mut text, &mut take)? };
        let start = if kind == 3 { 0 } else { start as u64 };
        records.push(Record { kind: kind as u64, start, length: n as u64, assign: assign as u64 });
    }
    Some((text, records))
}

/// An ECI number.
fn number(take: &mut impl FnMut(usize) -> Option<usize>) -> Option<usize> {
    if take(1)? == 0 {
        return take(7);
    }
    if take(1)? == 0 {
        return take(14);
    }
    if take(1)? == 0 {
        return take(21).filter(|&n| n < 1_000_000);
    }
    None
}

/// The n characters of a segment, put behind the text; answers 0, the assign of such a record.
fn characters(
    kind: usize,
    n: usize,
    text: &mut Vec<u8>,
    take: &mut impl FnMut(usize) -> Option<usize>,
) -> Option<usize> {
    let (base, group, widths) = [(10, 3, [0, 4, 7, 10]), (45, 2, [0, 6, 11, 0]), (256, 1, [0, 8, 0, 0])][kind];
    let mut left = n;
    while left > 0 {
        let count = left.min(group);
        let mut value = take(widths[count])?;
        let mut part = vec![0; count];
        for place in part.iter_mut().rev() {
            *place = if kind == 2 { value as u8 } else { ALPHABET[value % base] };
            value /= base;
        }
        if value != 0 {
            return None;
        }
        text.extend(part);
        left -= count;
    }
    Some(0)
}

/// What the reader must answer: number, details, and the label where it is told.
pub fn reading<'a>(
    grid: &[u8],
    size: usize,
    text: usize,
    records: usize,
    scratch: usize,
    shown: Option<&'a Label>,
) -> Result<&'a Label, (u32, u64)> {
    if !(21..=177).contains(&size) || size % 4 != 1 {
        return Err((11, size as u64));
    }
    if grid.len() != size * size {
        return Err((12, (size * size) as u64));
    }
    if let Some(place) = grid.iter().position(|&b| b > 1) {
        return Err((13, place as u64));
    }
    if scratch < SCRATCH {
        return Err((9, SCRATCH as u64));
    }
    let label = shown.ok_or((14, 0))?;
    if text < label.text.len() {
        return Err((15, label.text.len() as u64));
    }
    if records < label.records.len() {
        return Err((16, label.records.len() as u64));
    }
    Ok(label)
}
