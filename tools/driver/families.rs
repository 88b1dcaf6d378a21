//! The families of cases. A case is made of the seed, its family and its place alone.
use crate::case::{Case, Entry, Reading};
use crate::model::{bits, capacity, most, side, width, ALPHABET};
use crate::random::Random;
use gatemurmur::raw::{Record, SCRATCH};

pub struct Family {
    pub name: &'static str,
    /// How many cases it has.
    pub cases: u64,
    pub make: fn(&mut Random, u64) -> Case,
    /// Whether its cases are random, so that there can be fewer.
    pub random: bool,
    /// Whether it goes through the Rust crate's own names.
    pub bound: bool,
}

/// All families; together about as many cases as are asked for, but for the fixed ones, which are always whole.
pub fn families(count: u64) -> Vec<Family> {
    let all_short: u64 = 2 * 72 * 257;
    let pairs = (count / 2 / 65_536).clamp(1, 144) * 65_536;
    let fixed = [
        ("short", all_short, short as fn(&mut Random, u64) -> Case),
        ("two bytes", pairs, two_bytes),
        ("longest", 40 * 4 * 3 * 3 * 2, longest),
        ("count fields", 40 * 4 * 3 * 3, count_fields),
        ("last bits", 40 * 4 * 13, last_bits),
        ("record counts", 8, record_counts),
        ("long texts", 12, long_texts),
        ("settings", 65_536 + 3 * 256, settings),
        ("flips", 8 * 441 + 8 * 2025, flips),
        ("sides", 2 * 203, sides),
    ];
    let random = [
        ("texts", 25, texts as fn(&mut Random, u64) -> Case),
        ("bytes", 15, bytes),
        ("segments", 30, segments),
        ("codewords", 8, codewords),
        ("spelled codewords", 4, spelled_codewords),
        ("refusals", 10, refusals),
        ("readings", 6, readings),
    ];
    let left = count.saturating_sub(fixed.iter().map(|f| f.1).sum()).max(20_000);
    let mut all = Vec::new();
    for (name, cases, make) in fixed {
        all.push(Family { name, cases, make, random: false, bound: false });
    }
    for (name, share, make) in random {
        all.push(Family { name, cases: (left * share / 100).max(320), make, random: true, bound: false });
    }
    let sum: u64 = all.iter().map(|f| f.cases).sum();
    let cases = count.saturating_sub(sum).max(400);
    all.push(Family { name: "Rust crate", cases, make: bindings, random: true, bound: true });
    all
}

/*---- Settings ----*/

// A version, small ones more often: a large label takes a hundred times as long.
fn some_version(r: &mut Random) -> u8 {
    (match r.below(100) {
        0..=83 => r.within(1, 3),
        84..=96 => r.within(4, 9),
        97..=98 => r.within(10, 26),
        _ => r.within(1, 40),
    }) as u8
}

// Level, mask and boost; the automatic choice, which takes ten times as long, for one in eight.
fn some_settings(r: &mut Random, c: &mut Case) {
    c.level = r.below(4) as u8;
    c.mask = if r.once_in(8) { 8 } else { r.below(8) as u8 };
    c.boost = r.once_in(2);
    lend(r, c);
}

// Buffers that just do or are longer, for the call and for the reading.
fn lend(r: &mut Random, c: &mut Case) {
    c.grid = [0, 1, 7, 700][r.below(4)];
    c.scratch = SCRATCH + [0, 1, 9, 500][r.below(4)];
    c.reading.text = [0, 0, 1, 40][r.below(4)];
    c.reading.records = [0, 0, 1, 3][r.below(4)];
    c.reading.scratch = SCRATCH + [0, 0, 1, 500][r.below(4)];
    match r.below(60) {
        0 => c.reading.text = -1,
        1 => c.reading.records = -1,
        2 => (c.reading.text, c.reading.records) = (-1, -1),
        _ => {}
    }
}

// A version, and a range that has it; the first 40 cases of a family have each version alone.
fn some_range(r: &mut Random, c: &mut Case, i: u64) -> u8 {
    if i < 40 {
        (c.first, c.last) = (i as u8 + 1, i as u8 + 1);
        return c.first;
    }
    let v = some_version(r);
    c.first = [1, v, r.within(1, v.into()) as u8][r.below(3)];
    c.last = [40, v, r.within(v.into(), 40) as u8][r.below(3)];
    v
}

// A length that is near the most, or anything up to it; sometimes above, or near the end of a count field.
fn some_length(r: &mut Random, most: usize) -> usize {
    match r.below(100) {
        0..=39 => most.saturating_sub(r.below(4)),
        40..=89 => r.within(0, most),
        90..=98 => most + r.within(1, 3),
        _ => (1 << r.within(8, 14)) + r.within(0, 2) - 1,
    }
}

fn character(r: &mut Random, kind: usize) -> u8 {
    match kind {
        0 => ALPHABET[r.below(10)],
        1 => ALPHABET[r.below(45)],
        _ => r.byte(),
    }
}

/*---- Short texts ----*/

// Level, mask and boost of one of 72 settings.
fn setting(c: &mut Case, i: u64) {
    c.level = (i % 4) as u8;
    c.mask = (i / 4 % 9) as u8;
    c.boost = i / 36 % 2 == 1;
}

// Every text of at most one byte, as text and as bytes, at every level, mask and boost.
fn short(_: &mut Random, i: u64) -> Case {
    let text = if i / 144 == 0 { vec![] } else { vec![(i / 144 - 1) as u8] };
    let mut c = Case::new(if i / 72 % 2 == 0 { Entry::Text } else { Entry::Binary }, text);
    setting(&mut c, i % 72);
    c
}

// Every text of two bytes at several settings, which run through all 72; from the 73rd time on as bytes.
fn two_bytes(_: &mut Random, i: u64) -> Case {
    let (pair, time) = (i % 65_536, i / 65_536);
    let entry = if time < 72 { Entry::Text } else { Entry::Binary };
    let mut c = Case::new(entry, vec![(pair / 256) as u8, pair as u8]);
    setting(&mut c, (time + 7 * pair) % 72);
    c
}

/*---- Boundaries ----*/

// The longest text of each kind at each version and level, one less and one more; the version alone, and all from 1 on.
fn longest(r: &mut Random, i: u64) -> Case {
    let (v, level, kind, more, alone) =
        ((i % 40 + 1) as u8, (i / 40 % 4) as u8, (i / 160 % 3) as usize, i / 480 % 3, i / 1440 == 0);
    let n = most(kind, v, level) + more as usize - 1;
    let text: Vec<u8> = (0..n).map(|_| character(r, kind)).collect();
    let mut c = Case::new(Entry::Segments, text);
    c.records = vec![Record { kind: kind as u64, start: 0, length: n as u64, assign: 0 }];
    some_settings(r, &mut c);
    (c.level, c.first, c.last) = (level, if alone { v } else { 1 }, if alone || r.once_in(2) { v } else { 40 });
    c.mask = if r.once_in(8) { 8 } else { r.below(8) as u8 };
    c
}

// Lengths at the end of each count field, one less and one more, the version being the last: refusals 6 and 7.
fn count_fields(r: &mut Random, i: u64) -> Case {
    let (v, level, kind, more) = ((i % 40 + 1) as u8, (i / 40 % 4) as u8, (i / 160 % 3) as usize, i / 480 % 3);
    let n = (1 << width(kind, v)) + more as usize - 1;
    let mut c = Case::new(Entry::Segments, (0..n).map(|_| character(r, kind)).collect());
    c.records = vec![Record { kind: kind as u64, start: 0, length: n as u64, assign: 0 }];
    (c.level, c.first, c.last) = (level, r.within(1, v.into()) as u8, v);
    c.mask = r.below(8) as u8;
    c.boost = r.once_in(2);
    c
}

// Lists that leave exactly 0 to 12 bits free at each version and level: shortened terminators, fill bits, first pad bytes.
fn last_bits(r: &mut Random, i: u64) -> Case {
    let (v, level, free) = ((i % 40 + 1) as u8, (i / 40 % 4) as u8, (i / 160) as usize);
    let room = capacity(v, level) - free;
    let mut c = Case::new(Entry::Segments, vec![]);
    for digits in 0..3 {
        for letters in 0..2 {
            let used = bits(0, digits, v) + bits(1, letters, v) + bits(2, 0, v);
            if used <= room && (room - used) % 8 == 0 && c.records.is_empty() {
                for (kind, n) in [(0, digits), (1, letters), (2, (room - used) / 8)] {
                    c.records.push(Record {
                        kind: kind as u64,
                        start: c.text.len() as u64,
                        length: n as u64,
                        assign: 0,
                    });
                    c.text.extend((0..n).map(|_| character(r, kind)));
                }
            }
        }
    }
    some_settings(r, &mut c);
    (c.level, c.first, c.last, c.boost) = (level, v, v, false);
    c
}

// As many records as there may be, and one more: empty Byte segments, ECI numbers, 154 empty ones as in section 10.1.
fn record_counts(_: &mut Random, i: u64) -> Case {
    let mut c = Case::new(Entry::Segments, vec![]);
    let n = [2048, 2049, 154, 154, 1970, 1971, 4000, 155][i as usize];
    let eci = Record { kind: 3, start: 0, length: 0, assign: 26 };
    let empty = Record { kind: 2, start: 0, length: 0, assign: 0 };
    c.records = vec![if i == 4 || i == 5 { eci } else { empty }; n];
    if i == 3 {
        (c.first, c.last) = (10, 10);
    }
    c
}

// Texts far above what any label holds, of each kind, as text and as bytes.
fn long_texts(r: &mut Random, i: u64) -> Case {
    let (kind, n) = (i as usize % 3, [70_000, 1_000_000][i as usize / 3 % 2]);
    Case::new([Entry::Text, Entry::Binary][i as usize / 6], (0..n).map(|_| character(r, kind)).collect())
}

// Every pair of bounds, every level, every mask and every version of the codeword entry, from 0 to 255.
fn settings(_: &mut Random, i: u64) -> Case {
    let mut c = Case::new(Entry::Text, b"LP".to_vec());
    let n = i as u8;
    match i / 256 {
        first @ 0..=255 => (c.first, c.last) = (first as u8, n),
        256 => c.level = n,
        257 => c.mask = n,
        _ => {
            let right = if (1..=40).contains(&n) { capacity(n, 0) / 8 } else { 19 };
            c = Case::new(Entry::Codewords, vec![b'0'; right]);
            c.first = n;
        }
    }
    c
}

/*---- Random calls ----*/

// A text of one kind, or UTF-8 of several widths.
fn texts(r: &mut Random, i: u64) -> Case {
    let mut c = Case::new(Entry::Text, vec![]);
    some_settings(r, &mut c);
    let v = some_range(r, &mut c, i);
    let kind = r.below(4);
    let n = some_length(r, most(kind.min(2), v, c.level));
    if kind < 3 {
        c.text = (0..n).map(|_| if kind == 2 { 32 + r.below(95) as u8 } else { character(r, kind) }).collect();
        return c;
    }
    let mut text = String::new();
    while text.len() < n {
        let wide = [0x80, 0x800, 0x10000, 0x11_0000][r.below(4)];
        text.extend(char::from_u32(r.below(wide) as u32));
    }
    c.text = text.into_bytes();
    c
}

fn bytes(r: &mut Random, i: u64) -> Case {
    let mut c = Case::new(if r.once_in(4) { Entry::Text } else { Entry::Binary }, vec![]);
    some_settings(r, &mut c);
    let v = some_range(r, &mut c, i);
    let n = some_length(r, most(2, v, c.level));
    c.text = (0..n).map(|_| r.byte()).collect();
    c
}

// A list of mixed kinds: empty segments, ECI numbers of every size, parts that share text.
fn segments(r: &mut Random, i: u64) -> Case {
    let mut c = Case::new(Entry::Segments, vec![]);
    some_settings(r, &mut c);
    let v = some_range(r, &mut c, i);
    fill(r, &mut c, v);
    if r.once_in(4) && !c.records.is_empty() {
        let r0 = c.records[r.below(c.records.len())];
        c.records.push(Record { length: r.within(0, r0.length as usize) as u64, ..r0 });
    }
    if r.once_in(40) {
        let empty = Record { kind: r.below(3) as u64, start: c.text.len() as u64, length: 0, assign: 0 };
        let n = r.within(1, 200);
        c.records.extend(vec![empty; n]);
    }
    c
}

/// One segment of a kind, at a version.
pub fn one_kind(r: &mut Random, c: &mut Case, v: u8, kind: usize) {
    let n = r.within(1, most(kind, v, c.level));
    c.records = vec![Record { kind: kind as u64, start: 0, length: n as u64, assign: 0 }];
    c.text = (0..n).map(|_| character(r, kind)).collect();
}

/// The version of a mixed list for libqrencode: each four times at each level, then some.
pub fn any_version(r: &mut Random, i: u64) -> u8 {
    if i < 480 + 640 {
        ((i - 480) / 16 + 1) as u8
    } else {
        some_version(r)
    }
}

// An ECI number of every size, the ends of each more often.
fn some_number(r: &mut Random) -> usize {
    let below = [128, 16_384, 1_000_000][r.below(3)];
    if r.once_in(4) {
        below - 1
    } else if r.once_in(4) {
        [0, 128, 16_384][r.below(3)]
    } else {
        r.below(below)
    }
}

/// Fills a list about up to the capacity of a version.
pub fn fill(r: &mut Random, c: &mut Case, v: u8) {
    let room = capacity(v, c.level);
    let parts = 1 + r.below(6);
    let mut used = 0;
    for _ in 0..parts {
        let kind = r.below(4);
        if kind == 3 {
            let assign = some_number(r);
            used += bits(3, assign, v);
            c.records.push(Record { kind: 3, start: 0, length: 0, assign: assign as u64 });
            continue;
        }
        let left = room.saturating_sub(used + 4 + width(kind, v)) / [4, 6, 8][kind];
        let n = if r.once_in(6) { 0 } else { r.within(0, left.max(1)) };
        used += bits(kind, n, v);
        c.records.push(Record { kind: kind as u64, start: c.text.len() as u64, length: n as u64, assign: 0 });
        c.text.extend((0..n).map(|_| character(r, kind)));
    }
}

// Random codewords; the first 160 cases are the 160 pairs of version and level.
fn codewords(r: &mut Random, i: u64) -> Case {
    let mut c = Case::new(Entry::Codewords, vec![]);
    some_settings(r, &mut c);
    c.first = if i < 160 { (i / 4 + 1) as u8 } else { some_version(r) };
    if i < 160 {
        c.level = (i % 4) as u8;
    }
    c.text = (0..capacity(c.first, c.level) / 8).map(|_| r.byte()).collect();
    c
}

// Codewords that spell a list, or nearly: the terminator, the padding or a bit of a segment may be wrong.
fn spelled_codewords(r: &mut Random, i: u64) -> Case {
    let mut list = Case::new(Entry::Segments, vec![]);
    list.level = r.below(4) as u8;
    let v = if i < 40 { i as u8 + 1 } else { some_version(r) };
    fill(r, &mut list, v);
    let mut c = Case::new(Entry::Codewords, data_codewords(&list, v, |number| some_form(r, number)));
    let level = list.level;
    some_settings(r, &mut c);
    (c.level, c.first) = (level, v);
    if r.once_in(3) {
        let at = r.below(c.text.len());
        c.text[at] ^= 1 << r.below(8);
    }
    c
}

/// The data codewords of as many of a list's records as fit, ECI numbers in the form that is given: value and bits.
pub fn data_codewords(list: &Case, v: u8, mut eci: impl FnMut(u64) -> (u64, usize)) -> Vec<u8> {
    let room = capacity(v, list.level);
    let mut all: Vec<bool> = Vec::new();
    for record in &list.records {
        let before = all.len();
        let mut put = |value: u64, n: usize| all.extend((0..n).rev().map(|i| value >> i & 1 == 1));
        put([1, 2, 4, 7][record.kind as usize], 4);
        put(record.length, width(record.kind as usize, v));
        let part = &list.text[record.start as usize..][..record.length as usize];
        let code = |b: &u8| ALPHABET.iter().position(|a| a == b).unwrap() as u64;
        match record.kind {
            0 => part.chunks(3).for_each(|t| put(t.iter().fold(0, |n, b| 10 * n + code(b)), 3 * t.len() + 1)),
            1 => part.chunks(2).for_each(|t| put(t.iter().fold(0, |n, b| 45 * n + code(b)), 5 * t.len() + 1)),
            2 => part.iter().for_each(|&b| put(b.into(), 8)),
            _ => {
                let (value, n) = eci(record.assign);
                put(value, n);
            }
        }
        if all.len() > room {
            all.truncate(before);
            break;
        }
    }
    padded(all, room)
}

// Terminator, fill bits and pad bytes.
fn padded(mut all: Vec<bool>, room: usize) -> Vec<u8> {
    all.resize((all.len() + 4).min(room), false);
    all.resize(all.len().next_multiple_of(8), false);
    let mut words: Vec<u8> = all.chunks(8).map(|b| b.iter().fold(0, |n, &bit| 2 * n + u8::from(bit))).collect();
    let pads = room / 8 - words.len();
    words.extend([0xEC, 0x11].iter().cycle().take(pads));
    words
}

// An ECI number in its shortest form, or now and then in a longer one.
fn some_form(r: &mut Random, number: u64) -> (u64, usize) {
    let shortest = if number < 128 {
        0
    } else if number < 16_384 {
        1
    } else {
        2
    };
    match if r.once_in(8) { r.within(shortest, 2) } else { shortest } {
        0 => (number, 8),
        1 => (0x8000 | number, 16),
        _ => (0xC0_0000 | number, 24),
    }
}

/*---- Refusals ----*/

// A call with faults put in, each for one in five, so that several meet and the order shows.
fn refusals(r: &mut Random, i: u64) -> Case {
    let mut c = match r.below(4) {
        0 => texts(r, i),
        1 => bytes(r, i),
        2 => segments(r, i),
        _ => codewords(r, i),
    };
    if r.once_in(5) {
        c.level = r.byte();
    }
    if r.once_in(5) {
        (c.first, c.last) = ([0, 1, 40, 41, r.byte()][r.below(5)], [0, 1, 40, 41, r.byte()][r.below(5)]);
    }
    if r.once_in(5) {
        c.mask = r.byte();
    }
    if r.once_in(5) {
        c.grid = [-1, -2, -441, -50_000][r.below(4)];
    }
    if r.once_in(5) {
        c.scratch = [SCRATCH - 1, 0, 1, r.below(SCRATCH)][r.below(4)];
    }
    if r.once_in(5) {
        let n = c.text.len();
        c.text.truncate(n.saturating_sub(r.within(0, 2)));
        c.text.extend((0..r.below(3)).map(|_| b'0'));
    }
    if c.entry == Entry::Segments && r.once_in(2) {
        spoil(r, &mut c);
    }
    c
}

// Makes records ill, or too many.
fn spoil(r: &mut Random, c: &mut Case) {
    if r.once_in(60) {
        let n = r.within(2049, 2060);
        c.records.resize(n, Record { kind: r.below(6) as u64, start: 0, length: 0, assign: 0 });
    }
    for _ in 0..r.within(1, 2) {
        if c.records.is_empty() {
            return;
        }
        let (i, n) = (r.below(c.records.len()), c.text.len() as u64);
        let large = [u64::MAX, u64::MAX - 1, 1 << 63, 1 << 32, n + 1, n, 1][r.below(7)];
        let record = &mut c.records[i];
        match r.below(7) {
            0 => record.kind = [4, 5, 255, 256, 1 << 32, u64::MAX][r.below(6)],
            1 => record.start = large,
            2 => record.length = large,
            3 => record.assign = [1, 999_999, 1_000_000, 1 << 32, u64::MAX][r.below(5)],
            4 => record.length = (n + 1).saturating_sub(record.start),
            5 => record.kind = record.kind.wrapping_sub(1).min(3),
            _ => (record.start, record.length) = (large, 0u64.wrapping_sub(large)),
        }
    }
}

/*---- Readings ----*/

// Every module of eight labels of version 1 and eight of version 7, changed alone.
fn flips(_: &mut Random, i: u64) -> Case {
    let (v, label, place) =
        if i < 8 * 441 { (1, i / 441, i % 441) } else { (7, (i - 8 * 441) / 2025, (i - 8 * 441) % 2025) };
    let mut c = Case::new(Entry::Text, format!("LP{label}").into_bytes());
    (c.level, c.mask, c.first, c.last) = ((label % 4) as u8, label as u8, v, v);
    c.reading.edits = vec![(place as usize, 1)];
    c
}

// Every size from 0 to 200 told of a label of version 1, and of one of version 40, and two sizes that are large.
fn sides(_: &mut Random, i: u64) -> Case {
    let mut c = Case::new(Entry::Text, b"LP".to_vec());
    (c.first, c.last) = if i % 2 == 0 { (1, 1) } else { (40, 40) };
    c.reading.size = Some(match i / 2 {
        201 => usize::MAX,
        202 => 1 << 32 | 21,
        size => size as usize,
    });
    c
}

// A label that is damaged, cut, lengthened, has bytes above 1, or gets buffers that are too short; several at once.
fn readings(r: &mut Random, i: u64) -> Case {
    let mut c = if r.once_in(2) { segments(r, i) } else { texts(r, i) };
    let area = side(c.last) * side(c.last);
    let mut reading = Reading::default();
    if r.once_in(2) {
        let n = [1, 2, 3, 10, 100, 1000][r.below(6)];
        reading.edits = (0..n).map(|_| (r.below(area), 1)).collect();
    }
    if r.once_in(6) {
        reading.edits.push((r.below(area), [2, 3, 128, 254][r.below(4)]));
    }
    if r.once_in(8) {
        reading.resize = [-1, 1, -21, 21, -50_000, 8 * c.first as i64][r.below(6)];
    }
    if r.once_in(8) {
        reading.size = Some([0, 20, 21, 25, 45, 177, 181, r.below(201)][r.below(8)]);
    }
    if r.once_in(4) {
        reading.text = [-1, -2, -50_000, 1][r.below(4)];
    }
    if r.once_in(4) {
        reading.records = [-1, -2, -50_000, 1][r.below(4)];
    }
    if r.once_in(8) {
        reading.scratch = [SCRATCH - 1, 0, 1, r.below(SCRATCH)][r.below(4)];
    }
    c.reading = reading;
    c
}

/*---- The Rust crate ----*/

// Calls of the original's domain, for the crate's own names: valid UTF-8 where it is a text.
fn bindings(r: &mut Random, i: u64) -> Case {
    let mut c = match r.below(4) {
        0 => texts(r, i),
        1 => segments(r, i),
        2 => codewords(r, i),
        _ => bytes(r, i),
    };
    if c.entry == Entry::Text && std::str::from_utf8(&c.text).is_err() {
        c.entry = Entry::Binary;
    }
    c
}
