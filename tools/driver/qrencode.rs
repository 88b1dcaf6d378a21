//! The port beside libqrencode, an encoder of other authors: whole grids at the version and level asked for and the mask it chose.
use crate::case::{Case, Entry};
use crate::families;
use crate::model::side;
use crate::random::Random;
use gatemurmur::raw::{self, Record, SCRATCH};
use std::collections::BTreeMap;
use std::os::raw::{c_char, c_int, c_uchar, c_uint, c_void};
use std::sync::atomic::{AtomicU64, Ordering};
use std::sync::Mutex;

#[repr(C)]
struct Code {
    version: c_int,
    width: c_int,
    data: *mut c_uchar,
}

#[link(name = "qrencode")]
extern "C" {
    fn QRinput_new2(version: c_int, level: c_int) -> *mut c_void;
    fn QRinput_append(input: *mut c_void, mode: c_int, size: c_int, data: *const c_uchar) -> c_int;
    fn QRinput_appendECIheader(input: *mut c_void, number: c_uint) -> c_int;
    fn QRinput_free(input: *mut c_void);
    fn QRcode_encodeInput(input: *mut c_void) -> *mut Code;
    fn QRcode_free(code: *mut Code);
    fn QRcode_APIVersionString() -> *mut c_char;
}

/// The library's own version.
pub fn version() -> String {
    // Safety: a string that the library owns and never frees.
    unsafe { std::ffi::CStr::from_ptr(QRcode_APIVersionString()) }.to_string_lossy().into_owned()
}

/// Its version (0: the smallest) and modules of a list at a version and level, the mask being its own choice.
pub fn draw(text: &[u8], records: &[Record], version: u8, level: u8) -> Option<(u8, Vec<u8>)> {
    // Safety: the input is made, used and freed here; each part comes with its own length; data has width × width bytes.
    unsafe {
        let input = QRinput_new2(version.into(), level.into());
        let mut good = !input.is_null();
        for r in records {
            let part = &text[r.start as usize..][..r.length as usize];
            good = good
                && 0 == match r.kind {
                    3 => QRinput_appendECIheader(input, r.assign as c_uint),
                    kind => QRinput_append(input, kind as c_int, part.len() as c_int, part.as_ptr()),
                };
        }
        let code = if good { QRcode_encodeInput(input) } else { std::ptr::null_mut() };
        let drawn = code.as_ref().map(|c| {
            let area = (c.width * c.width) as usize;
            (c.version as u8, std::slice::from_raw_parts(c.data, area).iter().map(|b| b & 1).collect())
        });
        QRcode_free(code);
        QRinput_free(input);
        drawn
    }
}

/// The mask in a grid's format bits, first copy.
fn mask_of(grid: &[u8], n: usize) -> u8 {
    let bits = [(2, 8), (3, 8), (4, 8)].iter().fold(0, |v, &(x, y)| 2 * v + grid[y * n + x]);
    bits ^ 0b101 // the mask's part of 5412 (hex)
}

const CASES: [&str; 2] = ["one kind", "mixed"];

// The standard's own example first; then each kind at every version and level; then mixed lists, no segment being empty.
fn make(seed: u64, i: u64) -> (usize, Case, u8) {
    let r = &mut Random::of(seed, "qrencode", i);
    let mut c = Case::new(Entry::Segments, vec![]);
    if i == 0 {
        c.text = b"01234567".to_vec();
        c.records = vec![Record { kind: 0, start: 0, length: 8, assign: 0 }];
        c.level = 1;
        return (0, c, 1);
    }
    let j = i - 1;
    let (v, one) = if j < 480 { ((j / 12 + 1) as u8, true) } else { (families::any_version(r, j), false) };
    c.level = (j % 4) as u8;
    if one {
        families::one_kind(r, &mut c, v, (j / 4 % 3) as usize);
    } else {
        families::fill(r, &mut c, v);
        c.records.retain(|r| r.kind == 3 || r.length > 0);
    }
    (usize::from(!one), c, v)
}

#[derive(Default)]
struct Tally {
    cases: u64,
    skipped: u64,
    versions: u64,
    masks: BTreeMap<u8, u64>,
    other_choice: u64,
    by_rule: u64,
    long_eci: u64,
    larger: u64,
    differences: Vec<String>,
}

/// Compares as many lists as are asked for, and the fixed ones; a choice of mask that its rule does not explain fails too.
pub fn compare(seed: u64, count: u64, jobs: usize) -> bool {
    let total = Mutex::new([Tally::default(), Tally::default()]);
    let next = AtomicU64::new(0);
    let count = count.max(481 + 640);
    std::thread::scope(|scope| {
        for _ in 0..jobs {
            scope.spawn(|| loop {
                let i = next.fetch_add(1, Ordering::Relaxed);
                if i >= count {
                    break;
                }
                let (family, case, v) = make(seed, i);
                let result = one(&case, v);
                note(&mut total.lock().unwrap()[family], result, &case, v);
            });
        }
    });
    println!("libqrencode {}", version());
    let tallies = total.into_inner().unwrap();
    let failed = CASES.iter().zip(&tallies).filter(|(name, tally)| !passed(name, tally)).count();
    println!("{} passed, {failed} failed", CASES.len() - failed);
    failed == 0
}

// Prints what was counted, and answers whether all grids are alike and its rule explains each mask that it chose.
fn passed(name: &str, t: &Tally) -> bool {
    let alike = t.cases - t.differences.len() as u64;
    println!(
        "{name}: {alike} grids alike, {} differ; {} versions; {} lists did not fit and were left out",
        t.differences.len(),
        t.versions.count_ones(),
        t.skipped
    );
    println!(
        "    masks that it chose: {:?}; {} times another than ours; by its own rule {} times",
        t.masks, t.other_choice, t.by_rule
    );
    println!(
        "    a larger version than needed {} times; ECI numbers from 16,384 on in its own form {} times",
        t.larger, t.long_eci
    );
    if let Some(smallest) = t.differences.iter().min_by_key(|d| d.len()) {
        println!("    {smallest}");
    }
    t.differences.is_empty() && t.by_rule == alike && alike > 0
}

enum Result {
    Skipped,
    Alike { version: u8, mask: u8, chosen: u8, by_rule: bool, long_eci: bool },
    Differs(String),
}

fn note(tally: &mut Tally, result: Result, case: &Case, v: u8) {
    match result {
        Result::Skipped => tally.skipped += 1,
        Result::Alike { version, mask, chosen, by_rule, long_eci } => {
            tally.by_rule += u64::from(by_rule);
            tally.cases += 1;
            tally.versions |= 1 << version;
            tally.larger += u64::from(version > v);
            *tally.masks.entry(mask).or_default() += 1;
            tally.other_choice += u64::from(mask != chosen);
            tally.long_eci += u64::from(long_eci);
        }
        Result::Differs(why) => {
            tally.cases += 1;
            tally.differences.push(format!(
                "{why}: version {v}, level {}, records {:?}, text {:?}",
                case.level, case.records, case.text
            ));
        }
    }
}

// Draws one list by both, at the version that it takes: a list that has an ECI header and nearly fills its version may get
// a larger one from it.
fn one(case: &Case, v: u8) -> Result {
    if drawn(case, v, 0, false).0.number != 0 {
        return Result::Skipped;
    }
    let Some((version, theirs)) = draw(&case.text, &case.records, v, case.level) else {
        return Result::Differs("it draws nothing".into());
    };
    let n = side(version);
    if theirs.len() != n * n || version != v && !case.records.iter().any(|r| r.kind == 3) {
        return Result::Differs(format!("it draws version {version}"));
    }
    let mask = mask_of(&theirs, n);
    let long_eci = case.records.iter().any(|r| r.kind == 3 && r.assign >= 16_384);
    let (answer, ours) = drawn(case, version, mask, long_eci);
    if answer.number != 0 || ours != theirs {
        return Result::Differs(format!("grids differ at mask {mask}"));
    }
    let chosen = drawn(case, version, raw::MASK_AUTO, long_eci).0.mask;
    let by_rule = its_choice(|m| drawn(case, version, m, long_eci).1, n) == mask;
    Result::Alike { version, mask, chosen, by_rule, long_eci }
}

// The port's drawing of a list; with `its_form`, of the codewords that the list has in libqrencode's form.
fn drawn(case: &Case, v: u8, mask: u8, its_form: bool) -> (raw::Answer, Vec<u8>) {
    let (mut grid, mut scratch) = (vec![0; side(v) * side(v)], vec![0; SCRATCH]);
    let answer = if its_form {
        let data = families::data_codewords(case, v, its_number);
        raw::encode_codewords(v, case.level, &data, mask, &mut grid, &mut scratch)
    } else {
        raw::encode_segments(&case.text, &case.records, case.level, v, v, mask, false, &mut grid, &mut scratch)
    };
    (answer, grid)
}

// Its form of an ECI number: from 16,384 on it puts 0C0000 (hex) for C00000, so the number is not the one asked for.
// Such a list is compared by codewords of that form, which shows that nothing else differs.
fn its_number(number: u64) -> (u64, usize) {
    match number {
        0..=127 => (number, 8),
        128..=16_383 => (0x8000 + number, 16),
        _ => (0x0C_0000 + number, 24),
    }
}

/*---- The mask that it chooses ----*/

/// The mask that its rule gives: the lowest of least penalty, where the penalty differs from the original's in two ways.
fn its_choice(mut draw: impl FnMut(u8) -> Vec<u8>, n: usize) -> u8 {
    (0..8).min_by_key(|&mask| its_penalty(&draw(mask), n)).unwrap()
}

// Runs and squares cost as in sections 9.2 and 9.3. Balance costs 10 for each whole 5 % that the rounded share of dark is off 50 %.
fn its_penalty(grid: &[u8], n: usize) -> usize {
    let lines = (0..n).flat_map(|i| [grid[i * n..][..n].to_vec(), (0..n).map(|j| grid[j * n + i]).collect()]);
    let cost: usize = lines.map(|line| its_line(&line)).sum();
    let square = |i: usize| [i + 1, i + n, i + n + 1].iter().all(|&j| grid[j] == grid[i]);
    let squares = (0..n * (n - 1)).filter(|&i| i % n + 1 < n && square(i)).count();
    let dark = grid.iter().filter(|&&b| b == 1).count();
    let percent = (200 * dark + n * n) / (n * n) / 2;
    cost + 3 * squares + percent.abs_diff(50) / 5 * 10
}

// A finder-like core costs once, if light of four times its width, or the border, lies on one side; the other side is not looked at.
fn its_line(line: &[u8]) -> usize {
    let mut runs: Vec<usize> = if line[0] == 1 { vec![0] } else { vec![] };
    runs.extend(line.chunk_by(|a, b| a == b).map(|run| run.len()));
    let long: usize = runs.iter().filter(|&&run| run >= 5).map(|run| run - 2).sum();
    let core = |i: usize| {
        let w = runs[i] / 3;
        let whole = runs[i] % 3 == 0 && [i - 2, i - 1, i + 1, i + 2].iter().all(|&j| runs[j] == w);
        whole && (i == 3 || runs[i - 3] >= 4 * w || i + 4 >= runs.len() || runs[i + 3] >= 4 * w)
    };
    let cores = (3..runs.len().saturating_sub(2)).filter(|&i| i % 2 == 1 && core(i)).count();
    long + 40 * cores
}
