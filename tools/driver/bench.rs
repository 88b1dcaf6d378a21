//! Times of the port, of the Rust original, of libqrencode and of zxing-cpp, measured in one run: of 51 rounds of each the best,
//! the median, and what a tenth and nine tenths of the rounds do not exceed.
use crate::model::{mask, LEVELS};
use gatemurmur::raw::{self, Record, GRID, MASK_AUTO, SCRATCH, TEXT};
use qrcodegen::{QrCode, QrSegment, Version};
use std::hint::black_box;

const ROUNDS: usize = 51;
/// A round lasts at least as long, in nanoseconds.
const ROUND: i64 = 10_000_000;
/// The clock is read after calls that last about as long, in nanoseconds, so that reading it counts for little.
const BATCH: i64 = 100_000;

#[repr(C)]
struct Time {
    seconds: i64,
    nanoseconds: i64,
}

extern "C" {
    fn clock_gettime(clock: i32, time: *mut Time) -> i32;
}

/// Processor time of this thread in nanoseconds (clock 3 on Linux), so that other work on the machine is not counted.
fn now() -> i64 {
    let mut time = Time { seconds: 0, nanoseconds: 0 };
    // Safety: the struct is the C library's timespec on 64-bit Linux.
    let status = unsafe { clock_gettime(3, &mut time) };
    assert_eq!(status, 0);
    time.seconds * 1_000_000_000 + time.nanoseconds
}

struct Row {
    name: &'static str,
    text: Vec<u8>,
    kind: u64,
    mask: u8,
}

fn rows() -> Vec<Row> {
    let bytes = |n: usize| (0..n).map(|i| (i * 97 + i / 7) as u8).collect::<Vec<u8>>();
    let digits: Vec<u8> = (0..7089).map(|i| b'0' + ((i * 7 + i / 11) % 10) as u8).collect();
    let mut all = Vec::new();
    for (name, fixed, text, kind) in [
        ("39 bytes, automatic mask", "39 bytes, mask 3", bytes(39), 2),
        ("200 bytes, automatic mask", "200 bytes, mask 3", bytes(200), 2),
        ("2,900 bytes, automatic mask", "2,900 bytes, mask 3", bytes(2900), 2),
        ("7,089 digits, automatic mask", "7,089 digits, mask 3", digits, 0),
    ] {
        all.push(Row { name, text: text.clone(), kind, mask: MASK_AUTO });
        all.push(Row { name: fixed, text, kind, mask: 3 });
    }
    all
}

/// Measures and prints the tables.
pub fn bench() {
    println!("level Low, versions 1 to 40, no boost; processor time in microseconds a call");
    println!(
        "{ROUNDS} rounds of at least {} ms each, the programs in turn: the best, the median, and what 10 % and",
        ROUND / 1_000_000
    );
    println!("90 % of the rounds do not exceed; ratios by the best and by the median");
    println!("The clock is read after calls that last {} us or more together.", BATCH / 1_000);
    println!("The port draws in buffers that the caller lends and does not clear between calls;");
    println!("the call itself zeroes 40,000 bytes of scratch.");
    println!("The original and libqrencode allocate and free in each call; the original's segments are made in the call, as the port's are.");
    heading("Drawing", "port / it");
    rows().iter().for_each(draw_row);
    heading("Reading: zxing-cpp corrects errors too", "reading / it");
    rows().iter().filter(|r| r.mask != MASK_AUTO).for_each(read_row);
    heading("Lists of digits, mask 3", "port / it");
    [1, 10, 100, 1_000].into_iter().for_each(list_row);
    heading("Refused by 5 after the records were taken in", "ns a record");
    [1, 10, 100, 128, 129, 1_000, 2_048].into_iter().for_each(refused_row);
}

fn heading(name: &str, last: &str) {
    println!();
    println!("{name:46} {:>9} {:>9} {:>9} {:>9} {last:>13} {:>11}", "best", "median", "10 %", "90 %", "by medians");
}

/// Microseconds a call of one program, round by round, ascending.
struct Times(Vec<f64>);

impl Times {
    fn best(&self) -> f64 {
        self.0[0]
    }

    /// What so many of a hundred rounds do not exceed.
    fn percentile(&self, percent: usize) -> f64 {
        self.0[(self.0.len() - 1) * percent / 100]
    }

    fn median(&self) -> f64 {
        self.percentile(50)
    }

    /// Prints the line of a program, with two numbers behind it where there are some.
    fn print(&self, row: &str, program: &str, last: Option<(f64, f64)>) {
        print!("{row:32} {program:13} {:9.2} {:9.2}", self.best(), self.median());
        print!(" {:9.2} {:9.2}", self.percentile(10), self.percentile(90));
        match last {
            Some((best, median)) => println!(" {best:13.2} {median:11.2}"),
            None => println!(),
        }
    }
}

/// A program's name and its call.
type Program<'a> = (&'a str, &'a mut dyn FnMut());

// Measures the programs of a row and prints a line for each; the ratios are those of the first to each other one.
fn compare(row: &str, programs: &mut [Program]) {
    let times = measure(programs);
    for (i, (time, (program, _))) in times.iter().zip(programs).enumerate() {
        let ratio = (i > 0).then(|| (times[0].best() / time.best(), times[0].median() / time.median()));
        time.print(if i == 0 { row } else { "" }, program, ratio);
    }
}

// Rounds are taken in turn, so that a busy machine is fair to all.
fn measure(programs: &mut [Program]) -> Vec<Times> {
    let mut times = vec![Vec::with_capacity(ROUNDS); programs.len()];
    let batches: Vec<u32> = programs.iter_mut().map(|(_, call)| batch(*call)).collect();
    for _ in 0..ROUNDS {
        for ((time, (_, call)), batch) in times.iter_mut().zip(programs.iter_mut()).zip(&batches) {
            let (start, mut n) = (now(), 0u32);
            while now() - start < ROUND {
                for _ in 0..*batch {
                    call();
                }
                n += batch;
            }
            time.push((now() - start) as f64 / 1000.0 / f64::from(n));
        }
    }
    times.iter_mut().for_each(|time| time.sort_by(f64::total_cmp));
    times.into_iter().map(Times).collect()
}

// How many calls last as long as BATCH, found by doubling.
fn batch(call: &mut dyn FnMut()) -> u32 {
    let mut n = 1;
    loop {
        let start = now();
        for _ in 0..n {
            call();
        }
        if now() - start >= BATCH {
            return n;
        }
        n *= 2;
    }
}

fn draw_row(row: &Row) {
    let (mut grid, mut scratch) = (vec![0; GRID], vec![0; SCRATCH]);
    let records = [Record { kind: row.kind, start: 0, length: row.text.len() as u64, assign: 0 }];
    let mut port = || {
        let answer =
            raw::encode_segments(black_box(&row.text), &records, 0, 1, 40, row.mask, false, &mut grid, &mut scratch);
        assert_eq!(black_box(answer).number, 0);
    };
    let mut rust = || {
        let text = black_box(&row.text);
        let seg = if row.kind == 0 {
            QrSegment::make_numeric(std::str::from_utf8(text).unwrap())
        } else {
            QrSegment::make_bytes(text)
        };
        let qr = QrCode::encode_segments_advanced(&[seg], LEVELS[0], Version::MIN, Version::MAX, mask(row.mask), false);
        assert!(black_box(qr).is_ok());
    };
    let mut other = libqrencode(row, &records);
    let mut programs: Vec<Program> = vec![("port", &mut port), ("Rust", &mut rust)];
    if let Some(call) = &mut other {
        programs.push(("libqrencode", call));
    }
    compare(row.name, &mut programs);
}

/// A call of a program that may not be there.
type Other<'a> = Option<Box<dyn FnMut() + 'a>>;

// libqrencode draws the same, where it is there; it has no call for a fixed mask.
#[cfg(qrencode)]
fn libqrencode<'a>(row: &'a Row, records: &'a [Record]) -> Other<'a> {
    let call = move || assert!(black_box(crate::qrencode::draw(black_box(&row.text), records, 0, 0)).is_some());
    (row.mask == MASK_AUTO).then(|| Box::new(call) as Box<dyn FnMut()>)
}

#[cfg(not(qrencode))]
fn libqrencode<'a>(_: &'a Row, _: &'a [Record]) -> Other<'a> {
    None
}

// The strict reader beside the drawing of the same label with its mask fixed.
fn read_row(row: &Row) {
    let (mut grid, mut scratch, mut again) = (vec![0; GRID], vec![0; SCRATCH], vec![0; SCRATCH]);
    let records = [Record { kind: row.kind, start: 0, length: row.text.len() as u64, assign: 0 }];
    let answer = raw::encode_segments(&row.text, &records, 0, 1, 40, row.mask, false, &mut grid, &mut scratch);
    let size = 4 * usize::from(answer.version) + 17;
    let drawn = grid[..size * size].to_vec();
    let (mut text, mut list) = (vec![0; TEXT], vec![Record::default(); 4]);
    let mut reading =
        || assert_eq!(black_box(raw::read(black_box(&drawn), size, &mut text, &mut list, &mut scratch)).number, 0);
    let mut drawing = || {
        let answer =
            raw::encode_segments(black_box(&row.text), &records, 0, 1, 40, row.mask, false, &mut grid, &mut again);
        assert_eq!(black_box(answer).number, 0);
    };
    let mut other = zxing(row, &drawn, size);
    let mut programs: Vec<Program> = vec![("reading", &mut reading), ("drawing", &mut drawing)];
    if let Some(call) = &mut other {
        programs.push(("zxing-cpp", call));
    }
    compare(row.name, &mut programs);
}

// zxing-cpp reads a picture of the label and nothing else, one pixel a module, where it is there.
#[cfg(zxing)]
fn zxing<'a>(row: &Row, drawn: &[u8], size: usize) -> Other<'a> {
    let (picture, width) = crate::zxing::picture(drawn, size);
    let mut text = vec![0; TEXT];
    assert_eq!(crate::zxing::read(&picture, width, &mut text), Some(row.text.len()));
    assert_eq!(text[..row.text.len()], row.text[..]);
    Some(Box::new(move || assert!(crate::zxing::read(black_box(&picture), width, &mut text).is_some())))
}

#[cfg(not(zxing))]
fn zxing<'a>(_: &Row, _: &[u8], _: usize) -> Other<'a> {
    None
}

// A list of n Numeric segments of one digit each, which share their text.
fn digits(n: usize) -> (Vec<u8>, Vec<Record>) {
    let text = b"0123456789".to_vec();
    let records = (0..n).map(|i| Record { kind: 0, start: (i % 10) as u64, length: 1, assign: 0 }).collect();
    (text, records)
}

fn list_row(n: usize) {
    let (mut grid, mut scratch) = (vec![0; GRID], vec![0; SCRATCH]);
    let (text, records) = digits(n);
    let mut port = || {
        let answer = raw::encode_segments(&text, black_box(&records), 0, 1, 40, 3, false, &mut grid, &mut scratch);
        assert_eq!(black_box(answer).number, 0);
    };
    let mut rust = || {
        let list: Vec<QrSegment> = black_box(&records)
            .iter()
            .map(|r| QrSegment::make_numeric(std::str::from_utf8(&text[r.start as usize..][..1]).unwrap()))
            .collect();
        let qr = QrCode::encode_segments_advanced(&list, LEVELS[0], Version::MIN, Version::MAX, mask(3), false);
        assert!(black_box(qr).is_ok());
    };
    compare(&format!("{n} records"), &mut [("port", &mut port), ("Rust", &mut rust)]);
}

// What it costs to take the records in: all are, and then the first is refused for its kind.
fn refused_row(n: usize) {
    let (mut grid, mut scratch) = (vec![0; GRID], vec![0; SCRATCH]);
    let (text, mut records) = digits(n);
    records[0].kind = 9;
    let mut call = || {
        let answer = raw::encode_segments(&text, black_box(&records), 0, 1, 40, 3, false, &mut grid, &mut scratch);
        assert_eq!(black_box(answer).number, 5);
    };
    let times = measure(&mut [("port", &mut call)]);
    let each = |time: f64| time * 1000.0 / n as f64;
    times[0].print(&format!("{n} records"), "port", Some((each(times[0].best()), each(times[0].median()))));
}
