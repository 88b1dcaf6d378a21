//! The driver behind tools/compare and tools/bench: the port beside the Rust original and libqrencode.
mod bench;
mod case;
mod families;
mod model;
#[cfg(qrencode)]
mod qrencode;
mod random;
mod run;
#[cfg(zxing)]
mod zxing;

use case::Case;
use families::Family;
use random::Random;
use run::{run_bindings, Fault, Seen, Worker, FAULTS};
use std::collections::BTreeMap;
use std::sync::atomic::{AtomicU64, Ordering};
use std::sync::Mutex;
use std::time::{Duration, Instant};

struct Options {
    command: String,
    seed: u64,
    /// How many cases, where that is said.
    count: Option<u64>,
    quick: bool,
    jobs: usize,
    /// Seconds after which the random families end early.
    seconds: u64,
    only: Option<String>,
}

fn options() -> Options {
    let mut o = Options {
        command: "compare".into(),
        seed: 1,
        count: None,
        quick: false,
        jobs: 2,
        seconds: 1_000_000,
        only: None,
    };
    let mut words = std::env::args().skip(1);
    let number = |word: Option<String>, name: &str| {
        word.and_then(|w| w.replace('_', "").parse().ok()).unwrap_or_else(|| usage(&format!("{name} takes a number")))
    };
    while let Some(word) = words.next() {
        match word.as_str() {
            "--seed" => o.seed = number(words.next(), "--seed"),
            "--count" => o.count = Some(number(words.next(), "--count")),
            "--jobs" => o.jobs = number(words.next(), "--jobs").max(1) as usize,
            "--seconds" => o.seconds = number(words.next(), "--seconds"),
            "--only" => o.only = words.next(),
            "--quick" => o.quick = true,
            "--selftest" => o.command = "selftest".into(),
            "--qrencode" => o.command = "qrencode".into(),
            "--bench" => o.command = "bench".into(),
            _ => usage(&format!("{word} is not known")),
        }
    }
    o
}

fn usage(why: &str) -> ! {
    eprintln!(
        "{why}\ntools/compare [--seed N] [--count N] [--quick] [--seconds N] [--jobs N] [--only FAMILY] [--selftest | --qrencode]"
    );
    std::process::exit(2);
}

fn main() {
    let o = options();
    let good = match o.command.as_str() {
        "bench" => {
            bench::bench();
            true
        }
        "selftest" => selftest(&o),
        "qrencode" => second(&o),
        _ => compare(&o),
    };
    std::process::exit(if good { 0 } else { 1 });
}

#[cfg(qrencode)]
fn second(o: &Options) -> bool {
    qrencode::compare(o.seed, o.count.unwrap_or(if o.quick { 1_200 } else { 5_000 }), o.jobs)
}

#[cfg(not(qrencode))]
fn second(_: &Options) -> bool {
    println!("this driver was built without libqrencode: nothing was compared");
    println!("0 passed, 1 failed");
    false
}

/// What was counted in a family.
#[derive(Default)]
pub struct Tally {
    cases: u64,
    versions: u64,
    refusals: BTreeMap<u32, u64>,
    read: u64,
    unread: BTreeMap<u32, u64>,
    differences: u64,
    shown: Vec<String>,
}

impl Tally {
    fn add(&mut self, seen: Seen) {
        self.cases += 1;
        if seen.number == 0 {
            self.versions |= 1 << seen.version;
        } else {
            *self.refusals.entry(seen.number).or_default() += 1;
        }
        match seen.read {
            Some(0) => self.read += 1,
            Some(n) => *self.unread.entry(n).or_default() += 1,
            None => {}
        }
    }

    fn join(&mut self, other: Tally) {
        self.cases += other.cases;
        self.versions |= other.versions;
        self.read += other.read;
        self.differences += other.differences;
        self.shown.extend(other.shown);
        for (mine, theirs) in [(&mut self.refusals, other.refusals), (&mut self.unread, other.unread)] {
            for (number, n) in theirs {
                *mine.entry(number).or_default() += n;
            }
        }
    }

    fn print(&self, name: &str) {
        println!(
            "{name:18} {:9} cases, {:2} versions, refused: {}; read back {}, not read: {}; {} differences",
            self.cases,
            self.versions.count_ones(),
            listed(&self.refusals),
            self.read,
            listed(&self.unread),
            self.differences,
        );
        for text in self.shown.iter().take(1) {
            println!("{text}");
        }
    }
}

// Numbers of refusals and how often each was seen.
fn listed(numbers: &BTreeMap<u32, u64>) -> String {
    if numbers.is_empty() {
        return "none".into();
    }
    numbers.iter().map(|(n, times)| format!("{n} × {times}")).collect::<Vec<_>>().join(", ")
}

/// Runs every family and prints what was counted; the last line has the families that passed.
fn compare(o: &Options) -> bool {
    let start = Instant::now();
    let mut all = Vec::new();
    let mut families = families::families(o.count.unwrap_or(if o.quick { 100_000 } else { 1_000_000 }));
    families.retain(|f| o.only.as_ref().map_or(true, |name| name == f.name));
    for (i, family) in families.iter().enumerate() {
        let left: u64 = families[i..].iter().filter(|f| f.random).map(|f| f.cases).sum();
        let time = Duration::from_secs(o.seconds).saturating_sub(start.elapsed());
        let time = if family.random { time.mul_f64(family.cases as f64 / left as f64) } else { Duration::MAX };
        let tally = run_family(o, family, Fault::None, time);
        tally.print(family.name);
        all.push(tally);
    }
    if o.only.is_none() {
        all.push(programs());
    }
    let sum: u64 = all.iter().map(|t| t.cases).sum();
    let read: u64 = all.iter().map(|t| t.read).sum();
    let failed = all.iter().filter(|t| t.differences > 0).count();
    println!("{sum} cases with seed {}, {read} labels read back", o.seed);
    println!("{} passed, {failed} failed", all.len() - failed);
    failed == 0 && sum > 0
}

// One program that is written for the original, compiled against it and against the port's Rust crate, prints the same.
fn programs() -> Tally {
    let folder = std::env::current_exe().unwrap().with_file_name("");
    let printed =
        |name: &str| std::process::Command::new(folder.join(name)).output().map(|o| (o.status.success(), o.stdout));
    let mut tally = Tally { cases: 1, ..Tally::default() };
    match (printed("program_original"), printed("program_port")) {
        (Ok(a), Ok(b)) if a.0 && !a.1.is_empty() && a == b => println!("program: {} bytes alike", a.1.len()),
        _ => {
            println!("program: target/driver/program_original and program_port do not print the same");
            tally.differences = 1;
        }
    }
    tally
}

// Shares a family's cases among the jobs, in pieces of 64, and ends early when its time is over.
fn run_family(o: &Options, family: &Family, fault: Fault, time: Duration) -> Tally {
    let start = Instant::now();
    let next = AtomicU64::new(0);
    let total = Mutex::new(Tally::default());
    std::thread::scope(|scope| {
        for _ in 0..o.jobs {
            scope.spawn(|| {
                let mut worker = Worker::new(fault);
                let mut tally = Tally::default();
                loop {
                    let from = next.fetch_add(64, Ordering::Relaxed);
                    if from >= family.cases || from > 0 && start.elapsed() > time {
                        break;
                    }
                    for i in from..(from + 64).min(family.cases) {
                        run_case(o.seed, family, i, &mut worker, &mut tally);
                    }
                }
                total.lock().unwrap().join(tally);
            });
        }
    });
    total.into_inner().unwrap()
}

// Runs one case; of a difference, the smallest case that shows it is kept to be printed.
fn run_case(seed: u64, family: &Family, i: u64, worker: &mut Worker, tally: &mut Tally) {
    let case = (family.make)(&mut Random::of(seed, family.name, i), i);
    let worker = std::cell::RefCell::new(worker);
    let run = |c: &Case| if family.bound { run_bindings(c) } else { worker.borrow_mut().run(c) };
    match run(&case) {
        Ok(seen) => tally.add(seen),
        Err(_) => {
            tally.cases += 1;
            tally.differences += 1;
            if tally.shown.is_empty() {
                let small = case.shrink(|c| run(c).is_err());
                let difference = run(&small).err().unwrap_or_default();
                tally.shown.push(format!("    case {i}: {difference}\n    smallest: {small:?}"));
            }
        }
    }
}

/// Puts each fault in and demands that a family finds it: a comparison that can't fail shows nothing.
fn selftest(o: &Options) -> bool {
    let mut missed = 0;
    for fault in FAULTS {
        let found = families::families(0).into_iter().rev().find_map(|family| {
            let few = Family { cases: family.cases.min(500), ..family };
            let tally = run_family(o, &few, fault, Duration::MAX);
            tally.shown.into_iter().next().map(|text| (few.name, text))
        });
        match found {
            Some((name, text)) => println!("fault {fault:?} is found by {name}\n{text}"),
            None => {
                println!("fault {fault:?} is not found");
                missed += 1;
            }
        }
    }
    println!("{} passed, {missed} failed", FAULTS.len() - missed);
    missed == 0
}
