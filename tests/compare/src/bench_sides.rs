//! Benchmarks of one answer in three ways: the port's, the Rust's from bytes to bytes, and the core
//! of that, from the Rust's own types to its own.

use std::hint::black_box;
use std::path::Path;
use std::process::{Command, ExitCode};
use std::{env, fs, process};

use crate::bench::{median, nanoseconds};

/// Timed runs of a case, each side in turn, and how long one takes at least, in nanoseconds; of a
/// side that takes longer than a hundredth of a second there are fewer.
const RUNS: usize = 101;
const FEW_RUNS: usize = 11;
const LONG: f64 = 100_000.0;
const TOO_LONG: f64 = 10_000_000.0;
/// Runs of which the instructions are counted.
const COUNTED: usize = 4;

#[derive(Clone, Copy)]
pub enum Side {
    Port,
    Rust,
    Core,
}
const SIDES: [Side; 3] = [Side::Port, Side::Rust, Side::Core];

/// A case in the forms of all sides.
pub trait Drive: Sized {
    type Case: Copy;
    /// What follows `compare bench`, and what the core is called.
    const NAME: &'static str;
    const CORE: &'static str;
    /// The heads of a case's columns.
    const HEAD: &'static str;

    fn cases() -> Vec<Self::Case>;
    fn columns(case: Self::Case) -> String;
    fn new(case: Self::Case) -> Self;
    /// Something that depends on the answer.
    fn drive(&mut self, side: Side) -> usize;
}

/// `None` for words that mean nothing.
pub fn run<D: Drive>(words: &[&str]) -> Option<ExitCode> {
    match words {
        [] => Some(timed::<D>()),
        ["instructions"] => Some(counted::<D>()),
        ["marked"] => Some(marked::<D>()),
        [side, case, runs] => alone::<D>(side, case, runs),
        _ => None,
    }
}

/// One side of one case alone, `runs` times.
fn alone<D: Drive>(side: &str, case: &str, runs: &str) -> Option<ExitCode> {
    let side = ["port", "rust", D::CORE].iter().position(|name| *name == side)?;
    let mut drive = D::new(*D::cases().get(case.parse::<usize>().ok()?)?);
    (0..runs.parse().ok()?).for_each(|_| _ = black_box(drive.drive(SIDES[side])));
    Some(ExitCode::SUCCESS)
}

fn head<D: Drive>(unit: &str) {
    let (head, core) = (D::HEAD, D::CORE);
    println!("| {head} | port, {unit} | Rust | port / Rust | {core} | port / {core} |");
    println!("|{}---|---|---|---|---|", "---|".repeat(head.split('|').count()));
}

fn line<D: Drive>(case: D::Case, [port, rust, core]: [f64; 3]) {
    let columns = D::columns(case);
    let (to_rust, to_core) = (port / rust, port / core);
    println!("| {columns} | {port:.1} | {rust:.1} | {to_rust:.2} | {core:.1} | {to_core:.2} |");
}

/// Medians, in microseconds.
fn timed<D: Drive>() -> ExitCode {
    head::<D>("µs");
    for case in D::cases() {
        let mut drive = D::new(case);
        let once = SIDES.map(|side| nanoseconds(|| drive.drive(side)));
        let mut runs = [const { Vec::new() }; 3];
        let long = once.iter().any(|&time| time > TOO_LONG);
        for _ in 0..if long { FEW_RUNS } else { RUNS } {
            for ((times, side), once) in runs.iter_mut().zip(SIDES).zip(once) {
                let repeats = 1 + (LONG / once) as usize;
                let all = nanoseconds(|| (0..repeats).map(|_| drive.drive(side)).sum());
                times.push(all / repeats as f64);
            }
        }
        line::<D>(case, runs.map(median).map(|time| time / 1e3));
    }
    ExitCode::SUCCESS
}

/// Thousands of instructions, by callgrind: this program again, which dumps its counts at marks.
fn counted<D: Drive>() -> ExitCode {
    let folder = env::temp_dir().join(format!("compare-bench-{}", process::id()));
    let counts = fs::create_dir_all(&folder).ok().and_then(|()| totals::<D>(&folder));
    _ = fs::remove_dir_all(&folder);
    let Some(counts) = counts else {
        eprintln!("compare: no count of instructions; is valgrind there?");
        return ExitCode::from(2);
    };
    head::<D>("1000 instructions");
    for (case, counts) in D::cases().into_iter().zip(counts) {
        line::<D>(case, counts.map(|count| count / 1e3));
    }
    ExitCode::SUCCESS
}

/// The instructions of a run of each side of each case. A side has two marks, and what lies
/// between them counts.
fn totals<D: Drive>(folder: &Path) -> Option<Vec<[f64; 3]>> {
    let run = Command::new("valgrind")
        .args(["--quiet", "--tool=callgrind", "--dump-after=bench_mark"])
        .arg(format!("--callgrind-out-file={}", folder.join("out").display()))
        .arg(env::current_exe().ok()?)
        .args(["bench", D::NAME, "marked"])
        .status();
    run.ok().filter(|status| status.success())?;
    let total = |k: usize| {
        let dump = fs::read_to_string(folder.join(format!("out.{k}"))).ok()?;
        let count = dump.lines().find_map(|line| line.strip_prefix("totals: "))?;
        Some(count.parse::<f64>().ok()? / COUNTED as f64)
    };
    let of = |case: usize| {
        let [port, rust, core] = [1, 2, 3].map(|side| total(2 * (3 * case + side)));
        Some([port?, rust?, core?])
    };
    (0..D::cases().len()).map(of).collect()
}

/// Runs each side of each case once, and then as often as is counted, with a mark after each.
fn marked<D: Drive>() -> ExitCode {
    for case in D::cases() {
        let mut drive = D::new(case);
        for side in SIDES {
            for runs in [1, COUNTED] {
                (0..runs).for_each(|_| _ = black_box(drive.drive(side)));
                bench_mark();
            }
        }
    }
    ExitCode::SUCCESS
}

/// Where callgrind writes down what it has counted.
#[no_mangle]
#[inline(never)]
extern "C" fn bench_mark() {
    black_box(());
}
