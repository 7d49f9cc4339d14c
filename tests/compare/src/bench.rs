//! `compare bench`: the port's `route_feasible` against the Rust's, in one process on the same
//! rounds.
//!
//! A call of the port checks its sheet first, and what a call without rounds takes is taken off.
//! That it checks the rows of each round stays in its figure.

use std::hint::black_box;
use std::process::{Command, ExitCode};
use std::time::Instant;

use u_routing::evaluation::{route_feasible, RouteLimits};

use crate::planner::probe_rounds;
use crate::random::Random;
use crate::reference::Problem;
use crate::refusal::OFFERED;
use crate::sheet::{Row, Sheet, Vehicle};
use crate::sheet::{DEPOT, MAX_DISTANCE, MAX_DURATION, REST, WINDOW};

const ROWS: usize = 101;
/// The stops of all rounds of a case: they fit a processor's second cache on both sides.
const STOPS: usize = 200_000;
const STOPS_A_ROUND: [usize; 3] = [5, 20, 100];
/// Timed runs of a case, each side in turn.
const RUNS: usize = 101;
/// Runs of which the instructions are counted.
const COUNTED: usize = 4;

/// What is driven: rounds of `stops` stops, with a rest or none, hard windows or none.
#[derive(Clone, Copy)]
struct Case {
    stops: usize,
    rest: bool,
    windows: bool,
}

#[derive(Clone, Copy)]
enum Side {
    Port,
    /// The port's call without rounds.
    Check,
    Rust,
}

const SIDES: [(&str, Side); 3] =
    [("port", Side::Port), ("check", Side::Check), ("rust", Side::Rust)];

/// A case in both sides' forms.
struct Drive {
    len: usize,
    sheet: Vec<u8>,
    problem: Problem,
    /// The rounds one after another, as the port takes rows and as the Rust does.
    rows: Vec<u16>,
    stops: Vec<usize>,
}

fn cases() -> impl Iterator<Item = Case> {
    let marks = [(false, false), (false, true), (true, false), (true, true)];
    let with = move |stops| marks.map(|(rest, windows)| Case { stops, rest, windows });
    STOPS_A_ROUND.into_iter().flat_map(with)
}

/// `compare bench WORDS`; `None` for words that mean nothing.
pub fn run(words: &[&str]) -> Option<ExitCode> {
    match words {
        [] => Some(table("ns", time)),
        ["instructions"] => Some(table("instructions", instructions)),
        [side, case, runs] => alone(side, case, runs),
        _ => None,
    }
}

/// One side of one case alone, `runs` times.
fn alone(side: &str, case: &str, runs: &str) -> Option<ExitCode> {
    let &(_, side) = SIDES.iter().find(|(name, _)| *name == side)?;
    let drive = Drive::new(cases().nth(case.parse().ok()?)?);
    (0..runs.parse().ok()?).for_each(|_| _ = black_box(drive.passed(side)));
    Some(ExitCode::SUCCESS)
}

/// Prints what `measure` gives of each case's sides, for one round.
fn table(unit: &str, measure: fn(usize, &Drive) -> Option<[f64; 3]>) -> ExitCode {
    println!("| stops | rest | windows | port, {unit} a round | Rust | port / Rust |");
    println!("|---|---|---|---|---|---|");
    for (k, case) in cases().enumerate() {
        let drive = Drive::new(case);
        let Some([port, check, rust]) = measure(k, &drive) else {
            eprintln!("compare: no count of instructions; is valgrind there?");
            return ExitCode::from(2);
        };
        let (port, rust) = ((port - check) / drive.rounds(), rust / drive.rounds());
        let word = |on| if on { "yes" } else { "no" };
        let (stops, rest, windows) = (case.stops, word(case.rest), word(case.windows));
        println!("| {stops} | {rest} | {windows} | {port:.1} | {rust:.1} | {:.2} |", port / rust);
    }
    ExitCode::SUCCESS
}

/// The median of `RUNS` runs.
fn time(_: usize, drive: &Drive) -> Option<[f64; 3]> {
    let mut runs = [const { Vec::new() }; 3];
    for _ in 0..RUNS {
        for (times, (_, side)) in runs.iter_mut().zip(SIDES) {
            times.push(nanoseconds(|| drive.passed(side)));
        }
    }
    Some(runs.map(median))
}

pub fn nanoseconds(work: impl FnOnce() -> usize) -> f64 {
    let start = Instant::now();
    black_box(work());
    start.elapsed().as_nanos() as f64
}

pub fn median(mut runs: Vec<f64>) -> f64 {
    runs.sort_by(f64::total_cmp);
    runs[runs.len() / 2]
}

/// A run's share of several runs, less one.
fn instructions(k: usize, _: &Drive) -> Option<[f64; 3]> {
    let k = k.to_string();
    let of = |(side, _): (&str, Side)| {
        let several = counted(&[side, &k, &(1 + COUNTED).to_string()])?;
        Some((several - counted(&[side, &k, "1"])?) / COUNTED as f64)
    };
    let [port, check, rust] = SIDES.map(of);
    Some([port?, check?, rust?])
}

/// The instructions of `compare bench WORDS`, by callgrind.
fn counted(words: &[&str]) -> Option<f64> {
    let run = Command::new("valgrind")
        .args(["--tool=callgrind", "--callgrind-out-file=/dev/null"])
        .arg(std::env::current_exe().ok()?)
        .arg("bench")
        .args(words)
        .output()
        .ok()?;
    let said = String::from_utf8(run.stderr).ok()?;
    let line = said.lines().find(|line| line.contains("Collected"))?;
    line.rsplit(' ').next()?.parse().ok()
}

impl Drive {
    /// Rounds of rows in a random order; every one of them is feasible, so that each is walked to
    /// its end.
    fn new(case: Case) -> Drive {
        let mut random = Random::new(1);
        let sheet = sheet(&mut random, case);
        let mut rows: Vec<usize> = (1..ROWS).collect();
        let mut stops = Vec::new();
        while stops.len() < STOPS {
            for k in 0..case.stops {
                let other = k + random.below(rows.len() - k);
                rows.swap(k, other);
            }
            stops.extend(&rows[..case.stops]);
        }
        let drive = Drive {
            len: case.stops,
            sheet: sheet.encode(),
            problem: Problem::held(&sheet),
            rows: stops.iter().map(|&row| row as u16).collect(),
            stops,
        };
        assert_eq!(drive.passed(Side::Rust), drive.stops.len() / drive.len);
        assert_eq!(drive.passed(Side::Port), drive.passed(Side::Rust));
        drive
    }

    fn rounds(&self) -> f64 {
        (self.stops.len() / self.len) as f64
    }

    /// How many rounds are feasible.
    fn passed(&self, side: Side) -> usize {
        let port = |rows| probe_rounds(&self.sheet, rows, self.len, 0).expect("a right question");
        match side {
            Side::Port => port(&self.rows),
            Side::Check => port(&[]),
            Side::Rust => self.passed_by_rust(),
        }
    }

    fn passed_by_rust(&self) -> usize {
        let Problem { customers, distances, vehicles, .. } = &self.problem;
        let limits = RouteLimits::of(&vehicles[0]);
        let feasible = |route: &&[usize]| route_feasible(route, 0, distances, customers, &limits);
        self.stops.chunks_exact(self.len).filter(feasible).count()
    }
}

/// A sheet on which a vehicle waits at some stops and is late at none. Its maxima are there and
/// never reached; its rest falls into the round.
fn sheet(random: &mut Random, case: Case) -> Sheet {
    let mut sheet = Sheet {
        method: OFFERED[0],
        rows: (0..ROWS).map(|k| row(random, k == 0, case)).collect(),
        vehicles: vec![vehicle(case)],
        distances: Vec::new(),
        times: None,
    };
    let legs = (0..ROWS * ROWS).map(|k| (&sheet.rows[k / ROWS], &sheet.rows[k % ROWS]));
    let leg = |(a, b): (&Row, &Row)| f64::from(a.x - b.x).hypot(f64::from(a.y - b.y));
    sheet.distances = legs.map(leg).collect();
    sheet
}

fn row(random: &mut Random, depot: bool, case: Case) -> Row {
    let mut row = Row {
        x: random.below(100) as i32,
        y: random.below(100) as i32,
        demand: 1,
        marks: if depot { DEPOT } else { 0 },
        service: random.below(10) as f64,
        ..Row::default()
    };
    if case.windows && !depot {
        row.marks |= WINDOW;
        (row.ready, row.due) = (random.below(60 * case.stops) as f64, 1e6);
    }
    row
}

fn vehicle(case: Case) -> Vehicle {
    let plain = Vehicle {
        id: 7,
        capacity: 1000,
        marks: MAX_DISTANCE | MAX_DURATION,
        cost_per_distance: 1.0,
        max_distance: 1e9,
        max_duration: 1e9,
        ..Vehicle::default()
    };
    if !case.rest {
        return plain;
    }
    Vehicle {
        marks: plain.marks | REST,
        earliest: 25.0 * case.stops as f64,
        latest: 1e8,
        rest_duration: 30.0,
        ..plain
    }
}
