//! `compare slowest`: climbs towards the sheet of 101 rows that takes the planner longest, or
//! towards the sheet and plan in that take the limiter longest.
//!
//! Sheets are drawn for a share of the time; the slowest few are then varied, each for a share,
//! and the slowest of them for what is left. Times are of this thread alone on the processor, the
//! least of several calls, and two sheets are compared by calling them in turn: the rest of the
//! machine's work then meets both.

use std::hint::black_box;
use std::path::Path;
use std::process::ExitCode;
use std::time::{Duration, Instant};
use std::{fs, io};

use crate::plan::{encode_chains, plan_len};
use crate::planner;
use crate::random::Random;
use crate::reference;
use crate::refusal::METHODS;
use crate::sheet::Sheet;
use crate::slow_limits::Limit;
use crate::slow_starts::start;
use crate::vary::vary;

/// How many of the sheets drawn are timed again, and how many of those are varied.
const DRAWN: usize = 24;
const CLIMBED: usize = 4;
/// Calls of a first look, of one that decides, and of the last; fewer where a look gets long.
const GLANCE: usize = 3;
const LOOK: usize = 9;
const LAST: usize = 25;
const LONG: Duration = Duration::from_millis(500);
/// How much slower a variation has to be, so that no chance of the clock makes it so.
const SLOWER: f64 = 1.003;
const QUARTER_HOUR: f64 = 900.0;

/// A sheet, what is asked of the limiter if that is called, the bytes of both, and room for the
/// plan.
struct Call {
    sheet: Sheet,
    limit: Option<Limit>,
    bytes: Vec<u8>,
    plan_in: Vec<u8>,
    plan: Vec<u8>,
}

/// `compare slowest METHOD SECONDS SEED FILE`, a method's number or `limiter`; `None` for words that
/// mean nothing.
pub fn run(method: &str, seconds: &str, seed: &str, file: &str) -> Option<ExitCode> {
    let asked = if method == "limiter" { None } else { Some(method.parse().ok()?) };
    let seed = seed.parse().ok()?;
    let seconds = Duration::try_from_secs_f64(seconds.parse().ok()?).ok()?;
    let Some(slowest) = search(asked, seconds, &mut Random::new(seed)) else {
        eprintln!("compare: method {method} plans no sheet");
        return Some(ExitCode::from(2));
    };
    Some(kept(slowest, Path::new(file)).unwrap_or_else(|error| {
        eprintln!("compare: {file}: {error}");
        ExitCode::from(2)
    }))
}

/// By a method, or without one by the limiter.
fn search(method: Option<u8>, time: Duration, random: &mut Random) -> Option<Call> {
    let began = Instant::now();
    let mut until = began + time * 3 / 10;
    let mut climbed = Vec::new();
    for from in drawn(method, until, random) {
        until += time / 10;
        climbed.push(climb(from, until, random));
    }
    let best = slowest_first(climbed).into_iter().next()?;
    Some(climb(best, began + time, random))
}

/// The slowest few of the sheets drawn until then, measured by the first; none if that is refused.
fn drawn(method: Option<u8>, until: Instant, random: &mut Random) -> Vec<Call> {
    let mut first = Call::start(method, random);
    if first.seconds().is_none() {
        return Vec::new();
    }
    let mut slowest: Vec<(f64, Call)> = Vec::new();
    while slowest.is_empty() || Instant::now() < until {
        let mut call = Call::start(method, random);
        let times = least(&mut [&mut call, &mut first], GLANCE);
        slowest.push((times[0] / times[1], call));
        slowest.sort_by(|(one, _), (other, _)| other.total_cmp(one));
        slowest.truncate(DRAWN);
    }
    let mut slowest = slowest_first(slowest.into_iter().map(|(_, call)| call).collect());
    slowest.truncate(CLIMBED);
    slowest
}

fn slowest_first(mut calls: Vec<Call>) -> Vec<Call> {
    let times = least(&mut calls.iter_mut().collect::<Vec<_>>(), LOOK);
    let mut timed: Vec<(f64, Call)> = times.into_iter().zip(calls).collect();
    timed.sort_by(|(one, _), (other, _)| other.total_cmp(one));
    timed.into_iter().map(|(_, call)| call).collect()
}

/// Takes every variation that is slower.
fn climb(mut best: Call, until: Instant, random: &mut Random) -> Call {
    while Instant::now() < until {
        let mut varied = best.varied(random);
        let mut slower = |calls, than| {
            let times = least(&mut [&mut varied, &mut best], calls);
            times[0] > than * times[1]
        };
        if slower(GLANCE, 1.0) && slower(LOOK, SLOWER) {
            best = varied;
        }
    }
    best
}

/// The least time of each, called in turn; 0 for a sheet that is refused.
fn least(calls: &mut [&mut Call], times: usize) -> Vec<f64> {
    let began = Instant::now();
    let mut least = vec![f64::INFINITY; calls.len()];
    for turn in 0..times {
        if turn > 0 && began.elapsed() > LONG {
            break;
        }
        for (least, call) in least.iter_mut().zip(&mut *calls) {
            *least = least.min(call.seconds().unwrap_or(0.0));
        }
    }
    least
}

impl Call {
    fn new(sheet: Sheet, limit: Option<Limit>) -> Call {
        let rows = sheet.rows.len();
        let plan_in = limit.as_ref().map_or(vec![], |it| encode_chains(rows, &it.chains));
        Call { bytes: sheet.encode(), plan: vec![0; plan_len(rows)], sheet, limit, plan_in }
    }

    fn start(method: Option<u8>, random: &mut Random) -> Call {
        let Some(method) = method else {
            let (sheet, limit) = Limit::start(random);
            return Call::new(sheet, Some(limit));
        };
        Call::new(start(method, random), None)
    }

    /// A few changes of the sheet or of the plan in.
    fn varied(&self, random: &mut Random) -> Call {
        let (mut sheet, mut limit) = (self.sheet.clone(), self.limit.clone());
        for _ in 0..random.pick(&[1, 1, 2, 4, 16]) {
            match &mut limit {
                Some(limit) if random.one_in(3) => limit.vary(&sheet, random),
                _ => vary(&mut sheet, random),
            }
        }
        Call::new(sheet, limit)
    }

    /// `None` for a call that is refused.
    fn seconds(&mut self) -> Option<f64> {
        let Call { limit, bytes, plan_in, plan, .. } = self;
        let began = processor_time();
        let answer = black_box(match limit {
            None => planner::plan(bytes, plan),
            Some(limit) => planner::limit(bytes, plan_in, limit.greatest, plan),
        });
        (answer == 0).then(|| processor_time() - began)
    }
}

/// Says how long the call takes, holds its plan to the Rust's, and writes it down, a plan in beside
/// its sheet.
fn kept(mut slowest: Call, file: &Path) -> io::Result<ExitCode> {
    let seconds = least(&mut [&mut slowest], LAST)[0];
    let Call { sheet, limit, bytes, plan_in, plan } = slowest;
    let began = processor_time();
    let made = match &limit {
        None => reference::plan_by_rust(METHODS, &bytes),
        Some(limit) => reference::limit(&bytes, &plan_in, limit.greatest),
    };
    let rust = processor_time() - began;
    let right = if limit.is_some() { made } else { reference::plan(METHODS, &bytes) };
    let same = right == Ok(plan);
    println!(
        "slowest: {}, {} rows, {} depots: {:.3} ms, the Rust {:.3} ms; {}",
        limit.as_ref().map_or(format!("method {}", sheet.method), Limit::told),
        sheet.rows.len(),
        sheet.depots(),
        1e3 * seconds,
        1e3 * rust,
        if same { "the same plan" } else { "ANOTHER PLAN" }
    );
    println!("slowest: a quarter hour holds it {:.1} thousand times", QUARTER_HOUR / seconds / 1e3);
    fs::write(file, &bytes)?;
    println!("slowest: {} bytes written to {}", bytes.len(), file.display());
    if limit.is_some() {
        let beside = file.with_extension("plan");
        fs::write(&beside, &plan_in)?;
        println!("slowest: its plan in written to {}", beside.display());
    }
    Ok(if same { ExitCode::SUCCESS } else { ExitCode::FAILURE })
}

#[repr(C)]
struct Timespec {
    seconds: i64,
    nanoseconds: i64,
}

extern "C" {
    fn clock_gettime(clock: i32, time: *mut Timespec) -> i32;
}

/// What this thread has had of the processor, in seconds.
fn processor_time() -> f64 {
    const THREAD: i32 = 3;
    let mut time = Timespec { seconds: 0, nanoseconds: 0 };
    // SAFETY: the pointer is that of a value that outlives the call and is laid out as C's.
    let told = unsafe { clock_gettime(THREAD, &mut time) };
    assert_eq!(told, 0, "the thread's clock");
    time.seconds as f64 + 1e-9 * time.nanoseconds as f64
}
