//! Compares the planner with the u-routing sources, built as they are, and with an implementation
//! of document 01's bytes of its own.
//!
//!     compare selftest               the harness against document 01's examples
//!     compare refusals COUNT SEED    the planner's check on COUNT sheets
//!     compare rounds COUNT SEED      the port's evaluation on COUNT rounds
//!     compare plans COUNT SEED       the planner's plans of COUNT sheets
//!     compare plan NUMBER SEED       one sheet of these again, both plans shown
//!     compare limits COUNT SEED      the limiter's plans out of COUNT calls, and of all tiny plans
//!     compare limit NUMBER SEED      one call of these again, both plans shown
//!     compare dues COUNT SEED        plans of COUNT sheets where a depot has a due, and limited ones
//!     compare rest_rounds COUNT SEED   the port's evaluation on COUNT rounds that may rest at home
//!     compare rests COUNT SEED       plans of COUNT sheets with such vehicles, and limited ones
//!     compare imports COUNT SEED     the importer's sheets of COUNT texts, and of fixed ones
//!     compare bills COUNT SEED       the bills of COUNT plans, and of all tiny ones
//!     compare deals COUNT SEED       the deals of COUNT plans, and of all tiny ones
//!     compare reasons COUNT SEED     the reasons in plans of COUNT sheets, and in limited and billed ones
//!     compare roots COUNT SEED       the importer's square root on COUNT numbers
//!     compare checked COUNT SEED     the checker of demand 3 on COUNT plans of the Rust's
//!     compare bench                  the port's route_feasible against the Rust's, timed
//!     compare bench instructions     the same, counted by valgrind
//!     compare bench SIDE CASE RUNS   one side of one case alone, for a profiler
//!     compare bench plans ..         the planner against the Rust, in the same three ways
//!     compare bench limits ..        the limiter against the Rust, likewise
//!     compare bench bills ..         bills against this harness's over the Rust's figures, likewise
//!     compare bench deals ..         deals against this harness's, likewise
//!     compare bench imports          the importer beside the harness's own, timed
//!     compare slowest METHOD SECONDS SEED FILE   a sheet that takes the planner long; for
//!                                                METHOD `limiter`, a call of that
//!     compare freeze SEED DIR        writes DIR/stdin and DIR/stdout, a sample to keep
//!     compare example DIR            writes DIR/sheet and DIR/plan, to be drawn
//!
//! build.rs says where the sources and the planner's library are looked for. The exit status is
//! 0 if all is well, 1 for a failure or a difference, 2 if the command could not be run.

#![deny(warnings)]

mod angles;
mod bench;
mod bench_asked;
mod bench_imports;
mod bench_limits;
mod bench_plans;
mod bench_sides;
mod bill_fits;
mod bill_kinds;
mod billing;
mod bills;
mod checked;
mod corners;
mod cross;
mod damage;
mod deal_fits;
mod deal_kinds;
mod dealing;
mod deals;
mod due_corners;
mod dues;
mod example;
mod figure_fits;
mod fit;
mod fit_reasons;
mod fit_return;
mod flavours;
mod freeze;
mod freeze_asked;
mod freeze_imports;
mod freeze_limits;
mod freeze_plans;
mod freeze_refusals;
mod generate;
mod greedy;
mod hard_rests;
mod import_calls;
mod import_draft;
mod import_faults;
mod import_fixed;
mod import_layout;
mod importer;
mod imports;
mod inserts;
mod joins;
mod kinds;
mod lawful;
mod lawful_reasons;
mod limit_calls;
mod limiting;
mod limits;
mod listing;
mod listings;
mod plan;
mod plan_answers;
mod plan_calls;
mod plan_damage;
mod plan_refusals;
mod planner;
mod plans;
mod points;
mod promises;
mod random;
mod reason_copies;
mod reason_corners;
mod reasoning;
mod reasons;
mod reference;
mod refusal;
mod refusals;
mod rest_corners;
mod rest_rounds;
mod rests;
mod roots;
mod rounds;
mod sample;
mod selftest;
mod selftest_asked;
mod selftest_bills;
mod selftest_deals;
mod selftest_imports;
mod selftest_reasons;
mod selftest_rests;
mod set_aside;
mod sheet;
mod slow_limits;
mod slow_starts;
mod slowest;
mod stream;
mod tiny_plans;
mod trial;
mod tried;
mod vary;
mod walked;
mod walked_kinds;
mod wrong_bills;
mod wrong_copies;
mod wrong_deals;
mod wrong_reasons;
mod wrong_rests;
mod wrong_walks;

use std::io;
use std::path::Path;
use std::process::ExitCode;

use bench_asked::Asking;
use bench_limits::Limiting;
use bench_plans::Planning;
use billing::Tariff;
use dealing::Crews;

const USAGE: &str = "usage: compare selftest | refusals COUNT SEED | rounds COUNT SEED | \
                     plans COUNT SEED | plan NUMBER SEED | checked COUNT SEED | \
                     limits COUNT SEED | limit NUMBER SEED | dues COUNT SEED | \
                     rest_rounds COUNT SEED | rests COUNT SEED | \
                     imports COUNT SEED | bills COUNT SEED | deals COUNT SEED | \
                     reasons COUNT SEED | roots COUNT SEED | \
                     listings PROGRAM COUNT SEED | \
                     bench [plans | limits | bills | deals] [instructions | SIDE CASE RUNS] | \
                     bench imports | \
                     freeze SEED DIR | example DIR | \
                     slowest METHOD SECONDS SEED FILE";

fn main() -> ExitCode {
    let words: Vec<String> = std::env::args().skip(1).collect();
    let words: Vec<&str> = words.iter().map(String::as_str).collect();
    let done = match words[..] {
        ["selftest"] => Some(selftest::run()),
        ["bench", "plans", ref words @ ..] => bench_sides::run::<Planning>(words),
        ["bench", "limits", ref words @ ..] => bench_sides::run::<Limiting>(words),
        ["bench", "bills", ref words @ ..] => bench_sides::run::<Asking<Tariff>>(words),
        ["bench", "deals", ref words @ ..] => bench_sides::run::<Asking<Crews>>(words),
        ["bench", "imports"] => Some(bench_imports::run()),
        ["bench", ref words @ ..] => bench::run(words),
        ["slowest", method, seconds, seed, file] => slowest::run(method, seconds, seed, file),
        ["refusals", count, seed] => numbers(count, seed).map(|(c, s)| refusals::run(c, s)),
        ["rounds", count, seed] => numbers(count, seed).map(|(c, s)| rounds::run(c, s)),
        ["plans", count, seed] => numbers(count, seed).map(|(c, s)| plans::run(c, s)),
        ["plan", number, seed] => numbers(number, seed).map(|(n, s)| plans::show(n, s)),
        ["limits", count, seed] => numbers(count, seed).map(|(c, s)| limits::run(c, s)),
        ["limit", number, seed] => numbers(number, seed).map(|(n, s)| limits::show(n, s)),
        ["dues", count, seed] => numbers(count, seed).map(|(c, s)| dues::run(c, s)),
        ["rests", count, seed] => numbers(count, seed).map(|(c, s)| rests::run(c, s)),
        ["rest_rounds", count, seed] => numbers(count, seed).map(|(c, s)| rest_rounds::run(c, s)),
        ["imports", count, seed] => numbers(count, seed).map(|(c, s)| imports::run(c, s)),
        ["bills", count, seed] => {
            numbers(count, seed).map(|(c, s)| plan_answers::run::<Tariff>(c, s))
        }
        ["deals", count, seed] => {
            numbers(count, seed).map(|(c, s)| plan_answers::run::<Crews>(c, s))
        }
        ["reasons", count, seed] => numbers(count, seed).map(|(c, s)| reasons::run(c, s)),
        ["roots", count, seed] => numbers(count, seed).map(|(c, s)| roots::run(c, s)),
        ["listings", program, count, seed] => {
            numbers(count, seed).map(|(c, s)| listings::run(program, c, s))
        }
        ["checked", count, seed] => numbers(count, seed).map(|(c, s)| checked::run(c, s)),
        ["freeze", seed, folder] => {
            seed.parse().ok().map(|s| written(folder, |to| freeze::run(s, to)))
        }
        ["example", folder] => Some(written(folder, example::run)),
        _ => None,
    };
    done.unwrap_or_else(|| {
        eprintln!("{USAGE}");
        ExitCode::from(2)
    })
}

fn numbers(count: &str, seed: &str) -> Option<(usize, u64)> {
    Some((count.parse().ok()?, seed.parse().ok()?))
}

fn written(folder: &str, write: impl FnOnce(&Path) -> io::Result<()>) -> ExitCode {
    match write(Path::new(folder)) {
        Ok(()) => ExitCode::SUCCESS,
        Err(error) => {
            eprintln!("compare: {folder}: {error}");
            ExitCode::from(2)
        }
    }
}
