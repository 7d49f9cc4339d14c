//! `compare rest_rounds`: what the port says of single rounds whose vehicles may rest at home against
//! the Rust as it is (cross.rs), every figure by its bits.
//!
//! The harness's own walk (glue/home/evaluation.rs) is held against the same, and wrong readings
//! (wrong_rests.rs) have to be told from it.

use std::process::ExitCode;

use u_routing::evaluation::RouteLimits;

use crate::cross::{Answer, Cross};
use crate::fit::{fit_window, Round};
use crate::fit_return::fit_rest_at_home;
use crate::generate::mark_rests;
use crate::plan::plan_len;
use crate::planner::PROBE;
use crate::random::Random;
use crate::reference::Problem;
use crate::refusal::refusal;
use crate::rounds::{figures, sheet, show, wrong_counts, wrong_figure, FLAVOURS};
use crate::sheet::{Sheet, HOME, MAX_DURATION};
use crate::wrong_rests::{Asked, WRONG};

/// Rounds of one sheet, and those of them that it is fitted to.
const ROUNDS: usize = 16;
const GUIDES: usize = 3;
/// Differences that are shown whole.
const SHOWN: usize = 3;

/// What rounds there were; each kind has to occur in each flavour.
const KINDS: [&str; 20] = [
    "passed today",
    "such, and sooner at home",
    "mended",
    "mended where a window was missed",
    "mended where a limit was passed",
    "not mended, a window missed unrested",
    "not mended, home after latest",
    "not mended, over a limit",
    "the rest starts at latest",
    "home one step after latest",
    "the rest ends at the maximum duration",
    "the rest ends one step over",
    "the rest ends at the depot's due",
    "the rest ends one step after it",
    "mended at the maximum distance",
    "mended, late at a soft window",
    "mended, of no stop",
    "mended, of another depot than row 0",
    "mended, beside an unmarked vehicle",
    "turned down, of an unmarked vehicle",
];

struct Tally {
    rounds: usize,
    differences: usize,
    kinds: [[usize; FLAVOURS.len()]; KINDS.len()],
    caught: [usize; WRONG.len()],
}

struct Case {
    flavour: usize,
    sheet: Sheet,
    bytes: Box<[u8]>,
    /// As the harness walks, and as the Rust does.
    problem: Problem,
    cross: Cross,
}

pub fn run(count: usize, seed: u64) -> ExitCode {
    println!("rest_rounds: seed {seed}");
    let kinds = [[0; FLAVOURS.len()]; KINDS.len()];
    let mut tally = Tally { rounds: 0, differences: 0, kinds, caught: [0; WRONG.len()] };
    let random = &mut Random::new(seed);
    while tally.rounds < count {
        tally.try_sheet(random);
    }
    tally.print();
    let missing = tally.kinds.as_flattened().contains(&0) || tally.caught.contains(&0);
    if missing {
        println!("  a kind never occurred, or a wrong reading was not told from the right one");
    }
    if !PROBE {
        println!("  the port was not asked: built without the probe");
    }
    println!("rest_rounds: {} rounds, {} differences", tally.rounds, tally.differences);
    ExitCode::from(u8::from(missing || tally.differences > 0 || !PROBE))
}

impl Tally {
    fn try_sheet(&mut self, random: &mut Random) {
        let (case, rounds) = Case::drawn(random);
        let answers: Vec<Answer> =
            rounds.iter().map(|it| case.cross.answer(it.vehicle, &it.stops)).collect();
        for (round, answer) in rounds.iter().zip(&answers) {
            self.try_round(&case, round, answer);
        }
        if PROBE {
            let passes = |round: &Round| case.feasible(round);
            for (round, wrong) in wrong_counts(&case.bytes, &rounds, passes) {
                self.differ(&case, round, &wrong);
            }
        }
    }

    fn try_round(&mut self, case: &Case, round: &Round, answer: &Answer) {
        self.rounds += 1;
        for kind in case.kinds(round, answer) {
            self.kinds[kind][case.flavour] += 1;
        }
        let right = bits(answer);
        if bits(&case.walked(round)) != right {
            self.differ(case, round, "the harness walks otherwise than the Rust");
        }
        let asked = case.asked(round);
        for (caught, (wrong, _)) in self.caught.iter_mut().zip(WRONG) {
            *caught += usize::from(bits(&asked.answer(wrong)) != right);
        }
        let figures = figures(answer.eval, &answer.route);
        if let Some(wrong) = PROBE.then(|| wrong_figure(&case.bytes, round, &figures)).flatten() {
            self.differ(case, round, &wrong);
        }
    }

    fn differ(&mut self, case: &Case, round: &Round, what: &str) {
        self.differences += 1;
        if self.differences <= SHOWN {
            show(what, &case.bytes, round);
        }
    }

    fn print(&self) {
        println!("  {:40} {}", "", FLAVOURS.map(|name| format!("{name:>9}")).concat());
        for (kind, counts) in KINDS.iter().zip(self.kinds) {
            println!("  {kind:40} {}", counts.map(|n| format!("{n:>9}")).concat());
        }
        for ((_, name), caught) in WRONG.iter().zip(self.caught) {
            println!("  wrong: {name:40} told {caught:>9} times");
        }
    }
}

fn bits(answer: &Answer) -> Vec<u64> {
    figures(answer.eval, &answer.route).into_iter().map(f64::to_bits).collect()
}

impl Case {
    fn drawn(random: &mut Random) -> (Case, Vec<Round>) {
        let flavour = random.below(FLAVOURS.len());
        let mut sheet = sheet(random, flavour);
        mark_rests(&mut sheet, random);
        let mut rounds: Vec<Round> = (0..GUIDES).map(|_| Round::new(&sheet, random)).collect();
        if random.one_in(4) {
            rounds[0].stops.clear();
        }
        for guide in &rounds {
            for _ in 0..random.below(3) {
                fit_window(&mut sheet, guide, random);
            }
            fit_rest_at_home(&mut sheet, guide, random);
            if random.one_in(6) {
                sheet.vehicles[guide.vehicle].marks &= !HOME;
            }
        }
        while rounds.len() < ROUNDS {
            let round = match random.below(4) {
                0 => Round::new(&sheet, random),
                _ => rounds[random.below(GUIDES)].varied(&sheet, random),
            };
            rounds.push(round);
        }
        let bytes: Box<[u8]> = sheet.encode().into();
        assert_eq!(refusal(&bytes, plan_len(sheet.rows.len())), 0, "an accepted sheet");
        let (problem, cross) = (Problem::held(&sheet), Cross::new(&sheet));
        (Case { flavour, sheet, bytes, problem, cross }, rounds)
    }

    /// The harness's own answer.
    fn walked(&self, round: &Round) -> Answer {
        let driver = &self.problem.vehicles[round.vehicle];
        let limits = RouteLimits::of(driver);
        Answer {
            eval: self.problem.eval(driver, &round.stops, &limits),
            route: self.problem.built(driver, &round.stops),
        }
    }

    fn feasible(&self, round: &Round) -> bool {
        self.cross.answer(round.vehicle, &round.stops).eval.is_some()
    }

    fn asked<'a>(&'a self, round: &'a Round) -> Asked<'a> {
        let vehicle = &self.sheet.vehicles[round.vehicle];
        let own = vehicle.marks & MAX_DURATION != 0;
        Asked {
            cross: &self.cross,
            round,
            max_duration: own.then_some(vehicle.max_duration),
            due: self.sheet.home_due(vehicle),
        }
    }

    /// The kinds that a round is of, by their places in `KINDS`.
    fn kinds(&self, round: &Round, answer: &Answer) -> impl Iterator<Item = usize> {
        let told = match self.cross.is_marked(round.vehicle) {
            true => self.told(round, answer),
            false => {
                let mut told = [false; KINDS.len()];
                told[KINDS.len() - 1] = answer.eval.is_none();
                told
            }
        };
        told.into_iter().enumerate().filter_map(|(kind, told)| told.then_some(kind))
    }

    /// Of a marked vehicle's round.
    fn told(&self, round: &Round, answer: &Answer) -> [bool; KINDS.len()] {
        let Round { vehicle, stops } = round;
        let today = &self.cross.today;
        let driver = &today.vehicles[*vehicle];
        let rest = driver.rest().expect("a marked vehicle has a rest");
        let eval = |limits: &RouteLimits| today.eval(driver, stops, limits);
        let placed = eval(&RouteLimits { rest: Some(rest), ..RouteLimits::NONE });
        let walked = eval(&RouteLimits::NONE);
        let passed = self.cross.answer_today(*vehicle, stops).eval;
        let mended = passed.is_none() && answer.eval.is_some();
        // What resting at home comes to, of a round that is turned down and misses no window.
        let down = walked.filter(|_| passed.is_none());
        let back = walked.map_or(f64::NAN, |eval| eval.duration);
        let distance = walked.map_or(f64::NAN, |eval| eval.distance);
        let end = back.max(rest.earliest()) + rest.duration();
        let in_time = back.max(rest.earliest()) <= rest.latest();
        let limits = RouteLimits::of(driver);
        let (own, due) = (self.asked(round).max_duration, self.asked(round).due);
        let over = |limit: Option<f64>| limit.map(f64::next_up) == Some(end);
        let far = limits.max_distance.is_some_and(|most| distance > most);
        let rested = passed.is_some_and(|eval| eval.rest.is_some());
        let marked = |k: usize| self.cross.is_marked(k);
        [
            passed.is_some(),
            rested && passed.is_some_and(|eval| end < eval.duration) && in_time,
            mended,
            mended && placed.is_none(),
            mended && placed.is_some(),
            passed.is_none() && walked.is_none(),
            down.is_some() && !in_time,
            down.is_some() && in_time && !mended,
            mended && back == rest.latest(),
            down.is_some() && back == rest.latest().next_up() && limits.allow(distance, end),
            mended && own == Some(end),
            down.is_some() && in_time && !far && over(own),
            mended && due == Some(end),
            down.is_some() && in_time && !far && over(due),
            mended && limits.max_distance == Some(distance),
            mended && answer.route.total_lateness() > 0.0,
            mended && stops.is_empty(),
            mended && driver.depot_id() > 0,
            mended && !(0..today.vehicles.len()).all(marked),
            false,
        ]
    }
}
