//! `compare rounds`: what the port says of single rounds against the Rust's `route_feasible`,
//! `route_eval` and `build_route`, every figure by its bits.
//!
//! Windows, rests, maxima and depots' dues of a sheet are set to what some of its rounds reach, or
//! one step beside it, so that every comparison is tried at the tie. Stops are never depots: of a
//! depot row the two sides read different service and demand.

use std::collections::BTreeMap;
use std::process::ExitCode;

use u_routing::evaluation::{route_feasible, RouteEval, RouteLimits};
use u_routing::models::{Route, Vehicle};

use crate::fit::{fit_home, fit_maximum, fit_rest, fit_window, Round};
use crate::generate::sheet_of;
use crate::plan::plan_len;
use crate::planner::{probe_figure, probe_rounds};
use crate::random::Random;
use crate::reference::Problem;
use crate::refusal::{refusal, MOST_ROWS};
use crate::sheet::Sheet;
use crate::sheet::{MAX_DISTANCE, MAX_DURATION, PENALTY, REST, WINDOW};

/// Rounds of one sheet, and those of them that it is fitted to.
const ROUNDS: usize = 16;
const GUIDES: usize = 4;
/// One sheet in so many has about 100 rows.
const LARGE: usize = 200;
/// Stops of most rounds, and of all.
const USUAL: usize = 12;
const MOST_STOPS: usize = 100;
/// Differences that are shown whole.
const SHOWN: usize = 3;

/// How a sheet's numbers are drawn: as whole numbers, tenths or thirds, or as the generator does.
pub const FLAVOURS: [&str; 4] = ["whole", "tenths", "thirds", "any"];

/// What rounds there were; each kind has to occur in each flavour.
const KINDS: [&str; 23] = [
    "feasible",
    "not feasible",
    "rest placed",
    "rest placed after the first stop",
    "rest not needed",
    "rest impossible",
    "late at a soft window",
    "arrival = due",
    "arrival one step after due",
    "ready one step after arrival",
    "rest starts at latest",
    "arrival one step after latest",
    "return = earliest",
    "return one step after earliest",
    "distance = maximum",
    "distance one step over",
    "duration = maximum",
    "duration one step over",
    "duration = the depot's due",
    "duration one step after it",
    "times of their own",
    "a stop twice",
    "over 12 stops",
];

#[derive(Default)]
struct Tally {
    rounds: usize,
    differences: usize,
    turned_back: usize,
    kinds: [[usize; FLAVOURS.len()]; KINDS.len()],
}

/// A sheet in both sides' forms.
struct Case {
    flavour: usize,
    times: bool,
    bytes: Box<[u8]>,
    problem: Problem,
    /// Of each vehicle's depot.
    dues: Vec<Option<f64>>,
}

pub fn run(count: usize, seed: u64) -> ExitCode {
    println!("rounds: seed {seed}");
    let mut random = Random::new(seed);
    let mut tally = Tally::default();
    while tally.rounds < count {
        tally.try_sheet(&mut random);
    }
    println!("  {:32} {}", "", FLAVOURS.map(|name| format!("{name:>9}")).concat());
    for (kind, counts) in KINDS.iter().zip(tally.kinds) {
        println!("  {kind:32} {}", counts.map(|n| format!("{n:>9}")).concat());
    }
    println!("  questions turned back: {}", tally.turned_back);
    let missing = tally.turned_back == 0 || tally.kinds.as_flattened().contains(&0);
    if missing {
        println!("  a kind never occurred, so nothing is shown of it");
    }
    println!("rounds: {} rounds, {} differences", tally.rounds, tally.differences);
    ExitCode::from(u8::from(missing || tally.differences > 0))
}

impl Tally {
    fn try_sheet(&mut self, random: &mut Random) {
        let flavour = random.below(FLAVOURS.len());
        let mut sheet = sheet(random, flavour);
        let mut rounds: Vec<Round> = (0..GUIDES).map(|_| Round::new(&sheet, random)).collect();
        let rests = random.one_in(2);
        for guide in &rounds {
            for _ in 0..random.below(5) {
                if rests && random.one_in(2) {
                    fit_rest(&mut sheet, guide, random);
                } else {
                    fit_window(&mut sheet, guide, random);
                }
            }
        }
        for guide in &rounds {
            fit_maximum(&mut sheet, guide, random);
        }
        if random.one_in(3) {
            fit_home(&mut sheet, &rounds[random.below(GUIDES)], random);
        }
        while rounds.len() < ROUNDS {
            let round = match random.below(2) {
                0 => Round::new(&sheet, random),
                _ => rounds[random.below(GUIDES)].varied(&sheet, random),
            };
            rounds.push(round);
        }
        let problem = Problem::held(&sheet);
        let (times, bytes) = (sheet.times.is_some(), sheet.encode().into());
        let dues = sheet.vehicles.iter().map(|vehicle| sheet.home_due(vehicle)).collect();
        let case = Case { flavour, times, bytes, problem, dues };
        assert_eq!(refusal(&case.bytes, plan_len(sheet.rows.len())), 0, "an accepted sheet");
        for round in &rounds {
            self.try_round(&case, round);
        }
        self.try_together(&case, &rounds);
        self.try_wrong(&case, random);
    }

    /// Every figure of one round.
    fn try_round(&mut self, case: &Case, round: &Round) {
        self.rounds += 1;
        let answers = Answers::of(case, round);
        for kind in answers.kinds(case, round) {
            self.kinds[kind][case.flavour] += 1;
        }
        if let Some(wrong) = wrong_figure(&case.bytes, round, &answers.figures()) {
            self.differ(case, round, &wrong);
        }
    }

    fn try_together(&mut self, case: &Case, rounds: &[Round]) {
        for (round, wrong) in wrong_counts(&case.bytes, rounds, |round| case.feasible(round)) {
            self.differ(case, round, &wrong);
        }
    }

    /// Questions that are not right.
    fn try_wrong(&mut self, case: &Case, random: &mut Random) {
        let (rows, vehicles) = (case.problem.customers.len(), case.problem.vehicles.len());
        let sheet = &case.bytes[..];
        let row = (rows + random.below(3)) as u16;
        let short = &sheet[..sheet.len() - 1 - random.below(16)];
        let long = vec![0; MOST_ROWS + 1];
        let counts = [
            probe_rounds(sheet, &[0], 0, 0),
            probe_rounds(sheet, &long, long.len(), 0),
            probe_rounds(sheet, &[0, 0, 0], 2, 0),
            probe_rounds(sheet, &[0, row], 2, 0),
            probe_rounds(sheet, &[0], 1, vehicles),
            probe_rounds(short, &[0], 1, 0),
        ];
        let figures = [
            probe_figure(sheet, &long, 0, 0),
            probe_figure(sheet, &[0, row], 0, 0),
            probe_figure(sheet, &[0], vehicles, 0),
            probe_figure(short, &[0], 0, 0),
            probe_figure(sheet, &[0], 0, 16),
        ];
        self.turned_back += counts.len() + figures.len();
        if counts.iter().any(Option::is_some) || figures.iter().any(|&figure| figure != -2.0) {
            let round = Round { vehicle: 0, stops: vec![] };
            self.differ(case, &round, &format!("not turned back: {counts:?} {figures:?}"));
        }
    }

    fn differ(&mut self, case: &Case, round: &Round, what: &str) {
        self.differences += 1;
        if self.differences <= SHOWN {
            show(what, &case.bytes, round);
        }
    }
}

pub fn show(what: &str, sheet: &[u8], round: &Round) {
    let hex: String = sheet.iter().map(|byte| format!("{byte:02x}")).collect();
    let Round { vehicle, stops } = round;
    println!("difference: {what}; vehicle {vehicle}, stops {stops:?}, sheet {hex}");
}

/// The first figure that the port gives otherwise.
pub fn wrong_figure(sheet: &[u8], round: &Round, figures: &[f64]) -> Option<String> {
    let rows = round.rows();
    figures.iter().enumerate().find_map(|(which, right)| {
        let said = probe_figure(sheet, &rows, round.vehicle, which);
        let (said, right) = (said.to_bits(), right.to_bits());
        (said != right).then(|| format!("figure {which} is {said:016x}, not {right:016x}"))
    })
}

/// `route_feasible` of many rounds in one call: those of one vehicle, one length and one answer, so
/// that no two errors make up for each other. What the port answers otherwise is told of each round.
pub fn wrong_counts<'a>(
    sheet: &[u8],
    rounds: &'a [Round],
    feasible: impl Fn(&Round) -> bool,
) -> Vec<(&'a Round, String)> {
    let mut groups: BTreeMap<(usize, usize, bool), Vec<&Round>> = BTreeMap::new();
    for round in rounds.iter().filter(|round| !round.stops.is_empty()) {
        let key = (round.vehicle, round.stops.len(), feasible(round));
        groups.entry(key).or_default().push(round);
    }
    let mut wrong = Vec::new();
    for ((vehicle, len, feasible), group) in groups {
        let passed = |rounds: &[&Round]| {
            let rows: Vec<u16> = rounds.iter().flat_map(|round| round.rows()).collect();
            probe_rounds(sheet, &rows, len, vehicle)
        };
        let right = |count: usize| Some(if feasible { count } else { 0 });
        if passed(&group) == right(group.len()) {
            continue;
        }
        let before = wrong.len();
        let alone = group.iter().filter(|&&round| passed(&[round]) != right(1));
        wrong.extend(alone.map(|&round| (round, format!("feasible is {}", !feasible))));
        if wrong.len() == before {
            wrong.push((group[0], "a wrong count of this round and others".into()));
        }
    }
    wrong
}

/// A sheet with a vehicle and a stop, its numbers drawn anew as the flavour says.
pub fn sheet(random: &mut Random, flavour: usize) -> Sheet {
    let rows =
        if random.one_in(LARGE) { MOST_ROWS - random.below(4) } else { 2 + random.below(11) };
    let vehicles = 1 + random.below(3);
    let mut sheet = sheet_of(random, rows, vehicles);
    while sheet.depots() == rows {
        sheet = sheet_of(random, rows, vehicles);
    }
    if FLAVOURS[flavour] != "any" {
        renumber(&mut sheet, random, flavour);
    }
    sheet
}

fn number(random: &mut Random, flavour: usize) -> f64 {
    match FLAVOURS[flavour] {
        "tenths" => random.below(600) as f64 * 0.1,
        "thirds" => random.below(180) as f64 / 3.0,
        _ => random.below(60) as f64,
    }
}

/// Draws every number that a walk reads. What is marked stays marked.
fn renumber(sheet: &mut Sheet, random: &mut Random, flavour: usize) {
    let given = |marked: bool, x: f64| if marked { x } else { 0.0 };
    for row in &mut sheet.rows {
        let [ready, wide] = [4.0, 8.0].map(|legs| legs * number(random, flavour));
        let window = row.marks & WINDOW != 0;
        row.service = number(random, flavour);
        row.ready = given(window, ready);
        row.due = given(window, ready + wide);
        row.penalty = given(row.marks & PENALTY != 0, number(random, flavour));
    }
    for vehicle in &mut sheet.vehicles {
        let [earliest, wide, long] = [2.0, 4.0, 1.0].map(|legs| legs * number(random, flavour));
        let rest = vehicle.marks & REST != 0;
        vehicle.earliest = given(rest, earliest);
        vehicle.latest = given(rest, earliest + wide);
        vehicle.rest_duration = given(rest, long);
        let [distance, duration] = [8.0, 16.0].map(|legs| legs * number(random, flavour));
        vehicle.max_distance = given(vehicle.marks & MAX_DISTANCE != 0, distance);
        vehicle.max_duration = given(vehicle.marks & MAX_DURATION != 0, duration);
    }
    let entries = sheet.distances.iter_mut().chain(sheet.times.iter_mut().flatten());
    entries.for_each(|entry| *entry = number(random, flavour));
}

impl Case {
    fn driver(&self, round: &Round) -> &Vehicle {
        &self.problem.vehicles[round.vehicle]
    }

    fn feasible(&self, round: &Round) -> bool {
        let driver = self.driver(round);
        let Problem { customers, distances, .. } = &self.problem;
        let limits = RouteLimits::of(driver);
        route_feasible(&round.stops, driver.depot_id(), distances, customers, &limits)
    }
}

impl Round {
    /// Stops in any order, some of them twice.
    pub fn new(sheet: &Sheet, random: &mut Random) -> Round {
        let most = if random.one_in(16) { MOST_STOPS.min(2 * sheet.rows.len()) } else { USUAL };
        let count = random.below(most + 1);
        Round {
            vehicle: random.below(sheet.vehicles.len()),
            stops: (0..count).map(|_| stop(sheet, random)).collect(),
        }
    }

    /// A stop more or less, two stops in each other's place, or another vehicle.
    pub fn varied(&self, sheet: &Sheet, random: &mut Random) -> Round {
        let mut round = self.clone();
        let count = round.stops.len();
        match random.below(4) {
            0 => round.vehicle = random.below(sheet.vehicles.len()),
            1 if count < MOST_STOPS => {
                round.stops.insert(random.below(count + 1), stop(sheet, random));
            }
            2 if count > 0 => _ = round.stops.remove(random.below(count)),
            3 if count > 0 => round.stops.swap(random.below(count), random.below(count)),
            _ => {}
        }
        round
    }

    fn rows(&self) -> Vec<u16> {
        self.stops.iter().map(|&stop| stop as u16).collect()
    }
}

fn stop(sheet: &Sheet, random: &mut Random) -> usize {
    sheet.depots() + random.below(sheet.rows.len() - sheet.depots())
}

/// In the order of the port's numbers.
pub fn figures(eval: Option<RouteEval>, route: &Route) -> Vec<f64> {
    let rest = |rest: Option<(usize, f64)>| {
        rest.map_or([0.0, 0.0], |(index, start)| [(index + 1) as f64, start])
    };
    let eval = eval.map_or([-1.0; 6], |eval| {
        let [place, start] = rest(eval.rest);
        [eval.distance, eval.duration, eval.lateness, eval.lateness_cost, place, start]
    });
    let [place, start] = rest(route.rest());
    let (lateness, cost) = (route.total_lateness(), route.lateness_cost());
    let load = f64::from(route.total_load());
    let built =
        [route.total_distance(), route.total_duration(), lateness, cost, place, start, load];
    let visits = route
        .visits()
        .iter()
        .flat_map(|visit| [visit.arrival_time, visit.departure_time, f64::from(visit.load_after)]);
    eval.into_iter().chain(built).chain(visits).collect()
}

/// The Rust's answers on a round: for its vehicle, and for one that rests as it does and has no
/// maxima, and for one that need not rest either.
struct Answers {
    feasible: bool,
    eval: Option<RouteEval>,
    rested: Option<RouteEval>,
    free: Option<RouteEval>,
    route: Route,
}

impl Answers {
    fn of(case: &Case, round: &Round) -> Answers {
        let driver = case.driver(round);
        let limits = RouteLimits::of(driver);
        let rest = RouteLimits { rest: limits.rest, ..RouteLimits::NONE };
        let eval = |limits| case.problem.eval(driver, &round.stops, limits);
        Answers {
            feasible: case.feasible(round),
            eval: eval(&limits),
            rested: eval(&rest),
            free: eval(&RouteLimits::NONE),
            route: case.problem.built(driver, &round.stops),
        }
    }

    fn figures(&self) -> Vec<f64> {
        figures(self.eval, &self.route)
    }

    /// The kinds that a round is of, by their places in `KINDS`.
    fn kinds(&self, case: &Case, round: &Round) -> impl Iterator<Item = usize> {
        let mut stops = round.stops.clone();
        stops.sort_unstable();
        let twice = stops.windows(2).any(|two| two[0] == two[1]);
        let told = [
            &[self.feasible, !self.feasible][..],
            &self.rests(case, round),
            &self.windows(case),
            &self.limits(case, round),
            &[case.times, twice, stops.len() > USUAL],
        ];
        told.concat().into_iter().enumerate().filter_map(|(kind, told)| told.then_some(kind))
    }

    fn rests(&self, case: &Case, round: &Round) -> [bool; 4] {
        let rests = case.driver(round).rest().is_some();
        let place = self.rested.and_then(|eval| eval.rest).map(|(index, _)| index);
        [
            place.is_some(),
            place.is_some_and(|index| index > 0),
            rests && self.rested.is_some() && place.is_none(),
            self.rested.is_none() && self.free.is_some(),
        ]
    }

    fn windows(&self, case: &Case) -> [bool; 4] {
        let hit = |at: fn(f64, f64, f64) -> bool| {
            self.route.visits().iter().any(|visit| {
                let window = case.problem.customers[visit.customer_id].time_window();
                window.is_some_and(|w| at(visit.arrival_time, w.ready(), w.due()))
            })
        };
        [
            self.eval.is_some_and(|eval| eval.lateness > 0.0),
            hit(|arrival, _, due| arrival == due),
            hit(|arrival, _, due| arrival == due.next_up()),
            hit(|arrival, ready, _| ready == arrival.next_up()),
        ]
    }

    fn limits(&self, case: &Case, round: &Round) -> [bool; 10] {
        let (driver, due) = (case.driver(round), case.dues[round.vehicle]);
        let latest = driver.rest().map(|rest| rest.latest());
        let earliest = driver.rest().map(|rest| rest.earliest());
        let home = self.free.map_or(f64::NAN, |eval| eval.duration);
        let (distance, duration) = (self.route.total_distance(), self.route.total_duration());
        let over = |limit: Option<f64>| limit.map(f64::next_up);
        let arrives = |at| self.route.visits().iter().any(|visit| Some(visit.arrival_time) == at);
        [
            latest.is_some() && self.route.rest().map(|(_, start)| start) == latest,
            arrives(over(latest)),
            Some(home) == earliest,
            Some(home) == over(earliest),
            Some(distance) == driver.max_distance(),
            Some(distance) == over(driver.max_distance()),
            Some(duration) == driver.max_duration(),
            Some(duration) == over(driver.max_duration()),
            Some(duration) == due,
            Some(duration) == over(due),
        ]
    }
}
