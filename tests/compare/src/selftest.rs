//! `compare selftest`: the harness itself against document 01's examples, and those of document 02.

use std::fmt::Debug;
use std::process::ExitCode;

use crate::angles::{misordered, Direction};
use crate::kinds::Seen;
use crate::lawful::{judge, Claims};
use crate::listing::listing;
use crate::plan::{chains, encode_chains, plan_len, round_at, round_count, stop_at, Chains};
use crate::plans::{Exact, Expected};
use crate::reference::{limit, plan, Problem};
use crate::refusal::{accepted, limiter_accepted, refusal, METHODS, OFFERED};
use crate::selftest_asked::refusals as asked_refusals;
use crate::selftest_rests;
use crate::sheet::{field, Row, Sheet, Vehicle};
use crate::sheet::{DEPOT, INSERTION, MAX_DISTANCE, NEAREST, NN_TW, PENALTY, REST, SAVINGS};
use crate::sheet::{SWEEP, WINDOW};
use crate::{promises, selftest_bills, selftest_deals, selftest_imports, selftest_reasons};

const LISTING: &str = "\
rounds 1 aside 0
round 7 first 1 load 2 rest 0 4038000000000000 4038000000000000
stop 1 next 2 load 1 4024000000000000 4024000000000000
stop 2 next 0 load 2 402C000000000000 402C000000000000
";

#[derive(Default)]
pub struct Tally {
    run: usize,
    failed: usize,
}

impl Tally {
    pub fn expect<T: Debug + PartialEq>(&mut self, name: &str, got: T, want: T) {
        self.run += 1;
        if got != want {
            self.failed += 1;
            println!("failed: {name}: got {got:?}, want {want:?}");
        }
    }
}

pub fn run() -> ExitCode {
    let mut tally = Tally::default();
    relatives(&mut tally);
    rests(&mut tally);
    turned_back(&mut tally);
    offered(&mut tally);
    turned_back_by_limiter(&mut tally);
    limited(&mut tally);
    promised(&mut tally);
    costs(&mut tally);
    judged(&mut tally);
    dues(&mut tally);
    judged_by_due(&mut tally);
    limited_by_due(&mut tally);
    directions(&mut tally);
    explained(&mut tally);
    selftest_imports::run(&mut tally);
    selftest_rests::run(&mut tally);
    selftest_bills::run(&mut tally);
    selftest_deals::run(&mut tally);
    selftest_reasons::run(&mut tally);
    println!("selftest: {} run, {} failed", tally.run, tally.failed);
    ExitCode::from(u8::from(tally.failed > 0))
}

pub fn sheet_a(method: u8) -> Sheet {
    let row = |y, demand, marks| Row { y, demand, marks, ..Row::default() };
    let vehicle = Vehicle { id: 7, capacity: 2, cost_per_distance: 1.0, ..Vehicle::default() };
    Sheet {
        method,
        rows: vec![row(0, 0, DEPOT), row(10, 1, 0), row(-10, 1, 0)],
        vehicles: vec![vehicle],
        distances: vec![0.0, 10.0, 10.0, 10.0, 0.0, 4.0, 10.0, 4.0, 0.0],
        times: None,
    }
}

fn with_max_distance(method: u8, max_distance: f64) -> Sheet {
    let mut sheet = sheet_a(method);
    sheet.vehicles[0].marks = MAX_DISTANCE;
    sheet.vehicles[0].max_distance = max_distance;
    sheet
}

fn with_due(due: f64) -> Sheet {
    let mut sheet = sheet_a(INSERTION);
    sheet.rows[1].marks = WINDOW;
    sheet.rows[1].due = due;
    sheet
}

fn with_capacity(method: u8, capacity: i32) -> Sheet {
    let mut sheet = sheet_a(method);
    sheet.vehicles[0].capacity = capacity;
    sheet
}

fn with_rest(earliest_and_latest: f64) -> Sheet {
    let mut sheet = sheet_a(SAVINGS);
    let vehicle = &mut sheet.vehicles[0];
    vehicle.marks = REST;
    vehicle.earliest = earliest_and_latest;
    vehicle.latest = earliest_and_latest;
    vehicle.rest_duration = 5.0;
    sheet
}

fn with_depots() -> Sheet {
    let mut sheet = sheet_a(SAVINGS);
    sheet.rows[1].marks = DEPOT;
    sheet
}

type Rounds = &'static [&'static [usize]];

/// The stops of each round, then those set aside.
type Stands = (Vec<Vec<usize>>, Vec<usize>);

fn stands(plan: &[u8], sheet: &Sheet) -> Stands {
    let chains = chains(plan, sheet).expect("every stop once");
    (chains.rounds.into_iter().map(|(_, stops)| stops).collect(), chains.aside)
}

fn planned(sheet: &Sheet) -> Vec<u8> {
    plan(METHODS, &sheet.encode()).expect("an accepted sheet")
}

/// Rows 1 to 10, 14 and 15 of "Sheet A and its relatives", and the listing of the first.
fn relatives(tally: &mut Tally) {
    let cases: [(&str, Sheet, Rounds, &[usize]); 12] = [
        ("1", sheet_a(SAVINGS), &[&[1, 2]], &[]),
        ("2", sheet_a(INSERTION), &[&[2, 1]], &[]),
        ("3", sheet_a(NEAREST), &[&[1, 2]], &[]),
        ("4", sheet_a(NN_TW), &[&[1, 2]], &[]),
        ("5", sheet_a(SWEEP), &[&[2, 1]], &[]),
        ("6", with_max_distance(SAVINGS, 24.0), &[&[1, 2]], &[]),
        ("7", with_max_distance(SAVINGS, 23.0), &[&[1], &[2]], &[]),
        ("8", with_max_distance(SAVINGS, 19.0), &[], &[1, 2]),
        ("9", with_due(10.0), &[&[1, 2]], &[]),
        ("10", with_due(9.0), &[&[2]], &[1]),
        ("14", with_capacity(SAVINGS, 0), &[&[1], &[2]], &[]),
        ("15", with_capacity(INSERTION, 0), &[], &[1, 2]),
    ];
    for (name, sheet, rounds, aside) in cases {
        let rounds = rounds.iter().map(|stops| stops.to_vec()).collect();
        tally.expect(name, stands(&planned(&sheet), &sheet), (rounds, aside.to_vec()));
    }
    tally.expect("listing", listing(&sheet_a(SAVINGS).encode()), LISTING.into());
    let mut long = sheet_a(SAVINGS).encode();
    long[0] = 49;
    tally.expect("listing of 49 rows", listing(&long), "refused 2\n".into());
    long[6] = 1;
    tally.expect("listing, spare byte", listing(&long), "refused 1\n".into());
}

/// Rows 11 to 13: the round 1, 2 as the limiter leaves it, and whether it has a schedule at all,
/// which is whether savings make it.
fn rests(tally: &mut Tally) {
    let round = planned(&sheet_a(SAVINGS));
    let cases: [(&str, f64, u16, f64, f64, Stands); 3] = [
        ("11", 12.0, 1, 12.0, 31.0, (vec![vec![1, 2]], vec![])),
        ("12", 24.0, 0, 0.0, 24.0, (vec![vec![1, 2]], vec![])),
        ("13", 9.0, 0, 0.0, 24.0, (vec![], vec![1, 2])),
    ];
    for (name, at, place, start, duration, made) in cases {
        let sheet = with_rest(at);
        let limited = limit(&sheet.encode(), &round, 1).expect("a lawful plan in");
        let float = |k| f64::from_le_bytes(field(&limited, round_at(0) + k));
        let got = (u16::from_le_bytes(field(&limited, round_at(0) + 10)), float(48), float(24));
        tally.expect(name, got, (place, start, duration));
        tally.expect(name, stands(&planned(&sheet), &sheet), made);
    }
}

/// The examples of "Turned back" that planner, limiter, bill and deal share.
fn turned_back(tally: &mut Tally) {
    let sheet = sheet_a(INSERTION);
    let mut early = with_due(3.0);
    early.rows[1].ready = 4.0;
    let mut not_a_number = sheet.clone();
    not_a_number.distances[4] = f64::NAN;
    let mut elsewhere = sheet.clone();
    elsewhere.vehicles[0].depot = 1;
    let without = Sheet { vehicles: vec![], ..sheet.clone() };
    let mut rows = sheet.encode();
    rows[0] = 102;
    let mut longer = sheet.encode();
    longer.push(0);
    let examples = [
        (0, sheet.encode()),
        (1, vec![]),
        (2, rows),
        (3, Sheet { method: 5, ..sheet.clone() }.encode()),
        (4, longer),
        (5, early.encode()),
        (6, not_a_number.encode()),
        (7, elsewhere.encode()),
        (8, without.encode()),
    ];
    let round = planned(&sheet);
    for (number, bytes) in examples {
        tally.expect("planner", planner_refusal(&bytes, plan_len(3)), number);
        tally.expect("limiter", limiter_refusal(&bytes, &round, plan_len(3)), number);
        tally.expect("bill, deal", asked_refusals(&bytes, &round, 1), [number; 2]);
    }
    let bytes = sheet.encode();
    tally.expect("longer plan", planner_refusal(&bytes, plan_len(3) + 1), 4);
    tally.expect("longer plan out", limiter_refusal(&bytes, &round, plan_len(3) + 1), 4);
    tally.expect("no plan in", limiter_refusal(&bytes, &[], plan_len(3)), 4);
    tally.expect("no plan", asked_refusals(&bytes, &[], 1), [4; 2]);
}

/// Methods that are not offered are refused as 3, and no others.
fn offered(tally: &mut Tally) {
    for &method in METHODS {
        let number = if OFFERED.contains(&method) { 0 } else { 3 };
        tally.expect("offered", refusal(&sheet_a(method).encode(), plan_len(3)), number);
    }
}

/// The answer of a planner that offers every method.
fn planner_refusal(sheet: &[u8], plan_len: usize) -> u32 {
    accepted(METHODS, sheet, &[plan_len]).err().unwrap_or(0)
}

fn limiter_refusal(sheet: &[u8], plan_in: &[u8], plan_out_len: usize) -> u32 {
    limiter_accepted(sheet, plan_in, plan_out_len).err().unwrap_or(0)
}

/// 9, the limiter's own, and 10.
fn turned_back_by_limiter(tally: &mut Tally) {
    let depots = with_depots().encode();
    let round = planned(&sheet_a(SAVINGS));
    tally.expect("planner, 2 depots", planner_refusal(&depots, plan_len(3)), 0);
    tally.expect("limiter, 2 depots", limiter_refusal(&depots, &round, plan_len(3)), 9);
    tally.expect("bill, deal, a link to a depot", asked_refusals(&depots, &round, 1), [10; 2]);
    let lone = encode_chains(3, &Chains { rounds: vec![(7, vec![2])], aside: vec![] });
    tally.expect("bill, deal, 2 depots", asked_refusals(&depots, &lone, 1), [0; 2]);
    let next_of = |row| stop_at(3, row);
    let damages: [(&str, usize, u8); 7] = [
        ("next of 2 is 2", next_of(2), 2),
        ("next of 2 is 1", next_of(2), 1),
        ("a link to no stop", next_of(2), 3),
        ("a stop in no chain", next_of(1), 0),
        ("a stop set aside too", 2, 2),
        ("an unknown id", round_at(0), 8),
        ("more rounds than rows", 0, 4),
    ];
    let bytes = sheet_a(SAVINGS).encode();
    for (name, at, value) in damages {
        let mut plan = round.clone();
        plan[at] = value;
        tally.expect(name, limit(&bytes, &plan, 1), Err(10));
        tally.expect(name, asked_refusals(&bytes, &plan, round_count(&plan)), [10; 2]);
    }
}

/// What the limiter does to lawful plans.
fn limited(tally: &mut Tally) {
    let sheet = sheet_a(SAVINGS);
    let bytes = sheet.encode();
    let round = planned(&sheet);
    let apart = planned(&with_max_distance(SAVINGS, 23.0));
    tally.expect("within the limit", limit(&bytes, &apart, 2), Ok(apart.clone()));
    tally.expect("two rounds to one", limit(&bytes, &apart, 1), Ok(round.clone()));
    let none = limit(&bytes, &round, 0).expect("a lawful plan in");
    tally.expect("no round left", stands(&none, &sheet), (vec![], vec![1, 2]));
    let aside = planned(&with_max_distance(SAVINGS, 19.0));
    tally.expect("set aside before", limit(&bytes, &aside, 1), Ok(aside.clone()));
}

/// What a plan out has to keep, of plans in of sheet A where no round may be above 23.
fn promised(tally: &mut Tally) {
    let sheet = with_max_distance(SAVINGS, 23.0);
    let problem = Problem::held(&sheet);
    let plan = |rounds: Rounds, aside: &[usize]| Chains {
        rounds: rounds.iter().map(|stops| (7, stops.to_vec())).collect(),
        aside: aside.to_vec(),
    };
    let (apart, one, none) = (plan(&[&[1], &[2]], &[]), plan(&[&[2]], &[1]), plan(&[], &[1, 2]));
    let joined = plan(&[&[1, 2]], &[]);
    let cases: [(&Chains, u32, &Chains, Option<&str>); 8] = [
        (&apart, 2, &apart, None),
        (&apart, 1, &one, None),
        (&joined, 1, &joined, None),
        (&apart, 1, &apart, Some("a number of rounds")),
        (&apart, 1, &joined, Some("a round")),
        (&one, 1, &plan(&[&[1, 2]], &[]), Some("a stop set aside before")),
        (&joined, 1, &one, Some("a round that is none of the plan in")),
        (&apart, 0, &plan(&[], &[2, 1]), Some("the order of the stops set aside")),
    ];
    for (before, greatest, after, broken) in cases {
        let mut plan_out = encode_chains(3, after);
        plan_out[15] = if after.rounds.is_empty() { 0x80 } else { 0 };
        let got = promises::broken(&sheet, &problem, before, greatest, &plan_out);
        tally.expect("promised", got, broken);
    }
    let unpriced = promises::broken(&sheet, &problem, &none, 1, &encode_chains(3, &none));
    tally.expect("no round, cost 0", unpriced, Some("the cost of no round"));
    let lost = promises::broken(&sheet, &problem, &one, 1, &encode_chains(3, &plan(&[&[2]], &[])));
    tally.expect("a stop lost", lost, Some("a stop not once"));
}

/// The cost of a plan without rounds: a sum of none is -0.0, but a depot alone is not priced.
fn costs(tally: &mut Tally) {
    let cost = |plan: &[u8]| u64::from_le_bytes(field(plan, 8));
    let mut alone = sheet_a(SAVINGS);
    alone.rows.truncate(1);
    alone.distances.truncate(1);
    let unpriced = planned(&alone);
    tally.expect("cost of 1, 2", cost(&planned(&sheet_a(SAVINGS))), 24.0f64.to_bits());
    tally.expect("all aside", cost(&planned(&with_capacity(INSERTION, 0))), 1 << 63);
    tally.expect("a depot alone", cost(&unpriced), 0);
    let limited = limit(&alone.encode(), &unpriced, 0).expect("a lawful plan in");
    tally.expect("a depot alone, limited", cost(&limited), 1 << 63);
}

/// What demand 3 says of rounds of sheet A: capacity but for savings' lone ponds, and insertion's
/// clauses where there is one depot.
fn judged(tally: &mut Tally) {
    let plan = |rounds: &[&[usize]], aside: &[usize]| {
        let rounds = rounds.iter().map(|stops| (7, stops.to_vec())).collect();
        encode_chains(3, &Chains { rounds, aside: aside.to_vec() })
    };
    let mut claims = Claims::default();
    let mut keeps = |sheet: Sheet, plan: &[u8]| judge(&sheet.encode(), plan, &mut claims).is_ok();
    let (whole, apart) = (plan(&[&[2, 1]], &[]), plan(&[&[1], &[2]], &[]));
    let (aside, one_aside) = (plan(&[], &[1, 2]), plan(&[&[2]], &[1]));
    tally.expect("savings, lone", keeps(with_capacity(SAVINGS, 0), &apart), true);
    tally.expect("savings, joined", keeps(with_capacity(SAVINGS, 1), &whole), false);
    tally.expect("sweep, lone", keeps(with_capacity(SWEEP, 0), &apart), false);
    tally.expect("sweep, all aside", keeps(sheet_a(SWEEP), &aside), true);
    tally.expect("insertion", keeps(sheet_a(INSERTION), &whole), true);
    tally.expect("insertion, all aside", keeps(sheet_a(INSERTION), &aside), false);
    tally.expect("insertion, each alone", keeps(sheet_a(INSERTION), &apart), false);
    tally.expect("insertion, one aside", keeps(sheet_a(INSERTION), &one_aside), false);
    tally.expect("insertion, due 9", keeps(with_due(9.0), &one_aside), true);
    tally.expect("insertion, capacity 0", keeps(with_capacity(INSERTION, 0), &aside), true);
    let (lone, depots) = (plan(&[&[2]], &[]), Sheet { method: INSERTION, ..with_depots() });
    tally.expect("insertion, 2 depots", keeps(depots.clone(), &lone), true);
    tally.expect("insertion, 2 depots, aside", keeps(depots, &plan(&[], &[2])), true);
}

/// One stop, 10 out and 10 home, and a depot with a due.
fn lone(method: u8, due: f64) -> Sheet {
    let row = |demand, marks, due| Row { demand, marks, due, ..Row::default() };
    let vehicle = Vehicle { id: 7, capacity: 10, cost_per_distance: 1.0, ..Vehicle::default() };
    Sheet {
        method,
        rows: vec![row(0, DEPOT | WINDOW, due), row(1, 0, 0.0)],
        vehicles: vec![vehicle],
        distances: vec![0.0, 10.0, 10.0, 0.0],
        times: None,
    }
}

/// The same with a rest that the round does not need.
fn lone_rested(method: u8, due: f64) -> Sheet {
    let mut sheet = lone(method, due);
    let vehicle = &mut sheet.vehicles[0];
    vehicle.marks = REST;
    (vehicle.earliest, vehicle.latest, vehicle.rest_duration) = (20.0, 30.0, 5.0);
    sheet
}

fn lone_soft(due: f64) -> Sheet {
    let mut sheet = lone(SAVINGS, due);
    sheet.rows[0].marks |= PENALTY;
    sheet.rows[0].penalty = 1.0;
    sheet
}

fn lone_unmarked(due: f64) -> Sheet {
    let mut sheet = lone(SAVINGS, due);
    sheet.rows[0].marks = WINDOW;
    sheet
}

/// A vehicle with a rest and then one without.
fn lone_fleet(due: f64) -> Sheet {
    let mut sheet = lone_rested(NEAREST, due);
    sheet.vehicles.push(Vehicle { id: 8, ..lone(NEAREST, due).vehicles.remove(0) });
    sheet
}

/// Two depots, the first due at 9, and a stop at 5 and 6 from them.
fn lone_between(method: u8) -> Sheet {
    let mut sheet = lone(method, 9.0);
    sheet.rows.insert(1, Row { marks: DEPOT, ..Row::default() });
    sheet.vehicles.push(Vehicle { id: 8, depot: 1, ..sheet.vehicles[0].clone() });
    sheet.distances = vec![0.0, 9.0, 5.0, 9.0, 0.0, 6.0, 5.0, 6.0, 0.0];
    sheet
}

/// Request One of document 02: the round's vehicle, if there is a round.
fn dues(tally: &mut Tally) {
    let ready = |ready| {
        let mut sheet = lone(SAVINGS, 20.0);
        sheet.rows[0].ready = ready;
        sheet
    };
    let cases: [(&str, Sheet, Option<u32>); 16] = [
        ("due 19", lone(SAVINGS, 19.0), None),
        ("due 20", lone(SAVINGS, 20.0), Some(7)),
        ("due 20, ready 20", ready(20.0), Some(7)),
        ("due 19, soft", lone_soft(19.0), None),
        ("due 20, soft", lone_soft(20.0), Some(7)),
        ("due 19, row 0 unmarked", lone_unmarked(19.0), None),
        ("due 20, row 0 unmarked", lone_unmarked(20.0), Some(7)),
        ("due 19, insertion", lone(INSERTION, 19.0), None),
        ("due 19, nn_tw", lone(NN_TW, 19.0), None),
        ("due 19, sweep", lone(SWEEP, 19.0), None),
        ("due 19, nearest neighbour", lone(NEAREST, 19.0), Some(7)),
        ("due 19, such with a rest", lone_rested(NEAREST, 19.0), None),
        ("due 20, such with a rest", lone_rested(NEAREST, 20.0), Some(7)),
        ("due 19, such of two", lone_fleet(19.0), Some(8)),
        ("due 9 at the nearer depot", lone_between(SAVINGS), Some(8)),
        ("such, nearest neighbour", lone_between(NEAREST), Some(7)),
    ];
    for (name, sheet, id) in cases {
        let made = chains(&planned(&sheet), &sheet).expect("every stop once");
        let ids: Vec<u32> = made.rounds.iter().map(|(id, _)| *id).collect();
        tally.expect(name, ids, id.into_iter().collect());
    }
}

/// What demand 3 says of rounds that are home late.
fn judged_by_due(tally: &mut Tally) {
    let keeps = |sheet: &Sheet, id: u32| {
        let rows = sheet.rows.len();
        let plan = Chains { rounds: vec![(id, vec![rows - 1])], aside: vec![] };
        let plan = encode_chains(rows, &plan);
        judge(&sheet.encode(), &plan, &mut Claims::default()).is_ok()
    };
    tally.expect("judged, due 20", keeps(&lone(SAVINGS, 20.0), 7), true);
    tally.expect("judged, due 19", keeps(&lone(SAVINGS, 19.0), 7), false);
    tally.expect("judged, row 0 unmarked", keeps(&lone_unmarked(19.0), 7), false);
    tally.expect("judged, a rest", keeps(&lone_rested(NN_TW, 19.0), 7), false);
    tally.expect("judged, the nearer depot", keeps(&lone_between(SWEEP), 7), false);
    tally.expect("judged, the other depot", keeps(&lone_between(SWEEP), 8), true);
}

/// The limiter keeps a round that is late as given, and makes none.
fn limited_by_due(tally: &mut Tally) {
    let late = lone(NEAREST, 19.0);
    let plan = planned(&late);
    tally.expect("late as given", limit(&late.encode(), &plan, 1), Ok(plan));
    let apart = planned(&with_max_distance(SAVINGS, 23.0));
    for (name, due, left) in [("due 24", 24.0, vec![1, 2]), ("due 23", 23.0, vec![2])] {
        let mut sheet = sheet_a(SAVINGS);
        sheet.rows[0].marks |= WINDOW;
        sheet.rows[0].due = due;
        let limited = limit(&sheet.encode(), &apart, 1).expect("a lawful plan in");
        let (rounds, _) = stands(&limited, &sheet);
        tally.expect(name, rounds, vec![left]);
    }
}

/// The order of directions, and how rounded angles can break it.
fn directions(tally: &mut Tally) {
    let at = |x, y| Direction { x, y };
    let far = 2_000_000;
    let ascending = [
        at(-far, -1),
        at(-1, -1),
        at(0, -far),
        at(far, -1),
        at(0, 0),
        at(far, 1),
        at(far - 1, far - 2),
        at(far, far - 1),
        at(0, 1),
        at(-far, 1),
        at(-1, 0),
    ];
    let ordered = ascending.windows(2).all(|two| two[0].order(two[1]).is_lt());
    tally.expect("directions ascend", ordered, true);
    tally.expect("as angles do", misordered(&ascending, Direction::angle), None);
    let equal = [at(0, 0), at(3, 0), at(far, 0)];
    tally.expect("equal ones", misordered(&equal, Direction::angle), None);
    let apart = |at: Direction| at.angle() + at.x as f64;
    tally.expect("told apart", misordered(&equal[1..], apart), Some((0, 1)));
    let coarse = |at: Direction| f64::from(at.angle() as f32);
    tally.expect("taken as equal", misordered(&ascending[6..8], coarse), Some((0, 1)));
    let falling = |at: Direction| -at.angle();
    tally.expect("reversed", misordered(&ascending[..2], falling), Some((0, 1)));
}

/// A plan that is not the Rust's is explained only by two stops that it misorders, and only if it
/// is in their order.
fn explained(tally: &mut Tally) {
    let expected = |exact: Option<Exact>| Expected {
        right: Ok(vec![1]),
        exact,
        seen: Seen::default(),
        lost: None,
    };
    let exact = |misordered| expected(Some(Exact { plan: vec![2], misordered }));
    let verdict = |expected: &Expected, plan: u8| expected.verdict(&Ok(vec![plan])).ok();
    let got = [1, 2, 3].map(|plan| verdict(&expected(None), plan));
    tally.expect("the Rust's plan", got, [Some(false), None, None]);
    let got = [1, 2, 3].map(|plan| verdict(&exact(true), plan));
    tally.expect("the exact plan", got, [None, Some(true), None]);
    let got = [1, 2, 3].map(|plan| verdict(&exact(false), plan));
    tally.expect("no reason for another", got, [None, None, None]);
}
