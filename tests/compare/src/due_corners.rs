//! What a plan has met of its depots' dues, told by the Rust's plans where the dues are others.

use u_routing::models::Solution;

use crate::corners::{Corners, LIMITER};
use crate::lawful::{judge, Claims};
use crate::limit_calls::Call;
use crate::plan::{chains, encode, round_at, without_reasons};
use crate::reference::{is_held, Problem};
use crate::refusal::limiter_accepted;
use crate::sheet::{field, Sheet, Vehicle};
use crate::sheet::{DEPOT, INSERTION, MAX_DURATION, NEAREST, NN_TW, PENALTY, REST, SAVINGS};
use crate::sheet::{SWEEP, WINDOW};

const ALL: &[u8] = &[SAVINGS, INSERTION, NEAREST, NN_TW, SWEEP, LIMITER];
const METHODS: &[u8] = &[SAVINGS, INSERTION, NEAREST, NN_TW, SWEEP];
/// Those whose rounds have to be lawful.
const LAWFUL: &[u8] = &[SAVINGS, INSERTION, NN_TW, SWEEP];

pub const CORNERS: Corners = &[
    ("the due changes the plan", ALL),
    ("such a due on a soft row", ALL),
    ("such a due on row 0 without its mark", ALL),
    ("such dues of several depots, not equal", METHODS),
    ("home just at a due below the maximum", ALL),
    ("a due one step later changes the plan", ALL),
    ("row 0's due for all changes the plan", METHODS),
    ("the due changes what rests", ALL),
    ("the due changes what does not rest", &[SAVINGS, INSERTION, NN_TW, SWEEP, LIMITER]),
    ("a round later than its due", &[NEAREST, LIMITER]),
    ("such, and the due changes what rests there", &[NEAREST]),
    ("judged lawful, and without the due not", LAWFUL),
    ("a late round takes no stop, windows soft", &[LIMITER]),
    ("a stop dropped that had a place", &[LIMITER]),
];

/// So many of them are told of plans and of limited plans alike.
const SHARED: usize = 9;

/// A round of a plan, and what its vehicle is held to.
struct Record<'a> {
    round: (u32, Vec<usize>),
    vehicle: &'a Vehicle,
    duration: f64,
    due: Option<f64>,
}

impl Record<'_> {
    fn is_late(&self) -> bool {
        self.due.is_some_and(|due| self.duration > due)
    }

    /// Whether it comes home at its due, and might come later but for that.
    fn is_just_in_time(&self) -> bool {
        let limited = self.vehicle.marks & MAX_DURATION != 0;
        let below = |due| !limited || due < self.vehicle.max_duration;
        self.due.is_some_and(|due| due == self.duration && below(due))
    }
}

fn records<'a>(sheet: &'a Sheet, plan: &[u8]) -> Vec<Record<'a>> {
    let chains = chains(plan, sheet).expect("the Rust's plan has each stop once");
    let of = |(k, round): (usize, (u32, Vec<usize>))| {
        let vehicle = sheet.vehicles.iter().find(|vehicle| vehicle.id == round.0);
        let vehicle = vehicle.expect("an id of the sheet's");
        let duration = f64::from_le_bytes(field(plan, round_at(k) + 24));
        Record { round, vehicle, duration, due: sheet.home_due(vehicle) }
    };
    chains.rounds.into_iter().enumerate().map(of).collect()
}

/// A question to the Rust that can be asked with other dues.
struct Asked<'a> {
    sheet: &'a Sheet,
    /// Whether a vehicle is held to its depot's due.
    held: &'a dyn Fn(&Vehicle) -> bool,
    solution: &'a dyn Fn(&Problem) -> Solution,
}

impl Asked<'_> {
    fn due(&self, vehicle: &Vehicle) -> Option<f64> {
        self.sheet.home_due(vehicle).filter(|_| (self.held)(vehicle))
    }

    fn plan(&self, due: impl Fn(&Vehicle) -> Option<f64>) -> Vec<u8> {
        let problem = Problem::with_dues(self.sheet, due).expect("an accepted sheet");
        encode(self.sheet.rows.len(), &(self.solution)(&problem))
    }

    /// The first corners, which plans and limited plans have in common: of the plan, of that without
    /// dues, and of the plan's rounds that are held to a due.
    fn corners(&self, right: &[u8], open: &[u8], held: &[&Record]) -> [bool; SHARED] {
        let sheet = self.sheet;
        let (changed, several) = (right != open, sheet.depots() > 1);
        let with_due = || sheet.vehicles.iter().filter(|it| self.due(it).is_some());
        let soft = |it: &Vehicle| sheet.rows[it.depot as usize].marks & PENALTY != 0;
        let first = with_due().next().and_then(|it| self.due(it));
        let later = |it: &Vehicle| self.due(it).map(f64::next_up);
        let of_row_0 = sheet.home_due(&Vehicle::default());
        let all_alike = |it: &Vehicle| of_row_0.filter(|_| (self.held)(it));
        let rests = |it: &Vehicle| it.marks & REST != 0;
        let changes = |kept: &dyn Fn(&Vehicle) -> bool| {
            with_due().any(kept) && self.plan(|it| self.due(it).filter(|_| kept(it))) != open
        };
        [
            changed,
            changed && with_due().any(soft),
            changed && sheet.rows[0].marks & (DEPOT | WINDOW) == WINDOW,
            changed && several && with_due().any(|it| self.due(it) != first),
            held.iter().any(|record| record.is_just_in_time()),
            changed && self.plan(later) != right,
            changed && several && self.plan(all_alike) != right,
            changed && changes(&rests),
            changed && changes(&|it| !rests(it)),
        ]
    }
}

/// Of a sheet and its plan.
pub fn planned(bytes: &[u8], right: &[u8]) -> Vec<bool> {
    let (sheet, right) = (&Sheet::decode(bytes), &without_reasons(right)[..]);
    let is_held = |vehicle: &Vehicle| is_held(sheet.method, vehicle);
    let asked = Asked { sheet, held: &is_held, solution: &|problem| problem.solution() };
    let open = &asked.plan(|_| None);
    let records = records(sheet, right);
    let held: Vec<&Record> = records.iter().filter(|it| is_held(it.vehicle)).collect();
    let shared = asked.corners(right, open, &held);
    let late = || records.iter().filter(|record| record.is_late());
    let beside_rest = |late: &Record| {
        let there = |it: &Vehicle| it.depot == late.vehicle.depot;
        sheet.vehicles.iter().any(|it| there(it) && it.marks & REST != 0)
    };
    let is_lawful = |plan: &[u8]| judge(bytes, plan, &mut Claims::default()).is_ok();
    let own = [
        late().next().is_some(),
        right != open && late().any(beside_rest),
        right != open && is_lawful(right) && !is_lawful(open),
        false,
        false,
    ];
    [&shared[..], &own].concat()
}

/// Of a call of the limiter that is not refused, and its plan out.
pub fn limited(call: &Call, right: &[u8]) -> Vec<bool> {
    let accepted = limiter_accepted(&call.sheet, &call.plan_in, right.len());
    let (sheet, before) = &accepted.expect("a plan of the Rust's");
    let right = &without_reasons(right)[..];
    let greatest = call.greatest as usize;
    let solution = |problem: &Problem| problem.limited(before.clone(), greatest);
    let asked = Asked { sheet, held: &|_| true, solution: &solution };
    let open = &asked.plan(|_| None);
    let [left, free] = [right, open].map(|plan| records(sheet, plan));
    let made: Vec<&Record> =
        left.iter().filter(|record| !before.rounds.contains(&record.round)).collect();
    let shared = asked.corners(right, open, &made);
    let late = || left.iter().filter(|record| record.is_late());
    // With or without the due the same round is dropped first, so that a round that does not stay
    // where only one is dropped has taken a stop.
    let one_dropped = before.rounds.len() == greatest + 1;
    let takes = |late: &Record| free.iter().all(|other| other.round != late.round);
    let [aside, spared] =
        [right, open].map(|plan| chains(plan, sheet).expect("the Rust's plan").aside);
    let had_place = |stop: &usize| !before.aside.contains(stop) && !spared.contains(stop);
    let own = [
        late().next().is_some(),
        false,
        false,
        has_soft_row(sheet) && one_dropped && late().any(takes),
        aside.iter().any(had_place),
    ];
    [&shared[..], &own].concat()
}

fn has_soft_row(sheet: &Sheet) -> bool {
    let soft = WINDOW | PENALTY;
    sheet.rows.iter().any(|row| row.marks & soft == soft)
}
