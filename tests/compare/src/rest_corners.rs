//! What a plan has met of rests at home, told by the records of its rounds and by the plans of sheets
//! that differ a little.

use u_routing::evaluation::RouteLimits;

use crate::corners::{Corners, LIMITER};
use crate::cross::{unmarked, Cross};
use crate::lawful::{judge, Claims};
use crate::limit_calls::Call;
use crate::plan::{chains, encode, round_at, without_reasons, Chains};
use crate::reference::Problem;
use crate::refusal::limiter_accepted;
use crate::sheet::{field, Sheet, Vehicle, HOME, INSERTION, MAX_DURATION, NEAREST, NN_TW, REST};
use crate::sheet::{SAVINGS, SWEEP};

const ALL: &[u8] = &[SAVINGS, INSERTION, NEAREST, NN_TW, SWEEP, LIMITER];
const METHODS: &[u8] = &[SAVINGS, INSERTION, NEAREST, NN_TW, SWEEP];
/// Those whose rounds have to be lawful.
const LAWFUL: &[u8] = &[SAVINGS, INSERTION, NN_TW, SWEEP];

pub const CORNERS: Corners = &[
    ("the mark changes the plan", ALL),
    ("a rest at home", ALL),
    ("such, where a window was missed", ALL),
    ("such, where a limit was passed", ALL),
    ("such, from latest on", ALL),
    ("such, up to the maximum duration", ALL),
    ("such, up to the depot's due", ALL),
    ("such, late at a soft window", ALL),
    ("such, at another depot than row 0", METHODS),
    ("such, beside an unmarked vehicle that rests", ALL),
    ("such, and a round of an unmarked vehicle", &[NEAREST, NN_TW, LIMITER]),
    ("such, and latest one step later", ALL),
    ("such, and the maximum one step later", ALL),
    ("such, and the due one step later", ALL),
    ("a rest kept that ends sooner at home", ALL),
    ("judged lawful, and without the mark not", LAWFUL),
    ("a rest at home of an empty round", &[LIMITER]),
    ("a round that cannot rest, of a marked vehicle", &[LIMITER]),
];

/// A round of a plan.
struct Record<'a> {
    vehicle: &'a Vehicle,
    stops: Vec<usize>,
    place: usize,
    start: f64,
    duration: f64,
    lateness: f64,
    due: Option<f64>,
}

impl Record<'_> {
    fn is_at_home(&self) -> bool {
        self.place == self.stops.len() + 1
    }

    fn is_at_maximum(&self) -> bool {
        self.vehicle.marks & MAX_DURATION != 0 && self.duration == self.vehicle.max_duration
    }
}

fn records<'a>(sheet: &'a Sheet, plan: &[u8]) -> Vec<Record<'a>> {
    let chains = chains(plan, sheet).expect("the Rust's plan has each stop once");
    let of = |(k, (id, stops)): (usize, (u32, Vec<usize>))| {
        let vehicle = sheet.vehicles.iter().find(|vehicle| vehicle.id == id);
        let vehicle = vehicle.expect("an id of the sheet's");
        let float = |at| f64::from_le_bytes(field(plan, round_at(k) + at));
        Record {
            vehicle,
            stops,
            place: usize::from(u16::from_le_bytes(field(plan, round_at(k) + 10))),
            start: float(48),
            duration: float(24),
            lateness: float(32),
            due: sheet.home_due(vehicle),
        }
    };
    chains.rounds.into_iter().enumerate().map(of).collect()
}

pub fn has_rest_at_home(sheet: &Sheet, plan: &[u8]) -> bool {
    records(sheet, plan).iter().any(Record::is_at_home)
}

/// Of a sheet and its plan.
pub fn planned(bytes: &[u8], right: &[u8]) -> Vec<bool> {
    let sheet = &Sheet::decode(bytes);
    let right = &without_reasons(right)[..];
    let plan = |sheet: &Sheet| encode(sheet.rows.len(), &Problem::taken(sheet).solution());
    let is_lawful = |sheet: &Sheet| judge(&sheet.encode(), right, &mut Claims::default()).is_ok();
    let shared = shared(sheet, right, &plan);
    let own = [is_lawful(sheet) && !is_lawful(&unmarked(sheet)), false, false];
    [&shared[..], &own].concat()
}

/// Of a call of the limiter that is not refused, and its plan out.
pub fn limited(call: &Call, right: &[u8]) -> Vec<bool> {
    let accepted = limiter_accepted(&call.sheet, &call.plan_in, right.len());
    let (sheet, before): (Sheet, Chains) = accepted.expect("a plan of the Rust's");
    let (right, greatest) = (&without_reasons(right)[..], call.greatest as usize);
    let plan = |sheet: &Sheet| {
        let solution = Problem::held(sheet).limited(before.clone(), greatest);
        encode(sheet.rows.len(), &solution)
    };
    let shared = shared(&sheet, right, &plan);
    let records = records(&sheet, right);
    let empty = |record: &Record| record.is_at_home() && record.stops.is_empty();
    let lost = |record: &Record| {
        let late = record.duration > record.vehicle.earliest;
        record.vehicle.marks & HOME != 0 && record.place == 0 && late
    };
    [&shared[..], &[false, records.iter().any(empty), records.iter().any(lost)]].concat()
}

/// The first corners, which plans and limited plans have in common.
fn shared(sheet: &Sheet, right: &[u8], plan: &dyn Fn(&Sheet) -> Vec<u8>) -> Vec<bool> {
    let records = records(sheet, right);
    let cross = Cross::new(sheet);
    let at_home = || records.iter().filter(|record| record.is_at_home());
    let placed = |record: &Record| {
        let driver = &cross.today.vehicles[cross.today.driver_of(record.vehicle.id)];
        let rest = RouteLimits { rest: driver.rest(), ..RouteLimits::NONE };
        cross.today.eval(driver, &record.stops, &rest).is_some()
    };
    let rests_unmarked = |vehicle: &Vehicle| vehicle.marks & (REST | HOME) == REST;
    let any_unmarked = sheet.vehicles.iter().any(rests_unmarked);
    let of_unmarked = records.iter().any(|record| rests_unmarked(record.vehicle));
    let sooner = |record: &Record| {
        let driver = &cross.today.vehicles[cross.today.driver_of(record.vehicle.id)];
        let back = cross.today.walked(driver, &record.stops).total_duration();
        let marked = record.vehicle.marks & HOME != 0 && record.place > 0;
        let in_time = back <= record.vehicle.latest;
        marked && in_time && back + record.vehicle.rest_duration < record.duration
    };
    let mut met = vec![
        plan(&unmarked(sheet)) != right,
        at_home().next().is_some(),
        at_home().any(|record| !placed(record)),
        at_home().any(placed),
        at_home().any(|record| record.start == record.vehicle.latest),
        at_home().any(Record::is_at_maximum),
        at_home().any(|record| record.due == Some(record.duration)),
        at_home().any(|record| record.lateness > 0.0),
        at_home().any(|record| record.vehicle.depot > 0),
        any_unmarked && at_home().next().is_some(),
        of_unmarked && at_home().next().is_some(),
    ];
    met.extend(stepped(sheet, plan));
    met.push(records.iter().any(sooner));
    met
}

/// Whether a round that rests at home meets a latest, a maximum duration or a due one step later than
/// the sheet's, so that the sheet's own is missed by one step.
fn stepped(sheet: &Sheet, plan: &dyn Fn(&Sheet) -> Vec<u8>) -> [bool; 3] {
    let meets = |later: &dyn Fn(&mut Sheet), is_met: &dyn Fn(&Record) -> bool| {
        let mut sheet = sheet.clone();
        later(&mut sheet);
        let plan = plan(&sheet);
        records(&sheet, &plan).iter().any(|record| record.is_at_home() && is_met(record))
    };
    let later = |x: &mut f64| *x = x.next_up();
    [
        meets(
            &|sheet| sheet.vehicles.iter_mut().for_each(|vehicle| later(&mut vehicle.latest)),
            &|record| record.start == record.vehicle.latest,
        ),
        meets(
            &|sheet| sheet.vehicles.iter_mut().for_each(|vehicle| later(&mut vehicle.max_duration)),
            &|record| record.is_at_maximum(),
        ),
        meets(
            &|sheet| {
                let depots = sheet.depots();
                sheet.rows.iter_mut().take(depots).for_each(|row| later(&mut row.due));
            },
            &|record| record.due == Some(record.duration),
        ),
    ]
}
