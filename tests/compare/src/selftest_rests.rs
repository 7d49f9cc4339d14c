//! Examples of document 02's request Four: rests at home.

use crate::cross::Cross;
use crate::lawful::{judge, Claims};
use crate::plan::{chains, encode, encode_chains, plan_len, round_at, Chains};
use crate::reference::{limit, plan};
use crate::refusal::{refusal, METHODS};
use crate::selftest::Tally;
use crate::sheet::{field, Row, Sheet, Vehicle, DEPOT, HOME, MAX_DISTANCE, MAX_DURATION, PENALTY};
use crate::sheet::{REST, SAVINGS, WINDOW};

pub fn run(tally: &mut Tally) {
    turned_back(tally);
    planned(tally);
    limited(tally);
}

/// One stop, 10 out and 10 home, and a rest of 5 from 15 to 20 that may be taken at home.
fn lone() -> Sheet {
    let row = |demand, marks| Row { demand, marks, ..Row::default() };
    let vehicle = Vehicle {
        id: 7,
        capacity: 10,
        marks: REST | HOME,
        cost_per_distance: 1.0,
        earliest: 15.0,
        latest: 20.0,
        rest_duration: 5.0,
        ..Vehicle::default()
    };
    Sheet {
        method: SAVINGS,
        rows: vec![row(0, DEPOT), row(1, 0)],
        vehicles: vec![vehicle],
        distances: vec![0.0, 10.0, 10.0, 0.0],
        times: None,
    }
}

fn with_marks(marks: u32) -> Sheet {
    let mut sheet = lone();
    sheet.vehicles[0].marks = marks;
    if marks & REST == 0 {
        let vehicle = &mut sheet.vehicles[0];
        (vehicle.earliest, vehicle.latest, vehicle.rest_duration) = (0.0, 0.0, 0.0);
    }
    sheet
}

fn with_due(mut sheet: Sheet, row: usize, due: f64) -> Sheet {
    sheet.rows[row].marks |= WINDOW;
    sheet.rows[row].due = due;
    sheet
}

fn with_maximum(duration: f64) -> Sheet {
    let mut sheet = lone();
    sheet.vehicles[0].marks |= MAX_DURATION;
    sheet.vehicles[0].max_duration = duration;
    sheet
}

fn with_distance(distance: f64) -> Sheet {
    let mut sheet = with_due(lone(), 1, 10.0);
    sheet.vehicles[0].marks |= MAX_DISTANCE;
    sheet.vehicles[0].max_distance = distance;
    sheet
}

fn with_latest(latest: f64) -> Sheet {
    let mut sheet = with_due(lone(), 1, 10.0);
    sheet.vehicles[0].latest = latest;
    sheet
}

/// The stop due at 5 with a penalty, so that it is late without a rest too.
fn with_penalty() -> Sheet {
    let mut sheet = with_due(with_maximum(27.0), 1, 5.0);
    sheet.rows[1].marks |= PENALTY;
    sheet.rows[1].penalty = 1.0;
    sheet
}

fn turned_back(tally: &mut Tally) {
    let number = |sheet: &Sheet| refusal(&sheet.encode(), plan_len(2));
    for marks in 0..32 {
        let sheet = with_marks(marks);
        let right = marks < 16 && (marks & HOME == 0 || marks & REST != 0);
        tally.expect("vehicle marks", number(&sheet), if right { 0 } else { 7 });
    }
    let mut row = lone();
    row.rows[1].marks = HOME;
    tally.expect("row mark 8", number(&row), 5);
}

/// Of a plan's first round: rest place, rest start, duration, departure from stop 1, lateness cost.
type Figures = Option<(u16, f64, f64, f64, f64)>;

fn figures(plan: &[u8]) -> Figures {
    let float = |at| f64::from_le_bytes(field(plan, at));
    let at = round_at(0);
    let departure = float(round_at(2) + 24 + 16);
    let place = u16::from_le_bytes(field(plan, at + 10));
    (plan[0] > 0).then(|| (place, float(at + 48), float(at + 24), departure, float(at + 40)))
}

fn planned(tally: &mut Tally) {
    let unrested = Some((2, 20.0, 25.0, 10.0, 0.0));
    let before = Some((1, 15.0, 30.0, 20.0, 0.0));
    let cases: [(&str, Sheet, Figures); 14] = [
        ("the usual rest", lone(), before),
        ("stop due 10", with_due(lone(), 1, 10.0), unrested),
        ("stop due 9", with_due(lone(), 1, 9.0), None),
        ("stop due 10, unmarked", with_due(with_marks(REST), 1, 10.0), None),
        ("stop due 10, depot due 22", with_due(with_due(lone(), 1, 10.0), 0, 22.0), None),
        ("stop due 10, depot due 25", with_due(with_due(lone(), 1, 10.0), 0, 25.0), unrested),
        ("maximum duration 30", with_maximum(30.0), before),
        ("maximum duration 27", with_maximum(27.0), unrested),
        ("maximum duration 25", with_maximum(25.0), unrested),
        ("maximum duration 24", with_maximum(24.0), None),
        ("maximum distance 20", with_distance(20.0), unrested),
        ("maximum distance 19", with_distance(19.0), None),
        ("latest 19", with_latest(19.0), None),
        ("late at a soft window", with_penalty(), Some((2, 20.0, 25.0, 10.0, 5.0))),
    ];
    for (name, sheet, right) in cases {
        let bytes = sheet.encode();
        let made = plan(METHODS, &bytes).expect("an accepted sheet");
        tally.expect(name, figures(&made), right);
        let lone = Chains { rounds: vec![(7, vec![1])], aside: vec![] };
        if right.is_some() {
            let crossed = encode(2, &Cross::new(&sheet).solution(&lone));
            tally.expect("the same of the Rust as it is", figures(&crossed), right);
        }
        if sheet.rows[1].marks & PENALTY == 0 {
            let kept = judge(&bytes, &encode_chains(2, &lone), &mut Claims::default()).is_ok();
            tally.expect("judged", kept, right.is_some());
        }
    }
}

/// Rounds of the limiter as they are given.
fn limited(tally: &mut Tally) {
    let mut idle = lone();
    idle.distances[0] = 3.0;
    let vehicle = &mut idle.vehicles[0];
    (vehicle.earliest, vehicle.latest, vehicle.rest_duration) = (0.0, 5.0, 1.0);
    let left = |sheet: &Sheet, stops: Vec<usize>| {
        let aside = if stops.is_empty() { vec![1] } else { vec![] };
        let given = encode_chains(2, &Chains { rounds: vec![(7, stops)], aside });
        let out = limit(&sheet.encode(), &given, 1).expect("a lawful plan in");
        let kept = chains(&out, sheet).is_some_and(|chains| chains.rounds.len() == 1);
        figures(&out).filter(|_| kept).map(|(place, start, duration, ..)| (place, start, duration))
    };
    tally.expect("an empty round", left(&idle, vec![]), Some((1, 3.0, 4.0)));
    let mut short = idle.clone();
    short.vehicles[0].latest = 2.0;
    tally.expect("such, home after latest", left(&short, vec![]), Some((0, 0.0, 3.0)));
    let plain = with_due(lone(), 1, 9.0);
    tally.expect("a round not mended", left(&plain, vec![1]), Some((0, 0.0, 20.0)));
    let far = with_maximum(24.0);
    tally.expect("such, over a limit", left(&far, vec![1]), Some((1, 15.0, 30.0)));
    let due = with_due(lone(), 1, 10.0);
    tally.expect("a round mended", left(&due, vec![1]), Some((2, 20.0, 25.0)));
}
