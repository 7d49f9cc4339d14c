//! Examples of document 02's request Six: why a stop is set aside.

use crate::lawful::Claims;
use crate::lawful_reasons::judge_plan;
use crate::plan::{encode_chains, put_reason, reasons, round_count, Chains};
use crate::reference::{limit, plan};
use crate::refusal::METHODS;
use crate::selftest::{sheet_a, Tally};
use crate::selftest_asked::refusals;
use crate::sheet::{
    Row, Sheet, Vehicle, DEPOT, HOME, INSERTION, MAX_DISTANCE, MAX_DURATION, NEAREST,
};
use crate::sheet::{NN_TW, PENALTY, REST, SAVINGS, SWEEP, WINDOW};

pub fn run(tally: &mut Tally) {
    of_lone_stops(tally);
    of_fleets(tally);
    of_depots(tally);
    copied(tally);
    turned_back(tally);
}

/// One stop, 10 out and 10 home, of demand 1, and one vehicle of capacity 10.
fn lone(method: u8) -> Sheet {
    let row = |demand, marks| Row { demand, marks, ..Row::default() };
    let vehicle = Vehicle { id: 7, capacity: 10, cost_per_distance: 1.0, ..Vehicle::default() };
    Sheet {
        method,
        rows: vec![row(0, DEPOT), row(1, 0)],
        vehicles: vec![vehicle],
        distances: vec![0.0, 10.0, 10.0, 0.0],
        times: None,
    }
}

/// What is set on it.
#[derive(Clone, Copy)]
enum Set {
    Capacity(i32),
    Due(f64),
    Soft(f64),
    Ready(f64),
    Gate(f64),
    Rest(f64, f64, f64),
    AtHome,
    Distance(f64),
    Duration(f64),
}
use Set::{AtHome, Capacity, Distance, Due, Duration, Gate, Ready, Rest, Soft};

fn with(method: u8, sets: &[Set]) -> Sheet {
    let mut sheet = lone(method);
    sets.iter().for_each(|set| set.on(&mut sheet));
    sheet
}

impl Set {
    fn on(self, sheet: &mut Sheet) {
        let Sheet { rows, vehicles, .. } = sheet;
        let [gate, row] = &mut rows[..] else { unreachable!("two rows") };
        let vehicle = &mut vehicles[0];
        match self {
            Capacity(capacity) => vehicle.capacity = capacity,
            Due(due) => (row.marks, row.due) = (row.marks | WINDOW, due),
            Soft(due) => (row.marks, row.due, row.penalty) = (WINDOW | PENALTY, due, 1.0),
            Ready(ready) => (row.marks, row.ready, row.due) = (WINDOW, ready, 1000.0),
            Gate(due) => (gate.marks, gate.due) = (gate.marks | WINDOW, due),
            Rest(earliest, latest, duration) => {
                vehicle.marks |= REST;
                (vehicle.earliest, vehicle.latest, vehicle.rest_duration) =
                    (earliest, latest, duration);
            }
            AtHome => vehicle.marks |= HOME,
            Distance(most) => {
                (vehicle.marks, vehicle.max_distance) = (vehicle.marks | MAX_DISTANCE, most);
            }
            Duration(most) => {
                (vehicle.marks, vehicle.max_duration) = (vehicle.marks | MAX_DURATION, most);
            }
        }
    }
}

/// The reason of the last stop as the plan has it, 0 where a round serves it; in whole numbers too.
fn told(tally: &mut Tally, name: &str, sheet: &Sheet, want: u16) {
    let bytes = sheet.encode();
    let made = plan(METHODS, &bytes).expect("an accepted sheet");
    tally.expect(name, reasons(&made).last().copied(), Some(want));
    tally.expect(name, judge_plan(&bytes, &made, &mut Claims::default()), Ok(()));
}

fn of_lone_stops(tally: &mut Tally) {
    let cases: [(&str, u8, &[Set], u16); 46] = [
        ("capacity 1", INSERTION, &[Capacity(1)], 0),
        ("capacity 0", INSERTION, &[Capacity(0)], 2),
        ("such, nearest neighbour", NEAREST, &[Capacity(0)], 2),
        ("such, nn_tw", NN_TW, &[Capacity(0)], 2),
        ("such, sweep", SWEEP, &[Capacity(0)], 2),
        ("such, savings", SAVINGS, &[Capacity(0)], 0),
        ("capacity 0, distance 19", INSERTION, &[Capacity(0), Distance(19.0)], 2),
        ("such, savings", SAVINGS, &[Capacity(0), Distance(19.0)], 5),
        ("due 10", SAVINGS, &[Due(10.0)], 0),
        ("due 9", SAVINGS, &[Due(9.0)], 3),
        ("due 9, capacity 0", SWEEP, &[Due(9.0), Capacity(0)], 2),
        ("due 9, distance 19", SWEEP, &[Due(9.0), Distance(19.0)], 3),
        ("due 9, nearest neighbour", NEAREST, &[Due(9.0)], 0),
        ("such with a distance of 19", NEAREST, &[Due(9.0), Distance(19.0)], 5),
        ("such with a rest", NEAREST, &[Due(9.0), Rest(15.0, 20.0, 5.0)], 3),
        ("soft due 5, duration 19", NN_TW, &[Soft(5.0), Duration(19.0)], 6),
        ("rest to 5, due 15", SAVINGS, &[Rest(0.0, 20.0, 5.0), Due(15.0)], 0),
        ("rest to 5, due 10", SAVINGS, &[Rest(0.0, 20.0, 5.0), Due(10.0)], 4),
        ("such, nearest neighbour", NEAREST, &[Rest(0.0, 20.0, 5.0), Due(10.0)], 4),
        ("latest 10", INSERTION, &[Rest(5.0, 10.0, 5.0)], 0),
        ("latest 9", INSERTION, &[Rest(5.0, 9.0, 5.0)], 4),
        ("such, distance 19", INSERTION, &[Rest(5.0, 9.0, 5.0), Distance(19.0)], 4),
        ("back at earliest", INSERTION, &[Rest(20.0, 20.0, 5.0), Due(10.0)], 0),
        ("back after it", INSERTION, &[Rest(19.0, 20.0, 5.0), Due(10.0)], 4),
        ("at home from latest on", SWEEP, &[Rest(0.0, 20.0, 5.0), AtHome, Due(10.0)], 0),
        ("home after latest", SWEEP, &[Rest(0.0, 19.0, 5.0), AtHome, Due(10.0)], 4),
        (
            "at home, distance 19",
            SWEEP,
            &[Rest(0.0, 20.0, 5.0), AtHome, Due(10.0), Distance(19.0)],
            5,
        ),
        (
            "at home, duration 24",
            SWEEP,
            &[Rest(0.0, 20.0, 5.0), AtHome, Due(10.0), Duration(24.0)],
            6,
        ),
        ("at home, gate 24", SWEEP, &[Rest(0.0, 20.0, 5.0), AtHome, Due(10.0), Gate(24.0)], 6),
        ("at home, gate 25", SWEEP, &[Rest(0.0, 20.0, 5.0), AtHome, Due(10.0), Gate(25.0)], 0),
        ("rest, duration 29", SAVINGS, &[Rest(15.0, 20.0, 5.0), Duration(29.0)], 6),
        ("such at home", SAVINGS, &[Rest(15.0, 20.0, 5.0), AtHome, Duration(29.0)], 0),
        ("such at home, 24", SAVINGS, &[Rest(15.0, 20.0, 5.0), AtHome, Duration(24.0)], 6),
        ("distance 20", NN_TW, &[Distance(20.0)], 0),
        ("distance 19", NN_TW, &[Distance(19.0)], 5),
        ("distance and duration 19", NN_TW, &[Distance(19.0), Duration(19.0)], 5),
        ("duration 20", NN_TW, &[Duration(20.0)], 0),
        ("duration 19", NN_TW, &[Duration(19.0)], 6),
        ("gate 20", NN_TW, &[Gate(20.0)], 0),
        ("gate 19", NN_TW, &[Gate(19.0)], 6),
        ("gate 19, nearest neighbour", NEAREST, &[Gate(19.0)], 0),
        ("such with a rest", NEAREST, &[Gate(19.0), Rest(20.0, 20.0, 5.0)], 6),
        ("ready 15, duration 24", NN_TW, &[Ready(15.0), Duration(24.0)], 6),
        ("such, nearest neighbour", NEAREST, &[Ready(15.0), Duration(24.0)], 0),
        ("duration 20, nearest neighbour", NEAREST, &[Ready(15.0), Duration(20.0)], 0),
        ("duration 19, nearest neighbour", NEAREST, &[Ready(15.0), Duration(19.0)], 6),
    ];
    for (name, method, sets, want) in cases {
        told(tally, name, &with(method, sets), want);
    }
    let without = |method| Sheet { vehicles: vec![], ..with(method, &[]) };
    told(tally, "no vehicle, nearest neighbour", &without(NEAREST), 1);
    told(tally, "no vehicle, nn_tw", &without(NN_TW), 1);
}

/// Sheet A with two vehicles, one stop of which is left at most.
fn of_fleets(tally: &mut Tally) {
    let fleet = |method, sets: [&[Set]; 2]| {
        let mut sheet = sheet_a(method);
        let vehicle = |sets| Vehicle { id: 7, ..with(method, sets).vehicles.remove(0) };
        let [one, other] = sets.map(vehicle);
        sheet.vehicles = vec![one, Vehicle { id: 8, ..other }];
        sheet
    };
    let no_place = Rest(0.0, 9.0, 5.0);
    let cases: [(&str, u8, [&[Set]; 2], u16); 10] = [
        ("capacities 0 and 1", NN_TW, [&[Capacity(0)], &[Capacity(1)]], 7),
        ("such, nearest neighbour", NEAREST, [&[Capacity(0)], &[Capacity(1)]], 7),
        ("such, insertion", INSERTION, [&[Capacity(0)], &[Capacity(1)]], 2),
        ("capacities 1 and 0", NN_TW, [&[Capacity(1)], &[Capacity(0)]], 7),
        ("capacities 0 and 0", NN_TW, [&[Capacity(0)], &[Capacity(0)]], 2),
        ("no place, and distance 19", NN_TW, [&[no_place], &[Distance(19.0)]], 4),
        ("no place, and capacity 1", NEAREST, [&[no_place], &[Capacity(1)]], 7),
        ("distance 19, and no place", NEAREST, [&[Distance(19.0)], &[no_place]], 5),
        ("no place, and another, savings", SAVINGS, [&[no_place], &[]], 4),
        ("no place, and another, sweep", SWEEP, [&[no_place], &[]], 4),
    ];
    for (name, method, sets, want) in cases {
        told(tally, name, &fleet(method, sets), want);
    }
}

/// Two depots and a stop: over the capacity of the first's vehicle, over the distance of the second's.
fn of_depots(tally: &mut Tally) {
    let between = |[out, home]: [[f64; 2]; 2], times: Option<Vec<f64>>| {
        let vehicle = |sets| with(SWEEP, sets).vehicles.remove(0);
        let full = vehicle(&[Capacity(0)]);
        let near = Vehicle { id: 8, depot: 1, ..vehicle(&[Distance(1.0)]) };
        let mut sheet = lone(SWEEP);
        sheet.rows.insert(1, Row { marks: DEPOT, ..Row::default() });
        sheet.vehicles = vec![full, near];
        sheet.distances = vec![0.0, 9.0, out[0], 9.0, 0.0, out[1], home[0], home[1], 0.0];
        Sheet { times, ..sheet }
    };
    let slow = Some(vec![0.0, 0.0, 50.0, 0.0, 0.0, 5.0, 0.0, 0.0, 0.0]);
    told(tally, "the second farther", &between([[5.0, 6.0], [5.0, 6.0]], None), 5);
    told(tally, "the first farther", &between([[7.0, 6.0], [7.0, 6.0]], None), 2);
    told(tally, "both as far", &between([[6.0, 6.0], [6.0, 6.0]], None), 5);
    told(tally, "the first farther home", &between([[5.0, 6.0], [50.0, 6.0]], None), 5);
    told(tally, "the first farther in time", &between([[5.0, 6.0], [5.0, 6.0]], slow), 5);
    let mut first_alone = between([[5.0, 6.0], [5.0, 6.0]], None);
    first_alone.vehicles.truncate(1);
    told(tally, "the second without a vehicle", &first_alone, 2);
}

/// Sheet A: a round of stop 1, and stop 2 set aside, with fields of their own.
fn given(routed: u16, aside: u16) -> Vec<u8> {
    let mut plan = encode_chains(3, &Chains { rounds: vec![(7, vec![1])], aside: vec![2] });
    put_reason(&mut plan, 3, 1, routed);
    put_reason(&mut plan, 3, 2, aside);
    plan
}

fn copied(tally: &mut Tally) {
    let sheet = sheet_a(SAVINGS).encode();
    let cases = [
        ("5 copied", given(0, 5), 1, [0, 0, 5]),
        ("0 copied", given(0, 0), 1, [0, 0, 0]),
        ("8 copied", given(0, 8), 1, [0, 0, 8]),
        ("a routed stop's", given(3, 5), 1, [0, 0, 5]),
        ("such, above 8", given(65535, 5), 1, [0, 0, 5]),
        ("a stop dropped", given(0, 5), 0, [0, 8, 5]),
        ("such, where a reason stood", given(3, 0), 0, [0, 8, 0]),
        ("such, above 8", given(9, 7), 0, [0, 8, 7]),
    ];
    for (name, plan, greatest, want) in cases {
        let out = limit(&sheet, &plan, greatest).expect("a lawful plan in");
        tally.expect(name, reasons(&out), want.to_vec());
    }
}

fn turned_back(tally: &mut Tally) {
    let sheet = sheet_a(SAVINGS).encode();
    for (reason, number) in [(0, 0), (8, 0), (9, 10), (256, 10), (264, 10), (65535, 10)] {
        let plan = given(0, reason);
        tally.expect("limited", limit(&sheet, &plan, 1).err().unwrap_or(0), number);
        let asked = refusals(&sheet, &plan, round_count(&plan));
        tally.expect("billed, dealt", asked, [number; 2]);
    }
}
