//! Fits a sheet to lone rounds of its stops, so that the rules that reasons are told by are just kept
//! or just broken, each alone and several at once.

use u_routing::evaluation::RouteLimits;
use u_routing::home::evaluation::unmarked_limits;

use crate::fit::{fit_depot, unlimit, Round};
use crate::fit_return::fit_rest_at_home;
use crate::generate::beside;
use crate::random::Random;
use crate::reasoning::tried_last;
use crate::reference::Problem;
use crate::refusal::{needs_vehicle, MOST_DEMAND, MOST_FIGURE, MOST_MAXIMUM, MOST_VEHICLES};
use crate::sheet::{Row, Sheet, Vehicle, DEPOT, HOME, MAX_DISTANCE, MAX_DURATION, NEAREST};
use crate::sheet::{PENALTY, REST, WINDOW};

/// Fits the lone rounds of a few stops. False for a sheet without a stop.
pub fn fit_reasons(sheet: &mut Sheet, random: &mut Random) -> bool {
    let (depots, rows) = (sheet.depots(), sheet.rows.len());
    if depots >= rows {
        return false;
    }
    if random.one_in(24) && !needs_vehicle(sheet.method) {
        sheet.vehicles.clear();
    }
    for _ in 0..random.pick(&[1, 1, 2, 3]) {
        let stop = depots + random.below(rows - depots);
        if random.one_in(2) {
            fit_depot(sheet, stop, random);
        }
        let Some(depot) = tried_last(sheet, stop) else { break };
        if random.one_in(3) {
            add_vehicle(sheet, depot, random);
        }
        let fleet = 0..sheet.vehicles.len();
        let own: Vec<usize> =
            fleet.filter(|&vehicle| sheet.vehicles[vehicle].depot as usize == depot).collect();
        let vehicle = if random.one_in(4) { random.pick(&own) } else { own[0] };
        let alone = Alone { vehicle, stop };
        if random.one_in(2) {
            alone.free(sheet);
        }
        (0..1 + random.below(3)).for_each(|_| alone.fit(sheet, random));
    }
    true
}

/// One vehicle more of a depot, first or last, which takes more or less than another.
fn add_vehicle(sheet: &mut Sheet, depot: usize, random: &mut Random) {
    if sheet.vehicles.len() == MOST_VEHICLES {
        return;
    }
    let is_free = |id: &u32| sheet.vehicles.iter().all(|other| other.id != *id);
    let id = (0..).find(is_free).expect("more ids than vehicles");
    let like = sheet.vehicles[random.below(sheet.vehicles.len())].clone();
    let mut vehicle = Vehicle { id, depot: depot as u32, ..like };
    vehicle.capacity = random.pick(&[0, vehicle.capacity, i32::MAX, i32::MAX]);
    if random.one_in(2) {
        unlimit(&mut vehicle);
    }
    let at = random.pick(&[0, sheet.vehicles.len()]);
    sheet.vehicles.insert(at, vehicle);
}

/// A lone round by the index of its vehicle.
struct Alone {
    vehicle: usize,
    stop: usize,
}

/// What the rules are held to: the walk without a rest, and what else the duration may be, with a rest
/// before the stop, with one at home, or without waiting.
struct Walk {
    arrival: f64,
    distance: f64,
    back: f64,
    others: Vec<f64>,
}

impl Alone {
    fn walk(&self, sheet: &Sheet) -> Walk {
        let problem = Problem::held(sheet);
        let (driver, stops) = (&problem.vehicles[self.vehicle], [self.stop]);
        let route = problem.walked(driver, &stops);
        let (arrival, back) = (route.visits()[0].arrival_time, route.total_duration());
        let home = problem.distances.travel_time(self.stop, driver.depot_id());
        let mut others = vec![];
        if let Some(rest) = unmarked_limits(&RouteLimits::of(driver)).rest {
            let limits = RouteLimits { rest: Some(rest), ..RouteLimits::NONE };
            others.extend(problem.eval(driver, &stops, &limits).map(|eval| eval.duration));
            others.push(back.max(rest.earliest()) + rest.duration());
        } else if sheet.method == NEAREST {
            others.push(arrival + sheet.rows[self.stop].service + home);
        }
        Walk { arrival, distance: route.total_distance(), back, others }
    }

    /// Takes all rules away, so that those fitted are not hidden by others.
    fn free(&self, sheet: &mut Sheet) {
        let vehicle = &mut sheet.vehicles[self.vehicle];
        unlimit(vehicle);
        vehicle.capacity = i32::MAX;
        for row in [vehicle.depot as usize, self.stop] {
            let row = &mut sheet.rows[row];
            row.marks &= DEPOT;
            (row.ready, row.due, row.penalty) = (0.0, 0.0, 0.0);
        }
    }

    fn fit(&self, sheet: &mut Sheet, random: &mut Random) {
        let walk = self.walk(sheet);
        let (row, vehicle) = (&mut sheet.rows[self.stop], &mut sheet.vehicles[self.vehicle]);
        match random.below(9) {
            0 => {
                row.demand = row.demand.clamp(1, MOST_DEMAND);
                vehicle.capacity = random.pick(&[row.demand, row.demand - 1]);
            }
            1 => close(row, near(random, walk.arrival, MOST_FIGURE), random),
            2 => {
                let ready = walk.arrival + random.pick(&[0.1, 0.3, 1.0, 7.0]) * random.unit();
                row.marks |= WINDOW;
                row.ready = ready.min(MOST_FIGURE);
                row.due = row.due.max(row.ready);
            }
            3 | 4 => {
                fit_rest(vehicle, row, &walk, random);
                if !random.one_in(3) {
                    self.fit_duration(sheet, random);
                }
            }
            5 => {
                let Alone { vehicle, stop } = *self;
                fit_rest_at_home(sheet, &Round { vehicle, stops: vec![stop] }, random);
            }
            6 => {
                vehicle.marks |= MAX_DISTANCE;
                vehicle.max_distance = near(random, walk.distance, MOST_MAXIMUM);
            }
            _ => self.fit_duration(sheet, random),
        }
    }

    /// A maximum duration, or a depot that closes, just as the vehicle comes home.
    fn fit_duration(&self, sheet: &mut Sheet, random: &mut Random) {
        let Walk { back, others, .. } = self.walk(sheet);
        let any = random.below(others.len().max(1));
        let duration = others.get(any).copied().filter(|_| !random.one_in(4)).unwrap_or(back);
        let vehicle = &mut sheet.vehicles[self.vehicle];
        if random.one_in(2) {
            vehicle.marks |= MAX_DURATION;
            vehicle.max_duration = near(random, duration, MOST_MAXIMUM);
        } else {
            let row = &mut sheet.rows[vehicle.depot as usize];
            row.marks |= WINDOW;
            row.due = near(random, duration, MOST_FIGURE);
            row.ready = row.ready.min(row.due);
        }
    }
}

/// What is reached or one step beside it, most often below, and at times less by far.
fn near(random: &mut Random, x: f64, most: f64) -> f64 {
    let (up, down) = (x.next_up(), x.next_down());
    random.pick(&[x, x, x, up, down, down, down, x / 2.0]).clamp(0.0, most)
}

/// A window that closes at a time, hard but for one in four.
fn close(row: &mut Row, due: f64, random: &mut Random) {
    row.marks = (row.marks | WINDOW) & !PENALTY;
    (row.ready, row.due, row.penalty) = (row.ready.min(due), due, 0.0);
    if random.one_in(4) {
        row.marks |= PENALTY;
        row.penalty = random.pick(&[0.0, 0.1, 1.0]);
    }
}

/// A rest that is just needed, that has to start just on arrival, or that ends just as the window
/// closes.
fn fit_rest(vehicle: &mut Vehicle, row: &mut Row, walk: &Walk, random: &mut Random) {
    vehicle.marks |= REST | random.pick(&[0, HOME]);
    vehicle.rest_duration = random.pick(&[vehicle.rest_duration, 0.3, 1.0, 5.0]);
    match random.below(3) {
        0 => {
            vehicle.earliest = beside(random, walk.back, MOST_FIGURE);
            vehicle.latest = vehicle.latest.max(vehicle.earliest);
        }
        1 => {
            vehicle.latest = beside(random, walk.arrival, MOST_FIGURE);
            vehicle.earliest = vehicle.earliest.min(vehicle.latest);
        }
        _ => {
            let start = walk.arrival.max(vehicle.earliest).min(MOST_FIGURE);
            vehicle.latest = vehicle.latest.max(start);
            close(row, near(random, start + vehicle.rest_duration, MOST_FIGURE), random);
        }
    }
}
