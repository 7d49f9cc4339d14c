//! Fits a sheet to what its rounds reach, or one step beside it, so that every comparison is tried
//! at the tie.

use u_routing::evaluation::RouteLimits;

use crate::fit_return::fit_rest_at_home;
use crate::generate::beside;
use crate::greedy::{Candidate, Front};
use crate::random::Random;
use crate::reference::Problem;
use crate::refusal::{needs_vehicle, MOST_DEMAND, MOST_FIGURE, MOST_MAXIMUM};
use crate::sheet::{Sheet, Vehicle, DEPOT, HOME};
use crate::sheet::{MAX_DISTANCE, MAX_DURATION, PENALTY, REST, WINDOW};
use crate::trial::{priced, Trial};
use crate::tried::tried;

/// Windows tried until a wait rounds.
const WAITS: usize = 12;

/// A vehicle, by its index, and its stops.
#[derive(Clone)]
pub struct Round {
    pub vehicle: usize,
    pub stops: Vec<usize>,
}

/// Gives a round's vehicle a rest that starts, or is not needed, just at a time of the round.
pub fn fit_rest(sheet: &mut Sheet, round: &Round, random: &mut Random) {
    let problem = Problem::taken(sheet);
    let driver = &problem.vehicles[round.vehicle];
    let vehicle = &mut sheet.vehicles[round.vehicle];
    vehicle.marks |= REST;
    if round.stops.is_empty() || random.one_in(2) {
        let free = problem.eval(driver, &round.stops, &RouteLimits::NONE);
        let home = free.map_or(0.0, |eval| eval.duration);
        vehicle.earliest = beside(random, home, MOST_FIGURE);
        vehicle.latest = vehicle.latest.max(vehicle.earliest);
    } else {
        let route = problem.built(driver, &round.stops);
        let visit = &route.visits()[random.below(round.stops.len())];
        vehicle.latest = beside(random, visit.arrival_time, MOST_FIGURE);
        vehicle.earliest = vehicle.earliest.min(vehicle.latest);
    }
}

/// Gives a stop of a round a window that closes or opens just as the vehicle arrives.
pub fn fit_window(sheet: &mut Sheet, round: &Round, random: &mut Random) {
    if round.stops.is_empty() {
        return;
    }
    let problem = Problem::taken(sheet);
    let route = problem.built(&problem.vehicles[round.vehicle], &round.stops);
    let visit = &route.visits()[random.below(round.stops.len())];
    let arrival = beside(random, visit.arrival_time, MOST_FIGURE);
    let row = &mut sheet.rows[visit.customer_id];
    row.marks |= WINDOW;
    if random.one_in(3) {
        row.ready = arrival;
        row.due = row.due.max(arrival);
    } else {
        row.due = arrival;
        row.ready = row.ready.min(arrival);
    }
}

/// Sets a maximum, and at times takes the other away, which it might be hidden by.
pub fn fit_maximum(sheet: &mut Sheet, round: &Round, random: &mut Random) {
    let problem = Problem::taken(sheet);
    let route = problem.built(&problem.vehicles[round.vehicle], &round.stops);
    let vehicle = &mut sheet.vehicles[round.vehicle];
    if random.one_in(2) {
        vehicle.marks &= REST | HOME;
        (vehicle.max_distance, vehicle.max_duration) = (0.0, 0.0);
    }
    if random.one_in(2) {
        vehicle.marks |= MAX_DISTANCE;
        vehicle.max_distance = beside(random, route.total_distance(), MOST_MAXIMUM);
    } else {
        vehicle.marks |= MAX_DURATION;
        vehicle.max_duration = beside(random, route.total_duration(), MOST_MAXIMUM);
    }
}

/// Makes a round's depot due just as the vehicle comes home.
pub fn fit_home(sheet: &mut Sheet, round: &Round, random: &mut Random) {
    let problem = Problem::taken(sheet);
    let route = problem.built(&problem.vehicles[round.vehicle], &round.stops);
    close_depot(sheet, round.vehicle, route.total_duration(), random);
}

/// Makes a vehicle's depot due at a time or a step beside it, at times soft, open from any time on
/// or, if it is row 0, without its mark. The vehicle's own maximum duration is at times taken away or
/// put a step beside the due, so that either can be the one that counts.
fn close_depot(sheet: &mut Sheet, vehicle: usize, home: f64, random: &mut Random) {
    let depots = sheet.depots();
    let vehicle = &mut sheet.vehicles[vehicle];
    let row = &mut sheet.rows[vehicle.depot as usize];
    row.marks |= WINDOW;
    row.due = beside(random, home, MOST_FIGURE);
    let some = row.due * random.unit();
    row.ready = random.pick(&[0.0, row.ready.min(row.due), some, row.due]);
    if random.one_in(4) {
        row.marks |= PENALTY;
        row.penalty = random.pick(&[0.0, 0.1, 1.0, 7.0]);
    }
    if depots == 1 && random.one_in(4) {
        row.marks &= !DEPOT;
    }
    match random.below(4) {
        0 => {
            vehicle.marks &= !MAX_DURATION;
            vehicle.max_duration = 0.0;
        }
        1 => {
            vehicle.marks |= MAX_DURATION;
            vehicle.max_duration = random.pick(&[row.due.next_up(), row.due.next_down()]).max(0.0);
        }
        _ => (),
    }
}

/// A round of a sheet's plan cut short, and a stop that could come next.
pub struct Step {
    problem: Problem,
    round: Round,
    /// The stops before it was cut.
    whole: Vec<usize>,
    stop: usize,
    /// What the round with the stop is put together from, where a method tries that.
    parts: Option<[Vec<usize>; 2]>,
}

impl Step {
    /// `None` for a sheet without a vehicle or a stop.
    pub fn new(sheet: &Sheet, random: &mut Random) -> Option<Step> {
        let (depots, rows) = (sheet.depots(), sheet.rows.len());
        if sheet.vehicles.is_empty() || depots >= rows {
            return None;
        }
        let problem = Problem::taken(sheet);
        if depots == 1 && needs_vehicle(sheet.method) {
            let trials = tried(&problem.table());
            if !trials.is_empty() {
                return Some(Step::of(problem, &trials[random.below(trials.len())]));
            }
        }
        let mut round = Round { vehicle: random.below(sheet.vehicles.len()), stops: vec![] };
        let solution = problem.solution();
        if solution.num_routes() > 0 && !random.one_in(6) {
            let made = &solution.routes()[random.below(solution.num_routes())];
            let driver = |vehicle: &Vehicle| vehicle.id as usize == made.vehicle_id();
            round.vehicle = sheet.vehicles.iter().position(driver)?;
            round.stops = made.customer_ids();
        }
        let whole = round.stops.clone();
        round.stops.truncate(random.below(whole.len() + 1).min(rows - depots - 1));
        let others: Vec<usize> = (depots..rows).filter(|k| !round.stops.contains(k)).collect();
        let next = whole.get(round.stops.len()).copied();
        let stop = next.filter(|_| random.one_in(2)).unwrap_or_else(|| random.pick(&others));
        Some(Step { problem, round, whole, stop, parts: None })
    }

    /// A round that a method of one vehicle tries, which is the first of a single depot.
    fn of(problem: Problem, trial: &Trial) -> Step {
        let (&stop, before) = trial.stops.split_last().expect("a round of two parts");
        let round = Round { vehicle: 0, stops: before.to_vec() };
        let parts = Some(trial.parts.clone());
        Step { problem, round, whole: trial.stops.clone(), stop, parts }
    }

    /// The round with the stop.
    fn extended(&self) -> Round {
        let Round { vehicle, stops } = &self.round;
        Round { vehicle: *vehicle, stops: [&stops[..], &[self.stop]].concat() }
    }

    fn candidate(&self, stop: usize) -> Candidate {
        let table = self.problem.table();
        Front::at(&table, &table.vehicles[self.round.vehicle], &self.round.stops).candidate(stop)
    }

    pub fn fit(&self, sheet: &mut Sheet, fit: Fit, random: &mut Random) {
        match fit {
            Fit::Maximum => fit_maximum(sheet, &self.extended(), random),
            Fit::Test => self.fit_test(sheet, random),
            Fit::Home => self.fit_home(sheet, random),
            Fit::Due => self.fit_due(sheet, random),
            Fit::Wait => self.fit_wait(sheet, random),
            Fit::Alone => self.fit_alone(sheet, random),
            Fit::Window => fit_window(sheet, &self.extended(), random),
            Fit::Rest => fit_rest(sheet, &self.extended(), random),
            Fit::RestEnd => self.fit_rest_end(sheet, random),
            Fit::RestAtHome => fit_rest_at_home(sheet, &self.extended(), random),
            Fit::Capacity => self.fit_capacity(sheet, random),
            Fit::Key => self.fit_key(sheet, random),
            Fit::Dear => self.fit_dear(sheet, random),
            Fit::Depot => fit_depot(sheet, self.stop, random),
            Fit::Saving => self.fit_saving(sheet, random),
            Fit::Far => self.fit_far(sheet, random),
            Fit::Cost => self.fit_cost(sheet, random),
            Fit::Whole => self.fit_whole(sheet, random),
        }
    }

    /// Sets a maximum to what a nearest neighbour holds to it, summed in its own order or another.
    fn fit_test(&self, sheet: &mut Sheet, random: &mut Random) {
        let candidate = self.candidate(self.stop);
        let vehicle = &mut sheet.vehicles[self.round.vehicle];
        unlimit(vehicle);
        if random.one_in(3) {
            vehicle.marks = MAX_DISTANCE;
            let (right, wrong) = (candidate.distance, candidate.other_distance);
            vehicle.max_distance = between(random, right, &[wrong], MOST_MAXIMUM);
        } else {
            vehicle.marks = MAX_DURATION;
            let (right, wrong) = (candidate.duration, candidate.other_durations);
            vehicle.max_duration = between(random, right, &wrong, MOST_MAXIMUM);
        }
    }

    /// By the walk of the whole round, or by a nearest neighbour's own clock.
    fn fit_home(&self, sheet: &mut Sheet, random: &mut Random) {
        if random.one_in(4) {
            let home = self.candidate(self.stop).duration;
            close_depot(sheet, self.round.vehicle, home, random);
        } else {
            fit_home(sheet, &self.extended(), random);
        }
    }

    /// Opens the stop's window so long after the arrival that the wait rounds, and then sets a
    /// maximum to a round with it.
    fn fit_wait(&self, sheet: &mut Sheet, random: &mut Random) {
        let arrival = self.candidate(self.stop).arrival;
        self.open_after(sheet, arrival, arrival, random);
        if sheet.vehicles[self.round.vehicle].marks & REST != 0 {
            fit_maximum(sheet, &self.extended(), random);
        } else if random.one_in(3) {
            self.anew(sheet).fit_test(sheet, random);
        } else if let Some(next) = self.next(sheet, random) {
            match random.below(2) {
                0 => next.fit_test(sheet, random),
                _ => next.fit_due(sheet, random),
            }
        }
    }

    /// Opens the stop's window after both times, so that the wait from the first rounds.
    fn open_after(&self, sheet: &mut Sheet, time: f64, other: f64, random: &mut Random) {
        let row = &mut sheet.rows[self.stop];
        for _ in 0..WAITS {
            let ready = time.max(other).ceil() + 0.1 * random.below(1000) as f64;
            if time + (ready - time) != ready && ready <= MOST_FIGURE {
                row.marks |= WINDOW;
                (row.ready, row.due) = (ready, row.due.max(ready));
                return;
            }
        }
    }

    /// A window that closes just as the vehicle comes, or as it would by another clock.
    fn fit_due(&self, sheet: &mut Sheet, random: &mut Random) {
        let Candidate { arrival, other_arrival, .. } = self.candidate(self.stop);
        let row = &mut sheet.rows[self.stop];
        row.marks |= WINDOW;
        row.due = between(random, arrival, &[other_arrival], MOST_FIGURE);
        row.ready = row.ready.min(row.due);
    }

    /// The step after this one, with any stop that is left.
    fn next(&self, sheet: &Sheet, random: &mut Random) -> Option<Step> {
        let round = self.extended();
        let left = sheet.depots()..sheet.rows.len();
        let left: Vec<usize> = left.filter(|k| !round.stops.contains(k)).collect();
        let stop = *left.get(random.below(left.len().max(1)))?;
        let (problem, whole) = (Problem::taken(sheet), round.stops.clone());
        Some(Step { problem, whole, round, stop, parts: None })
    }

    /// The same step of a sheet that has changed.
    fn anew(&self, sheet: &Sheet) -> Step {
        let (round, whole, parts) = (self.round.clone(), self.whole.clone(), self.parts.clone());
        Step { problem: Problem::taken(sheet), round, whole, stop: self.stop, parts }
    }

    /// A window that closes, or a rest that has to start, just as the rest before the stop allows.
    fn fit_rest_end(&self, sheet: &mut Sheet, random: &mut Random) {
        let vehicle = &mut sheet.vehicles[self.round.vehicle];
        if vehicle.marks & REST == 0 {
            return;
        }
        let start = self.candidate(self.stop).arrival.max(vehicle.earliest);
        if random.one_in(2) {
            vehicle.latest = beside(random, start, MOST_FIGURE).max(vehicle.earliest);
        }
        let row = &mut sheet.rows[self.stop];
        row.marks |= WINDOW;
        row.due = beside(random, start + vehicle.rest_duration, MOST_FIGURE);
        row.ready = row.ready.min(row.due);
    }

    fn fit_capacity(&self, sheet: &mut Sheet, random: &mut Random) {
        let load = self.candidate(self.stop).load;
        sheet.vehicles[self.round.vehicle].capacity = random.pick(&[load, load, load - 1]).max(0);
    }

    /// Gives another stop the leg that makes its key this one's.
    fn fit_key(&self, sheet: &mut Sheet, random: &mut Random) {
        let (depots, rows) = (sheet.depots(), sheet.rows.len());
        let other = depots + random.below(rows - depots);
        let from = self.round.stops.last().copied();
        let from = from.unwrap_or(sheet.vehicles[self.round.vehicle].depot as usize);
        let leg = &mut sheet.distances[from * rows + other];
        let late_cost = self.candidate(other).key - *leg;
        let key = self.candidate(self.stop).key;
        *leg = random.pick(&[key, key - late_cost, (key - late_cost).next_down()]).max(0.0);
        *leg = leg.min(MOST_FIGURE);
    }

    /// A fixed cost that makes going alone cost what is added; the stop's window is soft.
    fn fit_dear(&self, sheet: &mut Sheet, random: &mut Random) {
        let row = &mut sheet.rows[self.stop];
        if row.marks & WINDOW == 0 {
            row.marks |= WINDOW;
            row.due = beside(random, self.candidate(self.stop).arrival / 2.0, MOST_FIGURE);
        }
        if row.marks & PENALTY == 0 {
            row.marks |= PENALTY;
            row.penalty = random.pick(&[0.0, 0.1, 0.5, 1.0, 1.0, 2.0, 3.0]);
        }
        let vehicle = &mut sheet.vehicles[self.round.vehicle];
        (vehicle.cost_per_distance, vehicle.fixed_cost) = (1.0, 0.0);
        let [added, other_added, alone] = self.anew(sheet).added();
        let vehicle = &mut sheet.vehicles[self.round.vehicle];
        if added > alone && added - alone < MOST_FIGURE {
            vehicle.fixed_cost = beside(random, added.max(other_added) - alone, MOST_FIGURE);
        }
    }

    /// What the soft rule compares: a cost, the same summed otherwise, and the other cost.
    fn added(&self) -> [f64; 3] {
        let Some([one, other]) = &self.parts else {
            let Candidate { added, other_added, alone, .. } = self.candidate(self.stop);
            return [added, other_added, alone];
        };
        let table = self.problem.table();
        let [one, other] = [one, other].map(|part| priced(&table, part));
        let whole = priced(&table, &self.extended().stops);
        [whole - one, whole - (one + other) + other, other]
    }

    /// A leg between two stops that makes their saving another's, or 0, or the least there is, or
    /// a step beside.
    fn fit_saving(&self, sheet: &mut Sheet, random: &mut Random) {
        let (depots, rows) = (sheet.depots(), sheet.rows.len());
        let depot = sheet.vehicles[self.round.vehicle].depot as usize;
        let fixed = self.problem.vehicles[self.round.vehicle].fixed_cost_in_distance();
        let all: Vec<usize> = (depots..rows).collect();
        let near = if self.whole.len() > 1 && random.one_in(2) { &self.whole } else { &all };
        let [i, j, k, l] = [near, near, &all, &all].map(|of| random.pick(of));
        let leg = |from: usize, to: usize| sheet.distances[from * rows + to];
        let ways = leg(i, depot) + leg(depot, j) + fixed;
        let saving = leg(k, depot) + leg(depot, l) - leg(k, l) + fixed;
        let least = ways.next_up() - ways;
        let between = ways - random.pick(&[saving, saving, 0.0, least, least]);
        let alike = self.problem.distances.is_symmetric(0.0);
        let between = beside(random, between, MOST_FIGURE);
        sheet.distances[i * rows + j] = between;
        if alike {
            sheet.distances[j * rows + i] = between;
        }
    }

    /// A stop as far from the depot as this one, or a step beside.
    fn fit_far(&self, sheet: &mut Sheet, random: &mut Random) {
        let (depots, rows) = (sheet.depots(), sheet.rows.len());
        let depot = sheet.vehicles[self.round.vehicle].depot as usize;
        let far = sheet.distances[depot * rows + self.stop];
        let other = depots + random.below(rows - depots);
        sheet.distances[depot * rows + other] = beside(random, far, MOST_FIGURE);
    }

    /// A leg that makes another place of the same round, or another stop there, as dear.
    fn fit_cost(&self, sheet: &mut Sheet, random: &mut Random) {
        let Some([round, stop]) = &self.parts else { return };
        let (depots, rows) = (sheet.depots(), sheet.rows.len());
        let ends = |at: usize| {
            let before = at.checked_sub(1).map_or(0, |before| round[before]);
            (before, round.get(at).copied().unwrap_or(0))
        };
        let leg = |from: usize, to: usize| sheet.distances[from * rows + to];
        let at = self.whole.iter().position(|other| other == &stop[0]).unwrap_or(0);
        let whole = priced(&self.problem.table(), &self.whole);
        let cost = whole - priced(&self.problem.table(), round);
        let others: Vec<usize> = (depots..rows).filter(|other| !round.contains(other)).collect();
        let other = if random.one_in(2) { stop[0] } else { random.pick(&others) };
        let place = random.below(round.len() + 1);
        let (before, after) = ends(place);
        let there = cost - leg(other, after) + leg(before, after);
        if there.is_finite() && (other != stop[0] || place != at) {
            // A step of the leg's, or one of the whole round's.
            let step = whole.next_up() - whole;
            let there = random.pick(&[there, there + step, there - step]);
            sheet.distances[before * rows + other] = beside(random, there, MOST_FIGURE);
        }
    }

    /// Two stops, the second as dear before the first as after it but for a step of the round's
    /// whole cost, which the difference from the round without it need not show. The others are
    /// over capacity.
    fn fit_whole(&self, sheet: &mut Sheet, random: &mut Random) {
        let Some([round, other]) = &self.parts else { return };
        let rows = sheet.rows.len();
        let (first, second) = (round[0], other[0]);
        // A round of 17 to 24 has a bit more than one of 57 to 62, so that their difference, which
        // is above 32, is rounded.
        let [out, home] = [3.5, 3.5].map(|most| 8.5 + most * random.unit());
        let whole = 57.0 + 5.0 * random.unit();
        let [there, on] = [8.0, 16.0].map(|most| most * random.unit());
        let on = on + 1.0;
        let less = random.pick(&[whole, whole.next_down(), whole.next_up()]);
        let mut set = |from: usize, to: usize, leg: f64| sheet.distances[from * rows + to] = leg;
        set(0, first, out);
        set(first, 0, home);
        set(0, second, there);
        set(second, first, whole - home - there);
        set(first, second, on);
        set(second, 0, less - (out + on));
        unlimit(&mut sheet.vehicles[0]);
        let vehicle = &mut sheet.vehicles[0];
        (vehicle.cost_per_distance, vehicle.fixed_cost) = (1.0, 20.0);
        vehicle.capacity = MOST_DEMAND - 1;
        for (k, row) in sheet.rows.iter_mut().enumerate() {
            row.demand = if [first, second].contains(&k) { 1 } else { MOST_DEMAND };
        }
        let row = &mut sheet.rows[second];
        row.marks |= WINDOW | PENALTY;
        (row.ready, row.due) = (0.0, MOST_FIGURE);
    }

    /// A stop that waits, soft and as dear next as alone, where a round of it alone just keeps a
    /// maximum or just does not.
    fn fit_alone(&self, sheet: &mut Sheet, random: &mut Random) {
        let stop = self.stop;
        let mut round = self.round.clone();
        round.stops = self.whole.iter().copied().filter(|&other| other != stop).collect();
        let Some(&current) = round.stops.last() else {
            return fit_maximum(sheet, &self.extended(), random);
        };
        let rows = sheet.rows.len();
        let depot = sheet.vehicles[round.vehicle].depot as usize;
        let there = sheet.distances[current * rows + depot] + sheet.distances[depot * rows + stop];
        sheet.distances[current * rows + stop] = there.min(MOST_FIGURE);
        let vehicle = &mut sheet.vehicles[self.round.vehicle];
        unlimit(vehicle);
        vehicle.fixed_cost = 0.0;
        let step = Step { round, ..self.anew(sheet) };
        let leg = step.problem.distances.travel_time(depot, stop);
        step.open_after(sheet, leg, step.candidate(stop).arrival, random);
        let row = &mut sheet.rows[stop];
        row.marks |= WINDOW | PENALTY;
        row.due = row.due.max(row.ready);
        let home = step.problem.distances.travel_time(stop, depot);
        let durations = [leg + (row.ready - leg).max(0.0), leg.max(row.ready)];
        let [right, wrong] = durations.map(|start| start + row.service + home);
        let vehicle = &mut sheet.vehicles[self.round.vehicle];
        vehicle.marks = MAX_DURATION;
        vehicle.max_duration = between(random, right, &[wrong], MOST_MAXIMUM);
    }
}

/// Takes a vehicle's maxima and its rest away.
pub fn unlimit(vehicle: &mut Vehicle) {
    vehicle.marks = 0;
    (vehicle.max_distance, vehicle.max_duration) = (0.0, 0.0);
    (vehicle.earliest, vehicle.latest, vehicle.rest_duration) = (0.0, 0.0, 0.0);
}

/// The lesser of a sum and a wrong one, which a maximum there tells apart; or a step beside it.
fn between(random: &mut Random, right: f64, wrong: &[f64], most: f64) -> f64 {
    let apart: Vec<f64> = wrong.iter().copied().filter(|&sum| sum != right).collect();
    if apart.is_empty() || random.one_in(4) {
        return beside(random, right, most);
    }
    right.min(random.pick(&apart)).clamp(0.0, most)
}

/// Puts a stop as far from one depot as from another, or one step beside it.
pub fn fit_depot(sheet: &mut Sheet, stop: usize, random: &mut Random) {
    let (depots, rows) = (sheet.depots(), sheet.rows.len());
    let far = sheet.distances[random.below(depots) * rows + stop];
    sheet.distances[random.below(depots) * rows + stop] = beside(random, far, MOST_FIGURE);
}

/// What a sheet can be fitted to.
#[derive(Clone, Copy)]
pub enum Fit {
    Maximum,
    Home,
    Test,
    Alone,
    Wait,
    Due,
    Window,
    Rest,
    RestEnd,
    RestAtHome,
    Capacity,
    Key,
    Dear,
    Depot,
    Saving,
    Far,
    Cost,
    Whole,
}
