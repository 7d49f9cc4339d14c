//! What the nearest neighbours weigh at a step: a candidate's figures, summed as the Rust sums
//! them, so that sheets can be fitted to them and boundaries be counted.

use u_routing::home::evaluation::{has_soft_windows, route_eval, route_feasible, RouteLimits};
use u_routing::models::{Customer, Solution, Vehicle};

use crate::reference::Table;
use crate::sheet::NEAREST;

/// A round on its way.
pub struct Front<'a> {
    table: &'a Table<'a>,
    pub driver: &'a Vehicle,
    /// Whether a window of the table's is soft.
    pub soft: bool,
    pub stops: Vec<usize>,
    load: i32,
    travelled: f64,
    /// After the last service, by the method's own clock, and by one that rounds otherwise: that
    /// adds leg and service one after the other, or waits until just ready.
    clock: f64,
    other: f64,
}

pub struct Candidate {
    pub stop: usize,
    pub load: i32,
    /// What is held to the maxima where there is no rest, and as it would be rounded otherwise.
    pub distance: f64,
    pub other_distance: f64,
    pub duration: f64,
    pub other_durations: [f64; 3],
    pub arrival: f64,
    pub other_arrival: f64,
    pub late: f64,
    pub key: f64,
    /// What the soft rule compares: the cost added, and that of going alone.
    pub added: f64,
    pub other_added: f64,
    pub alone: f64,
    pub out: Option<Out>,
}

/// Why a candidate is turned down.
#[derive(Clone, Copy, PartialEq)]
pub enum Out {
    Capacity,
    Late,
    Limits,
    Dear,
}

impl<'a> Front<'a> {
    pub fn new(table: &'a Table<'a>, driver: &'a Vehicle) -> Front<'a> {
        let soft = has_soft_windows(table.customers);
        let (load, travelled, clock, other) = (0, 0.0, 0.0, 0.0);
        Front { table, driver, soft, stops: vec![], load, travelled, clock, other }
    }

    pub fn at(table: &'a Table<'a>, driver: &'a Vehicle, stops: &[usize]) -> Front<'a> {
        let mut front = Front::new(table, driver);
        stops.iter().for_each(|&stop| front.advance(stop));
        front
    }

    pub fn current(&self) -> usize {
        self.stops.last().copied().unwrap_or(self.driver.depot_id())
    }

    /// The round with `stop` after its last.
    pub fn with(&self, stop: usize) -> Vec<usize> {
        [&self.stops[..], &[stop]].concat()
    }

    pub fn advance(&mut self, stop: usize) {
        let (customer, current) = (&self.table.customers[stop], self.current());
        let leg = self.table.distances.travel_time(current, stop);
        let service = customer.service_duration();
        self.load += customer.demand();
        self.travelled += self.table.distances.get(current, stop);
        if self.table.method == NEAREST {
            self.clock += leg + service;
            self.other = self.other + leg + service;
        } else {
            self.clock = begun(customer, self.clock + leg) + service;
            self.other = ready(customer, self.other + leg) + service;
        }
        self.stops.push(stop);
    }

    pub fn candidate(&self, stop: usize) -> Candidate {
        let &Table { customers, distances, .. } = self.table;
        let (customer, current, depot) = (&customers[stop], self.current(), self.driver.depot_id());
        let [there, back] = [distances.get(current, stop), distances.get(stop, depot)];
        let less = distances.get(current, depot);
        let leg = distances.travel_time(current, stop);
        let arrival = self.clock + leg;
        let late = customer.time_window().map_or(0.0, |window| window.lateness(arrival));
        let late_cost = customer.lateness_penalty().unwrap_or(0.0) * late;
        let [duration, other_durations @ ..] = self.durations(stop);
        let mut candidate = Candidate {
            stop,
            load: self.load + customer.demand(),
            distance: self.travelled + there + back,
            other_distance: self.travelled + (there + back),
            duration,
            other_durations,
            arrival,
            other_arrival: self.other + leg,
            late,
            key: if self.table.method == NEAREST { there } else { there + late_cost },
            added: there + back - less + late_cost,
            other_added: there + (back - less) + late_cost,
            alone: self.alone(stop) + self.driver.fixed_cost_in_distance(),
            out: None,
        };
        candidate.out = self.out(&candidate);
        candidate
    }

    /// The duration with `stop`, then as another order of its sum, the other clock before it and a
    /// wait until just ready would round it.
    fn durations(&self, stop: usize) -> [f64; 4] {
        let &Table { customers, distances, .. } = self.table;
        let customer = &customers[stop];
        let leg = distances.travel_time(self.current(), stop);
        let home = distances.travel_time(stop, self.driver.depot_id());
        let service = customer.service_duration();
        let arrival = self.clock + leg;
        if self.table.method == NEAREST {
            let sum = arrival + service + home;
            let grouped = self.clock + (leg + service) + home;
            return [sum, grouped, self.other + leg + service + home, sum];
        }
        let start = begun(customer, arrival);
        let [other, waited] = [begun(customer, self.other + leg), ready(customer, arrival)];
        let [sum, other, waited] = [start, other, waited].map(|start| start + service + home);
        [sum, start + (service + home), other, waited]
    }

    /// The cost of a round of its own, infinite where there is none, or where nothing asks.
    fn alone(&self, stop: usize) -> f64 {
        if !self.soft {
            return f64::INFINITY;
        }
        let &Table { customers, distances, .. } = self.table;
        let (depot, limits) = (self.driver.depot_id(), RouteLimits::of(self.driver));
        let alone = route_eval(&[stop], depot, distances, customers, &limits);
        alone.map_or(f64::INFINITY, |eval| eval.priced_distance())
    }

    fn out(&self, candidate: &Candidate) -> Option<Out> {
        let &Table { customers, method, .. } = self.table;
        // Nearest neighbour ignores windows where no rest is to be placed.
        let windows = method != NEAREST;
        let hard = customers[candidate.stop].lateness_penalty().is_none();
        let soft = self.soft && !self.stops.is_empty();
        if candidate.load > self.driver.capacity() {
            Some(Out::Capacity)
        } else if windows && hard && candidate.late > 0.0 {
            Some(Out::Late)
        } else if !self.allows(candidate, &RouteLimits::of(self.driver)) {
            Some(Out::Limits)
        } else if windows && soft && candidate.added >= candidate.alone {
            Some(Out::Dear)
        } else {
            None
        }
    }

    /// With a rest the walk is asked.
    pub fn allows(&self, candidate: &Candidate, limits: &RouteLimits) -> bool {
        let &Table { customers, distances, .. } = self.table;
        if limits.rest.is_some() {
            let (stops, depot) = (self.with(candidate.stop), self.driver.depot_id());
            return route_feasible(&stops, depot, distances, customers, limits);
        }
        limits.allow(candidate.distance, candidate.duration)
    }
}

/// When service starts.
fn begun(customer: &Customer, arrival: f64) -> f64 {
    match customer.time_window() {
        Some(window) => arrival + window.waiting_time(arrival),
        None => arrival,
    }
}

/// When service starts, rounded otherwise.
fn ready(customer: &Customer, arrival: f64) -> f64 {
    customer.time_window().map_or(arrival, |window| arrival.max(window.ready()))
}

/// Follows a nearest neighbour's solution: `see` is shown, at each step of each vehicle, the round
/// so far, the candidates and the one taken. True if each was the first of the least keys.
pub fn follow(
    table: &Table,
    solution: &Solution,
    mut see: impl FnMut(&Front, &[Candidate], Option<usize>),
) -> bool {
    let mut left: Vec<usize> = (1..table.customers.len()).collect();
    let mut rounds = solution.routes().iter().peekable();
    for driver in table.vehicles {
        if left.is_empty() {
            break;
        }
        let round = rounds.next_if(|round| round.vehicle_id() == driver.id());
        let stops = round.map_or(vec![], |round| round.customer_ids());
        let mut front = Front::new(table, driver);
        for step in 0..=stops.len() {
            let candidates: Vec<Candidate> = left.iter().map(|&k| front.candidate(k)).collect();
            let taken = stops.get(step).copied();
            see(&front, &candidates, taken);
            if first_of_least(&candidates) != taken {
                return false;
            }
            if let Some(stop) = taken {
                front.advance(stop);
                left.retain(|&other| other != stop);
            }
        }
    }
    rounds.next().is_none()
}

fn first_of_least(candidates: &[Candidate]) -> Option<usize> {
    let mut best: Option<&Candidate> = None;
    for candidate in candidates.iter().filter(|candidate| candidate.out.is_none()) {
        if best.is_none_or(|best| candidate.key < best.key) {
            best = Some(candidate);
        }
    }
    best.map(|best| best.stop)
}
