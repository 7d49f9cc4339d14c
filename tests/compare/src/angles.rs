//! Sweep, stop by stop. The order of directions is told here in whole numbers; the Rust's is that
//! of rounded angles.

use std::cmp::Ordering;

use u_routing::models::{num_depots, Customer, Solution};

use crate::kinds::{Kind, Seen};
use crate::reference::{Problem, Table};
use crate::trial::{driver, load, passes, Trial, WalkKinds};

const WALKS: WalkKinds = WalkKinds {
    refused: [Kind::SweepLate, Kind::SweepRest, Kind::SweepFar, Kind::SweepLong],
    distance: [Kind::SweepDistanceMet, Kind::SweepDistanceOver],
    duration: [Kind::SweepDurationMet, Kind::SweepDurationOver],
};

/// From here on a direction is far out, and from here on a stop as far as can be.
const FAR: i128 = 100_000;
const FARTHEST: i128 = 2_000_000;
const END: i128 = 1_000_000;

/// Where a stop lies, seen from its depot.
#[derive(Clone, Copy, PartialEq)]
pub struct Direction {
    pub x: i128,
    pub y: i128,
}

impl Direction {
    /// Below, at angle 0 and on the depot, above, and at angle π.
    fn part(self) -> u8 {
        match (self.y.cmp(&0), self.x < 0) {
            (Ordering::Less, _) => 0,
            (Ordering::Equal, false) => 1,
            (Ordering::Greater, _) => 2,
            (Ordering::Equal, true) => 3,
        }
    }

    fn cross(self, other: Direction) -> i128 {
        self.x * other.y - self.y * other.x
    }

    /// By angle, from just above -π up to π. Within a part angles are less than π apart.
    pub fn order(self, other: Direction) -> Ordering {
        self.part().cmp(&other.part()).then_with(|| match self.part() {
            0 | 2 => 0.cmp(&self.cross(other)),
            _ => Ordering::Equal,
        })
    }

    /// The Rust's angle.
    pub fn angle(self) -> f64 {
        (self.y as f64).atan2(self.x as f64)
    }
}

/// Two of these directions that `angle` orders otherwise than they lie: equal ones told apart,
/// others not, or reversed.
pub fn misordered(
    directions: &[Direction],
    angle: impl Fn(Direction) -> f64,
) -> Option<(usize, usize)> {
    let pairs = (0..directions.len()).flat_map(|one| (0..one).map(move |other| (other, one)));
    let wrong = |&(one, other): &(usize, usize)| {
        let [one, other] = [directions[one], directions[other]];
        angle(one).partial_cmp(&angle(other)) != Some(one.order(other))
    };
    pairs.into_iter().find(wrong)
}

/// Those of the stops of a table, from row 1 on.
fn directions(table: &Table) -> Vec<Direction> {
    let Some(depot) = table.customers.get(driver(table).depot_id()) else { return vec![] };
    let of = |stop: &Customer| Direction {
        x: stop.x() as i128 - depot.x() as i128,
        y: stop.y() as i128 - depot.y() as i128,
    };
    table.customers.iter().skip(1).map(of).collect()
}

/// Whether the Rust's angles misorder two stops of a table.
pub fn misorders(table: &Table) -> bool {
    misordered(&directions(table), Direction::angle).is_some()
}

/// The Rust's sweep in the order in which the stops lie: of a table on which each is moved to an
/// angle by the number of directions before its own.
pub fn swept(table: &Table) -> Solution {
    let directions = directions(table);
    let before = |one: &Direction| {
        let less = directions.iter().filter(|other| other.order(*one).is_lt());
        less.count() as f64 / directions.len() as f64 * 3.0
    };
    let moved = |(row, customer): (usize, &Customer)| match row.checked_sub(1) {
        None => moved_to(customer, row, 0.0, 0.0),
        Some(stop) => {
            let (y, x) = before(&directions[stop]).sin_cos();
            moved_to(customer, row, x, y)
        }
    };
    let customers: Vec<Customer> = table.customers.iter().enumerate().map(moved).collect();
    Table { customers: &customers, ..*table }.solution()
}

/// The same customer elsewhere.
fn moved_to(customer: &Customer, id: usize, x: f64, y: f64) -> Customer {
    let demand = customer.demand();
    let mut moved = Customer::new(id, x, y, demand, customer.service_duration());
    if let Some(window) = customer.time_window() {
        moved = moved.with_time_window(*window);
    }
    match customer.lateness_penalty() {
        Some(penalty) => moved.with_lateness_penalty(penalty).expect("a penalty is one again"),
        None => moved,
    }
}

/// A stop in its turn, with the round so far.
pub struct Turn<'a> {
    stop: usize,
    round: &'a [usize],
    /// Set aside, being refused alone; or refused after the round.
    alone: bool,
    fits: bool,
    pub trial: Trial,
}

/// The rounds that sweeping makes and the stops it sets aside; `see` is shown each stop in its
/// turn.
pub fn turned(table: &Table, mut see: impl FnMut(&Turn)) -> (Vec<Vec<usize>>, Vec<usize>) {
    let directions = directions(table);
    let mut order: Vec<usize> = (1..table.customers.len()).collect();
    order.sort_by(|one, other| directions[one - 1].order(directions[other - 1]));
    let capacity = driver(table).capacity();
    let holds = |stops: &[usize]| load(table, stops) <= capacity && passes(table, stops);
    let (mut rounds, mut aside, mut round) = (Vec::new(), Vec::new(), Vec::new());
    for stop in order {
        let stops = [&round[..], &[stop]].concat();
        let (alone, fits) = (holds(&[stop]), holds(&stops));
        let trial = Trial { parts: [round.clone(), vec![stop]], stops };
        see(&Turn { stop, round: &round, alone, fits, trial });
        if !alone {
            aside.push(stop);
            continue;
        }
        if !fits && !round.is_empty() {
            rounds.push(std::mem::take(&mut round));
        }
        round.push(stop);
    }
    rounds.extend(Some(round).filter(|round| !round.is_empty()));
    (rounds, aside)
}

impl Seen {
    /// Sweep on one table; false where rounds or stops set aside are not the Rust's, which they
    /// need not be where its angles misorder two stops.
    pub fn sweep(&mut self, problem: &Problem, table: &Table, solution: &Solution) -> bool {
        let mut left = None;
        let (rounds, aside) = turned(table, |turn| {
            self.turn(table, turn);
            if !turn.alone {
                left = turn.round.last().copied().or(left);
            } else if turn.fits {
                self.mark(Kind::SweepAside, left.is_some() && left == turn.round.last().copied());
            }
        });
        self.directions(table);
        self.mark(Kind::SweepAsideTurned, !aside.is_sorted());
        let several = num_depots(&problem.customers) > 1;
        self.mark(Kind::SweepDepots, several && rounds.iter().any(|round| round.len() > 1));
        let made = solution.routes().iter().map(|round| round.customer_ids());
        (rounds.into_iter().eq(made) && aside == solution.unassigned()) || misorders(table)
    }

    fn turn(&mut self, table: &Table, turn: &Turn) {
        let capacity = driver(table).capacity();
        if !turn.alone {
            let over = load(table, &[turn.stop]) > capacity;
            self.mark(Kind::SweepAsideFull, over);
            self.mark(Kind::SweepAsideWalk, !over);
            return;
        }
        let stops = &turn.trial.stops;
        let sum = load(table, stops);
        self.loaded(table, sum, [Kind::SweepCapacityMet, Kind::SweepCapacityOver]);
        self.mark(Kind::SweepFull, sum > capacity);
        if sum <= capacity && !turn.round.is_empty() {
            self.walk(table, stops, turn.fits, &WALKS);
        }
    }

    fn directions(&mut self, table: &Table) {
        let all = directions(table);
        let ends = |stop: usize| {
            let customer = &table.customers[stop + 1];
            [customer.x(), customer.y()].iter().all(|at| (*at as i128).abs() == END)
        };
        for (k, &one) in all.iter().enumerate() {
            self.mark(Kind::OnDepot, (one.x, one.y) == (0, 0));
            self.mark(Kind::AngleZero, one.y == 0 && one.x > 0);
            self.mark(Kind::AnglePi, one.y == 0 && one.x < 0);
            self.mark(Kind::AngleDown, one.y < 0 && one.x == 0);
            self.mark(Kind::AngleUp, one.y > 0 && one.x == 0);
            self.mark(Kind::FarApart, one.x.abs().max(one.y.abs()) == FARTHEST);
            self.mark(Kind::Corner, ends(k));
            all[..k].iter().for_each(|&other| self.two_directions(other, one));
        }
    }

    /// Of two stops, the one of the earlier row first.
    fn two_directions(&mut self, one: Direction, other: Direction) {
        let far = |at: Direction| at.x.abs().max(at.y.abs());
        let on_depot = |at: Direction| far(at) == 0;
        let same = one.order(other).is_eq() && !on_depot(one) && !on_depot(other);
        self.mark(Kind::Collinear, same && one != other);
        self.mark(Kind::EqualTurned, same && far(other) < far(one));
        self.mark(Kind::Colocated, one == other);
        let zero = |at: Direction| at.y == 0 && at.x > 0;
        let tie = (on_depot(one) && zero(other)) || (zero(one) && on_depot(other));
        self.mark(Kind::OnDepotTie, tie);
        let cross = one.cross(other);
        let across = cross == 0 && !one.order(other).is_eq();
        self.mark(Kind::Opposite, across && !on_depot(one) && !on_depot(other));
        let near = cross.abs() == 1 && far(one) >= FAR && far(other) >= FAR;
        self.mark(Kind::NearDirections, near);
        let around = |a: Direction, b: Direction| {
            a.part() == 3 && b.y < 0 && b.x < 0 && b.x.abs() >= FAR * b.y.abs()
        };
        self.mark(Kind::AroundPi, around(one, other) || around(other, one));
    }
}
