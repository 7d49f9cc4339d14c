//! The limiter, step by step: the Rust's rules told again, so that sheets can be fitted to the
//! places that are tried and boundaries be counted.

use u_routing::evaluation::{has_soft_windows, has_time_windows};
use u_routing::models::{Customer, Solution};

use crate::fit::Round;
use crate::inserts::{places, Place};
use crate::kinds::{Kind, Seen};
use crate::plan::{round_at, stop_at, Chains};
use crate::reference::{Problem, Table};
use crate::trial::{driver, lateness, load, passes, priced, WalkKinds};

/// Plans of more rows are not followed: every place of every stop is looked at again.
pub const MOST_ROWS: usize = 24;

/// From so many stops on the port keeps the walk up to some stop, and tries later places from there.
const KEPT: usize = 5;

const WALKS: WalkKinds = WalkKinds {
    refused: [Kind::MoveLate, Kind::MoveRest, Kind::MoveFar, Kind::MoveLong],
    distance: [Kind::MoveDistanceMet, Kind::MoveDistanceOver],
    duration: [Kind::MoveDurationMet, Kind::MoveDurationOver],
};

/// A place for a pending stop in a round that stays, within capacity.
pub struct Move {
    pub round: usize,
    pub place: Place,
    /// Whether the round takes a stop at all: where windows are soft it must be allowed as it is.
    open: bool,
}

/// What is shown on the way, with the rounds as they are then: one to be dropped, or the moves of
/// the stops pending.
pub enum Event<'a> {
    Drop { victim: usize },
    Moves { pending: &'a [usize], moves: &'a [Move], taken: Option<&'a Move> },
}

impl Move {
    fn fits(&self) -> bool {
        self.place.passes && self.open
    }
}

/// The rounds of a plan with the indices of their vehicles.
pub fn rounds(problem: &Problem, chains: &Chains) -> Vec<Round> {
    let of = |(id, stops): &(u32, Vec<usize>)| Round {
        vehicle: problem.driver_of(*id),
        stops: stops.clone(),
    };
    chains.rounds.iter().map(of).collect()
}

/// The rounds left and the stops dropped.
pub fn limited(
    problem: &Problem,
    mut rounds: Vec<Round>,
    greatest: u32,
    mut see: impl FnMut(&[Round], &Event),
) -> (Vec<Round>, Vec<usize>) {
    let mut dropped = Vec::new();
    while rounds.len() > greatest as usize {
        let key = |round: &Round| (load(&problem.table(), &round.stops), round.stops.len());
        let least = rounds.iter().map(key).min().expect("more rounds than the greatest number");
        let victim = rounds.iter().position(|round| key(round) == least).expect("the least is one");
        see(&rounds, &Event::Drop { victim });
        let mut pending = rounds.remove(victim).stops;
        loop {
            let moves = moves(problem, &rounds, &pending);
            let taken = least_move(&moves);
            see(&rounds, &Event::Moves { pending: &pending, moves: &moves, taken });
            let Some(Move { round, place, .. }) = taken else { break };
            pending.retain(|&stop| stop != place.stop);
            rounds[*round].stops.clone_from(&place.trial.stops);
        }
        dropped.extend(pending);
    }
    (rounds, dropped)
}

/// Stop by stop, then round by round.
fn moves(problem: &Problem, rounds: &[Round], pending: &[usize]) -> Vec<Move> {
    let soft = has_soft_windows(&problem.customers);
    let mut moves = Vec::new();
    for stop in pending {
        for (k, round) in rounds.iter().enumerate() {
            let table = problem.table_of(round.vehicle);
            let open = !soft || priced(&table, &round.stops).is_finite();
            let places = places(&table, &round.stops, &[*stop]);
            moves.extend(places.into_iter().map(|place| Move { round: k, place, open }));
        }
    }
    moves
}

fn least_move(moves: &[Move]) -> Option<&Move> {
    let mut least: Option<&Move> = None;
    for it in moves.iter().filter(|it| it.fits()) {
        if least.is_none_or(|least| it.place.cost < least.place.cost) {
            least = Some(it);
        }
    }
    least
}

impl Seen {
    /// A plan brought within a number of rounds; false where the solution is not the Rust's.
    pub fn limiting(
        &mut self,
        problem: &Problem,
        chains: &Chains,
        greatest: u32,
        solution: &Solution,
    ) -> bool {
        let before = rounds(problem, chains);
        self.asked(problem, chains, greatest);
        self.kept(problem, &before, solution);
        self.left_aside(chains, solution);
        if problem.customers.len() > MOST_ROWS {
            return true;
        }
        let mut moved = Moved::default();
        let (left, mut aside) = limited(problem, before, greatest, |rounds, event| match event {
            Event::Drop { victim } => {
                self.victim(problem, rounds, *victim);
                self.mark(Kind::DroppedAgain, moved.drop(&rounds[*victim].stops));
            }
            Event::Moves { pending, moves, taken } => {
                self.offered(problem, rounds, pending);
                self.walked(problem, rounds, moves);
                if let Some(taken) = taken {
                    self.moved(problem, rounds, moves, taken);
                    self.mark(Kind::MoveLater, taken.place.stop != pending[0]);
                }
                let [after, before] = moved.step(pending, moves, *taken);
                self.mark(Kind::MoveAfter, after);
                self.mark(Kind::MoveBefore, before);
            }
        });
        aside.extend(&chains.aside);
        aside.sort_unstable();
        let id = |round: &Round| problem.vehicles[round.vehicle].id();
        let left = left.iter().map(|round| (id(round), round.stops.clone()));
        let right = solution.routes().iter().map(|made| (made.vehicle_id(), made.customer_ids()));
        left.eq(right) && aside == solution.unassigned()
    }

    /// What the limiter does not read of a plan in with this number of rounds.
    pub fn unread(&mut self, plan_in: &[u8], rows: usize, count: usize) {
        let set = |from: usize, to: usize| plan_in[from..to].iter().any(|&byte| byte != 0);
        self.mark(Kind::UnreadRows, plan_in[4..6] != (rows as u16).to_le_bytes());
        self.mark(Kind::UnreadRecord, set(round_at(count), round_at(rows)));
        self.mark(Kind::UnreadDepot, rows > 0 && set(stop_at(rows, 0), stop_at(rows, 1)));
    }

    fn asked(&mut self, problem: &Problem, chains: &Chains, greatest: u32) {
        let (rows, count) = (problem.customers.len(), chains.rounds.len());
        let (wide, low) = (greatest > u16::MAX.into(), usize::from(greatest as u16));
        self.mark(Kind::GreatestZero, greatest == 0 && count > 0);
        self.mark(Kind::GreatestMet, greatest as usize == count && count > 0);
        self.mark(Kind::GreatestAbove, greatest as usize == count + 1);
        self.mark(Kind::GreatestWide, wide && low < count);
        self.mark(Kind::GreatestMost, greatest == u32::MAX && count > 0);
        self.mark(Kind::NoRow, rows == 0);
        self.mark(Kind::NoStop, rows == 1);
        self.mark(Kind::NoStopRound, rows == 1 && count == 1);
        let empty: Vec<bool> = chains.rounds.iter().map(|(_, stops)| stops.is_empty()).collect();
        let lone = chains.rounds.iter().all(|(_, stops)| stops.len() == 1);
        self.mark(Kind::AllRounds, count == rows && rows > 1);
        self.mark(Kind::LoneRounds, lone && count + 1 == rows && rows > 2);
        self.mark(Kind::EmptyFirst, empty.first() == Some(&true));
        self.mark(Kind::EmptyLast, empty.last() == Some(&true));
        let inner = |three: &[bool]| three == [false, true, false];
        self.mark(Kind::EmptyInner, empty.windows(3).any(inner));
        self.mark(Kind::EmptySeveral, empty.iter().filter(|&&empty| empty).count() > 1);
        self.mark(Kind::AllAside, rows > 1 && chains.aside.len() + 1 == rows);
        self.mark(Kind::AsideBeforeTurned, !chains.aside.is_sorted());
        let ids = || chains.rounds.iter().map(|(id, _)| id);
        let again = |id: &&u32| ids().filter(|other| other == id).count() > 1;
        let first = ids().next();
        self.mark(Kind::OneVehicle, count > 1 && ids().all(|id| Some(id) == first));
        self.mark(Kind::Fleet, ids().any(|id| Some(id) != first) && ids().any(|id| again(&id)));
        let (depot, stops) = problem.customers.split_at(rows.min(1));
        let on_depot = |has: fn(&[Customer]) -> bool| count > 1 && has(depot) && !has(stops);
        self.mark(Kind::LimitDepotWindow, on_depot(has_time_windows));
        self.mark(Kind::LimitDepotSoft, on_depot(has_soft_windows));
    }

    fn victim(&mut self, problem: &Problem, rounds: &[Round], victim: usize) {
        let load = |round: &Round| load(&problem.table(), &round.stops);
        let least = load(&rounds[victim]);
        let stops = rounds[victim].stops.len();
        let (before, after) = (&rounds[..victim], &rounds[victim + 1..]);
        let more = |round: &Round| load(round) == least && round.stops.len() > stops;
        let equal = |round: &Round| load(round) == least && round.stops.len() == stops;
        self.mark(Kind::VictimStops, before.iter().any(more));
        self.mark(Kind::VictimStopsLater, after.iter().any(more));
        self.mark(Kind::VictimFirst, after.iter().any(equal));
        self.mark(Kind::VictimEmpty, stops == 0);
        let idle = |round: &Round| load(round) == 0 && !round.stops.is_empty();
        self.mark(Kind::VictimIdle, stops == 0 && rounds.iter().any(idle));
        let vehicle = rounds[victim].vehicle;
        let inner = victim > 0 && victim + 1 < rounds.len();
        let unlike = |k: usize| rounds[k].vehicle != vehicle;
        self.mark(Kind::VictimInner, inner);
        self.mark(Kind::VictimUnlike, inner && unlike(victim - 1) && unlike(victim + 1));
        self.mark(Kind::VictimOver, least > problem.vehicles[vehicle].capacity());
    }

    /// Loads that are held to capacity.
    fn offered(&mut self, problem: &Problem, rounds: &[Round], pending: &[usize]) {
        for round in rounds {
            let table = problem.table_of(round.vehicle);
            let (had, most) = (load(&table, &round.stops), driver(&table).capacity());
            for &stop in pending {
                let with = had + load(&table, &[stop]);
                self.loaded(&table, with, [Kind::MoveCapacityMet, Kind::MoveCapacityOver]);
                self.mark(Kind::MoveFull, had > most);
                self.mark(Kind::MoveFullIdle, had > most && with == had);
            }
        }
    }

    fn walked(&mut self, problem: &Problem, rounds: &[Round], moves: &[Move]) {
        for Move { round, place, open } in moves {
            let round = &rounds[*round];
            let table = problem.table_of(round.vehicle);
            self.walk(&table, &place.trial.stops, place.passes, &WALKS);
            self.mark(Kind::MoveBarred, !open && place.passes);
            let mends = *open && place.passes && !passes(&table, &round.stops);
            self.mark(Kind::MoveMends, mends);
            if place.at >= KEPT && driver(&table).rest().is_none() {
                self.behind(problem, &table, *open, place);
            }
        }
    }

    /// A place behind stops that are walked once for it and others.
    fn behind(&mut self, problem: &Problem, table: &Table, open: bool, place: &Place) {
        let before = lateness(table, &place.trial.stops[..place.at]);
        let windows = has_time_windows(&problem.customers);
        self.mark(Kind::MoveOn, windows && open && place.passes);
        self.mark(Kind::MoveOnLate, open && place.passes && before.is_some_and(|cost| cost > 0.0));
        let missed = lateness(table, &place.trial.stops).is_none();
        self.mark(Kind::MoveOnMissed, missed && before.is_some());
        self.mark(Kind::MoveOnLost, before.is_none());
    }

    fn moved(&mut self, problem: &Problem, rounds: &[Round], moves: &[Move], taken: &Move) {
        let soft = has_soft_windows(&problem.customers);
        let Move { round, place: Place { stop, at, cost, other_cost, .. }, .. } = taken;
        let fits = || moves.iter().filter(|it| it.fits());
        let equal = || fits().filter(|it| it.place.cost == *cost);
        let same_stop = || equal().filter(|it| it.place.stop == *stop);
        self.mark(Kind::MoveStopTie, equal().any(|it| it.place.stop != *stop));
        self.mark(Kind::MoveRoundTie, same_stop().any(|it| it.round != *round));
        self.mark(Kind::MovePlaceTie, same_stop().filter(|it| it.round == *round).count() > 1);
        let first = |it: &&Move| it.place.other_cost < *other_cost;
        let tied = fits().find(|it| it.place.other_cost == *other_cost);
        let is_taken = |it: &Move| (it.place.stop, it.round, it.place.at) == (*stop, *round, *at);
        let other = tied.is_some_and(|it| !is_taken(it));
        let order = if soft { Kind::MoveWhole } else { Kind::MoveOrder };
        self.mark(order, fits().any(|it| first(&it)) || other);
        let len = rounds[*round].stops.len();
        self.mark(Kind::MoveFirst, *at == 0);
        self.mark(Kind::MoveInner, *at > 0 && *at < len);
        self.mark(Kind::MoveLast, *at == len);
        self.mark(Kind::MoveNegative, *cost < 0.0);
        let refused = |it: &&Move| !it.place.passes && it.place.stop == *stop;
        let dearer = |it: &Move| it.round == *round && it.place.cost < *cost;
        self.mark(Kind::MoveNext, moves.iter().filter(refused).any(dearer));
        let Round { vehicle, stops } = &rounds[*round];
        self.mark(Kind::MoveUnlike, rounds.iter().any(|other| other.vehicle != *vehicle));
        let driver = &problem.vehicles[*vehicle];
        let late = |stops: &[usize]| problem.built(driver, stops).total_lateness();
        self.mark(Kind::MoveLateCost, soft && late(&taken.place.trial.stops) > late(stops));
    }

    /// What stands in the plan out.
    fn kept(&mut self, problem: &Problem, before: &[Round], solution: &Solution) {
        let mut costs = Vec::new();
        for made in solution.routes() {
            let vehicle = problem.driver_of(made.vehicle_id() as u32);
            let (table, stops) = (problem.table_of(vehicle), made.customer_ids());
            let driver = driver(&table);
            let kept = before.iter().any(|round| round.vehicle == vehicle && round.stops == stops);
            self.mark(Kind::KeptOver, kept && made.total_load() > driver.capacity());
            let lost = kept && !passes(&table, &stops);
            self.mark(Kind::KeptLost, lost && driver.rest().is_none());
            self.mark(Kind::KeptRestless, lost && driver.rest().is_some());
            self.mark(Kind::KeptEmpty, stops.is_empty());
            self.mark(Kind::KeptEmptyFar, stops.is_empty() && made.total_distance() > 0.0);
            self.mark(Kind::LimitRest, made.rest().is_some());
            self.mark(Kind::LimitRestLater, made.rest().is_some_and(|(at, _)| at > 0));
            self.mark(Kind::LimitLate, made.total_lateness() > 0.0);
            costs.push(driver.route_cost(made.total_distance() + made.lateness_cost()));
        }
        self.mark(Kind::NoneDropped, !before.is_empty() && costs.len() == before.len());
        self.mark(Kind::LimitUnmade, costs.is_empty());
        let turned: f64 = costs.iter().rev().sum();
        self.mark(Kind::LimitCostOrder, turned != solution.total_cost());
    }

    fn left_aside(&mut self, chains: &Chains, solution: &Solution) {
        let dropped = |stop: &&usize| !chains.aside.contains(stop);
        let dropped: Vec<&usize> = solution.unassigned().iter().filter(dropped).collect();
        self.mark(Kind::DroppedAside, !dropped.is_empty());
        let between = |stop: &&usize| chains.aside.iter().any(|other| other > *stop);
        self.mark(Kind::DroppedBetween, dropped.iter().any(between));
    }
}

/// What was seen of the stops that have been dropped.
#[derive(Default)]
struct Moved {
    dropped: Vec<usize>,
    /// Of those pending, the ones that had a place at some step and that had none.
    placed: Vec<usize>,
    unplaced: Vec<usize>,
}

impl Moved {
    /// Whether one of the stops had been dropped before.
    fn drop(&mut self, stops: &[usize]) -> bool {
        let again = stops.iter().any(|stop| self.dropped.contains(stop));
        self.dropped.extend(stops);
        (self.placed, self.unplaced) = (vec![], vec![]);
        again
    }

    /// Whether a stop fits that did not fit before another was moved, and one is left that did.
    fn step(&mut self, pending: &[usize], moves: &[Move], taken: Option<&Move>) -> [bool; 2] {
        let fits = |stop: usize| moves.iter().any(|it| it.place.stop == stop && it.fits());
        let after = pending.iter().any(|&stop| fits(stop) && self.unplaced.contains(&stop));
        let left = taken.is_none() && pending.iter().any(|stop| self.placed.contains(stop));
        for &stop in pending {
            let list = if fits(stop) { &mut self.placed } else { &mut self.unplaced };
            list.push(stop);
        }
        [after, left]
    }
}
