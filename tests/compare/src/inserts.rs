//! Insertion, step by step: the Rust's rules told again, so that sheets can be fitted to the
//! places that are tried and boundaries be counted.

use u_routing::evaluation::has_soft_windows;
use u_routing::models::{num_depots, Solution};

use crate::kinds::{Kind, Seen};
use crate::reference::{Problem, Table};
use crate::trial::{driver, load, passes, priced, Trial, WalkKinds};

/// Tables of more rows are not followed: every place of every stop is looked at again.
pub const MOST_ROWS: usize = 24;

const WALKS: WalkKinds = WalkKinds {
    refused: [Kind::PlaceLate, Kind::PlaceRest, Kind::PlaceFar, Kind::PlaceLong],
    distance: [Kind::PlaceDistanceMet, Kind::PlaceDistanceOver],
    duration: [Kind::PlaceDurationMet, Kind::PlaceDurationOver],
};

/// A stop at a place of a round, within capacity.
pub struct Place {
    pub stop: usize,
    pub at: usize,
    pub passes: bool,
    /// Not below going alone, where windows are soft.
    dear: bool,
    pub cost: f64,
    /// Summed otherwise; of soft windows, the cost of the whole round.
    pub other_cost: f64,
    pub trial: Trial,
}

/// What is shown on the way, with the stops left: a seed taken, or the places of a round.
pub enum Event<'a> {
    Seed { seed: usize, opens: bool },
    Round { round: &'a [usize], places: &'a [Place], taken: Option<&'a Place> },
}

/// The rounds that insertion makes and the stops it sets aside.
pub fn inserted(
    table: &Table,
    mut see: impl FnMut(&[usize], &Event),
) -> (Vec<Vec<usize>>, Vec<usize>) {
    let mut left: Vec<usize> = (1..table.customers.len()).collect();
    let (mut rounds, mut aside) = (Vec::new(), Vec::new());
    while let Some(seed) = farthest(table, &left) {
        let opens = load(table, &[seed]) <= driver(table).capacity() && passes(table, &[seed]);
        see(&left, &Event::Seed { seed, opens });
        left.retain(|&stop| stop != seed);
        if !opens {
            aside.push(seed);
            continue;
        }
        let mut round = vec![seed];
        loop {
            let places = places(table, &round, &left);
            let taken = least(&places);
            see(&left, &Event::Round { round: &round, places: &places, taken });
            let Some(Place { stop, trial, .. }) = taken else { break };
            left.retain(|other| other != stop);
            round.clone_from(&trial.stops);
        }
        rounds.push(round);
    }
    (rounds, aside)
}

/// The first of the farthest.
fn farthest(table: &Table, left: &[usize]) -> Option<usize> {
    let far = |stop: usize| table.distances.get(driver(table).depot_id(), stop);
    let most = left.iter().map(|&stop| far(stop)).fold(0.0, f64::max);
    left.iter().copied().find(|&stop| far(stop) == most)
}

/// Every place in a round of every stop left that capacity allows.
pub fn places(table: &Table, round: &[usize], left: &[usize]) -> Vec<Place> {
    let within =
        |stop: usize| load(table, round) + load(table, &[stop]) <= driver(table).capacity();
    let fitting = left.iter().copied().filter(|&stop| within(stop));
    fitting
        .flat_map(|stop| (0..=round.len()).map(move |at| (stop, at)))
        .map(|(stop, at)| Place::of(table, round, stop, at))
        .collect()
}

fn least(places: &[Place]) -> Option<&Place> {
    let mut least: Option<&Place> = None;
    for place in places.iter().filter(|place| place.passes && !place.dear) {
        if least.is_none_or(|least| place.cost < least.cost) {
            least = Some(place);
        }
    }
    least
}

impl Place {
    fn of(table: &Table, round: &[usize], stop: usize, at: usize) -> Place {
        let depot = driver(table).depot_id();
        let stops = [&round[..at], &[stop], &round[at..]].concat();
        let before = if at == 0 { depot } else { round[at - 1] };
        let after = round.get(at).copied().unwrap_or(depot);
        let leg = |from, to| table.distances.get(from, to);
        let [there, on, less] = [leg(before, stop), leg(stop, after), leg(before, after)];
        let passes = passes(table, &stops);
        let mut place = Place {
            stop,
            at,
            passes,
            dear: false,
            cost: there + on - less,
            other_cost: there + (on - less),
            trial: Trial { parts: [round.to_vec(), vec![stop]], stops },
        };
        if has_soft_windows(table.customers) {
            let whole = priced(table, &place.trial.stops);
            (place.cost, place.other_cost) = (whole - priced(table, round), whole);
            place.dear = place.cost >= alone(table, stop);
        }
        place
    }
}

fn alone(table: &Table, stop: usize) -> f64 {
    priced(table, &[stop]) + driver(table).fixed_cost_in_distance()
}

impl Seen {
    /// Insertion on one table; false where rounds or stops set aside are not the Rust's.
    pub fn insertion(&mut self, problem: &Problem, table: &Table, solution: &Solution) -> bool {
        let mut opened = 0;
        let (rounds, aside) = inserted(table, |left, event| match event {
            Event::Seed { seed, opens } => {
                self.seed(table, left, *seed, *opens);
                opened += usize::from(*opens);
                let more = solution.num_routes() > opened;
                self.mark(Kind::SeedBetween, !opens && opened > 0 && more);
            }
            Event::Round { round, places, taken } => {
                self.loads(table, round, left);
                self.places(table, places);
                if let Some(taken) = taken {
                    self.taken(table, round, places, taken);
                }
            }
        });
        self.mark(Kind::AsideTurned, !aside.is_sorted());
        let several = num_depots(&problem.customers) > 1;
        self.mark(Kind::InsertDepots, several && rounds.iter().any(|round| round.len() > 1));
        let made = solution.routes().iter().map(|round| round.customer_ids());
        rounds.into_iter().eq(made) && aside == solution.unassigned()
    }

    fn seed(&mut self, table: &Table, left: &[usize], seed: usize, opens: bool) {
        let far = |stop: usize| table.distances.get(driver(table).depot_id(), stop);
        let equal = left.iter().filter(|&&stop| far(stop) == far(seed)).count();
        self.mark(Kind::SeedTie, equal > 1 && far(seed) > 0.0);
        self.mark(Kind::SeedZero, equal > 1 && far(seed) == 0.0);
        let over = load(table, &[seed]) > driver(table).capacity();
        self.mark(Kind::SeedCapacity, over);
        self.mark(Kind::SeedWalk, !opens && !over);
    }

    fn loads(&mut self, table: &Table, round: &[usize], left: &[usize]) {
        for &stop in left {
            let load = load(table, round) + load(table, &[stop]);
            self.loaded(table, load, [Kind::InsertCapacityMet, Kind::InsertCapacityOver]);
        }
    }

    fn places(&mut self, table: &Table, places: &[Place]) {
        let soft = has_soft_windows(table.customers);
        let fixed = driver(table).fixed_cost_in_distance();
        for place in places {
            self.walk(table, &place.trial.stops, place.passes, &WALKS);
            if soft && place.passes {
                let alone = alone(table, place.stop);
                self.mark(Kind::InsertTieAlone, place.cost == alone);
                self.mark(Kind::InsertDear, place.cost > alone);
                let [round, lone] = [0, 1].map(|part| priced(table, &place.trial.parts[part]));
                let whole = priced(table, &place.trial.stops);
                let others = [place.cost - fixed >= lone, whole >= round + (lone + fixed)];
                self.mark(Kind::InsertDearOrder, others.contains(&!place.dear));
            }
        }
    }

    fn taken(&mut self, table: &Table, round: &[usize], places: &[Place], taken: &Place) {
        let soft = has_soft_windows(table.customers);
        let fits = || places.iter().filter(|place| place.passes && !place.dear);
        let equal = || fits().filter(|place| place.cost == taken.cost);
        self.mark(Kind::InsertTie, equal().any(|place| place.stop != taken.stop));
        self.mark(Kind::PlaceTie, equal().filter(|place| place.stop == taken.stop).count() > 1);
        let first = |place: &&Place| place.other_cost < taken.other_cost;
        let tied = |place: &&Place| place.other_cost == taken.other_cost;
        let other = fits().find(tied).is_some_and(|p| (p.stop, p.at) != (taken.stop, taken.at));
        let order = if soft { Kind::InsertWhole } else { Kind::InsertOrder };
        self.mark(order, fits().any(|place| first(&place)) || other);
        self.mark(Kind::PlaceFirst, taken.at == 0);
        self.mark(Kind::PlaceInner, taken.at > 0 && taken.at < round.len());
        self.mark(Kind::PlaceLast, taken.at == round.len());
        self.mark(Kind::InsertNegative, taken.cost < 0.0);
        let only = !passes(table, &[taken.stop]);
        self.mark(Kind::InsertOnly, only);
        self.mark(Kind::InsertOnlySoft, only && soft);
    }
}
