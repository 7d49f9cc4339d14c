//! What a plan has met: the boundaries that a port could get wrong, counted so that none is left
//! out by chance.

use std::cell::RefCell;

use u_routing::distance::DistanceMatrix;
use u_routing::evaluation::{has_soft_windows, route_eval, RouteEval, RouteLimits};
use u_routing::home::evaluation::unmarked_limits;
use u_routing::models::{num_depots, Customer, Solution, Vehicle, VehicleBreak};

use crate::greedy::{follow, Candidate, Front, Out};
use crate::inserts;
use crate::reference::{Problem, Table};
use crate::refusal::METHODS;
use crate::sheet::{INSERTION, NEAREST, NN_TW, SAVINGS, SWEEP};

const GREEDY: &[u8] = &[NEAREST, NN_TW];
/// Stands for the limiter where a method is asked for.
pub const LIMITER: u8 = u8::MAX;

macro_rules! kinds {
    ($($methods:expr => { $($kind:ident $name:literal,)* })*) => {
        #[derive(Clone, Copy)]
        pub enum Kind { $($($kind,)*)* }
        /// Each with the methods that have to meet it.
        const KINDS: &[(&str, &[u8])] = &[$($(($name, $methods),)*)*];
    };
}

kinds! {
    GREEDY => {
        Tie "two candidates tie in the key",
        CapacityMet "capacity met exactly",
        CapacityOver "capacity passed by one",
        DistanceMet "distance = maximum",
        DistanceOver "distance one step over",
        DurationMet "duration = maximum",
        DurationOver "duration one step over",
        DistanceOrder "the order of the distance's sum decides",
        DurationOrder "the order of the duration's sum decides",
        ClockOrder "the rounding of the clock decides",
    }
    &[NN_TW] => {
        WaitOrder "the rounding of the wait decides",
        DearOrder "the order of the cost's sum decides",
    }
    GREEDY => {
        Due "arrival = due",
        Overdue "arrival one step after due",
        Unready "ready one step after arrival",
        Waiting "waiting rounds",
    }
    METHODS => {
        Late "late at a soft window",
    }
    &[NN_TW] => {
        LateKey "lateness decides the key",
        Dear "the soft rule decides",
        DearTie "the soft rule at its tie",
        DearAlone "the soft rule where none goes alone",
    }
    GREEDY => {
        Restless "return = earliest",
        RestNeeded "return one step after earliest",
        RestLatest "rest starts at latest",
        RestTooLate "rest one step after latest",
        RestLater "rest after the first stop",
        RestDue "rest ends at due",
        RestMet "rested duration = maximum",
        RestOver "rested duration one step over",
    }
    &[NEAREST] => {
        RecordOver "a record over its maximum",
        RecordLate "a hard window missed",
    }
    GREEDY => {
        Idle "a vehicle without a round",
        RunOut "vehicles run out",
    }
    METHODS => {
        Unpriced "a plan that is not priced",
        Unmade "a priced plan without rounds",
    }
    GREEDY => {
        NoVehicle "no vehicle",
    }
    METHODS => {
        DepotWindow "a window on a depot row",
        DepotSoft "a soft window on a depot row alone",
        SecondDepot "a stop at its second depot",
        ThirdDepot "a stop at its third depot",
    }
    GREEDY => {
        Displaced "a stop displaced",
    }
    METHODS => {
        DepotTie "two depots equally near",
        DepotBack "another depot nearer on the way back",
        DepotBare "the nearest depot without a vehicle",
        DepotHard "a depot without the sheet's soft windows",
        AsideOfAll "a stop set aside by several depots",
    }
    &[SAVINGS] => {
        EqualSavings "a join among equal savings",
        ZeroSaving "a saving of 0",
        FixedSaves "a saving by the fixed cost alone",
        SavingOrder "the order of the saving's sum decides",
        BothWays "savings where legs are alike both ways",
        OneWay "savings where legs are not",
        OneLeg "one leg alone is not as its way back",
        OneWayElsewhere "legs not alike beyond the depot's rows",
        OneWayTimes "times not alike both ways, distances so",
        EndToStart "a join, end to start",
        StartToEnd "a join, start to end",
        EndToEnd "a join, end to end",
        StartToStart "a join, start to start",
        Unturned "a join that asks for turning one-way legs",
        Inside "a saving of a stop inside its round",
        JoinCapacityMet "a join's load = capacity",
        JoinCapacityOver "a join's load one over",
        LoneOver "a lone stop over capacity",
        NoRound "a saving of a stop without a round",
        JoinLate "a join refused by a window",
        JoinFar "a join refused by the maximum distance",
        JoinLong "a join refused by the maximum duration",
        JoinRest "a join refused by the rest",
        JoinDistanceMet "a join's distance = maximum",
        JoinDistanceOver "a join's distance one step over",
        JoinDurationMet "a join's duration = maximum",
        JoinDurationOver "a join's duration one step over",
        JoinTie "a join as dear as apart",
        JoinDear "a join dearer than apart",
        JoinCheap "a join cheaper than apart, and late",
        SavedNothing "a saving that rounding takes back",
        JoinOrder "the order of the sum of apart decides",
        JoinDepots "joins where there are several depots",
    }
    &[INSERTION] => {
        SeedTie "two stops farthest",
        SeedZero "the farthest of several at distance 0",
        SeedCapacity "a seed set aside by capacity",
        SeedWalk "a seed set aside by the walk",
        SeedBetween "a seed set aside between rounds",
        AsideTurned "stops set aside not ascending, inserting",
        InsertTie "the least insertion of two stops",
        PlaceTie "the least insertion at two places",
        InsertOrder "the order of the insertion's sum decides",
        InsertWhole "the rounding of the cost added decides",
        InsertCapacityMet "an insertion's load = capacity",
        InsertCapacityOver "an insertion's load one over",
        PlaceLate "a place refused by a window",
        PlaceFar "a place refused by the maximum distance",
        PlaceLong "a place refused by the maximum duration",
        PlaceRest "a place refused by the rest",
        PlaceDistanceMet "a place's distance = maximum",
        PlaceDistanceOver "a place's distance one step over",
        PlaceDurationMet "a place's duration = maximum",
        PlaceDurationOver "a place's duration one step over",
        PlaceFirst "the place before the first stop wins",
        PlaceInner "a place between stops wins",
        PlaceLast "the place after the last stop wins",
        InsertNegative "an insertion that costs less than nothing",
        InsertTieAlone "an insertion as dear as alone",
        InsertDear "an insertion dearer than alone",
        InsertDearOrder "the order of the sum of alone decides",
        InsertOnly "a stop that cannot go alone is inserted",
        InsertOnlySoft "such a stop where windows are soft",
        InsertDepots "insertions where there are several depots",
    }
    &[SWEEP] => {
        Collinear "one direction, two lengths",
        Colocated "two stops on one point",
        OnDepot "a stop on the depot's point",
        OnDepotTie "such a stop, and one at angle 0",
        Opposite "two stops in opposite directions",
        AngleZero "angle 0",
        AnglePi "angle π",
        AngleDown "angle -π/2",
        AngleUp "angle π/2",
        AroundPi "angle π, and one just above -π",
        FarApart "a stop 2,000,000 from its depot",
        Corner "a stop at two ends of the range",
        NearDirections "directions as near as can be, far out",
        EqualTurned "equal directions, the later row nearer",
        SweepCapacityMet "a swept load = capacity",
        SweepCapacityOver "a swept load one over",
        SweepFull "a round closed by capacity",
        SweepLate "a round closed by a window",
        SweepFar "a round closed by the maximum distance",
        SweepLong "a round closed by the maximum duration",
        SweepRest "a round closed by the rest",
        SweepDistanceMet "a swept distance = maximum",
        SweepDistanceOver "a swept distance one step over",
        SweepDurationMet "a swept duration = maximum",
        SweepDurationOver "a swept duration one step over",
        SweepAsideFull "a stop set aside by capacity, sweeping",
        SweepAsideWalk "a stop set aside by the walk, sweeping",
        SweepAside "a stop set aside within a round",
        SweepAsideTurned "stops set aside not ascending, sweeping",
        SweepDepots "sweeps where there are several depots",
    }
    &[LIMITER] => {
        NoneDropped "no round dropped",
        GreatestZero "greatest 0",
        GreatestMet "greatest = rounds",
        GreatestAbove "greatest one above the rounds",
        GreatestWide "greatest above the rounds in its high half",
        GreatestMost "greatest 4294967295",
        NoRow "no row",
        NoStop "a depot alone",
        NoStopRound "an empty round of a depot alone",
        AllRounds "as many rounds as rows",
        LoneRounds "one stop a round",
        OneVehicle "all rounds of one vehicle",
        Fleet "rounds of several vehicles, one again",
        EmptyFirst "an empty round first",
        EmptyInner "an empty round between others",
        EmptyLast "an empty round last",
        EmptySeveral "several empty rounds",
        AllAside "all stops set aside before",
        AsideBeforeTurned "stops set aside before not ascending",
        UnreadRows "another number of rows in the plan in",
        UnreadRecord "a record after the last round not zero",
        UnreadDepot "the depot's record not zero",
        LimitDepotWindow "a window on the depot's row alone",
        LimitDepotSoft "a soft window there alone",
        VictimStops "loads tie, fewer stops drop a later round",
        VictimStopsLater "loads tie, fewer stops drop an earlier",
        VictimFirst "loads and stops tie, the first is dropped",
        VictimEmpty "an empty round dropped",
        VictimIdle "such, and another has load 0 and stops",
        VictimInner "a round between others dropped",
        VictimUnlike "such, of another vehicle than both",
        VictimOver "a round over capacity dropped",
        DroppedAgain "a stop dropped twice",
        MoveStopTie "the cheapest move of two stops",
        MoveRoundTie "the cheapest move into two rounds",
        MovePlaceTie "the cheapest move at two places",
        MoveOrder "the order of the detour's sum decides",
        MoveWhole "cost added, not the round's, decides",
        MoveLateCost "a move that makes its round later",
        MoveNegative "a move that costs less than nothing",
        MoveFirst "a move before the first stop",
        MoveInner "a move between stops",
        MoveLast "a move after the last stop",
        MoveLater "a stop moved before the first pending",
        MoveUnlike "a move among unlike vehicles",
        MoveCapacityMet "a move's load = capacity",
        MoveCapacityOver "a move's load one over",
        MoveFull "a move to a round over capacity",
        MoveFullIdle "such, of demand 0",
        MoveLate "a move refused by a window",
        MoveRest "a move refused by the rest",
        MoveFar "a move refused by the maximum distance",
        MoveLong "a move refused by the maximum duration",
        MoveDistanceMet "a move's distance = maximum",
        MoveDistanceOver "a move's distance one step over",
        MoveDurationMet "a move's duration = maximum",
        MoveDurationOver "a move's duration one step over",
        MoveNext "a place refused, a dearer one taken",
        MoveBarred "a soft round that is not allowed as it is",
        MoveMends "a move that makes its round allowed",
        MoveOn "a move behind five stops, with windows",
        MoveOnLate "such a place, one of those stops late",
        MoveOnMissed "such a place, its window or a later missed",
        MoveOnLost "such a place, a window missed before it",
        MoveAfter "a stop that fits only after another",
        MoveBefore "a stop that fits until another is moved",
        KeptOver "a round over capacity kept",
        KeptLost "a round that is not allowed kept",
        KeptRestless "such, of a vehicle with a rest",
        KeptEmpty "an empty round kept",
        KeptEmptyFar "such, with a leg from depot to depot",
        LimitRest "a rest in the plan out",
        LimitRestLater "such, after the first stop",
        LimitLate "late at a soft window, limited",
        DroppedAside "a dropped stop set aside",
        DroppedBetween "such, before one set aside before",
        LimitUnmade "a plan out without rounds",
        LimitCostOrder "the order of the plan out's cost decides",
    }
}

/// The name of each kind that a planner of these methods has to meet, and its place among all.
pub fn kinds(methods: &[u8]) -> impl Iterator<Item = (usize, &'static str)> + '_ {
    let met = |of: &[u8]| of.iter().any(|method| methods.contains(method));
    let all = KINDS.iter().enumerate();
    all.filter_map(move |(kind, (name, of))| met(of).then_some((kind, *name)))
}

/// The kinds of one plan.
#[derive(Clone, Copy)]
pub struct Seen([bool; KINDS.len()]);

impl Default for Seen {
    fn default() -> Seen {
        Seen([false; KINDS.len()])
    }
}

impl Seen {
    pub fn mark(&mut self, kind: Kind, met: bool) {
        self.0[kind as usize] |= met;
    }

    pub fn has(&self, kind: usize) -> bool {
        self.0[kind]
    }
}

/// A problem's solution and what it has met; the text tells where this module does not follow.
pub fn solved(problem: &Problem) -> (Solution, Seen, Option<&'static str>) {
    let seen = RefCell::new(Seen::default());
    let turned_down = RefCell::new(Vec::new());
    let followed = RefCell::new(true);
    let solution = problem.solution_by(|table| {
        let solution = table.solution();
        let mut seen = seen.borrow_mut();
        *followed.borrow_mut() &= seen.steps(problem, table, &solution);
        seen.records(table, &solution);
        seen.rows(table, problem);
        turned_down.borrow_mut().push(solution.unassigned().to_vec());
        solution
    });
    let mut seen = seen.into_inner();
    seen.whole(problem, &solution);
    if num_depots(&problem.customers) > 1 {
        seen.depots(problem, &solution, &turned_down.into_inner());
    }
    let lost = (!followed.into_inner()).then_some("the steps of a solution are not the Rust's");
    (solution, seen, lost)
}

impl Seen {
    /// One table's construction; false where it is not the Rust's.
    fn steps(&mut self, problem: &Problem, table: &Table, solution: &Solution) -> bool {
        let rows = table.customers.len();
        match table.method {
            _ if rows <= 1 && !GREEDY.contains(&table.method) => true,
            SAVINGS => self.savings(problem, table, solution),
            INSERTION => rows > inserts::MOST_ROWS || self.insertion(problem, table, solution),
            SWEEP => self.sweep(problem, table, solution),
            _ => {
                self.vehicles(table, solution);
                follow(table, solution, |front, candidates, taken| {
                    self.step(table, front, candidates, taken);
                })
            }
        }
    }

    /// One step of a nearest neighbour.
    fn step(&mut self, table: &Table, front: &Front, all: &[Candidate], taken: Option<usize>) {
        let best = all.iter().find(|candidate| Some(candidate.stop) == taken);
        let key = best.map_or(f64::INFINITY, |best| best.key);
        let fits = || all.iter().filter(|candidate| candidate.out.is_none());
        self.mark(Kind::Tie, fits().filter(|candidate| candidate.key == key).count() > 1);
        for candidate in all {
            self.capacity(front, candidate);
            if candidate.out != Some(Out::Capacity) {
                self.maxima(front, candidate);
                self.rest(table, front, candidate);
                self.windows(table, front, candidate);
            }
            if table.method == NN_TW && candidate.out.is_none_or(|out| out == Out::Dear) {
                self.soft_rule(front, candidate, key);
            }
        }
        if let Some(best) = best {
            let there = |stop| table.distances.get(front.current(), stop);
            let nearer = |other: &Candidate| there(other.stop) < there(best.stop);
            self.mark(Kind::LateKey, fits().any(nearer));
        }
    }

    fn capacity(&mut self, front: &Front, candidate: &Candidate) {
        let over = candidate.load - front.driver.capacity();
        self.mark(Kind::CapacityMet, over == 0);
        self.mark(Kind::CapacityOver, over == 1);
    }

    fn maxima(&mut self, front: &Front, candidate: &Candidate) {
        let limits = RouteLimits::of(front.driver);
        if limits.rest.is_some() {
            return;
        }
        let (distance, duration) = (Some(candidate.distance), Some(candidate.duration));
        self.mark(Kind::DistanceMet, distance == limits.max_distance);
        self.mark(Kind::DistanceOver, distance == limits.max_distance.map(f64::next_up));
        self.mark(Kind::DurationMet, duration == limits.max_duration);
        self.mark(Kind::DurationOver, duration == limits.max_duration.map(f64::next_up));
        let apart = |one: f64, other, max: Option<f64>| {
            max.is_some_and(|max| (one <= max) != (other <= max))
        };
        let (one, other) = (candidate.distance, candidate.other_distance);
        self.mark(Kind::DistanceOrder, apart(one, other, limits.max_distance));
        let kinds = [Kind::DurationOrder, Kind::ClockOrder, Kind::WaitOrder];
        for (kind, other) in kinds.into_iter().zip(candidate.other_durations) {
            self.mark(kind, apart(candidate.duration, other, limits.max_duration));
        }
    }

    fn rest(&mut self, table: &Table, front: &Front, candidate: &Candidate) {
        let limits = unmarked_limits(&RouteLimits::of(front.driver));
        let Some(rest) = limits.rest else { return };
        let (stops, depot) = (front.with(candidate.stop), front.driver.depot_id());
        let eval = |limits: &RouteLimits| -> Option<RouteEval> {
            route_eval(&stops, depot, table.distances, table.customers, limits)
        };
        let home = eval(&RouteLimits::NONE).map(|eval| eval.duration);
        self.mark(Kind::Restless, home == Some(rest.earliest()));
        self.mark(Kind::RestNeeded, home == Some(rest.earliest().next_up()));
        let only = |rest| RouteLimits { rest: Some(rest), ..RouteLimits::NONE };
        if let Some(rested) = eval(&only(rest)) {
            let duration = Some(rested.duration);
            self.mark(Kind::RestMet, duration == limits.max_duration);
            self.mark(Kind::RestOver, duration == limits.max_duration.map(f64::next_up));
            self.mark(Kind::RestLatest, rested.rest.is_some_and(|(_, at)| at == rest.latest()));
            self.mark(Kind::RestLater, rested.rest.is_some_and(|(index, _)| index > 0));
            let ends = |(index, at): (usize, f64)| (stops[index], at + rest.duration());
            let due = |stop: usize| table.customers[stop].time_window().map(|w| w.due());
            let at_due = |(stop, end)| due(stop) == Some(end);
            self.mark(Kind::RestDue, rested.rest.map(ends).is_some_and(at_due));
        } else {
            let later = rest.latest().next_up();
            let later = VehicleBreak::new(rest.earliest(), later, rest.duration());
            self.mark(Kind::RestTooLate, eval(&only(later)).is_some());
        }
    }

    fn windows(&mut self, table: &Table, front: &Front, candidate: &Candidate) {
        let customer = &table.customers[candidate.stop];
        let Some(window) = customer.time_window() else { return };
        if table.method == NEAREST && front.driver.rest().is_none() {
            return;
        }
        let (arrival, ready) = (candidate.arrival, window.ready());
        let hard = customer.lateness_penalty().is_none();
        self.mark(Kind::Due, arrival == window.due());
        self.mark(Kind::Overdue, hard && arrival == window.due().next_up());
        self.mark(Kind::Unready, ready == arrival.next_up());
        self.mark(Kind::Waiting, ready > arrival && arrival + (ready - arrival) != ready);
    }

    /// `key` is that of the candidate taken.
    fn soft_rule(&mut self, front: &Front, candidate: &Candidate, key: f64) {
        if front.stops.is_empty() || !front.soft {
            return;
        }
        let dear = candidate.out == Some(Out::Dear);
        self.mark(Kind::Dear, dear && candidate.key < key);
        self.mark(Kind::DearTie, dear && candidate.added == candidate.alone);
        self.mark(Kind::DearAlone, candidate.alone.is_infinite());
        let dear_otherwise = candidate.other_added >= candidate.alone;
        self.mark(Kind::DearOrder, dear != dear_otherwise);
    }

    fn vehicles(&mut self, table: &Table, solution: &Solution) {
        let rounds = solution.num_routes();
        let drives = |vehicle: &Vehicle| {
            solution.routes().iter().any(|round| round.vehicle_id() == vehicle.id())
        };
        let last = table.vehicles.iter().rposition(drives).unwrap_or(0);
        self.mark(Kind::Idle, rounds > 0 && !table.vehicles[..last].iter().all(drives));
        self.mark(Kind::RunOut, rounds == table.vehicles.len() && solution.num_unassigned() > 0);
    }

    fn records(&mut self, table: &Table, solution: &Solution) {
        for round in solution.routes() {
            let driver = table.vehicles.iter().find(|vehicle| vehicle.id() == round.vehicle_id());
            let limits = driver.map_or(RouteLimits::NONE, RouteLimits::of);
            let over = !limits.allow(round.total_distance(), round.total_duration());
            self.mark(Kind::RecordOver, over);
            self.mark(Kind::Late, round.total_lateness() > 0.0);
            self.mark(
                Kind::RecordLate,
                round.visits().iter().any(|visit| {
                    let customer = &table.customers[visit.customer_id];
                    let late = customer.time_window().is_some_and(|w| visit.arrival_time > w.due());
                    late && customer.lateness_penalty().is_none()
                }),
            );
        }
    }

    /// What the depot's row and the others of its table say.
    fn rows(&mut self, table: &Table, problem: &Problem) {
        let soft = has_soft_windows(table.customers);
        let depot = &table.customers[..table.customers.len().min(1)];
        self.mark(Kind::DepotWindow, depot.iter().any(|depot| depot.time_window().is_some()));
        let others = &table.customers[depot.len()..];
        self.mark(Kind::DepotSoft, has_soft_windows(depot) && !has_soft_windows(others));
        self.mark(Kind::DepotHard, !soft && has_soft_windows(&problem.customers));
    }

    fn whole(&mut self, problem: &Problem, solution: &Solution) {
        let cost = solution.total_cost();
        let unmade = solution.num_routes() == 0;
        self.mark(Kind::Unpriced, unmade && cost.is_sign_positive());
        self.mark(Kind::Unmade, unmade && cost.is_sign_negative());
        self.mark(Kind::NoVehicle, problem.vehicles.is_empty());
    }

    /// `turned_down` holds what each planning of a depot left, in the order in which they came.
    fn depots(&mut self, problem: &Problem, solution: &Solution, turned_down: &[Vec<usize>]) {
        let Problem { customers, distances, vehicles, .. } = problem;
        let depots = num_depots(customers);
        let bare = |depot: &usize| vehicles.iter().all(|vehicle| vehicle.depot_id() != *depot);
        let mut home = vec![None; customers.len()];
        for round in solution.routes() {
            let driver = vehicles.iter().find(|vehicle| vehicle.id() == round.vehicle_id());
            round
                .customer_ids()
                .iter()
                .for_each(|&stop| home[stop] = driver.map(Vehicle::depot_id));
        }
        let at_first = kept_at_first(customers, distances, &bare, turned_down);
        for stop in depots..customers.len() {
            let there = |&depot: &usize| distances.get(depot, stop);
            let nearest = nearest_first(depots, there);
            let offered: Vec<usize> = nearest.iter().copied().filter(|d| !bare(d)).collect();
            let back = nearest_first(depots, |&depot: &usize| distances.get(stop, depot));
            let rank = home[stop].and_then(|home| offered.iter().position(|&d| d == home));
            self.mark(Kind::SecondDepot, rank == Some(1));
            self.mark(Kind::ThirdDepot, rank == Some(2));
            self.mark(Kind::Displaced, at_first[stop] && rank != Some(0));
            self.mark(Kind::DepotTie, offered.windows(2).any(|d| there(&d[0]) == there(&d[1])));
            self.mark(Kind::DepotBack, nearest != back);
            self.mark(Kind::DepotBare, nearest[0] != offered.first().copied().unwrap_or(depots));
            self.mark(Kind::AsideOfAll, rank.is_none() && offered.len() > 1);
        }
    }
}

fn nearest_first(depots: usize, far: impl Fn(&usize) -> f64) -> Vec<usize> {
    let mut nearest: Vec<usize> = (0..depots).collect();
    nearest.sort_by(|a, b| far(a).total_cmp(&far(b)));
    nearest
}

/// The stops that their nearest depot kept when it was first planned.
fn kept_at_first(
    customers: &[Customer],
    distances: &DistanceMatrix,
    bare: &impl Fn(&usize) -> bool,
    turned_down: &[Vec<usize>],
) -> Vec<bool> {
    let depots = num_depots(customers);
    let mut kept = vec![false; customers.len()];
    let mut plannings = turned_down.iter();
    for depot in 0..depots {
        let first = |&stop: &usize| {
            let nearest = nearest_first(depots, |&depot: &usize| distances.get(depot, stop));
            nearest.iter().find(|&d| !bare(d)) == Some(&depot)
        };
        let members: Vec<usize> = (depots..customers.len()).filter(first).collect();
        if members.is_empty() {
            continue;
        }
        let left = plannings.next().map_or(&[][..], |left| left);
        for (k, &stop) in members.iter().enumerate() {
            kept[stop] = !left.contains(&(k + 1));
        }
    }
    kept
}
