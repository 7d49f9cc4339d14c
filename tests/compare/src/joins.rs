//! Savings, join by join: the Rust's rules told again, so that sheets can be fitted to the joins
//! that are tried and boundaries be counted.

use u_routing::evaluation::has_soft_windows;
use u_routing::models::{num_depots, Solution};

use crate::kinds::{Kind, Seen};
use crate::reference::{Problem, Table};
use crate::trial::{driver, load, passes, priced, Trial, WalkKinds};

const WALKS: WalkKinds = WalkKinds {
    refused: [Kind::JoinLate, Kind::JoinRest, Kind::JoinFar, Kind::JoinLong],
    distance: [Kind::JoinDistanceMet, Kind::JoinDistanceOver],
    duration: [Kind::JoinDurationMet, Kind::JoinDurationOver],
};

/// The edge from `i` to `j` and what it saves; `sums` are the same in other orders of its sum.
pub struct Saving {
    i: usize,
    j: usize,
    value: f64,
    sums: [f64; 3],
}

/// What becomes of a saving.
#[derive(Clone, Copy, PartialEq)]
enum Fate {
    SameRound,
    NoRound,
    Capacity,
    /// Legs are not alike both ways, and one of the two rounds would have to be turned.
    Unturned,
    Inside,
    Refused,
    Dear,
    Joined,
}

/// Which ends of the rounds of `i` and `j` are joined.
#[derive(Clone, Copy)]
enum Way {
    EndToStart,
    StartToEnd,
    EndToEnd,
    StartToStart,
}

/// A saving in its turn. The parts are the round joined into and the other, as they were.
pub struct Join<'a> {
    saving: &'a Saving,
    fate: Fate,
    load: i32,
    way: Option<Way>,
    into: usize,
    pub trial: Option<Trial>,
}

fn directed(table: &Table) -> bool {
    !table.distances.is_symmetric(0.0)
}

/// The savings of a table as generated, those that are not positive too.
fn generated(table: &Table) -> Vec<Saving> {
    let (depot, fixed) = (driver(table).depot_id(), driver(table).fixed_cost_in_distance());
    let (stops, directed) = (1..table.customers.len(), directed(table));
    let leg = |from, to| table.distances.get(from, to);
    let saving = |(i, j)| {
        let (home, out, between) = (leg(i, depot), leg(depot, j), leg(i, j));
        let value = home + out - between + fixed;
        let sums = [
            home - between + out + fixed,
            home + (out - between) + fixed,
            home + out + (fixed - between),
        ];
        Saving { i, j, value, sums }
    };
    let pairs = stops.clone().flat_map(|i| stops.clone().map(move |j| (i, j)));
    pairs.filter(|&(i, j)| i < j || (directed && j < i)).map(saving).collect()
}

/// Those that are positive, greatest first.
fn savings(table: &Table) -> Vec<Saving> {
    let mut savings = generated(table);
    savings.retain(|saving| saving.value > 0.0);
    savings.sort_by(|one, other| other.value.total_cmp(&one.value));
    savings
}

/// The rounds that savings make, by the stop that each is counted by; `see` is shown each saving
/// in its turn.
pub fn joined(table: &Table, mut see: impl FnMut(&Join)) -> Vec<Vec<usize>> {
    let rows = 0..table.customers.len();
    let lone = |stop| if stop > 0 && passes(table, &[stop]) { vec![stop] } else { vec![] };
    let mut rounds: Vec<Vec<usize>> = rows.map(lone).collect();
    let (directed, soft) = (directed(table), has_soft_windows(table.customers));
    for saving in savings(table) {
        let mut join = Join::of(table, &rounds, &saving, directed);
        join.judge(table, soft);
        see(&join);
        if let (Fate::Joined, Some(trial)) = (join.fate, join.trial) {
            let last = trial.parts[1][0];
            let from = rounds.iter().position(|round| round.contains(&last)).expect("a round");
            rounds[from].clear();
            rounds[join.into] = trial.stops;
        }
    }
    rounds
}

impl Join<'_> {
    /// Up to how the two rounds are joined.
    fn of<'a>(
        table: &Table,
        rounds: &[Vec<usize>],
        saving: &'a Saving,
        directed: bool,
    ) -> Join<'a> {
        let found = |stop| rounds.iter().position(|round| round.contains(&stop));
        let mut join =
            Join { saving, fate: Fate::NoRound, load: 0, way: None, into: 0, trial: None };
        let (Some(one), Some(other)) = (found(saving.i), found(saving.j)) else { return join };
        if one == other {
            join.fate = Fate::SameRound;
            return join;
        }
        join.load = load(table, &rounds[one]) + load(table, &rounds[other]);
        if join.load > driver(table).capacity() {
            join.fate = Fate::Capacity;
            return join;
        }
        join.join(one, other, rounds, directed);
        join
    }

    fn join(&mut self, one: usize, other: usize, rounds: &[Vec<usize>], directed: bool) {
        let [i, j] = [&rounds[one], &rounds[other]];
        let (i_first, i_last) = (i[0] == self.saving.i, i[i.len() - 1] == self.saving.i);
        let (j_first, j_last) = (j[0] == self.saving.j, j[j.len() - 1] == self.saving.j);
        let turned = |round: &[usize]| round.iter().rev().copied().collect::<Vec<usize>>();
        let (way, into, stops) = if i_last && j_first {
            (Way::EndToStart, one, [&i[..], j].concat())
        } else if i_first && j_last {
            (Way::StartToEnd, other, [&j[..], i].concat())
        } else if i_last && j_last {
            (Way::EndToEnd, one, [&i[..], &turned(j)].concat())
        } else if i_first && j_first {
            (Way::StartToStart, one, [&turned(i)[..], j].concat())
        } else {
            self.fate = Fate::Inside;
            return;
        };
        if directed && !matches!(way, Way::EndToStart) {
            self.fate = Fate::Unturned;
            return;
        }
        let parts = if into == one { [i.clone(), j.clone()] } else { [j.clone(), i.clone()] };
        (self.way, self.into) = (Some(way), into);
        self.trial = Some(Trial { parts, stops });
    }

    fn judge(&mut self, table: &Table, soft: bool) {
        let Some(trial) = &self.trial else { return };
        let fixed = driver(table).fixed_cost_in_distance();
        let apart = || trial.parts.iter().map(|part| priced(table, part)).sum::<f64>();
        self.fate = if !passes(table, &trial.stops) {
            Fate::Refused
        } else if soft && priced(table, &trial.stops) >= apart() + fixed {
            Fate::Dear
        } else {
            Fate::Joined
        };
    }
}

impl Seen {
    /// Savings of one table; false where the rounds are not the Rust's.
    pub fn savings(&mut self, problem: &Problem, table: &Table, solution: &Solution) -> bool {
        let mut met = Vec::new();
        let rounds = joined(table, |join| {
            self.join(table, join);
            if join.fate == Fate::Joined {
                met.push(join.saving.value);
            }
        });
        self.saving_values(table, &met);
        self.legs(problem, table);
        let several = num_depots(&problem.customers) > 1;
        self.mark(Kind::JoinDepots, several && !met.is_empty());
        let capacity = driver(table).capacity();
        let made = || rounds.iter().filter(|round| !round.is_empty());
        self.mark(Kind::LoneOver, made().any(|r| r.len() == 1 && load(table, r) > capacity));
        made().cloned().eq(solution.routes().iter().map(|round| round.customer_ids()))
    }

    fn join(&mut self, table: &Table, join: &Join) {
        let fates = [
            (Kind::NoRound, Fate::NoRound),
            (Kind::Unturned, Fate::Unturned),
            (Kind::Inside, Fate::Inside),
        ];
        fates.into_iter().for_each(|(kind, fate)| self.mark(kind, join.fate == fate));
        if join.load > 0 {
            self.loaded(table, join.load, [Kind::JoinCapacityMet, Kind::JoinCapacityOver]);
        }
        let Some(trial) = &join.trial else { return };
        self.walk(table, &trial.stops, join.fate != Fate::Refused, &WALKS);
        let ways = [Kind::EndToStart, Kind::StartToEnd, Kind::EndToEnd, Kind::StartToStart];
        if let Some(way) = join.way {
            self.mark(ways[way as usize], join.fate == Fate::Joined);
        }
        if join.fate != Fate::Refused && has_soft_windows(table.customers) {
            self.join_costs(table, trial);
        }
    }

    /// The soft rule of a join that passes.
    fn join_costs(&mut self, table: &Table, trial: &Trial) {
        let fixed = driver(table).fixed_cost_in_distance();
        let [into, from] = [0, 1].map(|part| priced(table, &trial.parts[part]));
        let (whole, apart) = (priced(table, &trial.stops), into + from + fixed);
        let legs = |stops: &[usize]| {
            let depot = driver(table).depot_id();
            let ends = stops.iter().copied().chain([depot]);
            let starts = [depot].into_iter().chain(stops.iter().copied());
            starts.zip(ends).map(|(from, to)| table.distances.get(from, to)).sum::<f64>()
        };
        self.mark(Kind::JoinTie, whole == apart);
        self.mark(Kind::JoinDear, whole > apart);
        let late = whole > legs(&trial.stops);
        self.mark(Kind::JoinCheap, whole < apart && late);
        self.mark(Kind::SavedNothing, whole >= apart && !late);
        let others = [whole >= into + (from + fixed), whole - fixed >= into + from];
        self.mark(Kind::JoinOrder, others.contains(&(whole < apart)));
    }

    /// `joined` holds what the joins made saved.
    fn saving_values(&mut self, table: &Table, joined: &[f64]) {
        let fixed = driver(table).fixed_cost_in_distance();
        let all = generated(table);
        for saving in &all {
            self.mark(Kind::ZeroSaving, saving.value == 0.0);
            let value = saving.value;
            self.mark(Kind::FixedSaves, value > 0.0 && value - fixed <= 0.0);
        }
        let ordered = savings(table);
        for two in ordered.windows(2) {
            let [one, other] = [&two[0], &two[1]];
            let equal = one.value == other.value;
            self.mark(Kind::EqualSavings, equal && joined.contains(&one.value));
            let first = (one.i, one.j) < (other.i, other.j);
            let kept = |k: usize| match one.sums[k].total_cmp(&other.sums[k]) {
                std::cmp::Ordering::Equal => first,
                order => order.is_gt(),
            };
            self.mark(Kind::SavingOrder, !(0..3).all(kept));
        }
    }

    /// Where legs are alike both ways.
    fn legs(&mut self, problem: &Problem, table: &Table) {
        let rows = table.customers.len();
        if rows < 3 {
            return;
        }
        let pairs = (0..rows).flat_map(|from| (0..from).map(move |to| (from, to)));
        let pairs: Vec<(usize, usize)> = pairs.collect();
        let distances = table.distances;
        let unlike =
            |&&(from, to): &&(usize, usize)| distances.get(from, to) != distances.get(to, from);
        let unlike_times = |&(from, to): &(usize, usize)| {
            distances.travel_time(from, to) != distances.travel_time(to, from)
        };
        let count = pairs.iter().filter(unlike).count();
        self.mark(Kind::BothWays, count == 0);
        self.mark(Kind::OneWay, count > 1);
        self.mark(Kind::OneLeg, count == 1);
        self.mark(Kind::OneWayElsewhere, count == 0 && !problem.distances.is_symmetric(0.0));
        self.mark(Kind::OneWayTimes, count == 0 && pairs.iter().any(unlike_times));
    }
}
