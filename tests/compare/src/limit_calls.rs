//! Calls of the limiter, by flavour: plans that a planner makes, plans dealt at random and fitted
//! to what the limiter tries, damaged plans, and sheets that are turned back.
//!
//! A call depends on the seed and its number alone, so that each can be made again.

use crate::damage::{Base, Values};
use crate::fit::{fit_home, fit_maximum, fit_rest, fit_window, Round};
use crate::fit_return::fit_rest_at_home;
use crate::flavours::{any_sheet, Drawn, MOST_LENT};
use crate::generate::beside;
use crate::limiting::{limited, rounds, Event, Move, MOST_ROWS};
use crate::plan::{chains, encode, encode_chains, plan_len, Chains};
use crate::plan_damage::{damage_plan, fill_unread, DAMAGES};
use crate::random::Random;
use crate::reasoning::reasoned;
use crate::reference::Problem;
use crate::refusal::{METHODS, MOST_DEMAND, MOST_FIGURE};
use crate::sheet::{Header, Sheet, Vehicle, DEPOT, PENALTY, WINDOW};
use crate::trial::load;

/// One call of the limiter.
pub struct Call {
    pub flavour: usize,
    pub sheet: Vec<u8>,
    pub plan_in: Vec<u8>,
    pub greatest: u32,
    pub plan_out_len: usize,
}

/// Each with its share. The damages of a plan come first, then what is made of whole plans; the
/// tiny plans are not drawn but counted through.
pub const FLAVOURS: [(&str, usize); 18] = [
    (DAMAGES[0], 4),
    (DAMAGES[1], 3),
    (DAMAGES[2], 3),
    (DAMAGES[3], 3),
    (DAMAGES[4], 3),
    (DAMAGES[5], 3),
    (DAMAGES[6], 3),
    (DAMAGES[7], 4),
    (DAMAGES[8], 4),
    (DAMAGES[9], 4),
    ("planned", 40),
    ("dealt", 40),
    ("dealt, fitted", 80),
    ("lone rounds", 10),
    ("lengths", 4),
    ("refused", 12),
    ("depots", 6),
    ("tiny", 0),
];
pub const PLANNED: usize = 10;
const DEALT: usize = 11;
const FITTED: usize = 12;
const LONE: usize = 13;
const LENGTHS: usize = 14;
const REFUSED: usize = 15;
const DEPOTS: usize = 16;
pub const TINY: usize = 17;

/// The call of a number.
pub fn call(seed: u64, number: usize) -> Call {
    let random = &mut Random::numbered(seed, number);
    let flavour = random.by_share(FLAVOURS.iter().map(|(_, share)| *share));
    let mut sheet = any_sheet(METHODS, random);
    if flavour == DEPOTS {
        open_depots(&mut sheet, random);
    } else {
        close_depots(&mut sheet);
    }
    if matches!(flavour, DEALT | FITTED | LONE) && !random.one_in(3) {
        make_room(&mut sheet, random);
    }
    let rows = sheet.rows.len();
    let own = flavour == PLANNED || (flavour < PLANNED && random.one_in(2));
    let made = own.then(|| reasoned(&sheet, &Problem::taken(&sheet).solution()));
    let plan = match &made {
        Some(made) => chains(made, &sheet).expect("the Rust's plan has each stop once"),
        None if flavour == LONE => lone(&sheet, random),
        None => dealt(&sheet, random),
    };
    let mut greatest = greatest(plan.rounds.len(), random);
    if flavour == FITTED {
        if plan.rounds.len() > 1 && !random.one_in(4) {
            greatest = 1 + random.below(plan.rounds.len() - 1) as u32;
        }
        for _ in 0..1 + random.below(3) {
            fit(&mut sheet, &plan, greatest, random);
        }
    }
    let mut plan_in = made.unwrap_or_else(|| encode_chains(rows, &plan));
    if random.one_in(2) {
        fill_unread(&mut plan_in, &plan, rows, random);
    }
    let damage = match flavour {
        DEPOTS => Some(random.below(2 * DAMAGES.len())).filter(|&damage| damage < DAMAGES.len()),
        REFUSED if random.one_in(3) => Some(random.below(DAMAGES.len())),
        _ => Some(flavour).filter(|&flavour| flavour < PLANNED),
    };
    if let Some(damage) = damage {
        damage_plan(&mut plan_in, &sheet, &plan, damage, random);
    }
    let bytes = sheet.encode();
    let mut call = Call { flavour, sheet: bytes, plan_in, greatest, plan_out_len: plan_len(rows) };
    match flavour {
        LENGTHS => call.stretch(random),
        REFUSED => call.refuse(&sheet, random),
        _ => (),
    }
    call
}

impl Call {
    /// Which lengths are not those that the header asks for: the sheet's is 1, the plan in's 2, the
    /// plan out's 4.
    pub fn wrong_lengths(&self) -> usize {
        let header = Header::of(&self.sheet);
        let plan = plan_len(header.rows);
        let wrong = [
            self.sheet.len() != header.sheet_len(),
            self.plan_in.len() != plan,
            self.plan_out_len != plan,
        ];
        wrong.iter().enumerate().map(|(k, &wrong)| usize::from(wrong) << k).sum()
    }

    /// Lengths that are wrong, each as likely as not.
    fn stretch(&mut self, random: &mut Random) {
        let lens = [self.sheet.len(), self.plan_in.len(), self.plan_out_len];
        let [sheet, plan_in, plan_out] = lens.map(|len| {
            let wrong = [len - 1, len + 1, len - 16, len + 16, len + 80, len / 2, 0, 2 * len];
            let wrong = random.pick(&wrong);
            random.pick(&[len, wrong])
        });
        self.sheet.resize(sheet, 0);
        self.plan_in.resize(plan_in, 0);
        self.plan_out_len = plan_out;
    }

    fn refuse(&mut self, sheet: &Sheet, random: &mut Random) {
        let case = Base::new(sheet).damaged(&Values::all(), random);
        self.sheet = case.sheet;
        let len = case.plan_len % MOST_LENT;
        if random.one_in(2) {
            self.plan_in.resize(len, 0);
        } else {
            self.plan_out_len = len;
        }
    }
}

/// Depot marks after the first row mean nothing where the second has none.
pub fn close_depots(sheet: &mut Sheet) {
    if let Some(row) = sheet.rows.get_mut(1) {
        row.marks &= !DEPOT;
    }
    sheet.vehicles.iter_mut().for_each(|vehicle| vehicle.depot = 0);
}

/// Several depots where there are rows for them, at times without a vehicle.
fn open_depots(sheet: &mut Sheet, random: &mut Random) {
    sheet.rows.iter_mut().take(2).for_each(|row| row.marks |= DEPOT);
    if random.one_in(4) {
        sheet.vehicles.clear();
    }
}

/// Vehicles that take the stops of several rounds, most of them without a limit.
fn make_room(sheet: &mut Sheet, random: &mut Random) {
    let demands: Vec<i32> = sheet.rows.iter().map(|row| row.demand).collect();
    for vehicle in &mut sheet.vehicles {
        let stops = random.below(demands.len() + 1);
        let carried = (0..stops).map(|_| random.pick(&demands)).sum();
        vehicle.capacity = random.pick(&[carried, carried, i32::MAX]);
        if !random.one_in(3) {
            *vehicle = Vehicle {
                id: vehicle.id,
                capacity: vehicle.capacity,
                cost_per_distance: vehicle.cost_per_distance,
                fixed_cost: vehicle.fixed_cost,
                ..Vehicle::default()
            };
        }
    }
}

/// Any number of rounds up to `rows`, some of them kept empty, and stops set aside in any order.
pub fn dealt(sheet: &Sheet, random: &mut Random) -> Chains {
    let rows = sheet.rows.len();
    let (any, few) = (random.below(rows + 1), (2 + random.below(3)).min(rows));
    let count = random.pick(&[rows, any, few, few, few]);
    let mut plan = empty_rounds(sheet, count, random);
    let (spared, kept_empty) = (random.pick(&[0, 0, 0, 1, 3]), random.pick(&[0, 0, 0, 0, 4]));
    let taking: Vec<usize> =
        (0..plan.rounds.len()).filter(|_| random.below(8) >= kept_empty).collect();
    for stop in shuffled(sheet, random) {
        if taking.is_empty() || random.below(8) < spared {
            plan.aside.push(stop);
        } else {
            plan.rounds[random.pick(&taking)].1.push(stop);
        }
    }
    random.shuffle(&mut plan.rounds);
    plan
}

/// One stop a round, and at times one round more.
pub fn lone(sheet: &Sheet, random: &mut Random) -> Chains {
    let mut stops = shuffled(sheet, random);
    let mut plan = empty_rounds(sheet, stops.len(), random);
    for (_, round) in &mut plan.rounds {
        round.extend(stops.pop());
    }
    plan.aside = stops;
    if random.one_in(4) && sheet.rows.len() > plan.rounds.len() {
        plan.rounds.extend(empty_rounds(sheet, 1, random).rounds);
        random.shuffle(&mut plan.rounds);
    }
    plan
}

fn shuffled(sheet: &Sheet, random: &mut Random) -> Vec<usize> {
    let mut stops: Vec<usize> = (sheet.depots()..sheet.rows.len()).collect();
    random.shuffle(&mut stops);
    stops
}

/// Rounds of any vehicles, or of one; none of a sheet without.
fn empty_rounds(sheet: &Sheet, count: usize, random: &mut Random) -> Chains {
    let ids: Vec<u32> = sheet.vehicles.iter().map(|vehicle| vehicle.id).collect();
    let count = if ids.is_empty() { 0 } else { count };
    let reach = random.pick(&[1, ids.len(), ids.len(), ids.len()]).max(1);
    let rounds = (0..count).map(|_| (random.pick(&ids[..reach]), vec![])).collect();
    Chains { rounds, aside: vec![] }
}

/// From 0 to one above the rounds; at times the ends of what 8, 16 or 32 bits hold, alone or with
/// such a number in the low ones.
fn greatest(count: usize, random: &mut Random) -> u32 {
    let near = random.below(count + 2) as u32;
    let end = random.pick(&[1 << 8, 1 << 16, 1 << 31, u32::MAX]);
    random.pick(&[near, near, near, near, near, near, end, end | near])
}

/// A call on a sheet that has a due at its one depot, with the Rust's plan that does not keep it. The
/// due is at times fitted to a move, and capacity taken away, which it might be hidden by.
pub fn call_with_due(drawn: &Drawn, random: &mut Random) -> Call {
    let mut sheet = Sheet::decode(&drawn.sheet);
    let problem = Problem::with_dues(&sheet, |_| None).expect("an accepted sheet");
    let plan_in = encode(sheet.rows.len(), &problem.solution());
    let plan = chains(&plan_in, &sheet).expect("the Rust's plan has each stop once");
    let greatest = 1.max(random.below(plan.rounds.len() + 1)) as u32;
    if random.one_in(2) {
        sheet.vehicles.iter_mut().for_each(|vehicle| vehicle.capacity = i32::MAX);
    }
    if random.one_in(2) && sheet.rows.len() <= MOST_ROWS {
        let tried = tried(&Problem::held(&sheet), &plan, greatest);
        if !tried.is_empty() {
            fit_home(&mut sheet, &tried[random.below(tried.len())].round(), random);
        }
    }
    let plan_out_len = plan_in.len();
    Call { flavour: PLANNED, sheet: sheet.encode(), plan_in, greatest, plan_out_len }
}

/// A call on a sheet of one depot where a vehicle may rest at home, at times with room for every stop.
/// The sheet is fitted to a move, or to a round as it is given, an empty one too.
pub fn call_at_home(drawn: &Drawn, random: &mut Random) -> Call {
    let mut sheet = Sheet::decode(&drawn.sheet);
    if random.one_in(2) {
        sheet.vehicles.iter_mut().for_each(|vehicle| vehicle.capacity = i32::MAX);
    }
    let flavour = random.pick(&[PLANNED, DEALT, DEALT, LONE]);
    let plan = match flavour {
        PLANNED => {
            let made = encode(sheet.rows.len(), &Problem::taken(&sheet).solution());
            chains(&made, &sheet).expect("the Rust's plan has each stop once")
        }
        LONE => lone(&sheet, random),
        _ => dealt(&sheet, random),
    };
    let count = plan.rounds.len();
    let greatest = if random.one_in(3) { count } else { 1.max(random.below(count + 1)) } as u32;
    if count > 0 && sheet.rows.len() <= MOST_ROWS {
        let problem = Problem::held(&sheet);
        let mut rounds = rounds(&problem, &plan);
        rounds.extend(tried(&problem, &plan, greatest).iter().map(Tried::round));
        fit_rest_at_home(&mut sheet, &rounds[random.below(rounds.len())], random);
    }
    let plan_in = encode_chains(sheet.rows.len(), &plan);
    let plan_out_len = plan_in.len();
    Call { flavour, sheet: sheet.encode(), plan_in, greatest, plan_out_len }
}

/// Fits the sheet to a move that the limiter tries with this plan, or to the choice of a round.
fn fit(sheet: &mut Sheet, plan: &Chains, greatest: u32, random: &mut Random) {
    if sheet.rows.len() > MOST_ROWS {
        return;
    }
    let problem = Problem::held(sheet);
    let tried = tried(&problem, plan, greatest);
    if tried.is_empty() || random.one_in(8) {
        return fit_loads(sheet, &problem, &rounds(&problem, plan), random);
    }
    let one = random.below(tried.len());
    let chosen = &tried[one];
    let round = chosen.round();
    match random.below(9) {
        0 | 1 => {
            let load = load(&problem.table(), &round.stops);
            sheet.vehicles[round.vehicle].capacity = random.pick(&[load, load, load - 1]).max(0);
        }
        2 => fit_maximum(sheet, &round, random),
        3 => fit_window(sheet, &round, random),
        4 => fit_rest(sheet, &round, random),
        5 => make_soft(sheet, &problem, &round, random),
        6 => fit_home(sheet, &round, random),
        _ => {
            let other = &tried[chosen.step.start + random.below(chosen.step.len())];
            fit_cost(sheet, chosen.cost, other, random);
        }
    }
}

/// The moves that the limiter tries with this plan.
fn tried(problem: &Problem, plan: &Chains, greatest: u32) -> Vec<Tried> {
    let mut tried: Vec<Tried> = Vec::new();
    limited(problem, rounds(problem, plan), greatest, |rounds, event| {
        if let Event::Moves { moves, taken, .. } = event {
            let start = tried.len();
            let of = |it: &Move| Tried::new(rounds, it);
            tried.extend(moves.iter().map(of));
            // As often as all of them together.
            let taken = taken.iter().flat_map(|it| (0..moves.len()).map(|_| of(it)));
            tried.extend(taken);
            let step = start..tried.len();
            tried[start..].iter_mut().for_each(|it| it.step = step.clone());
        }
    });
    tried
}

/// A move that was tried.
struct Tried {
    vehicle: usize,
    /// The round with the stop, and the place of it.
    stops: Vec<usize>,
    at: usize,
    cost: f64,
    /// Which of all were tried at the same time.
    step: std::ops::Range<usize>,
}

impl Tried {
    fn new(rounds: &[Round], tried: &Move) -> Tried {
        let place = &tried.place;
        Tried {
            vehicle: rounds[tried.round].vehicle,
            stops: place.trial.stops.clone(),
            at: place.at,
            cost: place.cost,
            step: 0..0,
        }
    }

    fn round(&self) -> Round {
        Round { vehicle: self.vehicle, stops: self.stops.clone() }
    }
}

/// The leg to the stop that makes its move as dear as another, or a step beside.
fn fit_cost(sheet: &mut Sheet, cost: f64, tried: &Tried, random: &mut Random) {
    let before = tried.at.checked_sub(1).map_or(0, |before| tried.stops[before]);
    let leg = before * sheet.rows.len() + tried.stops[tried.at];
    let fitted = sheet.distances[leg] + (cost - tried.cost);
    if fitted.is_finite() {
        sheet.distances[leg] = beside(random, fitted, MOST_FIGURE);
    }
}

/// A soft window of a stop of the round that closes before its vehicle comes.
pub fn make_soft(sheet: &mut Sheet, problem: &Problem, round: &Round, random: &mut Random) {
    let route = problem.built(&problem.vehicles[round.vehicle], &round.stops);
    let visit = &route.visits()[random.below(round.stops.len())];
    let row = &mut sheet.rows[visit.customer_id];
    row.marks |= WINDOW | PENALTY;
    row.due = (visit.arrival_time / random.pick(&[1.0, 1.5, 3.0])).min(MOST_FIGURE);
    row.ready = row.ready.min(row.due);
    row.penalty = random.pick(&[0.0, 0.1, 0.5, 1.0, 2.0]);
}

/// A demand that makes one round's load another's.
fn fit_loads(sheet: &mut Sheet, problem: &Problem, rounds: &[Round], random: &mut Random) {
    if rounds.is_empty() {
        return;
    }
    let [one, other] = [0; 2].map(|_| &rounds[random.below(rounds.len())]);
    let [had, wanted] = [one, other].map(|round| load(&problem.table(), &round.stops));
    let Some(&stop) = one.stops.get(random.below(one.stops.len().max(1))) else { return };
    let demand = sheet.rows[stop].demand + wanted - had;
    sheet.rows[stop].demand = demand.clamp(0, MOST_DEMAND);
}
