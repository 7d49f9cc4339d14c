//! Demand 3, checked from the bytes of a sheet and a plan alone (document 01, "A lawful round"),
//! in whole numbers and by trying every place. Nothing of the planner's or the Rust's ways is used.

use std::ops::Range;

use crate::plan::{round_at, stop_at};
use crate::sheet::{field, Sheet, INSERTION, NEAREST, SAVINGS};
use crate::sheet::{HOME, MAX_DISTANCE, MAX_DURATION, PENALTY, REST, WINDOW};

/// How often each claim was checked.
#[derive(Default)]
pub struct Claims {
    plans: usize,
    /// Plans, by method, whose rounds have to be lawful, and their rounds.
    lawful: [usize; 5],
    rounds: usize,
    rested: usize,
    /// Rounds of a lone pond over capacity, which savings may make.
    lone: usize,
    /// Plans that the insertion clauses hold for, the ponds set aside there, and those that
    /// were later than a round.
    insertion: usize,
    aside: usize,
    later: usize,
    /// Reasons that were told in whole numbers too, by their numbers.
    pub reasons: [usize; 8],
}

impl Claims {
    pub fn print(&self) {
        let Claims { plans, lawful, rounds, rested, lone, insertion, aside, later, reasons } = self;
        println!("  demand 3: every pond once in {plans} plans");
        println!("  demand 3: lawful rounds in {lawful:?} plans of methods 0 to 4");
        println!("  demand 3: {rounds} rounds, {rested} of them with a rest");
        println!("  demand 3: {lone} lone ponds over capacity in plans of savings");
        println!("  demand 3: insertion's clauses in {insertion} plans, {aside} ponds set aside");
        println!("  demand 3: {later} times a pond later than a round");
        println!("  reasons 1 to 7 in whole numbers: {:?}", &reasons[1..]);
    }

    /// Whether rounds had to be lawful, and insertion's clauses to hold.
    pub fn lawful(&self) -> bool {
        self.lawful.iter().any(|&plans| plans > 0)
    }

    pub fn insertion(&self) -> bool {
        self.insertion > 0
    }

    pub fn add(&mut self, other: Claims) {
        self.plans += other.plans;
        self.lawful.iter_mut().zip(other.lawful).for_each(|(sum, plans)| *sum += plans);
        self.rounds += other.rounds;
        self.rested += other.rested;
        self.lone += other.lone;
        self.insertion += other.insertion;
        self.aside += other.aside;
        self.later += other.later;
        self.reasons.iter_mut().zip(other.reasons).for_each(|(sum, ponds)| *sum += ponds);
    }

    /// Whether a claim was never checked that plans of these methods make, on sheets with vehicles.
    pub fn missing(&self, methods: &[u8]) -> bool {
        let lacks = |&method: &u8| method != NEAREST && self.lawful[usize::from(method)] == 0;
        let (savings, insertion) = (methods.contains(&SAVINGS), methods.contains(&INSERTION));
        self.plans == 0
            || methods.iter().any(lacks)
            || (savings && self.lone == 0)
            || (insertion && [self.insertion, self.aside, self.later].contains(&0))
            || self.reasons[2..].contains(&0)
    }
}

/// The rounds, each a vehicle's index and stops in order, and the ponds set aside.
pub struct Plan {
    rounds: Vec<(usize, Vec<usize>)>,
    pub aside: Vec<usize>,
}

/// Whether a plan of an accepted sheet keeps demand 3, or what it breaks.
pub fn judge(sheet: &[u8], plan: &[u8], claims: &mut Claims) -> Result<(), String> {
    let sheet = Sheet::decode(sheet);
    let plan = read(&sheet, plan)?;
    claims.plans += 1;
    if sheet.method == NEAREST {
        return Ok(());
    }
    let Some(ground) = Ground::of(&sheet) else { return Ok(()) };
    claims.lawful[usize::from(sheet.method)] += 1;
    for (vehicle, stops) in &plan.rounds {
        claims.rounds += 1;
        claims.rested += usize::from(ground.rests(*vehicle));
        if !ground.has_lawful_schedule(*vehicle, stops) {
            return Err(format!("round {stops:?} has no lawful schedule"));
        }
        if !ground.keeps_capacity(*vehicle, stops) {
            if sheet.method != SAVINGS || stops.len() != 1 {
                return Err(format!("round {stops:?} is over capacity"));
            }
            claims.lone += 1;
        }
    }
    if sheet.method == INSERTION && sheet.depots() == 1 {
        claims.insertion += 1;
        ground.insertion_clauses(&plan, claims)?;
    }
    Ok(())
}

/// Every pond once.
pub fn read(sheet: &Sheet, plan: &[u8]) -> Result<Plan, String> {
    let (rows, depots) = (sheet.rows.len(), sheet.depots());
    if plan.len() != stop_at(rows, rows) {
        return Err("a plan of a wrong length".into());
    }
    let number = |at| usize::from(u16::from_le_bytes(field(plan, at)));
    let chain = |at| {
        let mut stops = Vec::new();
        let mut stop = number(at);
        while stop != 0 {
            if stop < depots || rows <= stop || stops.len() > rows {
                return Err(format!("a chain leads to {stop}"));
            }
            stops.push(stop);
            stop = number(stop_at(rows, stop));
        }
        Ok(stops)
    };
    let mut rounds = Vec::new();
    for at in (0..number(0)).map(round_at) {
        if at >= round_at(rows) {
            return Err("more rounds than rows".into());
        }
        let id = u32::from_le_bytes(field(plan, at));
        let vehicle = sheet.vehicles.iter().position(|vehicle| vehicle.id == id);
        let stops = chain(at + 8)?;
        if stops.is_empty() {
            return Err("an empty round".into());
        }
        rounds.push((vehicle.ok_or(format!("no vehicle has the id {id}"))?, stops));
    }
    let plan = Plan { rounds, aside: chain(2)? };
    let mut times = vec![0; rows];
    plan.ponds().for_each(|pond| times[pond] += 1);
    match (depots..rows).find(|&pond| times[pond] != 1) {
        Some(pond) => Err(format!("pond {pond} stands {} times", times[pond])),
        None => Ok(plan),
    }
}

impl Plan {
    fn ponds(&self) -> impl Iterator<Item = usize> + '_ {
        self.rounds.iter().flat_map(|(_, stops)| stops).chain(&self.aside).copied()
    }
}

/// A sheet whose rounds have to be lawful, in whole numbers: by row, by leg and by vehicle.
pub struct Ground<'a> {
    pub sheet: &'a Sheet,
    pub distances: Vec<u64>,
    pub times: Vec<u64>,
    pub service: Vec<u64>,
    ready: Vec<u64>,
    due: Vec<u64>,
    pub earliest: Vec<u64>,
    latest: Vec<u64>,
    rest: Vec<u64>,
}

fn whole(numbers: impl Iterator<Item = f64>) -> Option<Vec<u64>> {
    numbers.map(|x| (x.fract() == 0.0).then_some(x as u64)).collect()
}

impl Ground<'_> {
    /// `None` for a row with window and penalty, or a number that is not whole.
    pub fn of(sheet: &Sheet) -> Option<Ground<'_>> {
        let (rows, vehicles) = (&sheet.rows, &sheet.vehicles);
        let both = WINDOW | PENALTY;
        if rows.iter().any(|row| row.marks & both == both) {
            return None;
        }
        let distances = whole(sheet.distances.iter().copied())?;
        let times = sheet.times.as_ref().map(|times| whole(times.iter().copied()));
        Some(Ground {
            sheet,
            times: times.unwrap_or_else(|| Some(distances.clone()))?,
            distances,
            service: whole(rows.iter().map(|row| row.service))?,
            ready: whole(rows.iter().map(|row| row.ready))?,
            due: whole(rows.iter().map(|row| row.due))?,
            earliest: whole(vehicles.iter().map(|vehicle| vehicle.earliest))?,
            latest: whole(vehicles.iter().map(|vehicle| vehicle.latest))?,
            rest: whole(vehicles.iter().map(|vehicle| vehicle.rest_duration))?,
        })
    }

    pub fn rests(&self, vehicle: usize) -> bool {
        self.sheet.vehicles[vehicle].marks & REST != 0
    }

    /// The places before stops, and at home where the vehicle may rest there (document 02, request Four).
    pub fn places(&self, vehicle: usize, stops: &[usize]) -> Range<usize> {
        let at_home = self.sheet.vehicles[vehicle].marks & HOME != 0;
        0..stops.len() + usize::from(at_home)
    }

    pub fn depot(&self, vehicle: usize) -> usize {
        self.sheet.vehicles[vehicle].depot as usize
    }

    pub fn leg(&self, table: &[u64], from: usize, to: usize) -> u64 {
        table[from * self.sheet.rows.len() + to]
    }

    /// The duration of a walk that keeps the limits; `None` if it fails.
    fn walk(&self, vehicle: usize, stops: &[usize], place: Option<usize>) -> Option<u64> {
        let (distance, duration) = self.walk_apart(vehicle, stops, place)?;
        let lawful = self.keeps_maxima(vehicle, distance, duration)
            && self.is_home_in_time(vehicle, duration);
        lawful.then_some(duration)
    }

    /// Limits apart, distance and duration of the walk with the rest before the stop at `place`, at home
    /// where that is after the last, or without one; `None` if it fails.
    pub fn walk_apart(
        &self,
        vehicle: usize,
        stops: &[usize],
        place: Option<usize>,
    ) -> Option<(u64, u64)> {
        let (mut departure, mut distance, mut last) = (0, 0, self.depot(vehicle));
        for (k, &stop) in stops.iter().enumerate() {
            distance += self.leg(&self.distances, last, stop);
            let mut arrival = departure + self.leg(&self.times, last, stop);
            if place == Some(k) {
                arrival = self.rested(vehicle, arrival)?;
            }
            if self.sheet.rows[stop].marks & WINDOW != 0 && arrival > self.due[stop] {
                return None;
            }
            departure = arrival.max(self.ready[stop]) + self.service[stop];
            last = stop;
        }
        distance += self.leg(&self.distances, last, self.depot(vehicle));
        let mut duration = departure + self.leg(&self.times, last, self.depot(vehicle));
        if place == Some(stops.len()) {
            duration = self.rested(vehicle, duration)?;
        }
        Some((distance, duration))
    }

    /// When a rest on arrival ends.
    fn rested(&self, vehicle: usize, arrival: u64) -> Option<u64> {
        let start = arrival.max(self.earliest[vehicle]);
        (start <= self.latest[vehicle]).then(|| start + self.rest[vehicle])
    }

    /// Document 02, request One: no later than the due of the depot's row, if that has a window.
    fn is_home_in_time(&self, vehicle: usize, duration: u64) -> bool {
        let depot = self.depot(vehicle);
        self.sheet.rows[depot].marks & WINDOW == 0 || duration <= self.due[depot]
    }

    /// A whole number is over a maximum exactly if it is over the whole part of it.
    pub fn keeps_maxima(&self, vehicle: usize, distance: u64, duration: u64) -> bool {
        let vehicle = &self.sheet.vehicles[vehicle];
        let kept = |mark, x, max: f64| vehicle.marks & mark == 0 || x <= max.floor() as u64;
        kept(MAX_DISTANCE, distance, vehicle.max_distance)
            && kept(MAX_DURATION, duration, vehicle.max_duration)
    }

    pub fn has_lawful_schedule(&self, vehicle: usize, stops: &[usize]) -> bool {
        let rests = self.rests(vehicle);
        let free = |duration| !rests || duration <= self.earliest[vehicle];
        let rested = |place| self.walk(vehicle, stops, Some(place)).is_some();
        let mut places = self.places(vehicle, stops);
        self.walk(vehicle, stops, None).is_some_and(free) || (rests && places.any(rested))
    }

    pub fn keeps_capacity(&self, vehicle: usize, stops: &[usize]) -> bool {
        let demands = stops.iter().map(|&stop| i64::from(self.sheet.rows[stop].demand));
        demands.sum::<i64>() <= i64::from(self.sheet.vehicles[vehicle].capacity)
    }

    fn is_lawful(&self, vehicle: usize, stops: &[usize]) -> bool {
        self.keeps_capacity(vehicle, stops) && self.has_lawful_schedule(vehicle, stops)
    }

    /// No pond set aside that could make a round alone with the depot's first vehicle; and for
    /// every round, no later pond that fits at a place of it.
    fn insertion_clauses(&self, plan: &Plan, claims: &mut Claims) -> Result<(), String> {
        for &pond in &plan.aside {
            claims.aside += 1;
            if self.is_lawful(0, &[pond]) {
                return Err(format!("pond {pond} is set aside, and could make a round alone"));
            }
        }
        for (k, (vehicle, stops)) in plan.rounds.iter().enumerate() {
            let placed = plan.rounds[k + 1..].iter().flat_map(|(_, stops)| stops);
            let before = |pond| stops.iter().any(|&stop| self.taken_before(stop, pond));
            let aside = plan.aside.iter().filter(|&&pond| before(pond));
            for &pond in placed.chain(aside) {
                claims.later += 1;
                if (0..=stops.len()).any(|place| self.fits(*vehicle, stops, place, pond)) {
                    return Err(format!("pond {pond} is later than round {stops:?}, and fits"));
                }
            }
        }
        Ok(())
    }

    /// The seed's rule: the farthest, the first of equals.
    fn taken_before(&self, stop: usize, pond: usize) -> bool {
        let [one, other] = [stop, pond].map(|row| self.leg(&self.distances, 0, row));
        one > other || (one == other && stop < pond)
    }

    fn fits(&self, vehicle: usize, stops: &[usize], place: usize, pond: usize) -> bool {
        let round = [&stops[..place], &[pond], &stops[place..]].concat();
        self.is_lawful(vehicle, &round)
    }
}
