//! A stop that is set aside, with the lone round that its reason is of, and that round changed a little.

use crate::cross::Cross;
use crate::plan::{chains, reason_of};
use crate::reasoning::{tried_last, vehicles_of, Lone, OVER_CAPACITY, RULES};
use crate::sheet::WINDOW;
use crate::sheet::{Sheet, HOME, MAX_DISTANCE, MAX_DURATION, NEAREST, NN_TW, PENALTY, REST};
use crate::wrong_reasons::{misread_reason, sooner, step_down, Misread};

/// A change of a lone round's sheet: row 0 is the depot's, row 1 the stop's.
pub type Change = fn(&mut Sheet);

pub struct Aside<'a> {
    sheet: &'a Sheet,
    stop: usize,
    /// Its reason.
    pub why: u16,
    /// The depot tried last, and the lone rounds of its vehicles.
    pub depot: usize,
    lone: Lone,
    pub others: Vec<Lone>,
    /// What turns the first vehicle's down, and whether another vehicle's is made.
    pub first: Option<u16>,
    pub other_makes: bool,
}

/// The stops that a plan sets aside where a depot has a vehicle.
pub fn set_aside<'a>(sheet: &'a Sheet, plan: &[u8]) -> Vec<Aside<'a>> {
    let aside = chains(plan, sheet).expect("a plan has each stop once").aside;
    let why = |stop: usize| reason_of(plan, sheet.rows.len(), stop);
    aside.into_iter().filter_map(|stop| Aside::new(sheet, stop, why(stop))).collect()
}

impl Aside<'_> {
    /// `None` where no depot has a vehicle.
    fn new(sheet: &Sheet, stop: usize, why: u16) -> Option<Aside<'_>> {
        let depot = tried_last(sheet, stop)?;
        let mut rounds = vehicles_of(sheet, depot).map(|vehicle| Lone::new(sheet, vehicle, stop));
        let (lone, others) = (rounds.next()?, rounds.collect::<Vec<_>>());
        let first = lone.first_of(&RULES);
        let other_makes = others.iter().any(|other| other.is_made(&RULES));
        Some(Aside { sheet, stop, why, depot, lone, others, first, other_makes })
    }

    /// What turns the changed round down.
    pub fn with(&self, changes: &[Change]) -> Option<u16> {
        let mut lone = Lone(self.lone.0.clone());
        changes.iter().for_each(|change| change(&mut lone.0));
        lone.first_of(&RULES)
    }

    /// Whether `route_eval` of the Rust as it is turns the round down by the same rule. It does not ask
    /// for loads, and plain nearest neighbour does not ask it.
    pub fn is_crossed(&self) -> bool {
        let is_down = |count: &usize| {
            let lone = self.lone.with(&RULES[..*count]);
            Cross::new(&lone).answer(0, &[1]).eval.is_none()
        };
        let unasked = self.is_plain() || self.first == Some(OVER_CAPACITY);
        let first = || (1..=RULES.len()).find(is_down).map(|count| RULES[count - 1]);
        unasked || self.first == first()
    }

    /// Whether the reason is a rule's that a step eases enough.
    pub fn breaks(&self, rule: u16, step: Change) -> bool {
        self.why == rule && self.with(&[step]) != Some(rule)
    }

    /// Whether the reason is another, and would be the rule's but for a step.
    pub fn keeps(&self, rule: u16, step: Change) -> bool {
        let shows = self.why == self.first.unwrap_or(7);
        shows && !self.other_makes && self.why != rule && self.with(&[step]) == Some(rule)
    }

    pub fn is_marked(&self) -> bool {
        self.lone.0.vehicles[0].marks & HOME != 0
    }

    /// Whether plain nearest neighbour asks a vehicle without a rest.
    pub fn is_plain(&self) -> bool {
        self.lone.0.method == NEAREST
    }

    pub fn is_over_capacity(&self) -> bool {
        self.lone.0.rows[1].demand > self.lone.0.vehicles[0].capacity
    }

    /// Whether another vehicle of the depot, which does not make the round, has a rest or none.
    pub fn is_beside(&self, rest: bool) -> bool {
        !self.other_makes && self.others.iter().any(|other| rests(other) == rest)
    }

    /// Whether the reason is another by a misreading that is of several depots.
    pub fn is_told_by(&self, misread: Misread) -> bool {
        self.sheet.depots() > 1 && misread_reason(self.sheet, self.stop, misread) != self.why
    }

    /// Whether a depot without a vehicle is farther than the one tried last.
    pub fn has_farther(&self) -> bool {
        let leg = |depot: usize| self.sheet.distances[depot * self.sheet.rows.len() + self.stop];
        (0..self.sheet.depots()).any(|depot| leg(depot) > leg(self.depot))
    }
}

fn rests(lone: &Lone) -> bool {
    lone.0.vehicles[0].marks & REST != 0
}

// One step.
pub const MORE_ROOM: Change = |it| it.vehicles[0].capacity += 1;
pub const LESS_ROOM: Change = |it| it.vehicles[0].capacity -= 1;
pub const LATER_DUE: Change = |it| step_up(&mut it.rows[1].due);
pub const SOONER_DUE: Change = |it| sooner(&mut it.rows[1]);
pub const LATER_HOME: Change = |it| step_up(&mut it.rows[0].due);
pub const SOONER_HOME: Change = |it| sooner(&mut it.rows[0]);
pub const LATER_EARLIEST: Change = |it| step_up(&mut it.vehicles[0].earliest);
pub const SOONER_EARLIEST: Change = |it| step_down(&mut it.vehicles[0].earliest);
pub const LATER_LATEST: Change = |it| step_up(&mut it.vehicles[0].latest);
pub const SOONER_LATEST: Change = |it| step_down(&mut it.vehicles[0].latest);
pub const FARTHER: Change = |it| step_up(&mut it.vehicles[0].max_distance);
pub const NEARER: Change = |it| step_down(&mut it.vehicles[0].max_distance);
pub const LONGER: Change = |it| step_up(&mut it.vehicles[0].max_duration);
pub const SHORTER: Change = |it| step_down(&mut it.vehicles[0].max_duration);

// A rule taken away.
pub const ANY_LOAD: Change = |it| it.vehicles[0].capacity = i32::MAX;
pub const NO_WINDOW: Change = |it| it.rows[1].marks &= !WINDOW;
pub const NO_READY: Change = |it| it.rows[1].ready = 0.0;
pub const NO_PENALTY: Change = |it| it.rows[1].marks &= !PENALTY;
pub const NO_REST: Change = |it| it.vehicles[0].marks &= !(REST | HOME);
pub const NOT_AT_HOME: Change = |it| it.vehicles[0].marks &= !HOME;
pub const ANY_DISTANCE: Change = |it| it.vehicles[0].marks &= !MAX_DISTANCE;
pub const ANY_DURATION: Change = |it| it.vehicles[0].marks &= !MAX_DURATION;
pub const NO_GATE: Change = |it| it.rows[0].marks &= !WINDOW;
/// Asked as the other nearest neighbour asks.
pub const AS_NN_TW: Change = |it| it.method = NN_TW;

fn step_up(x: &mut f64) {
    *x = x.next_up();
}
