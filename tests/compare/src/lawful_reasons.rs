//! Reasons of ponds set aside (document 02, request Six), checked from the bytes of a sheet and a plan
//! alone, and where these are whole numbers each worked out in them (lawful.rs). Nothing of the
//! planner's or the Rust's ways is used.

use crate::lawful::{judge, read, Claims, Ground};
use crate::plan::reasons;
use crate::sheet::{Sheet, NEAREST, NN_TW, SAVINGS};

/// Whether a plan of an accepted sheet keeps demand 3 and has the right reasons, or what is wrong.
pub fn judge_plan(sheet: &[u8], plan: &[u8], claims: &mut Claims) -> Result<(), String> {
    judge(sheet, plan, claims)?;
    judge_reasons(sheet, plan, claims)
}

fn judge_reasons(sheet: &[u8], plan: &[u8], claims: &mut Claims) -> Result<(), String> {
    let sheet = Sheet::decode(sheet);
    let (aside, ground) = (read(&sheet, plan)?.aside, Ground::of(&sheet));
    for (row, why) in reasons(plan).into_iter().enumerate() {
        if !aside.contains(&row) {
            if why != 0 {
                return Err(format!("row {row} is not set aside, and has a reason"));
            }
            continue;
        }
        if !can_be(&sheet, why) {
            return Err(format!("pond {row} cannot be set aside for {why}"));
        }
        if let Some(ground) = &ground {
            claims.reasons[usize::from(why)] += 1;
            if why != ground.why(row) {
                return Err(format!("pond {row} is set aside for {}, not {why}", ground.why(row)));
            }
        }
    }
    Ok(())
}

/// 1 where there is no vehicle, and there alone; 7 by the nearest neighbours alone.
fn can_be(sheet: &Sheet, why: u16) -> bool {
    match why {
        1 => sheet.vehicles.is_empty(),
        2..=6 => !sheet.vehicles.is_empty(),
        7 => !sheet.vehicles.is_empty() && is_nearest(sheet),
        _ => false,
    }
}

fn is_nearest(sheet: &Sheet) -> bool {
    matches!(sheet.method, NEAREST | NN_TW)
}

impl Ground<'_> {
    fn why(&self, pond: usize) -> u16 {
        let fleet =
            |depot| (0..self.sheet.vehicles.len()).filter(move |&it| self.depot(it) == depot);
        let with_vehicle = (0..self.sheet.depots()).filter(|&depot| fleet(depot).next().is_some());
        let far = |&depot: &usize| (self.leg(&self.distances, depot, pond), depot);
        let Some(last) = with_vehicle.max_by_key(far) else { return 1 };
        let against: Vec<u16> = fleet(last).map(|vehicle| self.against(vehicle, pond)).collect();
        if is_nearest(self.sheet) && against[1..].contains(&7) {
            return 7;
        }
        against[0]
    }

    /// The first that holds of a pond's lone round with a vehicle; 7 if nothing does.
    fn against(&self, vehicle: usize, pond: usize) -> u16 {
        let (lone, method) = ([pond], self.sheet.method);
        let plain = method == NEAREST && !self.rests(vehicle);
        if method != SAVINGS && !self.keeps_capacity(vehicle, &lone) {
            return 2;
        }
        let unrested = self.walk_apart(vehicle, &lone, None);
        if !plain && unrested.is_none() {
            return 3;
        }
        if !plain && !self.has_rest_place(vehicle, &lone) {
            return 4;
        }
        let depot = self.depot(vehicle);
        let there_and_back =
            |table: &[u64]| self.leg(table, depot, pond) + self.leg(table, pond, depot);
        let distance = there_and_back(&self.distances);
        if !self.keeps_maxima(vehicle, distance, 0) {
            return 5;
        }
        let kept = match plain {
            true => {
                let duration = there_and_back(&self.times) + self.service[pond];
                self.keeps_maxima(vehicle, distance, duration)
            }
            false => self.has_lawful_schedule(vehicle, &lone),
        };
        if kept {
            7
        } else {
            6
        }
    }

    /// Limits apart; a rest that is not needed has one.
    fn has_rest_place(&self, vehicle: usize, stops: &[usize]) -> bool {
        let walk = |place| self.walk_apart(vehicle, stops, place);
        let is_back = |(_, duration)| !self.rests(vehicle) || duration <= self.earliest[vehicle];
        walk(None).is_some_and(is_back)
            || self.places(vehicle, stops).any(|place| walk(Some(place)).is_some())
    }
}
