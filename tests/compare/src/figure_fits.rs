//! Fits a sheet to the figures of its rounds.

use u_routing::models::Route;

use crate::fit::{fit_home, fit_maximum, fit_rest, fit_window, Round};
use crate::fit_return::fit_rest_at_home;
use crate::limit_calls::make_soft;
use crate::plan::plan_len;
use crate::random::Random;
use crate::reference::Problem;
use crate::refusal::{refusal, MOST_FIGURE};
use crate::sheet::{Sheet, PENALTY, WINDOW};
use crate::walked::{figures, rests_at_home, DURATION};

pub fn built(sheet: &Sheet, round: &Round) -> Route {
    let problem = Problem::held(sheet);
    problem.built(&problem.vehicles[round.vehicle], &round.stops)
}

/// Makes all of a sheet so many times as long that its rounds take several units. Times a power of 2
/// every comparison is as before. A sheet that would go out of range stays.
pub fn enlarge(sheet: &mut Sheet, random: &mut Random) {
    let times = random.pick(&[1.0, 16.0, 64.0, 256.0, 1024.0, 4096.0, 65_536.0, 16_777_216.0]);
    let mut larger = sheet.clone();
    let mut all: Vec<&mut f64> = larger.distances.iter_mut().collect();
    all.extend(larger.times.iter_mut().flatten());
    for row in &mut larger.rows {
        all.extend([&mut row.service, &mut row.ready, &mut row.due]);
    }
    for vehicle in &mut larger.vehicles {
        all.extend([&mut vehicle.max_distance, &mut vehicle.max_duration]);
        all.extend([&mut vehicle.earliest, &mut vehicle.latest, &mut vehicle.rest_duration]);
    }
    all.into_iter().for_each(|x| *x *= times);
    if refusal(&larger.encode(), plan_len(larger.rows.len())) == 0 {
        *sheet = larger;
    }
}

/// Brings a window, a rest, a maximum or a due to what a round with stops reaches.
pub fn fit_round(sheet: &mut Sheet, round: &Round, random: &mut Random) {
    match random.below(7) {
        0 => fit_maximum(sheet, round, random),
        1 => fit_window(sheet, round, random),
        2 => fit_rest(sheet, round, random),
        3 => fit_home(sheet, round, random),
        4 => make_soft(sheet, &Problem::held(sheet), round, random),
        _ => fit_rest_at_home(sheet, round, random),
    }
}

/// The legs that a figure is summed from.
pub fn legs(sheet: &mut Sheet, which: usize) -> &mut [f64] {
    match &mut sheet.times {
        Some(times) if which == DURATION => times,
        _ => &mut sheet.distances,
    }
}

/// Times of their own, as often as not, where distances serve as times.
pub fn tell_times(sheet: &mut Sheet, random: &mut Random) {
    if sheet.times.is_none() && random.one_in(2) {
        sheet.times = Some(sheet.distances.clone());
    }
}

/// No leg but the last, and that some of the least steps above 0: of most a quotient by the unit is 0.
pub fn stand_still(sheet: &mut Sheet, round: &Round, which: usize, random: &mut Random) {
    let (rows, depot) = (sheet.rows.len(), sheet.vehicles[round.vehicle].depot as usize);
    let steps = random.pick(&[0, 0, 1, 1, 2, 499, 501]);
    let mut from = depot;
    for &to in &round.stops {
        legs(sheet, which)[from * rows + to] = 0.0;
        from = to;
    }
    legs(sheet, which)[from * rows + depot] = f64::from_bits(steps);
    if which == DURATION {
        for &stop in &round.stops {
            let row = &mut sheet.rows[stop];
            row.marks &= !(WINDOW | PENALTY);
            (row.service, row.ready, row.due, row.penalty) = (0.0, 0.0, 0.0, 0.0);
        }
    }
}

/// Brings a figure to an aim, which is told of what it is without the last leg of the round or, where
/// that is what ends it, the rest at home.
pub fn fit_figure(sheet: &mut Sheet, round: &Round, which: usize, aim: impl FnOnce(f64) -> f64) {
    let route = built(sheet, round);
    if which == DURATION && rests_at_home(&route) {
        let (_, start) = route.rest().expect("it rests at home");
        sheet.vehicles[round.vehicle].rest_duration = added(start, aim(start));
        return;
    }
    let depot = sheet.vehicles[round.vehicle].depot as usize;
    let last = round.stops.last().copied().unwrap_or(depot);
    let leg = last * sheet.rows.len() + depot;
    legs(sheet, which)[leg] = 0.0;
    let before = figures(&built(sheet, round))[which];
    legs(sheet, which)[leg] = added(before, aim(before));
}

/// Some units, or one step beside them; not below what there is before.
pub fn near_units(before: f64, unit: u64, random: &mut Random) -> f64 {
    let unit = unit as f64;
    let more = random.pick(&[0.0, 1.0, 1.0, 2.0, 7.0, 1000.0, 999_999.0]);
    let whole = ((before / unit).ceil() + more) * unit;
    random.pick(&[whole, whole.next_up(), whole.next_down()])
}

/// What brings a sum to an aim; 0 where that is out of range.
fn added(before: f64, aim: f64) -> f64 {
    let added = aim - before;
    let reaches = |added: &f64| (0.0..=MOST_FIGURE).contains(added) && before + added == aim;
    let beside = [added, added.next_up(), added.next_down()];
    beside.into_iter().find(reaches).unwrap_or(0.0)
}
