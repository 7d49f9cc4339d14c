//! Fits a sheet to the whole durations of its rounds, and to ties between them and between their sums.

use crate::dealing::{Crews, MOST_CREWS};
use crate::figure_fits::{built, fit_figure, legs, near_units, stand_still, tell_times};
use crate::fit::Round;
use crate::fit_return::fit_rest_at_home;
use crate::random::Random;
use crate::refusal::MOST_FIGURE;
use crate::sheet::Sheet;
use crate::walked::{begun, DURATION};

/// Makes durations of some rounds, empty ones too, a whole number or one step beside it, another's or the
/// sum of two others; or none at all.
pub fn fit_wholes(sheet: &mut Sheet, rounds: &[Round], random: &mut Random) {
    if rounds.is_empty() {
        return;
    }
    tell_times(sheet, random);
    for _ in 0..1 + random.below(4) {
        let [round, one, other] = [(); 3].map(|()| &rounds[random.below(rounds.len())]);
        if random.one_in(6) {
            fit_rest_at_home(sheet, round, random);
        }
        match random.below(9) {
            0 => stand_still(sheet, round, DURATION, random),
            1 => [round, one].into_iter().for_each(|round| lengthen(sheet, round, random)),
            2 | 3 => fit_figure(sheet, round, DURATION, |before| near_units(before, 1, random)),
            4..7 => {
                let whole = whole(sheet, one);
                fit_figure(sheet, round, DURATION, |_| up_to(whole, random));
            }
            _ => {
                let whole = whole(sheet, one) + whole(sheet, other);
                fit_figure(sheet, round, DURATION, |_| up_to(whole, random));
            }
        }
    }
}

/// Legs and service of a round as long as they may be, or nearly: with two stops it takes above 32 bits.
fn lengthen(sheet: &mut Sheet, round: &Round, random: &mut Random) {
    let (rows, depot) = (sheet.rows.len(), sheet.vehicles[round.vehicle].depot as usize);
    let mut long =
        || random.pick(&[MOST_FIGURE, MOST_FIGURE, MOST_FIGURE - 0.5, 0.75 * MOST_FIGURE]);
    let mut from = depot;
    for &to in round.stops.iter().chain([&depot]) {
        legs(sheet, DURATION)[from * rows + to] = long();
        from = to;
    }
    for &stop in &round.stops {
        sheet.rows[stop].service = long();
    }
}

fn whole(sheet: &Sheet, round: &Round) -> u64 {
    begun(1, built(sheet, round).total_duration())
}

/// What is rounded up to a whole number, or just not.
fn up_to(whole: u64, random: &mut Random) -> f64 {
    let (whole, half) = (whole as f64, 0.5 * random.unit());
    let before = (whole - 1.0).max(0.0);
    random.pick(&[
        whole,
        whole,
        whole.next_down().max(0.0),
        whole.next_up(),
        (whole - half).max(0.0),
        before + half,
        before.next_up(),
        before,
    ])
}

/// Few crews for the most part, at times about as many as there are rounds.
pub fn crews(rounds: usize, random: &mut Random) -> Crews {
    let near = (rounds + random.below(3)).saturating_sub(1).clamp(1, MOST_CREWS as usize);
    let any = 1 + random.below(MOST_CREWS as usize);
    Crews(random.pick(&[1, 2, 2, 2, 3, 3, MOST_CREWS as usize, near, near, any, any]) as u32)
}

/// No crew, or more than there may be: of many the low byte, or the low two, are often in range.
pub fn overcrowd(crews: &mut Crews, random: &mut Random) {
    let in_range = crews.0;
    let any = MOST_CREWS + 1 + random.below((u32::MAX - MOST_CREWS) as usize) as u32;
    let over = [9, 9, 255, 256, 257, 1 << 8 | in_range, 1 << 16 | in_range, 1 << 31, u32::MAX, any];
    crews.0 = if random.one_in(4) { 0 } else { random.pick(&over) };
}
