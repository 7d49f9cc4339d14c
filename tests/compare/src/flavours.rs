//! Sheets to plan, by flavour: each leans on what a port could get wrong, and is fitted to its own
//! plan so that the comparisons are met at their ties.
//!
//! A sheet depends on the seed and its number alone, so that each can be drawn again.

use crate::damage::{noise, noise_after_header, Base, Values};
use crate::fit::{Fit, Step};
use crate::fit_reasons::fit_reasons;
use crate::generate::{mark_rests, random_sheet, straight};
use crate::plan::plan_len;
use crate::points::lay_points;
use crate::random::Random;
use crate::refusal::{needs_vehicle, refusal, MOST_FIGURE, MOST_ROWS, MOST_VEHICLES, OFFERED};
use crate::sheet::{Row, Sheet, Vehicle};
use crate::sheet::{DEPOT, HOME, MAX_DISTANCE, MAX_DURATION, PENALTY, REST, WINDOW};
use crate::sheet::{INSERTION, SAVINGS, SWEEP};

/// The most stops of a usual sheet, and the fewest of a large one.
const SMALL: usize = 7;
const LARGE: usize = 19;
/// A plan buffer of a wrong length is kept below this.
pub const MOST_LENT: usize = 1 << 17;

/// One call of the planner.
pub struct Drawn {
    pub flavour: usize,
    pub sheet: Vec<u8>,
    pub plan_len: usize,
}

/// How the numbers of a sheet are drawn.
#[derive(Clone, Copy)]
enum Numbers {
    /// Few and whole, so that most of them tie.
    Few,
    Whole,
    /// Sums of these round.
    Tenths,
    Thirds,
    Fine,
}
use Numbers::{Few, Fine, Tenths, Thirds, Whole};

/// What a flavour's sheets are made of.
struct Recipe {
    numbers: &'static [Numbers],
    /// Of 12 rows so many have a window, and so many a penalty.
    windows: usize,
    penalties: usize,
    /// The vehicle marks that occur.
    marks: u32,
    depots: &'static [usize],
    fits: &'static [Fit],
}

pub const FLAVOURS: [&str; 16] = [
    "ties",
    "tenths",
    "waits",
    "limits",
    "rests",
    "soft",
    "depots",
    "whole",
    "large",
    "any",
    "refused",
    "savings",
    "savings, soft",
    "insertion",
    "insertion, soft",
    "sweep",
];
const WHOLE: usize = 7;
const LARGE_FLAVOUR: usize = 8;
const ANY: usize = 9;
const REFUSED: usize = 10;
/// From here on a flavour is one method's own.
const OWN: usize = 11;
/// How likely each is, where its method is among those drawn.
const SHARES: [usize; 16] = [12, 9, 14, 15, 15, 18, 18, 12, 2, 6, 8, 30, 20, 30, 20, 50];
/// How likely whole sheets are among those that are all fitted to one thing.
const WHOLE_WHERE_FITTED: usize = 40;

const MAXIMA: u32 = MAX_DISTANCE | MAX_DURATION;

/// Of the flavours before `large`.
const RECIPES: [Recipe; 8] = [
    Recipe {
        numbers: &[Few],
        windows: 2,
        penalties: 2,
        marks: MAXIMA | REST,
        depots: &[1, 1, 2],
        fits: &[Fit::Key, Fit::Key, Fit::Key, Fit::Capacity, Fit::Depot, Fit::Home],
    },
    Recipe {
        numbers: &[Tenths],
        windows: 4,
        penalties: 2,
        marks: MAXIMA | REST,
        depots: &[1, 1, 1, 2],
        fits: &[Fit::Test, Fit::Maximum, Fit::Due, Fit::Capacity],
    },
    Recipe {
        numbers: &[Tenths, Thirds, Fine],
        windows: 10,
        penalties: 2,
        marks: MAXIMA | REST,
        depots: &[1, 1, 1, 2],
        fits: &[Fit::Wait, Fit::Wait, Fit::Due, Fit::Window, Fit::Test, Fit::Maximum],
    },
    Recipe {
        numbers: &[Tenths, Thirds, Fine],
        windows: 2,
        penalties: 1,
        marks: MAXIMA,
        depots: &[1, 1, 1, 2],
        fits: &[Fit::Test, Fit::Test, Fit::Test, Fit::Maximum, Fit::Maximum, Fit::Home],
    },
    Recipe {
        numbers: &[Few, Whole, Tenths, Thirds],
        windows: 4,
        penalties: 2,
        marks: MAXIMA | REST,
        depots: &[1, 1, 1, 2],
        fits: &[
            Fit::Rest,
            Fit::Rest,
            Fit::RestEnd,
            Fit::Maximum,
            Fit::Window,
            Fit::Wait,
            Fit::Home,
        ],
    },
    Recipe {
        numbers: &[Few, Whole, Whole, Tenths, Fine],
        windows: 8,
        penalties: 9,
        marks: MAXIMA | REST,
        depots: &[1, 1, 1, 2],
        fits: &[
            Fit::Dear,
            Fit::Dear,
            Fit::Dear,
            Fit::Key,
            Fit::Window,
            Fit::Wait,
            Fit::Test,
            Fit::Alone,
            Fit::Rest,
            Fit::Home,
        ],
    },
    Recipe {
        numbers: &[Few, Whole, Tenths, Fine],
        windows: 4,
        penalties: 3,
        marks: MAXIMA | REST,
        depots: &[2, 2, 3, 3, 4],
        fits: &[Fit::Capacity, Fit::Depot, Fit::Test, Fit::Window, Fit::Key, Fit::Dear, Fit::Home],
    },
    Recipe {
        numbers: &[Few, Whole, Whole],
        windows: 4,
        penalties: 0,
        marks: MAXIMA | REST,
        depots: &[1, 1, 1, 2, 3],
        fits: &[
            Fit::Test,
            Fit::Maximum,
            Fit::Window,
            Fit::Rest,
            Fit::RestEnd,
            Fit::Capacity,
            Fit::Home,
        ],
    },
];

const OWN_RECIPES: [(u8, Recipe); 5] = [
    (
        SAVINGS,
        Recipe {
            numbers: &[Few, Whole, Tenths, Tenths, Thirds, Fine],
            windows: 1,
            penalties: 1,
            marks: MAXIMA | REST,
            depots: &[1, 1, 1, 2, 2, 3],
            fits: &[
                Fit::Saving,
                Fit::Saving,
                Fit::Saving,
                Fit::Capacity,
                Fit::Capacity,
                Fit::Maximum,
                Fit::Test,
                Fit::Due,
                Fit::Rest,
                Fit::Home,
            ],
        },
    ),
    (
        SAVINGS,
        Recipe {
            numbers: &[Few, Whole, Whole, Tenths, Thirds, Fine],
            windows: 6,
            penalties: 8,
            marks: MAXIMA | REST,
            depots: &[1, 1, 1, 1, 1, 2],
            fits: &[Fit::Dear, Fit::Dear, Fit::Dear, Fit::Saving, Fit::Due, Fit::Test, Fit::Rest],
        },
    ),
    (
        INSERTION,
        Recipe {
            numbers: &[Few, Whole, Tenths, Tenths, Thirds, Fine],
            windows: 2,
            penalties: 1,
            marks: MAXIMA | REST,
            depots: &[1, 1, 1, 1, 2, 3],
            fits: &[
                Fit::Cost,
                Fit::Cost,
                Fit::Far,
                Fit::Capacity,
                Fit::Maximum,
                Fit::Test,
                Fit::Due,
                Fit::Rest,
                Fit::Home,
            ],
        },
    ),
    (
        INSERTION,
        Recipe {
            numbers: &[Few, Whole, Whole, Tenths, Thirds, Fine],
            windows: 6,
            penalties: 8,
            marks: MAXIMA | REST,
            depots: &[1, 1, 1, 1, 1, 2],
            fits: &[
                Fit::Dear,
                Fit::Dear,
                Fit::Dear,
                Fit::Cost,
                Fit::Cost,
                Fit::Whole,
                Fit::Far,
                Fit::Due,
                Fit::Test,
                Fit::Rest,
            ],
        },
    ),
    (
        SWEEP,
        Recipe {
            numbers: &[Few, Whole, Tenths, Thirds, Fine],
            windows: 3,
            penalties: 2,
            marks: MAXIMA | REST,
            depots: &[1, 1, 1, 1, 2, 3],
            fits: &[
                Fit::Capacity,
                Fit::Capacity,
                Fit::Maximum,
                Fit::Test,
                Fit::Due,
                Fit::Rest,
                Fit::Home,
            ],
        },
    ),
];

/// How likely a flavour is among sheets of these methods.
pub fn share(methods: &[u8], flavour: usize) -> usize {
    match flavour.checked_sub(OWN) {
        Some(own) if !methods.contains(&OWN_RECIPES[own].0) => 0,
        _ => SHARES[flavour],
    }
}

/// The sheet of a number, of one of these methods if its header is not damaged.
pub fn drawn(methods: &[u8], seed: u64, number: usize) -> Drawn {
    let random = &mut Random::numbered(seed, number);
    let flavour = random.by_share((0..FLAVOURS.len()).map(|flavour| share(methods, flavour)));
    if flavour == REFUSED {
        return refused(methods, random);
    }
    let sheet = sheet(methods, flavour, random);
    Drawn { flavour, sheet: sheet.encode(), plan_len: plan_len(sheet.rows.len()) }
}

/// A sheet that is not meant to be refused.
pub fn any_sheet(methods: &[u8], random: &mut Random) -> Sheet {
    let kept = |flavour| if flavour == REFUSED { 0 } else { share(methods, flavour) };
    let flavour = random.by_share((0..FLAVOURS.len()).map(kept));
    sheet(methods, flavour, random)
}

/// A sheet of a number where a depot that has a vehicle has a window, fitted to rounds that come home
/// just in time.
pub fn drawn_with_due(seed: u64, number: usize) -> Drawn {
    fitted(&mut Random::numbered(seed, number), |sheet, random| {
        for _ in 0..sheet.depots() + random.below(2) {
            if let Some(step) = Step::new(sheet, random) {
                step.fit(sheet, Fit::Home, random);
            }
        }
        sheet.vehicles.iter().any(|vehicle| sheet.home_due(vehicle).is_some())
    })
}

/// A sheet of a number where a vehicle may rest at home, fitted to rounds that do.
pub fn drawn_at_home(seed: u64, number: usize) -> Drawn {
    fitted(&mut Random::numbered(seed, number), |sheet, random| {
        mark_rests(sheet, random);
        for _ in 0..1 + random.below(3) {
            if let Some(step) = Step::new(sheet, random) {
                step.fit(sheet, Fit::RestAtHome, random);
            }
        }
        sheet.vehicles.iter().any(|vehicle| vehicle.marks & HOME != 0)
    })
}

/// A sheet of a number fitted to lone rounds that just keep a rule or just break it.
pub fn drawn_with_reasons(seed: u64, number: usize) -> Drawn {
    fitted(&mut Random::numbered(seed, number), fit_reasons)
}

/// A sheet that is not refused, and that `fit` says it has fitted; whole ones stay whole.
fn fitted(random: &mut Random, fit: impl Fn(&mut Sheet, &mut Random) -> bool) -> Drawn {
    loop {
        let method = random.pick(OFFERED);
        let kept = |flavour| match flavour {
            REFUSED => 0,
            WHOLE => WHOLE_WHERE_FITTED,
            _ => share(&[method], flavour),
        };
        let flavour = random.by_share((0..FLAVOURS.len()).map(kept));
        let mut sheet = sheet(&[method], flavour, random);
        let is_fitted = fit(&mut sheet, random);
        if flavour == WHOLE {
            make_whole(&mut sheet);
        }
        let (sheet, plan_len) = (sheet.encode(), plan_len(sheet.rows.len()));
        if is_fitted && refusal(&sheet, plan_len) == 0 {
            return Drawn { flavour, sheet, plan_len };
        }
    }
}

/// A sheet whose rounds have to be lawful.
pub fn whole_sheet(methods: &[u8], random: &mut Random) -> Vec<u8> {
    sheet(methods, WHOLE, random).encode()
}

/// A damaged sheet, a plan buffer of a wrong length, or noise. Some of these are no worse for it.
fn refused(methods: &[u8], random: &mut Random) -> Drawn {
    let case = match random.below(16) {
        0 => noise(random.below(200), random),
        1 => noise_after_header(random),
        _ => {
            let flavour = random.pick(&[0, 4, 6, ANY]);
            Base::new(&sheet(methods, flavour, random)).damaged(&Values::all(), random)
        }
    };
    Drawn { flavour: REFUSED, sheet: case.sheet, plan_len: case.plan_len % MOST_LENT }
}

fn sheet(methods: &[u8], flavour: usize, random: &mut Random) -> Sheet {
    let method = random.pick(methods);
    if flavour == ANY {
        return loop {
            let sheet = Sheet { method, ..random_sheet(random) };
            let bare = sheet.vehicles.is_empty() && needs_vehicle(method);
            let over = sheet.rows.len() > MOST_ROWS || sheet.vehicles.len() > MOST_VEHICLES;
            if !over && !bare {
                break sheet;
            }
        };
    }
    if flavour >= OWN {
        return own_sheet(flavour - OWN, random);
    }
    let (recipe, stops) = match flavour {
        LARGE_FLAVOUR => (random.below(RECIPES.len()), LARGE + random.below(MOST_ROWS - LARGE)),
        _ => (flavour, 1 + random.below(SMALL)),
    };
    let mut sheet = RECIPES[recipe].sheet(method, stops, random);
    RECIPES[recipe].fit(&mut sheet, random);
    if recipe == WHOLE {
        make_whole(&mut sheet);
    }
    sheet
}

/// A sheet of a flavour that is one method's own.
fn own_sheet(own: usize, random: &mut Random) -> Sheet {
    let (method, recipe) = &OWN_RECIPES[own];
    let mut sheet = recipe.sheet(*method, 2 + random.below(SMALL), random);
    match *method {
        SAVINGS => {
            lay_legs(&mut sheet, random);
            if random.one_in(if sheet.depots() > 1 { 2 } else { 3 }) {
                soften(&mut sheet, random);
            }
        }
        INSERTION if random.one_in(12) => {
            let depots = sheet.depots();
            let rows = sheet.rows.len();
            sheet.distances[..depots * rows].fill(0.0);
        }
        SWEEP => lay_points(&mut sheet, random),
        _ => (),
    }
    recipe.fit(&mut sheet, random);
    sheet
}

/// Gives a row, often a depot's, a soft window that no one is late for.
fn soften(sheet: &mut Sheet, random: &mut Random) {
    let any = random.below(sheet.rows.len());
    let row = &mut sheet.rows[random.pick(&[0, any])];
    row.marks |= WINDOW | PENALTY;
    (row.ready, row.due) = (0.0, MOST_FIGURE);
}

/// Makes legs alike both ways, of most sheets, and then of some all but one.
fn lay_legs(sheet: &mut Sheet, random: &mut Random) {
    let (depots, rows) = (sheet.depots(), sheet.rows.len());
    let alike = random.below(8);
    if alike < 2 {
        return;
    }
    for k in 0..rows * rows {
        sheet.distances[k] =
            sheet.distances[(k / rows).min(k % rows) * rows + (k / rows).max(k % rows)];
    }
    if sheet.times.is_none() && random.one_in(6) {
        sheet.times =
            Some(sheet.distances.iter().map(|leg| leg + random.below(3) as f64).collect());
    }
    if alike > 5 {
        let reach = if depots > 1 && random.one_in(2) { depots } else { rows };
        let leg = &mut sheet.distances[random.below(reach) * rows + random.below(reach)];
        *leg = random.pick(&[*leg + 1.0, leg.next_up(), 0.0, 5.0]);
    }
}

/// Rounds all that a lawful round is read from, and makes every window hard; the maxima stay. Windows
/// are rounded down, so that one missed by a step is missed.
fn make_whole(sheet: &mut Sheet) {
    let round = |figures: &mut [&mut f64]| figures.iter_mut().for_each(|x| **x = x.round());
    for row in &mut sheet.rows {
        row.service = row.service.round();
        (row.ready, row.due) = (row.ready.floor(), row.due.floor());
        row.marks &= !PENALTY;
        row.penalty = 0.0;
    }
    for vehicle in &mut sheet.vehicles {
        round(&mut [&mut vehicle.earliest, &mut vehicle.latest, &mut vehicle.rest_duration]);
    }
    sheet.distances.iter_mut().chain(sheet.times.iter_mut().flatten()).for_each(|x| *x = x.round());
}

fn number(random: &mut Random, numbers: Numbers) -> f64 {
    match numbers {
        Few => random.below(5) as f64,
        Whole => random.below(40) as f64,
        Tenths => random.below(400) as f64 * 0.1,
        Thirds => random.below(120) as f64 / 3.0,
        Fine => 40.0 * random.unit(),
    }
}

impl Recipe {
    fn fit(&self, sheet: &mut Sheet, random: &mut Random) {
        for _ in 0..random.pick(&[0, 1, 1, 2, 3, 4]) {
            let fit = random.pick(self.fits);
            if let Some(step) = Step::new(sheet, random) {
                step.fit(sheet, fit, random);
            }
        }
    }

    fn sheet(&self, method: u8, stops: usize, random: &mut Random) -> Sheet {
        let numbers = random.pick(self.numbers);
        let depots = random.pick(self.depots);
        let rows = (depots + stops).min(MOST_ROWS);
        let mut sheet = Sheet {
            method,
            rows: (0..rows).map(|k| self.row(random, numbers, k < depots)).collect(),
            vehicles: Vec::new(),
            distances: Vec::new(),
            times: None,
        };
        if depots == 1 && random.one_in(4) {
            sheet.rows[0].marks &= !DEPOT;
        }
        let count = match random.below(32) {
            0 => usize::from(needs_vehicle(method)),
            1 => MOST_VEHICLES,
            _ => depots + random.below(3),
        };
        let first = random.pick(&[0, 7, u32::MAX - 20]);
        let ids = random.pick(&[[0, 1], [16, u32::MAX]]);
        for k in 0..count as u32 {
            let id = first.wrapping_add(ids[0]).wrapping_add(ids[1].wrapping_mul(k));
            let vehicle = self.vehicle(random, numbers, &sheet, depots);
            sheet.vehicles.push(Vehicle { id, ..vehicle });
        }
        sheet.distances = matrix(random, numbers, &sheet.rows);
        if random.one_in(3) {
            sheet.times = Some(matrix(random, numbers, &sheet.rows));
        }
        sheet
    }

    fn row(&self, random: &mut Random, numbers: Numbers, depot: bool) -> Row {
        let stray = random.one_in(24);
        let reach = random.pick(&[2, 20]);
        let mut coordinate = || random.below(2 * reach + 1) as i32 - reach as i32;
        let (x, y) = (coordinate(), coordinate());
        let mut row = Row {
            x,
            y,
            demand: random.pick(&[0, 1, 1, 1, 2, 2, 3, 5]),
            marks: if depot || stray { DEPOT } else { 0 },
            ..Row::default()
        };
        if random.one_in(2) {
            row.service = number(random, numbers);
        }
        if random.below(12) < self.windows {
            row.marks |= WINDOW;
            row.ready = random.pick(&[0.0, 1.0, 2.0, 4.0]) * number(random, numbers);
            // A depot's is held against whole rounds.
            let widths = if depot { [4.0, 16.0, 32.0, 64.0] } else { [0.0, 1.0, 4.0, 8.0] };
            row.due = row.ready + random.pick(&widths) * number(random, numbers);
        }
        if random.below(12) < self.penalties {
            row.marks |= PENALTY;
            row.penalty = random.pick(&[0.0, 0.1, 0.3, 0.5, 1.0, 2.0, 7.0]);
        }
        row
    }

    fn vehicle(
        &self,
        random: &mut Random,
        numbers: Numbers,
        sheet: &Sheet,
        depots: usize,
    ) -> Vehicle {
        let taken = random.pick(&[1, 1, 2, 3, 4]);
        let carried = (0..taken).map(|_| sheet.rows[random.below(sheet.rows.len())].demand).sum();
        let mut vehicle = Vehicle {
            depot: random.below(depots) as u32,
            capacity: random.pick(&[carried, carried, 1_000_000]),
            marks: random.below(8) as u32 & random.below(8) as u32 & self.marks,
            cost_per_distance: random.pick(&[0.0, 0.1, 1.0, 1.0, 2.0, 3.0]),
            ..Vehicle::default()
        };
        if random.one_in(2) {
            vehicle.fixed_cost = number(random, numbers);
        }
        let mut times = |of: &[f64]| random.pick(of) * number(random, numbers);
        if vehicle.marks & MAX_DISTANCE != 0 {
            vehicle.max_distance = times(&[2.0, 4.0, 8.0]);
        }
        if vehicle.marks & MAX_DURATION != 0 {
            vehicle.max_duration = times(&[2.0, 4.0, 8.0, 16.0]);
        }
        if vehicle.marks & REST != 0 {
            vehicle.earliest = times(&[1.0, 2.0]);
            vehicle.latest = vehicle.earliest + times(&[0.0, 1.0, 2.0]);
            vehicle.rest_duration = times(&[0.0, 1.0]);
        }
        vehicle
    }
}

/// Legs as the rows lie, drawn for both ways at once, or for each.
fn matrix(random: &mut Random, numbers: Numbers, rows: &[Row]) -> Vec<f64> {
    let count = rows.len();
    let mut matrix: Vec<f64> = match random.below(6) {
        0 if matches!(numbers, Tenths | Thirds | Fine) => {
            let leg = |k| straight(&rows[k / count], &rows[k % count]);
            return (0..count * count).map(leg).collect();
        }
        _ => (0..count * count).map(|_| number(random, numbers)).collect(),
    };
    let (both_ways, idle) = (random.one_in(2), !random.one_in(6));
    for k in 0..matrix.len() {
        let (from, to) = (k / count, k % count);
        if from == to && idle {
            matrix[k] = 0.0;
        }
        if to < from && both_ways {
            matrix[k] = matrix[to * count + from];
        }
    }
    matrix
}
