//! Sheets to compare on: tiny ones enumerated, and random ones with many ties.

use crate::random::Random;
use crate::refusal::{LEAST_RATE, MOST_FIGURE, MOST_MAXIMUM, MOST_PENALTY, MOST_RATE, OFFERED};
use crate::sheet::{Row, Sheet, Vehicle};
use crate::sheet::{DEPOT, HOME, MAX_DISTANCE, MAX_DURATION, PENALTY, REST, WINDOW};

/// Every way through a series of choices in turn; each choice is a digit of a counter.
#[derive(Default)]
pub struct Choices {
    digits: Vec<(usize, usize)>,
    next: usize,
}

impl Choices {
    pub fn below(&mut self, n: usize) -> usize {
        if self.next == self.digits.len() {
            self.digits.push((0, n));
        }
        self.next += 1;
        self.digits[self.next - 1].0
    }

    /// Counts on; false after the last way.
    pub fn advance(&mut self) -> bool {
        self.next = 0;
        while let Some((digit, n)) = self.digits.pop() {
            if digit + 1 < n {
                self.digits.push((digit + 1, n));
                return true;
            }
        }
        false
    }
}

/// Every sheet of up to 3 rows and 2 vehicles over small sets of marks, depots, ids and methods,
/// some of them refused.
pub fn tiny() -> Vec<Sheet> {
    let mut choices = Choices::default();
    let mut sheets = vec![tiny_sheet(&mut choices)];
    while choices.advance() {
        sheets.push(tiny_sheet(&mut choices));
    }
    sheets
}

fn tiny_sheet(choices: &mut Choices) -> Sheet {
    let count = choices.below(4);
    let vehicles = choices.below(3);
    let method = choices.below(6) as u8;
    let timed = choices.below(2) == 1;
    Sheet {
        method,
        rows: (0..count).map(|k| tiny_row(choices, k)).collect(),
        vehicles: (0..vehicles).map(|k| tiny_vehicle(choices, k)).collect(),
        distances: entries(count, |from, to| from.abs_diff(to) as f64),
        times: timed.then(|| entries(count, |from, to| (2 * from + to) as f64)),
    }
}

fn tiny_row(choices: &mut Choices, k: usize) -> Row {
    let marks = [0, DEPOT, WINDOW, DEPOT | WINDOW | PENALTY][choices.below(4)];
    let given = |mark: u32, value: f64| if marks & mark != 0 { value } else { 0.0 };
    Row {
        x: k as i32,
        y: 1,
        demand: 1,
        marks,
        service: 0.5,
        ready: given(WINDOW, 1.0),
        due: given(WINDOW, 3.0),
        penalty: given(PENALTY, 2.0),
    }
}

/// The first vehicle has no marks, the second has all but that of a rest at home.
fn tiny_vehicle(choices: &mut Choices, k: usize) -> Vehicle {
    let plain = Vehicle {
        id: if k == 0 { 0 } else { choices.below(2) as u32 },
        depot: choices.below(2) as u32,
        capacity: 2,
        cost_per_distance: 1.0,
        ..Vehicle::default()
    };
    if k == 0 {
        return plain;
    }
    Vehicle {
        marks: MAX_DISTANCE | MAX_DURATION | REST,
        max_distance: 5.0,
        max_duration: 9.0,
        earliest: 2.0,
        latest: 3.0,
        rest_duration: 1.0,
        ..plain
    }
}

/// A table of legs.
pub fn entries(rows: usize, mut entry: impl FnMut(usize, usize) -> f64) -> Vec<f64> {
    (0..rows * rows).map(|k| entry(k / rows, k % rows)).collect()
}

/// How a sheet's numbers are drawn.
#[derive(Clone, Copy)]
enum Style {
    /// Whole and few, so that most of them tie.
    Few,
    Whole,
    /// Tenths, which sums round.
    Tenths,
    /// Anything in range.
    Wide,
    /// The ends of the range and their neighbours.
    Ends,
}

const STYLES: [Style; 7] =
    [Style::Few, Style::Few, Style::Whole, Style::Whole, Style::Tenths, Style::Wide, Style::Ends];

fn number(random: &mut Random, style: Style, most: f64) -> f64 {
    match style {
        Style::Few => random.below(4) as f64,
        Style::Whole => random.below(60) as f64,
        Style::Tenths => random.below(600) as f64 * 0.1,
        Style::Wide => most * random.unit(),
        Style::Ends => random.pick(&[0.0, f64::from_bits(1), 1.0, most.next_down(), most]),
    }
}

/// What is reached, or one step beside it.
pub fn beside(random: &mut Random, x: f64, most: f64) -> f64 {
    random.pick(&[x, x, x.next_up(), x.next_down()]).clamp(0.0, most)
}

/// Two numbers, the first not above the second.
fn ordered(random: &mut Random, style: Style, most: f64) -> (f64, f64) {
    let (a, b) = (number(random, style, most), number(random, style, most));
    (a.min(b), a.max(b))
}

/// A random sheet: mostly small, at times of 101 rows or 16 vehicles, rarely one more of either.
pub fn random_sheet(random: &mut Random) -> Sheet {
    let rows = match random.below(256) {
        0 => random.pick(&[101, 101, 101, 102]),
        1 => 31 + random.below(70),
        2..10 => 9 + random.below(24),
        10..160 => random.below(5),
        _ => random.below(9),
    };
    let vehicles = match random.below(32) {
        0 => random.pick(&[16, 16, 17]),
        1 => random.below(16),
        2 | 3 => 0,
        _ => 1 + random.below(4),
    };
    sheet_of(random, rows, vehicles)
}

pub fn sheet_of(random: &mut Random, rows: usize, vehicles: usize) -> Sheet {
    let style = random.pick(&STYLES);
    let depots = random.pick(&[0, 1, 1, 1, 1, 2, 2, 3, rows]);
    let reach = random.pick(&[1, 3, 3, 50, 1_000_000]);
    let mut sheet = Sheet {
        method: random.pick(OFFERED),
        rows: (0..rows).map(|k| row(random, style, reach, k < depots)).collect(),
        vehicles: Vec::new(),
        distances: Vec::new(),
        times: None,
    };
    let depots = sheet.depots();
    let first = random.pick(&[0, 7, u32::MAX - 5]);
    let kept = random.below(8) as u32;
    sheet.vehicles = (0..vehicles)
        .map(|k| vehicle(random, style, first.wrapping_add(k as u32), depots, kept))
        .collect();
    sheet.distances = matrix(random, style, &sheet.rows);
    if random.one_in(3) {
        sheet.times = Some(matrix(random, style, &sheet.rows));
    }
    sheet
}

fn row(random: &mut Random, style: Style, reach: i32, depot: bool) -> Row {
    let stray = random.one_in(16);
    let mut row = Row {
        x: coordinate(random, reach),
        y: coordinate(random, reach),
        demand: random.pick(&[0, 1, 1, 1, 2, 3, 10, 1_000_000]),
        marks: if depot || stray { DEPOT } else { 0 },
        service: number(random, style, MOST_FIGURE),
        ..Row::default()
    };
    if random.one_in(3) {
        row.marks |= WINDOW;
        (row.ready, row.due) = ordered(random, style, MOST_FIGURE);
    }
    if random.one_in(4) {
        row.marks |= PENALTY;
        row.penalty = number(random, style, MOST_PENALTY);
    }
    row
}

fn coordinate(random: &mut Random, reach: i32) -> i32 {
    random.below(2 * reach as usize + 1) as i32 - reach
}

/// Marks out of those that this sheet's vehicles are kept to.
fn vehicle(random: &mut Random, style: Style, id: u32, depots: usize, kept: u32) -> Vehicle {
    let dear = number(random, style, MOST_RATE).max(LEAST_RATE);
    let mut vehicle = Vehicle {
        id,
        depot: random.below(depots) as u32,
        capacity: random.pick(&[0, 1, 2, 3, 5, 10, 1_000_000, i32::MAX]),
        marks: random.below(8) as u32 & kept,
        cost_per_distance: random.pick(&[0.0, LEAST_RATE, 1.0, 1.0, 1.0, MOST_RATE, dear]),
        ..Vehicle::default()
    };
    if random.one_in(2) {
        vehicle.fixed_cost = number(random, style, MOST_FIGURE);
    }
    let legs = random.pick(&[1.0, 3.0, 8.0]);
    if vehicle.marks & MAX_DISTANCE != 0 {
        vehicle.max_distance = (legs * number(random, style, MOST_FIGURE)).min(MOST_MAXIMUM);
    }
    if vehicle.marks & MAX_DURATION != 0 {
        vehicle.max_duration = number(random, style, MOST_MAXIMUM);
    }
    if vehicle.marks & REST != 0 {
        (vehicle.earliest, vehicle.latest) = ordered(random, style, MOST_FIGURE);
        vehicle.rest_duration = number(random, style, MOST_FIGURE);
    }
    vehicle
}

/// Lets vehicles that rest do so at home, each as likely as not.
pub fn mark_rests(sheet: &mut Sheet, random: &mut Random) {
    let rests = |vehicle: &&mut Vehicle| vehicle.marks & REST != 0;
    for vehicle in sheet.vehicles.iter_mut().filter(rests) {
        vehicle.marks |= random.pick(&[0, HOME]);
    }
}

/// A matrix as the rows lie, symmetric, symmetric but for one leg, or directed.
fn matrix(random: &mut Random, style: Style, rows: &[Row]) -> Vec<f64> {
    let count = rows.len();
    if random.one_in(4) {
        return entries(count, |from, to| straight(&rows[from], &rows[to]));
    }
    let kind = random.below(4);
    let mut matrix = entries(count, |_, _| number(random, style, MOST_FIGURE));
    for k in 0..matrix.len() {
        let (from, to) = (k / count, k % count);
        if from == to && kind != 3 {
            matrix[k] = 0.0;
        }
        if to < from && kind < 2 {
            matrix[k] = matrix[to * count + from];
        }
    }
    if kind == 1 && count > 0 {
        let leg = random.below(count * count);
        matrix[leg] = number(random, style, MOST_FIGURE);
    }
    matrix
}

pub fn straight(from: &Row, to: &Row) -> f64 {
    let (dx, dy) = (f64::from(from.x - to.x), f64::from(from.y - to.y));
    (dx * dx + dy * dy).sqrt()
}

#[cfg(test)]
mod tests {
    use super::{random_sheet, tiny};
    use crate::plan::plan_len;
    use crate::random::Random;
    use crate::refusal::{needs_vehicle, refusal};
    use crate::sheet::Sheet;

    /// Before any damage only the counts, or a missing vehicle, may be wrong.
    #[test]
    fn random_sheets_are_in_range() {
        let mut random = Random::new(1);
        for _ in 0..5000 {
            let sheet = random_sheet(&mut random);
            let answer = refusal(&sheet.encode(), plan_len(sheet.rows.len()));
            let counts = sheet.rows.len() > 101 || sheet.vehicles.len() > 16;
            let bare = sheet.vehicles.is_empty() && needs_vehicle(sheet.method);
            assert_eq!(
                answer,
                if counts {
                    2
                } else if bare {
                    8
                } else {
                    0
                }
            );
        }
    }

    #[test]
    fn bytes_are_read_back() {
        for sheet in tiny() {
            let bytes = sheet.encode();
            assert_eq!(Sheet::decode(&bytes).encode(), bytes);
        }
    }
}
