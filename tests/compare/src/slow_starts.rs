//! Sheets of 101 rows to start from in the search for a slow one: long rounds, every candidate
//! judged, rests and windows walked, and depots that hand stops on to each other.

use crate::generate::straight;
use crate::random::Random;
use crate::refusal::{MOST_ROWS, MOST_VEHICLES};
use crate::sheet::{Row, Sheet, Vehicle};
use crate::sheet::{DEPOT, MAX_DISTANCE, MAX_DURATION, PENALTY, REST, WINDOW};

/// Longer than any round of these sheets takes.
const EVER: f64 = 1e8;

/// What a start is drawn by.
struct Start {
    depots: usize,
    windows: &'static str,
    penalties: bool,
    rests: &'static str,
    maxima: bool,
    legs: &'static str,
    /// All stops lie nearest to the first depot, and then to the others in their order.
    together: bool,
    capacity: &'static str,
    /// Stops that no vehicle reaches in time, so that each depot in turn turns them down.
    out_of_reach: usize,
    timed: bool,
}

pub fn start(method: u8, random: &mut Random) -> Sheet {
    let start = Start {
        depots: random.pick(&[1, 1, 1, 2, 2, 3, 4, 8, 12, 16]),
        windows: random.pick(&["none", "none", "wide", "wide", "open later", "some"]),
        penalties: random.one_in(3),
        rests: random.pick(&["none", "soon", "late"]),
        maxima: random.one_in(2),
        legs: random.pick(&["straight", "random", "falling", "alike", "both ways", "unsorted"]),
        together: random.one_in(2),
        capacity: random.pick(&["endless", "endless", "one too few", "one too few", "tight"]),
        out_of_reach: random.pick(&[0, 0, 1, 2, 10]),
        timed: random.one_in(4),
    };
    start.sheet(method, random)
}

impl Start {
    fn sheet(&self, method: u8, random: &mut Random) -> Sheet {
        let mut rows: Vec<Row> =
            (0..MOST_ROWS).map(|k| self.row(k < self.depots, random)).collect();
        for stop in 0..self.out_of_reach {
            let row = &mut rows[MOST_ROWS - 1 - stop];
            row.marks = WINDOW;
            (row.ready, row.due, row.penalty) = (0.0, 0.0, 0.0);
        }
        let distances = self.matrix(&rows, random);
        let times = self.timed.then(|| self.matrix(&rows, random));
        let vehicles = self.vehicles(&distances, random);
        Sheet { method, rows, vehicles, distances, times }
    }

    fn row(&self, depot: bool, random: &mut Random) -> Row {
        let mut row = Row {
            x: random.below(1000) as i32,
            y: random.below(1000) as i32,
            demand: 1,
            marks: if depot { DEPOT } else { 0 },
            service: random.below(3) as f64,
            ..Row::default()
        };
        (row.ready, row.due) = match self.windows {
            "wide" => (0.0, EVER),
            "open later" => (random.below(20_000) as f64, EVER),
            "some" if random.one_in(3) => (0.0, random.below(100_000) as f64),
            _ => return row,
        };
        row.marks |= WINDOW;
        if self.penalties {
            row.marks |= PENALTY;
            row.penalty = 0.001;
        }
        row
    }

    fn matrix(&self, rows: &[Row], random: &mut Random) -> Vec<f64> {
        let count = rows.len();
        if self.legs == "unsorted" {
            return self.unsorted(count, random);
        }
        let mut legs: Vec<f64> = (0..count * count)
            .map(|k| match self.legs {
                "straight" => straight(&rows[k / count], &rows[k % count]),
                "falling" => (2 * count - k % count) as f64,
                "alike" => 7.0,
                _ => 1.0 + random.below(1000) as f64,
            })
            .collect();
        if self.legs == "both ways" {
            (0..legs.len()).for_each(|k| legs[k] = legs[(k % count) * count + k / count]);
        }
        if self.together {
            (0..self.depots * count).for_each(|k| legs[k] += 2000.0 * (k / count) as f64);
        }
        legs
    }

    /// Legs whose savings at the first depot, to which all stops lie nearest, are hard to sort.
    fn unsorted(&self, count: usize, random: &mut Random) -> Vec<f64> {
        const FAR: f64 = 1e6;
        let mut legs: Vec<f64> = (0..count * count).map(|k| FAR + (k / count) as f64).collect();
        let stops = self.depots..count - self.out_of_reach;
        let pairs = stops.clone().flat_map(|i| stops.clone().map(move |j| (i, j)));
        let pairs: Vec<(usize, usize)> = pairs.filter(|(i, j)| i != j).collect();
        for ((i, j), saving) in pairs.iter().zip(hard_to_sort(pairs.len(), random)) {
            legs[i * count + j] = legs[i * count] + FAR - saving;
        }
        legs
    }

    /// At least one at each depot. With one too few, each depot has room for the stops it is
    /// nearest to, but for one stop in all.
    fn vehicles(&self, distances: &[f64], random: &mut Random) -> Vec<Vehicle> {
        let many = random.pick(&[self.depots, self.depots, MOST_VEHICLES]);
        let mut near = vec![0; self.depots];
        for stop in self.depots..MOST_ROWS {
            let there = |&depot: &usize| distances[depot * MOST_ROWS + stop];
            let nearest = (0..self.depots).min_by(|a, b| there(a).total_cmp(&there(b)));
            near[nearest.unwrap_or(0)] += 1;
        }
        near[0] -= i32::from(near[0] > 0);
        (0..many).map(|k| self.vehicle(k, &near, random)).collect()
    }

    fn vehicle(&self, k: usize, near: &[i32], random: &mut Random) -> Vehicle {
        let depot = k % self.depots;
        let mut vehicle = Vehicle {
            id: k as u32,
            depot: depot as u32,
            capacity: match self.capacity {
                "one too few" => near[depot],
                "tight" => 1 + random.below(20) as i32,
                _ => i32::MAX,
            },
            cost_per_distance: 1.0,
            fixed_cost: random.pick(&[0.0, 100.0, 1e9]),
            ..Vehicle::default()
        };
        if self.maxima {
            vehicle.marks |= MAX_DISTANCE | MAX_DURATION;
            (vehicle.max_distance, vehicle.max_duration) = (EVER, EVER);
        }
        if self.rests != "none" {
            vehicle.marks |= REST;
            vehicle.earliest = if self.rests == "soon" { 0.0 } else { 10_000.0 };
            (vehicle.latest, vehicle.rest_duration) = (EVER, 30.0);
        }
        vehicle
    }
}

/// Keys that the planner's sort divides badly: its pivot is the middle one of three middle keys, of
/// three entries each at an eighth, a half and seven eighths, and here as few as can be are above
/// it. So it gives up dividing in the end, and merges.
fn hard_to_sort(count: usize, random: &mut Random) -> Vec<f64> {
    let mut keys: Vec<f64> = (0..count).map(|_| 1.0 + random.below(count) as f64).collect();
    let mut left: Vec<usize> = (0..count).collect();
    let mut next = 10.0 * count as f64;
    let mut last = count;
    while left.len() > 64 {
        let eighth = left.len() / 8;
        for (place, asked) in [(eighth, 2), (4 * eighth, 2)] {
            let three = &left[place..place + 3];
            let there = usize::from(three.contains(&last));
            for entry in three.iter().filter(|&&entry| entry != last).take(asked - there) {
                keys[*entry] = next;
                next -= 1.0;
            }
        }
        last = *left.iter().find(|&&entry| keys[entry] == next + 1.0).expect("the pivot");
        left.retain(|&entry| keys[entry] <= next + 1.0);
    }
    keys
}
