//! `compare example`: a sheet to look at, and the Rust's plan of it, as files.

use std::path::Path;
use std::{fs, io};

use crate::generate::straight;
use crate::random::Random;
use crate::reference::plan;
use crate::refusal::METHODS;
use crate::sheet::{Row, Sheet, Vehicle, DEPOT, MAX_DURATION, NN_TW, REST, WINDOW};

const PONDS: usize = 25;
/// The ponds lie in a square of this side, and this far apart at least.
const SIDE: usize = 100;
const APART: f64 = 13.0;
const SEED: u64 = 1;

pub fn run(folder: &Path) -> io::Result<()> {
    let sheet = example().encode();
    let plan = plan(METHODS, &sheet).expect("an accepted sheet");
    fs::create_dir_all(folder)?;
    fs::write(folder.join("sheet"), &sheet)?;
    fs::write(folder.join("plan"), &plan)?;
    println!("example: {PONDS} ponds, sheet of {} bytes, plan of {}", sheet.len(), plan.len());
    Ok(())
}

/// Whole numbers, windows at some ponds, a rest for one vehicle, and room for all but a few.
fn example() -> Sheet {
    let mut random = Random::new(SEED);
    let half = SIDE as i32 / 2;
    let mut rows = vec![Row { x: half, y: half, marks: DEPOT, ..Row::default() }];
    while rows.len() <= PONDS {
        let pond = pond(&mut random);
        if rows.iter().all(|row| straight(row, &pond) >= APART) {
            rows.push(pond);
        }
    }
    let count = rows.len();
    let leg = |k: usize| straight(&rows[k / count], &rows[k % count]).round();
    let distances = (0..count * count).map(leg).collect();
    let load: i32 = rows.iter().map(|row| row.demand).sum();
    let vehicles = (1..=3).map(|k| vehicle(k, load / 3 - 2)).collect();
    Sheet { method: NN_TW, rows, vehicles, distances, times: None }
}

fn pond(random: &mut Random) -> Row {
    let mut pond = Row {
        x: random.below(SIDE + 1) as i32,
        y: random.below(SIDE + 1) as i32,
        demand: 2 + random.below(9) as i32,
        service: 5.0,
        ..Row::default()
    };
    if random.one_in(4) {
        pond.marks = WINDOW;
        pond.ready = random.below(60) as f64;
        pond.due = pond.ready + 120.0;
    }
    pond
}

fn vehicle(k: u32, capacity: i32) -> Vehicle {
    let plain = Vehicle {
        id: 100 + k,
        capacity,
        marks: MAX_DURATION,
        cost_per_distance: 1.0,
        fixed_cost: 50.0,
        max_duration: 400.0,
        ..Vehicle::default()
    };
    match k {
        1 => {
            let (earliest, latest) = (90.0, 150.0);
            Vehicle { marks: plain.marks | REST, earliest, latest, rest_duration: 30.0, ..plain }
        }
        _ => plain,
    }
}
