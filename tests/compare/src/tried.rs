//! The rounds that a method of one vehicle tries.

use crate::angles::turned;
use crate::inserts::{inserted, Event, MOST_ROWS};
use crate::joins::joined;
use crate::reference::Table;
use crate::sheet::{INSERTION, SAVINGS, SWEEP};
use crate::trial::Trial;

pub fn tried(table: &Table) -> Vec<Trial> {
    let mut trials = Vec::new();
    match table.method {
        SAVINGS => _ = joined(table, |join| trials.extend(join.trial.clone())),
        INSERTION if table.customers.len() <= MOST_ROWS => {
            inserted(table, |_, event| {
                if let Event::Round { places, taken, .. } = event {
                    trials.extend(places.iter().map(|place| place.trial.clone()));
                    // As often as all of them together.
                    let taken = taken.iter().flat_map(|taken| vec![taken; places.len()]);
                    trials.extend(taken.map(|place| place.trial.clone()));
                }
            });
        }
        SWEEP => _ = turned(table, |turn| trials.push(turn.trial.clone())),
        _ => (),
    }
    trials
}
