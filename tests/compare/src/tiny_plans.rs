//! Every plan of a few tiny sheets: every order of up to 3 stops in up to `rows` rounds of two
//! vehicles and set aside, with every greatest number up to 4.

use crate::generate::{entries, Choices};
use crate::limit_calls::{Call, TINY};
use crate::plan::{encode_chains, plan_len, Chains};
use crate::sheet::{Row, Sheet, Vehicle, HOME, MAX_DISTANCE, MAX_DURATION, NEAREST, PENALTY};
use crate::sheet::{REST, WINDOW};

const MOST_ROWS: usize = 4;
const MOST_GREATEST: u32 = 4;

#[derive(Clone, Copy)]
enum Style {
    Plain,
    Windows,
    Soft,
    Rests,
    Due,
    Home,
}
const STYLES: [Style; 5] = [Style::Plain, Style::Windows, Style::Soft, Style::Rests, Style::Due];

pub fn each_tiny(ask: impl FnMut(&Call)) {
    each_of(&STYLES, ask);
}

/// The same where the vehicles may rest at home.
pub fn each_tiny_at_home(ask: impl FnMut(&Call)) {
    each_of(&[Style::Home], ask);
}

fn each_of(styles: &[Style], mut ask: impl FnMut(&Call)) {
    for &style in styles {
        for rows in 0..=MOST_ROWS {
            let sheet = sheet(style, rows);
            let (bytes, mut choices) = (sheet.encode(), Choices::default());
            loop {
                let plan_in = encode_chains(rows, &plan(&sheet, &mut choices));
                for greatest in 0..=MOST_GREATEST {
                    let (sheet, plan_in) = (bytes.clone(), plan_in.clone());
                    let plan_out_len = plan_len(rows);
                    ask(&Call { flavour: TINY, sheet, plan_in, greatest, plan_out_len });
                }
                if !choices.advance() {
                    break;
                }
            }
        }
    }
}

/// Stops are put one by one before, between and after those that stand, so that each order comes
/// once.
fn plan(sheet: &Sheet, choices: &mut Choices) -> Chains {
    let count = choices.below(sheet.rows.len() + 1);
    let mut round = || (sheet.vehicles[choices.below(2)].id, vec![]);
    let mut plan = Chains { rounds: (0..count).map(|_| round()).collect(), aside: vec![] };
    for stop in 1..sheet.rows.len() {
        let mut at = choices.below(stop + count);
        let rounds = plan.rounds.iter_mut().map(|(_, stops)| stops);
        for stops in rounds.chain([&mut plan.aside]) {
            if at <= stops.len() {
                stops.insert(at, stop);
                break;
            }
            at -= stops.len() + 1;
        }
    }
    plan
}

fn sheet(style: Style, rows: usize) -> Sheet {
    let leg = |from: usize, to: usize| match style {
        Style::Plain | Style::Due => from.abs_diff(to) as f64,
        Style::Windows => (2 + from.abs_diff(to) + usize::from(from < to)) as f64,
        Style::Soft | Style::Home => (1 + (from + 2 * to) % 3) as f64,
        Style::Rests => 0.1 * (1 + (3 * from + to) % 5) as f64,
    };
    let vehicles = vec![vehicle(style, 0), vehicle(style, 1)];
    let rows: Vec<Row> = (0..rows).map(|k| row(style, k)).collect();
    let distances = entries(rows.len(), leg);
    Sheet { method: NEAREST, rows, vehicles, distances, times: None }
}

fn row(style: Style, k: usize) -> Row {
    let row = Row { demand: [0, 1, 1, 2][k], ..Row::default() };
    match (style, k) {
        (Style::Windows, 1 | 3) => {
            Row { marks: WINDOW, ready: 3.0, due: [0.0, 4.0, 0.0, 6.0][k], ..row }
        }
        (Style::Soft, 1 | 2) => Row { marks: WINDOW | PENALTY, due: k as f64, penalty: 0.5, ..row },
        (Style::Soft, 3) => Row { marks: WINDOW, due: 5.0, ..row },
        // The first stop is reached by its due, with no time for a rest.
        (Style::Home, 0 | 1) => Row { marks: WINDOW, due: [8.0, 3.0][k], ..row },
        (Style::Home, 3) => Row { marks: WINDOW | PENALTY, due: 4.0, penalty: 0.5, ..row },
        (Style::Rests, 2) => Row { demand: 0, service: 0.3, ..row },
        // The third stop's lone round is late.
        (Style::Due, 0) => Row { marks: WINDOW, ready: 1.0, due: 5.0, ..row },
        _ => row,
    }
}

fn vehicle(style: Style, k: usize) -> Vehicle {
    let plain = Vehicle {
        id: [7, 3][k],
        capacity: [3, 2][k],
        cost_per_distance: [1.0, 0.1][k],
        fixed_cost: [0.0, 0.7][k],
        ..Vehicle::default()
    };
    match (style, k) {
        (Style::Windows, 0) => Vehicle { marks: MAX_DISTANCE, max_distance: 9.0, ..plain },
        (Style::Soft, 1) | (Style::Rests, 0) => {
            let earliest = 1.0;
            Vehicle { marks: REST, earliest, latest: 2.0, rest_duration: 0.5, ..plain }
        }
        (Style::Home, _) => Vehicle {
            marks: [REST | HOME, REST | HOME | MAX_DURATION][k],
            max_duration: [0.0, 6.0][k],
            earliest: [0.5, 2.0][k],
            latest: [6.0, 5.0][k],
            rest_duration: [2.0, 1.0][k],
            ..plain
        },
        _ => plain,
    }
}
