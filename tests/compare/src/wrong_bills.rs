//! Wrong readings of request Five, each of which some bill has to tell from the right one.

use u_routing::models::Route;

use crate::billing::{with_sum, Tariff, UNITS};
use crate::walked::{begun, figures, Walked};
use crate::wrong_walks::{walked_otherwise, WrongWalk};

#[derive(Clone, Copy, PartialEq)]
pub enum Wrong {
    Floor,
    Exclusive,
    Truncated,
    Quotient,
    UnitsSwapped,
    RatesSwapped,
    LeastOnce,
    LeastAdded,
    NoLeast,
    EmptyCharged,
    SumShort,
    Narrow,
    Walk(WrongWalk),
}

pub const WRONG: [(Wrong, &str); 17] = [
    (Wrong::Floor, "whole units counted, and not begun ones"),
    (Wrong::Exclusive, "a unit without its end"),
    (Wrong::Truncated, "the figure cut to a whole number"),
    (Wrong::Quotient, "a quotient of floats, rounded up"),
    (Wrong::UnitsSwapped, "the units swapped"),
    (Wrong::RatesSwapped, "the rates swapped"),
    (Wrong::LeastOnce, "the least charge once a plan"),
    (Wrong::LeastAdded, "the least charge added"),
    (Wrong::NoLeast, "no least charge"),
    (Wrong::EmptyCharged, "an empty round charged"),
    (Wrong::SumShort, "the sum without the last round"),
    (Wrong::Narrow, "charges of 32 bits"),
    (Wrong::Walk(WrongWalk::FirstVehicle), "all rounds of the first vehicle"),
    (Wrong::Walk(WrongWalk::FirstDepot), "all rounds from row 0"),
    (Wrong::Walk(WrongWalk::NoRest), "no rest"),
    (Wrong::Walk(WrongWalk::NoRestAtHome), "no rest at home"),
    (Wrong::Walk(WrongWalk::NoDue), "a rest at home past the depot's due"),
];

pub fn wrong_bill(right: &Walked, tariff: Tariff, wrong: Wrong) -> Vec<u64> {
    if let Wrong::Walk(wrong) = wrong {
        let other = walked_otherwise(right, wrong);
        return tariff.bill(other.as_ref().unwrap_or(right).routes());
    }
    let charges = || right.routes().iter().map(|route| charge(tariff, route, wrong));
    let mut bill = with_sum(charges().collect());
    let sum = bill.last_mut().expect("a bill has a sum");
    match wrong {
        Wrong::LeastOnce => *sum = (*sum).max(tariff.least.into()),
        Wrong::SumShort => *sum -= charges().last().unwrap_or(0),
        _ => (),
    }
    bill
}

fn charge(tariff: Tariff, route: &Route, wrong: Wrong) -> u64 {
    if route.is_empty() && wrong != Wrong::EmptyCharged {
        return 0;
    }
    let Tariff { rates: [distance_rate, duration_rate], least } = tariff;
    let priced = match wrong {
        Wrong::RatesSwapped => Tariff { rates: [duration_rate, distance_rate], least },
        _ => tariff,
    };
    let driven = priced.driven(units(route, wrong));
    match wrong {
        Wrong::LeastOnce | Wrong::NoLeast => driven,
        Wrong::LeastAdded => driven + u64::from(least),
        Wrong::Narrow => u64::from(driven as u32).max(least.into()),
        _ => driven.max(least.into()),
    }
}

fn units(route: &Route, wrong: Wrong) -> [u64; 2] {
    let [distance, duration] = UNITS;
    let units = match wrong {
        Wrong::UnitsSwapped => [duration, distance],
        _ => UNITS,
    };
    let figures = figures(route);
    [0, 1].map(|k| counted(units[k], figures[k], wrong))
}

fn counted(unit: u64, figure: f64, wrong: Wrong) -> u64 {
    let quotient = figure / unit as f64;
    match wrong {
        Wrong::Floor => quotient.floor() as u64,
        Wrong::Exclusive => quotient.floor() as u64 + 1,
        Wrong::Truncated => (figure as u64).div_ceil(unit),
        Wrong::Quotient => quotient.ceil() as u64,
        _ => begun(unit, figure),
    }
}
