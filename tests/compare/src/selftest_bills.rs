//! Bills of document 02's request Five, worked out by hand.

use crate::billing::{encoded, Tariff};
use crate::plan::{round_at, Chains};
use crate::plan_answers::{self, expected, Answer};
use crate::plan_calls::Call;
use crate::selftest::{sheet_a, Tally};
use crate::selftest_asked::{between, call, of_length, plan, rested};
use crate::sheet::{Sheet, HOME, MAX_DISTANCE, REST, SAVINGS};
use crate::walked::{begun, Walked};
use crate::wrong_bills::{wrong_bill, Wrong};

pub fn run(tally: &mut Tally) {
    units(tally);
    of_sheet_a(tally);
    of_other_sheets(tally);
    turned_back(tally);
    misread(tally);
    told_apart(tally);
}

fn tariff(distance_rate: u32, duration_rate: u32, least: u32) -> Tariff {
    Tariff { rates: [distance_rate, duration_rate], least }
}

/// A charge for each round and their sum, or a refusal.
fn answer(call: &Call<Tariff>) -> Result<Vec<u64>, u32> {
    expected(call).map(|walked| call.asked.bill(walked.routes()))
}

fn units(tally: &mut Tally) {
    let [before, after] = [1000.0f64.next_down(), 1000.0f64.next_up()];
    let thousands = [
        (0.0, 0),
        (f64::from_bits(1), 1),
        (f64::MIN_POSITIVE, 1),
        (1.0, 1),
        (before, 1),
        (1000.0, 1),
        (after, 2),
        (1999.5, 2),
        (2000.0, 2),
        (1e9, 1_000_000),
        (1e9f64.next_up(), 1_000_001),
        (1.01e11, 101_000_000),
    ];
    for (figure, want) in thousands {
        tally.expect("begun thousands", begun(1000, figure), want);
    }
    let [before, after] = [900.0f64.next_down(), 900.0f64.next_up()];
    for (figure, want) in [(0.0, 0), (before, 1), (900.0, 1), (after, 2), (1e9, 1_111_112)] {
        tally.expect("begun nine hundreds", begun(900, figure), want);
    }
}

/// The round 1, 2 is 24 long, each lone one 20.
fn of_sheet_a(tally: &mut Tally) {
    let (whole, apart) = (plan(&[&[1, 2]], &[]), plan(&[&[2], &[1]], &[]));
    let (empty, idle) = (plan(&[&[], &[1], &[]], &[2]), plan(&[&[], &[]], &[2, 1]));
    let none = plan(&[], &[1, 2]);
    let cases: [(&str, &Chains, Tariff, &[u64]); 14] = [
        ("7 and 11", &whole, tariff(7, 11, 0), &[18, 18]),
        ("least 17", &whole, tariff(7, 11, 17), &[18, 18]),
        ("least 18", &whole, tariff(7, 11, 18), &[18, 18]),
        ("least 19", &whole, tariff(7, 11, 19), &[19, 19]),
        ("least 100", &whole, tariff(7, 11, 100), &[100, 100]),
        ("no rate", &whole, tariff(0, 0, 5), &[5, 5]),
        ("nothing", &whole, tariff(0, 0, 0), &[0, 0]),
        ("the most", &whole, tariff(1_000_000, 1_000_000, 1_000_000), &[2_000_000, 2_000_000]),
        ("two rounds", &apart, tariff(7, 11, 0), &[18, 18, 36]),
        ("two rounds, least 20", &apart, tariff(7, 11, 20), &[20, 20, 40]),
        ("empty rounds", &empty, tariff(7, 11, 0), &[0, 18, 0, 18]),
        ("empty rounds, least 20", &empty, tariff(7, 11, 20), &[0, 20, 0, 20]),
        ("none but empty ones", &idle, tariff(7, 11, 20), &[0, 0, 0]),
        ("no round", &none, tariff(7, 11, 20), &[0]),
    ];
    for (name, plan, tariff, want) in cases {
        let call = call(&sheet_a(SAVINGS), plan, tariff);
        tally.expect(name, answer(&call), Ok(want.to_vec()));
    }
    let bare = Sheet { rows: vec![], distances: vec![], ..sheet_a(SAVINGS) };
    let call = call(&bare, &plan(&[], &[]), tariff(7, 11, 20));
    tally.expect("no row", answer(&call), Ok(vec![0]));
}

fn over_limit() -> Sheet {
    let mut sheet = of_length(2000.0, None);
    sheet.vehicles[0].marks = MAX_DISTANCE;
    sheet
}

fn of_other_sheets(tally: &mut Tally) {
    let (whole, lone) = (plan(&[&[1, 2]], &[]), plan(&[&[1]], &[]));
    let [before, after] = [1000.0f64.next_down(), 1000.0f64.next_up()];
    let cases: [(&str, Sheet, &Chains, u64); 14] = [
        ("1000", of_length(1000.0, None), &whole, 7 + 2 * 11),
        ("a step below 1000", of_length(before, None), &whole, 7 + 2 * 11),
        ("a step above 1000", of_length(after, None), &whole, 2 * 7 + 2 * 11),
        ("900", of_length(900.0, None), &whole, 7 + 11),
        ("times of their own", of_length(24.0, Some(901.0)), &whole, 7 + 2 * 11),
        ("over a limit", over_limit(), &whole, 2 * 7 + 3 * 11),
        ("a rest on the way", rested(REST, 1000.0, 880.0, 1e9), &lone, 7 + 2 * 11),
        ("a rest at home", rested(REST | HOME, 10.0, 880.0, 1e9), &lone, 7 + 11),
        ("such, longer", rested(REST | HOME, 10.0, 881.0, 1e9), &lone, 7 + 2 * 11),
        ("such, due as it ends", rested(REST | HOME, 10.0, 881.0, 901.0), &lone, 7 + 2 * 11),
        ("such, due before", rested(REST | HOME, 10.0, 881.0, 900.0), &lone, 7 + 11),
        ("no rest at home", rested(REST, 10.0, 881.0, 1e9), &lone, 7 + 11),
        ("a window missed", rested(REST | HOME, 9.0, 881.0, 1e9), &lone, 7 + 11),
        ("another depot", between(), &plan(&[&[2]], &[]), 2 * 7 + 2 * 11),
    ];
    for (name, sheet, plan, want) in cases {
        let call = call(&sheet, plan, tariff(7, 11, 0));
        tally.expect(name, answer(&call), Ok(vec![want, want]));
    }
}

/// 4 and 13, the bill's own, and the order; the other refusals stand in selftest.rs.
fn turned_back(tally: &mut Tally) {
    let right = call(&sheet_a(SAVINGS), &plan(&[&[1, 2]], &[]), tariff(7, 11, 0));
    for len in [0, 8, 15, 17, 24] {
        let short = Call { len, ..right.clone() };
        tally.expect("a bill of another length", answer(&short).err(), Some(4));
    }
    for len in [0, 1] {
        let short = Call { plan: vec![0; len], len: 8, ..right.clone() };
        tally.expect("a plan of no number", answer(&short).err(), Some(4));
    }
    let mut many = right.clone();
    many.plan[0] = 4;
    for (len, want) in [(16, 4), (32, 4), (40, 10)] {
        let many = Call { len, ..many.clone() };
        tally.expect("more rounds than rows", answer(&many).err(), Some(want));
    }
    let over = 1_000_001;
    for dear in [tariff(over, 0, 0), tariff(0, over, 0), tariff(0, 0, over)] {
        let mut dear = Call { asked: dear, ..right.clone() };
        tally.expect("an amount out of range", answer(&dear).err(), Some(13));
        dear.plan[round_at(0)] = 8;
        tally.expect("such, and an unknown id", answer(&dear).err(), Some(10));
        dear.sheet[16 + 12] = 8;
        tally.expect("such, and a row's mark 8", answer(&dear).err(), Some(5));
        dear.len = 17;
        tally.expect("such, and a longer bill", answer(&dear).err(), Some(4));
        dear.sheet[4] = 5;
        tally.expect("such, and method 5", answer(&dear).err(), Some(3));
    }
}

fn walked(call: &Call<Tariff>) -> Walked {
    expected(call).unwrap_or_else(|number| panic!("refused {number}"))
}

/// Wrong readings of two rounds, the second of them empty.
fn misread(tally: &mut Tally) {
    let sheet = of_length(1000.0, None);
    let right = call(&sheet, &plan(&[&[1, 2], &[]], &[]), tariff(7, 11, 40));
    let walked = walked(&right);
    tally.expect("the right bill", right.asked.bill(walked.routes()), vec![40, 0, 40]);
    let cases: [(Wrong, &[u64]); 5] = [
        (Wrong::LeastOnce, &[29, 0, 40]),
        (Wrong::LeastAdded, &[69, 0, 69]),
        (Wrong::NoLeast, &[29, 0, 29]),
        (Wrong::EmptyCharged, &[40, 40, 80]),
        (Wrong::SumShort, &[40, 0, 40]),
    ];
    for (wrong, want) in cases {
        let misread = wrong_bill(&walked, right.asked, wrong);
        tally.expect("a wrong reading", misread, want.to_vec());
    }
    let lone = call(&sheet, &plan(&[&[1, 2]], &[]), tariff(7, 11, 0));
    let walked = self::walked(&lone);
    let cases: [(Wrong, u64, u64); 5] = [
        (Wrong::Floor, 7 + 11, 18),
        (Wrong::Exclusive, 2 * 7 + 2 * 11, 36),
        (Wrong::UnitsSwapped, 2 * 7 + 11, 25),
        (Wrong::RatesSwapped, 11 + 2 * 7, 25),
        (Wrong::SumShort, 7 + 2 * 11, 0),
    ];
    for (wrong, charge, sum) in cases {
        let misread = wrong_bill(&walked, lone.asked, wrong);
        tally.expect("a wrong reading", misread, vec![charge, sum]);
    }
}

/// That answers are told from each other.
fn told_apart(tally: &mut Tally) {
    let right = Ok(encoded(&[18, 18, 36]));
    let apart = |said: Answer| plan_answers::apart::<Tariff>(&said, &right);
    tally.expect("the same", apart(right.clone()), None);
    let other = |bill: &[u64]| apart(Ok(encoded(bill)));
    tally.expect("a cent", other(&[18, 19, 36]), Some("another charge of round 2".into()));
    tally.expect(
        "a high byte",
        other(&[18 + (1 << 56), 18, 36]),
        Some("another charge of round 1".into()),
    );
    tally.expect("the sum", other(&[18, 18, 18]), Some("another sum".into()));
    tally.expect("no sum", other(&[18, 18]), Some("another answer".into()));
    tally.expect("a refusal", apart(Err(13)), Some("another answer".into()));
}
