//! Deals of document 02's request Seven, worked out by hand.

use crate::dealing::Crews;
use crate::generate::Choices;
use crate::plan::{round_at, Chains};
use crate::plan_answers::{self, bytes, expected, Answer};
use crate::plan_calls::Call;
use crate::selftest::{sheet_a, Tally};
use crate::selftest_asked::{between, call, of_length, plan, rested};
use crate::sheet::{Row, Sheet, Vehicle, DEPOT, HOME, REST, SAVINGS};
use crate::walked::begun;
use crate::wrong_deals::{wrong_deal, Wrong};

pub fn run(tally: &mut Tally) {
    wholes(tally);
    of_durations(tally);
    of_all_durations(tally);
    of_sheets(tally);
    turned_back(tally);
    misread(tally);
    unkept(tally);
    told_apart(tally);
}

fn answer(call: &Call<Crews>) -> Answer {
    bytes(call.asked, &expected(call))
}

fn wholes(tally: &mut Tally) {
    let [before, after] = [24.0f64.next_down(), 24.0f64.next_up()];
    let durations = [
        (0.0, 0),
        (f64::from_bits(1), 1),
        (0.5, 1),
        (1.0, 1),
        (1.0f64.next_up(), 2),
        (before, 24),
        (24.0, 24),
        (after, 25),
        (24.5, 25),
        (4_294_967_295.5, 1 << 32),
        (3.03e11, 303_000_000_000),
    ];
    for (duration, want) in durations {
        tally.expect("whole durations", begun(1, duration), want);
    }
}

fn of_durations(tally: &mut Tally) {
    let cases: [(&[u64], u32, &[u8]); 14] = [
        (&[], 4, &[]),
        (&[7, 7], 1, &[1, 1]),
        (&[5, 4, 3], 2, &[1, 2, 2]),
        (&[1, 2, 3], 2, &[2, 2, 1]),
        (&[3, 3, 3], 2, &[1, 2, 1]),
        (&[3, 1, 1, 1], 2, &[1, 2, 2, 2]),
        (&[2, 1, 1, 1], 2, &[1, 2, 2, 1]),
        (&[2, 2, 2, 1], 3, &[1, 2, 3, 1]),
        (&[4, 4, 4], 8, &[1, 2, 3]),
        (&[0, 0, 0], 3, &[1, 1, 1]),
        (&[5, 0, 0], 3, &[1, 2, 2]),
        (&[0, 5, 0], 1, &[1, 1, 1]),
        (&[9, 8, 7, 6, 5, 4, 3, 2, 1], 3, &[1, 2, 3, 3, 2, 1, 1, 2, 3]),
        (&[1 << 33, 1, 1 << 33], 2, &[1, 1, 2]),
    ];
    for (wholes, crews, want) in cases {
        tally.expect("a deal", Crews(crews).deal(wholes), want.to_vec());
    }
}

/// The definition, as it is worded.
fn defined(wholes: &[u64], crews: usize) -> Vec<u8> {
    let (mut deal, mut totals) = (vec![0; wholes.len()], vec![0; crews]);
    while let Some(longest) = (0..wholes.len()).filter(|k| deal[*k] == 0).map(|k| wholes[k]).max() {
        let is_next = |k: &usize| deal[*k] == 0 && wholes[*k] == longest;
        let round = (0..wholes.len()).find(is_next).expect("one is the longest");
        let least = *totals.iter().min().expect("there is a crew");
        let crew = totals.iter().position(|total| *total == least).expect("one is the least");
        totals[crew] += longest;
        deal[round] = crew as u8 + 1;
    }
    deal
}

/// Every deal of up to 5 rounds of 0 to 3 to up to 4 crews.
fn of_all_durations(tally: &mut Tally) {
    let mut choices = Choices::default();
    let mut wrong = Vec::new();
    loop {
        let crews = Crews(1 + choices.below(4) as u32);
        let count = choices.below(6);
        let wholes: Vec<u64> = (0..count).map(|_| choices.below(4) as u64).collect();
        let deal = crews.deal(&wholes);
        if deal != defined(&wholes, crews.0 as usize) || crews.unkept(&wholes, &deal).is_some() {
            wrong.push((wholes, crews));
        }
        if !choices.advance() {
            break;
        }
    }
    tally.expect("all small deals", wrong, vec![]);
}

/// A stop for each duration, which is the way home from it, so that each has a lone round of that.
fn star(durations: &[f64]) -> (Sheet, Chains) {
    let rows = durations.len() + 1;
    let mut distances = vec![0.0; rows * rows];
    durations.iter().enumerate().for_each(|(k, duration)| distances[(k + 1) * rows] = *duration);
    let depot = Row { marks: DEPOT, ..Row::default() };
    let rounds = (1..rows).map(|stop| (7, vec![stop])).collect();
    let sheet = Sheet {
        method: SAVINGS,
        rows: [vec![depot], vec![Row::default(); rows - 1]].concat(),
        vehicles: vec![Vehicle { id: 7, ..Vehicle::default() }],
        distances,
        times: None,
    };
    (sheet, Chains { rounds, aside: vec![] })
}

fn of_sheets(tally: &mut Tally) {
    let (apart, idle) = (plan(&[&[2], &[1]], &[]), plan(&[&[], &[1], &[]], &[2]));
    let (beside, none) = (plan(&[&[], &[1]], &[]), plan(&[], &[1, 2]));
    let diagonal = |sheet: Sheet, row: usize, leg: f64| {
        let mut sheet = sheet;
        let at = row * sheet.rows.len() + row;
        sheet.distances[at] = leg;
        sheet
    };
    let a = sheet_a(SAVINGS);
    let far = plan(&[&[], &[2]], &[]);
    let at_home = rested(REST | HOME, 10.0, 5.0, 1e9);
    let gated = rested(REST | HOME, 10.0, 5.0, 24.0);
    let cases: [(&str, Sheet, &Chains, u32, &[u8]); 13] = [
        ("lone rounds", a.clone(), &apart, 2, &[1, 2]),
        ("the way home longer", of_length(34.5, None), &apart, 2, &[1, 2]),
        ("the way home shorter", of_length(22.5, None), &apart, 2, &[2, 1]),
        ("such, and as long in whole units", of_length(23.5, None), &apart, 2, &[1, 2]),
        ("one crew", a.clone(), &apart, 1, &[1, 1]),
        ("empty rounds", a.clone(), &idle, 2, &[2, 1, 2]),
        ("empty rounds, the longest", diagonal(a.clone(), 0, 30.0), &idle, 2, &[1, 1, 2]),
        ("empty rounds, as long", diagonal(a.clone(), 0, 19.5), &idle, 3, &[1, 2, 3]),
        ("no round", a.clone(), &none, 8, &[]),
        ("times of their own", of_length(34.0, Some(23.0)), &apart, 2, &[2, 1]),
        ("a rest at home", diagonal(at_home, 0, 22.0), &beside, 2, &[2, 1]),
        ("such, due before", diagonal(gated, 0, 22.0), &beside, 2, &[1, 2]),
        ("another depot", diagonal(diagonal(between(), 0, 50.0), 1, 100.0), &far, 2, &[2, 1]),
    ];
    for (name, sheet, plan, crews, want) in cases {
        tally.expect(name, answer(&call(&sheet, plan, Crews(crews))), Ok(want.to_vec()));
    }
    let bare = Sheet { rows: vec![], distances: vec![], ..a };
    let call = call(&bare, &plan(&[], &[]), Crews(1));
    tally.expect("no row", answer(&call), Ok(vec![]));
}

/// 4 and 14, the deal's own, and the order; the other refusals stand in selftest.rs.
fn turned_back(tally: &mut Tally) {
    let sheet = sheet_a(SAVINGS);
    let right = call(&sheet, &plan(&[&[1, 2]], &[]), Crews(2));
    for len in [0, 2, 3, 16, 257] {
        let other = Call { len, ..right.clone() };
        tally.expect("a deal of another length", answer(&other), Err(4));
    }
    for len in [0, 1] {
        let short = Call { plan: vec![0; len], len: 0, ..right.clone() };
        tally.expect("a plan of no number", answer(&short), Err(4));
    }
    let mut many = right.clone();
    for (count, lens) in [(4u16, [1, 3, 4]), (256, [0, 3, 256])] {
        many.plan[..2].copy_from_slice(&count.to_le_bytes());
        let answers = lens.map(|len| answer(&Call { len, ..many.clone() }));
        tally.expect("more rounds than rows", answers, [Err(4), Err(4), Err(10)]);
    }
    for crews in [0, 9, 255, 256, 257, 264, 65537, 1 << 31, u32::MAX] {
        let mut wrong = Call { asked: Crews(crews), ..right.clone() };
        tally.expect("crews out of range", answer(&wrong), Err(14));
        let idle = call(&sheet, &plan(&[], &[1, 2]), Crews(crews));
        tally.expect("such, and no round", answer(&idle), Err(14));
        let depots = call(&between(), &plan(&[&[2]], &[]), Crews(crews));
        tally.expect("such, and two depots", answer(&depots), Err(14));
        wrong.plan[round_at(0)] = 8;
        tally.expect("such, and an unknown id", answer(&wrong), Err(10));
        wrong.sheet[16 + 12] = 8;
        tally.expect("such, and a row's mark 8", answer(&wrong), Err(5));
        wrong.len = 2;
        tally.expect("such, and a longer deal", answer(&wrong), Err(4));
        wrong.sheet[4] = 5;
        tally.expect("such, and method 5", answer(&wrong), Err(3));
    }
}

/// Wrong readings for two crews, of lone rounds and then of others.
fn misread(tally: &mut Tally) {
    let lone: [(Wrong, &[f64], &[u8], &[u8]); 13] = [
        (Wrong::OwnOrder, &[1.0, 2.0, 3.0], &[2, 2, 1], &[1, 2, 1]),
        (Wrong::ShortestFirst, &[1.0, 2.0, 3.0], &[2, 2, 1], &[1, 2, 1]),
        (Wrong::HigherRound, &[3.0, 3.0, 1.0], &[1, 2, 1], &[2, 1, 1]),
        (Wrong::UnroundedOrder, &[2.2, 2.6], &[1, 2], &[2, 1]),
        (Wrong::HigherCrew, &[3.0, 1.0], &[1, 2], &[2, 1]),
        (Wrong::FewestRounds, &[3.0, 1.0, 1.0], &[1, 2, 2], &[1, 2, 1]),
        (Wrong::UnroundedTotals, &[1.5, 1.2, 1.1], &[1, 2, 1], &[1, 2, 2]),
        (Wrong::FromZero, &[3.0, 1.0], &[1, 2], &[0, 1]),
        (Wrong::RoundedDown, &[1.5, 2.0], &[1, 2], &[2, 1]),
        (Wrong::Nearest, &[1.2, 2.0], &[1, 2], &[2, 1]),
        (Wrong::OneMore, &[1.5, 2.0], &[1, 2], &[2, 1]),
        (Wrong::PlanFigures, &[1.0, 1.0], &[1, 2], &[1, 1]),
        (Wrong::Narrow, &[3.0, 1.0], &[1, 2], &[1, 2]),
    ];
    for (wrong, durations, right, want) in lone {
        let (sheet, plan) = star(durations);
        expect_misread(tally, &call(&sheet, &plan, Crews(2)), wrong, right, want);
    }
    let mut sheet = of_length(34.0, Some(23.0));
    let apart = plan(&[&[2], &[1]], &[]);
    expect_misread(tally, &call(&sheet, &apart, Crews(2)), Wrong::Distances, &[2, 1], &[1, 2]);
    sheet.times.iter_mut().for_each(|times| times[0] = 30.0);
    let idle = call(&sheet, &plan(&[&[], &[1], &[]], &[2]), Crews(2));
    expect_misread(tally, &idle, Wrong::EmptyNotDealt, &[1, 1, 2], &[0, 1, 0]);
    expect_misread(tally, &idle, Wrong::EmptyOfNoTime, &[1, 1, 2], &[2, 1, 2]);
}

fn expect_misread(tally: &mut Tally, call: &Call<Crews>, wrong: Wrong, right: &[u8], want: &[u8]) {
    tally.expect("the right deal", answer(call), Ok(right.to_vec()));
    let misread = wrong_deal(call, &expected(call), wrong);
    tally.expect("a wrong reading", misread, Ok(want.to_vec()));
}

fn unkept(tally: &mut Tally) {
    let above = Some("a crew's total above another's by more than its shortest round");
    let cases: [(&[u64], u32, &[u8], Option<&str>); 8] = [
        (&[3, 1, 1], 2, &[1, 2, 2], None),
        (&[3, 1, 1], 2, &[1, 1, 2], above),
        (&[3, 1, 1], 2, &[2, 2, 2], above),
        (&[3], 2, &[2], None),
        (&[2, 2, 2], 2, &[1, 1, 2], None),
        (&[2, 2, 2, 2], 2, &[1, 1, 1, 2], above),
        (&[3, 1], 2, &[1, 0], Some("a round of no crew")),
        (&[3, 1], 2, &[1, 3], Some("a round of no crew")),
    ];
    for (wholes, crews, deal, want) in cases {
        tally.expect("kept", Crews(crews).unkept(wholes, deal), want);
    }
    tally.expect("a bound", Crews(2).bound(&[3, 1, 1], &[1, 1, 2]), (8, 5 + 3));
    tally.expect("a bound of 3", Crews(3).bound(&[3, 1, 1], &[2, 2, 2]), (15, 5 + 2 * 3));
    tally.expect("no bound", Crews(8).bound(&[], &[]), (0, 0));
}

/// That answers are told from each other.
fn told_apart(tally: &mut Tally) {
    let right = Ok(vec![1, 2, 2]);
    let apart = |said: Answer| plan_answers::apart::<Crews>(&said, &right);
    tally.expect("the same", apart(right.clone()), None);
    tally.expect("a crew", apart(Ok(vec![1, 1, 2])), Some("another crew of round 2".into()));
    tally.expect("too few", apart(Ok(vec![1, 2])), Some("another answer".into()));
    tally.expect("a refusal", apart(Err(14)), Some("another answer".into()));
}
