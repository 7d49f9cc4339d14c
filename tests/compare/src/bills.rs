//! `compare bills`: bills against those of this harness's own (billing.rs), and the right ones against
//! wrong readings (wrong_bills.rs).

use u_routing::models::Route;

use crate::bill_fits::{fit_units, overcharge, tariff};
use crate::bill_kinds;
use crate::billing::{encoded, Tariff, MOST_CENTS};
use crate::fit::Round;
use crate::plan_answers::{Answer, Answered, Right};
use crate::plan_calls::{fit_some, Asked, Call};
use crate::planner;
use crate::random::Random;
use crate::sheet::{field, Sheet};
use crate::wrong_bills::{wrong_bill, Wrong, WRONG};

/// Of the tiny plans, whose rounds with stops cost 18 or less.
const TARIFFS: [Tariff; 2] =
    [Tariff { rates: [7, 11], least: 0 }, Tariff { rates: [7, 11], least: 12 }];

impl Asked for Tariff {
    const REFUSAL: u32 = 13;
    const STEP: usize = 8;
    const NARROW: usize = 0xffff;
    const WRAPPED: [u16; 2] = [u16::MAX, 8191];

    fn len(rounds: usize) -> usize {
        8 * (rounds + 1)
    }

    fn is_in_range(self) -> bool {
        self.amounts().iter().all(|&amount| amount <= MOST_CENTS)
    }

    fn fit(sheet: &mut Sheet, rounds: &[Round], random: &mut Random) {
        fit_some(sheet, rounds, random, fit_units);
    }

    fn drawn(sheet: &Sheet, rounds: &[Round], random: &mut Random) -> Tariff {
        tariff(sheet, rounds, random)
    }

    fn put_out_of_range(&mut self, random: &mut Random) {
        overcharge(self, random);
    }
}

impl Answered for Tariff {
    const NAME: &'static str = "bills";
    const TINY: &'static [Tariff] = &TARIFFS;
    type Wrong = Wrong;
    const WRONG: &'static [(Wrong, &'static str)] = &WRONG;

    fn ask(self, sheet: &[u8], plan: &[u8], bill: &mut [u8]) -> u32 {
        planner::bill(sheet, plan, self, bill)
    }

    fn bytes(self, routes: &[Route]) -> Vec<u8> {
        encoded(&self.bill(routes))
    }

    fn misread(call: &Call<Tariff>, right: &Right, wrong: Wrong) -> Answer {
        let walked = right.as_ref().map_err(|number| *number)?;
        Ok(encoded(&wrong_bill(walked, call.asked, wrong)))
    }

    fn kinds() -> Vec<&'static str> {
        bill_kinds::kinds()
    }

    fn met(call: &Call<Tariff>, right: &Right) -> Vec<&'static str> {
        bill_kinds::met(call, right)
    }

    fn part(at: usize, len: usize) -> String {
        if at + 8 < len {
            format!("charge of round {}", at / 8 + 1)
        } else {
            "sum".into()
        }
    }

    fn numbers(self) -> Vec<u32> {
        self.amounts().to_vec()
    }

    fn shown(bill: &[u8]) -> String {
        let cents = bill.chunks_exact(8).map(|bytes| u64::from_le_bytes(field(bytes, 0)));
        format!("{:?}", cents.collect::<Vec<_>>())
    }
}
