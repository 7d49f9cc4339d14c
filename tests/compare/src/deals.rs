//! `compare deals`: deals against those of this harness's own (dealing.rs), what every deal has to keep,
//! and the right ones against wrong readings (wrong_deals.rs).

use u_routing::models::Route;

use crate::deal_fits::{crews, fit_wholes, overcrowd};
use crate::deal_kinds;
use crate::dealing::{wholes, Crews, MOST_CREWS};
use crate::fit::Round;
use crate::plan_answers::{Answer, Answered, Right};
use crate::plan_calls::{Asked, Call};
use crate::planner;
use crate::random::Random;
use crate::sheet::Sheet;
use crate::wrong_deals::{wrong_deal, Wrong, WRONG};

impl Asked for Crews {
    const REFUSAL: u32 = 14;
    const STEP: usize = 256;
    const NARROW: usize = 0xff;
    const WRAPPED: [u16; 2] = [256, 0xff00];

    fn len(rounds: usize) -> usize {
        rounds
    }

    fn is_in_range(self) -> bool {
        (1..=MOST_CREWS).contains(&self.0)
    }

    fn fit(sheet: &mut Sheet, rounds: &[Round], random: &mut Random) {
        fit_wholes(sheet, rounds, random);
    }

    fn drawn(_sheet: &Sheet, rounds: &[Round], random: &mut Random) -> Crews {
        crews(rounds.len(), random)
    }

    fn put_out_of_range(&mut self, random: &mut Random) {
        overcrowd(self, random);
    }
}

impl Answered for Crews {
    const NAME: &'static str = "deals";
    const TINY: &'static [Crews] = &[Crews(2), Crews(3)];
    type Wrong = Wrong;
    const WRONG: &'static [(Wrong, &'static str)] = WRONG;

    fn ask(self, sheet: &[u8], plan: &[u8], deal: &mut [u8]) -> u32 {
        planner::deal(sheet, plan, self, deal)
    }

    fn bytes(self, routes: &[Route]) -> Vec<u8> {
        self.deal(&wholes(routes))
    }

    fn misread(call: &Call<Crews>, right: &Right, wrong: Wrong) -> Answer {
        wrong_deal(call, right, wrong)
    }

    fn broken(self, routes: &[Route], said: &[u8]) -> Option<&'static str> {
        self.unkept(&wholes(routes), said)
    }

    fn kinds() -> Vec<&'static str> {
        deal_kinds::kinds()
    }

    fn met(call: &Call<Crews>, right: &Right) -> Vec<&'static str> {
        deal_kinds::met(call, right)
    }

    fn part(at: usize, _len: usize) -> String {
        format!("crew of round {}", at + 1)
    }

    fn numbers(self) -> Vec<u32> {
        vec![self.0]
    }

    fn shown(deal: &[u8]) -> String {
        format!("{deal:?}")
    }
}
