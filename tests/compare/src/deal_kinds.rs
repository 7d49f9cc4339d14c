//! What a call for a deal has met that is a deal's own, told from the call and the right answer.

use u_routing::models::Route;

use crate::dealing::{wholes, Crews};
use crate::plan_answers::Right;
use crate::plan_calls::Call;
use crate::plan_refusals::Length;
use crate::walked::{rests_at_home, Step, Walked};

/// A deal, and how it came about.
struct Dealt<'a> {
    routes: &'a [Route],
    crews: Crews,
    wholes: Vec<u64>,
    deal: Vec<u8>,
    /// The totals of all crews before each round that is dealt, and which has it.
    before: Vec<(Vec<u64>, usize)>,
}

/// Of a deal that has a round.
const CREWS: [&str; 8] =
    ["1 crew", "2 crews", "3 crews", "4 crews", "5 crews", "6 crews", "7 crews", "8 crews"];

/// A duration that, counted by one more or less, would be dealt otherwise.
const STEPS: [(&str, Step); 5] = [
    ("duration 0", Step::Zero),
    ("duration one step above 0", Step::AboveZero),
    ("duration one step below a whole number", Step::Below),
    ("duration at a whole number", Step::At),
    ("duration one step above a whole number", Step::Above),
];

const DEALS: &[(&str, fn(&Dealt) -> bool)] = &[
    ("more crews than rounds", |it| it.count() > 0 && it.crews() > it.count()),
    ("as many crews as rounds", |it| it.crews() == it.count()),
    ("one round more than crews", |it| it.crews() + 1 == it.count()),
    ("a crew without a round, and enough rounds", |it| {
        it.count() >= it.crews() && (1..=it.crews()).any(|crew| !it.has_round(crew))
    }),
    ("each round longer than the one before", |it| {
        it.count() > 2 && it.wholes.windows(2).all(|two| two[0] < two[1])
    }),
    ("two rounds equally long", |it| it.has_pair(|one, other| it.wholes[one] == it.wholes[other])),
    ("such, the later longer before rounding up", |it| {
        it.has_pair(|one, other| {
            it.wholes[one] == it.wholes[other] && it.duration(one) < it.duration(other)
        })
    }),
    ("three rounds equally long", |it| {
        it.wholes.iter().any(|whole| it.wholes.iter().filter(|other| *other == whole).count() > 2)
    }),
    ("all rounds of no time", |it| it.count() > 1 && it.wholes.iter().all(|whole| *whole == 0)),
    ("a tie of two crews with time", |it| it.has_tie(2)),
    ("a tie of three crews with time", |it| it.has_tie(3)),
    ("a second round to a crew without time", |it| it.has_idle_crew()),
    ("an empty round of no time", |it| it.has_empty(|whole| whole == 0)),
    ("an empty round of some time", |it| it.has_empty(|whole| whole > 0)),
    ("an empty round longer than one with stops", |it| {
        let routes = it.routes.iter().zip(&it.wholes);
        let with_stops = routes.filter(|(route, _)| !route.is_empty()).map(|(_, whole)| *whole);
        let shortest = with_stops.min().unwrap_or(u64::MAX);
        it.has_empty(|whole| whole > shortest)
    }),
    ("an empty round that rests at home", |it| {
        it.routes.iter().any(|route| route.is_empty() && rests_at_home(route))
    }),
    ("a rest at home, to a whole number", |it| it.rests_to(Step::At)),
    ("a rest at home, to one step above", |it| it.rests_to(Step::Above)),
    ("a duration above 32 bits", |it| it.wholes.iter().any(|&whole| is_wide(whole))),
    ("a total above 32 bits, and no duration", |it| {
        !it.wholes.iter().any(|&whole| is_wide(whole)) && it.totals().into_iter().any(is_wide)
    }),
    ("a total above another by its shortest round", |it| it.has_widest_gap()),
    ("the largest total at its bound", |it| {
        let (largest, bound) = it.crews.bound(&it.wholes, &it.deal);
        it.count() > it.crews() && it.crews() > 1 && largest == bound && largest > 0
    }),
];

/// Numbers of crews out of range.
const OVER: [(&str, fn(u32) -> bool); 8] = [
    ("14, 0 crews", |crews| crews == 0),
    ("14, 9 crews", |crews| crews == 9),
    ("14, 255 crews", |crews| crews == 255),
    ("14, 256 crews", |crews| crews == 256),
    ("14, 257 crews", |crews| crews == 257),
    ("14, 1 to 8 in the low byte", |crews| crews > 255 && is_few(crews & 0xff)),
    ("14, 1 to 8 in the low two bytes", |crews| crews > 0xffff && is_few(crews & 0xffff)),
    ("14, 2^32 - 1 crews", |crews| crews == u32::MAX),
];

/// Lengths that are right in 8 bits.
const LENGTHS: [Length; 2] = [
    ("4, a deal 256 bytes short", |len, right| len + 256 == right),
    ("4, a deal 256 bytes long", |len, right| len == right + 256),
];

fn is_few(crews: u32) -> bool {
    (1..=8).contains(&crews)
}

fn is_wide(whole: u64) -> bool {
    whole > u32::MAX.into()
}

pub fn kinds() -> Vec<&'static str> {
    let mut kinds = CREWS.to_vec();
    kinds.extend(STEPS.map(|(name, _)| name));
    kinds.extend(DEALS.iter().map(|(name, _)| *name));
    kinds.extend(OVER.map(|(name, _)| name));
    kinds.extend(LENGTHS.map(|(name, _)| name));
    kinds
}

/// The kinds that a call is of.
pub fn met(call: &Call<Crews>, right: &Right) -> Vec<&'static str> {
    match right {
        Ok(walked) => dealt(call.asked, walked),
        Err(14) => OVER.iter().filter(|(_, is)| is(call.asked.0)).map(|(name, _)| *name).collect(),
        Err(number) => call.lengths_met(*number, &LENGTHS),
    }
}

fn dealt(crews: Crews, walked: &Walked) -> Vec<&'static str> {
    let dealt = Dealt::new(crews, walked);
    let mut met = vec![];
    if dealt.count() > 0 {
        met.push(CREWS[crews.0 as usize - 1]);
    }
    met.extend(STEPS.iter().filter(|(_, step)| dealt.has_step(*step)).map(|(name, _)| *name));
    met.extend(DEALS.iter().filter(|(_, is)| is(&dealt)).map(|(name, _)| *name));
    met
}

impl<'a> Dealt<'a> {
    fn new(crews: Crews, walked: &'a Walked) -> Dealt<'a> {
        let wholes = wholes(walked.routes());
        let mut totals = vec![0; crews.0 as usize];
        let mut before = Vec::new();
        for (round, crew) in crews.turns(&wholes) {
            before.push((totals.clone(), crew));
            totals[crew - 1] += wholes[round];
        }
        let deal = crews.deal(&wholes);
        Dealt { routes: walked.routes(), crews, wholes, deal, before }
    }

    fn count(&self) -> usize {
        self.wholes.len()
    }

    fn crews(&self) -> usize {
        self.crews.0 as usize
    }

    fn duration(&self, round: usize) -> f64 {
        self.routes[round].total_duration()
    }

    fn totals(&self) -> Vec<u64> {
        self.crews.totals(&self.wholes, &self.deal)
    }

    fn has_round(&self, crew: usize) -> bool {
        self.deal.iter().any(|of| usize::from(*of) == crew)
    }

    /// Whether two rounds, a lower one and a higher, are so.
    fn has_pair(&self, so: impl Fn(usize, usize) -> bool) -> bool {
        (0..self.count()).any(|other| (0..other).any(|one| so(one, other)))
    }

    /// Whether a round goes to one of so many crews or more, equal in what they have.
    fn has_tie(&self, crews: usize) -> bool {
        self.before.iter().any(|(totals, crew)| {
            let least = totals[crew - 1];
            least > 0 && totals.iter().filter(|total| **total == least).count() >= crews
        })
    }

    /// Whether a crew is given a second round while its total is 0 and another crew has none.
    fn has_idle_crew(&self) -> bool {
        self.before.iter().enumerate().any(|(turn, (totals, crew))| {
            let had = self.before[..turn].iter().any(|(_, of)| of == crew);
            had && totals[crew - 1] == 0 && totals.iter().filter(|total| **total == 0).count() > 1
        })
    }

    fn has_empty(&self, so: impl Fn(u64) -> bool) -> bool {
        self.routes.iter().zip(&self.wholes).any(|(route, whole)| route.is_empty() && so(*whole))
    }

    fn has_step(&self, step: Step) -> bool {
        (0..self.count())
            .any(|round| step.holds(self.duration(round), 1) && self.shows(round, step))
    }

    /// Whether a round is dealt otherwise, or others are, where it counts as on the step's other side.
    fn shows(&self, round: usize, step: Step) -> bool {
        let mut other = self.wholes.clone();
        match step {
            Step::Zero | Step::At => other[round] += 1,
            Step::AboveZero | Step::Below | Step::Above => other[round] -= 1,
        }
        self.crews.deal(&other) != self.deal
    }

    fn rests_to(&self, step: Step) -> bool {
        let is = |route: &Route| rests_at_home(route) && step.holds(route.total_duration(), 1);
        self.routes.iter().any(is)
    }

    /// Whether a crew of several rounds has just so much more than another that has some time.
    fn has_widest_gap(&self) -> bool {
        let totals = self.totals();
        let has_gap = |(own, total): (Vec<u64>, &u64)| {
            let shortest = own.iter().min().copied().unwrap_or(0);
            let is_less = |other: &u64| *other > 0 && other + shortest == *total;
            own.len() > 1 && shortest > 0 && totals.iter().any(is_less)
        };
        self.crews.of_crews(&self.wholes, &self.deal).zip(&totals).any(has_gap)
    }
}
