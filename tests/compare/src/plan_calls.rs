//! Calls that ask something of a plan as it stands, a bill or a deal, by flavour: plans that are planned
//! and limited, plans dealt at random and fitted to whole units, damaged plans, and whatever else is
//! turned back.
//!
//! A call depends on the seed, its number and the plans of its makers alone, so that each can be made
//! again.

use crate::damage::{Base, Values};
use crate::figure_fits::{enlarge, fit_round};
use crate::fit::Round;
use crate::flavours::{any_sheet, drawn_at_home, drawn_with_due, MOST_LENT};
use crate::generate::sheet_of;
use crate::limit_calls::{close_depots, dealt, lone};
use crate::limiting::rounds;
use crate::plan::{chains, encode_chains, plan_len, round_count, Chains};
use crate::plan_damage::{damage_plan, fill_unread, link_depot, DAMAGES};
use crate::random::Random;
use crate::reference::Problem;
use crate::refusal::{plan_accepted, refusal, METHODS, MOST_ROWS};
use crate::sheet::{Sheet, DEPOT, HEADER};

/// What is asked of a plan. The answer's length goes by the plan's own number of rounds.
pub trait Asked: Copy + 'static {
    /// Its own refusal, of what is out of range, after all others.
    const REFUSAL: u32;
    /// By so much a length may be taken for another.
    const STEP: usize;
    /// What a length is cut to where it is counted in too few bits, and numbers of rounds whose length
    /// is 0 then.
    const NARROW: usize;
    const WRAPPED: [u16; 2];

    /// The length of the answer for so many rounds.
    fn len(rounds: usize) -> usize;
    fn is_in_range(self) -> bool;
    /// Fits a sheet to whole units of its rounds.
    fn fit(sheet: &mut Sheet, rounds: &[Round], random: &mut Random);
    /// One that is in range.
    fn drawn(sheet: &Sheet, rounds: &[Round], random: &mut Random) -> Self;
    fn put_out_of_range(&mut self, random: &mut Random);

    /// Refusals 1 to 8, 10 and its own, for a buffer of `len` bytes.
    fn accepted(self, sheet: &[u8], plan: &[u8], len: usize) -> Result<(Sheet, Chains), u32> {
        let own = (!self.is_in_range()).then_some(Self::REFUSAL);
        plan_accepted(sheet, plan, |rounds| len == Self::len(rounds), own)
    }

    /// The length for a plan of 2 bytes or more, which need not be right.
    fn len_for(plan: &[u8]) -> usize {
        Self::len(round_count(plan))
    }
}

/// One call, with a buffer of `len` bytes.
#[derive(Clone)]
pub struct Call<A> {
    pub flavour: usize,
    pub sheet: Vec<u8>,
    pub plan: Vec<u8>,
    pub asked: A,
    pub len: usize,
}

/// Who plans a sheet, and who brings a plan within a number of rounds.
pub struct Makers {
    pub plan: fn(&[u8]) -> Vec<u8>,
    pub limit: fn(&[u8], &[u8], u32) -> Vec<u8>,
}

/// Each with its share. The damages of a plan come first; the tiny plans are not drawn but counted
/// through.
pub const FLAVOURS: [(&str, usize); 19] = [
    (DAMAGES[0], 3),
    (DAMAGES[1], 3),
    (DAMAGES[2], 3),
    (DAMAGES[3], 3),
    (DAMAGES[4], 3),
    (DAMAGES[5], 3),
    (DAMAGES[6], 3),
    (DAMAGES[7], 3),
    (DAMAGES[8], 3),
    (DAMAGES[9], 3),
    ("damaged: a link to a depot", 5),
    ("planned", 40),
    ("limited", 24),
    ("dealt, fitted", 40),
    ("dealt, fitted to units", 60),
    ("out of range", 12),
    ("lengths", 14),
    ("refused", 24),
    ("tiny", 0),
];
const DEPOT_LINK: usize = 10;
pub const PLANNED: usize = 11;
const LIMITED: usize = 12;
const FITTED: usize = 13;
const UNITS: usize = 14;
const OUT_OF_RANGE: usize = 15;
const LENGTHS: usize = 16;
const REFUSED: usize = 17;
pub const TINY: usize = 18;

/// One sheet in so many has as many rows as there may be.
const LARGE: usize = 500;

/// The call of a number.
pub fn call<A: Asked>(seed: u64, number: usize, makers: &Makers) -> Call<A> {
    let random = &mut Random::numbered(seed, number);
    let flavour = random.by_share(FLAVOURS.iter().map(|(_, share)| *share));
    let mut sheet = sheet(flavour, random);
    let (mut bytes, plan) = match flavour {
        PLANNED => made((makers.plan)(&sheet.encode()), &sheet),
        LIMITED => {
            let given = dealt(&sheet, random);
            let count = given.rounds.len();
            let greatest = if random.one_in(2) { count } else { random.below(count + 1) };
            let given = encode_chains(sheet.rows.len(), &given);
            made((makers.limit)(&sheet.encode(), &given, greatest as u32), &sheet)
        }
        _ => dealt_bytes::<A>(flavour, &mut sheet, random),
    };
    let asked = A::drawn(&sheet, &rounds(&Problem::held(&sheet), &plan), random);
    match flavour {
        DEPOT_LINK => link_depot(&mut bytes, &sheet, &plan, random),
        REFUSED if random.one_in(3) => {
            damage_plan(&mut bytes, &sheet, &plan, random.below(DAMAGES.len()), random);
        }
        damage if damage < DAMAGES.len() => {
            damage_plan(&mut bytes, &sheet, &plan, damage, random);
        }
        _ => (),
    }
    let len = A::len_for(&bytes);
    let mut call = Call { flavour, sheet: sheet.encode(), plan: bytes, asked, len };
    call.turn_wrong(sheet, random);
    call
}

/// A sheet that is not refused.
fn sheet(flavour: usize, random: &mut Random) -> Sheet {
    let mut drawn = || match random.below(4) {
        _ if random.one_in(LARGE) => sheet_of(random, MOST_ROWS, 3),
        0 => Sheet::decode(&drawn_with_due(random.bits(), 0).sheet),
        1 => Sheet::decode(&drawn_at_home(random.bits(), 0).sheet),
        _ => any_sheet(METHODS, random),
    };
    let is_accepted = |sheet: &Sheet| refusal(&sheet.encode(), plan_len(sheet.rows.len())) == 0;
    let mut sheet = drawn();
    while !is_accepted(&sheet) {
        sheet = drawn();
    }
    enlarge(&mut sheet, random);
    match flavour {
        DEPOT_LINK => sheet.rows.iter_mut().take(2).for_each(|row| row.marks |= DEPOT),
        LIMITED => close_depots(&mut sheet),
        _ => (),
    }
    sheet
}

fn made(plan: Vec<u8>, sheet: &Sheet) -> (Vec<u8>, Chains) {
    let chains = chains(&plan, sheet).expect("a plan has each stop once");
    (plan, chains)
}

/// A plan that no one made, to some rounds of which the sheet is fitted.
fn dealt_bytes<A: Asked>(
    flavour: usize,
    sheet: &mut Sheet,
    random: &mut Random,
) -> (Vec<u8>, Chains) {
    let plan = if random.one_in(4) { lone(sheet, random) } else { dealt(sheet, random) };
    let rounds = rounds(&Problem::held(sheet), &plan);
    match flavour {
        FITTED => fit_some(sheet, &rounds, random, fit_round),
        UNITS => A::fit(sheet, &rounds, random),
        _ => (),
    }
    let mut bytes = encode_chains(sheet.rows.len(), &plan);
    if random.one_in(2) {
        fill_unread(&mut bytes, &plan, sheet.rows.len(), random);
    }
    (bytes, plan)
}

/// Fits a sheet to one, two or three of the rounds with stops, where there are any.
pub fn fit_some(
    sheet: &mut Sheet,
    rounds: &[Round],
    random: &mut Random,
    fit: impl Fn(&mut Sheet, &Round, &mut Random),
) {
    let rounds = with_stops(rounds);
    if !rounds.is_empty() {
        for _ in 0..1 + random.below(3) {
            fit(sheet, rounds[random.below(rounds.len())], random);
        }
    }
}

/// The rounds that are not empty.
pub fn with_stops(rounds: &[Round]) -> Vec<&Round> {
    rounds.iter().filter(|round| !round.stops.is_empty()).collect()
}

impl<A: Asked> Call<A> {
    /// Makes wrong what a flavour is about; a length or what is asked at times in the others that are
    /// refused too, where the first refusal has to answer.
    fn turn_wrong(&mut self, sheet: Sheet, random: &mut Random) {
        let at_times = matches!(self.flavour, ..PLANNED | OUT_OF_RANGE | LENGTHS | REFUSED);
        let rows = sheet.rows.len();
        if self.flavour == REFUSED {
            self.refuse(sheet, random);
        }
        if self.flavour == LENGTHS {
            self.stretch(rows, random);
        } else if at_times && random.one_in(5) {
            self.stretch_buffer(rows, random);
        }
        if self.flavour == OUT_OF_RANGE || (at_times && random.one_in(5)) {
            self.asked.put_out_of_range(random);
        }
    }

    /// A sheet with damages, with a wrong header or without a vehicle.
    fn refuse(&mut self, mut sheet: Sheet, random: &mut Random) {
        match random.below(8) {
            0 => {
                sheet.vehicles.clear();
                self.sheet = sheet.encode();
            }
            1 => self.sheet[random.pick(&[0, 2, 4, 4, 5, HEADER - 1])] = u8::MAX,
            _ => {
                let case = Base::new(&sheet).damaged(&Values::all(), random);
                self.sheet = case.sheet;
                self.plan.resize(case.plan_len % MOST_LENT, 0);
            }
        }
    }

    /// Lengths that are wrong, most often the buffer's alone.
    fn stretch(&mut self, rows: usize, random: &mut Random) {
        let which = random.below(8);
        if which == 0 {
            self.plan[..2].copy_from_slice(&random.pick(&A::WRAPPED).to_le_bytes());
            self.len = 0;
            return;
        }
        if which == 1 || which == 2 {
            let len = self.plan.len();
            self.plan.resize(random.pick(&[0, 1, 2, len - 1, len + 1, len - 16, len + 80]), 0);
        }
        if which == 2 || which == 3 {
            let len = self.sheet.len();
            self.sheet.resize(random.pick(&[len - 1, len + 1, len - 8, len + 8, len / 2]), 0);
        }
        if which > 3 {
            self.stretch_buffer(rows, random);
        }
    }

    fn stretch_buffer(&mut self, rows: usize, random: &mut Random) {
        let (len, of_rows) = (self.len, A::len(rows));
        let less = |by| len.saturating_sub(by);
        let beside = [less(A::STEP), less(1), len + 1, len + A::STEP];
        let other = [0, 1, len / 2, 2 * len, of_rows, of_rows, self.plan.len()];
        self.len = if random.one_in(2) { random.pick(&beside) } else { random.pick(&other) };
    }
}
