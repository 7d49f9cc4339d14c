//! What a refused call on a plan has met: lengths, plans that are not right, and two faults of which the
//! first has to answer. What is asked out of range is told last, by a refusal of its own.

use crate::plan::{chains, plan_len, round_at, round_count, stop_at, without_reasons};
use crate::plan_calls::{Asked, Call};
use crate::sheet::{field, Header, Sheet, HEADER};

struct Refused<'a> {
    sheet: &'a [u8],
    plan: &'a [u8],
    /// The buffer's length, and the right one for so many rounds.
    len: usize,
    len_of: fn(usize) -> usize,
    narrow: usize,
    is_in_range: bool,
    number: u32,
    mended: Option<u32>,
    wrong_len: Option<(usize, usize)>,
}

/// How a buffer's length stands to the right one.
pub type Length = (&'static str, fn(usize, usize) -> bool);

/// The refusal of its own, whatever its number.
const OWN: u32 = 0;

const PAIRS: [(&str, [u32; 2]); 21] = [
    ("1 and 4", [1, 4]),
    ("1 and its own", [1, OWN]),
    ("2 and 4", [2, 4]),
    ("2 and its own", [2, OWN]),
    ("3 and 4", [3, 4]),
    ("3 and its own", [3, OWN]),
    ("4 and 5", [4, 5]),
    ("4 and 6", [4, 6]),
    ("4 and 7", [4, 7]),
    ("4 and 8", [4, 8]),
    ("4 and 10", [4, 10]),
    ("4 and its own", [4, OWN]),
    ("5 and 10", [5, 10]),
    ("5 and its own", [5, OWN]),
    ("6 and 10", [6, 10]),
    ("6 and its own", [6, OWN]),
    ("7 and 10", [7, 10]),
    ("7 and its own", [7, OWN]),
    ("8 and 10", [8, 10]),
    ("8 and its own", [8, OWN]),
    ("10 and its own", [10, OWN]),
];

const FAULTS: &[(&str, fn(&Refused) -> bool)] = &[
    ("4, the sheet's length alone", |it| it.wrong_lengths() == Some([true, false, false])),
    ("4, the plan's length alone", |it| it.wrong_lengths() == Some([false, true, false])),
    ("4, a plan of no byte", |it| it.number == 4 && it.plan.is_empty()),
    ("4, a plan of 1 byte", |it| it.number == 4 && it.plan.len() == 1),
    ("4, a buffer of no byte", |it| it.is_buffer_alone(|len, _| len == 0)),
    ("4, a buffer 1 byte short", |it| it.is_buffer_alone(|len, right| len + 1 == right)),
    ("4, a buffer 1 byte long", |it| it.is_buffer_alone(|len, right| len == right + 1)),
    ("4, a buffer of `rows` rounds", |it| it.is_buffer_of_rows()),
    ("4, such, and over `rows` rounds", |it| it.is_over() && it.is_buffer_of_rows()),
    ("4, a length that is 0 in fewer bits", |it| {
        it.is_buffer_alone(|len, right| len == 0 && right & it.narrow == 0)
    }),
    ("10, `rows` + 1 rounds", |it| it.number == 10 && it.count() == it.rows() + 1),
    ("10, more rounds over `rows`", |it| it.number == 10 && it.count() > it.rows() + 1),
    ("10, 65,535 rounds", |it| it.number == 10 && it.count() == 65_535),
    ("10, an unknown id", |it| it.number == 10 && it.has_unknown_id()),
    ("10, a link to a depot", |it| it.number == 10 && it.links_depot()),
    ("10, a reason above 8", |it| it.number == 10 && it.has_wrong_reason()),
    ("10, of several depots", |it| it.number == 10 && it.sheet().depots() > 1),
    ("its own, no round", |it| it.number == OWN && it.count() == 0),
    ("its own, of several depots", |it| it.number == OWN && it.sheet().depots() > 1),
];

pub fn kinds() -> impl Iterator<Item = &'static str> {
    FAULTS.iter().map(|(name, _)| *name).chain(PAIRS.map(|(name, _)| name))
}

/// The kinds that a refused call is of.
pub fn met<A: Asked>(call: &Call<A>, number: u32) -> Vec<&'static str> {
    let own = |number: u32| if number == A::REFUSAL { OWN } else { number };
    let refused = Refused {
        sheet: &call.sheet,
        plan: &call.plan,
        len: call.len,
        len_of: A::len,
        narrow: A::NARROW,
        is_in_range: call.asked.is_in_range(),
        number: own(number),
        mended: call.mended().map(own),
        wrong_len: call.wrong_len(number),
    };
    let faults = FAULTS.iter().filter(|(_, is)| is(&refused)).map(|(name, _)| *name);
    let pairs = PAIRS.iter().filter(|(_, pair)| refused.has_both(*pair)).map(|(name, _)| *name);
    faults.chain(pairs).collect()
}

impl<A: Asked> Call<A> {
    /// The refusal if the buffer's length were right.
    pub fn mended(&self) -> Option<u32> {
        let len = if self.plan.len() > 1 { A::len_for(&self.plan) } else { 0 };
        self.asked.accepted(&self.sheet, &self.plan, len).err()
    }

    /// The buffer's length and the right one, of a call whose lengths are right but for that.
    pub fn wrong_len(&self, number: u32) -> Option<(usize, usize)> {
        let is_alone = number == 4 && self.mended() != Some(4);
        is_alone.then(|| (self.len, A::len_for(&self.plan)))
    }

    /// Of these lengths, beside the right ones, those that such a call is of.
    pub fn lengths_met(&self, number: u32, lengths: &[Length]) -> Vec<&'static str> {
        let Some((len, right)) = self.wrong_len(number) else { return vec![] };
        lengths.iter().filter(|(_, is)| is(len, right)).map(|(name, _)| *name).collect()
    }
}

impl Refused<'_> {
    /// Of a sheet that is long enough to have one.
    fn header(&self) -> Option<Header> {
        (self.sheet.len() >= HEADER).then(|| Header::of(self.sheet))
    }

    fn rows(&self) -> usize {
        self.header().map_or(0, |header| header.rows)
    }

    /// The sheet, of a call whose lengths are right.
    fn sheet(&self) -> Sheet {
        Sheet::decode(self.sheet)
    }

    fn count(&self) -> usize {
        round_count(self.plan)
    }

    fn is_over(&self) -> bool {
        self.plan.len() > 1 && self.count() > self.rows()
    }

    /// Whether the buffer has not the length that the plan's number of rounds asks for.
    fn is_buffer_wrong(&self) -> bool {
        self.plan.len() > 1 && self.len != (self.len_of)(self.count())
    }

    /// Of a 4 by the lengths of the sheet, the plan and the buffer, those that are wrong.
    fn wrong_lengths(&self) -> Option<[bool; 3]> {
        let header = self.header().filter(|_| self.number == 4)?;
        let sheet = self.sheet.len() != header.sheet_len();
        Some([sheet, self.plan.len() != plan_len(header.rows), self.is_buffer_wrong()])
    }

    /// Whether the buffer's length alone is wrong, and stands so to the right one.
    fn is_buffer_alone(&self, so: impl Fn(usize, usize) -> bool) -> bool {
        self.wrong_len.is_some_and(|(len, right)| so(len, right))
    }

    fn is_buffer_of_rows(&self) -> bool {
        self.is_buffer_alone(|len, _| len == (self.len_of)(self.rows()))
    }

    fn has_unknown_id(&self) -> bool {
        let sheet = self.sheet();
        let unknown = |at: usize| {
            let id = u32::from_le_bytes(field(self.plan, at));
            sheet.vehicles.iter().all(|vehicle| vehicle.id != id)
        };
        !self.is_over() && (0..self.count()).map(round_at).any(unknown)
    }

    /// Whether the plan is right but for its reasons.
    fn has_wrong_reason(&self) -> bool {
        chains(&without_reasons(self.plan), &self.sheet()).is_some()
    }

    fn links_depot(&self) -> bool {
        let (rows, depots) = (self.rows(), self.sheet().depots());
        let firsts = (0..self.count()).map(|round| round_at(round) + 8);
        let links = firsts.chain((depots..rows).map(|stop| stop_at(rows, stop))).chain([2]);
        let link = |at| u16::from_le_bytes(field(self.plan, at)).into();
        !self.is_over() && links.map(link).any(|row: usize| row > 0 && row < depots)
    }

    /// Whether the first of two refusals is told where the second would be too.
    fn has_both(&self, [first, second]: [u32; 2]) -> bool {
        if self.number != first {
            return false;
        }
        match second {
            _ if first == 4 => self.mended == Some(second),
            4 => self.is_buffer_wrong(),
            10 => chains(self.plan, &self.sheet()).is_none(),
            _ => !self.is_in_range,
        }
    }
}
