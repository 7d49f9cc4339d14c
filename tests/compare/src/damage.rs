//! Damage to a sheet. Every field meets the ends of every range, so nothing here says which
//! range is whose.

use crate::plan::plan_len;
use crate::random::Random;
use crate::refusal::{LEAST_RATE, MOST_FIGURE, MOST_MAXIMUM, MOST_PENALTY, OFFERED};
use crate::sheet::{field, Header, Sheet, ENTRY, HEADER, REST, ROW, VEHICLE, WINDOW};

/// The sign of an f64.
const SIGN: u64 = 1 << 63;

/// One call of the planner's check.
#[derive(Clone)]
pub struct Case {
    pub sheet: Vec<u8>,
    pub plan_len: usize,
}

/// A call as it should be, and what damaging it needs to know.
pub struct Base {
    pub case: Case,
    pub header: Header,
    depots: usize,
}

/// A field by its place and width.
#[derive(Clone, Copy)]
struct Field {
    at: usize,
    width: usize,
}

/// The values that fields of 1, 2, 4 and 8 bytes are set to.
pub struct Values {
    byte: Vec<u64>,
    short: Vec<u64>,
    whole: Vec<u64>,
    float: Vec<u64>,
}

impl Values {
    /// Both ends of every range with their neighbours, and what is odd in other ways.
    pub fn all() -> Values {
        let wholes = [0, 1_000_000, -1_000_000, i64::from(i32::MAX), i64::from(i32::MIN)];
        let around = |end: i64| [end - 1, end, end + 1].map(|value| value as u64);
        let floats = [0.0, LEAST_RATE, MOST_PENALTY, MOST_FIGURE, MOST_MAXIMUM, f64::MIN_POSITIVE];
        let beside = |end: f64| [end.next_down(), end, end.next_up()];
        let odd = [-0.0, 0.5, 1.0, -1.0, f64::MAX, f64::INFINITY, f64::NEG_INFINITY];
        let nans = [0x7ff8 << 48, 0xfff8 << 48, (0x7ff0 << 48) + 1, (0xfff0 << 48) + 1, u64::MAX];
        let numbers = floats.into_iter().flat_map(beside).chain(odd);
        Values {
            byte: vec![0, 1, 2, 3, 4, 5, 128, 255],
            short: vec![0, 1, 2, 3, 15, 16, 17, 100, 101, 102, 255, 256, 257, 65535],
            whole: (2..10).chain([1 << 16]).chain(wholes.into_iter().flat_map(around)).collect(),
            float: numbers.map(f64::to_bits).chain(nans).collect(),
        }
    }

    /// The same with every sum of marks that a vehicle may have, and the next.
    pub fn all_marks() -> Values {
        let mut values = Values::all();
        values.whole.extend(10..17);
        values
    }

    /// The least that still tells unmarked fields and closed windows apart from others.
    pub fn few() -> Values {
        Values {
            byte: vec![1],
            short: vec![1],
            whole: vec![8, 9, 1 << 16],
            float: [-0.0, 0.0f64.next_up(), 1.0].map(f64::to_bits).into(),
        }
    }

    fn of(&self, field: Field) -> &[u64] {
        match field.width {
            1 => &self.byte,
            2 => &self.short,
            4 => &self.whole,
            _ => &self.float,
        }
    }
}

impl Case {
    fn set(&mut self, field: Field, value: u64) {
        let bytes = value.to_le_bytes();
        self.sheet[field.at..field.at + field.width].copy_from_slice(&bytes[..field.width]);
    }
}

/// The fields of a record at `at`: four of 4 bytes, then of 8 bytes up to its end.
fn record(at: usize, len: usize) -> impl Iterator<Item = Field> {
    let wholes = (0..4).map(move |k| Field { at: at + 4 * k, width: 4 });
    wholes.chain((at + 16..at + len).step_by(8).map(|at| Field { at, width: 8 }))
}

fn header_fields() -> impl Iterator<Item = Field> {
    let shorts = [0, 2].map(|at| Field { at, width: 2 });
    shorts.into_iter().chain((4..HEADER).map(|at| Field { at, width: 1 }))
}

impl Base {
    pub fn new(sheet: &Sheet) -> Base {
        let bytes = sheet.encode();
        Base {
            header: Header::of(&bytes),
            depots: sheet.depots(),
            case: Case { sheet: bytes, plan_len: plan_len(sheet.rows.len()) },
        }
    }

    /// Every field set to every value, every cut, every wrong plan length.
    pub fn all_damages(&self, values: &Values) -> Vec<Case> {
        let matrix = (0..self.header.entries()).map(|k| self.entry(k));
        let mut cases = self.set_each(header_fields().chain(matrix), values);
        cases.extend(self.record_damages(values));
        cases.extend(self.cuts().into_iter().map(|len| self.but(|case| case.sheet.resize(len, 0))));
        cases.extend(self.plan_lens().map(|len| self.but(|case| case.plan_len = len)));
        cases
    }

    /// Every field of every row and vehicle set to every value.
    pub fn record_damages(&self, values: &Values) -> Vec<Case> {
        let header = &self.header;
        let rows = (0..header.rows).flat_map(|k| record(header.row_at(k), ROW));
        let vehicles = (0..header.vehicles).flat_map(|k| record(header.vehicle_at(k), VEHICLE));
        self.set_each(rows.chain(vehicles), values)
    }

    fn set_each(&self, fields: impl Iterator<Item = Field>, values: &Values) -> Vec<Case> {
        let set = |field| {
            let to = move |&value| self.but(|case| case.set(field, value));
            values.of(field).iter().map(to)
        };
        fields.flat_map(set).collect()
    }

    fn but(&self, change: impl FnOnce(&mut Case)) -> Case {
        let mut case = self.case.clone();
        change(&mut case);
        case
    }

    fn entry(&self, k: usize) -> Field {
        Field { at: self.header.matrix_at() + ENTRY * k, width: ENTRY }
    }

    /// The lengths at which a structure ends, and those beside the right one.
    fn cuts(&self) -> Vec<usize> {
        let header = &self.header;
        let mut cuts = vec![0, 1, HEADER - 1];
        cuts.extend((0..header.rows).map(|k| header.row_at(k)));
        cuts.extend((0..header.vehicles).map(|k| header.vehicle_at(k)));
        let lines = (0..header.entries()).step_by(header.rows.max(1));
        cuts.extend(lines.map(|k| self.entry(k).at));
        let len = header.sheet_len();
        cuts.extend([len - 1, len + 1, len - 8, len + 8, len + ROW, len + VEHICLE]);
        cuts
    }

    /// Plan lengths that are wrong, some of them only beyond 16 or 32 bits.
    fn plan_lens(&self) -> [usize; 8] {
        let len = self.case.plan_len;
        [len - 1, len + 1, len - 16, len + 80, 0, len + (1 << 16), len + (1 << 32), usize::MAX]
    }

    /// One damage, or two at once: then the earlier line of the table has to answer.
    pub fn damaged(&self, values: &Values, random: &mut Random) -> Case {
        let mut case = self.case.clone();
        for _ in 0..random.pick(&[1, 1, 1, 2]) {
            match random.below(16) {
                0..8 => {
                    let field = self.any_field(random);
                    case.set(field, random.pick(values.of(field)));
                }
                8 | 9 => self.set_order(&mut case, values, random),
                10 | 11 => self.set_ids(&mut case, random),
                12 => self.set_depot(&mut case, random),
                13 => flip(&mut case, random),
                14 => case.plan_len = random.pick(&self.plan_lens()),
                _ => return self.but(|case| case.sheet.resize(random.pick(&self.cuts()), 0)),
            }
        }
        case
    }

    /// A field of the header, a row, a vehicle or the matrix, each part as likely.
    fn any_field(&self, random: &mut Random) -> Field {
        let header = &self.header;
        let fields: Vec<Field> = match random.below(4) {
            0 if header.rows > 0 => self.row(random).collect(),
            1 if header.vehicles > 0 => self.vehicle(random).collect(),
            2 if header.rows > 0 => return self.entry(random.below(header.entries())),
            _ => header_fields().collect(),
        };
        random.pick(&fields)
    }

    fn row(&self, random: &mut Random) -> impl Iterator<Item = Field> {
        record(self.header.row_at(random.below(self.header.rows)), ROW)
    }

    fn vehicle(&self, random: &mut Random) -> impl Iterator<Item = Field> {
        record(self.header.vehicle_at(random.below(self.header.vehicles)), VEHICLE)
    }

    /// Ready and due of a row, or earliest and latest of a vehicle: marked, and equal, one step
    /// apart, of two signs or unrelated.
    fn set_order(&self, case: &mut Case, values: &Values, random: &mut Random) {
        let (fields, mark, early): (Vec<Field>, u32, usize) = match random.below(2) {
            0 if self.header.rows > 0 => (self.row(random).collect(), WINDOW, 5),
            1 if self.header.vehicles > 0 => (self.vehicle(random).collect(), REST, 8),
            _ => return,
        };
        let marks = u32::from_le_bytes(field(&case.sheet, fields[3].at));
        case.set(fields[3], (marks | mark).into());
        let first = random.pick(&values.float);
        let other = random.pick(&values.float);
        let (above, below, negated) = (first.wrapping_add(1), first.wrapping_sub(1), first ^ SIGN);
        case.set(fields[early], first);
        case.set(fields[early + 1], random.pick(&[first, above, below, negated, other]));
    }

    /// Two vehicles of one id, or of two that differ in one bit.
    fn set_ids(&self, case: &mut Case, random: &mut Random) {
        if self.header.vehicles > 1 {
            let one = random.below(self.header.vehicles);
            let step = 1 + random.below(self.header.vehicles - 1);
            let two = (one + step) % self.header.vehicles;
            let at = |k| self.header.vehicle_at(k);
            let id = u32::from_le_bytes(field(&case.sheet, at(one)));
            let id = id ^ random.pick(&[0, 0, 1, 1 << 8, 1 << 16, 1 << 31]);
            case.set(Field { at: at(two), width: 4 }, id.into());
        }
    }

    /// A vehicle at the last depot, or at one that there is not.
    fn set_depot(&self, case: &mut Case, random: &mut Random) {
        if self.header.vehicles > 0 {
            let depots = self.depots as u64;
            let depot = random.pick(&[depots - 1, depots, depots + 1, depots + (1 << 16)]);
            let field = self.vehicle(random).nth(1).expect("a vehicle has a depot");
            case.set(field, depot);
        }
    }
}

fn flip(case: &mut Case, random: &mut Random) {
    let at = random.below(case.sheet.len());
    case.sheet[at] ^= 1 << random.below(8);
}

/// `len` random bytes.
pub fn noise(len: usize, random: &mut Random) -> Case {
    let sheet = (0..len).map(|_| random.bits() as u8).collect();
    Case { sheet, plan_len: plan_len(random.below(4)) }
}

/// Random bytes after a header that asks for just as many.
pub fn noise_after_header(random: &mut Random) -> Case {
    let counts = [random.below(3) as u8, 0, random.below(3) as u8, 0];
    let mut sheet = [counts, [random.pick(OFFERED), random.below(2) as u8, 0, 0]].concat();
    sheet.resize(HEADER, 0);
    let header = Header::of(&sheet);
    sheet.resize_with(header.sheet_len(), || random.bits() as u8);
    Case { sheet, plan_len: plan_len(header.rows) }
}
