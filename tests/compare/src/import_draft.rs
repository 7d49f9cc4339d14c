//! A text to be imported, before its words are laid out in lines.

use crate::importer::COLUMNS;
use crate::random::Random;

pub type Word = Vec<u8>;

/// What a text shows that is right, and what is wrong with it.
pub type Kinds = Vec<&'static str>;

/// The words of the vehicle's line and of the rows'.
pub struct Draft {
    pub vehicle: Vec<Word>,
    pub rows: Vec<Vec<Word>>,
}

/// A row's numbers by their columns; the first is its count.
pub const READY: usize = 4;
pub const DUE: usize = 5;

/// The least and the most of a row's columns, the first left out, and of the capacity.
pub const RANGES: [(i64, i64); COLUMNS] = [
    (0, 0x7fff_ffff),
    (-1_000_000, 1_000_000),
    (-1_000_000, 1_000_000),
    (0, 1_000_000),
    (0, 1_000_000_000),
    (0, 1_000_000_000),
    (0, 1_000_000_000),
];
const CAPACITY: usize = 0;

/// The ends of the ranges as they stand in `RANGES`.
pub const ENDS: [[&str; 2]; COLUMNS] = [
    ["least capacity", "most capacity"],
    ["least x", "most x"],
    ["least y", "most y"],
    ["least demand", "most demand"],
    ["least ready", "most ready"],
    ["least due", "most due"],
    ["least service", "most service"],
];

/// Other values that are right.
pub const VALUES: [&str; 3] = ["ready is due", "two rows at one place", "two rows farthest apart"];

/// Vehicle numbers.
pub const VEHICLES: [(&str, &str); 7] = [
    ("vehicle number", "25"),
    ("vehicle number 0", "0"),
    ("vehicle number below 0", "-3"),
    ("vehicle number over 64 bits", "18446744073709551616"),
    ("vehicle number below 64 bits", "-9223372036854775809"),
    ("vehicle number of 50 digits", "98765432109876543210987654321098765432109876543210"),
    ("vehicle number of 50 digits below 0", "-98765432109876543210987654321098765432109876543210"),
];

/// How a number is written.
pub const WRITTEN: [&str; 7] = [
    "-0",
    "-00",
    "leading zeros",
    "leading zeros below 0",
    "50 leading zeros",
    "a row's number with leading zeros",
    "row 0 as -0",
];

pub const ROWS: [&str; 7] =
    ["1 row", "2 rows", "3 to 5 rows", "26 rows", "99 rows", "100 rows", "101 rows"];
/// The most rows of a usual text, and those of a long one.
const FEW: usize = 5;
const MANY: [usize; 4] = [26, 99, 100, 101];

impl Draft {
    /// A right one, of few rows or of many.
    pub fn new(many: bool, random: &mut Random, met: &mut Kinds) -> Draft {
        let of = random.below(if many { MANY.len() } else { FEW });
        let count = if many { MANY[of] } else { 1 + of };
        met.push(ROWS[if many { 3 + of } else { of.min(2) }]);
        let reach = random.pick(&[2, 50, 1000, 1_000_000]);
        let mut rows: Vec<[i64; COLUMNS]> = (0..count).map(|k| row(k, reach, random)).collect();
        let mut capacity = random.below(300) as i64;
        match random.below(3) {
            0 => set_values(&mut rows, random, met),
            1 => set_end(&mut rows, &mut capacity, random, met),
            _ => (),
        }
        let (name, number) = random.pick(&VEHICLES);
        met.push(name);
        let plain = |numbers: &[i64]| numbers.iter().map(|n| n.to_string().into()).collect();
        let mut draft = Draft {
            vehicle: vec![number.into(), capacity.to_string().into()],
            rows: rows.iter().map(|row| plain(row)).collect(),
        };
        for _ in 0..random.below(4) {
            draft.rewrite(random, met);
        }
        draft
    }

    /// Another row after the last, of the next number.
    pub fn add_row(&mut self, random: &mut Random) {
        let numbers = row(self.rows.len(), 50, random);
        self.rows.push(numbers.iter().map(|number| number.to_string().into()).collect());
    }

    /// Writes one of the numbers in another way.
    fn rewrite(&mut self, random: &mut Random, met: &mut Kinds) {
        let row = random.below(self.rows.len());
        let column = random.below(COLUMNS);
        let word = match random.below(8) {
            0 => &mut self.vehicle[random.below(2)],
            _ => &mut self.rows[row][column],
        };
        let (sign, digits) = match word.strip_prefix(b"-") {
            Some(digits) => ("-", digits.to_vec()),
            None => ("", word.clone()),
        };
        let zero = digits.iter().all(|&digit| digit == b'0');
        let (kind, sign, zeros) = match random.below(4) {
            0 | 1 if zero && digits.len() == 1 => {
                let more = random.below(2);
                (WRITTEN[more], "-", more)
            }
            0 => (WRITTEN[4], sign, 50),
            _ if sign.is_empty() => (WRITTEN[2], sign, 1 + random.below(20)),
            _ => (WRITTEN[3], sign, 1 + random.below(20)),
        };
        *word = [sign.as_bytes(), &vec![b'0'; zeros], &digits].concat();
        met.push(kind);
        let own = &self.rows[row][0];
        met.extend((own.len() > 1 && own.starts_with(b"0")).then_some(WRITTEN[5]));
        met.extend((own == b"-0").then_some(WRITTEN[6]));
    }
}

fn coordinate(reach: usize, random: &mut Random) -> i64 {
    random.below(2 * reach + 1) as i64 - reach as i64
}

fn row(count: usize, reach: usize, random: &mut Random) -> [i64; COLUMNS] {
    let [x, y] = [(); 2].map(|()| coordinate(reach, random));
    let ready = random.below(1000) as i64;
    let due = ready + 1 + random.below(1000) as i64;
    let [demand, service] = [(); 2].map(|()| random.below(100) as i64);
    [count as i64, x, y, demand, ready, due, service]
}

fn set_values(rows: &mut [[i64; COLUMNS]], random: &mut Random, met: &mut Kinds) {
    let one = random.below(rows.len());
    let two = (one + 1) % rows.len();
    let value = random.below(VALUES.len());
    match value {
        0 => rows[one][READY] = rows[one][DUE],
        _ if one == two => return,
        1 => (rows[one][1], rows[one][2]) = (rows[two][1], rows[two][2]),
        _ => {
            let [x, y] = [(); 2].map(|()| random.pick(&[-1_000_000, 1_000_000]));
            (rows[one][1], rows[one][2]) = (x, y);
            (rows[two][1], rows[two][2]) = (-x, -y);
        }
    }
    met.push(VALUES[value]);
}

/// Sets a number to an end of its range.
fn set_end(rows: &mut [[i64; COLUMNS]], capacity: &mut i64, random: &mut Random, met: &mut Kinds) {
    let (column, end) = (random.below(COLUMNS), random.below(2));
    let (least, most) = RANGES[column];
    let value = [least, most][end];
    let row = random.below(rows.len());
    match column {
        CAPACITY => *capacity = value,
        // The window stays one.
        READY | DUE if (column == READY) == (end == 1) => {
            (rows[row][READY], rows[row][DUE]) = (value, value);
        }
        _ => rows[row][column] = value,
    }
    met.push(ENDS[column][end]);
}
