//! Counts of what the plans of a request's stream have met, by method, by the limiter and by bills.

use crate::lawful::Claims;
use crate::plans::decoded;
use crate::refusal::METHODS;

/// The methods by their numbers, the limiter and the bill.
pub const COLUMNS: usize = 7;
pub const LIMITER: u8 = 5;
pub const BILL: u8 = 6;

/// Differences shown whole.
const SHOWN: usize = 3;

/// Each with the columns that have to meet it.
pub type Corners = &'static [(&'static str, &'static [u8])];

/// A number for each corner in each of these columns that has to meet it.
pub fn numbers(corners: Corners, columns: &[u8]) -> impl Iterator<Item = usize> + '_ {
    corners.iter().enumerate().flat_map(move |(corner, (_, of))| {
        let met = of.iter().filter(|column| columns.contains(column));
        met.map(move |&column| corner * COLUMNS + usize::from(column))
    })
}

/// Whether a number's corner is among those that were met in a column.
pub fn seen(column: u8, met: &[bool]) -> impl Fn(usize) -> bool + '_ {
    move |number| number % COLUMNS == usize::from(column) && met[number / COLUMNS]
}

pub struct Tally {
    pub seed: u64,
    corners: Corners,
    asked: [usize; COLUMNS],
    differences: [usize; COLUMNS],
    met: Vec<[usize; COLUMNS]>,
    pub explained: usize,
    pub claims: Claims,
}

impl Tally {
    pub fn new(seed: u64, corners: Corners) -> Tally {
        let zeros = [0; COLUMNS];
        Tally {
            seed,
            corners,
            asked: zeros,
            differences: zeros,
            met: vec![zeros; corners.len()],
            explained: 0,
            claims: Claims::default(),
        }
    }

    /// So many calls of the limiter, and for bills.
    pub fn calls(&self) -> usize {
        self.asked[usize::from(LIMITER)]
    }

    pub fn bills(&self) -> usize {
        self.asked[usize::from(BILL)]
    }

    pub fn differences(&self) -> usize {
        self.differences.iter().sum()
    }

    /// A plan, and whether it met each corner.
    pub fn count(&mut self, column: u8, met: Vec<bool>) {
        let column = usize::from(column);
        self.asked[column] += 1;
        for (counts, met) in self.met.iter_mut().zip(met) {
            counts[column] += usize::from(met);
        }
    }

    pub fn differ(
        &mut self,
        column: u8,
        what: &str,
        about: &str,
        sheet: &[u8],
        [right, said]: [&Result<Vec<u8>, u32>; 2],
    ) {
        if self.is_shown(column) {
            println!("difference: {what}; {about}");
            println!("{}", decoded(sheet, "Rust", right));
            println!("{}", decoded(sheet, "planner", said));
        }
    }

    /// Counts a difference, and says whether it is one of those shown.
    pub fn is_shown(&mut self, column: u8) -> bool {
        self.differences[usize::from(column)] += 1;
        self.differences() <= SHOWN
    }

    /// The columns that were asked at all.
    pub fn print(&self) {
        let asked: Vec<usize> = (0..COLUMNS).filter(|column| self.asked[*column] > 0).collect();
        let line = |name: &str, cells: &[String]| {
            let cells = asked.iter().map(|column| format!("{:>9}", cells[*column]));
            println!("  {name:42} {}", cells.collect::<String>());
        };
        let told = |counts: &[usize; COLUMNS]| counts.map(|count| count.to_string());
        let methods = METHODS.iter().map(u8::to_string);
        let heads: Vec<String> = methods.chain(["limiter".into(), "bill".into()]).collect();
        line("method", &heads);
        line("sheets or calls", &told(&self.asked));
        line("differences", &told(&self.differences));
        for ((name, _), counts) in self.corners.iter().zip(&self.met) {
            line(name, &told(counts));
        }
        println!("  {:42} {:>9}", "differences that rounded angles explain", self.explained);
        self.claims.print();
    }

    /// Whether a corner never occurred that has to, or a claim was never checked.
    pub fn missing(&self) -> bool {
        let lacks = |(counts, columns): (&[usize; COLUMNS], &[u8])| {
            columns.iter().any(|&column| counts[usize::from(column)] == 0)
        };
        let columns = self.corners.iter().map(|(_, columns)| *columns);
        self.met.iter().zip(columns).any(lacks) || self.claims.missing(METHODS)
    }
}
