//! `compare bench imports`: the importer and this harness's own, in one process on the same texts: of
//! up to 101 rows as they are published, and long ones with little to tell.

use std::process::ExitCode;

use crate::bench::{median, nanoseconds};
use crate::importer::imported;
use crate::planner;
use crate::random::Random;

const ROWS: [usize; 5] = [1, 11, 26, 51, 101];
const LONG: usize = 1_000_000;
/// Timed runs of a text, each side in turn, and how long one takes at least, in nanoseconds.
const RUNS: usize = 51;
const LEAST: f64 = 1_000_000.0;

pub fn run() -> ExitCode {
    println!("| text | bytes | importer, ns | a byte | harness, ns | importer / harness |");
    println!("|---|---|---|---|---|---|");
    for (name, text) in texts() {
        let right = imported(&text, usize::MAX).expect("a text of the form");
        let mut sheet = vec![0; right.len()];
        let import = |sheet: &mut [u8]| planner::import(&text, sheet) as usize;
        assert_eq!((import(&mut sheet), &sheet), (right.len(), &right), "the harness's sheet");
        let [importer, harness] = medians([&mut || import(&mut sheet), &mut || {
            imported(&text, right.len()).map_or(0, |sheet| sheet.len())
        }]);
        let (len, ratio) = (text.len(), importer / harness);
        let a_byte = importer / len as f64;
        println!("| {name} | {len} | {importer:.0} | {a_byte:.2} | {harness:.0} | {ratio:.2} |");
    }
    ExitCode::SUCCESS
}

fn medians(mut sides: [&mut dyn FnMut() -> usize; 2]) -> [f64; 2] {
    let repeats: Vec<usize> =
        sides.iter_mut().map(|side| 1 + (LEAST / nanoseconds(side)) as usize).collect();
    let mut runs = [const { Vec::new() }; 2];
    for _ in 0..RUNS {
        for ((times, side), &repeats) in runs.iter_mut().zip(&mut sides).zip(&repeats) {
            let all = nanoseconds(|| (0..repeats).map(|_| side()).sum());
            times.push(all / repeats as f64);
        }
    }
    runs.map(median)
}

fn texts() -> Vec<(String, Vec<u8>)> {
    let row = "0 1 2 3 4 5 6\n";
    let long = |piece: &str| piece.repeat(LONG / piece.len());
    let other = [
        ("a long name", format!("{}\n1 2\n{row}", long("C101 "))),
        ("headings", format!("C\n1 2\n{}{row}", long("CUST NO.  XCOORD.\n"))),
        ("empty lines", format!("C\n1 2\n{}{row}", long("\n"))),
        ("blanks between numbers", format!("C\n1{}2\n{row}", long(" \t"))),
        ("a number of many digits", format!("C\n{} 2\n{row}", long("9876543210"))),
        ("many leading zeros", format!("C\n1 {}2\n{row}", long("0"))),
    ];
    let rows = ROWS.map(|rows| (format!("rows: {rows}"), published(rows)));
    let other = other.map(|(name, text)| (name.into(), text.into_bytes()));
    rows.into_iter().chain(other).collect()
}

/// As the files are laid out.
fn published(rows: usize) -> Vec<u8> {
    let mut random = Random::new(1);
    let mut text = String::from(
        "C101\n\nVEHICLE\nNUMBER     CAPACITY\n  25         200\n\nCUSTOMER\n\
         CUST NO.  XCOORD.   YCOORD.    DEMAND   READY TIME  DUE DATE   SERVICE   TIME\n \n",
    );
    for k in 0..rows {
        let [x, y, demand, ready] = [100, 100, 50, 1000].map(|most| random.below(most));
        let due = ready + 60;
        text += &format!("{k:5}{x:8}{y:11}{demand:11}{ready:11}{due:11}{:11}   \n", 90);
    }
    text.into_bytes()
}
