//! `compare listings`: the listing program itself, run on sheets good and bad, against the listing of
//! the Rust's plan.

use std::io::{self, Write};
use std::process::{Command, ExitCode, Stdio};

use crate::flavours::drawn;
use crate::generate::straight;
use crate::listing::listing;
use crate::plans::hexadecimal;
use crate::refusal::OFFERED;
use crate::sheet::{Header, Row, Sheet, Vehicle, INSERTION};
use crate::stream::Stream;

/// The most rows that are listed, and vehicles of a sheet.
const MOST_ROWS: usize = 48;
const MOST_VEHICLES: u32 = 16;

/// What a listing shows, and each of these has to be met.
const KINDS: [&str; 12] = [
    "refused 1",
    "refused 2",
    "refused 3",
    "refused 4",
    "refused 5",
    "refused 6",
    "refused 7",
    "refused 8",
    "listed",
    "stops set aside",
    "48 rows",
    "longer than the longest sheet listed",
];

/// `COUNT` sheets of the comparison of plans, as many calls of that of refusals, and the sheets at the
/// ends of what is listed.
pub fn run(program: &str, count: usize, seed: u64) -> ExitCode {
    println!("listings: seed {seed}");
    let plans = (0..count).map(|number| drawn(OFFERED, seed, number).sheet);
    let calls = Stream::new(seed).take(count).map(|case| case.sheet);
    let mut met = [0; KINDS.len()];
    let (mut sheets, mut differences) = (0, 0);
    for sheet in ends().into_iter().chain(plans).chain(calls) {
        let want = listing(&sheet);
        kinds(&sheet, &want).into_iter().for_each(|kind| met[kind] += 1);
        sheets += 1;
        match printed(program, &sheet) {
            Ok(got) if got == want.as_bytes() => {}
            Ok(got) => {
                differences += 1;
                println!("sheet {}", hexadecimal(&sheet));
                println!("want {want}got {}", String::from_utf8_lossy(&got));
            }
            Err(error) => {
                eprintln!("compare: {program}: {error}");
                return ExitCode::from(2);
            }
        }
    }
    KINDS.iter().zip(met).for_each(|(kind, met)| println!("  {kind:40} {met:8}"));
    let missing = met.contains(&0);
    println!("listings: {sheets} sheets, {differences} differences");
    ExitCode::from(u8::from(missing || differences > 0))
}

fn kinds(sheet: &[u8], text: &str) -> Vec<usize> {
    let refused =
        text.strip_prefix("refused ").and_then(|rest| rest.trim_end().parse::<usize>().ok());
    let listed = refused.is_none();
    let aside = text.lines().next().is_some_and(|line| !line.ends_with(" aside 0"));
    let tests = [
        (8, listed),
        (9, listed && aside),
        (10, listed && Header::of(sheet).rows == MOST_ROWS),
        (11, sheet.len() > most_bytes()),
    ];
    let held = tests.into_iter().filter(|(_, holds)| *holds).map(|(kind, _)| kind);
    refused.map(|number| number - 1).into_iter().chain(held).collect()
}

/// The length of the longest sheet that is listed.
fn most_bytes() -> usize {
    largest(MOST_ROWS).encode().len()
}

/// The sheets at the ends of what is listed, as they are and one byte longer; no byte; and a long
/// input whose header is a short sheet's.
fn ends() -> Vec<Vec<u8>> {
    let [most, over] = [MOST_ROWS, MOST_ROWS + 1].map(|rows| largest(rows).encode());
    let longer = |sheet: &[u8], more| [sheet, &vec![0; more][..]].concat();
    let short = largest(2).encode();
    vec![vec![], longer(&most, 1), longer(&most, 70_000), longer(&short, 70_000), most, over]
}

/// As many rows as asked for and vehicles as there may be, of which one is enough, and a time table.
fn largest(count: usize) -> Sheet {
    let row =
        |k| Row { x: k as i32, y: (k * k % 7) as i32, demand: i32::from(k > 0), ..Row::default() };
    let rows: Vec<Row> = (0..count).map(row).collect();
    let leg = |k: usize| straight(&rows[k / count], &rows[k % count]).round();
    let distances: Vec<f64> = (0..count * count).map(leg).collect();
    let vehicle = |id| Vehicle { id, capacity: 5, cost_per_distance: 1.0, ..Vehicle::default() };
    let vehicles = (1..=MOST_VEHICLES).map(vehicle).collect();
    Sheet { method: INSERTION, times: Some(distances.clone()), rows, vehicles, distances }
}

/// What the program writes for a sheet on its standard input.
fn printed(program: &str, sheet: &[u8]) -> io::Result<Vec<u8>> {
    let mut child = Command::new(program).stdin(Stdio::piped()).stdout(Stdio::piped()).spawn()?;
    let mut input = child.stdin.take().expect("a pipe");
    // It stops reading at the end of the longest sheet, so the pipe may break.
    match input.write_all(sheet) {
        Err(error) if error.kind() != io::ErrorKind::BrokenPipe => return Err(error),
        _ => drop(input),
    }
    Ok(child.wait_with_output()?.stdout)
}
