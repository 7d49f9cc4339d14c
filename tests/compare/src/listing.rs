//! The listing of a sheet's plan (document 01, under "Sheet A and its relatives").

use std::fmt::Write;

use crate::plan::{chains, round_at, stop_at};
use crate::reference::plan;
use crate::refusal::METHODS;
use crate::sheet::{field, Header, Sheet};

const MOST_ROWS: usize = 48;

pub fn listing(sheet: &[u8]) -> String {
    match plan(METHODS, sheet) {
        Err(1) => "refused 1\n".into(),
        _ if Header::of(sheet).rows > MOST_ROWS => "refused 2\n".into(),
        Err(number) => format!("refused {number}\n"),
        Ok(plan) => lines(&plan, &Sheet::decode(sheet)).expect("the Rust's plan, in memory"),
    }
}

/// `None` for chains that are no plan's.
pub fn lines(plan: &[u8], sheet: &Sheet) -> Option<String> {
    let rows = sheet.rows.len();
    let chains = chains(plan, sheet)?;
    let mut text = String::new();
    writeln!(text, "rounds {} aside {}", link(plan, 0), link(plan, 2)).ok()?;
    for (k, (id, stops)) in chains.rounds.iter().enumerate() {
        let at = round_at(k);
        let (first, load, rest) = (link(plan, at + 8), load(plan, at + 4), link(plan, at + 10));
        write!(text, "round {id} first {first} load {load} rest {rest} ").ok()?;
        writeln!(text, "{:016X} {:016X}", word(plan, at + 16), word(plan, at + 24)).ok()?;
        stops.iter().try_for_each(|&stop| stop_line(&mut text, plan, rows, stop))?;
    }
    chains.aside.iter().try_for_each(|&stop| stop_line(&mut text, plan, rows, stop))?;
    Some(text)
}

fn stop_line(text: &mut String, plan: &[u8], rows: usize, stop: usize) -> Option<()> {
    let at = stop_at(rows, stop);
    write!(text, "stop {stop} next {} load {} ", link(plan, at), load(plan, at + 4)).ok()?;
    writeln!(text, "{:016X} {:016X}", word(plan, at + 8), word(plan, at + 16)).ok()
}

fn link(plan: &[u8], at: usize) -> u16 {
    u16::from_le_bytes(field(plan, at))
}

fn load(plan: &[u8], at: usize) -> i32 {
    i32::from_le_bytes(field(plan, at))
}

fn word(plan: &[u8], at: usize) -> u64 {
    u64::from_le_bytes(field(plan, at))
}
