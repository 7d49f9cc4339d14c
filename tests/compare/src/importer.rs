//! The importer told again in the words of document 02, request Three: lines split into words, and
//! words read as numbers of any length.

use std::str;

use crate::generate::straight;
use crate::refusal::{MOST_COORDINATE, MOST_DEMAND, MOST_FIGURE, MOST_ROWS};
use crate::sheet::{Row, Sheet, Vehicle, DEPOT, INSERTION, WINDOW};

/// The numbers of a row's line.
pub const COLUMNS: usize = 7;
/// A number of more digits than so many is told as this one: it is in no range, and no row's.
const MOST_DIGITS: usize = 30;
const HUGE: i128 = 10i128.pow(MOST_DIGITS as u32);

/// What a text of the right form says.
struct Form {
    capacity: i128,
    rows: Vec<[i128; COLUMNS]>,
}

/// The sheet of a text, for a buffer of `room` bytes; or a refusal.
pub fn imported(text: &[u8], room: usize) -> Result<Vec<u8>, u32> {
    let form = Form::of(text).ok_or(11u32)?;
    if form.rows.len() > MOST_ROWS {
        return Err(12);
    }
    let rows = form.rows.iter().map(row).collect::<Option<Vec<Row>>>().ok_or(5u32)?;
    let capacity = ranged(form.capacity, 0, i32::MAX).ok_or(7u32)?;
    let sheet = sheet(rows, capacity).encode();
    if room < sheet.len() {
        return Err(4);
    }
    Ok(sheet)
}

/// The lines without their ends. What follows the last LF is a line too, and keeps its CR.
fn lines(text: &[u8]) -> Vec<&[u8]> {
    let mut lines: Vec<&[u8]> = text.split(|&byte| byte == b'\n').collect();
    let last = lines.pop();
    lines.iter_mut().for_each(|line| *line = line.strip_suffix(b"\r").unwrap_or(line));
    lines.into_iter().chain(last).collect()
}

fn numbers(line: &[u8]) -> Option<Vec<i128>> {
    let words = line.split(|byte| b" \t".contains(byte)).filter(|word| !word.is_empty());
    words.map(number).collect()
}

fn number(word: &[u8]) -> Option<i128> {
    let digits = word.strip_prefix(b"-").unwrap_or(word);
    if digits.is_empty() || !digits.iter().all(u8::is_ascii_digit) {
        return None;
    }
    let figures = str::from_utf8(digits).expect("digits").trim_start_matches('0');
    let value = match figures.len() {
        0 => 0,
        1..=MOST_DIGITS => figures.parse().expect("a number of few digits"),
        _ => HUGE,
    };
    Some(if digits.len() < word.len() { -value } else { value })
}

impl Form {
    fn of(text: &[u8]) -> Option<Form> {
        let lines = lines(text).into_iter().skip(1);
        let told = lines.filter(|line| line.iter().any(u8::is_ascii_digit));
        let told: Vec<Vec<i128>> = told.map(numbers).collect::<Option<_>>()?;
        let (vehicle, rows) = told.split_first()?;
        let &[_, capacity] = &vehicle[..] else { return None };
        let rows = rows.iter().map(|row| row[..].try_into().ok());
        let rows: Vec<[i128; COLUMNS]> = rows.collect::<Option<_>>()?;
        let counted = rows.iter().zip(0..).all(|(row, count)| row[0] == count);
        (counted && !rows.is_empty()).then_some(Form { capacity, rows })
    }
}

fn ranged(number: i128, least: i32, most: i32) -> Option<i32> {
    i32::try_from(number).ok().filter(|number| (least..=most).contains(number))
}

/// All but the marks, which go by the row's place.
fn row(&[_, x, y, demand, ready, due, service]: &[i128; COLUMNS]) -> Option<Row> {
    let coordinate = |number| ranged(number, -MOST_COORDINATE, MOST_COORDINATE);
    let figure = |number| ranged(number, 0, MOST_FIGURE as i32).map(f64::from);
    let row = Row {
        x: coordinate(x)?,
        y: coordinate(y)?,
        demand: ranged(demand, 0, MOST_DEMAND)?,
        ready: figure(ready)?,
        due: figure(due)?,
        service: figure(service)?,
        ..Row::default()
    };
    (ready <= due).then_some(row)
}

fn sheet(mut rows: Vec<Row>, capacity: i32) -> Sheet {
    rows.iter_mut().for_each(|row| row.marks = WINDOW);
    rows[0].marks |= DEPOT;
    let legs = rows.iter().flat_map(|from| rows.iter().map(|to| straight(from, to)));
    Sheet {
        method: INSERTION,
        distances: legs.collect(),
        vehicles: vec![Vehicle { capacity, cost_per_distance: 1.0, ..Vehicle::default() }],
        times: None,
        rows,
    }
}
