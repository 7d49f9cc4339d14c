//! What can be wrong with a text to be imported, each with its refusal.

use crate::import_draft::{Draft, Word, DUE, RANGES, READY};
use crate::import_layout::{Line, CR_LF, LF};
use crate::random::Random;

pub struct Fault {
    pub name: &'static str,
    pub refusal: u32,
    pub at: Stage,
}

/// What is changed: the words, the lines that they are laid out in, or the buffer's length, which is
/// given as the sheet's.
#[derive(Clone, Copy)]
pub enum Stage {
    Words(fn(&mut Draft, &mut Random)),
    Lines(fn(&mut Vec<Line>, &mut Random)),
    Room(fn(usize) -> usize),
}
use Stage::{Lines, Room, Words};

const fn fault(refusal: u32, name: &'static str, at: Stage) -> Fault {
    Fault { name, refusal, at }
}

pub const FAULTS: &[Fault] = &[
    fault(11, "--1", Words(|d, r| respell(d, r, |word| [b"--", word].concat()))),
    fault(11, "+1", Words(|d, r| respell(d, r, |word| [b"+", word].concat()))),
    fault(11, "- 1", Words(|d, r| respell(d, r, |word| [b"- ", word].concat()))),
    fault(11, "-\\t1", Words(|d, r| respell(d, r, |word| [b"-\t", word].concat()))),
    fault(11, "1-", Words(|d, r| respell(d, r, |word| [word, b"-"].concat()))),
    fault(11, "1-1", Words(|d, r| respell(d, r, |word| [word, b"-1"].concat()))),
    fault(11, "1.0", Words(|d, r| respell(d, r, |word| [word, b".0"].concat()))),
    fault(11, "1e0", Words(|d, r| respell(d, r, |word| [word, b"e0"].concat()))),
    fault(11, "1,", Words(|d, r| respell(d, r, |word| [word, b","].concat()))),
    fault(11, "1/", Words(|d, r| respell(d, r, |word| [word, b"/"].concat()))),
    fault(11, "1:", Words(|d, r| respell(d, r, |word| [word, b":"].concat()))),
    fault(11, "NUL after 1", Words(|d, r| respell(d, r, |word| [word, b"\0"].concat()))),
    fault(11, "NUL before 1", Words(|d, r| respell(d, r, |word| [b"\0", word].concat()))),
    fault(11, "a byte above 127 after 1", Words(|d, r| respell(d, r, above_ascii))),
    fault(11, "a vertical tab after 1", Words(|d, r| respell(d, r, |w| [w, b"\x0b"].concat()))),
    fault(11, "a form feed before 1", Words(|d, r| respell(d, r, |w| [b"\x0c", w].concat()))),
    fault(11, "a CR after 1", Words(|d, r| respell(d, r, |w| [w, b"\r "].concat()))),
    fault(11, "a CR before 1", Words(|d, r| respell(d, r, |w| [b"\r", w].concat()))),
    fault(11, "a digit's bits with the eighth set", Words(|d, r| respell(d, r, high_digit))),
    fault(11, "a minus beside the numbers", Words(|d, r| line(d, r).push(b"-".into()))),
    fault(11, "a word before the numbers", Words(|d, r| line(d, r).insert(0, b"row".into()))),
    fault(11, "8 numbers in a row", Words(|d, r| row(d, r).push(b"0".into()))),
    fault(11, "14 numbers in a row", Words(|d, r| twice(row(d, r)))),
    fault(11, "263 numbers in a row", Words(|d, r| row(d, r).resize(256 + 7, b"0".into()))),
    fault(11, "3 numbers for the vehicle", Words(|d, _| d.vehicle.push(b"0".into()))),
    fault(11, "4 numbers for the vehicle", Words(|d, _| twice(&mut d.vehicle))),
    fault(11, "258 numbers for the vehicle", Words(|d, _| d.vehicle.resize(256 + 2, b"0".into()))),
    fault(11, "the vehicle's line again", Words(|d, r| add_row(d, r, d.vehicle.clone()))),
    fault(11, "rows from 1", Words(|d, _| count_from_1(d))),
    fault(11, "a row's number skipped", Words(|d, r| renumber(d, r, |count| count + 1))),
    fault(11, "a row's number repeated", Words(|d, r| renumber(d, r, |count| count - 1))),
    fault(11, "a row's number below 0", Words(|d, r| renumber(d, r, |count| -count.max(1)))),
    fault(11, "a row's number 2^8 too high", Words(|d, r| renumber(d, r, |n| n + (1 << 8)))),
    fault(11, "a row's number 2^16 too high", Words(|d, r| renumber(d, r, |n| n + (1 << 16)))),
    fault(11, "a row's number 2^31 too high", Words(|d, r| renumber(d, r, |n| n + (1 << 31)))),
    fault(11, "a row's number 2^32 too high", Words(|d, r| renumber(d, r, |n| n + (1 << 32)))),
    fault(11, "a row's number 2^63 too high", Words(|d, r| renumber(d, r, |n| n + (1 << 63)))),
    fault(11, "a row's number 2^64 too high", Words(|d, r| renumber(d, r, |n| n + (1 << 64)))),
    fault(11, "a row's number 2^96 too high", Words(|d, r| renumber(d, r, |n| n + (1 << 96)))),
    fault(11, "a row's number of 60 digits more", Words(|d, r| lengthen(d, r.below(d.rows.len())))),
    fault(11, "such a number in the last row", Words(|d, _| lengthen(d, d.rows.len() - 1))),
    fault(11, "a heading with a digit", Lines(heading)),
    fault(11, "a CR for a line's end", Lines(|lines, r| part(lines, r, b"\r"))),
    fault(11, "a blank for a line's end", Lines(|lines, r| part(lines, r, b" "))),
    fault(11, "LF CR for a line's end", Lines(|lines, r| part(lines, r, b"\n\r"))),
    fault(11, "CR CR LF after numbers", Lines(|lines, r| part(lines, r, b"\r\r\n"))),
    fault(11, "a CR after all, told", Lines(|lines, _| end_in_cr(lines))),
    fault(12, "102 rows", Words(|d, r| fill(d, r, 102))),
    fault(12, "103 rows", Words(|d, r| fill(d, r, 103))),
    fault(12, "257 rows", Words(|d, r| fill(d, r, 257))),
    fault(5, "x below", Words(|d, r| beyond(d, r, 1, 0))),
    fault(5, "x above", Words(|d, r| beyond(d, r, 1, 1))),
    fault(5, "x huge", Words(|d, r| huge(d, r, 1))),
    fault(5, "y below", Words(|d, r| beyond(d, r, 2, 0))),
    fault(5, "y above", Words(|d, r| beyond(d, r, 2, 1))),
    fault(5, "y huge", Words(|d, r| huge(d, r, 2))),
    fault(5, "demand below", Words(|d, r| beyond(d, r, 3, 0))),
    fault(5, "demand above", Words(|d, r| beyond(d, r, 3, 1))),
    fault(5, "demand huge", Words(|d, r| huge(d, r, 3))),
    fault(5, "ready below", Words(|d, r| beyond(d, r, READY, 0))),
    fault(5, "ready above", Words(|d, r| beyond(d, r, READY, 1))),
    fault(5, "ready huge", Words(|d, r| huge(d, r, READY))),
    fault(5, "due below", Words(|d, r| late(d, r, "0", "-1"))),
    fault(5, "due above", Words(|d, r| beyond(d, r, DUE, 1))),
    fault(5, "due huge", Words(|d, r| huge(d, r, DUE))),
    fault(5, "service below", Words(|d, r| beyond(d, r, 6, 0))),
    fault(5, "service above", Words(|d, r| beyond(d, r, 6, 1))),
    fault(5, "service huge", Words(|d, r| huge(d, r, 6))),
    fault(5, "ready one after due", Words(|d, r| late(d, r, "34", "33"))),
    fault(5, "ready after a due of fewer digits", Words(|d, r| late(d, r, "100", "99"))),
    fault(5, "ready at its most, due at its least", Words(|d, r| late(d, r, "1000000000", "0"))),
    fault(5, "both of them huge", Words(|d, r| late(d, r, OVER_64, OVER_64))),
    fault(7, "capacity below", Words(|d, _| d.vehicle[1] = b"-1".into())),
    fault(7, "capacity above", Words(|d, _| d.vehicle[1] = b"2147483648".into())),
    fault(7, "capacity huge", Words(|d, r| d.vehicle[1] = number(r))),
    fault(4, "a buffer one byte short", Room(|len| len - 1)),
    fault(4, "a buffer 8 bytes short", Room(|len| len - 8)),
    fault(4, "a buffer of the header alone", Room(|_| 16)),
    fault(4, "no buffer", Room(|_| 0)),
];

/// Those that may take another one away, and stand alone.
pub const LACKS: &[Fault] = &[
    fault(11, "1-1 for two numbers", Words(glue)),
    fault(11, "6 numbers in a row", Words(|d, r| _ = row(d, r).pop())),
    fault(11, "1 number in a row", Words(|d, r| row(d, r).truncate(1))),
    fault(11, "1 number for the vehicle", Words(|d, _| _ = d.vehicle.pop())),
    fault(11, "a minus for a number", Words(|d, r| respell(d, r, |_| b"-".into()))),
    fault(11, "a word for a number", Words(|d, r| respell(d, r, |_| b"none".into()))),
    fault(11, "no vehicle's line", Words(|d, _| d.vehicle.clear())),
    fault(11, "no row", Words(|d, _| d.rows.clear())),
    fault(11, "no name", Lines(|lines, _| _ = lines.drain(..first_told(lines)))),
    fault(11, "the name alone", Lines(|lines, _| name_alone(lines))),
    fault(11, "no byte", Lines(|lines, _| lines.clear())),
];

/// Numbers that are in no range; some are small ones where they are read in 32, 64 or 128 bits.
const HUGE: [&str; 22] = [
    "2147483648",
    "2147483649",
    "4294967295",
    "4294967296",
    "4294967301",
    "999999999999999999",
    "1000000000000000000",
    "1000000000000000001",
    "9223372036854775807",
    "9223372036854775808",
    "9223372036854775813",
    "9999999999999999999",
    "10000000000000000000",
    "10000000000000000001",
    "18446744073709551615",
    OVER_64,
    "18446744073709551621",
    "184467440737095516160",
    "340282366920938463463374607431768211456",
    "340282366920938463463374607431768211461",
    "1000000000000000000000000000000000000000000000000000000000005",
    "99999999999999999999999999999999999999999999999999",
];
const OVER_64: &str = "18446744073709551616";

fn above_ascii(word: &[u8]) -> Word {
    [word, b"\xa0"].concat()
}

/// The first byte as its digit's, or its minus, in bytes above 127.
fn high_digit(word: &[u8]) -> Word {
    [&[word[0] | 0x80], word].concat()
}

/// A huge number, its sign too by chance.
fn number(random: &mut Random) -> Word {
    [random.pick(&["", "-"]), random.pick(&HUGE)].concat().into()
}

fn row<'a>(draft: &'a mut Draft, random: &mut Random) -> &'a mut Vec<Word> {
    let rows = draft.rows.len();
    &mut draft.rows[random.below(rows)]
}

fn line<'a>(draft: &'a mut Draft, random: &mut Random) -> &'a mut Vec<Word> {
    match random.below(4) {
        0 => &mut draft.vehicle,
        _ => row(draft, random),
    }
}

fn respell(draft: &mut Draft, random: &mut Random, to: fn(&[u8]) -> Word) {
    let line = line(draft, random);
    let word = random.below(line.len());
    line[word] = to(&line[word]);
}

/// A coordinate below 0 right after another.
fn glue(draft: &mut Draft, random: &mut Random) {
    let row = row(draft, random);
    row[1].extend(b"-1");
    row.remove(2);
}

fn twice(line: &mut Vec<Word>) {
    line.extend_from_within(..);
}

fn add_row(draft: &mut Draft, random: &mut Random, row: Vec<Word>) {
    draft.rows.insert(random.below(draft.rows.len() + 1), row);
}

fn count_from_1(draft: &mut Draft) {
    for (row, count) in draft.rows.iter_mut().zip(1..) {
        row[0] = count.to_string().into();
    }
}

fn renumber(draft: &mut Draft, random: &mut Random, to: fn(i128) -> i128) {
    let row = random.below(draft.rows.len());
    draft.rows[row][0] = to(row as i128).to_string().into();
}

fn lengthen(draft: &mut Draft, row: usize) {
    draft.rows[row][0] = format!("1{row:060}").into();
}

fn fill(draft: &mut Draft, random: &mut Random, rows: usize) {
    while draft.rows.len() < rows {
        draft.add_row(random);
    }
}

/// A number one step beyond an end of its range.
fn beyond(draft: &mut Draft, random: &mut Random, column: usize, end: usize) {
    let (least, most) = RANGES[column];
    row(draft, random)[column] = [least - 1, most + 1][end].to_string().into();
}

fn huge(draft: &mut Draft, random: &mut Random, column: usize) {
    row(draft, random)[column] = number(random);
}

fn late(draft: &mut Draft, random: &mut Random, ready: &str, due: &str) {
    let row = row(draft, random);
    (row[READY], row[DUE]) = (ready.into(), due.into());
}

fn first_told(lines: &[Line]) -> usize {
    lines.iter().position(|line| line.told).unwrap_or(lines.len())
}

/// A line with a digit and a word, anywhere but first.
fn heading(lines: &mut Vec<Line>, random: &mut Random) {
    let at = 1 + random.below(lines.len());
    lines.last_mut().expect("a name's line").end = LF;
    let body = random.pick(&[&b"VEHICLE 1"[..], b"2.", b"(1)", b"R1", b"7 -", b"x\r0"]);
    lines.insert(at, Line { body: body.into(), end: CR_LF, told: false });
}

/// Another end of a line of numbers that the next one follows.
fn part(lines: &mut Vec<Line>, random: &mut Random, end: &'static [u8]) {
    let skipped = lines.split_off(1);
    lines.extend(skipped.into_iter().filter(|line| line.told));
    let last = lines.len() - 1;
    lines[1 + random.below(last - 1)].end = end;
}

/// The last line is the last of numbers.
fn end_in_cr(lines: &mut Vec<Line>) {
    while lines.pop_if(|line| !line.told).is_some() {}
    lines.last_mut().expect("a line of numbers").end = b"\r";
}

fn name_alone(lines: &mut Vec<Line>) {
    lines.truncate(1);
    lines[0].end = b"";
}
