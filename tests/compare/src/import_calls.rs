//! Calls of the importer: texts that are right, that have faults of which the answer is known, and
//! that are damaged otherwise.
//!
//! A call depends on the seed and its number alone, so that each can be drawn again.

use crate::import_draft::{self, Draft, Kinds};
use crate::import_faults::{Fault, Stage, FAULTS, LACKS};
use crate::import_layout::{self, laid, text};
use crate::random::Random;
use crate::sheet::{Header, INSERTION};

/// The refusals in their order.
const ORDER: [u32; 5] = [11, 12, 5, 7, 4];

/// Two refusals of one text: the first has to answer.
const PAIRS: [(&str, [u32; 2]); 10] = [
    ("11 and 12", [11, 12]),
    ("11 and 5", [11, 5]),
    ("11 and 7", [11, 7]),
    ("11 and 4", [11, 4]),
    ("12 and 5", [12, 5]),
    ("12 and 7", [12, 7]),
    ("12 and 4", [12, 4]),
    ("5 and 7", [5, 7]),
    ("5 and 4", [5, 4]),
    ("7 and 4", [7, 4]),
];
const ALL: &str = "all refusals";

/// Buffers that are long enough, by what they have more.
const ROOMS: [(&str, usize); 4] =
    [("a buffer just long enough", 0), ("1 byte more", 1), ("8 more", 8), ("1000 more", 1000)];

/// Other damage, of which the answer is not known beforehand.
const DAMAGES: [&str; 4] = ["bytes damaged", "cut", "a piece twice", "noise"];
/// Bytes that mean something to an importer, or nearly.
const BYTES: &[u8] = b"0123456789 \t\r\n--+./:x\0\x0b\x80\xff";

/// One right text in so many has many rows.
const MANY: usize = 100;

/// One call of the importer.
pub struct Call {
    pub text: Vec<u8>,
    pub room: usize,
    /// What it shows.
    pub met: Kinds,
    /// The answer that its faults ask for, 0 where it has none; `None` after other damage.
    pub wanted: Option<u32>,
}

/// All kinds that calls show.
pub fn kinds() -> Vec<&'static str> {
    let right = [&import_draft::ROWS[..], &import_draft::VALUES, &import_draft::WRITTEN];
    let laid = [&import_layout::GAPS[..], &import_layout::ENDS, &import_layout::LASTS];
    let plain = right.into_iter().chain(laid).chain([&import_layout::BLANKS[..], &DAMAGES]);
    let mut kinds = [plain.collect::<Vec<_>>().concat(), import_draft::ENDS.concat()].concat();
    kinds.extend(import_draft::VEHICLES.map(|(name, _)| name));
    kinds.extend(import_layout::NAMES.map(|(name, _)| name));
    kinds.extend(import_layout::SKIPPED.map(|(name, _)| name));
    kinds.extend(ROOMS.map(|(name, _)| name));
    kinds.extend(PAIRS.map(|(name, _)| name));
    kinds.extend(FAULTS.iter().chain(LACKS).map(|fault| fault.name));
    kinds.push(ALL);
    kinds
}

pub fn call(seed: u64, number: usize) -> Call {
    let mut random = Random::numbered(seed, number);
    match random.below(20) {
        0..9 => right(&mut random),
        9..16 => faulty(&mut random),
        16 => twice_faulty(&mut random),
        _ => damaged(&mut random),
    }
}

fn right(random: &mut Random) -> Call {
    let many = random.one_in(MANY);
    let (call, _) = made(&[], many, random);
    Call { wanted: Some(0), ..call }
}

/// One fault, and nothing else told of the text.
fn faulty(random: &mut Random) -> Call {
    let which = random.below(FAULTS.len() + LACKS.len());
    let fault = FAULTS.iter().chain(LACKS).nth(which).expect("a fault");
    with_faults(&[fault], fault.name, random)
}

fn twice_faulty(random: &mut Random) -> Call {
    let mut any = |refusal: &u32| {
        let of: Vec<&Fault> = FAULTS.iter().filter(|fault| fault.refusal == *refusal).collect();
        random.pick(&of)
    };
    let faults: Vec<&Fault> = ORDER.iter().map(&mut any).collect();
    let (name, pair) = match random.below(PAIRS.len() + 1) {
        which if which < PAIRS.len() => PAIRS[which],
        _ => return with_faults(&faults, ALL, random),
    };
    let faults: Vec<&Fault> =
        faults.into_iter().filter(|fault| pair.contains(&fault.refusal)).collect();
    with_faults(&faults, name, random)
}

fn with_faults(faults: &[&Fault], kind: &'static str, random: &mut Random) -> Call {
    let (call, _) = made(faults, false, random);
    let first = ORDER.into_iter().find(|of| faults.iter().any(|fault| fault.refusal == *of));
    Call { met: vec![kind], wanted: first, ..call }
}

/// A text with these faults: those of the words first, and of these that of the form last, since it
/// may leave no row as it was. Also the length of its sheet.
fn made(faults: &[&Fault], many: bool, random: &mut Random) -> (Call, usize) {
    let mut met = Kinds::new();
    let mut draft = Draft::new(many, random, &mut met);
    let of = |refusal: u32| faults.iter().filter(move |fault| fault.refusal == refusal);
    for fault in [12, 5, 7, 11].into_iter().flat_map(of) {
        if let Stage::Words(change) = fault.at {
            change(&mut draft, random);
        }
    }
    let rows = draft.rows.len();
    let mut lines = laid(&draft, random, &mut met);
    for fault in faults {
        if let Stage::Lines(change) = fault.at {
            change(&mut lines, random);
        }
    }
    let len = Header { rows, vehicles: 1, method: INSERTION, time_table: 0 }.sheet_len();
    let short = faults.iter().find_map(|fault| match fault.at {
        Stage::Room(short) => Some(short(len)),
        _ => None,
    });
    let (name, more) = random.pick(&ROOMS);
    met.push(name);
    let room = short.unwrap_or(len + more);
    (Call { text: text(&lines), room, met, wanted: None }, len)
}

fn damaged(random: &mut Random) -> Call {
    let (mut call, len) = made(&[], false, random);
    let damage = random.below(DAMAGES.len());
    match damage {
        0 => (0..1 + random.below(3)).for_each(|_| damage_byte(&mut call.text, random)),
        1 => call.text.truncate(random.below(call.text.len() + 1)),
        2 => {
            let [one, other] = [(); 2].map(|()| random.below(call.text.len()));
            let piece = call.text[one.min(other)..one.max(other)].to_vec();
            let at = random.below(call.text.len());
            call.text.splice(at..at, piece);
        }
        _ => {
            let noise = (0..random.below(60)).map(|_| random.pick(BYTES)).collect::<Vec<u8>>();
            let start = random.pick(&[&b""[..], b"\n", b"C\n1 2\n", b"C\n1 2\n0 0 0 0 0 "]);
            call.text = [start, &noise].concat();
        }
    }
    call.room = random.pick(&[len, len, len, len - 1, 144, 1000]);
    Call { met: vec![DAMAGES[damage]], wanted: None, ..call }
}

/// A byte changed, put in or taken out.
fn damage_byte(text: &mut Vec<u8>, random: &mut Random) {
    if text.is_empty() {
        return;
    }
    let at = random.below(text.len());
    match random.below(4) {
        0 => text[at] = random.pick(BYTES),
        1 => text[at] ^= 1 << random.below(8),
        2 => text.insert(at, random.pick(BYTES)),
        _ => _ = text.remove(at),
    }
}
