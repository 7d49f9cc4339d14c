//! The lines of a text to be imported: how the words stand in them, how they end, and what is
//! skipped.

use crate::import_draft::{Draft, Kinds, Word};
use crate::random::Random;

#[derive(Clone)]
pub struct Line {
    pub body: Vec<u8>,
    pub end: &'static [u8],
    /// Whether it is of the draft's words.
    pub told: bool,
}

pub const LF: &[u8] = b"\n";
pub const CR_LF: &[u8] = b"\r\n";

pub const NAMES: [(&str, &[u8]); 10] = [
    ("a name without a digit", b"Solomon"),
    ("a name with digits", b"C101"),
    ("a name like a vehicle's line", b"25 200"),
    ("a name like a row", b"0 0 0 0 0 0 0"),
    ("a name with what is no number", b"--5 1.0 7-"),
    ("an empty name", b""),
    ("a name of blanks", b" \t"),
    ("a name with NUL and bytes above 127", b"\0\x80 7 \xff"),
    ("a name with a CR", b"C\r101"),
    ("a name before CR CR LF", b"C101\r"),
];

pub const SKIPPED: [(&str, &[u8]); 10] = [
    ("an empty line", b""),
    ("a line of blanks", b" \t "),
    ("a heading of one word", b"VEHICLE"),
    ("a heading of several", b"CUST NO.  XCOORD.   YCOORD.    DEMAND"),
    ("a line of a minus", b"-"),
    ("a line of signs", b"+ - -- . ,"),
    ("a line of the digits' neighbours", b"/:"),
    ("a line with NUL and bytes above 127", b"\0 \x80\xb2\xff"),
    ("a skipped line with a CR", b"NUMBER\rCAPACITY"),
    ("a skipped line before CR CR LF", b"CUSTOMER\r"),
];

/// Where lines are skipped.
pub const GAPS: [&str; 4] = [
    "skipped before the vehicle's line",
    "skipped before the rows",
    "skipped between rows",
    "skipped after the rows",
];

pub const ENDS: [&str; 3] = ["every line ends in LF", "every line ends in CR LF", "both ends"];

/// What the last line is.
pub const LASTS: [&str; 4] = [
    "an end after all",
    "no end after the last row",
    "a CR after all, skipped",
    "blanks after all",
];

pub const BLANKS: [&str; 5] =
    ["a space between", "a tab between", "several blanks between", "blanks before", "blanks after"];

/// How words are parted and surrounded.
struct Blanks {
    between: usize,
    before: bool,
    after: bool,
}

pub fn laid(draft: &Draft, random: &mut Random, met: &mut Kinds) -> Vec<Line> {
    let (kind, name) = random.pick(&NAMES);
    met.push(kind);
    let mut lines = vec![Line { body: name.into(), end: LF, told: false }];
    let blanks = Blanks::draw(random, met);
    let often = random.pick(&[0, 2, 8]);
    for (k, words) in [&draft.vehicle].into_iter().chain(&draft.rows).enumerate() {
        skip_lines(&mut lines, often, GAPS[k.min(2)], random, met);
        lines.push(Line { body: blanks.lay(words, random), end: LF, told: true });
    }
    skip_lines(&mut lines, often, GAPS[3], random, met);
    end_lines(&mut lines, random, met);
    end_last(&mut lines, random, met);
    lines
}

impl Blanks {
    fn draw(random: &mut Random, met: &mut Kinds) -> Blanks {
        let between = random.below(3);
        let [before, after] = [random.one_in(2), random.one_in(2)];
        met.push(BLANKS[between]);
        met.extend(before.then_some(BLANKS[3]));
        met.extend(after.then_some(BLANKS[4]));
        Blanks { between, before, after }
    }

    fn lay(&self, words: &[Word], random: &mut Random) -> Vec<u8> {
        let mut some =
            |least| -> Word { (0..least + random.below(3)).map(|_| random.pick(b" \t")).collect() };
        let mut body = if self.before { some(1) } else { vec![] };
        for (k, word) in words.iter().enumerate() {
            match self.between {
                _ if k == 0 => (),
                0 => body.push(b' '),
                1 => body.push(b'\t'),
                _ => body.extend(some(2)),
            }
            body.extend(word);
        }
        body.extend(if self.after { some(1) } else { vec![] });
        body
    }
}

/// Perhaps a line that is skipped, and perhaps more; none where they are `often` 0.
fn skip_lines(
    lines: &mut Vec<Line>,
    often: usize,
    gap: &'static str,
    random: &mut Random,
    met: &mut Kinds,
) {
    while often > 0 && random.one_in(often) {
        let (kind, body) = random.pick(&SKIPPED);
        lines.push(Line { body: body.into(), end: LF, told: false });
        met.extend([kind, gap]);
    }
}

fn end_lines(lines: &mut [Line], random: &mut Random, met: &mut Kinds) {
    let style = random.below(3);
    for line in &mut *lines {
        line.end = if style == 1 || style == 2 && random.one_in(2) { CR_LF } else { LF };
        // Else its last CR would belong to the end.
        if line.body.ends_with(b"\r") {
            line.end = CR_LF;
        }
    }
    let [lf, cr_lf] = [LF, CR_LF].map(|end| lines.iter().any(|line| line.end == end));
    met.push(match (lf, cr_lf) {
        (true, false) => ENDS[0],
        (false, true) => ENDS[1],
        _ => ENDS[2],
    });
}

fn end_last(lines: &mut Vec<Line>, random: &mut Random, met: &mut Kinds) {
    let last = lines.last_mut().expect("a name's line");
    let kind = random.below(LASTS.len());
    match kind {
        1 if last.told => last.end = b"",
        1 => return,
        2 => lines.push(Line { body: b"\r".into(), end: b"", told: false }),
        3 => lines.push(Line { body: b" \t".into(), end: b"", told: false }),
        _ => (),
    }
    met.push(LASTS[kind]);
}

pub fn text(lines: &[Line]) -> Vec<u8> {
    lines.iter().flat_map(|line| [&line.body[..], line.end]).collect::<Vec<_>>().concat()
}
