//! The frozen texts with the sheets of the harness's own importer.
//!
//! A record has the text's length and the sheet buffer's as little-endian u32, then the text. Its
//! line is that of a frozen plan: `refused` and the number, or the sheet's bytes. No text and no buffer
//! has more than `MOST_LENT` bytes, so that sheets of about 100 rows are refused.

use crate::freeze::Kept;
use crate::import_calls::{call, kinds, Call};
use crate::importer::imported;
use crate::sample::{Sample, Wanted, MOST_LENT};

const IMPORTS: Wanted = Wanted { answers: &[0, 4, 5, 7, 11, 12], often: 2, count: 0 };

pub fn sample(seed: u64) -> Vec<Kept> {
    let kinds = kinds();
    Sample::kept(0..kinds.len(), IMPORTS, |sample, number| {
        let Call { text, room, met, .. } = call(seed, number);
        let room = room.min(MOST_LENT);
        if text.len() <= MOST_LENT {
            let lens = [text.len(), room].map(|len| (len as u32).to_le_bytes());
            let asked = [&lens[0], &lens[1], &text[..]].concat();
            sample.offer(&imported(&text, room), |kind| met.contains(&kinds[kind]), asked);
        }
    })
}
