//! `compare freeze`: a sample small enough to be kept, with its answers, for a comparison where no
//! Rust is at hand.
//!
//! Each record of `stdin` is a byte that says its kind, then what the kind's module says; `stdout`
//! has one answer a line.

use std::path::Path;
use std::{fs, io};

use crate::{freeze_asked, freeze_imports, freeze_limits, freeze_plans, freeze_refusals};

/// A call to keep.
pub struct Kept {
    /// The number of its refusal, 0 if it is answered.
    pub number: usize,
    /// What follows the kind in its record.
    pub asked: Vec<u8>,
    pub line: String,
}

/// What is kept of a kind with a seed.
type Sample = fn(u64) -> Vec<Kept>;

/// The kinds of records, each at the place that its byte says.
const KINDS: [(&str, Sample); 6] = [
    ("refusals", freeze_refusals::sample),
    ("plans", freeze_plans::sample),
    ("limited plans", freeze_limits::sample),
    ("imports", freeze_imports::sample),
    ("bills", freeze_asked::bills),
    ("deals", freeze_asked::deals),
];

pub fn run(seed: u64, folder: &Path) -> io::Result<()> {
    let (mut stdin, mut stdout) = (Vec::new(), String::new());
    for (kind, (name, sample)) in (0u8..).zip(KINDS) {
        let kept = sample(seed);
        for Kept { asked, line, .. } in &kept {
            stdin.push(kind);
            stdin.extend(asked);
            stdout.push_str(line);
        }
        let most = kept.iter().map(|call| call.number).max().unwrap_or(0);
        let answered = |number| kept.iter().filter(|call| call.number == number).count();
        let answers: Vec<usize> = (0..=most).map(answered).collect();
        println!("freeze: {} {name}, per answer from 0 up: {answers:?}", kept.len());
    }
    fs::create_dir_all(folder)?;
    fs::write(folder.join("stdin"), &stdin)?;
    fs::write(folder.join("stdout"), &stdout)?;
    println!("freeze: seed {seed}, {} bytes, and {} of answers", stdin.len(), stdout.len());
    Ok(())
}
