//! Random comparison: every operation on random records, every answer and every byte afterwards on both sides.

use crate::call::{hex, Call, Outcome, Side};
use crate::cases;
use crate::numbers::Random;
use crate::records;

/// Stops at the first difference; true if there is none.
pub fn check(cases: u64, seed: u64) -> bool {
    let mut random = Random(seed);
    let mut tally = Tally::default();
    for case in 0..cases {
        let record = records::any(&mut random);
        tally.sort(&record);
        for call in cases::calls(&mut random, &record) {
            let right = Side::Reference.run(&call, &record).expect("the reference has every operation");
            match call {
                Call::Waiting { .. } => tally.longest = tally.longest.max(right.listed().len()),
                Call::TakeBack { .. } => tally.most = tally.most.max(right.listed().len()),
                _ => (),
            }
            match Side::Archive.run(&call, &record) {
                None => tally.skipped += 1,
                Some(found) if found == right => tally.compared += 1,
                Some(found) => {
                    report(&format!("random case {case}"), &call, &record, &found, &right);
                    return false;
                }
            }
        }
    }
    println!("random {cases} {seed}: {} calls agree, {} skipped; {tally}", tally.compared, tally.skipped);
    tally.compared > 0
}

/// Prints a difference: the operation, its numbers, the record, and what both sides answered and left.
pub fn report(what: &str, call: &Call, record: &[u8], found: &Outcome, right: &Outcome) {
    println!("DIFFERENCE in {what}: {call}\n  record    {}", hex(record));
    for (side, outcome) in [("library  ", found), ("reference", right)] {
        println!("  {side} {outcome}");
    }
}

/// How many records of each sort were met, and how many calls were made.
#[derive(Default)]
struct Tally {
    compared: u64,
    skipped: u64,
    refused: [u64; 3],
    verdicts: [u64; 8],
    /// pairs[i][j]: readable records in which condition i + 1 is the lowest that fails and j + 1 fails too.
    pairs: [[u64; 7]; 7],
    /// Readable records of the largest size or depth.
    limits: u64,
    /// Keys in the longest waiting list.
    longest: usize,
    /// The most keys taken back at once.
    most: usize,
}

/// Two different conditions, counted from 0. All 21 pairs can fail at once: side by side, each on keys of its own.
fn pairs() -> impl Iterator<Item = (usize, usize)> {
    (0..7).flat_map(|i| (i + 1..7).map(move |j| (i, j)))
}

impl Tally {
    fn sort(&mut self, record: &[u8]) {
        let nodes = reference::walk(record).unwrap_or_default();
        let deepest = nodes.iter().map(|node| node.depth).max();
        self.limits += u64::from(nodes.len() == reference::NODE_LIMIT || deepest == Some(reference::DEPTH_LIMIT));
        match reference::verdict(record) {
            Ok(verdict) => self.verdicts[verdict as usize] += 1,
            Err(refusal) => self.refused[refusal as usize] += 1,
        }
        let failing = reference::failing(record).unwrap_or_default();
        for (i, j) in pairs() {
            let lowest = failing[i] && !failing[..i].contains(&true);
            self.pairs[i][j] += u64::from(lowest && failing[j]);
        }
    }
}

impl std::fmt::Display for Tally {
    fn fmt(&self, to: &mut std::fmt::Formatter) -> std::fmt::Result {
        let (verdicts, refused, limits) = (self.verdicts, &self.refused[1..], self.limits);
        let (fewest, i, j) = pairs().map(|(i, j)| (self.pairs[i][j], i + 1, j + 1)).min().expect("there are pairs");
        write!(to, "records by verdict 0 to 7 {verdicts:?}, refused 1 and 2 {refused:?}, at a limit {limits}, ")?;
        write!(to, "longest waiting list {}, most keys taken back at once {}, ", self.longest, self.most)?;
        write!(to, "each two conditions fail at once {fewest} times or more with none below, {i} and {j} the fewest")
    }
}
