//! Whole runs: a sound record is taken back key by key in a random order, then done again by its places. Before a key
//! goes, all keys of its waiting list have gone. And a key is taken back at once with what stands on it, then by hand.

use crate::call::{hex, Call, Outcome, Side};
use crate::cases;
use crate::numbers::Random;
use crate::random;
use crate::records;

/// True if every run comes to the blank form in as many undos as there are keys, and back to the same bytes, and if a
/// key taken back at once leaves what the same undos leave by hand.
pub fn check(runs: u64, seed: u64) -> bool {
    let mut random = Random(seed);
    let (mut undos, mut at_once) = (0, 0);
    for run in 0..runs {
        let record = if random.percent(20) { records::all_done(&mut random) } else { records::sound(&mut random) };
        if reference::verdict(&record) != Ok(0) {
            continue;
        }
        let outcome = there_and_back(&mut random, &record).and_then(|count| {
            undos += count;
            back_at_once(&mut random, &record)
        });
        match outcome {
            Ok(count) => at_once += count,
            Err(fault) => {
                println!("DIFFERENCE in run {run}: {fault}\n  record {}", hex(&record));
                return false;
            }
        }
    }
    println!("runs {runs} {seed}: {undos} undos and as many steps agree, {at_once} undos at once and by hand");
    undos > 0 && at_once > 0
}

/// A step taken back: its places, key and label.
struct Taken {
    p: u16,
    q: u16,
    key: u16,
    label: u64,
}

/// Takes everything back through the library and does it again; answers the number of undos.
fn there_and_back(random: &mut Random, start: &[u8]) -> Result<u64, String> {
    let mut record = start.to_vec();
    let mut taken = Vec::new();
    loop {
        let listing = ask(&Call::UndoListing { row: 4096, fill: 0 }, &record)?;
        if listing.listed().is_empty() {
            break;
        }
        let key = random.pick(listing.listed());
        let waiting = ask(&Call::Waiting { key, row: 4096, fill: 0 }, start)?;
        let gone = |waited: &u16| taken.iter().any(|step: &Taken| step.key == *waited);
        if !waiting.listed().iter().all(gone) {
            return Err(format!("key {key} goes before its waiting list, after {} undos", taken.len()));
        }
        let (p, q) = places(&record, key);
        let outcome = ask(&Call::Undo { key }, &record)?;
        if outcome.answer >= 256 {
            return Err(format!("key {key} is listed but its undo is refused, after {} undos", taken.len()));
        }
        taken.push(Taken { p, q, key, label: outcome.answer });
        record = outcome.record;
    }
    let count = ask(&Call::Count, start)?.answer;
    let blank = ask(&Call::Blank, start)?;
    if taken.len() as u64 != count || blank.answer != count || record != blank.record {
        return Err(format!("{} undos, {count} keys, or not the blank form at the end", taken.len()));
    }
    for step in taken.iter().rev() {
        let outcome = ask(&Call::Forward { p: step.p, q: step.q, key: step.key }, &record)?;
        if outcome.answer != step.label {
            return Err(format!("step {} {} key {} answers {}", step.p, step.q, step.key, outcome.answer));
        }
        record = outcome.record;
    }
    if record != start {
        return Err("the same steps end in other bytes".into());
    }
    Ok(count)
}

/// Takes back a random key at once, then the same keys one by one in the order answered: each is then the least that can
/// go of those still to go, and both ways end in the same bytes. Answers how many keys went.
fn back_at_once(random: &mut Random, start: &[u8]) -> Result<u64, String> {
    let keys = cases::keys(start);
    if keys.is_empty() {
        return Ok(0);
    }
    let key = random.pick(&keys);
    let at_once = ask(&Call::TakeBack { key, row: 4096, fill: 0 }, start)?;
    let order = at_once.listed();
    let waiting = ask(&Call::Waiting { key, row: 4096, fill: 0 }, start)?;
    let mut still = [waiting.listed(), &[key]].concat();
    let mut record = start.to_vec();
    for &next in order {
        let listing = ask(&Call::UndoListing { row: 4096, fill: 0 }, &record)?;
        if listing.listed().iter().find(|key| still.contains(key)) != Some(&next) {
            return Err(format!("key {next} goes with key {key} before its turn: {order:?}"));
        }
        let outcome = ask(&Call::Undo { key: next }, &record)?;
        if outcome.answer >= 256 {
            return Err(format!("key {next} goes with key {key}, but its undo is refused: {order:?}"));
        }
        still.retain(|&other| other != next);
        record = outcome.record;
    }
    if !still.is_empty() || record != at_once.record {
        return Err(format!("key {key} taken back at once leaves other bytes than by hand, or {still:?} did not go"));
    }
    Ok(order.len() as u64)
}

/// The library's outcome, held against the reference; the reference's own where there is no entry yet.
fn ask(call: &Call, record: &[u8]) -> Result<Outcome, String> {
    let right = Side::Reference.run(call, record).expect("the reference has every operation");
    if let Some(found) = Side::Archive.run(call, record) {
        if found != right {
            random::report("a run", call, record, &found, &right);
            return Err(call.to_string());
        }
    }
    Ok(right)
}

/// The one or two nodes that hold the key; q is 0 for one.
fn places(record: &[u8], key: u16) -> (u16, u16) {
    let nodes = reference::walk(record).expect("a sound record is readable");
    let mut holding = (0..).zip(&nodes).filter(|(_, node)| node.key() == key).map(|(number, _)| number);
    (holding.next().unwrap_or(0), holding.next().unwrap_or(0))
}
