//! Times of both sides on the same records in one run.

use std::hint::black_box;
use std::time::{Duration, Instant};

use crate::archive;
use crate::call::{Call, Side};
use crate::cases;
use crate::shapes::{Shape, CHAINS, SHAPES};

/// Samples of each measurement; the median counts.
const SAMPLES: usize = 7;

/// Calls to be timed, with a word where one operation is timed in two ways.
type Calls = Vec<(&'static str, Call)>;

/// Every shape with the calls that are timed on it: all operations, and on the chains those that follow chains.
fn shapes() -> impl Iterator<Item = (Shape, fn(&[u8]) -> Calls)> {
    let all = SHAPES.map(|shape| (shape, all_calls as fn(&[u8]) -> Calls));
    let chains = CHAINS.map(|shape| (shape, chain_calls as fn(&[u8]) -> Calls));
    all.into_iter().chain(chains)
}

/// Waiting lists, and what is taken back: nothing of a record that is not sound, so it is not timed there.
fn chain_calls(record: &[u8]) -> Calls {
    let (row, fill) = (4096, 0);
    let [first, last, longest] = cases::chain_keys(record);
    let mut calls = vec![
        ("waiting, first", Call::Waiting { key: first, row, fill }),
        ("waiting, last", Call::Waiting { key: last, row, fill }),
    ];
    if reference::verdict(record) == Ok(0) {
        calls.extend([
            ("take_back, first", Call::TakeBack { key: first, row, fill }),
            ("take_back, last", Call::TakeBack { key: last, row, fill }),
            ("take_back, most", Call::TakeBack { key: longest, row, fill }),
        ]);
    }
    calls
}

fn all_calls(record: &[u8]) -> Calls {
    let mut steps = Vec::new();
    reference::for_each_step(record, |p, q, _| steps.push((p, q))).expect("the shapes are readable");
    let mut row = [0; 4096];
    let undos = reference::undo_listing(record, &mut row).expect("the row is long enough");
    let key = reference::least_free(record).expect("the shapes are readable");
    let nodes = reference::walk(record).expect("the shapes are readable");
    let any = (0..).zip(&nodes).find(|(_, node)| node.kind == 1).map_or(0, |(number, _)| number);
    let (p, q) = steps.last().copied().unwrap_or((any, 0));
    let past = if steps.is_empty() { Call::First { p: 0, q: 0 } } else { Call::First { p, q: q + 1 } };
    let mut calls = vec![
        ("read", Call::Read),
        ("forward, last", Call::Forward { p, q, key }),
        ("undo, last", Call::Undo { key: if undos > 0 { row[undos - 1] } else { 1 } }),
        ("first from 0 0", Call::First { p: 0, q: 0 }),
        ("first, none left", past),
        ("count", Call::Count),
        ("least_free", Call::LeastFree),
        ("undo_listing", Call::UndoListing { row: 4096, fill: 0 }),
        ("blank", Call::Blank),
        ("verdict", Call::Verdict),
        ("node, last", Call::Node { n: nodes.len() as u16 - 1 }),
    ];
    calls.extend(chain_calls(record));
    calls
}

/// The time of `times` calls, each on a fresh copy of the record.
fn time(side: Side, call: &Call, record: &[u8], times: u32) -> Option<Duration> {
    let mut bytes = record.to_vec();
    let mut row = call.lent_row();
    if side == Side::Archive {
        return archive::request(call, &mut bytes, &mut row, times)
            .map(|reply| Duration::from_nanos(reply.nanoseconds));
    }
    let start = Instant::now();
    for _ in 0..times {
        bytes.copy_from_slice(record);
        black_box(side.invoke(black_box(call), black_box(&mut bytes), &mut row)?);
    }
    Some(start.elapsed())
}

/// How often to call so that a sample takes some 2 milliseconds; None where there is no such entry.
fn calls_in_a_sample(side: Side, call: &Call, record: &[u8]) -> Option<u32> {
    let once = time(side, call, record, 1)?;
    Some((2_000_000 / once.as_nanos().max(50)).clamp(1, 20_000) as u32)
}

/// The median time of one call in microseconds on the library and on the reference. Their samples take turns, so that
/// a busy moment of the computer meets both.
fn medians(call: &Call, record: &[u8]) -> [Option<f64>; 2] {
    let sides = [Side::Archive, Side::Reference];
    let times = sides.map(|side| calls_in_a_sample(side, call, record));
    let mut samples = [Vec::new(), Vec::new()];
    for _ in 0..SAMPLES {
        for at in [0, 1] {
            let Some(times) = times[at] else { continue };
            let taken = time(sides[at], call, record, times).expect("it was there before");
            samples[at].push(taken.as_secs_f64() * 1e6 / f64::from(times));
        }
    }
    samples.map(|mut samples| {
        samples.sort_by(f64::total_cmp);
        samples.get(SAMPLES / 2).copied()
    })
}

fn shown(time: Option<f64>) -> String {
    time.map_or("-".into(), |time| format!("{time:.2}"))
}

/// Says so where the library's times mean nothing.
fn warn_of_emulator() {
    if !cfg!(target_arch = "x86_64") && std::env::var_os("CONCOURSEL_SERVE").is_none() {
        println!("The library runs under an emulator here: its times say nothing. host/times measures without one.");
    }
}

/// Time of the library over time of the reference at 100, 1,000 and 4,000 nodes, and the worst of each operation.
pub fn ratios() -> bool {
    warn_of_emulator();
    println!(
        "{:<18}{:<26}{:>6}{:>14}{:>14}{:>8}",
        "operation", "shape", "nodes", "library us", "reference us", "ratio"
    );
    let mut worst: Vec<(&str, f64, String)> = Vec::new();
    for ((shape, build), timed_calls) in shapes() {
        for nodes in [100, 1000, 4000] {
            let record = build(nodes);
            let nodes = reference::read(&record).expect("the shapes are readable");
            for (operation, call) in timed_calls(&record) {
                let [library, plain] = medians(&call, &record);
                let ratio = library.zip(plain).map(|(library, plain)| library / plain);
                let (library, plain, cell) = (shown(library), shown(plain), shown(ratio));
                println!("{operation:<18}{shape:<26}{nodes:>6}{library:>14}{plain:>14}{cell:>8}");
                let Some(ratio) = ratio else { continue };
                let entry = (operation, ratio, format!("{shape}, {nodes} nodes"));
                match worst.iter_mut().find(|(known, ..)| *known == operation) {
                    None => worst.push(entry),
                    Some(known) if known.1 < ratio => *known = entry,
                    Some(_) => (),
                }
            }
        }
    }
    println!("\nworst ratio of each operation");
    for (operation, ratio, place) in worst {
        println!("{operation:<18}{ratio:>8.2}  {place}");
    }
    true
}

/// Time of each operation at four sizes on both sides, and by how much it grows over the eightfold size.
pub fn growth() -> bool {
    warn_of_emulator();
    const SIZES: [usize; 4] = [500, 1000, 2000, 4000];
    println!(
        "{:<18}{:<26}{:<10}{:>10}{:>10}{:>10}{:>10}{:>10}",
        "operation", "shape", "side", 500, 1000, 2000, 4000, "x8 gives"
    );
    for ((shape, build), timed_calls) in shapes() {
        let records = SIZES.map(build);
        let calls = records.each_ref().map(|record| timed_calls(record));
        for (at, (operation, _)) in calls[0].iter().enumerate() {
            let times = [0, 1, 2, 3].map(|size| medians(&calls[size][at].1, &records[size]));
            for (side, name) in ["library", "reference"].iter().enumerate() {
                let Some(factor) = times[0][side].zip(times[3][side]).map(|(small, large)| large / small) else {
                    continue;
                };
                print!("{operation:<18}{shape:<26}{name:<10}");
                times.iter().for_each(|time| print!("{:>10}", shown(time[side])));
                println!("{factor:>10.1}");
            }
        }
    }
    true
}
