//! Bytes of stack that each entry of the library touches, measured by host/serve on a stack filled with a pattern.

use crate::archive;
use crate::call::Call;
use crate::cases;
use crate::shapes::{CHAINS, SHAPES};

/// Records at the limits: the deepest chains, done and not, and the largest record of each shape.
fn records() -> Vec<(String, Vec<u8>)> {
    let chain = |done: bool, step: &[u8]| {
        let mut bytes = Vec::new();
        for level in 1..256u16 {
            bytes.extend(step);
            if step[0] == 1 {
                bytes.extend(if done { level } else { 0 }.to_be_bytes());
            }
        }
        bytes.push(0);
        bytes
    };
    let comb = [[3u8, 0].repeat(253), vec![1, 1, 0, 0, 1, 129, 0, 0, 0]].concat();
    let mut records = vec![
        ("255 prefixes".to_string(), chain(false, &[1, 1])),
        ("255 prefixes, done".to_string(), chain(true, &[1, 1])),
        ("255 restrictions".to_string(), chain(false, &[4, 2])),
        ("comb 256 deep".to_string(), comb),
        ("comb 256 deep, all left".to_string(), [vec![3u8; 255], vec![0; 256]].concat()),
        ("choices 256 deep, all left".to_string(), [vec![2u8; 255], vec![0; 256]].concat()),
    ];
    records.extend(SHAPES.iter().chain(&CHAINS).map(|(shape, build)| (shape.to_string(), build(4096))));
    records
}

/// Calls that go as far as the record lets them: accepted, refused late, and with a full row.
fn calls(record: &[u8]) -> Vec<Call> {
    let mut calls = cases::ONE_OF_EACH.to_vec();
    let mut steps = Vec::new();
    let _ = reference::for_each_step(record, |p, q, _| steps.push((p, q)));
    let key = reference::least_free(record).unwrap_or(1);
    for &(p, q) in steps.first().into_iter().chain(steps.last()) {
        calls.extend([Call::Forward { p, q, key }, Call::First { p, q: q + 1 }]);
    }
    for key in cases::chain_keys(record) {
        let (row, fill) = (4096, 0);
        calls.extend([Call::Undo { key }, Call::Waiting { key, row, fill }, Call::TakeBack { key, row, fill }]);
    }
    let nodes = reference::walk(record).unwrap_or_default();
    calls.push(Call::Node { n: nodes.len() as u16 });
    if let Some((p, _)) = (0..).zip(&nodes).filter(|(_, node)| node.kind == 1).last() {
        calls.push(Call::Forward { p, q: 0, key });
    }
    calls
}

/// Prints the most that each entry touched and on which record.
pub fn measure() -> bool {
    let mut most: Vec<(&str, u64, String)> = Vec::new();
    for (name, record) in records() {
        assert!(reference::read(&record).is_ok(), "{name}");
        for call in calls(&record) {
            let (mut bytes, mut row) = (record.clone(), call.lent_row());
            let Some(reply) = archive::request(&call, &mut bytes, &mut row, 0) else { continue };
            let used = reply.stack;
            match most.iter_mut().find(|(known, ..)| *known == call.name()) {
                None => most.push((call.name(), used, name.clone())),
                Some(known) if known.1 < used => *known = (call.name(), used, name.clone()),
                Some(_) => (),
            }
        }
    }
    println!("{:<14}{:>8}  on", "entry", "bytes");
    for (entry, used, name) in &most {
        println!("{entry:<14}{used:>8}  {name}");
    }
    !most.is_empty()
}
