//! The files with right answers: one case a line, `operation record numbers = field=value ..`.

use std::collections::HashMap;
use std::fs;

use crate::call::{hex, pack, Call, Outcome, Side};

/// So many differences are shown; the others are counted.
const SHOWN: u32 = 5;

/// Runs every line on one side; true if all agree. Lines whose entry is not there yet are skipped and counted.
pub fn check(side: Side, files: &[&str]) -> bool {
    let (mut agreed, mut skipped, mut failed) = (0, 0, 0);
    for file in files {
        let text = fs::read_to_string(file).unwrap_or_else(|error| panic!("{file}: {error}"));
        for (number, line) in text.lines().enumerate() {
            match check_line(side, line) {
                Some(Ok(())) => agreed += 1,
                None => skipped += 1,
                Some(Err(found)) => {
                    failed += 1;
                    if failed <= SHOWN {
                        println!("DIFFERENCE in {file}:{}: {line}\n  found: {found}", number + 1);
                    }
                }
            }
        }
    }
    println!("vectors {side:?}: {agreed} agree, {failed} differ, {skipped} skipped");
    failed == 0 && agreed > 0
}

/// None if this side has no entry for the line; what was found instead if it differs.
fn check_line(side: Side, line: &str) -> Option<Result<(), String>> {
    let (input, fields) = line.split_once('=').expect("a line has =");
    let words: Vec<&str> = input.split_whitespace().collect();
    let fields: HashMap<&str, &str> = fields.split_whitespace().map(|field| field.split_once('=').unwrap()).collect();
    let record = unhex(words[1]);
    let (found, right) = match words[0] {
        "walk" => (shown(&walk(side, &record)?), shown(&parse_walk(&record, &fields))),
        "listing" => (listing(side, &record)?, String::from_utf8(unhex(fields["text"])).unwrap()),
        _ => {
            let call = parse_call(words[0], &words[2..]);
            let right = parse_outcome(&call, &record, &fields);
            (side.run(&call, &record)?.to_string(), right.to_string())
        }
    };
    Some(if found == right { Ok(()) } else { Err(found) })
}

fn shown(outcomes: &[Outcome]) -> String {
    outcomes.iter().map(Outcome::to_string).collect::<Vec<_>>().join("; ")
}

fn parse_call(operation: &str, words: &[&str]) -> Call {
    let numbers: Vec<u16> = words.iter().map(|word| word.parse().expect("a 16-bit number")).collect();
    match (operation, numbers.as_slice()) {
        ("read", []) => Call::Read,
        ("forward" | "c_forward", &[p, q, key]) => Call::Forward { p, q, key },
        ("undo" | "c_undo", &[key]) => Call::Undo { key },
        ("first", &[p, q]) => Call::First { p, q },
        ("count", []) => Call::Count,
        ("least_free", []) => Call::LeastFree,
        ("undo_listing", &[row, fill]) => Call::UndoListing { row: row.into(), fill },
        ("waiting", &[key, row, fill]) => Call::Waiting { key, row: row.into(), fill },
        ("take_back", &[key, row, fill]) => Call::TakeBack { key, row: row.into(), fill },
        ("blank", []) => Call::Blank,
        ("verdict", []) => Call::Verdict,
        _ => panic!("no such operation: {operation} {words:?}"),
    }
}

/// Every field of the line, packed. What the line does not name stays as it was lent.
fn parse_outcome(call: &Call, record: &[u8], fields: &HashMap<&str, &str>) -> Outcome {
    let number = |name: &str| -> u64 { fields.get(name).map_or(0, |value| value.parse().expect("a number")) };
    let answer = match call {
        Call::Forward { .. } | Call::Undo { .. } => match fields.contains_key("answer") {
            true => number("answer"),
            false => number("refusal") * 256 + number("label"),
        },
        _ => {
            let single: u64 = ["nodes", "count", "key", "verdict", "undone"].map(number).iter().sum();
            let q = (number("q") + single) as u16;
            pack(number("refusal") as u8, number("found") as u8, number("label") as u8, number("p") as u16, q)
        }
    };
    let row = match fields.get("row") {
        None | Some(&"-") => Vec::new(),
        Some(row) => row.split(',').map(|place| place.parse().expect("a 16-bit number")).collect(),
    };
    Outcome { answer, record: fields.get("record").map_or(record.to_vec(), |record| unhex(record)), row }
}

/// Nodes 0, 1, 2 .. until none is shown, and one more past that.
fn walk(side: Side, record: &[u8]) -> Option<Vec<Outcome>> {
    let mut walked = Vec::new();
    for n in 0.. {
        walked.push(side.run(&Call::Node { n }, record)?);
        if n > 0 && walked[n as usize - 1].answer >> 40 & 255 == 0 {
            break;
        }
    }
    Some(walked)
}

/// What the nodes of a line are, packed, and twice the answer past the last.
fn parse_walk(record: &[u8], fields: &HashMap<&str, &str>) -> Vec<Outcome> {
    let end = pack(fields["refusal"].parse().expect("a number"), 0, 0, 0, 0);
    let nodes = fields["nodes"].split(';').filter(|node| *node != "-").map(parse_node);
    nodes.chain([end, end]).map(|answer| Outcome { answer, record: record.to_vec(), row: Vec::new() }).collect()
}

/// A node `kind:body:depth`, packed.
fn parse_node(node: &str) -> u64 {
    let mut parts = node.split(':');
    let mut next = || parts.next().expect("kind, body and depth");
    let (kind, body, depth) = (next().parse::<u64>(), unhex(next()), next().parse());
    let byte = |i: usize| body.get(i).copied().unwrap_or(0);
    let key = u16::from_be_bytes([byte(1), byte(2)]);
    kind.expect("a number") << 56 | pack(0, 1, byte(0), key, depth.expect("a number"))
}

/// The text of the listing program; for the library it is put together from the answers of its entries.
fn listing(side: Side, record: &[u8]) -> Option<String> {
    if side == Side::Reference {
        return Some(reference::listing(record));
    }
    let nodes = side.run(&Call::Read, record)?.answer;
    let keys = side.run(&Call::Count, record)?.answer;
    let next = side.run(&Call::LeastFree, record)?.answer;
    let undos = side.run(&Call::UndoListing { row: 4096, fill: 0 }, record)?;
    let mut step = side.run(&Call::First { p: 0, q: 0 }, record)?.answer;
    if nodes >> 48 != 0 {
        return Some(format!("refused {}\n", nodes >> 48));
    }
    let mut text = format!("nodes {nodes} keys {keys} next {next}\n");
    while step >> 40 & 255 == 1 {
        let (p, q) = ((step >> 16) as u16, step as u16);
        text += &format!("forward {p} {q} {}\n", step >> 32 & 255);
        step = side.run(&Call::First { p, q: q + 1 }, record)?.answer;
    }
    for &key in undos.listed() {
        text += &format!("undo {key} {}\n", side.run(&Call::Undo { key }, record)?.answer);
    }
    Some(text)
}

pub fn unhex(text: &str) -> Vec<u8> {
    if text == "-" || text.is_empty() {
        return Vec::new();
    }
    let byte = |i: usize| u8::from_str_radix(&text[i..i + 2], 16).expect("two hexadecimal digits");
    let bytes: Vec<u8> = (0..text.len()).step_by(2).map(byte).collect();
    debug_assert_eq!(hex(&bytes), text);
    bytes
}
