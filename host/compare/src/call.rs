//! One call of an operation with its numbers, made on either side; answers are packed as in include/concoursel.h.

use std::fmt;

use crate::archive;

#[derive(Clone, Copy, Debug, PartialEq, Eq)]
pub enum Side {
    Reference,
    Archive,
}

#[derive(Clone, Copy, Debug, PartialEq, Eq)]
pub enum Call {
    Read,
    Forward {
        p: u16,
        q: u16,
        key: u16,
    },
    Undo {
        key: u16,
    },
    First {
        p: u16,
        q: u16,
    },
    Count,
    LeastFree,
    /// The lent row has `row` places, each holding `fill` before the call.
    UndoListing {
        row: usize,
        fill: u16,
    },
    Waiting {
        key: u16,
        row: usize,
        fill: u16,
    },
    Blank,
    Verdict,
    Node {
        n: u16,
    },
    TakeBack {
        key: u16,
        row: usize,
        fill: u16,
    },
}

/// The operations by their numbers.
const NAMES: [&str; 12] = [
    "read",
    "forward",
    "undo",
    "first",
    "count",
    "least_free",
    "undo_listing",
    "waiting",
    "blank",
    "verdict",
    "node",
    "take_back",
];

impl Call {
    pub fn name(&self) -> &'static str {
        NAMES[self.number() as usize]
    }

    /// The operation's number in a request to host/serve.
    pub fn number(&self) -> u8 {
        match self {
            Call::Read => 0,
            Call::Forward { .. } => 1,
            Call::Undo { .. } => 2,
            Call::First { .. } => 3,
            Call::Count => 4,
            Call::LeastFree => 5,
            Call::UndoListing { .. } => 6,
            Call::Waiting { .. } => 7,
            Call::Blank => 8,
            Call::Verdict => 9,
            Call::Node { .. } => 10,
            Call::TakeBack { .. } => 11,
        }
    }

    /// p, q and key; 0 for those that the operation has not. A node's number goes in the place of p.
    pub fn numbers(&self) -> (u16, u16, u16) {
        match *self {
            Call::Forward { p, q, key } => (p, q, key),
            Call::Undo { key } | Call::Waiting { key, .. } | Call::TakeBack { key, .. } => (0, 0, key),
            Call::First { p, q } => (p, q, 0),
            Call::Node { n } => (n, 0, 0),
            _ => (0, 0, 0),
        }
    }

    /// The row as it is lent.
    pub fn lent_row(&self) -> Vec<u16> {
        match *self {
            Call::UndoListing { row, fill } | Call::Waiting { row, fill, .. } | Call::TakeBack { row, fill, .. } => {
                vec![fill; row]
            }
            _ => Vec::new(),
        }
    }
}

/// The operation and its numbers, as a line of the vector files has them.
impl fmt::Display for Call {
    fn fmt(&self, to: &mut fmt::Formatter) -> fmt::Result {
        to.write_str(self.name())?;
        match *self {
            Call::Forward { p, q, key } => write!(to, " p={p} q={q} key={key}"),
            Call::Undo { key } => write!(to, " key={key}"),
            Call::First { p, q } => write!(to, " p={p} q={q}"),
            Call::Node { n } => write!(to, " n={n}"),
            Call::UndoListing { row, fill } => write!(to, " row={row} fill={fill}"),
            Call::Waiting { key, row, fill } | Call::TakeBack { key, row, fill } => {
                write!(to, " key={key} row={row} fill={fill}")
            }
            _ => Ok(()),
        }
    }
}

/// The 64-bit answer: refusal, mark, label, p, q. A single number stands in the low 16 bits.
pub fn pack(refusal: u8, mark: u8, label: u8, p: u16, q: u16) -> u64 {
    u64::from(refusal) << 48 | u64::from(mark) << 40 | u64::from(label) << 32 | u64::from(p) << 16 | u64::from(q)
}

/// A node that is shown: the kind above the other fields, action or name, key and depth in them.
fn pack_node(node: reference::Shown) -> u64 {
    let first = node.body.first().copied().unwrap_or(0);
    u64::from(node.kind) << 56 | pack(0, 1, first, node.key(), node.depth as u16)
}

fn pack_number(answer: Result<u16, u8>) -> u64 {
    answer.map_or_else(|refusal| pack(refusal, 0, 0, 0, 0), u64::from)
}

/// How many nodes or keys there are; their limit keeps the number within 16 bits.
fn pack_count(answer: Result<usize, u8>) -> u64 {
    pack_number(answer.map(|count| count as u16))
}

fn pack_step(answer: Result<u8, u8>) -> u64 {
    answer.map_or_else(|refusal| u64::from(refusal) * 256, u64::from)
}

impl Side {
    /// Makes the call; None where this side has no such entry.
    pub fn invoke(self, call: &Call, record: &mut [u8], row: &mut [u16]) -> Option<u64> {
        match self {
            Side::Reference => Some(reference_answer(call, record, row)),
            Side::Archive => archive::request(call, record, row, 1).map(|reply| reply.answer),
        }
    }

    /// Makes the call on copies and answers everything that can be seen afterwards.
    pub fn run(self, call: &Call, record: &[u8]) -> Option<Outcome> {
        let (mut record, mut row) = (record.to_vec(), call.lent_row());
        let answer = self.invoke(call, &mut record, &mut row)?;
        Some(Outcome { answer, record, row })
    }
}

fn reference_answer(call: &Call, record: &mut [u8], row: &mut [u16]) -> u64 {
    match *call {
        Call::Read => pack_count(reference::read(record)),
        Call::Forward { p, q, key } => pack_step(reference::forward(record, p, q, key)),
        Call::Undo { key } => pack_step(reference::undo(record, key)),
        Call::First { p, q } => match reference::first(record, p, q) {
            Ok(Some((p, q, label))) => pack(0, 1, label, p, q),
            Ok(None) => 0,
            Err(refusal) => pack(refusal, 0, 0, 0, 0),
        },
        Call::Count => pack_number(reference::count(record)),
        Call::LeastFree => pack_number(reference::least_free(record)),
        Call::UndoListing { .. } => pack_count(reference::undo_listing(record, row)),
        Call::Waiting { key, .. } => pack_count(reference::waiting(record, key, row)),
        Call::Blank => pack_number(reference::blank(record)),
        Call::Verdict => pack_number(reference::verdict(record).map(u16::from)),
        Call::Node { n } => match reference::node(record, n) {
            Ok(node) => node.map_or(0, pack_node),
            Err(refusal) => pack(refusal, 0, 0, 0, 0),
        },
        Call::TakeBack { key, .. } => pack_count(reference::take_back(record, key, row)),
    }
}

/// What can be seen after a call.
#[derive(Clone, Debug, PartialEq, Eq)]
pub struct Outcome {
    pub answer: u64,
    pub record: Vec<u8>,
    pub row: Vec<u16>,
}

impl Outcome {
    /// The keys at the front of the row, as many as the answer says.
    pub fn listed(&self) -> &[u16] {
        &self.row[..self.answer as u16 as usize]
    }
}

impl fmt::Display for Outcome {
    fn fmt(&self, to: &mut fmt::Formatter) -> fmt::Result {
        write!(to, "answer {:#x}, record {}, row {:?}", self.answer, hex(&self.record), self.row)
    }
}

pub fn hex(bytes: &[u8]) -> String {
    if bytes.is_empty() {
        return "-".into();
    }
    bytes.iter().map(|byte| format!("{byte:02x}")).collect()
}
