//! Reading a record's bytes from the left; the first offence decides (01, The record).

use crate::{Refusal, NO_RECORD, OVER_LIMIT};

pub const NODE_LIMIT: usize = 4096;
pub const DEPTH_LIMIT: usize = 256;

pub const PREFIX: u8 = 1;
pub const CHOICE: u8 = 2;
pub const PARALLEL: u8 = 3;
pub const RESTRICTION: u8 = 4;

/// Bytes of body by kind: nil, prefix, choice, parallel, restriction.
const BODY: [usize; 5] = [0, 3, 0, 0, 1];
/// Children by kind, in the same order.
const CHILDREN: [u8; 5] = [0, 1, 2, 2, 1];

/// One node as the walk shows it.
#[derive(Clone, Copy, Debug, PartialEq, Eq)]
pub struct Shown<'a> {
    /// Where its byte of kind stands.
    pub offset: usize,
    pub kind: u8,
    pub body: &'a [u8],
    pub depth: usize,
}

impl Shown<'_> {
    /// The key in a prefix's body; 0 for every other kind.
    pub fn key(&self) -> u16 {
        match self.body {
            [_, high, low] => u16::from_be_bytes([*high, *low]),
            _ => 0,
        }
    }
}

/// An action other than 128 in a prefix, a name from 1 to 127 in a restriction.
fn body_allowed(kind: u8, body: &[u8]) -> bool {
    match kind {
        PREFIX => body[0] != 128,
        RESTRICTION => (1..=127).contains(&body[0]),
        _ => true,
    }
}

/// Shows each node in preorder and answers how many there are. Nodes before an offence are shown too.
pub fn scan<'a>(record: &'a [u8], mut show: impl FnMut(Shown<'a>)) -> Result<usize, Refusal> {
    // due[d]: nodes still due at depth d + 1 on the path down to the present node.
    let mut due = [0u8; DEPTH_LIMIT + 1];
    due[0] = 1;
    let (mut nodes, mut offset, mut depth) = (0, 0, 1);
    while depth > 0 {
        let &kind = record.get(offset).ok_or(NO_RECORD)?;
        if nodes == NODE_LIMIT || depth > DEPTH_LIMIT {
            return Err(OVER_LIMIT);
        }
        let length = *BODY.get(kind as usize).ok_or(NO_RECORD)?;
        let body = record.get(offset + 1..offset + 1 + length).ok_or(NO_RECORD)?;
        if !body_allowed(kind, body) {
            return Err(NO_RECORD);
        }
        show(Shown { offset, kind, body, depth });
        nodes += 1;
        offset += 1 + length;
        due[depth - 1] -= 1;
        due[depth] = CHILDREN[kind as usize];
        depth += 1;
        while depth > 0 && due[depth - 1] == 0 {
            depth -= 1;
        }
    }
    if offset == record.len() {
        Ok(nodes)
    } else {
        Err(NO_RECORD)
    }
}

/// The number of nodes.
pub fn read(record: &[u8]) -> Result<usize, Refusal> {
    scan(record, |_| ())
}

/// Kind, body and depth of each node in preorder; a refused record shows none.
pub fn walk(record: &[u8]) -> Result<Vec<Shown<'_>>, Refusal> {
    let mut shown = Vec::new();
    scan(record, |node| shown.push(node))?;
    Ok(shown)
}

/// Node n of the walk; None past the last.
pub fn node(record: &[u8], n: u16) -> Result<Option<Shown<'_>>, Refusal> {
    walk(record).map(|nodes| nodes.get(n as usize).copied())
}
