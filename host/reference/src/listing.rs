//! What the listing program prints for a record (01, Examples on both sides).

use std::fmt::Write;

use crate::keys::{count, least_free, undos};
use crate::search::steps_from;
use crate::tree::Tree;
use crate::Refusal;

pub fn listing(record: &[u8]) -> String {
    lines(record).unwrap_or_else(|refusal| format!("refused {refusal}\n"))
}

fn lines(record: &[u8]) -> Result<String, Refusal> {
    let tree = Tree::read(record)?;
    let mut text = format!("nodes {} keys {} next {}\n", tree.nodes.len(), count(record)?, least_free(record)?);
    let _ = steps_from(&tree, 0, 0, |p, q, label| {
        writeln!(text, "forward {p} {q} {label}").expect("a String takes every line");
        std::ops::ControlFlow::<()>::Continue(())
    });
    for (key, label) in undos(&tree) {
        writeln!(text, "undo {key} {label}").expect("a String takes every line");
    }
    Ok(text)
}
