//! One step forward or back (01, Rules of a step).

use crate::record::PARALLEL;
use crate::tree::{Tree, NONE};
use crate::{complement, Refusal, KEY_ABSENT, KEY_STANDS, KEY_ZERO, NO_PLACE, NO_STEP, NO_UNDO, TAU};

/// Puts the key at the place p, or at p and q together, and answers the label.
pub fn forward(record: &mut [u8], p: u16, q: u16, key: u16) -> Result<u8, Refusal> {
    let tree = Tree::read(record)?;
    if key == 0 {
        return Err(KEY_ZERO);
    }
    if !tree.is_prefix(p) || q != 0 && (q <= p || !tree.is_prefix(q)) {
        return Err(NO_PLACE);
    }
    if tree.nodes.iter().any(|node| node.key == key) {
        return Err(KEY_STANDS);
    }
    let places = if q == 0 { vec![p] } else { vec![p, q] };
    if places.iter().any(|&place| tree.node(place).key != 0) {
        return Err(NO_STEP);
    }
    let label = label_of(&tree, &places).ok_or(NO_STEP)?;
    mark(record, &tree, &places, key);
    Ok(label)
}

/// Takes the key back from every place that holds it, and answers the label.
pub fn undo(record: &mut [u8], key: u16) -> Result<u8, Refusal> {
    let tree = Tree::read(record)?;
    if key == 0 {
        return Err(KEY_ZERO);
    }
    let places: Vec<u16> = (0..tree.nodes.len() as u16).filter(|&i| tree.node(i).key == key).collect();
    if places.is_empty() {
        return Err(KEY_ABSENT);
    }
    let label = label_of(&tree, &places).ok_or(NO_UNDO)?;
    mark(record, &tree, &places, 0);
    Ok(label)
}

/// The label with which these places step at the root, if they do. All of them hold no key, or all the same key that
/// stands nowhere else: so no key on the way up is in the step's way, and what is left to ask is the same both ways.
fn label_of(tree: &Tree, places: &[u16]) -> Option<u8> {
    if !places.iter().all(|&place| !tree.key_below(place) && tree.is_open(place)) {
        return None;
    }
    match *places {
        [p] => (tree.hiding(p) == NONE).then_some(tree.node(p).action),
        [p, q] => {
            let complementary = complement(tree.node(p).action) == Some(tree.node(q).action);
            let joined = tree.node(tree.meet(p, q)).kind == PARALLEL;
            (complementary && joined && tree.hiding(p) == tree.hiding(q)).then_some(TAU)
        }
        _ => None,
    }
}

/// Writes the key at these places.
pub fn mark(record: &mut [u8], tree: &Tree, places: &[u16], key: u16) {
    for &place in places {
        let body = tree.node(place).offset as usize + 1;
        record[body + 1..body + 3].copy_from_slice(&key.to_be_bytes());
    }
}
