//! Soundness of a record: the lowest number of Definition 3.3 that fails (01, Soundness).

use crate::keys::{standings, Standing};
use crate::record::{CHOICE, PARALLEL, PREFIX};
use crate::tree::{Tree, NONE};
use crate::{complement, Refusal};

pub fn verdict(record: &[u8]) -> Result<u8, Refusal> {
    Tree::read(record).map(|tree| verdict_of(&tree))
}

/// The verdict on a record that has been read.
pub fn verdict_of(tree: &Tree) -> u8 {
    let numbers = 0..tree.nodes.len() as u16;
    let kind = |number: u16| tree.node(number).kind;
    let not_done = |number: u16| kind(number) == PREFIX && tree.node(number).key == 0;
    if numbers.clone().any(|number| not_done(number) && tree.key_below(number)) {
        return 1;
    }
    if numbers.clone().any(|number| kind(number) == CHOICE && tree.both_sides_hold(number)) {
        return 2;
    }
    let keys = standings(tree);
    if keys.iter().any(|key| key.times > 2) {
        return 3;
    }
    let action = |number: u16| tree.node(number).action;
    let mut twice = keys.iter().filter(|key| key.times == 2);
    if twice.clone().any(|key| complement(action(key.first)) != Some(action(key.second))) {
        return 4;
    }
    if twice.any(|key| kind(key.meet) != PARALLEL) {
        return 5;
    }
    let hiding = tree.paths().hiding;
    if keys.iter().any(|key| !hidden_together(tree, &hiding, key)) {
        return 6;
    }
    if has_cycle(tree, &keys) {
        7
    } else {
        0
    }
}

/// Every restriction above one of the key's places on that place's name has the other below it too.
/// If the nearest has, those above it have.
fn hidden_together(tree: &Tree, hiding: &[u16], key: &Standing) -> bool {
    let holds = |restriction: u16, place: u16| {
        restriction == NONE || place != NONE && restriction < place && place < tree.node(restriction).end
    };
    let restriction = |place: u16| if place == NONE { NONE } else { hiding[place as usize] };
    holds(restriction(key.first), key.second) && holds(restriction(key.second), key.first)
}

/// Takes away keys with no key left below them until none is to be had. What is left then goes in a circle.
/// For each place only the nearest key above counts: the others stand above that one.
fn has_cycle(tree: &Tree, keys: &[Standing]) -> bool {
    let mut index = vec![0u16; tree.nodes.len()];
    for (i, key) in keys.iter().enumerate() {
        for place in places(key) {
            index[place as usize] = i as u16;
        }
    }
    // nearest[i]: the nearest prefix above node i that holds a key, or NONE.
    let mut nearest = vec![NONE; tree.nodes.len()];
    let mut below = vec![0u16; keys.len()];
    for (i, node) in tree.nodes.iter().enumerate().skip(1) {
        let parent = node.parent as usize;
        nearest[i] = if tree.nodes[parent].key != 0 { node.parent } else { nearest[parent] };
        if node.key != 0 && nearest[i] != NONE {
            below[index[nearest[i] as usize] as usize] += 1;
        }
    }
    let mut free: Vec<usize> = (0..keys.len()).filter(|&i| below[i] == 0).collect();
    let mut taken = 0;
    while let Some(i) = free.pop() {
        taken += 1;
        for above in places(&keys[i]).map(|place| nearest[place as usize]).filter(|&above| above != NONE) {
            let above = index[above as usize] as usize;
            below[above] -= 1;
            if below[above] == 0 {
                free.push(above);
            }
        }
    }
    taken < keys.len()
}

fn places(key: &Standing) -> impl Iterator<Item = u16> {
    [key.first, key.second].into_iter().filter(|&place| place != NONE)
}
