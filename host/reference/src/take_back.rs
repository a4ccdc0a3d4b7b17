//! Taking back a key with everything that stands on it (02, [6]).

use std::cmp::Reverse;
use std::collections::BinaryHeap;

use crate::keys::{fill, KeySet, Links};
use crate::moves::mark;
use crate::tree::Tree;
use crate::verdict::verdict_of;
use crate::{Refusal, KEY_ABSENT, KEY_ZERO, NOT_SOUND};

/// Undoes the key and its waiting list, each time the least key whose undo is allowed. The keys go into the row in the
/// order of their undos; answers how many.
pub fn take_back(record: &mut [u8], key: u16, row: &mut [u16]) -> Result<usize, Refusal> {
    let tree = Tree::read(record)?;
    if key == 0 {
        return Err(KEY_ZERO);
    }
    if verdict_of(&tree) != 0 {
        return Err(NOT_SOUND);
    }
    let (links, stands) = Links::of(record, key)?;
    if !stands {
        return Err(KEY_ABSENT);
    }
    let order = in_turn(&links, &links.reached(key));
    let count = fill(row, &order)?;
    clear(record, &tree, &order);
    Ok(count)
}

/// The keys in the order of their undos: each time the least that nothing holds.
fn in_turn(links: &Links, going: &[u16]) -> Vec<u16> {
    let mut held = Held::of(links, going);
    let mut ready: BinaryHeap<Reverse<u16>> =
        going.iter().filter(|&&key| held.links_left[key as usize] == 0).map(|&key| Reverse(key)).collect();
    let mut order = Vec::with_capacity(going.len());
    while let Some(Reverse(key)) = ready.pop() {
        order.push(key);
        held.let_go(key, |upper| ready.push(Reverse(upper)));
    }
    order
}

/// What holds the keys that are to go, by key. All their links lead to one another, and in a sound record the undo of a
/// key is allowed exactly when it has no link left to a key that still stands.
struct Held {
    links_left: Vec<u16>,
    /// The keys with a link to this one: two at most, since a key stands twice at most. 0 is none.
    above: Vec<[u16; 2]>,
}

impl Held {
    fn of(links: &Links, going: &[u16]) -> Held {
        let numbers = 1 + going.iter().copied().max().unwrap_or(0) as usize;
        let mut held = Held { links_left: vec![0; numbers], above: vec![[0; 2]; numbers] };
        for &upper in going {
            for lower in links.right_below(upper) {
                held.links_left[upper as usize] += 1;
                let above = &mut held.above[lower as usize];
                above[usize::from(above[0] != 0)] = upper;
            }
        }
        held
    }

    /// The key has gone: shows the keys that nothing holds any more.
    fn let_go(&mut self, key: u16, mut free: impl FnMut(u16)) {
        for upper in self.above[key as usize].into_iter().filter(|&upper| upper != 0) {
            let left = &mut self.links_left[upper as usize];
            *left -= 1;
            if *left == 0 {
                free(upper);
            }
        }
    }
}

/// Takes the keys from all their places.
fn clear(record: &mut [u8], tree: &Tree, keys: &[u16]) {
    let mut gone = KeySet::EMPTY;
    for &key in keys {
        gone.add(key);
    }
    let places: Vec<u16> =
        (0..).zip(&tree.nodes).filter(|(_, node)| gone.has(node.key)).map(|(number, _)| number).collect();
    mark(record, tree, &places, 0);
}
