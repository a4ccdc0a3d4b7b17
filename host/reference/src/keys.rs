//! What the keys of a record tell: their number, the least free one, undo listing, waiting list, blank form.

use crate::record::{scan, DEPTH_LIMIT, PARALLEL};
use crate::tree::{Paths, Tree, NONE};
use crate::{complement, Refusal, KEY_ABSENT, KEY_ZERO, ROW_SHORT, TAU};

/// One bit for each 16-bit number.
pub struct KeySet([u64; 1024]);

impl KeySet {
    pub const EMPTY: KeySet = KeySet([0; 1024]);

    /// The keys other than 0 that stand in the record, and how many they are.
    fn of(record: &[u8]) -> Result<(KeySet, u16), Refusal> {
        let mut set = KeySet::EMPTY;
        let mut count = 0;
        scan(record, |node| {
            let key = node.key();
            if key != 0 && set.add(key) {
                count += 1;
            }
        })?;
        Ok((set, count))
    }

    pub fn has(&self, key: u16) -> bool {
        self.0[key as usize / 64] >> (key % 64) & 1 == 1
    }

    /// Puts the key in; true if it was not in before.
    pub fn add(&mut self, key: u16) -> bool {
        let new = !self.has(key);
        self.0[key as usize / 64] |= 1 << (key % 64);
        new
    }
}

/// The number of distinct keys.
pub fn count(record: &[u8]) -> Result<u16, Refusal> {
    KeySet::of(record).map(|(_, count)| count)
}

/// The least number from 1 on that stands nowhere as a key.
pub fn least_free(record: &[u8]) -> Result<u16, Refusal> {
    let (set, _) = KeySet::of(record)?;
    Ok((1..=u16::MAX).find(|&key| !set.has(key)).expect("there are fewer nodes than keys"))
}

/// Every key becomes 0; answers the number of distinct keys removed.
pub fn blank(record: &mut [u8]) -> Result<u16, Refusal> {
    let (_, count) = KeySet::of(record)?;
    let mut done = Vec::new();
    scan(record, |node| {
        if node.key() != 0 {
            done.push(node.offset)
        }
    })?;
    for offset in done {
        record[offset + 2..offset + 4].fill(0);
    }
    Ok(count)
}

/// The keys whose undo is allowed, ascending, into the row; answers how many.
pub fn undo_listing(record: &[u8], row: &mut [u16]) -> Result<usize, Refusal> {
    let tree = Tree::read(record)?;
    let keys: Vec<u16> = undos(&tree).into_iter().map(|(key, _)| key).collect();
    fill(row, &keys)
}

/// The keys other than this one that chains lead to from it, ascending, into the row; answers how many.
pub fn waiting(record: &[u8], key: u16, row: &mut [u16]) -> Result<usize, Refusal> {
    let (links, stands) = Links::of(record, key)?;
    if key == 0 {
        return Err(KEY_ZERO);
    }
    if !stands {
        return Err(KEY_ABSENT);
    }
    let mut reached = links.reached(key);
    let list = &mut reached[1..];
    list.sort_unstable();
    fill(row, list)
}

/// The links of a record: from each key to the keys right below its prefixes. Keys further down need no link from it:
/// they are linked to those between.
pub struct Links {
    /// Each link: the lower key, and one more than the place of the upper key's link before this one. A key with none
    /// above it is linked to 0, which no chain meets.
    links: Vec<(u16, u16)>,
    /// For each upper key one more than the place of its last link.
    last: Vec<u16>,
}

impl Links {
    /// The links of the record, and whether this key stands in it.
    pub fn of(record: &[u8], key: u16) -> Result<(Links, bool), Refusal> {
        // above[d]: the nearest key at depth d or above it on the way to the present node; 0 if there is none.
        let mut above = [0u16; DEPTH_LIMIT + 1];
        let mut links: Vec<(u16, u16)> = Vec::new();
        let mut last = vec![0u16; 1 << 16];
        let mut stands = false;
        scan(record, |node| {
            let upper = above[node.depth - 1];
            above[node.depth] = upper;
            if node.key() != 0 {
                above[node.depth] = node.key();
                stands |= node.key() == key;
                links.push((node.key(), last[upper as usize]));
                last[upper as usize] = links.len() as u16;
            }
        })?;
        Ok((Links { links, last }, stands))
    }

    /// The key itself, then the others that chains lead to from it, in the order in which they are first met.
    pub fn reached(&self, key: u16) -> Vec<u16> {
        let mut met = KeySet::EMPTY;
        met.add(key);
        let mut reached = vec![key];
        let mut done = 0;
        while let Some(&upper) = reached.get(done) {
            done += 1;
            reached.extend(self.right_below(upper).filter(|&lower| met.add(lower)));
        }
        reached
    }

    /// The keys that this one has a link to, one for each link.
    pub fn right_below(&self, upper: u16) -> impl Iterator<Item = u16> + '_ {
        let mut link = self.last[upper as usize];
        std::iter::from_fn(move || {
            let (lower, before) = self.links[(link as usize).checked_sub(1)?];
            link = before;
            Some(lower)
        })
    }
}

/// The list goes to the front of the row; the rest of the row stays.
pub fn fill(row: &mut [u16], list: &[u16]) -> Result<usize, Refusal> {
    row.get_mut(..list.len()).ok_or(ROW_SHORT)?.copy_from_slice(list);
    Ok(list.len())
}

/// Where a key stands.
pub struct Standing {
    pub key: u16,
    /// At how many places.
    pub times: u16,
    pub first: u16,
    /// The second place, or NONE.
    pub second: u16,
    /// The deepest node that holds both, or NONE.
    pub meet: u16,
}

/// Each key with its places, in the order of first appearance.
pub fn standings(tree: &Tree) -> Vec<Standing> {
    let mut standings: Vec<Standing> = Vec::new();
    // For each key one more than its place in `standings`.
    let mut met = vec![0u16; 1 << 16];
    // path[d]: the node at depth d above the present one.
    let mut path = [0u16; DEPTH_LIMIT + 1];
    for (i, node) in tree.nodes.iter().enumerate() {
        let (number, key, depth) = (i as u16, node.key, node.depth as usize);
        path[depth] = number;
        if key == 0 {
            continue;
        }
        match met[key as usize] {
            0 => {
                standings.push(Standing { key, times: 1, first: number, second: NONE, meet: NONE });
                met[key as usize] = standings.len() as u16;
            }
            at => {
                let standing = &mut standings[at as usize - 1];
                standing.times += 1;
                if standing.times == 2 {
                    standing.second = number;
                    let above = path[1..=depth].partition_point(|&above| above <= standing.first);
                    standing.meet = path[above];
                }
            }
        }
    }
    standings
}

/// The keys whose undo is allowed, ascending, each with its label.
pub fn undos(tree: &Tree) -> Vec<(u16, u8)> {
    let paths = tree.paths();
    let mut allowed: Vec<(u16, u8)> = standings(tree)
        .iter()
        .filter_map(|standing| Some((standing.key, undo_label(tree, &paths, standing)?)))
        .collect();
    allowed.sort_unstable();
    allowed
}

/// The label of a key's undo, if there is one: every place steps, and one place is not hidden or two places join.
fn undo_label(tree: &Tree, paths: &Paths, standing: &Standing) -> Option<u8> {
    let steps = |place: u16| !tree.key_below(place) && paths.open[place as usize];
    let (p, q) = (standing.first, standing.second);
    match standing.times {
        1 => (steps(p) && paths.hiding[p as usize] == NONE).then_some(tree.node(p).action),
        2 => {
            let complementary = complement(tree.node(p).action) == Some(tree.node(q).action);
            let joined = tree.node(standing.meet).kind == PARALLEL;
            let shown = paths.hiding[p as usize] == paths.hiding[q as usize];
            (steps(p) && steps(q) && complementary && joined && shown).then_some(TAU)
        }
        _ => None,
    }
}
