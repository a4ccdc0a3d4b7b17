//! The forward steps of a record in the order of their places (01, Operations: first forward step).

use std::ops::ControlFlow;

use crate::record::{PARALLEL, PREFIX};
use crate::tree::{Paths, Tree, NONE};
use crate::{complement, Refusal, TAU};

/// The first forward step at or after (p, q) with the least free key: its places and label.
pub fn first(record: &[u8], p: u16, q: u16) -> Result<Option<(u16, u16, u8)>, Refusal> {
    let tree = Tree::read(record)?;
    let found = steps_from(&tree, p, q, |p, q, label| ControlFlow::Break((p, q, label)));
    Ok(found.break_value())
}

/// Shows every forward step with a free key in order.
pub fn for_each_step(record: &[u8], mut show: impl FnMut(u16, u16, u8)) -> Result<(), Refusal> {
    let tree = Tree::read(record)?;
    let _ = steps_from(&tree, 0, 0, |p, q, label| {
        show(p, q, label);
        ControlFlow::<()>::Continue(())
    });
    Ok(())
}

/// The prefixes that could step, sorted into groups: those of one action with the same restriction over them.
/// Two places join exactly if they stand in opposite groups and meet at a parallel.
struct Groups<'a> {
    tree: &'a Tree,
    paths: Paths,
    /// The places group by group, ascending in each.
    members: Vec<u16>,
    /// ends[g]: where group g ends in `members`, and the next begins.
    ends: Vec<u16>,
}

impl<'a> Groups<'a> {
    fn new(tree: &'a Tree) -> Groups<'a> {
        let nodes = tree.nodes.len();
        let mut groups = Groups { tree, paths: tree.paths(), members: Vec::new(), ends: vec![0; 257 + 2 * nodes] };
        let places: Vec<u16> = (0..nodes as u16).filter(|&place| groups.could_step(place)).collect();
        let group_of = |groups: &Groups, place: u16| groups.group(place, tree.node(place).action);
        // A counting sort: how many in each group, where each begins, then each place at its own.
        for &place in &places {
            let group = group_of(&groups, place);
            groups.ends[group + 1] += 1;
        }
        for group in 1..groups.ends.len() {
            groups.ends[group] += groups.ends[group - 1];
        }
        groups.members = vec![0; places.len()];
        for place in places {
            let group = group_of(&groups, place);
            groups.members[groups.ends[group] as usize] = place;
            groups.ends[group] += 1;
        }
        groups
    }

    fn could_step(&self, place: u16) -> bool {
        let node = self.tree.node(place);
        node.kind == PREFIX && node.key == 0 && self.paths.open[place as usize] && !self.tree.key_below(place)
    }

    /// The group of an action under the restriction that hides this place.
    fn group(&self, place: u16, action: u8) -> usize {
        match self.paths.hiding[place as usize] {
            NONE => action as usize,
            restriction => 256 + 2 * restriction as usize + usize::from(action >= 128),
        }
    }

    /// The members of a group from this place on.
    fn from(&self, group: usize, place: u16) -> &[u16] {
        let begin = if group == 0 { 0 } else { self.ends[group - 1] };
        let members = &self.members[begin as usize..self.ends[group] as usize];
        &members[members.partition_point(|&member| member < place)..]
    }
}

/// Shows the forward steps at or after (p, q) in order, until `show` breaks off.
pub fn steps_from<B>(
    tree: &Tree,
    p: u16,
    q: u16,
    mut show: impl FnMut(u16, u16, u8) -> ControlFlow<B>,
) -> ControlFlow<B> {
    let groups = Groups::new(tree);
    for place in p..tree.nodes.len() as u16 {
        if !groups.could_step(place) {
            continue;
        }
        let least = if place == p { q } else { 0 };
        let action = tree.node(place).action;
        if least == 0 && groups.paths.hiding[place as usize] == NONE {
            show(place, 0, action)?;
        }
        let Some(opposite) = complement(action) else { continue };
        let mut others = groups.from(groups.group(place, opposite), least.max(place + 1));
        let mut meet = place;
        while let [other, rest @ ..] = others {
            while tree.node(meet).end <= *other {
                meet = tree.node(meet).parent;
            }
            if tree.node(meet).kind == PARALLEL {
                show(place, *other, TAU)?;
                others = rest;
            } else {
                // Two sides of a choice: nothing there joins.
                others = &others[others.partition_point(|&other| other < tree.node(meet).end)..];
            }
        }
    }
    ControlFlow::Continue(())
}
