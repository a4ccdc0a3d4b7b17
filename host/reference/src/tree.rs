//! The term of a record as a table of nodes, and what the rules ask of a place.

use crate::record::{scan, CHOICE, DEPTH_LIMIT, NODE_LIMIT, PREFIX, RESTRICTION};
use crate::{name, Refusal};

/// Stands for "no node", as the parent of the root or as a restriction that is not there.
pub const NONE: u16 = u16::MAX;

pub struct Node {
    pub kind: u8,
    /// Action of a prefix, name of a restriction, else 0.
    pub action: u8,
    /// Key of a prefix, else 0.
    pub key: u16,
    pub offset: u16,
    pub depth: u16,
    pub parent: u16,
    /// The number of the first node after this one's last descendant.
    pub end: u16,
}

pub struct Tree {
    pub nodes: Vec<Node>,
    /// done[i]: how many prefixes before node i hold a key.
    done: Vec<u16>,
}

impl Tree {
    pub fn read(record: &[u8]) -> Result<Tree, Refusal> {
        let room = record.len().min(NODE_LIMIT);
        let mut nodes: Vec<Node> = Vec::with_capacity(room);
        let mut done = Vec::with_capacity(room + 1);
        let mut marked = 0;
        let mut path = [NONE; DEPTH_LIMIT + 1];
        scan(record, |shown| {
            let number = nodes.len() as u16;
            let key = shown.key();
            path[shown.depth] = number;
            done.push(marked);
            marked += u16::from(key != 0);
            nodes.push(Node {
                kind: shown.kind,
                action: shown.body.first().copied().unwrap_or(0),
                key,
                offset: shown.offset as u16,
                depth: shown.depth as u16,
                parent: path[shown.depth - 1],
                end: number + 1,
            });
        })?;
        done.push(marked);
        for i in (1..nodes.len()).rev() {
            let (parent, end) = (nodes[i].parent as usize, nodes[i].end);
            nodes[parent].end = nodes[parent].end.max(end);
        }
        Ok(Tree { nodes, done })
    }

    pub fn node(&self, number: u16) -> &Node {
        &self.nodes[number as usize]
    }

    pub fn is_prefix(&self, number: u16) -> bool {
        self.nodes.get(number as usize).is_some_and(|node| node.kind == PREFIX)
    }

    /// Does any prefix from node `from` to the one before `to` hold a key?
    fn any_key(&self, from: u16, to: u16) -> bool {
        self.done[from as usize] != self.done[to as usize]
    }

    /// Does anything below this node hold a key?
    pub fn key_below(&self, number: u16) -> bool {
        self.any_key(number + 1, self.node(number).end)
    }

    /// Both children of a choice hold keys.
    pub fn both_sides_hold(&self, choice: u16) -> bool {
        let right = self.node(choice + 1).end;
        self.any_key(choice + 1, right) && self.any_key(right, self.node(choice).end)
    }

    /// Does this node's parent let a step through from it, whatever the label? A prefix must be done; in a choice
    /// the other side must hold no key. Restrictions, and keys met on the way, are looked at elsewhere.
    fn parent_lets_through(&self, number: u16) -> bool {
        let node = self.node(number);
        let Some(parent) = self.nodes.get(node.parent as usize) else { return true };
        match parent.kind {
            PREFIX => parent.key != 0,
            CHOICE => !self.any_key(node.parent, number) && !self.any_key(node.end, parent.end),
            _ => true,
        }
    }

    /// Every prefix above the node is done and every choice above it holds no key on its other side.
    pub fn is_open(&self, mut number: u16) -> bool {
        while number != NONE {
            if !self.parent_lets_through(number) {
                return false;
            }
            number = self.node(number).parent;
        }
        true
    }

    /// The nearest restriction above a prefix on the name of its action, or NONE.
    pub fn hiding(&self, place: u16) -> u16 {
        let hidden = name(self.node(place).action);
        let mut above = self.node(place).parent;
        while above != NONE && !(self.node(above).kind == RESTRICTION && self.node(above).action == hidden) {
            above = self.node(above).parent;
        }
        above
    }

    /// The key of the nearest done prefix above the node.
    pub fn key_above(&self, number: u16) -> Option<u16> {
        let mut above = self.node(number).parent;
        while above != NONE && self.node(above).key == 0 {
            above = self.node(above).parent;
        }
        (above != NONE).then(|| self.node(above).key)
    }

    /// The deepest node that holds both p and q, p before q.
    pub fn meet(&self, p: u16, q: u16) -> u16 {
        let mut above = q;
        while above > p {
            above = self.node(above).parent;
        }
        above
    }

    /// `is_open` of every node and `hiding` of every prefix, in one pass.
    pub fn paths(&self) -> Paths {
        let mut paths = Paths { open: Vec::with_capacity(self.nodes.len()), hiding: vec![NONE; self.nodes.len()] };
        let mut nearest = [NONE; 128];
        // Restrictions entered and not yet left: the node and what `nearest` held before it.
        let mut entered: Vec<(u16, u16)> = Vec::new();
        for (i, node) in self.nodes.iter().enumerate() {
            let number = i as u16;
            while let Some(&(restriction, before)) = entered.last() {
                if number < self.node(restriction).end {
                    break;
                }
                nearest[self.node(restriction).action as usize] = before;
                entered.pop();
            }
            let above = node.parent == NONE || paths.open[node.parent as usize];
            paths.open.push(above && self.parent_lets_through(number));
            if node.kind == PREFIX {
                paths.hiding[i] = nearest[name(node.action) as usize];
            } else if node.kind == RESTRICTION {
                entered.push((number, nearest[node.action as usize]));
                nearest[node.action as usize] = number;
            }
        }
        paths
    }
}

/// What stands above each node.
pub struct Paths {
    pub open: Vec<bool>,
    pub hiding: Vec<u16>,
}
