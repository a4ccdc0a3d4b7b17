//! Holds the fast operations against the rules of documents 01 and 02, written down once more word by word on the term.

#[path = "literal/random.rs"]
mod random;

use random::Random;

#[derive(Clone)]
enum Term {
    Nil,
    Prefix(u8, u16, Box<Term>),
    Choice(Box<Term>, Box<Term>),
    Parallel(Box<Term>, Box<Term>),
    Restriction(u8, Box<Term>),
}
use Term::*;

#[derive(Clone, Copy, PartialEq)]
enum Way {
    Forward,
    Back,
}

/// A step's label and places.
type Step = (u8, Vec<u16>);

impl Term {
    /// This term and all below it.
    fn parts(&self) -> Vec<&Term> {
        let mut parts = vec![self];
        match self {
            Nil => (),
            Prefix(_, _, rest) | Restriction(_, rest) => parts.extend(rest.parts()),
            Choice(left, right) | Parallel(left, right) => {
                parts.extend(left.parts());
                parts.extend(right.parts());
            }
        }
        parts
    }

    /// Action and key of every done prefix.
    fn marks(&self) -> Vec<(u8, u16)> {
        let done = |part: &&Term| match part {
            Prefix(action, key, _) if *key != 0 => Some((*action, *key)),
            _ => None,
        };
        self.parts().iter().filter_map(done).collect()
    }

    fn keys(&self) -> Vec<u16> {
        self.marks().iter().map(|(_, key)| *key).collect()
    }

    fn times(&self, key: u16) -> usize {
        self.keys().iter().filter(|other| **other == key).count()
    }

    fn bytes(&self) -> Vec<u8> {
        match self {
            Nil => vec![0],
            Prefix(action, key, rest) => [vec![1, *action, (key >> 8) as u8, *key as u8], rest.bytes()].concat(),
            Choice(left, right) => [vec![2], left.bytes(), right.bytes()].concat(),
            Parallel(left, right) => [vec![3], left.bytes(), right.bytes()].concat(),
            Restriction(name, rest) => [vec![4, *name], rest.bytes()].concat(),
        }
    }

    /// Rules of a step; `at` is the number of this node.
    fn steps(&self, at: u16, m: u16, way: Way) -> Vec<Step> {
        match self {
            Nil => vec![],
            Prefix(action, n, rest) => {
                let own = if way == Way::Forward { 0 } else { m };
                let mut steps = Vec::new();
                if *n == own && rest.keys().is_empty() {
                    steps.push((*action, vec![at]));
                }
                if *n != 0 && m != *n {
                    steps.extend(rest.steps(at + 1, m, way));
                }
                steps
            }
            Choice(left, right) => {
                let mut steps = Vec::new();
                if right.keys().is_empty() {
                    steps.extend(left.steps(at + 1, m, way));
                }
                if left.keys().is_empty() {
                    steps.extend(right.steps(at + 1 + left.parts().len() as u16, m, way));
                }
                steps
            }
            Parallel(left, right) => {
                let lefts = left.steps(at + 1, m, way);
                let rights = right.steps(at + 1 + left.parts().len() as u16, m, way);
                let mut steps = Vec::new();
                for (a, p) in &lefts {
                    for (b, q) in &rights {
                        if *a != 0 && *b != 0 && a.abs_diff(*b) == 128 {
                            steps.push((0, [p.as_slice(), q].concat()));
                        }
                    }
                }
                if right.times(m) == 0 {
                    steps.extend(lefts);
                }
                if left.times(m) == 0 {
                    steps.extend(rights);
                }
                steps
            }
            Restriction(name, rest) => {
                let mut steps = rest.steps(at + 1, m, way);
                steps.retain(|(label, _)| label != name && *label != name + 128);
                steps
            }
        }
    }

    /// Which of the seven parts of soundness fail, each for itself.
    fn failing(&self) -> [bool; 7] {
        let (parts, marks) = (self.parts(), self.marks());
        let twice: Vec<u16> = self.keys().into_iter().filter(|key| self.times(*key) == 2).collect();
        let actions = |key: u16| marks.iter().filter(move |mark| mark.1 == key).map(|mark| mark.0);
        let complementary = |key: &u16| {
            let (a, b) = (actions(*key).next().unwrap(), actions(*key).nth(1).unwrap());
            a != 0 && b != 0 && a.abs_diff(b) == 128
        };
        let apart = |part: &&Term, key: u16| matches!(part, Parallel(l, r) if l.times(key) == 1 && r.times(key) == 1);
        let shut = |part: &&Term| match part {
            Restriction(name, rest) => {
                rest.marks().iter().all(|(action, key)| action & 127 != *name || rest.times(*key) == 2)
            }
            _ => true,
        };
        [
            parts.iter().any(|part| matches!(part, Prefix(_, 0, rest) if !rest.keys().is_empty())),
            parts.iter().any(|part| matches!(part, Choice(l, r) if !l.keys().is_empty() && !r.keys().is_empty())),
            !self.keys().iter().all(|key| self.times(*key) <= 2),
            !twice.iter().all(complementary),
            !twice.iter().all(|key| parts.iter().any(|part| apart(part, *key))),
            !parts.iter().all(shut),
            self.keys().iter().any(|key| self.reaches(*key).contains(key)),
        ]
    }

    /// One link: the keys other than m below a prefix that holds m.
    fn below(&self, m: u16) -> Vec<u16> {
        let mut keys = Vec::new();
        for part in self.parts() {
            if let Prefix(_, key, rest) = part {
                if *key == m {
                    keys.extend(rest.keys().into_iter().filter(|key| *key != m));
                }
            }
        }
        keys
    }

    /// Where chains of one link or more lead from m: one more link for every key, until no key is new.
    fn reaches(&self, m: u16) -> Vec<u16> {
        let mut keys = self.below(m);
        loop {
            let more: Vec<u16> =
                keys.iter().flat_map(|key| self.below(*key)).filter(|key| !keys.contains(key)).collect();
            if more.is_empty() {
                return keys;
            }
            keys.extend(more);
        }
    }

    /// The waiting list of m: where chains lead, without m itself, each key once, ascending.
    fn waits_for(&self, m: u16) -> Vec<u16> {
        let mut keys = self.reaches(m);
        keys.retain(|key| *key != m);
        keys.sort();
        keys.dedup();
        keys
    }

    /// This term with the key at these places; `at` is the number of this node.
    fn with_key(&self, at: u16, places: &[u16], key: u16) -> Term {
        let below = |at: u16, part: &Term| Box::new(part.with_key(at, places, key));
        match self {
            Nil => Nil,
            Prefix(action, old, rest) => {
                Prefix(*action, if places.contains(&at) { key } else { *old }, below(at + 1, rest))
            }
            Choice(left, right) => Choice(below(at + 1, left), below(at + 1 + left.parts().len() as u16, right)),
            Parallel(left, right) => Parallel(below(at + 1, left), below(at + 1 + left.parts().len() as u16, right)),
            Restriction(name, rest) => Restriction(*name, below(at + 1, rest)),
        }
    }

    /// Takes back m and its waiting list: each time the least of the keys still to go whose undo the rules allow.
    /// The keys in that order, and the term that is left.
    fn taken_back(&self, m: u16) -> (Vec<u16>, Term) {
        let mut still = self.waits_for(m);
        still.push(m);
        still.sort();
        let (mut order, mut term) = (Vec::new(), self.clone());
        while !still.is_empty() {
            let undo = |key: &u16| term.steps(0, *key, Way::Back).pop().map(|(_, places)| (*key, places));
            let (key, places) = still.iter().find_map(undo).expect("in a sound term one of them can go");
            term = term.with_key(0, &places, 0);
            still.retain(|other| *other != key);
            order.push(key);
        }
        (order, term)
    }
}

fn row_of(list: impl FnOnce(&mut [u16]) -> Result<usize, u8>) -> Vec<u16> {
    let mut row = [0; 64];
    let count = list(&mut row).unwrap();
    row[..count].to_vec()
}

#[test]
fn agrees_with_the_rules_as_written() {
    let mut random = Random(88172645463325252);
    for _ in 0..10_000 {
        let size = 2 + random.below(14);
        let keys = [0, 2, 4, 6][random.below(4) as usize];
        let term = random.term(size, keys);
        let bytes = term.bytes();
        let nodes = term.parts().len() as u16;
        let failing = term.failing();
        let lowest = failing.iter().position(|fails| *fails).map_or(0, |number| number as u8 + 1);
        assert_eq!(reference::verdict(&bytes), Ok(lowest), "{bytes:02x?}");
        assert_eq!(reference::failing(&bytes), Ok(failing), "{bytes:02x?}");
        check_forward(&term, &bytes, nodes);
        let mut undoable = Vec::new();
        for key in 1..7 {
            let undos = term.steps(0, key, Way::Back);
            assert!(undos.len() <= 1, "at most one undo: {bytes:02x?}");
            let expected = match undos.first() {
                _ if term.times(key) == 0 => Err(7),
                None => Err(8),
                Some((label, _)) => Ok(*label),
            };
            let mut after = bytes.clone();
            assert_eq!(reference::undo(&mut after, key), expected, "undo {key}: {bytes:02x?}");
            let cleared = undos.first().map_or(0, |(_, places)| places.len());
            let left = reference::walk(&after).unwrap().iter().filter(|node| node.key() == key).count();
            assert_eq!(left, term.times(key) - cleared, "undo {key}: {bytes:02x?}");
            undoable.extend(undos.first().map(|_| key));
            if term.times(key) > 0 {
                assert_eq!(row_of(|row| reference::waiting(&bytes, key, row)), term.waits_for(key), "{bytes:02x?}");
            }
        }
        assert_eq!(row_of(|row| reference::undo_listing(&bytes, row)), undoable, "{bytes:02x?}");
        (0..8).for_each(|key| check_take_back(&term, lowest == 0, key));
    }
}

#[test]
fn takes_back_what_stands_on_a_key_in_the_order_of_its_undos() {
    let mut random = Random(88172645463325252);
    for _ in 0..3_000 {
        let size = 2 + random.below(30);
        let term = random.sound(size, 12);
        assert_eq!(reference::verdict(&term.bytes()), Ok(0), "{:02x?}", term.bytes());
        (0..=13).for_each(|key| check_take_back(&term, true, key));
    }
}

/// What stood in the way of key 1: the technician's record (02, [5]) and the examples of 01.
#[test]
fn the_waiting_list_follows_the_chain() {
    let prefix = |action: u8, key: u16, rest: Term| Prefix(action, key, rest.into());
    let chain = Parallel(prefix(1, 1, prefix(2, 2, Nil)).into(), prefix(130, 2, prefix(3, 3, Nil)).into());
    for (term, key, list) in [
        (&chain, 1, vec![2, 3]),
        (&chain, 2, vec![3]),
        (&chain, 3, vec![]),
        (&prefix(1, 1, prefix(2, 2, Nil)), 1, vec![2]),
        (&prefix(1, 1, prefix(2, 2, Nil)), 2, vec![]),
    ] {
        assert_eq!(term.waits_for(key), list);
        assert_eq!(row_of(|row| reference::waiting(&term.bytes(), key, row)), list);
    }
}

/// Refused for its causes in their order, or done by the rule. A row just long enough will do, a shorter one not.
fn check_take_back(term: &Term, sound: bool, key: u16) {
    let before = term.bytes();
    let refused = |refusal: u8| (Err(refusal), vec![], before.clone());
    let (answer, order, after) = match key {
        0 => refused(3),
        _ if !sound => refused(13),
        _ if term.times(key) == 0 => refused(7),
        _ => {
            let (order, left) = term.taken_back(key);
            (Ok(order.len()), order, left.bytes())
        }
    };
    let taken_back = |length: usize| {
        let (mut bytes, mut row) = (before.clone(), vec![7777; length]);
        let answer = reference::take_back(&mut bytes, key, &mut row);
        (answer, bytes, row)
    };
    for spare in [0, 3] {
        let right = (answer, after.clone(), [order.as_slice(), &vec![7777; spare]].concat());
        assert_eq!(taken_back(order.len() + spare), right, "take back {key}: {before:02x?}");
    }
    if let Some(short) = order.len().checked_sub(1) {
        assert_eq!(taken_back(short), (Err(9), before.clone(), vec![7777; short]), "take back {key}: {before:02x?}");
    }
}

/// Every pair of places: taken exactly if the rules have it, and found in order.
fn check_forward(term: &Term, bytes: &[u8], nodes: u16) {
    let key = reference::least_free(bytes).unwrap();
    assert!(key == 1 || term.times(key - 1) > 0);
    assert_eq!(term.times(key), 0);
    let mut steps: Vec<(u16, u16, u8)> = Vec::new();
    for (label, places) in term.steps(0, key, Way::Forward) {
        steps.push((places[0], places.get(1).copied().unwrap_or(0), label));
    }
    steps.sort();
    let mut listed = Vec::new();
    reference::for_each_step(bytes, |p, q, label| listed.push((p, q, label))).unwrap();
    assert_eq!(listed, steps, "{bytes:02x?}");
    for p in 0..=nodes {
        for q in 0..=nodes {
            let step = steps.iter().find(|step| (step.0, step.1) == (p, q));
            let answer = reference::forward(&mut bytes.to_vec(), p, q, key);
            assert_eq!(answer.ok(), step.map(|step| step.2), "{p} {q}: {bytes:02x?}");
            let first = steps.iter().find(|step| (step.0, step.1) >= (p, q));
            assert_eq!(reference::first(bytes, p, q), Ok(first.copied()), "{p} {q}: {bytes:02x?}");
        }
    }
}
