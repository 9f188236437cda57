//! A pattern made ready to be taken from many entries.

use super::{Node, Set, PATTERN};
use crate::vocabulary::{Usable, Words, ONES};

/// The first name; words are below.
const NAME: u8 = 128;

/// The words of each kind that stand in complete situations, and for each word
/// its kind and whether it has such other words beside it.
pub struct Kinds {
    words: [Set; 16],
    kinds: [u8; 128],
    lists: [bool; 256],
    usable: Option<Usable>,
}

impl Kinds {
    pub fn new<const W: usize>(words: &Words<W>, usable: Option<&Usable>) -> Self {
        let mut all = Kinds {
            words: [0; 16],
            kinds: [0; 128],
            lists: [false; 256],
            usable: usable.copied(),
        };
        let facts = &words.facts[..words.words as usize];
        for (number, facts) in facts.iter().enumerate() {
            let kind = *facts as u8 & 15;
            all.words[kind as usize] |= 1 << number;
            all.kinds[number & 127] = kind;
        }
        if let Some(usable) = usable {
            all.words.iter_mut().for_each(|set| *set &= usable.words);
        }
        for number in 0..facts.len() {
            all.lists[number] = all.others(number as u8) != 0;
        }
        all
    }

    /// Whether a kind has complete situations.
    #[inline(always)]
    pub fn has(&self, kind: u8) -> bool {
        self.usable.is_none_or(|usable| usable.has(kind))
    }

    /// Whether a complete situation fits a pattern of a kind that has some.
    #[inline(always)]
    pub fn fits(&self, pattern: &[u8]) -> bool {
        self.usable.is_none_or(|usable| usable.fits(pattern))
    }

    /// The other words of the same kind.
    #[inline(always)]
    pub fn others(&self, word: u8) -> Set {
        let kind = self.kinds[word as usize & 127];
        self.words[kind as usize & 15] & !(1 << (word & 127))
    }
}

/// A node of a pattern.
#[derive(Clone, Copy)]
pub struct Step {
    pub node: Node,
    /// The number of the first node behind this one's term.
    pub end: u16,
    /// How many of the nodes before this one list other words.
    pub listed: u16,
}

/// The nodes of a pattern with its names written as open places, and one step
/// more; no step at all if every situation fits.
pub struct Pattern {
    pub steps: Vec<Step>,
}

impl Pattern {
    pub fn new() -> Self {
        Pattern {
            steps: Vec::with_capacity(32),
        }
    }

    /// Takes the first pattern of these bytes, and gives what stands behind it.
    pub fn load<'a>(&mut self, kinds: &Kinds, bytes: &'a [u8]) -> &'a [u8] {
        self.steps.clear();
        self.steps.reserve(bytes.len().min(PATTERN) / 2 + 1);
        let mut rest = &bytes[1..];
        let (mut due, mut names, mut listed) = (1, 0, 0);
        while due > 0 {
            let (node, tail) = match rest {
                [word, map, tail @ ..] if *word < NAME => ([*word, *map], tail),
                [name, tail @ ..] => ([*name, 0], tail),
                [] => break,
            };
            let end = 0;
            self.steps.push(Step { node, end, listed });
            names += (node[0] >= NAME) as usize;
            listed += kinds.lists[node[0] as usize] as u16;
            due += ONES[node[1] as usize] as usize;
            due -= 1;
            rest = tail;
        }
        self.steps.push(Step {
            node: [0, 0],
            end: 0,
            listed,
        });
        self.find_ends();
        if names > 0 {
            self.open_names();
        }
        rest
    }

    /// Notes for each node where its term ends: where fewer terms are due than
    /// before it.
    #[inline(always)]
    fn find_ends(&mut self) {
        let Some((_, nodes)) = self.steps.split_last_mut() else {
            return;
        };
        // The first node, of those behind, before which so many terms are due.
        let mut first = [0u16; 256];
        first[0] = nodes.len() as u16;
        let mut due = 0u8;
        for (number, step) in nodes.iter_mut().enumerate().rev() {
            due = due
                .wrapping_add(1)
                .wrapping_sub(ONES[step.node[1] as usize]);
            step.end = first[due.wrapping_sub(1) as usize];
            first[due as usize] = number as u16;
        }
    }

    /// Makes the places of names open, and drops the names.
    #[inline(never)]
    fn open_names(&mut self) {
        let steps = &mut self.steps;
        if steps[0].node[0] >= NAME {
            return steps.clear();
        }
        for number in 0..steps.len() {
            let mut left = steps[number].node[1];
            let mut at = number + 1;
            while left != 0 {
                let place = left & left.wrapping_neg();
                if steps[at].node[0] >= NAME {
                    steps[number].node[1] &= !place;
                }
                at = steps[at].end as usize;
                left &= !place;
            }
        }
        steps.retain(|step| step.node[0] < NAME);
        self.find_ends();
    }

    /// How many nodes of the term at a node list other words.
    #[inline(always)]
    pub fn lists(&self, at: usize) -> usize {
        let step = self.steps[at];
        (self.steps[step.end as usize].listed - step.listed) as usize
    }
}
