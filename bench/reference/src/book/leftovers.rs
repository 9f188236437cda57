//! What the patterns of a book leave over.
//!
//! Entries that differ only in words without written places are held as one
//! bundle, in which such a word is a choice from a set. A pattern replaces the
//! bundles that it strikes. Entries are told apart when they are written.

use super::pattern::{Kinds, Pattern};
use super::places::{Due, Places};
use super::{Node, Set};
use crate::vocabulary::ONES;
use std::mem;
use std::ops::Range;

/// The most nodes of an entry, and the most bytes of all entries.
const NODES: usize = 2047;
const BYTES: u64 = 32_768;

/// Stands in a node for each word of a set, with written map 0.
const CHOICE: u8 = 255;

/// Entries that are alike but for their choices.
#[derive(Clone, Copy)]
struct Bundle {
    /// Where its nodes begin, and how many there are: none for the entry 255.
    start: usize,
    nodes: usize,
    /// Where its choices begin, and how many there are.
    first: usize,
    choices: usize,
    entries: u64,
}

impl Bundle {
    #[inline(always)]
    fn nodes(&self) -> Range<usize> {
        self.start..self.start + self.nodes
    }

    #[inline(always)]
    fn choices(&self) -> Range<usize> {
        self.first..self.first + self.choices
    }
}

/// A node of a bundle, counted from its first, that has each word of a set:
/// two words or more.
#[derive(Clone, Copy)]
struct Choice {
    node: usize,
    words: Set,
}

/// How many nodes the first term has.
#[inline(always)]
fn size(nodes: &[Node]) -> usize {
    let mut due = 1;
    for (number, [_, map]) in nodes.iter().enumerate() {
        due += ONES[*map as usize] as usize;
        due -= 1;
        if due == 0 {
            return number + 1;
        }
    }
    nodes.len()
}

/// A word without written places, or a choice from several.
#[inline(always)]
fn node(words: Set) -> Node {
    if words.is_power_of_two() {
        [words.trailing_zeros() as u8, 0]
    } else {
        [CHOICE, 0]
    }
}

/// What is left over.
pub struct Leftovers {
    kind: u8,
    /// The nodes of all bundles, those of each behind one with the kind byte,
    /// and the choices of all bundles. What was struck stays in both.
    nodes: Vec<Node>,
    choices: Vec<Choice>,
    bundles: Vec<Bundle>,
    /// The number of entries and bytes after the last pattern.
    pub entries: u64,
    pub bytes: u64,
    /// Which words a pattern takes from the choices of a bundle.
    taken: Vec<(usize, u8)>,
    /// What a struck bundle and the pattern both allow, as far as they are
    /// passed, behind a node for the root's place; and the choices in it.
    shown: Vec<Node>,
    passed: Vec<Choice>,
}

impl Leftovers {
    /// The entry 255 alone.
    pub fn new(kind: u8) -> Self {
        let any = Bundle {
            start: 0,
            nodes: 0,
            first: 0,
            choices: 0,
            entries: 1,
        };
        let mut bundles = Vec::with_capacity(16);
        bundles.push(any);
        Leftovers {
            kind,
            nodes: Vec::with_capacity(128),
            choices: Vec::new(),
            bundles,
            entries: 1,
            bytes: 2,
            taken: Vec::new(),
            shown: Vec::with_capacity(32),
            passed: Vec::new(),
        }
    }

    pub fn is_empty(&self) -> bool {
        self.bundles.is_empty()
    }

    /// Replaces each bundle that shares a situation with the pattern, or gives
    /// nothing if the entries become too long.
    pub fn strike(&mut self, kinds: &Kinds, pattern: &Pattern) -> Option<()> {
        (self.entries, self.bytes) = (0, 0);
        if pattern.steps.is_empty() {
            self.bundles.clear();
            return Some(());
        }
        let before = self.bundles.len();
        let mut around = [Due::default(); 32];
        let mut kept = 0;
        for number in 0..before {
            let bundle = self.bundles[number];
            match self.meet(&bundle, pattern, &mut around) {
                None => {
                    self.count(&bundle)?;
                    self.bundles[kept] = bundle;
                    kept += 1;
                }
                Some(lists) => {
                    let bundle = self.take(bundle)?;
                    self.split(&bundle, kinds, pattern, lists, &mut around)?;
                }
            }
        }
        self.bundles.drain(kept..before);
        Some(())
    }

    /// Counts the entries of a bundle, if they are not too long.
    #[inline(always)]
    fn count(&mut self, bundle: &Bundle) -> Option<()> {
        self.entries += bundle.entries;
        self.bytes += bundle.entries * (1 + 2 * bundle.nodes as u64);
        (bundle.nodes <= NODES && self.bytes <= BYTES).then_some(())
    }

    #[inline(always)]
    fn push(&mut self, bundle: Bundle) -> Option<()> {
        self.bundles.push(bundle);
        self.count(&bundle)
    }

    /// Nothing if no entry of the bundle shares a situation with the pattern.
    /// Else how many nodes of the pattern list other words at places that the
    /// bundle leaves open, and in `taken` what the pattern takes from choices.
    #[inline(always)]
    fn meet(
        &mut self,
        bundle: &Bundle,
        pattern: &Pattern,
        around: &mut [Due; 32],
    ) -> Option<usize> {
        let nodes = &self.nodes[bundle.nodes()];
        let mut places = Places::new(bundle.nodes > 0, around);
        self.taken.clear();
        let (mut from, mut at, mut lists) = (0, 0, 0);
        while let Some(place) = places.next() {
            let step = pattern.steps[at];
            if !place.pattern {
                from += size(&nodes[from..]);
            } else if !place.entry {
                lists += pattern.lists(at);
                at = step.end as usize;
            } else {
                let [word, map] = nodes[from];
                let [other, written] = step.node;
                if word == CHOICE {
                    let choices = &self.choices[bundle.choices()];
                    let number = choices.iter().position(|choice| choice.node == from)?;
                    if choices[number].words >> (other & 127) & 1 == 0 {
                        return None;
                    }
                    self.taken.push((number, other));
                } else if word != other {
                    return None;
                }
                from += 1;
                at += 1;
                places.enter(0, map, written);
            }
        }
        Some(lists)
    }

    /// Keeps the entries of a bundle that have other words than those taken,
    /// and gives the struck ones.
    #[inline(always)]
    fn take(&mut self, mut bundle: Bundle) -> Option<Bundle> {
        for number in 0..self.taken.len() {
            // The choices before this one are gone.
            let (choice, word) = self.taken[number];
            let (choice, word) = (choice - number, 1 << (word & 127));
            let others = self.choices[bundle.first + choice].words & !word;
            let kept = self.narrow(&bundle, choice, others);
            self.push(kept)?;
            bundle = self.narrow(&bundle, choice, word);
        }
        Some(bundle)
    }

    /// The entries of a bundle that have one of these words at a choice.
    fn narrow(&mut self, bundle: &Bundle, choice: usize, words: Set) -> Bundle {
        let before = self.choices[bundle.first + choice];
        let (start, first) = (self.begin(), self.choices.len());
        self.nodes.extend_from_within(bundle.nodes());
        self.nodes[start + before.node] = node(words);
        self.choices.extend_from_within(bundle.choices());
        if words.is_power_of_two() {
            self.choices.remove(first + choice);
        } else {
            self.choices[first + choice].words = words;
        }
        let parts = before.words.count_ones() as u64;
        Bundle {
            start,
            nodes: bundle.nodes,
            first,
            choices: self.choices.len() - first,
            entries: bundle.entries / parts * words.count_ones() as u64,
        }
    }

    /// Begins a bundle with the kind byte, and gives where its nodes begin.
    #[inline(always)]
    fn begin(&mut self) -> usize {
        self.nodes.push([0, self.kind]);
        self.nodes.len()
    }

    /// Adds a struck bundle's own leftovers against the pattern, which lists
    /// other words at so many nodes.
    #[inline(always)]
    fn split(
        &mut self,
        bundle: &Bundle,
        kinds: &Kinds,
        pattern: &Pattern,
        mut lists: usize,
        around: &mut [Due; 32],
    ) -> Option<()> {
        let mut places = Places::new(bundle.nodes > 0, around);
        self.shown.clear();
        self.shown.push([0, 0]);
        self.passed.clear();
        let (mut from, mut at) = (0, 0);
        while lists > 0 {
            let place = places.next()?;
            let step = pattern.steps[at];
            let [word, written] = step.node;
            if !place.pattern {
                from += self.show(bundle, from);
                continue;
            }
            if place.entry {
                let [_, map] = self.nodes[bundle.start + from];
                places.enter(self.shown.len(), map, written);
                self.shown.push([word, map]);
                from += 1;
                at += 1;
                continue;
            }
            // Open in the bundle. The words around have their lower places as
            // both allow, this one, and the bundle's higher ones.
            self.shown[places.due.node as usize][1] |= place.bit as u8;
            if pattern.lists(at) == 0 {
                let term = &pattern.steps[at..step.end as usize];
                self.shown.extend(term.iter().map(|step| step.node));
                at = step.end as usize;
                continue;
            }
            let others = kinds.others(word);
            if others != 0 {
                self.add(bundle, from, others)?;
                lists -= 1;
            }
            places.enter(self.shown.len(), 0, written);
            self.shown.push([word, 0]);
            at += 1;
        }
        Some(())
    }

    /// Shows a term of the bundle, and gives its size.
    #[inline(always)]
    fn show(&mut self, bundle: &Bundle, from: usize) -> usize {
        let nodes = &self.nodes[bundle.nodes()][from..];
        let size = size(nodes);
        for choice in &self.choices[bundle.choices()] {
            if (from..from + size).contains(&choice.node) {
                self.passed.push(Choice {
                    node: self.shown.len() - 1 + choice.node - from,
                    words: choice.words,
                });
            }
        }
        self.shown.extend_from_slice(&nodes[..size]);
        size
    }

    /// Adds what is shown, then one of these words, then the rest of the
    /// bundle.
    #[inline(always)]
    fn add(&mut self, bundle: &Bundle, from: usize, words: Set) -> Option<()> {
        let (start, first) = (self.begin(), self.choices.len());
        self.nodes.extend_from_slice(&self.shown[1..]);
        self.nodes.push(node(words));
        let before = self.nodes.len() - start;
        let rest = bundle.start + from..bundle.nodes().end;
        self.nodes.extend_from_within(rest);
        self.choices.extend_from_slice(&self.passed);
        if !words.is_power_of_two() {
            let node = before - 1;
            self.choices.push(Choice { node, words });
        }
        for number in bundle.choices() {
            let mut choice = self.choices[number];
            if choice.node >= from {
                choice.node = choice.node - from + before;
                self.choices.push(choice);
            }
        }
        self.push(Bundle {
            start,
            nodes: self.nodes.len() - start,
            first,
            choices: self.choices.len() - first,
            entries: bundle.entries * words.count_ones() as u64,
        })
    }

    /// Writes all entries into a slice exactly as long.
    pub fn write(&mut self, mut out: &mut [u8]) {
        // A block may be read beyond the last node.
        self.nodes.resize(self.nodes.len() + 16, [0, 0]);
        let bytes = self.nodes.as_flattened_mut();
        for bundle in &self.bundles {
            let entry = &mut bytes[2 * bundle.start - 1..];
            let choices = &self.choices[bundle.choices()];
            out = write_each(entry, 1 + 2 * bundle.nodes, choices, out);
        }
    }
}

/// Writes an entry of so many bytes with each combination of its choices, and
/// gives the space behind.
fn write_each<'a>(
    entry: &mut [u8],
    length: usize,
    choices: &[Choice],
    mut out: &'a mut [u8],
) -> &'a mut [u8] {
    match choices {
        [] => write_one(entry, length, 0, entry[0], out),
        [last] => {
            each(last.words, |word| {
                let space = mem::take(&mut out);
                out = write_one(entry, length, 1 + 2 * last.node, word, space);
            });
            out
        }
        [choice, others @ ..] => {
            each(choice.words, |word| {
                entry[1 + 2 * choice.node] = word;
                out = write_each(entry, length, others, mem::take(&mut out));
            });
            out
        }
    }
}

/// Hands over each word of a set.
#[inline(always)]
fn each(words: Set, mut word: impl FnMut(u8)) {
    for (half, first) in [(words as u64, 0), ((words >> 64) as u64, 64)] {
        let mut left = half;
        while left != 0 {
            word(first + left.trailing_zeros() as u8);
            left &= left - 1;
        }
    }
}

/// Writes an entry with the given byte at one place, and gives the space behind
/// it. What a block writes too far, later entries cover.
#[inline(always)]
fn write_one<'a>(
    entry: &[u8],
    length: usize,
    at: usize,
    byte: u8,
    out: &'a mut [u8],
) -> &'a mut [u8] {
    if length <= 32 {
        if let (Some(from), Some(to)) = (entry.first_chunk::<32>(), out.first_chunk_mut::<32>()) {
            *to = *from;
            to[at & 31] = byte;
            return &mut out[length..];
        }
    }
    let (this, behind) = out.split_at_mut(length);
    this.copy_from_slice(&entry[..length]);
    this[at] = byte;
    behind
}
