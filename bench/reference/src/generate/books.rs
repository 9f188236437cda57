//! Pseudo-random books.

use super::{Gen, Naming, Tree, Vocabulary, Word};

/// Inputs for the listing of a book.
#[derive(Clone, Debug, PartialEq, Eq)]
pub struct BookCase {
    pub vocabulary: Vec<u8>,
    pub book: Vec<u8>,
    pub out_len: usize,
    pub out_fill: u8,
}

/// The patterns of a book, as bytes.
type Patterns = Vec<Vec<u8>>;

fn book(patterns: &[Vec<u8>]) -> Vec<u8> {
    let mut book = vec![patterns.len() as u8];
    book.extend(patterns.concat());
    book
}

/// The term that stands first in these bytes, which are in order.
fn parse(v: &Vocabulary, rest: &mut &[u8]) -> Tree {
    let (byte, map) = (rest[0], rest.get(1).copied().unwrap_or(0));
    if byte >= 128 {
        *rest = &rest[1..];
        return if byte == 255 {
            Tree::Any
        } else {
            Tree::Name(byte & 63)
        };
    }
    *rest = &rest[2..];
    let places = v.words[byte as usize].places.iter();
    let terms = places.map(|&(bit, _)| (map >> bit & 1 == 1).then(|| parse(v, rest)));
    Tree::Word(byte as usize, terms.collect())
}

/// Whether a kind has several words, one of them with several places.
fn many(v: &Vocabulary, kind: usize) -> bool {
    let words = &v.by_kind[kind];
    words.len() > 1 && words.iter().any(|&word| v.words[word].places.len() > 1)
}

/// A term of the kind's only word, with the places from one to another, and
/// below it all, as far as so many words go.
fn dense(v: &Vocabulary, kind: usize, words: &mut usize, from: usize, to: usize) -> Tree {
    *words = words.saturating_sub(1);
    let number = v.by_kind[kind][0];
    let places = v.words[number].places.iter().enumerate();
    let terms = places.map(|(rank, &(_, kind))| {
        let written = (from..to).contains(&rank) && *words > 0;
        written.then(|| dense(v, kind, words, 0, 8))
    });
    Tree::Word(number, terms.collect())
}

/// A word with all places open.
fn leaf(v: &Vocabulary, word: usize) -> Tree {
    Tree::Word(word, vec![None; v.words[word].places.len()])
}

impl Gen {
    /// A term of at most so many bytes more, without names; each of its places
    /// is open once in so many times.
    pub(super) fn partial(
        &mut self,
        v: &Vocabulary,
        kind: usize,
        level: usize,
        spare: &mut usize,
        open: usize,
    ) -> Tree {
        *spare = spare.saturating_sub(2);
        let number = self.pick(&v.by_kind[kind]);
        let places = &v.words[number].places;
        let mut terms = Vec::with_capacity(places.len());
        for (rank, &(_, kind)) in places.iter().enumerate() {
            let mut share = self.share(*spare, places.len() - rank);
            *spare -= share;
            let worded = !v.by_kind[kind].is_empty();
            let written = worded && level < 32 && share >= 2 && !self.once_in(open);
            terms.push(written.then(|| self.partial(v, kind, level + 1, &mut share, open)));
            *spare += share;
        }
        Tree::Word(number, terms)
    }

    /// Makes some terms below the root names of their own or open places.
    fn loosen(&mut self, tree: &mut Tree, rarely: usize, next: &mut u8) {
        let Tree::Word(_, terms) = tree else { return };
        for term in terms {
            match term {
                Some(_) if self.once_in(rarely) => {
                    let named = *next < 64 && self.once_in(2);
                    *term = named.then_some(Tree::Name(*next));
                    *next += named as u8;
                }
                Some(term) => self.loosen(term, rarely, next),
                None => (),
            }
        }
    }

    /// Writes terms at some of the open places.
    fn tighten(&mut self, v: &Vocabulary, tree: &mut Tree, level: usize, rarely: usize) {
        let Tree::Word(number, terms) = tree else {
            return;
        };
        for (&(_, kind), term) in v.words[*number].places.iter().zip(terms) {
            match term {
                None if level < 31 && !v.by_kind[kind].is_empty() && self.once_in(rarely) => {
                    let mut spare = self.pick(&[2, 2, 4, 10]);
                    *term = Some(self.partial(v, kind, level + 1, &mut spare, 3));
                }
                Some(term) => self.tighten(v, term, level + 1, rarely),
                None => (),
            }
        }
    }

    /// A short pattern of the kind, mostly in order.
    fn short(&mut self, v: &Vocabulary, kind: usize, naming: Naming) -> Tree {
        let first = if v.by_kind[kind].is_empty() { 2 } else { 150 };
        match self.below(first) {
            0 => Tree::Any,
            1 => Tree::Name(self.below(64) as u8),
            2..=50 => {
                let mut spare = self.between(2, 16);
                self.partial(v, kind, 1, &mut spare, 4)
            }
            _ => {
                let mut spare = self.between(4, 24);
                self.pattern(v, kind, 1, &mut spare, &mut Vec::new(), naming)
            }
        }
    }

    /// One of the entries that the patterns leave, perhaps with open places
    /// written or written ones open.
    fn left_over(&mut self, v: &Vocabulary, patterns: &[Vec<u8>]) -> Option<Tree> {
        let entries = self.entries(v, patterns)?;
        let mut tree = parse(v, &mut &entries.get(self.below(entries.len()))?[1..]);
        match self.below(4) {
            0 => self.tighten(v, &mut tree, 1, 2),
            1 => self.tighten(v, &mut tree, 1, 4),
            2 => self.loosen(&mut tree, 4, &mut 0),
            _ => (),
        }
        Some(tree)
    }

    /// The entries that the patterns leave, if there are any.
    fn entries(&mut self, v: &Vocabulary, patterns: &[Vec<u8>]) -> Option<Patterns> {
        let mut out = vec![0; 32_768];
        let reply = crate::list_book(&v.bytes(), &book(patterns), &mut out);
        if reply[0] != 0 || reply[1] == 0 {
            return None;
        }
        let mut rest = &out[..reply[2] as usize];
        let mut entries = Vec::new();
        while let [_, term @ ..] = rest {
            let mut behind = term;
            parse(v, &mut behind);
            entries.push(rest[..rest.len() - behind.len()].to_vec());
            rest = behind;
        }
        Some(entries)
    }

    /// Patterns of one kind, most of which have something to do with those
    /// before.
    fn patterns(&mut self, v: &Vocabulary, kind: usize, count: usize) -> Patterns {
        let naming = match self.below(24) {
            0 => Naming::Clash,
            1 => Naming::Loose,
            _ => Naming::Once,
        };
        let bytes = self.between(5, 40);
        let situation = if v.has(kind) {
            self.situation(v, kind, bytes)
        } else {
            Tree::Any
        };
        let listed = count <= 8 || self.once_in(8);
        let mut patterns: Patterns = Vec::new();
        while patterns.len() < count {
            let tree = match self.below(16) {
                0..=4 => self.short(v, kind, naming),
                5..=8 => {
                    let rarely = self.between(2, 6);
                    let names = &mut Vec::new();
                    let tree = self.generalize(v, &situation, kind, false, rarely, naming, names);
                    match tree {
                        Some(Tree::Word(..)) => tree.unwrap_or(Tree::Any),
                        _ => self.short(v, kind, naming),
                    }
                }
                9 | 10 if !patterns.is_empty() => {
                    let again = self.below(patterns.len());
                    let mut tree = parse(v, &mut &patterns[again][1..]);
                    match self.below(3) {
                        0 => self.loosen(&mut tree, 3, &mut 32),
                        1 => self.tighten(v, &mut tree, 1, 2),
                        _ => (),
                    }
                    tree
                }
                _ if listed && !patterns.is_empty() => match self.left_over(v, &patterns) {
                    Some(tree) => tree,
                    None => self.short(v, kind, naming),
                },
                _ => self.short(v, kind, naming),
            };
            patterns.push(v.term(kind, &tree));
        }
        patterns
    }

    /// A kind of which there are short situations, mostly one of which there
    /// are many; or any kind, if there is no such one.
    fn book_kind(&mut self, v: &Vocabulary) -> usize {
        let short: Vec<usize> = (0..v.kinds).filter(|&kind| v.size[kind] < 200).collect();
        if short.is_empty() {
            return self.below(v.kinds);
        }
        let many: Vec<usize> = short.iter().copied().filter(|&k| many(v, k)).collect();
        if many.is_empty() || self.once_in(8) {
            self.pick(&short)
        } else {
            self.pick(&many)
        }
    }

    /// A vocabulary with a kind of which there are short situations, mostly
    /// one of which there are many.
    fn book_vocabulary(&mut self) -> Vocabulary {
        loop {
            let v = self.vocabulary();
            let good = |kind| v.size[kind] < 200 && many(&v, kind);
            let usable = v.size.iter().any(|&size| size < 200);
            if (0..v.kinds).any(good) || self.once_in(if usable { 6 } else { 20 }) {
                return v;
            }
        }
    }

    /// Some patterns, and then all or nearly all that they leave.
    fn cover(&mut self, v: &Vocabulary) -> Patterns {
        let (kind, count) = (self.book_kind(v), self.between(1, 3));
        let mut patterns = self.patterns(v, kind, count);
        if let Some(mut entries) = self.entries(v, &patterns) {
            self.shuffle(&mut entries);
            entries.truncate(63 - count);
            if self.once_in(4) {
                entries.pop();
            }
            patterns.extend(entries);
        }
        if self.once_in(2) {
            patterns.extend(self.patterns(v, kind, 1));
        }
        patterns
    }

    /// A vocabulary with kinds of one word, whose terms list nothing however
    /// long they are, beside kinds of several words.
    fn quiet(&mut self) -> Vocabulary {
        let chain = self.pick(&[4, 5, 6, 6]);
        let choices = self.between(1, 4);
        let mut words = Vec::new();
        // Kind 0 is the root's, then the chain, then the kinds with choices.
        for kind in 1..=chain {
            let places = if kind == chain { 0 } else { self.between(5, 8) };
            words.push(self.word(kind, places, &[kind + 1]));
        }
        let kinds = 1 + chain + choices;
        for kind in chain + 1..kinds {
            for _ in 0..self.pick(&[2, 2, 3, 5, 12]) {
                let places = self.pick(&[0, 0, 0, 1, 2]);
                let word = self.word(kind, places, &[1, 2, chain, kinds - 1]);
                words.push(word);
            }
            words.push(self.word(kind, 0, &[0]));
        }
        let all: Vec<usize> = (1..kinds).chain(chain + 1..kinds).collect();
        let mut places = vec![1, self.between(chain + 1, kinds - 1), chain + 1];
        for _ in 0..self.below(6) {
            places.push(self.pick(&all));
        }
        words.push(Word {
            result: 0,
            places: self.places(&places),
        });
        for _ in 0..self.pick(&[0, 0, 1, 8]) {
            let places = self.between(2, 8);
            words.push(self.word(0, places, &all));
        }
        let mut kinds = kinds;
        if self.once_in(3) {
            // Choices over a kind without situations.
            for _ in 0..self.between(1, 12) {
                let result = match self.below(8) {
                    0 => 0,
                    _ => self.between(chain + 1, kinds - 1),
                };
                let places = self.between(1, 2);
                words.push(self.word(result, places, &[kinds]));
            }
            kinds += 1;
        }
        self.shuffle(&mut words);
        Vocabulary::new(kinds, words)
    }

    /// Short patterns, and among them long ones that list little or nothing,
    /// most often behind the others.
    fn long_patterns(&mut self, v: &Vocabulary) -> Patterns {
        let count = self.pick(&[1, 2, 3, 5, 9]);
        let first = self.pick(&v.by_kind[0]);
        let rarely = self.pick(&[1, 4, 4]);
        (0..count)
            .map(|number| {
                let long = number + 1 == count || self.once_in(rarely);
                let word = if self.once_in(8) {
                    self.pick(&v.by_kind[0])
                } else {
                    first
                };
                let tree = self.quiet_pattern(v, word, long);
                v.term(0, &tree)
            })
            .collect()
    }

    /// A pattern whose long terms stand at kinds of one word, if it has any.
    fn quiet_pattern(&mut self, v: &Vocabulary, word: usize, long: bool) -> Tree {
        let places = &v.words[word].places;
        let mut spare = if long {
            self.pick(&[300, 1000, 2000, 3000, 4000])
        } else {
            0
        };
        let mut terms = Vec::with_capacity(places.len());
        for &(_, kind) in places {
            let quiet = v.by_kind[kind].len() == 1;
            let written = if quiet {
                long && !self.once_in(4)
            } else {
                !v.by_kind[kind].is_empty() && self.once_in(2)
            };
            terms.push(written.then(|| {
                let mut share = if quiet {
                    self.pick(&[spare, spare, spare / 2])
                } else {
                    self.between(2, 6)
                };
                spare -= share.min(spare);
                let open = self.pick(&[2, 6, 1000]);
                self.partial(v, kind, 2, &mut share, open)
            }));
        }
        Tree::Word(word, terms)
    }

    /// Two patterns with terms of a kind of one word that have no place below
    /// the root in common: an entry has both, and may become too long.
    fn halves(&mut self, v: &Vocabulary) -> Option<Patterns> {
        let word = *v.by_kind[0]
            .iter()
            .max_by_key(|&&word| v.words[word].places.len())?;
        let places = &v.words[word].places;
        let long = places.iter().position(|&(_, kind)| kind == 1)?;
        let choices: Vec<usize> = (long + 1..places.len())
            .filter(|&place| v.by_kind[places[place].1].len() > 1)
            .collect();
        let [first, second, ..] = choices[..] else {
            return None;
        };
        let mut total = self.pick(&[1500, 2043, 2044, 2044, 2045, 2045, 2046, 3000]);
        let half = self.between(1, 3);
        let mut pattern = |gen: &mut Gen, from, to, listed| {
            let mut terms = vec![None; places.len()];
            terms[long] = Some(dense(v, 1, &mut total, from, to));
            let words = &v.by_kind[places[first].1];
            terms[first] = Some(leaf(v, words[listed % words.len()]));
            if listed > 0 {
                let words = &v.by_kind[places[second].1];
                terms[second] = Some(leaf(v, gen.pick(words)));
            }
            v.term(0, &Tree::Word(word, terms))
        };
        let one = pattern(self, 0, half, 0);
        let listed = self.between(1, 2);
        Some(vec![one, pattern(self, half, 8, listed)])
    }

    /// A book whose entries have about 32,768 bytes: some long ones, and leaves.
    fn brink(&mut self) -> Option<(Vocabulary, Patterns)> {
        let all = self.pick(&[32_766, 32_767, 32_768, 32_768, 32_769, 32_770, 32_771]);
        let long = self.pick(&[8, 10, 11, 13]);
        // How many words a long entry has, and how many leaves make up the rest.
        let (words, leaves) = (1000..=2046).rev().find_map(|words| {
            let rest: usize = all - (long * (1 + 2 * words)).min(all);
            (rest.is_multiple_of(3) && (3..200).contains(&rest)).then_some((words, rest / 3))
        })?;
        // Kind 0 is the root's, then a chain of kinds with one word, then one
        // with a leaf for each long entry and one more.
        let word = |result, places: &[(u8, usize)]| Word {
            result,
            places: places.to_vec(),
        };
        let mut made = vec![word(0, &[(0, 1), (3, 6)])];
        for kind in 1..5 {
            made.push(self.word(kind, 8, &[kind + 1]));
        }
        made.push(word(5, &[]));
        made.extend((0..leaves).map(|_| word(0, &[])));
        // Kind 7 has no situations, and entries with these words are left out.
        let empty = self.once_in(3);
        if empty {
            made.push(word(0, &[(2, 7)]));
            made.extend((0..self.between(1, 8)).map(|_| word(6, &[(1, 7)])));
        }
        made.extend((0..=long).map(|_| word(6, &[])));
        let v = Vocabulary::new(7 + empty as usize, made);
        let quiet = dense(&v, 1, &mut (words - 2), 0, 8);
        let terms = vec![Some(quiet), Some(leaf(&v, v.words.len() - 1))];
        let mut patterns = vec![v.term(0, &Tree::Word(0, terms))];
        // A leaf struck before leaves 3 bytes less, one struck later does not.
        if self.once_in(3) {
            let at = self.below(2);
            patterns.insert(at, v.term(0, &leaf(&v, 6)));
        }
        Some((v, patterns))
    }

    /// A book with a pattern at the limit of bytes or of levels.
    fn limits(&mut self, v: &Vocabulary) -> Patterns {
        let (kind, before) = (self.book_kind(v), self.below(3));
        let mut patterns = self.patterns(v, kind, before);
        patterns.push(if self.once_in(2) {
            self.brim(v, kind).0
        } else {
            let levels = self.pick(&[31, 32, 32, 33, 34]);
            let complete = self.once_in(2);
            let tree = self.deep(v, kind, levels, complete);
            v.term(kind, &tree)
        });
        if self.once_in(2) {
            patterns.extend(self.patterns(v, kind, 1));
        }
        patterns
    }

    /// Damages a book in one of the ways that its refusals name.
    fn damage_book(&mut self, v: &Vocabulary, patterns: &[Vec<u8>]) -> Vec<u8> {
        let mut bytes = book(patterns);
        let chosen = self.below(patterns.len());
        let start = 1 + patterns[..chosen].concat().len();
        let end = start + patterns[chosen].len();
        match self.below(14) {
            0 => bytes[0] = self.pick(&[0, 65, 66, 128, 255]),
            1 => bytes[0] = bytes[0].wrapping_add(1),
            2 => bytes[0] = bytes[0].wrapping_sub(1),
            3 => bytes.truncate(start),
            4 => bytes.truncate(start + 1),
            5 => {
                let keep = self.between(start, end);
                bytes.truncate(keep);
            }
            6 => bytes[start] = self.below(v.kinds) as u8,
            7 => bytes[start] = self.byte(v),
            8 => {
                for _ in 0..self.pick(&[1, 1, 2, 9]) {
                    let byte = self.byte(v);
                    bytes.push(byte);
                }
            }
            9 => bytes.truncate(start + 4096),
            10 | 11 => {
                let at = self.between(start, end - 1);
                bytes[at] = self.byte(v);
            }
            // A pattern of any kind.
            12 => {
                let kind = self.book_kind(v);
                let other = self.patterns(v, kind, 1);
                bytes.splice(start..end, other.concat());
            }
            _ => self.damage(v, &mut bytes, false),
        }
        bytes
    }

    /// How many patterns a book gets.
    fn book_count(&mut self) -> usize {
        match self.below(64) {
            0..=7 => 1,
            8..=39 => self.between(2, 4),
            40..=56 => self.between(5, 10),
            57..=61 => self.between(11, 40),
            62 => 64,
            _ => self.between(63, 65),
        }
    }

    /// A vocabulary and the patterns of a book.
    fn book_parts(&mut self) -> (Vocabulary, Patterns) {
        if self.once_in(50) {
            if let Some(both) = self.brink() {
                return both;
            }
        }
        if self.once_in(8) {
            let v = self.quiet();
            let halves = if self.once_in(4) {
                self.halves(&v)
            } else {
                None
            };
            let patterns = halves.unwrap_or_else(|| self.long_patterns(&v));
            return (v, patterns);
        }
        let v = self.book_vocabulary();
        let patterns = match self.below(28) {
            0..=2 => self.cover(&v),
            3 if v.size.iter().any(|&size| size < 200) => self.limits(&v),
            // Of a kind without situations, if there is one.
            4 => {
                let empty: Vec<usize> = (0..v.kinds).filter(|&kind| !v.has(kind)).collect();
                let count = self.book_count();
                let kind = if empty.is_empty() {
                    self.book_kind(&v)
                } else {
                    self.pick(&empty)
                };
                self.patterns(&v, kind, count)
            }
            _ => {
                let (kind, count) = (self.book_kind(&v), self.book_count());
                self.patterns(&v, kind, count)
            }
        };
        (v, patterns)
    }

    /// The next book.
    pub fn book_case(&mut self) -> BookCase {
        let (v, patterns) = self.book_parts();
        let mut vocabulary = v.bytes();
        let book = match self.below(16) {
            0..=3 => self.damage_book(&v, &patterns),
            _ => book(&patterns),
        };
        if self.once_in(64) {
            self.damage(&v, &mut vocabulary, true);
        }
        let listing = crate::list_book(&vocabulary, &book, &mut []);
        let exact = if listing[0] == 20 {
            listing[2] as usize
        } else {
            0
        };
        let out_len = match self.below(16) {
            0 => 0,
            1 | 2 => exact.saturating_sub(1),
            3 => self.below(exact + 1),
            4 | 5 => exact + 1,
            6 | 7 => exact + self.below(200),
            8 => 40_000,
            _ => exact,
        };
        BookCase {
            vocabulary,
            book,
            out_len,
            out_fill: self.next() as u8,
        }
    }
}
