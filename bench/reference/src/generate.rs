//! Pseudo-random inputs for tests, the same for the same seed.

mod books;
mod texts;

pub use books::BookCase;
pub use texts::{Meant, TextCase};

/// One set of inputs for all calls but the listing of books.
#[derive(Clone, Debug, PartialEq, Eq)]
pub struct Case {
    pub vocabulary: Vec<u8>,
    pub pattern: Vec<u8>,
    pub situation: Vec<u8>,
    pub name: u64,
    pub table_len: usize,
    pub table_fill: u16,
    pub out_len: usize,
    pub out_fill: u8,
    /// A filling file, and how much is lent for its result.
    pub filling: Vec<u8>,
    pub result_len: usize,
}

/// The source of cases.
pub struct Gen {
    state: u64,
    /// How many more nodes the current term may get.
    left: usize,
    /// Whether terms are used again, and those made so far with their kinds.
    echo: bool,
    made: Vec<(usize, Tree)>,
}

const HUGE: usize = 1 << 30;

#[derive(Clone)]
struct Word {
    result: usize,
    /// Bit number and kind of each place, lowest bit first.
    places: Vec<(u8, usize)>,
}

impl Word {
    fn map(&self) -> u8 {
        self.places.iter().map(|&(bit, _)| 1u8 << bit).sum()
    }
}

/// A vocabulary with what is needed to make terms under it.
struct Vocabulary {
    kinds: usize,
    words: Vec<Word>,
    by_kind: Vec<Vec<usize>>,
    /// Least number of bytes of a complete term of a kind.
    size: Vec<usize>,
    /// Least number of bytes and of levels of one that begins with a word.
    word_size: Vec<usize>,
    word_depth: Vec<usize>,
}

/// A term; a word has an entry for each of its places.
#[derive(Clone, PartialEq)]
enum Tree {
    Any,
    Name(u8),
    Word(usize, Vec<Option<Tree>>),
}

/// How names are given out while a situation is made into a pattern.
#[derive(Clone, Copy, PartialEq)]
enum Naming {
    /// Each name once.
    Once,
    /// The same name for equal terms.
    Equal,
    /// Any name of the right kind.
    Loose,
    /// Any name.
    Clash,
}

/// How a name stands in a pattern; the kind is that of its first place.
#[derive(Clone, Copy, Default)]
struct Stands {
    kind: usize,
    times: usize,
    deepest: usize,
}

/// A name in use, its kind and the term it stands for.
struct Named {
    name: u8,
    kind: usize,
    tree: Tree,
}

impl Vocabulary {
    fn new(kinds: usize, words: Vec<Word>) -> Self {
        let mut by_kind = vec![Vec::new(); kinds];
        for (number, word) in words.iter().enumerate() {
            by_kind[word.result].push(number);
        }
        let mut size = vec![HUGE; kinds];
        let mut depth = vec![HUGE; kinds];
        loop {
            let mut changed = false;
            for word in &words {
                let (bytes, levels) = measure(word, &size, &depth);
                if bytes < size[word.result] {
                    size[word.result] = bytes;
                    changed = true;
                }
                if levels < depth[word.result] {
                    depth[word.result] = levels;
                    changed = true;
                }
            }
            if !changed {
                break;
            }
        }
        let both: Vec<_> = words
            .iter()
            .map(|word| measure(word, &size, &depth))
            .collect();
        Vocabulary {
            kinds,
            by_kind,
            size,
            word_size: both.iter().map(|b| b.0).collect(),
            word_depth: both.iter().map(|b| b.1).collect(),
            words,
        }
    }

    fn bytes(&self) -> Vec<u8> {
        let mut bytes = vec![self.kinds as u8, self.words.len() as u8];
        for word in &self.words {
            bytes.push(word.result as u8);
            bytes.push(word.map());
            bytes.extend(word.places.iter().map(|&(_, kind)| kind as u8));
        }
        bytes
    }

    /// Whether a kind has a complete situation.
    fn has(&self, kind: usize) -> bool {
        self.size[kind] < HUGE
    }

    /// Whether some complete situation fits a term of a kind.
    fn fits(&self, kind: usize, tree: Option<&Tree>) -> bool {
        match tree {
            Some(Tree::Word(number, terms)) => {
                let places = self.words[*number].places.iter();
                let mut both = places.zip(terms);
                both.all(|(&(_, kind), term)| self.fits(kind, term.as_ref()))
            }
            _ => self.has(kind),
        }
    }

    fn write(&self, tree: &Tree, out: &mut Vec<u8>) {
        match tree {
            Tree::Any => out.push(255),
            Tree::Name(name) => out.push(128 + name),
            Tree::Word(number, terms) => {
                let word = &self.words[*number];
                out.push(*number as u8);
                let written = word
                    .places
                    .iter()
                    .zip(terms)
                    .filter(|(_, term)| term.is_some());
                out.push(written.map(|(&(bit, _), _)| 1u8 << bit).sum());
                for term in terms.iter().flatten() {
                    self.write(term, out);
                }
            }
        }
    }

    fn term(&self, kind: usize, tree: &Tree) -> Vec<u8> {
        let mut bytes = vec![kind as u8];
        self.write(tree, &mut bytes);
        bytes
    }

    /// How each name stands in a pattern, as far as that can be read.
    fn stands(&self, pattern: &[u8]) -> [Stands; 64] {
        let mut names = [Stands::default(); 64];
        let kind = pattern.first().map_or(0, |&kind| kind as usize);
        let mut due = vec![(kind % self.kinds, 1)];
        let mut rest = pattern.get(1..).unwrap_or(&[]);
        while let Some((kind, level)) = due.pop() {
            match rest {
                [byte @ 128..=191, tail @ ..] => {
                    let name = &mut names[*byte as usize & 63];
                    name.kind = if name.times == 0 { kind } else { name.kind };
                    name.times += 1;
                    name.deepest = name.deepest.max(level);
                    rest = tail;
                }
                [word, map, tail @ ..] if (*word as usize) < self.words.len() => {
                    let places = self.words[*word as usize].places.iter().rev();
                    let written = places.filter(|(bit, _)| map >> bit & 1 == 1);
                    due.extend(written.map(|&(_, kind)| (kind, level + 1)));
                    rest = tail;
                }
                _ => break,
            }
        }
        names
    }
}

fn measure(word: &Word, size: &[usize], depth: &[usize]) -> (usize, usize) {
    let bytes = word
        .places
        .iter()
        .map(|&(_, kind)| size[kind])
        .sum::<usize>()
        + 2;
    let levels = word
        .places
        .iter()
        .map(|&(_, kind)| depth[kind])
        .max()
        .unwrap_or(0)
        + 1;
    (bytes.min(HUGE), levels.min(HUGE))
}

fn count(tree: &Tree) -> usize {
    match tree {
        Tree::Word(_, terms) => 1 + terms.iter().flatten().map(count).sum::<usize>(),
        _ => 1,
    }
}

fn levels(tree: &Tree) -> usize {
    match tree {
        Tree::Word(_, terms) => 1 + terms.iter().flatten().map(levels).max().unwrap_or(0),
        _ => 1,
    }
}

/// Puts a name of its own in for each of the last words without places, as
/// many as there are bytes to save.
fn shorten(tree: &mut Tree, over: &mut usize) {
    match tree {
        Tree::Word(_, terms) if terms.is_empty() && *over > 0 => {
            *over -= 1;
            *tree = Tree::Name(*over as u8);
        }
        Tree::Word(_, terms) => {
            for term in terms.iter_mut().rev().flatten() {
                shorten(term, over);
            }
        }
        _ => (),
    }
}

impl Gen {
    pub fn new(seed: u64) -> Self {
        Gen {
            state: seed,
            left: 0,
            echo: false,
            made: Vec::new(),
        }
    }

    fn next(&mut self) -> u64 {
        self.state = self.state.wrapping_add(0x9e37_79b9_7f4a_7c15);
        let mut z = self.state;
        z = (z ^ (z >> 30)).wrapping_mul(0xbf58_476d_1ce4_e5b9);
        z = (z ^ (z >> 27)).wrapping_mul(0x94d0_49bb_1331_11eb);
        z ^ (z >> 31)
    }

    /// A number below the bound, which is at least 1.
    fn below(&mut self, bound: usize) -> usize {
        (((self.next() >> 32) * bound as u64) >> 32) as usize
    }

    fn between(&mut self, low: usize, high: usize) -> usize {
        low + self.below(high - low + 1)
    }

    /// True once in so many times.
    fn once_in(&mut self, times: usize) -> bool {
        self.below(times) == 0
    }

    fn pick<T: Copy>(&mut self, from: &[T]) -> T {
        from[self.below(from.len())]
    }

    /// Places for so many kinds, with a map that may have gaps.
    fn places(&mut self, kinds: &[usize]) -> Vec<(u8, usize)> {
        let mut bits: Vec<u8> = (0..8).collect();
        if self.once_in(2) {
            while bits.len() > kinds.len() {
                let at = self.below(bits.len());
                bits.remove(at);
            }
        }
        bits.into_iter().zip(kinds.iter().copied()).collect()
    }

    fn word(&mut self, result: usize, places: usize, kinds: &[usize]) -> Word {
        let kinds: Vec<usize> = (0..places).map(|_| self.pick(kinds)).collect();
        Word {
            result,
            places: self.places(&kinds),
        }
    }

    /// A vocabulary with so many kinds and words, in which each kind has a
    /// complete situation; `kinds` is at most `words`.
    fn grounded(&mut self, kinds: usize, words: usize, most: usize) -> Vocabulary {
        let mut order: Vec<usize> = (0..kinds).collect();
        self.shuffle(&mut order);
        let mut made = Vec::new();
        let leafy = self.once_in(2);
        for (rank, &kind) in order.iter().enumerate() {
            let places = if rank == 0 || leafy || self.once_in(3) {
                0
            } else {
                self.between(1, most.clamp(1, 3))
            };
            let from = if self.once_in(2) {
                rank.saturating_sub(1)
            } else {
                0
            };
            let word = self.word(kind, places, &order[from..rank.max(1)]);
            made.push(word);
        }
        while made.len() < words {
            let result = self.below(kinds);
            let places = match self.below(4) {
                0 => 0,
                1 => self.between(0, most.min(2)),
                2 => self.between(0, most),
                _ => most.min(2),
            };
            let word = self.word(result, places, &order);
            made.push(word);
        }
        self.shuffle(&mut made);
        Vocabulary::new(kinds, made)
    }

    fn shuffle<T>(&mut self, list: &mut [T]) {
        for end in (1..list.len()).rev() {
            let other = self.below(end + 1);
            list.swap(end, other);
        }
    }

    /// A vocabulary; in every third some kinds have no complete situation.
    fn vocabulary(&mut self) -> Vocabulary {
        let made = self.any_vocabulary();
        if self.once_in(3) {
            self.emptied(made)
        } else {
            made
        }
    }

    /// The vocabulary with a kind that has no complete situation, and with words
    /// over it.
    fn emptied(&mut self, made: Vocabulary) -> Vocabulary {
        let (mut kinds, mut words) = (made.kinds, made.words);
        // A kind of its own, without words or with words over itself, or all
        // words of one that is there stand over kinds that have none.
        let own = kinds < 16 && !self.once_in(4);
        let empty = if own { kinds } else { self.below(kinds) };
        kinds += own as usize;
        let mut dead = vec![empty];
        if own && self.once_in(2) {
            for _ in 0..self.between(1, 3).min(96 - words.len()) {
                let places = self.between(1, 2);
                words.push(self.word(empty, places, &[empty]));
            }
        }
        if !own {
            for word in words.iter_mut().filter(|word| word.result == empty) {
                word.places = self.places(&[empty]);
            }
        }
        // A chain of kinds, each over the one before.
        while kinds < 16 && words.len() < 96 && self.once_in(3) {
            words.push(self.word(kinds, 1, &[dead[dead.len() - 1]]));
            dead.push(kinds);
            kinds += 1;
        }
        let all: Vec<usize> = (0..kinds).collect();
        for _ in 0..self.pick(&[0, 1, 2, 2, 4, 12]) {
            if words.len() == 96 {
                break;
            }
            // A word over one of them, perhaps beside others.
            let mut places = vec![self.pick(&dead)];
            for _ in 0..self.pick(&[0, 0, 1, 2, 7]) {
                let other = self.pick(&all);
                places.insert(self.below(places.len() + 1), other);
            }
            let result = self.below(kinds);
            words.push(Word {
                result,
                places: self.places(&places),
            });
        }
        // Some places get a kind without situations.
        if self.once_in(2) {
            let rarely = self.between(4, 40);
            for word in &mut words {
                for place in &mut word.places {
                    if self.once_in(rarely) {
                        place.1 = self.pick(&dead);
                    }
                }
            }
        }
        if !self.once_in(4) {
            self.shuffle(&mut words);
        }
        Vocabulary::new(kinds, words)
    }

    fn any_vocabulary(&mut self) -> Vocabulary {
        let place = |bits: &[(u8, usize)]| bits.to_vec();
        let plain = |result, places: &[(u8, usize)]| Word {
            result,
            places: place(places),
        };
        match self.below(32) {
            0 => Vocabulary::new(
                3,
                vec![
                    plain(0, &[(0, 1), (1, 2)]),
                    plain(1, &[]),
                    plain(1, &[]),
                    plain(2, &[]),
                    plain(2, &[]),
                    plain(0, &[]),
                ],
            ),
            1 => Vocabulary::new(1, vec![plain(0, &[]), plain(0, &[(0, 0)])]),
            2 => Vocabulary::new(
                1,
                vec![plain(0, &[]), plain(0, &[]), plain(0, &[(0, 0), (1, 0)])],
            ),
            3..=10 => {
                let kinds = self.between(1, 3);
                let words = self.between(kinds, 7);
                self.grounded(kinds, words, 3)
            }
            11..=17 => {
                let kinds = self.between(1, 6);
                let words = self.between(kinds, 24);
                let most = self.between(1, 8);
                self.grounded(kinds, words, most)
            }
            18..=21 => {
                let kinds = self.between(1, 16);
                let words = self.between(kinds, 96);
                let most = self.between(1, 8);
                self.grounded(kinds, words, most)
            }
            22 => {
                let words = self.pick(&[16, 17, 32, 95, 96, 96]);
                let most = self.between(1, 8);
                self.grounded(16, words, most)
            }
            23 => {
                let kinds = self.pick(&[1, 1, 2, 15]);
                let most = self.between(1, 8);
                self.grounded(kinds, 96, most)
            }
            24 => {
                let kinds = self.between(1, 2);
                let words = self.between(kinds, 4);
                self.grounded(kinds, words, 1)
            }
            // Chains, in which a kind needs the next one.
            25 | 26 => {
                let kinds = self.between(2, 16);
                let mut words = vec![plain(kinds - 1, &[])];
                for kind in 0..kinds - 1 {
                    let places = if self.once_in(4) { 2 } else { 1 };
                    words.push(self.word(kind, places, &[kind + 1]));
                }
                for _ in 0..self.below(6) {
                    let result = self.below(kinds);
                    words.push(self.word(result, 1, &[result, kinds - 1]));
                }
                if self.once_in(2) {
                    self.shuffle(&mut words);
                } else if self.once_in(2) {
                    words.reverse();
                }
                Vocabulary::new(kinds, words)
            }
            // One word over many choices without places.
            27 | 28 => {
                let kinds = self.between(2, 9);
                let all: Vec<usize> = (1..kinds).collect();
                let places = self.between(1, 8);
                let mut words = vec![self.word(0, places, &all)];
                let each = self.between(1, 10);
                for kind in 1..kinds {
                    words.extend((0..each).map(|_| plain(kind, &[])));
                }
                self.shuffle(&mut words);
                Vocabulary::new(kinds, words)
            }
            // Nearly as long as can be.
            29 => {
                let kinds = self.between(1, 3);
                let all: Vec<usize> = (0..kinds).collect();
                let mut words: Vec<Word> = (0..kinds).map(|kind| plain(kind, &[])).collect();
                while words.len() < 96 {
                    let result = self.below(kinds);
                    words.push(self.word(result, 8, &all));
                }
                self.shuffle(&mut words);
                Vocabulary::new(kinds, words)
            }
            // Possibly a kind without a complete situation.
            30 => {
                let kinds = self.between(1, 16);
                let words = self.between(1, 30);
                let all: Vec<usize> = (0..kinds).collect();
                let words = (0..words)
                    .map(|_| {
                        let result = self.below(kinds);
                        let places = self.between(0, 3);
                        self.word(result, places, &all)
                    })
                    .collect();
                Vocabulary::new(kinds, words)
            }
            _ => {
                let kinds = self.between(1, 4);
                let words = self.between(kinds, 12);
                let made = self.grounded(kinds, words, 4);
                let mut words = made.words.clone();
                let kind = self.below(kinds);
                for word in words.iter_mut().filter(|word| word.result == kind) {
                    word.places = self.places(&[kind]);
                }
                Vocabulary::new(kinds, words)
            }
        }
    }

    /// A complete term of the kind with at most so many bytes more than the
    /// least; a growing one uses words with places while it can. Of a kind that
    /// has none, a term that goes on until it is large or deep, with names.
    fn complete(
        &mut self,
        v: &Vocabulary,
        kind: usize,
        level: usize,
        spare: &mut usize,
        grow: bool,
    ) -> Tree {
        if self.left == 0 || level > 60 {
            return Tree::Name(0);
        }
        self.left -= 1;
        if self.echo && self.once_in(2) {
            let same: Vec<usize> = (0..self.made.len())
                .filter(|&i| self.made[i].0 == kind)
                .collect();
            if !same.is_empty() {
                let at = self.pick(&same);
                let tree = &self.made[at].1;
                let size = 2 * count(tree);
                if level + levels(tree) <= 33 && size <= v.size[kind] + *spare {
                    *spare -= size.saturating_sub(v.size[kind]);
                    return tree.clone();
                }
            }
        }
        let fitting: Vec<usize> = v.by_kind[kind]
            .iter()
            .copied()
            .filter(|&w| v.word_depth[w] + level <= 33 && v.word_size[w] <= v.size[kind] + *spare)
            .collect();
        let larger: Vec<usize> = fitting
            .iter()
            .copied()
            .filter(|&w| !v.words[w].places.is_empty())
            .collect();
        let number = if grow && !larger.is_empty() && !self.once_in(8) {
            self.pick(&larger)
        } else if !fitting.is_empty() {
            self.pick(&fitting)
        } else {
            let least = v.by_kind[kind]
                .iter()
                .copied()
                .min_by_key(|&w| v.word_depth[w]);
            let Some(least) = least else {
                return Tree::Name(0);
            };
            least
        };
        *spare = spare.saturating_sub(v.word_size[number] - v.size[kind].min(v.word_size[number]));
        let places = &v.words[number].places;
        let mut terms = Vec::with_capacity(places.len());
        for (rank, &(_, kind)) in places.iter().enumerate() {
            let mut share = self.share(*spare, places.len() - rank);
            *spare -= share;
            terms.push(Some(self.complete(v, kind, level + 1, &mut share, grow)));
            *spare += share;
        }
        let tree = Tree::Word(number, terms);
        if self.echo && self.made.len() < 40 && level > 1 {
            self.made.push((kind, tree.clone()));
        }
        tree
    }

    /// What one of several places gets of what is to spare.
    fn share(&mut self, spare: usize, places: usize) -> usize {
        if places <= 1 {
            return spare;
        }
        match self.below(3) {
            0 => spare,
            1 => spare / places,
            _ => self.below(spare + 1),
        }
    }

    fn situation(&mut self, v: &Vocabulary, kind: usize, bytes: usize) -> Tree {
        let mut spare = bytes.saturating_sub(v.size[kind] + 1);
        self.left = 2500;
        let grow = bytes > 16 || self.once_in(2);
        self.complete(v, kind, 1, &mut spare, grow)
    }

    /// A pattern with at most so many bytes to spare; its root is a word.
    fn pattern(
        &mut self,
        v: &Vocabulary,
        kind: usize,
        level: usize,
        spare: &mut usize,
        names: &mut Vec<(u8, usize)>,
        naming: Naming,
    ) -> Tree {
        *spare = spare.saturating_sub(2);
        let words = &v.by_kind[kind];
        let larger: Vec<usize> = words
            .iter()
            .copied()
            .filter(|&w| !v.words[w].places.is_empty())
            .collect();
        let number = if !larger.is_empty() && level < 32 && !self.once_in(4) {
            self.pick(&larger)
        } else {
            self.pick(words)
        };
        let places = &v.words[number].places;
        let mut terms = Vec::with_capacity(places.len());
        for (rank, &(_, kind)) in places.iter().enumerate() {
            let mut share = self.share(*spare, places.len() - rank);
            *spare -= share;
            let choice = self.below(8);
            let term = if level >= 32 || share == 0 {
                None
            } else if share == 1 || choice < 3 {
                let used: Vec<u8> = names
                    .iter()
                    .filter(|named| named.1 == kind || naming == Naming::Clash)
                    .map(|named| named.0)
                    .collect();
                let fresh = self.below(64) as u8;
                if naming != Naming::Once && !used.is_empty() && self.once_in(2) {
                    share -= 1;
                    Some(Tree::Name(self.pick(&used)))
                } else if names.iter().all(|named| named.0 != fresh) {
                    share -= 1;
                    names.push((fresh, kind));
                    Some(Tree::Name(fresh))
                } else {
                    None
                }
            } else if choice == 3 || v.by_kind[kind].is_empty() {
                None
            } else {
                Some(self.pattern(v, kind, level + 1, &mut share, names, naming))
            };
            terms.push(term);
            *spare += share;
        }
        Tree::Word(number, terms)
    }

    /// The pattern with each name and open place filled.
    fn fill(
        &mut self,
        v: &Vocabulary,
        tree: &Tree,
        kind: usize,
        level: usize,
        given: &mut [Option<Tree>; 64],
        spare: usize,
    ) -> Tree {
        let mut room = self.below(spare + 1);
        match tree {
            Tree::Any => self.complete(v, kind, level, &mut room, false),
            Tree::Name(name) => {
                if let Some(term) = &given[*name as usize & 63] {
                    return term.clone();
                }
                let term = self.complete(v, kind, level, &mut room, false);
                given[*name as usize & 63] = Some(term.clone());
                term
            }
            Tree::Word(number, terms) => {
                let places = &v.words[*number].places;
                let mut full = Vec::with_capacity(places.len());
                for (&(_, kind), term) in places.iter().zip(terms) {
                    let open = Tree::Any;
                    let term = term.as_ref().unwrap_or(&open);
                    full.push(Some(self.fill(v, term, kind, level + 1, given, spare)));
                }
                Tree::Word(*number, full)
            }
        }
    }

    /// The situation with some of its terms made into names and open places.
    #[allow(clippy::too_many_arguments)]
    fn generalize(
        &mut self,
        v: &Vocabulary,
        tree: &Tree,
        kind: usize,
        root: bool,
        rarely: usize,
        naming: Naming,
        names: &mut Vec<Named>,
    ) -> Option<Tree> {
        let known = names
            .iter()
            .find(|named| match naming {
                Naming::Once => false,
                Naming::Equal => named.kind == kind && named.tree == *tree,
                Naming::Loose => named.kind == kind,
                Naming::Clash => true,
            })
            .map(|named| named.name);
        if let Some(known) = known {
            let again = match naming {
                Naming::Equal => !self.once_in(8),
                _ => self.once_in(3),
            };
            if again {
                return Some(Tree::Name(known));
            }
        }
        if self.once_in(if root { 24 } else { rarely }) {
            if self.once_in(4) {
                return root.then_some(Tree::Any);
            }
            let name = self.below(64) as u8;
            if names.iter().any(|named| named.name == name) {
                return root.then_some(Tree::Any);
            }
            names.push(Named {
                name,
                kind,
                tree: tree.clone(),
            });
            return Some(Tree::Name(name));
        }
        let Tree::Word(number, terms) = tree else {
            return Some(tree.clone());
        };
        let places = &v.words[*number].places;
        let terms = places
            .iter()
            .zip(terms)
            .map(|(&(_, kind), term)| {
                let term = term.as_ref()?;
                self.generalize(v, term, kind, false, rarely, naming, names)
            })
            .collect();
        Some(Tree::Word(*number, terms))
    }

    /// Puts another complete term in at one node, counted in prefix order.
    fn change(&mut self, v: &Vocabulary, tree: &mut Tree, kind: usize, level: usize, at: usize) {
        if at == 0 {
            let mut spare = self.below(12);
            *tree = self.complete(v, kind, level, &mut spare, false);
            return;
        }
        if let Tree::Word(number, terms) = tree {
            let mut at = at - 1;
            for (&(_, kind), term) in v.words[*number].places.iter().zip(terms) {
                let Some(term) = term else { continue };
                let size = count(term);
                if at < size {
                    return self.change(v, term, kind, level + 1, at);
                }
                at -= size;
            }
        }
    }

    /// A term with a path of so many levels, if the kind allows it.
    fn deep(&mut self, v: &Vocabulary, kind: usize, levels: usize, complete: bool) -> Tree {
        let mut reach = vec![vec![false; v.kinds]; levels + 1];
        for level in 1..=levels {
            for word in &v.words {
                let far = if level == 1 {
                    word.places.is_empty() || !complete
                } else {
                    word.places.iter().any(|&(_, kind)| reach[level - 1][kind])
                };
                if far {
                    reach[level][word.result] = true;
                }
            }
        }
        self.left = 2500;
        self.spine(v, kind, levels, &reach, complete)
    }

    fn spine(
        &mut self,
        v: &Vocabulary,
        kind: usize,
        levels: usize,
        reach: &[Vec<bool>],
        complete: bool,
    ) -> Tree {
        let onward: Vec<usize> = v.by_kind[kind]
            .iter()
            .copied()
            .filter(|&w| {
                v.words[w]
                    .places
                    .iter()
                    .any(|&(_, kind)| reach[levels - 1][kind])
            })
            .collect();
        if levels <= 1 || onward.is_empty() {
            if !complete && self.once_in(2) {
                return Tree::Name(self.below(64) as u8);
            }
            let mut spare = 0;
            return self.complete(v, kind, 32, &mut spare, false);
        }
        let number = self.pick(&onward);
        let places = &v.words[number].places;
        let far: Vec<usize> = (0..places.len())
            .filter(|&i| reach[levels - 1][places[i].1])
            .collect();
        let chosen = self.pick(&far);
        let mut terms = Vec::with_capacity(places.len());
        for (rank, &(_, kind)) in places.iter().enumerate() {
            terms.push(if rank == chosen {
                Some(self.spine(v, kind, levels - 1, reach, complete))
            } else if complete {
                let mut spare = 0;
                Some(self.complete(v, kind, 20, &mut spare, false))
            } else {
                None
            });
        }
        Tree::Word(number, terms)
    }

    /// A size for a term, mostly small.
    fn bytes(&mut self) -> usize {
        match self.below(64) {
            0 => 4097,
            1 => 4096,
            2 => 4095,
            3..=5 => self.between(1000, 4096),
            6..=11 => self.between(60, 600),
            12..=39 => self.between(15, 80),
            _ => self.between(7, 40),
        }
    }

    /// A pattern and a situation under a vocabulary.
    fn terms(&mut self, v: &Vocabulary) -> (Vec<u8>, Vec<u8>) {
        let usable: Vec<usize> = (0..v.kinds).filter(|&kind| v.size[kind] < 4000).collect();
        let worded: Vec<usize> = (0..v.kinds)
            .filter(|&kind| !v.by_kind[kind].is_empty())
            .collect();
        if usable.is_empty() && self.once_in(4) || self.once_in(200) {
            let kind = self.below(v.kinds) as u8;
            let root = self.pick(&[255, 128, 0]);
            return (vec![kind, root], vec![kind, root, 0]);
        }
        if usable.is_empty() || usable.len() < v.kinds && self.once_in(4) {
            let kind = self.pick(&worded);
            return self.empty_terms(v, kind);
        }
        let many: Vec<usize> = usable
            .iter()
            .copied()
            .filter(|&kind| v.by_kind[kind].iter().any(|&w| v.words[w].places.len() > 1))
            .collect();
        let kind = if many.is_empty() || self.once_in(6) {
            self.pick(&usable)
        } else {
            self.pick(&many)
        };
        let naming = match self.below(48) {
            0 | 1 => Naming::Clash,
            2..=10 => Naming::Loose,
            11..=34 => Naming::Equal,
            _ => Naming::Once,
        };
        let choice = self.below(20);
        if choice == 0 {
            let levels = self.pick(&[31, 32, 32, 33, 33, 34]);
            let complete = self.once_in(2);
            let pattern = self.deep(v, kind, levels, complete);
            let levels = self.pick(&[31, 32, 32, 33]);
            let situation = if self.once_in(2) && complete {
                pattern.clone()
            } else {
                self.deep(v, kind, levels, true)
            };
            return (v.term(kind, &pattern), v.term(kind, &situation));
        }
        if choice == 1 && self.once_in(3) {
            return self.brim(v, kind);
        }
        let bytes = self.bytes();
        let (pattern, mut situation) = if choice < 8 {
            let mut spare = bytes.max(6) - 1;
            let mut names = Vec::new();
            let pattern = match self.below(24) {
                0 => Tree::Any,
                1 => Tree::Name(self.below(64) as u8),
                _ => self.pattern(v, kind, 1, &mut spare, &mut names, naming),
            };
            self.left = 2500;
            let mut given = [const { None }; 64];
            let room = self.pick(&[0, 0, 4, 20]);
            let situation = self.fill(v, &pattern, kind, 1, &mut given, room);
            (pattern, situation)
        } else {
            self.echo = naming == Naming::Equal;
            let situation = self.situation(v, kind, bytes);
            self.echo = false;
            self.made.clear();
            let nodes = count(&situation);
            let rarely = match self.below(8) {
                0 => 1000,
                1 => 2,
                _ => (nodes / self.between(2, 8)).max(2),
            };
            let mut names = Vec::new();
            let pattern = self
                .generalize(v, &situation, kind, true, rarely, naming, &mut names)
                .unwrap_or(Tree::Any);
            (pattern, situation)
        };
        let mut other = kind;
        match self.below(16) {
            0..=6 => {
                let nodes = count(&situation);
                let at = self.below(nodes);
                self.left = 500;
                self.change(v, &mut situation, kind, 1, at);
            }
            7 | 8 => {
                let bytes = self.bytes().min(200);
                situation = self.situation(v, kind, bytes);
            }
            9 => {
                other = self.pick(&usable);
                situation = self.situation(v, other, 20);
            }
            10 if self.once_in(2) => {
                let mut names = Vec::new();
                let naming = if self.once_in(2) {
                    Naming::Clash
                } else {
                    Naming::Once
                };
                situation = self
                    .generalize(v, &situation, kind, true, 5, naming, &mut names)
                    .unwrap_or(Tree::Any);
            }
            _ => (),
        }
        (v.term(kind, &pattern), v.term(other, &situation))
    }

    /// A pattern that mostly no complete situation fits, of a kind that may have
    /// none, and a situation, mostly a complete one if there are any.
    fn empty_terms(&mut self, v: &Vocabulary, kind: usize) -> (Vec<u8>, Vec<u8>) {
        let mut pattern = Tree::Any;
        let naming = match self.below(12) {
            0 => Naming::Clash,
            1 => Naming::Loose,
            _ => Naming::Once,
        };
        for _ in 0..self.pick(&[1, 4, 4, 8]) {
            let mut spare = self.bytes().max(6) - 1;
            pattern = match self.below(24) {
                0 => Tree::Any,
                1 => Tree::Name(self.below(64) as u8),
                _ => self.pattern(v, kind, 1, &mut spare, &mut Vec::new(), naming),
            };
            if !v.fits(kind, Some(&pattern)) {
                break;
            }
        }
        let situation = if v.size[kind] < 4000 && !self.once_in(4) {
            let bytes = self.bytes().min(200);
            self.situation(v, kind, bytes)
        } else {
            self.left = self.pick(&[3, 20, 40, 70, 2500]);
            let mut given = [const { None }; 64];
            self.fill(v, &pattern, kind, 1, &mut given, 0)
        };
        (v.term(kind, &pattern), v.term(kind, &situation))
    }

    /// A pattern of just about as many bytes as there may be.
    fn brim(&mut self, v: &Vocabulary, kind: usize) -> (Vec<u8>, Vec<u8>) {
        let bytes = self.pick(&[4095, 4095, 4096, 4096, 4096, 4097]);
        let more = self.between(0, 6);
        let situation = self.situation(v, kind, bytes + more);
        let mut pattern = situation.clone();
        let mut over = (1 + 2 * count(&situation)).saturating_sub(bytes);
        if over <= 60 {
            shorten(&mut pattern, &mut over);
        }
        let situation = if self.once_in(2) {
            self.situation(v, kind, 4095)
        } else {
            situation
        };
        (v.term(kind, &pattern), v.term(kind, &situation))
    }

    /// A byte that is often at some boundary.
    fn byte(&mut self, v: &Vocabulary) -> u8 {
        let some = [
            0,
            1,
            3,
            95,
            96,
            97,
            127,
            128,
            129,
            191,
            192,
            254,
            255,
            v.kinds as u8,
            v.kinds as u8 - 1,
            v.words.len() as u8,
            v.words.len() as u8 - 1,
        ];
        match self.below(3) {
            0 => self.pick(&some),
            1 => self.below(v.words.len()) as u8,
            _ => self.next() as u8,
        }
    }

    fn damage(&mut self, v: &Vocabulary, bytes: &mut Vec<u8>, vocabulary: bool) {
        for _ in 0..self.pick(&[1, 1, 1, 2, 5]) {
            let length = bytes.len();
            match self.below(12) {
                0..=2 if length > 0 => {
                    let at = self.below(length);
                    bytes[at] ^= 1 << self.below(8);
                }
                3 | 4 if length > 0 => {
                    let at = self.below(length);
                    bytes[at] = self.byte(v);
                }
                5 if length > 0 => {
                    let keep = self.below(length);
                    bytes.truncate(keep);
                }
                6 if length > 0 => bytes.truncate(length - 1),
                7 => {
                    for _ in 0..self.pick(&[1, 1, 2, 9]) {
                        let byte = self.byte(v);
                        bytes.push(byte);
                    }
                }
                8 if length > 0 => {
                    let at = self.below(length);
                    bytes.remove(at);
                }
                9 => {
                    let at = self.below(length + 1);
                    let byte = self.byte(v);
                    bytes.insert(at, byte);
                }
                10 => {
                    let to = if vocabulary {
                        self.pick(&[0, 1, 2, 3, 954, 961, 962, 963, 970])
                    } else {
                        self.pick(&[0, 1, 2, 3, 4095, 4096, 4097])
                    };
                    let byte = self.byte(v);
                    bytes.resize(to, byte);
                }
                _ if length > 1 => {
                    let at = self.below(2);
                    bytes[at] = if vocabulary && at == 0 {
                        self.pick(&[0, 15, 16, 17, 255])
                    } else if vocabulary {
                        self.pick(&[0, 95, 96, 97, 255])
                    } else {
                        self.byte(v)
                    };
                }
                _ => (),
            }
        }
    }

    /// A filling file for a pattern.
    fn filling(&mut self, v: &Vocabulary, pattern: &[u8]) -> Vec<u8> {
        let stands = v.stands(pattern);
        let names: Vec<usize> = (0..64).filter(|&name| stands[name].times > 0).collect();
        let mut given = [const { None }; 64];
        // One name gets what makes the result about as long as this.
        let bytes = match self.below(12) {
            0 => self.pick(&[4093, 4095, 4095, 4097, 4097, 4099]),
            1 => self.between(1000, 5000),
            2 | 3 => pattern.len() + self.below(300),
            _ => 0,
        };
        let main = self.below(names.len().max(1));
        let deep = self.once_in(10);
        let mut long = if self.once_in(24) { 10_000 } else { 0 };
        let mut length = pattern.len();
        let others = names
            .iter()
            .enumerate()
            .filter(|&(rank, _)| rank != main)
            .map(|(_, &name)| name);
        let order: Vec<usize> = others.chain(names.get(main).copied()).collect();
        for (rank, &name) in order.iter().enumerate() {
            let Stands {
                kind,
                times,
                deepest,
            } = stands[name];
            self.left = 5000;
            let last = rank + 1 == order.len();
            let tree = if v.size[kind] >= 4000 && (v.has(kind) || self.once_in(4)) {
                Tree::Name(0)
            } else if !v.has(kind) {
                self.left = self.pick(&[1, 3, 20, 31, 32, 33, 70, 300]);
                self.complete(v, kind, 1, &mut 0, false)
            } else if last && deep {
                let levels = self.pick(&[32, 33, 33, 34, 34, 65usize.saturating_sub(deepest), 66usize.saturating_sub(deepest)]);
                self.deep(v, kind, levels.saturating_sub(deepest).max(1), true)
            } else {
                let mut spare = match self.below(4) {
                    _ if long > 0 => self.between(1000, 4500),
                    _ if last => (bytes.max(length) - length) / times,
                    0 => self.below(40),
                    1 => self.below(8),
                    _ => 0,
                };
                spare = (spare + times).saturating_sub(v.size[kind]);
                let level = if self.once_in(8) { 1 } else { deepest };
                let grow = spare > 16 || self.once_in(2);
                self.complete(v, kind, level, &mut spare, grow)
            };
            let size = 2 * count(&tree);
            length += times * (size - 1);
            long = long.max(size) - size;
            given[name] = Some(tree);
        }
        let mut file = vec![0; 8];
        for &name in &names {
            file[name / 8] |= 1 << (name % 8);
            if let Some(tree) = &given[name] {
                v.write(tree, &mut file);
            }
        }
        file
    }

    /// The filling file with the parts of a situation, if it fits.
    fn parts(&mut self, vocabulary: &[u8], pattern: &[u8], situation: &[u8]) -> Option<Vec<u8>> {
        let mut table = [0; 128];
        let [0, 1, ..] = crate::match_pattern(vocabulary, pattern, situation, &mut table) else {
            return None;
        };
        let mut file = vec![0; 8];
        for (name, span) in table.as_chunks::<2>().0.iter().enumerate() {
            let [offset, length] = span.map(|number| number as usize);
            if length > 0 {
                file[name / 8] |= 1 << (name % 8);
                file.extend(&situation[offset..offset + length]);
            }
        }
        Some(file)
    }

    /// Damages a filling file in one of the ways that its refusals name.
    fn damage_filling(&mut self, v: &Vocabulary, pattern: &[u8], file: &mut Vec<u8>) {
        let nodes = (file.len() - 8) / 2;
        let node = match self.below(3) {
            _ if nodes == 0 => None,
            0 => Some(nodes - 1 - self.below(nodes.min(8))),
            _ => Some(self.below(nodes)),
        };
        let at = node.map_or(8, |node| 8 + 2 * node);
        let standing: Vec<usize> = (0..64)
            .filter(|name| file[name / 8] >> (name % 8) & 1 == 1)
            .collect();
        match self.below(14) {
            // A name is missing from the map, and its filling or not.
            0 if !standing.is_empty() => {
                let name = self.pick(&standing);
                file[name / 8] &= !(1 << (name % 8));
                if self.once_in(2) {
                    file.truncate(at);
                }
            }
            // A name more than the pattern has, with something for it or not.
            1 => {
                let name = self.below(64);
                file[name / 8] |= 1 << (name % 8);
                if self.once_in(2) {
                    file.extend([self.below(v.words.len()) as u8, 0]);
                }
            }
            2 => {
                let length = self.pick(&[0, 1, 4, 7, 7]);
                file.truncate(length);
                if length > 0 && self.once_in(2) {
                    file[length - 1] ^= 1 << self.below(8);
                }
            }
            // A word for another, perhaps of another kind.
            3 if node.is_some() => file[at] = self.below(v.words.len()) as u8,
            4 | 5 if node.is_some() => {
                let byte = match self.below(3) {
                    0 => 128 + self.below(64) as u8,
                    1 => 255,
                    _ => self.byte(v),
                };
                file.splice(at..at + 2, [byte]);
            }
            // A bit too few or too many in a written map.
            6 if node.is_some() => {
                let full = (8..file.len() - 1)
                    .step_by(2)
                    .filter(|&at| file[at + 1] != 0);
                let full: Vec<usize> = full.collect();
                if !full.is_empty() {
                    let map = 1 + self.pick(&full);
                    file[map] &= file[map] - 1;
                }
            }
            7 if node.is_some() => file[at + 1] ^= 1 << self.below(8),
            8 => {
                // A filling of level 33, and whatever follows.
                let stands = v.stands(pattern);
                if let Some(&name) = standing.first() {
                    let levels = self.pick(&[33, 33, 34]);
                    let tree = self.deep(v, stands[name].kind, levels, true);
                    file.truncate(8);
                    v.write(&tree, file);
                }
            }
            9 => file.truncate(at + 1),
            10 => file.truncate(at),
            11 => {
                for _ in 0..self.pick(&[1, 1, 2, 9]) {
                    let byte = self.byte(v);
                    file.push(byte);
                }
            }
            12 => {
                let keep = self.below(file.len());
                file.truncate(keep);
            }
            _ => self.damage(v, file, false),
        }
    }

    /// A filling file, sound or not, and how many bytes are lent for its result.
    fn fill_case(
        &mut self,
        v: &Vocabulary,
        vocabulary: &[u8],
        pattern: &[u8],
        situation: &[u8],
    ) -> (Vec<u8>, usize) {
        let parts = if self.once_in(4) {
            self.parts(vocabulary, pattern, situation)
        } else {
            None
        };
        let mut file = parts.unwrap_or_else(|| self.filling(v, pattern));
        if self.once_in(3) {
            self.damage_filling(v, pattern, &mut file);
        }
        let reply = crate::fill(vocabulary, pattern, &file, &mut []);
        let exact = if reply[0] == 20 { reply[2] as usize } else { 0 };
        let lent = match self.below(16) {
            0 => 0,
            1 | 2 => exact.saturating_sub(1),
            3 => self.below(exact + 1),
            4 | 5 => exact + 1,
            6..=8 => exact + self.below(40),
            9 => exact + 5000,
            _ => exact,
        };
        (file, lent)
    }

    /// A vocabulary at or beyond a limit.
    fn extreme(&mut self) -> Vec<u8> {
        let words = self.pick(&[1, 95, 96, 96, 97]);
        let kinds = self.pick(&[1, 1, 2, 16, 17]);
        let mut bytes = vec![kinds, words];
        for number in 0..words {
            let map = if number == 0 && !self.once_in(3) {
                0
            } else {
                255
            };
            bytes.push(number % kinds);
            bytes.push(map);
            bytes.resize(bytes.len() + map as usize / 31, 0);
        }
        bytes.truncate(970);
        if self.once_in(3) {
            let to = self.pick(&[954, 961, 962, 963, 970]);
            bytes.resize(to, 0);
        }
        bytes
    }

    /// The next case.
    pub fn case(&mut self) -> Case {
        let v = self.vocabulary();
        let mut vocabulary = v.bytes();
        let (mut pattern, mut situation) = self.terms(&v);
        match self.below(32) {
            0 => self.damage(&v, &mut vocabulary, true),
            1..=4 => self.damage(&v, &mut pattern, false),
            5 | 6 => self.damage(&v, &mut situation, false),
            7 if self.once_in(4) => {
                self.damage(&v, &mut vocabulary, true);
                self.damage(&v, &mut pattern, false);
                self.damage(&v, &mut situation, false);
            }
            8 if self.once_in(2) => vocabulary = self.extreme(),
            9 if self.once_in(4) => {
                let length = self.pick(&[0, 1, 2, 3, 10, 40]);
                vocabulary = (0..length).map(|_| self.byte(&v)).collect();
            }
            _ => (),
        }
        let table_len = if self.once_in(12) {
            self.pick(&[0, 1, 64, 127, 129, 256])
        } else {
            128
        };
        let listing = crate::list(&vocabulary, &pattern, &mut []);
        let exact = if listing[0] == 20 {
            listing[2] as usize
        } else {
            0
        };
        let most = if self.once_in(64) { 1 << 22 } else { 1 << 17 };
        let out_len = match self.below(16) {
            0 => 0,
            1 | 2 => exact.saturating_sub(1),
            3 => self.below(exact + 1),
            4 | 5 => exact + 1,
            6 | 7 => exact + self.below(1000),
            8 => exact + 100_000,
            _ => exact,
        };
        let out_len = if out_len > most {
            self.below(100)
        } else {
            out_len
        };
        let mut names = Vec::new();
        names.extend(
            pattern
                .iter()
                .filter(|&&b| b & 0xc0 == 0x80)
                .map(|&b| b as u64 & 63),
        );
        let name = match self.below(8) {
            0 => self.below(66) as u64,
            1 => self.pick(&[0, 63, 64, 65, 127, 128, 191, 255, 256, u64::MAX]),
            _ if !names.is_empty() => self.pick(&names),
            _ => 0,
        };
        let (table_fill, out_fill) = (self.next() as u16, self.next() as u8);
        let (filling, result_len) = self.fill_case(&v, &vocabulary, &pattern, &situation);
        Case {
            vocabulary,
            pattern,
            situation,
            name,
            table_len,
            table_fill,
            out_len,
            out_fill,
            filling,
            result_len,
        }
    }

    /// Standard input for the program, from a case's vocabulary and pattern;
    /// the length in front is now and then not theirs.
    pub fn input(&mut self, case: &Case) -> Vec<u8> {
        let length = case.vocabulary.len();
        let said = match self.below(16) {
            0 => length + 1,
            1 => length.saturating_sub(1),
            2 => self.below(65_536),
            _ => length,
        };
        let mut input = vec![(said >> 8) as u8, said as u8];
        input.extend_from_slice(&case.vocabulary);
        input.extend_from_slice(&case.pattern);
        match self.below(40) {
            0 => {
                let keep = self.below(4);
                input.truncate(keep);
            }
            1 => {
                let to = self.pick(&[65_535, 65_536, 65_537, 70_000]);
                input.resize(to, 0);
            }
            _ => (),
        }
        input
    }
}

#[cfg(test)]
mod tests {
    use super::*;

    #[test]
    fn same_seed_same_cases() {
        let (mut one, mut two) = (Gen::new(7), Gen::new(7));
        for _ in 0..200 {
            assert_eq!(one.case(), two.case());
            assert_eq!(one.book_case(), two.book_case());
            assert_eq!(one.text_case(), two.text_case());
        }
    }
}
