//! Pseudo-random texts in words.

use super::{count, Gen, Naming, Tree, Vocabulary, Word};

/// A text for the program `desk`.
#[derive(Clone, Debug, PartialEq, Eq)]
pub struct TextCase {
    pub text: Vec<u8>,
    /// Whether the program gets it in a file that its argument names.
    pub in_file: bool,
    /// The vocabulary and the patterns as bytes, where nothing is damaged and
    /// the text not too long. A pattern may still be one that list refuses, and
    /// what it is asked one that match does.
    pub meant: Option<(Vec<u8>, Vec<Meant>)>,
}

/// A pattern as bytes, and the situations that it is asked about.
#[derive(Clone, Debug, PartialEq, Eq)]
pub struct Meant {
    pub pattern: Vec<u8>,
    pub situations: Vec<Vec<u8>>,
}

type Token = Vec<u8>;

/// A token, and whether a declaration or a pattern begins with it.
#[derive(Clone)]
struct Piece {
    token: Token,
    first: bool,
}

/// What kinds and words are called.
struct Called {
    kinds: Vec<Token>,
    words: Vec<Token>,
}

/// Names that look like something else, and words of an answer's own lines.
const ODD: [&str; 14] = [
    "kinds",
    "kin",
    "KIND",
    "__",
    "-",
    "0",
    "_0",
    "a",
    "b",
    "leftovers",
    "not",
    "listed",
    "end",
    "of",
];

/// How much stands between tokens.
#[derive(Clone, Copy, PartialEq)]
enum Layout {
    Plain,
    Tight,
    Loose,
    Wild,
}

fn in_names(byte: u8) -> bool {
    byte.is_ascii_alphanumeric() || byte == b'-' || byte == b'_' || byte >= 128
}

/// Whether two tokens are read as two only with a blank between them.
fn run_together(one: &[u8], other: &[u8]) -> bool {
    let runs = one.first().is_some_and(|&b| b == b'?' || in_names(b));
    runs && other.first().is_some_and(|&b| in_names(b))
}

fn pieces(tokens: Vec<Token>) -> Vec<Piece> {
    let number = |(number, token)| Piece {
        token,
        first: number == 0,
    };
    tokens.into_iter().enumerate().map(number).collect()
}

/// The tokens of a vocabulary.
fn declared(v: &Vocabulary, called: &Called) -> Vec<Piece> {
    let mut all = Vec::new();
    for (kind, words) in v.by_kind.iter().enumerate() {
        let mut tokens = vec![b"kind".to_vec(), called.kinds[kind].clone()];
        for (rank, &word) in words.iter().enumerate() {
            tokens.push(if rank == 0 { b"=" } else { b"|" }.to_vec());
            tokens.push(called.words[word].clone());
            let places = &v.words[word].places;
            for (rank, &(_, kind)) in places.iter().enumerate() {
                tokens.push(if rank == 0 { b"(" } else { b"," }.to_vec());
                tokens.push(called.kinds[kind].clone());
            }
            if !places.is_empty() {
                tokens.push(b")".to_vec());
            }
        }
        all.extend(pieces(tokens));
    }
    all
}

/// Makes words without places and open places names, until there are so many.
fn name_leaves(tree: &mut Tree, names: &mut u8, most: u8) {
    let Tree::Word(_, terms) = tree else { return };
    for term in terms {
        let leaf = match term {
            None => true,
            Some(Tree::Word(_, terms)) => terms.is_empty(),
            Some(_) => false,
        };
        if leaf && *names < most {
            *term = Some(Tree::Name(*names));
            *names += 1;
        } else if let Some(term) = term {
            name_leaves(term, names, most);
        }
    }
}

/// Numbers the names in the order in which they first stand.
fn number_names(tree: &mut Tree, known: &mut Vec<u8>) {
    match tree {
        Tree::Any => (),
        Tree::Name(name) => {
            let at = known.iter().position(|other| other == name);
            *name = at.unwrap_or_else(|| {
                known.push(*name);
                known.len() - 1
            }) as u8;
        }
        Tree::Word(_, terms) => {
            for term in terms.iter_mut().flatten() {
                number_names(term, known);
            }
        }
    }
}

impl Gen {
    /// A vocabulary as a text can have it: words stand with their kind, and
    /// their places have no gaps.
    fn text_vocabulary(&mut self) -> Vocabulary {
        let Vocabulary { kinds, words, .. } = self.vocabulary();
        let mut words: Vec<Word> = words
            .into_iter()
            .map(|word| Word {
                result: word.result,
                places: (0..).zip(word.places.iter().map(|place| place.1)).collect(),
            })
            .collect();
        words.sort_by_key(|word| word.result);
        Vocabulary::new(kinds, words)
    }

    /// So many characters of names.
    fn characters(&mut self, count: usize) -> Token {
        let ascii = self.once_in(2);
        let mut token = Token::new();
        for _ in 0..count {
            match self.below(if ascii { 12 } else { 16 }) {
                0 => token.push(self.pick(b"-_")),
                1 | 2 => token.push(self.pick(b"0123456789")),
                3 => token.push(self.pick(b"AKZkindz")),
                12 | 13 => token.extend(self.pick(&["é", "ß", "λ", "Ж"]).as_bytes()),
                14 => token.extend(self.pick(&["語", "😀", "\u{301}"]).as_bytes()),
                15 if self.once_in(8) => token.push(self.between(128, 255) as u8),
                _ => token.push(b'a' + self.below(26) as u8),
            }
        }
        token
    }

    /// A name of at most 32 bytes that a kind, a word or a label may have.
    fn identifier(&mut self) -> Token {
        loop {
            let token = match self.below(24) {
                0 => self.pick(&ODD).into(),
                1 => self.characters(32),
                2 => self.characters(12),
                _ => {
                    let count = self.between(1, 6);
                    self.characters(count)
                }
            };
            if token.len() <= 32 && token != b"_" && token != b"kind" {
                return token;
            }
        }
    }

    /// A name with more than 32 bytes.
    fn long_name(&mut self) -> Token {
        let count = self.pick(&[33, 33, 34, 60]);
        let mut token = self.characters(count);
        if self.once_in(2) {
            token.truncate(33);
        }
        token
    }

    fn identifiers(&mut self, count: usize) -> Vec<Token> {
        let mut all: Vec<Token> = Vec::new();
        while all.len() < count {
            let next = self.identifier();
            if !all.contains(&next) {
                all.push(next);
            }
        }
        all
    }

    fn variable(&mut self, used: &[Token]) -> Token {
        loop {
            let mut token = b"?".to_vec();
            match self.below(12) {
                0 => token.extend(self.pick(&["_", "kind", "0", "-"]).as_bytes()),
                1 => token.extend(self.identifier()),
                _ => {
                    let count = self.between(1, 3);
                    token.extend(self.characters(count));
                }
            }
            if !used.contains(&token) {
                return token;
            }
        }
    }

    /// A pattern, mostly in order, and its kind.
    fn text_pattern(&mut self, v: &Vocabulary) -> (usize, Tree) {
        let any = self.below(v.kinds);
        let worded: Vec<usize> = (0..v.kinds)
            .filter(|&kind| !v.by_kind[kind].is_empty())
            .collect();
        let kind = self.pick(&worded);
        let naming = if self.once_in(80) {
            Naming::Equal
        } else {
            Naming::Once
        };
        let tree = match self.below(160) {
            0..=5 => return (any, Tree::Any),
            6..=11 => return (any, Tree::Name(self.below(64) as u8)),
            12..=15 => {
                let levels = self.pick(&[31, 32, 32, 33, 33, 34]);
                self.deep(v, kind, levels, false)
            }
            16 | 17 if v.size[kind] < 4000 => {
                let bytes = self.pick(&[4090, 4095, 4096, 4097, 4098]);
                self.situation(v, kind, bytes)
            }
            18 => {
                let mut spare = self.pick(&[60, 200, 2000, 4090, 4200]);
                self.partial(v, kind, 1, &mut spare, 6)
            }
            19..=22 => {
                let mut spare = self.pick(&[200, 400, 1000]);
                let mut tree = self.partial(v, kind, 1, &mut spare, 6);
                let most = self.pick(&[20, 63, 64, 64, 65, 66]);
                name_leaves(&mut tree, &mut 0, most);
                tree
            }
            23..=40 if v.size[kind] < 200 => {
                let bytes = self.between(5, 60);
                let tree = self.situation(v, kind, bytes);
                let rarely = self.between(2, 10);
                let names = &mut Vec::new();
                let made = self.generalize(v, &tree, kind, true, rarely, naming, names);
                made.unwrap_or(Tree::Any)
            }
            41..=60 => {
                let mut spare = self.between(2, 30);
                self.partial(v, kind, 1, &mut spare, 4)
            }
            _ => {
                let mut spare = match self.below(24) {
                    0 => self.between(100, 4000),
                    1..=3 => self.between(30, 100),
                    _ => self.between(3, 30),
                };
                self.pattern(v, kind, 1, &mut spare, &mut Vec::new(), naming)
            }
        };
        (kind, tree)
    }

    /// The tokens of a term whose names are numbered in their order; theirs are
    /// made as they come.
    fn term_tokens(
        &mut self,
        called: &Called,
        tree: &Tree,
        names: &mut Vec<Token>,
        tokens: &mut Vec<Token>,
    ) {
        match tree {
            Tree::Any => tokens.push(b"_".to_vec()),
            Tree::Name(name) => {
                if *name as usize == names.len() {
                    let fresh = self.variable(names);
                    names.push(fresh);
                }
                tokens.push(names[*name as usize].clone());
            }
            Tree::Word(word, terms) => {
                tokens.push(called.words[*word].clone());
                for (rank, term) in terms.iter().enumerate() {
                    tokens.push(if rank == 0 { b"(" } else { b"," }.to_vec());
                    let term = term.as_ref().unwrap_or(&Tree::Any);
                    self.term_tokens(called, term, names, tokens);
                }
                if !terms.is_empty() {
                    tokens.push(b")".to_vec());
                }
            }
        }
    }

    /// A situation to ask a pattern about: one that fits it, one that nearly
    /// does, or any. In a kind without situations there is none, and what is
    /// asked has something open.
    fn asked(&mut self, v: &Vocabulary, kind: usize, tree: &Tree) -> Tree {
        if !v.has(kind) || !v.fits(kind, Some(tree)) {
            return if v.has(kind) {
                self.situation(v, kind, 20)
            } else {
                Tree::Any
            };
        }
        match self.below(12) {
            0..=4 => {
                let bytes = self.between(3, 40);
                self.situation(v, kind, bytes)
            }
            5 if self.once_in(4) => tree.clone(),
            way => {
                let spare = self.pick(&[0, 4, 4, 30]);
                let mut given = [const { None }; 64];
                let mut situation = self.fill(v, tree, kind, 1, &mut given, spare);
                if way % 2 == 0 {
                    let at = self.below(count(&situation));
                    self.change(v, &mut situation, kind, 1, at);
                }
                situation
            }
        }
    }

    /// The tokens of a pattern, with a label or without, and of what it is
    /// asked, and their bytes.
    fn phrase(&mut self, v: &Vocabulary, called: &Called) -> (Vec<Piece>, Meant) {
        let (kind, mut tree) = self.text_pattern(v);
        number_names(&mut tree, &mut Vec::new());
        let mut tokens = Vec::new();
        let label = self.once_in(3).then(|| {
            // It may be called as a word is.
            let at = self.below(4 * called.words.len());
            let word = called.words.get(at).cloned();
            word.unwrap_or_else(|| self.identifier())
        });
        if let Some(label) = &label {
            tokens.push(label.clone());
            tokens.push(b":".to_vec());
        }
        self.term_tokens(called, &tree, &mut Vec::new(), &mut tokens);
        if !matches!(tree, Tree::Word(..)) {
            tokens.push(b":".to_vec());
            tokens.push(called.kinds[kind].clone());
        }
        let mut all = pieces(tokens);
        let mut meant = Meant {
            pattern: v.term(kind, &tree),
            situations: Vec::new(),
        };
        if let (Some(label), true) = (label, self.once_in(2)) {
            for _ in 0..self.between(1, 3) {
                let mut tokens = vec![label.clone(), b"?".to_vec()];
                let situation = self.asked(v, kind, &tree);
                self.term_tokens(called, &situation, &mut Vec::new(), &mut tokens);
                all.extend(pieces(tokens));
                meant.situations.push(v.term(kind, &situation));
            }
        }
        (all, meant)
    }

    /// White space and comments: at least one byte if they are needed.
    fn blank(&mut self, layout: Layout, needed: bool, first: bool) -> Vec<u8> {
        let mut blank = Vec::new();
        match layout {
            Layout::Plain if first => blank.push(b'\n'),
            Layout::Plain | Layout::Tight => (),
            Layout::Loose => {
                for _ in 0..self.pick(&[0, 0, 1, 1, 2, 5]) {
                    blank.push(self.pick(b"    \t\n\r"));
                }
            }
            Layout::Wild => {
                for _ in 0..self.pick(&[0, 1, 1, 2]) {
                    match self.below(3) {
                        0 => blank.extend(self.comment()),
                        1 => blank.extend(b"\r\n"),
                        _ => blank.push(self.pick(b" \t\n\r")),
                    }
                }
            }
        }
        if needed && blank.is_empty() {
            blank.push(match layout {
                Layout::Plain => b' ',
                _ => self.pick(b"   \n\t"),
            });
        }
        blank
    }

    /// A comment with the end of its line.
    fn comment(&mut self) -> Vec<u8> {
        let mut comment = b"#".to_vec();
        for _ in 0..self.pick(&[0, 1, 5, 20]) {
            let byte = match self.below(4) {
                0 => self.next() as u8,
                1 => self.pick(b"#?_:(),|= kind"),
                _ => self.between(32, 126) as u8,
            };
            comment.push(if byte == b'\n' { b'\r' } else { byte });
        }
        comment.push(b'\n');
        comment
    }

    /// Tokens as a text.
    fn written(&mut self, pieces: &[Piece]) -> Vec<u8> {
        let layout = self.pick(&[
            Layout::Plain,
            Layout::Plain,
            Layout::Tight,
            Layout::Loose,
            Layout::Wild,
        ]);
        let mut text = Vec::new();
        let mut before: &[u8] = b"";
        for piece in pieces {
            let token = &piece.token;
            let between =
                matches!(token[..], [b'=' | b'|']) || matches!(before, [b'=' | b'|' | b',' | b':']);
            let needed = run_together(before, token) || layout == Layout::Plain && between;
            let blank = self.blank(layout, needed, piece.first && !before.is_empty());
            text.extend(blank);
            text.extend(token);
            before = token;
        }
        match self.below(8) {
            0 => (),
            1 => {
                text.extend(self.comment());
                text.pop();
            }
            2 => text.extend(self.blank(Layout::Wild, false, false)),
            _ => text.push(b'\n'),
        }
        text
    }

    /// A token to put where another should stand.
    fn stray(&mut self, all: &[Piece]) -> Token {
        match self.below(12) {
            0..=3 if !all.is_empty() => all[self.below(all.len())].token.clone(),
            4..=6 => vec![self.pick(b"(),|=:")],
            7 => self.pick(&["kind", "_", "?", "?n", "kind", "_"]).into(),
            8 => vec![self.pick(b"\x00\x01\x1b\x7f!\"$&*+./;<>@[]{}~\\'`^%?")],
            9 => self.long_name(),
            10 => {
                let mut token = b"?".to_vec();
                token.extend(self.long_name());
                token
            }
            _ => self.identifier(),
        }
    }

    fn damage_pieces(&mut self, all: &mut Vec<Piece>, called: &Called) {
        for _ in 0..self.pick(&[1, 1, 1, 1, 2, 4]) {
            if all.is_empty() {
                return;
            }
            let at = self.below(all.len());
            match self.below(12) {
                0 | 1 => drop(all.remove(at)),
                2 => all.insert(at, all[at].clone()),
                3..=5 => all[at].token = self.stray(all),
                6 | 7 => {
                    let token = self.stray(all);
                    all.insert(
                        at,
                        Piece {
                            token,
                            first: false,
                        },
                    );
                }
                8 => {
                    let other = self.below(all.len());
                    all.swap(at, other);
                }
                9 => all.truncate(at),
                _ => {
                    // Another word, perhaps of another kind.
                    let words: Vec<usize> = (at..all.len())
                        .filter(|&at| called.words.contains(&all[at].token))
                        .collect();
                    if !words.is_empty() {
                        let at = self.pick(&words);
                        all[at].token = called.words[self.below(called.words.len())].clone();
                    }
                }
            }
        }
    }

    fn damage_text(&mut self, text: &mut Vec<u8>) {
        for _ in 0..self.pick(&[1, 1, 1, 2, 5]) {
            let at = self.below(text.len() + 1);
            let byte = match self.below(3) {
                0 => self.next() as u8,
                1 => self.pick(b"#?_:(),|= \n\tkind"),
                _ => self.between(32, 126) as u8,
            };
            match self.below(6) {
                0 => text.truncate(at),
                1 => text.insert(at, byte),
                2 if at < text.len() => drop(text.remove(at)),
                3 if at < text.len() => text[at] ^= 1 << self.below(8),
                _ if at < text.len() => text[at] = byte,
                _ => (),
            }
        }
    }

    /// Gives a vocabulary's tokens too many kinds, words or places, or nearly
    /// so, or no words at all.
    fn swell(&mut self, all: &mut Vec<Piece>) {
        let piece = |token: &[u8], first| Piece {
            token: token.to_vec(),
            first,
        };
        let kinds: Vec<usize> = (0..all.len())
            .filter(|&at| all[at].token == b"kind")
            .collect();
        match self.below(4) {
            0 => {
                let most = self.pick(&[16, 17, 17, 18]);
                for name in self.identifiers(most).iter().skip(kinds.len()) {
                    all.push(piece(b"kind", true));
                    all.push(piece(name, false));
                }
            }
            1 => {
                let marks = all.iter().map(|piece| &piece.token[..]);
                let words = marks.filter(|&mark| mark == b"=" || mark == b"|").count();
                let most = self.pick(&[96, 97, 98]);
                let worded = kinds.last().is_some_and(|last| last + 2 < all.len());
                let mut mark: &[u8] = if worded { b"|" } else { b"=" };
                for name in self.identifiers(most).iter().skip(words) {
                    all.push(piece(mark, false));
                    all.push(piece(name, false));
                    mark = b"|";
                }
            }
            2 => {
                let ends: Vec<usize> = (0..all.len()).filter(|&at| all[at].token == b")").collect();
                if !ends.is_empty() {
                    let at = self.pick(&ends);
                    let kind = all[at - 1].clone();
                    for _ in 0..self.between(1, 9) {
                        all.splice(at..at, [piece(b",", false), kind.clone()]);
                    }
                }
            }
            _ => {
                let only = kinds.iter().flat_map(|&at| all[at..at + 2].to_vec());
                *all = only.collect();
            }
        }
    }

    /// Damages kinds: what stands behind a `kind` is no name, none that a kind
    /// may have or another kind's, a `kind` stands where none is due, or there
    /// are too many; and kinds are used before a fault and declared behind it.
    fn damage_kinds(&mut self, all: &mut Vec<Piece>, called: &Called) {
        for _ in 0..self.pick(&[1, 1, 2, 3]) {
            let named: Vec<usize> = (1..all.len())
                .filter(|&at| all[at - 1].token == b"kind")
                .collect();
            if named.is_empty() {
                return;
            }
            let at = self.pick(&named);
            match self.below(9) {
                0 => drop(all.remove(at)),
                1 => all[at].token = self.pick(&["_", "kind", "?n", "?", "=", "(", ":"]).into(),
                2 => all[at].token = all[self.pick(&named)].token.clone(),
                3 => {
                    // The name is too long wherever it stands.
                    let (name, long) = (all[at].token.clone(), self.long_name());
                    for piece in all.iter_mut().filter(|piece| piece.token == name) {
                        piece.token = long.clone();
                    }
                }
                4 | 5 => {
                    let mut tokens = vec![b"kind".to_vec()];
                    match self.below(3) {
                        0 => (),
                        1 => tokens.push(called.kinds[self.below(called.kinds.len())].clone()),
                        _ => tokens.push(self.identifier()),
                    }
                    let at = self.below(all.len() + 1);
                    all.splice(at..at, pieces(tokens));
                }
                6 | 7 => self.more_kinds(all, named.len()),
                _ => {
                    let ends = (at..all.len()).find(|&end| all[end].first);
                    let moved: Vec<Piece> = all.drain(at - 1..ends.unwrap_or(all.len())).collect();
                    let front = self.front(all);
                    all.splice(front..front, moved);
                }
            }
        }
    }

    /// The front of a declaration or a pattern, or the end.
    fn front(&mut self, all: &[Piece]) -> usize {
        let fronts = (0..all.len()).filter(|&at| all[at].first);
        let fronts: Vec<usize> = fronts.chain([all.len()]).collect();
        self.pick(&fronts)
    }

    /// Adds kinds to those that there are, about as many as may be, each before
    /// or behind any other, and names one of them in a place.
    fn more_kinds(&mut self, all: &mut Vec<Piece>, kinds: usize) {
        let most = self.pick(&[15, 16, 16, 17, 17, 18]);
        let names = self.identifiers(most);
        // The vocabulary stands in front.
        for name in names.iter().skip(kinds) {
            let front = self.front(all).min(self.front(all));
            all.splice(front..front, pieces(vec![b"kind".to_vec(), name.clone()]));
        }
        let places: Vec<usize> = (1..all.len())
            .filter(|&at| matches!(all[at - 1].token[..], [b'(' | b',']))
            .collect();
        if !places.is_empty() {
            let at = places[self.below(places.len()).min(self.below(places.len()))];
            all[at].token = names[most - 1].clone();
        }
    }

    /// The next text.
    pub fn text_case(&mut self) -> TextCase {
        let v = self.text_vocabulary();
        let called = Called {
            kinds: self.identifiers(v.kinds),
            words: self.identifiers(v.words.len()),
        };
        let mut all = declared(&v, &called);
        let mut damaged = self.once_in(40);
        if damaged {
            self.swell(&mut all);
        }
        let count = match self.below(60) {
            0..=3 => 0,
            4 | 5 => self.between(10, 40),
            _ => self.between(1, 8),
        };
        let mut patterns = Vec::new();
        for _ in 0..count {
            let (phrase, meant) = self.phrase(&v, &called);
            all.extend(phrase);
            patterns.push(meant);
        }
        if self.once_in(10) {
            damaged = true;
            self.damage_kinds(&mut all, &called);
        }
        if self.once_in(3) {
            damaged = true;
            self.damage_pieces(&mut all, &called);
        }
        let mut text = self.written(&all);
        let last = self.below(60);
        match last {
            0..=8 => self.damage_text(&mut text),
            9 => self.lengthen(&mut text, &v, &called),
            10 if self.once_in(4) => {
                let length = self.below(40);
                text = (0..length).map(|_| self.next() as u8).collect();
            }
            _ => (),
        }
        damaged |= last <= 10 || text.len() > 65_535;
        TextCase {
            text,
            in_file: self.once_in(4),
            meant: (!damaged).then(|| (v.bytes(), patterns)),
        }
    }

    /// Makes a text about as long as can be, by blanks, a comment or a pattern.
    fn lengthen(&mut self, text: &mut Vec<u8>, v: &Vocabulary, called: &Called) {
        let to = self.pick(&[65_534, 65_535, 65_535, 65_536, 65_537, 70_000]);
        let more = match self.below(5) {
            0 => b" ".to_vec(),
            1 => b"\n".to_vec(),
            2 => b"#".to_vec(),
            _ => {
                let (phrase, _) = self.phrase(v, called);
                let mut more = self.written(&phrase);
                more.push(b'\n');
                more
            }
        };
        let whole = self.once_in(2);
        while text.len() < to && !(whole && text.len() + more.len() > to) {
            text.extend_from_slice(&more);
        }
        text.truncate(to);
    }
}
