//! Reading a vocabulary and patterns in words.

use super::complaint::*;
use super::tokens::{is_identifier, is_name, lexemes, Lexeme};
use super::{Fault, Pattern, Vocabulary, Word};

const MOST_NAME: usize = 32;
const MOST_KINDS: usize = 16;
const MOST_WORDS: usize = 96;
const MOST_PLACES: usize = 8;
const MOST_NAMES: usize = 64;
const MOST_LEVELS: usize = 32;
const MOST_BYTES: usize = 4096;

pub(super) struct Reader<'a> {
    lexemes: Vec<Lexeme<'a>>,
    next: usize,
}

/// A word whose places are being read: its number, where its map stands in the
/// pattern's bytes, and the place whose turn it is.
struct Open {
    word: usize,
    map: usize,
    place: usize,
}

/// Whether a new name may stand behind those that there are, or the number of
/// what is wrong.
fn new_name<'a>(
    token: &[u8],
    mut before: impl ExactSizeIterator<Item = &'a [u8]>,
    most: usize,
    [due, twice, many]: [u8; 3],
) -> Result<(), u8> {
    let full = before.len() >= most;
    if !is_identifier(token) {
        Err(due)
    } else if token.len() > MOST_NAME {
        Err(LONG_NAME)
    } else if before.any(|name| name == token) {
        Err(twice)
    } else if full {
        Err(many)
    } else {
        Ok(())
    }
}

/// Whether a kind of this name may be declared behind others.
fn new_kind(token: &[u8], before: &[&[u8]]) -> Result<(), u8> {
    let whys = [KIND_NAME_DUE, KIND_TWICE, MANY_KINDS];
    new_name(token, before.iter().copied(), MOST_KINDS, whys)
}

impl<'a> Reader<'a> {
    pub fn new(text: &'a [u8]) -> Self {
        Reader {
            lexemes: lexemes(text),
            next: 0,
        }
    }

    /// The token so many behind the next; the text's end comes again and again.
    fn ahead(&self, by: usize) -> &'a [u8] {
        let lexeme = self.lexemes.get(self.next + by);
        lexeme.map_or(&[], |lexeme| lexeme.token)
    }

    fn here(&self) -> &'a [u8] {
        self.ahead(0)
    }

    fn step(&mut self) {
        self.next = (self.next + 1).min(self.lexemes.len() - 1);
    }

    /// Steps over a token, if it is the next.
    fn over(&mut self, token: &[u8]) -> bool {
        let there = self.here() == token;
        if there {
            self.step();
        }
        there
    }

    /// A fault at the next token.
    fn fault(&self, why: u8, of: usize) -> Fault {
        Fault {
            why,
            at: self.lexemes[self.next].at,
            of,
        }
    }

    /// The names behind each `kind` in the whole text, as many as can be names
    /// of kinds together: a kind may be used before it is declared. No other
    /// is a fault here; it is one where the reading comes to it.
    fn gathered(&self) -> Vec<&'a [u8]> {
        let mut kinds: Vec<&[u8]> = Vec::new();
        for pair in self.lexemes.windows(2) {
            let name = pair[1].token;
            if pair[0].token == b"kind" && new_kind(name, &kinds).is_ok() {
                kinds.push(name);
            }
        }
        kinds
    }

    /// The declarations at the beginning of the text.
    pub fn vocabulary(&mut self) -> Result<Vocabulary<'a>, Fault> {
        let mut read = Vocabulary {
            kinds: self.gathered(),
            words: Vec::new(),
        };
        if self.here() != b"kind" {
            return Err(self.fault(KIND_DUE, 0));
        }
        let mut declared: Vec<&[u8]> = Vec::new();
        while self.over(b"kind") {
            new_kind(self.here(), &declared).map_err(|why| self.fault(why, 0))?;
            let kind = declared.len() as u8;
            declared.push(self.here());
            self.step();
            if self.over(b"=") {
                self.word(kind, &mut read)?;
                while self.over(b"|") {
                    self.word(kind, &mut read)?;
                }
            }
        }
        if read.words.is_empty() {
            return Err(self.fault(NO_WORDS, 0));
        }
        Ok(read)
    }

    fn word(&mut self, kind: u8, read: &mut Vocabulary<'a>) -> Result<(), Fault> {
        let name = self.here();
        let before = read.words.iter().map(|word| word.name);
        new_name(name, before, MOST_WORDS, [WORD_DUE, WORD_TWICE, MANY_WORDS])
            .map_err(|why| self.fault(why, 0))?;
        self.step();
        let mut places = Vec::new();
        if self.over(b"(") {
            loop {
                let place = self.place(&read.kinds)?;
                if places.len() == MOST_PLACES {
                    return Err(self.fault(MANY_PLACES, 0));
                }
                places.push(place);
                self.step();
                if self.over(b")") {
                    break;
                }
                if !self.over(b",") {
                    return Err(self.fault(PLACE_END, 0));
                }
            }
        }
        read.words.push(Word { name, kind, places });
        Ok(())
    }

    /// The number of the kind of a place, whose name is the next token. It may
    /// be declared later, but not with a name that is too long, and not behind
    /// as many kinds as there may be.
    fn place(&self, kinds: &[&[u8]]) -> Result<u8, Fault> {
        if is_identifier(self.here()) && self.here().len() > MOST_NAME {
            return Err(self.fault(LONG_NAME, 0));
        }
        self.kind(kinds).map_err(|fault| match fault.why {
            NOT_DECLARED if kinds.len() == MOST_KINDS => self.fault(PAST_KINDS, 0),
            _ => fault,
        })
    }

    /// The number of the kind whose name is the next token.
    fn kind(&self, kinds: &[&[u8]]) -> Result<u8, Fault> {
        let name = self.here();
        if !is_identifier(name) {
            return Err(self.fault(PLACE_DUE, 0));
        }
        match kinds.iter().position(|&kind| kind == name) {
            Some(kind) => Ok(kind as u8),
            None => Err(self.fault(NOT_DECLARED, 0)),
        }
    }

    /// Patterns up to the end of the text.
    pub fn patterns(&mut self, vocabulary: &Vocabulary) -> Result<Vec<Pattern<'a>>, Fault> {
        let mut patterns = Vec::new();
        while !self.here().is_empty() {
            let mut pattern = self.pattern(vocabulary)?;
            while is_identifier(self.here()) && self.ahead(1) == b"?" {
                let situation = self.question(&pattern, vocabulary)?;
                pattern.situations.push(situation);
            }
            patterns.push(pattern);
        }
        Ok(patterns)
    }

    /// The situation that a pattern is asked about.
    fn question(
        &mut self,
        pattern: &Pattern,
        vocabulary: &Vocabulary,
    ) -> Result<Vec<u8>, Fault> {
        if pattern.label != Some(self.here()) {
            return Err(self.fault(OTHER_LABEL, 0));
        }
        self.step();
        self.step();
        let mut situation = Pattern {
            label: None,
            names: Vec::new(),
            bytes: vec![pattern.bytes[0]],
            situations: Vec::new(),
        };
        self.term(vocabulary, &mut situation, true)?;
        Ok(situation.bytes)
    }

    fn pattern(&mut self, vocabulary: &Vocabulary) -> Result<Pattern<'a>, Fault> {
        let mut pattern = Pattern {
            label: None,
            names: Vec::new(),
            bytes: vec![0],
            situations: Vec::new(),
        };
        if is_identifier(self.here()) && self.ahead(1) == b":" {
            if self.here().len() > MOST_NAME {
                return Err(self.fault(LONG_NAME, 0));
            }
            pattern.label = Some(self.here());
            self.step();
            self.step();
        }
        let root = self.here();
        if root == b"_" || is_name(root) {
            if root == b"_" {
                pattern.bytes.push(255);
                self.step();
            } else {
                self.name(1, &mut pattern)?;
            }
            if !self.over(b":") {
                return Err(self.fault(COLON_DUE, 0));
            }
            pattern.bytes[0] = self.kind(&vocabulary.kinds)?;
            self.step();
        } else if is_identifier(root) {
            let mut words = vocabulary.words.iter();
            if let Some(word) = words.find(|word| word.name == root) {
                pattern.bytes[0] = word.kind;
            }
            self.term(vocabulary, &mut pattern, false)?;
        } else {
            return Err(self.fault(PATTERN_DUE, 0));
        }
        Ok(pattern)
    }

    /// Reads the term of the pattern's kind behind its kind byte. Of an open
    /// place nothing is written but the 0 in its word's map. A complete term
    /// has nothing open.
    fn term(
        &mut self,
        vocabulary: &Vocabulary,
        pattern: &mut Pattern<'a>,
        complete: bool,
    ) -> Result<(), Fault> {
        let mut open: Vec<Open> = Vec::new();
        let mut due = pattern.bytes[0];
        loop {
            let level = open.len() + 1;
            let mut begun = None;
            if complete && (self.here() == b"_" || is_name(self.here())) {
                let open = self.fault(SITUATION_OPEN, 0);
                // What is wrong with the name itself is told first.
                if is_name(self.here()) {
                    self.name(level, pattern)?;
                }
                return Err(open);
            }
            if !self.over(b"_") {
                if let Some(above) = open.last() {
                    pattern.bytes[above.map] |= 1 << above.place;
                }
                if is_name(self.here()) {
                    self.name(level, pattern)?;
                } else {
                    let word = self.known_word(vocabulary, due, level, pattern.bytes.len())?;
                    begun = Some(Open {
                        word,
                        map: pattern.bytes.len() + 1,
                        place: 0,
                    });
                    pattern.bytes.extend([word as u8, 0]);
                    self.step();
                }
            }
            if let Some(begun) = begun {
                if let Some(&first) = vocabulary.words[begun.word].places.first() {
                    self.mark(b"(", begun.word)?;
                    due = first;
                    open.push(begun);
                    continue;
                }
            }
            // Behind a whole term: a comma and the next place of the word above,
            // or its end and what is behind that.
            loop {
                let Some(above) = open.last_mut() else {
                    return Ok(());
                };
                above.place += 1;
                match vocabulary.words[above.word].places.get(above.place) {
                    Some(&next) => {
                        self.mark(b",", above.word)?;
                        due = next;
                        break;
                    }
                    None => self.mark(b")", above.word)?,
                }
                open.pop();
            }
        }
    }

    /// Steps over a mark that the places of a word need.
    fn mark(&mut self, mark: &[u8], word: usize) -> Result<(), Fault> {
        if self.over(mark) {
            Ok(())
        } else if mark == b")" {
            Err(self.fault(PLACES_OVER, word))
        } else {
            Err(self.fault(PLACES_WRONG, word))
        }
    }

    /// The number of the word that stands next, where one of a kind is due and
    /// the pattern has so many bytes already.
    fn known_word(
        &self,
        vocabulary: &Vocabulary,
        due: u8,
        level: usize,
        bytes: usize,
    ) -> Result<usize, Fault> {
        let fault = |why| Err(self.fault(why, due as usize));
        let token = self.here();
        if !is_identifier(token) {
            return fault(TERM_DUE);
        }
        let Some(word) = vocabulary.words.iter().position(|word| word.name == token) else {
            return fault(NO_WORD);
        };
        if vocabulary.words[word].kind != due {
            return fault(OTHER_KIND);
        }
        if level > MOST_LEVELS {
            return fault(TOO_DEEP);
        }
        if bytes + 2 > MOST_BYTES {
            return fault(TOO_LONG);
        }
        Ok(word)
    }

    /// Reads a name, which is the pattern's next.
    fn name(&mut self, level: usize, pattern: &mut Pattern<'a>) -> Result<(), Fault> {
        let token = self.here();
        let why = if token.len() > 1 + MOST_NAME {
            LONG_NAME
        } else if pattern.names.contains(&token) {
            NAME_TWICE
        } else if level > MOST_LEVELS {
            TOO_DEEP
        } else if pattern.names.len() == MOST_NAMES {
            MANY_NAMES
        } else if pattern.bytes.len() == MOST_BYTES {
            TOO_LONG
        } else {
            pattern.bytes.push(128 + pattern.names.len() as u8);
            pattern.names.push(token);
            self.step();
            return Ok(());
        };
        Err(self.fault(why, 0))
    }
}
