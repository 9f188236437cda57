//! The engineers' own words: a text with a vocabulary and patterns, and what
//! the program `desk` prints for it.

mod complaint;
mod reading;
mod tokens;
mod verdict;

use crate::program::entry_length;
use reading::Reader;
use std::io::Write;

/// How many bytes a text may have, the listing of a pattern, and an answer.
const MOST_TEXT: usize = 65_535;
const MOST_LISTED: usize = 65_536;
const MOST_ANSWER: usize = 1_048_576;

/// How many patterns may be taken together, and how many bytes their leftovers
/// may have.
const MOST_TOGETHER: usize = 64;
const MOST_LEFT: usize = 32_768;

/// What is said of a list that is too long, up to the number of its bytes, and
/// of patterns together.
const NOT_LISTED: &str = "leftovers not listed, as the list has ";
const NOT_TOGETHER: &str = "leftovers of all ";

/// Each kind is known by its number in `kinds`, each word by its number in
/// `words`.
#[derive(Clone, Debug, Default, PartialEq, Eq)]
pub struct Vocabulary<'a> {
    pub kinds: Vec<&'a [u8]>,
    pub words: Vec<Word<'a>>,
}

#[derive(Clone, Debug, PartialEq, Eq)]
pub struct Word<'a> {
    pub name: &'a [u8],
    pub kind: u8,
    pub places: Vec<u8>,
}

/// A pattern as bytes, with its names in the order of their numbers, each with
/// its `?`, and the situations that it is asked about, as bytes.
#[derive(Clone, Debug, PartialEq, Eq)]
pub struct Pattern<'a> {
    pub label: Option<&'a [u8]>,
    pub names: Vec<&'a [u8]>,
    pub bytes: Vec<u8>,
    pub situations: Vec<Vec<u8>>,
}

#[derive(Clone, Debug, PartialEq, Eq)]
pub struct Text<'a> {
    pub vocabulary: Vocabulary<'a>,
    pub patterns: Vec<Pattern<'a>>,
}

/// What is wrong, by its number, at which byte, and the number of the kind or
/// word that it is about, if it is about one.
#[derive(Clone, Copy, Debug, PartialEq, Eq)]
pub struct Fault {
    pub why: u8,
    pub at: usize,
    pub of: usize,
}

/// A fault, and what was known of the vocabulary where it was found.
#[derive(Clone, Debug, PartialEq, Eq)]
pub struct Refused<'a> {
    pub fault: Fault,
    pub vocabulary: Vocabulary<'a>,
}

/// Reads a whole text.
pub fn read(text: &[u8]) -> Result<Text<'_>, Refused<'_>> {
    let nothing_known = |fault| Refused {
        fault,
        vocabulary: Vocabulary::default(),
    };
    if text.len() > MOST_TEXT {
        return Err(nothing_known(Fault {
            why: complaint::LONG_TEXT,
            at: MOST_TEXT,
            of: 0,
        }));
    }
    let mut reader = Reader::new(text);
    let vocabulary = reader.vocabulary().map_err(nothing_known)?;
    match reader.patterns(&vocabulary) {
        Ok(patterns) => Ok(Text {
            vocabulary,
            patterns,
        }),
        Err(fault) => Err(Refused { fault, vocabulary }),
    }
}

/// Reads patterns alone, such as the leftovers of an answer, in the words of a
/// vocabulary.
pub fn read_patterns<'a>(
    vocabulary: &Vocabulary<'_>,
    text: &'a [u8],
) -> Result<Vec<Pattern<'a>>, Fault> {
    Reader::new(text).patterns(vocabulary)
}

/// An answer without the lines that stand in it where a list is too long: with
/// them it cannot be read as patterns.
pub fn listed(answer: &[u8]) -> Vec<u8> {
    let lines = answer.split_inclusive(|&byte| byte == b'\n');
    let lines = lines.filter(|line| {
        !line.starts_with(NOT_LISTED.as_bytes()) && !line.starts_with(NOT_TOGETHER.as_bytes())
    });
    lines.flatten().copied().collect()
}

/// An answer with the leftovers of patterns together in order: which order they
/// have is left open.
pub fn in_order(answer: &[u8]) -> Vec<u8> {
    let mut lines: Vec<&[u8]> = answer.split_inclusive(|&byte| byte == b'\n').collect();
    let mut rest = &mut lines[..];
    while let Some(at) = rest.iter().position(|line| line.starts_with(b"# all ")) {
        rest = &mut rest[at + 1..];
        let end = rest.iter().position(|line| line.starts_with(b"# end of "));
        if let Some(1..) = end {
            rest[1..end.unwrap_or(1)].sort_unstable();
        }
    }
    lines.concat()
}

/// The bytes that the program `desk` prints for a text.
pub fn answer(text: &[u8]) -> Vec<u8> {
    let answer = match read(text) {
        Ok(read) => read.answer(),
        Err(refused) => refused.complaint(text),
    };
    if answer.len() > MOST_ANSWER {
        return b"the answer has more than 1048576 bytes, which are the most: \
            ask for fewer patterns at a time\n"
            .to_vec();
    }
    answer
}

/// Appends what is formatted.
macro_rules! say {
    ($out:expr, $($part:tt)*) => {
        write!($out, $($part)*).unwrap_or_default()
    };
}
pub(crate) use say;

impl Vocabulary<'_> {
    /// The vocabulary as bytes, each word's places counted from 0.
    pub fn bytes(&self) -> Vec<u8> {
        let mut bytes = vec![self.kinds.len() as u8, self.words.len() as u8];
        for word in &self.words {
            let map = (1u32 << word.places.len()) - 1;
            bytes.extend([word.kind, map as u8]);
            bytes.extend_from_slice(&word.places);
        }
        bytes
    }

    /// For each kind whether it has a complete situation, of any size: one is
    /// made by a word each of whose places has a kind with one.
    fn having(&self) -> Vec<bool> {
        let mut having = vec![false; self.kinds.len()];
        // A round that finds no further kind is followed by none that does, so
        // as many rounds as there are kinds will do.
        for _ in &self.kinds {
            for word in &self.words {
                if word.places.iter().all(|&place| having[place as usize]) {
                    having[word.kind as usize] = true;
                }
            }
        }
        having
    }

    /// Appends a pattern or entry in words, given its bytes and its names.
    fn say(&self, bytes: &[u8], names: &[&[u8]], out: &mut Vec<u8>) {
        let kind = self.kinds[bytes[0] as usize];
        if bytes[1] == 255 {
            out.push(b'_');
        } else {
            self.say_term(&bytes[1..], names, out);
        }
        if bytes[1] >= 128 {
            out.extend_from_slice(b": ");
            out.extend_from_slice(kind);
        }
    }

    /// Appends the term at the front, and gives the bytes behind it.
    fn say_term<'a>(&self, bytes: &'a [u8], names: &[&[u8]], out: &mut Vec<u8>) -> &'a [u8] {
        if bytes[0] >= 128 {
            out.extend_from_slice(names[bytes[0] as usize - 128]);
            return &bytes[1..];
        }
        let word = &self.words[bytes[0] as usize];
        out.extend_from_slice(word.name);
        let (map, mut rest) = (bytes[1], &bytes[2..]);
        for place in 0..word.places.len() {
            out.extend_from_slice(if place == 0 { b"(" } else { b", " });
            if map >> place & 1 == 1 {
                rest = self.say_term(rest, names, out);
            } else {
                out.push(b'_');
            }
        }
        if !word.places.is_empty() {
            out.push(b')');
        }
        rest
    }
}

/// Entries, one by one.
pub fn split(mut bytes: &[u8], entries: u64) -> Vec<Vec<u8>> {
    let mut all = Vec::new();
    for _ in 0..entries {
        let (entry, behind) = bytes.split_at(entry_length(bytes));
        all.push(entry.to_vec());
        bytes = behind;
    }
    assert!(bytes.is_empty(), "{} bytes behind the entries", bytes.len());
    all
}

impl Pattern<'_> {
    /// The entries that list gives under a vocabulary, or how many bytes they
    /// would have if these are too many.
    pub fn leftovers(&self, vocabulary: &[u8]) -> Result<Vec<Vec<u8>>, u64> {
        let mut space = vec![0; MOST_LISTED];
        match crate::list(vocabulary, &self.bytes, &mut space) {
            [0, entries, bytes, ..] => Ok(split(&space[..bytes as usize], entries)),
            [20, 3, bytes, ..] => Err(bytes),
            reply => panic!("list replies {reply:?} to {self:?}"),
        }
    }
}

impl Text<'_> {
    /// How many patterns of a kind there are, and their book, where they are at
    /// least two; with more than a book may have, it is none.
    pub fn book(&self, kind: usize) -> Option<(usize, Vec<u8>)> {
        let of_kind = |pattern: &&Pattern| pattern.bytes[0] as usize == kind;
        let patterns: Vec<_> = self.patterns.iter().filter(of_kind).collect();
        let mut book = vec![patterns.len() as u8];
        for pattern in &patterns {
            book.extend_from_slice(&pattern.bytes);
        }
        (patterns.len() > 1).then_some((patterns.len(), book))
    }

    /// What is printed for a text that is in order, as far as it is needed to
    /// see that it is too long.
    fn answer(&self) -> Vec<u8> {
        let vocabulary = self.vocabulary.bytes();
        let mut out = Vec::new();
        for pattern in &self.patterns {
            if out.len() > MOST_ANSWER {
                return out;
            }
            self.block(pattern, &vocabulary, &mut out);
            for situation in &pattern.situations {
                self.vocabulary.verdict(pattern, situation, &mut out);
            }
        }
        for (kind, has) in self.vocabulary.having().into_iter().enumerate() {
            if !has {
                out.extend_from_slice(b"# kind ");
                out.extend_from_slice(self.vocabulary.kinds[kind]);
                out.extend_from_slice(b" has no complete situation\n\n");
            }
            self.together(kind, &vocabulary, &mut out);
        }
        say!(out, "# end of {} patterns\n", self.patterns.len());
        out
    }

    /// Appends a pattern as it was read, and its leftovers.
    fn block(&self, pattern: &Pattern, vocabulary: &[u8], out: &mut Vec<u8>) {
        out.extend_from_slice(b"# ");
        if let Some(label) = pattern.label {
            out.extend_from_slice(label);
            out.extend_from_slice(b": ");
        }
        self.vocabulary.say(&pattern.bytes, &pattern.names, out);
        out.push(b'\n');
        match pattern.leftovers(vocabulary) {
            Ok(entries) => self.entries(&entries, &pattern.names, out),
            Err(bytes) => say!(
                out,
                "{NOT_LISTED}{bytes} bytes and {MOST_LISTED} are the most\n"
            ),
        }
        out.push(b'\n');
    }

    fn entries(&self, entries: &[Vec<u8>], names: &[&[u8]], out: &mut Vec<u8>) {
        say!(out, "# {} leftovers:\n", entries.len());
        for entry in entries {
            self.vocabulary.say(entry, names, out);
            out.push(b'\n');
        }
        say!(out, "# end of {} leftovers\n", entries.len());
    }

    /// Appends the leftovers of all patterns of a kind together, where there
    /// are two at least.
    fn together(&self, kind: usize, vocabulary: &[u8], out: &mut Vec<u8>) {
        let Some((patterns, book)) = self.book(kind) else {
            return;
        };
        let mut heading = Vec::new();
        say!(heading, "all {patterns} patterns of ");
        heading.extend_from_slice(self.vocabulary.kinds[kind]);
        heading.extend_from_slice(b" together");
        let mut space = vec![0; MOST_LEFT];
        let past = if patterns > MOST_TOGETHER {
            format!("{MOST_TOGETHER} patterns are the most")
        } else {
            match crate::list_book(vocabulary, &book, &mut space) {
                [0, entries, bytes, ..] => {
                    out.extend_from_slice(b"# ");
                    out.extend_from_slice(&heading);
                    out.push(b'\n');
                    self.entries(&split(&space[..bytes as usize], entries), &[], out);
                    out.push(b'\n');
                    return;
                }
                [26, 5, number, ..] => format!(
                    "behind pattern {} of them they have more than {MOST_LEFT} bytes, \
                     or one of them more than 4096",
                    number + 1
                ),
                reply => panic!("list_book replies {reply:?} to {book:?}"),
            }
        };
        out.extend_from_slice(b"leftovers of ");
        out.extend_from_slice(&heading);
        say!(out, " not listed, as {past}\n\n");
    }
}
