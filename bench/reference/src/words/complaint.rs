//! What is wrong with a text, told with line and column, the line itself and a
//! mark below the place.

use super::tokens::{is_identifier, is_name, lexemes, token};
use super::{say, Refused};
use std::io::Write;

pub(super) const KIND_DUE: u8 = 1;
pub(super) const KIND_NAME_DUE: u8 = 2;
pub(super) const LONG_NAME: u8 = 3;
pub(super) const KIND_TWICE: u8 = 4;
pub(super) const MANY_KINDS: u8 = 5;
pub(super) const WORD_DUE: u8 = 6;
pub(super) const WORD_TWICE: u8 = 7;
pub(super) const MANY_WORDS: u8 = 8;
pub(super) const PLACE_DUE: u8 = 9;
pub(super) const NOT_DECLARED: u8 = 10;
pub(super) const MANY_PLACES: u8 = 11;
pub(super) const PLACE_END: u8 = 12;
pub(super) const NO_WORDS: u8 = 13;
pub(super) const PATTERN_DUE: u8 = 14;
pub(super) const TERM_DUE: u8 = 15;
pub(super) const NO_WORD: u8 = 16;
pub(super) const OTHER_KIND: u8 = 17;
pub(super) const PLACES_WRONG: u8 = 18;
pub(super) const TOO_DEEP: u8 = 19;
pub(super) const TOO_LONG: u8 = 20;
pub(super) const NAME_TWICE: u8 = 21;
pub(super) const MANY_NAMES: u8 = 22;
pub(super) const COLON_DUE: u8 = 23;
pub(super) const LONG_TEXT: u8 = 24;
pub(super) const PLACES_OVER: u8 = 25;
pub(super) const SITUATION_OPEN: u8 = 26;
pub(super) const OTHER_LABEL: u8 = 27;
pub(super) const PAST_KINDS: u8 = 28;

/// What is said of a ( where no place is due.
const NO_PLACES: &str = "no places are due here, as what stands before takes none or has them all";

/// A byte that begins no character: it goes on with one, or is a carriage
/// return.
fn goes_on(byte: u8) -> bool {
    byte & 0xc0 == 0x80 || byte == b'\r'
}

/// What is said of a question with no pattern before it, and behind a name
/// that may be the label of a question.
const NO_PATTERN: &str =
    "a question stands behind its pattern, and begins with its label";
const BLANK_DUE: &str = " in this vocabulary; in a question a blank is due behind the ?";

/// What is said of a mark between places or words where a pattern is due.
const NO_MARK: &str = "a pattern is due here; no mark stands between patterns, \
    and the words of a kind stand behind =, with a | between them";

fn begins_term(token: &[u8]) -> bool {
    is_identifier(token) || token == b"_" || is_name(token)
}

impl Refused<'_> {
    pub(super) fn complaint(&self, text: &[u8]) -> Vec<u8> {
        let (before, behind) = text.split_at(self.fault.at);
        let mut lines = before.rsplit(|&byte| byte == b'\n');
        let left = lines.next().unwrap_or(&[]);
        let right = behind.split(|&byte| byte == b'\n').next().unwrap_or(&[]);
        let column = 1 + left.iter().filter(|&&byte| !goes_on(byte)).count();
        let mut out = Vec::new();
        say!(out, "line {}, column {column}: ", 1 + lines.count());
        self.reason(token(text, self.fault.at), behind, &mut out);
        out.push(b'\n');
        let shown = left.iter().chain(right).filter(|&&byte| byte != b'\r');
        out.extend(shown.map(|&byte| match byte {
            b'\t' => byte,
            0..=31 | 127 => b'?',
            _ => byte,
        }));
        out.push(b'\n');
        for &byte in left {
            match byte {
                b'\t' => out.push(byte),
                _ if goes_on(byte) => {}
                _ => out.push(b' '),
            }
        }
        out.extend_from_slice(b"^\n");
        out
    }

    /// Appends what is wrong, where a token stands, which begins the rest of
    /// the text.
    fn reason(&self, token: &[u8], rest: &[u8], out: &mut Vec<u8>) {
        let mut around = |before: &str, behind: &str| {
            out.extend_from_slice(before.as_bytes());
            out.extend_from_slice(token);
            out.extend_from_slice(behind.as_bytes());
        };
        let plain = match self.fault.why {
            PATTERN_DUE | PLACES_WRONG | PLACES_OVER if token == b"(" => NO_PLACES,
            KIND_DUE if token.starts_with(b"\xef\xbb\xbf") => {
                "a byte order mark stands here, and a text begins with `kind`"
            }
            KIND_DUE => "`kind` is due here, as a text begins with its kinds",
            KIND_NAME_DUE => "a name is due here, for the kind",
            LONG_NAME => "32 bytes are the most for a name, and this one has more",
            KIND_TWICE => return around("kind ", " is declared twice"),
            MANY_KINDS => "16 kinds are the most, and this is one more",
            WORD_DUE => "a name is due here, for a word",
            WORD_TWICE => return around("word ", " is declared twice"),
            MANY_WORDS => "96 words are the most, and this is one more",
            PLACE_DUE => "the name of a kind is due here",
            NOT_DECLARED => return around("kind ", " is used and not declared"),
            MANY_PLACES => "8 places are the most, and this is one more",
            PLACE_END => "a , or a ) is due here",
            NO_WORDS => {
                "no kind up to here has a word; words stand behind =, as in kind button = up | down"
            }
            PATTERN_DUE => match token {
                b"kind" => "all kinds are declared before the first pattern",
                b"," | b"|" | b"=" => NO_MARK,
                _ => "a pattern is due here",
            },
            TERM_DUE | OTHER_KIND => return self.due(out),
            NO_WORD => match lexemes(rest)[1].token {
                b"?" => NO_PATTERN,
                behind if is_name(behind) => return around("no word ", BLANK_DUE),
                _ => return around("no word ", " in this vocabulary"),
            },
            PLACES_WRONG => {
                let written = match token {
                    b")" => "and fewer are written",
                    b"," => "and none is written",
                    _ => "in ( and ) with a , between them",
                };
                return self.places(written, out);
            }
            PLACES_OVER if token == b"," => {
                let more = commas(rest);
                if more == 0 {
                    return self.places("and no , is due here", out);
                }
                let number = self.vocabulary.words[self.fault.of].places.len() + more;
                return self.places(&format!("and {number} are written"), out);
            }
            PLACES_OVER => return self.places("and a ) is due here", out),
            TOO_DEEP => "32 levels are the most, and this is one more",
            TOO_LONG => "4096 bytes are the most for a pattern or a situation, and this one has more",
            NAME_TWICE => return around("", " stands twice in this pattern"),
            MANY_NAMES => "64 names are the most in a pattern, and this is one more",
            COLON_DUE => "a : and a kind are due here, as in _: step",
            LONG_TEXT => "65535 bytes are the most for a text, and this one has more",
            SITUATION_OPEN => "a situation has no open place and no name",
            OTHER_LABEL => {
                "a question begins with the label of the pattern before it, and this is another name"
            }
            PAST_KINDS => {
                return around("kind ", " is none of the first 16 kinds, and 16 are the most")
            }
            why => unreachable!("there is no reason {why}"),
        };
        out.extend_from_slice(plain.as_bytes());
    }

    /// The kind that is due, with its words, or that it has none.
    fn due(&self, out: &mut Vec<u8>) {
        let of = self.fault.of;
        out.extend_from_slice(self.vocabulary.kinds[of]);
        out.extend_from_slice(b" is due here");
        let words = self.vocabulary.words.iter();
        let mut words = words.filter(|word| word.kind as usize == of);
        let Some(first) = words.next() else {
            return out.extend_from_slice(b", and no word of that kind is declared before the first pattern");
        };
        out.extend_from_slice(b": ");
        out.extend_from_slice(first.name);
        for word in words {
            out.extend_from_slice(b" or ");
            out.extend_from_slice(word.name);
        }
    }

    /// How many places a word takes, and what is wrong with those written.
    fn places(&self, written: &str, out: &mut Vec<u8>) {
        let word = &self.vocabulary.words[self.fault.of];
        let number = word.places.len();
        let plural = if number == 1 { "" } else { "s" };
        out.extend_from_slice(word.name);
        say!(out, " takes {number} place{plural}, {written}");
    }
}

/// How many commas with a term behind them stand before the ) that ends the
/// places which a text goes on with, or before a :, in no further parentheses.
fn commas(text: &[u8]) -> usize {
    let (mut number, mut deep) = (0, 0);
    for pair in lexemes(text).windows(2) {
        match pair[0].token {
            b":" => break,
            b")" if deep == 0 => break,
            b")" => deep -= 1,
            b"(" => deep += 1,
            b"," if deep == 0 && begins_term(pair[1].token) => number += 1,
            _ => {}
        }
    }
    number
}
