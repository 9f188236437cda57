//! Check, match, part, list, fill and the listing of books over vocabularies
//! and terms given as bytes, and texts in words.
#![forbid(unsafe_code)]

mod book;
mod fill;
pub mod generate;
mod listing;
mod matching;
mod program;
mod term;
mod vocabulary;
pub mod words;

use matching::Pass;
use term::{Stack, CHECK, SHORT};
use vocabulary::Words;

/// Accepted: 0, then the values, and 0 where there is none. Refused:
/// `[number, input, place, 0, 0]`.
pub type Reply = [u64; 5];

/// Number, input and place.
type Refusal = [u64; 3];

#[inline(always)]
fn accepted(one: u64, other: u64) -> Reply {
    [0, one, other, 0, 0]
}

#[inline(always)]
fn refused([number, input, place]: Refusal) -> Reply {
    [number, input, place, 0, 0]
}

/// Writes the entry 255 of a kind as a whole listing.
fn any_alone(kind: u8, out: &mut [u8]) -> Result<Reply, Refusal> {
    let Some(entry) = out.first_chunk_mut() else {
        return Err([20, 3, 2]);
    };
    *entry = [kind, 255];
    Ok(accepted(1, 2))
}

/// Calls the function with tables sized for the vocabulary's number of words
/// and for the longest term.
macro_rules! sized {
    ($vocabulary:expr, $longest:expr, $function:ident ( $($argument:expr),* )) => {
        match $vocabulary {
            [_, 0..=16, ..] if $longest <= SHORT => {
                $function::<16, 72>($vocabulary, $($argument),*)
            }
            [_, 0..=16, ..] => $function::<16, 264>($vocabulary, $($argument),*),
            _ => $function::<128, 264>($vocabulary, $($argument),*),
        }
    };
}

/// Checks a vocabulary; accepted has no values.
pub fn check_vocabulary(vocabulary: &[u8]) -> Reply {
    match vocabulary::scan(vocabulary, |_, _| ()) {
        Ok(_) => accepted(0, 0),
        Err(refusal) => refused(refusal),
    }
}

/// Checks a term under a vocabulary; accepted has the number of words, the
/// deepest level, 1 if the term is complete and 0 if not, and the gap: where
/// completeness is first broken, or the length of a complete term.
pub fn check_term(vocabulary: &[u8], term: &[u8]) -> Reply {
    sized!(vocabulary, term.len(), check_term_sized(term)).unwrap_or_else(refused)
}

fn check_term_sized<const W: usize, const S: usize>(
    vocabulary: &[u8],
    term: &[u8],
) -> Result<Reply, Refusal> {
    let mut words = Words::<W>::new();
    words.fill(vocabulary)?;
    let mut stack = Stack::<S>::new();
    let reading = term::read::<W, S, CHECK>(&words, term, 1, &mut stack, &[0; 16])?;
    let complete = reading.gap == 0;
    let gap = if complete { term.len() } else { reading.gap };
    Ok([
        0,
        reading.words as u64,
        reading.deepest as u64,
        complete as u64,
        gap as u64,
    ])
}

/// Matches a pattern with a complete situation; accepted has 1 for yes, with
/// the table filled, and 0 for no.
pub fn match_pattern(
    vocabulary: &[u8],
    pattern: &[u8],
    situation: &[u8],
    table: &mut [u16],
) -> Reply {
    let longest = pattern.len().max(situation.len());
    sized!(vocabulary, longest, match_sized(pattern, situation, table)).unwrap_or_else(refused)
}

fn match_sized<const W: usize, const S: usize>(
    vocabulary: &[u8],
    pattern: &[u8],
    situation: &[u8],
    table: &mut [u16],
) -> Result<Reply, Refusal> {
    let mut words = Words::<W>::new();
    words.fill(vocabulary)?;
    let mut pass = Pass::<S>::new();
    let yes = pass.both(&words, pattern, situation);
    if !yes {
        pass.apart(&words, pattern, situation)?;
    }
    let Ok(table) = <&mut [u16; 128]>::try_from(table) else {
        return Err([19, 3, 0]);
    };
    if yes {
        *table = pass.found;
    }
    Ok(accepted(yes as u64, 0))
}

/// The part of the situation that a name covers, as its offset and length, or
/// 0 and 0 for the empty part.
pub fn part(vocabulary: &[u8], pattern: &[u8], situation: &[u8], name: u64) -> Reply {
    if name > 63 {
        return accepted(0, 0);
    }
    let longest = pattern.len().max(situation.len());
    sized!(
        vocabulary,
        longest,
        part_sized(pattern, situation, name as usize)
    )
    .unwrap_or(accepted(0, 0))
}

fn part_sized<const W: usize, const S: usize>(
    vocabulary: &[u8],
    pattern: &[u8],
    situation: &[u8],
    name: usize,
) -> Result<Reply, Refusal> {
    let mut words = Words::<W>::new();
    words.fill(vocabulary)?;
    let mut pass = Pass::<S>::new();
    if !pass.both(&words, pattern, situation) {
        return Ok(accepted(0, 0));
    }
    let at = 2 * (name & 63);
    Ok(accepted(pass.found[at] as u64, pass.found[at + 1] as u64))
}

/// Lists the leftovers of a pattern; accepted has the number of entries and of
/// bytes.
pub fn list(vocabulary: &[u8], pattern: &[u8], out: &mut [u8]) -> Reply {
    sized!(vocabulary, pattern.len(), list_sized(pattern, out)).unwrap_or_else(refused)
}

fn list_sized<const W: usize, const S: usize>(
    vocabulary: &[u8],
    pattern: &[u8],
    out: &mut [u8],
) -> Result<Reply, Refusal> {
    let mut words = Words::<W>::new();
    words.fill(vocabulary)?;
    let usable = words.settle(vocabulary);
    listing::list::<W, S>(&words, usable.as_ref(), pattern, out)
}

/// Fills the names of a pattern from a filling file; accepted has the number
/// of bytes.
pub fn fill(vocabulary: &[u8], pattern: &[u8], filling: &[u8], out: &mut [u8]) -> Reply {
    // The bytes behind the map count as a term's behind its kind byte.
    let longest = pattern.len().max(filling.len().saturating_sub(7));
    sized!(vocabulary, longest, fill_sized(pattern, filling, out)).unwrap_or_else(refused)
}

fn fill_sized<const W: usize, const S: usize>(
    vocabulary: &[u8],
    pattern: &[u8],
    filling: &[u8],
    out: &mut [u8],
) -> Result<Reply, Refusal> {
    let mut words = Words::<W>::new();
    words.fill(vocabulary)?;
    fill::fill::<W, S>(&words, pattern, filling, out)
}

/// Lists the leftovers of a book, in no order that counts; accepted has the
/// number of entries and of bytes.
pub fn list_book(vocabulary: &[u8], book: &[u8], out: &mut [u8]) -> Reply {
    // No pattern has more bytes than stand behind the count.
    let longest = book.len().saturating_sub(1);
    sized!(vocabulary, longest, list_book_sized(book, out)).unwrap_or_else(refused)
}

fn list_book_sized<const W: usize, const S: usize>(
    vocabulary: &[u8],
    book: &[u8],
    out: &mut [u8],
) -> Result<Reply, Refusal> {
    let mut words = Words::<W>::new();
    words.fill(vocabulary)?;
    let usable = words.settle(vocabulary);
    book::list::<W, S>(&words, usable.as_ref(), book, out)
}

/// The same as [`list_book`] by a plain loop over the entries, to compare times
/// with.
pub fn list_book_entrywise(vocabulary: &[u8], book: &[u8], out: &mut [u8]) -> Reply {
    let longest = book.len().saturating_sub(1);
    sized!(vocabulary, longest, list_entrywise_sized(book, out)).unwrap_or_else(refused)
}

fn list_entrywise_sized<const W: usize, const S: usize>(
    vocabulary: &[u8],
    book: &[u8],
    out: &mut [u8],
) -> Result<Reply, Refusal> {
    let mut words = Words::<W>::new();
    words.fill(vocabulary)?;
    let usable = words.settle(vocabulary);
    book::list_entrywise::<W, S>(&words, usable.as_ref(), book, out)
}

/// The bytes that the program `leftovers` prints for this standard input.
pub fn leftovers(input: &[u8]) -> Vec<u8> {
    program::leftovers(input)
}
