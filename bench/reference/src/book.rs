//! Listing the leftovers of a book: it is read whole, then its patterns are
//! taken from what is left over, one after the other.

mod entrywise;
mod leftovers;
mod pattern;
mod places;

use crate::term::{go_on, Names, Stack, BOOK};
use crate::vocabulary::{Usable, Words};
use crate::{accepted, any_alone, Refusal, Reply};
use leftovers::Leftovers;
use pattern::{Kinds, Pattern};

/// The most bytes of a pattern.
const PATTERN: usize = 4096;

/// A word and its written map.
type Node = [u8; 2];

/// A set of words: word n is bit n.
type Set = u128;

/// Lists the leftovers of a book into a lent slice.
#[inline(always)]
pub(crate) fn list<const W: usize, const S: usize>(
    words: &Words<W>,
    usable: Option<&Usable>,
    book: &[u8],
    out: &mut [u8],
) -> Result<Reply, Refusal> {
    read::<W, S>(words, book)?;
    list_read(&Kinds::new(words, usable), book, out)
}

/// Lists them entry by entry.
#[inline(always)]
pub(crate) fn list_entrywise<const W: usize, const S: usize>(
    words: &Words<W>,
    usable: Option<&Usable>,
    book: &[u8],
    out: &mut [u8],
) -> Result<Reply, Refusal> {
    read::<W, S>(words, book)?;
    entrywise::list_read(&Kinds::new(words, usable), book, out)
}

/// Reads a whole book up to refusal 15.
#[inline(always)]
fn read<const W: usize, const S: usize>(words: &Words<W>, book: &[u8]) -> Result<(), Refusal> {
    let [count @ 1..=64, ..] = book else {
        return Err([24, 5, 0]);
    };
    let mut stack = Stack::<S>::new();
    let mut start = 1;
    for _ in 0..*count {
        let end = read_pattern(words, book, start, &mut stack)?;
        if book[start] != book[1] {
            return Err([25, 5, start as u64]);
        }
        start = end;
    }
    if start < book.len() {
        return Err([15, 5, start as u64]);
    }
    Ok(())
}

/// Reads the pattern that begins at an offset, up to refusal 18, and gives the
/// offset behind it.
#[inline(always)]
fn read_pattern<const W: usize, const S: usize>(
    words: &Words<W>,
    book: &[u8],
    start: usize,
    stack: &mut Stack<S>,
) -> Result<usize, Refusal> {
    // What a pattern may reach of the book. All places are counted in it.
    let reach = &book[..book.len().min(start + PATTERN)];
    let [kind, rest @ ..] = &reach[start..] else {
        return Err([7, 5, start as u64]);
    };
    if rest.is_empty() {
        return Err([7, 5, start as u64]);
    }
    if *kind >= words.kinds {
        return Err([8, 5, start as u64]);
    }
    stack.set(0, *kind, 1);
    let mut names = Names::new();
    let read = go_on::<W, S, BOOK, 0>(words, reach, 5, rest, stack, 1, &mut names, &[0; 16]);
    match read {
        Ok(reading) if reading.second != 0 => Err([18, 5, reading.second as u64]),
        Ok(reading) => Ok(reach.len() - reading.behind),
        // The byte that is due is the 4,097th.
        Err([9, ..]) if reach.len() == start + PATTERN => Err([7, 5, start as u64]),
        Err(refusal) => Err(refusal),
    }
}

/// Lists the leftovers of a book that is in order.
fn list_read(kinds: &Kinds, book: &[u8], out: &mut [u8]) -> Result<Reply, Refusal> {
    if !kinds.has(book[1]) {
        return Ok(accepted(0, 0));
    }
    let mut left = Leftovers::new(book[1]);
    let mut pattern = Pattern::new();
    let mut rest = &book[1..];
    let mut struck = false;
    for number in 0..book[0] {
        let behind = pattern.load(kinds, rest);
        let (bytes, behind) = rest.split_at(rest.len() - behind.len());
        rest = behind;
        // One that no situation fits changes nothing.
        if !kinds.fits(bytes) {
            continue;
        }
        struck = true;
        if left.strike(kinds, &pattern).is_none() {
            return Err([26, 5, number as u64]);
        }
        if left.is_empty() {
            break;
        }
    }
    if !struck {
        return any_alone(book[1], out);
    }
    let Some(out) = out.get_mut(..left.bytes as usize) else {
        return Err([20, 3, left.bytes]);
    };
    left.write(out);
    Ok(accepted(left.entries, left.bytes))
}
