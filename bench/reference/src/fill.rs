//! Filling the names of a pattern.

use crate::term::{begin, below, go_on, Names, Stack, FILL};
use crate::vocabulary::Words;
use crate::{accepted, Refusal, Reply};

/// The most bytes and levels of a result.
const BYTES: usize = 4096;
const LEVELS: u8 = 32;

/// Where each name's filling stands in the file, as offset and length. Those
/// of a file that is not refused are short.
type Spans = [(u16, u16); 64];

/// Reads pattern and filling file, measuring the result, then writes it.
#[inline(always)]
pub(crate) fn fill<const W: usize, const S: usize>(
    words: &Words<W>,
    pattern: &[u8],
    filling: &[u8],
    out: &mut [u8],
) -> Result<Reply, Refusal> {
    let mut stack = Stack::<S>::new();
    let mut names = Names::<64>::new();
    let (kind, rest) = begin(words.kinds, pattern, 1)?;
    stack.set(0, kind, 1);
    go_on::<W, S, FILL, 64>(words, pattern, 1, rest, &mut stack, 1, &mut names, &[0; 16])?;
    let Some((map, mut rest)) = filling.split_first_chunk::<8>() else {
        return Err([21, 4, 0]);
    };
    let differing = u64::from_le_bytes(*map) ^ names.seen;
    if differing != 0 {
        return Err([21, 4, differing.trailing_zeros() as u64]);
    }
    let refused = |from: &[u8]| Err([22, 4, (filling.len() - from.len()) as u64]);
    let mut spans: Spans = [(0, 0); 64];
    let mut length = pattern.len();
    let mut deepest = 0;
    let mut left = names.seen;
    while left != 0 {
        let name = left.trailing_zeros() as usize & 63;
        left &= left - 1;
        let (levels, behind) = match complete(words, rest, names.kinds[name], &mut stack) {
            Ok(read) => read,
            Err(fault) => return refused(fault),
        };
        let size = rest.len() - behind.len();
        spans[name] = ((filling.len() - rest.len()) as u16, size as u16);
        length += names.times[name] as usize * (size - 1);
        deepest = deepest.max(names.deepest[name] + levels - 1);
        rest = behind;
    }
    if !rest.is_empty() {
        return refused(rest);
    }
    if length > BYTES || deepest > LEVELS {
        return Err([23, 4, 0]);
    }
    let Some(out) = out.get_mut(..length) else {
        return Err([20, 3, length as u64]);
    };
    if names.seen == 0 {
        out.copy_from_slice(pattern);
    } else {
        write(pattern, filling, &spans, out);
    }
    Ok(accepted(length as u64, 0))
}

/// Passes over a complete term of a kind, and gives its number of levels and
/// what stands behind it; or else what stands from the first byte at fault on.
#[inline(always)]
fn complete<'a, const W: usize, const S: usize>(
    words: &Words<W>,
    rest: &'a [u8],
    kind: u8,
    stack: &mut Stack<S>,
) -> Result<(u8, &'a [u8]), &'a [u8]> {
    stack.set(0, kind, 1);
    let mut top = 1usize;
    let mut levels = 0;
    let mut passed = 0;
    for [word, map] in rest.as_chunks::<2>().0 {
        let (kind, level) = stack.get(top - 1);
        let at = *word as usize & (W - 1);
        let facts = words.facts[at];
        if *word >= words.words
            || level > LEVELS
            || facts as u16 != kind as u16 | (*map as u16) << 8
        {
            break;
        }
        passed += 2;
        levels = levels.max(level);
        top -= 1;
        stack.set_eight(top, words.dues[at], below(level));
        top += (facts >> 16) as usize;
        if top == 0 {
            return Ok((levels, &rest[passed..]));
        }
    }
    let (kind, level) = stack.get(top - 1);
    match &rest[passed..] {
        // The word is in order, and its map missing or not the whole one.
        [word, behind @ ..]
            if *word < words.words
                && level <= LEVELS
                && words.facts[*word as usize & (W - 1)] as u8 == kind =>
        {
            Err(behind)
        }
        from => Err(from),
    }
}

/// Writes a pattern that has names into a slice exactly as long as the result.
#[inline(always)]
fn write(pattern: &[u8], filling: &[u8], spans: &Spans, out: &mut [u8]) {
    let Some((kind, mut rest)) = pattern.split_first() else {
        return;
    };
    out[0] = *kind;
    let mut at = 1;
    loop {
        match rest {
            [word, map, tail @ ..] if *word < 128 => {
                out[at..at + 2].copy_from_slice(&[*word, *map]);
                at += 2;
                rest = tail;
            }
            [name, tail @ ..] => {
                let (start, length) = spans[*name as usize & 63];
                copy(&filling[start as usize..], length as usize, &mut out[at..]);
                at += length as usize;
                rest = tail;
            }
            [] => return,
        }
    }
}

/// Copies so many bytes. What a block writes too far, later ones cover.
#[inline(always)]
fn copy(from: &[u8], length: usize, to: &mut [u8]) {
    if length == 2 {
        to[..2].copy_from_slice(&from[..2]);
        return;
    }
    if length <= 16 {
        if let (Some(from), Some(to)) = (from.first_chunk::<16>(), to.first_chunk_mut::<16>()) {
            *to = *from;
            return;
        }
    }
    to[..length].copy_from_slice(&from[..length]);
}
