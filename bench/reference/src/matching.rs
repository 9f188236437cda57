//! Matching a pattern with a situation: both are read in one pass as long as
//! they agree, and each by itself from where they do not.

use crate::term::{self, begin, below, Names, Stack, PATTERN, SITUATION};
use crate::vocabulary::Words;
use crate::Refusal;

/// Marks the level of a term due that is open in the pattern.
const OPEN: u8 = 0x80;

/// How far the pass over both terms has come.
pub(crate) struct Pass<const S: usize> {
    /// At 2n and 2n + 1 offset and length of the part at name n's first
    /// occurrence.
    pub found: [u16; 128],
    /// The level of each name's first occurrence.
    levels: [u8; 64],
    names: Names<0>,
    stack: Stack<S>,
    top: usize,
    /// How many bytes of each term are still to be read. These and `top` are
    /// all 0 if the pass has not begun.
    pattern_left: usize,
    situation_left: usize,
}

/// Passes over complete terms, as many as are due above `base`, and gives
/// what stands behind them, or nothing if anything is amiss.
#[inline(always)]
fn complete<'a, const W: usize, const S: usize>(
    words: &Words<W>,
    mut rest: &'a [u8],
    stack: &mut Stack<S>,
    mut top: usize,
    base: usize,
) -> Option<&'a [u8]> {
    while top != base {
        top -= 1;
        let (kind, level) = stack.get(top);
        let [word, map, tail @ ..] = rest else {
            return None;
        };
        let at = *word as usize & (W - 1);
        let facts = words.facts[at];
        if *word >= words.words || level > 32 || facts as u16 != kind as u16 | (*map as u16) << 8 {
            return None;
        }
        stack.set_eight(top, words.dues[at], below(level));
        top += (facts >> 16) as usize;
        rest = tail;
    }
    Some(rest)
}

/// Passes over both terms as long as they have the same words with all places.
#[inline(always)]
fn agree<'a, 'b, const W: usize, const S: usize>(
    words: &Words<W>,
    pat: &'a [u8],
    sit: &'b [u8],
    stack: &mut Stack<S>,
    mut top: usize,
) -> (&'a [u8], &'b [u8], usize) {
    let mut same = 0;
    for (one, other) in pat.as_chunks::<2>().0.iter().zip(sit.as_chunks::<2>().0) {
        if top == 0 {
            break;
        }
        let (kind, level) = stack.get(top - 1);
        let [word, map] = *one;
        let at = word as usize & (W - 1);
        let facts = words.facts[at];
        if word >= words.words
            || level > 32
            || one != other
            || facts as u16 != kind as u16 | (map as u16) << 8
        {
            break;
        }
        top -= 1;
        stack.set_eight(top, words.dues[at], below(level));
        top += (facts >> 16) as usize;
        same += 2;
    }
    (&pat[same..], &sit[same..], top)
}

/// A mark for each place of the map that is not written, that of the last
/// place in the lowest byte.
#[inline(always)]
fn opened(map: u8, written: u8) -> u64 {
    let mut marks = 0;
    let mut mark = OPEN as u64;
    let mut left = map;
    while left != 0 {
        let bit = 0x80 >> left.leading_zeros();
        marks |= if written & bit == 0 { mark } else { 0 };
        mark = mark.wrapping_shl(8);
        left ^= bit;
    }
    marks
}

impl<const S: usize> Pass<S> {
    #[inline(always)]
    pub fn new() -> Self {
        Pass {
            found: [0; 128],
            levels: [0; 64],
            names: Names::new(),
            stack: Stack::new(),
            top: 0,
            pattern_left: 0,
            situation_left: 0,
        }
    }

    /// Whether both terms are sound and the pattern fits; if not, `apart`
    /// says what is amiss, if anything.
    #[inline(always)]
    pub fn both<const W: usize>(
        &mut self,
        words: &Words<W>,
        pattern: &[u8],
        situation: &[u8],
    ) -> bool {
        let (Ok((kind, mut pat)), Ok((other, mut sit))) = (
            begin(words.kinds, pattern, 1),
            begin(words.kinds, situation, 2),
        ) else {
            return false;
        };
        if kind != other {
            return false;
        }
        let stack = &mut self.stack;
        stack.set(0, kind, 1);
        let mut top = 1usize;
        loop {
            (pat, sit, top) = agree(words, pat, sit, stack, top);
            if top == 0 {
                break;
            }
            let base = top - 1;
            let (kind, level) = stack.get(base);
            // The complete terms to be passed over are due above the base.
            let step = if level & OPEN != 0 {
                stack.set(base, kind, level & !OPEN);
                Some((pat, sit, top, None))
            } else {
                match (pat, sit) {
                    ([word, written, pat_tail @ ..], [same, map, sit_tail @ ..])
                        if *word < words.words =>
                    {
                        let at = *word as usize & (W - 1);
                        let facts = words.facts[at];
                        if word != same
                            || level > 32
                            || facts as u16 != kind as u16 | (*map as u16) << 8
                            || *written & !*map != 0
                        {
                            break;
                        }
                        let above = base + (facts >> 16) as usize;
                        if *written == 0 {
                            stack.set_eight(base, words.dues[at], below(level));
                            Some((pat_tail, sit_tail, above, None))
                        } else {
                            let levels = below(level) | opened(*map, *written);
                            stack.set_eight(base, words.dues[at], levels);
                            top = above;
                            pat = pat_tail;
                            sit = sit_tail;
                            continue;
                        }
                    }
                    ([255, pat_tail @ ..], _) if pat.len() + 1 == pattern.len() => {
                        Some((pat_tail, sit, top, None))
                    }
                    ([byte, pat_tail @ ..], _) if *byte & 0xc0 == 0x80 => {
                        let name = *byte as usize & 63;
                        if self.names.seen >> name & 1 == 0 {
                            Some((pat_tail, sit, top, Some(name)))
                        } else {
                            let start = self.found[2 * name] as usize;
                            let length = self.found[2 * name + 1] as usize;
                            match (situation.get(start..start + length), sit.get(..length)) {
                                (Some(first), Some(this))
                                    if self.names.kinds[name] == kind && first == this =>
                                {
                                    if level <= self.levels[name] {
                                        pat = pat_tail;
                                        sit = &sit[length..];
                                        top = base;
                                        continue;
                                    }
                                    Some((pat_tail, sit, top, None))
                                }
                                _ => None,
                            }
                        }
                    }
                    _ => None,
                }
            };
            let passed = step.and_then(|(pat_tail, from, above, name)| {
                let rest = complete(words, from, stack, above, base)?;
                Some((pat_tail, rest, name))
            });
            let Some((pat_tail, rest, name)) = passed else {
                stack.set(base, kind, level);
                break;
            };
            if let Some(name) = name {
                self.names.seen |= 1 << name;
                self.names.kinds[name] = kind;
                self.levels[name] = level;
                self.found[2 * name] = (situation.len() - sit.len()) as u16;
                self.found[2 * name + 1] = (sit.len() - rest.len()) as u16;
            }
            pat = pat_tail;
            sit = rest;
            top = base;
        }
        self.top = top;
        self.pattern_left = pat.len();
        self.situation_left = sit.len();
        top == 0 && pat.is_empty() && sit.is_empty()
    }

    /// Reads each term from where the pass over both ended, and gives the
    /// refusal up to 17, if there is one.
    #[inline(never)]
    pub fn apart<const W: usize>(
        &mut self,
        words: &Words<W>,
        pattern: &[u8],
        situation: &[u8],
    ) -> Result<(), Refusal> {
        let none = [0; 16];
        if self.top == 0 && self.pattern_left == 0 && self.situation_left == 0 {
            term::read::<W, S, PATTERN>(words, pattern, 1, &mut self.stack, &none)?;
            let read = term::read::<W, S, SITUATION>(words, situation, 2, &mut self.stack, &none)?;
            if read.gap != 0 {
                return Err([16, 2, read.gap as u64]);
            }
            return Err([17, 2, 0]);
        }
        let mut stack = self.stack.clone();
        let mut top = 0;
        for at in 0..self.top {
            let (kind, level) = self.stack.get(at);
            self.stack.set(at, kind, level & !OPEN);
            stack.set(top, kind, level);
            top += (level & OPEN == 0) as usize;
        }
        let rest = &pattern[pattern.len() - self.pattern_left..];
        let names = &mut self.names;
        term::go_on::<W, S, PATTERN, 0>(words, pattern, 1, rest, &mut stack, top, names, &none)?;
        let rest = &situation[situation.len() - self.situation_left..];
        let read = term::go_on::<W, S, SITUATION, 0>(
            words,
            situation,
            2,
            rest,
            &mut self.stack,
            self.top,
            &mut Names::new(),
            &none,
        )?;
        if read.gap != 0 {
            return Err([16, 2, read.gap as u64]);
        }
        Ok(())
    }
}
