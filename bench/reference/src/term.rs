//! Reading a term under an accepted vocabulary, in one pass.

use crate::vocabulary::Words;
use crate::Refusal;

pub(crate) const CHECK: u8 = 0;
pub(crate) const PATTERN: u8 = 1;
pub(crate) const SITUATION: u8 = 2;
pub(crate) const LIST: u8 = 3;
pub(crate) const FILL: u8 = 4;
pub(crate) const BOOK: u8 = 5;

/// The longest term for which a short stack is enough.
pub(crate) const SHORT: usize = 17;

const EACH: u64 = 0x0101_0101_0101_0101;

/// Kind and level of each term due. There are at most 225 at a time, and at
/// most 57 in a short term; `S` is a power of two above that and eight more.
#[derive(Clone)]
pub(crate) struct Stack<const S: usize> {
    pub kinds: [u8; S],
    pub levels: [u8; S],
}

impl<const S: usize> Stack<S> {
    #[inline(always)]
    pub fn new() -> Self {
        Stack {
            kinds: [0; S],
            levels: [0; S],
        }
    }

    #[inline(always)]
    pub fn set(&mut self, at: usize, kind: u8, level: u8) {
        self.kinds[at & (S - 9)] = kind;
        self.levels[at & (S - 9)] = level;
    }

    #[inline(always)]
    pub fn get(&self, at: usize) -> (u8, u8) {
        (self.kinds[at & (S - 9)], self.levels[at & (S - 9)])
    }

    /// Puts eight kinds and levels on the stack, of which the first ones count.
    #[inline(always)]
    pub fn set_eight(&mut self, at: usize, kinds: u64, levels: u64) {
        let from = at & (S - 9);
        self.kinds[from..from + 8].copy_from_slice(&kinds.to_le_bytes());
        self.levels[from..from + 8].copy_from_slice(&levels.to_le_bytes());
    }
}

/// Eight times the level below.
#[inline(always)]
pub(crate) fn below(level: u8) -> u64 {
    EACH * (level as u64 + 1)
}

/// What a pass over a term finds; each mode fills in what its call needs.
pub(crate) struct Reading {
    pub words: usize,
    pub deepest: u8,
    /// Where completeness is first broken, or 0.
    pub gap: usize,
    /// The first byte that is a name's second occurrence, or 0.
    pub second: usize,
    pub entries: u64,
    pub bytes: u64,
    /// How many bytes follow the term; in a book that is no refusal.
    pub behind: usize,
}

/// The names met so far, as bits, and the kind of each. To fill a pattern `F`
/// is 64, and how often and how deep each name stands is noted too; else 0.
#[derive(Clone)]
pub(crate) struct Names<const F: usize> {
    pub seen: u64,
    pub kinds: [u8; 64],
    pub times: [u16; F],
    pub deepest: [u8; F],
}

impl<const F: usize> Names<F> {
    #[inline(always)]
    pub fn new() -> Self {
        Names {
            seen: 0,
            kinds: [0; 64],
            times: [0; F],
            deepest: [0; F],
        }
    }
}

/// The kind of a term and what stands behind it, or refusal 7 or 8.
#[inline(always)]
pub(crate) fn begin(kinds: u8, term: &[u8], input: u64) -> Result<(u8, &[u8]), Refusal> {
    let [kind, rest @ ..] = term else {
        return Err([7, input, 0]);
    };
    if rest.is_empty() || rest.len() > 4095 {
        return Err([7, input, 0]);
    }
    if *kind >= kinds {
        return Err([8, input, 0]);
    }
    Ok((*kind, rest))
}

/// Notes a place, at most once in a pass. A call of its own keeps the place out
/// of the loop's registers.
#[inline(never)]
fn note(gap: &mut usize, place: usize) {
    *gap = place;
}

/// Reads a whole term up to refusal 15. `others` holds, for each kind, how
/// many other words a word of that kind has beside it.
#[inline(always)]
pub(crate) fn read<const W: usize, const S: usize, const MODE: u8>(
    words: &Words<W>,
    term: &[u8],
    input: u64,
    stack: &mut Stack<S>,
    others: &[u8; 16],
) -> Result<Reading, Refusal> {
    let (kind, rest) = begin(words.kinds, term, input)?;
    stack.set(0, kind, 1);
    go_on::<W, S, MODE, 0>(
        words,
        term,
        input,
        rest,
        stack,
        1,
        &mut Names::new(),
        others,
    )
}

/// Reads the rest of a term, given the terms due and the names met before.
#[allow(clippy::too_many_arguments)]
#[inline(always)]
pub(crate) fn go_on<const W: usize, const S: usize, const MODE: u8, const F: usize>(
    words: &Words<W>,
    term: &[u8],
    input: u64,
    mut rest: &[u8],
    stack: &mut Stack<S>,
    mut top: usize,
    names: &mut Names<F>,
    others: &[u8; 16],
) -> Result<Reading, Refusal> {
    let mut reading = Reading {
        words: 0,
        deepest: 0,
        gap: 0,
        second: 0,
        entries: 0,
        bytes: 0,
        behind: 0,
    };
    let mut single = 0usize;
    while top != 0 {
        // First the words with all places, as many as stand here in a row.
        let mut passed = 0;
        for [word, written] in rest.as_chunks::<2>().0 {
            let (kind, level) = stack.get(top - 1);
            let at = *word as usize & (W - 1);
            let facts = words.facts[at];
            if *word >= words.words
                || level > 32
                || facts as u16 != kind as u16 | (*written as u16) << 8
            {
                break;
            }
            passed += 2;
            if MODE == CHECK {
                reading.deepest = reading.deepest.max(level);
            }
            if MODE == LIST {
                let others = others[kind as usize & 15] as u64;
                reading.entries += others;
                reading.bytes += others * (term.len() - rest.len() + passed) as u64;
            }
            top -= 1;
            stack.set_eight(top, words.dues[at], below(level));
            top += (facts >> 16) as usize;
            if top == 0 {
                break;
            }
        }
        rest = &rest[passed..];
        if top == 0 {
            break;
        }
        top -= 1;
        let (kind, level) = stack.get(top);
        if MODE == CHECK {
            reading.deepest = reading.deepest.max(level);
        }
        match rest {
            [word, written, tail @ ..] if *word < words.words && level <= 32 => {
                let at = *word as usize & (W - 1);
                let facts = words.facts[at];
                if facts as u8 != kind {
                    return Err([12, input, (term.len() - rest.len()) as u64]);
                }
                let map = (facts >> 8) as u8;
                if MODE == LIST {
                    let others = others[kind as usize & 15] as u64;
                    reading.entries += others;
                    reading.bytes += others * (term.len() - tail.len()) as u64;
                }
                if *written & !map != 0 {
                    return Err([14, input, (term.len() - tail.len() - 1) as u64]);
                }
                if (MODE == SITUATION || MODE == CHECK) && reading.gap == 0 {
                    note(&mut reading.gap, term.len() - tail.len() - 1);
                }
                if *written != 0 {
                    let mut left = map;
                    let mut dues = words.dues[at];
                    while left != 0 {
                        let bit = 0x80 >> left.leading_zeros();
                        stack.set(top, dues as u8, level + 1);
                        top += (*written & bit != 0) as usize;
                        dues >>= 8;
                        left ^= bit;
                    }
                }
                rest = tail;
            }
            _ => {
                let place = term.len() - rest.len();
                let [byte, tail @ ..] = rest else {
                    return Err([9, input, place as u64]);
                };
                if level > 32 {
                    return Err([10, input, place as u64]);
                }
                if *byte & 0xc0 == 0x80 {
                    let name = *byte as usize & 63;
                    let bit = 1u64 << name;
                    if names.seen & bit == 0 {
                        names.seen |= bit;
                        names.kinds[name] = kind;
                    } else {
                        if names.kinds[name] != kind {
                            return Err([13, input, place as u64]);
                        }
                        if (MODE == LIST || MODE == BOOK) && reading.second == 0 {
                            reading.second = place;
                        }
                    }
                    if MODE == FILL {
                        names.times[name] += 1;
                        names.deepest[name] = names.deepest[name].max(level);
                    }
                } else if *byte != 255 || level != 1 {
                    return Err(if *byte >= words.words {
                        [11, input, place as u64]
                    } else if words.facts[*byte as usize & (W - 1)] as u8 != kind {
                        [12, input, place as u64]
                    } else {
                        [9, input, place as u64 + 1]
                    });
                }
                if (MODE == SITUATION || MODE == CHECK) && reading.gap == 0 {
                    note(&mut reading.gap, place);
                }
                single += 1;
                rest = tail;
            }
        }
    }
    if MODE == BOOK {
        reading.behind = rest.len();
    } else if !rest.is_empty() {
        return Err([15, input, (term.len() - rest.len()) as u64]);
    }
    if MODE == CHECK {
        reading.words = (term.len() - 1 - single) / 2;
    }
    Ok(reading)
}
