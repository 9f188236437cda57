//! Reading a vocabulary.

use crate::Refusal;

/// The number of ones of each byte.
pub(crate) static ONES: [u8; 256] = {
    let mut ones = [0; 256];
    let mut i = 1;
    while i < 256 {
        ones[i] = ones[i / 2] + (i % 2) as u8;
        i += 1;
    }
    ones
};

const EACH: u64 = 0x0101_0101_0101_0101;

/// One record: its result kind, place map, number of places, and the kinds of
/// its places, the first in the lowest byte.
#[derive(Clone, Copy)]
pub(crate) struct Record {
    pub result: u8,
    pub map: u8,
    pub places: u8,
    pub kinds: u64,
}

/// Number of kinds and of words, or refusal 1 or 2.
#[inline(always)]
fn counts(vocabulary: &[u8]) -> Result<(u8, u8, &[u8]), Refusal> {
    match vocabulary {
        [kinds @ 1..=16, words, rest @ ..] => {
            if (1..=96).contains(words) {
                Ok((*kinds, *words, rest))
            } else {
                Err([2, 0, 1])
            }
        }
        _ => Err([1, 0, 0]),
    }
}

/// Reads the first record of the rest; a refusal holds its number and an
/// offset in the rest.
#[inline(always)]
fn record(rest: &[u8], kinds: u8) -> Result<(Record, &[u8]), (u64, usize)> {
    let [result, map, tail @ ..] = rest else {
        return Err(match rest {
            [result] if *result >= kinds => (4, 0),
            _ => (3, rest.len()),
        });
    };
    if *result >= kinds {
        return Err((4, 0));
    }
    let mut read = Record {
        result: *result,
        map: *map,
        places: 0,
        kinds: 0,
    };
    if *map == 0 {
        return Ok((read, tail));
    }
    let places = ONES[*map as usize];
    read.places = places;
    if let Some(eight) = tail.first_chunk::<8>() {
        let keep = u64::MAX.checked_shr(64 - 8 * places as u32).unwrap_or(0);
        read.kinds = u64::from_le_bytes(*eight) & keep;
        let high = read.kinds | ((read.kinds & (0x7f * EACH)) + (128 - kinds as u64) * EACH);
        let high = high & (0x80 * EACH);
        if high != 0 {
            return Err((4, 2 + high.trailing_zeros() as usize / 8));
        }
        return Ok((read, &tail[places as usize..]));
    }
    for (i, &kind) in tail.iter().take(places as usize).enumerate() {
        if kind >= kinds {
            return Err((4, 2 + i));
        }
        read.kinds |= (kind as u64) << (8 * i);
    }
    match tail.get(places as usize..) {
        Some(rest) => Ok((read, rest)),
        None => Err((3, rest.len())),
    }
}

/// Whether each place's kind is in the set.
#[inline(always)]
fn covered(record: &Record, set: u32) -> bool {
    let mut kinds = record.kinds;
    for _ in 0..record.places {
        if set >> (kinds & 15) & 1 == 0 {
            return false;
        }
        kinds >>= 8;
    }
    true
}

/// Checks a whole vocabulary, handing over each record with its number, and
/// replies with the number of kinds and of words, and with the kinds that a
/// first round finds to have complete situations, as bits.
#[inline(always)]
pub(crate) fn scan(
    vocabulary: &[u8],
    mut each: impl FnMut(usize, &Record),
) -> Result<(u8, u8, u32), Refusal> {
    let (kinds, words, mut rest) = counts(vocabulary)?;
    let mut settled = 0u32;
    for number in 0..words as usize {
        match record(rest, kinds) {
            Ok((read, tail)) => {
                rest = tail;
                each(number, &read);
                if settled >> (read.result & 15) & 1 == 0 && covered(&read, settled) {
                    settled |= 1 << (read.result & 15);
                }
            }
            Err((number, offset)) => {
                return Err([number, 0, (vocabulary.len() - rest.len() + offset) as u64]);
            }
        }
    }
    if !rest.is_empty() {
        return Err([5, 0, (vocabulary.len() - rest.len()) as u64]);
    }
    Ok((kinds, words, settled))
}

/// Adds to the set every kind that has a complete situation, in a vocabulary
/// whose records are sound.
#[inline(never)]
fn settle(vocabulary: &[u8], mut settled: u32) -> u32 {
    let Ok((kinds, words, mut rest)) = counts(vocabulary) else {
        return settled;
    };
    let mut waiting = [(0u32, 0u32); 96];
    let mut length = 0;
    for _ in 0..words {
        let Ok((read, tail)) = record(rest, kinds) else {
            return settled;
        };
        rest = tail;
        let bit = 1 << (read.result & 15);
        if settled & bit != 0 {
            continue;
        }
        let mut needed = 0u32;
        let mut left = read.kinds;
        for _ in 0..read.places {
            needed |= 1 << (left & 15);
            left >>= 8;
        }
        if needed & !settled == 0 {
            settled |= bit;
        } else if let Some(slot) = waiting.get_mut(length) {
            *slot = (needed, bit);
            length += 1;
        }
    }
    // Backward and forward in turn, until a round adds nothing.
    let Some(waiting) = waiting.get(..length) else {
        return settled;
    };
    let add = |settled: u32, &(needed, bit): &(u32, u32)| {
        if needed & !settled == 0 {
            settled | bit
        } else {
            settled
        }
    };
    loop {
        let before = settled;
        settled = waiting.iter().rev().fold(settled, add);
        if settled == before {
            return settled;
        }
        settled = waiting.iter().fold(settled, add);
    }
}

/// The words of an accepted vocabulary; `W` is a power of two.
pub(crate) struct Words<const W: usize> {
    pub kinds: u8,
    pub words: u8,
    /// The kinds that are known to have complete situations, as bits: some of
    /// them, and once they are settled all.
    settled: u32,
    /// Result kind, place map and number of places, from the lowest byte.
    pub facts: [u32; W],
    /// The places' kinds, that of the last place in the lowest byte.
    pub dues: [u64; W],
}

impl<const W: usize> Words<W> {
    #[inline(always)]
    pub fn new() -> Self {
        Words {
            kinds: 0,
            words: 0,
            settled: 0,
            facts: [0; W],
            dues: [0; W],
        }
    }

    /// Fills the tables from a vocabulary, or says why it is refused.
    #[inline(always)]
    pub fn fill(&mut self, vocabulary: &[u8]) -> Result<(), Refusal> {
        let facts = &mut self.facts;
        let dues = &mut self.dues;
        let (kinds, words, settled) = scan(vocabulary, |number, read| {
            let at = number & (W - 1);
            facts[at] = read.result as u32 | (read.map as u32) << 8 | (read.places as u32) << 16;
            let back = read.kinds.swap_bytes();
            dues[at] = back.wrapping_shr(64 - 8 * read.places as u32);
        })?;
        self.kinds = kinds;
        self.words = words;
        self.settled = settled;
        Ok(())
    }

    /// Finds all kinds with complete situations, and the words that stand in
    /// one: those whose places all have such kinds. Nothing if all words do.
    #[inline(always)]
    pub fn settle(&mut self, vocabulary: &[u8]) -> Option<Usable> {
        let all = (1 << self.kinds) - 1;
        if self.settled != all {
            self.settled = settle(vocabulary, self.settled);
        }
        if self.settled == all {
            return None;
        }
        Some(self.usable())
    }

    #[inline(never)]
    fn usable(&self) -> Usable {
        let mut words = 0;
        let facts = &self.facts[..self.words as usize];
        for (number, (facts, dues)) in facts.iter().zip(&self.dues).enumerate() {
            let mut left = *dues;
            let mut usable = true;
            for _ in 0..facts >> 16 {
                usable &= self.settled >> (left & 15) & 1 == 1;
                left >>= 8;
            }
            words |= (usable as u128) << number;
        }
        Usable {
            kinds: self.settled,
            words,
        }
    }
}

/// The kinds that have complete situations and the words that stand in one, as
/// bits, where some kind has none.
#[derive(Clone, Copy)]
pub(crate) struct Usable {
    kinds: u32,
    pub words: u128,
}

impl Usable {
    /// Whether a kind has complete situations.
    #[inline(always)]
    pub fn has(&self, kind: u8) -> bool {
        self.kinds >> (kind & 15) & 1 == 1
    }

    /// Whether a complete situation fits a pattern that is in order, of a kind
    /// that has some: all its words then stand in one, and so every name and
    /// every open place has a kind with situations.
    #[inline(always)]
    pub fn fits(&self, pattern: &[u8]) -> bool {
        let mut rest = &pattern[1..];
        while let [first, tail @ ..] = rest {
            rest = tail;
            if *first < 128 {
                if self.words >> first & 1 == 0 {
                    return false;
                }
                // The written map.
                rest = rest.get(1..).unwrap_or(&[]);
            }
        }
        true
    }
}
