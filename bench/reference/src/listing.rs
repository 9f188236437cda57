//! Listing the leftovers of a pattern.

use crate::term::{self, Stack, LIST};
use crate::vocabulary::{Usable, Words};
use crate::{accepted, any_alone, Refusal, Reply};
use std::mem;

/// The words of each kind that stand in complete situations, as bits: word n is
/// bit n % 64 of its kind's low or high number.
struct Groups {
    low: [u64; 16],
    high: [u64; 16],
    /// How many other words each word of a kind has beside it.
    others: [u8; 16],
}

impl Groups {
    #[inline(always)]
    fn new<const W: usize>(words: &Words<W>, usable: Option<&Usable>) -> Self {
        let mut groups = Groups {
            low: [0; 16],
            high: [0; 16],
            others: [255; 16],
        };
        for (number, facts) in (0..words.words).zip(words.facts.iter()) {
            if usable.is_some_and(|usable| usable.words >> (number & 127) & 1 == 0) {
                continue;
            }
            let kind = *facts as usize & 15;
            let bit = 1 << (number & 63);
            if W <= 64 || number < 64 {
                groups.low[kind] |= bit;
            } else {
                groups.high[kind] |= bit;
            }
            groups.others[kind] = groups.others[kind].wrapping_add(1);
        }
        groups
    }

    /// Hands over each other word of the same kind, by ascending number.
    #[inline(always)]
    fn each<const W: usize>(&self, kind: usize, word: u8, mut other: impl FnMut(u8)) {
        let own = 1u64 << (word & 63);
        let mut low = self.low[kind & 15];
        if W <= 64 || word < 64 {
            low &= !own;
        }
        while low != 0 {
            other(low.trailing_zeros() as u8);
            low &= low - 1;
        }
        if W > 64 {
            let mut high = self.high[kind & 15];
            if word >= 64 {
                high &= !own;
            }
            while high != 0 {
                other(64 + high.trailing_zeros() as u8);
                high &= high - 1;
            }
        }
    }
}

/// Measures the listing while reading the pattern, then writes it.
#[inline(always)]
pub(crate) fn list<const W: usize, const S: usize>(
    words: &Words<W>,
    usable: Option<&Usable>,
    pattern: &[u8],
    out: &mut [u8],
) -> Result<Reply, Refusal> {
    let groups = Groups::new(words, usable);
    let mut stack = Stack::<S>::new();
    let reading = term::read::<W, S, LIST>(words, pattern, 1, &mut stack, &groups.others)?;
    if reading.second != 0 {
        return Err([18, 1, reading.second as u64]);
    }
    if let Some(usable) = usable {
        if !usable.has(pattern[0]) {
            return Ok(accepted(0, 0));
        }
        if !usable.fits(pattern) {
            return any_alone(pattern[0], out);
        }
    }
    let Some(out) = out.get_mut(..reading.bytes as usize) else {
        return Err([20, 3, reading.bytes]);
    };
    if reading.entries != 0 {
        if pattern.len() <= 8 {
            write_8(words, &groups, pattern, out);
        } else if pattern.len() <= 16 {
            write_16(words, &groups, pattern, out);
        } else if pattern.len() <= 128 {
            write::<W, 128, 128>(words, &groups, pattern, out);
        } else {
            write::<W, 4096, 256>(words, &groups, pattern, out);
        }
    }
    Ok(accepted(reading.entries, reading.bytes))
}

/// Writes the entries into a slice exactly as long as the listing. An entry
/// is what stands before a word, then another word's number and 0.
#[inline(always)]
fn write<const W: usize, const N: usize, const S: usize>(
    words: &Words<W>,
    groups: &Groups,
    pattern: &[u8],
    mut out: &mut [u8],
) {
    // The pattern, in which the words around the place being listed have only
    // the places up to it.
    let mut shown = [0u8; N];
    let Some(front) = shown.get_mut(..pattern.len()) else {
        return;
    };
    front.copy_from_slice(pattern);
    // The offset of a map and the map for one of its places.
    let mut stack = [0u32; S];
    let mut top = 0usize;
    let mut at = 1usize;
    let mut rest = &pattern[1..];
    loop {
        match rest {
            [word, written, tail @ ..] if *word < 128 => {
                let kind = words.facts[*word as usize & (W - 1)] as usize & 15;
                groups.each::<W>(kind, *word, |other| {
                    out = entry(mem::take(&mut out), &shown, at, other);
                });
                if out.is_empty() {
                    return;
                }
                let map = (at as u32 + 1) << 8;
                let mut left = *written;
                while left != 0 {
                    stack[top & (S - 1)] = map | left as u32;
                    top += 1;
                    left ^= 0x80 >> left.leading_zeros();
                }
                at += 2;
                rest = tail;
            }
            [_, tail @ ..] => {
                at += 1;
                rest = tail;
            }
            [] => return,
        }
        if top == 0 {
            return;
        }
        top -= 1;
        let next = stack[top & (S - 1)];
        shown[(next >> 8) as usize & (N - 1)] = next as u8;
    }
}

/// Makes a `write` for patterns of at most as many bytes as a number has,
/// which hold the pattern in one number, the first byte lowest.
macro_rules! write_short {
    ($write:ident, $load:ident, $store:ident, $number:ty, $bytes:literal) => {
        #[inline(always)]
        fn $write<const W: usize>(
            words: &Words<W>,
            groups: &Groups,
            pattern: &[u8],
            mut out: &mut [u8],
        ) {
            let mut shown = $load(pattern);
            let mut stack = [0u16; $bytes];
            let mut top = 0usize;
            let mut at = 1usize;
            let mut rest = &pattern[1..];
            loop {
                match rest {
                    [word, written, tail @ ..] if *word < 128 => {
                        let kind = words.facts[*word as usize & (W - 1)] as usize & 15;
                        let shift = 8 * at as u32 & (8 * $bytes - 1);
                        let front = shown & !(<$number>::MAX << shift);
                        groups.each::<W>(kind, *word, |other| {
                            let entry = front | (other as $number) << shift;
                            let space = mem::take(&mut out);
                            // What this writes too far, later entries cover.
                            if let Some(to) = space.first_chunk_mut::<$bytes>() {
                                *to = entry.to_le_bytes();
                                out = space.get_mut(at + 2..).unwrap_or(&mut []);
                            } else {
                                let (to, behind) = space.split_at_mut(at + 2);
                                $store(to, entry);
                                out = behind;
                            }
                        });
                        if out.is_empty() {
                            return;
                        }
                        let map = (at as u16 + 1) << 8;
                        let mut left = *written;
                        while left != 0 {
                            stack[top & ($bytes - 1)] = map | left as u16;
                            top += 1;
                            left ^= 0x80 >> left.leading_zeros();
                        }
                        at += 2;
                        rest = tail;
                    }
                    [_, tail @ ..] => {
                        at += 1;
                        rest = tail;
                    }
                    [] => return,
                }
                if top == 0 {
                    return;
                }
                top -= 1;
                let next = stack[top & ($bytes - 1)];
                let shift = 8 * (next >> 8) as u32 & (8 * $bytes - 1);
                shown = shown & !(0xff << shift) | ((next & 0xff) as $number) << shift;
            }
        }
    };
}

write_short!(write_8, load_8, store_8, u64, 8);
write_short!(write_16, load_16, store_16, u128, 16);

/// At most 8 bytes as a number.
#[inline(always)]
fn load_8(bytes: &[u8]) -> u64 {
    let length = bytes.len() as u32;
    if let (Some(low), Some(high)) = (bytes.first_chunk::<4>(), bytes.last_chunk::<4>()) {
        let high = u32::from_le_bytes(*high) as u64;
        u32::from_le_bytes(*low) as u64 | high << ((8 * (length - 4)) & 63)
    } else {
        bytes
            .iter()
            .rev()
            .fold(0, |number, byte| number << 8 | *byte as u64)
    }
}

/// 8 to 16 bytes as a number.
#[inline(always)]
fn load_16(bytes: &[u8]) -> u128 {
    let length = bytes.len() as u32;
    if let (Some(low), Some(high)) = (bytes.first_chunk::<8>(), bytes.last_chunk::<8>()) {
        let high = u64::from_le_bytes(*high) as u128;
        u64::from_le_bytes(*low) as u128 | high << ((8 * (length - 8)) & 127)
    } else {
        load_8(bytes) as u128
    }
}

/// Fills at most 7 bytes with a number's lowest.
#[inline(always)]
fn store_8(to: &mut [u8], number: u64) {
    let length = to.len() as u32;
    if length >= 4 {
        if let Some(low) = to.first_chunk_mut::<4>() {
            *low = (number as u32).to_le_bytes();
        }
        if let Some(high) = to.last_chunk_mut::<4>() {
            *high = ((number >> ((8 * (length - 4)) & 63)) as u32).to_le_bytes();
        }
    } else {
        let bytes = (number as u32).to_le_bytes();
        to.iter_mut().zip(bytes).for_each(|(to, byte)| *to = byte);
    }
}

/// Fills at most 15 bytes with a number's lowest.
#[inline(always)]
fn store_16(to: &mut [u8], number: u128) {
    let length = to.len() as u32;
    if length >= 8 {
        if let Some(low) = to.first_chunk_mut::<8>() {
            *low = (number as u64).to_le_bytes();
        }
        if let Some(high) = to.last_chunk_mut::<8>() {
            *high = ((number >> ((8 * (length - 8)) & 127)) as u64).to_le_bytes();
        }
    } else {
        store_8(to, number as u64);
    }
}

/// Writes one entry and gives the space behind it.
#[inline(always)]
fn entry<'a, const N: usize>(
    out: &'a mut [u8],
    shown: &[u8; N],
    at: usize,
    other: u8,
) -> &'a mut [u8] {
    // What a block writes too far, later entries cover.
    if at <= 30 {
        if let (Some(to), Some(from)) = (out.first_chunk_mut::<32>(), shown.first_chunk::<32>()) {
            *to = *from;
            to[at] = other;
            to[at + 1] = 0;
            return &mut out[at + 2..];
        }
    } else if at <= 62 {
        if let (Some(to), Some(from)) = (out.first_chunk_mut::<64>(), shown.first_chunk::<64>()) {
            *to = *from;
            to[at] = other;
            to[at + 1] = 0;
            return &mut out[at + 2..];
        }
    }
    let (this, behind) = out.split_at_mut(at + 2);
    let (front, back) = this.split_at_mut(at);
    front.copy_from_slice(&shown[..at]);
    back.copy_from_slice(&[other, 0]);
    behind
}
