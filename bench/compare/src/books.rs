//! Books to time their listing with.

use crate::terms::{chance, d, e, entry_lengths, even, half, A, A_EMPTY, C, C_EMPTY, W};

/// A book and the vocabulary of its patterns.
pub struct Book {
    pub name: &'static str,
    pub vocabulary: Vec<u8>,
    pub book: Vec<u8>,
}

type Patterns = Vec<Vec<u8>>;

/// The count byte and the patterns.
fn bound(patterns: &[Vec<u8>]) -> Vec<u8> {
    let mut book = vec![patterns.len() as u8];
    book.extend(patterns.concat());
    book
}

/// So many of 64 pairs of leaves, 8 by 8, under the vocabulary of 96 words of one kind.
fn pairs(count: u8) -> Patterns {
    let pair = |number: u8| vec![0, 50, 3, number / 8, 0, 8 + number % 8, 0];
    (0..count)
        .map(|number| pair(number.wrapping_mul(7) % 64))
        .collect()
}

/// The same with leaves of even numbers, which complete situations have, under the 96 words of which half
/// have a place of the empty kind.
fn half_pairs() -> Patterns {
    let pair = |number: u8| vec![0, 50, 3, number / 8 * 2, 0, 16 + number % 8 * 2, 0];
    (0..64u8)
        .map(|number| pair(number.wrapping_mul(7) % 64))
        .collect()
}

/// What patterns by chance are made of: how they begin, words with several places, leaves, and how
/// many levels the terms have at most.
struct Chance {
    vocabulary: Vec<u8>,
    front: &'static [u8],
    words: &'static [(u8, u8)],
    leaves: &'static [u8],
    levels: u8,
}

impl Chance {
    fn grow(&self, out: &mut Vec<u8>, seed: &mut u64, level: u8) {
        if level == self.levels || level > 1 && chance(seed).is_multiple_of(3) {
            return out.extend([self.leaves[chance(seed) % self.leaves.len()], 0]);
        }
        let (word, mut map) = self.words[chance(seed) % self.words.len()];
        if level > 1 && chance(seed).is_multiple_of(2) {
            map &= chance(seed) as u8;
        }
        out.extend([word, map]);
        for _ in 0..map.count_ones() {
            self.grow(out, seed, level + 1);
        }
    }

    /// At most so many patterns, as many as keep the entries within so many bytes.
    fn patterns(&self, most: usize, bytes: u64) -> Patterns {
        let mut seed = 3;
        let mut patterns = Vec::new();
        for _ in 0..500 {
            let mut pattern = self.front.to_vec();
            self.grow(&mut pattern, &mut seed, 1);
            patterns.push(pattern);
            let reply = reference::list_book(&self.vocabulary, &bound(&patterns), &mut []);
            if patterns.len() > most || reply[0] != 20 || reply[2] > bytes {
                patterns.pop();
            }
        }
        patterns
    }
}

/// Trees of C by chance.
fn chance_c() -> Chance {
    chance_of(&C)
}

/// Trees of C by chance under a vocabulary that has its words.
fn chance_of(vocabulary: &[u8]) -> Chance {
    Chance {
        vocabulary: vocabulary.to_vec(),
        front: &[0],
        words: &[(2, 3)],
        leaves: &[0, 1],
        levels: 5,
    }
}

/// Puts in the records of five kinds from this one on, each with one word: four with eight places of
/// the next kind and the last with none. No term of theirs lists anything.
fn quiet_kinds(vocabulary: &mut Vec<u8>, kind: u8) {
    for level in 0..4 {
        vocabulary.extend([kind + level, 255]);
        vocabulary.extend([kind + level + 1; 8]);
    }
    vocabulary.extend([kind + 4, 0]);
}

/// A term of the first of those kinds, in at most so many bytes; its words begin with this one.
fn quiet(word: u8, most: usize) -> Vec<u8> {
    fn grow(out: &mut Vec<u8>, word: u8, below: u8, spare: &mut usize) {
        let map = out.len() + 1;
        out.extend([word, 0]);
        *spare -= 2;
        for bit in 0..8 {
            if below == 0 || *spare < 2 {
                break;
            }
            out[map] |= 1 << bit;
            grow(out, word + 1, below - 1, spare);
        }
    }
    let (mut out, mut spare) = (Vec::new(), most);
    grow(&mut out, word, 4, &mut spare);
    out
}

/// 44 pairs leave 1,892 short entries, which a long pattern strikes; nothing is left of them.
fn strike_all() -> Book {
    let mut vocabulary = vec![7, 50, 0, 7, 1, 1, 2];
    quiet_kinds(&mut vocabulary, 2);
    vocabulary.extend([1, 0].repeat(44));
    let mut patterns: Patterns = (6..50)
        .map(|leaf| vec![0, 0, 3, leaf, 0, leaf, 0])
        .collect();
    let mut long = vec![0, 0, 4];
    long.extend(quiet(1, 4_082));
    patterns.push(long);
    Book {
        name: "44 pairs, then a long pattern strikes all",
        vocabulary,
        book: bound(&patterns),
    }
}

/// Patterns by chance leave short entries of words that are two of each kind. A long pattern, in
/// which a short term stands before the long one, strikes all and leaves an entry of each.
fn strike_each() -> Book {
    let mut vocabulary = vec![8, 10, 0, 7, 1, 2, 3];
    quiet_kinds(&mut vocabulary, 3);
    vocabulary.extend([1, 0, 1, 15, 1, 1, 1, 1, 2, 0, 2, 0]);
    let by_chance = Chance {
        vocabulary,
        front: &[0, 0, 1],
        words: &[(7, 15)],
        leaves: &[6],
        levels: 3,
    };
    let mut patterns = by_chance.patterns(63, 28_000);
    let mut long = vec![0, 0, 6, 8, 0];
    long.extend(quiet(1, 4_080));
    patterns.push(long);
    Book {
        name: "two words a kind, then a long pattern strikes each",
        vocabulary: by_chance.vocabulary,
        book: bound(&patterns),
    }
}

/// The books of all sorts but the growing ones.
pub fn all() -> Vec<Book> {
    let book = |name, vocabulary: &[u8], patterns: &[Vec<u8>]| Book {
        name,
        vocabulary: vocabulary.to_vec(),
        book: bound(patterns),
    };
    let wait = [vec![0, 0, 3, 1, 0, 3, 0], vec![0, 0, 1, 2, 0]];
    let pair = [vec![0, 2, 3, 0, 0, 1, 0], vec![0, 2, 2, 1, 0]];
    let any = [vec![0, 2, 3, 0, 0, 1, 0], vec![0, 255]];
    let chance_d = Chance {
        vocabulary: d(),
        front: &[0],
        words: &[(32, 0x90), (64, 1)],
        leaves: &[0, 80],
        levels: 4,
    };
    let chance_e = Chance {
        vocabulary: e(),
        front: &[0],
        words: &[(90, 255), (50, 3), (60, 3)],
        leaves: &[0, 7, 9, 47],
        levels: 3,
    };
    // A pattern and all that it leaves.
    let mut whole = vec![even(63)];
    let mut listing = vec![0; 2_046];
    reference::list(&C, &whole[0], &mut listing);
    let mut rest = &listing[..];
    for length in entry_lengths(&listing) {
        let (entry, behind) = rest.split_at(length as usize);
        whole.push(entry.to_vec());
        rest = behind;
    }
    vec![
        book("A wait(up, free), wait(down, _)", &A, &wait),
        book("C pair(a, b), pair(_, b)", &C, &pair),
        book("C pair(a, b), any", &C, &any),
        book("96 words, pairs of leaves", &e(), &pairs(64)),
        book(
            "96 words, by chance",
            &chance_e.vocabulary,
            &chance_e.patterns(64, 32_768),
        ),
        book(
            "96 words, 16 kinds, by chance",
            &chance_d.vocabulary,
            &chance_d.patterns(64, 32_768),
        ),
        book("C by chance", &C, &chance_c().patterns(64, 32_768)),
        book("C even, near 32,768 bytes", &C, &[even(255)]),
        book("C even and all its entries", &C, &whole),
        strike_all(),
        strike_each(),
    ]
}

/// Books under vocabularies in which a kind has no complete situation.
pub fn empty() -> Vec<Book> {
    let book = |name, vocabulary: &[u8], patterns: &[Vec<u8>]| Book {
        name,
        vocabulary: vocabulary.to_vec(),
        book: bound(patterns),
    };
    let (wait, down) = (vec![0, 0, 3, 1, 0, 3, 0], vec![0, 0, 1, 2, 0]);
    let (print, jam) = (vec![0, 6, 0], vec![0, 0, 3, 1, 0, 7, 0]);
    // Pairs of which the second place is of the empty kind.
    let unfit: Patterns = (0..64).map(|_| vec![0, 51, 1, 48, 0]).collect();
    let mut among = half_pairs();
    among.iter_mut().step_by(2).for_each(|pattern| {
        *pattern = vec![0, 51, 1, 48, 0];
    });
    let long = vec![0, 0, 0];
    vec![
        book(
            "A without printer, print(_), any is kept",
            &A_EMPTY,
            &[print.clone()],
        ),
        book(
            "A without printer, wait(up, free), wait(down, _)",
            &A_EMPTY,
            &[wait.clone(), down.clone()],
        ),
        book(
            "A without printer, the same and two that nothing fits",
            &A_EMPTY,
            &[print, wait, jam, down],
        ),
        book("a word over itself, nothing", &W, &[long]),
        book(
            "96 words, half unusable, pairs of leaves",
            &half(),
            &half_pairs(),
        ),
        book(
            "96 words, half unusable, every other fits nothing",
            &half(),
            &among,
        ),
        book(
            "96 words, half unusable, 64 that nothing fits",
            &half(),
            &unfit,
        ),
        book(
            "C and an empty kind, by chance",
            &C_EMPTY,
            &chance_of(&C_EMPTY).patterns(64, 32_768),
        ),
        book(
            "C and an empty kind, even, near 32,768 bytes",
            &C_EMPTY,
            &[even(255)],
        ),
    ]
}

/// C even of at most so many bytes, and perhaps pair(_, pair(_, a)), which strikes the entries that
/// leave the second place open.
pub fn even_book(most: usize, struck: bool) -> Vec<u8> {
    let mut patterns = vec![even(most)];
    if struck {
        patterns.push(vec![0, 2, 2, 2, 2, 0, 0]);
    }
    bound(&patterns)
}

/// The first so many of the 64 pairs of leaves.
pub fn leaf_pairs(count: u8) -> Vec<u8> {
    bound(&pairs(count))
}

/// The first so many of the patterns of C by chance.
pub fn by_chance(count: u8) -> Vec<u8> {
    bound(&chance_c().patterns(count as usize, 32_768))
}

/// Books of C that are refused, with their numbers.
pub fn refused() -> Vec<(&'static str, Vec<u8>, u64)> {
    let mut long = vec![even(4_096); 64];
    let too_long = bound(&long);
    long[63].pop();
    let ends = bound(&long);
    vec![
        (
            "C pair(a, b), refused 20",
            bound(&[vec![0, 2, 3, 0, 0, 1, 0]]),
            20,
        ),
        (
            "C even, refused 26 at the first pattern",
            even_book(4_096, false),
            26,
        ),
        (
            "C even, 64 times, refused 26 at the first pattern",
            too_long,
            26,
        ),
        ("C even, 64 times, refused 9 at the end", ends, 9),
    ]
}
