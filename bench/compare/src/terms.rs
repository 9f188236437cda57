//! Vocabularies and terms to time the calls with.

/// wait(button, queue) 0, up 1, down 2, free 3, full 4, done 5.
pub const A: [u8; 16] = [3, 6, 0, 3, 1, 2, 1, 0, 1, 0, 2, 0, 2, 0, 0, 0];
/// none 0, more(.) 1.
pub const B: [u8; 7] = [1, 2, 0, 0, 0, 1, 0];
/// a 0, b 1, pair(.,.) 2.
pub const C: [u8; 10] = [1, 3, 0, 0, 0, 0, 0, 3, 0, 0];
/// A word over itself: its kind has no complete situation.
pub const W: [u8; 5] = [1, 1, 0, 1, 0];
/// A with kind 3, which no word makes, and print(kind 3) 6, a step, and jam(kind 3) 7, a queue.
pub const A_EMPTY: [u8; 22] = [
    4, 8, 0, 3, 1, 2, 1, 0, 1, 0, 2, 0, 2, 0, 0, 0, 0, 1, 3, 2, 1, 3,
];
/// C with kind 1, which no word makes, and d(kind 1) 3.
pub const C_EMPTY: [u8; 13] = [2, 4, 0, 0, 0, 0, 0, 3, 0, 0, 0, 1, 1];
/// a 0, b 1, pair(.,.) 2, more(.) 3.
const G: [u8; 13] = [1, 4, 0, 0, 0, 0, 0, 3, 0, 0, 0, 1, 0];

/// 96 words over 16 kinds: words without places, pairs, eights and words with one place.
pub fn d() -> Vec<u8> {
    let mut bytes = vec![16, 96];
    for word in 0..96 {
        let kind = word % 16;
        bytes.push(kind);
        match word / 16 {
            1 => bytes.extend([3, kind, (kind + 1) % 16]),
            2 => bytes.extend([0x90, kind, kind]),
            3 => bytes.extend([255, 0, 1, 2, 3, 4, 5, 6, 7]),
            4 => bytes.extend([1, kind]),
            _ => bytes.push(0),
        }
    }
    bytes
}

/// 96 words of one kind: 0 to 47 without places, pairs 48 to 79, eights 80 to 95.
pub fn e() -> Vec<u8> {
    let mut bytes = vec![1, 96];
    for word in 0..96 {
        bytes.push(0);
        match word {
            0..=47 => bytes.push(0),
            48..=79 => bytes.extend([3, 0, 0]),
            _ => bytes.extend([255, 0, 0, 0, 0, 0, 0, 0, 0]),
        }
    }
    bytes
}

/// 96 words of two kinds, the same sorts of words as in the vocabulary above. Every second one has a
/// place of kind 1, which no word makes.
pub fn half() -> Vec<u8> {
    let mut bytes = vec![2, 96];
    for word in 0..96 {
        let last = word % 2;
        bytes.push(0);
        match word {
            0..=47 if last == 0 => bytes.push(0),
            0..=47 => bytes.extend([1, 1]),
            48..=79 => bytes.extend([3, 0, last]),
            _ => bytes.extend([255, 0, 0, 0, 0, 0, 0, 0, last]),
        }
    }
    bytes
}

/// 954 bytes, as long as a vocabulary can be in which every kind has a complete situation.
pub fn longest() -> Vec<u8> {
    let mut bytes = vec![1, 96, 0, 0];
    for _ in 1..96 {
        bytes.extend([0, 255, 0, 0, 0, 0, 0, 0, 0, 0]);
    }
    bytes
}

/// Kind k needs kind k + 1; the words by ascending or descending kinds.
pub fn chain(last_first: bool) -> Vec<u8> {
    let mut bytes = vec![16, 16];
    for at in 0..16 {
        match if last_first { 15 - at } else { at } {
            15 => bytes.extend([15, 0]),
            kind => bytes.extend([kind, 1, kind + 1]),
        }
    }
    bytes
}

/// The same by ascending kinds with a last word over itself, and word 16, a constant of kind 0, which
/// alone has a complete situation.
pub fn empty_chain() -> Vec<u8> {
    let mut bytes = chain(false);
    bytes[1] = 17;
    bytes.truncate(bytes.len() - 2);
    bytes.extend([15, 1, 15, 0, 0]);
    bytes
}

/// A term with a vocabulary under which it is complete.
pub struct Term {
    pub name: &'static str,
    pub vocabulary: Vec<u8>,
    pub complete: Vec<u8>,
}

impl Term {
    /// A pattern of the term: every other word without places is a name, the same for equal words.
    pub fn named(&self) -> Vec<u8> {
        let mut bytes = vec![self.complete[0]];
        for (number, node) in self.complete[1..].chunks_exact(2).enumerate() {
            match node {
                [word, 0] if number % 2 == 1 => bytes.push(128 + word % 64),
                _ => bytes.extend(node),
            }
        }
        bytes
    }

    /// The term with another word without places at its end: 0 for 1 and 1 for the others.
    pub fn other_leaf(&self) -> Vec<u8> {
        let mut bytes = self.complete.clone();
        let at = bytes.len() - 2;
        bytes[at] = (bytes[at] != 1) as u8;
        bytes
    }
}

/// The four terms of nearly 4,096 bytes.
pub fn long() -> Vec<Term> {
    let term = |name, vocabulary: &[u8], complete| Term {
        name,
        vocabulary: vocabulary.to_vec(),
        complete,
    };
    vec![
        term("C even", &C, even(4_096)),
        term("C uneven", &C, uneven(4_096)),
        term("deep", &G, deep(4_096)),
        term("96 words, eights", &e(), wide(4_096)),
    ]
}

/// Pairs of equal halves, at most so many bytes.
pub fn even(most: usize) -> Vec<u8> {
    fn grow(out: &mut Vec<u8>, spare: &mut usize) {
        if *spare < 4 {
            out.extend([0, 0]);
            return;
        }
        *spare -= 4;
        out.extend([2, 3]);
        let mut half = *spare / 2;
        *spare -= half;
        grow(out, &mut half);
        *spare += half;
        grow(out, spare);
    }
    let mut out = vec![0];
    grow(&mut out, &mut (most - 3));
    out
}

/// The same with d(_) for its last word: under C with an empty kind nothing fits it.
pub fn even_unfit(most: usize) -> Vec<u8> {
    let mut out = even(most);
    let at = out.len() - 2;
    out[at] = 3;
    out
}

/// The same with pairs under the 96 words of which half have a place of the empty kind.
pub fn even_half(most: usize) -> Vec<u8> {
    let mut out = even(most);
    for node in out[1..].chunks_exact_mut(2) {
        if node[0] == 2 {
            node[0] = 48;
        }
    }
    out
}

/// The next number of a sequence that looks like chance.
pub(crate) fn chance(seed: &mut u64) -> usize {
    *seed = seed
        .wrapping_mul(6364136223846793005)
        .wrapping_add(1442695040888963407);
    (*seed >> 33) as usize
}

fn rough(
    out: &mut Vec<u8>,
    level: usize,
    spare: &mut usize,
    seed: &mut u64,
    words: &[(u8, u8)],
    leaves: &[u8],
) {
    let number = chance(seed);
    let (word, map) = words[number % words.len()];
    let places = map.count_ones() as usize;
    if level < 32 && *spare >= 2 * places && (level < 4 || (number / 64) & 3 != 0) {
        *spare -= 2 * places;
        out.extend([word, map]);
        for place in 0..places {
            let mut share = *spare / (places - place);
            *spare -= share;
            rough(out, level + 1, &mut share, seed, words, leaves);
            *spare += share;
        }
    } else {
        out.extend([leaves[number / 256 % leaves.len()], 0]);
    }
}

/// Pairs by chance.
pub fn uneven(most: usize) -> Vec<u8> {
    let mut out = vec![0];
    rough(&mut out, 1, &mut (most - 3), &mut 1, &[(2, 3)], &[0, 1]);
    out
}

/// Words with eight places and with two by chance, under 96 words.
pub fn wide(most: usize) -> Vec<u8> {
    let words = [(90, 255), (91, 255), (85, 255), (50, 3), (60, 3), (70, 3)];
    let mut out = vec![0];
    let mut spare = most - 3;
    rough(&mut out, 1, &mut spare, &mut 2, &words, &[0, 7, 9, 47]);
    out
}

/// Most words stand deep: eight combs of words with one place, each down to level 32.
pub fn deep(most: usize) -> Vec<u8> {
    fn chain(out: &mut Vec<u8>, words: usize) {
        for _ in 1..words {
            out.extend([3, 1]);
        }
        out.extend([0, 0]);
    }
    fn grow(out: &mut Vec<u8>, level: usize, words: usize) {
        let left = if level < 4 { words / 2 } else { 32 - level };
        if words <= left + 1 || level == 32 {
            return chain(out, words.min(33 - level));
        }
        out.extend([2, 3]);
        if level < 4 {
            grow(out, level + 1, left);
        } else {
            chain(out, left);
        }
        grow(out, level + 1, words - 1 - left);
    }
    let mut out = vec![0];
    grow(&mut out, 1, (most - 1) / 2);
    out
}

/// A full tree of pairs under the vocabulary of 96 words and 16 kinds.
pub fn mixed(levels: usize) -> Vec<u8> {
    fn grow(out: &mut Vec<u8>, kind: u8, levels: usize) {
        if levels == 1 {
            return out.extend([kind, 0]);
        }
        out.extend([16 + kind, 3]);
        grow(out, kind, levels - 1);
        grow(out, (kind + 1) % 16, levels - 1);
    }
    let mut out = vec![0];
    grow(&mut out, 0, levels);
    out
}

/// 32 levels in B.
pub fn levels() -> Vec<u8> {
    let mut out = vec![0];
    for _ in 0..31 {
        out.extend([1, 1]);
    }
    out.extend([0, 0]);
    out
}

/// A pair of two long terms, equal if the leaf is 1 and else different in the last word alone.
pub fn halves(leaf: u8) -> Vec<u8> {
    let mut half = even(2_040)[1..].to_vec();
    let last = half.len() - 2;
    half[last] = 1;
    let mut out = vec![0, 2, 3];
    out.extend(&half);
    out.extend(&half[..last]);
    out.extend([leaf, 0]);
    out
}

/// The same name 16 times, and a situation with 16 equal parts.
pub fn many_equal() -> (Vec<u8>, Vec<u8>) {
    fn grow(out: &mut Vec<u8>, levels: usize, at_end: &[u8]) {
        if levels == 0 {
            return out.extend(at_end);
        }
        out.extend([2, 3]);
        grow(out, levels - 1, at_end);
        grow(out, levels - 1, at_end);
    }
    let (mut pattern, mut situation) = (vec![0], vec![0]);
    grow(&mut pattern, 4, &[128]);
    grow(&mut situation, 4, &even(250)[1..]);
    (pattern, situation)
}

/// A pattern and a filling file for it.
pub struct Fill {
    pub name: &'static str,
    pub pattern: Vec<u8>,
    pub filling: Vec<u8>,
}

/// A filling file with the same term for each of the first so many names.
fn fillings(names: usize, term: &[u8]) -> Vec<u8> {
    let mut map = [0; 8];
    (0..names).for_each(|name| map[name / 8] |= 1 << (name % 8));
    let mut file = map.to_vec();
    file.extend(term.repeat(names));
    file
}

/// The full tree of pairs with so many levels, in which names stand at the leaves by turns.
fn named_leaves(levels: usize, names: usize) -> Vec<u8> {
    fn grow(out: &mut Vec<u8>, levels: usize, names: usize, next: &mut usize) {
        if levels == 1 {
            out.push(128 + (*next % names) as u8);
            *next += 1;
            return;
        }
        out.extend([2, 3]);
        grow(out, levels - 1, names, next);
        grow(out, levels - 1, names, next);
    }
    let mut out = vec![0];
    grow(&mut out, levels, names, &mut 0);
    out
}

/// A name alone, and a term of at most so many bytes for it.
pub fn long_name(most: usize) -> (Vec<u8>, Vec<u8>) {
    (vec![0, 128], fillings(1, &even(most)[1..]))
}

/// Patterns of C to fill, with results of up to 4,095 bytes.
pub fn fills() -> Vec<Fill> {
    let fill = |name, pattern, filling| Fill {
        name,
        pattern,
        filling,
    };
    let (leaf, pair) = (&[0, 0][..], &[2, 3, 0, 0, 1, 0][..]);
    let mut beside = vec![0, 2, 3];
    beside.extend(&even(2_000)[1..]);
    beside.push(128);
    let (name, long) = long_name(4_096);
    vec![
        fill("C n0, long", name, long),
        fill(
            "C pair(n0, n0), long",
            vec![0, 2, 3, 128, 128],
            fillings(1, &even(2_040)[1..]),
        ),
        fill(
            "C long pattern, n0 at the end",
            beside,
            fillings(1, &even(2_000)[1..]),
        ),
        fill(
            "C 63 names 8 times, pairs",
            named_leaves(10, 63),
            fillings(63, pair),
        ),
        fill(
            "C 64 names once, 62 bytes each",
            named_leaves(7, 64),
            fillings(64, &even(63)[1..]),
        ),
        fill(
            "C 64 names 16 times, leaves",
            named_leaves(11, 64),
            fillings(64, leaf),
        ),
        fill(
            "C n0 1,024 times, a leaf",
            named_leaves(11, 1),
            fillings(1, leaf),
        ),
    ]
}

/// A filling file of two long fillings in a row: the result of a pair is too long.
pub fn too_long() -> (Vec<u8>, Vec<u8>) {
    (vec![0, 2, 3, 128, 129], fillings(2, &even(4_096)[1..]))
}

/// A long pattern whose last two places have the same name.
pub fn repeated() -> Vec<u8> {
    let mut out = vec![0, 2, 3];
    out.extend(&even(4_080)[1..]);
    out.extend([2, 3, 128, 128]);
    out
}

/// The lengths of the entries of a listing.
pub fn entry_lengths(listing: &[u8]) -> Vec<u16> {
    let mut lengths = Vec::new();
    let mut start = 0;
    while start < listing.len() {
        let (mut at, mut due) = (start + 1, 1);
        while due > 0 {
            due -= 1;
            if listing[at] < 128 {
                due += listing[at + 1].count_ones();
                at += 1;
            }
            at += 1;
        }
        lengths.push((at - start) as u16);
        start = at;
    }
    lengths
}
