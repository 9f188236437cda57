//! Small vocabularies, all their small situations and patterns.

/// Result kind, place map and kinds of the places of each word.
pub type Words = Vec<(u8, u8, Vec<u8>)>;

pub fn bytes(kinds: u8, words: &Words) -> Vec<u8> {
    let mut bytes = vec![kinds, words.len() as u8];
    for (result, map, places) in words {
        bytes.extend([*result, *map]);
        bytes.extend(places);
    }
    bytes
}

/// All complete terms of each kind with at most so many levels, up to a
/// number of terms a kind.
pub fn complete(kinds: u8, words: &Words, levels: usize, most: usize) -> Vec<Vec<Vec<u8>>> {
    let mut all: Vec<Vec<Vec<u8>>> = vec![vec![]; kinds as usize];
    for _ in 0..levels {
        let mut next: Vec<Vec<Vec<u8>>> = vec![vec![]; kinds as usize];
        for (number, (result, map, places)) in words.iter().enumerate() {
            let mut terms = vec![vec![number as u8, *map]];
            for &kind in places {
                terms = terms
                    .iter()
                    .flat_map(|term| {
                        all[kind as usize].iter().map(move |below| {
                            let mut term = term.clone();
                            term.extend(below);
                            term
                        })
                    })
                    .take(most)
                    .collect();
            }
            next[*result as usize].extend(terms);
        }
        all = next;
    }
    all
}

/// All patterns of a kind without repeated names, with at most so many
/// levels; names are given in order, only at some places.
pub fn patterns(words: &Words, kind: u8, levels: usize) -> Vec<Vec<u8>> {
    let mut all = vec![vec![128]];
    if levels == 0 {
        return vec![];
    }
    for (number, (result, map, places)) in words.iter().enumerate() {
        if *result != kind {
            continue;
        }
        let bits: Vec<u8> = (0..8).filter(|bit| map >> bit & 1 == 1).collect();
        let mut made = vec![vec![number as u8, 0]];
        for (bit, &kind) in bits.iter().zip(places) {
            let below = patterns(words, kind, levels - 1);
            made = made
                .iter()
                .flat_map(|term: &Vec<u8>| {
                    let mut more = vec![term.clone()];
                    for below in &below {
                        let mut term = term.clone();
                        term[1] |= 1 << bit;
                        term.extend(below);
                        more.push(term);
                    }
                    more
                })
                .take(3000)
                .collect();
        }
        all.extend(made);
    }
    all
}

/// Gives each name its own number, so that none stands twice.
pub fn rename(term: &mut [u8]) {
    let (mut at, mut next) = (0, 128);
    while at < term.len() {
        if term[at] < 128 {
            at += 2;
        } else {
            term[at] = next;
            next += 1;
            at += 1;
        }
    }
}

pub fn split(mut listing: &[u8], entries: u64) -> Vec<Vec<u8>> {
    let mut all = vec![];
    for _ in 0..entries {
        let (mut at, mut due) = (1, 1);
        while due > 0 {
            due -= 1;
            if listing[at] < 128 {
                due += listing[at + 1].count_ones();
                at += 2;
            } else {
                at += 1;
            }
        }
        all.push(listing[..at].to_vec());
        listing = &listing[at..];
    }
    assert!(listing.is_empty());
    all
}

/// A situation that fits a pattern, with a least term at each open place. There
/// must be one.
pub fn instance(kinds: u8, words: &Words, pattern: &[u8]) -> Vec<u8> {
    let mut least: Vec<Option<Vec<u8>>> = vec![None; kinds as usize];
    for _ in 0..kinds {
        for (number, (result, map, places)) in words.iter().enumerate() {
            if least[*result as usize].is_none() {
                let below: Option<Vec<Vec<u8>>> = places
                    .iter()
                    .map(|&kind| least[kind as usize].clone())
                    .collect();
                least[*result as usize] =
                    below.map(|below| [vec![number as u8, *map], below.concat()].concat());
            }
        }
    }
    fn fill(
        words: &Words,
        least: &[Option<Vec<u8>>],
        pattern: &[u8],
        at: &mut usize,
        kind: u8,
        out: &mut Vec<u8>,
    ) {
        let byte = pattern[*at];
        if byte >= 128 {
            *at += 1;
            out.extend(least[kind as usize].as_ref().unwrap());
            return;
        }
        let written = pattern[*at + 1];
        *at += 2;
        let (_, map, places) = &words[byte as usize];
        out.extend([byte, *map]);
        let bits = (0..8).filter(|bit| map >> bit & 1 == 1);
        for (bit, &kind) in bits.zip(places) {
            if written >> bit & 1 == 1 {
                fill(words, least, pattern, at, kind, out);
            } else {
                out.extend(least[kind as usize].as_ref().unwrap());
            }
        }
    }
    let mut out = vec![pattern[0]];
    fill(words, &least, pattern, &mut 1, pattern[0], &mut out);
    out
}

/// Vocabularies, how many levels patterns have, and how many situations.
pub fn shapes() -> Vec<(u8, Words, usize, usize)> {
    vec![
        // A, B and C of the document.
        (
            3,
            vec![
                (0, 3, vec![1, 2]),
                (1, 0, vec![]),
                (1, 0, vec![]),
                (2, 0, vec![]),
                (2, 0, vec![]),
                (0, 0, vec![]),
            ],
            3,
            3,
        ),
        (1, vec![(0, 0, vec![]), (0, 1, vec![0])], 5, 8),
        (
            1,
            vec![(0, 0, vec![]), (0, 0, vec![]), (0, 3, vec![0, 0])],
            3,
            4,
        ),
        // Gapped maps, and kinds that need each other.
        (
            2,
            vec![
                (0, 0x90, vec![1, 0]),
                (1, 0x20, vec![0]),
                (0, 0, vec![]),
                (1, 0x04, vec![1]),
                (1, 0, vec![]),
            ],
            3,
            5,
        ),
        (1, vec![(0, 0xa8, vec![0, 0, 0]), (0, 0, vec![])], 3, 4),
        // A kind with one word only.
        (
            2,
            vec![(0, 0x81, vec![1, 1]), (1, 0, vec![]), (1, 0x40, vec![1])],
            3,
            5,
        ),
        (
            3,
            vec![
                (0, 0x0f, vec![1, 2, 1, 2]),
                (1, 0, vec![]),
                (1, 0, vec![]),
                (2, 0, vec![]),
                (2, 0, vec![]),
                (2, 0, vec![]),
            ],
            2,
            2,
        ),
        (
            2,
            vec![(0, 0xff, vec![1; 8]), (1, 0, vec![]), (1, 0, vec![])],
            2,
            2,
        ),
        // Kind 1 has no word; a word over itself; A without its printer.
        (
            2,
            vec![(0, 0, vec![]), (0, 3, vec![0, 1]), (0, 1, vec![0])],
            4,
            6,
        ),
        (1, vec![(0, 1, vec![0])], 4, 6),
        (
            4,
            vec![
                (0, 3, vec![1, 2]),
                (1, 0, vec![]),
                (1, 0, vec![]),
                (2, 0, vec![]),
                (2, 0, vec![]),
                (0, 0, vec![]),
                (0, 1, vec![3]),
                (2, 1, vec![3]),
            ],
            3,
            3,
        ),
        // Kind 1 has situations through kind 3 alone, and kind 2 has none.
        (
            4,
            vec![
                (0, 0, vec![]),
                (0, 0x82, vec![1, 0]),
                (1, 1, vec![2]),
                (1, 1, vec![3]),
                (2, 1, vec![2]),
                (3, 0, vec![]),
                (0, 4, vec![2]),
            ],
            3,
            6,
        ),
        // C with a word over a kind that needs itself.
        (
            2,
            vec![
                (0, 0, vec![]),
                (0, 1, vec![1]),
                (0, 0, vec![]),
                (0, 3, vec![0, 0]),
                (1, 3, vec![0, 1]),
            ],
            3,
            4,
        ),
    ]
}
