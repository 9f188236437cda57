//! The listing of books: the readings of its sentences, and the boundary of
//! each refusal. Entries are compared in the order of their bytes.

use reference::Reply;

const A: &str = "03 06 00 03 01 02 01 00 01 00 02 00 02 00 00 00";
const B: &str = "01 02 00 00 00 01 00";
const C: &str = "01 03 00 00 00 00 00 03 00 00";
/// Two kinds with a leaf and a pair each: 0 and 1, 2 and 3.
const D: &str = "02 04 00 00 00 03 00 00 01 00 01 03 01 01";

fn bytes(hex: &str) -> Vec<u8> {
    let digits: Vec<u8> = hex
        .bytes()
        .filter(|b| !b.is_ascii_whitespace())
        .map(|b| (b as char).to_digit(16).unwrap() as u8)
        .collect();
    digits
        .chunks(2)
        .map(|pair| pair[0] << 4 | pair[1])
        .collect()
}

/// The first three numbers of a reply, whose others are 0.
fn three(reply: Reply) -> [u64; 3] {
    let [number, input, place, 0, 0] = reply else {
        panic!("{reply:?}");
    };
    [number, input, place]
}

fn list(v: &[u8], p: &[u8], out: &mut [u8]) -> [u64; 3] {
    three(reference::list(v, p, out))
}

fn list_book(v: &[u8], book: &[u8], out: &mut [u8]) -> [u64; 3] {
    three(reference::list_book(v, book, out))
}

/// The entries of a listing, sorted.
fn entries(mut listing: &[u8], count: u64) -> Vec<Vec<u8>> {
    let mut all = Vec::new();
    for _ in 0..count {
        let (mut at, mut due) = (1, 1);
        while due > 0 {
            due -= 1;
            if listing[at] < 128 {
                due += listing[at + 1].count_ones();
                at += 1;
            }
            at += 1;
        }
        all.push(listing[..at].to_vec());
        listing = &listing[at..];
    }
    assert!(listing.is_empty());
    all.sort();
    all
}

/// Lists with a space exactly as long, shorter ones and longer ones, and gives
/// the entries.
fn left(v: &[u8], book: &[u8]) -> Vec<Vec<u8>> {
    let mut space = vec![0xee; 40_000];
    let reply = list_book(v, book, &mut space);
    assert_eq!(reply[0], 0, "{reply:?}");
    let length = reply[2] as usize;
    assert!(space[length..].iter().all(|&byte| byte == 0xee));
    let all = entries(&space[..length], reply[1]);
    for more in [0, 1, 2, 31, 32, 33] {
        let mut other = vec![0xdd; length + more];
        assert_eq!(list_book(v, book, &mut other), reply);
        assert_eq!(entries(&other[..length], reply[1]), all);
        assert!(other[length..].iter().all(|&byte| byte == 0xdd));
    }
    for less in [1, 2, length] {
        if less <= length && length > 0 {
            let mut other = vec![0xdd; length - less];
            assert_eq!(list_book(v, book, &mut other), [20, 3, length as u64]);
            assert!(other.iter().all(|&byte| byte == 0xdd));
        }
    }
    all
}

/// The refusal, the same with any space, which stays as it was.
fn refusal(v: &[u8], book: &[u8]) -> [u64; 3] {
    let mut space = vec![0xee; 40_000];
    let reply = list_book(v, book, &mut space);
    assert!(reply[0] != 0 && space.iter().all(|&byte| byte == 0xee));
    assert_eq!(list_book(v, book, &mut []), reply);
    reply
}

fn refused(v: &str, book: &str) -> [u64; 3] {
    refusal(&bytes(v), &bytes(book))
}

/// A book of these patterns leaves just these entries.
fn leaves(v: &str, patterns: &[&str], entries: &[&str]) {
    let mut book = vec![patterns.len() as u8];
    book.extend(patterns.iter().flat_map(|pattern| bytes(pattern)));
    let mut expected: Vec<Vec<u8>> = entries.iter().map(|entry| bytes(entry)).collect();
    expected.sort();
    assert_eq!(left(&bytes(v), &book), expected);
}

fn bound<P: AsRef<[u8]>>(patterns: &[P]) -> Vec<u8> {
    let mut book = vec![patterns.len() as u8];
    book.extend(patterns.iter().flat_map(|pattern| pattern.as_ref()));
    book
}

/// The full tree of pairs in C with so many levels.
fn pairs(levels: usize) -> Vec<u8> {
    match levels {
        1 => vec![0, 0],
        _ => [vec![2, 3], pairs(levels - 1), pairs(levels - 1)].concat(),
    }
}

#[test]
fn two_patterns_of_a() {
    leaves(
        A,
        &["00 00 03 01 00 03 00", "00 00 01 02 00"],
        &["00 05 00", "00 00 03 01 00 04 00"],
    );
    // One pattern: as in a listing of its own.
    leaves(
        A,
        &["00 00 03 01 00 03 00"],
        &["00 05 00", "00 00 01 02 00", "00 00 03 01 00 04 00"],
    );
}

#[test]
fn the_order_of_patterns_counts() {
    let (ab, any_b) = ("00 02 03 00 00 01 00", "00 02 02 01 00");
    leaves(
        C,
        &[ab, any_b],
        &[
            "00 00 00",
            "00 01 00",
            "00 02 03 01 00 00 00",
            "00 02 03 01 00 02 00",
            "00 02 03 02 00 00 00",
            "00 02 03 02 00 02 00",
            "00 02 03 00 00 00 00",
            "00 02 03 00 00 02 00",
        ],
    );
    leaves(
        C,
        &[any_b, ab],
        &["00 00 00", "00 01 00", "00 02 02 00 00", "00 02 02 02 00"],
    );
}

#[test]
fn higher_places_stay_and_lower_ones_hold_what_both_allow() {
    // pair(_, pair(a, _)) leaves, among others, pair(_, pair(b, _)). Of that
    // pair(pair(a, _), pair(_, a)) strikes a part.
    leaves(
        C,
        &["00 02 02 02 01 00 00", "00 02 03 02 01 00 00 02 02 00 00"],
        &[
            "00 00 00",
            "00 01 00",
            "00 02 02 00 00",
            "00 02 02 01 00",
            // The other words at the open place, the higher place as it was.
            "00 02 03 00 00 02 01 01 00",
            "00 02 03 01 00 02 01 01 00",
            "00 02 03 02 01 01 00 02 01 01 00",
            "00 02 03 02 01 02 00 02 01 01 00",
            // What both allow in the lower places.
            "00 02 03 02 01 00 00 02 03 01 00 01 00",
            "00 02 03 02 01 00 00 02 03 01 00 02 00",
            // The same with pair for b.
            "00 02 03 00 00 02 01 02 00",
            "00 02 03 01 00 02 01 02 00",
            "00 02 03 02 01 01 00 02 01 02 00",
            "00 02 03 02 01 02 00 02 01 02 00",
            "00 02 03 02 01 00 00 02 03 02 00 01 00",
            "00 02 03 02 01 00 00 02 03 02 00 02 00",
        ],
    );
}

#[test]
fn names_become_open() {
    // In a listing of its own, and in lower places taken over.
    leaves(
        C,
        &["00 02 03 80 01 00"],
        &["00 00 00", "00 01 00", "00 02 02 00 00", "00 02 02 02 00"],
    );
    leaves(
        C,
        &["00 02 03 02 03 85 00 00 01 00"],
        &[
            "00 00 00",
            "00 01 00",
            "00 02 01 00 00",
            "00 02 01 01 00",
            "00 02 01 02 02 01 00",
            "00 02 01 02 02 02 00",
            "00 02 03 02 02 00 00 00 00",
            "00 02 03 02 02 00 00 02 00",
        ],
    );
    // Against an entry that is open there.
    leaves(
        C,
        &["00 00 00", "00 02 03 80 00 00"],
        &["00 01 00", "00 02 02 01 00", "00 02 02 02 00"],
    );
    // Against one that is not: what the entry has there stays.
    leaves(
        C,
        &["00 02 01 00 00", "00 02 03 80 00 00"],
        &[
            "00 00 00",
            "00 01 00",
            "00 02 03 01 00 01 00",
            "00 02 03 01 00 02 00",
            "00 02 03 02 00 01 00",
            "00 02 03 02 00 02 00",
        ],
    );
    // Names are a pattern's own.
    leaves(A, &["00 00 01 80", "00 00 02 80"], &["00 05 00"]);
    leaves(
        C,
        &["00 02 03 80 81", "00 02 03 81 80"],
        &["00 00 00", "00 01 00"],
    );
}

#[test]
fn books_that_leave_nothing() {
    leaves(C, &["00 ff"], &[]);
    leaves(C, &["00 80"], &[]);
    leaves(C, &["00 00 00", "00 01 00", "00 02 00"], &[]);
    leaves(C, &["00 00 00", "00 ff", "00 02 00"], &[]);
    // A pattern and its entries.
    let more = ["00 00 00", "00 01 01 00 00", "00 01 01 01 01 01 00"];
    leaves(B, &["00 01 01 01 01 00 00", more[0], more[1], more[2]], &[]);
    leaves(B, &[more[2], more[1], more[0], "00 01 01 01 01 00 00"], &[]);
    assert_eq!(list_book(&bytes(C), &bytes("01 00 ff"), &mut []), [0, 0, 0]);
    // A kind of one word.
    assert_eq!(left(&bytes("01 01 00 00"), &bytes("01 00 00 00")).len(), 0);
}

#[test]
fn the_same_pattern_again() {
    for pattern in [
        "00 02 03 00 00 01 00",
        "00 02 02 02 03 00 00 80",
        "00 00 00",
    ] {
        let once = left(&bytes(C), &bytes(&format!("01 {pattern}")));
        let twice = left(&bytes(C), &bytes(&format!("02 {pattern} {pattern}")));
        assert_eq!(once, twice);
        let many = format!("40 {}", format!("{pattern} ").repeat(64));
        assert_eq!(once, left(&bytes(C), &bytes(&many)));
    }
    // Without names, one pattern leaves what its own listing has.
    let pattern = [vec![0], pairs(4)].concat();
    let mut space = [0; 10_000];
    let reply = list(&bytes(C), &pattern, &mut space);
    let own = entries(&space[..reply[2] as usize], reply[1]);
    assert_eq!(own, left(&bytes(C), &bound(&[pattern])));
}

#[test]
fn the_vocabulary_and_the_count_come_first() {
    assert_eq!(refused("", ""), [1, 0, 0]);
    assert_eq!(refused("01 01 00 01 00", ""), [24, 5, 0]);
    assert_eq!(refused("01 01 00 00 00", "41"), [5, 0, 4]);
    assert_eq!(refused(C, ""), [24, 5, 0]);
    for count in [0, 65, 66, 128, 255] {
        let mut book = vec![count];
        assert_eq!(refusal(&bytes(C), &book), [24, 5, 0]);
        book.extend([0, 255].repeat(count as usize));
        assert_eq!(refusal(&bytes(C), &book), [24, 5, 0]);
    }
    for count in [1, 2, 63, 64] {
        let mut book = vec![count];
        book.extend([0, 255].repeat(count as usize));
        assert_eq!(left(&bytes(C), &book).len(), 0);
    }
}

#[test]
fn where_patterns_end() {
    assert_eq!(refused(C, "01"), [7, 5, 1]);
    assert_eq!(refused(C, "01 05"), [7, 5, 1]);
    assert_eq!(refused(C, "01 00"), [7, 5, 1]);
    assert_eq!(refused(C, "02 00 ff"), [7, 5, 3]);
    assert_eq!(refused(C, "02 00 ff 00"), [7, 5, 3]);
    assert_eq!(refused(C, "02 00 ff 09"), [7, 5, 3]);
    assert_eq!(refused(C, "02 00 ff 00 02"), [9, 5, 5]);
    assert_eq!(refused(C, "01 00 02 03"), [9, 5, 4]);
    assert_eq!(refused(C, "01 00 02 03 00"), [9, 5, 5]);
    assert_eq!(refused(C, "01 00 ff 00"), [15, 5, 3]);
    assert_eq!(refused(C, "02 00 ff 00 80 ff 00"), [15, 5, 5]);
}

#[test]
fn faults_of_each_pattern() {
    assert_eq!(refused(C, "01 01 ff"), [8, 5, 1]);
    assert_eq!(refused(C, "02 00 ff 01 ff"), [8, 5, 3]);
    assert_eq!(refused(C, "02 00 ff 00 03 00"), [11, 5, 4]);
    // 255 at a root only.
    assert_eq!(refused(C, "02 00 ff 00 02 01 ff"), [11, 5, 6]);
    assert_eq!(refused(A, "02 00 ff 00 01 00"), [12, 5, 4]);
    assert_eq!(refused(A, "02 00 ff 00 00 03 80 80"), [13, 5, 7]);
    assert_eq!(refused(C, "02 00 ff 00 02 04"), [14, 5, 5]);
    assert_eq!(refused(C, "02 00 ff 00 02 03 80 80"), [18, 5, 7]);
    // The earlier pattern's fault decides.
    assert_eq!(refused(C, "02 00 02 03 80 80 05"), [18, 5, 5]);
    assert_eq!(refused(C, "02 00 03 00 05"), [11, 5, 2]);
    // In one pattern 13 and 14 come before 18, wherever they stand.
    let pattern = "00 02 03 80 02 03 80 02 04";
    assert_eq!(refused(C, &format!("02 00 ff {pattern}")), [14, 5, 11]);
    // Level 32, and level 33.
    let deep = |words: usize| format!("02 00 80 00 {} 80", "01 01 ".repeat(words));
    assert_eq!(left(&bytes(B), &bytes(&deep(31))).len(), 0);
    assert_eq!(refused(B, &deep(32)), [10, 5, 4 + 64]);
}

#[test]
fn kinds_differ() {
    assert_eq!(refused(A, "02 00 ff 01 ff 00"), [25, 5, 3]);
    // Before the next pattern's 7, and before 15.
    assert_eq!(refused(A, "03 00 ff 01 ff"), [25, 5, 3]);
    assert_eq!(refused(A, "03 00 ff 00 ff 01 ff 00"), [25, 5, 5]);
    assert_eq!(refused(A, "04 01 ff 01 80 00 ff 02 ff"), [25, 5, 5]);
    // After the pattern's own 7 to 14 and 18.
    assert_eq!(refused(A, "02 00 ff 01"), [7, 5, 3]);
    assert_eq!(refused(A, "02 00 ff 03 ff"), [8, 5, 3]);
    assert_eq!(refused(A, "02 00 ff 01 03 00"), [12, 5, 4]);
    assert_eq!(refused(D, "02 00 ff 01 03 03 80 80"), [18, 5, 7]);
    assert_eq!(refused(D, "02 00 ff 01 03 03 80 81"), [25, 5, 3]);
    assert_eq!(refused(D, "02 00 01 03 80 80 01 ff"), [18, 5, 5]);
    // Any kind may be the first.
    assert_eq!(left(&bytes(A), &bytes("01 01 01 00")), [bytes("01 02 00")]);
}

/// A pattern of C with 1,024 pairs, in which so many of the first leaves are
/// names: 4,099 bytes less one for each.
fn long(names: u8) -> Vec<u8> {
    let mut tree = pairs(11);
    tree.splice(tree.len() - 2.., [2, 3, 0, 0, 0, 0]);
    let mut pattern = vec![0];
    let mut next = 0;
    for node in tree.chunks(2) {
        match node {
            [0, 0] if next < names => {
                pattern.push(128 + next);
                next += 1;
            }
            _ => pattern.extend(node),
        }
    }
    pattern
}

#[test]
fn the_length_of_a_pattern() {
    let c = bytes(C);
    let book = |pattern: &[u8]| bound(&[vec![0, 255], pattern.to_vec()]);
    assert_eq!(long(3).len(), 4096);
    assert_eq!(left(&c, &book(&long(3))).len(), 0);
    assert_eq!(refusal(&c, &book(&long(3)[..4095])), [9, 5, 3 + 4095]);
    assert_eq!(
        refusal(&c, &book(&[&long(3)[..], &[0]].concat())),
        [15, 5, 4099]
    );
    // One byte more, whatever it is and whether it is there.
    assert_eq!(long(2).len(), 4097);
    for length in [4096, 4097] {
        assert_eq!(refusal(&c, &book(&long(2)[..length])), [7, 5, 3]);
    }
    for byte in [1, 7, 128, 255] {
        let mut pattern = long(2);
        pattern[4096] = byte;
        assert_eq!(refusal(&c, &book(&pattern)), [7, 5, 3]);
    }
    // The 4,097th byte may be a word's: then its map is still to come.
    assert_eq!(refusal(&c, &book(&long(1))), [7, 5, 3]);
    // A fault at the 4,096th byte comes first, and so do all before.
    for (at, byte, number) in [(4095, 9, 11), (4095, 192, 11), (999, 9, 11), (1000, 9, 14)] {
        let mut pattern = long(2);
        pattern[at] = byte;
        assert_eq!(refusal(&c, &book(&pattern)), [number, 5, 3 + at as u64]);
    }
    // The name stands a second time at the end: 7 comes before 18.
    let mut pattern = long(2);
    pattern[4095] = 128;
    assert_eq!(refusal(&c, &book(&pattern[..4096])), [18, 5, 3 + 4095]);
    let mut pattern = long(1);
    let at = pattern.iter().rposition(|&byte| byte == 2).unwrap() - 2;
    pattern.splice(at..at + 2, [128]);
    assert_eq!(pattern.len(), 4097);
    assert_eq!(refusal(&c, &book(&pattern)), [7, 5, 3]);
}

/// A vocabulary whose kind 0 has a word with the given places, of kind 1 or 2,
/// and so many leaves. Kind 2 has so many leaves. Kinds 1 and 3 to 6 have one
/// word each, with eight places of the next of them or none, so that their
/// terms list nothing.
fn quiet_vocabulary(places: &[u8], others: u8, leaves: u8) -> Vec<u8> {
    let mut v = vec![7, 6 + others + leaves];
    v.extend([0, (1u16.wrapping_shl(places.len() as u32) - 1) as u8]);
    v.extend(places);
    for (kind, next) in [(1, 3), (3, 4), (4, 5), (5, 6)] {
        v.extend([kind, 255]);
        v.extend([next; 8]);
    }
    v.extend([6, 0]);
    v.extend([0, 0].repeat(others as usize));
    v.extend([2, 0].repeat(leaves as usize));
    v
}

/// A term of kind 1 with so many words; those below its root stand at the
/// places from the given one on.
fn quiet(first: u8, mut words: usize) -> Vec<u8> {
    fn grow(out: &mut Vec<u8>, word: u8, first: u8, words: &mut usize) {
        *words -= 1;
        let map = out.len() + 1;
        out.extend([word, 0]);
        for place in first..8 {
            if word < 5 && *words > 0 {
                out[map] |= 1 << place;
                grow(out, word + 1, 0, words);
            }
        }
    }
    let mut out = Vec::new();
    grow(&mut out, 1, first, &mut words);
    assert_eq!(words, 0);
    out
}

#[test]
fn all_entries_too_long() {
    // 8 entries of 4,093 bytes and 8 of 3: 32,768. Then 9 of 3.
    let pattern = [vec![0, 0, 3], quiet(0, 2044), vec![14, 0]].concat();
    assert_eq!(pattern.len(), 4093);
    let v = quiet_vocabulary(&[1, 2], 8, 9);
    let all = left(&v, &bound(&[&pattern]));
    assert_eq!((all.len(), all.concat().len()), (16, 32_768));
    let pattern = [vec![0, 0, 3], quiet(0, 2044), vec![15, 0]].concat();
    let v = quiet_vocabulary(&[1, 2], 9, 9);
    assert_eq!(refusal(&v, &bound(&[&pattern])), [26, 5, 0]);
    // 8 of 4,089 and 19 of 3: a byte too many.
    let last = [vec![0, 0, 3], quiet(0, 2042), vec![25, 0]].concat();
    let one_more = quiet_vocabulary(&[1, 2], 19, 9);
    assert_eq!(refusal(&one_more, &bound(&[last])), [26, 5, 0]);
    // A leaf less is struck later: that comes too late. Before, it does not.
    let leaf = vec![0, 6, 0];
    let later = bound(&[pattern.clone(), leaf.clone()]);
    assert_eq!(refusal(&v, &later), [26, 5, 0]);
    assert_eq!(
        refusal(&v, &bound(&[pattern.clone(), vec![0, 255]])),
        [26, 5, 0]
    );
    let all = left(&v, &bound(&[leaf.clone(), pattern.clone()]));
    assert_eq!((all.len(), all.concat().len()), (16, 32_768));
    // Every other refusal of the book comes first, 20 behind.
    let mut behind = later.clone();
    behind.push(0);
    let end = later.len() as u64;
    assert_eq!(refusal(&v, &behind), [15, 5, end]);
    behind[0] = 3;
    assert_eq!(refusal(&v, &behind), [7, 5, end]);
    behind.extend([255, 0]);
    assert_eq!(refusal(&v, &behind), [15, 5, end + 2]);
    let book = bound(&[leaf.clone(), pattern.clone(), leaf]);
    assert_eq!(list_book(&v, &book, &mut [0; 32_767]), [20, 3, 32_768]);
    // Which pattern it is: 7 levels of pairs leave 32,766 bytes, 8 too many.
    let c = bytes(C);
    let tree = |levels| [vec![0], pairs(levels)].concat();
    assert_eq!(left(&c, &bound(&[tree(7)])).concat().len(), 32_766);
    let mut book = bound(&[vec![0, 0, 0], vec![0, 1, 0], tree(8), vec![0, 255]]);
    assert_eq!(refusal(&c, &book), [26, 5, 2]);
    // Nothing is left to become too long.
    book = bound(&[vec![0, 128], tree(8)]);
    assert_eq!(left(&c, &book).len(), 0);
}

#[test]
fn one_entry_too_long() {
    // r(long, b) alone: an entry of 4,095 bytes.
    let pattern = [vec![0, 0, 3], quiet(0, 2045), vec![6, 0]].concat();
    assert_eq!(pattern.len(), 4095);
    let all = left(&quiet_vocabulary(&[1, 2], 0, 2), &bound(&[pattern]));
    assert_eq!(all.iter().map(Vec::len).collect::<Vec<_>>(), [4095]);
    // Two patterns, each with some places of the long term: the entry has all.
    let v = quiet_vocabulary(&[1, 2, 2], 0, 2);
    let book = |words: usize| {
        let first = [vec![0, 0, 3], quiet(0, 1171), vec![6, 0]].concat();
        let second = [vec![0, 0, 7], quiet(2, words - 1170), vec![7, 0, 6, 0]].concat();
        bound(&[first, second])
    };
    let lengths = |book: &[u8]| left(&v, book).iter().map(Vec::len).collect::<Vec<_>>();
    assert_eq!(lengths(&book(2044)), [4095]);
    assert_eq!(refusal(&v, &book(2045)), [26, 5, 1]);
    // A later pattern does not help.
    let mut longer = book(2045);
    longer[0] = 3;
    longer.extend([0, 255]);
    assert_eq!(refusal(&v, &longer), [26, 5, 1]);
    // It is the entries that count, not what a pattern takes away.
    let first = [vec![0, 0, 3], quiet(0, 1171), vec![6, 0]].concat();
    let second = [vec![0, 0, 3], quiet(2, 1171), vec![7, 0]].concat();
    assert_eq!(lengths(&bound(&[first, second])), [0; 0]);
}

#[test]
fn a_long_pattern_against_short_entries() {
    // 44 pairs leave 43 entries each, and a long term covers all.
    let v = quiet_vocabulary(&[2, 2, 1], 0, 44);
    let mut patterns: Vec<Vec<u8>> = (6..50)
        .map(|leaf| vec![0, 0, 3, leaf, 0, leaf, 0])
        .collect();
    let all = left(&v, &bound(&patterns));
    assert_eq!((all.len(), all.concat().len()), (1892, 1892 * 7));
    patterns.push([vec![0, 0, 4], quiet(0, 2040)].concat());
    assert_eq!(left(&v, &bound(&patterns)).len(), 0);
    // It covers those with a certain word only; the others stay.
    patterns.pop();
    patterns.push([vec![0, 0, 5, 6, 0], quiet(0, 2040)].concat());
    assert_eq!(left(&v, &bound(&patterns)).len(), 1892 - 43);
}
