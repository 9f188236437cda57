//! Books through the archive: what is left over, in whatever order, and what is refused.
use pheasantry::{
    book_leftovers, entries, leftovers, list_book, match_pattern, Refusal, BOOK_LISTING_LENGTH,
};

const A: [u8; 16] = [3, 6, 0, 3, 1, 2, 1, 0, 1, 0, 2, 0, 2, 0, 0, 0];
const B: [u8; 7] = [1, 2, 0, 0, 0, 1, 0];
const C: [u8; 10] = [1, 3, 0, 0, 0, 0, 0, 3, 0, 0];

const WAIT_UP_FREE: [u8; 7] = [0, 0, 3, 1, 0, 3, 0];
const DONE: [u8; 3] = [0, 5, 0];
const PAIR_A_B: [u8; 7] = [0, 2, 3, 0, 0, 1, 0];
const PAIR_ANY_B: [u8; 5] = [0, 2, 2, 1, 0];
const ANY: [u8; 2] = [0, 255];

fn numbers<T: std::fmt::Debug>(answer: Result<T, Refusal>) -> (u8, u8, usize) {
    let refusal = answer.unwrap_err();
    (refusal.number(), refusal.input().number(), refusal.place())
}

fn refused(vocabulary: &[u8], book: &[u8]) -> (u8, u8, usize) {
    numbers(book_leftovers(vocabulary, book))
}

// The book of some patterns.
fn book(patterns: &[&[u8]]) -> Vec<u8> {
    [&[patterns.len() as u8], &*patterns.concat()].concat()
}

// What is left over, sorted by bytes, since no order is promised.
fn left(vocabulary: &[u8], patterns: &[&[u8]]) -> Vec<Vec<u8>> {
    let mut left = book_leftovers(vocabulary, &book(patterns)).unwrap();
    left.sort();
    left
}

// Under B: the term with so many levels.
fn levels(n: usize) -> Vec<u8> {
    [&[0], &*[1, 1].repeat(n - 1), &[0, 0]].concat()
}

// A tree of so many nodes, without kind byte, of words for leaves and for pairs.
fn tree(nodes: usize, leaf: u8, pair: u8) -> Vec<u8> {
    if nodes == 1 {
        return vec![leaf, 0];
    }
    let first = ((nodes - 1) / 2) | 1;
    let [first, second] = [first, nodes - 1 - first].map(|nodes| tree(nodes, leaf, pair));
    [vec![pair, 3], first, second].concat()
}

// Under C: the pattern of a tree of so many nodes.
fn pairs(nodes: usize) -> Vec<u8> {
    [vec![0], tree(nodes, 0, 2)].concat()
}

#[test]
fn a_kind_without_situations() {
    // a, g(., kind 1) and h(.), where no word makes kind 1.
    let v = [2, 3, 0, 0, 0, 3, 0, 1, 0, 1, 0];
    let (a, g, h_a) = (&[0, 0, 0][..], &[0, 1, 1, 0, 0][..], &[0, 2, 1, 0, 0][..]);
    assert_eq!(left(&v, &[g]), [[0, 255]]);
    assert_eq!(left(&v, &[g, a]), [[0, 2, 0]]);
    assert_eq!(left(&v, &[a, g, h_a]), [[0, 2, 1, 2, 0]]);
    assert_eq!(left(&v, &[a, &[0, 2, 0]]), [[0; 0]; 0]);
    assert_eq!(left(&v, &[&[1, 255]]), [[0; 0]; 0]);
    assert_eq!(left(&[1, 1, 0, 1, 0], &[&[0, 0, 0]]), [[0; 0]; 0]);
}

#[test]
fn wait_up_free_and_done_leave_two_over() {
    let two = book(&[&WAIT_UP_FREE, &DONE]);
    assert_eq!(two, [2, 0, 0, 3, 1, 0, 3, 0, 0, 5, 0]);
    let expected = [vec![0, 0, 1, 2, 0], vec![0, 0, 3, 1, 0, 4, 0]];
    assert_eq!(left(&A, &[&WAIT_UP_FREE, &DONE]), expected);
    assert_eq!(left(&A, &[&DONE, &WAIT_UP_FREE]), expected);

    let mut out = [9; 20];
    let listed = list_book(&A, &two, &mut out).unwrap();
    assert_eq!((listed.entries, listed.bytes), (2, 12));
    let mut written: Vec<&[u8]> = entries(&out[..12]).collect();
    written.sort();
    assert_eq!(written, expected);
    assert_eq!(out[12..], [9; 8]);
}

#[test]
fn room_is_measured() {
    let two = book(&[&WAIT_UP_FREE, &DONE]);
    let mut out = [9; 11];
    assert_eq!(numbers(list_book(&A, &two, &mut out)), (20, 3, 12));
    assert_eq!(out, [9; 11]);
    assert_eq!(numbers(list_book(&A, &two, &mut [])), (20, 3, 12));
    assert!(list_book(&A, &two, &mut [0; 12]).is_ok());
}

#[test]
fn the_order_of_the_patterns_counts() {
    assert_eq!(
        left(&C, &[&PAIR_A_B, &PAIR_ANY_B]),
        [
            vec![0, 0, 0],
            vec![0, 1, 0],
            vec![0, 2, 3, 0, 0, 0, 0],
            vec![0, 2, 3, 0, 0, 2, 0],
            vec![0, 2, 3, 1, 0, 0, 0],
            vec![0, 2, 3, 1, 0, 2, 0],
            vec![0, 2, 3, 2, 0, 0, 0],
            vec![0, 2, 3, 2, 0, 2, 0],
        ]
    );
    assert_eq!(
        left(&C, &[&PAIR_ANY_B, &PAIR_A_B]),
        [
            vec![0, 0, 0],
            vec![0, 1, 0],
            vec![0, 2, 2, 0, 0],
            vec![0, 2, 2, 2, 0],
        ]
    );
}

#[test]
fn an_entry_is_cut_where_it_is_open() {
    // pair(_, a) leaves pair(_, b) and pair(_, pair(_, _)), of which pair(a, _) leaves two each.
    assert_eq!(
        left(&C, &[&[0, 2, 2, 0, 0], &[0, 2, 1, 0, 0]]),
        [
            vec![0, 0, 0],
            vec![0, 1, 0],
            vec![0, 2, 3, 1, 0, 1, 0],
            vec![0, 2, 3, 1, 0, 2, 0],
            vec![0, 2, 3, 2, 0, 1, 0],
            vec![0, 2, 3, 2, 0, 2, 0],
        ]
    );
    // wait(down, _) shares nothing with wait(up, _) and is kept.
    assert_eq!(
        left(&A, &[&WAIT_UP_FREE, &[0, 0, 1, 1, 0]]),
        [vec![0, 0, 1, 2, 0], vec![0, 5, 0]]
    );
}

#[test]
fn names_become_open_places() {
    assert_eq!(
        left(&C, &[&[0, 2, 3, 0x80, 1, 0]]),
        [
            vec![0, 0, 0],
            vec![0, 1, 0],
            vec![0, 2, 2, 0, 0],
            vec![0, 2, 2, 2, 0],
        ]
    );
    // A name is a pattern's own: n0 for a button, and for a queue.
    let named = [2, 0, 0, 1, 0x80, 0, 0, 2, 0x80];
    assert_eq!(book_leftovers(&A, &named).unwrap(), [DONE]);
}

#[test]
fn one_pattern_leaves_what_list_gives() {
    for (vocabulary, pattern) in [
        (&A[..], &WAIT_UP_FREE[..]),
        (&B, &levels(32)),
        (&C, &PAIR_A_B),
        (&C, &pairs(63)),
        (&C, &ANY),
    ] {
        let mut listed = leftovers(vocabulary, pattern).unwrap();
        listed.sort();
        assert_eq!(left(vocabulary, &[pattern]), listed);
    }
}

#[test]
fn nothing_is_left() {
    let (wait, n0) = ([0, 0, 0], [0, 0x80]);
    let books = [
        book(&[&ANY]),
        book(&[&n0]),
        book(&[&wait, &DONE]),
        book(&[&ANY, &WAIT_UP_FREE]),
        book(&[&WAIT_UP_FREE, &n0]),
        book(&[&ANY[..]; 64]),
    ];
    for book in books {
        let listed = list_book(&A, &book, &mut []).unwrap();
        assert_eq!((listed.entries, listed.bytes), (0, 0));
    }
}

#[test]
fn levels_are_taken_away_one_by_one() {
    let terms: Vec<Vec<u8>> = (1..=32).map(levels).collect();
    let mut patterns: Vec<&[u8]> = terms.iter().map(Vec::as_slice).collect();
    let last = [&[0], &*[1, 1].repeat(31), &[1, 0]].concat();
    assert_eq!(left(&B, &patterns), [&*last]);
    patterns.reverse();
    assert_eq!(left(&B, &patterns), [last]);
}

// The complete situations of C with at most so many levels, without kind byte.
fn situations(levels: usize) -> Vec<Vec<u8>> {
    let mut found = vec![vec![0, 0], vec![1, 0]];
    if levels > 1 {
        let below = situations(levels - 1);
        for first in &below {
            for second in &below {
                found.push([&[2, 3], &**first, second].concat());
            }
        }
    }
    found
}

#[test]
fn every_situation_fits_a_pattern_or_one_entry() {
    let fits = |pattern: &[u8], situation: &[u8]| {
        let answer = match_pattern(&C, pattern, situation).unwrap();
        answer.is_some()
    };
    let patterns: [&[u8]; 7] = [
        &[0, 0, 0],
        &PAIR_A_B,
        &PAIR_ANY_B,
        &[0, 2, 3, 0x80, 0x81],
        &[0, 2, 3, 0x80, 2, 2, 0, 0],
        &[0, 2, 3, 2, 1, 1, 0, 2, 3, 0x85, 1, 0],
        &[0, 2, 1, 2, 3, 0, 0, 2, 0],
    ];
    let all: Vec<Vec<u8>> = situations(3)
        .into_iter()
        .map(|term| [vec![0], term].concat())
        .collect();
    assert_eq!(all.len(), 38);
    for first in patterns {
        for second in patterns {
            for third in patterns {
                let book = [first, second, third];
                let left = left(&C, &book);
                for situation in &all {
                    let some = book.into_iter().any(|pattern| fits(pattern, situation));
                    let entries = left.iter().filter(|entry| fits(entry, situation)).count();
                    assert_eq!(entries, usize::from(!some), "{book:?} {situation:?}");
                }
            }
        }
    }
}

#[test]
fn each_pattern_is_judged_in_turn() {
    assert_eq!(refused(&[], &[]), (1, 0, 0));
    for count in [&[][..], &[0], &[0, 0, 255], &[65], &[255, 0, 255]] {
        assert_eq!(refused(&C, count), (24, 5, 0));
    }
    // Before a pattern's second byte 7 comes before 8 and 9.
    assert_eq!(refused(&C, &[1]), (7, 5, 1));
    assert_eq!(refused(&C, &[1, 5]), (7, 5, 1));
    assert_eq!(refused(&C, &[2, 0, 255]), (7, 5, 3));
    assert_eq!(refused(&C, &[2, 0, 255, 0]), (7, 5, 3));
    assert_eq!(refused(&C, &[64, 0, 255]), (7, 5, 3));

    assert_eq!(refused(&C, &[2, 0, 255, 1, 0, 0]), (8, 5, 3));
    assert_eq!(refused(&C, &[2, 0, 255, 0, 2]), (9, 5, 5));
    assert_eq!(refused(&C, &[2, 0, 255, 0, 2, 3, 0, 0]), (9, 5, 8));
    assert_eq!(refused(&B, &book(&[&ANY, &levels(33)])), (10, 5, 68));
    assert_eq!(refused(&C, &[2, 0, 255, 0, 3, 0]), (11, 5, 4));
    assert_eq!(refused(&C, &[2, 0, 255, 0, 2, 1, 255]), (11, 5, 6));
    assert_eq!(refused(&A, &[2, 0, 255, 0, 1, 0]), (12, 5, 4));
    assert_eq!(refused(&A, &[2, 0, 255, 0, 0, 3, 128, 128]), (13, 5, 7));
    assert_eq!(refused(&C, &[2, 0, 255, 0, 2, 4]), (14, 5, 5));
    assert_eq!(refused(&C, &[2, 0, 255, 0, 0, 0, 0]), (15, 5, 6));
    assert_eq!(refused(&C, &[2, 0, 255, 0, 2, 3, 128, 128]), (18, 5, 7));
    assert_eq!(refused(&A, &[2, 0, 255, 1, 255]), (25, 5, 3));

    // A pattern's 18 and then its 25 come before the next one's 7, and before 15.
    assert_eq!(refused(&A, &[2, 0, 255, 1, 255, 0]), (25, 5, 3));
    assert_eq!(refused(&A, &[3, 0, 255, 1, 255]), (25, 5, 3));
    assert_eq!(refused(&C, &[2, 0, 2, 3, 128, 128, 5]), (18, 5, 5));
    let two_kinds = [2, 3, 0, 3, 0, 0, 0, 0, 1, 3, 0, 0];
    let other_kind_twice = [2, 0, 255, 1, 2, 3, 128, 128];
    assert_eq!(refused(&two_kinds, &other_kind_twice), (18, 5, 7));
}

#[test]
fn a_pattern_has_at_most_4096_bytes() {
    // 4,096 bytes, of which the last is a name: all is in order but for what is left.
    let most = [&pairs(2047)[..4093], &[2, 1, 0x80]].concat();
    assert_eq!(most.len(), 4096);
    assert_eq!(refused(&C, &book(&[&most])), (26, 5, 0));
    assert_eq!(refused(&C, &book(&[&ANY, &most, &[0]])), (7, 5, 4099));
    let and_a_byte = [book(&[&most]), vec![0]].concat();
    assert_eq!(refused(&C, &and_a_byte), (15, 5, 4097));

    // A map is due as the 4,097th byte, or a term, whether the book ends there or not.
    let too_long = book(&[&pairs(4095)]);
    assert_eq!(refused(&C, &too_long), (7, 5, 1));
    assert_eq!(refused(&C, &too_long[..4097]), (7, 5, 1));
    assert_eq!(refused(&C, &too_long[..4096]), (9, 5, 4096));
    // The first leaf stands behind count, kind and eleven pairs.
    let leaf = 24;
    let named = [&too_long[..leaf], &[0x80], &too_long[leaf + 2..]].concat();
    assert_eq!(refused(&C, &named), (7, 5, 1));
    assert_eq!(refused(&C, &named[..4097]), (7, 5, 1));
    assert_eq!(refused(&C, &named[..4096]), (9, 5, 4096));
    let second = book(&[&ANY, &pairs(4095)]);
    assert_eq!(refused(&C, &second), (7, 5, 3));

    // An earlier byte decides; the 4,097th is not read.
    for (at, answer) in [
        (leaf, (11, 5, leaf)),
        (4096, (11, 5, 4096)),
        (4097, (7, 5, 1)),
        (4098, (7, 5, 1)),
    ] {
        let mut fault = too_long.clone();
        fault[at] = 7;
        assert_eq!(refused(&C, &fault), answer);
    }
}

// A vocabulary and a book. Kind 0 has first(2, 1) and so many others, kind 2 one word and so many others,
// kind 1 two words and pairs. The book of first of that word and a tree of 125 nodes leaves 32,750 bytes
// over, and 3 for each of the others of kind 0, 5 for each of kind 2.
fn step_beside(steps: u8, twos: u8) -> (Vec<u8>, Vec<u8>) {
    let constants = |kind: u8, count: u8| [kind, 0].repeat(usize::from(count));
    let vocabulary = [
        vec![3, 1 + steps + 1 + twos + 3, 0, 3, 2, 1],
        constants(0, steps),
        constants(2, 1 + twos),
        constants(1, 2),
        vec![1, 3, 1, 1],
    ];
    let (two, leaf) = (1 + steps, 1 + steps + 1 + twos);
    let pattern = [vec![0, 0, 3, two, 0], tree(125, leaf, leaf + 2)].concat();
    (vocabulary.concat(), book(&[&pattern]))
}

#[test]
fn what_is_left_has_at_most_32768_bytes() {
    let (vocabulary, book_32768) = step_beside(1, 3);
    let mut out = vec![9; BOOK_LISTING_LENGTH + 1];
    let listed = list_book(&vocabulary, &book_32768, &mut out).unwrap();
    assert_eq!((listed.entries, listed.bytes), (254, 32_768));
    assert_eq!(out[BOOK_LISTING_LENGTH..], [9]);
    assert_eq!(
        numbers(list_book(&vocabulary, &book_32768, &mut [])),
        (20, 3, 32_768)
    );
    let (vocabulary, book_32769) = step_beside(3, 2);
    assert_eq!(refused(&vocabulary, &book_32769), (26, 5, 0));

    // The first pattern behind which it is too much counts; a later one that would leave nothing does not
    // help. 15 comes before it, and 20 behind it.
    let (trees, half) = (pairs(63), [vec![0, 2, 2], pairs(31)[1..].to_vec()].concat());
    assert_eq!(left(&C, &[&trees]).concat().len(), 8190);
    let too_much = book(&[&trees, &half, &ANY]);
    assert_eq!(refused(&C, &too_much), (26, 5, 1));
    assert_eq!(numbers(list_book(&C, &too_much, &mut [])), (26, 5, 1));
    let and_a_byte = [&too_much[..], &[0]].concat();
    assert_eq!(refused(&C, &and_a_byte), (15, 5, too_much.len()));
    assert_eq!(left(&C, &[&ANY, &trees, &half]), Vec::<Vec<u8>>::new());
}

// Five kinds: grid(1, 1, 1, 1, 0) 0, on 1 and off 2 of kind 0, and of each other kind one word, which takes
// eight of the next kind, the last nothing: these leave nothing over.
fn grids() -> Vec<u8> {
    let mut vocabulary = vec![5, 7, 0, 31, 1, 1, 1, 1, 0, 0, 0, 0, 0];
    for kind in 1..4 {
        vocabulary.extend([kind, 255]);
        vocabulary.extend([kind + 1; 8]);
    }
    vocabulary.extend([4, 0]);
    vocabulary
}

// A word and all below it, but for the last words, of which only so many are written.
fn block(word: u8, last: &mut usize) -> Vec<u8> {
    let places = match word {
        6 => 0,
        5 => (*last).min(8),
        _ => 8,
    };
    if word == 5 {
        *last -= places;
    }
    let below: Vec<Vec<u8>> = (0..places).map(|_| block(word + 1, last)).collect();
    [vec![word, ((1 << places) - 1) as u8], below.concat()].concat()
}

// A grid with blocks at two places, so many last words in all, and its place 4.
fn grid(map: u8, mut last: usize, place_4: &[u8]) -> Vec<u8> {
    let two = [block(3, &mut last), block(3, &mut last)].concat();
    [&[0, 0, map + 16], &*two, place_4].concat()
}

#[test]
fn an_entry_has_at_most_4096_bytes() {
    // The blocks of both come together in two entries, each a grid with two words more: 591 bytes, and two
    // for each last word. Without names an entry has an odd number of bytes.
    let first = grid(3, 876, &[1, 0]);
    let second = |last| grid(12, last, &[0, 16, 1, 0]);
    let mut lengths: Vec<usize> = left(&grids(), &[&first, &second(876)])
        .iter()
        .map(Vec::len)
        .collect();
    lengths.sort();
    assert_eq!(lengths, [3, 3, 2049, 4095, 4095]);
    assert_eq!(
        refused(&grids(), &book(&[&first, &second(877)])),
        (26, 5, 1)
    );
}

#[test]
fn refusals_are_told() {
    let said = |vocabulary, book| book_leftovers(vocabulary, book).unwrap_err().to_string();
    assert_eq!(
        said(&C, &[]),
        "refused 24 5 0: the book's count is missing or not 1 to 64 (book)"
    );
    assert_eq!(
        said(&C, &[2, 0, 255]),
        "refused 7 5 3: the term has fewer than 2 or more than 4,096 bytes (book, byte 3)"
    );
    assert_eq!(
        said(&C, &[1, 0, 255, 0]),
        "refused 15 5 3: bytes follow the term (book, byte 3)"
    );
    assert_eq!(
        said(&A, &[2, 0, 255, 1, 255]),
        "refused 25 5 3: the pattern's kind differs from that of the book's first (book, byte 3)"
    );
    assert_eq!(
        said(&C, &book(&[&pairs(255)])),
        "refused 26 5 0: the entries left behind a pattern have more than 32,768 bytes, or one of them more than 4,096 (book, pattern 0)"
    );
}
