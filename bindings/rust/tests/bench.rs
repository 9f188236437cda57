//! The bench examples and each line of the refusal list, through the archive.
use pheasantry::{
    check_term, check_vocabulary, entries, fill, leftovers, list, list_book, match_into,
    match_pattern, part, Checked, Refusal,
};

const A: [u8; 16] = [3, 6, 0, 3, 1, 2, 1, 0, 1, 0, 2, 0, 2, 0, 0, 0];
const B: [u8; 7] = [1, 2, 0, 0, 0, 1, 0];
const C: [u8; 10] = [1, 3, 0, 0, 0, 0, 0, 3, 0, 0];
const WAIT_UP_FREE: [u8; 7] = [0, 0, 3, 1, 0, 3, 0];
const PAIR_A_A: [u8; 7] = [0, 2, 3, 0, 0, 0, 0];
const PAIR_A_B: [u8; 7] = [0, 2, 3, 0, 0, 1, 0];
const PAIR_N0_N0: [u8; 5] = [0, 2, 3, 0x80, 0x80];
const WAIT_N0_N1: [u8; 5] = [0, 0, 3, 0x80, 0x81];
const UP_AND_FREE: [u8; 12] = [3, 0, 0, 0, 0, 0, 0, 0, 1, 0, 3, 0];

fn numbers<T: std::fmt::Debug>(answer: Result<T, Refusal>) -> (u8, u8, usize) {
    let refusal = answer.unwrap_err();
    (refusal.number(), refusal.input().number(), refusal.place())
}

fn counted(answer: Result<Checked, Refusal>) -> (usize, usize) {
    let checked = answer.unwrap();
    (checked.words, checked.deepest)
}

fn completeness(answer: Result<Checked, Refusal>) -> (bool, usize) {
    let checked = answer.unwrap();
    (checked.complete, checked.gap)
}

// The term of B with so many levels: more(.. more(none)).
fn levels(n: usize) -> Vec<u8> {
    let mut term = vec![0];
    term.extend([1, 1].repeat(n - 1));
    term.extend([0, 0]);
    term
}

#[test]
fn wait_up_free_leaves_three_over() {
    let expected = [
        vec![0, 5, 0],
        vec![0, 0, 1, 2, 0],
        vec![0, 0, 3, 1, 0, 4, 0],
    ];
    assert_eq!(leftovers(&A, &WAIT_UP_FREE).unwrap(), expected);

    let mut out = [9; 20];
    let listed = list(&A, &WAIT_UP_FREE, &mut out).unwrap();
    assert_eq!((listed.entries, listed.bytes), (3, 15));
    assert_eq!(out[..15], expected.concat());
    assert_eq!(out[15..], [9; 5]);
    assert!(entries(&out[..15]).eq(expected.iter().map(Vec::as_slice)));
}

#[test]
fn room_is_measured() {
    let mut out = [9; 14];
    assert_eq!(numbers(list(&A, &WAIT_UP_FREE, &mut out)), (20, 3, 15));
    assert_eq!(out, [9; 14]);
    assert!(list(&A, &WAIT_UP_FREE, &mut [0; 15]).is_ok());
}

#[test]
fn other_listings() {
    assert_eq!(
        leftovers(&B, &[0, 1, 1, 1, 1, 0, 0]).unwrap(),
        [
            vec![0, 0, 0],
            vec![0, 1, 1, 0, 0],
            vec![0, 1, 1, 1, 1, 1, 0]
        ]
    );
    assert_eq!(leftovers(&C, &[0, 255]).unwrap(), Vec::<Vec<u8>>::new());
    // A name stays in the entries.
    assert_eq!(
        leftovers(&C, &[0, 2, 3, 0x80, 0, 0]).unwrap(),
        [
            vec![0, 0, 0],
            vec![0, 1, 0],
            vec![0, 2, 3, 0x80, 1, 0],
            vec![0, 2, 3, 0x80, 2, 0]
        ]
    );
    assert_eq!(numbers(leftovers(&C, &PAIR_N0_N0)), (18, 1, 4));
}

#[test]
fn matches() {
    let spans = match_pattern(&C, &PAIR_N0_N0, &PAIR_A_A).unwrap().unwrap();
    assert_eq!(spans.iter().collect::<Vec<_>>(), [(0, 3..5)]);
    assert_eq!(spans.table()[..4], [3, 2, 0, 0]);
    assert_eq!(match_pattern(&C, &PAIR_N0_N0, &PAIR_A_B), Ok(None));
    let spans = match_pattern(&C, &[0, 0x80], &PAIR_A_A).unwrap().unwrap();
    assert_eq!(spans.get(0), Some(1..7));
    assert_eq!(
        [spans.get(63), spans.get(64), spans.get(255)],
        [None, None, None]
    );
    // Name 63 is the last.
    let spans = match_pattern(&C, &[0, 0xbf], &PAIR_A_A).unwrap().unwrap();
    assert_eq!(spans.iter().collect::<Vec<_>>(), [(63, 1..7)]);

    let mut table = [9; 128];
    assert_eq!(
        match_into(&C, &PAIR_N0_N0, &PAIR_A_B, &mut table),
        Ok(false)
    );
    assert_eq!(table, [9; 128]);
}

#[test]
fn part_is_the_very_part() {
    let covered = part(&C, &PAIR_N0_N0, &PAIR_A_A, 0);
    assert_eq!(covered, [0, 0]);
    assert_eq!(covered.as_ptr(), PAIR_A_A[3..].as_ptr());
    assert_eq!(part(&C, &[0, 0x80], &PAIR_A_A, 0), &PAIR_A_A[1..]);
    assert_eq!(part(&C, &[0, 0xbf], &PAIR_A_A, 63), &PAIR_A_A[1..]);
    for (pattern, situation, name) in [
        (&PAIR_N0_N0[..], &PAIR_A_B[..], 0),
        (&PAIR_N0_N0, &PAIR_A_A, 1),
        (&PAIR_N0_N0, &PAIR_A_A, 64),
        (&PAIR_N0_N0, &PAIR_A_A, 128),
        (&PAIR_N0_N0, &PAIR_A_A, 255),
        (&PAIR_N0_N0, &[], 0),
        (&[], &PAIR_A_A, 0),
    ] {
        assert!(part(&C, pattern, situation, name).is_empty());
    }
}

#[test]
fn names_are_filled() {
    let mut out = [9; 10];
    assert_eq!(fill(&A, &WAIT_N0_N1, &UP_AND_FREE, &mut out), Ok(7));
    assert_eq!(out[..7], WAIT_UP_FREE);
    assert_eq!(out[7..], [9; 3]);
    assert_eq!(fill(&A, &WAIT_N0_N1, &UP_AND_FREE, &mut out[..7]), Ok(7));

    let mut out = [9; 6];
    let refused = numbers(fill(&A, &WAIT_N0_N1, &UP_AND_FREE, &mut out));
    assert_eq!((refused, out), ((20, 3, 7), [9; 6]));

    // A name that stands twice, open places, name 63, and no name.
    let n0_a = [1, 0, 0, 0, 0, 0, 0, 0, 0, 0];
    let n63_b = [0, 0, 0, 0, 0, 0, 0, 128, 1, 0];
    for (pattern, filling, result) in [
        (&PAIR_N0_N0[..], &n0_a[..], &PAIR_A_A[..]),
        (&[0, 2, 1, 0x80], &n0_a, &[0, 2, 1, 0, 0]),
        (&[0, 0xbf], &n63_b, &[0, 1, 0]),
        (&[0, 255], &[0; 8], &[0, 255]),
    ] {
        let mut out = vec![9; result.len()];
        assert_eq!(fill(&C, pattern, filling, &mut out), Ok(result.len()));
        assert_eq!(out, result);
    }
}

#[test]
fn a_match_gives_back_what_was_filled_in() {
    let mut out = [9; 7];
    let length = fill(&A, &WAIT_N0_N1, &UP_AND_FREE, &mut out).unwrap();
    assert_eq!(
        part(&A, &WAIT_N0_N1, &out[..length], 0),
        &UP_AND_FREE[8..10]
    );
    assert_eq!(part(&A, &WAIT_N0_N1, &out[..length], 1), &UP_AND_FREE[10..]);
}

#[test]
fn terms_are_counted() {
    assert_eq!(counted(check_term(&A, &WAIT_UP_FREE)), (3, 2));
    assert_eq!(counted(check_term(&C, &[0, 255])), (0, 1));
    assert_eq!(counted(check_term(&B, &levels(32))), (32, 32));
}

#[test]
fn complete_terms_show_their_length() {
    for (vocabulary, term) in [
        (&A[..], &WAIT_UP_FREE[..]),
        (&B, &levels(32)),
        (&C, &PAIR_A_B),
        (&C, &[0, 0, 0]),
    ] {
        let checked = completeness(check_term(vocabulary, term));
        assert_eq!(checked, (true, term.len()));
    }
}

#[test]
fn others_show_their_first_gap() {
    for (vocabulary, term, gap) in [
        // 255, a name as a whole pattern, the first of two, and one behind a word.
        (&C[..], &[0, 255][..], 1),
        (&C, &[0, 0x80], 1),
        (&A, &WAIT_N0_N1, 3),
        (&C, &[0, 2, 3, 1, 0, 0x80], 5),
        // A short map at the root, below it, above a name and behind one.
        (&C, &[0, 2, 1, 0, 0], 2),
        (&C, &[0, 2, 3, 0, 0, 2, 2, 0, 0], 6),
        (&C, &[0, 2, 2, 0x80], 2),
        (&C, &[0, 2, 3, 0x80, 2, 0], 3),
    ] {
        assert_eq!(completeness(check_term(vocabulary, term)), (false, gap));
        // As a situation it is refused at that place.
        let refused = numbers(match_pattern(vocabulary, &[0, 255], term));
        assert_eq!(refused, (16, 2, gap));
    }
}

#[test]
fn every_line_of_the_refusal_list() {
    assert_eq!(numbers(check_vocabulary(&[])), (1, 0, 0));
    assert_eq!(numbers(check_vocabulary(&[1, 97])), (2, 0, 1));
    assert_eq!(numbers(check_vocabulary(&[1, 1, 0])), (3, 0, 3));
    assert_eq!(numbers(check_vocabulary(&[1, 1, 1, 0])), (4, 0, 2));
    assert_eq!(numbers(check_vocabulary(&[1, 1, 0, 0, 0])), (5, 0, 4));
    // 6 is no longer given.
    assert_eq!(check_vocabulary(&[2, 1, 0, 0]), Ok(()));
    assert_eq!(numbers(check_term(&C, &[0])), (7, 1, 0));
    assert_eq!(numbers(check_term(&C, &[0; 4097])), (7, 1, 0));
    assert_eq!(numbers(check_term(&C, &[1, 0, 0])), (8, 1, 0));
    assert_eq!(numbers(check_term(&C, &[0, 2, 3])), (9, 1, 3));
    assert_eq!(numbers(check_term(&B, &levels(33))), (10, 1, 65));
    assert_eq!(numbers(check_term(&C, &[0, 3])), (11, 1, 1));
    assert_eq!(numbers(check_term(&A, &[1, 0, 0])), (12, 1, 1));
    assert_eq!(numbers(check_term(&A, &[0, 0, 3, 0x80, 0x80])), (13, 1, 4));
    assert_eq!(numbers(check_term(&C, &[0, 2, 4])), (14, 1, 2));
    assert_eq!(numbers(check_term(&C, &[0, 0, 0, 0])), (15, 1, 3));
    assert_eq!(
        numbers(match_pattern(&C, &[0, 255], &[0, 2, 1, 0, 0])),
        (16, 2, 2)
    );
    assert_eq!(
        numbers(match_pattern(&A, &[0, 255], &[1, 1, 0])),
        (17, 2, 0)
    );
    assert_eq!(numbers(list(&C, &PAIR_N0_N0, &mut [])), (18, 1, 4));
    assert_eq!(
        numbers(match_into(&C, &[0, 255], &PAIR_A_A, &mut [])),
        (19, 3, 0)
    );
    assert_eq!(numbers(list(&A, &WAIT_UP_FREE, &mut [])), (20, 3, 15));
    let unfilled = |v, p, f| numbers(fill(v, p, f, &mut []));
    assert_eq!(unfilled(&A, &WAIT_N0_N1, &UP_AND_FREE), (20, 3, 7));
    assert_eq!(unfilled(&A, &WAIT_N0_N1, &UP_AND_FREE[..7]), (21, 4, 0));
    assert_eq!(unfilled(&C, &[0, 0x85], &[0; 8]), (21, 4, 5));
    assert_eq!(unfilled(&A, &WAIT_N0_N1, &UP_AND_FREE[..11]), (22, 4, 11));
    let short_map = [1, 0, 0, 0, 0, 0, 0, 0, 2, 1, 0, 0];
    assert_eq!(unfilled(&C, &[0, 0x80], &short_map), (22, 4, 9));
    let map = [1, 0, 0, 0, 0, 0, 0, 0];
    let deep = [&map, &levels(32)[1..]].concat();
    assert_eq!(unfilled(&B, &[0, 0x80], &deep), (20, 3, 65));
    assert_eq!(unfilled(&B, &[0, 1, 1, 0x80], &deep), (23, 4, 0));
    let deeper = [&map, &levels(33)[1..]].concat();
    assert_eq!(unfilled(&B, &[0, 0x80], &deeper), (22, 4, 72));
    let unlisted = |v, b| numbers(list_book(v, b, &mut []));
    assert_eq!(unlisted(&C, &[]), (24, 5, 0));
    assert_eq!(unlisted(&A, &[2, 0, 255, 1, 255]), (25, 5, 3));
    let tree = (0..7).fold(vec![0, 0], |below, _| [&[2, 3], &*below, &below].concat());
    assert_eq!(unlisted(&C, &[&[1, 0], &*tree].concat()), (26, 5, 0));
}

#[test]
fn a_kind_without_situations() {
    // a, g(., kind 1) and h(.), where no word makes kind 1.
    let g = [2, 3, 0, 0, 0, 3, 0, 1, 0, 1, 0];
    assert_eq!(check_vocabulary(&g), Ok(()));
    assert_eq!(completeness(check_term(&g, &[0, 1, 1, 0, 0])), (false, 2));
    // g(a, _) leaves everything over, and a leaves h(_) over, but not g(_, _).
    assert_eq!(leftovers(&g, &[0, 1, 1, 0, 0]).unwrap(), [[0, 255]]);
    assert_eq!(numbers(list(&g, &[0, 1, 1, 0, 0], &mut [0; 1])), (20, 3, 2));
    assert_eq!(leftovers(&g, &[0, 0, 0]).unwrap(), [[0, 2, 0]]);
    assert_eq!(leftovers(&g, &[1, 255]).unwrap(), [[0; 0]; 0]);
    // A word over itself: there is nothing to be left over.
    let w = [1, 1, 0, 1, 0];
    for pattern in [&[0, 255][..], &[0, 0x80], &[0, 0, 0]] {
        assert_eq!(leftovers(&w, pattern).unwrap(), [[0; 0]; 0]);
    }
    let n0 = [1, 0, 0, 0, 0, 0, 0, 0, 0, 1, 0, 1];
    assert_eq!(numbers(fill(&w, &[0, 0x80], &n0, &mut [])), (22, 4, 12));
}

#[test]
fn refusals_are_told() {
    fn said<T: std::fmt::Debug>(answer: Result<T, Refusal>) -> String {
        answer.unwrap_err().to_string()
    }
    assert_eq!(
        said(list(&A, &WAIT_UP_FREE, &mut [])),
        "refused 20 3 15: the output is longer than the lent bytes (it takes 15 bytes)"
    );
    assert_eq!(
        said(list(&C, &PAIR_N0_N0, &mut [])),
        "refused 18 1 4: the name stands twice in a pattern to be listed (pattern, byte 4)"
    );
    assert_eq!(
        said(check_vocabulary(&[1, 1, 0, 1, 0, 0])),
        "refused 5 0 5: bytes follow the last record (vocabulary, byte 5)"
    );
    assert_eq!(
        said(match_pattern(&C, &[0, 255], &[0])),
        "refused 7 2 0: the term has fewer than 2 or more than 4,096 bytes (situation)"
    );
    assert_eq!(
        said(match_into(&C, &[0, 255], &PAIR_A_A, &mut [])),
        "refused 19 3 0: the table has not 128 numbers"
    );
    assert_eq!(
        said(fill(&C, &[0, 0x80], &[], &mut [])),
        "refused 21 4 0: the bit map has fewer than 8 bytes or differs from the pattern's names (filling file, short or name 0)"
    );
    assert_eq!(
        said(fill(&C, &[0, 0x85], &[0; 8], &mut [])),
        "refused 21 4 5: the bit map has fewer than 8 bytes or differs from the pattern's names (filling file, name 5)"
    );
    assert_eq!(
        said(fill(&C, &[0, 255], &[0; 9], &mut [])),
        "refused 22 4 8: a filling is no complete term of its name's kind within 32 levels, or bytes follow (filling file, byte 8)"
    );
}

#[test]
fn calls_run_at_the_same_time() {
    let threads = [(); 8].map(|()| {
        std::thread::spawn(|| {
            for _ in 0..1000 {
                assert_eq!(leftovers(&A, &WAIT_UP_FREE).unwrap().len(), 3);
                assert_eq!(part(&C, &PAIR_N0_N0, &PAIR_A_A, 0), [0, 0]);
                let of_pair_n0_b = [1, 0, 2, 3, 0x80, 1, 0];
                assert_eq!(
                    list_book(&C, &of_pair_n0_b, &mut [0; 16]).unwrap().entries,
                    4
                );
            }
        })
    });
    for thread in threads {
        thread.join().unwrap();
    }
}
