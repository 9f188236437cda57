//! Kinds without complete situations: the readings of the sentences about them.
//! Values are worked out from the sentences.

use reference::Reply;

/// a, g(., kind 1) and h(.); no word yields kind 1.
const G: &str = "02 03 00 00 00 03 00 01 00 01 00";
/// A word over itself.
const W: &str = "01 01 00 01 00";
/// A with print(printer), a step, and jam(printer), a queue, and no printer.
const A: &str = "04 08 00 03 01 02 01 00 01 00 02 00 02 00 00 00 00 01 03 02 01 03";
/// C with d(kind 1); no word yields kind 1.
const C: &str = "02 04 00 00 00 00 00 03 00 00 00 01 01";

fn bytes(hex: &str) -> Vec<u8> {
    let digits: Vec<u8> = hex
        .bytes()
        .filter(|b| !b.is_ascii_whitespace())
        .map(|b| (b as char).to_digit(16).unwrap() as u8)
        .collect();
    digits
        .chunks(2)
        .map(|pair| pair[0] << 4 | pair[1])
        .collect()
}

/// The first three numbers of a reply, whose others are 0.
fn three(reply: Reply) -> [u64; 3] {
    let [number, input, place, 0, 0] = reply else {
        panic!("{reply:?}");
    };
    [number, input, place]
}

/// The reply with so many bytes lent and what is written; the rest stays.
fn lent(length: usize, call: impl FnOnce(&mut [u8]) -> Reply) -> ([u64; 3], Vec<u8>) {
    let mut space = vec![0xee; length];
    let reply = three(call(&mut space));
    let written = if reply[0] == 0 { reply[2] as usize } else { 0 };
    assert!(space[written..].iter().all(|&byte| byte == 0xee));
    space.truncate(written);
    (reply, space)
}

/// The listing of a pattern; with a byte less lent it is refused.
fn listed(v: &[u8], p: &[u8]) -> (u64, Vec<u8>) {
    let ([number, entries, length], space) = lent(40_000, |out| reference::list(v, p, out));
    assert_eq!(number, 0);
    let exact = lent(length as usize, |out| reference::list(v, p, out));
    assert_eq!(exact, ([0, entries, length], space.clone()));
    for less in [1, length] {
        if (1..=length).contains(&less) {
            let short = lent((length - less) as usize, |out| reference::list(v, p, out));
            assert_eq!(short, ([20, 3, length], vec![]));
        }
    }
    (entries, space)
}

fn lists(v: &str, p: &str, entries: &[&str]) {
    let (count, listing) = listed(&bytes(v), &bytes(p));
    assert_eq!(listing, bytes(&entries.concat()), "{p}");
    assert_eq!(count, entries.len() as u64);
}

/// The entries that a book leaves, sorted, by both ways to list it.
fn left(v: &[u8], book: &[u8]) -> Vec<Vec<u8>> {
    let ways = [reference::list_book, reference::list_book_entrywise];
    let [one, other] = ways.map(|list_book| {
        let ([number, entries, length], space) = lent(40_000, |out| list_book(v, book, out));
        assert_eq!(number, 0);
        let exact = lent(length as usize, |out| list_book(v, book, out)).0;
        assert_eq!(exact, [0, entries, length]);
        if length > 0 {
            let short = lent(length as usize - 1, |out| list_book(v, book, out));
            assert_eq!(short, ([20, 3, length], vec![]));
        }
        let mut rest = &space[..];
        let mut all = Vec::new();
        while !rest.is_empty() {
            let (mut at, mut due) = (1, 1);
            while due > 0 {
                due -= 1;
                if rest[at] < 128 {
                    due += rest[at + 1].count_ones();
                    at += 1;
                }
                at += 1;
            }
            all.push(rest[..at].to_vec());
            rest = &rest[at..];
        }
        assert_eq!(all.len() as u64, entries);
        all.sort();
        all
    });
    assert_eq!(one, other);
    one
}

fn leaves(v: &str, patterns: &[&str], entries: &[&str]) {
    let mut book = vec![patterns.len() as u8];
    book.extend(bytes(&patterns.concat()));
    let mut expected: Vec<Vec<u8>> = entries.iter().map(|entry| bytes(entry)).collect();
    expected.sort();
    assert_eq!(left(&bytes(v), &book), expected, "{patterns:?}");
}

/// 16 kinds, each but the last with one word over the next; then this record,
/// and word 16, a constant of kind 0.
fn row(last: &str) -> String {
    let records: Vec<String> = (0..15)
        .map(|kind| format!("{kind:02x} 01 {:02x} ", kind + 1))
        .collect();
    format!("10 11 {} {last} 00 00", records.concat())
}

/// The full tree of pairs with so many levels.
fn pairs(levels: usize) -> Vec<u8> {
    match levels {
        1 => vec![0, 0],
        _ => [vec![2, 3], pairs(levels - 1), pairs(levels - 1)].concat(),
    }
}

#[test]
fn vocabularies_are_accepted() {
    let chained = row("0f 01 0f");
    for v in [G, W, A, C, "02 01 00 00", "10 01 0f 00", &chained] {
        assert_eq!(reference::check_vocabulary(&bytes(v)), [0; 5]);
    }
    assert_eq!(
        reference::check_vocabulary(&bytes("01 01 00 01 00 00"))[..3],
        [5, 0, 5]
    );
}

#[test]
fn terms_and_matches() {
    let term = |v, t| reference::check_term(&bytes(v), &bytes(t));
    assert_eq!(term(G, "00 01 01 00 00"), [0, 2, 2, 0, 2]);
    assert_eq!(term(G, "01 80"), [0, 0, 1, 0, 1]);
    assert_eq!(term(W, "00 00 01 00 00"), [0, 2, 2, 0, 4]);
    let matched = |p, s| {
        let mut table = [0; 128];
        let reply = reference::match_pattern(&bytes(G), &bytes(p), &bytes(s), &mut table);
        (three(reply), [table[0], table[1]])
    };
    // h(n0) with h(h(a)), g(a, .) with a, and situations of kind 1.
    assert_eq!(
        matched("00 02 01 80", "00 02 01 02 01 00 00"),
        ([0, 1, 0], [3, 4])
    );
    assert_eq!(matched("00 01 01 00 00", "00 00 00"), ([0; 3], [0; 2]));
    assert_eq!(matched("01 ff", "01 80"), ([16, 2, 1], [0; 2]));
    assert_eq!(matched("01 80", "00 00 00"), ([17, 2, 0], [0; 2]));
}

#[test]
fn any_alone_where_nothing_fits() {
    lists(G, "00 01 01 00 00", &["00 ff"]);
    for pattern in [
        "00 01 00",
        "00 01 02 80",
        "00 01 03 80 81",
        "00 02 01 01 00",
    ] {
        lists(G, pattern, &["00 ff"]);
    }
    lists(A, "00 06 00", &["00 ff"]);
    lists(A, "00 00 03 01 00 07 00", &["00 ff"]);
    lists(A, "02 07 01 80", &["02 ff"]);
    // Of 4,095 bytes, with d(.) at the end.
    let mut long = [vec![0], pairs(11)].concat();
    let end = long.len() - 2;
    long[end] = 3;
    assert_eq!(listed(&bytes(C), &long), (1, vec![0, 255]));
    // 18 comes before.
    let twice = |v, p| three(reference::list(&bytes(v), &bytes(p), &mut []));
    assert_eq!(twice(C, "00 02 03 02 03 80 80 03 00"), [18, 1, 6]);
    assert_eq!(twice("01 01 00 03 00 00", "00 00 03 80 80"), [18, 1, 4]);
}

#[test]
fn nothing_of_a_kind_without_situations() {
    for pattern in [
        "00 ff",
        "00 80",
        "00 00 00",
        "00 00 01 80",
        "00 00 01 00 00",
    ] {
        lists(W, pattern, &[]);
        leaves(W, &[pattern], &[]);
    }
    lists(G, "01 ff", &[]);
    lists(G, "01 80", &[]);
    leaves(G, &["01 ff", "01 80"], &[]);
    // Not the other word either.
    lists("01 02 00 01 00 00 01 00", "00 00 00", &[]);
    leaves("01 02 00 01 00 00 01 00", &["00 00 00"], &[]);
}

#[test]
fn entries_are_left_out() {
    lists(G, "00 00 00", &["00 02 00"]);
    lists(G, "00 02 00", &["00 00 00"]);
    lists(G, "00 02 01 00 00", &["00 00 00", "00 02 01 02 00"]);
    lists(
        G,
        "00 02 01 02 01 00 00",
        &["00 00 00", "00 02 01 00 00", "00 02 01 02 01 02 00"],
    );
    // The bench listing, and one with a name in a lower place.
    lists(
        A,
        "00 00 03 01 00 03 00",
        &["00 05 00", "00 00 01 02 00", "00 00 03 01 00 04 00"],
    );
    lists(A, "00 00 03 80 03 00", &["00 05 00", "00 00 03 80 04 00"]);
    lists(A, "02 03 00", &["02 04 00"]);
    // Every second of 96 words stands over kind 1.
    let mut v = vec![2, 96];
    v.extend([0, 0, 0, 1, 1].repeat(48));
    let expected: Vec<u8> = (1..48).flat_map(|n| [0, 2 * n, 0]).collect();
    assert_eq!(listed(&v, &[0, 0, 0]), (47, expected));
    assert_eq!(listed(&v, &[0, 95, 0]), (1, vec![0, 255]));
}

#[test]
fn kinds_through_others() {
    // Word 0 has situations of 16 levels; with a last word over itself, none.
    lists(&row("0f 00"), "00 10 00", &["00 00 00"]);
    lists(&row("0f 01 0f"), "00 10 00", &[]);
    lists(&row("0f 01 0f"), "00 00 00", &["00 ff"]);
    lists(&row("0f 01 0f"), "01 01 00", &[]);
    leaves(&row("0f 00"), &["00 10 00"], &["00 00 00"]);
    leaves(&row("0f 01 0f"), &["00 10 00"], &[]);
    leaves(&row("0f 01 0f"), &["00 00 00"], &["00 ff"]);
}

#[test]
fn a_pattern_that_nothing_fits_changes_no_book() {
    let (a, g, h, ha) = ("00 00 00", "00 01 01 00 00", "00 02 00", "00 02 01 00 00");
    leaves(G, &[g], &["00 ff"]);
    leaves(G, &["00 01 00", g, "00 01 03 80 81"], &["00 ff"]);
    leaves(G, &[g, a], &[h]);
    leaves(G, &[a, g], &[h]);
    leaves(G, &[a, g, ha], &["00 02 01 02 00"]);
    leaves(G, &["00 ff", g], &[]);
    leaves(G, &[g, "00 80"], &[]);
    // It has the words of an entry, which is kept.
    leaves(
        G,
        &[ha, "00 02 01 02 01 01 00"],
        &["00 00 00", "00 02 01 02 00"],
    );
    leaves(
        A,
        &[
            "00 00 03 01 00 03 00",
            "00 06 00",
            "00 00 01 02 00",
            "00 00 02 07 00",
        ],
        &["00 05 00", "00 00 03 01 00 04 00"],
    );
}

#[test]
fn entries_are_left_out_after_each_pattern() {
    leaves(G, &["00 00 00"], &["00 02 00"]);
    leaves(G, &["00 00 00", "00 02 00"], &[]);
    leaves(G, &["00 00 00", "00 02 01 00 00"], &["00 02 01 02 00"]);
    leaves(A, &["00 00 02 03 00", "00 05 00"], &["00 00 02 04 00"]);
    leaves(A, &["02 07 00", "02 03 00"], &["02 04 00"]);
}

#[test]
fn entries_left_out_do_not_count_for_26() {
    // 127 words: 2 (127 * 127 + 2 * 127) bytes for two other words each.
    let book = [vec![1, 0], pairs(7)].concat();
    let mut space = vec![0; 40_000];
    let reply = reference::list_book(&bytes(C), &book, &mut space);
    assert_eq!(reply, [0, 254, 32_766, 0, 0]);
    let all = "01 04 00 00 00 00 00 03 00 00 00 01 00";
    let reply = reference::list_book(&bytes(all), &book, &mut space);
    assert_eq!(reply, [26, 5, 0, 0, 0]);
    // 128 words are too many all the same.
    let book = [vec![1, 0, 2, 1], pairs(7)].concat();
    let reply = reference::list_book(&bytes(C), &book, &mut space);
    assert_eq!(reply, [26, 5, 0, 0, 0]);
    // Where the kind has no situation there is no entry, however long.
    let none = "01 03 00 01 00 00 01 00 00 03 00 00";
    let reply = reference::list_book(&bytes(none), &book, &mut []);
    assert_eq!(reply, [0; 5]);
}

#[test]
fn names_that_cannot_be_filled() {
    let refused = |v, p, f: &[u8]| {
        let mut out = [0xee; 100];
        let reply = three(reference::fill(&bytes(v), &bytes(p), f, &mut out));
        assert!(reply[0] == 0 || out == [0xee; 100]);
        reply
    };
    let n0 = [1, 0, 0, 0, 0, 0, 0, 0];
    let file = |fillings: &[u8]| [&n0, fillings].concat();
    assert_eq!(refused(W, "00 80", &n0), [22, 4, 8]);
    assert_eq!(refused(W, "00 80", &file(&[0, 0])), [22, 4, 9]);
    for levels in 1..=32 {
        let file = file(&[0, 1].repeat(levels));
        assert_eq!(refused(W, "00 80", &file), [22, 4, 8 + 2 * levels as u64]);
    }
    assert_eq!(refused(W, "00 80", &file(&[0, 1].repeat(33))), [22, 4, 72]);
    // n1 is of kind 1, and no word is.
    let both = [3, 0, 0, 0, 0, 0, 0, 0, 0, 0, 0, 0];
    assert_eq!(refused(G, "00 01 03 80 81", &both), [22, 4, 10]);
    assert_eq!(refused(G, "00 01 03 80 81", &both[..10]), [22, 4, 10]);
    assert_eq!(refused(G, "00 01 01 80", &file(&[0, 0])), [0, 5, 0]);
    assert_eq!(refused(W, "00 ff", &[0; 8]), [0, 2, 0]);
}

#[test]
fn the_program() {
    let printed = |v: &str, p: &str| {
        let (v, p) = (bytes(v), bytes(p));
        let input = [vec![0, v.len() as u8], v, p].concat();
        String::from_utf8(reference::leftovers(&input)).unwrap()
    };
    for pattern in ["00 ff", "00 80", "00 00 00"] {
        assert_eq!(printed(W, pattern), "leftovers 0\n");
    }
    assert_eq!(printed(G, "00 01 01 00 00"), "leftovers 1\n1 00ff\n");
    assert_eq!(
        printed(A, "00 00 03 01 00 03 00"),
        "leftovers 3\n1 000500\n2 0000010200\n3 00000301000400\n"
    );
}
