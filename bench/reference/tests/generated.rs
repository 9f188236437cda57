//! Generated cases: how often each reply occurs, and the same replies from
//! the plain version.

mod plain;

use reference::generate::Gen;
use reference::Reply;
use std::collections::HashMap;

/// The replies of a match.
const YES: Reply = [0, 1, 0, 0, 0];
const NO: Reply = [0; 5];

#[test]
fn every_reply_occurs() {
    let mut gen = Gen::new(1);
    let mut seen: HashMap<(&str, u64), usize> = HashMap::new();
    let (mut yes, mut no, mut listed, mut repeated, mut instance) = (0, 0, 0, 0, 0);
    let (mut bytes, mut largest) = (0, 0);
    let cases = 100_000;
    for _ in 0..cases {
        let case = gen.case();
        let v = &case.vocabulary;
        let mut count = |call, number| *seen.entry((call, number)).or_default() += 1usize;
        count("vocabulary", reference::check_vocabulary(v)[0]);
        count("term", reference::check_term(v, &case.pattern)[0]);
        let mut table = vec![case.table_fill; case.table_len];
        let reply = reference::match_pattern(v, &case.pattern, &case.situation, &mut table);
        count("match", reply[0]);
        if reply[0] == 0 && reply[1] == 1 {
            yes += 1;
        }
        if reply[0] == 0 && reply[1] == 0 {
            no += 1;
        }
        let reply = reference::part(v, &case.pattern, &case.situation, case.name);
        assert_eq!(reply[0], 0);
        instance += (reply[2] != 0) as usize;
        let mut out = vec![case.out_fill; case.out_len];
        let reply = reference::list(v, &case.pattern, &mut out);
        count("list", reply[0]);
        repeated += (reply[0] == 18) as usize;
        if reply[0] == 0 {
            listed += 1;
            bytes += reply[2];
            largest = largest.max(reply[2]);
        }
        let mut out = vec![case.out_fill; case.result_len];
        let reply = reference::fill(v, &case.pattern, &case.filling, &mut out);
        count("fill", reply[0]);
    }
    let mut rows: Vec<_> = seen.iter().collect();
    rows.sort();
    for ((call, number), times) in &rows {
        println!("{call} {number}: {times}");
    }
    println!("yes {yes}, no {no}, parts {instance}, listed {listed}, repeated {repeated}");
    println!("listed bytes {bytes}, largest {largest}");
    let of = |call, number| seen.get(&(call, number)).copied().unwrap_or(0);
    for number in 1..=5 {
        assert!(of("vocabulary", number) >= 100, "{number}");
    }
    assert!(rows.iter().all(|((_, number), _)| *number != 6));
    for number in 7..=15 {
        assert!(of("term", number) >= 100, "term {number}");
        assert!(
            of("match", number) > of("term", number),
            "situation {number}"
        );
    }
    for number in [16, 17, 19] {
        assert!(of("match", number) >= 500, "{number}");
    }
    for number in [18, 20] {
        assert!(of("list", number) >= 2000, "{number}");
    }
    for number in [20, 21, 22, 23] {
        assert!(of("fill", number) >= 1000, "{number}");
    }
    assert!(of("fill", 0) >= 30_000);
    assert!(yes >= 30_000 && no >= 15_000 && listed >= 40_000 && repeated >= 8_000);
    assert!(instance >= 10_000);
}

/// How often a property holds, over a number of cases.
#[test]
fn boundaries_occur() {
    let mut gen = Gen::new(3);
    let mut times: HashMap<&str, usize> = HashMap::new();
    for _ in 0..100_000 {
        let case = gen.case();
        let (v, pattern, situation) = (&case.vocabulary, &case.pattern, &case.situation);
        let mut count = |what, holds: bool| *times.entry(what).or_default() += holds as usize;
        count("table of 0", case.table_len == 0);
        count("table of 127", case.table_len == 127);
        count("table of 129", case.table_len == 129);
        count("name above 63", case.name > 63);
        if reference::check_vocabulary(v)[0] != 0 {
            count("17 kinds", v.first() == Some(&17));
            count("97 words", v.get(1) == Some(&97));
            count("962 bytes", v.len() == 962);
            count("970 bytes", v.len() == 970);
            continue;
        }
        count("1 kind", v[0] == 1);
        count("16 kinds", v[0] == 16);
        count("1 word", v[1] == 1);
        count("96 words", v[1] == 96);
        count("900 bytes or more", v.len() >= 900);
        count("954 bytes", v.len() == 954);
        count("962 bytes, accepted", v.len() == 962);
        let read = plain::vocabulary(v).unwrap();
        let emptied = read.inhabited.contains(&false);
        count("an empty kind", emptied);
        count(
            "16 kinds, 12 of them empty or more",
            v[0] == 16 && read.inhabited.iter().filter(|&&yes| yes).count() <= 4,
        );
        count("no kind with situations", !read.inhabited.contains(&true));
        let reply = reference::check_term(v, pattern);
        count("pattern 4097", pattern.len() == 4097);
        count("pattern 1", pattern.len() == 1);
        if reply[0] == 10 {
            count("level 33", true);
        }
        if reply[0] != 0 {
            continue;
        }
        count("pattern 2", pattern.len() == 2);
        count("pattern 3", pattern.len() == 3);
        count("pattern 4095", pattern.len() == 4095);
        count("pattern 4096", pattern.len() == 4096);
        count("pattern 1000 or more", pattern.len() >= 1000);
        count("level 31", reply[2] == 31);
        count("level 32", reply[2] == 32);
        let (complete, gap) = (reply[3] == 1, reply[4] as usize);
        count("complete", complete);
        count("complete, 1000 or more", complete && gap >= 1000);
        count(
            "gap at 1, a name",
            !complete && gap == 1 && pattern[1] != 255,
        );
        count("gap at 2", !complete && gap == 2);
        count("gap at 1000 or more", !complete && gap >= 1000);
        count(
            "gap at the last byte",
            !complete && gap + 1 == pattern.len(),
        );
        let reply = reference::match_pattern(v, pattern, situation, &mut [0; 128]);
        count("no, over 1000", reply == NO && situation.len() > 1000);
        count("yes, over 1000", reply == YES && situation.len() > 1000);
        count("yes, 4095", reply == YES && situation.len() == 4095);
        count("yes, both over 1000", {
            reply == YES && situation.len() > 1000 && pattern.len() > 1000
        });
        let file = &case.filling;
        let named = file.iter().take(8).any(|&byte| byte != 0);
        let reply = reference::fill(v, pattern, file, &mut []);
        count("fill 21, short", reply[0] == 21 && file.len() < 8);
        count("fill 21, above 31", reply[0] == 21 && reply[2] > 31);
        count("fill 22, bare map", reply[0] == 22 && !named);
        let last = file.len() as u64;
        count("fill 22, at the end", reply[0] == 22 && reply[2] == last);
        count("fill 22, behind 4096", reply[0] == 22 && reply[2] > 4096);
        count(
            "fill 22, one byte behind",
            reply[0] == 22 && reply[2] + 1 == last,
        );
        count("fill 23, long file", reply[0] == 23 && last > 4104);
        count(
            "fill 23, short file",
            reply[0] == 23 && pattern.len() as u64 + last < 200,
        );
        count("fill, name repeated", {
            reply[0] == 20 && reference::list(v, pattern, &mut [])[0] == 18
        });
        if reply[0] == 20 {
            let exact = reply[2] as usize;
            let mut result = vec![0; exact];
            assert_eq!(
                reference::fill(v, pattern, file, &mut result),
                [0, reply[2], 0, 0, 0]
            );
            count("fill, 4095", exact == 4095);
            count("fill, over 4000", exact > 4000);
            count("fill, exact", case.result_len == exact);
            count("fill, one less", case.result_len + 1 == exact);
            count("fill, one more", case.result_len == exact + 1);
            let checked = reference::check_term(v, &result);
            assert_eq!(checked[0], 0);
            count("fill, level 32", checked[2] == 32 && named);
            let matched = reference::match_pattern(v, pattern, &result, &mut [0; 128]);
            assert!(matched == YES || matched[0] == 16);
            count("fill, complete", matched[0] == 0 && named);
            count("fill, open places", matched[0] == 16 && named);
        }
        let reply = reference::list(v, pattern, &mut []);
        let mut space = vec![
            0;
            if emptied && reply[0] == 20 {
                reply[2] as usize
            } else {
                0
            }
        ];
        reference::list(v, pattern, &mut space);
        let alone = space == [pattern[0], 255];
        let kind = read.inhabited[pattern[0] as usize];
        count("any alone", alone);
        count("any alone, no space", alone && case.out_len == 0);
        count("any alone, 1000 or more", alone && pattern.len() >= 1000);
        count("listed beside an empty kind", emptied && space.len() > 2);
        count("listed, of an empty kind", !kind && reply == [0; 5]);
        count("18, of an empty kind", !kind && reply[0] == 18);
        let matched = reference::match_pattern(v, pattern, situation, &mut [0; 128]);
        count("any alone, and no", alone && matched == NO);
        count("yes beside an empty kind", emptied && matched == YES);
        count("18", reply[0] == 18);
        count("18 and yes", {
            reply[0] == 18 && reference::match_pattern(v, pattern, situation, &mut [0; 128]) == YES
        });
        count("18 and no", {
            reply[0] == 18 && reference::match_pattern(v, pattern, situation, &mut [0; 128]) == NO
        });
        if reply[0] == 20 {
            let exact = reply[2] as usize;
            count("exact", case.out_len == exact);
            count("one less", case.out_len + 1 == exact);
            count("one more", case.out_len == exact + 1);
            count("no space", case.out_len == 0);
            count("much more", case.out_len > exact + 50_000);
            count(
                "exact, over 100000",
                case.out_len == exact && exact > 100_000,
            );
        }
    }
    let mut rows: Vec<_> = times.into_iter().collect();
    rows.sort();
    for (what, times) in rows {
        println!("{what}: {times}");
        assert!(times >= 10, "{what}: {times}");
    }
}

#[test]
fn same_as_plain() {
    same(2, 30_000);
}

#[test]
#[ignore = "takes minutes"]
fn same_as_plain_many() {
    for seed in 100..104 {
        same(seed, 30_000);
    }
}

fn same(seed: u64, cases: usize) {
    let mut gen = Gen::new(seed);
    for _ in 0..cases {
        let case = gen.case();
        let (v, pattern, situation) = (&case.vocabulary, &case.pattern, &case.situation);
        assert_eq!(reference::check_vocabulary(v), plain::check_vocabulary(v));
        assert_eq!(
            reference::check_term(v, pattern),
            plain::check_term(v, pattern)
        );
        assert_eq!(
            reference::check_term(v, situation),
            plain::check_term(v, situation)
        );
        let mut one = vec![case.table_fill; case.table_len];
        let mut two = one.clone();
        assert_eq!(
            reference::match_pattern(v, pattern, situation, &mut one),
            plain::match_pattern(v, pattern, situation, &mut two),
            "{case:?}"
        );
        assert_eq!(one, two);
        for name in [case.name, 0, 63, 64] {
            assert_eq!(
                reference::part(v, pattern, situation, name),
                plain::part(v, pattern, situation, name),
            );
        }
        let mut one = vec![case.out_fill; case.result_len];
        let mut two = one.clone();
        assert_eq!(
            reference::fill(v, pattern, &case.filling, &mut one),
            plain::fill(v, pattern, &case.filling, &mut two),
            "{case:?}"
        );
        assert_eq!(one, two);
        if reference::list(v, pattern, &mut [])[2] > 1 << 15 {
            continue;
        }
        let mut one = vec![case.out_fill; case.out_len];
        let mut two = one.clone();
        assert_eq!(
            reference::list(v, pattern, &mut one),
            plain::list(v, pattern, &mut two),
            "{case:?}"
        );
        assert_eq!(one, two);
        let input = gen.input(&case);
        assert_eq!(
            reference::leftovers(&input),
            plain::program(&input).into_bytes()
        );
    }
}

#[test]
fn every_reply_to_books_occurs() {
    let mut gen = Gen::new(6);
    let mut seen: HashMap<u64, usize> = HashMap::new();
    let mut times: HashMap<&str, usize> = HashMap::new();
    for _ in 0..60_000 {
        let case = gen.book_case();
        let mut count = |what, holds: bool| *times.entry(what).or_default() += holds as usize;
        let mut out = vec![case.out_fill; case.out_len];
        let reply = reference::list_book(&case.vocabulary, &case.book, &mut out);
        let [number, _, place, ..] = reply;
        *seen.entry(number).or_default() += 1;
        let last = case.book.len() as u64;
        count("7 at the end", number == 7 && place == last);
        count("7, one byte", number == 7 && place + 1 == last);
        count("7, the 4,097th byte", number == 7 && place + 1 < last);
        count("18 behind the first pattern", number == 18 && place > 40);
        count("24, none", number == 24 && last == 0);
        count("24, 65", number == 24 && case.book.first() == Some(&65));
        count("26 at once", number == 26 && place == 0);
        count("26 later", number == 26 && place > 0);
        count(
            "26 at the tenth pattern or later",
            number == 26 && place > 8,
        );
        let listing = reference::list_book(&case.vocabulary, &case.book, &mut []);
        if ![0, 20].contains(&listing[0]) {
            continue;
        }
        let exact = listing[2] as usize;
        let read = plain::vocabulary(&case.vocabulary).unwrap();
        let emptied = read.inhabited.contains(&false);
        let kind = read.inhabited[case.book[1] as usize];
        count("of an empty kind", !kind && exact == 0);
        count("beside an empty kind", emptied && exact > 2);
        count(
            "beside an empty kind, nothing",
            emptied && kind && exact == 0,
        );
        count("beside an empty kind, over 1,000", emptied && exact > 1000);
        count("any is kept", exact == 2);
        count("any is kept, no space", exact == 2 && case.out_len == 0);
        count("any is kept, several", exact == 2 && case.book[0] > 2);
        count("exact", exact > 0 && case.out_len == exact);
        count("one less", case.out_len + 1 == exact);
        count("one more", exact > 0 && case.out_len == exact + 1);
        count("no space", exact > 0 && case.out_len == 0);
        count("nothing left", exact == 0 && case.book[0] > 1);
        count("64 patterns", exact > 0 && case.book[0] == 64);
        count("30 patterns or more", exact > 0 && case.book[0] >= 30);
        count("over 10,000 bytes", exact > 10_000);
        count("over 30,000 bytes", exact > 30_000);
        count("32,768 bytes", exact == 32_768);
        count(
            "a long book that leaves little",
            last > 4000 && exact < 1000,
        );
        if reply[0] == 0 && exact > 1000 {
            let all = sorted(&out[..exact], reply[1]);
            let longest = all.iter().map(Vec::len).max();
            count("an entry of over 1,000 bytes", longest > Some(1000));
            count("an entry of 4,095 bytes", longest == Some(4095));
        }
    }
    let mut rows: Vec<_> = seen.iter().collect();
    rows.sort();
    println!("{rows:?}");
    assert!(!seen.contains_key(&6));
    for number in (0..6).chain(7..16).chain([18, 20, 24, 25, 26]) {
        let times = seen.get(&number).copied().unwrap_or(0);
        assert!(times >= 40, "{number}: {times}");
    }
    let mut rows: Vec<_> = times.into_iter().collect();
    rows.sort();
    for (what, times) in rows {
        println!("{what}: {times}");
        assert!(times >= 10, "{what}: {times}");
    }
}

/// The entries of a listing, sorted.
fn sorted(mut listing: &[u8], entries: u64) -> Vec<Vec<u8>> {
    let mut all = Vec::new();
    for _ in 0..entries {
        let (mut at, mut due) = (1, 1);
        while due > 0 {
            due -= 1;
            if listing[at] < 128 {
                due += listing[at + 1].count_ones();
                at += 1;
            }
            at += 1;
        }
        all.push(listing[..at].to_vec());
        listing = &listing[at..];
    }
    assert!(listing.is_empty());
    all.sort();
    all
}

#[test]
fn same_books_as_plain() {
    same_books(4, 30_000, plain::list_book);
}

#[test]
fn same_books_entry_by_entry() {
    same_books(5, 30_000, reference::list_book_entrywise);
}

#[test]
#[ignore = "takes minutes"]
fn same_books_as_plain_many() {
    for seed in 200..204 {
        same_books(seed, 100_000, plain::list_book);
    }
}

fn same_books(seed: u64, cases: usize, list_book: fn(&[u8], &[u8], &mut [u8]) -> Reply) {
    let mut gen = Gen::new(seed);
    for _ in 0..cases {
        let case = gen.book_case();
        let mut one = vec![case.out_fill; case.out_len];
        let mut two = one.clone();
        let reply = reference::list_book(&case.vocabulary, &case.book, &mut one);
        let other = list_book(&case.vocabulary, &case.book, &mut two);
        assert_eq!(reply, other, "{case:?}");
        if reply[0] != 0 {
            assert_eq!(one, two);
            continue;
        }
        let (listing, behind) = one.split_at(reply[2] as usize);
        let (other, same) = two.split_at(reply[2] as usize);
        let (ours, theirs) = (sorted(listing, reply[1]), sorted(other, reply[1]));
        assert_eq!(ours, theirs, "{case:?}");
        assert_eq!(behind, same);
        assert!(behind.iter().all(|&byte| byte == case.out_fill));
    }
}
