//! Times each call on small and large inputs.

use reference::{check_term, check_vocabulary, fill, leftovers, list, list_book};
use reference::{match_pattern, part};
use std::hint::black_box;
use std::time::Instant;

/// The least time of a call in nanoseconds, over many short rounds.
fn time(what: &str, mut call: impl FnMut() -> u64) {
    let start = Instant::now();
    let mut calls = 0u64;
    while start.elapsed().as_micros() < 2_000 {
        black_box(call());
        calls += 1;
    }
    let each = (calls / 60).max(1);
    let mut least = f64::MAX;
    for _ in 0..if each == 1 { 100 } else { 1000 } {
        let start = Instant::now();
        for _ in 0..each {
            black_box(call());
        }
        least = least.min(start.elapsed().as_nanos() as f64 / each as f64);
    }
    println!("{what:44} {least:12.1} ns");
}

/// A complete term of so many bytes at most, with two places a word.
fn tree(out: &mut Vec<u8>, level: usize, spare: &mut usize, word: u8, leaf: u8) {
    if level < 32 && *spare >= 4 {
        *spare -= 4;
        out.extend([word, 3]);
        let mut half = *spare / 2;
        *spare -= half;
        tree(out, level + 1, &mut half, word, leaf);
        *spare += half;
        tree(out, level + 1, spare, word, leaf);
    } else {
        out.extend([leaf, 0]);
    }
}

/// The same, with words, sizes and leaves by chance.
fn rough(
    out: &mut Vec<u8>,
    level: usize,
    spare: &mut usize,
    seed: &mut u64,
    words: &[(u8, u8)],
    leaves: &[u8],
) {
    *seed = seed
        .wrapping_mul(6364136223846793005)
        .wrapping_add(1442695040888963407);
    let chance = (*seed >> 33) as usize;
    let (word, map) = words[chance % words.len()];
    let places = map.count_ones() as usize;
    if level < 32 && *spare >= 2 * places && (level < 4 || (chance / 64) & 3 != 0) {
        *spare -= 2 * places;
        out.extend([word, map]);
        for place in 0..places {
            let mut share = *spare / (places - place);
            *spare -= share;
            rough(out, level + 1, &mut share, seed, words, leaves);
            *spare += share;
        }
    } else {
        out.extend([leaves[chance / 256 % leaves.len()], 0]);
    }
}

fn main() {
    let a = [3, 6, 0, 3, 1, 2, 1, 0, 1, 0, 2, 0, 2, 0, 0, 0u8];
    let b = [1, 2, 0, 0, 0, 1, 0u8];
    let c = [1, 3, 0, 0, 0, 0, 0, 3, 0, 0u8];
    // 96 words over 16 kinds: leaves, pairs and words with eight places.
    let mut d = vec![16u8, 96];
    for word in 0..96u8 {
        let kind = word % 16;
        d.push(kind);
        match word / 16 {
            0 => d.push(0),
            1 => d.extend([3, kind, (kind + 1) % 16]),
            2 => d.extend([0x90, kind, kind]),
            3 => d.extend([255, 0, 1, 2, 3, 4, 5, 6, 7]),
            4 => d.extend([1, kind]),
            _ => d.push(0),
        }
    }
    // 96 words of one kind: leaves 0 to 47, pairs 48 to 79, eights 80 to 95.
    let mut e = vec![1u8, 96];
    for word in 0..96u8 {
        e.push(0);
        match word {
            0..=47 => e.push(0),
            48..=79 => e.extend([3, 0, 0]),
            _ => e.extend([255, 0, 0, 0, 0, 0, 0, 0, 0]),
        }
    }
    // A chain of 16 kinds in the order that takes longest to settle.
    let mut f = vec![16u8, 16];
    for kind in 0..16u8 {
        if kind == 15 {
            f.extend([15, 0]);
        } else {
            f.extend([kind, 1, kind + 1]);
        }
    }
    let mut table = [0u16; 128];
    let mut out = vec![0u8; 1 << 24];

    println!("vocabularies");
    for (what, v) in [
        ("A", &a[..]),
        ("C", &c),
        ("D, 96 words", &d),
        ("E, 96 words", &e),
        ("F, chain", &f),
    ] {
        assert_eq!(check_vocabulary(v)[0], 0);
        time(&format!("check {what} ({} bytes)", v.len()), || {
            check_vocabulary(black_box(v))[0]
        });
    }

    println!("small");
    let wait = [0, 0, 3, 1, 0, 3, 0u8];
    time("check term, A wait(up, free)", || {
        check_term(black_box(&a), black_box(&wait))[1]
    });
    time("match, A wait(up, free)", || {
        match_pattern(
            black_box(&a),
            black_box(&wait),
            black_box(&wait),
            &mut table,
        )[1]
    });
    let pair = [0, 2, 3, 128, 128u8];
    let same = [0, 2, 3, 0, 0, 0, 0u8];
    let other = [0, 2, 3, 0, 0, 1, 0u8];
    time("match, C pair(n0, n0) yes", || {
        match_pattern(
            black_box(&c),
            black_box(&pair),
            black_box(&same),
            &mut table,
        )[1]
    });
    time("match, C pair(n0, n0) no", || {
        match_pattern(
            black_box(&c),
            black_box(&pair),
            black_box(&other),
            &mut table,
        )[1]
    });
    time("part, C pair(n0, n0)", || {
        part(
            black_box(&c),
            black_box(&pair),
            black_box(&same),
            black_box(0),
        )[1]
    });
    time("list, A wait(up, free)", || {
        list(black_box(&a), black_box(&wait), black_box(&mut out[..15]))[1]
    });
    time("list, B more(more(none))", || {
        list(
            black_box(&b),
            black_box(&[0, 1, 1, 1, 1, 0, 0]),
            black_box(&mut out[..15]),
        )[1]
    });
    time("list, C 255", || {
        list(
            black_box(&c),
            black_box(&[0, 255]),
            black_box(&mut out[..15]),
        )[1]
    });
    time("check term, D 255", || {
        check_term(black_box(&d), black_box(&[0, 255]))[1]
    });
    time("fill, A wait(n0, n1)", || {
        fill(
            black_box(&a),
            black_box(&[0, 0, 3, 128, 129]),
            black_box(&[3, 0, 0, 0, 0, 0, 0, 0, 1, 0, 3, 0]),
            black_box(&mut out[..7]),
        )[1]
    });
    time("fill, C pair(n0, n0)", || {
        fill(
            black_box(&c),
            black_box(&pair),
            black_box(&[1, 0, 0, 0, 0, 0, 0, 0, 0, 0]),
            black_box(&mut out[..7]),
        )[1]
    });
    let mut input = vec![0, 16];
    input.extend(a);
    input.extend(wait);
    time("program, A wait(up, free)", || {
        leftovers(black_box(&input)).len() as u64
    });

    println!("large");
    let mut even = vec![0u8];
    tree(&mut even, 1, &mut 4092, 2, 0);
    let mut seed = 1;
    let mut uneven = vec![0u8];
    rough(&mut uneven, 1, &mut 4092, &mut seed, &[(2, 3)], &[0, 1]);
    let mut wide = vec![0u8];
    rough(
        &mut wide,
        1,
        &mut 4092,
        &mut seed,
        &[(90, 255), (91, 255), (85, 255), (50, 3), (60, 3), (70, 3)],
        &[0, 7, 9, 47],
    );
    let mut deep = vec![0u8];
    for _ in 0..31 {
        deep.extend([1, 1]);
    }
    deep.extend([0, 0]);
    for (what, v, t) in [
        ("C even", &c[..], &even),
        ("C uneven", &c, &uneven),
        ("E wide", &e, &wide),
        ("B deep", &b, &deep),
    ] {
        let n = t.len();
        assert_eq!(check_term(v, t)[0], 0, "{what}");
        time(&format!("check term, {what} ({n})"), || {
            check_term(black_box(v), black_box(t))[1]
        });
        assert_eq!(match_pattern(v, t, t, &mut table)[..2], [0, 1]);
        time(&format!("match, {what} with itself ({n})"), || {
            match_pattern(black_box(v), black_box(t), black_box(t), &mut table)[1]
        });
        assert_eq!(match_pattern(v, &[0, 128], t, &mut table)[..2], [0, 1]);
        time(&format!("match, {what} with a name ({n})"), || {
            match_pattern(black_box(v), black_box(&[0, 128]), black_box(t), &mut table)[1]
        });
        // Every other leaf a name, the same for the same leaf.
        let (mut named, mut some) = (vec![0u8], false);
        let mut opened = vec![0u8];
        let mut at = 1;
        while at < t.len() {
            if t[at + 1] == 0 && some {
                named.push(128 + t[at] % 64);
            } else {
                named.extend([t[at], t[at + 1]]);
            }
            some = !some;
            at += 2;
        }
        opened.extend([t[1], 0]);
        assert_eq!(match_pattern(v, &named, t, &mut table)[..2], [0, 1]);
        time(
            &format!("match, {what} with named leaves ({})", named.len()),
            || match_pattern(black_box(v), black_box(&named), black_box(t), &mut table)[1],
        );
        time(
            &format!("part, {what} with named leaves ({})", named.len()),
            || part(black_box(v), black_box(&named), black_box(t), black_box(0))[1],
        );
        assert_eq!(match_pattern(v, &opened, t, &mut table)[..2], [0, 1]);
        time(&format!("match, {what} with open places"), || {
            match_pattern(black_box(v), black_box(&opened), black_box(t), &mut table)[1]
        });
        let need = list(v, t, &mut [])[2];
        time(&format!("list, {what}, refused for space ({need})"), || {
            list(black_box(v), black_box(t), black_box(&mut []))[2]
        });
        if need as usize <= out.len() {
            let reply = list(v, t, &mut out);
            time(
                &format!("list, {what} ({} entries, {need} bytes)", reply[1]),
                || list(black_box(v), black_box(t), black_box(&mut out))[2],
            );
        }
    }
    // pair(n0, n0) with two large equal terms.
    let mut half = vec![];
    tree(&mut half, 2, &mut 2040, 2, 1);
    let mut twice = vec![0, 2, 3];
    twice.extend(&half);
    twice.extend(&half);
    assert_eq!(match_pattern(&c, &pair, &twice, &mut table)[..2], [0, 1]);
    time(&format!("match, C pair(n0, n0) ({})", twice.len()), || {
        match_pattern(
            black_box(&c),
            black_box(&pair),
            black_box(&twice),
            &mut table,
        )[1]
    });
    let mut long = vec![1, 0, 0, 0, 0, 0, 0, 0u8];
    long.extend(&half);
    let length = twice.len();
    assert_eq!(fill(&c, &pair, &long, &mut out)[1], length as u64);
    time(&format!("fill, C pair(n0, n0) ({length})"), || {
        fill(
            black_box(&c),
            black_box(&pair),
            black_box(&long),
            black_box(&mut out),
        )[1]
    });
    // A full tree of names, n0 alone and 64 by turns, with a word for each.
    for names in [1, 64] {
        let mut pattern = vec![0u8];
        fn leaves(pattern: &mut Vec<u8>, levels: usize, next: &mut u8, names: u8) {
            if levels == 1 {
                pattern.push(128 + *next % names);
                *next = (*next + 1) % 64;
            } else {
                pattern.extend([2, 3]);
                leaves(pattern, levels - 1, next, names);
                leaves(pattern, levels - 1, next, names);
            }
        }
        leaves(&mut pattern, 11, &mut 0, names);
        let mut file = if names == 1 {
            vec![1, 0, 0, 0, 0, 0, 0, 0]
        } else {
            vec![255; 8]
        };
        file.resize(8 + 2 * names as usize, 0);
        assert_eq!(fill(&c, &pattern, &file, &mut out)[..2], [0, 4095]);
        let n = pattern.len();
        time(&format!("fill, C {names} names ({n} to 4095)"), || {
            fill(
                black_box(&c),
                black_box(&pattern),
                black_box(&file),
                black_box(&mut out),
            )[1]
        });
    }
    let mut part_open = vec![0u8];
    rough(
        &mut part_open,
        1,
        &mut 500,
        &mut seed,
        &[(90, 255), (91, 255), (85, 255), (50, 3), (60, 3)],
        &[0, 7, 9, 47],
    );
    let reply = list(&e, &part_open, &mut out);
    assert_eq!(reply[0], 0);
    time(
        &format!("list, E wide ({} entries, {} bytes)", reply[1], reply[2]),
        || list(black_box(&e), black_box(&part_open), black_box(&mut out))[2],
    );
    let mut short = vec![0u8];
    rough(
        &mut short,
        1,
        &mut 24,
        &mut seed,
        &[(90, 255)],
        &[0, 7, 9, 47],
    );
    let reply = list(&e, &short, &mut out);
    assert_eq!(reply[0], 0);
    time(
        &format!("list, E short ({} entries, {} bytes)", reply[1], reply[2]),
        || list(black_box(&e), black_box(&short), black_box(&mut out))[2],
    );
    let flat = vec![0u8, 16, 3, 0, 0, 1, 0];
    let reply = list(&d, &flat, &mut out);
    assert_eq!(reply[0], 0, "{reply:?}");
    time(
        &format!("list, D pair ({} entries, {} bytes)", reply[1], reply[2]),
        || list(black_box(&d), black_box(&flat), black_box(&mut out))[2],
    );

    books(&a, &c, &e, &mut out);
}

/// A term of words that are each alone in their kind, with eight places each.
fn lone(out: &mut Vec<u8>, word: u8, spare: &mut usize) {
    let map = out.len() + 1;
    out.extend([word, 0]);
    for place in 0..8 {
        if word < 5 && *spare >= 2 {
            *spare -= 2;
            out[map] |= 1 << place;
            lone(out, word + 1, spare);
        }
    }
}

fn books(a: &[u8], c: &[u8], e: &[u8], out: &mut [u8]) {
    println!("books");
    let two = vec![2, 0, 0, 3, 1, 0, 3, 0, 0, 0, 1, 2, 0];
    let pairs = |count: u8| {
        let mut book = vec![count];
        for number in (0..count).map(|number| number.wrapping_mul(7) % 64) {
            book.extend([0, 50, 3, number / 8, 0, 8 + number % 8, 0]);
        }
        book
    };
    let mut one = vec![1, 0];
    tree(&mut one, 1, &mut 252, 2, 0);
    // A pattern and all that it leaves.
    let mut short = vec![0];
    tree(&mut short, 1, &mut 60, 2, 0);
    let [_, entries, bytes, ..] = list(c, &short, out);
    let mut all = vec![entries as u8 + 1];
    all.extend(&short);
    all.extend(&out[..bytes as usize]);
    // 44 pairs, and a long term that lists nothing.
    let mut f = vec![7u8, 50, 0, 7, 1, 1, 2];
    for kind in 2..6 {
        f.extend([kind, 255]);
        f.extend([kind + 1; 8]);
    }
    f.extend([6, 0]);
    f.extend([1, 0].repeat(44));
    let mut strike = vec![45];
    for leaf in 6..50 {
        strike.extend([0, 0, 3, leaf, 0, leaf, 0]);
    }
    strike.extend([0, 0, 4]);
    lone(&mut strike, 1, &mut 4080);
    for (what, v, book) in [
        ("A 2 patterns", a, two),
        ("E 1 pair", e, pairs(1)),
        ("E 64 pairs", e, pairs(64)),
        ("C near 32,768 bytes", c, one),
        ("C, nothing left", c, all),
        ("long strikes short", &f, strike),
    ] {
        let reply = list_book(v, &book, out);
        assert_eq!(reply[0], 0, "{what} {reply:?}");
        time(
            &format!("book, {what} ({} entries, {} bytes)", reply[1], reply[2]),
            || list_book(black_box(v), black_box(&book), black_box(out))[2],
        );
    }
}
