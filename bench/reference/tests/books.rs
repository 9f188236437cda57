//! Every small situation fits some pattern of a book or exactly one entry,
//! never both, and each entry has one that fits nothing else.

mod small;

use reference::{list_book, match_pattern};
use small::{bytes, complete, instance, patterns, rename, shapes, split, Words};

/// Numbers that look like chance.
struct Chance(u64);

impl Chance {
    fn below(&mut self, bound: usize) -> usize {
        self.0 = self.0.wrapping_mul(6364136223846793005).wrapping_add(1);
        (self.0 >> 33) as usize % bound
    }
}

fn fits(v: &[u8], pattern: &[u8], situation: &[u8]) -> bool {
    let reply = match_pattern(v, pattern, situation, &mut [0; 128]);
    assert_eq!(reply[0], 0, "{v:?} {pattern:?} {situation:?}");
    reply[1] == 1
}

/// A book of some of these terms, mostly small ones.
fn book(kind: u8, all: &[Vec<u8>], chance: &mut Chance) -> Vec<Vec<u8>> {
    let count = 1 + chance.below(5);
    let one = |_| {
        let most = if chance.below(5) == 0 { 20 } else { all.len() };
        let mut pattern = all[chance.below(most.min(all.len()))].clone();
        rename(&mut pattern);
        pattern.insert(0, kind);
        pattern
    };
    (0..count).map(one).collect()
}

/// How many books and entries were looked at.
fn property(kinds: u8, words: &Words, levels: usize, deep: usize) -> (usize, usize) {
    let v = bytes(kinds, words);
    let situations = complete(kinds, words, deep, 400);
    let mut chance = Chance(levels as u64);
    let (mut books, mut total) = (0, 0);
    for kind in 0..kinds {
        let mut all = patterns(words, kind, levels);
        // Small ones first; a name alone covers all and is taken out.
        all.sort_by_key(Vec::len);
        all.retain(|pattern| pattern.len() > 1);
        if all.is_empty() {
            continue;
        }
        for _ in 0..400 {
            let book = book(kind, &all, &mut chance);
            let mut whole = vec![book.len() as u8];
            whole.extend(book.concat());
            let mut out = vec![0; 32_768];
            let [number, entries, length, ..] = list_book(&v, &whole, &mut out);
            assert_eq!(number, 0, "{v:?} {book:?}");
            let entries = split(&out[..length as usize], entries);
            books += 1;
            total += entries.len();
            let check = |situation: &[u8]| {
                let covered = book.iter().any(|pattern| fits(&v, pattern, situation));
                let times = entries.iter().filter(|entry| fits(&v, entry, situation));
                assert_eq!(
                    covered as usize + times.count(),
                    1,
                    "{v:?} {book:?} {situation:?}"
                );
            };
            for situation in &situations[kind as usize] {
                check(&[&[kind], &situation[..]].concat());
            }
            // Each entry has a situation of its own, which fits nothing else,
            // and no names.
            for entry in &entries {
                let nameless = entry[1..].iter().step_by(2).all(|&word| word < 96);
                assert!(nameless || entry[1..] == [255]);
                let own = instance(kinds, words, entry);
                assert!(fits(&v, entry, &own));
                check(&own);
            }
        }
    }
    (books, total)
}

#[test]
fn a_pattern_or_exactly_one_entry() {
    let (mut books, mut total) = (0, 0);
    for (kinds, words, levels, deep) in shapes() {
        let (some, entries) = property(kinds, &words, levels, deep);
        books += some;
        total += entries;
    }
    println!("{books} books, {total} entries");
    assert!(books > 5000 && total > 15_000);
}
