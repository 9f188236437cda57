//! Every small situation fits exactly one of a pattern and its entries, and
//! each entry has one that fits nothing else.

mod small;

use reference::{list, match_pattern};
use small::{bytes, complete, instance, patterns, rename, shapes, split, Words};

fn property(kinds: u8, words: Words, levels: usize, deep: usize) -> (usize, usize) {
    let v = bytes(kinds, &words);
    let situations = complete(kinds, &words, deep, 400);
    let mut table = [0; 128];
    let (mut listings, mut total) = (0, 0);
    for kind in 0..kinds {
        let mut all = patterns(&words, kind, levels);
        all.push(vec![255]);
        // Not more than some hundreds, spread over all.
        let step = all.len() / 300 + 1;
        for mut pattern in all.into_iter().step_by(step) {
            rename(&mut pattern);
            pattern.insert(0, kind);
            let mut out = vec![0; 100_000];
            let [number, entries, length, ..] = list(&v, &pattern, &mut out);
            assert_eq!(number, 0, "{v:?} {pattern:?}");
            let mut choices = split(&out[..length as usize], entries);
            listings += 1;
            total += choices.len();
            choices.push(pattern.clone());
            let mut alone = vec![0; choices.len()];
            for situation in &situations[kind as usize] {
                let mut whole = vec![kind];
                whole.extend(situation);
                let fitting: Vec<usize> = (0..choices.len())
                    .filter(|&i| {
                        let reply = match_pattern(&v, &choices[i], &whole, &mut table);
                        assert_eq!(reply[0], 0, "{v:?} {:?} {whole:?}", choices[i]);
                        reply[1] == 1
                    })
                    .collect();
                assert_eq!(fitting.len(), 1, "{v:?} {pattern:?} {whole:?}");
                alone[fitting[0]] += 1;
            }
            // With all situations up to that depth, each entry has its own.
            for (entry, times) in choices.iter().zip(&alone).take(choices.len() - 1) {
                if situations[kind as usize].len() < 400 {
                    assert!(*times > 0, "{v:?} {pattern:?} {entry:?}");
                } else {
                    let own = instance(kinds, &words, entry);
                    let fits = |choice: &Vec<u8>| {
                        match_pattern(&v, choice, &own, &mut [0; 128]) == [0, 1, 0, 0, 0]
                    };
                    assert!(fits(entry));
                    assert_eq!(choices.iter().filter(|choice| fits(choice)).count(), 1);
                }
            }
        }
    }
    (listings, total)
}

#[test]
fn exactly_one() {
    let (mut listings, mut total) = (0, 0);
    for (kinds, words, levels, deep) in shapes() {
        let (some, entries) = property(kinds, words, levels, deep);
        listings += some;
        total += entries;
    }
    println!("{listings} listings, {total} entries");
    assert!(listings > 1000 && total > 5000);
}
