//! Texts in words: answers and complaints worked out by hand, and the reading
//! back of answers.

use reference::generate::{Gen, Meant};
use reference::{list, list_book, match_pattern};
use reference::words::{self, answer, read, read_patterns, Text};

const BENCH: &str = "kind step = wait(button, queue) | done\n\
    kind button = up | down\n\
    kind queue = free | full\n";

/// The answer for the bench vocabulary with this behind it.
fn bench(patterns: &str) -> String {
    said(&format!("{BENCH}{patterns}"))
}

fn said(text: &str) -> String {
    String::from_utf8(answer(text.as_bytes())).unwrap()
}

/// The number of the fault of a text, and its offset.
fn fault(text: &str) -> (u8, usize) {
    let fault = read(text.as_bytes()).unwrap_err().fault;
    (fault.why, fault.at)
}

#[test]
fn bench_example() {
    let text = bench("go: wait(up, free)\n");
    let expected = "# go: wait(up, free)\n\
        # 3 leftovers:\n\
        done\n\
        wait(down, _)\n\
        wait(up, full)\n\
        # end of 3 leftovers\n\
        \n\
        # end of 1 patterns\n";
    assert_eq!(text, expected);
}

#[test]
fn bytes_of_the_bench_example() {
    let text = format!("{BENCH}go: wait(up, free) wait(_, ?n) ?s: step any: _: queue");
    let Text {
        vocabulary,
        patterns,
    } = read(text.as_bytes()).unwrap();
    assert_eq!(
        vocabulary.bytes(),
        [3, 6, 0, 3, 1, 2, 0, 0, 1, 0, 1, 0, 2, 0, 2, 0]
    );
    let bytes: Vec<&[u8]> = patterns.iter().map(|pattern| &pattern.bytes[..]).collect();
    assert_eq!(
        bytes,
        [
            &[0, 0, 3, 2, 0, 4, 0][..],
            &[0, 0, 2, 128],
            &[0, 128],
            &[2, 255]
        ]
    );
    let labels: Vec<Option<&[u8]>> = patterns.iter().map(|pattern| pattern.label).collect();
    assert_eq!(labels, [Some(&b"go"[..]), None, None, Some(b"any")]);
}

#[test]
fn no_patterns() {
    assert_eq!(bench(""), "# end of 0 patterns\n");
}

#[test]
fn open_places_and_names() {
    let text = bench("a: wait(?x, free) b: wait(up, _) _: step ?all: step\ndone");
    let expected =
        "# a: wait(?x, free)\n# 2 leftovers:\ndone\nwait(?x, full)\n# end of 2 leftovers\n\n\
        # b: wait(up, _)\n# 2 leftovers:\ndone\nwait(down, _)\n# end of 2 leftovers\n\n\
        # _: step\n# 0 leftovers:\n# end of 0 leftovers\n\n\
        # ?all: step\n# 0 leftovers:\n# end of 0 leftovers\n\n\
        # done\n# 1 leftovers:\nwait(_, _)\n# end of 1 leftovers\n\n\
        # all 5 patterns of step together\n# 0 leftovers:\n# end of 0 leftovers\n\n\
        # end of 5 patterns\n";
    assert_eq!(text, expected);
}

#[test]
fn a_kind_without_situations() {
    // No complete situation fits the pattern, so any step is left.
    let text = said("kind step = print(printer) | done kind printer go: print(_) done _: printer");
    let expected = "# go: print(_)\n# 1 leftovers:\n_: step\n# end of 1 leftovers\n\n\
        # done\n# 0 leftovers:\n# end of 0 leftovers\n\n\
        # _: printer\n# 0 leftovers:\n# end of 0 leftovers\n\n\
        # all 2 patterns of step together\n# 0 leftovers:\n# end of 0 leftovers\n\n\
        # kind printer has no complete situation\n\n\
        # end of 3 patterns\n";
    assert_eq!(text, expected);
}

/// The note on a kind.
fn note(kind: &str) -> String {
    format!("# kind {kind} has no complete situation\n\n")
}

#[test]
fn notes_on_kinds() {
    // A kind without words, with a pattern of another kind and with none.
    let b = "# b\n# 0 leftovers:\n# end of 0 leftovers\n\n";
    let (e, none) = (note("e"), "# end of 0 patterns\n");
    assert_eq!(
        said("kind a = b\nkind e\nb\n"),
        format!("{b}{e}# end of 1 patterns\n")
    );
    assert_eq!(said("kind a = b\nkind e\n"), format!("{e}{none}"));
    // Kinds whose words lead back to them, by themselves or by each other.
    assert_eq!(said("kind a = b kind e = f(e)"), format!("{e}{none}"));
    let both = format!("{}{}{none}", note("a"), note("c"));
    assert_eq!(said("kind a = b(c) kind c = d(a) | e(c) kind f = g"), both);
    // b(d) is a situation, as the kind of d stands behind, and so on.
    assert_eq!(said("kind a = b(c) kind c = d"), none);
    assert_eq!(
        said("kind a = b(c, e) kind c = d(e, e) kind e = f(g) kind g = h | i(a)"),
        none
    );
    // Two kinds of four, in their order, and behind the answer to a question.
    let four = "kind x kind a = b | c(x) kind y = d(y, a) kind z = e(a) n: b n ? b";
    let expected = format!(
        "# n: b\n# 0 leftovers:\n# end of 0 leftovers\n\n# n ? b\n# yes\n\n{}{}# end of 1 patterns\n",
        note("x"),
        note("y")
    );
    assert_eq!(said(four), expected);
    // The note on a kind stands before the leftovers of its patterns together,
    // and behind those of the kinds before.
    let text = said("kind x kind a = b | c kind y = d(y) b d(_) b _: y");
    let tail = format!(
        "# _: y\n# 0 leftovers:\n# end of 0 leftovers\n\n{}\
        # all 2 patterns of a together\n# 1 leftovers:\nc\n# end of 1 leftovers\n\n{}\
        # all 2 patterns of y together\n# 0 leftovers:\n# end of 0 leftovers\n\n\
        # end of 4 patterns\n",
        note("x"),
        note("y")
    );
    assert!(text.ends_with(&tail), "{text}");
}

/// A kind has a note exactly where list, asked for what another word leaves
/// over, leaves a word out whose only place is of that kind.
#[test]
fn notes_are_those_of_listings() {
    let mut gen = Gen::new(13);
    let mut seen = [0; 2];
    for _ in 0..4000 {
        let case = gen.text_case();
        let Ok(text) = read(&case.text) else { continue };
        let (kinds, words) = (text.vocabulary.kinds.len(), text.vocabulary.words.len());
        let said = answer(&case.text);
        if kinds > 15 || words > 94 || said.starts_with(b"the answer") {
            continue;
        }
        let lines: Vec<&[u8]> = said.split(|&byte| byte == b'\n').collect();
        for (kind, name) in text.vocabulary.kinds.iter().enumerate() {
            let mut more = text.vocabulary.bytes();
            more[0] += 1;
            more[1] += 2;
            more.extend([kinds as u8, 0, kinds as u8, 1, kind as u8]);
            let left = list(&more, &[kinds as u8, words as u8, 0], &mut [0; 3]);
            assert!(matches!(left, [0, 0 | 1, ..]));
            let note = [b"# kind ", *name, b" has no complete situation"].concat();
            let notes = lines.iter().filter(|line| **line == note).count();
            assert_eq!(notes, 1 - left[1] as usize, "{}", case.text.escape_ascii());
            seen[notes] += 1;
        }
    }
    println!("{} kinds without a note, {} with one", seen[0], seen[1]);
    assert!(seen[0] > 1000 && seen[1] > 500);
}

#[test]
fn blanks_change_nothing() {
    let tight = "kind step=wait(button,queue)|done kind button=up|down \
        kind queue=free|full go:wait(up,free)";
    let wide = "# a step\nkind\tstep #=\r\n = wait ( button , # here\n queue ) | done\
        \r\nkind button = up | down kind queue\n= free|full\n\n go : wait(up, free) # the end";
    let expected = bench("go: wait(up, free)");
    assert_eq!(said(tight), expected);
    assert_eq!(said(wide), expected);
}

#[test]
fn names_of_all_sorts() {
    let text = said("kind ß = 0 | é-1(kinds) | __ kind kinds = kin | 0a kin: é-1(?kind) ?_: ß");
    let expected = "# kin: é-1(?kind)\n# 2 leftovers:\n0\n__\n# end of 2 leftovers\n\n\
        # ?_: ß\n# 0 leftovers:\n# end of 0 leftovers\n\n\
        # all 2 patterns of ß together\n# 0 leftovers:\n# end of 0 leftovers\n\n\
        # end of 2 patterns\n";
    assert_eq!(text, expected);
}

#[test]
fn questions() {
    let go = "# go: wait(up, free)\n# 3 leftovers:\ndone\nwait(down, _)\nwait(up, full)\n# end of 3 leftovers\n\n";
    let text = bench("go: wait(up, free) go ? wait(up, full) go? done go ? wait(up, free)");
    let expected = format!(
        "{go}# go ? wait(up, full)\n#               ^ no: free is due here\n\n\
        # go ? done\n#      ^ no: wait is due here\n\n\
        # go ? wait(up, free)\n# yes\n\n# end of 1 patterns\n"
    );
    assert_eq!(text, expected);
    let text = bench("n: wait(?b, ?q) n ? wait(down, full)");
    assert!(text.contains("\n# n ? wait(down, full)\n# yes\n# ?b = down\n# ?q = full\n\n# end"));
    // The label stands at 87 + 19, and the situation 5 behind it.
    let asked = |text| fault(&format!("{BENCH}{text}"));
    assert_eq!(asked("go: wait(up, free) no ? done"), (27, 88 + 19));
    assert_eq!(asked("go: wait(up, free) go ? wait(_, up)"), (26, 88 + 29));
    assert_eq!(asked("go: wait(up, free) go ? wait(held, _)"), (16, 88 + 29));
    assert_eq!(asked("go: wait(up, free) go ? up"), (17, 88 + 24));
    assert_eq!(asked("go ? done"), (16, 88));
}

#[test]
fn patterns_together() {
    let text = bench("wait(up, free) wait(_, full) up");
    let tail = "# all 2 patterns of step together\n# 2 leftovers:\n\
        done\nwait(down, free)\n# end of 2 leftovers\n\n# end of 3 patterns\n";
    assert!(text.ends_with(tail), "{text}");
    let many = "kind a = b | c\n".to_string() + &"b ".repeat(65);
    let tail = "\nleftovers of all 65 patterns of a together not listed, \
        as 64 patterns are the most\n\n# end of 65 patterns\n";
    assert!(said(&many).ends_with(tail));
}

#[test]
fn complaints() {
    assert_eq!(
        bench("go: wait(up, down)"),
        "line 4, column 14: queue is due here: free or full\ngo: wait(up, down)\n             ^\n"
    );
    assert_eq!(
        bench("\twait(up, ?)\n"),
        "line 4, column 11: queue is due here: free or full\n\twait(up, ?)\n\t         ^\n"
    );
    assert_eq!(
        bench("wait(up, free, full)"),
        "line 4, column 14: wait takes 2 places, and 3 are written\n\
            wait(up, free, full)\n             ^\n"
    );
    // The comma in further parentheses and the one behind do not count.
    assert_eq!(
        bench("wait(up, free, wait(up, free), up), up"),
        "line 4, column 14: wait takes 2 places, and 4 are written\n\
            wait(up, free, wait(up, free), up), up\n             ^\n"
    );
    // A comma without a term behind it does not count, nor one behind the colon
    // of the next pattern.
    assert_eq!(
        bench("wait(up, free,)"),
        "line 4, column 14: wait takes 2 places, and no , is due here\n\
            wait(up, free,)\n             ^\n"
    );
    assert_eq!(
        said("kind k = a(k) | b\nx: a(b, b\ny: b, b"),
        "line 2, column 7: a takes 1 place, and 2 are written\nx: a(b, b\n      ^\n"
    );
    assert_eq!(
        bench("go ? done"),
        "line 4, column 1: a question stands behind its pattern, and begins with its label\n\
            go ? done\n^\n"
    );
    assert_eq!(
        bench("go: done go ?done"),
        "line 4, column 10: no word go in this vocabulary; in a question a blank is due behind the ?\n\
            go: done go ?done\n         ^\n"
    );
    assert_eq!(
        bench("wait(up, free"),
        "line 4, column 14: wait takes 2 places, and a ) is due here\n\
            wait(up, free\n             ^\n"
    );
    assert_eq!(
        bench("wait(up)\ndone\n"),
        "line 4, column 8: wait takes 2 places, and fewer are written\nwait(up)\n       ^\n"
    );
    assert_eq!(
        said("kind a = b(a) | c(a, a) | d c(b, d)"),
        "line 1, column 32: b takes 1 place, and none is written\n\
            kind a = b(a) | c(a, a) | d c(b, d)\n                               ^\n"
    );
    assert_eq!(
        bench("wait(up, free(up))"),
        "line 4, column 14: no places are due here, as what stands before takes none or has them all\n\
            wait(up, free(up))\n             ^\n"
    );
    assert_eq!(
        bench("done\nkind lamp = red"),
        "line 5, column 1: all kinds are declared before the first pattern\nkind lamp = red\n^\n"
    );
    // A mark that stands between places or words of a kind. A | behind the last
    // kind would go on with its words.
    let no_mark = "a pattern is due here; no mark stands between patterns, \
        and the words of a kind stand behind =, with a | between them";
    for (text, at) in [
        ("done, done", 4),
        ("done = done", 5),
        ("go: | done", 4),
        ("= held", 0),
    ] {
        let (column, mark) = (at + 1, " ".repeat(at));
        assert_eq!(
            bench(text),
            format!("line 4, column {column}: {no_mark}\n{text}\n{mark}^\n")
        );
    }
    for (text, at) in [
        ("kind a = b, c", 10),
        ("kind a = b = c", 11),
        ("kind c = d kind a | b", 18),
    ] {
        let (column, mark) = (at + 1, " ".repeat(at));
        assert_eq!(
            said(text),
            format!("line 1, column {column}: {no_mark}\n{text}\n{mark}^\n")
        );
    }
    assert_eq!(
        bench("done: : done"),
        "line 4, column 7: a pattern is due here\ndone: : done\n      ^\n"
    );
    // Where no word stands before the mark, that is told.
    assert_eq!(
        said("kind a | b kind c = d"),
        "line 1, column 8: no kind up to here has a word; words stand behind =, as in kind button = up | down\n\
            kind a | b kind c = d\n       ^\n"
    );
    assert_eq!(
        said("kind a\n"),
        "line 2, column 1: no kind up to here has a word; words stand behind =, as in kind button = up | down\n\n^\n"
    );
    // A kind without words is due, in a pattern and in a question.
    for (text, at) in [
        ("b(c)", 2),
        ("b()", 2),
        ("n: _: lamp n ? c", 15),
        ("n: b(_) n ? b(c)", 14),
    ] {
        let (column, mark) = (at + 1, " ".repeat(at));
        assert_eq!(
            said(&format!("kind a = b(lamp) | c\nkind lamp\n{text}")),
            format!(
                "line 3, column {column}: lamp is due here, and no word of that kind is declared before the first pattern\n{text}\n{mark}^\n"
            )
        );
    }
    assert_eq!(
        said("kind a = b(e) | c kind e = f(e)\nb(c)"),
        "line 2, column 3: e is due here: f\nb(c)\n  ^\n"
    );
    assert_eq!(
        bench("wait(up, kind)"),
        "line 4, column 10: queue is due here: free or full\nwait(up, kind)\n         ^\n"
    );
    assert_eq!(
        said("\u{feff}kind a = b"),
        "line 1, column 1: a byte order mark stands here, and a text begins with `kind`\n\
            \u{feff}kind a = b\n^\n"
    );
    assert_eq!(
        bench("wait\n"),
        "line 5, column 1: wait takes 2 places, in ( and ) with a , between them\n\n^\n"
    );
    assert_eq!(
        bench("\n\nheld: done\ngo: held"),
        "line 7, column 5: no word held in this vocabulary\ngo: held\n    ^\n"
    );
    assert_eq!(
        said("kind step = on(lamp)"),
        "line 1, column 16: kind lamp is used and not declared\n\
            kind step = on(lamp)\n               ^\n"
    );
    // é and λ are two bytes each and one column; a carriage return is none
    // and is not shown; a bell is shown as ?.
    assert_eq!(
        said("kind é = λ # \u{7}\r\né: λ λ)\r\n"),
        "line 2, column 7: a pattern is due here\né: λ λ)\n      ^\n"
    );
    assert_eq!(
        said("kind é = λ\r\né:\rλ λ)"),
        "line 2, column 6: a pattern is due here\né:λ λ)\n     ^\n"
    );
    assert_eq!(
        said("kind a = b ?x\u{7}"),
        "line 1, column 14: a : and a kind are due here, as in _: step\n\
            kind a = b ?x?\n             ^\n"
    );
    assert_eq!(
        bench("wait(?x, ?x)"),
        "line 4, column 10: ?x stands twice in this pattern\nwait(?x, ?x)\n         ^\n"
    );
    assert_eq!(
        said("kind a = b | b"),
        "line 1, column 14: word b is declared twice\nkind a = b | b\n             ^\n"
    );
    assert_eq!(
        said("kind a\nkind a"),
        "line 2, column 6: kind a is declared twice\nkind a\n     ^\n"
    );
    assert_eq!(
        said(""),
        "line 1, column 1: `kind` is due here, as a text begins with its kinds\n\n^\n"
    );
}

#[test]
fn faults() {
    let long = "x".repeat(33);
    let most = "x".repeat(32);
    for (text, expected) in [
        ("go: done".to_string(), (1, 0)),
        // The name behind a kind is judged where the reading comes to it.
        ("go: done kind = up".to_string(), (1, 0)),
        ("kind kind".to_string(), (2, 5)),
        ("kind kind = a".to_string(), (2, 5)),
        ("kind a = b kind".to_string(), (2, 15)),
        ("kind a = b(kind".to_string(), (9, 11)),
        ("kind a = b | b kind =".to_string(), (7, 13)),
        ("kind a kind a = |".to_string(), (4, 12)),
        ("kind a = | kind a".to_string(), (6, 9)),
        ("kind a = b(c) kind =".to_string(), (10, 11)),
        // A kind is known though its declaration is never come to.
        ("kind a = b(c) kind = kind c".to_string(), (2, 19)),
        ("kind a = b(c) kind a kind c".to_string(), (4, 19)),
        ("kind a = b(c) | d(kind c)".to_string(), (9, 18)),
        ("kind a = b _: c b kind c".to_string(), (14, 18)),
        ("kind a = b n: _: c n ? kind c".to_string(), (15, 23)),
        ("kind a = b b kind =".to_string(), (14, 13)),
        (format!("kind {long}"), (3, 5)),
        (format!("kind a = {long}"), (3, 9)),
        (format!("kind a = b {long}: b"), (3, 11)),
        (format!("kind a = b ?{long}: a"), (3, 11)),
        // No kind of a place can have a name that is too long, wherever it is
        // declared; the kind of a pattern and a word are just not known by it.
        (format!("kind a = b({long})"), (3, 11)),
        (format!("kind a = b({long}) kind {long}"), (3, 11)),
        (format!("kind a = b(a,a,a,a,a,a,a,a,{long})"), (3, 27)),
        (format!("kind a = b _: {long}"), (10, 14)),
        (format!("kind a = b {long}"), (16, 11)),
        ("kind a kind b kind a".to_string(), (4, 19)),
        ("kind a =".to_string(), (6, 8)),
        ("kind a = b | | c".to_string(), (6, 13)),
        ("kind a = _".to_string(), (6, 9)),
        ("kind a = b kind c = b".to_string(), (7, 20)),
        ("kind a = b()".to_string(), (9, 11)),
        ("kind a = b(_)".to_string(), (9, 11)),
        ("kind a = b(c)".to_string(), (10, 11)),
        ("kind a = b(a,a,a,a,a,a,a,a,a)".to_string(), (11, 27)),
        ("kind a = b(a,a,a,a,a,a,a,a,z)".to_string(), (10, 27)),
        ("kind a = b(a | c".to_string(), (12, 13)),
        ("kind a kind b x".to_string(), (13, 14)),
        ("kind a".to_string(), (13, 6)),
        ("kind a | b kind c = d".to_string(), (13, 7)),
        ("kind a = b, c".to_string(), (14, 10)),
        ("kind a = b = c".to_string(), (14, 11)),
        ("kind a = b | c\n) b".to_string(), (14, 15)),
        // A ( goes on with the word before it, on whatever line.
        ("kind a = b | c\n( b".to_string(), (10, 17)),
        ("kind a = b ?: a".to_string(), (14, 11)),
        ("kind a = b b kind c = d".to_string(), (14, 13)),
        // A word without places takes no parentheses, and ends a pattern.
        ("kind a = b b()".to_string(), (14, 12)),
        ("kind a = b | c(a) c((".to_string(), (15, 20)),
        ("kind a = b | c(a) c(kind d".to_string(), (15, 20)),
        ("kind a = b x".to_string(), (16, 11)),
        ("kind a = b x: y: b".to_string(), (16, 14)),
        ("kind a = b(c) kind c = d b(b)".to_string(), (17, 27)),
        ("kind a = b(a) b(_ _)".to_string(), (25, 18)),
        ("kind a = b(a) b)".to_string(), (18, 15)),
        ("kind a = b(a) b(?x, ?x)".to_string(), (25, 18)),
        ("kind a = b(a,a) b(?x _)".to_string(), (18, 21)),
        ("kind a = b(a,a) b(?x, ?x)".to_string(), (21, 22)),
        ("kind a = b _".to_string(), (23, 12)),
        ("kind a = b _ b".to_string(), (23, 13)),
        ("kind a = b _: b".to_string(), (10, 14)),
        ("kind a = b _: _".to_string(), (9, 14)),
    ] {
        assert_eq!(fault(&text), expected, "{text}");
    }
    assert!(
        read(format!("kind {most} = {most}({most}) {most}: ?{most}: {most}").as_bytes()).is_ok()
    );
}

#[test]
fn limits() {
    let names = |prefix: &str, count: usize| -> Vec<String> {
        (0..count).map(|i| format!("{prefix}{i}")).collect()
    };
    let kinds = |count| format!("kind a = b kind {}", names("k", count).join(" kind "));
    assert!(read(kinds(15).as_bytes()).is_ok());
    assert_eq!(fault(&kinds(16)), (5, kinds(16).len() - 3));
    // A place of a kind that is not there is told as none of the first 16 where
    // there are so many, whether a 17th is declared or not. k15 is the 17th.
    let place = |count| kinds(count).replacen('b', "b(k15)", 1);
    assert_eq!(fault(&place(14)), (10, 11));
    assert_eq!(fault(&place(15)), (28, 11));
    assert_eq!(fault(&place(16)), (28, 11));
    let (text, mark) = (place(16), " ".repeat(11));
    assert_eq!(
        said(&text),
        format!(
            "line 1, column 12: kind k15 is none of the first 16 kinds, and 16 are the most\n{text}\n{mark}^\n"
        )
    );
    // It is told before a ninth place, and behind a name that is too long.
    let ninth = place(15).replacen("(k15", "(a,a,a,a,a,a,a,a,k15", 1);
    assert_eq!(fault(&ninth), (28, 27));
    let long = place(15).replacen("(k15", &format!("({}", "k".repeat(33)), 1);
    assert_eq!(fault(&long), (3, 11));
    // What is no name of a kind is not counted, and what stands in a pattern is.
    let twice = place(16).replacen("kind k0", "kind a", 1);
    assert_eq!(fault(&twice), (4, 21));
    assert_eq!(fault(&format!("{} b(kind k14)", place(14))), (28, 11));
    // The kinds of a pattern are the first 16.
    let late = format!("{} _: k15 kind k15", kinds(15));
    assert_eq!(fault(&late), (10, kinds(15).len() + 4));
    let late = format!("{} _: k14 kind k14", kinds(14));
    assert_eq!(fault(&late), (14, kinds(14).len() + 8));
    let words = |count| format!("kind a = {}", names("w", count).join(" | "));
    assert!(read(words(96).as_bytes()).is_ok());
    assert_eq!(fault(&words(97)), (8, words(97).len() - 3));
    // 31 words around a name or a word have 32 levels; an open place is none.
    let deep = |words: usize, inside: &str| {
        let (open, close) = ("b(".repeat(words), ")".repeat(words));
        format!("kind a = b(a) | c {open}{inside}{close}")
    };
    assert!(read(deep(31, "?x").as_bytes()).is_ok());
    assert!(read(deep(31, "c").as_bytes()).is_ok());
    assert!(read(deep(32, "_").as_bytes()).is_ok());
    assert_eq!(fault(&deep(32, "?x")), (19, 18 + 64));
    assert_eq!(fault(&deep(32, "c")), (19, 18 + 64));
    assert_eq!(fault(&deep(32, "d")), (16, 18 + 64));
    // 64 names, in words of eight places.
    let many = |last: &str| {
        let row = |from: usize| {
            let row: Vec<String> = (from..from + 8).map(|n| format!("?{n}")).collect();
            format!("b({})", row.join(","))
        };
        let rows: Vec<String> = (0..7).map(|n| row(8 * n)).collect();
        format!(
            "kind a = b(a,a,a,a,a,a,a,a) | c(a,a) c(b({},{}),{last})",
            rows.join(","),
            row(56)
        )
    };
    assert!(read(many("_").as_bytes()).is_ok());
    assert_eq!(fault(&many("?64")), (22, many("").len() - 1));
    assert_eq!(fault(&many("?63")), (21, many("").len() - 1));
    // 4,096 bytes are the kind byte, 2,047 words and a name. A block has
    // 1 + 8 + 64 + 512 = 585 words; three blocks, the root, three rows of rows
    // (1 + 8 + 64 = 73 words each) and 72 words around the end make 2,047.
    let leaves = |count: usize| format!("b({}", vec!["c"; count].join(","));
    let row = format!("{})", leaves(8));
    let rows = format!("b({})", [&row[..]; 8].join(","));
    let block = format!("b({})", [&rows[..]; 8].join(","));
    let full = |end: &str| {
        let last = format!("b({},{},{end},_))", [&row[..]; 7].join(","), leaves(6));
        let rest = format!("b({rows},{rows},{rows},{last},_,_,_,_)");
        format!("kind a = b(a,a,a,a,a,a,a,a) | c b({block},{block},{block},{rest},_,_,_,_)")
    };
    let text = full("?x");
    assert_eq!(read(text.as_bytes()).unwrap().patterns[0].bytes.len(), 4096);
    let at = text.find('?').unwrap();
    assert_eq!(fault(&full("c")), (20, at));
    assert_eq!(fault(&full("b(_,")), (20, at));
}

#[test]
fn long_texts() {
    let mut text = BENCH.as_bytes().to_vec();
    text.resize(65_535, b' ');
    assert_eq!(answer(&text), b"# end of 0 patterns\n");
    text.push(b'\n');
    let line = " ".repeat(65_535 - BENCH.len());
    let expected = format!(
        "line 4, column {}: 65535 bytes are the most for a text, and this one has more\n{line}\n{line}^\n",
        65_535 - BENCH.len() + 1
    );
    assert_eq!(String::from_utf8(answer(&text)).unwrap(), expected);
}

#[test]
fn long_answers() {
    // 95 words without places, and a word with eight places for them.
    let words: Vec<String> = (0..95).map(|i| format!("word-{i:027}")).collect();
    let kinds = format!("kind a = b(c,c,c,c,c,c,c,c) kind c = {}", words.join(" | "));
    let pattern = format!("b({})\n", [&words[0][..]; 8].join(","));
    let one = said(&format!("{kinds}\n{pattern}"));
    assert!(
        one.contains("# 752 leftovers:\n")
            && one.ends_with("# end of 752 leftovers\n\n# end of 1 patterns\n")
    );
    // An entry has a line of 57 to 274 bytes, and 20 patterns have 15,040.
    let many = said(&format!("{kinds}\n{}", pattern.repeat(20)));
    let expected = "the answer has more than 1048576 bytes, which are the most: \
        ask for fewer patterns at a time\n";
    assert_eq!(many, expected);
}

#[test]
fn listings_that_are_too_long() {
    // A word over eight with eight places each, of a kind with 96 words.
    let words: Vec<String> = (0..95).map(|i| format!("w{i}")).collect();
    let kinds = format!("kind a = b(a,a,a,a,a,a,a,a) | {}", words.join(" | "));
    let row = format!("b({})", ["w0"; 8].join(","));
    let pattern = format!("b({})", vec![row; 8].join(","));
    let text = said(&format!("{kinds}\n{pattern}"));
    // The words stand at 1, 3, .. 145, so an entry at word i has 1 + 2 i + 2
    // bytes, and each of the 73 words has 95 others.
    let bytes: usize = (0..73).map(|i| 95 * (3 + 2 * i)).sum();
    let expected = format!(
        "leftovers not listed, as the list has {bytes} bytes and 65536 are the most\n\n# end of 1 patterns\n"
    );
    assert!(text.ends_with(&expected), "{}", &text[text.len() - 120..]);
}

/// An answer, read as patterns, is the leftovers and nothing else.
#[test]
fn answers_are_read_back() {
    let mut gen = Gen::new(11);
    let (mut good, mut entries, mut faults) = (0, 0, [0; 29]);
    for _ in 0..4000 {
        let case = gen.text_case();
        let said = answer(&case.text);
        let text = match read(&case.text) {
            Ok(text) => text,
            Err(refused) => {
                faults[refused.fault.why as usize] += 1;
                continue;
            }
        };
        if said.starts_with(b"the answer") {
            continue;
        }
        good += 1;
        let vocabulary = text.vocabulary.bytes();
        let listed = text.patterns.iter().map(|p| p.leftovers(&vocabulary));
        let mut listed: Vec<Vec<u8>> = listed.flat_map(Result::unwrap_or_default).collect();
        for (_, book) in (0..text.vocabulary.kinds.len()).filter_map(|kind| text.book(kind)) {
            let mut space = vec![0; 32_768];
            if let [0, entries, bytes, ..] = list_book(&vocabulary, &book, &mut space) {
                listed.extend(words::split(&space[..bytes as usize], entries));
            }
        }
        let without = words::listed(&said);
        let back = read_patterns(&text.vocabulary, &without).unwrap();
        let whole = without.len() == said.len();
        assert_eq!(read_patterns(&text.vocabulary, &said).is_ok(), whole);
        assert!(back.iter().all(|pattern| pattern.label.is_none()));
        let back: Vec<Vec<u8>> = back.into_iter().map(|pattern| pattern.bytes).collect();
        assert_eq!(back, listed);
        entries += back.len();
    }
    println!("{good} answers, {entries} entries, faults {faults:?}");
    assert!(good > 1000 && entries > 10_000);
}

/// A text is read as what it was written from, if list takes all its patterns,
/// and else refused.
#[test]
fn texts_are_read_as_meant() {
    let mut gen = Gen::new(12);
    let (mut good, mut bad) = (0, 0);
    for _ in 0..4000 {
        let case = gen.text_case();
        let Some((vocabulary, patterns)) = &case.meant else {
            continue;
        };
        let fits = |pattern: &[u8], situation: &[u8]| {
            match_pattern(vocabulary, pattern, situation, &mut [0; 128])
        };
        let taken = |meant: &Meant| {
            let mut asked = meant.situations.iter();
            matches!(list(vocabulary, &meant.pattern, &mut [])[0], 0 | 20)
                && asked.all(|situation| fits(&meant.pattern, situation)[0] == 0)
        };
        match read(&case.text) {
            Ok(text) => {
                assert_eq!(text.vocabulary.bytes(), *vocabulary);
                let read = text.patterns.iter().map(|pattern| Meant {
                    pattern: pattern.bytes.clone(),
                    situations: pattern.situations.clone(),
                });
                assert!(read.eq(patterns.iter().cloned()) && patterns.iter().all(taken));
                // The answers to questions are those of match.
                let asked = patterns.iter().flat_map(|meant| {
                    let fit = |situation: &Vec<u8>| fits(&meant.pattern, situation)[1] == 1;
                    meant.situations.iter().map(fit).collect::<Vec<bool>>()
                });
                let said = answer(&case.text);
                let lines = said.split(|&byte| byte == b'\n');
                let marked = |line: &&[u8]| {
                    let bare = line.strip_prefix(b"# ").map(<[u8]>::trim_ascii_start);
                    *line == b"# yes" || bare.is_some_and(|bare| bare.starts_with(b"^ no: "))
                };
                let verdicts = lines.filter(marked).map(|line| line == b"# yes");
                if !said.starts_with(b"the answer") {
                    assert!(asked.eq(verdicts));
                }
                good += 1;
            }
            Err(refused) => {
                let fault = refused.fault;
                assert!(!patterns.iter().all(taken), "{fault:?}");
                bad += 1;
            }
        }
    }
    println!("{good} as meant, {bad} refused");
    assert!(good > 1000 && bad > 100);
}
