//! A slow and plain version of each call, over trees.

use reference::Reply;
use std::collections::HashMap;

/// Number, input and place.
pub type Refusal = [u64; 3];

fn accepted(one: u64, other: u64) -> Reply {
    [0, one, other, 0, 0]
}

fn refused([number, input, place]: Refusal) -> Reply {
    [number, input, place, 0, 0]
}

pub struct Word {
    pub result: u8,
    pub places: Vec<Option<u8>>,
}

pub struct Vocabulary {
    pub kinds: u8,
    pub words: Vec<Word>,
    /// Whether each kind has a complete situation.
    pub inhabited: Vec<bool>,
}

#[derive(Clone, PartialEq, Debug)]
pub enum Tree {
    Any,
    Name(u8),
    /// A word and what is written at each of its eight possible places.
    Word(u8, Vec<Option<Tree>>),
}

/// A term with where it stands in the bytes it was read from.
pub struct Read {
    pub tree: Tree,
    pub start: usize,
    pub end: usize,
    pub below: Vec<Option<Read>>,
}

pub fn vocabulary(bytes: &[u8]) -> Result<Vocabulary, Refusal> {
    if bytes.len() < 2 || bytes[0] < 1 || bytes[0] > 16 {
        return Err([1, 0, 0]);
    }
    if bytes[1] < 1 || bytes[1] > 96 {
        return Err([2, 0, 1]);
    }
    let kinds = bytes[0];
    let mut at = 2;
    let byte = |at: &mut usize, kind: bool| -> Result<u8, Refusal> {
        let Some(&byte) = bytes.get(*at) else {
            return Err([3, 0, *at as u64]);
        };
        if kind && byte >= kinds {
            return Err([4, 0, *at as u64]);
        }
        *at += 1;
        Ok(byte)
    };
    let mut words = Vec::new();
    for _ in 0..bytes[1] {
        let result = byte(&mut at, true)?;
        let map = byte(&mut at, false)?;
        let mut places = vec![None; 8];
        for (bit, place) in places.iter_mut().enumerate() {
            if map >> bit & 1 == 1 {
                *place = Some(byte(&mut at, true)?);
            }
        }
        words.push(Word { result, places });
    }
    if at < bytes.len() {
        return Err([5, 0, at as u64]);
    }
    let mut inhabited = vec![false; kinds as usize];
    for _ in 0..kinds {
        for word in &words {
            if word
                .places
                .iter()
                .flatten()
                .all(|&kind| inhabited[kind as usize])
            {
                inhabited[word.result as usize] = true;
            }
        }
    }
    Ok(Vocabulary {
        kinds,
        words,
        inhabited,
    })
}

/// Whether some complete situation fits a term of a kind, in which no name
/// stands twice. No term is an open place.
fn fitted(v: &Vocabulary, kind: u8, term: Option<&Tree>) -> bool {
    match term {
        None | Some(Tree::Any | Tree::Name(_)) => v.inhabited[kind as usize],
        Some(Tree::Word(word, terms)) => {
            let places = &v.words[*word as usize].places;
            let mut both = places.iter().zip(terms);
            both.all(|(place, term)| place.is_none_or(|kind| fitted(v, kind, term.as_ref())))
        }
    }
}

struct Reader<'a> {
    v: &'a Vocabulary,
    bytes: &'a [u8],
    input: u64,
    /// Where a book's pattern begins, whose 4,097th byte is not read.
    pattern: Option<usize>,
    names: HashMap<u8, u8>,
    words: u64,
    deepest: u64,
    gap: Option<usize>,
    second: Option<usize>,
}

impl Reader<'_> {
    fn byte(&self, at: usize) -> Result<u8, Refusal> {
        match self.pattern {
            Some(first) if at == first + 4096 => Err([7, self.input, first as u64]),
            _ => {
                let byte = self.bytes.get(at).copied();
                byte.ok_or([9, self.input, at as u64])
            }
        }
    }

    fn term(&mut self, at: usize, kind: u8, level: u64) -> Result<Read, Refusal> {
        let refuse = |number, at: usize| Err([number, self.input, at as u64]);
        let byte = self.byte(at)?;
        if level == 33 {
            return refuse(10, at);
        }
        self.deepest = self.deepest.max(level);
        if (128..=191).contains(&byte) {
            let name = byte - 128;
            if let Some(&earlier) = self.names.get(&name) {
                if earlier != kind {
                    return refuse(13, at);
                }
                self.second = self.second.or(Some(at));
            }
            self.names.insert(name, kind);
            self.gap = self.gap.or(Some(at));
            return Ok(Read {
                tree: Tree::Name(name),
                start: at,
                end: at + 1,
                below: vec![],
            });
        }
        if byte == 255 && level == 1 {
            self.gap = self.gap.or(Some(at));
            return Ok(Read {
                tree: Tree::Any,
                start: at,
                end: at + 1,
                below: vec![],
            });
        }
        let Some(word) = self.v.words.get(byte as usize) else {
            return refuse(11, at);
        };
        if word.result != kind {
            return refuse(12, at);
        }
        let map = self.byte(at + 1)?;
        for bit in 0..8 {
            let written = map >> bit & 1 == 1;
            if written && word.places[bit].is_none() {
                return refuse(14, at + 1);
            }
            if !written && word.places[bit].is_some() {
                self.gap = self.gap.or(Some(at + 1));
            }
        }
        self.words += 1;
        let mut end = at + 2;
        let mut below = Vec::new();
        for bit in 0..8 {
            below.push(if map >> bit & 1 == 1 {
                let read = self.term(end, word.places[bit].unwrap(), level + 1)?;
                end = read.end;
                Some(read)
            } else {
                None
            });
        }
        let terms = below
            .iter()
            .map(|read| read.as_ref().map(|read| read.tree.clone()));
        Ok(Read {
            tree: Tree::Word(byte, terms.collect()),
            start: at,
            end,
            below,
        })
    }
}

struct Term {
    read: Read,
    names: HashMap<u8, u8>,
    words: u64,
    deepest: u64,
    gap: Option<usize>,
    second: Option<usize>,
}

fn term(v: &Vocabulary, bytes: &[u8], input: u64) -> Result<Term, Refusal> {
    if bytes.len() < 2 || bytes.len() > 4096 {
        return Err([7, input, 0]);
    }
    if bytes[0] >= v.kinds {
        return Err([8, input, 0]);
    }
    let mut reader = Reader {
        v,
        bytes,
        input,
        pattern: None,
        names: HashMap::new(),
        words: 0,
        deepest: 0,
        gap: None,
        second: None,
    };
    let read = reader.term(1, bytes[0], 1)?;
    if read.end < bytes.len() {
        return Err([15, input, read.end as u64]);
    }
    Ok(Term {
        read,
        names: reader.names,
        words: reader.words,
        deepest: reader.deepest,
        gap: reader.gap,
        second: reader.second,
    })
}

pub fn check_vocabulary(bytes: &[u8]) -> Reply {
    match vocabulary(bytes) {
        Ok(_) => accepted(0, 0),
        Err(refusal) => refused(refusal),
    }
}

pub fn check_term(v: &[u8], bytes: &[u8]) -> Reply {
    let v = match vocabulary(v) {
        Ok(v) => v,
        Err(refusal) => return refused(refusal),
    };
    match term(&v, bytes, 1) {
        Err(refusal) => refused(refusal),
        Ok(term) => {
            let complete = complete(&v, &term.read.tree);
            assert_eq!(complete, term.gap.is_none());
            let gap = term.gap.unwrap_or(bytes.len());
            [0, term.words, term.deepest, complete as u64, gap as u64]
        }
    }
}

/// Whether a term has no name, no 255, and all places written.
fn complete(v: &Vocabulary, tree: &Tree) -> bool {
    match tree {
        Tree::Any | Tree::Name(_) => false,
        Tree::Word(word, terms) => {
            let places = &v.words[*word as usize].places;
            let mut both = places.iter().zip(terms);
            both.all(|(place, term)| match term {
                Some(term) => complete(v, term),
                None => place.is_none(),
            })
        }
    }
}

type Parts = HashMap<u8, (Tree, u16, u16)>;

fn fits(pattern: &Tree, read: &Read, parts: &mut Parts) -> bool {
    match pattern {
        Tree::Any => true,
        Tree::Name(name) => match parts.get(name) {
            Some((tree, _, _)) => *tree == read.tree,
            None => {
                let part = (
                    read.tree.clone(),
                    read.start as u16,
                    (read.end - read.start) as u16,
                );
                parts.insert(*name, part);
                true
            }
        },
        Tree::Word(word, terms) => {
            let Tree::Word(other, _) = read.tree else {
                return false;
            };
            *word == other
                && terms
                    .iter()
                    .zip(&read.below)
                    .all(|(term, read)| match (term, read) {
                        (None, _) => true,
                        (Some(term), Some(read)) => fits(term, read, parts),
                        (Some(_), None) => false,
                    })
        }
    }
}

fn parts(
    v: &[u8],
    pattern: &[u8],
    situation: &[u8],
    length: usize,
) -> Result<Option<Parts>, Refusal> {
    let v = vocabulary(v)?;
    let one = term(&v, pattern, 1)?;
    let two = term(&v, situation, 2)?;
    if let Some(gap) = two.gap {
        return Err([16, 2, gap as u64]);
    }
    if pattern[0] != situation[0] {
        return Err([17, 2, 0]);
    }
    if length != 128 {
        return Err([19, 3, 0]);
    }
    let mut parts = HashMap::new();
    Ok(fits(&one.read.tree, &two.read, &mut parts).then_some(parts))
}

pub fn match_pattern(v: &[u8], pattern: &[u8], situation: &[u8], table: &mut [u16]) -> Reply {
    match parts(v, pattern, situation, table.len()) {
        Err(refusal) => refused(refusal),
        Ok(None) => accepted(0, 0),
        Ok(Some(parts)) => {
            for name in 0..64u8 {
                let part = parts.get(&name).map_or((0, 0), |part| (part.1, part.2));
                table[2 * name as usize] = part.0;
                table[2 * name as usize + 1] = part.1;
            }
            accepted(1, 0)
        }
    }
}

pub fn part(v: &[u8], pattern: &[u8], situation: &[u8], name: u64) -> Reply {
    if let (Ok(Some(parts)), Ok(name)) = (parts(v, pattern, situation, 128), u8::try_from(name)) {
        if let Some(part) = parts.get(&name) {
            return accepted(part.1 as u64, part.2 as u64);
        }
    }
    accepted(0, 0)
}

/// The listing of a term, in order, without entries that no situation fits; at
/// each depth, since a term with such a term in it fits nothing. It may end
/// early when it has more than so many bytes.
fn leftovers(v: &Vocabulary, tree: &Tree, most: usize) -> Vec<Tree> {
    let mut list = Vec::new();
    let mut bytes = 0;
    if let Tree::Word(word, terms) = tree {
        let kind = v.words[*word as usize].result;
        for (number, other) in v.words.iter().enumerate() {
            let entry = Tree::Word(number as u8, vec![None; 8]);
            let other = other.result == kind && number != *word as usize;
            if other && fitted(v, kind, Some(&entry)) {
                list.push(entry);
            }
        }
        for (bit, term) in terms.iter().enumerate() {
            for entry in term.iter().flat_map(|term| leftovers(v, term, most)) {
                let mut places = vec![None; 8];
                places[..bit].clone_from_slice(&terms[..bit]);
                places[bit] = Some(entry);
                let entry = Tree::Word(*word, places);
                if fitted(v, kind, Some(&entry)) {
                    bytes += length(&entry);
                    list.push(entry);
                }
                if bytes > most {
                    return list;
                }
            }
        }
    }
    list
}

/// The number of bytes of a term without kind byte.
fn length(tree: &Tree) -> usize {
    match tree {
        Tree::Word(_, terms) => 2 + terms.iter().flatten().map(length).sum::<usize>(),
        _ => 1,
    }
}

fn write(tree: &Tree, out: &mut Vec<u8>) {
    match tree {
        Tree::Any => out.push(255),
        Tree::Name(name) => out.push(128 + name),
        Tree::Word(word, terms) => {
            out.push(*word);
            let bits = terms.iter().enumerate().filter(|(_, term)| term.is_some());
            out.push(bits.map(|(bit, _)| 1u8 << bit).sum());
            terms.iter().flatten().for_each(|term| write(term, out));
        }
    }
}

pub fn entries(v: &[u8], pattern: &[u8]) -> Result<Vec<Vec<u8>>, Refusal> {
    let v = vocabulary(v)?;
    let read = term(&v, pattern, 1)?;
    if let Some(second) = read.second {
        return Err([18, 1, second as u64]);
    }
    let (kind, tree) = (pattern[0], &read.read.tree);
    let entries = if fitted(&v, kind, Some(tree)) {
        leftovers(&v, tree, usize::MAX)
    } else if v.inhabited[kind as usize] {
        vec![Tree::Any]
    } else {
        vec![]
    };
    Ok(entries
        .iter()
        .map(|entry| {
            let mut bytes = vec![pattern[0]];
            write(entry, &mut bytes);
            bytes
        })
        .collect())
}

pub fn list(v: &[u8], pattern: &[u8], out: &mut [u8]) -> Reply {
    let entries = match entries(v, pattern) {
        Ok(entries) => entries,
        Err(refusal) => return refused(refusal),
    };
    let whole = entries.concat();
    if whole.len() > out.len() {
        return refused([20, 3, whole.len() as u64]);
    }
    out[..whole.len()].copy_from_slice(&whole);
    accepted(entries.len() as u64, whole.len() as u64)
}

/// The complete term of a kind that begins at an offset, and the offset behind
/// it; or else the offset of the first byte that is amiss.
fn filling(
    v: &Vocabulary,
    bytes: &[u8],
    at: usize,
    kind: u8,
    level: u64,
) -> Result<(Tree, usize), usize> {
    let number = *bytes.get(at).ok_or(at)?;
    let word = v.words.get(number as usize).ok_or(at)?;
    if level == 33 || word.result != kind {
        return Err(at);
    }
    let map = *bytes.get(at + 1).ok_or(at + 1)?;
    if (0..8).any(|bit| (map >> bit & 1 == 1) != word.places[bit].is_some()) {
        return Err(at + 1);
    }
    let mut end = at + 2;
    let mut terms = Vec::new();
    for place in &word.places {
        terms.push(match place {
            Some(kind) => {
                let (tree, behind) = filling(v, bytes, end, *kind, level + 1)?;
                end = behind;
                Some(tree)
            }
            None => None,
        });
    }
    Ok((Tree::Word(number, terms), end))
}

fn put_in(tree: &Tree, given: &HashMap<u8, Tree>) -> Tree {
    match tree {
        Tree::Any => Tree::Any,
        Tree::Name(name) => given[name].clone(),
        Tree::Word(word, terms) => {
            let terms = terms
                .iter()
                .map(|term| term.as_ref().map(|term| put_in(term, given)));
            Tree::Word(*word, terms.collect())
        }
    }
}

fn levels(tree: &Tree) -> usize {
    match tree {
        Tree::Word(_, terms) => 1 + terms.iter().flatten().map(levels).max().unwrap_or(0),
        _ => 1,
    }
}

fn filled(v: &[u8], pattern: &[u8], file: &[u8]) -> Result<Vec<u8>, Refusal> {
    let v = vocabulary(v)?;
    let read = term(&v, pattern, 1)?;
    if file.len() < 8 {
        return Err([21, 4, 0]);
    }
    for name in 0..64 {
        let stands = file[name as usize / 8] >> (name % 8) & 1 == 1;
        if stands != read.names.contains_key(&name) {
            return Err([21, 4, name as u64]);
        }
    }
    let mut at = 8;
    let mut given = HashMap::new();
    for name in 0..64 {
        let Some(&kind) = read.names.get(&name) else {
            continue;
        };
        let (tree, behind) =
            filling(&v, file, at, kind, 1).map_err(|place| [22, 4, place as u64])?;
        at = behind;
        given.insert(name, tree);
    }
    if at < file.len() {
        return Err([22, 4, at as u64]);
    }
    let result = put_in(&read.read.tree, &given);
    let mut bytes = vec![pattern[0]];
    write(&result, &mut bytes);
    if bytes.len() > 4096 || levels(&result) > 32 {
        return Err([23, 4, 0]);
    }
    Ok(bytes)
}

pub fn fill(v: &[u8], pattern: &[u8], file: &[u8], out: &mut [u8]) -> Reply {
    match filled(v, pattern, file) {
        Err(refusal) => refused(refusal),
        Ok(bytes) if bytes.len() > out.len() => refused([20, 3, bytes.len() as u64]),
        Ok(bytes) => {
            out[..bytes.len()].copy_from_slice(&bytes);
            accepted(bytes.len() as u64, 0)
        }
    }
}

/// The patterns of a book, all of one kind.
fn patterns(v: &Vocabulary, book: &[u8]) -> Result<Vec<Tree>, Refusal> {
    let count = match book.first() {
        Some(&count) if (1..=64).contains(&count) => count,
        _ => return Err([24, 5, 0]),
    };
    let mut trees = Vec::new();
    let mut at = 1;
    for _ in 0..count {
        let start = at;
        if book.len() < start + 2 {
            return Err([7, 5, start as u64]);
        }
        if book[start] >= v.kinds {
            return Err([8, 5, start as u64]);
        }
        let mut reader = Reader {
            v,
            bytes: book,
            input: 5,
            pattern: Some(start),
            names: HashMap::new(),
            words: 0,
            deepest: 0,
            gap: None,
            second: None,
        };
        let read = reader.term(start + 1, book[start], 1)?;
        if let Some(second) = reader.second {
            return Err([18, 5, second as u64]);
        }
        if book[start] != book[1] {
            return Err([25, 5, start as u64]);
        }
        at = read.end;
        trees.push(read.tree);
    }
    if at < book.len() {
        return Err([15, 5, at as u64]);
    }
    Ok(trees)
}

/// A term of a pattern as an entry has it: each name is an open place.
fn without_names(tree: &Tree) -> Option<Tree> {
    match tree {
        Tree::Any | Tree::Name(_) => None,
        Tree::Word(word, terms) => {
            let terms = terms.iter().map(|term| without_names(term.as_ref()?));
            Some(Tree::Word(*word, terms.collect()))
        }
    }
}

/// Whether a complete situation fits the terms of an entry and of a pattern at
/// a place of a kind.
fn share(v: &Vocabulary, kind: u8, entry: Option<&Tree>, pattern: Option<&Tree>) -> bool {
    match (entry, pattern) {
        (Some(Tree::Word(word, terms)), Some(Tree::Word(other, others))) => {
            let places = v.words[*word as usize].places.iter();
            let mut all = places.zip(terms).zip(others);
            word == other
                && all.all(|((place, term), other)| {
                    place.is_none_or(|kind| share(v, kind, term.as_ref(), other.as_ref()))
                })
        }
        (Some(Tree::Word(..)), _) => fitted(v, kind, entry),
        _ => fitted(v, kind, pattern),
    }
}

/// What an entry and a pattern that share a situation both allow at a place.
fn both(entry: &Option<Tree>, pattern: &Option<Tree>) -> Option<Tree> {
    match (entry, pattern) {
        (None, pattern) => without_names(pattern.as_ref()?),
        (Some(Tree::Word(word, terms)), Some(Tree::Word(_, others))) => {
            let terms = terms
                .iter()
                .zip(others)
                .map(|(term, other)| both(term, other));
            Some(Tree::Word(*word, terms.collect()))
        }
        (entry, _) => entry.clone(),
    }
}

/// The own leftovers of an entry against a pattern with which it shares a
/// situation, without those that no situation fits. The list may end early when
/// it has more than 32,768 bytes.
fn own_leftovers(v: &Vocabulary, entry: &Tree, pattern: &Tree) -> Vec<Tree> {
    let mut list = Vec::new();
    match (entry, pattern) {
        (_, Tree::Any | Tree::Name(_)) => (),
        (Tree::Any | Tree::Name(_), pattern) => {
            let term = without_names(pattern).unwrap();
            list = leftovers(v, &term, 32_768);
        }
        (Tree::Word(word, terms), Tree::Word(_, others)) => {
            let mut bytes = 0;
            for bit in 0..8 {
                let term = terms[bit].as_ref().unwrap_or(&Tree::Any);
                let other = others[bit].as_ref().unwrap_or(&Tree::Any);
                for left in own_leftovers(v, term, other) {
                    let mut places = terms.clone();
                    for lower in 0..bit {
                        places[lower] = both(&terms[lower], &others[lower]);
                    }
                    places[bit] = Some(left);
                    let left = Tree::Word(*word, places);
                    if fitted(v, v.words[*word as usize].result, Some(&left)) {
                        bytes += length(&left);
                        list.push(left);
                    }
                    if bytes > 32_768 {
                        return list;
                    }
                }
            }
        }
    }
    list
}

/// The entries of a book, each with its kind byte.
pub fn book_entries(v: &[u8], book: &[u8]) -> Result<Vec<Vec<u8>>, Refusal> {
    let v = vocabulary(v)?;
    let patterns = patterns(&v, book)?;
    let kind = book[1];
    let mut entries = vec![];
    if v.inhabited[kind as usize] {
        entries.push(Tree::Any);
    }
    for (number, pattern) in patterns.iter().enumerate() {
        let too_long = Err([26, 5, number as u64]);
        let mut next = Vec::new();
        let mut bytes = 0;
        for entry in entries {
            let from = next.len();
            if share(&v, kind, Some(&entry), Some(pattern)) {
                next.extend(own_leftovers(&v, &entry, pattern));
            } else {
                next.push(entry);
            }
            for entry in &next[from..] {
                assert!(fitted(&v, kind, Some(entry)));
                bytes += 1 + length(entry);
                if bytes > 32_768 || 1 + length(entry) > 4096 {
                    return too_long;
                }
            }
        }
        entries = next;
    }
    let bytes = entries.iter().map(|entry| {
        let mut bytes = vec![book[1]];
        write(entry, &mut bytes);
        bytes
    });
    Ok(bytes.collect())
}

pub fn list_book(v: &[u8], book: &[u8], out: &mut [u8]) -> Reply {
    let entries = match book_entries(v, book) {
        Ok(entries) => entries,
        Err(refusal) => return refused(refusal),
    };
    let whole = entries.concat();
    if whole.len() > out.len() {
        return refused([20, 3, whole.len() as u64]);
    }
    out[..whole.len()].copy_from_slice(&whole);
    accepted(entries.len() as u64, whole.len() as u64)
}

pub fn program(input: &[u8]) -> String {
    let input: Vec<u8> = input.iter().copied().take(65_536).collect();
    let mut v = vec![];
    let mut pattern = vec![];
    if input.len() >= 2 {
        let length = input[0] as usize * 256 + input[1] as usize;
        v = input[2..].iter().copied().take(length).collect();
        pattern = input[2..].iter().copied().skip(length).collect();
    }
    let reply = list(&v, &pattern, &mut vec![0; 65_536]);
    if reply[0] != 0 {
        return format!("refused {} {} {}\n", reply[0], reply[1], reply[2]);
    }
    let mut text = format!("leftovers {}\n", reply[1]);
    for (number, entry) in entries(&v, &pattern).unwrap().iter().enumerate() {
        let hex: String = entry.iter().map(|byte| format!("{byte:02x}")).collect();
        text += &format!("{} {}\n", number + 1, hex);
    }
    text
}
