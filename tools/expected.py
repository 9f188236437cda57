#!/usr/bin/env python3
"""Makes what the programs `examples`, `families`, `leftovers` and `desk` must write, by a second implementation of
document 01 and of the requests to it.

  python3 tools/expected.py examples > crates/examples/stdout
  python3 tools/expected.py families > crates/families/stdout
  python3 tools/expected.py long-input > crates/leftovers/stdin
  python3 tools/expected.py leftovers > crates/leftovers/stdout
  python3 tools/expected.py desk < examples/bench.step

The cases of `examples` stand in crates/examples/stdin; crates/examples/src/cases.rt says how a line is
written. The calls below are a second reading of document 01's sentences. They share no code with the
crates, but they were written with the crates' code in view, so they are no blind second opinion. Values
worked out by hand stand in the functions whose names end in `by_hand`, which run first.
"""
import re
import sys
from dataclasses import dataclass, field
from itertools import combinations, product
from pathlib import Path

# ---------------------------------------------------------------- inputs and refusals

VOCABULARY, PATTERN, SITUATION, LENT, FILLING, BOOK = 0, 1, 2, 3, 4, 5
DEEPEST_LEVEL = 32
MOST_BYTES = 4096
MOST_PATTERNS = 64
MOST_BYTES_OF_ENTRIES = 32768


class Refused(Exception):
    """A line of the refusal list: its number, the input, and the place."""

    def __init__(self, number, given, place):
        super().__init__(number, given, place)
        self.reply = f"refused {number} {given} {place}"


# ---------------------------------------------------------------- vocabularies


@dataclass
class Word:
    """A record: the word's result kind, and the kind of each of its places by the place's bit."""

    result: int
    places: dict  # bit number -> kind, in ascending order


@dataclass
class Vocabulary:
    """The number of kinds, the words, and the kinds that have a complete situation."""

    kinds: int
    words: list
    having: set


def bits(number):
    """The standing bits of a map, lowest first."""
    return [bit for bit in range(8) if number >> bit & 1]


def read_vocabulary(data):
    """The vocabulary that the bytes write; Refused by lines 1 to 5. "6 no longer occurs": a kind may have no situation."""
    if len(data) < 2 or not 1 <= data[0] <= 16:
        raise Refused(1, VOCABULARY, 0)
    if not 1 <= data[1] <= 96:
        raise Refused(2, VOCABULARY, 1)
    at = 2

    def due():
        nonlocal at
        if at == len(data):
            raise Refused(3, VOCABULARY, at)
        at += 1
        return data[at - 1]

    def kind_due():
        kind = due()
        if kind >= data[0]:
            raise Refused(4, VOCABULARY, at - 1)
        return kind

    words = []
    for _ in range(data[1]):
        result = kind_due()
        place_map = due()
        words.append(Word(result, {bit: kind_due() for bit in bits(place_map)}))
    if at < len(data):
        raise Refused(5, VOCABULARY, at)
    return Vocabulary(data[0], words, kinds_with_situations(words))


def kinds_with_situations(words):
    """The kinds that have a complete situation: a word whose places' kinds all have one gives one."""
    having = set()
    while True:
        more = {w.result for w in words if having.issuperset(w.places.values())}
        if more <= having:
            return having
        having |= more


# ---------------------------------------------------------------- terms


@dataclass
class Written:
    """Where a term is written: the offset of its first byte and the offset behind its last. Trees are compared without it."""

    start: int = field(default=0, compare=False, kw_only=True)
    end: int = field(default=0, compare=False, kw_only=True)


@dataclass
class Name(Written):
    number: int


@dataclass
class Anything(Written):
    """255 at the root."""


@dataclass
class Node(Written):
    """A word, with the term at each written place; the word's other places are open."""

    word: int
    written: dict = field(default_factory=dict)


def read_at(vocabulary, data, start, given):
    """The kind and the tree of the term whose kind byte stands at an offset, and the offset behind it; Refused by
    lines 8 to 14, and in a book by line 7 where a 4,097th byte is due."""
    if data[start] >= vocabulary.kinds:
        raise Refused(8, given, start)
    kind_of_name = {}

    def due(at):
        """Refused where there is no byte that may be read."""
        if given == BOOK and at == start + MOST_BYTES:
            raise Refused(7, given, start)
        if at >= len(data):
            raise Refused(9, given, at)

    def lines_that_fit(byte, kind, level):
        """The lines of 10 to 13 that fit the byte where a term of a kind is due."""
        if level > DEEPEST_LEVEL:
            yield 10
        if byte < len(vocabulary.words):
            if vocabulary.words[byte].result != kind:
                yield 12
        elif 128 <= byte <= 191:
            if kind_of_name.get(byte - 128, kind) != kind:
                yield 13
        elif not (byte == 255 and level == 1):
            yield 11

    def term_from(at, kind, level):
        """The term that begins at an offset, and the offset behind it."""
        due(at)
        faults = list(lines_that_fit(data[at], kind, level))
        if faults:
            raise Refused(min(faults), given, at)
        if data[at] == 255:
            return Anything(start=at, end=at + 1), at + 1
        if data[at] >= 128:
            kind_of_name[data[at] - 128] = kind
            return Name(data[at] - 128, start=at, end=at + 1), at + 1
        node, places = Node(data[at], start=at), vocabulary.words[data[at]].places
        at += 1
        due(at)
        if not places.keys() >= set(bits(data[at])):
            raise Refused(14, given, at)
        written = bits(data[at])
        at += 1
        for bit in written:
            node.written[bit], at = term_from(at, places[bit], level + 1)
        node.end = at
        return node, at

    tree, end = term_from(start + 1, data[start], 1)
    return data[start], tree, end


def read_term(vocabulary, data, given=PATTERN):
    """The kind and the tree that the bytes write; Refused by lines 7 to 15."""
    if not 2 <= len(data) <= MOST_BYTES:
        raise Refused(7, given, 0)
    kind, tree, end = read_at(vocabulary, data, 0, given)
    if end < len(data):
        raise Refused(15, given, end)
    return kind, tree


def word_count(tree):
    if isinstance(tree, Node):
        return 1 + sum(word_count(below) for below in tree.written.values())
    return 0


def deepest_level(tree):
    if isinstance(tree, Node):
        return 1 + max((deepest_level(below) for below in tree.written.values()), default=0)
    return 1


def first_gap(vocabulary, tree):
    """The offset of a term's first name, 255 or short map; None if the term is complete."""
    if not isinstance(tree, Node):
        return tree.start
    if tree.written.keys() != vocabulary.words[tree.word].places.keys():
        return tree.start + 1
    gaps = (first_gap(vocabulary, below) for below in tree.written.values())
    return next((gap for gap in gaps if gap is not None), None)


# ---------------------------------------------------------------- fillings


class NoFilling(Exception):
    """A word of the pattern differs from the situation's."""


def only_filling(pattern, situation):
    """The one filling that can turn a pattern into a situation: what it gives each name, and each open place
    or 255 from the left. A name's first occurrence decides on what the name gets."""
    named, nameless = {}, []

    def meet(pattern, situation):
        if isinstance(pattern, Name):
            named.setdefault(pattern.number, situation)
        elif isinstance(pattern, Anything):
            nameless.append(situation)
        elif pattern.word != situation.word:
            raise NoFilling
        else:
            for bit, below in situation.written.items():
                if bit in pattern.written:
                    meet(pattern.written[bit], below)
                else:
                    nameless.append(below)

    meet(pattern, situation)
    return named, nameless


def carried_out(vocabulary, pattern, named, nameless):
    """The term that a filling turns a pattern into."""
    nameless = iter(nameless)

    def fill(pattern):
        if isinstance(pattern, Name):
            return named[pattern.number]
        if isinstance(pattern, Anything):
            return next(nameless)
        places = vocabulary.words[pattern.word].places
        return Node(pattern.word, {bit: fill(pattern.written[bit]) if bit in pattern.written else next(nameless) for bit in places})

    return fill(pattern)


def is_fitted(vocabulary, kind, term):
    """Whether some complete situation fits a term of a kind, in which no name stands twice: whether each name, each open
    place (None) and a 255 can be given a complete term of the kind due there."""
    if not isinstance(term, Node):
        return kind in vocabulary.having
    return all(is_fitted(vocabulary, below, term.written.get(bit)) for bit, below in vocabulary.words[term.word].places.items())


# ---------------------------------------------------------------- leftovers


def writing(tree):
    """A term's bytes."""
    if isinstance(tree, Anything):
        return bytes([255])
    if isinstance(tree, Name):
        return bytes([128 + tree.number])
    return bytes([tree.word, map_of(tree.written)]) + b"".join(writing(tree.written[bit]) for bit in sorted(tree.written))


def map_of(written):
    return sum(1 << bit for bit in written)


def listing_order(vocabulary, tree):
    """The entries that document 01's listing order has for a term, each written out; none for 255, a name or an open place."""
    if not isinstance(tree, Node):
        return
    for number, word in enumerate(vocabulary.words):
        if number != tree.word and word.result == vocabulary.words[tree.word].result:
            yield writing(Node(number))
    for place in sorted(tree.written):
        lower = sorted(bit for bit in tree.written if bit < place)
        start = bytes([tree.word, map_of([*lower, place])]) + b"".join(writing(tree.written[bit]) for bit in lower)
        for entry in listing_order(vocabulary, tree.written[place]):
            yield start + entry


def listing(vocabulary, kind, tree):
    """The entries of a pattern's listing, each written out with its kind byte."""
    # "If no complete situation fits the pattern, the listing is 255 alone, or nothing where the kind itself has none."
    if not is_fitted(vocabulary, kind, tree):
        if kind in vocabulary.having:
            yield bytes([kind, 255])
        return
    # Where every kind has situations, every term is fitted.
    every = len(vocabulary.having) == vocabulary.kinds
    for written in listing_order(vocabulary, tree):
        entry = bytes([kind]) + written
        # "leaves out every entry that no complete situation fits"
        if every or is_fitted(vocabulary, *read_term(vocabulary, entry)):
            yield entry


def names_in(tree):
    """A term's names, from the front."""
    if isinstance(tree, Name):
        yield tree
    elif isinstance(tree, Node):
        for bit in sorted(tree.written):
            yield from names_in(tree.written[bit])


def no_name_twice(tree, given):
    """Refused by line 18."""
    stood = set()
    for name in names_in(tree):
        if name.number in stood:
            raise Refused(18, given, name.start)
        stood.add(name.number)


# ---------------------------------------------------------------- filling files


def kinds_of_names(vocabulary, kind, tree):
    """The kind that is due where each name of a term stands."""
    if isinstance(tree, Name):
        return {tree.number: kind}
    kinds = {}
    if isinstance(tree, Node):
        for bit, below in tree.written.items():
            kinds |= kinds_of_names(vocabulary, vocabulary.words[tree.word].places[bit], below)
    return kinds


def read_complete(vocabulary, data, at, kind, level=1):
    """The complete term of a kind that begins at an offset, and the offset behind it; Refused by line 22."""
    if at >= len(data) or level > DEEPEST_LEVEL or data[at] >= len(vocabulary.words):
        raise Refused(22, FILLING, at)
    word = vocabulary.words[data[at]]
    if word.result != kind:
        raise Refused(22, FILLING, at)
    if at + 1 >= len(data) or bits(data[at + 1]) != list(word.places):
        raise Refused(22, FILLING, at + 1)
    node, at = Node(data[at], start=at), at + 2
    for bit, below in word.places.items():
        node.written[bit], at = read_complete(vocabulary, data, at, below, level + 1)
    node.end = at
    return node, at


def read_filling(vocabulary, kinds, data):
    """The term that a filling file gives each name, of which the kinds are handed over; Refused by lines 21 and 22."""
    if len(data) < 8:
        raise Refused(21, FILLING, 0)
    marked = {8 * byte + bit for byte in range(8) for bit in bits(data[byte])}
    differing = marked ^ kinds.keys()
    if differing:
        raise Refused(21, FILLING, min(differing))
    given, at = {}, 8
    for name in sorted(marked):
        given[name], at = read_complete(vocabulary, data, at, kinds[name])
    if at < len(data):
        raise Refused(22, FILLING, at)
    return given


def replaced(tree, given):
    """The term with each of its names replaced; open places and 255 stay."""
    if isinstance(tree, Name):
        return given[tree.number]
    if isinstance(tree, Anything):
        return tree
    return Node(tree.word, {bit: replaced(below, given) for bit, below in tree.written.items()})


# ---------------------------------------------------------------- books


def read_book(vocabulary, data):
    """The kind of a book's patterns and their trees; Refused by lines 7 to 15, 18, 24 and 25."""
    if not data or not 1 <= data[0] <= MOST_PATTERNS:
        raise Refused(24, BOOK, 0)
    kinds, trees, at = [], [], 1
    for _ in range(data[0]):
        start = at
        if len(data) < start + 2:
            raise Refused(7, BOOK, start)
        kind, tree, at = read_at(vocabulary, data, start, BOOK)
        no_name_twice(tree, BOOK)
        kinds.append(kind)
        if kind != kinds[0]:
            raise Refused(25, BOOK, start)
        trees.append(tree)
    if at < len(data):
        raise Refused(15, BOOK, at)
    return kinds[0], trees


# Below, None stands for an open place, and for 255 where it is a whole entry.


def word_with(word, terms):
    """A word with the terms given by place, of which those that are open are not written."""
    return Node(word, {bit: term for bit, term in terms.items() if term is not None})


def without_names(term):
    """A term taken over from a pattern: each name is an open place, and so is 255."""
    if not isinstance(term, Node):
        return None
    return word_with(term.word, {bit: without_names(below) for bit, below in term.written.items()})


def share_a_situation(vocabulary, kind, entry, pattern):
    """Whether some complete situation fits an entry's term and a pattern's, both of a kind. No name stands twice, so one
    does if at each place one does."""
    if not isinstance(entry, Node):
        return is_fitted(vocabulary, kind, pattern)
    if not isinstance(pattern, Node):
        return is_fitted(vocabulary, kind, entry)
    places = vocabulary.words[entry.word].places
    return entry.word == pattern.word and all(
        share_a_situation(vocabulary, below, entry.written.get(bit), pattern.written.get(bit)) for bit, below in places.items()
    )


def what_both_allow(entry, pattern):
    """The term that the same situations fit as fit an entry's term and a pattern's, which share one."""
    if not isinstance(pattern, Node):
        return entry
    if entry is None:
        return without_names(pattern)
    written = sorted(entry.written.keys() | pattern.written.keys())
    return word_with(entry.word, {bit: what_both_allow(entry.written.get(bit), pattern.written.get(bit)) for bit in written})


def leftovers_against(vocabulary, entry, pattern):
    """The leftovers of an entry's term against a pattern's term with which it shares a situation."""
    # "where the pattern is open, named or 255, none"
    if not isinstance(pattern, Node):
        return
    # "where the entry is open or 255, the listing of the pattern's term there"
    if entry is None:
        kind = bytes([vocabulary.words[pattern.word].result])
        for written in listing_order(vocabulary, pattern):
            _, tree = read_term(vocabulary, kind + written)
            yield without_names(tree)
        return
    # "where both have the same word, its places in order, lower places holding what both allow, higher ones as in the entry"
    places = vocabulary.words[entry.word].places
    for place in places:
        lower = {bit: what_both_allow(entry.written.get(bit), pattern.written.get(bit)) for bit in places if bit < place}
        higher = {bit: entry.written.get(bit) for bit in places if bit > place}
        for left in leftovers_against(vocabulary, entry.written.get(place), pattern.written.get(place)):
            yield word_with(entry.word, lower | {place: left} | higher)


def left_after(vocabulary, kind, entries, pattern):
    """The entries left after one more pattern."""
    for entry in entries:
        shared = share_a_situation(vocabulary, kind, entry, pattern)
        for left in leftovers_against(vocabulary, entry, pattern) if shared else [entry]:
            # "A listing, in a book after each pattern, now leaves out every entry that no complete situation fits."
            if is_fitted(vocabulary, kind, left):
                yield left


def book_listing(vocabulary, kind, patterns):
    """The entries that the patterns of a book leave, each written out with its kind byte; Refused by line 26."""
    # "Books start with no entry for such a kind."
    entries = [None] if kind in vocabulary.having else []
    for number, pattern in enumerate(patterns):
        left, length = [], 0
        for entry in left_after(vocabulary, kind, entries, pattern):
            left.append(entry)
            size = 2 if entry is None else 1 + len(writing(entry))
            length += size
            if size > MOST_BYTES or length > MOST_BYTES_OF_ENTRIES:
                raise Refused(26, BOOK, number)
        entries = left
    return [bytes([kind]) + (bytes([255]) if entry is None else writing(entry)) for entry in entries]


# ---------------------------------------------------------------- the calls


def reply(call, *given):
    """A call's reply in document 01's numbers."""
    try:
        return " ".join(["accepted", *map(str, call(*given))])
    except Refused as refusal:
        return refusal.reply


def check_vocabulary(vocabulary):
    read_vocabulary(vocabulary)
    return ()


def check_term(vocabulary, term):
    """The number of words, the deepest level, 1 if the term is complete and 0 if not, and where its first gap is, which is
    its length if it is complete."""
    vocabulary = read_vocabulary(vocabulary)
    _, tree = read_term(vocabulary, term)
    gap = first_gap(vocabulary, tree)
    return word_count(tree), deepest_level(tree), *((1, len(term)) if gap is None else (0, gap))


def covered(vocabulary, pattern, situation):
    """What each name of the pattern covers if the situation fits it, None if not; Refused by lines 1 to 17."""
    vocabulary = read_vocabulary(vocabulary)
    pattern_kind, pattern_tree = read_term(vocabulary, pattern, PATTERN)
    situation_kind, situation_tree = read_term(vocabulary, situation, SITUATION)
    gap = first_gap(vocabulary, situation_tree)
    if gap is not None:
        raise Refused(16, SITUATION, gap)
    if pattern_kind != situation_kind:
        raise Refused(17, SITUATION, 0)
    try:
        named, nameless = only_filling(pattern_tree, situation_tree)
    except NoFilling:
        return None
    if carried_out(vocabulary, pattern_tree, named, nameless) != situation_tree:
        return None
    return named


def match(vocabulary, pattern, situation, table):
    """Match's answer, yes or no; a yes fills the table."""
    named = covered(vocabulary, pattern, situation)
    if len(table) != 128:
        raise Refused(19, LENT, 0)
    if named is None:
        return "no"
    table[:] = [0] * 128
    for name, tree in named.items():
        table[2 * name] = tree.start
        table[2 * name + 1] = tree.end - tree.start
    return "yes"


def part(vocabulary, pattern, situation, name):
    """The bytes of the situation that a name covers."""
    try:
        named = covered(vocabulary, pattern, situation)
    except Refused:
        return b""
    if named is None or name not in named:
        return b""
    return situation[named[name].start : named[name].end]


def list_leftovers(vocabulary, pattern, out):
    """List's answer, the number of entries and of bytes; they stand at the front of out then."""
    vocabulary = read_vocabulary(vocabulary)
    kind, tree = read_term(vocabulary, pattern, PATTERN)
    no_name_twice(tree, PATTERN)
    entries = length = 0
    for entry in listing(vocabulary, kind, tree):
        entries, length = entries + 1, length + len(entry)
    if length > len(out):
        raise Refused(20, LENT, length)
    out[:length] = b"".join(listing(vocabulary, kind, tree))
    return entries, length


def fill(vocabulary, pattern, filling, out):
    """Fill's answer, the result's length; the result stands at the front of out then."""
    vocabulary = read_vocabulary(vocabulary)
    kind, tree = read_term(vocabulary, pattern, PATTERN)
    given = read_filling(vocabulary, kinds_of_names(vocabulary, kind, tree), filling)
    result = replaced(tree, given)
    written = bytes([kind]) + writing(result)
    if len(written) > MOST_BYTES or deepest_level(result) > DEEPEST_LEVEL:
        raise Refused(23, FILLING, 0)
    if len(written) > len(out):
        raise Refused(20, LENT, len(written))
    out[: len(written)] = written
    return len(written)


def list_book(vocabulary, book, out):
    """The answer of a book's listing, the number of entries and of bytes; they stand at the front of out then, in an
    order that is left open."""
    vocabulary = read_vocabulary(vocabulary)
    kind, patterns = read_book(vocabulary, book)
    entries = book_listing(vocabulary, kind, patterns)
    length = sum(len(entry) for entry in entries)
    if length > len(out):
        raise Refused(20, LENT, length)
    out[:length] = b"".join(entries)
    return len(entries), length


def printed(data):
    """What the program `leftovers` prints for its standard input."""
    data = data[:65536]
    end = 2 + int.from_bytes(data[:2], "big") if len(data) >= 2 else 2
    vocabulary, pattern = data[2:end], data[end:]
    try:
        entries, _ = list_leftovers(vocabulary, pattern, bytearray(65536))
    except Refused as refusal:
        return f"{refusal.reply}\n"
    vocabulary = read_vocabulary(vocabulary)
    kind, tree = read_term(vocabulary, pattern)
    lines = [f"{number} {entry.hex()}\n" for number, entry in enumerate(listing(vocabulary, kind, tree), 1)]
    return f"leftovers {entries}\n" + "".join(lines)


# ---------------------------------------------------------------- texts in the engineers' own words


MOST_KINDS, MOST_WORDS, MOST_PLACES, MOST_NAMES = 16, 96, 8, 64
LONGEST_NAME = 32
LONGEST_TEXT = 65535
LISTING_SPACE = 65536
PAGE = 1048576

# "Tab, line feed, carriage return and space", and a # up to the end of its line. A token is a name, a ? with or without a
# name behind it, or one other byte; the last one of a text is empty.
NAMES = rb"A-Za-z0-9_\-\x80-\xff"
BLANKS = re.compile(rb"(?:[ \t\n\r]|#[^\n]*)*")
TOKEN = re.compile(rb"[?" + NAMES + rb"][" + NAMES + rb"]*|.|\Z", re.DOTALL)
IDENTIFIER = re.compile(rb"(?!(?:_|kind)\Z)[" + NAMES + rb"]+\Z")
VARIABLE = re.compile(rb"\?[" + NAMES + rb"]+\Z")

LONG_NAME = b"32 bytes are the most for a name, and this one has more"
ONE_MORE = b"%d %bs are the most, and this is one more"
NO_KIND = b"the name of a kind is due here"
NO_PLACES = b"no places are due here, as what stands before takes none or has them all"
NO_WORDS = b"no kind up to here has a word; words stand behind =, as in kind button = up | down"
NO_MARK = b"a pattern is due here; no mark stands between patterns, and the words of a kind stand behind =, with a | between them"

# What else is said where a pattern is due, by the token there.
NO_PATTERN = {b"(": NO_PLACES, b"kind": b"all kinds are declared before the first pattern"}
NO_PATTERN |= {b",": NO_MARK, b"|": NO_MARK, b"=": NO_MARK}

# What some editors put before a text.
BYTE_ORDER_MARK = b"\xef\xbb\xbf"

# What an answer has beside patterns and entries.
LEFTOVERS, END_OF_LEFTOVERS, END_OF_PATTERNS = b"# %d leftovers:", b"# end of %d leftovers", b"# end of %d patterns"
NOT_LISTED = b"leftovers not listed, as the list has %d bytes and 65536 are the most"
TOO_LONG = b"the answer has more than 1048576 bytes, which are the most: ask for fewer patterns at a time\n"
NO_SITUATION = b"# kind %b has no complete situation"
TOGETHER = b"all %d patterns of %b together"
TOO_MANY = b"leftovers of %b not listed, as 64 patterns are the most"
PAST = b"leftovers of %b not listed, as behind pattern %d of them they have more than 32768 bytes, or one of them more than 4096"


class Faulty(Exception):
    """A fault of a text: what is wrong, and the offset at which it stands."""

    def __init__(self, why, at):
        super().__init__(why, at)
        self.why, self.at = why, at


@dataclass
class Phrase:
    """A pattern of a text, and the situations that it is asked about. Its variables are numbered as they stand; without a
    label this is empty."""

    label: bytes
    kind: int
    tree: Written
    variables: list
    situations: list


class Differs(Exception):
    """What is said of a situation before the first word that differs, and the word that the pattern has there."""

    def __init__(self, before, due):
        super().__init__(before, due)
        self.before, self.due = before, due


def columns(text):
    """The bytes that begin a character: 128 to 191 go on with one, and a carriage return is none."""
    return [byte for byte in text if not 128 <= byte <= 191 and byte != 13]


class Text:
    """A text in order: the names of its kinds and words, the vocabulary, where the patterns begin, and the patterns; Faulty
    where it is none."""

    def __init__(self, data):
        if len(data) > LONGEST_TEXT:
            raise Faulty(b"65535 bytes are the most for a text, and this one has more", LONGEST_TEXT)
        self.lexemes, at = [], 0
        while not self.lexemes or self.token(-1) != b"":
            start = BLANKS.match(data, at).end()
            at = TOKEN.match(data, start).end()
            self.lexemes.append((data[start:at], start))
        self.kinds, self.words, self.records = [], [], []
        # The names behind each `kind` are gathered first, since a kind may be used before it is declared. What cannot be one more
        # kind's name is passed over here: it is judged where the reading comes to it.
        for (token, _), (name, _) in zip(self.lexemes, self.lexemes[1:]):
            named = token == b"kind" and IDENTIFIER.match(name) and len(name) <= LONGEST_NAME
            if named and name not in self.kinds and len(self.kinds) < MOST_KINDS:
                self.kinds.append(name)
        self.next = 0
        self.declarations()
        self.start = self.lexemes[self.next][1]
        self.vocabulary = Vocabulary(len(self.kinds), self.records, kinds_with_situations(self.records))
        self.phrases = []
        self.complete = False
        while self.token() != b"":
            self.phrases.append(self.phrase())
            while IDENTIFIER.match(self.token()) and self.token(self.next + 1) == b"?":
                self.phrases[-1].situations.append(self.question(self.phrases[-1]))

    def token(self, number=None):
        """A token, or the next one."""
        return self.lexemes[self.next if number is None else number][0]

    def fault(self, why):
        raise Faulty(why, self.lexemes[self.next][1])

    def taken(self, mark):
        """Whether the next token is such a mark, which is then behind us."""
        found = self.token() == mark
        self.next += found
        return found

    # ---- kinds and words

    def new_name(self, what, others, most, due):
        """The next token as the name of one more kind or word."""
        name, what = self.token(), what.encode()
        if not IDENTIFIER.match(name):
            self.fault(due)
        if len(name) > LONGEST_NAME:
            self.fault(LONG_NAME)
        if name in others:
            self.fault(b"%b %b is declared twice" % (what, name))
        if len(others) == most:
            self.fault(ONE_MORE % (most, what))
        return name

    def declarations(self):
        if self.token().startswith(BYTE_ORDER_MARK):
            self.fault(b"a byte order mark stands here, and a text begins with `kind`")
        if self.token() != b"kind":
            self.fault(b"`kind` is due here, as a text begins with its kinds")
        declared = []
        while self.taken(b"kind"):
            declared.append(self.new_name("kind", declared, MOST_KINDS, b"a name is due here, for the kind"))
            self.next += 1
            mark = b"="
            while self.taken(mark):
                self.word(len(declared) - 1)
                mark = b"|"
        if not self.words:
            self.fault(NO_WORDS)

    def word(self, kind):
        """A word with the kinds of its places."""
        self.words.append(self.new_name("word", self.words, MOST_WORDS, b"a name is due here, for a word"))
        self.next += 1
        places = {}
        if self.taken(b"("):
            places[0] = self.place(0)
            while not self.taken(b")"):
                if not self.taken(b","):
                    self.fault(b"a , or a ) is due here")
                places[len(places)] = self.place(len(places))
        self.records.append(Word(kind, places))

    def place(self, number):
        """The kind of a place, which may be declared later: where its `kind` could not be in order, this is told here."""
        name = self.token()
        if IDENTIFIER.match(name):
            if len(name) > LONGEST_NAME:
                self.fault(LONG_NAME)
            if name not in self.kinds and len(self.kinds) == MOST_KINDS:
                self.fault(b"kind %b is none of the first 16 kinds, and 16 are the most" % name)
        kind = self.known_kind()
        if number == MOST_PLACES:
            self.fault(ONE_MORE % (MOST_PLACES, b"place"))
        self.next += 1
        return kind

    def known_kind(self):
        """The number of the kind that the next token names."""
        if not IDENTIFIER.match(self.token()):
            self.fault(NO_KIND)
        if self.token() not in self.kinds:
            self.fault(b"kind %b is used and not declared" % self.token())
        return self.kinds.index(self.token())

    # ---- patterns

    def phrase(self):
        label = b""
        if IDENTIFIER.match(self.token()) and self.token(self.next + 1) == b":":
            label = self.token()
            if len(label) > LONGEST_NAME:
                self.fault(LONG_NAME)
            self.next += 2
        # The kind takes a byte.
        self.size, self.variables = 1, []
        token = self.token()
        if token == b"_" or VARIABLE.match(token):
            tree = self.term(None, 1) or Anything()
            if not self.taken(b":"):
                self.fault(b"a : and a kind are due here, as in _: step")
            kind = self.known_kind()
            self.next += 1
        elif IDENTIFIER.match(token):
            kind = self.records[self.words.index(token)].result if token in self.words else None
            tree = self.term(kind, 1)
        else:
            self.fault(NO_PATTERN.get(token, b"a pattern is due here"))
        return Phrase(label, kind, tree, self.variables, [])

    def question(self, phrase):
        """The situation that a pattern is asked about."""
        if self.token() != phrase.label:
            self.fault(b"a question begins with the label of the pattern before it, and this is another name")
        self.next += 2
        self.size, self.variables, self.complete = 1, [], True
        situation = self.term(phrase.kind, 1)
        self.complete = False
        return situation

    def term(self, kind, level):
        """A term of a kind; None for an open place."""
        token = self.token()
        if self.complete and (token == b"_" or VARIABLE.match(token)):
            # What is wrong with the variable itself is told first.
            here = self.next
            if token != b"_":
                self.variable(level)
            self.next = here
            self.fault(b"a situation has no open place and no name")
        if self.taken(b"_"):
            return None
        if VARIABLE.match(token):
            return self.variable(level)
        if not IDENTIFIER.match(token):
            self.fault(self.due(kind))
        if token not in self.words:
            self.fault(self.no_word())
        node = Node(self.words.index(token))
        if self.records[node.word].result != kind:
            self.fault(self.due(kind))
        self.not_too_deep(level)
        self.not_too_long(2)
        self.next += 1
        places = self.records[node.word].places
        for bit, below in places.items():
            self.mark_of(node.word, b"," if bit else b"(")
            term = self.term(below, level + 1)
            if term is not None:
                node.written[bit] = term
        if places:
            self.mark_of(node.word, b")")
        return node

    def variable(self, level):
        token = self.token()
        if len(token) > 1 + LONGEST_NAME:
            self.fault(LONG_NAME)
        if token in self.variables:
            self.fault(b"%b stands twice in this pattern" % token)
        self.not_too_deep(level)
        if len(self.variables) == MOST_NAMES:
            self.fault(b"64 names are the most in a pattern, and this is one more")
        self.not_too_long(1)
        self.next += 1
        self.variables.append(token)
        return Name(len(self.variables) - 1)

    def not_too_deep(self, level):
        if level > DEEPEST_LEVEL:
            self.fault(b"32 levels are the most, and this is one more")

    def not_too_long(self, more):
        if self.size + more > MOST_BYTES:
            self.fault(b"4096 bytes are the most for a pattern or a situation, and this one has more")
        self.size += more

    def mark_of(self, word, mark):
        """A mark that a word's places need: before a place, or behind the last."""
        if self.taken(mark):
            return
        token, number = self.token(), len(self.records[word].places)
        if token == b"(":
            self.fault(NO_PLACES)
        elif mark != b")":
            written = {b")": b"and fewer are written", b",": b"and none is written"}.get(token, b"in ( and ) with a , between them")
        elif token == b",":
            more = self.places_behind()
            written = b"and %d are written" % (number + more) if more else b"and no , is due here"
        else:
            written = b"and a ) is due here"
        self.fault(b"%b takes %d place%b, %b" % (self.words[word], number, b"" if number == 1 else b"s", written))

    def places_behind(self):
        """How many places are written from here on, each behind a comma, up to the ) that ends them, a : or the end of the text."""
        number = deep = 0
        for (token, _), (behind, _) in zip(self.lexemes[self.next :], self.lexemes[self.next + 1 :]):
            if token == b":" or (token == b")" and deep == 0):
                break
            number += token == b"," and deep == 0 and bool(behind == b"_" or IDENTIFIER.match(behind) or VARIABLE.match(behind))
            deep += (token == b"(") - (token == b")")
        return number

    def no_word(self):
        """What is said of a name that is no word: it may be the label of a question."""
        behind = self.token(self.next + 1)
        if behind == b"?":
            return b"a question stands behind its pattern, and begins with its label"
        blank = b"; in a question a blank is due behind the ?" if VARIABLE.match(behind) else b""
        return b"no word %b in this vocabulary%b" % (self.token(), blank)

    def due(self, kind):
        words = b" or ".join(name for name, word in zip(self.words, self.records) if word.result == kind)
        return self.kinds[kind] + b" is due here" + (b": " + words if words else b", and no word of that kind is declared before the first pattern")

    # ---- leftovers

    def in_words(self, kind, tree, variables):
        """A pattern or an entry in words."""

        def said(tree):
            if tree is None:
                return b"_"
            if isinstance(tree, Name):
                return variables[tree.number]
            places = [said(tree.written.get(bit)) for bit in self.records[tree.word].places]
            return self.words[tree.word] + (b"(%b)" % b", ".join(places) if places else b"")

        if isinstance(tree, Node):
            return said(tree)
        return (b"_" if isinstance(tree, Anything) else said(tree)) + b": " + self.kinds[kind]

    def entries(self, phrase):
        return listing(self.vocabulary, phrase.kind, phrase.tree)

    def answer_to(self, phrase):
        """The pattern as it was read, and its leftovers."""
        number = size = 0
        for entry in self.entries(phrase):
            number, size = number + 1, size + len(entry)
        yield b"# " + (phrase.label + b": " if phrase.label else b"") + self.in_words(phrase.kind, phrase.tree, phrase.variables)
        if size > LISTING_SPACE:
            yield NOT_LISTED % size
        else:
            yield LEFTOVERS % number
            for entry in self.entries(phrase):
                yield self.in_words(*read_term(self.vocabulary, entry), phrase.variables)
            yield END_OF_LEFTOVERS % number
        yield b""

    def beside(self, phrase, pattern, situation, said, covers):
        """Goes through pattern and situation side by side: `said` gets the situation in words, up to the first word that
        differs, and `covers` what each name covers."""
        if pattern is None or isinstance(pattern, (Anything, Name)):
            words = self.in_words(phrase.kind, situation, [])
            if isinstance(pattern, Name):
                covers.append((phrase.variables[pattern.number], words))
            said.append(words)
            return
        if pattern.word != situation.word:
            raise Differs(b"".join(said), self.words[pattern.word])
        said.append(self.words[situation.word])
        mark = b"("
        for bit in self.records[situation.word].places:
            said.append(mark)
            self.beside(phrase, pattern.written.get(bit), situation.written[bit], said, covers)
            mark = b", "
        if self.records[situation.word].places:
            said.append(b")")

    def verdict(self, phrase, situation):
        """The question as it was read, and yes or no."""
        ask, covers = phrase.label + b" ? ", []
        yield b"# " + ask + self.in_words(phrase.kind, situation, [])
        try:
            self.beside(phrase, phrase.tree, situation, [], covers)
            yield b"# yes"
            for name, words in covers:
                yield b"# %b = %b" % (name, words)
        except Differs as found:
            yield b"# " + b" " * len(columns(ask + found.before)) + b"^ no: %b is due here" % found.due
        yield b""

    def of_kind(self, kind):
        return [phrase.tree for phrase in self.phrases if phrase.kind == kind]

    def leftovers_together(self, kind):
        """The leftovers of all patterns of a kind, where there are two at least; None where they cannot be listed. Their
        order is left open, and this is the one in which document 02 has them come about."""
        trees = self.of_kind(kind)
        try:
            return [] if len(trees) < 2 else None if len(trees) > MOST_PATTERNS else book_listing(self.vocabulary, kind, trees)
        except Refused:
            return None

    def note(self, kind):
        """What is printed of a kind without complete situation, by the same set of kinds that listings go by."""
        if kind not in self.vocabulary.having:
            yield NO_SITUATION % self.kinds[kind]
            yield b""

    def together(self, kind):
        """What is printed of all patterns of a kind together."""
        trees = self.of_kind(kind)
        heading = TOGETHER % (len(trees), self.kinds[kind])
        if len(trees) < 2:
            return
        entries = self.leftovers_together(kind)
        if entries is not None:
            yield b"# " + heading
            yield LEFTOVERS % len(entries)
            for entry in entries:
                yield self.in_words(*read_term(self.vocabulary, entry), [])
            yield END_OF_LEFTOVERS % len(entries)
        elif len(trees) > MOST_PATTERNS:
            yield TOO_MANY % heading
        else:
            yield PAST % (heading, self.first_past(kind, trees))
        yield b""

    def first_past(self, kind, trees):
        """The first pattern, counted from 1, behind which the entries pass a limit."""
        for number in range(1, len(trees) + 1):
            try:
                book_listing(self.vocabulary, kind, trees[:number])
            except Refused:
                return number

    def answer(self):
        for phrase in self.phrases:
            yield from self.answer_to(phrase)
            for situation in phrase.situations:
                yield from self.verdict(phrase, situation)
        for kind in range(len(self.kinds)):
            yield from self.note(kind)
            yield from self.together(kind)
        yield END_OF_PATTERNS % len(self.phrases)


def complaint(data, fault):
    """Line, column and reason, the line, and a mark under the place."""
    before = data[: fault.at]
    start = before.rfind(b"\n") + 1
    end = data.find(b"\n", start)
    # A carriage return is no column, and is not shown.
    passed = columns(before[start:])
    line = data[start : len(data) if end < 0 else end].replace(b"\r", b"")
    yield b"line %d, column %d: %b" % (before.count(b"\n") + 1, len(passed) + 1, fault.why)
    yield re.sub(rb"[^\t -~\x80-\xff]", b"?", line)
    yield b"".join(b"\t" if byte == 9 else b" " for byte in passed) + b"^"


def desk(data):
    """What the program `desk` prints for a text."""
    try:
        lines = Text(data).answer()
    except Faulty as fault:
        lines = complaint(data, fault)
    text = b"".join(line + b"\n" for line in lines)
    return text if len(text) <= PAGE else TOO_LONG


# ---------------------------------------------------------------- the cases of `examples`


def h(text):
    """Bytes from hexadecimal, with blanks anywhere."""
    return bytes.fromhex(text)


def decoded(text):
    """The bytes of a case: hexadecimal, and [FROM,COUNT] for COUNT bytes once more, from offset FROM on."""
    data = bytearray()
    for token in text.split():
        if token.startswith("["):
            start, count = map(int, token.strip("[]").split(","))
            for at in range(start, start + count):
                data.append(data[at])
        else:
            data += h(token)
    return bytes(data)


def reply_to_vocabulary(vocabulary, given):
    return reply(check_vocabulary, given)


def reply_to_term(vocabulary, term):
    return reply(check_term, vocabulary, term)


def reply_to_match(vocabulary, length, pattern, situation):
    """Match into a table of so many numbers, which holds 60,000 + i at i before the call."""
    lent = [60000 + i for i in range(length)]
    table = list(lent)
    try:
        answer = match(vocabulary, pattern, situation, table)
    except Refused as refusal:
        answer = refusal.reply
    as_lent = sum(1 for old, new in zip(lent, table) if old == new)
    others = "".join(f" {i}={new}" for i, (old, new) in enumerate(zip(lent, table)) if new not in (0, old))
    return f"{answer}, {as_lent} as lent, {table.count(0)} zero{others}"


def reply_to_part(vocabulary, name, pattern, situation):
    return part(vocabulary, pattern, situation, name).hex() or "empty"


LENT_BYTE = 0xEE


def listed(vocabulary, length, pattern):
    """List into so many bytes: the answer, the bytes of the entries, and the bytes behind them."""
    out = bytearray([LENT_BYTE]) * length
    written = 0
    try:
        entries, written = list_leftovers(vocabulary, pattern, out)
        answer = f"accepted {entries} {written}"
    except Refused as refusal:
        answer = refusal.reply
    assert len(out) == length
    return answer, bytes(out[:written]), bytes(out[written:])


def reply_to_list(vocabulary, length, pattern):
    answer, entries, behind = listed(vocabulary, length, pattern)
    return f"{answer}, {(entries + behind).hex() or 'empty'}"


def reply_to_sum(vocabulary, length, pattern):
    """For long listings."""
    answer, entries, behind = listed(vocabulary, length, pattern)
    return f"{answer}, sum {sum_of(entries)}, {behind.count(LENT_BYTE)} of {len(behind)} behind as lent"


def reply_to_find(vocabulary, length, pattern, sought):
    """As which entry, from 1, the sought pattern stands in the slice."""
    answer, entries, _ = listed(vocabulary, length, pattern)
    vocabulary = read_vocabulary(vocabulary)
    kind, tree = read_term(vocabulary, pattern)
    single = list(listing(vocabulary, kind, tree)) if entries else []
    assert b"".join(single) == entries
    place = f"entry {single.index(sought) + 1}" if sought in single else "no entry"
    return f"{answer}, it is {place}"


def filled(vocabulary, length, pattern, filling):
    """Fill into so many bytes: the answer, its second value being 0, the bytes of the result, and the bytes behind them."""
    out = bytearray([LENT_BYTE]) * length
    written = 0
    try:
        written = fill(vocabulary, pattern, filling, out)
        answer = f"accepted {written} 0"
    except Refused as refusal:
        answer = refusal.reply
    assert len(out) == length
    return answer, bytes(out[:written]), bytes(out[written:])


def reply_to_write(vocabulary, length, pattern, filling):
    answer, result, behind = filled(vocabulary, length, pattern, filling)
    if result:
        parts_come_back(vocabulary, pattern, filling, result)
    return f"{answer}, {(result + behind).hex() or 'empty'}"


def parts_come_back(vocabulary, pattern, filling, result):
    """The result is an accepted pattern, and if it is complete, matching it with the pattern gives back the parts filled in."""
    vocabulary_read = read_vocabulary(vocabulary)
    kind, tree = read_term(vocabulary_read, result)
    if first_gap(vocabulary_read, tree) is None:
        _, pattern_tree = read_term(vocabulary_read, pattern)
        given = read_filling(vocabulary_read, kinds_of_names(vocabulary_read, kind, pattern_tree), filling)
        assert covered(vocabulary, pattern, result) == given


def booked(vocabulary, length, book):
    """A book's listing into so many bytes: the answer, the entries, and the bytes behind them."""
    out = bytearray([LENT_BYTE]) * length
    try:
        number, written = list_book(vocabulary, book, out)
    except Refused as refusal:
        assert len(out) == length
        return refusal.reply, [], bytes(out)
    assert len(out) == length
    entries = whole_patterns(read_vocabulary(vocabulary), bytes(out[:written]))
    assert len(entries) == len(set(entries)) == number
    return f"accepted {number} {written}", entries, bytes(out[written:])


def whole_patterns(vocabulary, data):
    """The patterns that stand in a row."""
    patterns, at = [], 0
    while at < len(data):
        start = at
        _, _, at = read_at(vocabulary, data, start, PATTERN)
        patterns.append(data[start:at])
    return patterns


def reply_to_book(vocabulary, length, book):
    """The sum is that of the entries' own sums, so their order does not count."""
    answer, entries, behind = booked(vocabulary, length, book)
    total = sum(sum_of(entry) for entry in entries) % 65521
    return f"{answer}, sum {total}, {behind.count(LENT_BYTE)} of {len(behind)} behind as lent"


def reply_to_holds(vocabulary, length, book, sought):
    """How many of the entries are the sought pattern."""
    answer, entries, _ = booked(vocabulary, length, book)
    return f"{answer}, stands {entries.count(sought)}"


def sum_of(data):
    """A sum of bytes: the last one's weight is 1, each other's 31 times that of the next, modulo 65,521."""
    total = 0
    for byte in data:
        total = (31 * total + byte) % 65521
    return total


def reply_to_report(vocabulary, data):
    return printed(data).removesuffix("\n")


def reply_to_digest(vocabulary, data):
    text = printed(data).encode("ascii")
    return f"{len(text)} bytes, sum {sum_of(text)}"


def reply_to_answer(vocabulary, data):
    leftovers_come_back(data)
    return desk(data).decode().removesuffix("\n")


def reply_to_gauge(vocabulary, data):
    leftovers_come_back(data)
    text = desk(data)
    return f"{len(text)} bytes, sum {sum_of(text)}"


def leftovers_come_back(data):
    """The answer for a text in order, behind the text's kinds, is a text whose patterns are the leftovers, in their order."""
    try:
        text = Text(data)
    except Faulty:
        return
    answer = desk(data)
    if answer == TOO_LONG or text.start + len(answer) > LONGEST_TEXT:
        return
    listings = [list(text.entries(phrase)) for phrase in text.phrases]
    books = [text.leftovers_together(kind) for kind in range(len(text.kinds))]
    if all(sum(map(len, entries)) <= LISTING_SPACE for entries in listings) and None not in books:
        listings += books
        read = [bytes([phrase.kind]) + writing(phrase.tree) for phrase in Text(data[: text.start] + answer).phrases]
        assert read == [entry for entries in listings for entry in entries]


# What tells the reply to a line, by its first word; the later ones take the number before the label.
PLAIN = {
    "vocabulary": reply_to_vocabulary,
    "term": reply_to_term,
    "report": reply_to_report,
    "digest": reply_to_digest,
    "answer": reply_to_answer,
    "gauge": reply_to_gauge,
}
NUMBERED = {
    "match": reply_to_match,
    "part": reply_to_part,
    "list": reply_to_list,
    "sum": reply_to_sum,
    "find": reply_to_find,
    "write": reply_to_write,
    "book": reply_to_book,
    "holds": reply_to_holds,
}


def examples(text):
    """Each case of a text up to its colon, and then the reply."""
    vocabulary = None
    for line in text.split("\n"):
        if not line or line.startswith("#"):
            continue
        label, inputs = line.split(":")
        key, rest = label.split(" ", 1)
        inputs = [decoded(written) for written in inputs.split("/")]
        if key == "under":
            (vocabulary,) = inputs
            yield label
        elif key in PLAIN:
            yield f"{label}: {PLAIN[key](vocabulary, *inputs)}"
        else:
            yield f"{label}: {NUMBERED[key](vocabulary, int(rest.split(' ')[0]), *inputs)}"


# ---------------------------------------------------------------- inputs by name


# The bench vocabularies.
A = h("03 06  00 03 01 02  01 00  01 00  02 00  02 00  00 00")
B = h("01 02  00 00  00 01 00")
C = h("01 03  00 00  00 00  00 03 00 00")

# Place maps with gaps: a of kind 0, b of kind 1, left with places 0 and 7, right with places 1 and 4.
GAPS = h("02 04  00 00  01 00  00 81 00 01  01 12 01 00")

# One kind and 96 words, of which the first so many have eight places and the others none.
def words_96(eight):
    return h("01 60") + (h("00 ff") + h("00") * 8) * eight + h("00 00") * (96 - eight)


# The bytes of C's full tree of pairs with so many levels.
def pairs(level):
    return h("00 00") if level == 1 else h("02 03") + 2 * pairs(level - 1)


# Under C: the full tree of 11 levels; with pair(n0, .) for its last leaf; with pair(a, .) for it.
PAIRS_4095 = h("00") + pairs(11)
PAIRS_4096 = PAIRS_4095[:-2] + h("02 01 80")
PAIRS_4097 = PAIRS_4095[:-2] + h("02 01 00 00")


# Under B: so many words more, and what stands below the last.
def more(times, end):
    return h("00") + h("01 01") * times + h(end)


# Under C, the full tree of 11 levels with b for its last leaf, and with b for the last leaf of its first half.
LAST_LEAF = PAIRS_4095[:-2] + h("01 00")
MIDDLE_LEAF = PAIRS_4095[:2047] + h("01 00") + PAIRS_4095[2049:]

# Words of kind 0 with places 0 and 7 and of kind 1 with places 1 and 4, and two constants of each kind.
GAPS_FAMILY = h("02 06  00 00  00 00  01 00  01 00  00 81 00 01  01 12 01 00")

# One kind, a, b, and a word with places 0, 3 and 6.
THREE = h("01 03  00 00  00 00  00 49 00 00 00")

# Kinds without complete situation. Kind 1 of the first has no word: a, g(., kind 1), h(.). The second's only word stands over
# itself. In the third, A has a printer that is not there: the words print(printer), a step, and jam(printer), a queue. In the
# fourth, C has d(kind 1).
NO_PART = h("02 03  00 00  00 03 00 01  00 01 00")
OVER_ITSELF = h("01 01  00 01 00")
NO_PRINTER = h("04 08  00 03 01 02  01 00  01 00  02 00  02 00  00 00  00 01 03  02 01 03")
C_AND_D = h("02 04  00 00  00 00  00 03 00 00  00 01 01")


# 16 kinds, of which each but the last has one word over the next; the last word of the row is given. Word 16 is of kind 0.
def row_of_16(last):
    return h("10 11") + b"".join(bytes([kind, 1, kind + 1]) for kind in range(15)) + h(last) + h("00 00")


# An input for `leftovers` of almost 5,000 bytes with a listing of almost 65,536: of the kinds in the pattern only the
# last, 5, has several words. Kind 6 does not stand in the pattern and makes the vocabulary long.
LONG_VOCABULARY = (
    h("07 60  00 ff 01 01 01 01 01 01 01 05  01 ff") + h("02") * 8 + h("02 ff") + h("03") * 8
    + h("03 0f 04 04 04 04  04 00") + h("05 00") * 16 + h("06 00") + (h("06 ff") + h("06") * 8) * 74
)


# 448 words of kind 3, of which the first 190 have all their four places written and the others three.
def long_pattern():
    threes = [h("03 0f") + h("04 00") * 4] * 190 + [h("03 07") + h("04 00") * 3] * 258
    twos = [h("02 ff") + b"".join(threes[8 * i : 8 * i + 8]) for i in range(56)]
    ones = [h("01 ff") + b"".join(twos[8 * i : 8 * i + 8]) for i in range(7)]
    return h("00 00 ff") + b"".join(ones) + h("05 00")


LONG_INPUT = len(LONG_VOCABULARY).to_bytes(2, "big") + LONG_VOCABULARY + long_pattern()

# Word 0 with places 0 and 3 for fillers, 1 and 2 for one of 33 words, and 4 and 5 for one of two; word 1 without a place.
# A filler's words, which are words 2 to 6, are the only ones of their kinds, so that it has no entry.
FILLERS = (
    h("08 2a  00 3f 01 06 06 01 07 07  00 00  01 ff") + h("02") * 8 + h("02 ff") + h("03") * 8 + h("03 ff") + h("04") * 8
    + h("04 ff") + h("05") * 8 + h("05 00") + h("06 00") * 33 + h("07 00") * 2
)


# A filler of so many words, 1 to 4,681: full ones in its lowest places, and one with the rest.
def filler(words, kind=1):
    most_below = {1: 585, 2: 73, 3: 9, 4: 1, 5: 0}[kind]
    below, rest = [], words - 1
    while rest > 0:
        below.append(filler(min(rest, most_below), kind + 1))
        rest -= min(rest, most_below)
    return bytes([kind + 1, 2 ** len(below) - 1]) + b"".join(below)


# ---------------------------------------------------------------- the families


def shares(total, parts):
    """The ways to share a number out among so many parts, each at least 1."""
    if parts == 0:
        return [()] if total == 0 else []
    return [(first, *rest) for first in range(1, total - parts + 2) for rest in shares(total - first, parts - 1)]


def trees(vocabulary, kind, tokens, names, complete):
    """The writings of all terms of a kind with so many tokens (words and names) below the root, names
    at places of several kinds among them. A complete term has no name and every place written."""
    if not complete and tokens == 1:
        yield from (bytes([128 + name]) for name in names)
    for number, word in enumerate(vocabulary.words):
        if word.result == kind:
            every = tuple(word.places)
            maps = [every] if complete else [m for n in range(len(every) + 1) for m in combinations(every, n)]
            for written in maps:
                for sizes in shares(tokens - 1, len(written)):
                    below = [list(trees(vocabulary, word.places[bit], size, names, complete)) for bit, size in zip(written, sizes)]
                    for terms in product(*below):
                        yield bytes([number, sum(1 << bit for bit in written)]) + b"".join(terms)


def one_kind_a_name(vocabulary, pattern):
    try:
        read_term(vocabulary, pattern)
        return True
    except Refused as refusal:
        assert refusal.reply.startswith("refused 13 ")
        return False


def family(vocabulary, kind, most_in_pattern, most_in_situation):
    """The accepted patterns and the situations of a kind, by the numbers of tokens; names are 0 and 63."""
    start = bytes([kind])
    patterns = [start + h("ff")] + [start + t for n in range(1, most_in_pattern + 1) for t in trees(vocabulary, kind, n, (0, 63), False)]
    situations = [start + t for n in range(1, most_in_situation + 1) for t in trees(vocabulary, kind, n, (), True)]
    return [p for p in patterns if one_kind_a_name(vocabulary, p)], situations


def families():
    """Each pattern of a family with each situation."""
    for label, vocabulary, *limits in [
        ("C", C, 0, 4, 5),
        ("gaps, kind 0", GAPS_FAMILY, 0, 4, 5),
        ("gaps, kind 1", GAPS_FAMILY, 1, 4, 5),
        ("three places", THREE, 0, 4, 4),
        ("A, kind 0", A, 0, 3, 3),
        ("A, kind 1", A, 1, 3, 3),
        ("A, kind 2", A, 2, 3, 3),
    ]:
        patterns, situations = family(read_vocabulary(vocabulary), *limits)
        answers = [covered(vocabulary, p, s) for p in patterns for s in situations]
        parts = [tree for named in answers if named is not None for tree in named.values()]
        no = answers.count(None)
        yield (
            f"family, {label}: {len(patterns)} patterns, {len(situations)} situations, {len(answers)} cases, "
            f"{len(answers) - no} yes, {no} no, 0 differences, "
            f"offsets {sum(t.start for t in parts)}, lengths {sum(t.end - t.start for t in parts)}"
        )


def listings_divide():
    """The listing above against the matching above: each situation fits exactly one of a pattern and its entries."""
    for vocabulary, *limits in [(C, 0, 3, 5), (GAPS_FAMILY, 0, 3, 5), (GAPS_FAMILY, 1, 3, 5), (THREE, 0, 3, 4), (A, 0, 3, 3)]:
        read = read_vocabulary(vocabulary)
        patterns, situations = family(read, *limits)
        for pattern in patterns:
            kind, tree = read_term(read, pattern)
            names = [name.number for name in names_in(tree)]
            if len(names) == len(set(names)):
                heads = [pattern, *listing(read, kind, tree)]
                assert all(sum(covered(vocabulary, head, s) is not None for head in heads) == 1 for s in situations)


def books_divide():
    """The listing of books against the matching above: each situation fits some pattern of a book, or exactly one
    entry, and never both. The books have one or two patterns of up to so many tokens, or three of up to fewer."""
    for vocabulary, kind, most_in_two, most_in_three, most_in_situation in [
        (C, 0, 3, 2, 5),
        (GAPS_FAMILY, 0, 3, 2, 5),
        (GAPS_FAMILY, 1, 3, 2, 5),
        (THREE, 0, 2, 2, 4),
        (A, 0, 3, 2, 3),
        (A, 1, 1, 1, 1),
    ]:
        read = read_vocabulary(vocabulary)
        patterns, situations = family(read, kind, most_in_two, most_in_situation)
        fewer, _ = family(read, kind, most_in_three, 1)
        tree_of = {pattern: read_term(read, pattern)[1] for pattern in patterns}
        once = [p for p in patterns if len({name.number for name in names_in(tree_of[p])}) == len([*names_in(tree_of[p])])]
        fitting = {}

        def fit(head):
            """The situations that fit a pattern or an entry."""
            if head not in fitting:
                fitting[head] = {s for s in situations if covered(vocabulary, head, s) is not None}
            return fitting[head]

        stood, three = set(), [p for p in once if p in fewer]
        for book in [*product(once, repeat=1), *product(once, repeat=2), *product(three, repeat=3)]:
            entries = book_listing(read, kind, [tree_of[pattern] for pattern in book])
            taken = set().union(*map(fit, book))
            left = [s for entry in entries for s in fit(entry)]
            assert sorted(left) == sorted(set(situations) - taken)
            stood.update(entries)
        assert not any([*names_in(read_term(read, entry)[1])] for entry in stood)


def empty_kinds_divide():
    """The same where kinds have no complete situation, and that no entry can be struck: one of the situations fits it. The
    situations are large enough for that."""
    for vocabulary, kind, most_in_pattern, most_in_situation in [
        (NO_PART, 0, 4, 6),
        (NO_PART, 1, 1, 6),
        (OVER_ITSELF, 0, 4, 6),
        (NO_PRINTER, 0, 3, 3),
        (NO_PRINTER, 2, 2, 3),
        (NO_PRINTER, 3, 1, 3),
        (C_AND_D, 0, 2, 7),
        # Kind 1's words stand over kind 2, which has none, and over kind 3, which has one.
        (h("04 07  00 00  00 03 01 00  01 01 02  01 01 03  02 01 02  03 00  00 01 02"), 0, 3, 10),
        (h("04 07  00 00  00 03 01 00  01 01 02  01 01 03  02 01 02  03 00  00 01 02"), 1, 3, 3),
    ]:
        read = read_vocabulary(vocabulary)
        patterns, situations = family(read, kind, most_in_pattern, most_in_situation)
        tree_of = {pattern: read_term(read, pattern)[1] for pattern in patterns}
        once = [p for p in patterns if len({name.number for name in names_in(tree_of[p])}) == len([*names_in(tree_of[p])])]
        fitting = {}

        def fit(head):
            if head not in fitting:
                fitting[head] = {s for s in situations if covered(vocabulary, head, s) is not None}
            return fitting[head]

        whole = [bytes([kind, 255])] if situations else []
        for pattern in once:
            entries = list(listing(read, kind, tree_of[pattern]))
            assert all(fit(entry) for entry in entries)
            assert sorted([*fit(pattern), *(s for entry in entries for s in fit(entry))]) == sorted(situations)
            assert fit(pattern) or entries == whole
        for book in [*product(once, repeat=1), *product(once, repeat=2)]:
            entries = book_listing(read, kind, [tree_of[pattern] for pattern in book])
            assert all(fit(entry) for entry in entries)
            assert sorted(s for entry in entries for s in fit(entry)) == sorted(set(situations) - set().union(*map(fit, book)))
            some = [tree_of[pattern] for pattern in book if fit(pattern)]
            assert sorted(entries) == sorted(book_listing(read, kind, some))


# ---------------------------------------------------------------- values worked out by hand


def by_hand():
    """Document 01's own numbers, and boundaries counted on paper."""
    assert (len(A), len(B), len(C)) == (16, 7, 10)
    assert (len(words_96(95)), len(words_96(96))) == (954, 962)
    assert (len(PAIRS_4096), len(PAIRS_4097)) == (4096, 4097)
    # "6 no longer occurs ..., and its starred case is now accepted."
    assert reply(check_vocabulary, h("01 01 00 01 00")) == "accepted"
    # The third byte of `02 02 00 00 02 00`'s second record is no kind: offsets 2, 3, then 4.
    assert reply(check_vocabulary, h("02 02 00 00 02 00")) == "refused 4 0 4"
    # One word, whose map's only kind is due at offset 4.
    assert reply(check_vocabulary, h("01 01 00 01")) == "refused 3 0 4"
    # "more can't alter the result": an accepted vocabulary has at most 962 bytes.
    assert reply(check_vocabulary, words_96(95)) == reply(check_vocabulary, words_96(96)) == "accepted"
    assert reply(check_vocabulary, words_96(96) + h("00")) == "refused 5 0 962"
    # wait, up and free are 3 words; up and free stand at level 2.
    assert reply(check_term, A, h("00 00 03 01 00 03 00")) == "accepted 3 2 1 7"
    # more, more and none, each below the one before.
    assert reply(check_term, B, h("00 01 01 01 01 00 00")) == "accepted 3 3 1 7"
    # "A name or 255 counts as a level", and names are not counted as words.
    assert reply(check_term, C, h("00 ff")) == "accepted 0 1 0 1"
    assert reply(check_term, C, h("00 02 03 80 80")) == "accepted 1 2 0 3"
    # "The term `00` gets 7."
    assert reply(check_term, B, h("00")) == "refused 7 1 0"
    # "Level 32 in B is accepted, level 33 gets 10": level n begins at offset 1 + 2 (n - 1), so 33 at 65.
    assert reply(check_term, B, more(31, "00 00")) == "accepted 32 32 1 65"
    assert reply(check_term, B, more(32, "00 00")) == "refused 10 1 65"
    # "open places do not" count as a level. The map at level 32 is byte 64.
    assert reply(check_term, B, more(31, "01 00")) == "accepted 32 32 0 64"
    # The full tree has 2^11 - 1 words; pair(n0, .) for a leaf keeps their number, and n0 is at level 12. Its pair's map is
    # the last byte but one, 4,094.
    assert reply(check_term, C, PAIRS_4095) == "accepted 2047 11 1 4095"
    assert reply(check_term, C, PAIRS_4096) == "accepted 2047 12 0 4094"
    # Bits 0 and 7 are places 0 and 7; bit 1 is a gap.
    assert reply(check_term, GAPS, h("00 02 02 00 00")) == "refused 14 1 2"
    assert reply(check_term, GAPS, h("00 02 81 00 00 01 00")) == "accepted 3 2 1 7"
    # n0 stood at a button's place and stands again at a queue's.
    assert reply(check_term, A, h("00 00 03 80 80")) == "refused 13 1 4"
    # 255 stands at the root only.
    assert reply(check_term, C, h("00 02 03 ff")) == "refused 11 1 3"


def gaps_by_hand():
    """The first name, 255 or short map of a term, and the length of one that has none, counted on paper."""

    def gap(vocabulary, term):
        """Whether a term is complete, and its gap."""
        accepted, _, _, complete, place = reply(check_term, vocabulary, h(term)).split()
        assert accepted == "accepted"
        return complete == "1", int(place)

    # "`00 00 00` shows 3; `00 ff` shows 1."
    assert gap(C, "00 00 00") == (True, 3)
    assert gap(C, "00 ff") == gap(C, "00 80") == (False, 1)
    # The map of the root's word is byte 2.
    assert gap(C, "00 02 00") == gap(C, "00 02 01 00 00") == gap(C, "00 02 02 01 00") == (False, 2)
    # The first of two names. A map stands before the terms of its places, so a short one comes before a name in them,
    # and behind a name in a lower place of the word above.
    assert gap(C, "00 02 03 00 00 80") == (False, 5)
    assert gap(C, "00 02 03 81 80") == (False, 3)
    assert gap(C, "00 02 03 02 01 80 81") == (False, 4)
    assert gap(C, "00 02 03 80 02 01 81") == (False, 3)
    assert gap(C, "00 02 03 00 00 02 02 80") == (False, 6)
    # Maps 81 and 12 have all places of left and right; the map of right is byte 6.
    assert gap(GAPS, "00 02 81 00 00 03 12 01 00 00 00") == (True, 11)
    assert gap(GAPS, "00 02 81 00 00 03 02 01 00") == (False, 6)


def matched_by_hand():
    """Document 01's own examples of match, with the numbers that it or docs/DECISIONS.md gives, and parts counted on paper."""

    def table_of(vocabulary, pattern, situation):
        table = [7] * 128
        answer = match(vocabulary, h(pattern), h(situation), table)
        return answer, {i: n for i, n in enumerate(table) if n != 0}

    def refusal_of(vocabulary, pattern, situation, length=128):
        table = [7] * length
        try:
            match(vocabulary, h(pattern), h(situation), table)
        except Refused as refusal:
            assert table == [7] * length
            return refusal.reply
        raise AssertionError("not refused")

    unchanged = {i: 7 for i in range(128)}
    # "pair(n0, n0) .. with ..: yes, name 0 at 3, length 2." and "With ..: no."
    assert table_of(C, "00 02 03 80 80", "00 02 03 00 00 00 00") == ("yes", {0: 3, 1: 2})
    assert table_of(C, "00 02 03 80 80", "00 02 03 00 00 01 00") == ("no", unchanged)
    # "`00 80` with ..: name 0 at 1, length 6."
    assert table_of(C, "00 80", "00 02 03 00 00 00 00") == ("yes", {0: 1, 1: 6})
    # Name n stands at 2n and 2n + 1, so name 63 in the last two.
    assert table_of(C, "00 bf", "00 00 00") == ("yes", {126: 1, 127: 2})
    # "`00 ff` with situation `00 02 01 00 00`: 16, input 2, place 2."
    assert refusal_of(C, "00 ff", "00 02 01 00 00") == "refused 16 2 2"
    # DECISIONS: 15 before 16, 16 before 17, 16 before 19, and 19 before a no.
    assert refusal_of(C, "00 ff", "00 02 01 00 00 07") == "refused 15 2 5"
    assert refusal_of(A, "00 ff", "01 80") == "refused 16 2 1"
    assert refusal_of(C, "00 ff", "00 02 01 00 00", 127) == "refused 16 2 2"
    assert refusal_of(C, "00 02 03 80 80", "00 02 03 00 00 01 00", 129) == "refused 19 3 0"
    # "Pattern and situation have different kinds (input 2, place 0)."
    assert refusal_of(A, "00 ff", "01 01 00") == "refused 17 2 0"
    # Bytes 0 kind, 1 and 2 pair, 3 and 4 a, 5 and 6 pair, 7 and 8 a, 9 and 10 b: the first n0 is at 3, n1 at 9.
    assert table_of(C, "00 02 03 80 02 03 80 81", "00 02 03 00 00 02 03 00 00 01 00") == ("yes", {0: 3, 1: 2, 2: 9, 3: 2})
    # The deeper occurrence is the first one: behind pair and pair's b, at 7.
    assert table_of(C, "00 02 03 02 03 81 80 80", "00 02 03 02 03 01 00 00 00 00 00") == ("yes", {0: 7, 1: 2, 2: 5, 3: 2})
    # Places 0 and 7: the first covers 3 to 8, the second 9 and 10.
    assert table_of(GAPS, "00 02 80 80", "00 02 81 02 81 00 00 01 00 01 00") == ("yes", {0: 9, 1: 2})
    # The incident: button up and the queue full fits neither wait(up, free) nor wait(down, .), but wait(up, full).
    assert [table_of(A, p, "00 00 03 01 00 04 00")[0] for p in ("00 00 03 01 00 03 00", "00 00 01 02 00", "00 00 03 01 00 04 00")] == ["no", "no", "yes"]
    # "the answer is that very part of the lent situation, without the kind byte"
    assert part(C, h("00 80"), h("00 02 03 00 00 00 00"), 0) == h("02 03 00 00 00 00")
    assert part(C, h("00 02 03 80 80"), h("00 02 03 00 00 01 00"), 0) == b""
    assert [part(C, h("00 bf"), h("00 00 00"), n) for n in (0, 63, 64, 191)] == [b"", h("00 00"), b"", b""]
    # The tree of 11 levels has 2^11 - 1 words of two bytes; each half of it 2^10 - 1.
    assert len(PAIRS_4095) == 1 + 2 * 2047
    assert len(part(C, h("00 02 03 80 80"), PAIRS_4095, 0)) == 2 * 1023
    # The first half ends at 3 + 2046 with a leaf.
    assert [i for i in range(4095) if MIDDLE_LEAF[i] != PAIRS_4095[i]] == [2047]
    assert [i for i in range(4095) if LAST_LEAF[i] != PAIRS_4095[i]] == [4093]


def listed_by_hand():
    """Document 01's own examples of list, DECISIONS' two, and listings counted on paper."""

    def entries(vocabulary, pattern, length, behind=0):
        """The answer and the bytes of list into so many, behind which so many stay as they were."""
        answer, written, rest = listed(vocabulary, length, decoded(pattern))
        assert rest == bytes([LENT_BYTE]) * behind
        return answer, written.hex()

    def refusal(vocabulary, pattern, length):
        answer, written, rest = listed(vocabulary, length, decoded(pattern))
        assert (written, rest) == (b"", bytes([LENT_BYTE]) * length)
        return answer

    # "A, wait(up, free): 3 entries, 15 bytes", as the program prints them; 15 bytes lent, 14, and more.
    bench = "000500" + "0000010200" + "00000301000400"
    assert entries(A, "00 00 03 01 00 03 00", 15) == ("accepted 3 15", bench)
    assert entries(A, "00 00 03 01 00 03 00", 24, 9) == ("accepted 3 15", bench)
    assert refusal(A, "00 00 03 01 00 03 00", 14) == "refused 20 3 15"
    # "B, more(more(none)): entries `000000`, `0001010000`, `00010101010100`."
    assert entries(B, "00 01 01 01 01 00 00", 15) == ("accepted 3 15", "000000" + "0001010000" + "00010101010100")
    # "C, `00 ff`: 0 entries, 0 bytes."
    assert entries(C, "00 ff", 0) == ("accepted 0 0", "")
    assert entries(C, "00 ff", 4, 4) == ("accepted 0 0", "")
    # "pair(n0, n0). Listed: 18, input 1, place 4", with no byte lent too.
    assert refusal(C, "00 02 03 80 80", 100) == refusal(C, "00 02 03 80 80", 0) == "refused 18 1 4"
    # DECISIONS: names of lower places stay; the earliest byte that is a second occurrence.
    assert entries(C, "00 02 03 80 00 00", 18) == ("accepted 4 18", "000000" + "000100" + "000203800100" + "000203800200")
    assert refusal(C, "00 02 03 02 03 80 81 02 03 81 80", 100) == "refused 18 1 9"
    # Places 0 and 7, and 1 and 4: of left(a, right(b, a)) first a, then place 0 with left for a (01 is its map), then
    # place 7 (81) with b for right, and in right place 1 (02) with right for b, and place 4 (12) with left for a.
    assert entries(GAPS, "00 02 81 00 00 03 12 01 00 00 00", 35) == (
        "accepted 5 35",
        "000000" + "0002010200" + "00028100000100" + "000281000003020300" + "0002810000031201000200",
    )
    # Word n of 2^k - 1 in prefix order stands at 1 + 2n, so its entries have 2n + 3 bytes: in all 2^k - 1 squared and
    # twice 2^k - 1, times the other words. 32 levels under B are such a chain of 32 words.
    assert entries(B, "00 01 01 [1,60] 00 00", 1088)[0] == f"accepted 32 {32 * 32 + 2 * 32}"
    assert refusal(C, "00 02 03 [1,14] 00 00 [17,2] [15,6] [13,14] [11,30] [9,62] [7,126] [5,254] [3,510]", 0) == f"refused 20 3 {2 * (511 * 511 + 2 * 511)}"
    assert refusal(C, FULL_TREE, 0) == f"refused 20 3 {2 * (2047 * 2047 + 2 * 2047)}"
    assert decoded(FULL_TREE) == PAIRS_4095


def filled_by_hand():
    """The numbers that docs/DECISIONS.md gives for fill, and others counted on paper."""

    def result(vocabulary, pattern, filling, length, behind=0):
        """The answer and the bytes of fill into so many, behind which so many stay as they were."""
        answer, written, rest = filled(vocabulary, length, decoded(pattern), decoded(filling))
        assert rest == bytes([LENT_BYTE]) * behind
        return answer, written.hex()

    def refusal(vocabulary, pattern, filling, length=100):
        answer, written, rest = filled(vocabulary, length, decoded(pattern), decoded(filling))
        assert (written, rest) == (b"", bytes([LENT_BYTE]) * length)
        return answer

    none, n0, n0_n1 = "00 00 00 00 00 00 00 00", "01 00 00 00 00 00 00 00", "03 00 00 00 00 00 00 00"
    # wait(n0, n1) with up and full: kind, wait and its map, up, full.
    assert result(A, "00 00 03 80 81", f"{n0_n1} 01 00 04 00", 7) == ("accepted 7 0", "00" + "0003" + "0100" + "0400")
    assert refusal(A, "00 00 03 80 81", f"{n0_n1} 01 00 04 00", 6) == "refused 20 3 7"
    # "for each standing bit in ascending order": n0 is a and n1 is b, and n1 stands first.
    assert result(C, "00 02 03 81 80", f"{n0_n1} 00 00 01 00", 9, 2) == ("accepted 7 0", "00" + "0203" + "0100" + "0000")
    # 18 does not apply, and 255 with an empty map writes 255.
    assert result(C, "00 02 03 80 80", f"{n0} 00 00", 7) == ("accepted 7 0", "00" + "0203" + "0000" + "0000")
    assert result(C, "00 ff", none, 2) == ("accepted 2 0", "00ff")
    # "open places stay open"
    assert result(C, "00 02 02 80", f"{n0} 01 00", 5) == ("accepted 5 0", "00" + "0202" + "0100")
    # "byte 0 holding names 0 to 7 lowest bit first": names 7, 8 and 63.
    assert result(C, "00 87", "80 00 00 00 00 00 00 00 01 00", 3)[0] == "accepted 3 0"
    assert result(C, "00 88", "00 01 00 00 00 00 00 00 01 00", 3)[0] == "accepted 3 0"
    assert result(C, "00 bf", "00 00 00 00 00 00 00 80 01 00", 3)[0] == "accepted 3 0"
    # The lowest differing name, or 0 if short.
    assert refusal(C, "00 85", none) == "refused 21 4 5"
    assert refusal(C, "00 80", "01 00 00 00 00 00 00 80 00 00") == "refused 21 4 63"
    assert refusal(C, "00 85", "00 00 00 00 00 00 00") == "refused 21 4 0"
    # "C, pattern `00 80`, filling `02 01 00 00` gets (22,4,9)."
    assert refusal(C, "00 80", f"{n0} 02 01 00 00") == "refused 22 4 9"
    # The missing byte, and the first that is too many.
    assert refusal(C, "00 80", n0) == "refused 22 4 8"
    assert refusal(C, "00 80", f"{n0} 00 00 00") == "refused 22 4 10"
    assert refusal(C, "00 ff", f"{none} 00") == "refused 22 4 8"
    # Level n of a filling under B begins at 8 + 2 (n - 1), so 33 at 72.
    assert refusal(B, "00 80", f"{n0} 01 01 [8,62] 00 00") == "refused 22 4 72"
    # n0 at level 16 with 17 levels of its own ends at level 32, and has 1 + 30 + 34 bytes; with 18 at level 33.
    assert result(B, "00 01 01 [1,28] 80", f"{n0} 01 01 [8,30] 00 00", 65)[0] == "accepted 65 0"
    assert refusal(B, "00 01 01 [1,28] 80", f"{n0} 01 01 [8,32] 00 00") == "refused 23 4 0"
    # The tree of 11 levels is the longest result; with a byte behind it, byte 4,102 is the first that is too many.
    assert result(C, "00 80", f"{n0} {FULL_FILLING}", 4095) == ("accepted 4095 0", PAIRS_4095.hex())
    assert refusal(C, "00 80", f"{n0} {FULL_FILLING} 00") == "refused 22 4 4102"


def booked_by_hand():
    """Values for books, worked out from the request's sentences on paper."""

    def entries(vocabulary, book, length, behind=0):
        """The answer and the entries of a book into so many bytes, behind which so many stay as they were."""
        answer, entries, rest = booked(vocabulary, length, decoded(book))
        assert rest == bytes([LENT_BYTE]) * behind
        return answer, {entry.hex() for entry in entries}

    def refusal(vocabulary, book, length=100):
        answer, entries, rest = booked(vocabulary, length, decoded(book))
        assert (entries, rest) == ([], bytes([LENT_BYTE]) * length)
        return answer

    def together(*patterns):
        return bytes([len(patterns), *b"".join(patterns)]).hex(" ")

    # One pattern is listed as document 01 lists it; 15 bytes lent, 14, and more.
    bench = {"000500", "0000010200", "00000301000400"}
    assert entries(A, "01 00 00 03 01 00 03 00", 15) == ("accepted 3 15", bench)
    assert entries(A, "01 00 00 03 01 00 03 00", 24, 9) == ("accepted 3 15", bench)
    assert refusal(A, "01 00 00 03 01 00 03 00", 14) == "refused 20 3 15"
    # wait(down, .) and done go with the second and third pattern.
    assert entries(A, "03 00 00 03 01 00 03 00 00 00 01 02 00 00 05 00", 7) == ("accepted 1 7", {"00000301000400"})
    # pair(a, b) leaves a, b, pair(b, .), pair(pair(., .), .), pair(a, a) and pair(a, pair(., .)). Then pair(., b) shares
    # situations with the third and fourth alone: of each it leaves a and pair(., .) for its second place.
    assert entries(C, "02 00 02 03 00 00 01 00 00 02 02 01 00", 48) == (
        "accepted 8 48",
        {"000000", "000100", "00020301000000", "00020301000200", "00020302000000", "00020302000200", "00020300000000", "00020300000200"},
    )
    # pair(., b) leaves a, b, pair(., a) and pair(., pair(., .)), with none of which pair(a, b) shares a situation.
    assert entries(C, "02 00 02 02 01 00 00 02 03 00 00 01 00", 16) == ("accepted 4 16", {"000000", "000100", "0002020000", "0002020200"})
    # Higher places as in the entry: pair(., a) of pair(., b)'s leftovers becomes pair(b, a) and pair(pair(., .), a).
    assert entries(C, "02 00 02 02 01 00 00 02 03 00 00 00 00", 25) == (
        "accepted 5 25",
        {"000000", "000100", "0002020200", "00020301000000", "00020302000000"},
    )
    # Lower places hold what both allow. pair(pair(b, .), .) leaves a, b, pair(a, .), pair(b, .), pair(pair(a, .), .) and
    # pair(pair(pair(., .), .), .). pair(pair(., b), a) takes the last two apart: in place 0, a and pair(., .) for its b,
    # and in place 1, behind pair(a, b) and pair(pair(., .), b), b and pair(., .) for its a.
    apart = {"000000", "000100", "0002010000", "0002010100"} | {
        f"000201{first}" for first in ("020300000000", "020300000200", "020302000000", "020302000200")
    } | {f"000203{first}{second}" for first in ("020300000100", "020302000100") for second in ("0100", "0200")}
    assert entries(C, "02 00 02 01 02 01 01 00 00 02 03 02 02 01 00 00 00", 96) == ("accepted 12 96", apart)
    # The same with names: none is written, and its bit falls.
    assert entries(C, "02 00 02 03 02 03 01 00 bf 80 00 02 03 02 03 85 01 00 00 00", 96) == ("accepted 12 96", apart)
    assert entries(C, "01 00 02 03 80 01 00", 16) == ("accepted 4 16", {"000000", "000100", "0002020000", "0002020200"})
    # a leaves b and pair(., .); of this pair(pair(n0, n1), a) leaves a and b in place 0, and behind pair(., .) b and pair(., .).
    assert entries(C, "02 00 00 00 00 02 03 02 03 80 81 00 00", 27) == (
        "accepted 5 27",
        {"000100", "0002010000", "0002010100", "00020302000100", "00020302000200"},
    )
    # One name in two patterns, at one kind and at two.
    assert entries(C, "02 00 02 01 80 00 02 02 80", 6) == ("accepted 2 6", {"000000", "000100"})
    assert entries(A, "02 00 00 03 80 03 00 00 00 03 01 00 80", 10) == ("accepted 2 10", {"000500", "00000302000400"})
    # left(a, .) leaves a and left(left(., .), .); of this left(., right(., a)) leaves b and right(., left(., .)) in place 7.
    assert entries(GAPS, "02 00 02 01 00 00 00 02 80 03 10 00 00", 19) == (
        "accepted 3 19",
        {"000000", "00028102000100", "000281020003100200"},
    )
    # Nothing is left; the same pattern twice; patterns of kind 1.
    assert entries(C, "01 00 ff", 0) == entries(C, "03 00 00 00 00 01 00 00 02 00", 0) == ("accepted 0 0", set())
    assert entries(C, "02 00 02 03 00 00 01 00 00 02 03 00 00 01 00", 30) == entries(C, "01 00 02 03 00 00 01 00", 30)
    assert entries(A, "01 01 01 00", 3) == ("accepted 1 3", {"010200"})
    # 24: no count, or one outside 1 to 64; after the vocabulary.
    assert refusal(C, "") == refusal(C, "00 00 ff") == refusal(C, "41 00 ff [1,128]") == "refused 24 5 0"
    assert refusal(h("02 01 01 00 00"), "") == "refused 5 0 4"
    assert entries(C, "40 00 ff [1,126]", 0) == ("accepted 0 0", set())
    # 7 names the pattern's first byte where fewer than two bytes are left; with two, 9 names the missing one.
    assert refusal(C, "01") == refusal(C, "01 05") == "refused 7 5 1"
    assert refusal(C, "02 00 ff") == refusal(C, "02 00 ff 00") == "refused 7 5 3"
    assert refusal(C, "02 00 ff 00 02") == "refused 9 5 5"
    # Places count in the book: 8, 11 and 14 of second patterns; 13 and 18 look within one.
    assert refusal(C, "02 00 ff 01 ff") == "refused 8 5 3"
    assert refusal(C, "02 00 00 00 00 02 03 ff") == "refused 11 5 7"
    assert refusal(C, "02 00 ff 00 00 01") == "refused 14 5 5"
    assert refusal(A, "02 00 ff 00 00 03 bf bf") == "refused 13 5 7"
    assert refusal(C, "02 00 ff 00 02 03 bf bf") == "refused 18 5 7"
    # A pattern's 18 and then its 25 come before the next one's 7, and before 15.
    assert refusal(A, "02 00 ff 01 ff 00") == refusal(A, "03 00 ff 01 ff 00") == "refused 25 5 3"
    assert refusal(C, "02 00 02 03 80 80") == "refused 18 5 5"
    assert refusal(GAPS, "02 00 ff 01 03 12 03 10 80 80") == "refused 18 5 9"
    assert refusal(C, "01 00 ff 00") == "refused 15 5 3"
    # A pattern may have 4,096 bytes. Where its byte 4,096 is due it is 7, also at the book's end; byte 4,095 is read.
    whole, front = h("00 ff"), PAIRS_4095[:-2]
    assert entries(C, together(whole, PAIRS_4096), 0) == ("accepted 0 0", set())
    assert refusal(C, together(whole, PAIRS_4097)) == refusal(C, together(whole, PAIRS_4097[:-1])) == "refused 7 5 3"
    assert refusal(C, together(front + h("02 03 80 7f"))) == refusal(C, together(front + h("02 03 80"))) == "refused 7 5 1"
    assert refusal(C, together(front + h("02 01 7f"))) == "refused 11 5 4096"
    assert refusal(C, together(front + h("02 01"))) == "refused 9 5 4096"
    # Word i of 127 stands behind i others, so each of its two entries has 2 i + 3 bytes: 2 (127^2 + 2 * 127) in all.
    small, large = h("00") + pairs(7), h("00 02 01") + pairs(7)
    assert refusal(C, together(small), 0) == "refused 20 3 32766"
    # 128 words have 33,280. No later pattern mends it, but every other line of the book comes first.
    assert refusal(C, together(large)) == refusal(C, together(large, whole)) == "refused 26 5 0"
    assert refusal(C, together(large) + " 00") == "refused 15 5 258"
    assert entries(C, together(whole, large), 0) == ("accepted 0 0", set())
    # 253 words in place 0 and the same word in places 1 and 2: 32 entries of 1 + 2 (1 + 253 + 1) bytes, 32 of 2 more, and word 1.
    exact, one = h("00 00 07") + filler(253) + h("07 00 07 00"), h("00 01 00")
    assert len(FILLERS) == 124 and len(exact) == 3 + 2 * 253 + 4
    assert refusal(FILLERS, together(one, exact), 0) == f"refused 20 3 {32 * (511 + 513)}" == "refused 20 3 32768"
    assert refusal(FILLERS, together(exact)) == refusal(FILLERS, together(exact, one)) == "refused 26 5 0"
    # Place 4 makes each of the 64 entries 2 bytes longer.
    assert refusal(FILLERS, together(one, exact, h("00 00 10 28 00"))) == "refused 26 5 2"
    # x words in place 0 with place 4 and y words in place 3 with place 5 leave the word, both fillers and two words.
    left, right = h("00 00 11") + filler(1022) + h("28 00"), h("00 00 28") + filler(1022) + h("28 00")
    assert entries(FILLERS, together(one, left, right), 4095) == ("accepted 1 4095", {(h("00 00 39") + filler(1022) * 2 + h("29 00 29 00")).hex()})
    right = h("00 00 28") + filler(1023) + h("28 00")
    assert refusal(FILLERS, together(one, left, right)) == refusal(FILLERS, together(one, left, right, whole)) == "refused 26 5 2"


def empty_kinds_by_hand():
    """Values for vocabularies in which kinds have no complete situation, worked out from the request's sentences on paper."""

    def entries(vocabulary, pattern, length=100):
        """The answer of list and its entries in a row."""
        answer, entries, _ = listed(vocabulary, length, decoded(pattern))
        return answer, entries.hex()

    def left(vocabulary, book, length=100):
        """The answer of a book and its entries."""
        answer, entries, _ = booked(vocabulary, length, decoded(book))
        return answer, {entry.hex() for entry in entries}

    def refusal(vocabulary, pattern, filling):
        return filled(vocabulary, 100, decoded(pattern), decoded(filling))[0]

    one, nothing, none = ("accepted 1 2", "00ff"), ("accepted 0 0", ""), ("accepted 0 0", set())
    # "g(a,_), `00 01 01 00 00`, lists `00 ff` alone and not {a, h}; in a book the entry 255 is kept."
    assert entries(NO_PART, "00 01 01 00 00", 2) == one
    assert entries(NO_PART, "00 01 01 00 00", 1) == entries(NO_PART, "00 01 01 00 00", 0) == ("refused 20 3 2", "")
    assert left(NO_PART, "01 00 01 01 00 00", 2) == ("accepted 1 2", {"00ff"})
    assert left(NO_PART, "01 00 01 01 00 00", 1) == ("refused 20 3 2", set())
    # g(n0, n1), g(., n0) and h(g(., .)) fit nothing either.
    assert entries(NO_PART, "00 01 03 80 81") == entries(NO_PART, "00 01 02 80") == entries(NO_PART, "00 02 01 01 00") == one
    # a leaves h(.) and not g(., .); h(h(a)) leaves a, h(a) and h(h(h(.))), and no g at any depth.
    assert entries(NO_PART, "00 00 00") == ("accepted 1 3", "000200")
    assert entries(NO_PART, "00 02 01 02 01 00 00") == ("accepted 3 15", "000000" + "0002010000" + "00020102010200")
    # A kind without situations lists nothing, whatever the pattern.
    assert entries(NO_PART, "01 ff", 0) == entries(NO_PART, "01 80", 0) == nothing
    assert entries(OVER_ITSELF, "00 ff", 0) == entries(OVER_ITSELF, "00 80", 0) == entries(OVER_ITSELF, "00 00 00", 0) == nothing
    assert entries(h("01 02  00 01 00  00 01 00"), "00 00 01 01 00") == nothing
    # The bench example's listing, though print(.) and wait(up, jam(.)) are no entries; they list 255.
    assert entries(NO_PRINTER, "00 00 03 01 00 03 00", 15) == ("accepted 3 15", "000500" + "0000010200" + "00000301000400")
    assert entries(NO_PRINTER, "00 00 03 01 00 03 00", 14) == ("refused 20 3 15", "")
    assert entries(NO_PRINTER, "00 06 00") == entries(NO_PRINTER, "00 00 03 01 00 07 00") == one
    assert entries(NO_PRINTER, "02 07 00") == ("accepted 1 2", "02ff")
    # wait(n0, free) keeps its name.
    assert entries(NO_PRINTER, "00 00 03 80 03 00") == ("accepted 2 9", "000500" + "000003800400")
    # Word 16 leaves word 0, which only situations of 16 levels fit; with the last word over itself it leaves nothing.
    assert entries(row_of_16("0f 00"), "00 10 00") == ("accepted 1 3", "000000")
    assert entries(row_of_16("0f 01 0f"), "00 10 00") == nothing
    assert entries(row_of_16("0f 01 0f"), "00 00 00") == one
    # Line 18 comes before all this.
    assert entries(h("01 01  00 03 00 00"), "00 00 03 80 80", 0) == ("refused 18 1 4", "")
    # A pattern that nothing fits changes nothing: first, in the middle and last. a leaves h(.), and then h(a) leaves h(h(.)).
    assert left(NO_PART, "02 00 01 01 00 00 00 00 00") == left(NO_PART, "02 00 00 00 00 01 01 00 00") == ("accepted 1 3", {"000200"})
    assert left(NO_PART, "03 00 00 00 00 01 00 00 02 01 00 00") == ("accepted 1 5", {"0002010200"})
    # h(a) leaves a and h(h(.)); h(h(g(., .))) has the words of the second, and no situation.
    assert left(NO_PART, "02 00 02 01 00 00 00 02 01 02 01 01 00") == ("accepted 2 8", {"000000", "0002010200"})
    # Of a and h(.) nothing is left, since g(., .) was left out after the first; any leaves nothing, and g(., .) then neither.
    assert left(NO_PART, "02 00 00 00 00 02 00") == left(NO_PART, "02 00 ff 00 01 00") == left(NO_PART, "02 00 01 00 00 ff") == none
    # A book of a kind without situations starts with no entry.
    assert left(NO_PART, "01 01 ff", 0) == left(NO_PART, "01 01 80", 0) == none
    assert left(OVER_ITSELF, "01 00 ff", 0) == left(OVER_ITSELF, "02 00 00 00 00 00 01 00 00", 0) == none
    # 127 words of two other words each leave 32,766 bytes; the third other word would make it half as much again.
    small = bytes([1, 0, *pairs(7)]).hex(" ")
    assert left(C_AND_D, small, 0)[0] == "refused 20 3 32766"
    assert booked(h("02 04  00 00  00 00  00 03 00 00  00 01 01"), 40000, decoded(small))[0] == "accepted 254 32766"
    assert booked(h("01 04  00 00  00 00  00 03 00 00  00 01 00"), 40000, decoded(small))[0] == "refused 26 5 0"
    # "`01 01 00 01 00` with `00 01 00 01 ..` fails at its end or at level 33", which begins at 8 + 64.
    n0, n0_n1 = "01 00 00 00 00 00 00 00", "03 00 00 00 00 00 00 00"
    assert refusal(OVER_ITSELF, "00 80", n0) == "refused 22 4 8"
    assert refusal(OVER_ITSELF, "00 80", f"{n0} 00 01 00 01") == "refused 22 4 12"
    assert refusal(OVER_ITSELF, "00 80", f"{n0} 00 01 [8,62]") == refusal(OVER_ITSELF, "00 80", f"{n0} 00 01 [8,64]") == "refused 22 4 72"
    assert refusal(OVER_ITSELF, "00 80", f"{n0} 00 00") == "refused 22 4 9"
    # No word yields kind 1: n1's first byte fails, or is missing.
    assert refusal(NO_PART, "00 01 03 80 81", f"{n0_n1} 00 00 00 00") == refusal(NO_PART, "00 01 03 80 81", f"{n0_n1} 00 00") == "refused 22 4 10"
    assert filled(NO_PART, 5, h("00 01 01 80"), decoded(f"{n0} 00 00"))[:2] == ("accepted 5 0", h("00 01 01 00 00"))
    # The program: two length bytes, the vocabulary, the pattern.
    for pattern in ("00 ff", "00 80", "00 00 00"):
        assert printed(h("00 05") + OVER_ITSELF + h(pattern)) == "leftovers 0\n"
    assert printed(h("00 0b") + NO_PART + h("00 01 01 00 00")) == "leftovers 1\n1 00ff\n"


def printed_by_hand():
    """The text that document 01 gives whole, and DECISIONS' inputs."""
    assert printed(h("00 10") + A + h("00 00 03 01 00 03 00")) == "leftovers 3\n1 000500\n2 0000010200\n3 00000301000400\n"
    assert printed(h("00 0a") + C + h("00 ff")) == "leftovers 0\n"
    # "No byte or one byte: the vocabulary is empty"; "Length 11 before C's ten bytes"
    assert printed(h("")) == printed(h("00")) == printed(h("01")) == "refused 1 0 0\n"
    assert printed(h("00 0b") + C) == "refused 7 1 0\n"
    # Only the last word has siblings: 15 entries, each the pattern with another word for it.
    front = long_pattern()[:-2].hex()
    assert len(long_pattern()) == 4095
    assert printed(LONG_INPUT) == "leftovers 15\n" + "".join(f"{i} {front}{5 + i:02x}00\n" for i in range(1, 16))


def desk_by_hand():
    """The answers for the files of examples/, and faults with line, column and mark counted on paper."""
    steps = Path(__file__).parent.parent / "examples"

    def lines(*given):
        return "".join(line + "\n" for line in given)

    def file(name):
        return desk((steps / name).read_bytes()).decode()

    def told(*given):
        """The answer for the lines of a text."""
        return desk("\n".join(given).encode()).decode()

    def block(head, *entries):
        """The lines for a pattern."""
        return lines(f"# {head}", f"# {len(entries)} leftovers:", *entries, f"# end of {len(entries)} leftovers", "")

    def whole(*blocks, tail=""):
        return "".join(blocks) + tail + f"# end of {len(blocks)} patterns\n"

    def together(number, kind, *entries):
        """The lines for patterns together."""
        return block(f"all {number} patterns of {kind} together", *entries)

    def note(kind):
        """The lines for a kind without complete situation."""
        return lines(f"# kind {kind} has no complete situation", "")

    def asked(question, *answer):
        return lines(f"# {question}", *answer, "")

    kinds = ("kind step = wait(button, queue) | done", "kind button = up | down", "kind queue = free | full")
    bench = ("# 3 leftovers:", "done", "wait(down, _)", "wait(up, full)", "# end of 3 leftovers", "", "# end of 1 patterns")
    assert file("bench.step") == told(*kinds, "go: wait(up, free)", "") == lines("# go: wait(up, free)", *bench)
    # The words print(.) and jammed(.) have no situations, and so wait(., jammed(.)) fits none.
    assert file("no-printer.step") == whole(
        block("go: wait(up, free)", "done", "wait(down, _)", "wait(held(_), _)", "wait(up, full)"),
        block("release: wait(held(green), free)", "done", "wait(up, _)", "wait(down, _)", "wait(held(red), _)", "wait(held(green), full)"),
        block("jam: wait(_, jammed(_))", "_: step"),
        block("_: queue"),
        # By release, of wait(held(_), _) the lamp red is left, and of green the queue full. The printer is the last kind.
        tail=together(3, "step", "done", "wait(down, _)", "wait(held(red), _)", "wait(held(green), full)", "wait(up, full)") + note("printer"),
    )
    # Lower places as in the pattern, ?colour with them, and higher ones open.
    seen = "watch(eye(lit(?colour), clear), "
    below = ("watch(covered, _)", "watch(eye(dark, _), _)", "watch(eye(lit(?colour), dim), _)", f"{seen}empty)", f"{seen}holds(used))")
    # `watch(` behind `measure ? ` is before the word that differs.
    red = asked("measure ? watch(eye(lit(red), clear), holds(fresh))", "# yes", "# ?colour = red")
    covered_eye = asked("measure ? watch(covered, holds(fresh))", "# " + " " * 16 + "^ no: eye is due here")
    assert file("eye.step") == whole(block(f"measure: {seen}holds(fresh))", "rinse(_)", "done", *below) + red + covered_eye)
    # Blanks and comments change nothing; the pattern is printed with a space behind each comma and colon.
    blank = told("kind a=b(a,a)|c#", "go :b (c,#)", "\t_ ) ?n:\ta")
    assert blank == whole(block("go: b(c, _)", "c", "b(b(_, _), _)"), block("?n: a"), tail=together(2, "a"))
    assert told(*kinds) == whole()

    # Yes, with what the names cover; no, with a mark below the first word that differs, which is `full` at 13 and `done` at 5.
    go = block("go: wait(up, free)", "done", "wait(down, _)", "wait(up, full)")
    yes, no = asked("go ? wait(up, free)", "# yes"), asked("go ? wait(up, full)", "#               ^ no: free is due here")
    assert told(*kinds, "go: wait(up, free) go ? wait(up, free) go ?wait ( up,full)") != whole(go + yes + no)
    assert told(*kinds, "go: wait(up, free) go ? wait(up, free) go ? wait ( up,full)") == whole(go + yes + no)
    root = asked("go ? done", "#      ^ no: wait is due here")
    named = block("n: wait(?b, ?q)", "done") + asked("n ? wait(down, full)", "# yes", "# ?b = down", "# ?q = full")
    both = whole(go + root, named, tail=together(2, "step", "done"))
    assert told(*kinds, "go: wait(up, free)", "go ? done", "n: wait(?b, ?q)", "n ? wait(down, full)") == both
    # What a name covers may have places; what differs behind it is marked behind all of that, one column a character.
    deep = ("kind a = ä(a, a) | b",)
    line = asked("n ? ä(ä(b, b), b)", "#                ^ no: ä is due here")
    assert told(*deep, "n: ä(?m, ä(_, _))", "n ? ä(ä(b,b),b)") == whole(block("n: ä(?m, ä(_, _))", "b", "ä(?m, b)") + line)
    line = asked("n ? ä(ä(b, b), b)", "# yes", "# ?m = ä(ä(b, b), b)")
    assert told(*deep, "n: ?m: a", "n ? ä(ä(b,b),b)") == whole(block("n: ?m: a") + line)
    # Both together fit every queue, and so all that is left is the other button and done.
    one, other = block("wait(up, free)", "done", "wait(down, _)", "wait(up, full)"), block("wait(_, full)", "done", "wait(_, free)")
    assert told(*kinds, "wait(up, free) wait(_, full)") == whole(one, other, tail=together(2, "step", "done", "wait(down, free)"))

    # A kind without complete situation has a note behind all blocks: one without words, also with no pattern, and one whose words
    # lead back to it, by themselves or by another kind. Then c(_) and wait(_) are no leftovers.
    assert told("kind a = b", "kind e", "b", "") == whole(block("b"), tail=note("e"))
    assert told("kind a = b", "kind e", "") == whole(tail=note("e"))
    assert told("kind queue = behind(queue)", "kind step = done | wait(queue)", "done") == whole(block("done"), tail=note("queue"))
    assert told("kind a = b(c)", "kind c = d(a) | e(c)", "kind f = g") == whole(tail=note("a") + note("c"))
    # The kind c has d, which is declared later, and so a has b(d).
    assert told("kind a = b(c)", "kind c = d") == whole()
    # Two of four kinds, in their order, and behind the answer to a question.
    four = ("kind x", "kind a = b | c(x)", "kind y = d(y, a)", "kind z = e(a)")
    assert told(*four, "n: b n ? b") == whole(block("n: b") + asked("n ? b", "# yes"), tail=note("x") + note("y"))
    # Kind by kind with the leftovers of patterns together: the note on a kind first, and then what its patterns leave.
    three = ("kind x", "kind a = b | c", "kind y = d(y)")
    tail = note("x") + together(2, "a", "c") + note("y") + together(2, "y")
    assert told(*three, "b d(_) b _: y") == whole(block("b", "c"), block("d(_)"), block("b", "c"), block("_: y"), tail=tail)
    many = f"{note('e')}leftovers of all 65 patterns of e together not listed, as 64 patterns are the most\n\n# end of 65 patterns\n"
    assert told("kind a = b", "kind e", *["_: e"] * 65) == block("_: e") * 65 + many

    # The fourth line has u at 10 behind `go: wait(`, the comma at 12 and the second place at 14.
    def fault(place, why, line, *more):
        """Asserts what is said of the pattern line of a text, with the mark so many columns behind the line's front."""
        assert told(*kinds, line, *more) == f"line 4, column {place + 1}: {why}\n{line}\n{' ' * place}^\n"

    fault(13, "queue is due here: free or full", "go: wait(up, up)", "go: wait(free, up)")
    fault(13, "queue is due here: free or full", "go: wait(up, )")
    fault(9, "button is due here: up or down", "go: wait(free, up)")
    fault(9, "button is due here: up or down", "go: wait(?, up)")
    fault(9, "no word held in this vocabulary", "go: wait(held, free)")
    fault(4, "no word held in this vocabulary", "go: held(up)")
    fault(0, "no word go in this vocabulary", "go wait(up, free)")
    fault(17, "wait takes 2 places, and 3 are written", "go: wait(up, free, full)")
    # Of the four commas behind the second place one stands in further parentheses, and one behind the places.
    fault(13, "wait takes 2 places, and 4 are written", "wait(up, free, wait(up, free), up), free")
    fault(13, "wait takes 2 places, and 4 are written", "wait(up, free, up, up")
    # A place is a term behind a comma, and none stands behind the colon of the next pattern's label.
    fault(13, "wait takes 2 places, and no , is due here", "wait(up, free,)")
    fault(13, "wait takes 2 places, and no , is due here", "wait(up, free, , kind lamp)")
    fault(13, "wait takes 2 places, and 4 are written", "wait(up, free, _, ?n, )")
    fault(13, "wait takes 2 places, and 3 are written", "wait(up, free, up", "go: wait(up, free), up")
    assert told("kind k = a(k) | b", "x: a(b, b", "y: b") == "line 2, column 7: a takes 1 place, and 2 are written\nx: a(b, b\n      ^\n"
    fault(11, "wait takes 2 places, and fewer are written", "go: wait(up)")
    fault(8, "wait takes 2 places, and none is written", "go: wait, free")
    fault(12, "wait takes 2 places, in ( and ) with a , between them", "go: wait(up free)")
    fault(18, "wait takes 2 places, and a ) is due here", "go: wait(up, free ")
    no_places = "no places are due here, as what stands before takes none or has them all"
    fault(4, no_places, "done(up)")
    fault(7, no_places, "wait(up(down), free)")
    fault(13, no_places, "wait(up, free(up))")
    fault(9, "?n stands twice in this pattern", "wait(?n, ?n)")
    fault(2, "a : and a kind are due here, as in _: step", "_ step")
    fault(3, "kind lamp is used and not declared", "_: lamp")
    fault(4, "the name of a kind is due here", "?n: ?m")
    fault(4, no_places, "done() wait(up, free)")
    fault(5, "a pattern is due here", "done ) wait(up, free)")
    fault(5, "all kinds are declared before the first pattern", "done kind lamp = red", "done")
    # `kind` is no term, whatever stands behind it. A late `kind` is at fault itself, and the name behind it is known all the same.
    fault(9, "queue is due here: free or full", "wait(up, kind)")
    fault(9, "queue is due here: free or full", "wait(up, kind lamp)")
    fault(9, "queue is due here: free or full", "wait(up, done) kind =")
    fault(5, "all kinds are declared before the first pattern", "done kind =")
    fault(5, "all kinds are declared before the first pattern", "done kind step")
    fault(13, "all kinds are declared before the first pattern", "_: lamp done kind lamp = red")
    fault(15, "lamp is due here, and no word of that kind is declared before the first pattern", "n: _: lamp n ? kind lamp")
    # A mark that stands between places or words of a kind, where a pattern is due.
    no_mark = "a pattern is due here; no mark stands between patterns, and the words of a kind stand behind =, with a | between them"
    fault(4, no_mark, "done, done")
    fault(5, no_mark, "done = done")
    fault(5, no_mark, "done | done")
    fault(4, no_mark, "go: | done")
    fault(0, no_mark, ", held")
    fault(0, no_mark, "= held")
    # A | behind the last kind goes on with its words. A colon stands between no words.
    fault(2, "word done is declared twice", "| done")
    fault(6, "a pattern is due here", "done: : done")
    # Questions at fault: of the first thing that is open, or of what is at fault before it.
    go = "go: wait(up, free) "
    fault(19, "a question begins with the label of the pattern before it, and this is another name", f"{go}stop ? done")
    fault(5, "a question begins with the label of the pattern before it, and this is another name", "done go ? done")
    fault(29, "a situation has no open place and no name", f"{go}go ? wait(_, up)")
    fault(33, "a situation has no open place and no name", f"{go}go ? wait(up, ?n)")
    fault(24, "a situation has no open place and no name", f"{go}go ? _: step")
    fault(29, "no word held in this vocabulary", f"{go}go ? wait(held, _)")
    fault(24, "step is due here: wait or done", f"{go}go ? up")
    fault(24, "step is due here: wait or done", f"{go}go ? ")
    fault(0, "a question stands behind its pattern, and begins with its label", "go ? done")
    fault(0, "no word go in this vocabulary; in a question a blank is due behind the ?", "go ?done")
    fault(19, "no word go in this vocabulary; in a question a blank is due behind the ?", f"{go}go ?wait(up, free)")
    fault(4, "a question stands behind its pattern, and begins with its label", "go: stop # none", "? done")
    fault(0, "a pattern is due here", "? done")
    # At the end of the text, which may be a line of its own.
    assert told(*kinds, "go:", "") == "line 5, column 1: a pattern is due here\n\n^\n"
    assert told("") == "line 1, column 1: `kind` is due here, as a text begins with its kinds\n\n^\n"
    # A name is the second thing behind `kind `, and a word that behind ` = `.
    assert told("# none", "step = done") == "line 2, column 1: `kind` is due here, as a text begins with its kinds\nstep = done\n^\n"
    assert told("kind = done") == "line 1, column 6: a name is due here, for the kind\nkind = done\n     ^\n"
    assert told("kind a = ") == "line 1, column 10: a name is due here, for a word\nkind a = \n         ^\n"
    assert told("kind a = b", " kind a") == "line 2, column 7: kind a is declared twice\n kind a\n      ^\n"
    assert told("kind a = b | b") == "line 1, column 14: word b is declared twice\nkind a = b | b\n             ^\n"
    no_words = "no kind up to here has a word; words stand behind =, as in kind button = up | down"
    assert told("kind a", "") == lines(f"line 2, column 1: {no_words}", "", "^")
    # The words end where no | follows. Where there is none yet that is told, and else that a pattern is due: the second mark stands at
    # 10 behind b, at 11 behind b and a blank, and | at 18 behind the two kinds.
    assert told("kind a | b kind c = d") == lines(f"line 1, column 8: {no_words}", "kind a | b kind c = d", "       ^")
    for line, at in [("kind a = b, c", 10), ("kind a = b = c", 11), ("kind c = d kind a | b", 18)]:
        assert told(line) == lines(f"line 1, column {at + 1}: {no_mark}", line, " " * at + "^")
    # A word where one of a kind without words is due, in a pattern and in a question; a name that is no word is told as such.
    lamps = ("kind a = b(lamp) | c", "kind lamp")
    for line, at in [("b(c)", 2), ("b()", 2), ("n: _: lamp n ? c", 15), ("n: b(_) n ? b(c)", 14)]:
        assert told(*lamps, line) == lines(f"line 3, column {at + 1}: lamp is due here, and no word of that kind is declared before the first pattern", line, " " * at + "^")
    assert told(*lamps, "b(red)") == lines("line 3, column 3: no word red in this vocabulary", "b(red)", "  ^")
    # A kind with a word is due with it, though the word leads back to the kind.
    back = ("kind a = b(e) | c", "kind e = f(e)")
    assert told(*back, "b(c)") == lines("line 3, column 3: e is due here: f", "b(c)", "  ^")
    assert told("kind a = b(lamp)") == "line 1, column 12: kind lamp is used and not declared\nkind a = b(lamp)\n           ^\n"
    assert told("kind a = b()") == "line 1, column 12: the name of a kind is due here\nkind a = b()\n           ^\n"
    assert told("kind a = b(a a)") == "line 1, column 14: a , or a ) is due here\nkind a = b(a a)\n             ^\n"
    # Faults are told from left to right: before the name of a later kind comes a word that is missing, a comma or a place's kind.
    assert told("kind a = ", "kind a") == "line 2, column 1: a name is due here, for a word\nkind a\n^\n"
    assert told("kind a = b(a a)", "kind") == "line 1, column 14: a , or a ) is due here\nkind a = b(a a)\n             ^\n"
    unknown = "line 1, column 12: kind lamp is used and not declared\nkind a = b(lamp)\n           ^\n"
    assert told("kind a = b(lamp)", "kind =") == told("kind a = b(lamp)", "kind a") == unknown
    assert told("up kind") == "line 1, column 1: `kind` is due here, as a text begins with its kinds\nup kind\n^\n"
    # A kind may be declared behind a name at fault, or be named by a `kind` that is itself at fault: then it is not the place.
    assert told("kind a = b(c)", "kind =", "kind c") == "line 2, column 6: a name is due here, for the kind\nkind =\n     ^\n"
    assert told("kind a = b(c)", "kind a", "kind c") == "line 2, column 6: kind a is declared twice\nkind a\n     ^\n"
    wrong = "kind a = b(c) | d(kind c)"
    assert told(wrong) == lines("line 1, column 19: the name of a kind is due here", wrong, " " * 18 + "^")
    # Behind the last `kind` stands the end.
    assert told("kind a = b kind") == lines("line 1, column 16: a name is due here, for the kind", "kind a = b kind", " " * 15 + "^")
    assert told("kind kind = a") == "line 1, column 6: a name is due here, for the kind\nkind kind = a\n     ^\n"
    for written, why in [("b(c, c)", "and 2 are written"), ("b(c", "and a ) is due here"), ("b", "in ( and ) with a , between them")]:
        at = min(len(written), 3)
        assert told("kind a = b(a) | c", written) == lines(f"line 2, column {at + 1}: b takes 1 place, {why}", written, " " * at + "^")
    # What stands before kind is a byte order mark, alone or as the front of a name.
    for end, shown in (("\n", ""), ("", "kind a = b")):
        why = "a byte order mark stands here, and a text begins with `kind`"
        assert told(f"\ufeff{end}kind a = b") == lines(f"line 1, column 1: {why}", f"\ufeff{shown}", "^")
    # A character beyond ASCII is one column, and so is a tab, which stays one below. A carriage return is none.
    assert told("kind ä = ö", "\tö ü(ö)\r") == "line 2, column 4: no word ü in this vocabulary\n\tö ü(ö)\n\t  ^\n"
    assert told("kind a = b(a)\r", "b(\r c)\r") == "line 2, column 4: no word c in this vocabulary\nb( c)\n   ^\n"
    assert desk(b"kind a = b\n\0") == b"line 2, column 1: a pattern is due here\n?\n^\n"

    # Limits met, and passed by one: names of 32 bytes, 16 kinds, 96 words, 8 places, 64 names and 32 levels.
    name, nothing, one_more = "n" * 32, whole(), "are the most, and this is one more"
    assert told(f"kind {name} = {name}") == nothing
    for line, at in [(f"kind {name}n", 6), (f"kind a = {name}n", 10), (f"kind a = b {name}n: b", 12), (f"kind a = b ?{name}n: a", 12)]:
        mark = " " * (at - 1) + "^"
        assert told(line) == lines(f"line 1, column {at}: 32 bytes are the most for a name, and this one has more", line, mark)
    # A place with such a name is at fault itself, whether a `kind` stands before the name or not, also as the ninth.
    for line, at in [(f"kind a = b({name}n)", 12), (f"kind a = b(a{',a' * 7},{name}n)", 28)]:
        long = lines(f"line 1, column {at}: 32 bytes are the most for a name, and this one has more", line, " " * (at - 1) + "^")
        assert told(line) == told(line, f"kind {name}n") == long
    # For the kind of a pattern it is a name like others.
    line = f"kind a = b _: {name}n"
    assert told(line) == lines(f"line 1, column 15: kind {name}n is used and not declared", line, " " * 14 + "^")
    many = [f"kind k{n:02} = w{n:02}" for n in range(17)]
    assert told(*many[:16]) == nothing
    assert told(*many) == lines(f"line 17, column 6: 16 kinds {one_more}", "kind k16 = w16", "     ^")
    assert told("kind k00 =", *many[1:]) == lines("line 2, column 1: a name is due here, for a word", "kind k01 = w01", "^")
    # The kind of a place may be the 17th, or none where 16 are declared: both are told alike. With 15 declared it is just not known.
    place = "kind k00 = w00(k16)"
    none_of = lines("line 1, column 16: kind k16 is none of the first 16 kinds, and 16 are the most", place, " " * 15 + "^")
    assert told(place, *many[1:]) == told(place, *many[1:16]) == none_of
    assert told(place, *many[1:15]) == lines("line 1, column 16: kind k16 is used and not declared", place, " " * 15 + "^")
    # A name that is passed over takes no room: behind it k16 is the 16th. One behind a pattern does, and then k16 has none.
    assert told(place, "kind k00", *many[2:]) == lines("line 2, column 6: kind k00 is declared twice", "kind k00", "     ^")
    assert told(place, *many[1:15], "w01 kind k15") == none_of
    # It is told before a ninth place, and behind a name that is too long. `kind` is no name, however many kinds there are.
    for written, at, why in [
        (f"a{',a' * 7},k16", 28, "kind k16 is none of the first 16 kinds, and 16 are the most"),
        (f"{name}n", 12, "32 bytes are the most for a name, and this one has more"),
        ("kind", 12, "the name of a kind is due here"),
    ]:
        line = f"kind a = b({written})"
        assert told(line, *many[:15]) == lines(f"line 1, column {at}: {why}", line, " " * (at - 1) + "^")
    # A pattern has the 16 kinds, and no other.
    assert told(*many[:16], "_: k16", "kind k16") == lines("line 17, column 4: kind k16 is used and not declared", "_: k16", "   ^")
    many = "kind a = " + " | ".join(f"w{n:02}" for n in range(97))
    assert told(many[:-6]) == nothing
    assert told(many) == lines(f"line 1, column {10 + 6 * 96}: 96 words {one_more}", many, " " * (9 + 6 * 96) + "^")
    # All eight lead back.
    assert told(f"kind a = b(a{',a' * 7})") == whole(tail=note("a"))
    many = f"kind a = b(a{',a' * 8})"
    assert told(many) == lines(f"line 1, column 28: 8 places {one_more}", many, " " * 27 + "^")
    # Eight words of eight variables each; `(` or a comma and ?nn are four bytes, w two more at the front and ) one behind.
    deep = ("kind a = w(a, a, a, a, a, a, a, a) | b(a) | c",)
    eights = [f"w({','.join(f'?{8 * n + i:02}' for i in range(8))})" for n in range(8)]
    assert told(*deep, f"w({','.join(eights)})").startswith("# w(w(?00, ")
    many = f"w({','.join(eights[:7])},w({','.join(['b(?56)', *(f'?{n}' for n in range(57, 63)), 'w(?63,?64,_,_,_,_,_,_)'])}))"
    at = 2 + 7 * 35 + 2 + 7 + 6 * 4 + 2 + 4
    assert told(*deep, many) == lines(f"line 2, column {at + 1}: 64 names are the most in a pattern, and this is one more", many, " " * at + "^")
    for end in ("c", "?n"):
        assert told(*deep, "b(" * 31 + end + ")" * 31).startswith("# b(b(")
        many = "b(" * 32 + end + ")" * 32
        assert told(*deep, many) == lines(f"line 2, column 65: 32 levels {one_more}", many, " " * 64 + "^")
    assert told(*deep, "b(" * 32 + "_" + ")" * 32).startswith("# b(b(")
    # The full tree of 11 levels has 1,023 times `p(`, `,` and `)` and 1,024 leaves, the last before ten times `)`.
    pairs, pair = ("kind a = b | c | p(a, a)",), "b"
    for _ in range(10):
        pair = f"p({pair},{pair})"
    assert len(pair) == 1023 * 4 + 1024 == 5105 + 1 + 10
    # 4,095 bytes, and 4,096 with p(?n, _) for the last leaf: not refused. A word more has 4,097, and so has a variable.
    list_size = 2 * (2047 * 2047 + 2 * 2047)
    two = told(*pairs, pair, pair)
    assert f"\nleftovers not listed, as the list has {list_size} bytes and 65536 are the most\n\n# p" in two
    past = "not listed, as behind pattern 1 of them they have more than 32768 bytes, or one of them more than 4096"
    assert two.endswith(f"\n\nleftovers of all 2 patterns of a together {past}\n\n# end of 2 patterns\n")
    assert told(*pairs, pair[:5105] + "p(?n,_)" + ")" * 10).startswith("# p(p(")
    for leaf, at in [("p(b,_)", 5107), ("p(?n,?m)", 5110)]:
        many = pair[:5105] + leaf + ")" * 10
        why = "4096 bytes are the most for a pattern or a situation, and this one has more"
        assert told(*pairs, many) == lines(f"line 2, column {at + 1}: {why}", many, " " * at + "^")
    # 64 patterns together, and 65.
    assert told("kind a = b | c", *["b"] * 64).endswith("# all 64 patterns of a together\n# 1 leftovers:\nc\n# end of 1 leftovers\n\n# end of 64 patterns\n")
    many = "leftovers of all 65 patterns of a together not listed, as 64 patterns are the most"
    assert told("kind a = b | c", *["b"] * 65).endswith(f"\n\n{many}\n\n# end of 65 patterns\n")
    # 96 words of 32 bytes: the pattern's line 35, 16 and 22 before and behind 95 entries of 33, and an empty line. 326 such
    # patterns, 85 of being too many together and the last line of 22 lack 2,335: 68 labels of 32 bytes with colon and space, and one
    # of 21.
    names = [f"{n:032}" for n in range(96)]
    words = "kind a = " + " | ".join(names)
    assert len(told(words, names[0])) == 35 + 16 + 95 * 33 + 22 + 1 + len("# end of 1 patterns\n")
    full = [*[f"{name}: {names[95]}"] * 68, *[names[95]] * 257]
    assert len("leftovers of all 326 patterns of a together not listed, as 64 patterns are the most\n\n") == 85
    assert len(told(words, *full, f"{'l' * 21}: {names[95]}")) == 326 * 3209 + 85 + 22 + 68 * 34 + 23 == 1048576
    too_long = "the answer has more than 1048576 bytes, which are the most: ask for fewer patterns at a time\n"
    assert told(words, *full, f"{'l' * 22}: {names[95]}") == too_long
    # A note counts: a label of 32 bytes less, with colon and space, and two bytes less in the last one are its 36.
    assert len(note("e")) == 36
    assert len(told(words, "kind e", *full[1:], names[95], f"{'l' * 19}: {names[95]}")) == 1048576
    assert told(words, "kind e", *full[1:], names[95], f"{'l' * 20}: {names[95]}") == too_long
    # A text may have 65,535 bytes. Byte 65,535 is the 65,526th end of a line here, which is that of line 65,526.
    assert told("kind a = b" + "\n" * 65525) == nothing
    assert told("kind a = b" + "\n" * 65526) == "line 65526, column 1: 65535 bytes are the most for a text, and this one has more\n\n^\n"


FULL_TREE = "00 02 03 [1,18] 00 00 [21,2] [19,6] [17,14] [15,30] [13,62] [11,126] [9,254] [7,510] [5,1022] [3,2046]"

FULL_FILLING = "02 03 [8,18] 00 00 [28,2] [26,6] [24,14] [22,30] [20,62] [18,126] [16,254] [14,510] [12,1022] [10,2046]"


def main():
    crates = Path(__file__).parent.parent / "crates"
    programs = {
        "examples": lambda: examples((crates / "examples" / "stdin").read_text()),
        "families": families,
        "leftovers": lambda: printed((crates / "leftovers" / "stdin").read_bytes()).splitlines(),
    }
    wanted = sys.argv[1] if len(sys.argv) > 1 else None
    others = {"long-input": lambda: LONG_INPUT, "desk": lambda: desk(sys.stdin.buffer.read())}
    if wanted not in programs and wanted not in others:
        print("usage: python3 tools/expected.py examples | families | long-input | leftovers | desk", file=sys.stderr)
        sys.exit(2)
    by_hand()
    gaps_by_hand()
    matched_by_hand()
    listed_by_hand()
    filled_by_hand()
    booked_by_hand()
    empty_kinds_by_hand()
    printed_by_hand()
    desk_by_hand()
    listings_divide()
    books_divide()
    empty_kinds_divide()
    if wanted in others:
        sys.stdout.buffer.write(others[wanted]())
        return
    lines = list(programs[wanted]())
    sys.stdout.buffer.write("".join(line + "\n" for line in lines).encode())


if __name__ == "__main__":
    main()
