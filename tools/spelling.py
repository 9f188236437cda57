#!/usr/bin/env python3
"""Brings the repository's own names of specs/ and proofs/ to the spelling of today's Rattle.

usage: python3 tools/spelling.py [--list]      at the top of the repository, once, right after the toolchain's own port script

A name in camel case that is declared in an .antt file, a definition, a field, a constructor or a lemma, gets snake case. In the name of
a lemma a dash stays where it joins the names of two definitions, as in `keep-map`; elsewhere it becomes `_`. Types and modules keep
theirs, and so do names of the library. It goes over .antt and .rt files below crates/, the pages of docs/, README and CONTRIBUTING.
What Rattle makes of a function, such as `returns-2`, is no name of the repository's own and stays. A lemma that would get the name of a
definition gets `_lem` behind it.
"""

import os
import re
import sys

TOKEN = re.compile(r"[^\s(){}\[\],;:`\"|.]+")
DECLARED = re.compile(r"^(\s*)((?:(?:abbrev|unfoldable|pub|data|record|mutual) )*)([^\s(){}\[\],;:.]+)((?: [^\s(){}\[\],;:=→.]+)*) (?::|[({])")
IMPORT = re.compile(r"use ([\w.+-]+)\.\{([^}]*)\}")
NOT_NAMES = {"use", "where", "let", "in", "module", "--", "=", "λ", "record", "data", "elim", "open", "ruleset"}
PAGES = ("README.md", "CONTRIBUTING.md")
KIT = re.compile(r"(?!Rattle\.(?!(std|core|io|os|libc)\.))")
# Names of the toolchain's lists and maps that lemmas speak of beside those of specs/.
LIBRARY = {"length", "take", "drop", "map", "append", "set", "get_or", "replicate", "reverse", "sum", "fold", "ones", "paste"}
# Lemmas and local names that the toolchain's script has spelled already, and with whose names definitions fall together.
TOGETHER = {
    "all_hold", "first_past", "gap_here", "goes_on", "in_place", "in_rest", "map_at", "no_text", "same_outcome", "word_read", "no_words",
}


def walked(top):
    for folder, folders, files in os.walk(top):
        folders[:] = sorted(d for d in folders if d != "out")
        for f in sorted(files):
            yield os.path.join(folder, f)


def read(path):
    with open(path, encoding="utf-8") as f:
        return f.read()


def made(path):
    """A file that answers the goals of one function: its names are Rattle's."""
    folder, name = os.path.split(path)
    return name in ("Proof.antt", "Answers.antt", "Invariants.antt") and os.path.basename(folder) not in ("specs", "proofs")


def snake(name):
    return re.sub(r"(?<=[a-z0-9₀-₉])([A-Z])", lambda m: "_" + m[1].lower(), name)


def is_camel(name):
    return name[0].islower() and re.search(r"[a-z0-9][A-Z]", name) is not None


def is_dashed(name):
    return name[0].islower() and re.fullmatch(r"[\w]+(-[\w]+)+'*", name) is not None


def declarations():
    """The names that are declared, and where."""
    found, library = {}, set()
    for path in walked("crates"):
        if not path.endswith(".antt"):
            continue
        for line in read(path).splitlines():
            m = DECLARED.match(line)
            if m and m[3] not in NOT_NAMES:
                for name in [m[3]] + m[4].split():
                    found.setdefault(name, set()).add(path)
        for module, names in IMPORT.findall(read(path)):
            if KIT.match(module):
                library |= {n.strip().split(" ")[0] for n in names.split(",")}
    return found, library


def joined(name, definitions):
    parts = name.split("-")
    for i in range(1, len(parts)):
        a, b = "_".join(parts[:i]), "_".join(parts[i:])
        if a in definitions and b in definitions:
            return a + "-" + b
    return "_".join(parts)


def new_names():
    found, library = declarations()
    own = {n: at for n, at in found.items() if n not in library and any(not made(p) for p in at)}
    in_specs = {snake(n) for n, at in own.items() if n[0].islower() and "-" not in n and any("/specs/" in p for p in at)}
    turned = {n: snake(n) for n in own if is_camel(n) and "-" not in n}
    taken = set(turned.values()) | (set(found) - set(turned))
    for n in sorted(own):
        if is_dashed(n):
            new = joined(snake(n), in_specs | LIBRARY)
            if new != n:
                turned[n] = new + "_lem" if new in taken else new
    for n in TOGETHER:
        turned[n] = n + "_lem"
    return turned


def turn_text(path, text, turned):
    imported = {n.strip().split(" ")[0] for _, names in IMPORT.findall(text) for n in names.split(",")}

    def turn(m):
        name = m[0]
        behind_dot = m.start() > 0 and text[m.start() - 1] == "."
        if name in TOGETHER and (behind_dot or "/proofs/" not in path or made(path) and name not in imported):
            return name
        if "-" in name and made(path) and (behind_dot or name not in imported):
            return name
        # A member of a type of the library, as `Memᴰ.not-nil`.
        if behind_dot and text[m.start() - 2] == "ᴰ":
            return name
        return turned.get(name, name)

    return TOKEN.sub(turn, text)


def main():
    turned = new_names()
    if "--list" in sys.argv[1:]:
        for name in sorted(turned):
            print(name, turned[name])
        return
    pages = [os.path.join("docs", f) for f in sorted(os.listdir("docs")) if f.endswith(".md") and f != "CHANGES.md"]
    for path in [p for p in walked("crates") if p.endswith((".antt", ".rt"))] + list(PAGES) + pages:
        text = read(path)
        after = turn_text(path, text, turned)
        if after != text:
            with open(path, "w", encoding="utf-8") as f:
                f.write(after)


if __name__ == "__main__":
    main()
