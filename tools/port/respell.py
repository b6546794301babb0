#!/usr/bin/env python3
"""Brings the repository's own definitions and lemmas to today's spelling: words in snake case, types in camel case.

    respell.py            at the top of the repository: rewrites crates/*/{src,specs,proofs} in place
    respell.py --list     says what would be renamed, and writes nothing

A name is one of our own where a line of specs/ or proofs/ defines it, or an import brings something in under it. Left alone
are goals, invariants and measures (their type begins with `goal.`, or the checker names them), names that the library has
too, comments, strings, and functions of src/.
Two names that would fall together stop it before anything is written.
"""

import os
import re
import sys

DEFINES = re.compile(
    r"\s*(?:(?:abbrev|unfoldable|pub|record|data|mutual|ruleset)\s+)*([^\s:(){}\[\];,.]+)(?:\s+[({].*)?\s*:\s(.*)$")
GENERATED = re.compile(
    r"(decreases|invariant|overflow|bounds|slice_bounds|offset_bounds|nonzero|returns|loop|invariant_of)[-_]|.*-requires$|.*-(init|preserved|smaller)$")
WORD = re.compile(r"[^\s(){}\[\];,.:\"⌜⌝λ]+")

# Types that were spelled as words, a name that would fall together with a variant of a fault, and a word spelled as a type.
BY_HAND = {"pair-sound": "PairSound", "parts-sound": "PartsSound", "No-row": "NoneTaken", "Stands-after": "stands_after"}


def files(ending):
    for folder, below, names in os.walk("crates"):
        below[:] = sorted(b for b in below if b != "out")
        for name in sorted(names):
            if name.endswith(ending):
                yield os.path.join(folder, name)


def read(path):
    with open(path, encoding="utf-8") as f:
        return f.read()


def is_goal(text):
    return bool(re.match(r"(goal|given)\.", text.strip()))


def defined():
    """Each own name, with the places of its definitions."""
    own = {}
    for path in files(".antt"):
        inside_function = bool(re.search(r"/(Answers|Invariants|Proof)\.antt$", path))
        for line in read(path).splitlines():
            m = DEFINES.match(line)
            if not m or line.lstrip().startswith("--"):
                continue
            name, kind = m.group(1), m.group(2)
            if inside_function and (is_goal(kind) or GENERATED.match(name) and " : goal." in line):
                continue
            own.setdefault(name, set()).add(path)
    for ending in (".antt", ".rt"):
        for path in files(ending):
            for line in re.findall(r"^\s*(?:ghost )?use [^;\n]*", read(path), re.M):
                for name in re.findall(r"\bas ([A-Za-z][^\s,{}]*)", line):
                    own.setdefault(name, set()).add(path)
    return own


def library_names():
    """Names that a file imports from the library."""
    names = set()
    for ending in (".antt", ".rt"):
        for path in files(ending):
            for block in re.findall(r"use Rattle\.std\.[\w.·+-]*\.\{([^}]*)\}", read(path)):
                for part in block.split(","):
                    names.update(part.split())
    return names


def new_name(name):
    if name in BY_HAND:
        return BY_HAND[name]
    if not re.match(r"[a-z]\S*-|[A-Z]\S*[-_]", name):
        return name
    if name[0].isupper():
        return "".join(w[:1].upper() + w[1:] for w in re.split("[-_]", name))
    return name.replace("-", "_")


def pieces(text, is_code):
    """The text in pieces, each with whether it may be turned: comments and strings may not."""
    comment = r"//[^\n]*" if is_code else r"--(?=[\s])[^\n]*|--$"
    string = r'"(?:\\.|[^"\\])*"'
    at = 0
    for m in re.finditer(string + "|" + comment, text, re.M):
        yield text[at:m.start()], True
        yield m.group(0), False
        at = m.end()
    yield text[at:], True


def main(words):
    if words not in ([], ["--list"]):
        sys.exit(__doc__)
    own = defined()
    library = library_names()
    table = {n: new_name(n) for n in own if new_name(n) != n and n not in library}
    kept = sorted(n for n in own if new_name(n) != n and n in library)
    taken = set(own) | library
    together = sorted((n, t) for n, t in table.items() if t in taken)
    if together:
        for n, t in together:
            print("together: %s and %s: %s" % (n, t, ", ".join(sorted(own[n] | own.get(t, set())))))
        if not words:
            sys.exit("respell: nothing is written")
    if words:
        for n in sorted(table):
            print("%s %s" % (n, table[n]))
        for n in kept:
            print("kept, the library has it too: %s" % n)
        return
    turned = 0
    for ending in (".antt", ".rt"):
        for path in files(ending):
            text = read(path)
            new = "".join(
                WORD.sub(lambda m: table.get(m.group(0), m.group(0)), part) if may else part
                for part, may in pieces(text, ending == ".rt"))
            if new != text:
                turned += 1
                with open(path, "w", encoding="utf-8") as f:
                    f.write(new)
    print("respell: %d names in %d files" % (len(table), turned))


main(sys.argv[1:])
