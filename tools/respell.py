#!/usr/bin/env python3
"""Respells the repository's own definitions and lemmas as today's Rattle does; run once, right after the kit's port.py.

usage: python3 tools/respell.py          at the top of the repository

Words are in snake case. In a lemma's name a dash joins two names of definitions, and a plain word is added with an underscore.
An arrow in a name becomes a word: `x→` is what a test says once it is true, `→x` that a fact passes the test. Functions of src/,
types and modules keep their names. It rewrites specs/, proofs/ and clauses, prints each new name, and stops where two names fall together.
"""

import glob
import re
import sys

CRATES = {"rules", "words", "sample", "pool", "constraint", "fates"}
TOKEN = re.compile(r"[^\s(){}\[\];,.\"λ⌜⌝]+")
CAMEL = re.compile(r"^[a-z][a-z0-9_]*[A-Z]")
DECLARED = re.compile(r"^(\s*)((?:unfoldable |abbrev |mutual )*(?:pub )?(?:unfoldable |abbrev )?(?:data |record )?)([^\s:(){}]+)\s*(?:[({].*)?:\s")
# Lemmas whose name would be that of the definition that they speak of; then arrows.
BY_NAME = {
    "bit-and": "bit-bit_and",
    "bit-or": "bit-bit_or",
    "mask_fits": "mask_fits_lem",
    "read_back": "read_back_lem",
    "any→": "any_true",
    "all-inside→": "all_inside_true",
    "→all-inside": "all_inside_test",
    "before→": "before_true",
    "→before": "before_test",
    "covers→": "covers_true",
    "→covers": "covers_test",
    "coversAll→": "covers_all_true",
    "→coversAll": "covers_all_test",
    "coversAt→": "covers_at_true",
    "→coversAt": "covers_at_test",
    "equal→": "equal_true",
    "member→": "member_true",
    "mem→member": "mem-member",
    "same→": "same_true",
    "sameRight→": "same_right_true",
    "subset→": "subset_true",
    "→subset": "subset_test",
}


# Words of the library that the lemmas use as plain ones.
PLAIN = {"false", "true", "none", "some", "suc", "zero", "rules", "refl", "sym", "set", "all", "first"}
# The function covers_at and a local some_left stand beside a definition and a field of that spelling, in other files.
APART = {"covers_at", "some_left"}


def snake(word):
    return re.sub(r"(?<=[a-z0-9])([A-Z])", lambda m: "_" + m.group(1), word).lower()


def files():
    found = glob.glob("crates/*/specs/**/*.antt", recursive=True) + glob.glob("crates/*/proofs/**/*.antt", recursive=True)
    return sorted(found)


def lines_of(path):
    with open(path, encoding="utf-8") as f:
        return f.read().split("\n")


def imported(line):
    """The names that a use line brings in, and whether they are this repository's."""
    m = re.match(r"(?:pub )?use ([^{ ]*)\{(.*)\}", line)
    if not m:
        return [], False
    parts = m.group(1).split(".")
    own = parts[0] == "Rattle" and parts[1] in CRATES
    return [n.split(" as ")[-1].strip() for n in m.group(2).split(",")], own


def survey():
    library, lemmas, words, seen = set(), set(), set(), set()
    for path in files():
        by_hand = path.endswith("Proof.antt")
        for line in lines_of(path):
            if re.match(r"(?:pub )?use ", line):
                names, own = imported(line)
                if not own:
                    library.update(names)
                continue
            if line.strip().startswith("--"):
                continue
            tokens = TOKEN.findall(re.sub(r'"[^"]*"', '""', line))
            seen.update(tokens)
            declared = DECLARED.match(line)
            if declared and not by_hand:
                name = declared.group(3)
                if re.search(r"unfoldable|abbrev", declared.group(2)) and name[0].islower():
                    words.add(snake(name))
                if "-" in name:
                    lemmas.add(name)
            if not by_hand:
                lemmas.update(t for t in tokens if "-" in t and re.match(r"[a-zA-Z]", t))
    words.update(n for n in library if "-" not in n and n not in PLAIN)
    return library, lemmas, words, seen


def lemma(name, words):
    parts = [snake(p) for p in name.split("-")]
    out = parts[0]
    for left, right in zip(parts, parts[1:]):
        out += ("-" if left in words and right in words else "_") + right
    return out


def table():
    library, lemmas, words, seen = survey()
    new = dict(BY_NAME)
    kept = [n for n in seen | lemmas if n not in new and (n in library or "-" not in n or n not in lemmas or re.search(r"\\\\|-\d+$", n))]
    taken = set(new.values())
    for name in sorted(kept):
        target = snake(name) if CAMEL.match(name) and name not in library else name
        if target in taken and target not in APART:
            print(f"falls together: {name} as {target}")
            sys.exit(1)
        taken.add(target)
        new[name] = target
    for name in sorted(lemmas - set(new)):
        target = lemma(name, words)
        if target in taken:
            target += "_lem"
        if target in taken:
            print(f"falls together: {name} as {target}")
            sys.exit(1)
        taken.add(target)
        new[name] = target
    return {a: b for a, b in new.items() if a != b}


def respelled(line, new):
    comment = line.strip().startswith(("--", "//"))

    def word(m):
        t = m.group(0)
        if t not in new:
            return t
        if comment and "-" in t and m.string[m.start() - 1 : m.start()] != "`":
            return t
        return new[t]

    return "".join(part if k % 2 else TOKEN.sub(word, part) for k, part in enumerate(re.split(r'("[^"]*")', line)))


def main():
    new = table()
    for path in files() + sorted(glob.glob("crates/*/src/**/*.rt", recursive=True)):
        old = lines_of(path)
        turned = [respelled(x, new) for x in old]
        if turned != old:
            with open(path, "w", encoding="utf-8") as f:
                f.write("\n".join(turned))
    for a in sorted(new):
        print(a, new[a])


main()
