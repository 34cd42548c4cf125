#!/usr/bin/env python3
"""Brings the repository's own definitions and lemmas to snake case, as the library's are: usage: tools/snake_names.py [--dry] at the top.

In each part of a name between dashes that begins with a lower-case letter, a capital becomes `_` and its small letter: `tooLong-exactly` is
`too_long-exactly`. Types, modules and what begins with a capital stay, and so does what follows a capital's part. Files: crates/*/specs,
crates/*/proofs, the clauses and ghost items of crates/*/src, and must-fail edits. Code, strings and comments' plain words have no such names,
but for comments that name a definition, which follow it. Lemmas whose names would then be a definition's (`to-set` beside `toSet`), which
the library's script had given an underscore, have their dash again. Run once, after the spelling of the library's names was turned.
"""
import collections
import os
import re
import sys

TOKEN = re.compile(r"[^\s(){};,.@\"`◌⟨⟩⌜⌝λ∀\[\]\\:|=]+")
PART = re.compile(r"(?<![A-Za-z0-9_'])[a-z][a-z0-9_]*(?:[A-Z][A-Za-z0-9_]*)+")


def snake(part):
    return re.sub(r"(?<=[a-z0-9_])_?([A-Z])", lambda m: "_" + m.group(1).lower(), part)


# Lemmas named as a definition, but for the dash; none is a function's name.
DASHED = re.compile(
    r"(?<![A-Za-z0-9_'-])(all_runs|first_step|held_word|is_found|is_key|is_read|no_blocks|own_name|pair_parts|ready_at|row_below|row_within|to_set)(?![A-Za-z0-9_'-])"
)


def renamed(word):
    return "-".join(snake(p) if PART.fullmatch(p) else p for p in word.split("-"))


def files():
    for folder, dirs, names in os.walk("crates"):
        dirs[:] = sorted(d for d in dirs if d != "out")
        for name in sorted(names):
            if name.endswith((".antt", ".rt", ".edit")):
                yield os.path.join(folder, name)


def main(argv):
    seen, wanted = set(), collections.defaultdict(set)
    texts = {p: open(p, encoding="utf-8").read() for p in files()}
    for text in texts.values():
        for m in TOKEN.finditer(text):
            word = m.group().rstrip("'")
            seen.add(word)
            if renamed(word) != word:
                wanted[renamed(word)].add(word)
    for new, old in sorted(wanted.items()):
        if len(old) > 1 or new in seen:
            print("falls together:", new, *sorted(old), "(stands already)" if new in seen else "")
    if "--dry" in argv:
        print(sum(map(len, wanted.values())), "names")
        return
    for path, text in texts.items():
        new = DASHED.sub(lambda m: m[1].replace("_", "-"), text) if path.endswith(".antt") else text
        new = TOKEN.sub(lambda m: renamed(m.group()), new)
        if new != text:
            with open(path, "w", encoding="utf-8") as f:
                f.write(new)


if __name__ == "__main__":
    main(sys.argv[1:])
