#!/usr/bin/env python3
"""Spells this repository's own names as today's Rattle does: words in snake case, lemmas with a dash between two names.

usage: tools/respell.py [FOLDER]

To be run once, right after the kit's port.py, at the top of the repository (or of FOLDER). It turns
  - each word with a capital inside (`putLength`) to snake case (`put_length`), in specs/, proofs/, the must-fail edits and the clauses of src/,
    where the code of specs/ or proofs/ has it: OpenType's own names, which stand in comments alone, stay;
  - the lemmas of LEMMAS back to the dash that port.py took from them, where the word with `_` is a definition's or a std word's garbled name.
Rust's own code, strings, inputs and outputs keep their names: nothing in them is spelled with a capital inside.
"""

import os
import re
import sys

# Words of the kit, and byte literals, that look like words with a capital inside.
KIT = {"getD", "shr_slice_Lawful", "shr_slice_Tells", "uint_Lawful", "uint_Makes", "uint_Tells", "walk_Meets"}
WORD = re.compile(r"(?<![A-Za-z0-9_'])[a-z][A-Za-z0-9_]*'*(?![A-Za-z0-9_'])")
CAPITAL_INSIDE = re.compile(r"(?<=[a-z0-9])([A-Z])")
# Lemmas whose name would meet a definition's, or says `getD` for std's `get_or`.
LEMMAS = {
    "after_one": "after-one",
    "all_told": "all-told",
    "by_number": "by-number",
    "closed_at": "closed-at",
    "go_on": "go-on",
    "line_on": "line-on",
    "plain_at": "plain-at",
    "get_d_part": "get_or-part",
    "getD-inside": "get_or-inside",
    "getD-zeros": "get_or-zeros",
    "mid-getD": "mid-get_or",
}
LEMMA = re.compile(r"(?<![\w'.-])(" + "|".join(map(re.escape, LEMMAS)) + r")(?![\w'-])")
STRING = re.compile(r'b?"(?:\\.|[^"\\])*"')


COMMENT = re.compile(r"(?<![^\s(){}.;,@\"«»])--[^\n]*")


def in_snake_case(word, own):
    return CAPITAL_INSIDE.sub(lambda m: "_" + m[1].lower(), word) if word in own else word


def texts(root):
    for folder, dirs, files in os.walk(os.path.join(root, "crates")):
        dirs[:] = sorted(d for d in dirs if d != "out")
        for f in sorted(files):
            if f.endswith((".rt", ".antt", ".edit")):
                path = os.path.join(folder, f)
                with open(path, encoding="utf-8") as it:
                    yield path, it.read()


def own_words(root):
    """The words with a capital inside that the code of specs/ and proofs/ has."""
    own = set()
    for path, text in texts(root):
        if path.endswith(".antt"):
            own.update(w for w in WORD.findall(COMMENT.sub("", text)) if re.search(r"[a-z0-9][A-Z]", w))
    return own - KIT


def turned(path, text, own):
    def turned_words(text):
        return WORD.sub(lambda m: in_snake_case(m[0], own), text)

    if path.endswith(".rt"):
        # Between strings: a string keeps every letter.
        out, at = [], 0
        for m in STRING.finditer(text):
            out += [turned_words(text[at : m.start()]), m[0]]
            at = m.end()
        return "".join(out) + turned_words(text[at:])
    lemmas = LEMMA.sub(lambda m: LEMMAS[m[1]], text) if path.endswith(".antt") and "/proofs/" in path else text
    return turned_words(lemmas)


def main(argv):
    root = argv[0] if argv else "."
    own = own_words(root)
    n = 0
    for path, text in list(texts(root)):
        new = turned(path, text, own)
        if new != text:
            n += 1
            with open(path, "w", encoding="utf-8") as it:
                it.write(new)
    print(f"respell: {len(own)} words, {n} files")


if __name__ == "__main__":
    main(sys.argv[1:])
