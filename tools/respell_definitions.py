#!/usr/bin/env python3
"""Respells the repository's own definitions, once: words in snake case, where they were in camel case (`badForm` becomes `bad_form`).

Run at the top, after the toolchain's own script. A lemma whose name a definition comes to have gets `_lem`. Names that the sources of src/ have keep theirs:
none of them is in camel case. It goes over crates/ (sources, specs, proofs and must-fail edits) and the pages of docs/ and README.md.
"""
import os
import re

LEMMAS = """fresh_ok goes_back head_bytes held_by in_three in_use left_by no_digit no_key no_room odd_number one_entry one_more one_size room_of seen_next
seen_of stored_ok taken_as too_large""".split()
WORD = re.compile(r"(?<![A-Za-z0-9_'\u2032'\"])([a-z][a-z0-9]*(?:[A-Z][a-z0-9]*)+)(?![A-Za-z0-9_'])")
LEMMA = re.compile(r"(?<![A-Za-z0-9_'.-])(" + "|".join(LEMMAS) + r")(?![A-Za-z0-9_'-])(?!\.)")


def snake(word):
    return re.sub(r"[A-Z]", lambda m: "_" + m.group(0).lower(), word.group(1))


def respelled(path, text):
    if path.endswith(".antt"):
        text = LEMMA.sub(r"\1_lem", text)
    return WORD.sub(snake, text)


def main():
    paths = []
    for top in ("crates", "docs"):
        for folder, dirs, files in os.walk(top):
            dirs[:] = [d for d in dirs if d != "out"]
            paths += [os.path.join(folder, f) for f in files if f.endswith((".antt", ".rt", ".edit", ".md"))]
    for path in sorted(paths) + ["README.md"]:
        with open(path, encoding="utf-8") as file:
            old = file.read()
        new = respelled(path, old)
        if new != old:
            with open(path, "w", encoding="utf-8") as file:
                file.write(new)


main()
