#!/usr/bin/env python3
"""Brings the names of definitions and lemmas that port.py left in camel case to snake case, as today's Rattle spells them.

usage: python3 tools/respell.py [--table FILE] at the top of the repository, once, after port.py of the kit.

A name is a word that begins with a small letter. A dash joins names: each part is turned by itself. Turned are the .antt files whole and the .rt
files outside strings; functions of src/, exported C names, strings, inputs and outputs have no such names and keep theirs. Names that fall
together with another one of the same file are told, and nothing is written then.
"""
import collections
import os
import re
import sys

WORD = re.compile(r"(?<![\w'\u00b7/])[a-z][\w'\u2080-\u2089]*(?:-[\w'\u2080-\u2089\u2115\u2124]+)*")
HUMP = re.compile(r"(?<=[a-z0-9])(?=[A-Z\u2115\u2124])")
# Lemmas that port.py gave the name that a definition of the same file now gets: (files, old word, new word). `_lem` is the kit's ending for them.
APART = [
    ("crates/reports/specs/ReductionsLaws.antt crates/reports/specs/WideEnd.antt", "after_first", "after_first_lem"),
    ("crates/closures/proofs/InsertLaws.antt crates/cell_sets/proofs/Sets.antt crates/cell_sets/proofs/vertices/sort_vertices/Proof.antt", "insert_all", "insert_all_lem"),
    ("crates/answers/proofs/KeptTransforms.antt", "first_rows", "first_rows_lem"),
    ("crates/answers/specs/Outcome.antt crates/answers/specs/Printed.antt crates/answers/proofs/CallRight.antt crates/answers/proofs/ProgramText.antt", "too_wide", "is-too_wide"),
    ("crates/demands/proofs/Surfaces.antt crates/demands/proofs/UseCalls.antt crates/demands/proofs/UseSurfaces.antt crates/demands/proofs/UseProgram.antt", "Outcome.too_wide", "Outcome.is-too_wide"),
    ("crates/demands/proofs/UseProgram.antt", "DimensionPrinted.too_wide", "DimensionPrinted.is-too_wide"),
    ("crates/demands/proofs/Answers.antt crates/demands/proofs/Headroom.antt", "counts_of", "counts_of_lem"),
    ("crates/mesh_format/proofs/Accept.antt", "nodeLines", "counted_nodes"),
]
# Words that a file has in both spellings, of which one names a function or a field of src/, a crate, or something local: they do not meet.
SHARED = set(
    "program_text host_calls boundary_not_zero coefficient_exceeds face_missing vertices_do_not_rise cells_do_not_rise offset_differs count_exceeds number_told"
    " loose_node opens_section some_of the_word column_follower column_inverse row_follower row_inverse first_indivisible along_row row_keeps row_indivisible"
    " column_keeps start_peak first_workspace second_workspace work_slots bounds_nothing".split()
)
# what port.py made of names that begin with the old `getD`
WHOLE = {"get_d_tabulate": "get_or-tabulate", "get_d_part": "get_or-part", "get_d_front": "get_or-front", "getD": "get_or"}


def part(word):
    if word == "getD":
        return "get_or"
    if not word[0].islower():
        return word
    return "_".join(p if p[0] in "\u2115\u2124" else p[0].lower() + p[1:] for p in HUMP.split(word))


def turned(word):
    if word in WHOLE:
        return WHOLE[word]
    return "-".join(part(p) for p in word.split("-"))


def files():
    for folder, dirs, names in os.walk("crates"):
        dirs[:] = sorted(d for d in dirs if d not in ("out", ".git"))
        for name in sorted(names):
            if name.endswith((".antt", ".rt")):
                yield os.path.join(folder, name)


def respelled(text, rt):
    if not rt:
        return WORD.sub(lambda m: turned(m[0]), text)
    pieces = re.split(r'("(?:[^"\\\n]|\\.)*")', text)
    return "".join(p if i % 2 else WORD.sub(lambda m: turned(m[0]), p) for i, p in enumerate(pieces))


def main():
    table = sys.argv[sys.argv.index("--table") + 1] if "--table" in sys.argv else None
    met, texts, clashes = collections.Counter(), {}, []
    for path in files():
        with open(path, encoding="utf-8") as f:
            text = f.read()
        begun = text
        for paths, old, new in APART:
            if path in paths.split():
                text = re.sub(r"(?<![\w'-])" + re.escape(old) + r"(?![\w'-])", new, text)
        words = set(WORD.findall(text))
        for word in words:
            new = turned(word)
            if new != word:
                met[(word, new)] += 1
                if new in words and new not in SHARED:
                    clashes.append(f"{path}: {word} and {new}")
        new_text = respelled(text, path.endswith(".rt"))
        if new_text != begun:
            texts[path] = new_text
    back = collections.defaultdict(set)
    for word, new in met:
        back[new].add(word)
    clashes += [f"everywhere: {' and '.join(sorted(words))} become {new}" for new, words in back.items() if len(words) > 1]
    if clashes and "--anyway" not in sys.argv:
        print("\n".join(clashes))
        raise SystemExit(1)
    for path, text in texts.items():
        with open(path, "w", encoding="utf-8") as f:
            f.write(text)
    if table:
        with open(table, "w", encoding="utf-8") as f:
            f.writelines(f"{word}\t{new}\n" for word, new in sorted(met))
    print(f"respell: {len(met)} names in {len(texts)} files")


main()
