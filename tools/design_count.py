#!/usr/bin/env python3
"""Counts the places that docs/DESIGN-PASS.md speaks of in the code of crates/*/src.

    python3 tools/design_count.py [--list] [COMMIT]

Without a commit the files of the working tree are read. --list prints each place with its file and line.
1 enums; functions that answer `bool` or `u32` for a refusal are listed by their contracts' words elsewhere
2 functions of one shape: their bodies are the same but for names, types and numbers
3 loops that count by hand: `while`, `loop`
4 functions that write by hand what std or a derive has
5 pairs of parameters that only stand together, in three functions or more of a crate, and facts that three functions or more require
6 parameters that say the length of a slice beside it, or where in it a part begins
7 matches on a value whose type has no data
8 lines of answers and invariants
"""
import collections
import re
import subprocess
import sys
from pathlib import Path

ROOT = Path(__file__).resolve().parent.parent
FUNCTION = re.compile(r"^ *(?:pub )?(?:extern \"C\" )?fn (\w+)", re.M)
BY_HAND = ("absolute larger smaller floor modulo unsigned write_number read_coefficient byte field field_within is_same_block is_zero_block same is_word "
           "clear clear_slots swap_entries put count_below number kind_of number_told fill_identity sign bit has_bit with_bit").split()
WORDS = set("if else while for in loop match return let mut as true false self Self fn break continue usize u8 u16 u32 u64 i32 i64 bool".split())


def sources(commit):
    """The files of src/ with their text."""
    if commit is None:
        return {str(p.relative_to(ROOT)): p.read_text() for p in sorted(ROOT.glob("crates/*/src/*.rt"))}
    git = ["git", "-C", str(ROOT)]
    names = subprocess.run(git + ["ls-tree", "-r", "--name-only", commit, "crates"], capture_output=True, text=True, check=True).stdout.split()
    return {n: subprocess.run(git + ["show", f"{commit}:{n}"], capture_output=True, text=True, check=True).stdout
            for n in names if re.fullmatch(r"crates/\w+/src/\w+\.rt", n)}


def closing(text, at, opening, end):
    """The place behind the bracket that closes the one at `at`; the > of an arrow closes nothing."""
    depth = 0
    for i in range(at, len(text)):
        depth += (text[i] == opening) - (text[i] == end and text[i - 1:i + 1] != "->")
        if depth == 0:
            return i + 1
    return len(text)


def parts(clause):
    """The facts that a clause joins by ×, each without its outer brackets."""
    depth, begin, found = 0, 0, []
    for i, letter in enumerate(clause + " ×"):
        depth += (letter == "(") - (letter == ")")
        if letter == "×" and depth == 0:
            found.append(clause[begin:i].strip())
            begin = i + 1
    return [fact[1:-1] if fact.startswith("(") and closing(fact, 0, "(", ")") == len(fact) else fact for fact in found if "→" not in fact]


class Function:
    """A function of a file: its parameters, clauses and body."""

    def __init__(self, file, text, found):
        self.file, self.name, self.line = file, found.group(1), text.count("\n", 0, found.start()) + 1
        at = found.end()
        if text[at] == "<":
            at = closing(text, at, "<", ">")
        end = closing(text, at, "(", ")")
        self.parameters = [p.strip() for p in re.split(r",\s*(?![^<\[(]*[>\])])", text[at + 1:end - 1]) if p.strip()]
        at = end
        self.clauses = []
        while True:
            clause = re.compile(r"\s*(?:->[^\n{]*?)?\s*(?:requires|ensures)[ \w]*(?=\{)").match(text, at)
            if not clause:
                break
            stop = closing(text, clause.end(), "{", "}")
            kind = "requires" if "requires" in clause.group() else "ensures"
            self.clauses.append((kind, " ".join(text[clause.end() + 1:stop - 1].split())))
            at = stop
        start = text.find("{", at)
        self.body = text[start:closing(text, start, "{", "}")]

    def shape(self):
        """The body with each name and number replaced by its place among them."""
        seen = {}
        tokens = re.findall(r"\w+|[^\w\s]", re.sub(r"//[^\n]*", "", self.body))
        return tuple(t if t in WORDS or not re.match(r"\w", t) else str(seen.setdefault(t, len(seen))) for t in tokens)

    def place(self):
        return f"{self.file}:{self.line} {self.name}"


def functions(files):
    return [Function(name, text, found) for name, text in files.items() for found in FUNCTION.finditer(text)]


def enums(files):
    for name, text in files.items():
        for found in re.finditer(r"^pub enum (\w+)[^{]*\{(.*?)^\}", text, re.M | re.S):
            variants = re.findall(r"^    (\w+)(\([^)]*\))?,$", found.group(2), re.M)
            yield name, found.group(1), variants


def is_option_or_result(variants):
    """Two variants, at least one of which holds a value."""
    return len(variants) == 2 and any(held for _, held in variants) or any(held == "(Refusal)" for _, held in variants)


def point_1(files, all_functions):
    return [f"{name} enum {enum}" for name, enum, variants in enums(files) if is_option_or_result(variants)]


def point_2(files, all_functions):
    shapes = collections.defaultdict(list)
    for f in all_functions:
        if len(f.shape()) > 20:
            shapes[f.shape()].append(f)
    return [" = ".join(f.place() for f in group) for group in shapes.values() if len(group) > 1]


def point_3(files, all_functions):
    return [f"{name}:{i} {line.strip()}" for name, text in files.items() for i, line in enumerate(text.split("\n"), 1)
            if re.match(r"\s*(while\b|loop\b)", line)]


def point_4(files, all_functions):
    return [f.place() for f in all_functions if f.name in BY_HAND]


def point_5(files, all_functions):
    holders, clauses = collections.defaultdict(set), collections.defaultdict(list)
    for f in all_functions:
        crate = f.file.split("/")[1]
        for parameter in f.parameters:
            holders[(crate, re.sub(r": .*", "", parameter).replace("mut ", ""))].add(f)
        for fact in {fact for kind, clause in f.clauses if kind == "requires" for fact in parts(clause)}:
            clauses[re.sub(r"\.(old|now)\b", "", fact)].append(f)
    pairs = [(crate, a, b, len(fs)) for (crate, a), fs in holders.items() for (other, b), gs in holders.items()
             if crate == other and a < b and fs == gs and len(fs) > 2]
    found = [f"{crate}: parameters {a} and {b} in {many} functions" for crate, a, b, many in pairs]
    return found + [f"fact {fact} in {len(group)} functions" for fact, group in clauses.items() if len(group) > 2]


def point_6(files, all_functions):
    names = {"many", "n", "from", "to", "at", "width", "len", "limit", "counts"}
    return [f.place() for f in all_functions
            if any("[" in p for p in f.parameters) and len(names & {p.split(":")[0] for p in f.parameters}) > 1]


def point_7(files, all_functions):
    plain = {enum for _, enum, variants in enums(files) if not any(held for _, held in variants)}
    return [f.place() for f in all_functions if re.search(r"match \w+ \{", f.body) and any(f"{e}::" in f.body for e in plain)]


POINTS = (point_1, point_2, point_3, point_4, point_5, point_6, point_7)


def main(arguments):
    listing = "--list" in arguments
    rest = [a for a in arguments if a != "--list"]
    files = sources(rest[0] if rest else None)
    found = functions(files)
    print(f"{len(files)} files, {len(found)} functions")
    for number, point in enumerate(POINTS, 1):
        places = point(files, found)
        print(f"point {number}: {len(places)}")
        if listing:
            print("".join(f"    {place}\n" for place in places), end="")


main(sys.argv[1:])
