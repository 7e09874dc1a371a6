#!/usr/bin/env python3
"""Holds the documents to the repository.

Every backticked name of docs/DEMANDS.md is a definition, function, record, field, edit (`crate/label`), file, test or crate of it, and a name that stands
before `(crate/File.antt)` or `(crate ..)` is defined there. Every claim is named on that page, proved under its name and used. The files and crates that
the other pages name are there; docs/requests tells of earlier states and is not looked at.
The figures of tests/reading.py in README.md, and in docs/DECISIONS.md where it has some, are those that it prints now: `**Title** (N lines)` for each
part, `a core of N lines` and `N lines in all`.
The counts of edits, examples and claims are those of tests/counts.txt. A number below one that the file had in an earlier commit has a line in
docs/DECISIONS.md with both: `` `edits` from 9 to 7``.
Every edit is of a text that is there, so is every weakening of tests/weaken.py, and every test is run by tests/run. Each call that crate fildwuk_c exports
for C has the parameters and the clauses of the call of its name in fildwuk or library_host.
"""
import re
import subprocess
import sys

from tables import Tables
from tree_names import CRATES, ROOT, Names, file_of, read
from weaken import stale

DEMANDS = "docs/DEMANDS.md"
TICKED = re.compile(r"`([^`\n]+)`")
LISTED = r"((?:`[^`\n]+`, )*`[^`\n]+`)"
IN_FILE = re.compile(LISTED + r" \(`(\w+/\w+\.antt)`")
OF_CRATE = re.compile(r"crate `(\w+)`((?:, `(?:src|proofs)/[^`\n]+`)+)")
IN_CRATE = re.compile(LISTED + r" \(crate `(\w+)`")
# What is written in backticks and is no name of the repository: lines of the output and of a mesh text, words of Rattle and C, commands.
LITERAL = {"R", "H", "G", "R 13", "$", "$End", "$MeshFormat", "$Nodes", "$EndElements", "requires", "ensures", "usize", "u32", "pub",
           "64 - u64::leading_zeros(peak)", "rt ci", "bash examples/run mesh.msh", "bash bench/run"}
KIT = {"os"}
PATH = re.compile(r"(?:crates|docs|tests|bench|examples|include|tools|install)/[\w./-]*|\w+/\w+\.antt")
PLACEHOLDER = re.compile(r"\b[A-Z]{2,}\b(?!\.md)|\bNN-")
CLAIM = re.compile(r"^abbrev pub (\w+) : Type 0$", re.M)
# A theorem on every line of a table, and one on every field of a record of examples.
TABLE = re.compile(r"^\s*(?:pub )?\S+ : (?:T \(every (?:\(.*\)|\S+) (\S+)\)|Right (\S+))$", re.M)
RECORD = re.compile(r"^(?:pub )?\S*(?:examples|calls) : (\w+)$", re.M)
PART = re.compile(r"^(\S.*): (\d+) lines$", re.M)
TOTAL = re.compile(r"^in all: (\d+) lines", re.M)
CALL = re.compile(r'^pub (?:extern "C" )?fn (fildwuk_\w+)(\([^)]*\) -> u32\n(?: +.*\n)+?)\{$', re.M)
FALL = re.compile(r"`(\w+)` from (\d+) to (\d+)")


def is_label(name, names):
    """Whether a name has the form of an edit, a crate and a label."""
    crate, _, label = name.partition("/")
    return crate in names.crates and re.fullmatch(r"\w+", label) is not None


def path_faults(names):
    """Files, edits and crates that the pages name and the repository does not have. NAME and the like stand for any name."""
    pages = [ROOT / "README.md", ROOT / "CONTRIBUTING.md"] + sorted((ROOT / "docs").glob("*.md"))
    for page in pages:
        text = read(page)
        paths = {name for name in TICKED.findall(text) if (PATH.fullmatch(name) or is_label(name, names)) and not PLACEHOLDER.search(name)}
        for name in sorted(paths):
            if not names.known(name) and not (ROOT / (name + ".c")).exists():
                yield f"{page.relative_to(ROOT)}: there is no `{name}`"
        for crate in sorted(set(re.findall(r"\bcrate `(\w+)`", text)) - names.crates - KIT):
            yield f"{page.relative_to(ROOT)}: there is no crate `{crate}`"


def claims():
    """The names of the claims, each with its file."""
    return [(name, path.name) for path in sorted((CRATES / "demands/specs").glob("*.antt")) for name in CLAIM.findall(read(path))]


def claim_faults():
    """Claims that are not proved under their name in the file of the same name, that no use takes as a hypothesis, or that docs/DEMANDS.md does not name."""
    proofs = CRATES / "demands/proofs"
    uses = "\n".join(line for path in sorted(proofs.glob("Use*.antt")) for line in read(path).split("\n") if not line.startswith(("use ", "--")))
    ticked = set(TICKED.findall(read(ROOT / DEMANDS)))
    for name, file in claims():
        found = re.findall(rf"^(?:pub )?(\w+) : {name}$", read(proofs / file), re.M) if (proofs / file).exists() else []
        if name.lower() not in [proof.replace("_", "") for proof in map(str.lower, found)]:
            yield f"the claim {name} is not proved in crates/demands/proofs/{file}"
        if not re.search(rf": {name}\b", uses):
            yield f"the claim {name} is a hypothesis of no use"
        if name not in ticked:
            yield f"{DEMANDS}: the claim {name} is not named"


def name_faults(names):
    """Backticked names that the repository does not have, or has elsewhere."""
    text = read(ROOT / DEMANDS)
    ticked = set(TICKED.findall(text))
    for name in sorted(ticked - LITERAL):
        if not names.known(name):
            yield f"{DEMANDS}: nothing is named `{name}`"
    for listed, place in IN_FILE.findall(text):
        for name in TICKED.findall(listed):
            if file_of(place) and not file_of(name) and file_of(place) not in names.files.get(name, ()):
                yield f"{DEMANDS}: `{name}` is not defined in `{place}`"
    for listed, crate in IN_CRATE.findall(text):
        for name in TICKED.findall(listed):
            if crate not in names.crates_of(name.split("::")[-1]):
                yield f"{DEMANDS}: `{name}` is not defined in crate `{crate}`"
    for crate, files in OF_CRATE.findall(text):
        for file in TICKED.findall(files):
            if not (CRATES / crate / file).exists():
                yield f"{DEMANDS}: crate `{crate}` has no `{file}`"


def number(text):
    """A number as the documents write it: 1170 or 1,170."""
    return int(text.replace(",", ""))


def edit_faults():
    """Must-fail edits of files that are not there, or whose first text is not in the file."""
    for path in sorted(CRATES.glob("*/must-fail/*.edit")):
        for part in re.split(r"^file: ", read(path), flags=re.M)[1:]:
            file = path.parent.parent / part.split("\n")[0]
            old = re.search(r"^old: (.*)$", part, re.M)
            if not file.exists():
                yield f"{path.relative_to(ROOT)}: there is no {file.relative_to(ROOT)}"
            elif old and old[1] not in read(file):
                yield f"{path.relative_to(ROOT)}: its text is not in {file.relative_to(ROOT)}: {old[1]}"


def reading():
    """The lines of each part that tests/reading.py counts, of the core and in all."""
    done = subprocess.run([sys.executable, str(ROOT / "tests/reading.py")], capture_output=True, text=True, check=False)
    if done.returncode:
        return None, done.stderr.strip()
    parts = {title.lower(): int(lines) for title, lines in PART.findall(done.stdout)}
    core = next(lines for title, lines in parts.items() if title.startswith("the core"))
    return {title: lines for title, lines in parts.items() if not title.startswith("the core")}, (core, int(TOTAL.search(done.stdout)[1]))


def figure_faults():
    """Figures in the documents that differ from what the count of lines prints."""
    parts, sums = reading()
    if parts is None:
        yield f"tests/reading.py: {sums}"
        return
    for document in ("README.md", "docs/DECISIONS.md"):
        text = read(ROOT / document)
        written = [(title.lower(), number(lines)) for title, lines in re.findall(r"\*\*([^*]+)\*\* \(([\d,]+) lines", text)]
        for title, lines in written:
            if parts.get(title) != lines:
                yield f"{document}: {title} ({lines} lines); counted are {parts.get(title, 'no such part')}"
        for title in sorted(set(parts) - {title for title, _ in written}) if document == "README.md" else []:
            yield f"{document}: the part {title} ({parts[title]} lines) is not listed"
        for form, due in zip(("a core of N lines", "N lines in all"), sums):
            found = re.findall(form.replace("N", r"([\d,]+)"), text)
            if {number(lines) for lines in found} != {due} and (found or document == "README.md"):
                yield f"{document}: '{form}' is written with {', '.join(found) or 'no number'}; counted are {due}"


def counted():
    """How many edits, examples (lines of tables, fields of records) and claims the repository has."""
    examples = 0
    for path in sorted(CRATES.glob("*/specs/*.antt")) + sorted(CRATES.glob("*/proofs/*.antt")):
        text = read(path)
        examples += sum(len(Tables.of(path.parent.parent.name, path.stem).spine(each or right)) for each, right in TABLE.findall(text))
        for name in RECORD.findall(text):
            fields = re.search(rf"^pub record {name} : Type 0 where\n((?:  .*\n)+)", text, re.M)
            examples += len(re.findall(r"^  pub \S+ : (?!T \(every )", fields[1], re.M)) if fields else 0
    return {"edits": len(list(CRATES.glob("*/must-fail/*.edit"))), "examples": examples, "claims": len(claims())}


def numbers_in(text):
    """The counters of a text of tests/counts.txt."""
    return {name: int(many) for name, many in re.findall(r"^(\w+) (\d+)$", text, re.M)}


def earlier():
    """The counters in every commit of tests/counts.txt that this copy of the repository has."""
    def git(*words):
        return subprocess.run(["git", "-C", str(ROOT), *words], capture_output=True, text=True, check=False).stdout
    return [numbers_in(git("show", f"{commit}:tests/counts.txt")) for commit in git("log", "--format=%H", "--", "tests/counts.txt").split()]


def count_faults(history):
    """Counters that are not written down as they are, and those that fell without a word."""
    written, found = numbers_in(read(ROOT / "tests/counts.txt")), counted()
    falls = [(name, int(high), int(low)) for name, high, low in FALL.findall(read(ROOT / "docs/DECISIONS.md"))]
    for name in sorted(set(written) | set(found)):
        if written.get(name) != found.get(name):
            yield f"tests/counts.txt: {name} {written.get(name)}; counted are {found.get(name)}"
    for name, now in sorted(found.items()):
        high = max([now] + [before.get(name, 0) for before in history])
        if high > now and not any(of == name and most >= high and least <= now for of, most, least in falls):
            yield f"{name} fell from {high} to {now}, and docs/DECISIONS.md has no line with: `{name}` from {high} to {now}"


def run_faults():
    """Tests, by the form of their names, that neither tests/run nor a script that it runs names."""
    listed = read(ROOT / "tests/run") + read(ROOT / "tests/check_stored") + read(ROOT / "tests/check_install")
    for pattern in ("check_*", "compare_*", "host/check_*"):
        for path in sorted((ROOT / "tests").glob(pattern)):
            if not re.search(rf"\b{path.name}(?:[\s\"]|$)", listed, re.M):
                yield f"tests/run: {path.name} is not run"


def calls_of(crate):
    """The parameters and the clauses of the calls of a crate, by their names."""
    return {name: re.sub(r"[\s,]+", " ", text).replace("( ", "(").replace(" )", ")") for name, text in CALL.findall(read(CRATES / crate / "src/lib.rt"))}


def export_faults():
    """Calls whose export for C has other parameters or clauses, or is missing."""
    calls, exports = {**calls_of("fildwuk"), **calls_of("library_host")}, calls_of("fildwuk_c")
    for name in sorted(set(calls) | set(exports)):
        if calls.get(name) != exports.get(name):
            yield f"crates/fildwuk_c: {name} is not exported as it stands in its crate"


def weakening_faults():
    """Texts that tests/weaken.py would replace and that are gone."""
    for file, text in stale():
        yield f"tests/weaken.py: {file} has no {text!r}"


def main():
    """Exits with 1 where something differs."""
    history = earlier()
    names = Names()
    faults = list(name_faults(names)) + list(path_faults(names)) + list(claim_faults()) + list(edit_faults()) + list(figure_faults()) + list(count_faults(history)) + list(run_faults()) + list(export_faults()) + list(weakening_faults())
    for fault in faults:
        print(fault)
    print(f"{len(set(TICKED.findall(read(ROOT / DEMANDS))))} names, {counted()}, {len(history)} earlier counts, {len(faults)} faults")
    raise SystemExit(1 if faults else 0)


if __name__ == "__main__":
    main()
