"""What must be believed: the definitions that the claims and the contracts rest on, with their lines counted.

usage: python3 tests/reading.py [--names]

Starts at the claims (crates/demands/specs) and at the `ensures` of the public functions, and follows every name to its definition in the repository;
names of the kit are not followed. Lines of definitions are counted; blank lines, comments and `use` lines are not. Each part is counted without what
an earlier one has. What the calls, the sweep, the import and the program compute is not opened: the contracts say that the code does it, and the claims say what
it is. The consequences follow from the other claims and are counted apart.
"""
import os
import re
import sys

ROOT = os.path.join(os.path.dirname(os.path.abspath(__file__)), "..", "crates")
COMPUTED = {"call", "host_call", "sweep_call", "import_call", "program_text"}
CLAIMS = [
    ("the sheet", "Sheets"),
    ("the answers are right", "Answers"),
    ("which number is told, what is left and what is written", "Calls"),
    ("the headroom", "Headroom"),
    ("the surfaces", "Surfaces"),
    ("the host calls", "Host"),
    ("the sweep", "Sweeps"),
    ("the mesh text and its import", "Meshes"),
    ("the program", "Program"),
    ("cells compared as words", "Words"),
    ("consequences", "Consequences"),
]
CORE = {"the sheet", "the answers are right"}
APART = {"consequences"}
# The public functions: file and names. Their contracts tie the code to the claims.
PUBLIC = [
    ("sheet/src/reader.rt", ["read"]),
    ("calls/src/report.rt", ["report"]),
    ("calls/src/coordinates.rt", ["coordinate_lists", "coordinates"]),
    ("calls/src/surface.rt", ["surface"]),
    ("sweeper/src/sweep.rt", ["sweep"]),
    ("importer/src/import.rt", ["import"]),
    ("fildwuk/src/lib.rt", ["fildwuk_report", "fildwuk_coordinate_lists", "fildwuk_coordinates", "fildwuk_surface", "fildwuk_sweep", "fildwuk_import"]),
    ("library_host/src/lib.rt", ["fildwuk_library_report", "fildwuk_library_headroom", "fildwuk_library_coordinates",
                                 "fildwuk_library_coordinate_lists", "fildwuk_library_surface", "fildwuk_library_sweep", "fildwuk_library_import"]),
    ("printer/src/lib.rt", ["print_input"]),
]
TOKEN = re.compile(r"[^\s(){}\[\];,λ⟦⟧⌜⌝]+")
USE = re.compile(r"^(?:ghost |pub )?use (\S+?)(?:\.\{([^}]*)\}| as (\S+?))?;?\s*$", re.M)
PATH = re.compile(r"Rattle\.(\w+)\.(specs|proofs)\.(\w+)$")
FUNCTION = re.compile(r"^ *(?:pub )?fn (\w+)", re.M)


def module_of(path):
    """The file that a `use` path names, or None for the kit's and for the types that Rattle declares."""
    found = PATH.match(path)
    return (found[1], found[2], found[3]) if found else None


class Module:
    def __init__(self, text):
        self.imports, self.aliases, self.passed = {}, {}, []
        for use in USE.finditer(text):
            target = module_of(use[1])
            if target and use[2]:
                for item in use[2].split(","):
                    self.imports[item.strip()] = target
            elif target and use[3]:
                self.aliases[use[3]] = target
        self.blocks, self.home, self.label = [], {}, []
        for paragraph in re.split(r"\n\s*\n", USE.sub("", text)):
            self.add([line for line in paragraph.split("\n") if line.strip() and not line.strip().startswith("--")])

    def add(self, lines):
        if not lines:
            return
        index = len(self.blocks)
        self.blocks.append(lines)
        self.label.append("")
        record = False
        for line in lines:
            named = re.match(r"\s*(?:unfoldable |abbrev )?(?:pub )?(record|data) ([^\s]+)", line)
            typed = re.match(r"\s*(?:unfoldable |abbrev )?(?:pub )?((?:[^\s(){}:=→]+ )+)(?:\{[^}]*\} )?:(?: |$)", line)
            found = [named[2]] if named else typed[1].split() if typed else []
            self.label[index] = self.label[index] or " ".join(found)
            # A field is reached through its record; a constructor names its type.
            for name in [] if record and not named else found:
                self.home.setdefault(name, index)
            record = record or bool(named and named[1] == "record")


class Contracts(Module):
    """The contracts of some functions of a file of code."""

    def __init__(self, text, names):
        super().__init__("")
        for use in USE.finditer(text):
            target = module_of(use[1])
            for item in (use[2] or "").split(","):
                if target and item.strip():
                    self.imports[item.strip()] = target
        starts = list(FUNCTION.finditer(text))
        for name in names:
            places = [place for place, found in enumerate(starts) if found[1] == name]
            if not places:
                raise SystemExit(f"there is no public function {name}")
            begin = starts[places[0]].start()
            end = re.compile(r"\n *\{\n").search(text, begin).start()
            clause = re.search(r"^ +(?:requires|ensures)", text[begin:end], re.M)
            if not clause:
                raise SystemExit(f"{name} promises nothing")
            self.add([name + " : "] + [line for line in text[begin + clause.start():end].split("\n") if line.strip()])
            self.blocks[-1].pop(0)


MODULES = {}


def module(key):
    if key not in MODULES:
        crate, folder, name = key
        path = os.path.join(ROOT, crate, folder, name + ".antt")
        MODULES[key] = Module(open(path, encoding="utf-8").read()) if os.path.exists(path) else Module("")
    return MODULES[key]


def closure(todo, done):
    """The blocks reached from these names, without those in `done`."""
    reached = {}
    while todo:
        key, name = todo.pop()
        here = module(key)
        if name in here.imports and name not in here.home:
            todo.append((here.imports[name], name))
            continue
        if name in COMPUTED or name not in here.home:
            continue
        block = (key, here.home[name])
        if block in reached or block in done:
            continue
        reached[block] = here.label[block[1]]
        for token in TOKEN.findall("\n".join(here.blocks[block[1]])):
            for part in {token, token.strip("."), token.split(".")[-1]}:
                if "." in token and token.split(".")[0] in here.aliases:
                    todo.append((here.aliases[token.split(".")[0]], token.split(".")[-1]))
                for item in (part, "◌" + part + "◌"):
                    if item in here.imports:
                        todo.append((here.imports[item], item))
                    elif item in here.home:
                        todo.append((key, item))
    return reached


def show(title, blocks, names):
    total, files = 0, {}
    for (key, index), name in blocks.items():
        lines = len(module(key).blocks[index])
        total += lines
        files.setdefault(key, []).append((index, name, lines))
    print(f"{title}: {total} lines")
    for (crate, folder, name), found in sorted(files.items()):
        print(f"  crates/{crate}/{folder}/{name}: {sum(lines for _, _, lines in found)}")
        if names:
            for _, item, lines in sorted(found):
                print(f"      {item}: {lines}")
    return total


def main():
    names = "--names" in sys.argv
    totals, done = {}, {}
    for title, name in CLAIMS:
        key = ("demands", "specs", name)
        part = closure([(key, item) for item in module(key).home], done)
        totals[title] = show(title, part, names)
        done.update(part)
    starts = []
    for path, functions in PUBLIC:
        crate, file = path.split("/src/")
        key = (crate, "src", file)
        with open(os.path.join(ROOT, path), encoding="utf-8") as text:
            MODULES[key] = Contracts(text.read(), functions)
        starts += [(key, name) for name in functions]
    totals["the contracts"] = show("the contracts", closure(starts, done), names)
    read = sum(lines for title, lines in totals.items() if title not in APART)
    print(f"the core, the sheet and the answers: {sum(totals[title] for title in CORE)} lines")
    print(f"in all: {read} lines, and {sum(totals[title] for title in APART)} of consequences")


try:
    main()
except BrokenPipeError:
    sys.stderr.close()
