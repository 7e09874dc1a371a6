"""The names of the repository: definitions, functions, types, crates, edits, files."""
import re
from pathlib import Path

ROOT = Path(__file__).resolve().parent.parent
CRATES = ROOT / "crates"
TYPED = re.compile(r"^\s*(?:unfoldable |abbrev )?(?:pub )?(?:(?:record|data) )?([^\s(){}:=→;]+(?: [^\s(){}:=→;]+)*)(?: [({].*)? :(?: |$)")
CODE = re.compile(r'^\s*(?:pub )?(?:extern "C" )?(?:const )?(?:fn|struct|enum|const|trait|mod) (\w+)|^    (?:pub )?(\w+)(?:[:(,{]| \{|$)')
C_NAME = re.compile(r"\b(\w+)\(")
PYTHON = re.compile(r"^\s*(?:def|class) (\w+)|^([A-Z_]+) =")


def read(path):
    return path.read_text(encoding="utf-8")


class Names:
    """Every name with the files that define it."""

    def __init__(self):
        self.files = {}
        for path in sorted(CRATES.glob("*/specs/**/*.antt")) + sorted(CRATES.glob("*/proofs/**/*.antt")):
            for line in read(path).split("\n"):
                typed = None if line.lstrip().startswith(("--", "use ")) else TYPED.match(line)
                self.put(path, typed[1].split() if typed else [])
        for path in sorted(CRATES.glob("*/src/**/*.rt")):
            self.put(path, [path.stem])
            self.put(path, [name for line in read(path).split("\n") for found in [CODE.match(line)] if found for name in found.groups() if name])
        for pattern in ("include/*.h", "tools/*.[ch]", "bench/*.c", "examples/*.c", "tests/host/*.[ch]"):
            for path in ROOT.glob(pattern):
                self.put(path, C_NAME.findall(read(path)))
        for path in sorted(ROOT.glob("tests/**/*.py")):
            self.put(path, [name for line in read(path).split("\n") for found in [PYTHON.match(line)] if found for name in found.groups() if name])
        self.crates = {path.name for path in CRATES.iterdir() if (path / "src").is_dir()}

    def put(self, path, names):
        for name in names:
            self.files.setdefault(name, set()).add(path)

    def crates_of(self, name):
        """The crates that define a name."""
        return {path.relative_to(CRATES).parts[0] for path in self.files.get(name, ()) if CRATES in path.parents}

    def known(self, name):
        """Whether the repository has what a backticked name says."""
        if name in self.files or name in self.crates or (ROOT / name).exists() or file_of(name) or edit_of(name):
            return True
        parts = name.split("::")
        if len(parts) == 1:
            return False
        homes = {parts[0]} if parts[0] in self.crates else self.crates_of(parts[0])
        return any(all(home in self.crates_of(part) for part in parts[1:]) for home in homes)


def file_of(name):
    """The file of definitions that `crate/File.antt` names, or the first that `src/file.rt` or `proofs/File.antt` may name, or None."""
    folder, _, file = name.rpartition("/")
    if folder in ("src", "specs", "proofs"):
        places = sorted(CRATES.glob("*/" + name))
    else:
        places = [CRATES / folder / kind / file for kind in ("specs", "proofs")] if folder and name.endswith(".antt") else []
    return next((place for place in places if place.exists()), None)


def edit_of(name):
    """The must-fail edit that `crate/label` names, or None."""
    crate, _, label = name.partition("/")
    path = CRATES / crate / "must-fail" / (label + ".edit")
    return path if crate and label and path.exists() else None
