"""Reads the tables of proved examples in the crates: lists of records, with the short forms that their files define.

`Tables(crate, file)` has the definitions of a file of specs/ and of the files that it uses. `spine(name)` gives the elements of a list without looking
into them, `value(name)` the whole value: numbers as int, lists as list, records as dict, and constructors as tuples with their name first.
"""
import re
from pathlib import Path

CRATES = Path(__file__).resolve().parent.parent / "crates"
USE = re.compile(r"^use Rattle\.(\w+)\.specs\.(\w+)\.\{([^}]*)\}", re.M)
CLAUSE = re.compile(r"^([^\s(){}:]+)((?: [^\s(){}:=]+)*) =(?:\s|$)")
TOKEN = re.compile(r"[(){};]|[^\s(){};]+")
OPENING, CLOSING = ("(", "{"), (")", "}")
BUILT_IN = {
    "pos": lambda n: n,
    "neg_ℤ": lambda n: -n,
    "replicate": lambda n, x: [x] * n,
    "take": lambda n, xs: xs[:n],
    "report": lambda: ("report",),
    "coordinates": lambda chain: ("coordinates", chain),
    "lists": lambda number, chains: ("lists", number, chains),
    "surface": lambda chain: ("surface", chain),
    "done": lambda counts: ("done", counts),
    "refused": lambda number: ("refused", number),
}


def definitions(text):
    """The parameters and the tokens of each definition of one clause."""
    found, lines, at = {}, text.split("\n"), 0
    while at < len(lines):
        clause = CLAUSE.match(lines[at])
        body = [lines[at][clause.end():]] if clause else []
        at += 1
        while clause and at < len(lines) and re.match(r"[ }]", lines[at]):
            body.append(lines[at])
            at += 1
        if clause:
            kept = " ".join(line for line in body if not line.strip().startswith("--"))
            found.setdefault(clause[1], (clause[2].split(), TOKEN.findall(kept)))
    return found


def parted(tokens, marks):
    """The place of the first of these marks outside brackets, or None."""
    depth = 0
    for place, token in enumerate(tokens):
        depth += (token in OPENING) - (token in CLOSING)
        if depth == 0 and token in marks:
            return place
    return None


def atoms(tokens):
    """The parts of an application: names, bracketed parts and records, fields joined to what they are read from."""
    found, at = [], 0
    while at < len(tokens):
        start = at
        at += tokens[at] == "record"
        depth = 0
        while True:
            depth += (tokens[at] in OPENING) - (tokens[at] in CLOSING)
            at += 1
            if depth == 0:
                break
        if tokens[start].startswith(".") and found:
            found[-1] = ["field", tokens[start][1:], found[-1]]
        else:
            found.append(tokens[start:at])
    return found


class Tables:
    loaded = {}

    def __init__(self, crate, file):
        text = (CRATES / crate / "specs" / (file + ".antt")).read_text(encoding="utf-8")
        self.own = definitions(text)
        self.used = {name.strip(): (use[1], use[2]) for use in USE.finditer(text) for name in use[3].split(",")}

    @classmethod
    def of(cls, crate, file):
        """The tables of a file, read once."""
        if (crate, file) not in cls.loaded:
            cls.loaded[crate, file] = cls(crate, file)
        return cls.loaded[crate, file]

    def home(self, name):
        """The tables that define a name, or None."""
        if name in self.own:
            return self
        if name in self.used and (CRATES / self.used[name][0] / "specs").is_dir():
            return Tables.of(*self.used[name]).home(name)
        return None

    def spine(self, tokens, bound=None):
        """The elements of a list, each as its tokens; a name stands for its definition."""
        tokens = [tokens] if isinstance(tokens, str) else tokens
        place = parted(tokens, ("∷", "++"))
        if place is not None:
            left, rest = tokens[:place], self.spine(tokens[place + 1:], bound)
            return ([left] if tokens[place] == "∷" else self.spine(left, bound)) + rest
        if tokens == ["[]"]:
            return []
        if tokens[0] == "(":
            return self.spine(tokens[1:-1], bound)
        home = self.home(tokens[0])
        if home is None:
            raise SystemExit(f"not a list: {' '.join(tokens)}")
        return home.spine(home.own[tokens[0]][1], bound)

    def value(self, tokens, bound=None):
        """The value of an expression."""
        tokens, bound = ([tokens] if isinstance(tokens, str) else tokens), bound or {}
        place = parted(tokens, ("∷", "++"))
        if place is not None:
            left, rest = self.value(tokens[:place], bound), self.value(tokens[place + 1:], bound)
            return [left] + rest if tokens[place] == "∷" else left + rest
        parts = atoms(tokens)
        return self.applied(parts[0], [self.atom(part, bound) for part in parts[1:]], bound) if len(parts) > 1 else self.atom(parts[0], bound)

    def atom(self, part, bound):
        """The value of one part of an application."""
        if part[0] == "field":
            return self.atom(part[2], bound)[part[1]]
        if part[0] == "record":
            return self.record(part[2:-1], bound)
        if part[0] == "(":
            return self.value(part[1:-1], bound)
        if part[0] == "[]":
            return []
        return int(part[0]) if part[0].isdigit() else self.applied(part, [], bound)

    def record(self, tokens, bound):
        """The value of a record by its fields."""
        found = {}
        while tokens:
            place = parted(tokens, (";",))
            end = len(tokens) if place is None else place
            found[tokens[0]] = self.value(tokens[2:end], bound)
            tokens = tokens[end + 1:]
        return found

    def applied(self, part, arguments, bound):
        """A name applied to values."""
        name, _, field = part[0].partition(".")
        if field:
            return self.applied([name], arguments, bound)[field]
        if name in bound:
            return bound[name]
        home = self.home(name)
        if home is None:
            return BUILT_IN[name](*arguments)
        parameters, body = home.own[name]
        return home.value(body, dict(zip(parameters, arguments)))
