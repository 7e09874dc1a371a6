"""Weakens the claims one by one and tells whether a use of them is refused.

usage: python3 tests/weaken.py [--list] [WORD ..]

crates/demands/proofs holds the proof of each claim and, in the files named `Use`, consequences that take a claim as a hypothesis and nothing of its
proof. A claim that says less is noticed only there: its proof can be made to fit. So each weakening below is written into a copy of the crates, the
crate `demands` is checked without the proofs of the claims, and an error is wanted in a file of uses.
    claim NAME              `⊥ →` stands before the claim
    NAME .field             a record that a claim concludes with loses the field; of another crate's record a copy takes its place in `demands`
    NAME way                a kind of report, of coordinates or of counts that the claims are about is left out
    NAME ↔ n, NAME ↔ n back the nth equivalence of a claim or record keeps one direction only
    FILE: text              a text is replaced by this one, which says less
    contract NAME           a public contract says less and its proof follows; crate `clients` or `sweep_client`, which call the public functions, is checked
    control NAME            no weakening: the copy of another crate's record is as good as the record itself, so that no use is refused
WORD: only the weakenings whose name has it. --list: the names. Took 21 minutes for all beside other work, 19 of them of the
processors, with an older kit; ends with 1 if one goes unseen.
"""
import os
import re
import shutil
import subprocess
import sys
import tempfile

ROOT = os.path.join(os.path.dirname(os.path.abspath(__file__)), "..")
SPECS = "crates/demands/specs/"
PROOFS = "crates/demands/proofs/"
WEAK = "Rattle.demands.specs.Weak"
PRELUDE = "use Rattle.std.specs.Prelude.{"

# records of other crates that claims conclude with, each with the definitions between it and the claims: all are copied
SHADOWS = {
    "IsLayout": [("sheet_format", "Sheet", ["IsLayout", "IsSheet"])],
    "IsSheet": [("sheet_format", "Sheet", ["IsSheet"])],
    "LooseNode": [("complexes", "Loose", ["LooseNode"])],
    "NoLooseNodes": [("complexes", "Loose", ["NoLooseNodes"]), ("sheet_format", "Sheet", ["IsSheet"])],
    "InEdge": [("complexes", "Loose", ["InEdge", "LooseNode", "NoLooseNodes"]), ("sheet_format", "Sheet", ["IsSheet"]), ("sweeps", "Swept", ["StaysIn", "IsSwept", "SweptSheet"])],
    "Outcome": [("answers", "Outcome", ["Outcome"])],
    "NoCycle": [("answers", "Outcome", ["NoCycle"])],
    "Carries": [("answers", "Outcome", ["Carries"])],
    "FirstFault": [("requests", "Chains", ["FirstFault"])],
    "SameOrders": [("homology_groups", "Presentation", ["SameOrders"]), ("answers", "Right", ["IsRight", "HasCounts"])],
    "Spanned": [("homology_groups", "Presentation", ["Spanned", "Presentation"]), ("answers", "Homology", ["Presents"]), ("answers", "Right", ["IsRight", "HasCounts"])],
    "Presentation": [("homology_groups", "Presentation", ["Presentation"]), ("answers", "Homology", ["Presents"]), ("answers", "Right", ["IsRight", "HasCounts"])],
    "IsRight": [("answers", "Right", ["IsRight", "HasCounts"])],
    "HasCounts": [("answers", "Right", ["HasCounts"])],
    "DimensionPrinted": [("answers", "Printed", ["DimensionPrinted", "DimensionsPrinted"])],
    "DimensionsPrinted": [("answers", "Printed", ["DimensionsPrinted"])],
    "WrittenSheet": [("sheet_format", "Written", ["WrittenSheet"]), ("sweeps", "Swept", ["SweptSheet"]), ("imports", "Sheet", ["ImportedSheet"])],
    "StaysIn": [("sweeps", "Swept", ["StaysIn", "IsSwept", "SweptSheet"])],
    "IsSwept": [("sweeps", "Swept", ["IsSwept", "SweptSheet"]), ("imports", "Sheet", ["ImportedSheet"])],
    "SweptSheet": [("sweeps", "Swept", ["SweptSheet"])],
    "ImportedSheet": [("imports", "Sheet", ["ImportedSheet"])],
}
# records of `demands`
OWN = {"LooseSheet": "Sheets", "HasSwept": "Sweeps", "ListSingle": "Calls", "RightReport": "Answers", "HeadroomBits": "Headroom", "NoneFor": "Headroom", "AtEntryLimit": "Headroom", "HasCells": "Meshes",
       "SomeNonzero": "Surfaces"}
WAYS = {"ReportOf": "Answers", "CoordinatesOf": "Answers", "SurfaceOf": "Surfaces", "SurfaceTold": "Surfaces"}

# a file of `demands`, or the name of a shadow: a text, and one that says less
LESS = [
    ("Sheets", "limit ≤ library_limit → (b : List ℕ) → Bytes b → (refusal limit b ≡ 0)", "limit < library_limit → (b : List ℕ) → Bytes b → (refusal limit b ≡ 0)"),
    ("Sheets", "limit ≤ library_limit → (b : List ℕ) (laid", "limit < library_limit → (b : List ℕ) (laid"),
    ("Sweeps", "limit ≤ library_limit → (b : List ℕ) → Bytes b → (complex_refusal", "limit < library_limit → (b : List ℕ) → Bytes b → (complex_refusal"),
    ("Sheets", "limit ≤ library_limit → (b : List ℕ) → Bytes b → (refusal limit b ≡ 18)", "limit < library_limit → (b : List ℕ) → Bytes b → (refusal limit b ≡ 18)"),
    ("Calls", "answer = refused (refusal limit q.sheet); output", "answer = (call limit q request output work).answer; output"),
    ("Calls", "(refusal limit q.sheet); output = output; work = work }", "(refusal limit q.sheet); output = (call limit q request output work).output; work = work }"),
    ("Calls", "(refusal limit q.sheet); output = output; work = work }", "(refusal limit q.sheet); output = output; work = (call limit q request output work).work }"),
    ("Sweeps", "limit ≤ library_limit → Bytes b → complex_refusal limit b ≡ 0 →\n    (L : Sections) → Complex top limit L → IsSwept (sections_of b) L →\n    (number_told", "limit < library_limit → Bytes b → complex_refusal limit b ≡ 0 →\n    (L : Sections) → Complex top limit L → IsSwept (sections_of b) L →\n    (number_told"),
    ("Sweeps", "limit ≤ library_limit → Bytes b → complex_refusal limit b ≡ 0 →\n    (L : Sections) → Complex top limit L → IsSwept (sections_of b) L → length", "limit < library_limit → Bytes b → complex_refusal limit b ≡ 0 →\n    (L : Sections) → Complex top limit L → IsSwept (sections_of b) L → length"),
    ("Sweeps", "limit ≤ library_limit → Bytes b → complex_refusal limit b ≡ 0 → length b ≤", "limit < library_limit → Bytes b → complex_refusal limit b ≡ 0 → length b ≤"),
    ("Sweeps", "complex_refusal limit b ≡ 0 → length b ≤ length slice", "complex_refusal limit b ≡ 0 → length b < length slice"),
    ("Sweeps", "limit ≤ library_limit → (b slice : List ℕ) → Bytes b → refusal", "limit < library_limit → (b slice : List ℕ) → Bytes b → refusal"),
    ("Sweeps", "length slice < length (layout L))", "suc (length slice) < length (layout L))"),
    ("Sweeps", "length (layout L) ≤ length slice", "length (layout L) < length slice"),
    ("Sweeps", "record { answer = done (length (layout L)); output = layout L", "record { answer = (sweep_call limit b slice).answer; output = layout L"),
    ("Sweeps", "output = layout L ++ drop (length (layout L)) slice }", "output = (sweep_call limit b slice).output }"),
    ("Sweeps", "refusal limit b ≡ 0 → length b ≤ length slice →\n    sweep_call", "refusal limit b ≡ 0 → length b < length slice →\n    sweep_call"),
    ("Sweeps", "record { answer = done (length b); output = b ++", "record { answer = (sweep_call limit b slice).answer; output = b ++"),
    ("Sweeps", "output = b ++ drop (length b) slice }", "output = (sweep_call limit b slice).output }"),
    ("Sweeps", "→ n ≤ length slice'", "→ n < length slice'"),
    ("Sweeps", "limit ≤ library_limit → Bytes b → (n : ℕ) → (sweep_call", "limit < library_limit → Bytes b → (n : ℕ) → (sweep_call"),
    ("StaysIn", "p ≡ 0 → 0 < count K 1", "p ≡ 0 → 1 < count K 1"),
    ("NoLooseNodes", "0 < count K 1 → (i : ℕ) → i < count K 0", "0 < count K 1 → (i : ℕ) → suc i < count K 0"),
    ("Calls", "j < counts.torsion + counts.free", "suc j < counts.torsion + counts.free"),
    ("Calls", " i < many →", " suc i < many →"),
    ("Calls", "cell_count q ≤ length output'", "cell_count q < length output'"),
    ("Calls", "q.dimension ≤ length work'", "q.dimension < length work'"),
    ("Answers", "i < report_length (cells q)", "suc i < report_length (cells q)"),
    ("Answers", "((j : ℕ) → j < t + f → c j ≡ d j)", "((j : ℕ) → suc j < t + f → c j ≡ d j)"),
    ("Answers", "→ c ≡ d", "→ c.free ≡ d.free"),
    ("Answers", "j < t → NearestZero", "suc j < t → NearestZero"),
    ("Surfaces", "i < cell_count q →\n    apply", "suc i < cell_count q →\n    apply"),
    ("Surfaces", "place < k", "place < suc k"),
    ("Surfaces", "((i : ℕ) → i < cell_count q → y i ≡ z i)", "((i : ℕ) → i < suc (cell_count q) → y i ≡ z i)"),
    ("Surfaces", "(k ≡ 0) ⊎ (k ≡ 17) →", "k ≡ 0 →"),
    ("Headroom", "counts.peak ≤ entry_limit", "counts.peak ≤ suc entry_limit"),
    ("Headroom", "counts.bits ≤ 20", "counts.bits ≤ 21"),
    ("Headroom", "counts.peak < 2 ^ counts.bits", "counts.peak ≤ 2 ^ counts.bits"),
    ("Headroom", "≤ counts.peak)", "≤ suc counts.peak)"),
    ("Headroom", "1 ≤ L →", "1 < L →"),
    ("Headroom", "same : counts.peak ≤ L", "same : counts.peak < L"),
    ("Host", "q.dimension ≤ length work", "q.dimension < length work"),
    ("Meshes", "limit ≤ library_limit", "limit < library_limit"),
    ("Program", "longest host_limit < n", "suc (longest host_limit) < n"),
    ("Words", "length c ≤ word_vertices", "length c < word_vertices"),
    ("Words", "packed c < 2 ^ 64", "packed c ≤ 2 ^ 64"),
    ("Consequences", "j < t →\n", "suc j < t →\n"),
    ("Consequences", "j < t + f → e j ≡ c j", "suc j < t + f → e j ≡ c j"),
    ("Consequences", "k < t + f → k ≢ j", "suc k < t + f → k ≢ j"),
    ("Outcome", "(k : ℕ) → k ≢ 0 →", "(k : ℕ) → Unit {0} →"),
    ("Outcome", "k ≢ 0 → k ≢ 13 → k ≢ 17 →", "k ≢ 0 → Unit {0} → k ≢ 17 →"),
    ("Outcome", "k ≢ 0 → k ≢ 13 → k ≢ 17 →", "k ≢ 0 → k ≢ 13 → Unit {0} →"),
    ("Outcome", "≡ k →\n      called ≡ record { answer = refused k; output = output; work = work }", "≡ k →\n      called ≡ record { answer = refused k; output = called.output; work = work }"),
    ("Outcome", "≡ k →\n      called ≡ record { answer = refused k; output = output; work = work }", "≡ k →\n      called ≡ record { answer = refused k; output = output; work = called.work }"),
    ("Outcome", "≡ k →\n      called ≡ record { answer = refused k; output = output; work = work }", "≡ k →\n      called ≡ record { answer = called.answer; output = output; work = work }"),
    ("Outcome", "≡ 0 → TooWide q (transforms_of request) →", "≡ 0 → Unit {0} →"),
    ("Outcome", "record { answer = refused 13; output = output; work = cleared work }", "record { answer = called.answer; output = output; work = cleared work }"),
    ("Outcome", "record { answer = refused 13; output = output; work = cleared work }", "record { answer = refused 13; output = called.output; work = cleared work }"),
    ("Outcome", "record { answer = refused 13; output = output; work = cleared work }", "record { answer = refused 13; output = output; work = called.work }"),
    ("Outcome", "(TooWide q (transforms_of request) → ⊥) → (Bounds q request → ⊥) →", "Unit {0} → (Bounds q request → ⊥) →"),
    ("Outcome", "(TooWide q (transforms_of request) → ⊥) → (Bounds q request → ⊥) →", "(TooWide q (transforms_of request) → ⊥) → Unit {0} →"),
    ("Outcome", "record { answer = refused 17; output = output; work = cleared work }", "record { answer = called.answer; output = output; work = cleared work }"),
    ("Outcome", "record { answer = refused 17; output = output; work = cleared work }", "record { answer = refused 17; output = called.output; work = cleared work }"),
    ("Outcome", "record { answer = refused 17; output = output; work = cleared work }", "record { answer = refused 17; output = output; work = called.work }"),
    ("Outcome", "(TooWide q (transforms_of request) → ⊥) → Bounds q request →", "Unit {0} → Bounds q request →"),
    ("Outcome", "(TooWide q (transforms_of request) → ⊥) → Bounds q request →", "(TooWide q (transforms_of request) → ⊥) → Unit {0} →"),
    ("Outcome", "Ends q (transforms_of request) s r x →", "Unit {0} →"),
    ("Outcome", "answer = done (counts_of s r x);", "answer = called.answer;"),
    ("Outcome", "output = splices (list_slots q request) (numbers_of q request s r x) (list_count request) output;", "output = called.output;"),
    ("Outcome", "        work = cleared work;", "        work = called.work;"),
    ("Carries", "i < list_count request → j < list_width", "suc i < list_count request → j < list_width"),
    ("Carries", "j < list_width", "suc j < list_width"),
    ("Carries", "(i k : ℕ) → i < list_count request", "(i k : ℕ) → suc i < list_count request"),
    ("Carries", "counts.torsion ≤ k", "counts.torsion < k"),
    ("Carries", "k < 8 * list_slots q request\n", "suc k < 8 * list_slots q request\n"),
    ("Carries", "(8 * list_slots q request) ≤ k", "(8 * list_slots q request) < k"),
    ("DimensionsPrinted", "p ≤ top", "p < top"),
    ("DimensionPrinted", "TooWide (asked b p) no_transforms → text ≡ refusal_line 13", "TooWide (asked b p) no_transforms → Unit {0}"),
    ("DimensionPrinted", "text ≡ report_text p (cell_count (asked b p)) counts.torsion (counts.torsion + counts.free) (call host_limit (asked b p) report output work).output", "Unit {0}"),
]

NUMBER = "ap (λ (c : HostCalled). c.number) ("
HOST = "crates/fildwuk/"
LIBRARY = "crates/library_host/"
# a contract that says less, and its proof: what is replaced in which files
CONTRACTS = {
    "HostAnswers without its output": [
        (HOST + "specs/HostAnswers.antt", "pub is : called ≡ record { number = r; output = output }", "pub is : called.number ≡ r"),
        (HOST + "proofs/HostAnswering.antt", "Host.{host_early,", "Host.{HostCalled, host_early,"),
        (HOST + "proofs/HostAnswering.antt", "is = host-early q request output (λ z. absurd (omega (arith, number-positive x))) ∙ ap (λ (k : ℕ). record { number = k; output = output }) e;",
         "is = " + NUMBER + "host-early q request output (λ z. absurd (omega (arith, number-positive x))) ∙ ap (λ (k : ℕ). record { number = k; output = output }) e);"),
        (HOST + "proofs/HostAnswering.antt", "is = host-wide q request output passes e }", "is = " + NUMBER + "host-wide q request output passes e) }"),
        (HOST + "proofs/HostAnswering.antt", "is = host-done q request output passes s r x e ends ∙ ap (λ (l : List ℕ). record { number = 0; output = l }) (sym o) }",
         "is = " + NUMBER + "host-done q request output passes s r x e ends ∙ ap (λ (l : List ℕ). record { number = 0; output = l }) (sym o)) }"),
        (HOST + "proofs/Through.antt", "use Rattle.host_calls.specs.Host.{", "use Rattle.host_calls.specs.Host.{HostCalled, "),
        (HOST + "proofs/Through.antt", "        refused-same l.", "        " + NUMBER + "refused-same l."),
        (HOST + "proofs/Through.antt", "(number_of x) (told e);", "(number_of x) (told e));"),
        (HOST + "proofs/Through.antt", "            done-same l.", "            " + NUMBER + "done-same l."),
        (HOST + "proofs/Through.antt", "output = o }) (sym e');", "output = o }) (sym e'));"),
        (HOST + "proofs/SurfaceThrough.antt", "        host-is (refused-same l.", "        " + NUMBER + "host-is (refused-same l."),
        (HOST + "proofs/SurfaceThrough.antt", "(number_of x) (told e));", "(number_of x) (told e)));"),
        (HOST + "proofs/SurfaceThrough.antt", "          host-is (done-same l.", "          " + NUMBER + "host-is (done-same l."),
        (HOST + "proofs/SurfaceThrough.antt", "output = o }) (sym e');", "output = o }) (sym e'));"),
    ],
    "LibraryAnswers without the work slice": [
        (LIBRARY + "specs/LibraryAnswers.antt", "told : Called Counts ℤ → ℕ × List ℤ × List ℤ", "told : Called Counts ℤ → ℕ × List ℤ"),
        (LIBRARY + "specs/LibraryAnswers.antt", "(number_told called.answer, called.output, called.work)", "(number_told called.answer, called.output)"),
        (LIBRARY + "specs/LibraryAnswers.antt", "told called ≡ (r, output, work)", "told called ≡ (r, output)"),
        (LIBRARY + "proofs/Told.antt", "(λ i. (sym (e ∙ told-answered x) i, output, work))", "(λ i. (sym (e ∙ told-answered x) i, output))"),
        (LIBRARY + "proofs/Told.antt", "called-told {x = x} {output = output} {work = work} a e", "called-told {x = x} {output = output} a e"),
    ],
    "WriteTold without its output": [
        ("crates/refusal/specs/Written.antt", "  pub number_is : r ≡ number_told called.answer\n  pub output-is : output ≡ called.output", "  pub number_is : r ≡ number_told called.answer"),
        ("crates/refusal/proofs/Told.antt", "record { number_is = e ∙ told-answered r ∙ ap number_told a.answer; output-is = a.output-is }", "record { number_is = e ∙ told-answered r ∙ ap number_told a.answer }"),
    ],
    "WriteTold without its number": [
        ("crates/refusal/specs/Written.antt", "  pub number_is : r ≡ number_told called.answer\n", ""),
        ("crates/refusal/proofs/Told.antt", "record { number_is = e ∙ told-answered r ∙ ap number_told a.answer; output-is = a.output-is }", "record { output-is = a.output-is }"),
    ],
    "print_input for inputs that fit the array": [
        ("crates/printer/src/lib.rt", "((b : List ℕ) → take (length held) b", "((b : List ℕ) → length b ≤ length held → take (length held) b"),
        ("crates/printer/proofs/print_input/Answers.antt", "returns c b e =", "returns c b short e ="),
    ],
}


def read(path):
    with open(path, encoding="utf-8") as f:
        return f.read()


def write(path, text):
    with open(path, "w", encoding="utf-8") as f:
        f.write(text)


def block(text, name):
    """The definition of a name: its lines up to the next blank one, without the comment before it."""
    lines = text.split("\n")
    start = next(i for i, l in enumerate(lines) if re.match(r"(abbrev )?pub (record |data )?%s[ :]" % re.escape(name), l))
    end = start
    while end < len(lines) and lines[end].strip():
        end += 1
    return "\n".join(lines[start:end]) + "\n"


def parts(definition, pattern):
    """The fields of a record, or the ways of a data type: name and text."""
    found = []
    for line in definition.split("\n")[1:]:
        m = re.match(pattern, line)
        if m:
            found.append([m.group(1), line + "\n"])
        elif found and line.strip():
            found[-1][1] += line + "\n"
    return found


def fields(definition):
    """The fields that no other field speaks of: these can go alone."""
    all_fields = parts(definition, r"  pub (\S+) :")
    for name, text in all_fields:
        others = "".join(t.split(" : ", 1)[1] for n, t in all_fields if n != name)
        if name not in re.split(r"[\s(){}.,;]+", re.sub(r"\.%s(?![\w'-])" % re.escape(name), " ", others)):
            yield name, text


def uses(text):
    """The `use` lines: (module, name), and (module, alias)."""
    names, aliases = [], []
    for line in text.split("\n"):
        m = re.match(r"use (\S+)\.\{(.*)\}$", line)
        if m:
            names += [(m.group(1), n.strip()) for n in m.group(2).split(",")]
        m = re.match(r"use (\S+) as (\S+)$", line)
        if m:
            aliases.append((m.group(1), m.group(2)))
    return names, aliases


def shadow(room, name, change):
    """A copy in `demands` of the definitions between a record and the claims; `change` is applied to the copied text."""
    imported, aliases, body, copied = [], [], "", {}
    for crate, module, names in SHADOWS[name]:
        text = read(os.path.join(room, "crates/%s/specs/%s.antt" % (crate, module)))
        home = "Rattle.%s.specs." % crate
        used, also = uses(text)
        imported += used
        aliases += also
        for other in re.findall(r"^(?:pub (?:record |data )?|(?:  )?(?:abbrev|unfoldable) pub )(\S+)[ :]", text, re.M):
            imported.append((home + module, other))
        for n in names:
            copied[n] = home + module
            body += block(text, n) + "\n"
    changed = change(body)
    if changed == body:
        raise SystemExit("%s: nothing to change" % name)
    tokens = set(re.split(r"[\s(){}.,;]+", changed))
    lines, seen = [], set()
    for module, n in imported:
        if n in seen or n in copied or not (n in tokens or n.startswith("◌") and n.strip("◌") in tokens):
            continue
        seen.add(n)
        lines.append("use %s.{%s}" % (module, n))
    for module, alias in sorted(set(aliases)):
        if alias + "." in changed and alias not in seen:
            lines.append("use %s as %s" % (module, alias))
    own = os.path.join(room, SPECS)
    write(own + "Weak.antt", "\n".join(lines) + "\n\n" + changed)
    write(own + "Lib.antt", "pub mod Weak\n" + read(own + "Lib.antt"))
    targets = [own + f for f in os.listdir(own) if f not in ("Weak.antt", "Lib.antt")]
    targets += [os.path.join(room, PROOFS, f) for f in os.listdir(os.path.join(room, PROOFS)) if is_use(f)]
    for path in targets:
        out, text = [], read(path)
        for line in text.split("\n"):
            m = re.match(r"use (\S+)\.\{(.*)\}$", line)
            alias = re.match(r"use (\S+) as (\S+)$", line)
            if m and m.group(1) in copied.values():
                names = [n.strip() for n in m.group(2).split(",")]
                moved = [n for n in names if copied.get(n) == m.group(1)]
                kept = [n for n in names if n not in moved]
                if kept:
                    out.append("use %s.{%s}" % (m.group(1), ", ".join(kept)))
                if moved:
                    out.append("use %s.{%s}" % (WEAK, ", ".join(moved)))
            elif alias and any(m == alias.group(1) and "%s.%s." % (alias.group(2), n) in text for n, m in copied.items()):
                out.append("use %s as %s" % (WEAK, alias.group(2)))
            else:
                out.append(line)
        write(path, "\n".join(out))


def is_use(name):
    return name.startswith("Use") or name in ("Filled.antt", "Hollow.antt", "Loose.antt", "Plane.antt")


HALVES = """
infix 10 ◌↔₀◌ ◌↔₁◌
abbrev pub ◌↔₀◌ : Type 0 → Type 0 → Type 0
A ↔₀ B = (A → B) × Unit {0}

abbrev pub ◌↔₁◌ : Type 0 → Type 0 → Type 0
A ↔₁ B = Unit {0} × (B → A)
"""


def with_words(text, names):
    """The text with those of these words of the library that it uses and does not import."""
    code = "\n".join(line for line in text.split("\n") if not line.startswith(("use ", "pub use ", "--")))
    lacking = [n for n in names if re.search(r"(^|[\s(])%s[\s)]" % re.escape(n.strip("◌")), code)
               and not re.search(r"^(?:pub )?use .*\{(?:.*, )?%s[,}]" % re.escape(n), text, re.M)]
    return "".join(PRELUDE + n + "}\n" for n in lacking) + text


def own_edit(module, change):
    def apply(room):
        path = os.path.join(room, SPECS, module + ".antt")
        text = read(path)
        changed = change(text)
        if changed == text:
            raise SystemExit("%s: nothing to change" % module)
        if "↔₀" in changed or "↔₁" in changed:
            write(os.path.join(room, SPECS, "Halves.antt"), "-- one direction of an equivalence\n" + HALVES.lstrip("\n"))
            lib = os.path.join(room, SPECS, "Lib.antt")
            write(lib, "pub mod Halves\n" + read(lib))
            changed = re.sub(r"^use ", "use Rattle.demands.specs.Halves.{◌↔₀◌, ◌↔₁◌}\nuse ", changed, count=1, flags=re.M)
        write(path, with_words(changed, ("suc", "◌<◌", "◌≤◌")))
    return apply


def shadow_edit(name, change):
    def apply(room):
        shadow(room, name, change)
        path = os.path.join(room, SPECS, "Weak.antt")
        write(path, with_words(read(path), ("suc", "◌<◌", "◌≤◌")))
    return apply


def contract_edit(edits):
    def apply(room):
        for file, old, new in edits:
            text = read(os.path.join(room, file))
            if old not in text:
                raise SystemExit("%s: nothing to change" % file)
            write(os.path.join(room, file), text.replace(old, new, 1))
    return apply


def replace(old, new):
    return lambda text: text.replace(old, new, 1)


def nth(old, new, n):
    def change(text):
        at = -1
        for _ in range(n):
            at = text.index(old, at + 1)
        return text[:at] + new + text[at + len(old):]
    return change


def weakenings():
    modules = [f[:-5] for f in sorted(os.listdir(os.path.join(ROOT, SPECS))) if f != "Lib.antt"]
    for module in modules:
        text = read(os.path.join(ROOT, SPECS, module + ".antt"))
        for name in re.findall(r"^abbrev pub (\S+) : Type 0$", text, re.M):
            head = "\n%s =" % name
            yield "claim " + name, own_edit(module, replace(head, head + " ⊥ →"))
        body = "\n".join("" if l.startswith("use ") or l.startswith("--") else l for l in text.split("\n"))
        for n in range(1, body.count("↔") + 1):
            skipped = text.count("↔") - body.count("↔")
            for half, label in (("↔₀", "%s ↔ %d"), ("↔₁", "%s ↔ %d back")):
                yield label % (module, n), own_edit(module, nth("↔", half, n + skipped))
    for name, module in sorted(OWN.items()):
        for field, text in fields(block(read(os.path.join(ROOT, SPECS, module + ".antt")), name)):
            yield "%s .%s" % (name, field), own_edit(module, replace(text, ""))
    for name, module in sorted(WAYS.items()):
        for way, text in parts(block(read(os.path.join(ROOT, SPECS, module + ".antt")), name), r"  (\S+) :"):
            yield "%s %s" % (name, way), own_edit(module, replace(text, ""))
    for name, path in SHADOWS.items():
        crate, module, names = path[0]
        for field, text in fields(block(read(os.path.join(ROOT, "crates/%s/specs/%s.antt" % (crate, module))), name)):
            yield "%s .%s" % (name, field), shadow_edit(name, replace(text, ""))
    for where, old, new in LESS:
        edit = shadow_edit if where in SHADOWS else own_edit
        yield "%s: %s" % (where, " ".join(new.split())), edit(where, replace(old, new))
    for name, edits in CONTRACTS.items():
        yield "contract " + name, contract_edit(edits)
    for name in SHADOWS:
        yield "control %s" % name, shadow_edit(name, lambda body: body + "-- unchanged\n")


def stale():
    """The tables' texts that their files no longer have: (file, text)."""
    for where, old, new in LESS:
        files = ["crates/%s/specs/%s.antt" % (crate, module) for crate, module, names in SHADOWS.get(where, [])] or [SPECS + where + ".antt"]
        if not any(old in read(os.path.join(ROOT, file)) for file in files):
            yield files[0], old
    for edits in CONTRACTS.values():
        for file, old, new in edits:
            path = os.path.join(ROOT, file)
            if not os.path.exists(path) or old not in read(path):
                yield file, old


def wrong_files(said, crate):
    """The files, from crates/ on and without their ending, in which rt tells errors or goals that are left; it names them from the folder of the crate
    that it checks, which a later line names."""
    found, here = [], []
    for line in said.split("\n"):
        m = re.match(r"(?:note: )?(\S+?)\.(?:antt|rt):\d+:\d+: (?:error|it is not proved)", line)
        if m:
            here.append(re.sub(r"^\./", "", m.group(1)))
        m = re.match(r"crate (\w+): modules ", line)
        if m:
            found += [name.split("/crates/")[1] if "/crates/" in name else m.group(1) + "/" + name for name in here]
            here = []
    return found + [crate + "/" + name for name in here]


def main():
    arguments = sys.argv[1:]
    words = [a for a in arguments if a != "--list"]
    chosen = [(label, edit) for label, edit in weakenings() if not words or any(w in label for w in words)]
    if "--list" in arguments:
        print("\n".join(label for label, edit in chosen))
        return 0
    room = tempfile.mkdtemp()
    unseen = 0
    try:
        shutil.copytree(os.path.join(ROOT, "crates"), os.path.join(room, "crates"), ignore=shutil.ignore_patterns("out", "must-fail"))
        for name in ("crates.txt", "HANDLES"):
            shutil.copy(os.path.join(ROOT, name), room)
        os.mkdir(os.path.join(room, ".git"))
        proofs = os.path.join(room, PROOFS)
        for name in os.listdir(proofs):
            if not is_use(name) and name != "Lib.antt":
                os.remove(proofs + name)
        write(proofs + "Lib.antt", "".join("mod %s\n" % name[:-5] for name in sorted(os.listdir(proofs)) if is_use(name)))
        kept = os.path.join(room, "demands")
        shutil.copytree(os.path.join(room, "crates/demands"), kept)
        for label, edit in chosen:
            shutil.rmtree(os.path.join(room, "crates/demands"))
            shutil.copytree(kept, os.path.join(room, "crates/demands"))
            edit(room)
            contract = label.startswith("contract ")
            crate = ("sweep_client" if "WriteTold" in label else "clients") if contract else "demands"
            folder = crate + ("/" if contract else "/proofs/")
            done = subprocess.run(["rt", "check"], cwd=os.path.join(room, "crates", crate), stdout=subprocess.PIPE, stderr=subprocess.STDOUT, text=True)
            files = wrong_files(done.stdout, crate)
            broken = sorted({f for f in files if not f.startswith(folder)})
            used = sorted({f[len(folder):] for f in files if f.startswith(folder)})
            if contract:
                for file in {file for file, old, new in CONTRACTS[label[len("contract "):]]}:
                    shutil.copy(os.path.join(ROOT, file), os.path.join(room, file))
            control = label.startswith("control ")
            if broken or (control and used):
                word = "BROKEN in " + ", ".join(broken + used) + ": " + re.search(r": (?:error|it is not proved)(.*)", done.stdout).group(1)[:200]
            elif used or control:
                word = "refused in " + ", ".join(used) if used else "as it stands: no use is refused"
            else:
                word = "UNSEEN"
            unseen += word.startswith(("BROKEN", "UNSEEN"))
            print("%s: %s" % (label, word), flush=True)
    finally:
        shutil.rmtree(room)
    print("%d weakenings, %d unseen" % (len(chosen), unseen))
    return 1 if unseen else 0


if __name__ == "__main__":
    sys.exit(main())
