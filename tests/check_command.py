#!/usr/bin/env python3
"""Holds the command fildwuk to its exit statuses, its output and its messages as a process: the words on its command line, files that cannot be read or
written, full disks and closed streams, pipes and terminals, long and endless input, little memory. Built with sanitizers, which see the command's own
code and not the libraries'."""

import argparse
import os
import pty
import resource
import select
import signal
import stat
import subprocess
import tempfile
from pathlib import Path

from command.runs import COMMAND, FAILED, Ran
from model.mesh import import_mesh
from model.sheet import LIBRARY_COUNT_LIMIT, PROGRAM_COUNT_LIMIT, longest

RING = Path("examples/copper_ring.msh").resolve()
SHEET = Path("examples/air_ring.sheet").resolve()
GROUPS = Path("tests/meshes/groups.msh").resolve()
QUARTER = Path("examples/quarter_ring.msh").resolve()
DISC = Path("examples/ring_and_disc.msh").resolve()
FAULTY = Path("target/host/fildwuk_faulty")
NAMES = (b"report", b"import", b"judge", b"surface", b"sweep")
COARSE_RING = import_mesh(RING.read_bytes(), PROGRAM_COUNT_LIMIT, longest(PROGRAM_COUNT_LIMIT))[1]
OLD = b"an old file"
MEGABYTE = 1 << 20


class Command:
    """The command, and a folder to run it in."""

    def __init__(self, command, folder):
        self.command, self.folder = command, Path(folder)

    def run(self, *words, **choices):
        """A run with these words."""
        choices = {"stdout": subprocess.PIPE, "stderr": subprocess.PIPE, "stdin": subprocess.DEVNULL, **choices}
        if "input" in choices:
            del choices["stdin"]
        ran = subprocess.run([self.command, *words], check=False, cwd=self.folder, **choices)
        return Ran(ran.returncode, ran.stdout or b"", ran.stderr)

    def shell(self, line):
        """A line of the shell, in which "$0" is the command."""
        ran = subprocess.run(["bash", "-c", line, self.command], capture_output=True, check=False, cwd=self.folder)
        return Ran(ran.returncode, ran.stdout, ran.stderr)

    def file(self, data, name="mesh file.msh"):
        """The path of a file with these bytes."""
        path = self.folder / name
        path.write_bytes(data)
        return path

    def names(self):
        """The names in the folder."""
        return {path.name for path in self.folder.iterdir()}


def failed(ran, said):
    """Whether a run told a failure in one line that has these words, and wrote nothing."""
    one_line = ran.errors.startswith(b"fildwuk: ") and ran.errors.count(b"\n") == 1 and ran.errors.endswith(b"\n")
    return ran.status == FAILED and ran.output == b"" and one_line and said in ran.errors


def done(ran, output=None):
    """Whether a run was done without a message, and wrote this output."""
    return ran.status == 0 and ran.errors == b"" and (output is None or ran.output == output)


def misused(ran, said):
    """Whether a run told a misuse with these words, and where help is."""
    return failed(ran, said) and b" --help)\n" in ran.errors


def help_facts(command):
    """What must hold of --help and --version, by name."""
    shown = command.run("--help")
    yield "help", done(shown) and shown.output.startswith(b"usage: fildwuk [COMMAND]") and done(command.run("-h"), shown.output)
    yield "help names the commands", all(b"\n  %s " % name in shown.output for name in NAMES)
    for name in NAMES:
        told = command.run(name, "--help")
        yield f"help of {name.decode()}", done(told) and told.output.startswith(b"usage: fildwuk ") and name in told.output.split(b"\n")[0]
        yield f"help of {name.decode()} fits a terminal", max(map(len, [*shown.output.splitlines(), *told.output.splitlines()])) <= 80
        yield f"help of {name.decode()} after a file", done(command.run(name, "no such file", "--help"), told.output)
    version = command.run("--version")
    yield "version", done(version) and version.output.startswith(b"fildwuk ") and version.output.count(b"\n") == 1
    yield "help on a full device", failed(command.shell('"$0" --help >/dev/full'), b"cannot write standard output: No space left")


def word_facts(command):
    """What must hold of the words on the command line, by name."""
    cases = {
        ("--verbose", RING): b"there is no option --verbose", ("report", "--json=1"): b"there is no option --json=1",
        ("import", "--json", RING): b"there is no option --json", ("report", "-o", "x", RING): b"there is no option -o",
        ("report", RING, RING): b"one file is wanted, not also ", (RING, "--dimension"): b"one number is wanted after --dimension",
        (RING, "--dimension", "one"): b"one number is wanted after --dimension", (RING, "--dimension", "-1"): b"one number is wanted after --dimension",
        (RING, "--dimension", "1", "--dimension", "2"): b"one number is wanted after --dimension",
        (RING, "--dimension", "1234567890"): b"one number is wanted after --dimension", (RING, "--plain", "--json"): b"one of --plain and --json",
        (RING, "--plain", "--plain"): b"one of --plain and --json", (RING, "--limit"): b"host or library is wanted after --limit",
        (RING, "--limit", "none"): b"host or library is wanted after --limit", (RING, "--region"): b"physical tags are wanted after --region",
        ("--region", "copper", RING): b"physical tags are wanted after --region", (RING, "--region", "--json"): b"physical tags are wanted after --region",
        (RING, "--groups", "-"): b"standard output has the report: a file is wanted after --groups",
        (RING, "--view", "-"): b"standard output has the report: a file is wanted after --view", ("import", RING, "-o"): b"one file is wanted after -o",
        ("import", "-o", "a", "-o", "b", RING): b"one file is wanted after -o", ("import", RING, "--", "-o"): b"one file is wanted, not also -o",
        (RING, "--region", *["1"] * 1001): b"there are more than 1000 tags", ("judge", RING, "one"): b"a physical tag is a number, not one",
        ("surface", DISC, "one"): b"a physical tag is a number, not one", ("surface", DISC, "--limit", "host"): b"there is no option --limit",
        ("surface", DISC, "--plain"): b"there is no option --plain", ("surface", DISC, "--dimension", "3"): b"0, 1 or 2 is wanted after --dimension",
        ("surface", DISC, "--groups", "-"): b"standard output has the report: a file is wanted after --groups",
        ("judge", RING, "--plain"): b"there is no option --plain", ("judge", RING, "--groups", "x"): b"there is no option --groups",
        ("sweep", SHEET, "--plain"): b"there is no option --plain", ("sweep", SHEET, "--region", "1"): b"there is no option --region",
        ("sweep", SHEET, "-o"): b"one file is wanted after -o", ("sweep", SHEET, SHEET): b"one file is wanted, not also ",
        ("sweep", SHEET, "--limit", "none"): b"host or library is wanted after --limit",
        ("jugde",): b"neither a command nor a file jugde", ("\x1b[2J",): b"neither a command nor a file \\x1b[2J",
    }
    for words, said in cases.items():
        yield f"misuse {[str(word) for word in words[:4]]}", misused(command.run(*words), said)
    report = command.run(RING).output
    yield "report without its name", report.startswith(b"%s: 12 vertices, 42 edges, " % os.fsencode(RING))
    yield "report with its name", done(command.run("report", RING), report)
    command.file(RING.read_bytes(), "-odd.msh")
    yield "a name that starts with a dash", done(command.run("import", "--", "-odd.msh"), COARSE_RING)
    command.file(RING.read_bytes(), "import")
    yield "a file named as a command", command.run("./import", "--plain").output.startswith(b"H 0 1 0\n")
    yield "tags before the file", done(command.run("import", "--region", "1", RING), COARSE_RING)
    yield "tags twice", done(command.run("import", RING, "--region", "1", "--region", "1"), COARSE_RING)
    told = failed(command.run(RING, "--region", "copper"), b'numbers, not copper; the tags are 1 "copper ring"\n')
    yield "a name after --region", told
    plain, grouped = command.run(RING, "--plain"), command.run(RING, "--plain", "--groups", "groups.msh")
    yield "plain lines with groups", plain.output == grouped.output and grouped.errors.startswith(b'group 2 "H_1{0}1": ') and grouped.status == 0
    for name in ("report", "judge", "surface"):
        ran = command.run(name, RING, "--dimension", "4")
        yield f"a dimension beyond 3, {name}", ran.status == 1 and ran.errors.endswith(b" is refused with 8: the dimension exceeds 3.\n")
    yield "status 1 in the help", b"1 refused, judged wrong or without a surface" in command.run("--help").output
    ran = command.run("surface", DISC, "--region", "copper")
    yield "a name after --region of surface", failed(ran, b'numbers, not copper; the tags are 1 "copper ring", 2 "disc", 3 "rim of the disc", 4 ')


def input_facts(command):
    """What must hold where an input cannot be read, by name."""
    yield "missing file", failed(command.run("no such file.msh"), b"cannot read no such file.msh: No such file")
    yield "control bytes in a name", failed(command.run("a\x1b[2J\nb.msh"), b"cannot read a\\x1b[2J\\x0ab.msh: No such file")
    yield "letters in a name", failed(command.run("Spüle.msh"), "cannot read Spüle.msh: No such file".encode())
    yield "directory", failed(command.run("."), b"cannot read .: Is a directory")
    yield "directory as standard input", failed(command.shell('"$0" <.'), b"cannot read standard input: Is a directory")
    yield "closed input", failed(command.shell('"$0" <&-'), b"cannot read standard input: Bad file descriptor")
    yield "empty input", command.shell('"$0" --plain </dev/null').output == b"R 1\n"
    yield "standard input by a dash", done(command.run("import", "-", input=RING.read_bytes()), COARSE_RING)
    yield "standard input without a name", done(command.run("import", input=RING.read_bytes()), COARSE_RING)
    yield "a mesh in pieces", done(in_pieces(command, RING.read_bytes()), COARSE_RING)
    yield "a sheet in pieces", in_pieces(command, SHEET.read_bytes(), "report").output.startswith(b"standard input: ")
    yield "not enough memory", little_memory(command)


def in_pieces(command, data, *words):
    """A run with the data in a pipe, in pieces."""
    with subprocess.Popen([command.command, *(words or ["import"])], stdin=subprocess.PIPE, stdout=subprocess.PIPE, stderr=subprocess.PIPE) as run:
        for start in range(0, len(data), 100):
            run.stdin.write(data[start:start + 100])
            run.stdin.flush()
        output, errors = run.communicate()
        return Ran(run.returncode, output, errors)


def little_memory(command):
    """Whether a text that does not fit into memory is told. The sanitizer, which refuses the memory, says so before."""
    little = {**os.environ, "ASAN_OPTIONS": "allocator_may_return_null=1:max_allocation_size_mb=4"}
    ran = command.run("import", command.file(b"$ " + bytes(8 * MEGABYTE)), env=little)
    return failed(Ran(ran.status, ran.output, ran.errors.splitlines(keepends=True)[-1]), b"Cannot allocate memory")


def output_facts(command):
    """What must hold where an output cannot be written, by name."""
    yield "full output", failed(command.shell(f'"$0" {RING} >/dev/full'), b"cannot write standard output: No space left")
    yield "full output of a long report", failed(command.shell(f'"$0" {SHEET} --json >/dev/full'), b"cannot write standard output: No space left")
    yield "closed output", failed(command.shell(f'"$0" {RING} >&-'), b"cannot write standard output: Bad file descriptor")
    yield "closed messages", command.shell('"$0" nothing.msh 2>&-') == Ran(FAILED, b"", b"")
    yield "full messages", command.shell('"$0" nothing.msh 2>/dev/full') == Ran(FAILED, b"", b"")
    full = command.run("import", RING, "-o", "/dev/full")
    yield "full device", failed(full, b"cannot write /dev/full: No space") and Path("/dev/full").is_char_device()
    yield "null device", done(command.run("import", RING, "-o", "/dev/null")) and Path("/dev/null").is_char_device()
    yield "missing folder", failed(command.run("import", RING, "-o", "none/a.sheet"), b"cannot write none/a.sheet: No such file")
    yield "folder for a sheet", failed(command.run("import", RING, "-o", "."), b"cannot write .: Is a directory")
    for option in ("--groups", "--view"):
        yield f"folder for {option}", failed(command.run(RING, option, "."), b"cannot write .: Is a directory")
        yield f"missing folder for {option}", failed(command.run(RING, option, "none/a.msh"), b"cannot write none/a.msh: No such file")
        yield f"folder for {option} of surface", failed(command.run("surface", DISC, option, "."), b"cannot write .: Is a directory")
    yield "one file for both", failed(command.run(RING, "--groups", "a", "--view", "a"), b"--groups and --view name the same file")
    full = command.run("surface", DISC, "--groups", "/dev/full")
    yield "full device for groups", full.status == FAILED and b"cannot write /dev/full: No space" in full.errors and b"bounds +1 (4,8,25)" in full.output
    command.file(OLD, "one")
    os.link(command.folder / "one", command.folder / "two")
    yield "one file by two names", failed(command.run(RING, "--groups", "one", "--view", "two"), b"--groups and --view name the same file")
    yield "groups of a sheet", failed(command.run(SHEET, "--groups", "a"), b"--groups and --view are for a mesh")
    yield "pipe that nobody reads", command.shell(f'"$0" {RING} | true; exit "${{PIPESTATUS[0]}}"').status in (0, 128 + signal.SIGPIPE)
    yield "pipe that nobody reads, ignored", broken_pipe(command, "import", RING)
    yield "output by a dash", done(command.run("import", RING, "-o", "-"), COARSE_RING)
    said, sheet = b"%s: 1 node in no edge is dropped: 1.\n" % os.fsencode(QUARTER), import_mesh(QUARTER.read_bytes(), PROGRAM_COUNT_LIMIT, 976)[1]
    for words in ([], ["-o", "-"]):
        yield f"a node that is dropped beside the sheet, {words}", command.run("import", QUARTER, *words) == Ran(0, sheet, b"fildwuk: " + said)
    yield "a node that is dropped, with a file", command.run("import", QUARTER, "-o", "a.sheet") == Ran(0, said, b"")


def broken_pipe(command, *words):
    """Whether a pipe without a reader is told by a run with these words, where its signal is ignored."""
    reader, writer = os.pipe()
    os.close(reader)
    ran = command.run(*words, stdout=writer, preexec_fn=lambda: signal.signal(signal.SIGPIPE, signal.SIG_IGN))
    os.close(writer)
    return failed(ran, b"cannot write standard output: Broken pipe")


def limited_file():
    """Lets a file grow to 100 bytes and no more, as a full disk does."""
    signal.signal(signal.SIGXFSZ, signal.SIG_IGN)
    resource.setrlimit(resource.RLIMIT_FSIZE, (100, 100))


def replacing_facts(command):
    """What must hold of the file that is written, by name."""
    old = command.file(OLD, "old.sheet")
    before = command.names()
    full = failed(command.run("import", RING, "-o", "old.sheet", preexec_fn=limited_file), b"cannot write old.sheet: File too large")
    yield "full disk", full and old.read_bytes() == OLD and command.names() == before
    full = failed(command.run("import", RING, "-o", "new.sheet", preexec_fn=limited_file), b"cannot write new.sheet: File too large")
    yield "full disk and a new file", full and command.names() == before
    refused = command.run("import", command.file(b"$no mesh\n"), "-o", "old.sheet")
    yield "a refusal leaves the old file", refused.status == 1 and old.read_bytes() == OLD
    old.chmod(0o640)
    written = done(command.run("import", RING, "-o", "old.sheet"), b"")
    yield "an old file keeps its rights", written and old.read_bytes() == COARSE_RING and stat.S_IMODE(old.stat().st_mode) == 0o640
    written = done(command.run("import", RING, "-o", "new.sheet", preexec_fn=lambda: os.umask(0o027)), b"")
    new = command.folder / "new.sheet"
    yield "a new file has the usual rights", written and new.read_bytes() == COARSE_RING and stat.S_IMODE(new.stat().st_mode) == 0o640
    (command.folder / "link.sheet").symlink_to("new.sheet")
    new.write_bytes(OLD)
    written = done(command.run("import", RING, "-o", "link.sheet"), b"")
    yield "a link stays a link", written and (command.folder / "link.sheet").is_symlink() and new.read_bytes() == COARSE_RING
    (command.folder / "lost.sheet").symlink_to("found.sheet")
    written = done(command.run("import", RING, "-o", "lost.sheet"), b"")
    yield "a link to nothing stays a link", written and (command.folder / "found.sheet").read_bytes() == COARSE_RING and os.path.islink(
        command.folder / "lost.sheet")
    yield "no temporary file is left", not any(".sheet." in name for name in command.names())


def same_file_facts(command):
    """What must hold where the output is the input, by name."""
    mesh = command.file(RING.read_bytes(), "mesh.msh")
    (command.folder / "soft.msh").symlink_to("mesh.msh")
    os.link(mesh, command.folder / "hard.msh")
    for name in ("mesh.msh", "./mesh.msh", "soft.msh", "hard.msh"):
        yield f"output {name}", failed(command.run("import", "mesh.msh", "-o", name), b"cannot write %s: it is the input" % name.encode())
        for option in ("--groups", "--view"):
            yield f"{option} {name}", failed(command.run("mesh.msh", option, name), b"cannot write %s: it is the input" % name.encode())
            ran = command.run("surface", "mesh.msh", option, name)
            yield f"{option} {name} of surface", failed(ran, b"cannot write %s: it is the input" % name.encode())
        yield f"output {name} from standard input", failed(command.shell(f'"$0" import -o {name} <mesh.msh'), b": it is the input\n")
    yield "the input is as it was", mesh.read_bytes() == RING.read_bytes()
    yield "a device may be both", b"/dev/null is refused with 14: " in command.run("import", "/dev/null", "-o", "/dev/null").errors


def on_terminal(command, *words, typed=b""):
    """What a run says on a terminal, with what is typed and the end of the input."""
    child, terminal = pty.fork()
    if child == 0:
        os.execv(command.command, ["fildwuk", *words])
    said = b""
    os.write(terminal, typed.replace(b"\r", b"") + b"\x04")
    while True:
        ready, _, _ = select.select([terminal], [], [], 20)
        try:
            piece = os.read(terminal, 4096) if ready else b""
        except OSError:
            piece = b""
        if not piece:
            break
        said += piece
    os.close(terminal)
    _, status = os.waitpid(child, 0)
    return os.waitstatus_to_exitcode(status), said


def terminal_facts(command):
    """What must hold on a terminal, by name."""
    status, said = on_terminal(command)
    yield "waits for a mesh or a sheet", status == 1 and b"fildwuk: waiting for a mesh or a sheet on the terminal; Ctrl-D ends it" in said
    status, said = on_terminal(command, "import", "-o", "/dev/null", typed=RING.read_bytes())
    yield "waits for a mesh", status == 0 and b"fildwuk: waiting for a mesh on the terminal" in said
    status, said = on_terminal(command, "surface", typed=DISC.read_bytes())
    yield "waits for a mesh with surfaces", status == 0 and b"fildwuk: waiting for a mesh on the terminal" in said
    status, said = on_terminal(command, "import", str(RING))
    told = said.startswith(b"fildwuk: a sheet is no text for a terminal: name a file after -o")
    yield "no sheet for a terminal", status == FAILED and told and b"\0" not in said
    status, said = on_terminal(command, "import")
    yield "no sheet for a terminal, before anything is read", status == FAILED and b"waiting" not in said
    status, said = on_terminal(command, "import", str(RING), "-o", "-")
    yield "a sheet for a terminal where it is asked for", status == 0 and b"\0" in said
    status, said = on_terminal(command, str(RING))
    yield "reads a file without waiting", status == 0 and b"waiting" not in said and b"Dimension 1: 1 free loop.\r\n" in said
    status, said = on_terminal(command, str(command.file(b"$MeshFormat\n\x1b[2J\x07\x9b\n")))
    yield "control bytes do not reach it", status == 1 and b"\x1b" not in said and b"\\x1b[2J\\x07\\x9b" in said


def large_mesh(count):
    """A text with so many triangles, in a strip."""
    nodes = 60000
    lines = [b"$MeshFormat\n2.2 0 8\n$EndMeshFormat\n$Nodes\n%d\n" % nodes, *(b"%d 0 0 0\n" % i for i in range(nodes))]
    lines.append(b"$EndNodes\n$Elements\n%d\n" % count)
    lines += [b"%d 2 2 %d 1 %d %d %d\n" % (i, 1 if i < 20 else 2, i % 59000, i % 59000 + 1, i % 59000 + 2) for i in range(count)]
    return b"".join([*lines, b"$EndElements\n"])


def seconds(command, *words):
    """The processor time that a run takes."""
    before = resource.getrusage(resource.RUSAGE_CHILDREN)
    ran = command.run(*words)
    after = resource.getrusage(resource.RUSAGE_CHILDREN)
    return after.ru_utime + after.ru_stime - before.ru_utime - before.ru_stime, ran


def long_facts(command):
    """What must hold of long and endless input, by name."""
    yield "endless zeros", command.shell('"$0" --plain </dev/zero').output == b"R 3\n"
    yield "endless text", failed(command.shell('yes "$" | "$0" import'), b"cannot read standard input: it has more than 512 MiB")
    head, rest = RING.read_bytes().split(b"$Nodes", 1)
    passed_over = head + b"$Foo\n" + b"0123456789abcde\n" * (6 * MEGABYTE // 16) + b"$EndFoo\n$Nodes" + rest
    yield "6 MB passed over", done(command.run("import", command.file(passed_over)), COARSE_RING)
    short, _ = seconds(command, "import", command.file(large_mesh(60000)))
    time, ran = seconds(command, "import", command.file(large_mesh(360000)))
    yield "the counts of a large mesh", b"It has 59002 vertices, 118001 edges, 59000 triangles, the limit is 256.\n" in ran.errors
    yield f"time in proportion, {short:.2f} s and {time:.2f} s", time < 12 * short
    time, ran = seconds(command, "import", command.file(large_mesh(360000)), "--region", "1")
    sheet = import_mesh(large_mesh(20), LIBRARY_COUNT_LIMIT, longest(LIBRARY_COUNT_LIMIT))[1]
    yield f"a region of a large mesh, {time:.2f} s", done(ran, sheet) and time < 12 * short
    line = b"1 4 0 " + b"9" * (4 * MEGABYTE)
    ran = command.run("import", command.file(RING.read_bytes().replace(b"1 4 2", line, 1)))
    yield "a long line", ran.status == 1 and len(ran.errors) < 1000 and b"\nLine 25 is not of the form (wanted: node numbers" in ran.errors


def disagreement_facts(command):
    """What must hold where a proved call answers what cannot be, by name: tests/host/command_faulty.c."""
    said = b"fildwuk: an error in this program: the proved call does not agree with the chains\n"
    for words in (["surface", DISC, "3"], ["surface", DISC], ["judge", DISC], ["surface", DISC, "3", "--json"]):
        yield f"no agreement, {words[0]} {words[2:]}", failed(command.run(*words), said)
    yield "agreement, judge of one group", command.run("judge", DISC, "3").errors == b""


def main():
    """Exits with 1 where a fact fails."""
    parser = argparse.ArgumentParser(description=__doc__, formatter_class=argparse.RawDescriptionHelpFormatter)
    parser.add_argument("--command", type=Path, default=COMMAND, metavar="FILE", help="the command built with sanitizers (target/host/fildwuk)")
    parser.add_argument("--faulty", type=Path, default=FAULTY, metavar="FILE", help="the same with wrong answers (target/host/fildwuk_faulty)")
    options = parser.parse_args()
    groups = [help_facts, word_facts, input_facts, output_facts, replacing_facts, same_file_facts, terminal_facts, long_facts, disagreement_facts]
    found = {}
    for group in groups:
        with tempfile.TemporaryDirectory() as folder:
            found.update(group(Command(options.faulty.resolve() if group == disagreement_facts else options.command.resolve(), folder)))
    for name, holds in found.items():
        if not holds:
            print(f"not as due: {name}")
    print(f"{len(found)} cases, {list(found.values()).count(False)} differ")
    raise SystemExit(0 if all(found.values()) else 1)


if __name__ == "__main__":
    main()
