"""What the test scripts share: where things stand, the reference, seeds, how a program is run and how a difference is told."""

import contextlib
import functools
import os
import pathlib
import re
import signal
import struct
import subprocess
import sys
import time

ROOT = pathlib.Path(__file__).resolve().parent.parent
sys.path.insert(0, str(ROOT / "tests" / "reference"))
sys.dont_write_bytecode = True
import reference  # noqa: E402

# The scripts ask for one text's answers again and again; a text is searched once.
reference.answer_lines = functools.lru_cache(maxsize=None)(
    lambda data, lines=reference.answer_lines: tuple(lines(data)))

STORED = ROOT / "tests" / "stored"
# Another program or archive can be put to the same tests.
MONITOR = os.environ.get("MONITOR", str(ROOT / "target" / "bin" / "monitor"))
DESK = os.environ.get("DESK", str(ROOT / "target" / "bin" / "desk"))
ARCHIVE = os.environ.get("ARCHIVE", str(ROOT / "target" / "staticlib" / "libwatch.a"))


def game_a():
    """Input and output of Game A, from the block that document 01 prints."""
    rows = (ROOT / "tests" / "game-a.txt").read_text().splitlines()
    columns = zip(*((row[:16].strip(), row[16:]) for row in rows))
    return [as_lines(filter(None, column)) for column in columns]


def as_lines(rows):
    """Rows written with spaces, as the bytes of lines with tabs."""
    return "".join(row.replace(" ", "\t") + "\n" for row in rows).encode()


def lines_of(data):
    """The lines with their newlines. Only a newline ends one; bytes.splitlines would also part at a CR."""
    return re.findall(rb"[^\n]*\n|[^\n]+", data)


def chosen_seed():
    """The seed of this run: SEED to repeat one, or else the clock."""
    seed = int(os.environ.get("SEED") or time.time())
    print("seed", seed)
    return seed


def fail(*rows):
    for row in rows:
        print(row)
    sys.exit(1)


def cut_off(data, most=300):
    return repr(data if len(data) <= most else data[:most]) + ("" if len(data) <= most else " ... of %d bytes" % len(data))


def difference(wanted, got):
    """The first line in which two outputs differ."""
    ours, theirs = lines_of(wanted), lines_of(got)
    at = next((i for i, (a, b) in enumerate(zip(ours, theirs)) if a != b), min(len(ours), len(theirs)))
    return ["line %d of the output" % (at + 1),
            "  wanted " + cut_off(b"".join(ours[at:at + 1])),
            "  got    " + cut_off(b"".join(theirs[at:at + 1]))]


def shrunk(text, differs, tries=300):
    """A shorter text of whole lines for which differs(text) still holds: parts are left out, halves first."""
    lines = lines_of(text)
    part = len(lines) // 2
    while part and tries:
        at = 0
        while at < len(lines) and tries:
            tries -= 1
            rest = lines[:at] + lines[at + part:]
            if differs(b"".join(rest)):
                lines = rest
            else:
                at += part
        part //= 2
    return b"".join(lines)


# ------------------------------------------------------------- programs

PATIENCE = 20      # seconds after which a program that should have answered or ended counts as hanging


def runner(*command):
    """A way to run a text: the program's output for it."""
    return lambda text: subprocess.run(command, input=text, stdout=subprocess.PIPE, timeout=PATIENCE).stdout


def compare(what, text, wanted, run, model=None):
    """The output that this run of the text gives, which has to be the wanted one. With a model, which gives the wanted output
    of any text, a difference is also told of a short text."""
    try:
        got = run(text)
    except subprocess.TimeoutExpired:
        fail(what + ": the program does not end", cut_off(text, 2000))
    if got == wanted:
        return got
    rows = [what + ": the output differs", *difference(wanted, got)]
    if model:
        small = shrunk(text, lambda t: run(t) != model(t))
        rows += ["a short input that differs too:", cut_off(small, 2000), *difference(model(small), run(small))]
    fail(*rows)


def in_parts(program, parts):
    """A way to run a text: it goes into a pipe in the parts that parts(text) gives, with the pauses between them."""
    def run(text):
        process = subprocess.Popen([program], stdin=subprocess.PIPE, stdout=subprocess.PIPE, bufsize=0)
        try:
            for part, pause in parts(text):
                process.stdin.write(part)
                time.sleep(pause)
        except BrokenPipeError:                # the program has ended before
            pass
        try:
            return process.communicate(timeout=PATIENCE)[0]
        finally:
            process.kill()
    return run


def compare_in_parts(program, texts, model, rng):
    """Each of these texts, named, in parts of three sorts."""
    def single_bytes(text):                    # with pauses up to a load's `kinds`, since the program has first to start
        return ((text[i:i + 1], 0.001 * (i < 24)) for i in range(len(text)))

    def random_places(text):
        at = sorted(rng.sample(range(len(text) + 1), min(len(text), 30)))
        return ((text[a:b], 0.002) for a, b in zip([0] + at, at + [len(text)]))

    def line_ends(text):
        return ((line, 0.0005) for line in lines_of(text))

    for what, text in texts:
        for way in (single_bytes, random_places, line_ends):
            compare("%s, by %s" % (what, way.__name__), text, model(text), in_parts(program, way))


class Hall:
    """A hall that sends a program a line and waits for its answer."""

    def __init__(self, program, what, **how):
        self.what = what
        self.program = subprocess.Popen([program], stdin=subprocess.PIPE, stdout=subprocess.PIPE, bufsize=0, **how)

    @contextlib.contextmanager
    def patience(self, fault):
        """Ends a program that lets the hall wait too long."""
        def over(*_):
            self.program.kill()
            fail(self.what + ": " + fault)
        signal.signal(signal.SIGALRM, over)
        signal.alarm(PATIENCE)
        try:
            yield
        finally:
            signal.alarm(0)

    def send(self, lines):
        with self.patience("the program neither reads nor ends"):
            self.program.stdin.write(lines)

    def hears(self, wanted):
        got = b""
        with self.patience("no answer before the next line"):
            while len(got) < len(wanted):
                part = self.program.stdout.read(len(wanted) - len(got))
                if not part:
                    break
                got += part
        if got != wanted:
            fail(self.what, *difference(wanted, got))

    def ends(self):
        try:
            self.program.wait(timeout=PATIENCE)
        except subprocess.TimeoutExpired:
            self.program.kill()
            fail(self.what + ": the program does not end")
        if not self.program.stdout.closed and self.program.stdout.read():
            fail(self.what + ": there is more output")


REFUSED_LOADS = [as_lines(rows) for rows in (
    ["go"], ["game 2 2", "go"], ["game 2 0", "", "go"], ["game 2 0", "pay 512"], ["kinds 2"], ["game 2 0", "kinds 2", "kinds 2"],
    ["game 2 0", "kinds 65536"], ["game 2 0", "pay 0", "kinds 2"], ["game 2 0", "kinds 2", "pay 0 5"], ["game 2 0", "pay 0 2", "go"],
    ["game 2 0", "kinds 5", "go"], ["game 257 0", "kinds 2", "go"], ["short 1"], ["game 2 0", "pay 0", "move 0 0", "short 1", "go"])]


def ends_behind(program, what, text, wanted):
    """The program answers this text so and ends, with the input open."""
    hall = Hall(program, what + ", input open")
    hall.send(text)
    hall.hears(wanted)
    hall.ends()


def without_output(program, text):
    """Inputs and outputs that cannot be used: the program, started by a shell with them, ends and has no output."""
    for what, words in (("closed input", "<&-"), ("an input that cannot be read", "</"), ("an empty input", "</dev/null"),
                        ("closed output", ">&-"), ("an output without room", ">/dev/full")):
        compare(what, text, b"", runner("sh", "-c", 'exec "$0" ' + words, program))


def in_turn(seed, parts):
    """Each part of a script with its time. Those that draw take the seed."""
    for part in parts:
        began = time.time()
        part(*[seed] * part.__code__.co_argcount)
        print("%-14s %5.1f s" % (part.__name__, time.time() - began))
        sys.stdout.flush()


# ------------------------------------------------------------- tools

def built(*paths):
    """Fails where something is not built yet."""
    for path in paths:
        if not os.path.exists(path):
            fail(path + " is not there: tests/build monitor, tests/build desk, tests/build watch_c")


def need(name, *packages):
    """Installs packages of Debian where a command or a file is missing."""
    subprocess.run([ROOT / "tests" / "need", name, *packages], check=True)


def compile_c(source, folder, *options):
    """A C program of the tests with the archive, compiled."""
    need("gcc", "gcc", "libc6-dev")
    target = "%s/%s" % (folder, pathlib.Path(source).stem)
    subprocess.run(["gcc", "-Wall", "-Wextra", "-Werror", "-O2", "-I", ROOT / "include", ROOT / source, ARCHIVE, *options, "-o", target], check=True)
    return target


def case(text, sizes):
    """A text and the sizes of its outputs as tests/archive.c reads them."""
    return struct.pack("<%dI" % (2 + len(sizes)), len(text), len(sizes), *sizes) + text


def peak_stack(command, text, folder):
    """The most bytes of stack held at once, by valgrind's massif; and the output."""
    seen = folder + "/massif"
    run = subprocess.run(["valgrind", "--tool=massif", "--heap=no", "--stacks=yes", "--peak-inaccuracy=0.0", "--massif-out-file=" + seen,
                          *command], input=text, stdout=subprocess.PIPE, stderr=subprocess.DEVNULL)
    with open(seen) as file:
        return max(int(n) for n in re.findall(r"^mem_stacks_B=(\d+)$", file.read(), re.M)), run.stdout
