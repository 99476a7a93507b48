"""What the commands of tests/ share: paths, builds, running a program, generated lines, counting results."""

import os
import subprocess
import sys
from pathlib import Path

TESTS = Path(__file__).resolve().parent
REPOSITORY = TESTS.parent
BUILT = REPOSITORY / "target" / "tests"
CRATES = REPOSITORY / "crates"
# The programs, where rt leaves them once they are proved.
SERVICE = CRATES / "panel_service" / "out" / "panel_service"
SMALL_SERVICE = CRATES / "small_service" / "out" / "small_service"
# The right outputs of a panel with every request up to the newest that has landed.
VECTORS = REPOSITORY.parent / "shared" / "vectors" / "p07"
PAPER = REPOSITORY.parent / "shared" / "papers" / "01-scope.md"

KINDS = ["runs", "edges", "damaged", "mixed", "shows"]
# The gate's lines: every kind with each of these seeds, so many lines each.
GATE_SEEDS = [1, 2, 3]
GATE_COUNT = 20_000

# A program that has not ended after so many seconds is taken to hang.
PATIENCE = 120


class BuildFailed(Exception):
    pass


def build(name):
    """Builds `reference`, `generate` or `reference_tests` if it is missing or older than its sources."""
    reference, generate = TESTS / "reference", TESTS / "generate"
    main, options, folders = {
        "reference": (reference, [], [reference]),
        "reference_tests": (reference, ["--test"], [reference]),
        "generate": (generate, [], [generate, reference]),
    }[name]
    program = BUILT / name
    newest = max(source.stat().st_mtime for folder in folders for source in folder.glob("*.rs"))
    if program.exists() and program.stat().st_mtime > newest:
        return program
    BUILT.mkdir(parents=True, exist_ok=True)
    fresh = BUILT / f"{name}.{os.getpid()}"
    command = ["rustc", "-O", "--edition", "2021", *options, str(main / "main.rs"), "-o", str(fresh)]
    result = subprocess.run(command, capture_output=True, text=True)
    if result.returncode != 0:
        raise BuildFailed(f"{name}: {result.stderr}")
    fresh.replace(program)
    return program


class Outcome:
    """What a program did with an input: its replies, and what was wrong with it as a process, if anything."""

    def __init__(self, output, fault):
        self.output = output
        self.fault = fault

    def replies(self):
        replies = self.output.split(b"\n")
        return replies[:-1] if replies[-1] == b"" else replies


def run_program(program, data, arguments=(), patience=PATIENCE):
    """Runs a program over whole input."""
    try:
        result = subprocess.run([str(program), *arguments], input=data, capture_output=True, timeout=patience)
    except subprocess.TimeoutExpired as expired:
        return Outcome(expired.stdout or b"", f"did not end within {patience} s")
    fault = None if result.returncode == 0 else f"ended with status {result.returncode}"
    return Outcome(result.stdout, fault)


def generated(kind, seed, count):
    """COUNT lines of one kind, repeatable from the seed."""
    command = [str(build("generate")), kind, str(seed), str(count)]
    return subprocess.run(command, stdout=subprocess.PIPE, check=True).stdout


def vectors():
    """The inputs with right outputs beside the repository, as (name, input, output); none if the folder is absent."""
    inputs = sorted(VECTORS.glob("*.in")) if VECTORS.is_dir() else []
    return [(path.stem, path.read_bytes(), path.with_suffix(".out").read_bytes()) for path in inputs]


def split_lines(data):
    """The lines of an input, without their byte 10; no line begins behind the last byte 10."""
    lines = data.split(b"\n")
    return lines[:-1] if lines[-1] == b"" else lines


def escaped(line, longest=400):
    """A line as plain text; a long one is cut in the middle."""
    text = line.decode("latin-1").encode("unicode_escape").decode("ascii")
    if len(text) > longest:
        text = f"{text[:longest // 2]} .. {text[-longest // 2:]} ({len(line)} bytes)"
    return text


class Results:
    """Prints one line for each test and counts them."""

    def __init__(self):
        self.passed = 0
        self.failed = 0

    def report(self, name, why=None):
        """A test passed if `why` is empty."""
        if why:
            self.failed += 1
            print(f"FAILED {name}: {why}", flush=True)
        else:
            self.passed += 1
            print(f"ok {name}", flush=True)

    def finish(self):
        print(f"{self.passed} passed, {self.failed} failed", flush=True)
        sys.exit(1 if self.failed else 0)
