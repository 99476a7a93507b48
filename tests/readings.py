"""Document 01's readings that are not in the proved set, its worked run and its limits: the files of the crates
`readings` and `panel_service`, beside document 01 and the programs."""

import re
from collections import namedtuple

import differences
import process
import support
from support import run_program, split_lines

LINES, REPLIES = (support.CRATES / "readings" / name for name in ("stdin", "stdout"))
WORKED_LINES, WORKED_REPLIES = (support.CRATES / "panel_service" / name for name in ("stdin", "stdout"))
# The programs that run within document 01's limits of lines and bytes.
SERVICES = ["panel_service", "readings"]

Verdict = namedtuple("Verdict", "code gm diff upper area")

# A row for each judge of crates/readings/stdin, in order: document 01's words, and what its verdict shows of them.
# The last five are at 940 tonnes, with a righting arm of 0 at 12 degrees. There the heeling arm is
# 1,000 × W/940 × 18,800/20,000 = W, so that DIFF is the weight moments together, with a minus sign.
READINGS = [
    # By a level heeling arm, which is wrong, DIFF would be 367,103; measured past the angle of flooding, AREA would be
    # 2,625,265,867.
    ("(verdict 00 900000 368832 3500 2012606617)", lambda v: v == (0, 900_000, 368_832, 3_500, 2_012_606_617)),
    ("FLOOD 1 in the ship below gives UPPER 1", lambda v: v.upper == 1),
    ("GM 300,000 isn't code 40", lambda v: v.gm == 300_000 and v.code != 40),
    ("GM 300,000 isn't code 40; 299,999 is", lambda v: v.gm == 299_999 and v.code == 40),
    ("where DIFF is greatest at 0, UPPER is 0", lambda v: v.upper == 0),
    ("the total weight moment, 0 without holds", lambda v: v.diff == 0),
    ("The weight moments are 118,548", lambda v: v.diff == -118_548),
    ("The weight moments are 118,548 and 601,653", lambda v: v.diff == -601_653),
    # Volumes added before dividing, which is wrong, would give 720,200 here; in the last row, where hold 2 has the
    # stowage factor 10,000 and so the weight moment 752,066, they would give 720,200 or 900,250.
    ("With W the total weight moment", lambda v: v.diff == -(118_548 + 601_653)),
    ("adding volumes of holds with unlike stowage factors before dividing", lambda v: v.diff == -(118_548 + 752_066)),
]


def check_readings(results, name, program):
    """A program's replies to the readings' lines are the rows of crates/readings/stdout."""
    data, right = LINES.read_bytes(), REPLIES.read_bytes()
    outcome = run_program(program, data)
    why = None if outcome.output == right else differences.difference(data, right, outcome.output)
    results.report(f"{name} readings of document 01", why or outcome.fault)


def check_rows(results):
    """Each verdict in crates/readings/stdout shows what document 01 prints, and every other line is taken."""
    replies = [reply.decode().strip("()").split() for reply in split_lines(REPLIES.read_bytes())]
    others = {" ".join(reply) for reply in replies if reply[0] != "verdict"}
    verdicts = [Verdict(*(int(figure) for figure in reply[1:])) for reply in replies if reply[0] == "verdict"]
    why = f"{len(verdicts)} verdicts, and the others are {sorted(others)}"
    right = len(verdicts) == len(READINGS) and others == {"answer 00"}
    results.report(f"{len(READINGS)} verdicts of readings, and every other line taken", None if right else why)
    for place, ((words, is_shown), verdict) in enumerate(zip(READINGS, verdicts), start=1):
        results.report(f"reading {place}: {words}", None if is_shown(verdict) else f"the verdict is {verdict}")


def check_paper(results):
    """The crates' files against the text of document 01, where it stands beside the repository."""
    worked = (WORKED_LINES.read_bytes(), WORKED_REPLIES.read_bytes())
    right = worked == (process.WORKED_RUN, process.WORKED_REPLIES)
    results.report("panel_service runs the worked run", None if right else "not that of tests/process.py")
    if not support.PAPER.is_file():
        print(f"skipped document 01: there is no {support.PAPER}", flush=True)
        return
    paper = support.PAPER.read_text()
    right = worked == printed_run(paper)
    results.report("panel_service runs document 01's worked run whole", None if right else "not as it is printed there")
    missing = [words for words, _ in READINGS if words not in paper]
    results.report("document 01 prints the readings", f"not {missing}" if missing else None)
    limits = printed_limits(paper)
    for crate in SERVICES:
        served = program_limits(crate)
        why = None if limits and served == limits else f"{served} instead of {limits} lines and bytes"
        results.report(f"{crate} runs within document 01's limits", why)


def printed_run(paper):
    """The input and output of the worked run as document 01 prints them; None where they are not found."""
    lines = re.search(r"Panel service, whole input:\n\n```\n(.*?)```\n", paper, re.DOTALL)
    replies = re.search(r"Whole output: six lines `(.*?)`, then `(.*?)`\.", paper)
    if not lines or not replies:
        return None
    return lines[1].encode(), (6 * (replies[1] + "\n") + replies[2] + "\n").encode()


def printed_limits(paper):
    """The lines and bytes after which the service ends, as document 01 prints them; None where they are not found."""
    found = re.search(r"until it ends, or ([\d,]+) lines, or ([\d,]+) bytes; then it ends", paper)
    return found and tuple(int(number.replace(",", "")) for number in found.groups())


def program_limits(crate):
    """The same as crates/input names them, where the program of a crate hands these, and no others, to the service."""
    calls = re.findall(r"\bservice::serve\(([^;{}]*)\)", (support.CRATES / crate / "src" / "main.rt").read_text())
    if len(calls) != 1 or not re.search(r"(?:^|,)\s*input::most_lines\(\),\s*input::most_bytes\(\),?\s*$", calls[0]):
        return None
    named = (support.CRATES / "input" / "specs" / "Lines.antt").read_text()
    found = [re.search(rf"^{name} = (\d+)$", named, re.MULTILINE) for name in ("most_lines", "most_bytes")]
    return tuple(int(one[1]) for one in found) if all(found) else None
