"""Every byte at every place of lines of up to 40 bytes, and runs and gaps of each length: codes 11 to 14 by the papers' patterns.
The service looks at eight bytes at a time, so that what stands last, or alone behind eights, must be looked at as all else."""

import re

import brackets
import differences
from support import run_program

LONGEST = 40
PANEL_BYTES = re.compile(rb"[a-z0-9() ]*")
RUN = re.compile(rb"[a-z0-9]+")
NUMBER = re.compile(rb"0|[1-9][0-9]{0,8}")


def check_places(results, name, program):
    """A program's replies to the lines below."""
    for what, lines in [("every byte at every place", every_byte()), ("runs and gaps of each length", every_length())]:
        data, right = (b"".join(text + b"\n" for text in texts) for texts in [lines, [reply(line) for line in lines]])
        outcome = run_program(program, data)
        why = None if outcome.output == right else differences.difference(data, right, outcome.output)
        results.report(f"{name}, {what}, {len(lines)} lines", why or outcome.fault)


def every_byte():
    """Each byte but the one that ends a line in the place of each byte of a form, of each length."""
    forms = [b"(" + b"x" * (length - 2) + b")" for length in range(2, LONGEST + 1)]
    others = [bytes([byte]) for byte in range(256) if byte != ord("\n")]
    return [form[:at] + other + form[at + 1:] for form in forms for at in range(len(form)) for other in others]


def every_length():
    """Two runs of each length, of letters and of digits, with a gap of each length between them, and what may follow the second."""
    runs = [letter * length for length in range(1, LONGEST // 2) for letter in (b"x", b"7", b"0")]
    gaps = [b" " * length for length in (0, 1, 2, 7, 8, 9, 15, 16, 17)]
    behind = [b")", b" )", b"(", b"A)", b"))", b""]
    return [b"(" + run + gap + b"y2" + last for run in runs for gap in gaps for last in behind]


def reply(line):
    """What the papers answer to a line that is none of their shapes."""
    if not PANEL_BYTES.fullmatch(line):
        return b"(answer 11)"
    if brackets.RIGHT(line):
        return b"(answer 12)"
    if any(run[:1].isdigit() and not NUMBER.fullmatch(run) for run in RUN.findall(line)):
        return b"(answer 13)"
    return b"(answer 14)"
