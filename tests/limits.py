"""The service's two limits: a service of three lines and 64 bytes beside the reference with the same limits."""

import itertools

import process
import support
from support import escaped, run_program

LINES, BYTES = 3, 64

# Short inputs are made of these, up to four one behind the other.
PIECES = [b"x", b"\n", b"(judge)\n"]
MOST_PIECES = 4
# Long inputs: what stands in front, a line that is filled up to a length next to the limit, and what comes behind.
FRONTS = [b"", b"\n", b"x\n", b"(judge)\n", b"\n\n", b"(judge)\n(judge)\n", b"\n\n\n"]
FILLED = [(b"", b"x"), (b"(judge)", b" ")]
LENGTHS = range(BYTES - 2, BYTES + 3)
BEHIND = [b"", b"\n", b"x", b"\nx", b"\n(judge)\n"]


def inputs():
    """Every short input, and every long one, once."""
    short = [b"".join(pieces) for count in range(MOST_PIECES + 1) for pieces in itertools.product(PIECES, repeat=count)]
    long = [
        (front + begun).ljust(length, filler) + behind
        for front, (begun, filler), length, behind in itertools.product(FRONTS, FILLED, LENGTHS, BEHIND)
    ]
    return list(dict.fromkeys(short + long))


def allowed(lines=LINES, most=BYTES):
    """The reference's arguments for these limits."""
    return ["--max-lines", str(lines), "--max-bytes", str(most)]


def ends_by_itself(data):
    """Whether a limit ends the service, with the input still open. Where a line has begun at the last byte allowed, the
    byte behind it or the end of the input has to tell."""
    if len(data) > BYTES or data[:BYTES].count(b"\n") >= LINES:
        return True
    return len(data) == BYTES and data.endswith(b"\n")


def answered():
    """Each input with the reference's replies within the limits."""
    reference = support.build("reference")
    return [(data, run_program(reference, data, allowed()).output) for data in inputs()]


def check_limits(results, name, program, cases):
    """Each input whole, byte by byte, and, where a limit ends the service, with the input left open behind it."""
    open_cases = [(data, right) for data, right in cases if ends_by_itself(data)]
    for what, some, feed in [
        ("whole", cases, whole),
        ("in pieces of one byte", cases, byte_by_byte),
        ("left open", open_cases, left_open),
    ]:
        results.report(f"{name} limits, {len(some)} inputs {what}", first_wrong(program, some, feed))


def check_limits_told(results, cases):
    """Whether some input has other replies where a limit is one lower or one higher, by the reference."""
    reference = support.build("reference")
    for lines, most in [(LINES - 1, BYTES), (LINES + 1, BYTES), (LINES, BYTES - 1), (LINES, BYTES + 1)]:
        told = any(run_program(reference, data, allowed(lines, most)).output != right for data, right in cases)
        results.report(f"limits of {lines} lines and {most} bytes give other replies", None if told else "to no input")


def first_wrong(program, cases, feed):
    """What is wrong with the first input that gets other replies than the right ones."""
    for data, right in cases:
        why = feed(program, data, right)
        if why:
            return f"{escaped(data)}: {why}"
    return None


def whole(program, data, right):
    return process.wrong(run_program(program, data, patience=process.PATIENCE), right)


def byte_by_byte(program, data, right):
    return process.in_pieces(program, data, right, 1)


def left_open(program, data, right):
    talk = process.Talk(program)
    talk.send(data)
    talk.wait_for_end()
    talk.finish()
    return talk.wrong(right)
