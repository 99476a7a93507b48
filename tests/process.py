"""A program of the panel as a process: how input comes in, how replies go out, how it ends."""

import os
import re
import socket
import subprocess
import threading
from pathlib import Path

from support import REPOSITORY, Outcome, escaped, run_program

WORKED_RUN = b"""(ship new 1430 3500)
(column 20000 9000 (0 870 1740 2080 2600 3450 4300 5100 5850 6500))
(column 30000 9000 (0 870 1740 2080 2600 3450 4300 5100 5850 6500))
(load 25000 8000 100)
(hold 1 trimmed 12500 (part 10000 (void 10000 500 5000)))
(hold 2 partial 12500 (part 10000 12000 3000 6000))
(judge)
"""
WORKED_REPLIES = b"(answer 00)\n" * 6 + b"(verdict 00 900000 368832 3500 2012606617)\n"

# Seconds after which a process that should have replied or ended is taken to hang.
PATIENCE = 20
# Bytes of the longest line sent, and kilobytes of memory that a program may use for it: far less than the line.
LONG_LINE = 100_000_000
MOST_MEMORY = 10_000


def check_process(results, name, program):
    for what, data, right in INPUTS:
        results.report(f"{name} {what}", wrong(run_program(program, data, patience=PATIENCE), right))
    results.report(f"{name} input in pieces of one byte", in_pieces(program, WORKED_RUN, WORKED_REPLIES, 1))
    many = (b"(clear)\n" + WORKED_RUN) * 2_000
    replies = (b"(answer 00)\n" + WORKED_REPLIES) * 2_000
    results.report(f"{name} input in pieces of 64 KiB", in_pieces(program, many, replies, 65_536))
    results.report(f"{name} line of {LONG_LINE} bytes", long_line(program))
    results.report(f"{name} replies before it waits for more", replies_at_once(program))
    results.report(f"{name} ends when its output is closed", failing_output(program, closed_pipe()))
    results.report(f"{name} ends when its output is full", failing_output(program, full_device()))


def check_failures(results, name, program):
    """Input and output that fail: the service ends with status 0 and says nothing, and a line that has begun is taken as
    at the end of the input. The reference ends with status 1 and a message, and leaves such a line."""
    for what, source, right in [
        ("a folder as input", os.open(REPOSITORY, os.O_RDONLY), b""),
        ("input that fails at once", failing_input(b""), b""),
        ("input that fails behind a line", failing_input(b"(judge)\n"), b"(verdict 30)\n"),
        ("input that fails before byte 10", failing_input(b"(judge)"), b"(verdict 30)\n"),
        ("input that fails inside a form", failing_input(b"(judge)\n(jud"), b"(verdict 30)\n(answer 12)\n"),
    ]:
        results.report(f"{name} {what}", wrong(run_on(program, source), right))
    for what, output in [("full", full_device()), ("closed", closed_pipe())]:
        worked = os.open(REPOSITORY / "examples" / "worked.in", os.O_RDONLY)
        results.report(f"{name} {what} output, nothing said", wrong(run_on(program, worked, output), b""))


def check_reference_limits(results, program):
    """The service's two limits at small numbers, which only the reference takes as arguments."""
    cases = [
        (["--max-lines", "0"], b""),
        (["--max-lines", "1"], b"(answer 00)\n"),
        (["--max-lines", "2"], b"(answer 00)\n(verdict 30)\n"),
        (["--max-bytes", "7"], b""),
        (["--max-bytes", "8"], b"(answer 00)\n"),
        (["--max-bytes", "15"], b"(answer 00)\n"),
        (["--max-bytes", "16"], b"(answer 00)\n(verdict 30)\n"),
        (["--max-bytes", "17"], b"(answer 00)\n(verdict 30)\n"),
        (["--max-bytes", "18"], b"(answer 00)\n(verdict 30)\n(answer 14)\n"),
        (["--max-bytes", "18", "--max-lines", "2"], b"(answer 00)\n(verdict 30)\n"),
    ]
    for arguments, right in cases:
        outcome = run_program(program, b"(clear)\n(judge)\n()", arguments, PATIENCE)
        results.report(f"reference {' '.join(arguments)}", wrong(outcome, right))


def wrong(outcome, right):
    if outcome.fault or outcome.output == right:
        return outcome.fault
    return f"{escaped(outcome.output)} instead of {escaped(right)}"


def every_byte_value():
    """Each byte value inside a form; byte 10 ends the line there."""
    data, right = b"", b""
    for value in range(256):
        data += b"(a " + bytes([value]) + b")\n"
        if value == 10:
            right += b"(answer 12)\n(answer 12)\n"
        elif chr(value) in "()":
            right += b"(answer 12)\n"
        elif chr(value) in " abcdefghijklmnopqrstuvwxyz0123456789":
            right += b"(answer 14)\n"
        else:
            right += b"(answer 11)\n"
    return data, right


def longest_show():
    """A show line of 2,000 bytes around a hold with 54 inner forms and no free space, and its reply, the longest there is:
    2,049 bytes with byte 10."""
    cell = b"(wing 99999999 99999999 9999999 9999999)"
    reply = b"(hold 99 trimmed 99 " + b" ".join([b"(part 99 " + b" ".join([cell] * 8) + b")"] * 6) + b")\n"
    line = b"(show" + reply[:-1].replace(b" (", b"(") + b")\n"
    assert (len(line), len(reply)) == (2_001, 2_049)
    return line, reply


def longest_shows():
    """The longest replies with more and more short ones between them, so that they come wherever an output is nearly
    full."""
    line, reply = longest_show()
    counts = range(170)
    data = b"".join(count * b"(judge)\n" + line for count in counts)
    return data, b"".join(count * b"(verdict 30)\n" + reply for count in counts)


def totals():
    """A total behind each change of the holds, up to sixteen of the heaviest, and behind lines that change none."""
    hold_1, hold_2 = WORKED_RUN.splitlines()[4:6]
    heaviest = b"(part 60000 40000 9322 30000)" * 6
    turns = [
        (b"(drop 1)", 24, 0),
        (hold_1, 0, 118_548),
        (hold_2, 0, 118_548 + 601_653),
        (hold_2.replace(b"12500", b"10000"), 0, 118_548 + 752_066),
        (b"(drop 1)", 0, 752_066),
        (b"(drop 2)", 0, 0),
        *[(b"(hold %d partial 5000 %s)" % (n, heaviest), 0, n * 2_005_605_182) for n in range(1, 17)],
        (b"(clear)", 0, 0),
        (hold_1, 0, 118_548),
        (hold_1.replace(b"12500", b"4999"), 20, 118_548),
        (hold_1.replace(b"5000)", b"1)"), 21, 118_548),
        (b"(drop 2)", 24, 118_548),
        (b"(total 1)", 14, 118_548),
        (b"(show (total))", 14, 118_548),
        (b"(total (a (b (c (d)))))", 12, 118_548),
    ]
    data = b"".join(line + b"\n ( total ) \n(total)\n" for line, _, _ in turns)
    return data, b"".join(b"(answer %02d)\n" % code + b"(answer 00 %d)\n" % total * 2 for _, code, total in turns)


def splits():
    """A total behind each hold with splits: a board with and without effect and as long as the part, beside parts, six of
    the heaviest, and what is turned down."""
    split, uncut = b"(hold 1 partial 12500 (split 20000 %d 6000 6000))", 1_203_304
    turns = [
        (split % 10_000, 0, 829_453),
        (b"(hold 2 partial 12500 (part 20000 12000 600 6000))", 0, 829_453 + 535_149),
        (b"(hold 3 partial 12500 (part 20000 12000 30000 30000))", 0, 829_453 + 535_149 + uncut),
        (b"(drop 2)", 0, 829_453 + uncut),
        (b"(drop 3)", 0, 829_453),
        *[(split % run, 0, uncut) for run in (1, 1_714, 1_715)],
        (split % 1_716, 0, 1_203_260),
        (split % 20_000, 0, 378_215),
        *[(split % run, 20, 378_215) for run in (0, 20_001, 65_536 + 10_000, 999_999_999)],
        (b"(hold 1 partial 12500 (split 60001 10000 6000 6000))", 20, 378_215),
        (b"(hold 1 partial 12500 (split 20000 10000 0 6000))", 20, 378_215),
        (b"(hold 1 partial 12500 (split 20000 10000 6000 34001))", 20, 378_215),
        (b"(hold 1 partial 12500 (split 20000 10000 65535 1))", 20, 378_215),
        (b"(hold 1 partial 12500 (split 20000 10000 40000 25537))", 20, 378_215),
        *[(split.replace(b"partial", mode) % 10_000, 14, 378_215) for mode in (b"trimmed", b"voided")],
        (b"(hold 1 partial 12500 (split 20000 10000 6000))", 14, 378_215),
        (b"(hold 1 partial 12500 (split 20000 10000 6000 6000 6000))", 14, 378_215),
        (b"(hold 1 partial 12500 %s)" % (7 * b"(split 1 1 1 1)"), 14, 378_215),
        (b"(split 20000 10000 6000 6000)", 14, 378_215),
        (b"(show (split 20000 10000 6000 6000))", 14, 378_215),
        (b"(hold 1 partial 12500 (part 20000 12000 600 6000) (split 20000 10000 6000 6000))", 0, 1_364_602),
        (b"(hold 1 partial 5000 %s)" % (6 * b"(split 60000 1 1 39999)"), 0, 2_005_506_062),
        (b"(hold 1 partial 40000 %s)" % (6 * b"(split 1 1 1 1)"), 0, 2),
        (b"(clear)", 0, 0),
    ]
    data = b"".join(line + b"\n(total)\n" for line, _, _ in turns)
    return data, b"".join(b"(answer %02d)\n(answer 00 %d)\n" % (code, total) for _, code, total in turns)


# Columns between which GM tells D and DIFF tells KG: KM is 1 mm for each tonne up to 50,000 t, and falls by 0.1 mm for each
# beyond. With KN 0 throughout, UPPER and AREA are 0.
WEIGHED_SHIP = b"(ship old 9000 9000)\n" + b"".join(
    b"(column %d %d (0 0 0 0 0 0 0 0 0 0))\n" % column for column in [(100, 100), (50_000, 50_000), (400_000, 15_000)])


def verdict_of(d, kg):
    """The judge's reply to a load of these, with FS 0, under these columns."""
    km = 1_000 * d if d <= 50_000 else 50_000_000 - 100 * (d - 50_000)
    gm, arm = km - 1_000 * kg, -(-kg * 207_912 // 1_000)
    return b"(verdict %d %d %d 0 0)\n" % (40 if gm < 300_000 else 41, gm, -arm)


def weighings():
    """A weighed line and a judge behind each line that adds or removes items, or is turned down or concerns none. Each
    line has its code and the tonnes and products together behind it."""
    turns = [
        (b"(unweigh)", 0, 0, 0),
        (b"(weight 99 0)", 0, 99, 0),
        (b"(weight 1 0)", 0, 100, 0),
        (b"(weight 1 101)", 0, 101, 101),
        (b"(weight 1 1)", 0, 102, 102),
        (b"(weight 1 2)", 0, 103, 104),
        (b"(weight 399998 50000)", 26, 103, 104),
        (b"(weight 399898 50001)", 20, 103, 104),
        (b"(weight 0 50000)", 20, 103, 104),
        (b"(weight 1)", 14, 103, 104),
        (b"(weight 007 1)", 13, 103, 104),
        (b"(show (unweigh))", 14, 103, 104),
        (b"(unweigh 1)", 14, 103, 104),
        (b"(unweigh", 12, 103, 104),
        (b"(load 25000 8000 100)", 0, 103, 104),
        (b"(hold 2 trimmed 12500 (part 1 (void 1 0 0)))", 0, 103, 104),
        (b"(drop 2)", 0, 103, 104),
        (b"(ship old 9000 9000)", 0, 103, 104),
        (b"(column 399999 1 (0 0 0 0 0 0 0 0 0 0))", 22, 103, 104),
        (b"(weighed 10001)", 20, 103, 104),
        (b"(weight 49896 50000)", 0, 49_999, 104 + 49_896 * 50_000),
        (b"(weight 350000 50000)", 0, 399_999, 104 + 399_896 * 50_000),
        (b"(weight 2 0)", 26, 399_999, 104 + 399_896 * 50_000),
        (b"(weight 1 0)", 0, 400_000, 104 + 399_896 * 50_000),
        (b"(weight 1 0)", 26, 400_000, 104 + 399_896 * 50_000),
        (b"(unweigh)", 0, 0, 0),
        (b"(weight 400000 50000)", 0, 400_000, 400_000 * 50_000),
        (b"(clear)\n" + WEIGHED_SHIP[:-1], 0, 0, 0),
        (b"(weight 400000 1)", 0, 400_000, 400_000),
    ]
    data, right, load = WEIGHED_SHIP, b"(answer 00)\n" * 4, None
    for line, code, tonnes, products in turns:
        data += line + b"\n ( weighed 0 ) \n(judge)\n"
        right += b"(answer %02d)\n" % code * (1 + line.count(b"\n"))
        if tonnes >= 100:
            load = verdict_of(tonnes, max(1, -(-products // tonnes)))
        elif line.startswith(b"(clear)"):
            load = None
        right += b"(answer %02d)\n" % (0 if tonnes >= 100 else 27) + (load or b"(verdict 32)\n")
    return data, right


def many_items():
    """As many items of 16 tonnes as there may be, each at a height of its own; then one too many."""
    heights = range(0, 50_000, 2)
    data = WEIGHED_SHIP + b"".join(b"(weight 16 %d)\n" % height for height in heights)
    right = b"(answer 00)\n" * (4 + len(heights)) + b"(answer 26)\n(answer 00)\n" + verdict_of(400_000, 24_999)
    return data + b"(weight 1 0)\n(weighed 0)\n(judge)\n", right


INPUTS = [
    ("worked run", WORKED_RUN, WORKED_REPLIES),
    ("worked run without a final byte 10", WORKED_RUN[:-1], WORKED_REPLIES),
    ("empty input", b"", b""),
    ("one empty line", b"\n", b"(answer 12)\n"),
    ("two empty lines", b"\n\n", b"(answer 12)\n(answer 12)\n"),
    ("a space without byte 10", b" ", b"(answer 12)\n"),
    ("line of 2,000 bytes", b"(judge)" + b" " * 1_993 + b"\n", b"(verdict 30)\n"),
    ("line of 2,000 bytes without byte 10", b"(judge)" + b" " * 1_993, b"(verdict 30)\n"),
    ("line of 2,001 bytes", b"(judge)" + b" " * 1_994 + b"\n(judge)\n", b"(answer 10)\n(verdict 30)\n"),
    ("line of 2,001 bytes without byte 10", b"(judge)" + b" " * 1_994, b"(answer 10)\n"),
    ("lines ended by carriage returns", b"(judge)\r\n(judge)\r", b"(answer 11)\n(answer 11)\n"),
    ("every byte value", *every_byte_value()),
    ("the longest reply of show", *longest_show()),
    ("many of the longest replies of show", *longest_shows()),
    ("totals", *totals()),
    ("splits", *splits()),
    ("weighings", *weighings()),
    ("many items", *many_items()),
    ("show lines between judges", b"(judge)\n(judge)\n(show(judge))\n" * 100_000,
     b"(verdict 30)\n(verdict 30)\n(judge)\n" * 100_000),
]


class Talk:
    """A running program. Its replies are read all the time, so that neither side waits for the other for ever, and it
    is ended if it takes too long. With `packets` each read gets the bytes of just one send."""

    def __init__(self, program, packets=False):
        reading, writing = os.pipe2(os.O_CLOEXEC | (os.O_DIRECT if packets else 0))
        self.process = subprocess.Popen(
            [str(program)], stdin=reading, stdout=subprocess.PIPE, stderr=subprocess.DEVNULL, bufsize=0)
        os.close(reading)
        self.input = open(writing, "wb", buffering=0)
        self.output = bytearray()
        self.late = False
        self.changed = threading.Condition()
        self.reader = threading.Thread(target=self._read)
        self.reader.start()
        self.watch = threading.Timer(PATIENCE, self._give_up)
        self.watch.start()

    def _read(self):
        while piece := self.process.stdout.read(65_536):
            with self.changed:
                self.output += piece
                self.changed.notify()

    def _give_up(self):
        self.late = True
        self.process.kill()

    def send(self, data):
        """Sends bytes; a program that has ended does not take them, and its output will tell."""
        try:
            self.input.write(data)
        except BrokenPipeError:
            pass

    def wait_for(self, length):
        """Waits until the output has so many bytes or time is up."""
        with self.changed:
            self.changed.wait_for(lambda: len(self.output) >= length, PATIENCE)

    def wait_for_end(self):
        """Waits, with the input still open, until the program has ended or time is up."""
        self.reader.join()

    def memory(self):
        """The most memory that the program has had so far, in kilobytes; 0 if it has ended. (What the system tells behind
        its end counts this process's own memory too, from before the program was started in its place.)"""
        status = Path(f"/proc/{self.process.pid}/status")
        told = re.search(r"^VmHWM:\s+(\d+) kB$", status.read_text(), re.MULTILINE) if status.exists() else None
        return int(told[1]) if told else 0

    def finish(self):
        """Closes the input and waits for the end."""
        self.input.close()
        self.reader.join()
        self.process.stdout.close()
        self.process.wait()
        self.watch.cancel()

    def wrong(self, right):
        """What was wrong with the talk, if anything, when this output is right."""
        if self.late:
            return f"did not end within {PATIENCE} s"
        if self.output != right:
            return f"{escaped(self.output)} instead of {escaped(right)}"
        return f"ended with status {self.process.returncode}" if self.process.returncode else None


def in_pieces(program, data, right, size):
    """Sends an input in pieces of this size; pieces of one byte are read one by one, however slow the program is."""
    talk = Talk(program, packets=size == 1)
    for place in range(0, len(data), size):
        talk.send(data[place:place + size])
    talk.finish()
    return talk.wrong(right)


def replies_at_once(program):
    """Sends line after line, each only when the reply to the one before is there."""
    talk = Talk(program)
    expected = b""
    for line, reply in zip(WORKED_RUN.splitlines(True), WORKED_REPLIES.splitlines(True)):
        talk.send(line)
        expected += reply
        talk.wait_for(len(expected))
        if talk.output != expected:
            talk.finish()
            return f"no reply, or a wrong one, before more input: {escaped(line)}"
    talk.finish()
    return talk.wrong(expected)


def long_line(program):
    """A line far above 2,000 bytes gets code 10 without being kept whole, and the next line is taken."""
    talk = Talk(program)
    piece = b"(judge) " * 12_500
    for _ in range(LONG_LINE // len(piece)):
        talk.send(piece)
    talk.send(b"\n(judge)\n")
    right = b"(answer 10)\n(verdict 30)\n"
    talk.wait_for(len(right))
    memory = talk.memory()
    talk.finish()
    why = talk.wrong(right)
    return why or (f"used {memory} KB of memory" if memory > MOST_MEMORY else None)


def failing_output(program, output):
    """The replies cannot be written: the program must end by itself, whatever its status, while its input is open."""
    process = subprocess.Popen(
        [str(program)], stdin=subprocess.PIPE, stdout=output, stderr=subprocess.DEVNULL, bufsize=0)
    os.close(output)
    watch = threading.Timer(PATIENCE, process.kill)
    watch.start()
    try:
        for _ in range(200):
            process.stdin.write(b"(judge)\n" * 1_000)
    except BrokenPipeError:
        pass
    process.wait()
    process.stdin.close()
    ended_by_itself = watch.is_alive()
    watch.cancel()
    return None if ended_by_itself else f"did not end within {PATIENCE} s"


def closed_pipe():
    """An output whose reading end is closed."""
    reading, writing = os.pipe()
    os.close(reading)
    return writing


def full_device():
    """An output on which every write fails."""
    return os.open("/dev/full", os.O_WRONLY)


def failing_input(sent):
    """An input that brings these bytes, and behind them fails: its other end was closed with a byte unread."""
    near, far = socket.socketpair()
    near.send(b"x")
    far.send(sent)
    far.close()
    return near.detach()


def run_on(program, source, output=subprocess.PIPE):
    """Runs a program on an input that is open, and closes it. A message of the program is a fault, as is its status."""
    process = subprocess.Popen([str(program)], stdin=source, stdout=output, stderr=subprocess.PIPE)
    for opened in {source, output} - {subprocess.PIPE}:
        os.close(opened)
    try:
        replies, said = process.communicate(timeout=PATIENCE)
    except subprocess.TimeoutExpired:
        process.kill()
        replies, said = process.communicate()
        return Outcome(replies or b"", f"did not end within {PATIENCE} s")
    silent = process.returncode == 0 and not said
    return Outcome(replies or b"", None if silent else f"ended with status {process.returncode} {escaped(said)}")
