"""Code 12 and its place in the order: lines with the replies that documents 01 and 02 give them, every short line of
brackets, and wrong readers, each of which these lines must tell from a right one."""

import itertools
import re

import differences
from support import escaped, run_program

HOLD = b"(hold 1 trimmed 12500 (part 10000 (void 10000 500 5000)))"
SPACED_HOLD = HOLD.replace(b"(", b"  (  ").replace(b")", b"  )  ")
# Five deep, where the hold is three deep.
DEEP_HOLD = HOLD.replace(b"5000)", b"((5000)))")
LONGEST = 2_000

# Lines that get 12, by what is wrong with them.
NOT_ONE_FORM = {
    "five deep, not behind the word show": [
        b"(((((a)))))", b"(judge (a (b (c (d)))))", b"(total(a(b(c(d)))))", b"  (  ship (a (b (c (d)))))  ",
        b"(a (b) (c (d (e (f)))))", b"(sho (a (b (c (d)))))", b"(shown (a (b (c (d)))))", b"(show1 (a (b (c (d)))))",
        b"(1show (a (b (c (d)))))", b"(sh ow (a (b (c (d)))))", b"(a show (b (c (d (e)))))", b"(() show (b (c (d (e)))))",
        b"((show (a (b (c)))))", b"(judge (show (a (b (c)))))", b"((((show))) (((((a))))))", DEEP_HOLD,
    ],
    "six deep behind the word show": [
        b"(show (a (b (c (d (e))))))", b"(show(((((a))))))", b"  (  show (a) (b (c (d (e (f))))))  ",
        b"(show (show (a (b (c (d))))))", b"(show " + DEEP_HOLD + b")",
    ],
    "a closing bracket too many": [
        b"(judge))", b"(judge) ) ", b"())", b"(show (judge)))", b"((((a)))))", b"(show (a (b (c (d))))))", HOLD + b")",
    ],
    "something behind the form": [
        b"(judge)x", b"(judge) x", b"(judge)1", b"(judge) 1", b"  (judge)  judge  ", b"(show (judge))x", b"(judge)(",
        HOLD + b"0",
    ],
    "two forms": [
        b"(judge)(judge)", b"(judge) (judge)", b"()()", b"(judge) ()", b"(show (judge)) (judge)", b"(judge) (show (judge))",
        b"(show (a (b (c (d))))) (judge)", b"(judge) (show (a (b (c (d)))))", b"(judge) (judge) (judge)", HOLD + HOLD,
    ],
    "a form that is not closed": [
        b"(judge", b"(judge ", b"((judge)", b"(show (judge)", b"(show (judge) ", b"((((a", b"(show (a (b (c (d))))",
        HOLD[:-1], HOLD[:-3],
    ],
    "something before the form": [
        b"x(judge)", b"x (judge)", b"1 (judge)", b")(judge)", b" ) (judge)", b"show(judge)", b"show (show (a (b (c (d)))))",
    ],
    "no form": [b"", b" ", b"   ", b"(", b")", b")(", b" ) ( ", b"((", b"))", b"())(", b"judge", b"1", b"show"],
    "many bytes": [
        2_000 * b" ", 2_000 * b"(", 2_000 * b")", 1_000 * b"(" + 1_000 * b")", 1_000 * b"()", 1_000 * b")(",
        b"((((" + 996 * b"()" + b"))))", b"(show((((" + 993 * b"()" + b")))))", b"(judge" + 1_994 * b" ",
        b"(judge)" + 1_992 * b" " + b")",
    ],
}

# Lines that are one form, no deeper than they may be, with their replies.
ONE_FORM = [
    (b"(judge)", b"(verdict 30)"),
    (b"   (  judge  )   ", b"(verdict 30)"),
    (b"()", b"(answer 14)"),
    (b"((((a))))", b"(answer 14)"),
    (b"  (  (  (  (  a  )  )  )  )  ", b"(answer 14)"),
    (b"(judge (a (b (c))))", b"(answer 14)"),
    (b"(shown (a (b (c))))", b"(answer 14)"),
    (b"(()()()()()()())", b"(answer 14)"),
    (b"(a (b) (c (d (e) (f)) (g)) (h (i)) (j))", b"(answer 14)"),
    (b"(show (a (b (c (d)))))", b"(answer 14)"),
    (b"(show((((a)))))", b"(answer 14)"),
    (b"  (  show  (  a  (  b  (  c  (  d  )  )  )  )  )  ", b"(answer 14)"),
    (b"(show (a (b (c (d)))) (e (f (g (h)))))", b"(answer 14)"),
    (b"(show a (b (c (d (e)))))", b"(answer 14)"),
    (b"(show (show (a (b (c)))))", b"(answer 14)"),
    (b"(show (judge))", b"(judge)"),
    (b"(show" + HOLD + b")", HOLD),
    (b"  (  show (hold 1 trimmed 12500 (part 10000 (void 10000 500 5000))))  ", HOLD),
    (b"  (  show" + SPACED_HOLD + b")  ", HOLD),
    (HOLD, b"(answer 00)"),
    (SPACED_HOLD, b"(answer 00)"),
    (b"(" + 999 * b"()" + b")", b"(answer 14)"),
    (b"(((" + 997 * b"()" + b")))", b"(answer 14)"),
    (b"(show(((" + 994 * b"()" + b"))))", b"(answer 14)"),
    (1_000 * b" " + b"(judge)" + 993 * b" ", b"(verdict 30)"),
]

# 12 comes behind 10 and 11, and before 13.
ORDER = {
    b"(answer 10)": [
        2_001 * b"(", 2_001 * b" ", b"A" + 2_000 * b"(", 1_000 * b"(" + 1_001 * b")", b"(judge)" + 1_993 * b" " + b")",
    ],
    b"(answer 11)": [
        b"(((((A)))))", b"(show (((((A))))))", b"(judge))A", b"A(judge)", b"(judge\t", b"(judge) (Judge)", 1_999 * b"(" + b"A",
    ],
    b"(answer 12)": [
        b"(((((01)))))", b"(show (((((01))))))", b"(drop 01))", b"(drop 01", b"(drop 1)01", b"01(drop 1)", b"01",
    ],
    b"(answer 13)": [b"((((01))))", b"(show ((((01)))))", b"(drop 01)", b"(1show (a (b (c))))"],
}

# Short lines: all of so many bytes of these, and all brackets behind each of these beginnings. No words of theirs make a
# shape, and they have no numbers: a line that is one form gets 14.
SHORT = [(b"()", 14), (b"() a", 6)]
BEGINNINGS = [b"(show", b" ( show ", b"(sho", b"(shown", b"(show1", b"(a show", b"((show", b"(()show"]
MOST_BEHIND = 11

SHOW = re.compile(rb" *\( *show(?![a-z0-9])")
PANEL_BYTES = re.compile(rb"[() a-z0-9]*")
# A run that begins with a digit and is not a number.
BAD_NUMBER = re.compile(rb"(?<![a-z0-9])(?:0[a-z0-9]|[0-9]+[a-z]|[0-9]{10})")


def check_brackets(results, name, program):
    """A program's replies to the lines above, and to every short line."""
    for what, turns in given() + [("short lines", short())]:
        data, right = (b"".join(text + b"\n" for text in texts) for texts in zip(*turns))
        outcome = run_program(program, data)
        why = None if outcome.output == right else differences.difference(data, right, outcome.output)
        results.report(f"{name} brackets, {what}, {len(turns)} lines", why or outcome.fault)


def check_brackets_told(results):
    """The lines above tell each wrong reader from the right one, which gives 12 just where they say so."""
    turns = [turn for _, some in given() for turn in some]
    unlike = [line for line, reply in turns if RIGHT(line) != (reply == b"(answer 12)")]
    results.report("brackets by the papers' pattern", f"not {escaped(unlike[0])}" if unlike else None)
    for what, gets_12 in WRONG.items():
        told = any(gets_12(line) != (reply == b"(answer 12)") for line, reply in turns)
        results.report(f"brackets, {what}, gives other replies", None if told else "to no line")


def given():
    """The lines above with their replies, parted as they stand there."""
    refused = [(what, [(line, b"(answer 12)") for line in lines]) for what, lines in NOT_ONE_FORM.items()]
    order = [(line, reply) for reply, lines in ORDER.items() for line in lines]
    return refused + [("one form", ONE_FORM), ("12 in its place", order)]


def short():
    """Every short line, with its reply."""
    lines = [line for letters, most in SHORT for line in up_to(letters, most)]
    lines += [begins + behind for begins in BEGINNINGS for behind in up_to(b"()", MOST_BEHIND)]
    return [(line, b"(answer 12)" if RIGHT(line) else b"(answer 14)") for line in lines]


def up_to(letters, most):
    """Every line of these bytes, up to so many."""
    return [bytes(line) for count in range(most + 1) for line in itertools.product(letters, repeat=count)]


def passes_10_and_11(line):
    return len(line) <= LONGEST and PANEL_BYTES.fullmatch(line) is not None


def reader(elsewhere=4, in_show=5, frame=rb" *%b *", close=rb"\)", is_tested=passes_10_and_11):
    """A reader that says of a line whether it gets 12: how deep forms may be, how the form stands in the line, how forms are
    closed, and which lines are tested for 12. Where nothing else is said, as in the papers."""
    patterns = {deep: re.compile(frame.replace(b"%b", form(deep, close))) for deep in (elsewhere, in_show)}

    def gets_12(line):
        return is_tested(line) and not patterns[in_show if SHOW.match(line) else elsewhere].fullmatch(line)

    return gets_12


def form(deep, close):
    """How a form looks that is nested at most so deep."""
    inner = rb"[a-z0-9 ]"
    for _ in range(deep):
        whole = rb"\((?:" + inner + rb")*" + close
        inner = rb"[a-z0-9 ]|" + whole
    return whole


RIGHT = reader()
WRONG = {
    "five deep taken behind any word": reader(elsewhere=5),
    "six deep taken behind show": reader(in_show=6),
    "four deep refused": reader(elsewhere=3),
    "five deep refused behind show": reader(in_show=4),
    "a closing bracket too many taken": reader(frame=rb" *%b *\)? *"),
    "words behind the form taken": reader(frame=rb" *%b[a-z ]*"),
    "numbers behind the form taken": reader(frame=rb" *%b[0-9 ]*"),
    "a second form taken": reader(frame=rb" *%b *(?:%b *)?"),
    "a second form taken, parted by a space": reader(frame=rb" *%b *(?: %b *)?"),
    "an unclosed form taken": reader(close=rb"(?:\)|\Z)"),
    "words before the form taken": reader(frame=rb"[a-z ]*%b *"),
    "numbers before the form taken": reader(frame=rb"[0-9 ]*%b *"),
    "a closing bracket before the form taken": reader(frame=rb"[) ]*%b *"),
    "an empty line taken": reader(frame=rb"(?: *%b *)?"),
    "spaces alone taken": reader(frame=rb" *%b *| +"),
    "spaces before the form refused": reader(frame=rb"%b *"),
    "spaces behind the form refused": reader(frame=rb" *%b"),
    "12 tested before 10": reader(is_tested=lambda line: PANEL_BYTES.fullmatch(line) is not None),
    "12 tested before 11": reader(is_tested=lambda line: len(line) <= LONGEST),
    "12 tested behind 13": reader(is_tested=lambda line: passes_10_and_11(line) and not BAD_NUMBER.search(line)),
}
