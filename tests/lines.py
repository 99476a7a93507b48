"""What a line and its reply are, as the coverage of the generated lines reads them: words, numbers, depth, code."""

import re

# The first word of the outer form, and the number behind it.
FORM = re.compile(rb" *\( *([a-z]+)(?![a-z0-9])(?: +(\d{1,9})(?!\d))?")
NUMBER = re.compile(rb"\d+")
# A part of a partial hold, of either sort; and such a hold, also where it is shown.
PARTIAL_PART = rb"\( *(?:part|split)(?: +\d+){4} *\)"
PARTIAL_HOLD = re.compile(rb" *(?:\( *show *)?\( *hold +(\d+) +partial +(\d+) *((?:" + PARTIAL_PART + rb" *){1,6})\)")
WORD_AND_NUMBERS = re.compile(rb"(part|split) +(\d+) +(\d+) +(\d+) +(\d+)")


def is_shown(reply):
    """Whether a reply is a form that was shown: every other one begins with one of two words."""
    return not reply.startswith((b"(answer ", b"(verdict "))


def code_of(reply):
    """The code that the caller gets with a reply."""
    return "00" if is_shown(reply) else reply.decode().strip("()").split()[1]


def first_word(line):
    return line.strip(b" (").split(b" ")[0].split(b"(")[0].strip(b")").decode("latin-1")


def word_and_number(line):
    """The first item of the outer form, if it is a word, and the number behind it, if there is one."""
    form = FORM.match(line)
    return (form[1].decode(), int(form[2]) if form[2] else None) if form else (None, None)


def numbers(line):
    """All numbers of a line that has none but sound ones."""
    return [int(number) for number in NUMBER.findall(line)]


def partial_hold(line):
    """Number, stowage factor and parts of a partial hold, each part with its word and four numbers; None of another line."""
    hold = PARTIAL_HOLD.match(line)
    if not hold:
        return None
    parts = [(word.decode(), *(int(number) for number in figures)) for word, *figures in WORD_AND_NUMBERS.findall(hold[3])]
    return int(hold[1]), int(hold[2]), parts


def depth(line):
    """How deep a line is nested, if its brackets pair."""
    deepest = opened = 0
    for byte in line:
        opened += (byte == ord("(")) - (byte == ord(")"))
        deepest = max(deepest, opened)
    return deepest
