"""What the coverage seeks of splits: their limits from both sides, boards next to the deduction, splits beside parts and in
the wrong place, wrong readings that a total tells from the right one, and what stands behind holds with splits."""

import re

import support
from lines import PARTIAL_PART, code_of, is_shown, partial_hold, word_and_number

LONGEST, BROADEST = 60_000, 40_000
BITS = 65_536
HUGE = 999_999_999
MALFORMED = ["10", "11", "12", "13", "14"]
NUMBERS = ["LENGTH", "RUN", "LEFT", "RIGHT"]


# ---- The moment, right and wrong ----

def up(numerator, denominator):
    return -(-numerator // denominator)


def deduction(breadth):
    """Two-sevenths of a breadth, rounded up."""
    return up(2 * breadth, 7)


def section(breadth):
    """The section moment where neither deck nor floor is in the line's way, in mm³."""
    return up(46_631 * breadth**3, 1_200_000)


def stretches(length, effective, left, right):
    """The moments, in mm⁴, over the length where a board keeps the breadths apart, and over the rest."""
    return (section(left) + section(right)) * effective, section(left + right) * (length - effective)


def part(length, effective, left, right):
    """A part in thousandths of m⁴, by the length where the breadths are kept apart."""
    return up(sum(stretches(length, effective, left, right)), 10**9)


def effective_length(run, left, right):
    return max(0, run - deduction(max(left, right)))


def right_reading(length, run, left, right):
    return part(length, effective_length(run, left, right), left, right)


def by_deduction(deducted):
    """A reading with another deduction."""
    return lambda length, run, left, right: part(length, max(0, run - deducted(length, run, left, right)), left, right)


def by_stretches(rounded):
    """A reading that makes the part of the effective length, the rest and the two breadths in another way."""
    def reading(length, run, left, right):
        effective = effective_length(run, left, right)
        return rounded(effective, length - effective, left, right)
    return reading


def one_fraction(effective, rest, left, right):
    """The exact moment, rounded up once."""
    cubes = (left**3 + right**3) * effective + (left + right)**3 * rest
    return up(46_631 * cubes, 1_200_000 * 10**9)


# Each with one slip. Some hold that is taken must weigh another amount by it, and have a total behind it.
WRONG_READINGS = {
    "the deduction rounded down": by_deduction(lambda length, run, left, right: 2 * max(left, right) // 7),
    "the deduction one more": by_deduction(lambda length, run, left, right: deduction(max(left, right)) + 1),
    "a deduction of the lesser breadth": by_deduction(lambda length, run, left, right: deduction(min(left, right))),
    "a deduction of LEFT": by_deduction(lambda length, run, left, right: deduction(left)),
    "a deduction of RIGHT": by_deduction(lambda length, run, left, right: deduction(right)),
    "a deduction of both breadths": by_deduction(lambda length, run, left, right: deduction(left + right)),
    "a deduction of RUN": by_deduction(lambda length, run, left, right: deduction(run)),
    "a deduction of LENGTH": by_deduction(lambda length, run, left, right: deduction(length)),
    "a seventh of the greater breadth": by_deduction(lambda length, run, left, right: up(max(left, right), 7)),
    "no deduction": by_deduction(lambda length, run, left, right: 0),
    "no deduction where RUN is LENGTH":
        by_deduction(lambda length, run, left, right: 0 if run == length else deduction(max(left, right))),
    "the deduction taken off LENGTH":
        lambda length, run, left, right: part(length, effective_length(length, left, right), left, right),
    "an effective length below zero":
        lambda length, run, left, right: part(length, run - deduction(max(left, right)), left, right),
    "an effective length of 1 at least":
        lambda length, run, left, right: part(length, max(1, run - deduction(max(left, right))), left, right),
    "a board without effect": lambda length, run, left, right: part(length, 0, left, right),
    "the rest of LENGTH left out": by_stretches(
        lambda effective, rest, left, right: up(stretches(effective, effective, left, right)[0], 10**9)),
    "the greater breadth alone beside the board": by_stretches(
        lambda effective, rest, left, right: up(section(max(left, right)) * effective + section(left + right) * rest, 10**9)),
    "each stretch rounded up": by_stretches(
        lambda effective, rest, left, right: sum(up(one, 10**9) for one in stretches(effective + rest, effective, left, right))),
    "no section moment rounded": by_stretches(one_fraction),
    "the two breadths rounded up together": by_stretches(
        lambda effective, rest, left, right:
            up(up(46_631 * (left**3 + right**3), 1_200_000) * effective + section(left + right) * rest, 10**9)),
    "the section moments of the two breadths rounded down": by_stretches(
        lambda effective, rest, left, right:
            up(sum(46_631 * one**3 // 1_200_000 for one in (left, right)) * effective + section(left + right) * rest, 10**9)),
    "the section moment of both together rounded down": by_stretches(
        lambda effective, rest, left, right:
            up((section(left) + section(right)) * effective + 46_631 * (left + right)**3 // 1_200_000 * rest, 10**9)),
    "the part rounded down": by_stretches(
        lambda effective, rest, left, right: sum(stretches(effective + rest, effective, left, right)) // 10**9),
}


def weight(sf, splits, reading):
    """The weight moment of a partial hold of splits alone."""
    return up(10_000 * up(112 * sum(reading(*split) for split in splits), 100), sf)


# ---- What is sought ----

# Boards by the deduction: 1 mm shorter, just as long, 1 mm longer.
NEXT = {-1: "1 less than the deduction", 0: "the deduction", 1: "1 more than the deduction"}
SIDES = ["LEFT greater", "RIGHT greater", "LEFT and RIGHT equal"]
# What the line before a total or a judge did with splits, or would have done.
CHANGES = [
    "a new hold with a split", "a replaced hold with a split", "a hold with a split replaced by one without",
    "a drop of a hold with a split",
]
TURNED_DOWN = ["a hold with a split turned down with 14", "a hold with a split turned down with 20"]

# What stands in the place of a part, beside right ones; each gets 14.
MISSPELLED = ["splits", "spli", "splitt", "plit", "spilt"]
IN_PLACE_OF_A_PART = {
    "split with nothing": rb"\( *split *\)",
    "split with three numbers": rb"\( *split(?: +\d+){3} *\)",
    "split with five numbers": rb"\( *split(?: +\d+){5} *\)",
    "split with a word": rb"\( *split(?: +\d+)* +[a-z][a-z0-9]*(?: +\d+)* *\)",
    "split with a cell": rb"\( *split +\d+ *\( *(?:wing|hatch|void)(?: +\d+)+ *\) *\)",
    "split with four numbers and a cell": rb"\( *split(?: +\d+){4} *\( *(?:wing|hatch|void)(?: +\d+)+ *\) *\)",
    "split in brackets of its own": rb"\( *\( *split(?: +\d+){4} *\) *\)",
    "split in a part": rb"\( *part +\d+ *\( *split(?: +\d+){4} *\) *\)",
    "split without brackets": rb"split(?: +\d+){4}",
    **{word: rb"\( *" + word.encode() + rb"(?: +\d+){4} *\)" for word in MISSPELLED},
}
SPLIT = rb"\( *split(?: +\d+){4} *\)"
SECTION = rb"\( *part +\d+ *(?:\( *(?:wing|hatch|void)(?: +\d+){3,4} *\) *)+\)"
# Lines that get 14.
LOOKS = {
    **{what: rb" *\( *hold +\d+ +partial +\d+ *(?:%b *)*%b *(?:%b *)*\) *" % (PARTIAL_PART, looks, PARTIAL_PART)
       for what, looks in IN_PLACE_OF_A_PART.items()},
    **{f"{what} in a {mode} hold": rb" *\( *hold +\d+ +%b +\d+ *%b *\) *" % (mode.encode(), looks)
       for mode in ("trimmed", "voided")
       for what, looks in [
           ("split alone", SPLIT),
           ("split behind a section", rb"(?:%b *)+%b" % (SECTION, SPLIT)),
           ("split before a section", rb"%b *(?:%b *)+" % (SPLIT, SECTION)),
       ]},
    "seven splits": rb" *\( *hold +\d+ +partial +\d+ *(?:%b *){7}\) *" % SPLIT,
    "seven parts, the last a split": rb" *\( *hold +\d+ +partial +\d+ *(?:%b *){6}%b *\) *" % (PARTIAL_PART, SPLIT),
    "split as a line": rb" *%b *" % SPLIT,
    "split in a show": rb" *\( *show *%b *\) *" % SPLIT,
    "split in a trimmed hold in a show": rb" *\( *show *\( *hold +\d+ +trimmed +\d+ *%b *\) *\) *" % SPLIT,
    "split as a mode": rb" *\( *hold +\d+ +split .*",
}
OUT_OF_SHAPE = {what: re.compile(looks) for what, looks in LOOKS.items()}
NEEDLESS_ZERO = re.compile(rb".*\( *split [^()]*\b0\d")
FILLED_HOLD = re.compile(rb" *\( *hold +\d+ +(?:trimmed|voided) ")
SPLIT_NUMBERS = re.compile(rb"\( *split +(\d+) +(\d+) +(\d+) +(\d+) *\)")
SPELLINGS = [b"split", *(word.encode() for word in MISSPELLED)]

SOUGHT = (
    [f"split taken in {kind}" for kind in ["runs", "edges", "damaged", "mixed"]]
    + [f"split shown in {kind}" for kind in support.KINDS]
    # Limits, each from both sides.
    + [f"split with LENGTH {length} taken" for length in (1, LONGEST)]
    + [f"split with LENGTH {length} alone with code 20" for length in (0, LONGEST + 1)]
    + ["split with RUN 1 taken", "split with RUN equal to LENGTH taken"]
    + ["split with RUN 0 alone with code 20", "split with RUN 1 above LENGTH alone with code 20"]
    + [f"split with {side} {breadth} taken" for side in ("LEFT", "RIGHT") for breadth in (1, BROADEST - 1)]
    + [f"split with {side} 0 alone with code 20" for side in ("LEFT", "RIGHT")]
    + [f"split with LEFT + RIGHT {breadth} taken" for breadth in (2, BROADEST)]
    + [f"split with LEFT + RIGHT {BROADEST + 1} alone with code 20"]
    + [f"split with {which} {HUGE} with code 20" for which in NUMBERS]
    + [f"split that 16 bits would take, by {which}" for which in ("LENGTH", "RUN", "LENGTH and RUN", "LEFT", "RIGHT")]
    + [f"split that a sum of 16 bits would take, {what}" for what in ("each breadth within 40000", "one breadth 65535")]
    # Boards by the deduction.
    + [f"split with RUN {by}, {side}" for by in NEXT.values() for side in SIDES]
    + [f"split with RUN {by}, rest {rest} of 7" for by in NEXT.values() for rest in range(7)]
    + ["split with RUN far below the deduction", "split with RUN far above the deduction"]
    + [f"split with RUN equal to LENGTH and {what}" for what in [*NEXT.values(), "far above the deduction"]]
    + ["split of the greatest moment", "split with LEFT + RIGHT 2 and an effective length"]
    + [f"total that tells {wrong}" for wrong in WRONG_READINGS]
    + ["total behind an uncut part replaced by a board without effect in edges"]
    # Beside parts.
    + ["one split alone", "six splits", "six splits and parts", "split before a part", "part before a split"]
    # Out of shape, and not one form or number.
    + [f"{what} with code 14" for what in OUT_OF_SHAPE]
    + ["split out of its limits in a filled hold with code 14", "split with a needless zero with code 13"]
    + [f"hold with a split with code {code}" for code in MALFORMED]
    + ["split out of its limits shown"]
    # Behind holds with splits.
    + [f"{word} behind {what} in {kind}"
       for word in ("total", "judge") for kind in ("runs", "edges", "mixed") for what in CHANGES + TURNED_DOWN]
    + [f"total behind a hold with a split turned down with {code} in damaged" for code in (11, 12, 13, 14)]
    + [f"total behind {what} in edges" for what in ("a clear of a hold with a split", "a shown hold with a split")]
    + [f"drop behind a {what} hold with a split in edges" for what in ("new", "replaced")]
)


class Splits:
    """Which holds are held, and with which parts, line by line; and what the line before did with splits."""

    def __init__(self, kind):
        self.kind = kind
        # Stowage factor and parts of each hold that is held, by its number; no parts of one that is not partial.
        self.held = {}
        # What the line before did, and the wrong readings by which the hold that it brought would weigh something else.
        self.done = []
        self.told = []

    def names_of(self, line, reply):
        """Which of the sought things a line and its reply are; then the line counts as taken."""
        code, (word, number) = code_of(reply), word_and_number(line)
        names = self._names_behind(word, code)
        if any(word in line for word in SPELLINGS):
            names += names_of_split(self.kind, line, reply, code)
        self.told = []
        self.done = self._done(line, reply, word, number, code)
        return names

    def _names_behind(self, word, code):
        """Of a total, a judge or a drop behind a line that had to do with splits."""
        if word == "total" and code == "00":
            names = [f"total that tells {wrong}" for wrong in self.told]
        elif (word == "judge" and code in ("00", "40", "41", "42", "43")) or (word == "drop" and code == "00"):
            names = []
        else:
            return []
        return names + [f"{word} behind {what} in {self.kind}" for what in self.done]

    def _done(self, line, reply, word, number, code):
        """What a line does with splits, or would have done."""
        if is_shown(reply):
            return ["a shown hold with a split"] if b"(split " in reply else []
        if code != "00":
            return [f"a hold with a split turned down with {code}"] if word == "hold" and b"split" in line else []
        if word == "hold":
            return self._done_by_hold(line, number)
        if word == "drop":
            return ["a drop of a hold with a split"] if has_split(self.held.pop(number)) else []
        if word == "clear":
            had_split = any(has_split(hold) for hold in self.held.values())
            self.held.clear()
            return ["a clear of a hold with a split"] if had_split else []
        return []

    def _done_by_hold(self, line, number):
        before, hold = self.held.get(number), (partial_hold(line) or (None, None, []))[1:]
        self.held[number] = hold
        if not has_split(hold):
            return ["a hold with a split replaced by one without"] if before and has_split(before) else []
        sf, parts = hold
        if all(word == "split" for word, *_ in parts):
            splits = [numbers for _, *numbers in parts]
            right = weight(sf, splits, right_reading)
            self.told = [wrong for wrong, reading in WRONG_READINGS.items() if weight(sf, splits, reading) != right]
        same = ["an uncut part replaced by a board without effect"] if before and weighs_the_same(before, hold) else []
        return same + ["a replaced hold with a split" if before else "a new hold with a split"]


def has_split(hold):
    return any(word == "split" for word, *_ in hold[1])


def weighs_the_same(before, hold):
    """Whether an uncut part is followed by a split that has no effective length and is as long and broad."""
    if before[0] != hold[0] or len(before[1]) != 1 or len(hold[1]) != 1:
        return False
    (old, length, breadth, void, grain), (_, *split) = before[1][0], hold[1][0]
    is_uncut = old == "part" and 46_631 * breadth <= 200_000 * min(void, grain)
    return is_uncut and (length, breadth) == (split[0], split[2] + split[3]) and effective_length(*split[1:]) == 0


def names_of_split(kind, line, reply, code):
    """Of a line in which `split` or nearly that word stands."""
    if code in MALFORMED:
        return names_of_refused(line, code)
    hold = partial_hold(line)
    if not hold or not has_split(hold[1:]):
        return []
    number, sf, parts = hold
    splits = [numbers for word, *numbers in parts if word == "split"]
    if is_shown(reply):
        beyond = ["split out of its limits shown"] if any(broken(*split) for split in splits) else []
        return [f"split shown in {kind}"] + beyond
    if code == "20":
        return names_of_limits(number, sf, parts)
    names = [f"split taken in {kind}"] + names_of_beside([word for word, *_ in parts])
    return names + [name for split in splits for name in names_of_figures(*split)]


def broken(length, run, left, right):
    """Which limits a split breaks. No board is as short as a part of 0."""
    limits = [
        ("LENGTH", 1 <= length <= LONGEST), ("RUN", 1 <= run and (run <= length or length == 0)),
        ("LEFT", left >= 1), ("RIGHT", right >= 1), ("LEFT + RIGHT", left + right <= BROADEST),
    ]
    return [name for name, holds in limits if not holds]


def names_of_limits(number, sf, parts):
    """Of a hold that is turned down with 20 for one split alone."""
    others = [1 <= number <= 16, 5_000 <= sf <= 40_000]
    others += [
        1 <= length <= LONGEST and 1 <= breadth <= BROADEST and 1 <= void <= 30_000 and 1 <= grain <= 30_000
        for word, length, breadth, void, grain in parts if word == "part"
    ]
    wrong = [numbers for word, *numbers in parts if word == "split" and broken(*numbers)]
    if not all(others) or len(wrong) != 1:
        return []
    split = length, run, left, right = wrong[0]
    limits, names = broken(*split), []
    if limits == ["RUN"]:
        names.append(f"split with RUN {run if run < 1 else f'{run - length} above LENGTH'} alone with code 20")
    elif len(limits) == 1:
        value = {"LENGTH": length, "LEFT": left, "RIGHT": right, "LEFT + RIGHT": left + right}[limits[0]]
        names.append(f"split with {limits[0]} {value} alone with code 20")
    beyond = [name for name, value in zip(NUMBERS, split) if value >= BITS]
    if HUGE in split and len(beyond) == len(limits) == 1:
        names.append(f"split with {beyond[0]} {HUGE} with code 20")
    if beyond and not broken(*(value % BITS for value in split)):
        names.append(f"split that 16 bits would take, by {' and '.join(beyond)}")
    if not beyond and limits == ["LEFT + RIGHT"] and (left + right) % BITS <= BROADEST:
        names += ["split that a sum of 16 bits would take, each breadth within 40000"] if max(left, right) <= BROADEST else []
        names += ["split that a sum of 16 bits would take, one breadth 65535"] if max(left, right) == BITS - 1 else []
    return names


def names_of_beside(words):
    """Of the words of a hold's parts."""
    names, count = [], words.count("split")
    if len(words) == count and count in (1, 6):
        names.append("one split alone" if count == 1 else "six splits")
    if len(words) == 6 and count < 6:
        names.append("six splits and parts")
    names += [f"{words[place]} before a {words[place + 1]}" for place in range(len(words) - 1)]
    return names


def names_of_figures(length, run, left, right):
    """Of a split that is taken."""
    greater = max(left, right)
    by, side = run - deduction(greater), SIDES[0 if left > right else 1 if left < right else 2]
    names = [f"split with LENGTH {length} taken", f"split with RUN {run} taken"]
    names += [f"split with LEFT {left} taken", f"split with RIGHT {right} taken"]
    names += [f"split with LEFT + RIGHT {left + right} taken"]
    lies = NEXT.get(by, "far below the deduction" if by < 0 else "far above the deduction")
    names += [f"split with RUN {lies}", f"split with RUN {lies}, {side}", f"split with RUN {lies}, rest {greater % 7} of 7"]
    if run == length:
        names += ["split with RUN equal to LENGTH taken", f"split with RUN equal to LENGTH and {lies}"]
    if (length, left + right) == (LONGEST, BROADEST) and by <= 0:
        names.append("split of the greatest moment")
    if left + right == 2 and by > 0:
        names.append("split with LEFT + RIGHT 2 and an effective length")
    return names


def names_of_refused(line, code):
    """Of a line that is turned down for what it is, whatever the condition."""
    names = []
    if word_and_number(line)[0] == "hold" and b"split" in line:
        names.append(f"hold with a split with code {code}")
    if NEEDLESS_ZERO.match(line):
        names.append(f"split with a needless zero with code {code}")
    if any(broken(*(int(number) for number in split)) for split in SPLIT_NUMBERS.findall(line)):
        # 14 comes before 20; a program that took the shape would show it by another code.
        return names + ([f"split out of its limits in a filled hold with code {code}"] if FILLED_HOLD.match(line) else [])
    return names + [f"{what} with code {code}" for what, looks in OUT_OF_SHAPE.items() if looks.fullmatch(line)]
