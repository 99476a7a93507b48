"""Whether the gate's lines reach every code, the figures next to the limits, each thing that show can do, each way in
which void and grain of a partly filled part lie, each change of the holds behind which a total can stand, what splits.py
seeks of splits and weighings.py of the items, by the reference's replies."""

import math
import re
from collections import Counter

import splits
import support
import weighings
from lines import code_of, depth, first_word, is_shown, word_and_number
from support import run_program, split_lines

CODES = ["00", "10", "11", "12", "13", "14", "20", "21", "22", "23", "24", "26", "27",
         "30", "31", "32", "33", "34", "40", "41", "42", "43"]
FORMS = ["ship", "column", "load", "hold", "drop", "clear"]
MOST_WEIGHT_MOMENT = 1_000_000_000
LEAST_AREA = 429_718_347
ANGLES = [0, 500, 1_000, 1_200, 1_500, 2_000, 2_500, 3_000, 3_500, 4_000]

SOUGHT = (
    [f"code {code}" for code in CODES]
    + [f"{form} taken" for form in FORMS]
    + ["GM 300000", "GM 299999", "code 40 with GM 299999", "DIFF 0", "DIFF -1", "code 00 with DIFF 0"]
    + ["code 41 with DIFF -1", "code 42 with DIFF 0"]
    + ["AREA 1 to 10 above its limit", "AREA equal to its limit", "AREA one below its limit"]
    + ["AREA 2 to 10 below its limit", "code 00 with AREA equal to its limit", "code 43 with AREA one below its limit"]
    + [f"UPPER {angle}" for angle in [1] + ANGLES]
    + ["UPPER between the ten angles"]
    + ["line of 2000 bytes taken", "line of 2000 bytes turned down, not with 10", "line of 2001 bytes"]
    + ["line above 60000 bytes"]
)

# What show does: each form; each code that turns it down; how deep; in which spelling; how long; sent again.
SOUGHT_OF_SHOW = (
    [f"{form} shown" for form in FORMS + ["judge"]]
    + [f"show with code {code}" for code in ["10", "11", "12", "13", "14"]]
    + [f"show {depth} deep with code {code}" for depth, code in [("four", "14"), ("five", "13"), ("five", "14"), ("six", "12")]]
    + [f"five deep, first word {word}, with code 12" for word in ["sho", "shown", "showw", "other"]]
    + ["show five deep inside another form with code 12"]
    + [f"show of {what} with code 14" for what in ["nothing", "a show", "two forms", "a part"]]
    + ["shown as it was spelled", "shown without a free space", "shown with two spaces together", "shown with 999999999"]
    + ["shown from a line of 2000 bytes", "show of 2001 bytes"]
    + ["reply of 2000 bytes", "reply of 2001 bytes", "reply of 2047 bytes", "reply of 2048 bytes"]
    + [f"reply sent as the next line, with code {code}" for code in ["00", "10", "20"]]
)

# How void and grain of a partly filled part lie: the 25 degree line meets both sides; or one of the two is a triangle under
# the deck or on the floor; or the line goes from deck to floor.
UNCUT, VOID, GRAIN, NEITHER = "uncut", "void a triangle", "grain a triangle", "no triangle"
# Which of these have sections that are 1 mm of breadth, void or grain apart.
NEIGHBOURS = [(UNCUT, VOID), (UNCUT, GRAIN), (UNCUT, NEITHER), (VOID, NEITHER), (GRAIN, NEITHER)]

# Each of them in every kind; in the edges next to each other, and triangles next to those with a whole base.
SOUGHT_OF_DECKS = (
    [f"{lie} in {kind}" for kind in ["runs", "edges", "damaged", "mixed"] for lie in (UNCUT, VOID, GRAIN, NEITHER)]
    + [f"{lie} shown" for lie in (UNCUT, VOID, GRAIN, NEITHER)]
    + [f"{lie}, 1 mm from {other}" for one, two in NEIGHBOURS for lie, other in ((one, two), (two, one))]
    + [f"triangle with {what}" for what in ["a whole base", "an area that just gives its base", "1 mm² less than a longer base"]]
)

# What the line before a total did to the holds, or would have done had it been taken.
BEHIND = [
    "a new hold", "a replaced hold", "a hold turned down with 20", "a hold turned down with 21",
    "a hold that is held turned down with 20", "a hold that is held turned down with 21",
    "a drop", "a drop of the last hold", "a drop turned down with 20", "a drop turned down with 24", "a clear of holds",
    "a judge", "a judge with 34", "a shown hold", "a shown drop of a hold", "a shown clear of holds",
]
BEHIND_DAMAGED = [
    f"a {word} turned down with {code}"
    for word, codes in [("hold", (10, 11, 12, 13, 14)), ("drop", (11, 12, 13, 14)), ("clear", (11, 12))]
    for code in codes
]
# Sixteen of the heaviest holds.
GREATEST_TOTAL = 32_089_682_912

SOUGHT_OF_TOTALS = (
    [f"total in {kind}" for kind in support.KINDS]
    + [f"total behind {what} in {kind}" for kind in ["runs", "edges", "mixed"] for what in BEHIND]
    + [f"total behind {what} in damaged" for what in BEHIND_DAMAGED]
    + [f"total behind {what} in edges" for what in ["a hold turned down with 14", "a clear turned down with 14", "a total"]]
    + ["total behind a shown hold in shows", "total with free spaces"]
    + [f"total of {what}" for what in ["no hold", "one hold", "sixteen holds", "holds without weight moment"]]
    + [f"total of {count} digits" for count in range(1, len(str(GREATEST_TOTAL)) + 1)]
    + [f"total {what}" for what in ["equal to the limit of 34", "one below the limit of 34", "one above the limit of 34"]]
    + [f"total {what}" for what in ["above the limit of 34", "of 2**32 or more", "as great as there is"]]
    + [f"total {what} behind a replaced hold" for what in ["1 more", "1 less", "the same"]]
    + [f"total with code {code}" for code in ["10", "11", "12", "13", "14"]]
    + [f"total with {what} with code 14" for what in ["a number", "a word", "a form"]]
    + ["total four deep with code 14", "total five deep with code 12", "total in a show with code 14"]
)

# A show that is not the outer form.
SHOW_WITHIN = re.compile(rb" *\( *\( *show[ (]")
# A total with an item behind it; a total in a show.
TOTAL_WITH = {
    "a number": re.compile(rb" *\( *total +\d"),
    "a word": re.compile(rb" *\( *total +[a-z]"),
    "a form": re.compile(rb" *\( *total *\("),
}
TOTAL_SHOWN = re.compile(rb" *\( *show *\( *total *\) *\) *")

PARTLY_FILLED = re.compile(rb"\( *part +(\d+) +(\d+) +(\d+) +(\d+) *\)")
BROADEST, DEEPEST = 40_000, 30_000

# The longest reply of show: a line of 2,000 bytes without `(show` and `)`, and a space before each of 54 inner forms.
LONGEST_SHOWN = 2_000 - len("(show)") + 54


def check_codes(results):
    found, byte_values, longest = Counter(), set(), 0
    reference = support.build("reference")
    for kind in support.KINDS:
        for seed in support.GATE_SEEDS:
            data = support.generated(kind, seed, support.GATE_COUNT)
            byte_values.update(data)
            before, holds, boards, items = None, Holds(kind), splits.Splits(kind), weighings.Items(kind)
            for line, reply in zip(split_lines(data), run_program(reference, data).replies()):
                found.update(names_of(line, reply))
                found.update(names_of_decks(kind, line, reply))
                found.update(holds.names_of_total(line, reply))
                found.update(boards.names_of(line, reply))
                found.update(items.names_of(line, reply))
                if line == before:
                    found[f"reply sent as the next line, with code {code_of(reply)}"] += 1
                before = reply
                longest = max(longest, len(reply))
    for name in SOUGHT + SOUGHT_OF_SHOW + SOUGHT_OF_DECKS + SOUGHT_OF_TOTALS + splits.SOUGHT + weighings.SOUGHT:
        results.report(f"reached {name} ({found[name]} times)", None if found[name] else "never")
    missing = sorted(set(range(256)) - byte_values)
    results.report("reached every byte value", f"not {missing}" if missing else None)
    why = None if longest == LONGEST_SHOWN else f"the longest has {longest}"
    results.report(f"no reply above {LONGEST_SHOWN} bytes", why)


def names_of(line, reply):
    """Which of the sought things a line and its reply are."""
    if is_shown(reply):
        return names_of_shown(line, reply)
    head, code, *figures = reply.decode().strip("()").split()
    names = [f"code {code}"]
    if (head, code) == ("answer", "00"):
        names.append(f"{first_word(line)} taken")
    if head == "verdict" and figures:
        names += names_of_figures(code, *(int(figure) for figure in figures))
    if b"sho" in line:
        names += names_of_refused_show(line, code)
    return names + names_of_length(len(line), code)


def names_of_shown(line, reply):
    names = [f"{first_word(reply)} shown", f"reply of {len(reply)} bytes"]
    if line == b"(show " + reply + b")":
        names.append("shown as it was spelled")
    if line == b"(show" + reply.replace(b" (", b"(") + b")" and reply.count(b"(") > 1:
        names.append("shown without a free space")
    if b"  " in line:
        names.append("shown with two spaces together")
    if b" 999999999" in reply:
        names.append("shown with 999999999")
    if len(line) == 2_000:
        names.append("shown from a line of 2000 bytes")
    return names


def names_of_refused_show(line, code):
    """Of a line in which `show` or nearly that word stands, and which is turned down."""
    word, deep = first_word(line), depth(line)
    names = []
    if SHOW_WITHIN.match(line):
        if deep == 5:
            names.append(f"show five deep inside another form with code {code}")
    elif word == "show":
        names.append(f"show with code {code}")
        if 4 <= deep <= 6:
            names.append(f"show {['four', 'five', 'six'][deep - 4]} deep with code {code}")
        spelled = b"".join(line.split())
        for what, begins in [("nothing", b"(show)"), ("a show", b"(show(show("), ("a part", b"(show(part")]:
            if spelled.startswith(begins):
                names.append(f"show of {what} with code {code}")
        if spelled.startswith((b"(show(judge)(", b"(show(clear)(")):
            names.append(f"show of two forms with code {code}")
        if len(line) == 2_001:
            names.append("show of 2001 bytes")
    elif deep == 5:
        names.append(f"five deep, first word {word if word in ('sho', 'shown', 'showw') else 'other'}, with code {code}")
    return names


def names_of_figures(code, gm, diff, upper, area):
    figures = [f"GM {gm}", f"DIFF {diff}"]
    above = area - LEAST_AREA
    if above == 0:
        figures.append("AREA equal to its limit")
    elif above == -1:
        figures.append("AREA one below its limit")
    elif 1 <= above <= 10:
        figures.append("AREA 1 to 10 above its limit")
    elif -10 <= above <= -2:
        figures.append("AREA 2 to 10 below its limit")
    figures.append(f"UPPER {upper}" if upper in [1] + ANGLES else "UPPER between the ten angles")
    return figures + [f"code {code} with {figure}" for figure in figures]


def names_of_length(length, code):
    if length == 2_000:
        return ["line of 2000 bytes taken" if code == "00" else "line of 2000 bytes turned down, not with 10"]
    if length == 2_001:
        return ["line of 2001 bytes"]
    return ["line above 60000 bytes"] if length > 60_000 else []


def names_of_decks(kind, line, reply):
    """Of the partly filled parts in a hold that is taken, or that is shown and within its limits."""
    if b"partial" not in line or not (reply == b"(answer 00)" or is_shown(reply)):
        return []
    sections = [tuple(int(number) for number in part[1:]) for part in PARTLY_FILLED.findall(line)]
    sections = [section for section in sections if within_limits(*section)]
    if is_shown(reply):
        return [f"{lie(*section)} shown" for section in sections] if kind == "shows" else []
    names = [f"{lie(*section)} in {kind}" for section in sections]
    return names + [name for section in sections for name in names_of_edges(*section)] if kind == "edges" else names


def within_limits(breadth, void, grain):
    return 1 <= breadth <= BROADEST and 1 <= void <= DEEPEST and 1 <= grain <= DEEPEST


def lie(breadth, void, grain):
    """How void and grain lie. Half the breadth times the slope is 46,631/200,000 of the breadth."""
    least, height = min(void, grain), void + grain
    if 46_631 * breadth <= 200_000 * least:
        return UNCUT
    if 93_262 * breadth * least <= 100_000 * height * height:
        return VOID if void < grain else GRAIN
    return NEITHER


def names_of_edges(breadth, void, grain):
    """Of a section: what lies otherwise where it is 1 mm broader, narrower, deeper or flatter; and next to a whole base."""
    lies, area = lie(breadth, void, grain), breadth * min(void, grain)
    steps = [(1, 0, 0), (-1, 0, 0), (0, 1, 0), (0, -1, 0), (0, 0, 1), (0, 0, -1)]
    beside = [(breadth + b, void + v, grain + g) for b, v, g in steps if within_limits(breadth + b, void + v, grain + g)]
    names = [f"{lies}, 1 mm from {other}" for other in {lie(*section) for section in beside} - {lies}]
    if lies in (VOID, GRAIN):
        base = whole_base(area)
        if 200_000 * area == 46_631 * base * base:
            names.append("triangle with a whole base")
        if whole_base(area - 1) < base:
            names.append("triangle with an area that just gives its base")
        if whole_base(area + 1) > base:
            names.append("triangle with 1 mm² less than a longer base")
    return names


def whole_base(area):
    """The base of a triangle of this area, rounded down to whole mm."""
    return math.isqrt(200_000 * area // 46_631)


class Holds:
    """Which holds are held, line by line, and what the line before did to them: what a total has to tell of."""

    def __init__(self, kind):
        self.kind = kind
        self.held = set()
        # What the line before did; the total that it replied with, if it was one, and that of the line before it.
        self.done = []
        self.told = None
        self.told_before = None

    def names_of_total(self, line, reply):
        """Which of the sought things a total line and its reply are, where it is one; then the line counts as taken."""
        code, (word, number) = code_of(reply), word_and_number(line)
        names, told = [], None
        if word == "total" and code == "00":
            told = int(reply.decode().strip("()").split()[2])
            names = self._names_of_taken(line, told)
        elif word == "total":
            names = names_of_refused_total(line, code)
        elif TOTAL_SHOWN.fullmatch(line):
            names = [f"total in a show with code {code}"]
        self.done = self._done_by_show(reply) if is_shown(reply) else self._done(word, number, code)
        self.told_before, self.told = self.told, told
        return names

    def _names_of_taken(self, line, told):
        names = [f"total in {self.kind}", f"total of {len(str(told))} digits"]
        names += [f"total behind {what} in {self.kind}" for what in self.done]
        if line != b"(total)":
            names.append("total with free spaces")
        if len(self.held) in (0, 1, 16):
            names.append("total of " + {0: "no hold", 1: "one hold", 16: "sixteen holds"}[len(self.held)])
        if self.held and told == 0:
            names.append("total of holds without weight moment")
        above = told - MOST_WEIGHT_MOMENT
        if abs(above) <= 1:
            names.append("total " + {-1: "one below", 0: "equal to", 1: "one above"}[above] + " the limit of 34")
        if above > 0:
            names.append("total above the limit of 34")
        if told >= 2**32:
            names.append("total of 2**32 or more")
        if told == GREATEST_TOTAL:
            names.append("total as great as there is")
        if self.told_before is not None and "a replaced hold" in self.done and abs(told - self.told_before) <= 1:
            more = {-1: "1 less", 0: "the same", 1: "1 more"}[told - self.told_before]
            names.append(f"total {more} behind a replaced hold")
        return names

    def _done(self, word, number, code):
        """What a line does to the holds, or would have done."""
        is_held, were_held = number in self.held, len(self.held)
        if word not in ("hold", "drop", "clear"):
            is_taken = word in ("judge", "total") and code not in ("10", "11", "12", "13", "14")
            return [f"a {word}", f"a {word} with {code}"] if is_taken else []
        if code != "00":
            held = [f"a {word} that is held turned down with {code}"] if is_held else []
            return held + ([f"a {word} turned down with {code}"] if were_held else [])
        if word == "hold":
            self.held.add(number)
            return ["a replaced hold" if is_held else "a new hold"]
        if word == "drop":
            self.held.remove(number)
            return ["a drop"] if self.held else ["a drop", "a drop of the last hold"]
        self.held.clear()
        return ["a clear of holds"] if were_held else []

    def _done_by_show(self, reply):
        """What a line that is only shown would have done to the holds."""
        word, number = word_and_number(reply)
        if word == "drop":
            return ["a shown drop of a hold"] if number in self.held else []
        if word == "clear":
            return ["a shown clear of holds"] if self.held else []
        return [f"a shown {word}"]


def names_of_refused_total(line, code):
    """Of a line whose first word is `total`, and which is turned down."""
    names, deep = [f"total with code {code}"], depth(line)
    names += [f"total with {what} with code {code}" for what, looks in TOTAL_WITH.items() if looks.match(line)]
    if deep in (4, 5) and TOTAL_WITH["a form"].match(line):
        names.append(f"total {'four' if deep == 4 else 'five'} deep with code {code}")
    return names
