"""What the coverage seeks of weight, weighed and unweigh lines: limits of items and sums, KG next to whole ones, weighed
loads that are judged, and each line behind which the items must have stayed or gone."""

import re

import support
from lines import code_of, is_shown, numbers, word_and_number

MOST_TONNES, LEAST_TONNES = 400_000, 100
HIGHEST = 50_000
LEAST_GM = 300_000
MALFORMED = ["10", "11", "12", "13", "14"]
WORDS = ["weight", "weighed", "unweigh"]
# The forms that change something, by the words that the names below have for them.
CHANGES = ["ship", "column", "load", "hold", "drop", "weight", "weighed"]

# Lines that leave the items, and have a weighed line behind them. Those of the second list are few: in `mixed` a damaged
# line may fall between.
STAY = [f"a {word}" for word in CHANGES + ["judge", "total"]] + ["a weight turned down with 20", "a weight turned down with 26"]
STAY_UNDAMAGED = [
    "a shown clear", "a ship turned down with 20", "a column turned down with 22", "a load turned down with 20",
    "a hold turned down with 20", "a hold turned down with 21", "a drop turned down with 24",
]
# Lines that would have added or removed items, were they not damaged.
STAY_DAMAGED = [
    f"{word} turned down with {code}"
    for word, codes in [
        ("an unweigh", (11, 12, 14)), ("a clear", (11, 12, 14)), ("a weight", (11, 12, 13, 14)), ("a weighed", (11, 12, 13, 14)),
    ]
    for code in codes
]
STAY_IN_EDGES = [
    "a weighed turned down with 20", "an unweigh turned down with 12", "an unweigh turned down with 14",
    "a clear turned down with 12", "a clear turned down with 14", "a shown load", "a shown hold",
]
GONE = ["an unweigh of items", "a clear of items"]

SOUGHT = (
    [f"{word} taken in {kind}" for kind in support.KINDS for word in WORDS]
    + [f"code {code} in {kind}" for kind in support.KINDS for code in ("26", "27")]
    + [f"weighed with 00 behind {what} in {kind}" for kind in ["runs", "edges", "mixed"] for what in STAY]
    + [f"weighed with 00 behind {what} in {kind}" for kind in ["runs", "edges"] for what in STAY_UNDAMAGED]
    + [f"weighed with 00 behind {what} in damaged" for what in STAY_DAMAGED]
    + [f"weighed with 00 behind {what} in edges" for what in STAY_IN_EDGES]
    + [f"weighed with 27 behind {what} in {kind}" for kind in ["runs", "edges", "mixed"] for what in GONE]
    + ["weighed with 27 behind an unweigh of none in runs", "weighed with 27 behind a clear of none in edges"]
    # Limits of T, H and FS, and 20 before 26 and 27.
    + [f"weight of {tonnes} t taken" for tonnes in (1, MOST_TONNES)]
    + [f"weight of {tonnes} t with code 20" for tonnes in (0, MOST_TONNES + 1)]
    + [f"weight at {height} mm taken" for height in (0, HIGHEST)]
    + [f"weight at {HIGHEST + 1} mm with code 20", "weight with code 20 that would pass the sum"]
    + ["weighed with FS 0 taken", "weighed with FS 10000 taken", "weighed with FS 10001 with code 20"]
    + ["weighed with code 20 under 100 t"]
    # Sums.
    + [f"sum of {tonnes} t taken" for tonnes in (99, 100, 101, MOST_TONNES - 1, MOST_TONNES)]
    + [f"sum of {tonnes} t with code 26" for tonnes in (MOST_TONNES + 1, 2 * MOST_TONNES)]
    + ["sum of 400000 t by two items and more", "an item as one before taken"]
    + [f"weighed of {tonnes} t with code 27" for tonnes in (0, 1, 99)]
    + [f"weighed of {tonnes} t taken" for tonnes in (100, MOST_TONNES - 1, MOST_TONNES)]
    + [f"weighed from {count} taken" for count in ("one item", "a hundred items or more", "items of which two are alike")]
    # KG.
    + [f"weighed with products {what}" for what in ("a multiple of D", "one above a multiple of D", "one below a multiple of D")]
    + ["weighed with products 0", "weighed with products 1", "weighed with products D", "weighed with products D + 1"]
    + ["weighed with KG 1", "weighed with KG 2", f"weighed with KG {HIGHEST - 1}", f"weighed with KG {HIGHEST}"]
    + [f"weighed with products 2**{bits}{by}" for bits in (31, 32) for by in (" - 1", "", " + 1")]
    + ["weighed with products above 2**33", "weighed with products as great as they can be"]
    # Judged.
    + [f"weighed load judged with {code}" for code in ("00", "33", "40", "41", "42", "43")]
    + ["weighed load at the first column judged", "weighed load 1 t below the first column judged with 33"]
    + ["weighed load at the last column judged", "weighed load 1 t above the last column judged with 33"]
    + ["weighed load with 40 for the last mm of KG", "weighed load with 40 for products one above a multiple of D"]
    + ["weighed load without 40 by less than a mm", "weighed load without 40 for products a multiple of D"]
    # Turned down.
    + [f"{word} with code {code}" for word in WORDS for code in MALFORMED]
    + [f"{word} with code 14" for word in ("weigh", "weights", "weighd", "weighing", "unweighed")]
    + [f"{what} with code 14" for what in ("weight with one number", "weight with three numbers", "weight with a form")]
    + [f"{what} with code 14" for what in ("weighed with nothing", "weighed with two numbers", "weighed with a form")]
    + [f"{what} with code 14" for what in ("unweigh with a number", "unweigh with a word", "unweigh with a form")]
    + [f"{word} in a show with code 14" for word in WORDS]
    + ["weight with a needless zero with code 13", "weighed with a needless zero with code 13"]
)

# Lines out of shape, and with a number that is none.
LOOKS = {
    "weight with one number": re.compile(rb" *\( *weight +\d+ *\) *"),
    "weight with three numbers": re.compile(rb" *\( *weight +\d+ +\d+ +\d+ *\) *"),
    "weight with a form": re.compile(rb" *\( *weight[ 0-9]*\(.*\) *"),
    "weight with a needless zero": re.compile(rb" *\( *weight .*\b0\d.*\) *"),
    "weighed with nothing": re.compile(rb" *\( *weighed *\) *"),
    "weighed with two numbers": re.compile(rb" *\( *weighed +\d+ +\d+ *\) *"),
    "weighed with a form": re.compile(rb" *\( *weighed *\(.*\) *"),
    "weighed with a needless zero": re.compile(rb" *\( *weighed +0\d+ *\) *"),
    "unweigh with a number": re.compile(rb" *\( *unweigh +\d+ *\) *"),
    "unweigh with a word": re.compile(rb" *\( *unweigh +[a-z]+ *\) *"),
    "unweigh with a form": re.compile(rb" *\( *unweigh *\(.*\) *"),
    "weight in a show": re.compile(rb" *\( *show *\( *weight +\d+ +\d+ *\) *\) *"),
    "weighed in a show": re.compile(rb" *\( *show *\( *weighed +\d+ *\) *\) *"),
    "unweigh in a show": re.compile(rb" *\( *show *\( *unweigh *\) *\) *"),
}


class Items:
    """The items taken since the start or the last removal, line by line, and what the line before did to them."""

    def __init__(self, kind):
        self.kind = kind
        self.items = []
        # D of the columns held; tonnes and products of the load, if it was weighed; what the line before did.
        self.columns = []
        self.load = None
        self.done = []

    def names_of(self, line, reply):
        """Which of the sought things a line and its reply are; then the line counts as taken."""
        code, (word, _) = code_of(reply), word_and_number(line)
        figures = [] if code in MALFORMED or is_shown(reply) else numbers(line)
        if code in MALFORMED:
            names = names_of_refused(word, line, code)
        elif word == "weight":
            names = self._names_of_weight(*figures, code)
        elif word == "weighed":
            names = self._names_of_weighed(*figures, code)
        elif word == "judge":
            names = self._names_of_judged(reply, code)
        else:
            names = [f"unweigh taken in {self.kind}"] if word == "unweigh" else []
        if is_shown(reply):
            self.done = [f"a shown {word_and_number(reply)[0]}"]
        else:
            self.done = [self._done(word, code)]
            self._take(word, figures, code)
        return names

    def _tonnes(self):
        return sum(tonnes for tonnes, _ in self.items)

    def _names_of_weight(self, tonnes, height, code):
        together = self._tonnes() + tonnes
        if code == "26":
            return [f"code 26 in {self.kind}", f"sum of {together} t with code 26"]
        if code == "20":
            names = [f"weight of {tonnes} t with code 20", f"weight at {height} mm with code 20"]
            passes = 1 <= tonnes <= MOST_TONNES < together
            return names + (["weight with code 20 that would pass the sum"] if passes else [])
        names = [f"weight taken in {self.kind}", f"weight of {tonnes} t taken", f"weight at {height} mm taken"]
        names.append(f"sum of {together} t taken")
        if together == MOST_TONNES and len(self.items) > 1:
            names.append("sum of 400000 t by two items and more")
        if (tonnes, height) in self.items:
            names.append("an item as one before taken")
        return names

    def _names_of_weighed(self, fs, code):
        d = self._tonnes()
        names = [f"weighed with {code} behind {what} in {self.kind}" for what in self.done]
        if code == "27":
            return names + [f"code 27 in {self.kind}", f"weighed of {d} t with code 27"]
        if code == "20":
            under = ["weighed with code 20 under 100 t"] if d < LEAST_TONNES else []
            return names + under + [f"weighed with FS {fs} with code 20"]
        names += [f"weighed taken in {self.kind}", f"weighed with FS {fs} taken", f"weighed of {d} t taken"]
        if len(self.items) == 1:
            names.append("weighed from one item taken")
        if len(self.items) >= 100:
            names.append("weighed from a hundred items or more taken")
        if len(set(self.items)) < len(self.items):
            names.append("weighed from items of which two are alike taken")
        return names + names_of_kg(d, self._products())

    def _products(self):
        return sum(tonnes * height for tonnes, height in self.items)

    def _names_of_judged(self, reply, code):
        """Of a judge where the load was weighed and not replaced since."""
        if not self.load:
            return []
        d, products = self.load
        names = [f"weighed load judged with {code}"]
        if code in ("30", "31"):
            return names
        places = [("at the first column", 0, 0), ("1 t below the first column", 0, -1)]
        places += [("at the last column", -1, 0), ("1 t above the last column", -1, 1)]
        for words, place, by in places:
            if self.columns[place] + by == d:
                names.append(f"weighed load {words} judged" + (" with 33" if code == "33" else ""))
        return names + (names_of_gm(int(reply.split()[2]), code, products % d) if code not in ("33", "34") else [])

    def _done(self, word, code):
        """What a line did, or would have done."""
        a_word = f"an {word}" if word == "unweigh" else f"a {word}"
        if word in ("judge", "total") and code not in MALFORMED:
            return a_word
        if code != "00":
            return f"{a_word} turned down with {code}"
        if word in ("unweigh", "clear"):
            return f"{a_word} of {'items' if self.items else 'none'}"
        return a_word

    def _take(self, word, figures, code):
        if code != "00":
            return
        if word == "weight":
            self.items.append(tuple(figures))
        elif word == "weighed":
            self.load = (self._tonnes(), self._products())
        elif word == "load":
            self.load = None
        elif word == "column":
            self.columns.append(figures[0])
        elif word == "unweigh":
            self.items = []
        elif word == "clear":
            self.items, self.columns, self.load = [], [], None


def names_of_kg(d, products):
    """Of a load that is weighed: how its products lie, and its KG, by D tonnes."""
    kg, rest = max(1, -(-products // d)), products % d
    names = [f"weighed with KG {kg}"]
    names += [f"weighed with products {what}" for what, rests in RESTS if rest == rests % d]
    names += [f"weighed with products {what}" for what, value in [("D", d), ("D + 1", d + 1)] if products == value]
    names += [f"weighed with products {value}" for value in (0, 1) if products == value]
    for bits in (31, 32):
        for by, more in [(" - 1", -1), ("", 0), (" + 1", 1)]:
            if products == 2**bits + more:
                names.append(f"weighed with products 2**{bits}{by}")
    if products > 2**33:
        names.append("weighed with products above 2**33")
    if products == MOST_TONNES * HIGHEST:
        names.append("weighed with products as great as they can be")
    return names


RESTS = [("a multiple of D", 0), ("one above a multiple of D", 1), ("one below a multiple of D", -1)]


def names_of_gm(gm, code, rest):
    """Of a judged load where 1 mm of KG, more or less, gives another code: whether it is 40 hangs on how KG is rounded."""
    names = []
    if code == "40" and LEAST_GM - 1_000 <= gm < LEAST_GM:
        # KG rounded down is 1 mm less, unless there is no rest.
        names += ["weighed load with 40 for the last mm of KG"] if rest else []
        names += ["weighed load with 40 for products one above a multiple of D"] if rest == 1 else []
    if code != "40" and gm < LEAST_GM + 1_000:
        names.append("weighed load without 40 by less than a mm")
        names += ["weighed load without 40 for products a multiple of D"] if rest == 0 else []
    return names


def names_of_refused(word, line, code):
    """Of a line that is turned down for what it is, whatever the condition."""
    if b"weigh" not in line:
        return []
    names = [f"{what} with code {code}" for what, looks in LOOKS.items() if looks.fullmatch(line)]
    return names + ([f"{word} with code {code}"] if word and "weigh" in word else [])
