"""What parts beside a board weigh, worked in fractions from the words of document 02, P7: its figures, its limits, splits by
chance beside the parts in whose place they stand, and the laws that hold of them all."""

import itertools
import math
import random
from fractions import Fraction

import differences
import splits
import support

SLOPE = Fraction(46_631, 100_000)
LONGEST, BROADEST = 60_000, 40_000
# Of a void and a grain as deep as this the deck and the floor cut nothing.
DEEP = 30_000
MM4_IN_THOUSANDTH = 10**9

# Parts of a hold with the stowage factor 12,500, and its weight moment.
FIGURES = [
    # 1,714.3 mm of the board have no effect, rounded up 1,715: 8,285 mm with twice 8,393,580,000 mm³, and 11,715 mm with
    # 67,148,640,000 mm³, are 925,727.9 thousandths of m⁴; 925,728 × 1.12 is 1,036,815.4; 1,036,816 × 0.8 is 829,452.8.
    ("(split 20000 10000 6000 6000)", 829_453),
    # A deck that cuts leaves less than the board does.
    ("(part 20000 12000 600 6000)", 535_149),
    ("(part 20000 12000 30000 30000)", 1_203_304),
    ("(split 20000 10000 6000 6000) (part 20000 12000 600 6000)", 1_364_602),
    # 67,148,640,000 mm³ over 20,000 mm: nothing is left of the board.
    ("(split 20000 1 6000 6000)", 1_203_304),
    ("(split 20000 1715 6000 6000)", 1_203_304),
    # 1 mm of it has effect: 50.4 thousandths of m⁴ less, 1,342,923 × 1.12 = 1,504,073.8; × 0.8 = 1,203,259.2.
    ("(split 20000 1716 6000 6000)", 1_203_260),
    # From end to end: 18,285 mm and 1,715 mm, 422,114 thousandths of m⁴.
    ("(split 20000 20000 6000 6000)", 378_215),
    # 2,857.1 mm have no effect, by the greater breadth on either side: 7,142 mm with 38,859,166,667 + 310,873,334 mm³ and
    # 12,858 mm with 67,148,640,000 mm³ are 1,143,149.6 thousandths; 1,143,150 × 1.12 is 1,280,328; × 0.8 is 1,024,262.4.
    ("(split 20000 10000 10000 2000)", 1_024_263),
    ("(split 20000 10000 2000 10000)", 1_024_263),
]

LENGTHS = [0, 1, 2, 59_999, 60_000, 60_001, 65_535, 65_536, 65_537, 125_536, 999_999_999]
BREADTHS = [0, 1, 2, 20_000, 20_001, 25_536, 25_537, 39_999, 40_000, 40_001, 65_535, 65_536, 65_537, 999_999_999]


# ---- The request's words, in fractions ----

def deduction(left, right):
    """Two-sevenths of the greater breadth, rounded up."""
    return math.ceil(Fraction(2, 7) * max(left, right))


def effective_length(run, left, right):
    return max(0, run - deduction(left, right))


def section(breadth):
    """The section moment of a breadth that neither deck nor floor cuts, in mm³."""
    return math.ceil(SLOPE * breadth**3 / 12)


def volume(length, run, left, right):
    """A split in mm⁴."""
    effective = effective_length(run, left, right)
    return effective * (section(left) + section(right)) + (length - effective) * section(left + right)


def uncut_volume(length, left, right):
    """The part in mm⁴ that a split of no effect is as heavy as."""
    return length * section(left + right)


def thousandths(moment):
    return math.ceil(Fraction(moment, MM4_IN_THOUSANDTH))


def weight(sf, moments):
    """The weight moment of a partial hold with parts of these mm⁴."""
    hold = math.ceil(Fraction(112, 100) * sum(thousandths(moment) for moment in moments))
    return math.ceil(Fraction(10_000, sf) * hold)


def is_within_limits(length, run, left, right):
    return 1 <= length <= LONGEST and 1 <= run <= length and left >= 1 and right >= 1 and left + right <= BROADEST


# ---- Splits by chance ----

def any_number(chance, least, most):
    """Often next to the least or the most."""
    near = chance.randint(0, min(20, most - least))
    return chance.choice([least, most, least + near, most - near, chance.randint(least, most), chance.randint(least, most)])


def by_chance(count):
    """The same splits on every machine, within the limits; every other board is about as long as the deduction."""
    chance = random.Random(7)
    found = []
    for _ in range(count):
        length, breadth = any_number(chance, 1, LONGEST), any_number(chance, 2, BROADEST)
        left = chance.choice([breadth // 2, any_number(chance, 1, breadth - 1)])
        next_to = deduction(left, breadth - left) + chance.randint(-1, 1)
        run = chance.choice([any_number(chance, 1, length), max(1, min(length, next_to))])
        found.append((length, run, left, breadth - left))
    return found


# ---- The laws ----

def is_rounded_up_once(length, run, left, right):
    moment = volume(length, run, left, right)
    return moment <= thousandths(moment) * MM4_IN_THOUSANDTH < moment + MM4_IN_THOUSANDTH


def is_two_sevenths(length, run, left, right):
    effective, greater = effective_length(run, left, right), max(left, right)
    taken_off = run - effective
    if effective == 0:
        # At most what the rounding up of the deduction adds beyond it.
        return 7 * run < 2 * greater + 7
    return 2 * left <= 7 * taken_off and 2 * right <= 7 * taken_off and 7 * taken_off < 2 * greater + 7


def is_no_more_than_uncut(length, run, left, right):
    split, uncut = volume(length, run, left, right), uncut_volume(length, left, right)
    if effective_length(run, left, right) == 0:
        return split == uncut
    return thousandths(split) <= thousandths(uncut)


LAWS = {
    "two-sevenths are taken off, and less than 1 mm more": is_two_sevenths,
    "rounded up once, by less than a thousandth": is_rounded_up_once,
    "no more than uncut, and alike without effect": is_no_more_than_uncut,
    "two breadths no more than both together, but for two of 1 mm":
        lambda length, run, left, right: section(left) + section(right) <= section(left + right) or left == right == 1,
    "LEFT and RIGHT may be exchanged":
        lambda length, run, left, right: volume(length, run, left, right) == volume(length, run, right, left),
    "at most 150,000,000,000,000,000 mm⁴": lambda *split: volume(*split) <= 150_000_000_000_000_000,
    "the reading by which the coverage tells wrong ones": lambda *split: thousandths(volume(*split)) == splits.right_reading(*split),
}


def check_laws(results):
    """Each law, of splits by chance and of those of the greatest and least sizes."""
    ends = [split for split in itertools.product(LENGTHS, LENGTHS, BREADTHS, BREADTHS) if is_within_limits(*split)]
    tried = by_chance(10_000) + ends
    for law, holds in LAWS.items():
        against = next((split for split in tried if not holds(*split)), None)
        results.report(f"splits: {law}", f"not of {against}" if against else None)


# ---- A program ----

def check_boards(results, name, program):
    """A program on the figures, on the limits and on splits by chance."""
    for what, turns in [("figures", figures()), ("limits", limits()), ("by chance", in_place_of_parts())]:
        data = b"".join(line + b"\n" for line, _ in turns)
        right = b"".join(reply + b"\n" for _, reply in turns)
        outcome = support.run_program(program, data)
        why = None if outcome.output == right else differences.difference(data, right, outcome.output)
        results.report(f"{name} splits, {what}", why or outcome.fault)


def spelled(split):
    return "(split {} {} {} {})".format(*split)


def weighed(sf, parts, moment):
    """A hold, and the total behind it."""
    return [(f"(hold 1 partial {sf} {parts})".encode(), b"(answer 00)"), (b"(total)", b"(answer 00 %d)" % moment)]


def figures():
    return [turn for parts, moment in FIGURES for turn in weighed(12_500, parts, moment)]


def limits():
    """Every split of these numbers in a partial hold; some in holds that are not partial, where they have no shape."""
    turns = []
    for split in itertools.product(LENGTHS, LENGTHS, BREADTHS, BREADTHS):
        code = b"(answer 00)" if is_within_limits(*split) else b"(answer 20)"
        turns.append((f"(hold 1 partial 12500 {spelled(split)})".encode(), code))
    for mode, split in itertools.product(["trimmed", "voided"], itertools.product(LENGTHS, LENGTHS, [6_000], [0, 6_000])):
        turns.append((f"(hold 1 {mode} 12500 {spelled(split)})".encode(), b"(answer 14)"))
    return turns


def in_place_of_parts():
    """Holds with a split, with the uncut part in its place, and with both and the split turned round."""
    chance, turns = random.Random(12), []
    for length, run, left, right in by_chance(3_000):
        sf = any_number(chance, 5_000, 40_000)
        split, turned = spelled((length, run, left, right)), spelled((length, run, right, left))
        part = f"(part {length} {left + right} {DEEP} {DEEP})"
        beside, uncut = volume(length, run, left, right), uncut_volume(length, left, right)
        turns += weighed(sf, split, weight(sf, [beside]))
        turns += weighed(sf, part, weight(sf, [uncut]))
        turns += weighed(sf, f"{split} {part} {turned}", weight(sf, [beside, uncut, beside]))
    return turns
