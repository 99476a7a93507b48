"""The examples, and the dialogues that the documents print: every line is answered as it stands there."""

import re

import differences
import process
import support
from support import run_program, split_lines

EXAMPLES = support.REPOSITORY / "examples"
NAMES = ("README.md", "docs/CODES.md", "docs/MARGIN.md", "docs/COMMISSIONING.md")
DOCUMENTS = [support.REPOSITORY / name for name in NAMES]

# A code block; or a row of a table.
ENTRY = re.compile(r"^```\n(.*?)^```\n|^\| ([^\n]*) \|\n", re.MULTILINE | re.DOTALL)
# In a code block what is typed stands at the margin, and the reply stands indented below it.
TURN = re.compile(r"(.+)\n(?:    (.*)\n)?")
# Rows that are dialogues: a line, its code, why; or lines and the last reply, behind a code or before what it shows.
CODED = re.compile(r"(?:`([^|]*)`|\(nothing\)) \| (\d\d) \| [^|]*")
SHOWN = re.compile(r"(\d\d \| )?([^|]*) \| `(\((?:answer|verdict) [^`|]*\))`(?: \| [^|]*)?")
QUOTED = re.compile(r"`(\(.*?\))`((?: and [\d,]+ spaces)?)")
SPACES = re.compile(r" +and ([\d,]+) spaces$")

TAKEN = "(answer 00)"
COLUMN = "(column {} 9000 (0 870 1740 2080 2600 3450 4300 5100 5850 6500))"
CONDITION_A = ["(clear)", *process.WORKED_RUN.decode().splitlines()[:-1]]

# Lines that a document asks for in words before the block or row that begins with this line; each is taken.
IN_WORDS = {
    ("README.md", "(load 25000 8000 100)"): [line for line in CONDITION_A if not line.startswith("(load")],
    ("CODES.md", COLUMN.format(49_000)): [COLUMN.format(d) for d in range(31_000, 49_000, 1_000)],
    ("COMMISSIONING.md", "(ship old 1050 2860)"): ["(clear)"],
    ("COMMISSIONING.md", "(ship new 500 3500)"): CONDITION_A,
    ("COMMISSIONING.md", "(judge)" + 1_994 * " "): CONDITION_A,
    ("COMMISSIONING.md", "(show(hold 2 partial 12500(part 10000   12000 3000 6000)))"): CONDITION_A,
    ("COMMISSIONING.md", COLUMN.format(49_000)): [COLUMN.format(d) for d in range(32_000, 49_000, 1_000)],
}


def check_dialogues(results, name, program):
    """A program's replies to each example, and to all that a document has typed, one line after the other."""
    for what, data, right in examples() + [(path.name, *typed(dialogue(path))) for path in DOCUMENTS]:
        outcome = run_program(program, data)
        why = "no lines" if not data else None
        if outcome.output != right:
            why = differences.difference(data, right, outcome.output)
        results.report(f"{name} {what}, {data.count(10)} lines", why or outcome.fault)


def check_examples(results):
    """Each example is printed, line by line with its replies, in a document."""
    dialogues = [[typed([turn]) for turn in dialogue(path)] for path in DOCUMENTS]
    for what, data, right in examples():
        turns = [(line + b"\n", reply + b"\n") for line, reply in zip(split_lines(data), split_lines(right))]
        found = any(turns == printed[at:at + len(turns)] for printed in dialogues for at in range(len(printed)))
        results.report(f"{what} stands in a document", None if found else "no document has these lines and replies")


def examples():
    """Each example with its replies."""
    inputs = sorted(EXAMPLES.glob("*.in"))
    return [(path.name, path.read_bytes(), path.with_suffix(".out").read_bytes()) for path in inputs]


def typed(turns):
    """The input and the output of a dialogue."""
    return tuple("".join(text + "\n" for text in texts).encode() for texts in zip(*turns)) or (b"", b"")


def dialogue(path):
    """Each line that a document has typed, with its reply."""
    turns = []
    for entry in entries(path.read_text()):
        turns += [(line, TAKEN) for line in IN_WORDS.get((path.name, entry[0][0]), [])] + entry
    return turns


def entries(text):
    """The lines and replies of each code block, and of each row that shows a reply, in their order."""
    for block, row in ENTRY.findall(text):
        turns = [(spelled(line), reply) for line, reply in TURN.findall(block)] if block else row_turns(row)
        if turns:
            yield turns


def row_turns(row):
    """The lines and replies of a table's row, if it shows a reply. Every line but the last is taken."""
    if coded := CODED.fullmatch(row):
        return [(coded[1] or "", f"(answer {coded[2]})")]
    shown = SHOWN.fullmatch(row)
    lines = [spelled("".join(quoted)) for quoted in QUOTED.findall(shown[2]) if quoted[0] != TAKEN] if shown else []
    if not lines:
        return []
    # A row without a code of its own is typed with condition (a) stored.
    lines = lines if shown[1] else CONDITION_A + lines
    return [(line, TAKEN) for line in lines[:-1]] + [(lines[-1], shown[3])]


def spelled(line):
    """A line with the spaces that are told in words."""
    return SPACES.sub(lambda told: int(told[1].replace(",", "")) * " ", line)
