"""A program's replies byte for byte: against known outputs, and against the reference on generated lines."""

import support
from support import escaped, run_program, split_lines


def check_vectors(results, name, program, need_vectors=False):
    """A program over each input whose right output is known."""
    known = support.vectors()
    if not known:
        if need_vectors:
            results.report(f"{name} vectors", f"there are none in {support.VECTORS}")
        else:
            print(f"skipped {name} vectors: there are none in {support.VECTORS}", flush=True)
    for vector, data, right in known:
        outcome = run_program(program, data)
        why = None if outcome.output == right else difference(data, right, outcome.output)
        results.report(f"{name} vector {vector}", why or outcome.fault)


def check_lines(results, program, kinds, seeds, count):
    """Generated lines through the reference and a program."""
    for kind in kinds:
        for seed in seeds:
            results.report(f"lines {kind} seed {seed} count {count}", compared(program, kind, seed, count))


def compared(program, kind, seed, count):
    """What is wrong, if anything, with a program's replies to the lines of one kind and seed."""
    data = support.generated(kind, seed, count)
    right = run_program(support.build("reference"), data)
    outcome = run_program(program, data)
    if right.fault:
        return f"the reference {right.fault}"
    if outcome.output != right.output:
        return difference(data, right.output, outcome.output) + "\n" + shown_run(program, data, right, outcome)
    return outcome.fault


def first_difference(lines, wanted, got):
    """The place of the first line with another reply, or with none; the number of lines if there is none."""
    place = 0
    while place < len(lines) and wanted[place:place + 1] == got[place:place + 1]:
        place += 1
    return place


def difference(data, right, output):
    """Says in words where two outputs that are not the same differ first."""
    lines, wanted, got = split_lines(data), split_lines(right), split_lines(output)
    place = first_difference(lines, wanted, got)
    if place == len(lines):
        return f"{len(got)} replies to {len(lines)} lines, or no byte 10 behind the last"
    return "\n".join([
        f"line {place + 1}",
        f"    line:     {escaped(lines[place])}",
        f"    expected: {shown(wanted, place)}",
        f"    reply:    {shown(got, place)}",
    ])


def shown(replies, place):
    return escaped(replies[place]) if place < len(replies) else "none"


def shown_run(program, data, right, outcome):
    """The lines of a short run that still shows a difference."""
    lines = split_lines(data)
    place = first_difference(lines, right.replies(), outcome.replies())
    run = shortest_run(program, lines, place)
    return "\n".join(["    a short run that shows it:"] + [f"      {escaped(line, 2_000)}" for line in run])


def differs(program, lines):
    """Whether a program's output for these lines is not the reference's."""
    data = b"".join(line + b"\n" for line in lines)
    wanted, got = (run_program(tested, data, patience=20) for tested in (support.build("reference"), program))
    return wanted.output != got.output


def shortest_run(program, lines, place, tries=400):
    """Takes lines away as long as the outputs still differ. The first difference was found at this place."""
    run = lines[:place + 1]
    if not differs(program, run):
        # A program that ended too early lost replies before it: the line that ended it comes later.
        right, wrong = place + 1, len(lines)
        while wrong - right > 1:
            middle = (right + wrong) // 2
            right, wrong = (right, middle) if differs(program, lines[:middle]) else (middle, wrong)
        run = lines[:wrong]
    # As a rule nothing before the last clear matters.
    clears = [at for at, line in enumerate(run[:-1]) if line.replace(b" ", b"") == b"(clear)"]
    if clears and differs(program, run[clears[-1]:]):
        run = run[clears[-1]:]
    size = max(1, len(run) // 2)
    while tries > 0:
        at, shorter = 0, False
        while at < len(run) and tries > 0:
            candidate = run[:at] + run[at + size:]
            tries -= 1
            if candidate and differs(program, candidate):
                run, shorter = candidate, True
            else:
                at += size
        if size == 1 and not shorter:
            break
        size = max(1, size // 2)
    return run
