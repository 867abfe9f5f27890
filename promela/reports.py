"""What is printed of a run that violates a formula."""

# The longest expression at the head of a column; of a longer one the name is there.
WIDTH = 24
# What Spin shows of a jump that is part of a step.
JUMP = ".(goto)"


def legend(shown):
    """What the names of expressions stand for."""
    return [f"{name} is {{{it}}}" for name, it in shown.items()]


def table(run, names, shown):
    """A line for each state, with a mark for each proposition that is true there, and with the steps from it to the next one."""
    keys = [f"{{{shown[it]}}}" if it in shown and len(shown[it]) <= WIDTH else it for it in names]
    width = len(str(len(run.states) - 1))
    if keys:
        yield "  ".join([" " * width, *keys])
    for k, (true, steps) in enumerate(run.states):
        if k == run.stem:
            yield "the cycle:"
        marks = ["*".ljust(len(key)) if name in true else ".".ljust(len(key)) for name, key in zip(names, keys)]
        told = "; ".join("  ".join(part for part in it if part) for it in merged(steps))
        is_last = run.stem is None and k == len(run.states) - 1
        yield "  ".join([str(k).rjust(width), *marks, "whatever follows" if is_last else told or "(no step is possible)"]).rstrip()


def merged(steps):
    """Steps of one process in a row, as one with its statements."""
    found = []
    for process, place, statement in steps:
        if found and found[-1][0] == process and place:
            found[-1][2] += "" if statement == JUMP else f"; {statement}"
        else:
            found.append([process, place, statement])
    return found
