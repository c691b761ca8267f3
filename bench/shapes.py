"""Logs of several shapes, by crate log_bench: instructions for a restarted record and for an undone update.

Slots have one word: an update takes four words of log, and four more to be undone; a close takes two."""
import functools
import re
import sys

from contestants import counted

COMMITTED, ABORTED, LEFT_OPEN = range(3)
# For each shape the transactions that are open together, the updates of each and the rounds whose aborts fill so many words.
SHAPES = {
    "one long transaction": lambda words: (1, (words - 2) // 8, 1),
    "sixteen interleaved": lambda words: (16, (words // 16 - 2) // 8, 1),
    "short ones": lambda words: (1, 3, words // 26),
}


@functools.cache
def run(plan, closing, restarts):
    """Instructions of a run, and the records of a restart; void where a call is refused, a restart does not end or contents are lost."""
    count, printed = counted(["crates/log_bench/out/log_bench"], "".join(f"{n:019d}\n" for n in [*plan, closing, restarts]))
    numbers = {name: int(number) for number, name in re.findall(r"^(\d+) (\w+)$", printed, re.M)}
    if numbers["refused"] or numbers.get("checkpoint", 2) != 2:
        sys.exit(f"void: {numbers['refused']} calls refused in {plan}, or the end of a restart")
    if closing != LEFT_OPEN and numbers.get("after", numbers["before"]) != numbers["before"]:
        sys.exit(f"void: other contents after the restart in {plan}")
    return count, numbers.get("records", 0)


def one_restart(plan, closing):
    """Instructions of a restart, one less none; and its records."""
    one, records = run(plan, closing, 1)
    return one - run(plan, closing, 0)[0], records


def empty_restart():
    """A restart of an empty log: the checks, the backup, the end, the contents printed."""
    return one_restart((1, 0, 0), COMMITTED)


def each(restart, empty):
    """Instructions for a record, beyond a restart of an empty log."""
    return (restart[0] - empty[0]) / (restart[1] - empty[1])


def restarted_record(plan, empty):
    """The records that the aborted transactions leave, and instructions for each."""
    restart = one_restart(plan, ABORTED)
    return restart[1], each(restart, empty)


def open_record(plan, empty):
    """The same for transactions that were open when the power failed: half the log. None where they are too many."""
    return each(one_restart(plan, LEFT_OPEN), empty) if plan[2] == 1 else None


def undone_update(plan):
    """The updates, and what their aborts take more than commits, for each."""
    updates = plan[0] * plan[1] * plan[2]
    return updates, (run(plan, ABORTED, 0)[0] - run(plan, COMMITTED, 0)[0]) / updates
