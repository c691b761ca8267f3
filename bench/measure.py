"""Measures the contestants by turns and prints tables of medians and ratios.

`--quick` makes fewer and shorter runs; `--write` puts the tables into docs/BENCHMARK.md too."""
import os
import platform
import re
import shutil
import sys

from contestants import (ALL, LOGGING, ROOM, SIZES, copied_bytes, device_kilobytes, hot_functions, instructions, peak_kilobytes,
                         restart_instructions, restart_times, stores, transaction_times)
from shapes import SHAPES, empty_restart, open_record, restarted_record, undone_update

QUICK = "--quick" in sys.argv
ROUNDS = 3 if QUICK else 7
SERIES_ROUNDS = 1 if QUICK else 3
TRANSACTIONS = 50_000 if QUICK else 400_000
SERIES_TRANSACTIONS = 20_000 if QUICK else 100_000
RETAINED = 2_800  # transactions that nearly fill a ring of 65,536 words
RESTART_SECONDS = 0.05 if QUICK else 0.25

SAID = []


def say(line):
    SAID.append(line)
    print(line, flush=True)


def physical_words(numbers, width):
    """Log words of the same stream with before and after images: an undo is logged by its after image."""
    n, aborts = numbers["transactions"], numbers["aborts"]
    return n * (3 * (3 + 2 * width) + 2) + aborts * 3 * (3 + width)


def shown(number):
    if number is None:
        return "-"
    if number >= 100:
        return f"{number:,.0f}"
    return f"{number:.1f}" if number >= 10 else f"{number:.2f}"


def table(heading, rows):
    say("| " + " | ".join(heading) + " |")
    say("|---|" + "---:|" * (len(heading) - 1))
    for row in rows:
        say("| " + " | ".join(cell if isinstance(cell, str) else shown(cell) for cell in row) + " |")
    say("")


def figure(label, values):
    """A row: a value for each contestant, and the proved store's ratios to the others."""
    proved = values["proved"]
    ratios = [proved / values[name] if values.get(name) else None for name in ALL[1:]]
    return [label, *(values.get(name) for name in ALL), *ratios]


def percent(number):
    return f"{100 * number:.0f} %"


def main_table():
    transaction, results = transaction_times(ALL, TRANSACTIONS, ROUNDS)
    restart, restarted = restart_times(ALL, RETAINED, ROUNDS, RESTART_SECONDS)
    numbers, records = results["proved"], restarted["proved"]["records"]
    peak = {name: peak_kilobytes(name) for name in ALL}
    devices = {name: device_kilobytes(name, results) for name in ALL}  # in memory, but for SQLite's file, which is not mapped
    updates, width = 3 * numbers["transactions"], SIZES["width"]
    say(f"{numbers['transactions']:,} transactions, of which {numbers['aborts']:,} aborted, {numbers['checkpoints']:,} checkpoints; "
          f"a restart takes {records:,} records and {SIZES['pages']} pages. Contents equal in all runs.\n")
    table(["Figure", *ALL, *(f"proved / {name}" for name in ALL[1:])], [
        figure("a transaction, ns", {name: t * 1e9 for name, (t, _) in transaction.items()}),
        figure("a transaction, instructions", {name: instructions(name) for name in ALL}),
        figure("a restarted record, ns", {name: restart[name][0] / records * 1e9 for name in LOGGING}),
        figure("a restarted record, instructions", {name: restart_instructions(name, RETAINED) for name in LOGGING}),
        figure("a record restarted by a single step, instructions",
               {name: restart_instructions(name, RETAINED, most=3, steps=1) for name in LOGGING}),
        figure("a restart, µs", {name: t * 1e6 for name, (t, _) in restart.items()}),
        figure("stores for a transaction, words", {name: stores(name, results) for name in ALL}),
        figure("bytes copied for a call", {name: copied_bytes(name) for name in ALL}),
        figure("peak memory, KB", peak),
        figure("devices or file, KB", devices),
        figure("peak memory without these, KB", {name: peak[name] - (name != "SQLite") * devices[name] for name in ALL}),
        ["spread of transaction runs", *(percent(transaction[name][1]) for name in ALL), "", "", ""],
        ["spread of restart runs", *(percent(restart[name][1]) for name in ALL), "", "", ""],
    ])
    table(["Log words", "differences", "before and after images", "ratio"], [
        ["an update record", 3 + width, 3 + 2 * width, (3 + width) / (3 + 2 * width)],
        ["an update, with its share of all other records", numbers["words"] / updates, physical_words(numbers, width) / updates,
         numbers["words"] / physical_words(numbers, width)],
    ])


def width_series():
    rows = []
    for width in [1, 2, 4, 8, 16, 32]:
        sizes = {**SIZES, "width": width, "slots": 128 // width}
        transaction, results = transaction_times(ALL, SERIES_TRANSACTIONS, SERIES_ROUNDS, sizes)
        n = int(SIZES["ring"] * 0.95) // (3 * (3 + width) + 2)
        restart, restarted = restart_times(LOGGING, n, SERIES_ROUNDS, RESTART_SECONDS, sizes)
        record = [restart[name][0] / restarted[name]["records"] * 1e9 for name in LOGGING]
        updates = 3 * SERIES_TRANSACTIONS
        rows.append([str(width), *(transaction[name][0] * 1e9 for name in ALL), *record, results["proved"]["words"] / updates,
                     physical_words(results["proved"], width) / updates])
    say("By the length of a slot (pages of 128 words):\n")
    table(["words in a slot", *(f"{name}, ns a transaction" for name in ALL), *(f"{name}, ns a restarted record" for name in LOGGING),
           "log words an update", "with images"], rows)


def disk_series():
    rows = []
    for disks in [1, 2, 4, 8]:
        transaction, _ = transaction_times(LOGGING, SERIES_TRANSACTIONS, SERIES_ROUNDS, {**SIZES, "disks": disks})
        rows.append([str(disks), *(transaction[name][0] * 1e9 for name in LOGGING)])
    say("By the number of disks:\n")
    table(["disks", *(f"{name}, ns a transaction" for name in LOGGING)], rows)


def log_series():
    rows = []
    for n in [RETAINED // 16, RETAINED // 8, RETAINED // 4, RETAINED // 2, RETAINED]:
        restart, restarted = restart_times(LOGGING, n, SERIES_ROUNDS, RESTART_SECONDS)
        records = restarted["proved"]["records"]
        rows.append([f"{restarted['proved']['words']:,}", f"{records:,}", *(restart[name][0] * 1e6 for name in LOGGING),
                     *(restart[name][0] / records * 1e9 for name in LOGGING)])
    say("By the length of the retained log at the restart:\n")
    table(["words retained", "records", *(f"{name}, µs a restart" for name in LOGGING),
           *(f"{name}, ns a record" for name in LOGGING)], rows)


def shape_row(name, part, empty):
    """A shape of the log that fills a part of the ring."""
    plan = SHAPES[name](SIZES["ring"] // part)
    records, closed = restarted_record(plan, empty)
    updates, undone = undone_update(plan)
    return [name, f"1/{part}" if part > 1 else "1", f"{records:,}", closed, open_record(plan, empty), f"{updates:,}", undone]


def shape_series():
    empty = empty_restart()
    rows = [shape_row(name, part, empty) for part in ([16] if QUICK else [16, 4, 1]) for name in SHAPES]
    say("By the shape of the log, the proved store's instructions:\n")
    table(["the log", "of the ring", "records", "a restarted record", "left open, a restarted record", "updates", "an undone update"], rows)
    record, undone = ([row[k] for row in rows for k in columns if row[k] is not None] for columns in [(3, 4), (6,)])
    say(f"The dearest restarted record costs {shown(max(record) / min(record))} times the cheapest, "
        f"the dearest undone update {shown(max(undone) / min(undone))} times.\n")


def profile():
    say("Where the proved store's instructions go, by function: a run of transactions, and a run with many restarts.\n")
    table(["transactions", "share"], hot_functions(4_000, 0))
    table(["restarts", "share"], hot_functions(RETAINED, 10))


def write(path="docs/BENCHMARK.md"):
    """Puts what was said between the two marks of the page."""
    first, last = "<!-- the output of bench/run -->\n", "<!-- end of the output -->"
    text = open(path).read()
    before, rest = text.split(first)
    _, after = rest.split(last)
    open(path, "w").write(before + first + "\n" + "\n".join(SAID).strip() + "\n\n" + last + after)


def processor():
    found = re.search(r"model name\s*: (.*)", open("/proc/cpuinfo").read())
    return found.group(1) if found else platform.machine()


def main():
    try:
        say(f"{processor()}, {os.cpu_count()} processors; medians of {ROUNDS} runs by turns (series: {SERIES_ROUNDS}).\n")
        main_table()
        width_series()
        disk_series()
        log_series()
        shape_series()
        profile()
    finally:
        shutil.rmtree(ROOM)
    if "--write" in sys.argv:
        write()


main()
