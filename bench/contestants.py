"""The contestants: running one, comparing what they print, and what is counted of a run.

A time is processor time, user and system, of a whole process; a transaction's is the difference between a run with many and a run
with none, a restart's that between a run with many restarts and a run with one."""
import os
import re
import statistics
import subprocess
import sys
import tempfile

SIZES = dict(pages=64, slots=32, width=4, disks=8, ring=65_536)
ROOM = tempfile.mkdtemp(prefix="bench", dir="/dev/shm")
COMMANDS = {
    "proved": ["crates/bench/out/bench"],
    "C": ["target/bench/floor"],
    "SQLite": ["target/bench/sqlite", ROOM + "/sqlite"],
    "LMDB": ["target/bench/lmdb", ROOM + "/lmdb"],
}
ALL = list(COMMANDS)
LONGER = {"C": 10}  # times as many transactions, so that a run is long enough to time
LOGGING = ["proved", "C"]  # these have the same devices, and so must agree in every count


def stdin_of(sizes, transactions, restarts, steps=0):
    """What a contestant reads; `steps` says to the proved store that it restarts by single steps."""
    return f"{sizes['pages']} {sizes['slots']} {sizes['width']} {sizes['disks']} {sizes['ring']} {transactions} {restarts} {steps}\n"


def parsed(text):
    return {name: int(number) for name, number in re.findall(r"^(\w+) (\d+)$", text, re.M)}


def run(name, transactions, restarts=0, sizes=SIZES):
    """Processor time of a run in seconds, and the numbers that it prints."""
    with tempfile.TemporaryFile("w+") as given, tempfile.TemporaryFile("w+") as printed:
        given.write(stdin_of(sizes, transactions, restarts))
        given.seek(0)
        child = subprocess.Popen(COMMANDS[name], stdin=given, stdout=printed)
        _, status, usage = os.wait4(child.pid, 0)
        child.returncode = status
        if status:
            sys.exit(f"void: {name} ended with status {status}")
        printed.seek(0)
        return usage.ru_utime + usage.ru_stime, parsed(printed.read())


def compare(results):
    """Equal contents for all, equal counts for those with the specification's devices, or the run is void."""
    for name, numbers in results.items():
        first = results[ALL[0]]
        for key in ["transactions", "aborts", "before", "after"]:
            if key in first and first[key] != numbers.get(key):
                sys.exit(f"void: {name} has {key} {numbers.get(key)}, {ALL[0]} has {first[key]}")
        if numbers.get("after", numbers["before"]) != numbers["before"]:
            sys.exit(f"void: {name} has other contents after the restart")
        if name in LOGGING and numbers != first:
            sys.exit(f"void: the counts of {name} and {ALL[0]} differ: {numbers} and {first}")


def compared(results_by_round):
    """The results of the first round, once all rounds are compared."""
    for results in results_by_round:
        compare(results)
    return results_by_round[0]


def spread(times):
    return (max(times) - min(times)) / statistics.median(times)


def turns(contestants, rounds, measure):
    """Each contestant's measurements, taken by turns."""
    found = {name: [] for name in contestants}
    for _ in range(rounds):
        for name in contestants:
            found[name].append(measure(name))
    return found


def transaction_run(name, n, sizes):
    """The time of a run with no transaction, that for each of many, and what a run with n prints."""
    empty = run(name, 0, 0, sizes)[0]
    whole, numbers = run(name, n, 0, sizes)
    many = n * LONGER.get(name, 1)
    if many > n:
        whole = run(name, many, 0, sizes)[0]
    return empty, whole / many, numbers, many


def transaction_times(contestants, n, rounds, sizes=SIZES):
    """For each contestant: seconds for a transaction, the spread of the runs, the numbers printed."""
    runs = turns(contestants, rounds, lambda name: transaction_run(name, n, sizes))
    results = compared([{name: found[i][2] for name, found in runs.items()} for i in range(rounds)])
    times = {}
    for name, found in runs.items():
        empty, each, _, many = zip(*found)
        times[name] = (statistics.median(each) - statistics.median(empty) / many[0], spread(each))
    return times, results


def restart_count(name, n, seconds, sizes):
    """As many restarts as fill the time for one measurement."""
    one, ten = run(name, n, 1, sizes)[0], run(name, n, 11, sizes)[0]
    each = max((ten - one) / 10, 1e-6)
    return max(10, min(20_000, int(seconds / each)))


def restart_times(contestants, n, rounds, seconds, sizes=SIZES):
    """For each contestant: seconds for a restart, the spread of the runs, the numbers printed."""
    counts = {name: restart_count(name, n, seconds, sizes) for name in contestants}
    pairs = turns(contestants, rounds, lambda name: (run(name, n, 1, sizes), run(name, n, 1 + counts[name], sizes)))
    results = compared([{name: found[i][1][1] for name, found in pairs.items()} for i in range(rounds)])
    times = {}
    for name, found in pairs.items():
        many = [with_many[0] for _, with_many in found]
        one = [with_one[0] for with_one, _ in found]
        times[name] = ((statistics.median(many) - statistics.median(one)) / counts[name], spread(many))
    return times, results


def said(name, n, before=(), environment=None):
    """What a run writes to standard error."""
    done = subprocess.run([*before, *COMMANDS[name]], input=stdin_of(SIZES, n, 0), capture_output=True, text=True,
                          env={**os.environ, **(environment or {})}, check=True)
    return done.stderr


def copied_bytes(name, n=2_000):
    """Bytes copied by memcpy and memmove for a call; a transaction is five calls."""
    preload = {"LD_PRELOAD": os.path.abspath("target/bench/copies.so")}
    count = lambda k: int(re.search(r"copied (\d+)", said(name, k, environment=preload)).group(1))
    return (count(n) - count(0)) / (5 * n)


def counted(command, text, profile="/dev/null"):
    """Instructions of a run on a text, counted by callgrind: the one figure without noise; and what the run prints."""
    tool = ["valgrind", "--tool=callgrind", "--callgrind-out-file=" + profile, "--main-stacksize=8388608"]
    done = subprocess.run([*tool, *command], input=text, capture_output=True, text=True, check=True)
    return int(re.search(r"Collected : (\d+)", done.stderr).group(1)), done.stdout


def instructions(name, n=2_000):
    """Instructions for a transaction: many less none."""
    count = lambda k: counted(COMMANDS[name], stdin_of(SIZES, k, 0))[0]
    return (count(n) - count(0)) / n


def restart_instructions(name, n, most=11, steps=0):
    """Instructions for a restarted record: many restarts less one."""
    one, _ = counted(COMMANDS[name], stdin_of(SIZES, n, 1, steps))
    many, printed = counted(COMMANDS[name], stdin_of(SIZES, n, most, steps))
    return (many - one) / (most - 1) / parsed(printed)["records"]


def hot_functions(transactions, restarts, most=8):
    """The functions that take most of the proved store's instructions, each with its own share."""
    with tempfile.TemporaryDirectory() as folder:
        profile = folder + "/profile"
        counted(COMMANDS["proved"], stdin_of(SIZES, transactions, restarts), profile)
        text = subprocess.run(["callgrind_annotate", profile], capture_output=True, text=True, check=True).stdout
    rows = re.findall(r"^ *[\d,]+ \( *([\d.]+)%\)  [^:\n]*:(\S+)", text, re.M)
    return [[function, f"{float(share):.0f} %"] for share, function in rows[:most]]


def peak_kilobytes(name, n=20_000):
    return int(said(name, n, before=["/usr/bin/time", "-f", "%M"]).split()[-1])


def device_kilobytes(name, results):
    """What would have to lie on devices: anchor, backups and logs, or the file."""
    if name in LOGGING:
        words = SIZES["pages"] * SIZES["slots"] * SIZES["width"]
        return 8 * (148 + 2 * words + SIZES["disks"] * (SIZES["ring"] + 1)) / 1024
    return results[name]["file"] / 1024


def stores(name, results):
    """Words stored for a transaction: by the devices' own count, or by what the process wrote to its file."""
    numbers = results[name]
    if name == "LMDB":
        n = 20_000
        command = [*COMMANDS[name], "written"]
        done = subprocess.run(command, input=stdin_of(SIZES, n, 0), capture_output=True, text=True, check=True)
        return parsed(done.stdout)["stores"] / n
    return numbers["stores"] / numbers["transactions"]
