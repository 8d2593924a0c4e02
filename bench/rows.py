"""The rows of the bench: which jobs are done, by which words a program is told to do one, and how the times of several programs are put into one table."""
import os
import statistics
import subprocess

WORDS = 8 * 1716  # of a round
JOBS = {
    "a": "variable blocks of 10,000, flag 01h",
    "b": "variable blocks of 100, flag 01h",
    "c": "fixed blocks 21h, flag 00h",
    "d": "filler lines, flag 01h",
    "e": "closing alone, nothing laid, flag 01h",
    "f": "closing alone, a full line, flag 01h",
    "g": "fixed blocks 21h, flag 00h, by one call a line",
    "h": "variable blocks of 4, flag 01h",
    "i": "variable blocks of 4, flag 01h, by one call a line",
    "j": "variable blocks of 1, flag 01h",
    "k": "variable blocks of 10, flag 01h",
    "l": "variable blocks of 1,000, flag 01h",
    "m": "lines refused with 3",
    "n": "lines refused with 16",
}
MODES = 8, 9
READ = "abcdjkl"  # jobs whose lines are read, in slices too, and checked, where digests are compared
ROWS = [*(("write", job) for job in "abcdefghijkl"), *(("read", job) for job in "abcjkl"), *(("slice", job) for job in "abc"), *(("check", job) for job in "cdmn")]
# jobs that bench/host.c does
THROUGH = [*(("write", job) for job in "abcgijkl"), *(("read", job) for job in "abcjkl"), *(("slice", job) for job in "abc")]
MOST_ROUNDS = 9999
TRIES, SPAN = 3, 0.05  # a time is the best of so many runs, and of more until they took so many seconds


def one(command):
    """How a program is told that does all jobs."""
    return lambda what, job, mode, rounds: ([*command, what, job, str(mode), str(rounds)], None)


def three(pace, pacereads, slices, folder):
    """How ours are told: `pace` writes, the others are given the lines of a job, which lie in a folder."""

    def told(what, job, mode, rounds):
        if what == "write":
            return [*pace, job, str(mode), str(rounds)], None
        words = slices if what == "slice" else [*pacereads, what]
        return [*words, str(mode), str(rounds)], lines_of(folder, job, mode)

    return told


def lines_of(folder, job, mode):
    return f"{folder}/{job}{mode}.lines"


def put_lines(twin, folder):
    """The twin writes the lines that are read and checked, the spoiled ones too."""
    for job in {job for what, job in ROWS if what != "write"} | {*READ}:
        for mode in MODES:
            with open(lines_of(folder, job, mode), "wb") as f:
                subprocess.run([*twin, "lines", job, str(mode), "1"], stdout=f, check=True)


def run(words, lines):
    """What a program prints, and the seconds of processor time that it took."""
    read, write = os.pipe()
    actions = [(os.POSIX_SPAWN_DUP2, write, 1)]
    if lines:
        actions.append((os.POSIX_SPAWN_OPEN, 0, lines, os.O_RDONLY, 0))
    pid = os.posix_spawnp(words[0], words, os.environ, file_actions=actions)
    os.close(write)
    with os.fdopen(read) as f:
        text = f.read()
    _, status, usage = os.wait4(pid, 0)
    if status:
        text = ""  # which agrees with nothing
    return text, usage.ru_utime + usage.ru_stime


def agree(sides, what, job, mode):
    """What the programs print, where it is not the same, or nothing."""
    said = {name: run(*told(what, job, mode, 3))[0].strip() for name, told in sides.items()}
    return said if len({*said.values()}) > 1 or "" in said.values() else None


def rates(sides, what, job, mode):
    """Millions of words a second of each: the best of some runs, less the best of one round. The programs take turns, run by run, because
    a shared machine is faster at one time than at another."""
    took, all_of_it = {}, 0.0
    while min(map(len, took.values()), default=0) < TRIES or (all_of_it < SPAN * len(sides) and len(took[next(iter(took))]) < 40):
        for name, told in sides.items():
            for rounds in MOST_ROUNDS, 1:
                seconds = run(*told(what, job, mode, rounds))[1]
                took.setdefault((name, rounds), []).append(seconds)
                all_of_it += seconds
    best = {key: min(seconds) for key, seconds in took.items()}
    return {name: (MOST_ROUNDS - 1) * WORDS / max(best[name, MOST_ROUNDS] - best[name, 1], 1e-6) / 1e6 for name in sides}


def ratio(tables, row, over, under):
    """The median of one program's ratio to another, each of one table, with the lowest and the highest."""
    found = [table[row][over] / table[row][under] for table in tables if {over, under} <= table[row].keys()]
    return (statistics.median(found), min(found), max(found)) if found else None


def measured(count, rows):
    """Some tables one after another: of each row, which comes with the programs that do it, what each made."""
    return [{row: rates(sides, *row[:3]) for row, sides in rows.items()} for _ in range(count)]


def middle(tables, row, name):
    return statistics.median(table[row][name] for table in tables)
