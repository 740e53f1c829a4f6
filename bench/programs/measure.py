"""Runs the programs of bench/programs on each input in turn, and prints the least time of each.

    python3 bench/programs/measure.py ROUNDS WORKLOADS RIVAL [SQUALL]

WORKLOADS is a word with the names of some workloads, or empty for all. The time is that of the user and of the system,
in seconds. A run that takes more than a minute of it is ended, and an input is run no more once its runs have taken a
minute in all. The outputs of both programs have to be the same. First both play small random scenarios, whose outputs
are compared too.
"""
import filecmp
import os
import resource
import signal
import sys
import tempfile
import time
from pathlib import Path

sys.dont_write_bytecode = True
import inputs

SMALL = 100
MINUTE = 60


def timed(words, folder, out):
    """What a run takes, or None if it was ended. The program reads the file `in`, and writes the file `out`."""
    with open(folder / "in", "rb") as lines, open(folder / out, "wb") as answers:
        files = [(os.POSIX_SPAWN_DUP2, lines.fileno(), 0), (os.POSIX_SPAWN_DUP2, answers.fileno(), 1)]
        program = os.posix_spawn(words[0], words, os.environ, file_actions=files)
        resource.prlimit(program, resource.RLIMIT_CPU, (MINUTE, MINUTE + 1))
        _, status, used = os.wait4(program, 0)
    if os.WIFSIGNALED(status) and os.WTERMSIG(status) in (signal.SIGXCPU, signal.SIGKILL):
        return None
    if status:
        sys.exit(f"bench/programs: {' '.join(map(str, words))} ended with status {os.waitstatus_to_exitcode(status)}")
    return used.ru_utime + used.ru_stime


def words_of(workload, folder):
    """The words for the programs."""
    if workload in ("check", "course"):
        return [workload, folder / "in", folder / "new"][:2 + (workload == "course")]
    return ["run", "-"]


def same(programs, words, folder, what):
    """Runs each program once, and compares what they write: the time of each."""
    times = [timed([program, *words], folder, f"out{at}") for at, program in enumerate(programs)]
    if len(programs) == 2 and None not in times and not filecmp.cmp(folder / "out0", folder / "out1", shallow=False):
        sys.exit(f"bench/programs: the answers of both programs differ on {what}")
    return times


def try_small(programs, folder):
    """Plays small random scenarios."""
    for seed in range(SMALL):
        with open(folder / "in", "w", encoding="ascii") as file:
            file.writelines(inputs.small(seed))
        same(programs, ["run", "-"], folder, f"the small scenario {seed}")


def measure(programs, rounds, workload, size, folder):
    """The least time of each program."""
    for copy, name in enumerate(("in", "new")):
        if copy == 0 or workload == "course":
            with open(folder / name, "w", encoding="ascii") as file:
                file.writelines(inputs.lines_of(workload, size, copy))
    what = f"{workload} {size:,}"
    times, begin = [], time.monotonic()
    while len(times) < rounds and (not times or time.monotonic() - begin < MINUTE):
        times.append(same(programs, words_of(workload, folder), folder, what))
    return [None if None in of else min(of) for of in zip(*times)]


def shown(least):
    """The cells of the least times, and of their ratio if there are two."""
    cells = [f"over {MINUTE}" if it is None else f"{it:.4f}" for it in least]
    if len(least) == 2 and least[0] is not None:
        cells.append(f"over {MINUTE / least[0]:.0f}" if least[1] is None else f"{least[1] / least[0]:.1f}")
    return cells


def row(cells):
    print(f"| {' | '.join(cells)} |", flush=True)


def main():
    rounds, asked, programs = int(sys.argv[1]), sys.argv[2].split(), sys.argv[3:]
    with tempfile.TemporaryDirectory() as name:
        folder = Path(name)
        try_small(programs, folder)
        names = ["workload", "size", "rival", "squall", "ratio"][:3 if len(programs) == 1 else 5]
        row(names)
        row(["---"] * len(names))
        for workload in asked or inputs.WORKLOADS:
            for size in inputs.WORKLOADS[workload]:
                row([workload, f"{size:,}", *shown(measure(programs, rounds, workload, size, folder))])


if __name__ == "__main__":
    main()
