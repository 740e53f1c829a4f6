"""Runs commands over board files by both programs in turn, compares what they write, and prints the least time of each.

    python3 bench/files/measure.py ROUNDS RIVAL SQUALL

The time is that of the user and of the system, in milliseconds.
"""
import os
import sys
import tempfile
from pathlib import Path

sys.dont_write_bytecode = True
import inputs

SIZES = [(1000, 64), (100_000, 4096)]
COMMANDS = {
    "status": ["status", "old.json", "new.json", "a.bin", "b.bin"],
    "merge": ["merge", "a.bin", "b.bin"],
    "beyond": ["beyond", "a.bin", "b.bin"],
    "beyond --quiet": ["beyond", "--quiet", "a.bin", "b.bin"],
    "digest": ["digest", "a.bin"],
}


def run(program, words, folder):
    """What a run writes, its status, and its time."""
    out = folder / "out"
    with open(out, "wb") as answers:
        redirected = [(os.POSIX_SPAWN_DUP2, answers.fileno(), 1)]
        child = os.posix_spawn(program, [program, *words], os.environ, file_actions=redirected)
        _, status, used = os.wait4(child, 0)
    return out.read_bytes(), os.waitstatus_to_exitcode(status), used.ru_utime + used.ru_stime


def least_times(rounds, programs, words, folder):
    """The least time of each program, whose outputs have to be the same."""
    times = [[] for _ in programs]
    for _ in range(rounds):
        told = []
        for program, its in zip(programs, times):
            *answer, took = run(program, words, folder)
            told.append(answer)
            its.append(took)
        if told[0] != told[1]:
            sys.exit(f"bench/files: the outputs of {' '.join(words)} differ")
    return [min(its) for its in times]


def main():
    rounds, programs = int(sys.argv[1]), sys.argv[2:]
    print("| command | cells | ranges | rival | squall | ratio |\n|---|---|---|---|---|---|")
    with tempfile.TemporaryDirectory() as name:
        os.chdir(name)
        for cells, ranges in SIZES:
            inputs.write(Path(name), cells, ranges)
            for command, words in COMMANDS.items():
                rival, squall = least_times(rounds, programs, words, Path(name))
                cell = f"| {command} | {cells:,} | {ranges:,} | {rival * 1000:.1f} ms | {squall * 1000:.1f} ms |"
                print(f"{cell} {squall / max(rival, 1e-6):.1f} |", flush=True)


if __name__ == "__main__":
    main()
