#!/usr/bin/env python3
"""hold.py PROGRAM PEER: times two programs of the hold model in turn; hold.sh builds the peer and calls it.

From the environment: REPEATS (5) runs of each program per row, HOLDS (as many as take the peer about half a second) holds
per run, LIMIT (120) seconds per run.
"""
import os
import re
import statistics
import subprocess
import sys
import time

CASES = [(threads, pending, step) for step in (1, 4) for threads in (1, 2, 4) for pending in (16, 64, 256)]
SEED = 7
LINES = re.compile(rb"holds ([0-9]+)\nsum [0-9]+\n")


class Failure(Exception):
    """Why a run gives no time."""


def stop(why):
    """Ends the measurement where nothing can be measured."""
    print(f"hold.py: {why}", file=sys.stderr)
    sys.exit(2)


def setting(name, default):
    """The number that the environment has under this name."""
    word = os.environ.get(name)
    if not word:
        return default
    if not re.fullmatch("[1-9][0-9]*", word):
        stop(f"{name} has to be a positive number")
    return int(word)


REPEATS, HOLDS, LIMIT = setting("REPEATS", 5), setting("HOLDS", None), setting("LIMIT", 120)


def timed(program, words):
    """Runs the program once; the seconds by the clock, and the bytes printed."""
    command = [program, *map(str, words)]
    start = time.perf_counter()
    try:
        done = subprocess.run(command, stdin=subprocess.DEVNULL, stdout=subprocess.PIPE, timeout=LIMIT)
    except subprocess.TimeoutExpired:
        raise Failure(f"above {LIMIT} s") from None
    except OSError as error:
        raise Failure(error.strerror) from None
    seconds = time.perf_counter() - start
    if done.returncode != 0:
        raise Failure(f"status {done.returncode}")
    return seconds, done.stdout


def timed_plain(plain, words):
    """The same for a plain program, which must not fail."""
    try:
        return timed(plain, words)
    except Failure as failure:
        stop(f"{os.path.basename(plain)} with {' '.join(map(str, words))}: {failure}")


def fitting(peer, threads, pending, step):
    """A round number of holds that takes the peer about half a second."""
    holds, seconds = 25_000, 0
    while seconds < 0.2:
        holds *= 4
        seconds, _ = timed_plain(peer, (threads, pending, holds, SEED, step))
    half = int(holds / seconds / 2)
    return round(half, 2 - len(str(half)))


def measured(program, plain, words):
    """The median seconds of the program and of the plain one, and the holds made.

    They run in turn, and each repeat begins with another one. Every run has to print what the plain program
    printed before the repeats.
    """
    _, due = timed_plain(plain, words)
    form = LINES.fullmatch(due)
    if not form:
        stop(f"{os.path.basename(plain)} printed {due[:80]!r}")
    turns = [(timed, program, []), (timed_plain, plain, [])]
    for repeat in range(REPEATS):
        first = repeat % len(turns)
        for run, path, times in turns[first:] + turns[:first]:
            seconds, lines = run(path, words)
            if lines != due:
                raise Failure(f"{os.path.basename(path)} printed other lines than {os.path.basename(plain)}")
            times.append(seconds)
    return [statistics.median(times) for _, _, times in turns], int(form[1])


def row(program, peer, threads, pending, step):
    """Prints one row of the table; whether it has figures."""
    holds = HOLDS or fitting(peer, threads, pending, step)
    print(f"| {step} | {threads} | {pending} | {holds:,} |", end=" ", flush=True)
    try:
        (own, other), made = measured(program, peer, (threads, pending, holds, SEED, step))
    except Failure as failure:
        print(f"{failure} | | |", flush=True)
        return False
    print(f"{made / own:,.0f} | {made / other:,.0f} | {own / other:.2f} |", flush=True)
    return True


def load():
    """The load of the machine over the last minute."""
    return f"{os.getloadavg()[0]:.1f}"


def main():
    if len(sys.argv) != 3:
        stop(__doc__)
    program, peer = sys.argv[1:]
    print(f"Medians of {REPEATS} runs of each, in turn, on {os.cpu_count()} processors; load {load()} at the start.\n")
    print("| step | threads | pending | holds | program, holds per second | peer, holds per second | time of program / peer |")
    print("|---:|---:|---:|---:|---:|---:|---:|", flush=True)
    whole = [row(program, peer, *case) for case in CASES]
    print(f"\nLoad {load()} at the end.")
    sys.exit(0 if all(whole) else 1)


main()
