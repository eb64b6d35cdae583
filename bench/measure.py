#!/usr/bin/env python3
"""Runs the twin and one planner or more on every map of a folder and prints a table of their times.

    bench/measure.py TWIN PLANNER.. FOLDER

With several planners, as before and after a change, they take turns, so that their ratios compare. The exit
status is 1 if some planner prints another line than the twin for some map.
"""
import os
import sys
import tempfile
from math import prod
from pathlib import Path

REPETITIONS = 5
START = "0101\n"
LEAST = 0.001
HEAD = "{:<14}{:>9}{:>7}{:>6}{:>10}"
ROW = "{:<14}{:>9}{:>7}{:>6}{:>10.2f}"
PLANNER_HEAD = "{:>12}{:>8}".format("planner ms", "ratio")
PLANNER_ROW = "{:>12.2f}{:>8.2f}"


# Runs a program on a file: its processor time in milliseconds, and what it prints.
def run(program, path):
    with open(path) as source, tempfile.TemporaryFile("w+") as printed:
        actions = [
            (os.POSIX_SPAWN_DUP2, source.fileno(), 0),
            (os.POSIX_SPAWN_DUP2, printed.fileno(), 1),
        ]
        child = os.posix_spawn(program, [program], os.environ, file_actions=actions)
        _, status, usage = os.wait4(child, 0)
        if status:
            sys.exit(f"{program} on {path}: ended with {os.waitstatus_to_exitcode(status)}")
        printed.seek(0)
        return 1000 * (usage.ru_utime + usage.ru_stime), printed.read()


# Runs the programs on a file in turns: the best time of each, and what each prints.
def best(programs, path):
    rounds = [[run(program, path) for program in programs] for _ in range(REPETITIONS)]
    return [(min(time for time, _ in runs), runs[0][1]) for runs in zip(*rounds)]


# The time that each program takes for a map without pairs.
def starts(programs):
    with tempfile.NamedTemporaryFile("w") as source:
        source.write(START)
        source.flush()
        return [time for time, _ in best(programs, source.name)]


# The vertices and the edges of a map that is written as a make and joins.
def size(path):
    make, *joins = path.read_text().split()
    return int(make[2:], 16), len(joins)


# The runs behind a printed line: one for each pair, and one more for each unjoined pair.
def run_count(line):
    pairs, _, unjoined, _, _ = map(int, line.split())
    return pairs + unjoined


# A program's time for a map alone, without its start.
def net(time, idle):
    return max(time - idle, LEAST)


# Measures the programs on a map and prints a row: the planners' ratios, and whether all print the same.
def measure(programs, idle, path):
    (twin_time, line), *planners = best(programs, path)
    twin_net = net(twin_time, idle[0])
    nets = [net(time, start) for (time, _), start in zip(planners, idle[1:])]
    ratios = [time / twin_net for time in nets]
    n, edges = size(path)
    columns = "".join(PLANNER_ROW.format(*pair) for pair in zip(nets, ratios))
    print(ROW.format(path.stem, n, edges, run_count(line), twin_net) + columns)
    others = [other for _, other in planners if other != line]
    for other in others:
        print(f"  they differ: the twin prints {line.strip()}, a planner {other.strip()}")
    return ratios, not others


# Prints the table, and gives the exit status.
def main(programs, folder):
    idle = starts(programs)
    print(HEAD.format("map", "vertices", "edges", "runs", "twin ms") + PLANNER_HEAD * len(idle[1:]))
    rows = [measure(programs, idle, path) for path in sorted(folder.glob("*.txt"))]
    columns = zip(*(ratios for ratios, _ in rows))
    means = [prod(ratios) ** (1 / len(rows)) for ratios in columns]
    print(f"{'geometric mean':<46}" + "".join(f"{mean:>20.2f}" for mean in means))
    print("Taken off for the start of each program, ms: " + ", ".join(f"{time:.2f}" for time in idle))
    return 0 if all(same for _, same in rows) else 1


if __name__ == "__main__":
    if len(sys.argv) < 4:
        sys.exit("usage: bench/measure.py TWIN PLANNER.. FOLDER")
    sys.exit(main(sys.argv[1:-1], Path(sys.argv[-1])))
