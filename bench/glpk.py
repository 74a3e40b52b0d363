"""The same rotations through glpsol, a general solver of linear programs.

The cost of a leg is convex, so each minute above the least is a variable from 0 to 1 that costs its step: steps never
fall, so the cheapest are taken first. Beside them stand the arrivals, each within its window, and a row for each leg:
arrival, less the arrival before, less the steps, is the least minutes. That is a network, so the optimum is in whole
minutes. Kilograms come before cents by a second program: what the reduced costs of the first optimum hold at a bound is
fixed there, which leaves exactly the timings with the least kilograms, and among these cents are least. (One program with
a weight on kilograms would rest on differences of costs far below glpsol's tolerance.)
"""
import re
import shutil
import subprocess
from collections import namedtuple
from measure import best, instructions
from rotations import cost

# what a program says: values and reduced costs of the columns, and glpsol's own seconds
Solved = namedtuple("Solved", "values reduced seconds")
# seconds of whole processes, seconds and instructions of solving alone, size of the program, glpsol's own seconds
Effort = namedtuple("Effort", "whole solving instructions rows columns seconds")


def here():
    return shutil.which("glpsol") is not None


def columns(legs, settings):
    """The columns of the program: low, high, row, kilograms and cents of each; arrivals first, then steps leg by leg."""
    windows = settings.windows + ((settings.total, settings.total),)
    found = [(first, last, row, 0, 0) for row, (first, last) in enumerate(windows, 1)]
    for row, (leg, (low, high)) in enumerate(zip(legs, settings.bounds), 1):
        for m in range(low, min(high, settings.total)):
            found.append((0, 1, row, leg.q * (2 * (m - leg.t) + 1), leg.rate))
    return found


def entries(legs, table, part):
    """The coefficients of the program as row, column and number; row 0 is the cost, part 3 kilograms or 4 cents."""
    found = []
    for place, column in enumerate(table, 1):
        row = column[2]
        if place <= legs:
            found.append((row, place, 1))
            if row < legs:
                found.append((row + 1, place, -1))
        else:
            found.append((row, place, -1))
        if column[part]:
            found.append((0, place, column[part]))
    return found


def write_program(path, settings, table, part):
    """Writes the program as a file of glpsol."""
    legs = len(settings.bounds)
    terms = entries(legs, table, part)
    lines = ["p lp min %d %d %d" % (legs, len(table), sum(row > 0 for row, _, _ in terms))]
    lines += ["i %d s %d" % (row, low) for row, (low, _) in enumerate(settings.bounds, 1)]
    for place, (low, high, *_) in enumerate(table, 1):
        lines.append("j %d s %d" % (place, low) if low == high else "j %d d %d %d" % (place, low, high))
    lines += ["a %d %d %d" % term for term in terms]
    with open(path, "w") as file:
        file.write("\n".join(lines + ["e o f", ""]))


def run_program(path):
    """Solves the program of a file; None if it says that there is no solution."""
    said = subprocess.run(["glpsol", "--glp", path, "-w", path + ".out"], capture_output=True, text=True).stdout
    if re.search(r"HAS NO (PRIMAL )?FEASIBLE SOLUTION", said):
        return None
    if "OPTIMAL" not in said:
        raise RuntimeError("glpsol finds no optimum: " + said[-200:])
    with open(path + ".out") as file:
        lines = [line.split() for line in file if line.startswith("j ")]
    seconds = re.search(r"Time used:\s+([\d.]+) secs", said)
    return Solved([float(l[3]) for l in lines], [float(l[4]) for l in lines], seconds and float(seconds[1]))


def held(table, solved):
    """The columns, each fixed at its value where its reduced cost is not zero."""
    fixed = []
    for column, value, reduced in zip(table, solved.values, solved.reduced):
        ends = (round(value),) * 2 if abs(reduced) > 0.5 else column[:2]
        fixed.append(ends + column[2:])
    return fixed


def solve(legs, settings, folder):
    """Least kilograms and cents of a rotation, glpsol's own seconds, and the files of the two programs; None if there is
    no timing."""
    paths = [folder + "/kilograms.glp", folder + "/cents.glp"]
    table = columns(legs, settings)
    write_program(paths[0], settings, table, 3)
    first = run_program(paths[0])
    if first is None:
        return None
    write_program(paths[1], settings, held(table, first), 4)
    second = run_program(paths[1])
    minutes = [low for low, _ in settings.bounds]
    for (_, _, row, _, _), value in list(zip(table, second.values))[len(legs) :]:
        minutes[row - 1] += round(value)
    seconds = None if first.seconds is None else first.seconds + second.seconds
    return cost(legs, minutes), seconds, paths


def effort(legs, settings, folder, runs, count):
    """What it takes glpsol to solve a rotation: two processes. Solving alone is the processes less the same processes
    that only read and check the program. Instructions are counted if asked for."""
    _, seconds, paths = solve(legs, settings, folder)
    whole = solving = 0
    counted = []
    for path in paths:
        command = ["glpsol", "--glp", path]
        full, idle = best(command, "/dev/null", runs), best(command + ["--check"], "/dev/null", runs)
        whole += full.wall
        solving += full.processor - idle.processor
        if count:
            counted += [instructions(command, "/dev/null"), instructions(command + ["--check"], "/dev/null")]
    alone = None if None in counted or not counted else counted[0] - counted[1] + counted[2] - counted[3]
    return Effort(whole, solving, alone, len(legs), len(columns(legs, settings)), seconds)
