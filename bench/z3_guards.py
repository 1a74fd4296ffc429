#!/usr/bin/env python3
"""z3_guards TIMES [FOLDER]: times z3's tseitin-cnf tactic on guards beside the library, and counts the clauses of
both.

TIMES is the built bench/guard_times.rs. FOLDER has guards.txt; without it the sample in tests/corpus is asked. z3 is
called through its Python module. A guard is built as a z3 formula and put into a goal before the clock starts, and
the clock runs round `apply` alone. So that the cost of the call itself is known, the tactic `skip`, which does
nothing, is timed too. The library's side is timed in the native program: choosing, measuring and converting. Each
time is the best of some calls.

z3 does other work too. A goal takes a conjunction at the top apart, before the clock starts. The tactic tries its
core, and where that fails, it simplifies the formula first and tries again.
"""

import pathlib
import statistics
import subprocess
import sys
import time

import z3

# As many as bench/timing.rs has.
ROUNDS = 7
SAMPLE = pathlib.Path(__file__).resolve().parent.parent / "tests" / "corpus"


def tables(text):
    """The nodes of each guard, as kind, a and b."""
    for lines in text.split("options")[1:]:
        fields = [line.split("\t") for line in lines.splitlines()[1:]]
        yield [tuple(int(field) for field in line[1:]) for line in fields]


def formula(nodes):
    made = []
    for kind, a, b in nodes:
        made.append(
            [
                lambda: z3.BoolVal(False),
                lambda: z3.BoolVal(True),
                lambda: z3.Bool(f"s{a}"),
                lambda: z3.Not(made[a]),
                lambda: z3.And(made[a], made[b]),
                lambda: z3.Or(made[a], made[b]),
                lambda: z3.Implies(made[a], made[b]),
                lambda: made[a] == made[b],
            ][kind]()
        )
    return made[-1]


def timed(tactic, goal):
    """The result of a tactic, and the best time in nanoseconds."""
    best, result = None, None
    for _ in range(ROUNDS):
        began = time.perf_counter_ns()
        result = tactic.apply(goal)
        took = time.perf_counter_ns() - began
        best = took if best is None else min(best, took)
    return result, best


def is_simplified(goal):
    """Whether the tactic simplifies the goal first: its core alone fails."""
    try:
        z3.Tactic("tseitin-cnf-core").apply(goal)
    except z3.Z3Exception:
        return True
    return False


def measured(nodes):
    """The clauses that z3 makes of a guard, the nanoseconds of the tactic and of `skip`, whether it was simplified, and
    the parts that its goal has."""
    goal = z3.Goal()
    goal.add(formula(nodes))
    result, took = timed(z3.Tactic("tseitin-cnf"), goal)
    _, skipped = timed(z3.Tactic("skip"), goal)
    if len(result) != 1:
        sys.exit("z3_guards: the tactic gave more than one goal")
    return len(result[0]), took, skipped, is_simplified(goal), len(goal)


def library(program, arguments):
    """For each guard its clauses with nothing renamed and with the chosen set, its helpers, and the nanoseconds."""
    run = subprocess.run([program] + arguments, stdout=subprocess.PIPE, text=True, check=True)
    return [tuple(int(field) for field in line.split("\t")) for line in run.stdout.splitlines()]


def show(name, times, clauses):
    median, total = statistics.median(times) / 1e3, sum(times) / 1e6
    print(f"  {name:38}  {median:9.1f}  {total:9.1f}  {clauses}")


def main():
    program, arguments = sys.argv[1], sys.argv[2:]
    folder = pathlib.Path(arguments[0]) if arguments else SAMPLE
    guards = list(tables((folder / "guards.txt").read_text()))
    mine = library(program, arguments)
    theirs = [measured(nodes) for nodes in guards]
    if len(mine) != len(theirs):
        sys.exit("z3_guards: the library was asked about other guards")
    plain, chosen, helpers, own = zip(*mine)
    clauses, applied, skipped, simplified, parts = zip(*theirs)
    print(f"{len(guards)} guards; z3 {z3.get_version_string()} through Python, best of {ROUNDS} calls for each guard")
    print(f"  {'':38}  median us   total ms  clauses")
    show("library: choose, measure, convert", own, sum(chosen))
    show("z3: apply of tseitin-cnf", applied, sum(clauses))
    show("z3: apply of skip, for the call's cost", skipped, "")
    print(f"  library over z3, total time: {sum(own) / sum(applied):.4f}")
    print(f"  the same with the cost of skip taken off: {sum(own) / (sum(applied) - sum(skipped)):.4f}")
    print(f"  clauses, library over z3: {sum(chosen) / sum(clauses):.2f}; with nothing renamed: {sum(plain)}")
    apart = sum(count > 1 for count in parts)
    print(f"  z3 simplified {sum(simplified)} guards first; its goals took {apart} apart before")
    fewer = sum(a < b for a, b in zip(chosen, clauses))
    more = sum(a > b for a, b in zip(chosen, clauses))
    print(f"  the library has fewer clauses for {fewer} guards and more for {more}; helpers: {sum(helpers)}")


if __name__ == "__main__":
    main()
