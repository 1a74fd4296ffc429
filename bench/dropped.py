#!/usr/bin/env python3
"""dropped CLAUSES [FOLDER]: what tidying takes out of the clauses of guards, and what z3 and sympy drop of the same clauses without
a word.

CLAUSES is the built bench/guard_clauses.rs. FOLDER is as for it: a folder of guards, or the word examples; without it the sample in
tests/corpus is asked. The clauses of each guard, with nothing renamed and with the chosen set, are given to z3 as a goal with an
assertion for each clause, and to sympy as a conjunction of disjunctions. Neither is timed. From z3 come the goals of the tactics
`simplify` and `tseitin-cnf`, from sympy what `to_cnf` gives. The clauses that come back are counted: all, those with a literal and
its negation, those that are there twice, and those in which a literal is twice. Where everything became false that is counted too.

Debian's packages for it: python3-z3 and python3-sympy. What is missing is left out.
"""

import collections
import subprocess
import sys

try:
    import z3
except ImportError:
    z3 = None
try:
    import sympy
except ImportError:
    sympy = None

SETS = ["nothing renamed", "chosen set"]


class Guard:
    """The clauses of a guard under one of the sets, and what tidying takes out of them: tautologies, repeats, literals."""

    def __init__(self, line):
        _, self.set, *gone, numbers = line.rstrip("\n").split("\t")
        self.gone = [int(field) for field in gone]
        self.clauses, clause = [], []
        for number in (int(word) for word in numbers.split()):
            if number:
                clause.append(number)
            else:
                self.clauses.append(clause)
                clause = []


def guards(program, arguments):
    run = subprocess.run([program] + arguments, stdout=subprocess.PIPE, text=True, check=True)
    return [Guard(line) for line in run.stdout.splitlines()]


def by_tidying(clauses):
    """The clauses that tidying leaves. What it says was told by the library, and is compared."""
    kept, sets = [], set()
    for clause in clauses:
        literals = frozenset(clause)
        if not any(-literal in literals for literal in literals) and literals not in sets:
            sets.add(literals)
            kept.append(list(dict.fromkeys(clause)))
    return kept


def z3_literal(number):
    variable = z3.Bool(f"v{abs(number)}")
    return variable if number > 0 else z3.Not(variable)


def number_of_z3(term):
    return -number_of_z3(term.arg(0)) if z3.is_not(term) else int(term.decl().name()[1:])


def clause_of_z3(term):
    """A clause as numbers. A false one is empty, and a true one None."""
    if z3.is_false(term):
        return []
    if z3.is_true(term):
        return None
    return [number_of_z3(part) for part in term.children()] if z3.is_or(term) else [number_of_z3(term)]


def by_z3(tactic):
    def dropped(clauses):
        goal = z3.Goal()
        for clause in clauses:
            goal.add(z3.Or(*map(z3_literal, clause)) if clause else z3.BoolVal(False))
        [result] = z3.Tactic(tactic).apply(goal)
        return [clause for clause in map(clause_of_z3, result) if clause is not None]

    return dropped


def number_of_sympy(term):
    return -number_of_sympy(term.args[0]) if term.func is sympy.Not else int(term.name[1:])


def clause_of_sympy(term):
    return [number_of_sympy(part) for part in term.args] if term.func is sympy.Or else [number_of_sympy(term)]


def by_sympy(clauses):
    def literal(number):
        variable = sympy.Symbol(f"v{abs(number)}")
        return variable if number > 0 else sympy.Not(variable)

    made = sympy.to_cnf(sympy.And(*(sympy.Or(*map(literal, clause)) for clause in clauses)))
    if made in (sympy.true, sympy.false):
        return [] if made == sympy.true else [[]]
    return [clause_of_sympy(part) for part in made.args] if made.func is sympy.And else [clause_of_sympy(made)]


def counted(clauses):
    """Clauses, literals, tautologies, clauses that are there before, and literals that stand before in their clause."""
    sets = [frozenset(clause) for clause in clauses]
    return collections.Counter(
        {
            "clauses": len(clauses),
            "literals": sum(map(len, clauses)),
            "tautologies": sum(any(-literal in one for literal in one) for one in sets),
            "repeats": len(sets) - len(set(sets)),
            "literals twice": sum(len(clause) - len(one) for clause, one in zip(clauses, sets)),
        }
    )


COLUMNS = ["clauses", "literals", "tautologies", "repeats", "literals twice", "false"]


def show(name, counts):
    print(f"  {name:28}" + "".join(f"  {counts[column]:>14}" for column in COLUMNS))


def main():
    program, arguments = sys.argv[1], sys.argv[2:]
    every = guards(program, arguments)
    ways = {"tidy": by_tidying}
    if z3:
        ways |= {f"z3 {tactic}": by_z3(tactic) for tactic in ("simplify", "tseitin-cnf")}
    if sympy:
        ways["sympy to_cnf"] = by_sympy
    versions = [f"z3 {z3.get_version_string()}" if z3 else "no z3", f"sympy {sympy.__version__}" if sympy else "no sympy"]
    print(f"clauses that come back; {', '.join(versions)}")
    for one in SETS:
        asked = [guard for guard in every if guard.set == one]
        gone = [sum(guard.gone[at] for guard in asked) for at in range(3)]
        touched = sum(any(guard.gone) for guard in asked)
        print(f"{len(asked)} guards, {one}")
        print(f"  tidy tells: {gone[0]} tautologies, {gone[1]} repeats, {gone[2]} literals, of {touched} guards")
        print(f"  {'':28}" + "".join(f"  {column:>14}" for column in COLUMNS))
        show("given", sum((counted(guard.clauses) for guard in asked), collections.Counter()))
        for name, way in ways.items():
            counts = collections.Counter()
            for guard in asked:
                left = way(guard.clauses)
                # A contradiction may take the place of all clauses.
                counts["false"] += left == [[]] and any(guard.clauses)
                counts += counted(left)
                if name == "tidy" and len(guard.clauses) - len(left) != sum(guard.gone[:2]):
                    sys.exit("dropped: the library takes out other clauses")
            show(name, counts)


if __name__ == "__main__":
    main()
