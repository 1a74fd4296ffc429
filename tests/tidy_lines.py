"""Tidying, found by code that neither the library nor the reference has: what is left of clauses, and the lines that tell what
went. And what must be true of an answer, whoever gave it.

Clauses are lists of literals. A change is a triple: a clause's number, a word and a number.
"""


def clauses_of(data):
    """The clauses of clause bytes."""
    numbers = [int.from_bytes(data[at : at + 4], "little", signed=True) for at in range(0, len(data), 4)]
    clauses, start = [], 0
    for at, number in enumerate(numbers):
        if number == 0:
            clauses.append(numbers[start:at])
            start = at + 1
    return clauses


def bytes_of(clauses):
    numbers = [number for clause in clauses for number in (*clause, 0)]
    return b"".join(number.to_bytes(4, "little", signed=True) for number in numbers)


def lines_of(changes):
    return "".join(f"{clause}\t{word}\t{number}\n" for clause, word, number in changes).encode()


def changes_of(lines):
    """The changes of lines. None where a line is not of their form."""
    if lines and not lines.endswith(b"\n"):
        return None
    changes = []
    for line in lines.split(b"\n")[:-1]:
        fields = line.decode("latin-1").split("\t")
        if len(fields) != 3 or any(not is_decimal(field) for field in fields[0::2]):
            return None
        changes.append((int(fields[0]), fields[1], int(fields[2])))
    return changes


def is_decimal(text):
    return text.isascii() and text.isdigit() and (text == "0" or text[0] != "0")


def tidied(clauses):
    """The kept clauses and the changes."""
    kept, changes, numbers = [], [], {}
    for number, clause in enumerate(clauses):
        literals = frozenset(clause)
        if is_tautology(literals):
            changes.append((number, "tautology", 0))
        elif literals in numbers:
            changes.append((number, "repeat", numbers[literals]))
        else:
            numbers[literals] = number
            # A dictionary keeps the order in which its keys came.
            kept.append(list(dict.fromkeys(clause)))
            seen = set()
            for position, literal in enumerate(clause):
                if literal in seen:
                    changes.append((number, "literal", position))
                seen.add(literal)
    return kept, changes


def is_tautology(clause):
    return any(-literal in clause for literal in clause)


def is_tidy(clauses):
    """Whether nothing is left that could go: no variable is in a clause twice, and no two clauses have the same literals."""
    is_plain = all(len({abs(literal) for literal in clause}) == len(clause) for clause in clauses)
    return is_plain and len({frozenset(clause) for clause in clauses}) == len(clauses)


def left_by(clauses, changes):
    """What changes leave of clauses. None where one of them is not true of its clause, or comes out of turn."""
    if changes != sorted(changes, key=lambda change: (change[0], change[2])):
        return None
    gone, positions = {}, {}
    for number, word, other in changes:
        if number >= len(clauses) or number in gone:
            return None
        clause = clauses[number]
        if word == "literal" and other < len(clause) and clause[other] in clause[:other]:
            positions.setdefault(number, set()).add(other)
        elif word == "tautology" and other == 0 and is_tautology(clause):
            gone[number] = word
        elif word == "repeat" and other < number and other not in gone and set(clause) == set(clauses[other]):
            gone[number] = word
        else:
            return None
    if len(changes) != len(gone) + sum(len(places) for places in positions.values()) or positions.keys() & gone.keys():
        return None
    return [
        [literal for position, literal in enumerate(clause) if position not in positions.get(number, ())]
        for number, clause in enumerate(clauses)
        if number not in gone
    ]


def is_right(clauses, kept, changes):
    """Whether the changes are true, leave the kept clauses, and leave nothing more to do. With a tautology looked at first,
    this is one answer: no other one is right."""
    is_first = not any(word == "repeat" and is_tautology(clauses[number]) for number, word, _ in changes)
    return left_by(clauses, changes) == kept and is_tidy(kept) and is_first
