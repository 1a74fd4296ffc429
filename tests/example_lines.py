"""The requests and answers of examples.txt."""

import functools
import re
import sys

import programs

# What \n, \t, \r and \0 stand for in a text.
ESCAPES = {"n": "\n", "t": "\t", "r": "\r", "0": "\0"}


def number(value):
    return int(value).to_bytes(2, "little").hex()


def text(found):
    return re.sub(r"\\([ntr0])", lambda escape: ESCAPES[escape[1]], found[1]).encode().hex()


def repeated(found):
    return found[1] * int(found[2])


def twice(found):
    kind, first, count = (int(word) for word in found.groups())
    fields = (number(below) for below in range(first - 1, first - 1 + count))
    return "".join(f"{kind:02x}{field}{field}" for field in fields)


def over(found):
    kind, first, count, other = (int(word) for word in found.groups())
    return "".join(f"{kind:02x}{number(below)}{number(other)}" for below in range(first - 1, first - 1 + count))


def pairs(found):
    kind, first, count = (int(word) for word in found.groups())
    numbers = range(first, first + 2 * count, 2)
    return "".join(
        f"{kind:02x}{number(at - 1)}{number(at - 1)}{kind:02x}{number(at)}{number(0)}" for at in numbers
    )


def folded(found):
    kind, count = (int(word) for word in found.groups())
    symbol = f"02{number(1)}{number(0)}"
    folds = (f"{symbol}{kind:02x}{number(at - 2)}{number(at - 1)}" for at in range(2, 2 * count, 2))
    return symbol + "".join(folds)


def joined(found):
    outer, inner, count = (int(word) for word in found.groups())
    symbols = "".join(f"02{number(symbol)}{number(0)}" for symbol in range(1, 2 * count + 1))
    table = symbols + f"{inner:02x}{number(0)}{number(1)}"
    for at in range(2, 2 * count, 2):
        # The last node joined so far is right before the next one of the inner kind.
        last = 2 * count + at - 2
        table += f"{inner:02x}{number(at)}{number(at + 1)}{outer:02x}{number(last)}{number(last + 1)}"
    return table


def numbers(found):
    return "".join(int(word).to_bytes(4, "little", signed=True).hex() for word in found[1].split(" "))


def units(found):
    first, count = (int(word) for word in found.groups())
    literals = (literal.to_bytes(4, "little", signed=True).hex() for literal in range(first, first + count))
    return "".join(f"{literal}00000000" for literal in literals)


def told(changes):
    """The lines of tidying: a clause, a word and a number for each."""
    return "".join(f"{clause}\t{word}\t{number}\n" for clause, word, number in changes).encode().hex()


def lines(found):
    first, count = int(found[1]), int(found[2])
    return told((clause, found[3], found[4]) for clause in range(first, first + count))


def repeats(found):
    first, count, number = (int(word) for word in found.groups())
    return told((first + at, "repeat", number + at) for at in range(count))


def literals(found):
    clause, first, count = (int(word) for word in found.groups())
    return told((clause, "literal", position) for position in range(first, first + count))


def nodes(found):
    """The node file of an option count and a table."""
    options, table = int(found[1]), bytes.fromhex(found[2])
    lines = [f"options\t{options}\n"]
    for at in range(0, len(table), 5):
        a, b = (int.from_bytes(table[place : place + 2], "little") for place in (at + 1, at + 3))
        lines.append(f"{at // 5}\t{table[at]}\t{a}\t{b}\n")
    return "".join(lines).encode().hex()


def lent(found):
    """A lent output that starts with the given bytes, as an answer shows it."""
    start = programs.from_parts(found[2])
    return programs.shown(start + bytes((91 * i + 5) % 256 for i in range(len(start), int(found[1]))))


# In this order, since one may stand inside a later one.
MACROS = [
    (r"\{text ([^{}]*)\}", text),
    (r"\{([0-9a-f]+)\*(\d+)\}", repeated),
    (r"\{twice (\d+) (\d+) (\d+)\}", twice),
    (r"\{over (\d+) (\d+) (\d+) (\d+)\}", over),
    (r"\{pairs (\d+) (\d+) (\d+)\}", pairs),
    (r"\{folded (\d+) (\d+)\}", folded),
    (r"\{joined (\d+) (\d+) (\d+)\}", joined),
    (r"\{numbers ([-0-9 ]+)\}", numbers),
    (r"\{units (-?\d+) (\d+)\}", units),
    (r"\{lines (\d+) (\d+) ([a-z]+) (\d+)\}", lines),
    (r"\{repeats (\d+) (\d+) (\d+)\}", repeats),
    (r"\{literals (\d+) (\d+) (\d+)\}", literals),
    (r"\{nodes (\d+) ([0-9a-f]*)\}", nodes),
    (r"\{lent (\d+) ([-0-9a-f+*]+)\}", lent),
]


def expanded(line):
    """A line of the examples as the protocol has it."""
    # In a request the first word may have an underscore.
    operation, rest = re.fullmatch(r"([a-z_]* )?(.*)", line).groups(default="")
    rest = rest.replace("_", "")
    for form, meaning in MACROS:
        rest = re.sub(form, meaning, rest)
    return operation + rest


@functools.cache
def read():
    """The pairs of a request and its answer."""
    lines = (programs.TESTS / "examples.txt").read_text().splitlines()
    lines = [line for line in lines if line and not line.startswith("#")]
    requests, answers = lines[0::2], lines[1::2]
    ordered = all(line.startswith("> ") for line in requests) and all(line.startswith("< ") for line in answers)
    if not ordered or len(requests) != len(answers):
        sys.exit("examples.txt: requests and answers do not come in turn")
    return [(expanded(request[2:]), expanded(answer[2:])) for request, answer in zip(requests, answers)]
