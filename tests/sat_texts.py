"""DIMACS texts of formulas: drawn formulas in two forms, and the truth of a text and of a table on all rows at once.

The truth of a text is found from its bytes, from the innermost parentheses outwards, by code that neither the library nor
the reference has. The nodes of a drawn formula are not those that a text is read into: a list is folded from the right,
and each symbol is one node.

A set of rows is one number. Its bit r is for the row in which symbol s has the value of bit s - 1 of r.
"""

import collections
import re
import struct

FALSE, TRUE, SYMBOL, NOT, AND, OR = range(6)
SIGNS = {AND: "*", OR: "+"}
# How many parentheses are open at once in a drawn text, at most.
MOST_OPEN = 64
MOST_NODES = 1024

TEXT = re.compile(r"(?:c[^\n]*\n)*p[ \t]+sat[ \t]+(\d+)[ \t]*\n(.*)", re.DOTALL)


def drawn(draw, options, depth):
    """A formula: a kind and a symbol, a formula or a list of formulas."""
    kind = draw.choice([SYMBOL, NOT, AND, AND, OR, OR] if depth and options else [AND, OR] if depth else [SYMBOL])
    if kind == SYMBOL:
        return (SYMBOL, draw.randint(1, options)) if options else (draw.choice([AND, OR]), [])
    if kind == NOT:
        return NOT, drawn(draw, options, depth - 1)
    (members,) = draw.choices(range(5), weights=[1, 3, 8, 6, 2])
    return kind, [drawn(draw, options, depth - 1) for _ in range(members)]


def space(draw, least=0):
    """White space of at least so many bytes."""
    return "".join(draw.choice(" \t\r\n") for _ in range(least + (draw.randrange(3) if draw.random() < 0.2 else 0)))


def written(draw, formula, room):
    """A formula as text, with up to so many parentheses open that it could do without."""
    kind, parts = formula
    if room and draw.random() < 0.25:
        # Plain parentheses, or a list of one.
        return f"{draw.choice(['', '', '*', '+'])}({space(draw)}{written(draw, formula, room - 1)}{space(draw)})"
    if kind == SYMBOL:
        return str(parts)
    if kind == NOT:
        child = written(draw, parts, room)
        # Behind a minus stands a number or a plain parenthesis.
        return f"-{child}" if child[0] in "(123456789" and draw.random() < 0.7 else f"-({space(draw)}{child}{space(draw)})"
    members = [written(draw, part, room) for part in parts]
    between = (space(draw, 1) for _ in members[1:])
    inside = "".join(word for pair in zip(members, [*between, ""]) for word in pair)
    return f"{SIGNS[kind]}({space(draw)}{inside}{space(draw)})"


def text_of(draw, options, formula):
    """The whole text of a formula."""
    comments = draw.choices(["c\n", "c a formula (\n", "cc\t-1 p sat 3\r\n"], k=draw.choice([0, 0, 1, 2]))
    header = f"p{draw.choice([' ', ' ', '  '])}sat {options}{draw.choice(['', '', ' ', chr(9)])}\n"
    body = written(draw, formula, draw.choice([0, 2, 5]))
    # Some are as deep as they may be.
    more = MOST_OPEN - most_open(body) if draw.random() < 0.1 else 0
    return "".join([*comments, header, space(draw), "(" * more, body, ")" * more, space(draw)])


def most_open(body):
    """The most parentheses that are open at once."""
    open_now, most = 0, 0
    for letter in body:
        open_now += (letter == "(") - (letter == ")")
        most = max(most, open_now)
    return most


def nodes_of(formula):
    """The nodes of a formula, each as kind, a and b."""
    nodes, known = [], {}

    def put(*node):
        if node not in known:
            known[node] = len(nodes)
            nodes.append(node)
        return known[node]

    def put_formula(kind, parts):
        if kind == SYMBOL:
            return put(SYMBOL, parts, 0)
        if kind == NOT:
            return put(NOT, put_formula(*parts), 0)
        if not parts:
            return put(TRUE if kind == AND else FALSE, 0, 0)
        *others, folded = [put_formula(*part) for part in parts]
        for other in reversed(others):
            folded = put(kind, other, folded)
        return folded

    put_formula(*formula)
    return nodes


def symbol_rows(options, symbol):
    """The rows in which a symbol is true."""
    half = 1 << (symbol - 1)
    rows = ((1 << half) - 1) << half
    for doubled in range(symbol, options):
        rows |= rows << (1 << doubled)
    return rows


def all_rows(options):
    return (1 << (1 << options)) - 1


def joined(kind, members, whole):
    """The rows of the and, or of the or, of sets of rows."""
    rows = whole if kind == "*" else 0
    for member in members:
        rows = rows & member if kind == "*" else rows | member
    return rows


def options_of(text):
    return int(TEXT.fullmatch(text)[1])


def rows_of_text(text):
    """The options of a right text and the rows in which its formula is true."""
    found = TEXT.fullmatch(text)
    options, body = int(found[1]), found[2]
    whole, known = all_rows(options), []

    def name(rows):
        known.append(rows)
        return f"<{len(known) - 1}>"

    def rows_of(word):
        return whole & ~rows_of(word[1:]) if word[0] == "-" else known[int(word[1:-1])]

    def closed(parentheses):
        sign, members = parentheses[1], [rows_of(word) for word in parentheses[2].split()]
        if sign in ("*", "+"):
            return name(joined(sign, members, whole))
        (one,) = members
        return sign + name(one)

    body = re.sub(r"\d+", lambda digits: name(symbol_rows(options, int(digits[0]))), body)
    while "(" in body:
        body = re.sub(r"([-*+]?)\(([^()]*)\)", closed, body)
    return options, rows_of(body.strip())


def counted_in_text(text):
    """How many nodes the table of a right text has: true and false, symbols, nots, and folds."""
    body = TEXT.fullmatch(text)[2]
    symbols, empty = len(re.findall(r"\d+", body)), len(re.findall(r"\(\s*\)", body))
    return [empty, symbols, body.count("-"), symbols + empty - 1]


def counted_in_table(nodes):
    """The same of a table."""
    kinds = collections.Counter(kind for kind, _, _ in nodes)
    return [kinds[FALSE] + kinds[TRUE], kinds[SYMBOL], kinds[NOT], kinds[AND] + kinds[OR]]


def rows_of_nodes(options, nodes):
    """The rows in which a table's root is true."""
    whole, known = all_rows(options), []
    for kind, a, b in nodes:
        if kind in (FALSE, TRUE):
            known.append(whole if kind == TRUE else 0)
        elif kind == SYMBOL:
            known.append(symbol_rows(options, a))
        elif kind == NOT:
            known.append(whole & ~known[a])
        else:
            known.append(joined(SIGNS[kind], [known[a], known[b]], whole))
    return known[-1]


def table_nodes(table):
    """The nodes of a table's bytes."""
    return list(struct.iter_unpack("<BHH", table))
