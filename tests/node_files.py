"""Node files that the tests of the nightly pass write."""

import functools
import itertools
import random


def node_file(options, *nodes):
    lines = [f"options\t{options}"] + ["\t".join(map(str, (at, *node))) for at, node in enumerate(nodes)]
    return "".join(line + "\n" for line in lines)


SYMBOL = (2, 1, 0)
LIVE = node_file(1, SYMBOL)
DEAD = node_file(1, SYMBOL, (3, 0, 0), (4, 0, 1))


class Formula:
    """Nodes that are put one behind the other."""

    def __init__(self, symbols):
        self.nodes = [(2, symbol, 0) for symbol in range(1, symbols + 1)]

    def put(self, kind, a, b=0):
        self.nodes.append((kind, a, b))
        return len(self.nodes) - 1

    def join(self, kind, parts):
        return functools.reduce(lambda a, b: self.put(kind, a, b), parts)


def pigeons(count, holes):
    """The guard that each pigeon has a hole of its own. A solver needs conflicts to find that there are too few."""
    formula = Formula(count * holes)
    parts = [formula.join(5, range(one * holes, one * holes + holes)) for one in range(count)]
    for hole in range(holes):
        for one, other in itertools.combinations(range(count), 2):
            parts.append(formula.put(3, formula.put(4, one * holes + hole, other * holes + hole)))
    formula.join(4, parts)
    return node_file(count * holes, *formula.nodes)


def odd_graph(corners):
    """The guard that an even number of edges is chosen at each corner of a graph but one. It is dead, since each edge
    has two ends, and solvers of clauses take a time that doubles with every few corners."""
    ends = [corner for corner in range(corners) for _ in range(4)]
    random.Random(1).shuffle(ends)
    at = [[] for _ in range(corners)]
    for edge, corner in enumerate(ends):
        at[corner].append(edge // 2)
    formula = Formula(len(ends) // 2)
    parts = [formula.join(7, edges) for edges in at]
    # An equivalence of four says that an even number of them holds.
    parts[0] = formula.put(3, parts[0])
    formula.join(4, parts)
    return node_file(len(ends) // 2, *formula.nodes)
