"""Lines that tell where the clauses of a guard come from, made from whole clause lists as the rules write them.

It shares no code with the library and none with the reference. A guard's nodes are triples: kind, a and b.
"""

FALSE, TRUE, SYMBOL, NOT, AND, OR, IMPLIES, EQUIVALENT = range(8)


def joined(left, right):
    return [clause + other for clause in left for other in right]


class Conversion:
    """A guard under a set. `renamed` is the set of renamed nodes."""

    def __init__(self, options, nodes, renamed):
        self.nodes, self.root = nodes, len(nodes) - 1
        self.helpers = {node: options + 1 + at for at, node in enumerate(sorted(renamed))}
        self.lists = {}

    def seen(self, node, positive):
        """The list of a node, or of its negation, as its parents see it."""
        if node in self.helpers:
            return [[self.helpers[node] if positive else -self.helpers[node]]]
        return self.body(node, positive)

    def body(self, node, positive):
        """The list by the node's own kind. It is made once."""
        if (node, positive) not in self.lists:
            self.lists[node, positive] = self.made(*self.nodes[node], positive)
        return self.lists[node, positive]

    def made(self, kind, a, b, positive):
        if kind in (FALSE, TRUE):
            return [] if (kind == TRUE) == positive else [[]]
        if kind == SYMBOL:
            return [[a if positive else -a]]
        if kind == NOT:
            return self.seen(a, not positive)
        if kind == EQUIVALENT and positive:
            return joined(self.seen(a, False), self.seen(b, True)) + joined(self.seen(b, False), self.seen(a, True))
        if kind == EQUIVALENT:
            return joined(self.seen(a, False), self.seen(b, False)) + joined(self.seen(a, True), self.seen(b, True))
        left, right = self.seen(a, positive != (kind == IMPLIES)), self.seen(b, positive)
        return left + right if (kind == AND) == positive else joined(left, right)

    def signs(self):
        """The signs with which the root reaches each node: pairs of a node and whether it is positive."""
        found, left = set(), [(self.root, True)]
        while left:
            node, positive = left.pop()
            if (node, positive) in found:
                continue
            found.add((node, positive))
            kind, a, b = self.nodes[node]
            if kind == EQUIVALENT:
                left += [(a, True), (a, False), (b, True), (b, False)]
            elif kind >= NOT:
                left.append((a, positive != (kind in (NOT, IMPLIES))))
                left += [(b, positive)] if kind != NOT else []
        return found

    def parts(self):
        """The parts of the output: a node, its helper or 0, the word for the part, its clauses."""
        yield self.root, 0, "root", self.body(self.root, True)
        signs = self.signs()
        for node, helper in self.helpers.items():
            if (node, True) in signs:
                yield node, helper, "down", joined([[-helper]], self.body(node, True))
            if (node, False) in signs:
                yield node, helper, "up", joined(self.body(node, False), [[helper]])

    def lines(self, names):
        """The line of each clause. `names` is from variables to names."""
        found = []
        for node, helper, word, clauses in self.parts():
            for number, clause in enumerate(clauses):
                fields = [b"%d" % field for field in (len(found), node, helper)] + [word.encode(), b"%d" % number]
                fields += [(b"!" if literal < 0 else b"") + names[abs(literal)] for literal in clause]
                found.append(b"\t".join(fields) + b"\n")
        return found
