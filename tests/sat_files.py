"""p sat texts: a reader of its own, texts that are refused with what the host says of them in words, and drawn ones.

read() follows the rules of such a text byte by byte, and shares no code with the library and none with the reference. So a
text is refused at the first byte that no accepted text has there. is_true() tells whether words about a refused text are true
of it.
"""

import random
import re

import sat_texts
from node_files import node_file

MOST_OPTIONS, MOST_OPEN, MOST_NODES = 32_000, 64, 1_024
FALSE, TRUE_KIND, SYMBOL, NOT, AND, OR = range(6)
BLANKS, WHITE_SPACE, DIGITS, SIGNS = b" \t", b" \t\r\n", b"0123456789", b"-*+"


class Refused(Exception):
    """A text is not accepted: what was read of it is known to the reader."""


class Parenthesis:
    """An open one: its sign, if it is a list, whether it is negated, and its node so far."""

    def __init__(self, sign, is_negated):
        self.sign, self.is_negated, self.node = sign, is_negated, None


class Reader:
    """Reads a text as far as it goes."""

    def __init__(self, text):
        self.text, self.place, self.options = text, 0, None
        self.nodes, self.open, self.outside = [], [], Parenthesis(b"", False)

    def next(self):
        return self.text[self.place : self.place + 1]

    def last(self):
        return self.text[self.place - 1 : self.place] if self.place else b""

    def take(self, wanted):
        """Takes a byte that is one of these."""
        byte = self.next()
        if not byte or byte not in wanted:
            raise Refused
        self.place += 1
        return byte

    def take_all(self, wanted):
        while self.next() and self.next() in wanted:
            self.place += 1

    def take_number(self, first, most):
        """Takes a number up to `most` whose first digit is one of these."""
        number = 0
        while self.next() and self.next() in (DIGITS if number else first):
            number = 10 * number + int(self.next())
            if number > most:
                raise Refused
            self.place += 1
            if number == 0:
                return 0
        if self.last() not in tuple(b"%d" % digit for digit in range(10)):
            raise Refused
        return number

    def read_head(self):
        while self.next() == b"c":
            end = self.text.find(b"\n", self.place)
            self.place = len(self.text) if end < 0 else end + 1
            if end < 0:
                raise Refused
        for byte in (b"p", BLANKS, b"s", b"a", b"t", BLANKS):
            self.take(byte)
            if byte == BLANKS:
                self.take_all(BLANKS)
        self.options = self.take_number(DIGITS, MOST_OPTIONS)
        self.take_all(BLANKS)
        try:
            self.take(b"\n")
        except Refused:
            # Until the header is whole nothing hangs on the option count.
            self.options = None
            raise

    def innermost(self):
        return self.open[-1] if self.open else self.outside

    def put(self, kind, a=0, b=0):
        self.nodes.append((kind, a, b))
        return len(self.nodes) - 1

    def join(self, node, is_negated):
        """A formula ends, and its node is of the innermost parenthesis."""
        node = self.put(NOT, node) if is_negated else node
        one = self.innermost()
        one.node = node if one.node is None else self.put(AND if one.sign == b"*" else OR, one.node, node)

    def enter(self, sign, is_negated):
        # With no option a formula needs a list in it.
        room = MOST_OPEN - len(self.open) - (0 if sign or self.options else 1)
        if room < 1:
            raise Refused
        self.place += 1
        if sign:
            self.take(b"(")
        self.open.append(Parenthesis(sign, is_negated))

    def leave(self):
        one = self.innermost()
        if not self.open or (one.node is None and not one.sign):
            raise Refused
        self.place += 1
        self.open.pop()
        empty = one.node is None
        self.join(self.put(TRUE_KIND if one.sign == b"*" else FALSE) if empty else one.node, one.is_negated)

    def begin(self, byte):
        """A formula begins."""
        one = self.innermost()
        if one.node is not None and (not one.sign or self.last() not in (b" ", b"\t", b"\r", b"\n")):
            raise Refused
        is_negated = byte == b"-"
        if is_negated:
            if not self.options and MOST_OPEN - len(self.open) < 2:
                raise Refused
            self.place += 1
        if is_negated and not (self.next() and self.next() in b"(123456789"):
            raise Refused
        byte = self.next()
        if byte in (b"*", b"+", b"("):
            self.enter(byte if byte != b"(" else b"", is_negated)
        else:
            number = self.take_number(b"123456789", self.options)
            self.join(self.put(SYMBOL, number), is_negated)

    def read(self):
        self.read_head()
        while True:
            self.take_all(WHITE_SPACE)
            byte = self.next()
            if not byte:
                break
            if byte == b")":
                self.leave()
            elif byte in b"-*+(123456789":
                self.begin(byte)
            else:
                raise Refused
        if self.open or self.outside.node is None:
            raise Refused


def read(text):
    """The reader, when it has read what it can, and whether the text is accepted."""
    reader = Reader(text)
    try:
        reader.read()
    except Refused:
        return reader, False
    return reader, True


def answer(text):
    """The number of the refusal and its place, or 0 and 0."""
    reader, is_accepted = read(text)
    if not is_accepted:
        return 17, reader.place
    return (18, 0) if len(reader.nodes) > MOST_NODES else (0, 0)


def as_node_file(text):
    """The node file of an accepted text's table."""
    reader, _ = read(text)
    return node_file(reader.options, *reader.nodes)


def position(text, place):
    """The line and the column of a place, from 1."""
    before = text[:place]
    return before.count(b"\n") + 1, place - (before.rfind(b"\n") + 1) + 1


# What the host says of a place.
NO_HEADER = "the text ends before its header, which is p sat and the option count"
HEADER_ENDS = "the text ends in its header, which is p sat, the option count and a newline"
BEFORE_HEADER = "before the header stand only lines that begin with c"
HEADER_CR = "the header has a CR, and its line ends with LF alone"
HEADER_SPACE = "a space or a tab is missing between p, sat and the option count"
CNF = "the header is p cnf, so the text is clauses and no formula"
OTHER_WORD = "the word behind p is not sat, in small letters"
NO_COUNT = "the option count is missing behind p sat, or is no number"
BEHIND_COUNT = "something stands behind the option count, and the header ends there"
LEADING_ZERO = "a number has a leading zero"
COUNT_OVER = "the option count is over 32,000"
STILL_OPEN = "the text ends, and a parenthesis is still open"
ENDS_BEHIND_SIGN = "the text ends behind -, * or +"
NO_FORMULA = "the text ends, and no formula stands behind its header"
BEHIND_MINUS = "behind - comes a number or a ( at once, and nothing between"
BEHIND_SIGN = "behind * or + comes a ( at once, and nothing between"
NONE_OPEN = "a ) is too many: no parenthesis is open"
EMPTY = "the parentheses are empty, and only those of a list may be: *() or +()"
BEHIND_FORMULA = "something stands behind the formula, and a p sat text is one formula"
COMMENT = "a comment stands behind the header, and comment lines stand before it"
NO_BYTE = "this byte is of no formula, which has numbers, -, *, +, parentheses and white space"
SECOND = "a second formula stands in parentheses that are no list: a list has * or + before its ("
NOT_PARTED = "white space is missing between two formulas of a list"
ZERO = "a number begins with 0, and options count from 1"
NO_OPTION = "the option count is 0, so there is no option"
OVER = "a number is over the option count"
TOO_DEEP = "more than 64 parentheses would be open at once"
# The words of a number that is about no byte.
WORDS = {18: "the formula has more than 1,024 nodes"}


class At:
    """A text at the place where it is refused."""

    def __init__(self, text):
        reader, _ = read(text)
        self.text, self.place = text, reader.place
        self.before, self.byte = text[: reader.place], text[reader.place : reader.place + 1]
        self.is_end, self.last = not self.byte, self.before[-1:]
        self.options, self.open = reader.options, len(reader.open)
        self.sign, self.is_filled = reader.innermost().sign, reader.innermost().node is not None
        lines = text.split(b"\n")
        self.comments = 0
        while self.comments < len(lines) and lines[self.comments].startswith(b"c"):
            self.comments += 1
        start = sum(len(line) + 1 for line in lines[: self.comments])
        # The header, where there is one, as far as it is right, and whether the text is refused in it.
        self.header = text[start:].split(b"\n")[0]
        self.right = self.before[start:]
        self.is_header = self.options is None and start <= self.place
        # What stands behind the header.
        self.body = self.before[start + len(self.header) + 1 :]

    def is_start(self):
        """Whether the byte begins a formula."""
        return bool(self.byte) and self.byte in b"-*+(0123456789"

    def would_be_open(self):
        """How many parentheses are open at least when the formula that begins here is whole."""
        if self.byte in (b"*", b"+"):
            return self.open + 1
        least = 1 if self.options else 2
        return self.open + least if self.byte == b"(" or not self.options else self.open


TRUE = {
    NO_HEADER: lambda at: at.is_end and all(line.startswith(b"c") or not line for line in at.text.split(b"\n")),
    HEADER_ENDS: lambda at: at.is_end and at.is_header and at.header.startswith(b"p"),
    BEFORE_HEADER: lambda at: at.is_header and at.byte not in (b"", b"p", b"c") and not at.right,
    HEADER_CR: lambda at: at.is_header and at.byte == b"\r",
    HEADER_SPACE: lambda at: at.is_header and re.fullmatch(rb"p([ \t]+sat)?", at.right) and at.byte not in BLANKS,
    CNF: lambda at: at.is_header and at.header.split()[1:2] == [b"cnf"],
    OTHER_WORD: lambda at: at.is_header and at.header.split()[1:2] != [b"sat"],
    NO_COUNT: lambda at: at.is_header and at.right.split() == [b"p", b"sat"] and not at.byte.isdigit(),
    BEHIND_COUNT: lambda at: at.is_header and len(at.right.split()) == 3 and not (at.byte.isdigit() and at.last.isdigit()),
    LEADING_ZERO: lambda at: at.is_header and at.right.split()[2:] == [b"0"] and at.byte.isdigit() and at.last == b"0",
    COUNT_OVER: lambda at: at.is_header and at.byte.isdigit() and int(at.right.split()[2] + at.byte) > MOST_OPTIONS,
    STILL_OPEN: lambda at: at.is_end and at.open > 0 and at.body.count(b"(") > at.body.count(b")"),
    ENDS_BEHIND_SIGN: lambda at: at.is_end and at.body[-1:] in (b"-", b"*", b"+"),
    NO_FORMULA: lambda at: at.is_end and at.options is not None and not at.body.strip(WHITE_SPACE),
    BEHIND_MINUS: lambda at: at.body[-1:] == b"-" and at.byte not in b"(123456789",
    BEHIND_SIGN: lambda at: at.body[-1:] in (b"*", b"+") and at.byte != b"(",
    NONE_OPEN: lambda at: at.byte == b")" and at.body.count(b"(") == at.body.count(b")"),
    EMPTY: lambda at: at.byte == b")" and at.body.rstrip(WHITE_SPACE).endswith(b"(") and not at.sign,
    BEHIND_FORMULA: lambda at: at.open == 0 and at.is_filled and read(at.before)[1],
    COMMENT: lambda at: at.byte == b"c" and at.last == b"\n" and at.options is not None,
    NO_BYTE: lambda at: at.options is not None and at.byte not in b"-*+()0123456789 \t\r\n",
    SECOND: lambda at: at.is_start() and at.open > 0 and not at.sign and at.is_filled,
    NOT_PARTED: lambda at: at.is_start() and at.sign and at.is_filled and at.last not in (b" ", b"\t", b"\r", b"\n"),
    ZERO: lambda at: at.byte == b"0" and not at.last.isdigit(),
    NO_OPTION: lambda at: at.byte.isdigit() and at.options == 0,
    OVER: lambda at: at.byte.isdigit() and int((at.body + at.byte).translate(PARTED).split()[-1]) > at.options,
    TOO_DEEP: lambda at: at.is_start() and at.would_be_open() > MOST_OPEN,
}
# All but digits as spaces.
PARTED = bytes(byte if byte in DIGITS else 32 for byte in range(256))


def is_true(text, number, words):
    """Whether the words are true of a text that is refused by this number."""
    if number == 17:
        return words in TRUE and bool(TRUE[words](At(text)))
    return words == WORDS.get(number)


def said(text, place, words):
    """What the host says of a place."""
    return f"column {position(text, place)[1]}: {words}"


def head(options):
    return b"p sat %d\n" % options


def nested(depth, inner=b"1"):
    return b"(" * depth + inner + b")" * depth


def many(nodes):
    """A list of as many nodes, which is odd."""
    return head(1) + b"*(" + b" ".join([b"1"] * ((nodes + 1) // 2)) + b")\n"


# Texts that are accepted, each with its nodes.
RIGHT = [
    (b"p sat 1\n1", [(2, 1, 0)]),
    (b"p sat 0\n*()", [(1, 0, 0)]),
    (b"p sat 0\n+( )\n", [(0, 0, 0)]),
    (b"p\tsat \t 32000 \t\n 32000\r\n", [(2, 32000, 0)]),
    (b"c\nc p sat 1\ncomment\r\n" + head(3) + b"*(1 2 3)", [(2, 1, 0), (2, 2, 0), (4, 0, 1), (2, 3, 0), (4, 2, 3)]),
    (head(2) + b"((-(1)))", [(2, 1, 0), (3, 0, 0)]),
    (head(2) + b"+(-1 *(2))", [(2, 1, 0), (3, 0, 0), (2, 2, 0), (5, 1, 2)]),
    (head(2) + b"-( *(1\t2) )", [(2, 1, 0), (2, 2, 0), (4, 0, 1), (3, 2, 0)]),
    (head(2) + b"*((1)\n(2))", [(2, 1, 0), (2, 2, 0), (4, 0, 1)]),
    (head(1) + nested(64), [(2, 1, 0)]),
    (head(1) + nested(64, b"-1"), [(2, 1, 0), (3, 0, 0)]),
    (head(0) + nested(63, b"*()"), [(1, 0, 0)]),
    (head(0) + nested(62, b"-(*())"), [(1, 0, 0), (3, 0, 0)]),
]

# Texts that are refused, each with the place and the words.
REFUSED = [
    # The header.
    (b"p ", 2, HEADER_ENDS),
    (b"p sat 3", 7, HEADER_ENDS),
    (b"c only\np sat 3 ", 15, HEADER_ENDS),
    (b"p sat 3\r\n1\n", 7, HEADER_CR),
    (b"p sat\r\n3\n1\n", 5, HEADER_CR),
    (b"p sat3\n1\n", 5, HEADER_SPACE),
    (b"p cnf 3 2\n1 -2 0\n3 0\n", 2, CNF),
    (b"c clauses\np\tcnf 1 1\n1 0\n", 12, CNF),
    (b"p SAT 3\n1\n", 2, OTHER_WORD),
    (b"p sate 3\n=(1 2)\n", 5, OTHER_WORD),
    (b"p st 3\n1\n", 3, OTHER_WORD),
    (b"p 3\n1\n", 2, OTHER_WORD),
    (b"p sat\n1\n", 5, NO_COUNT),
    (b"p sat \n1\n", 6, NO_COUNT),
    (b"p sat -3\n1\n", 6, NO_COUNT),
    (b"p sat x\n1\n", 6, NO_COUNT),
    (b"p sat 3 7\n1\n", 8, BEHIND_COUNT),
    (b"p sat 3x\n1\n", 7, BEHIND_COUNT),
    (b"p sat 3 # three\n1\n", 8, BEHIND_COUNT),
    (b"p sat 03\n1\n", 7, LEADING_ZERO),
    (b"p sat 00\n*()\n", 7, LEADING_ZERO),
    (b"p sat 32001\n1\n", 10, COUNT_OVER),
    (b"p sat 99999999999999999999\n1\n", 10, COUNT_OVER),
    # The text's end.
    (head(3), 8, NO_FORMULA),
    (head(3) + b" \r\n\n", 12, NO_FORMULA),
    (head(3) + b"-", 9, ENDS_BEHIND_SIGN),
    (head(3) + b"*", 9, ENDS_BEHIND_SIGN),
    (head(3) + b"*(1 2", 13, STILL_OPEN),
    (head(3) + b"*(1 +", 13, STILL_OPEN),
    (head(3) + b"*(1 (2)\n", 16, STILL_OPEN),
    # Signs.
    (head(3) + b"- 1", 9, BEHIND_MINUS),
    (head(3) + b"--1", 9, BEHIND_MINUS),
    (head(3) + b"-*(1)", 9, BEHIND_MINUS),
    (head(3) + b"*(1 -\n2)", 13, BEHIND_MINUS),
    (head(3) + b"* (1)", 9, BEHIND_SIGN),
    (head(3) + b"+1", 9, BEHIND_SIGN),
    (head(3) + b"*1 2", 9, BEHIND_SIGN),
    # Parentheses.
    (head(3) + b")", 8, NONE_OPEN),
    (head(3) + b"(1))", 11, NONE_OPEN),
    (head(3) + b"()", 9, EMPTY),
    (head(3) + b"-( )", 11, EMPTY),
    (head(3) + b"*(1 ())", 13, EMPTY),
    (head(3) + b"(1 2)", 11, SECOND),
    (head(3) + b"((1)(2))", 12, SECOND),
    (head(3) + b"*(1(2))", 11, NOT_PARTED),
    (head(3) + b"*(1-2)", 11, NOT_PARTED),
    (head(3) + b"*((1)2)", 13, NOT_PARTED),
    (head(3) + b"+(*()+())", 13, NOT_PARTED),
    (head(1) + nested(65), 72, TOO_DEEP),
    (head(1) + nested(64, b"*()"), 72, TOO_DEEP),
    (head(1) + nested(64, b"+(1)"), 72, TOO_DEEP),
    (head(1) + nested(64, b"-(1)"), 73, TOO_DEEP),
    (head(0) + nested(64, b"*()"), 71, TOO_DEEP),
    (head(0) + nested(63, b"-(*())"), 71, TOO_DEEP),
    # Numbers.
    (head(3) + b"0", 8, ZERO),
    (head(3) + b"01", 8, ZERO),
    (head(3) + b"-0", 9, ZERO),
    (head(0) + b"1", 8, NO_OPTION),
    (head(0) + b"*(-1)", 11, NO_OPTION),
    (head(3) + b"4", 8, OVER),
    (head(31) + b"*(31 32)", 15, OVER),
    (head(3) + b"11", 9, OVER),
    # What else is there.
    (head(3) + b"1\n2\n", 10, BEHIND_FORMULA),
    (head(3) + b"1 )", 10, NONE_OPEN),
    (head(3) + b"*(1 2)\n" + head(3) + b"3\n", 15, BEHIND_FORMULA),
    (head(3) + b"1\noptions\t3\n0\t2\t1\t0\n", 10, BEHIND_FORMULA),
    (head(3) + b"1\n\0", 10, BEHIND_FORMULA),
    (head(3) + b"c the formula\n1\n", 8, COMMENT),
    (head(3) + b"*(1 2\nc the third\n3)\n", 14, COMMENT),
    (head(3) + b"1 | 2", 10, BEHIND_FORMULA),
    (head(3) + b"*(1, 2)", 11, NO_BYTE),
    (head(3) + b"\xef\xbb\xbf1", 8, NO_BYTE),
    (head(3) + b"(x)", 9, NO_BYTE),
    (head(3) + b"*(1\x0b2)", 11, NO_BYTE),
]

# Texts that are refused, and are node files by their first lines, so that the pass says something else.
NOT_SAT = [
    (b"", 0, NO_HEADER),
    (b"c", 1, NO_HEADER),
    (b"c one\nc two\n", 12, NO_HEADER),
    (b"p", 1, HEADER_ENDS),
    (b"psat 3\n1\n", 1, HEADER_SPACE),
    (b"p\n", 1, HEADER_SPACE),
    (b"P sat 3\n1\n", 0, BEFORE_HEADER),
    (b"\np sat 3\n1\n", 0, BEFORE_HEADER),
    (b"c one\n\np sat 3\n1\n", 6, BEFORE_HEADER),
    (b"*(1 2)\n", 0, BEFORE_HEADER),
    (b"\xef\xbb\xbfp sat 3\n1\n", 0, BEFORE_HEADER),
    (b"options\t1\n0\t2\t1\t0\n", 0, BEFORE_HEADER),
]


def drawn_text(drawn):
    options = drawn.choice((0, 1, 2, 3, 9, 10, 40, 32_000))
    comments = drawn.choice((b"", b"", b"c\0\xff\n"))
    return comments + sat_texts.text_of(drawn, options, sat_texts.drawn(drawn, options, drawn.randrange(5))).encode()


def damage(drawn, text):
    at = drawn.randrange(len(text) + 1)
    turn = drawn.randrange(6)
    if turn == 0:
        return text[:at] + bytes([drawn.choice(b"()*+-0129 \t\r\ncpx\0")]) + text[at:]
    if turn == 1:
        return text[:at] + text[at + 1 :]
    if turn == 2:
        return text[:at] + bytes([drawn.randrange(256)]) + text[at + 1 :]
    if turn == 3:
        return text[:at]
    if turn == 4:
        return text[:at] + text[at:].replace(b" ", b"", 1)
    return text[:at] + text[at:].replace(b")", b"", 1) + drawn.choice((b"", b")", b"1"))


def drawn(seed, count):
    """Right texts, and such with a few faults."""
    source = random.Random(seed)
    for _ in range(count):
        text = drawn_text(source)
        for _ in range(source.choice((0, 1, 1, 1, 2))):
            text = damage(source, text)
        yield text
