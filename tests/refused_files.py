"""Node files that are refused, and what the command says of them in words.

REFUSED is a list of such files. OTHER_FORMATS has files that the command refuses and that are p sat files, right or wrong, for
the nightly pass. damaged() makes more. is_true() tells whether words about a file are true of it: it goes by
the rules of a node file, and shares no code with the command.
"""

import codecs
import random
import re

# What the command says of a number, where that does not hang on the file.
WORDS = {
    1: "there is no node line, and a guard has at least one node",
    2: "the option count is over 32,000",
    3: "the kind is none of 0 to 7",
    12: "a field that the kind does not use is not 0",
    13: "a child is not below its node",
    14: "a symbol is not one of 1 to V, the option count",
    5: "there are 65,535 clauses or more",
    6: "there are 1,000,000 literals or more",
    7: "the output needs more than 65,536 bytes",
}
# What the help says of refusal 10.
WRONG_LINE = "a line of the node file is wrong or missing, or the file is over 65,536 bytes"

SAT_FILE = "it looks like a p sat file and no node file: the nightly pass reads such files"
TOO_LONG = "the node file is over 65,536 bytes"
EMPTY_FILE = "the node file is empty"
ORDER_MARK = "the node file begins with a byte order mark"
EMPTY_LINE = "the line is empty"
COMMENT = "the line has a comment, by its #, //, /*, ; or --, and a node file has no comments"
TOO_MANY = "this is a node line too many: there are at most 1,024"
CR_LF = "the line ends with CR LF, and lines end with LF alone"
CR = "the line has a CR, and lines end with LF alone"
NO_NEWLINE = "the last line has no newline at its end"
SMALL_LETTERS = "the word options is not in small letters"
NO_OPTIONS = "the first field is not the word options, with which a node file begins"
MORE_OPTIONS = "the word options stands behind the first line, and a node file is one guard"
SPACE = "the line has a space, and between two fields stands one tab"
EMPTY_FIELD = "a field is empty: there are two tabs in a row, or a tab at an end of the line"
TWO_FIELDS = "the first line needs two fields: the word options and the option count, with one tab between"
FOUR_FIELDS = "a node line needs four fields: the node's number, its kind, a and b, with one tab between two"
NO_NUMBER = "a field is no decimal number"
SIGN = "a number has a sign, and numbers are written in digits alone"
LEADING_ZERO = "a number has a leading zero"
KIND = "a kind is over 255"
LARGE = "a number is over 65,535"
OTHER_NODE = "the first field is not the node's number: the nodes of a guard count 0, 1, 2 and so on"


class Line:
    """A line of a node file, from 1."""

    def __init__(self, text, place):
        lines = text.split(b"\n")
        self.text, self.place = text, place
        self.line = lines[place - 1] if 0 < place <= len(lines) else b""
        self.is_ended = 0 < place < len(lines)
        self.fields = self.line.split(b"\t")
        # The fields that are numbers, each with the most it may be.
        self.numbers = list(zip(self.fields, (65_535, 255, 65_535, 65_535)))
        if place == 1:
            self.numbers = [(field, 65_535) for field in self.fields[1:]]

    def has_word(self, flags=0):
        """Whether options is the first word."""
        return re.match(rb"[ \t]*options(?![A-Za-z])", self.line, flags) is not None

    def has(self, form):
        return any(re.fullmatch(form, field) for field, _ in self.numbers)

    def has_over(self, limit):
        over = (int(field) > most for field, most in self.numbers if most == limit and field.isdigit())
        return any(over)


TRUE = {
    SAT_FILE: lambda at: at.place <= 1 and re.match(rb"(?:c[^\n]*\n)*p[ \t]+sat(?![A-Za-z])", at.text) is not None,
    TOO_LONG: lambda at: len(at.text) > 65_536 and at.place == 0,
    EMPTY_FILE: lambda at: at.text == b"",
    ORDER_MARK: lambda at: at.place == 1 and at.text.startswith((codecs.BOM_UTF8, codecs.BOM_UTF16_LE, codecs.BOM_UTF16_BE)),
    EMPTY_LINE: lambda at: at.is_ended and at.line == b"",
    COMMENT: lambda at: any(sign in at.line for sign in (b"#", b"//", b"/*", b";", b"--")),
    TOO_MANY: lambda at: at.place == 1_026 and at.line != b"",
    CR_LF: lambda at: at.is_ended and at.line.endswith(b"\r"),
    CR: lambda at: b"\r" in at.line,
    NO_NEWLINE: lambda at: not at.is_ended and at.line != b"",
    SMALL_LETTERS: lambda at: at.place == 1 and at.has_word(re.I) and not at.has_word(),
    NO_OPTIONS: lambda at: at.place == 1 and at.fields[0] != b"options",
    MORE_OPTIONS: lambda at: at.place > 1 and at.has_word(),
    SPACE: lambda at: b" " in at.line,
    EMPTY_FIELD: lambda at: b"" in at.fields,
    TWO_FIELDS: lambda at: at.place == 1 and len(at.fields) != 2,
    FOUR_FIELDS: lambda at: at.place > 1 and len(at.fields) != 4,
    NO_NUMBER: lambda at: any(not re.fullmatch(rb"[+-]?[0-9]+", field) for field, _ in at.numbers),
    SIGN: lambda at: at.has(rb"[+-][0-9]+"),
    LEADING_ZERO: lambda at: at.has(rb"0[0-9]+"),
    KIND: lambda at: at.place > 1 and at.has_over(255),
    LARGE: lambda at: at.has_over(65_535),
    OTHER_NODE: lambda at: at.place > 1 and at.fields[0] != b"%d" % (at.place - 2),
}


def fault_of(record, node, options):
    """The number for a node's kind, a and b: 0 where nothing is wrong with them."""
    kind, a, b = record
    if kind > 7:
        return 3
    used = {0: 0, 1: 0, 2: 1, 3: 1}.get(kind, 2)
    if any((a, b)[used:]):
        return 12
    if kind > 2 and any(child >= node for child in (a, b)[:used]):
        return 13
    return 14 if kind == 2 and not 1 <= a <= options else 0


def is_true(text, number, place, words):
    """Whether the words are true of a text that is refused like this."""
    if number == 10:
        return words in TRUE and TRUE[words](Line(text, place))
    if words != WORDS.get(number):
        return False
    first, *lines = text.decode().splitlines()
    options = int(first.split("\t")[1])
    if number in (3, 12, 13, 14):
        faults = [fault_of(map(int, line.split("\t")[1:]), node, options) for node, line in enumerate(lines)]
        return faults[: place + 1] == [0] * place + [number]
    # That 5, 6 and 7 are true is for others to say.
    return {1: not lines, 2: options > 32_000}.get(number, True)


def line_of(number, place):
    """The line of the file that a refusal is about, or 0."""
    if number in (3, 12, 13, 14):
        return place + 2
    return {10: place, 2: 1, 1: 2}.get(number, 0)


def shown(name):
    """A file's name, as it is shown."""
    name = name.replace("\\", "\\\\")
    return re.sub(r"[\x00-\x1f\x7f]", lambda found: f"\\x{ord(found[0]):02x}", name)


def said(name, number, place, words):
    """What stands on standard error."""
    line = line_of(number, place)
    where = f", line {line}" if line else ""
    node = f" at node {place}" if number in (3, 12, 13, 14) else ""
    return f"simbolufa: {name}{where}: refused by {number}{node}: {words}\n".encode()


def fits(text, name, status, printed, told):
    """Whether exit status and both outputs fit together: a refusal has its line on standard error, whose words are true."""
    found = re.fullmatch(rb"refused\t(\d+)\t(\d+)\n", printed)
    if not found:
        return (status, told) == (0, b"")
    number, place = int(found[1]), int(found[2])
    before = said(name, number, place, "")[:-1]
    words = told[len(before) : -1].decode()
    return (status, told) == (1, said(name, number, place, words)) and is_true(text, number, place, words)


SYMBOL = b"0\t2\t1\t0\n"
RIGHT = b"options\t2\n" + SYMBOL + b"1\t3\t0\t0\n"
# s1, and six nodes that are each a not of the last one. Node 7 comes next, in line 9.
SEVEN = b"options\t2\n" + SYMBOL + b"".join(b"%d\t3\t%d\t0\n" % (at, at - 1) for at in range(1, 7))
MOST = b"options\t1\n" + b"".join(b"%d\t2\t1\t0\n" % at for at in range(1_024))


def doubled(kind, times):
    """s1, and so many nodes that each are two of the last one."""
    return b"options\t1\n" + SYMBOL + b"".join(b"%d\t%d\t%d\t%d\n" % (at + 1, kind, at, at) for at in range(times))


REFUSED = [
    # Lines and the file.
    (b"", 10, 1, EMPTY_FILE),
    (RIGHT.ljust(65_537, b"x"), 10, 0, TOO_LONG),
    (b"\n" * 70_000, 10, 0, TOO_LONG),
    (codecs.BOM_UTF8 + RIGHT, 10, 1, ORDER_MARK),
    (RIGHT.decode().encode("utf-16"), 10, 1, ORDER_MARK),
    (codecs.BOM_UTF16_BE + RIGHT.decode().encode("utf-16-be"), 10, 1, ORDER_MARK),
    (RIGHT.decode().encode("utf-16-le"), 10, 1, NO_OPTIONS),
    (RIGHT[:-1], 10, 3, NO_NEWLINE),
    (b"options\t2", 10, 1, NO_NEWLINE),
    (MOST + b"1024\t2\t1\t0\n", 10, 1_026, TOO_MANY),
    (MOST + b"\n", 10, 1_026, EMPTY_LINE),
    (RIGHT.replace(b"\n", b"\r\n"), 10, 1, CR_LF),
    (RIGHT.replace(b"\t0\n1", b"\t0\r\n1"), 10, 2, CR_LF),
    (RIGHT.replace(b"\n", b"\r"), 10, 1, CR),
    (RIGHT + b"\n", 10, 4, EMPTY_LINE),
    (b"\n" + RIGHT, 10, 1, EMPTY_LINE),
    # Comments.
    (b"# two options\n" + RIGHT, 10, 1, COMMENT),
    (RIGHT + b"// the root is node 1\n", 10, 4, COMMENT),
    (RIGHT + b"/* the root */\n", 10, 4, COMMENT),
    (RIGHT + b"; the root\n", 10, 4, COMMENT),
    (RIGHT + b"-- the root\n", 10, 4, COMMENT),
    (RIGHT[:-1] + b" # the root\n", 10, 3, COMMENT),
    # The word options.
    (RIGHT.replace(b"o", b"O"), 10, 1, SMALL_LETTERS),
    (RIGHT.upper(), 10, 1, SMALL_LETTERS),
    (b"Options 2\n", 10, 1, SMALL_LETTERS),
    (b"option\t2\n" + SYMBOL, 10, 1, NO_OPTIONS),
    (b"optionss\t2\n" + SYMBOL, 10, 1, NO_OPTIONS),
    (SYMBOL, 10, 1, NO_OPTIONS),
    (RIGHT + RIGHT, 10, 4, MORE_OPTIONS),
    # Fields.
    (RIGHT.replace(b"\t", b" "), 10, 1, SPACE),
    (b"options\t2\n0    2    1    0\n", 10, 2, SPACE),
    (b"options\t2 \n" + SYMBOL, 10, 1, SPACE),
    (b" options\t2\n" + SYMBOL, 10, 1, SPACE),
    (b"options\t2\n0\t\t2\t1\t0\n", 10, 2, EMPTY_FIELD),
    (b"options\t2\n0\t2\t1\t0\t\n", 10, 2, EMPTY_FIELD),
    (b"options\t\n" + SYMBOL, 10, 1, EMPTY_FIELD),
    (b"\toptions\t2\n" + SYMBOL, 10, 1, EMPTY_FIELD),
    (b"options\n" + SYMBOL, 10, 1, TWO_FIELDS),
    (b"options,2\n" + SYMBOL, 10, 1, TWO_FIELDS),
    (b"options=2\t2\n" + SYMBOL, 10, 1, NO_OPTIONS),
    (b"options\t2\t2\n" + SYMBOL, 10, 1, TWO_FIELDS),
    (b"options\t2\n0\t2\t1\n", 10, 2, FOUR_FIELDS),
    (b"options\t2\n0\t2\t1\t0\t0\n", 10, 2, FOUR_FIELDS),
    # Numbers.
    (b"options\ttwo\n" + SYMBOL, 10, 1, NO_NUMBER),
    (b"options\t2\n0\t2\t0x1\t0\n", 10, 2, NO_NUMBER),
    (b"options\t2\n0\tsymbol\t1\t0\n", 10, 2, NO_NUMBER),
    (b"options\t2\n0\t2\t-\t0\n", 10, 2, NO_NUMBER),
    (b"options\t2\n0\t2\t--1\t0\n", 10, 2, NO_NUMBER),
    (b"options\t2\n0\t2\t1\0\t0\n", 10, 2, NO_NUMBER),
    (b"options\t02\n" + SYMBOL, 10, 1, LEADING_ZERO),
    (b"options\t2\n0\t2\t1\t00\n", 10, 2, LEADING_ZERO),
    (b"options\t+2\n" + SYMBOL, 10, 1, SIGN),
    (b"options\t2\n0\t2\t-1\t0\n", 10, 2, SIGN),
    (b"options\t2\n0\t256\t1\t0\n", 10, 2, KIND),
    (b"options\t65536\n" + SYMBOL, 10, 1, LARGE),
    (b"options\t99999999999999999999\n" + SYMBOL, 10, 1, LARGE),
    (b"options\t2\n0\t2\t65536\t0\n", 10, 2, LARGE),
    (b"options\t2\n1\t2\t1\t0\n", 10, 2, OTHER_NODE),
    (SEVEN + b"8\t3\t6\t0\n", 10, 9, OTHER_NODE),
    (RIGHT + SYMBOL, 10, 4, OTHER_NODE),
    # The other numbers.
    (b"options\t2\n", 1, 0, WORDS[1]),
    (b"options\t40000\n", 1, 0, WORDS[1]),
    (b"options\t32001\n" + SYMBOL, 2, 0, WORDS[2]),
    (SEVEN + b"7\t8\t0\t0\n", 3, 7, WORDS[3]),
    (SEVEN + b"7\t255\t9\t9\n", 3, 7, WORDS[3]),
    (SEVEN + b"7\t3\t6\t6\n", 12, 7, WORDS[12]),
    (SEVEN + b"7\t3\t7\t1\n", 12, 7, WORDS[12]),
    (SEVEN + b"7\t0\t0\t1\n", 12, 7, WORDS[12]),
    (SEVEN + b"7\t2\t3\t1\n", 12, 7, WORDS[12]),
    (SEVEN + b"7\t3\t7\t0\n", 13, 7, WORDS[13]),
    (SEVEN + b"7\t4\t6\t8\n", 13, 7, WORDS[13]),
    (SEVEN + b"7\t2\t3\t0\n", 14, 7, WORDS[14]),
    (SEVEN + b"7\t2\t0\t0\n", 14, 7, WORDS[14]),
    # The lowest wrong node decides, whatever its fault is.
    (b"options\t2\n0\t2\t3\t0\n1\t9\t0\t0\n", 14, 0, WORDS[14]),
    (doubled(5, 20), 6, 0, WORDS[6]),
    (doubled(5, 14), 7, 0, WORDS[7]),
]

OTHER_FORMATS = [
    (b"p sat 1\n1\n", 10, 1, SAT_FILE),
    (b"c A guard\nc\np \tsat 2\n*(1 -2)\n", 10, 1, SAT_FILE),
    (b"p sat x\r\n1\r\n", 10, 1, SAT_FILE),
    (b"c options\t1\n" * 9 + b"p sat", 10, 1, SAT_FILE),
    (b"p sat 1\n1\n".ljust(65_536, b" "), 10, 1, SAT_FILE),
    (b"p sat 1\n1\n".ljust(65_537, b" "), 10, 0, SAT_FILE),
    (b"c a comment\n".ljust(65_000, b"c") + b"\np sat 1\n1\n" * 100, 10, 0, SAT_FILE),
    # The header is not that of a p sat file, or the text is cut before it.
    (b"p cnf 1 1\n1 0\n", 10, 1, NO_OPTIONS),
    (b"p sate 1\n1\n", 10, 1, NO_OPTIONS),
    (b"c a comment\n".ljust(65_537, b"c") + b"\np sat 1\n1\n", 10, 0, TOO_LONG),
]


def damaged(seed, count):
    """Node files with a few faults each, most of them small."""
    drawn = random.Random(seed)
    for _ in range(count):
        text = drawn.choice((RIGHT, SEVEN + b"7\t4\t6\t0\n", doubled(7, 3)))
        for _ in range(drawn.choice((1, 1, 1, 2, 3))):
            text = damage(drawn, text)
        yield text


def damage(drawn, text):
    at = drawn.randrange(len(text) + 1)
    lines = text.splitlines(keepends=True)
    line = drawn.randrange(len(lines) + 1)
    turn = drawn.randrange(9)
    if turn == 0:
        return text[:at] + drawn.choice((b" ", b"\t", b"\r", b"\n", b"#", b"-", b"+", b"0", b"9", b"x", b"\0")) + text[at:]
    if turn == 1:
        return text[:at] + text[at + 1 :]
    if turn == 2:
        return text[:at] + bytes([drawn.randrange(256)]) + text[at + 1 :]
    if turn == 3:
        return text[:at]
    if turn == 4:
        return b"".join(lines[:line] + lines[line + 1 :])
    if turn == 5:
        return b"".join(lines[:line] + lines[line - 1 :])
    if turn == 6:
        number = b"%d" % drawn.choice((0, 1, 8, 256, 40_000, 65_536))
        return text[:at] + re.sub(rb"[0-9]+", number, text[at:], count=1)
    if turn == 7:
        return text.replace(b"\t", drawn.choice((b" ", b"\t\t", b",")), drawn.choice((1, -1)))
    return text.replace(b"\n", b"\r\n", drawn.choice((1, -1)))
