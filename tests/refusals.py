"""Lines in which the host says a refusal: seven columns, with the line to mend and a sentence.

The words for a node file are those of refused_files.py, and those for a p sat text are of sat_files.py. The host has words of
its own where a file has several guards, or is neither of the two.
"""

import re

import refused_files
import sat_files

# Said of a line that was to begin the next guard of a file.
ANOTHER = "it looks like the first line of another guard, which starts with the word options in small letters, and nothing before it"

# Said of a p sat text behind a node file.
SAT_BEHIND = "it looks like the beginning of a p sat text, which is a file of its own"
# Said of the first line of what begins like a p sat file, and is none.
NEITHER = "it is no node file, and no p sat file: that has lines that begin with c, if any, and then one that begins with p sat"


def line_in_guard(number, place, text=b""):
    """The line to mend, counted in the guard from 1. Where it is no one line it is the first."""
    if number == 17:
        return sat_files.position(text, place)[0]
    return refused_files.line_of(number, place) or 1


def line_in_file(before, number, place, text=b""):
    """The line to mend behind the texts, as bytes, that stand before the guard in its file."""
    return sum(text.count(b"\n") for text in before) + line_in_guard(number, place, text)


def is_start_of_another(text, place):
    """Whether a line inside a guard looks like the first line of another one."""
    line = text.split(b"\n")[place - 1] if place > 1 else b""
    return re.match(rb"(\xef\xbb\xbf)?[ \t]*option", line, re.I) is not None and not line.startswith(b"options")


def is_sat(text):
    """Whether a text is a p sat text, right or wrong, by its first lines."""
    return re.match(rb"(?:c[^\n]*\n)*p[ \t]", text) is not None


def is_like_sat(text):
    """Whether a text begins as if it were one."""
    return re.match(rb"(\xef\xbb\xbf)?[ \t\r\n]*(c|p|psat)(?![a-z])", text, re.I) is not None


def is_true(text, number, place, words):
    """Whether the words are true of a guard that is refused like this, and those of the host where it has some."""
    if is_sat(text):
        column = f"column {sat_files.position(text, place)[1]}: " if number == 17 else ""
        is_right = sat_files.answer(text) == (number, place) or number in (5, 6)
        told = words[len(column) :]
        is_told = sat_files.is_true(text, number, told) or told == refused_files.WORDS.get(number)
        return is_right and words.startswith(column) and is_told
    if number == 10 and is_start_of_another(text, place):
        return words == ANOTHER
    if number == 10 and place <= 1 and is_like_sat(text):
        return words == NEITHER
    if number == 10 and place > 1 and is_sat(b"\n".join(text.split(b"\n")[place - 1 :])):
        return words == SAT_BEHIND
    return refused_files.is_true(text, number, place, words)


def told(name, number, place, file, line, words, source=""):
    """The line that the host says."""
    return "\t".join([f"{name}", "refused", f"{number}", f"{place}", source, f"{file}:{line}", words])


def refused_file(path, number, place, words=None):
    """That line for a file with one guard."""
    return told(path, number, place, path, line_in_guard(number, place), words or refused_files.WORDS[number])


def refused_sat_file(path, text, place, words):
    """That line for a p sat file, of which a byte is wrong."""
    return told(path, 17, place, path, line_in_guard(17, place, text), sat_files.said(text, place, words))
