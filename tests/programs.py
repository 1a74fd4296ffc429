"""The programs that the tests ask: the driver over the library, the reference, and the command."""

import itertools
import pathlib
import subprocess
import sys

import entries

TESTS = pathlib.Path(__file__).resolve().parent
BUILT = TESTS.parent / "target" / "tests"
ARCHIVE = TESTS.parent / "target" / "staticlib" / "libhost.a"
COMMAND = TESTS.parent / "simbolufa"
# Buffers over this length are shown by their hash.
LONGEST_SHOWN = 4096
# How many differences are printed.
SHOWN = 5


def build():
    if subprocess.run([TESTS / "build"]).returncode != 0:
        sys.exit("the programs were not built")


def driver_operations():
    """The operations that the driver has: those whose entries the archive has. The reference has more."""
    return entries.entries(ARCHIVE)


def ask(program, requests):
    """The answers of a program to the requests, and whether it answered all of them and ended well."""
    given = "".join(request + "\n" for request in requests)
    run = subprocess.run([BUILT / program], input=given, stdout=subprocess.PIPE, text=True)
    answers = run.stdout.splitlines()
    if run.returncode != 0 or len(answers) != len(requests):
        print(f"{program}: exit code {run.returncode}, {len(answers)} answers to {len(requests)} requests")
        return answers, False
    return answers, True


def show_differences(program, requests, expected, answers):
    """Prints the first differences between a program's answers and the reference's. Gives how many there are."""
    turns = itertools.zip_longest(requests, expected, answers, fillvalue="no answer")
    differ = [turn for turn in enumerate(turns, 1) if turn[1][1] != turn[1][2]]
    for number, (request, mine, theirs) in differ[:SHOWN]:
        print(f"request {number}: {shorten(request)}")
        print(f"  reference: {shorten(mine)}")
        print(f"  {program + ':':10} {shorten(theirs)}")
    return len(differ)


def compare(requests):
    """Asks the reference and the driver, and prints where they differ. Gives the reference's answers, how many
    differ, and whether both ended well."""
    expected, reference_ended = ask("reference", requests)
    answers, driver_ended = ask("driver", requests)
    differ = show_differences("driver", requests, expected, answers)
    return expected, differ, reference_ended and driver_ended


def generate(seed, count, operations):
    command = [BUILT / "generator", str(seed), str(count), ",".join(operations)]
    run = subprocess.run(command, stdout=subprocess.PIPE, text=True)
    if run.returncode != 0:
        sys.exit("the requests were not generated")
    return run.stdout.splitlines()


def from_parts(field):
    """The bytes of a lent input."""
    if field in ("-", "="):
        return b""
    parts = (part.partition("*") for part in field.split("+"))
    return b"".join(bytes.fromhex(part) * int(times or 1) for part, _, times in parts)


def shown(data):
    """A buffer as an answer shows it."""
    if not data:
        return "-"
    if len(data) <= LONGEST_SHOWN:
        return data.hex()
    value = 14695981039346656037
    for byte in data:
        value = (value ^ byte) * 1099511628211 % 2**64
    return f"#{len(data)}:{value:016x}"


def shorten(line):
    return line if len(line) <= 1000 else f"{line[:800]}...{line[-100:]} ({len(line)} characters)"
