"""Files that the nightly pass writes with --origins, made by themselves: what they are called, how helpers are called, and
their lines.

Lines are those of origin_lines.py. The set is the one that the reference chooses.
"""

import origin_lines
import programs

PLAIN = b"abcdefghijklmnopqrstuvwxyzABCDEFGHIJKLMNOPQRSTUVWXYZ0123456789_"
ANSWER_LENGTH = 16
ALLOWANCE = 1024


def file_name(name):
    """The name of a guard's file. Both are bytes."""
    if not name:
        return b"%.tsv"
    parts = []
    for at, byte in enumerate(name):
        stays = byte in PLAIN or (at > 0 and byte in b"-.#")
        parts.append(bytes([byte]) if stays else b"%%%02x" % byte)
    return b"".join(parts) + b".tsv"


def helper_name(node, options):
    """The name of a node's helper beside the names of options: the first that no literal of an option looks like."""
    literals = set(options) | {b"!" + name for name in options}
    brackets = 1
    while True:
        name = b"[" * brackets + b"%d" % node + b"]" * brackets
        if name not in literals and b"!" + name not in literals:
            return name
        brackets += 1


def read(text):
    """The option count and the nodes of a node file, given as bytes."""
    lines = [[int(field) for field in line.split(b"\t")[1:]] for line in text.split(b"\n")[:-1]]
    return lines[0][0], [tuple(line) for line in lines[1:]]


def chosen(texts):
    """The nodes that the reference renames in each node file."""
    requests = []
    for text in texts:
        options, nodes = read(text)
        table = b"".join(kind.to_bytes(1, "little") + a.to_bytes(2, "little") + b.to_bytes(2, "little") for kind, a, b in nodes)
        requests.append(f"choose {options} {ALLOWANCE} {table.hex()} {len(nodes)} {ANSWER_LENGTH}")
    answers, well = programs.ask("reference", requests)
    if not well:
        raise ValueError("the reference did not answer")
    return [[node for node, byte in enumerate(bytes.fromhex(answer.split(" ")[1])) if byte] for answer in answers]


def numbers(count):
    """Options that have their numbers as names."""
    return [b"%d" % option for option in range(1, count + 1)]


def expected(text, renamed, names):
    """What the file of a node file has. `names` are those of all options."""
    options, nodes = read(text)
    variables = {at: name for at, name in enumerate(names[:options], 1)}
    looks = [name for name in names if name.lstrip(b"!").startswith(b"[")]
    for at, node in enumerate(renamed, options + 1):
        variables[at] = helper_name(node, looks)
    return b"".join(origin_lines.Conversion(options, nodes, renamed).lines(variables))


def written(folder):
    """What a folder has: each file's name, as bytes, and its content."""
    return {bytes(path): (folder / path.decode(errors="surrogateescape")).read_bytes() for path in names_in(folder)}


def names_in(folder):
    return sorted(path.name.encode(errors="surrogateescape") for path in folder.iterdir())
