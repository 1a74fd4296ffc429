#!/usr/bin/env python3
"""entries.py ARCHIVE: prints the entries that an archive has, one a line, without their first word."""

import pathlib
import sys

PREFIX = b"simbolufa_"


def entries(archive):
    """The entries' names, from the index that starts a System V archive."""
    data = pathlib.Path(archive).read_bytes()
    header, index = data[8:68], data[68:]
    if data[:8] != b"!<arch>\n" or header[:16].rstrip() != b"/":
        raise ValueError(f"{archive} is not an archive with an index")
    index = index[: int(header[48:58])]
    count = int.from_bytes(index[:4], "big")
    names = index[4 + 4 * count :].split(b"\0")[:count]
    return [name[len(PREFIX) :].decode() for name in names if name.startswith(PREFIX)]


if __name__ == "__main__":
    print("\n".join(entries(sys.argv[1])))
