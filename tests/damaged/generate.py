#!/usr/bin/env python3
"""Writes the stored input and the expected output of the program `imagecheck`.

The files are damaged forms of one file of three entries. What is expected of each is worked out here from the
rules of docs/FORMAT.md alone; nothing of the proved library is used. Run it from the repository's root:

    python3 tests/damaged/generate.py
"""

MOST_ENTRIES, LONGEST_TEXT, GREATEST_HAND = 128, 96, 4_000_000_000


def number(file, at, width):
    return int.from_bytes(file[at:at + width], "big")


def written(table):
    """The file of a list of (edition, hand, text)."""
    rows, bodies, place = b"", b"", 4 + 14 * len(table)
    for edition, hand, text in table:
        rows += edition.to_bytes(4, "big") + hand.to_bytes(4, "big")
        rows += place.to_bytes(4, "big") + len(text).to_bytes(2, "big")
        bodies += text
        place += len(text)
    return (1).to_bytes(2, "big") + len(table).to_bytes(2, "big") + rows + bodies


def verdict(file):
    """The line that the rules ask for."""
    if len(file) < 4:
        return "no 20"
    if number(file, 0, 2) != 1:
        return "no 21"
    n = number(file, 2, 2)
    if n > MOST_ENTRIES:
        return "no 22"
    if len(file) < 4 + 14 * n:
        return "no 23"
    end = 4 + 14 * n
    for k in range(n):
        at = 4 + 14 * k
        edition, hand = number(file, at, 4), number(file, at + 4, 4)
        place, length = number(file, at + 8, 4), number(file, at + 12, 2)
        if edition > hand or hand > GREATEST_HAND:
            return f"no 24 row {k}"
        if length > LONGEST_TEXT:
            return f"no 25 row {k}"
        if place != end:
            return f"no 26 row {k}"
        end += length
    return f"ok {n}" if end == len(file) else "no 27"


def changed(file, *pairs):
    """The file with the byte at each place replaced."""
    out = bytearray(file)
    for at, byte in pairs:
        out[at] = byte
    return bytes(out)


def cases():
    base = written([(1, 3, b"Wills"), (0, 0, b""), (2, 9, b"Tithes & maps")])
    yield base
    # each truncated length
    for length in range(len(base)):
        yield base[:length]
    # each byte with its lowest, its highest and all of its bits turned
    for at in range(len(base)):
        for mask in (0x01, 0x80, 0xff):
            yield changed(base, (at, base[at] ^ mask))
    # bytes too many
    yield base + b"\0"
    yield base + b"more"
    # two faults at once: the first in order is named
    yield changed(base, (1, 2), (3, 200))
    yield changed(base, (3, 129))[:20]
    yield changed(base, (4 + 3, 9), (4 + 13, 97), (4 + 11, 0))
    yield changed(base, (4 + 13, 97), (4 + 11, 0))
    yield changed(base, (4 + 11, 0), (18 + 3, 1))
    yield changed(base, (18 + 3, 1), (32 + 3, 200))
    yield changed(base, (18 + 13, 97), (32 + 3, 200)) + b"x"
    # limits
    yield written([])
    yield written([]) + b"\0"
    yield written([(GREATEST_HAND, GREATEST_HAND, b"a" * LONGEST_TEXT)])
    yield written([(0, GREATEST_HAND + 1, b"a")])
    yield written([(7, 7, b"b" * (LONGEST_TEXT + 1))])
    yield written([(0, 0, b"")] * MOST_ENTRIES)
    yield written([(0, 0, b"")] * (MOST_ENTRIES + 1))


def main():
    files = list(cases())
    lines = [file.hex() for file in files] + ["zz", "123", "0001000G"]
    verdicts = [verdict(file) for file in files] + ["bad", "bad", "bad"]
    with open("crates/imagecheck/stdin", "w") as out:
        out.write("\n".join(lines) + "\n")
    with open("crates/imagecheck/stdout", "w") as out:
        out.write("\n".join(verdicts) + "\n")
    print(len(lines), "lines")


main()
