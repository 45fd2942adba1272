#!/usr/bin/env python3
"""Writes a file of 64 MiB or a little less, for the first two layers.

    bench/records.py KIND FILE

KIND is long (rows of a thousand ids), short (rows of ten), tiny (ids of one or two bytes), single (one field of one byte
in each row) or padded (rows of two ids and a hundred empty fields).
"""
import argparse

LIMIT = 67_108_864
# The row with a number, of each kind.
ROWS = {
    "long": lambda i: ",".join(["program", f"P{i}", "50"] + [f"a{(i * 7919 + j * 104729) % 100000}" for j in range(1000)]),
    "short": lambda i: ",".join(["applicant", f"a{i}"] + [f"P{(i * 31 + j * 17) % 20000}" for j in range(10)]),
    "tiny": lambda i: ",".join(["program", f"P{i}", "50"] + [f"{(i + j) % 50}" for j in range(1000)]),
    "single": lambda i: "a",
    "padded": lambda i: f"applicant,a{i}" + "," * 100,
}


def main():
    parser = argparse.ArgumentParser(description=__doc__, formatter_class=argparse.RawDescriptionHelpFormatter)
    parser.add_argument("kind", choices=ROWS, metavar="KIND")
    parser.add_argument("file", metavar="FILE")
    args = parser.parse_args()
    with open(args.file, "wb") as file:
        size, number = file.write(b"match,1\n"), 0
        row = ROWS[args.kind](number).encode() + b"\n"
        while size + len(row) <= LIMIT:
            size, number = size + file.write(row), number + 1
            row = ROWS[args.kind](number).encode() + b"\n"


if __name__ == "__main__":
    main()
