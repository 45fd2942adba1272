#!/usr/bin/env python3
"""Writes the hints on inlining that sources give into a module of LLVM's, as a proved build has them.

    bench/hints.py CRATES < MODULE > HINTED

CRATES is the folder of the crates that the module was made from, by `rt try`, which leaves the hints out.
"""
import glob
import re
import sys

HINTS = {"#[inline(always)]": "alwaysinline", "#[inline]": "inlinehint", "#[cold]": "cold"}
OWNER = re.compile(r"impl(?:<[^>]*>)? (\w+)")
FUNCTION = re.compile(r"\s*(?:pub(?:\([a-z]+\))? )?fn (\w+)")
DEFINED = re.compile(r'define internal [^@]*@"([\w:]+?)(?:::<|")')


def hints(crates):
    """The hint of each function that has one, by its name in the module."""
    found = {}
    for path in glob.glob(f"{crates}/*/src/*.rt"):
        crate, _, file = path.split("/")[-3:]
        owner, hint = [], None
        with open(path, encoding="utf-8") as lines:
            for line in lines:
                if line[0] not in " \n":
                    named = OWNER.match(line)
                    owner = [named[1]] if named else []
                hint = HINTS.get(line.strip(), hint)
                function = FUNCTION.match(line)
                if function:
                    if hint:
                        found["::".join([crate, file.removesuffix(".rt"), *owner, function[1]])] = hint
                    hint = None
    return found


def main(words):
    if len(words) != 1 or words[0].startswith("-"):
        sys.exit(__doc__)
    found = hints(words[0])
    seen = set()
    for line in sys.stdin:
        defined = DEFINED.match(line)
        if defined and defined[1] in found and line.endswith("{\n"):
            seen.add(defined[1])
            line = f"{line[:-2]}{found[defined[1]]} {{\n"
        sys.stdout.write(line)
    if not seen:
        sys.exit("hints.py: the module has none of the functions that have a hint")


if __name__ == "__main__":
    main(sys.argv[1:])
