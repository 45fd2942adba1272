#!/usr/bin/env python3
"""How many checks each script of the gate makes on this tree, and how a script ends.

    tests/counts.py SCRIPT PASSED FAILED

prints the last line of SCRIPT, 'N passed, M failed'. The status is 1 if a check failed, or if the script made another
number of checks than CHECKS has: a check that was skipped fails here. A new check changes one line of CHECKS.
"""
import sys

CHECKS = {
    "bytes": 6088,
    "check": 24737,
    # tests/cli with the path of a program, where bin/nrmatch isn't run.
    "cli PROGRAM": 8238,
    "cli": 8241,
    "controls": 53,
    "edits_apply": 826,
    "explain": 10098,
    "faults": 20037,
    "linear": 45,
    "memory": 252,
    "memory --calls": 15,
    "memory --check": 123,
    "memory --explain": 126,
    "memory --report": 126,
    "pages": 328,
    "python": 54,
    "report": 10055,
    "seeds": 7,
    "threads": 102,
    "told": 311,
    "units": 69,
    "words": 423,
    "ways": 1671,
    "wrong_bodies --gate": 35,
    "wrong_bodies --release": 67,
}
# The sweeps of the forms of tests/memory, by the number of workers and whether all requests from one on are refused.
SWEEPS = {
    "memory": {(1, False): 76, (1, True): 76, (4, False): 1, (4, True): 1},
    "memory --calls": {(1, False): 1, (1, True): 1, (2, False): 1, (2, True): 1},
    "memory --check": {(1, False): 38, (1, True): 38},
    "memory --explain": {(1, False): 39, (1, True): 39},
    "memory --report": {(1, False): 39, (1, True): 39},
}


def ended(script, passed, failed):
    """Prints the last line of a script that made all of its checks. Gives its exit status."""
    made, wanted = passed + failed, CHECKS.get(script)
    if made != wanted:
        print(f"FAILED: {script} made {made} checks, and tests/counts.py wants {wanted}")
        failed += 1
    print(f"{passed} passed, {failed} failed")
    return 1 if failed else 0


if __name__ == "__main__":
    if len(sys.argv) != 4:
        sys.exit("usage: tests/counts.py SCRIPT PASSED FAILED")
    sys.exit(ended(sys.argv[1], int(sys.argv[2]), int(sys.argv[3])))
