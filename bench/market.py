#!/usr/bin/env python3
"""Writes a market of a given size to standard output, the same for the same numbers.

    bench/market.py --singles 42600 --programs 6400 --couples 1200 --list 12 --pairs 80 --quota 8 --seed 1
    bench/market.py --shape steep --singles 100000 --couples 0 --list 20 --quota 1
    bench/market.py --names IDS --singles 5000 --programs 500 --couples 0

Shapes:
  random   Each single lists programs at random, and each program the singles and members that list it, in an order
           of its own; of the singles some are left out by the program, so that not every entry is mutual (--kept).
  steep    Every single lists the same programs in the same order, as many as --list, and each of these programs
           wants the singles in the opposite order of their numbers. As singles propose in order of their numbers,
           each of them is driven down its whole list: with few posts nearly every entry is proposed to.
  cycle    One single and one couple drive each other out for ever, so a state of the rounds comes back. Again and again
           a program is left that all singles list last; each of them is at home, and before its home it lists as many
           programs without a post as --list.

With --withdraw every program is withdrawn. With --names the ids are the lines of a file, as tests/collide.c makes.
With --digits the number of an id has at least this number of digits, as ids of services often do: `a00000007`. A cycle has
ids of its own.
"""
import argparse
import random
import sys


def namer(path, digits=1):
    """How an agent is called: by its kind and number, or by the lines of a file in turn."""
    if not path:
        return lambda kind, number: f"{kind}{number:0{digits}}"
    with open(path, encoding="ascii") as file:
        ids = file.read().split()
    return lambda kind, number: ids[number]


def random_lists(args, rng, name):
    """The lines of singles and couples, and each program with its quota and its list."""
    programs = range(args.programs)
    wanted_by = [[] for _ in programs]
    lines = []
    for a in range(args.singles):
        wants = rng.sample(programs, min(args.list, args.programs))
        lines.append(",".join(["applicant", name("a", a)] + [name("p", p) for p in wants]))
        for p in wants:
            if args.kept == 1 or rng.random() < args.kept:
                wanted_by[p].append(name("a", a))
    for c in range(args.couples):
        pairs = {}
        while len(pairs) < args.pairs:
            pairs[(rng.choice(programs), rng.choice(programs))] = None
        members = (name("m", 2 * c), name("m", 2 * c + 1))
        ids = [name("p", p) for pair in pairs for p in pair]
        lines.append(",".join(["couple", name("c", c), *members] + ids))
        for side in (0, 1):
            for p in sorted({pair[side] for pair in pairs}):
                wanted_by[p].append(members[side])
    for p in programs:
        rng.shuffle(wanted_by[p])
    return lines, [(name("p", p), args.quota, wanted_by[p]) for p in programs]


def steep_lists(args, name):
    """The same of a market in which everybody is driven down one list."""
    wants = [name("p", p) for p in range(args.list)]
    singles = [name("a", a) for a in range(args.singles)]
    lines = [",".join(["applicant", a] + wants) for a in singles]
    return lines, [(p, args.quota, singles[::-1]) for p in wants]


def cycle_lists(args):
    """The same of a market with a couple that finds no rest."""
    closed = [f"z{p}" for p in range(args.list)]
    homes = [f"h{p}" for p in range(args.singles // 9999 + 1)]
    at_home = [[] for _ in homes]
    singles = [f"a{a}" for a in range(args.singles)]
    lines = ["couple,c,ma,mb,left,right", "applicant,s,left,right"]
    for number, a in enumerate(singles):
        home = number % len(homes)
        at_home[home].append(a)
        lines.append(",".join(["applicant", a] + closed + [homes[home], "left"]))
    programs = [("left", 1, ["ma", "s"] + singles), ("right", 1, ["s", "mb"])]
    programs += [(p, 0, singles) for p in closed]
    return lines, programs + [(p, 9999, found) for p, found in zip(homes, at_home)]


def arguments():
    parser = argparse.ArgumentParser(description=__doc__, formatter_class=argparse.RawDescriptionHelpFormatter)
    parser.add_argument("--shape", choices=("random", "steep", "cycle"), default="random")
    parser.add_argument("--singles", type=int, default=42600)
    parser.add_argument("--programs", type=int, default=6400, help="of a random market")
    parser.add_argument("--couples", type=int, default=1200, help="of a random market")
    parser.add_argument("--list", type=int, default=12, help="programs on a single's list")
    parser.add_argument("--pairs", type=int, default=80, help="pairs on a couple's list")
    parser.add_argument("--quota", type=int, default=8)
    parser.add_argument("--kept", type=float, default=0.95, help="how many singles' entries are mutual, 0 to 1")
    parser.add_argument("--version", type=int, default=2, choices=(1, 2))
    parser.add_argument("--withdraw", action="store_true", help="withdraw every program")
    parser.add_argument("--names", help="a file of ids, one a line, for a market without couples")
    parser.add_argument("--digits", type=int, default=1, help="of an id, at least")
    parser.add_argument("--seed", type=int, default=1)
    args = parser.parse_args()
    most = args.programs**2
    if args.shape == "random" and args.couples > 0 and args.pairs > most:
        parser.error(f"--pairs {args.pairs}: a couple's list has no pair twice, and {args.programs} programs make {most} pairs")
    return args


def main():
    args = arguments()
    rng = random.Random(args.seed)
    name = namer(args.names, args.digits)
    if args.shape == "random":
        lines, programs = random_lists(args, rng, name)
    elif args.shape == "steep":
        lines, programs = steep_lists(args, name)
    else:
        lines, programs = cycle_lists(args)
    for program, quota, ranking in programs:
        lines.append(",".join(["program", program, str(quota)] + ranking))
        if args.withdraw:
            lines.append(f"withdraw,program,{program}")
    rng.shuffle(lines)
    sys.stdout.write(f"match,{args.version}\n")
    for line in lines:
        sys.stdout.write(line + "\n")


if __name__ == "__main__":
    main()
