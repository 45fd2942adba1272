"""What nrmatch answers, by docs/FORMAT.md: plain, slow, and written beside the program.

`answer` gives the whole text for the bytes of an input. Codes 10, 19, 30 and 31 are left out: no input that asks here is
so large, and none fails to be read.
"""
import collections
import re

MARK = b"\xef\xbb\xbf"
KINDS = ("program", "applicant", "couple")
LEAST_FIELDS = {"program": 3, "applicant": 2, "couple": 4, "withdraw": 3}
NAMES = {
    11: "TwoMarks",
    12: "NoVersion",
    13: "UnknownKind",
    14: "FieldCount",
    15: "BadId",
    16: "BadQuota",
    17: "DuplicateId",
    18: "DuplicateEntry",
    20: "UnknownApplicant",
    21: "UnknownProgram",
    22: "NotRegistered",
    41: "BudgetSpent",
}
NONE = "-"
END_OF_LINE = re.compile(r"[\r\n]*")
# A field in quotes may lack its second quote at the end of the input. What is after the second quote is of the field.
FIELD = re.compile(r'(?:"((?:[^"]|"")*)(?:"|\Z))?([^,\r\n]*)(,?)')


class Refused(Exception):
    """A refusal's code, with its record and id."""

    def __init__(self, code, record=0, name=NONE):
        super().__init__(code, record, name)
        self.code = code

    def text(self):
        """What is written for it."""
        code, record, name = self.args
        return f"match,1,refused,{code},{NAMES[code]},{record},{name}\n"


def status_of(text):
    """The exit status that goes with a text."""
    fields = text.split("\n")[0].split(",")
    if fields[2] == "published":
        return 0
    return {"30": 4, "31": 5, "41": 3}.get(fields[3], 2)


def records(text):
    """The records of a CSV text, numbered from 1, without their trailing empty fields."""
    rows, at = [], END_OF_LINE.match(text).end()
    while at < len(text):
        fields, comma = [], ","
        while comma:
            match = FIELD.match(text, at)
            quoted, plain, comma = match.groups()
            fields.append((quoted or "").replace('""', '"') + plain)
            at = match.end()
        while fields and not fields[-1]:
            fields.pop()
        rows.append(fields)
        at = END_OF_LINE.match(text, at).end()
    return [(number, row) for number, row in enumerate(rows, 1) if row]


class FirstPass:
    """The ids and withdrawals of the records so far."""

    def __init__(self, version):
        self.version = version
        self.id = re.compile("[A-Za-z0-9._:-]{1,%d}" % (32 if version == 1 else 64))
        self.names = {kind: set() for kind in KINDS}
        self.withdrawn = set()

    def is_id(self, text):
        """Whether it is an id."""
        return text != NONE and self.id.fullmatch(text)

    def take(self, number, row):
        """Registers a record, or refuses it with the first of its faults."""
        kind, *fields = row
        is_withdrawal = kind == "withdraw" and self.version == 2
        if kind not in KINDS and not is_withdrawal or is_withdrawal and fields and fields[0] not in KINDS:
            raise Refused(13, number)
        if len(row) < LEAST_FIELDS[kind] or kind == "couple" and len(row) % 2 or is_withdrawal and len(row) > 3:
            raise Refused(14, number)
        if not self.has_ids(kind, fields):
            raise Refused(15, number)
        if kind == "program" and not re.fullmatch("[0-9]{1,4}", fields[1]):
            raise Refused(16, number, fields[0])
        if is_withdrawal:
            self.withdraw(number, *fields)
        else:
            self.register(number, kind, fields)

    def has_ids(self, kind, fields):
        """Whether each field that should be an id is one."""
        if kind == "couple":
            pairs = fields[3:]
            both = any(pair == (NONE, NONE) for pair in zip(pairs[::2], pairs[1::2]))
            others = [it for it in pairs if self.version == 1 or it != NONE]
            return not both and all(map(self.is_id, fields[:3] + others))
        ids = fields[:1] + fields[2:] if kind == "program" else fields[1:] if kind == "withdraw" else fields
        return all(map(self.is_id, ids))

    def withdraw(self, number, kind, name):
        """Takes a withdrawal, of a row that none has withdrawn before."""
        if (kind, name) in self.withdrawn:
            raise Refused(18, number, name)
        self.withdrawn.add((kind, name))

    def register(self, number, kind, fields):
        """Takes the ids of a record, which are new, and its list, which has nothing twice."""
        if fields[0] in self.names[kind]:
            raise Refused(17, number, fields[0])
        members = fields[1:3] if kind == "couple" else []
        for place, name in enumerate(members):
            if name in self.names["applicant"] or name in members[:place]:
                raise Refused(17, number, name)
        entries = fields[2:] if kind == "program" else fields[1:]
        if kind == "couple":
            entries = [*zip(fields[3::2], fields[4::2])]
        if len({*entries}) < len(entries):
            raise Refused(18, number, fields[0])
        self.names[kind].add(fields[0])
        self.names["applicant"].update(members)


def second_pass(rows, names):
    """Refuses the first id that no record registers."""
    own = {(row[0], row[1]) for _, row in rows}
    for number, (kind, *fields) in rows:
        if kind == "withdraw":
            if (fields[0], fields[1]) not in own:
                raise Refused(22, number, fields[1])
        elif kind == "program":
            for name in fields[2:]:
                if name not in names["applicant"]:
                    raise Refused(20, number, name)
        else:
            for name in fields[1:] if kind == "applicant" else fields[3:]:
                if name not in names["program"] and name != NONE:
                    raise Refused(21, number, name)


def accepted(data):
    """The records after the first, of an input that has no fault."""
    if data.startswith(MARK + MARK):
        raise Refused(11)
    rows = records(data.removeprefix(MARK).decode("latin-1"))
    if not rows or rows[0][1] not in (["match", "1"], ["match", "2"]):
        raise Refused(12, rows[0][0] if rows else 0)
    first = FirstPass(int(rows[0][1][1]))
    for number, row in rows[1:]:
        first.take(number, row)
    second_pass(rows[1:], first.names)
    return [row for _, row in rows[1:]]


class Market:
    """The market of records, without what is withdrawn."""

    def __init__(self, rows):
        gone = {(row[1], row[2]) for row in rows if row[0] == "withdraw"}
        rows = [row for row in rows if row[0] != "withdraw" and (row[0], row[1]) not in gone]
        self.quotas = {row[1]: int(row[2]) for row in rows if row[0] == "program"}
        self.applicants, self.agents, self.agent_of = [], [], {}
        for kind, *fields in rows:
            if kind == "applicant":
                self.add(fields[:1], [(wish,) for wish in fields[1:]])
            elif kind == "couple":
                self.add(fields[1:3], [*zip(fields[3::2], fields[4::2])])
        self.lists = {row[1]: [it for it in row[3:] if it in self.agent_of] for row in rows if row[0] == "program"}
        self.ranks = {program: {name: rank for rank, name in enumerate(it)} for program, it in self.lists.items()}

    def add(self, members, options):
        """Adds a single or a couple: its members, and its options at programs that are there."""
        kept = [option for option in options if {*option} <= {NONE, *self.quotas}]
        for name in members:
            self.agent_of[name] = len(self.agents)
        self.agents.append((members, kept))
        self.applicants += members


class Matching:
    """A match of the agents of a market that have entered."""

    def __init__(self, market):
        self.market = market
        self.places = {name: NONE for name in market.applicants}
        self.there = {program: set() for program in market.quotas}
        self.proposals = {program: 0 for program in market.quotas}

    def put(self, name, place):
        """Places an applicant."""
        if self.places[name] != NONE:
            self.there[self.places[name]].remove(name)
        if place != NONE:
            self.there[place].add(name)
        self.places[name] = place

    def chosen(self, program, names):
        """Those that a program chooses."""
        listed = sorted((it for it in names if it in self.market.ranks[program]), key=self.market.ranks[program].get)
        return listed[: self.market.quotas[program]]

    def propose(self):
        """Matches the singles: each that isn't held proposes to its next program."""
        made = collections.Counter()
        waiting = [members[0] for members, _ in self.market.agents if len(members) == 1]
        while waiting:
            name = waiting.pop()
            wishes = self.market.agents[self.market.agent_of[name]][1]
            if made[name] == len(wishes):
                continue
            (program,) = wishes[made[name]]
            made[name] += 1
            if name not in self.market.ranks[program]:
                waiting.append(name)
                continue
            self.proposals[program] += 1
            self.put(name, program)
            for other in self.there[program] - {*self.chosen(program, self.there[program])}:
                self.put(other, NONE)
                waiting.append(other)

    def with_members(self, members, option, program):
        """Who is at a program once an agent has left and taken an option."""
        return self.there[program] - {*members} | {it for it, to in zip(members, option) if to == program}

    def better(self, agent):
        """The first option that an agent likes better than its place, and that would be taken."""
        members, options = self.market.agents[agent]
        own = tuple(self.places[name] for name in members)
        for option in options[: options.index(own)] if own in options else options:
            if all(
                to == NONE or name in self.chosen(to, self.with_members(members, option, to))
                for name, to in zip(members, option)
            ):
                return option
        return None

    def move(self, agent, option):
        """Makes the move of a round: the agents with a displaced member, in order, and the programs that were left."""
        members, _ = self.market.agents[agent]
        before, displaced = dict(self.places), []
        for program in dict.fromkeys(it for it in option if it != NONE):
            there = self.with_members(members, option, program)
            displaced += [(name, program) for name in there - {*self.chosen(program, there)}]
        order = {program: number for number, program in reversed([*enumerate(option)])}
        displaced.sort(key=lambda it: (order[it[1]], self.market.ranks[it[1]][it[0]]))
        out = [self.market.agent_of[name] for name, _ in displaced]
        changed = [*members, *(name for other in out for name in self.market.agents[other][0])]
        for name in changed[len(members) :]:
            self.put(name, NONE)
        for name, place in zip(members, option):
            self.put(name, place)
        left = {before[name] for name in changed if self.places[name] != before[name]}
        stayed = {
            place
            for place in left
            if place == NONE
            or not any(before[it] == place != self.places[it] and (it, place) not in displaced for it in changed)
        }
        return out, left - stayed

    def enter_couples(self, budget):
        """Lets the couples enter in order, within a budget of rounds."""
        market, rounds = self.market, 0
        numbers = {program: number for number, program in enumerate(market.quotas)}
        entered = {agent for agent, (members, _) in enumerate(market.agents) if len(members) == 1}
        for couple in range(len(market.agents)):
            if couple in entered:
                continue
            entered.add(couple)
            waiting = collections.deque([couple])
            while waiting:
                if rounds == budget:
                    raise Refused(41)
                rounds += 1
                agent = waiting.popleft()
                option = self.better(agent)
                if option is None:
                    continue
                out, left = self.move(agent, option)
                waiting.extend(it for it in dict.fromkeys(out) if it not in waiting)
                again = [agent]
                for program in sorted(left, key=numbers.get):
                    again += [market.agent_of[name] for name in market.lists[program]]
                for other in again:
                    if other in entered and other not in waiting and self.better(other) is not None:
                        waiting.append(other)

    def text(self):
        """What is published."""
        lines = ["match,1,published", *(f"applicant,{name},{place}" for name, place in self.places.items())]
        filled = {program: len(names) for program, names in self.there.items()}
        for program, quota in self.market.quotas.items():
            lines.append(f"program,{program},{quota},{filled[program]},{self.proposals[program]}")
        posts, placed = sum(self.market.quotas.values()), sum(filled.values())
        lines.append(f"totals,{len(self.places)},{len(self.places) - placed},{posts},{posts - placed}")
        return "".join(f"{line}\n" for line in lines)


def answer(data, budget):
    """The text for an input and a budget of rounds."""
    try:
        matching = Matching(Market(accepted(data)))
        matching.propose()
        matching.enter_couples(budget)
        return matching.text()
    except Refused as refused:
        return refused.text()
