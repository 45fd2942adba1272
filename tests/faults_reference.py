"""What `nrcheck MARKET` answers, by docs/FORMAT.md and docs/CHECK.md: plain, slow, and written beside the program.

`faults` gives the lines for the bytes of a file. Codes 10, 19, 30 and 31 are left out: no file that asks here is so large,
and none fails to be read.
"""
import re

MARK = b"\xef\xbb\xbf"
KINDS = ("program", "applicant", "couple")
NAMES = {
    11: "TwoMarks",
    12: "NoVersion",
    13: "UnknownKind",
    14: "FieldCount",
    15: "BadId",
    16: "BadQuota",
    17: "DuplicateId",
    18: "DuplicateEntry",
    20: "UnknownApplicant",
    21: "UnknownProgram",
    22: "NotRegistered",
}
DASH = b"-"
QUOTA = re.compile(rb"[0-9]{1,4}")
# The code of an entry that no record registers, by the kind of what it should be.
UNKNOWN = {"applicant": 20, "program": 21}


class Reader:
    """The records of a text, with the numbers of the lines on which they begin."""

    def __init__(self, text):
        self.text = text
        self.at, self.line = 0, 1

    def is_over(self):
        return self.at == len(self.text)

    def here(self):
        return self.text[self.at : self.at + 1]

    def take(self):
        """Takes one byte. A line ends after a line feed, and after a carriage return that has none behind it."""
        byte = self.here()
        self.at += 1
        if byte == b"\n" or byte == b"\r" and self.here() != b"\n":
            self.line += 1
        return byte

    def quoted(self):
        """What is in quotes, after the first of them and up to the second. A doubled quote is one."""
        found = b""
        while not self.is_over():
            byte = self.take()
            if byte != b'"':
                found += byte
            elif self.here() == b'"':
                found += self.take()
            else:
                break
        return found

    def field(self):
        found = b""
        if self.here() == b'"':
            self.take()
            found = self.quoted()
        while not self.is_over() and self.here() not in (b",", b"\r", b"\n"):
            found += self.take()
        return found

    def fields(self):
        found = [self.field()]
        while self.here() == b",":
            self.take()
            found.append(self.field())
        while found and not found[-1]:
            found.pop()
        return found

    def records(self):
        """Each record's number, line and fields."""
        found = []
        while True:
            while self.here() in (b"\r", b"\n"):
                self.take()
            if self.is_over():
                return [it for it in found if it[2]]
            line = self.line
            found.append((len(found) + 1, line, self.fields()))


class Record:
    """A record after the first: the numbers of the fields that have a meaning, by what they should be."""

    def __init__(self, version, number, line, fields):
        self.number, self.line, self.fields = number, line, fields
        self.kind = fields[0].decode("latin-1")
        self.is_withdrawal = self.kind == "withdraw" and version == 2
        self.shape = []
        self.names, self.quota, self.list, self.pairs = [], None, [], []
        count = len(fields)
        if self.is_withdrawal:
            self.kind = fields[1].decode("latin-1") if count > 1 else None
            if count == 1:
                self.shape = [(14, 0, b"")]
            elif self.kind not in KINDS:
                self.shape = [(13, 2, b"")]
            else:
                self.names = self.numbers(3, 4)
                self.shape = [(14, 0, b"")] if count != 3 else []
        elif self.kind not in KINDS:
            self.kind = None
            self.shape = [(13, 1, b"")]
        else:
            self.read_registration(count)

    def numbers(self, first, end=None):
        """The numbers of the fields from this one on, and before that one."""
        count = len(self.fields)
        return list(range(first, min(end or count + 1, count + 1)))

    def read_registration(self, count):
        if self.kind == "program":
            self.names, self.list = self.numbers(2, 3), self.numbers(4)
            self.quota = 3 if count > 2 else None
            is_short = count < 3
        elif self.kind == "applicant":
            self.names, self.list = self.numbers(2, 3), self.numbers(3)
            is_short = count < 2
        else:
            self.names = self.numbers(2, 5)
            self.pairs = [(number, number + 1) for number in range(5, count, 2)]
            is_short = count < 4 or count % 2 == 1
        self.shape = [(14, 0, b"")] if is_short else []

    def __getitem__(self, number):
        """The field with a number."""
        return self.fields[number - 1]


class Market:
    """All records of a file, and the faults of each beside those before it."""

    def __init__(self, version, records):
        self.version = version
        self.id = re.compile(rb"[A-Za-z0-9._:-]{1,%d}" % (32 if version == 1 else 64))
        self.records = [Record(version, *record) for record in records]
        self.registered = self.registered_by(self.records)
        # A member has no record of its own that can be withdrawn.
        self.rows = {(it.kind, it[2]) for it in self.records if (it.kind, 2) in self.own(it)}
        self.seen = {kind: set() for kind in KINDS}
        self.withdrawn = set()

    def is_id(self, text):
        return text != DASH and self.id.fullmatch(text) is not None

    def own(self, record):
        """The ids that a record registers, with their kinds and their fields' numbers."""
        if record.is_withdrawal or not record.kind:
            return []
        kinds = (record.kind, "applicant", "applicant")
        return [(kind, number) for kind, number in zip(kinds, record.names) if self.is_id(record[number])]

    def registered_by(self, records):
        found = {kind: set() for kind in KINDS}
        for record in records:
            for kind, number in self.own(record):
                found[kind].add(record[number])
        return found

    def is_place(self, record, number, partner):
        """Whether a field of a pair is as it should be."""
        is_alone = self.version == 2 and record[number] == DASH and record[partner] != DASH
        return is_alone or self.is_id(record[number])

    def bad_ids(self, record):
        found = [number for number in record.names + record.list if not self.is_id(record[number])]
        for one, other in record.pairs:
            found += [one] if not self.is_place(record, one, other) else []
            found += [other] if not self.is_place(record, other, one) else []
        return [(15, number, b"") for number in found]

    def bad_quota(self, record):
        if record.quota and not QUOTA.fullmatch(record[record.quota]):
            return [(16, record.quota, record[2])]
        return []

    def repeated_ids(self, record):
        found = []
        for kind, number in self.own(record):
            if record[number] in self.seen[kind]:
                found.append((17, number, record[number]))
            self.seen[kind].add(record[number])
        return found

    def repeated_entries(self, record):
        found, before = [], set()
        for number in record.list:
            if self.is_id(record[number]) and record[number] in before:
                found.append((18, number, record[number]))
            before.add(record[number])
        for one, other in record.pairs:
            pair = (record[one], record[other])
            if self.is_place(record, one, other) and self.is_place(record, other, one) and pair in before:
                found.append((18, one, pair[1] if pair[0] == DASH else pair[0]))
            before.add(pair)
        for number in record.names if record.is_withdrawal else []:
            name = (record.kind, record[number])
            if self.is_id(record[number]) and name in self.withdrawn:
                found.append((18, number, record[number]))
            self.withdrawn.add(name)
        return found

    def unknown(self, record):
        if record.is_withdrawal:
            wanted = [(22, record.kind, number) for number in record.names]
        else:
            kind = "applicant" if record.kind == "program" else "program"
            entries = record.list + [number for pair in record.pairs for number in pair]
            wanted = [(UNKNOWN[kind], kind, number) for number in entries]
        found = []
        for code, kind, number in wanted:
            is_known = (kind, record[number]) in self.rows if record.is_withdrawal else record[number] in self.registered[kind]
            if self.is_id(record[number]) and not is_known:
                found.append((code, number, record[number]))
        return found

    def faults_of(self, record):
        faults = record.shape + self.bad_ids(record) + self.bad_quota(record)
        return faults + self.repeated_ids(record) + self.repeated_entries(record) + self.unknown(record)

    def faults(self):
        return [(record, fault) for record in self.records for fault in self.faults_of(record)]

    def accepted(self):
        """The counts of a market without a fault, after the withdrawals."""
        rows = [record for record in self.records if not record.is_withdrawal]
        rows = [record for record in rows if (record.kind, record[2]) not in self.withdrawn]
        left = self.registered_by(rows)
        programs = {it[2]: [it[n] for n in it.list if it[n] in left["applicant"]] for it in rows if it.kind == "program"}
        wants, entries = {}, sum(map(len, programs.values()))
        for record in rows:
            if record.kind == "applicant":
                wants[record[2]] = [record[n] for n in record.list if record[n] in left["program"]]
                entries += len(wants[record[2]])
            elif record.kind == "couple":
                pairs = [(record[one], record[other]) for one, other in record.pairs]
                pairs = [pair for pair in pairs if {*pair} <= left["program"] | {DASH}]
                entries += 2 * len(pairs)
                wants[record[3]] = [one for one, _ in pairs]
                wants[record[4]] = [other for _, other in pairs]
        mutual = sum(name in wants[applicant] for name, listed in programs.items() for applicant in listed)
        return [len(left["applicant"]), len(programs), len(left["couple"]), entries, mutual]


def fault_line(code, record, line, field, word, is_id):
    shown = word.decode("latin-1") if word and is_id(word) else "-"
    return f"check,1,fault,{code},{NAMES[code]},{record},{line},{field},{shown}"


def never(_):
    return False


def faults(data):
    """The lines for the bytes of a file."""
    text = data.removeprefix(MARK)
    if text.startswith(MARK):
        return [fault_line(11, 0, 0, 0, b"", never), "check,1,faults,1"]
    records = Reader(text).records()
    first = records[0] if records else (0, 0, [])
    if first[2] not in ([b"match", b"1"], [b"match", b"2"]):
        return [fault_line(12, first[0], first[1], 0, b"", never), "check,1,faults,1"]
    market = Market(int(first[2][1]), records[1:])
    found = market.faults()
    if not found:
        return ["check,1,accepted," + ",".join(map(str, market.accepted()))]
    lines = [fault_line(code, it.number, it.line, field, word, market.is_id) for it, (code, field, word) in found]
    return lines + [f"check,1,faults,{len(found)}"]
