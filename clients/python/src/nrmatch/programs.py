"""Runs the installed programs."""
from __future__ import annotations

import csv
import io
import os
import shutil
import subprocess
import tempfile
from typing import List, NamedTuple, Optional, Sequence, Union

from .errors import BudgetSpent, NrmatchError, ProgramFailed, ProgramMissing, Refusal, Refused
from .market import Market
from .reports import Report
from .results import Accepted, Explanation, Fault, Match, Verdict, explanations_of, faults_of


class _Ended(NamedTuple):
    """How a program ended: its name, its exit status, its text, and what it said on standard error."""

    program: str
    status: int
    text: str
    said: str

    def rows(self) -> List[List[str]]:
        """The lines of the text, with their fields."""
        return list(csv.reader(io.StringIO(self.text)))

    def first(self) -> List[str]:
        """The fields of the first line, or none."""
        return next(csv.reader(io.StringIO(self.text)), [])

    def failure(self) -> ProgramFailed:
        """That the program ended in a way that its pages don't have."""
        return ProgramFailed(self.program, self.status, self.said)


def _program(name: str) -> str:
    """The path of a program: in the folder that the variable NRMATCH_BIN names, or else on the path."""
    folder = os.environ.get("NRMATCH_BIN")
    found = shutil.which(name, path=folder) if folder else shutil.which(name)
    if found is None:
        raise ProgramMissing(f"{name} isn't {'in ' + folder if folder else 'on the path'}")
    return found


def _run(name: str, words: List[str]) -> _Ended:
    ended = subprocess.run([_program(name), *words], stdin=subprocess.DEVNULL, capture_output=True)
    return _Ended(name, ended.returncode, ended.stdout.decode("ascii", "replace"), ended.stderr.decode("utf-8", "replace"))


def _write(folder: str, name: str, text: str) -> str:
    path = os.path.join(folder, name)
    with open(path, "w", encoding="utf-8", newline="") as file:
        file.write(text)
    return path


def _number(field: str) -> Optional[int]:
    return None if field in ("", "0", "-") else int(field)


def _refused(market: Market, code: str, name: str, file: str, record: str, name_of: str) -> Refused:
    """The exception of a refusal line."""
    field = _field(market, int(code), int(record)) if file == "market" else None
    refusal = Refusal(int(code), name, _number(record), None if name_of == "-" else name_of, file, field)
    return (BudgetSpent if refusal.code == 41 else Refused)(refusal)


def _field(market: Market, code: int, record: int) -> Optional[int]:
    """The field that is at fault at the first fault of a market with this code and record. None if nrcheck names none."""
    if record == 0:
        return None
    try:
        found = faults(market)
    except NrmatchError:
        return None
    of_record = [] if isinstance(found, Accepted) else [it for it in found if (it.code, it.record) == (code, record)]
    return of_record[0].field if of_record else None


def match(market: Market, *, workers: int = 4, budget: int = 1_000_000, orders: int = 1, set_aside: bool = False) -> Match:
    """The match of a market, by nrmatch.

    `workers` is how many threads match singles, 1 to 64. The match is the same for any. `budget` is the most rounds for couples,
    1 to 4294967295, and `orders` how many orders of them may be tried, 1 to 1000. If no order ends, `set_aside` sets couples aside,
    which `Match.aside` names. Raises `BudgetSpent` if no order ends and none may be set aside, `Refused` at the market's first
    fault, `ProgramMissing` if nrmatch isn't installed, and `ProgramFailed` if it ends otherwise.

    >>> from nrmatch import Market, Program
    >>> market = Market(programs={"City": Program(1, ["Ann", "Bob"])}, applicants={"Bob": ["City"], "Ann": ["City"]})
    >>> match(market).places
    {'Bob': None, 'Ann': 'City'}
    """
    with tempfile.TemporaryDirectory() as folder:
        path = _write(folder, "market.csv", market.text())
        options = ["--workers", str(workers), "--budget", str(budget), "--orders", str(orders), *["--set-aside"] * set_aside]
        ended = _run("nrmatch", [*options, path])
    fields = ended.first()
    if (fields, ended.status) in ((["match", "1", "published"], 0), (["match", "2", "published"], 6)):
        return Match.of_text(ended.text)
    if fields[:3] == ["match", "1", "refused"] and len(fields) == 7 and ended.status in (2, 3, 4, 5):
        raise _refused(market, fields[3], fields[4], "market", fields[5], fields[6])
    raise ended.failure()


def _judge(name: str, options: List[str], market: Market, matched: Union[Match, str], ids: Sequence[str] = ()) -> _Ended:
    """How a program ends that is given a market and a match. Raises `Refused` if it refuses one of them."""
    with tempfile.TemporaryDirectory() as folder:
        paths = [
            _write(folder, "market.csv", market.text()),
            _write(folder, "match.csv", matched.text if isinstance(matched, Match) else matched),
        ]
        ended = _run(name, [*options, "--", *paths, *ids])
    fields = ended.first()
    if fields[:3] in (["check", "1", "refused"], ["report", "1", "refused"]) and len(fields) == 8 and ended.status in (2, 4, 5):
        raise _refused(market, *fields[3:])
    return ended


def check(market: Market, matched: Union[Match, str]) -> Verdict:
    """What nrcheck says of a match of a market: of a `Match`, or of a text with a record `applicant,ID,PLACE` for each applicant.

    Raises `Refused` if the market or the text is refused, `ProgramMissing` if nrcheck isn't installed, and `ProgramFailed` if it
    ends otherwise.

    >>> from nrmatch import Market, Program
    >>> market = Market(programs={"City": Program(1, ["Ann", "Bob"])}, applicants={"Bob": ["City"], "Ann": ["City"]})
    >>> check(market, "applicant,Bob,City\\napplicant,Ann,-\\n")
    Verdict(kind='blocks', who=('applicant', 'Ann', 'City'))
    """
    ended = _judge("nrcheck", [], market, matched)
    rows = ended.rows()
    if ended.status in (0, 1) and len(rows) == 1 and rows[0][:2] == ["check", "1"] and len(rows[0]) > 2:
        return Verdict(rows[0][2], tuple(rows[0][3:]))
    raise ended.failure()


def findings(market: Market, matched: Union[Match, str]) -> List[Verdict]:
    """Every finding against a match, by nrcheck: who is at a place that isn't allowed, which programs are over their quotas, each
    better option that would be taken, and each record that differs. If the match is stable and its counts are right, there is none.

    The match is as `check` takes it, and it raises what `check` raises.

    >>> from nrmatch import Market, Program
    >>> market = Market(programs={"City": Program(2, ["Ann", "Bob"])}, applicants={"Bob": ["City"], "Ann": ["City"]})
    >>> [it.who for it in findings(market, "applicant,Bob,-\\napplicant,Ann,-\\n")]
    [('applicant', 'Bob', 'City'), ('applicant', 'Ann', 'City')]
    """
    ended = _judge("nrcheck", ["--all"], market, matched)
    rows = ended.rows()
    if ended.status == 0 and len(rows) == 1 and rows[0][:3] == ["check", "1", "stable"]:
        return []
    if ended.status == 1 and rows and rows[-1] == ["check", "1", "findings", str(len(rows) - 1)]:
        return [Verdict(row[2], tuple(row[3:])) for row in rows[:-1]]
    raise ended.failure()


def faults(market: Market) -> Union[Accepted, List[Fault]]:
    """All faults of a market in the order of its file, by nrcheck, or the counts of a market without a fault.

    Raises `Refused` if memory ran out, `ProgramMissing` if nrcheck isn't installed, and `ProgramFailed` if it ends otherwise.

    >>> from nrmatch import Market, Program
    >>> faults(Market(programs={"City": Program(1, ["Ann"])}, applicants={"Ann": ["City"]}))
    Accepted(applicants=1, programs=1, couples=0, entries=2, mutual=1)
    >>> [fault] = faults(Market(applicants={"Bob ": []}))
    >>> fault.name, fault.line, fault.field, fault.sentence
    ('BadId', 2, 2, '"Bob " is no id: remove the blank at its end')
    """
    with tempfile.TemporaryDirectory() as folder:
        path = _write(folder, "market.csv", market.text())
        ended = _run("nrcheck", ["--", path])
    rows = ended.rows()
    last = rows[-1] if rows else []
    if ended.status == 0 and len(rows) == 1 and last[:3] == ["check", "1", "accepted"] and len(last) == 8:
        return Accepted(*(int(it) for it in last[3:]))
    if ended.status == 2 and last == ["check", "1", "faults", str(len(rows) - 1)]:
        return faults_of(rows[:-1], ended.said.splitlines(), path)
    if ended.status in (4, 5) and last[:3] == ["check", "1", "refused"] and len(last) == 8:
        raise _refused(market, *last[3:])
    raise ended.failure()


def explain(market: Market, matched: Union[Match, str], ids: Sequence[str] = (), *, public: bool = False) -> List[Explanation]:
    """Why applicants and couples have what a match gives them, by nrexplain. The match is as `check` takes it.

    `ids` names applicants and couples, in the order of the answer. Without any, all are explained. With `public` there are no
    ranks, quotas and counts. Raises `Refused` if the market or the text is refused or an id names nobody, code 56,
    `ProgramMissing` if nrexplain isn't installed, and `ProgramFailed` if it ends otherwise.

    >>> from nrmatch import Market, Program
    >>> market = Market(programs={"City": Program(1, ["Ann", "Bob"])}, applicants={"Bob": ["City"], "Ann": ["City"]})
    >>> [bob] = explain(market, match(market), ["Bob"])
    >>> bob.places, bob.above
    ((None,), (Above(option=1, program='City', who='Bob', rank=2, quota=1, ahead=1, why='full'),))
    """
    ended = _judge("nrexplain", ["--public"] * public, market, matched, ids)
    if ended.status != 0:
        raise ended.failure()
    return explanations_of(ended.rows())


def report(market: Market, matched: Union[Match, str]) -> Report:
    """The numbers of a match, by nrreport: choices, couples, programs and posts. The match is as `check` takes it.

    Raises `Refused` if the market or the text is refused, `ProgramMissing` if nrreport isn't installed, and `ProgramFailed` if it
    ends otherwise.

    >>> from nrmatch import Market, Program
    >>> market = Market(programs={"City": Program(1, ["Ann", "Bob"])}, applicants={"Bob": ["City"], "Ann": ["City"]})
    >>> numbers = report(market, match(market))
    >>> numbers.choices, numbers.unmatched, numbers.programs
    ((1,), 1, {'City': ProgramCounts(quota=1, filled=1, listed=2, last=1)})
    """
    ended = _judge("nrreport", [], market, matched)
    if ended.status != 0:
        raise ended.failure()
    return Report.of_text(ended.text)


def report_page(market: Market, matched: Union[Match, str]) -> str:
    """The same numbers as one page of HTML, by nrreport. It raises what `report` raises.

    >>> from nrmatch import Market, Program
    >>> market = Market(programs={"City": Program(1, ["Ann"])}, applicants={"Ann": ["City"]})
    >>> report_page(market, match(market)).splitlines()[0]
    '<!DOCTYPE html>'
    """
    ended = _judge("nrreport", ["--html"], market, matched)
    if ended.status != 0:
        raise ended.failure()
    return ended.text
