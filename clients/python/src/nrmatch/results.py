"""What a match and a check give."""
from __future__ import annotations

import csv
import io
from dataclasses import dataclass
from typing import TYPE_CHECKING, Dict, List, Optional, Sequence, Tuple

if TYPE_CHECKING:
    import pandas


@dataclass(frozen=True)
class Filled:
    """A program of a match: its quota, how many posts are filled, and how many singles proposed to it."""

    quota: int
    filled: int
    proposals: int


@dataclass(frozen=True)
class Totals:
    """The counts of a match: applicants, those without a place, posts, and posts that stay open."""

    applicants: int
    unmatched: int
    positions: int
    unfilled: int


@dataclass(frozen=True)
class Match:
    """A published match.

    `places` maps each applicant's id to the id of its program, or to None. `programs` maps each program's id to its counts. Both
    are in the order of registration. `text` is the text that nrmatch wrote, of which a proof shows that it is stable. `aside` has
    the ids of the couples that are set aside: the match is stable in the market in which they want nothing.
    """

    text: str
    places: Dict[str, Optional[str]]
    programs: Dict[str, Filled]
    totals: Totals
    aside: Tuple[str, ...] = ()

    @classmethod
    def of_text(cls, text: str) -> "Match":
        """The match of a text that nrmatch published. A text of another form raises ValueError.

        >>> Match.of_text("match,1,published\\napplicant,Ann,City\\nprogram,City,1,1,2\\ntotals,1,0,1,0\\n").places
        {'Ann': 'City'}
        """
        rows = list(csv.reader(io.StringIO(text)))
        if not rows or rows[0] not in (["match", "1", "published"], ["match", "2", "published"]):
            raise ValueError("not the text of a published match")
        aside: List[str] = []
        places: Dict[str, Optional[str]] = {}
        programs: Dict[str, Filled] = {}
        totals: Optional[Totals] = None
        for row in rows[1:]:
            if row[0] == "applicant" and len(row) == 3:
                places[row[1]] = None if row[2] == "-" else row[2]
            elif row[0] == "program" and len(row) == 5:
                programs[row[1]] = Filled(*(int(it) for it in row[2:]))
            elif row[0] == "totals" and len(row) == 5:
                totals = Totals(*(int(it) for it in row[1:]))
            elif row[0] == "aside" and len(row) == 2 and rows[0][1] == "2":
                aside.append(row[1])
            else:
                raise ValueError(f"a record of another kind: {row!r}")
        if totals is None:
            raise ValueError("a match without totals")
        return cls(text, places, programs, totals, tuple(aside))

    def to_frame(self) -> "pandas.DataFrame":
        """The places as a pandas frame with the columns applicant and program. Nobody's program is None."""
        import pandas

        return pandas.DataFrame({"applicant": list(self.places), "program": list(self.places.values())}, dtype=object)


@dataclass(frozen=True)
class Verdict:
    """What nrcheck says of a match, or a finding against it.

    `kind` is 'stable', 'unlisted', 'over', 'blocks' or 'differs'. `who` has the other fields of the answer's line, as CHECK.md has them.

    >>> Verdict("blocks", ("applicant", "Arthur", "City")).is_stable
    False
    """

    kind: str
    who: Tuple[str, ...] = ()

    @property
    def is_stable(self) -> bool:
        """Whether the match is stable and its counts are right."""
        return self.kind == "stable"


@dataclass(frozen=True)
class Accepted:
    """The counts of a market without a fault. What is withdrawn isn't counted.

    `entries` counts the entries of all lists, of which a pair has two, and `mutual` the programs and applicants that want each
    other.
    """

    applicants: int
    programs: int
    couples: int
    entries: int
    mutual: int


@dataclass(frozen=True)
class Fault:
    """A fault of a market. `code` and `name` are those of FORMAT.md.

    `record` is the number of the record at fault, `line` that of its line, and `field` that of the field, all from 1. `id` is the
    id at fault. They are None if there is none. `sentence` says what is wrong, and what to do.
    """

    code: int
    name: str
    record: Optional[int]
    line: Optional[int]
    field: Optional[int]
    id: Optional[str]
    sentence: str


def faults_of(rows: Sequence[Sequence[str]], said: Sequence[str], path: str) -> List[Fault]:
    """The faults that nrcheck wrote of the file at a path: from its lines, and from what it said in the same order.

    Lines of another form raise ValueError.

    >>> row = "check,1,fault,21,UnknownProgram,2,2,3,Citty".split(",")
    >>> faults_of([row], ["market.csv:2:3: correct it"], "market.csv")
    [Fault(code=21, name='UnknownProgram', record=2, line=2, field=3, id='Citty', sentence='correct it')]
    """
    if len(rows) != len(said):
        raise ValueError(f"{len(rows)} faults and {len(said)} sentences")
    found: List[Fault] = []
    for row, sentence in zip(rows, said):
        if len(row) != 9 or row[2] != "fault":
            raise ValueError(f"no line of a fault: {row!r}")
        record, line, field = (int(it) or None for it in row[5:8])
        place = "".join(f"{it}:" for it in (path, line, field) if it is not None) + " "
        if not sentence.startswith(place):
            raise ValueError(f"no sentence of {row!r}: {sentence!r}")
        found.append(Fault(int(row[3]), row[4], record, line, field, None if row[8] == "-" else row[8], sentence[len(place) :]))
    return found


@dataclass(frozen=True)
class Above:
    """A program of an option that an applicant or a couple wants more than what it has, and who would go there.

    `option` is the option's number on the list, from 1. `rank` is the number of `who` on the program's list, `quota` the program's
    posts, and `ahead` how many there are above `who`. A number that the line lacks is None. `why` is 'unlisted', 'full' or 'open'.
    """

    option: int
    program: str
    who: str
    rank: Optional[int]
    quota: Optional[int]
    ahead: Optional[int]
    why: str


@dataclass(frozen=True)
class Explanation:
    """What an applicant or a couple has in a match, and why it has no option that it wants more.

    `kind` is 'applicant' or 'couple'. `places` has a program or None for each member. `option` is the number of what it has on its
    list, from 1, and `rank` an applicant's number on the program's list. They are None if there is none.
    """

    kind: str
    id: str
    places: Tuple[Optional[str], ...]
    option: Optional[int]
    rank: Optional[int]
    above: Tuple[Above, ...] = ()


def explanations_of(rows: Sequence[Sequence[str]]) -> List[Explanation]:
    """The explanations that the lines of nrexplain give. Lines of another form raise ValueError.

    >>> explanations_of([["applicant", "Bob", "-", "", "", "", "", "", ""]])
    [Explanation(kind='applicant', id='Bob', places=(None,), option=None, rank=None, above=())]
    """
    found: List[Tuple[Sequence[str], List[Above]]] = []
    for row in rows:
        if len(row) != 9 or row[0] not in ("applicant", "couple", "above") or row[0] == "above" and not found:
            raise ValueError(f"no line of an explanation: {row!r}")
        if row[0] == "above":
            found[-1][1].append(Above(int(row[2]), row[3], row[4], _count(row[5]), _count(row[6]), _count(row[7]), row[8]))
        else:
            found.append((row, []))
    return [_explanation(row, above) for row, above in found]


def _explanation(row: Sequence[str], above: List[Above]) -> Explanation:
    members = 1 if row[0] == "applicant" else 2
    places = tuple(None if it == "-" else it for it in row[2 : 2 + members])
    rank = _count(row[4]) if members == 1 else None
    return Explanation(row[0], row[1], places, _count(row[2 + members]), rank, tuple(above))


def _count(field: str) -> Optional[int]:
    return int(field) if field else None
