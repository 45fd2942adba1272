"""The numbers of a match, as nrreport counts them."""
from __future__ import annotations

import csv
import io
from dataclasses import dataclass
from typing import TYPE_CHECKING, Dict, List, Optional, Tuple

if TYPE_CHECKING:
    import pandas


@dataclass(frozen=True)
class CoupleCounts:
    """The couples with both members placed, with one, and with none."""

    both: int
    one: int
    neither: int


@dataclass(frozen=True)
class FillCounts:
    """The programs without an open post, those with an open post and an applicant, and those with an open post and nobody."""

    full: int
    partly: int
    empty: int


@dataclass(frozen=True)
class PostCounts:
    """The applicants that are placed, and the posts that are open."""

    filled: int
    open: int


@dataclass(frozen=True)
class ProgramCounts:
    """Of a program its posts, the applicants placed there, those that it lists, and the rank of the last one in, from 1.

    `last` is None if nobody of its list is placed there.
    """

    quota: int
    filled: int
    listed: int
    last: Optional[int]


@dataclass(frozen=True)
class Report:
    """The numbers of a match. REPORT.md says what each one counts.

    `choices[k - 1]` is the number of singles that have the program with number `k` of their lists, up to the largest choice that
    a single has. `unmatched` counts the singles without a place. `pairs` is for couples what `choices` is for singles. `programs`
    maps ids to counts, in the order of registration. `text` is the text that nrreport wrote.
    """

    text: str
    choices: Tuple[int, ...]
    unmatched: int
    couples: CoupleCounts
    pairs: Tuple[int, ...]
    fill: FillCounts
    posts: PostCounts
    programs: Dict[str, ProgramCounts]

    @classmethod
    def of_text(cls, text: str) -> "Report":
        """The numbers of a text that nrreport wrote. A text of another form raises ValueError.

        >>> lines = "choice,1,1 unmatched,0 couples,0,0,0 programs,0,1,0 posts,1,1 program,City,2,1,3,2".split()
        >>> Report.of_text("\\n".join(lines)).programs
        {'City': ProgramCounts(quota=2, filled=1, listed=3, last=2)}
        """
        choices: List[int] = []
        pairs: List[int] = []
        counts: Dict[str, List[int]] = {}
        programs: Dict[str, ProgramCounts] = {}
        for row in csv.reader(io.StringIO(text)):
            kind, fields = (row or [""])[0], row[1:]
            if kind == "program" and len(fields) == 5:
                quota, filled, listed = (int(it) for it in fields[1:4])
                programs[fields[0]] = ProgramCounts(quota, filled, listed, int(fields[4]) if fields[4] else None)
            elif kind in ("choice", "pair") and len(fields) == 2:
                numbers = choices if kind == "choice" else pairs
                if int(fields[0]) != len(numbers) + 1:
                    raise ValueError(f"{kind} {fields[0]} after {len(numbers)} others")
                numbers.append(int(fields[1]))
            elif len(fields) == _COUNTS.get(kind):
                counts[kind] = [int(it) for it in fields]
            else:
                raise ValueError(f"no line of a report: {row!r}")
        lacking = sorted(set(_COUNTS) - set(counts))
        if lacking:
            raise ValueError(f"a report without {lacking[0]}")
        return cls(
            text,
            tuple(choices),
            counts["unmatched"][0],
            CoupleCounts(*counts["couples"]),
            tuple(pairs),
            FillCounts(*counts["programs"]),
            PostCounts(*counts["posts"]),
            programs,
        )

    def to_frame(self) -> "pandas.DataFrame":
        """The programs as a pandas frame with the columns program, quota, filled, listed and last. A `last` of nobody is missing."""
        import pandas

        columns = ("quota", "filled", "listed", "last")
        rows = {name: [getattr(it, name) for it in self.programs.values()] for name in columns}
        return pandas.DataFrame({"program": list(self.programs), **rows}).astype({"last": "Int64"})


# How many numbers the lines have that come once.
_COUNTS = {"unmatched": 1, "couples": 3, "programs": 3, "posts": 2}
