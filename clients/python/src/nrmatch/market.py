"""Markets: programs, applicants, couples, and their rank order lists."""
from __future__ import annotations

import csv
import io
import os
from dataclasses import dataclass, field
from typing import TYPE_CHECKING, Any, Dict, Iterable, List, Mapping, Optional, Sequence, Tuple, Union

if TYPE_CHECKING:
    import pandas

Pair = Tuple[Optional[str], Optional[str]]
Path = Union[str, "os.PathLike[str]"]

KINDS = ("program", "applicant", "couple")


@dataclass(frozen=True)
class Program:
    """A program: its quota, 0 to 9999, and the ids of the applicants that it wants, the most wanted first."""

    quota: int
    ranking: Sequence[str] = ()


@dataclass(frozen=True)
class Couple:
    """A couple: the ids of its members, and the pairs of programs that it wants, the most wanted first.

    The first program of a pair is for the first member. None leaves that member unplaced.
    """

    first: str
    second: str
    pairs: Sequence[Pair] = ()


@dataclass
class Market:
    """The lists of a match, in the order of registration.

    `programs` and `couples` map ids to what they are. `applicants` maps the id of each applicant outside a couple to the ids of
    the programs that it wants, the most wanted first. `withdrawn` has pairs of a kind ('program', 'applicant' or 'couple') and an id.
    Nothing is judged here: `match` and `check` judge the market, and raise `Refused` at its first fault.

    >>> market = Market(
    ...     programs={"City": Program(1, ["Ann", "Bob"])},
    ...     applicants={"Bob": ["City"], "Ann": ["City"]},
    ... )
    >>> print(market.text(), end="")
    match,2
    program,City,1,Ann,Bob
    applicant,Bob,City
    applicant,Ann,City
    """

    programs: Dict[str, Program] = field(default_factory=dict)
    applicants: Dict[str, Sequence[str]] = field(default_factory=dict)
    couples: Dict[str, Couple] = field(default_factory=dict)
    withdrawn: Sequence[Tuple[str, str]] = ()

    def rows(self) -> Iterable[List[str]]:
        """The records of the file of this market: the version, programs, applicants, couples and withdrawals."""
        yield ["match", "2"]
        for name, program in self.programs.items():
            yield ["program", name, str(program.quota), *program.ranking]
        for name, wanted in self.applicants.items():
            yield ["applicant", name, *wanted]
        for name, couple in self.couples.items():
            ends = [end if end is not None else "-" for pair in couple.pairs for end in pair]
            yield ["couple", name, couple.first, couple.second, *ends]
        for kind, name in self.withdrawn:
            yield ["withdraw", kind, name]

    def text(self) -> str:
        """The file of this market, of version 2, with one record on each line."""
        out = io.StringIO()
        writer = csv.writer(out, lineterminator="\n")
        for row in self.rows():
            if any("\n" in field or "\r" in field for field in row):
                raise ValueError(f"a line end in an id: {row[:2]!r}")
            writer.writerow(row)
        return out.getvalue()

    @classmethod
    def from_dict(cls, lists: Mapping[str, Any]) -> "Market":
        """The market of plain dicts and lists, as a JSON file may have them.

        `lists["programs"]` maps ids to `{"quota": .., "ranking": [..]}`, `lists["applicants"]` ids to lists of ids, and
        `lists["couples"]` ids to `{"members": [.., ..], "pairs": [[.., ..], ..]}`. `lists["withdrawn"]` is a list of kind and id.
        A part may be left out. A value of another shape raises KeyError, TypeError or ValueError.

        >>> Market.from_dict({"programs": {"City": {"quota": 1, "ranking": ["Ann"]}}, "applicants": {"Ann": ["City"]}}).applicants
        {'Ann': ['City']}
        """
        unknown = set(lists) - {"programs", "applicants", "couples", "withdrawn"}
        if unknown:
            raise ValueError(f"unknown parts of a market: {sorted(unknown)}")
        couples: Dict[str, Couple] = {}
        for name, it in dict(lists.get("couples", {})).items():
            first, second = it["members"]
            couples[name] = Couple(first, second, [(one, other) for one, other in it.get("pairs", [])])
        return cls(
            programs={
                name: Program(int(it["quota"]), list(it.get("ranking", []))) for name, it in dict(lists.get("programs", {})).items()
            },
            applicants={name: list(wanted) for name, wanted in dict(lists.get("applicants", {})).items()},
            couples=couples,
            withdrawn=[(kind, name) for kind, name in lists.get("withdrawn", [])],
        )

    @classmethod
    def from_tables(cls, quotas: Path, programs: Path, applicants: Path, couples: Optional[Path] = None) -> "Market":
        """The market of CSV tables with a header, one row for each entry.

        `quotas` has the columns id and quota, a row for each program. `programs` and `applicants` have the columns id, rank
        and other: that `id` lists `other` at the place `rank`, from 1. A row with an empty rank and other registers an id
        without a list. `couples` has the columns id, first, second, rank, first_program and second_program, where an empty
        program leaves that member unplaced. Rows come in any order; ids are registered in the order of their first rows.
        A missing column, or a rank that is no number, raises ValueError.
        """
        return cls._of_rows(_read(quotas), _read(programs), _read(applicants), _read(couples) if couples is not None else [])

    @classmethod
    def from_frames(
        cls,
        quotas: "pandas.DataFrame",
        programs: "pandas.DataFrame",
        applicants: "pandas.DataFrame",
        couples: "Optional[pandas.DataFrame]" = None,
    ) -> "Market":
        """The market of pandas frames with the columns that `from_tables` has. A missing value is an empty cell."""
        frames = [quotas, programs, applicants] + ([couples] if couples is not None else [])
        rows = [_of_frame(frame) for frame in frames]
        return cls._of_rows(rows[0], rows[1], rows[2], rows[3] if couples is not None else [])

    @classmethod
    def _of_rows(
        cls,
        quotas: List[Dict[str, str]],
        programs: List[Dict[str, str]],
        applicants: List[Dict[str, str]],
        couples: List[Dict[str, str]],
    ) -> "Market":
        rankings = _lists(programs, ["other"])
        wanted = _lists(applicants, ["other"])
        pairs = _lists(couples, ["first_program", "second_program"])
        members: Dict[str, Tuple[str, str]] = {}
        for row in couples:
            both = (_cell(row, "first"), _cell(row, "second"))
            if members.setdefault(_cell(row, "id"), both) != both:
                raise ValueError(f"couple {row['id']!r} has two pairs of members")
        quota_of = {_cell(row, "id"): int(_cell(row, "quota")) for row in quotas}
        unknown = [name for name in rankings if name not in quota_of]
        if unknown:
            raise ValueError(f"programs without a quota: {unknown[:5]}")
        return cls(
            programs={name: Program(quota, [it[0] for it in rankings.get(name, [])]) for name, quota in quota_of.items()},
            applicants={name: [it[0] for it in entries] for name, entries in wanted.items()},
            couples={
                name: Couple(*members[name], [(one or None, other or None) for one, other in entries])
                for name, entries in pairs.items()
            },
        )


def _cell(row: Mapping[str, str], column: str) -> str:
    if row.get(column) is None:
        raise ValueError(f"no column {column!r} in a row with {sorted(row)}")
    return row[column]


def _read(path: Path) -> List[Dict[str, str]]:
    with open(path, encoding="utf-8-sig", newline="") as file:
        return [dict(row) for row in csv.DictReader(file)]


def _of_frame(frame: "pandas.DataFrame") -> List[Dict[str, str]]:
    columns = [str(it) for it in frame.columns]
    return [
        {name: "" if value is None or value != value else _plain(value) for name, value in zip(columns, row)}
        for row in frame.itertuples(index=False, name=None)
    ]


def _plain(value: object) -> str:
    """A cell as text. A column of numbers with missing values is of floats, so 1.0 is written as 1."""
    return str(int(value)) if isinstance(value, float) and value.is_integer() else str(value)


def _lists(rows: List[Dict[str, str]], columns: List[str]) -> Dict[str, List[List[str]]]:
    """For each id its entries in the order of their ranks."""
    found: Dict[str, List[Tuple[int, List[str]]]] = {}
    for row in rows:
        entries = found.setdefault(_cell(row, "id"), [])
        entry = [_cell(row, column) for column in columns]
        if _cell(row, "rank") or any(entry):
            entries.append((int(row["rank"]), entry))
    lists: Dict[str, List[List[str]]] = {}
    for name, entries in found.items():
        ranks = [rank for rank, _ in entries]
        if len(set(ranks)) != len(ranks):
            raise ValueError(f"{name!r} has two entries of one rank")
        lists[name] = [entry for _, entry in sorted(entries, key=lambda it: it[0])]
    return lists
