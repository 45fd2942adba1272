"""What the calls of this package raise."""
from __future__ import annotations

from dataclasses import dataclass
from typing import Optional


class NrmatchError(Exception):
    """The base of every exception of this package."""


class ProgramMissing(NrmatchError):
    """A program of nrmatch isn't on the path."""


class ProgramFailed(NrmatchError):
    """A program ended in a way that its pages don't have. `status` is its exit status, and `said` its standard error."""

    def __init__(self, program: str, status: int, said: str) -> None:
        super().__init__(f"{program} ended with status {status}: {said.strip() or 'no message'}")
        self.program = program
        self.status = status
        self.said = said


@dataclass(frozen=True)
class Refusal:
    """Why there is no answer, as the refusal line has it.

    `code` and `name` are those of FORMAT.md or CHECK.md. `record` is the number of the record at fault, from 1, and `id` the id
    at fault. They are None if the line names none. `file` is 'market' or 'match'. `field` is the number of the market's field
    at fault, from 1. It is None if no field alone is, or if nrcheck is missing.
    """

    code: int
    name: str
    record: Optional[int]
    id: Optional[str]
    file: str = "market"
    field: Optional[int] = None

    @property
    def line(self) -> Optional[int]:
        """The number of the market's line, from 1. It is that of the record: a market of this package has one on each line."""
        return self.record if self.file == "market" else None


class Refused(NrmatchError):
    """A program refused its input. `refusal` says why."""

    def __init__(self, refusal: Refusal) -> None:
        where = "" if refusal.record is None else f", {refusal.file} record {refusal.record}"
        who = "" if refusal.id is None else f", id {refusal.id!r}"
        super().__init__(f"{refusal.code} {refusal.name}{where}{who}")
        self.refusal = refusal
        self.code = refusal.code
        self.name = refusal.name
        self.record = refusal.record
        self.line = refusal.line
        self.field = refusal.field
        self.id = refusal.id


class BudgetSpent(Refused):
    """The couples' rounds exceeded the budget, code 41. There may be no stable match."""
