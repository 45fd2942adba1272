"""The residency match from Python: `match` makes the match of a `Market`, and `check` judges a match that anybody made. `explain`
says why applicants and couples have what a match gives them, and `report` counts choices, couples, programs and posts.
`findings` names all that is wrong with a match, and `faults` all faults of a market.

They run the installed programs nrmatch, nrcheck, nrexplain and nrreport. The variable NRMATCH_BIN may name the folder that has them.
"""
from .errors import BudgetSpent, NrmatchError, ProgramFailed, ProgramMissing, Refusal, Refused
from .market import Couple, Market, Program
from .programs import check, explain, faults, findings, match, report, report_page
from .reports import CoupleCounts, FillCounts, PostCounts, ProgramCounts, Report
from .results import Above, Accepted, Explanation, Fault, Filled, Match, Totals, Verdict

__all__ = [
    "Above",
    "Accepted",
    "BudgetSpent",
    "Couple",
    "CoupleCounts",
    "Explanation",
    "Fault",
    "FillCounts",
    "Filled",
    "Market",
    "Match",
    "NrmatchError",
    "PostCounts",
    "Program",
    "ProgramCounts",
    "ProgramFailed",
    "ProgramMissing",
    "Refusal",
    "Refused",
    "Report",
    "Totals",
    "Verdict",
    "check",
    "explain",
    "faults",
    "findings",
    "match",
    "report",
    "report_page",
]
__version__ = "1.0.0"
