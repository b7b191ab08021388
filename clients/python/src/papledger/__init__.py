"""Keeps a year of pay runs in a folder that survives, over `papcalc run`.

    with Year.new("2026") as year:
        year.plan("2026-01-01", "payroll_tax.xml", "payroll_tax.toml")
        year.load("january.csv")
        for amount in year.file("2026-01").amounts():
            print(amount.employee, amount.name, amount.amount)
"""
from .answers import Amount, Change, Changed, Filing, Row, Step, Trial, Waiting, Work
from .book import Flowchart
from .errors import Busy, Damaged, FileMissing, LedgerError, Misuse, NotReady, NotSaved, ProgramFailed, Refused
from .parts import Parts
from .views import Cause, Run, Status, Total
from .year import Value, Year

__all__ = [
    "Amount", "Busy", "Cause", "Change", "Changed", "Damaged", "FileMissing", "Filing", "Flowchart", "LedgerError", "Misuse", "NotReady",
    "NotSaved", "Parts", "ProgramFailed", "Refused", "Row", "Run", "Status", "Step", "Total", "Trial", "Value", "Waiting", "Work", "Year",
]
__version__ = "1.0.0"
