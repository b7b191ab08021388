"""The command as it is typed: what comes on both streams, and its status."""
from __future__ import annotations

import contextlib
import io
import os
import sys
import unittest
from pathlib import Path
from unittest import mock

from papledger.command import main
from tests.support import Case, LIMITS


class Output(io.TextIOWrapper):
    """Standard output that is kept."""

    def __init__(self) -> None:
        super().__init__(io.BytesIO(), encoding="utf-8")

    def text(self) -> str:
        self.flush()
        assert isinstance(self.buffer, io.BytesIO)
        return self.buffer.getvalue().decode()


class Command(Case):
    def ledger(self, *words: str) -> tuple[int, str, str]:
        out, err = Output(), io.StringIO()
        with contextlib.redirect_stdout(out), contextlib.redirect_stderr(err):
            try:
                status = main(["y", *words])
            except SystemExit as ended:
                status = int(ended.code or 0)
        return status, out.text(), err.getvalue()

    def begin(self) -> None:
        for words in [["new"], ["plan", "2026-01-01", "p0.xml", "limits.toml"], ["load", "t1.csv"]]:
            self.assertEqual(self.ledger(*words)[0], 0)

    def test_statuses(self) -> None:
        self.assertEqual(self.ledger("status")[0], 4)
        self.begin()
        self.assertEqual(self.ledger("add", "dora", "2026-01", "2026-01-28", "PAY=1"),
                         (1, "refused edit Present dora 2026-01-28\n", "papledger: dora has a run on 2026-01-28 already; `change` replaces it\n"))
        self.assertEqual(self.ledger("load", "nofile"), (3, "", "papledger: the file nofile: there is no such file\n"))
        self.assertEqual(self.ledger("set", "dora", "2026-02", "PAY=1"), (2, "", "papledger: dora has no run in or on 2026-02\n"))
        for words in [["set"], ["set", "dora", "2026-01"], ["set", "dora", "2026-01", "PAY"], ["set", "dora", "2026-01", "PAY=1", "PAY=2"],
                      ["open", "book"], ["nothing"], ["script", "t1.csv", "--batch", "0"], ["show", "nobody"]]:
            self.assertEqual(self.ledger(*words)[0], 2, words)
        with mock.patch.dict(os.environ, {"PAPCALC": "./none"}):
            self.assertEqual(self.ledger("status")[0], 6)
        self.assertEqual(self.ledger("new")[0], 4)

    def test_a_month_that_is_not_ready(self) -> None:
        self.begin()
        self.ledger("set", "emil", "2026-01", "PAY=")
        status, out, _ = self.ledger("file", "2026-01")
        self.assertEqual((status, out), (1, "waiting emil 2026-01-28 missing PAY\nrefused file Open emil 2026-01-28\n"))
        self.assertIn("waiting 1 missing PAY first emil 2026-01-28\n", self.ledger("status")[1])

    def test_a_month_that_was_left_out_is_told(self) -> None:
        self.begin()
        for words in [["load", "t2.csv"], ["load", "t3.csv"]]:
            self.ledger(*words)
        self.assertEqual(self.ledger("file", "2026-02")[2], "papledger: 2026-01 wasn't filed by itself: its amounts are among those of 2026-02\n")
        self.ledger("set", "dora", "2026-01", "PAY=5")
        status, out, err = self.ledger("file", "2026-03")
        self.assertEqual((status, err), (0, ""))
        self.assertIn("due dora 2026-01-28 TAX", out)

    def test_values_from_a_table(self) -> None:
        self.begin()
        Path("raises.csv").write_text("employee,month,day,PAY,CHILDREN\ndora,2026-01,,2000,\nfay,2026-01,2026-01-28,,5\n")
        self.assertEqual(self.ledger("set", "--table", "raises.csv"), (0, "set 2\n", ""))
        self.assertIn("given PAY 2000\ngiven CHILDREN 0\namount TAX 200.00\n", self.ledger("show", "dora")[1])
        self.assertIn("given PAY 1200\ngiven CHILDREN 5\n", self.ledger("show", "fay", "2026-01")[1])
        for text in ["", "employee,PAY\n", "employee,when,PAY\ndora,2026-01\n", "employee,when,PAY\ndora,2026-02,1\n"]:
            Path("raises.csv").write_text(text)
            self.assertEqual(self.ledger("set", "--table", "raises.csv")[0], 2, text)

    def test_a_script_line_by_line_and_in_batches(self) -> None:
        self.begin()
        Path("script").write_text("# a comment\nadd anna 2026-01 2026-01-28 PAY=1\n\nadd anna 2026-01 2026-01-28 PAY=2\nwork\n")
        for batch in [[], ["--batch"], ["--batch", "2"]]:
            status, out, err = self.ledger("script", "script", *batch)
            self.assertEqual((status, out.splitlines()[:2], err.count("papledger:")), (1, ["ok", "refused edit Present anna 2026-01-28"], 1))
            self.assertTrue(out.splitlines()[2].startswith("work 1 "))
            self.ledger("withdraw", "anna", "2026-01")

    def test_export(self) -> None:
        self.begin()
        self.assertEqual(self.ledger("export", "out.csv"), (0, "rows 6\n", ""))
        self.assertEqual(self.ledger("export")[1], Path("out.csv").read_text())
        self.assertEqual(self.ledger("export", "no/out.csv")[0], 5)

    @unittest.skipIf(sys.version_info < (3, 11), "this Python reads no TOML")
    def test_a_page(self) -> None:
        """The values that go to pap_author are those of the run, and those that it takes from earlier runs."""
        self.begin()
        self.ledger("load", "t2.csv")
        with mock.patch.dict(os.environ, {"PAP_AUTHOR": "./author"}):
            self.assertEqual(self.ledger("trace", "dora", "2026-02", "--page")[0], 6)
            Path("author").write_text("#!/bin/sh\necho \"$@\"\n")
            os.chmod("author", 0o755)
            status, out, _ = self.ledger("trace", "dora", "2026-02", "--page")
            word, plan, limits, *values = out.split()
            self.assertEqual((status, word, values), (0, "trace", ["PAY=2000", "CHILDREN=0", "SO_FAR=100.00"]))
            self.assertEqual(Path(limits).read_text(), LIMITS)
            Path("author").write_text("#!/bin/sh\necho 'no such word' >&2\nexit 2\n")
            self.assertIn("no word `trace`", self.ledger("trace", "dora", "2026-02", "--page")[2])

    def test_a_torn_line_is_told(self) -> None:
        self.begin()
        with Path("y/year.script").open("a") as journal:
            journal.write("add anna")
        self.assertIn("the journal ended in the midst of", self.ledger("withdraw", "dora", "2026-01")[2])

    def test_several_parts(self) -> None:
        status, _, _ = self.ledger("new", "--split", "t1.csv", "--employees", "2")
        self.assertEqual(status, 0)
        for words in [["plan", "2026-01-01", "p0.xml", "limits.toml"], ["load", "t1.csv"], ["file", "2026-01"]]:
            self.assertEqual(self.ledger(*words)[0], 0)
        self.assertEqual(self.ledger("status")[1].splitlines()[:3], ["lines 6", "runs 3", "filed 2026-01"])
        self.assertEqual(len(self.ledger("work")[1].splitlines()), 2)
        self.assertEqual(self.ledger("open", "t1.csv", "--nothing-filed")[0], 2)
        Path("bad.csv").write_text("nothing\n")
        self.assertEqual(self.ledger("load", "bad.csv")[1], "refused table Header\n")
        self.assertEqual(self.ledger("nothing")[0], 2)


if __name__ == "__main__":
    unittest.main()
