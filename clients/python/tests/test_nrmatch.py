"""What the package does beside the programs. Expected values are worked out by hand."""
import os
import sys
import tempfile
import types
import unittest
from unittest import mock

import nrmatch
from nrmatch import (
    Above, Accepted, Couple, CoupleCounts, Explanation, Fault, FillCounts, Filled, Market, Match, PostCounts, Program, ProgramCounts, Report, Totals,
    Verdict,
)

HERE = os.path.dirname(os.path.abspath(__file__))
EXAMPLES = os.path.join(os.path.dirname(HERE), "examples")


def tables():
    return [os.path.join(EXAMPLES, f"{name}.csv") for name in ("quotas", "programs", "applicants", "couples")]


def small():
    """City has one post and wants Ann more. Both want City alone."""
    return Market(programs={"City": Program(1, ["Ann", "Bob"])}, applicants={"Bob": ["City"], "Ann": ["City"]})


class Markets(unittest.TestCase):
    def test_do_tables_give_the_lists(self):
        market = Market.from_tables(*tables())
        self.assertEqual(market.programs["General"], Program(1, ["Ann", "Dan", "Cleo"]))
        self.assertEqual(market.applicants, {"Ann": ["City", "General"], "Bob": ["City"]})
        self.assertEqual(market.couples, {"CleoDan": Couple("Cleo", "Dan", [("General", "City"), ("City", None)])})

    def test_are_rows_in_any_order_sorted_by_rank(self):
        with tempfile.TemporaryDirectory() as room:
            paths = []
            for name, text in (
                ("q", "id,quota\nP,2\n"),
                ("p", "id,rank,other\nP,2,b\nP,1,a\n"),
                ("a", "id,rank,other\nb,1,P\na,1,P\nc,,\n"),
            ):
                paths.append(os.path.join(room, name))
                with open(paths[-1], "w", encoding="utf-8") as file:
                    file.write(text)
            market = Market.from_tables(*paths)
        self.assertEqual(market.programs, {"P": Program(2, ["a", "b"])})
        self.assertEqual(market.applicants, {"b": ["P"], "a": ["P"], "c": []})

    def test_are_two_entries_of_one_rank_an_error(self):
        with self.assertRaisesRegex(ValueError, "two entries of one rank"):
            Market._of_rows([{"id": "P", "quota": "1"}], [{"id": "P", "rank": "1", "other": "a"}] * 2, [], [])

    def test_is_a_missing_column_an_error(self):
        with self.assertRaisesRegex(ValueError, "no column 'quota'"):
            Market._of_rows([{"id": "P"}], [], [], [])

    def test_is_a_list_without_a_quota_an_error(self):
        with self.assertRaisesRegex(ValueError, "without a quota"):
            Market._of_rows([], [{"id": "P", "rank": "1", "other": "a"}], [], [])

    def test_does_a_dict_give_the_lists(self):
        market = Market.from_dict(
            {
                "programs": {"P": {"quota": 1, "ranking": ["a"]}},
                "couples": {"c": {"members": ["a", "b"], "pairs": [["P", None]]}},
                "withdrawn": [["couple", "c"]],
            }
        )
        self.assertEqual(market.text(), "match,2\nprogram,P,1,a\ncouple,c,a,b,P,-\nwithdraw,couple,c\n")

    def test_is_an_unknown_part_an_error(self):
        with self.assertRaisesRegex(ValueError, "unknown parts"):
            Market.from_dict({"program": {}})

    def test_is_a_comma_in_an_id_quoted(self):
        self.assertEqual(Market(applicants={"a,b": []}).text(), 'match,2\napplicant,"a,b"\n')

    def test_is_a_line_end_in_an_id_an_error(self):
        with self.assertRaisesRegex(ValueError, "line end"):
            Market(applicants={"a\nb": []}).text()


class Matches(unittest.TestCase):
    def test_is_the_match_that_of_the_lists(self):
        match = nrmatch.match(small())
        self.assertEqual(match.places, {"Bob": None, "Ann": "City"})
        self.assertEqual(match.programs, {"City": Filled(1, 1, 2)})
        self.assertEqual(match.totals, Totals(2, 1, 1, 0))

    def test_is_the_match_the_same_for_one_worker(self):
        market = Market.from_tables(*tables())
        self.assertEqual(nrmatch.match(market, workers=1), nrmatch.match(market, workers=8))

    def test_is_a_refusal_an_exception(self):
        with self.assertRaises(nrmatch.Refused) as caught:
            nrmatch.match(Market(applicants={"Ann": ["Citty"]}))
        it = caught.exception
        self.assertEqual((it.code, it.name, it.record, it.line, it.field, it.id), (21, "UnknownProgram", 2, 2, 3, "Citty"))

    def test_has_a_refusal_without_nrcheck_no_field(self):
        with tempfile.TemporaryDirectory() as room:
            os.symlink(os.path.join(os.environ["NRMATCH_BIN"], "nrmatch"), os.path.join(room, "nrmatch"))
            with mock.patch.dict(os.environ, {"NRMATCH_BIN": room}), self.assertRaises(nrmatch.Refused) as caught:
                nrmatch.match(Market(applicants={"Ann": ["Citty"]}))
        self.assertEqual((caught.exception.code, caught.exception.line, caught.exception.field), (21, 2, None))

    def test_is_a_spent_budget_its_own_exception(self):
        market = Market(
            programs={"P": Program(1, ["a", "s", "b"]), "Q": Program(1, ["s", "b", "a"])},
            applicants={"s": ["P", "Q"]},
            couples={"c": Couple("a", "b", [("P", "Q")])},
        )
        with self.assertRaises(nrmatch.BudgetSpent) as caught:
            nrmatch.match(market, budget=100)
        self.assertEqual((caught.exception.code, caught.exception.record), (41, None))

    def test_is_a_wrong_option_an_error(self):
        with self.assertRaises(nrmatch.ProgramFailed) as caught:
            nrmatch.match(small(), workers=65)
        self.assertEqual(caught.exception.status, 64)

    def test_is_a_missing_program_an_error(self):
        before = os.environ["NRMATCH_BIN"]
        os.environ["NRMATCH_BIN"] = os.path.join(HERE, "nowhere")
        try:
            with self.assertRaises(nrmatch.ProgramMissing):
                nrmatch.match(small())
        finally:
            os.environ["NRMATCH_BIN"] = before


    def test_does_a_text_tell_who_is_set_aside(self):
        text = "match,2,published\napplicant,a,-\napplicant,b,-\nprogram,P,1,0,0\naside,c\ntotals,2,2,1,1\n"
        self.assertEqual(Match.of_text(text).aside, ("c",))
        self.assertEqual(Match.of_text(text).places, {"a": None, "b": None})

    def test_is_nobody_set_aside_in_version_1(self):
        text = "match,1,published\napplicant,a,-\nprogram,P,1,0,0\ntotals,1,1,1,1\n"
        self.assertEqual(Match.of_text(text).aside, ())
        with self.assertRaisesRegex(ValueError, "another kind"):
            Match.of_text(text + "aside,c\n")

    def test_may_couples_be_set_aside(self):
        market = Market(
            programs={"x": Program(1, ["a", "s"]), "y": Program(1, ["s", "b"])},
            applicants={"s": ["x", "y"]},
            couples={"c": Couple("a", "b", [("x", "y")])},
        )
        with self.assertRaises(nrmatch.BudgetSpent):
            nrmatch.match(market, budget=100, orders=2)
        found = nrmatch.match(market, budget=100, orders=2, set_aside=True)
        self.assertEqual((found.aside, found.places), (("c",), {"s": "x", "a": None, "b": None}))
        self.assertTrue(nrmatch.check(market, found).is_stable)


class Faults(unittest.TestCase):
    def test_are_all_faults_named_in_the_order_of_the_file(self):
        market = Market(programs={"P": Program(12345, ["a", "z", "a"])}, couples={"c": Couple("a", "b!", [("P", "Q")])})
        self.assertEqual(
            [(it.code, it.name, it.record, it.line, it.field, it.id) for it in nrmatch.faults(market)],
            [
                (16, "BadQuota", 2, 2, 3, "P"),
                (18, "DuplicateEntry", 2, 2, 6, "a"),
                (20, "UnknownApplicant", 2, 2, 5, "z"),
                (15, "BadId", 3, 3, 4, None),
                (21, "UnknownProgram", 3, 3, 6, "Q"),
            ],
        )

    def test_has_each_fault_its_sentence(self):
        wanted = Fault(21, "UnknownProgram", 2, 2, 3, "Citty", 'applicant Ann lists "Citty", which is the id of no program: ')
        [found] = nrmatch.faults(Market(applicants={"Ann": ["Citty"]}))
        self.assertEqual(found.sentence[: len(wanted.sentence)], wanted.sentence)
        self.assertEqual((found.code, found.record, found.field, found.id), (wanted.code, wanted.record, wanted.field, wanted.id))

    def test_are_the_counts_those_of_a_market_without_a_fault(self):
        self.assertEqual(nrmatch.faults(Market.from_tables(*tables())), Accepted(4, 2, 1, 14, 6))
        self.assertEqual(nrmatch.faults(Market()), Accepted(0, 0, 0, 0, 0))


class Explanations(unittest.TestCase):
    def test_is_each_better_option_explained(self):
        market = small()
        bob = Explanation("applicant", "Bob", (None,), None, None, (Above(1, "City", "Bob", 2, 1, 1, "full"),))
        ann = Explanation("applicant", "Ann", ("City",), 1, 1)
        self.assertEqual(nrmatch.explain(market, nrmatch.match(market)), [bob, ann])
        self.assertEqual(nrmatch.explain(market, nrmatch.match(market), ["Ann", "Bob"]), [ann, bob])

    def test_does_a_public_explanation_lack_numbers(self):
        market = small()
        bob = Explanation("applicant", "Bob", (None,), None, None, (Above(1, "City", "Bob", None, None, None, "full"),))
        self.assertEqual(nrmatch.explain(market, nrmatch.match(market), ["Bob"], public=True), [bob])

    def test_does_a_couple_set_aside_want_nothing(self):
        market = Market(programs={"P": Program(1, ["a"])}, couples={"c": Couple("a", "b", [("P", None)])})
        nowhere = "applicant,a,-\napplicant,b,-\n"
        found = Explanation("couple", "c", (None, None), None, None, (Above(1, "P", "a", 1, 1, 0, "open"),))
        self.assertEqual(nrmatch.explain(market, nowhere), [found])
        self.assertEqual(nrmatch.explain(market, nowhere + "aside,c\n"), [Explanation("couple", "c", (None, None), None, None)])

    def test_is_an_unknown_id_an_exception(self):
        with self.assertRaises(nrmatch.Refused) as caught:
            nrmatch.explain(small(), nrmatch.match(small()), ["Cleo"])
        self.assertEqual((caught.exception.code, caught.exception.name, caught.exception.id), (56, "NoSuchAgent", "Cleo"))

    def test_is_a_market_of_nobody_explained_by_nothing(self):
        self.assertEqual(nrmatch.explain(Market(), ""), [])


class Reports(unittest.TestCase):
    def test_are_the_numbers_those_of_the_tables(self):
        market = Market.from_tables(*tables())
        wanted = Report(
            text="choice,1,1\nchoice,2,1\nunmatched,0\ncouples,0,1,0\npair,1,0\npair,2,1\nprograms,2,0,0\nposts,3,0\n"
            "program,City,2,2,4,2\nprogram,General,1,1,3,1\n",
            choices=(1, 1),
            unmatched=0,
            couples=CoupleCounts(0, 1, 0),
            pairs=(0, 1),
            fill=FillCounts(2, 0, 0),
            posts=PostCounts(3, 0),
            programs={"City": ProgramCounts(2, 2, 4, 2), "General": ProgramCounts(1, 1, 3, 1)},
        )
        self.assertEqual(nrmatch.report(market, nrmatch.match(market)), wanted)

    def test_has_an_empty_program_no_last_one(self):
        report = nrmatch.report(small(), "applicant,Bob,-\napplicant,Ann,-\n")
        self.assertEqual((report.choices, report.unmatched, report.fill), ((), 2, FillCounts(0, 0, 1)))
        self.assertEqual(report.programs, {"City": ProgramCounts(1, 0, 2, None)})

    def test_is_a_refused_match_an_exception(self):
        for made in (nrmatch.report, nrmatch.report_page):
            with self.assertRaises(nrmatch.Refused) as caught:
                made(small(), "applicant,Cleo,City\n")
            it = caught.exception
            self.assertEqual((it.code, it.name, it.record, it.id), (52, "NoSuchApplicant", 1, "Cleo"))

    def test_has_the_page_each_open_program(self):
        page = nrmatch.report_page(small(), "applicant,Bob,-\napplicant,Ann,-\n")
        self.assertTrue(page.startswith("<!DOCTYPE html>\n") and page.endswith("</html>\n"), page)
        self.assertIn(">City<", page)

    def test_is_another_text_an_error(self):
        text = "unmatched,0\ncouples,0,0,0\nprograms,0,0,0\nposts,0,0\n"
        self.assertEqual(Report.of_text(text).posts, PostCounts(0, 0))
        for other, why in (
            ("choice,2,1\n" + text, "choice 2 after 0"),
            (text + "places,0\n", "no line of a report"),
            (text + "\n", "no line of a report"),
            (text.replace("posts,0,0\n", ""), "without posts"),
        ):
            with self.assertRaisesRegex(ValueError, why):
                Report.of_text(other)

    def test_has_the_frame_a_row_for_each_program(self):
        frame = mock.Mock()
        with mock.patch.dict(sys.modules, {"pandas": types.SimpleNamespace(DataFrame=frame)}):
            nrmatch.report(small(), "applicant,Bob,-\napplicant,Ann,-\n").to_frame()
        wanted = {"program": ["City"], "quota": [1], "filled": [0], "listed": [2], "last": [None]}
        frame.assert_called_once_with(wanted)
        frame.return_value.astype.assert_called_once_with({"last": "Int64"})


class Checks(unittest.TestCase):
    def test_is_a_published_match_stable(self):
        market = small()
        self.assertEqual(nrmatch.check(market, nrmatch.match(market)), Verdict("stable"))

    def test_does_the_first_finding_say_who_blocks(self):
        verdict = nrmatch.check(small(), "applicant,Bob,City\napplicant,Ann,-\n")
        self.assertEqual(verdict, Verdict("blocks", ("applicant", "Ann", "City")))

    def test_is_a_refused_match_an_exception(self):
        with self.assertRaises(nrmatch.Refused) as caught:
            nrmatch.check(small(), "applicant,Ann,City\n")
        it = caught.exception
        self.assertEqual((it.code, it.refusal.file, it.line, it.id), (55, "match", None, "Bob"))

    def test_is_each_finding_against_a_match_named(self):
        nobody = "applicant,Bob,-\napplicant,Ann,-\n"
        wanted = [Verdict("blocks", ("applicant", "Bob", "City")), Verdict("blocks", ("applicant", "Ann", "City"))]
        self.assertEqual(nrmatch.findings(small(), nobody), wanted)
        self.assertEqual(nrmatch.findings(small(), nobody + "totals,2,2,1,0\n"), [*wanted, Verdict("differs", ("3",))])

    def test_has_a_stable_match_no_finding(self):
        market = small()
        self.assertEqual(nrmatch.findings(market, nrmatch.match(market)), [])

    def test_is_a_refused_match_without_findings(self):
        with self.assertRaises(nrmatch.Refused) as caught:
            nrmatch.findings(small(), "applicant,Ann,Citty\n")
        self.assertEqual((caught.exception.code, caught.exception.id), (54, "Citty"))


if __name__ == "__main__":
    unittest.main()
