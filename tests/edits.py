#!/usr/bin/env python3
"""Tests of tools/edits.py: what it says of what rt printed of an edit, and of edits and documents that do not fit. No proof is run.

    python3 tests/edits.py
"""

import pathlib
import sys
import tempfile
import unittest

sys.dont_write_bytecode = True
sys.path.insert(0, str(pathlib.Path(__file__).resolve().parent.parent / "tools"))
import edits  # noqa: E402

ANSWERS = """use Rattle.calls.proofs.run.Goals as goal

pub asked-requires : goal.asked-requires
asked-requires c = ends c

ends : (c : goal.After-asked) → Ends
ends c = search rules

module _ (c : goal.After-first) where
  abbrev place : goal.Start
  place = c.before

  deep : Deep
  deep = search rules

last : (c : goal.After-last) → Last
last c = deep c.before

again : Again
again = search rules

pub loop-rows-preserved-then-last : goal.loop-rows-preserved-then-last
loop-rows-preserved-then-last c = again

pub returns-clause-image_after : goal.returns-clause-image_after
returns-clause-image_after c = last c.before
"""
SOURCE = """// A call.

use crate::figures;

#[derive(Clone, Copy)]
pub struct Ended {
    settled: bool,
}

#[unsafe(no_mangle)]
pub extern "C" fn run(r: u32) -> u32
    ensures { result ≡ r }
{
    r
}

impl Ended {
    pub fn check(&self) -> bool
        ensures { result ≡ self.now.settled }
    {
        self.settled
    }
}
"""
FACT = "as printed, the two types differ only where one has `0` (expected) and the other has `1` (found)"
PROMISED = "it is not proved that what the function ensures holds when it returns (`returns`); the facts known there"
ASKED = "it is not proved that what `asked` requires holds at this call (`asked-requires`); the facts known there"


def at_error(message, path="./proofs/run/Answers.antt"):
    """What rt says of an edit that was refused at an error of a proof file."""
    return f"refused, as it must be: {path}:3:1: error: {message}"[:184]


def at_note(line, message):
    """The same where no proof file answers for the goal."""
    return f"refused, as it must be: note: src/run.rt:{line}:1: {message}"[:184]


class Said(unittest.TestCase):
    def setUp(self):
        folder = tempfile.TemporaryDirectory()
        self.addCleanup(folder.cleanup)
        self.top, edits.TOP = edits.TOP, pathlib.Path(folder.name)
        self.addCleanup(setattr, edits, "TOP", self.top)
        for file, text in ("proofs/run/Answers.antt", ANSWERS), ("src/run.rt", SOURCE):
            path = edits.TOP / "crates/calls" / file
            path.parent.mkdir(parents=True)
            path.write_text(text, encoding="utf-8")

    def judged(self, at, said):
        edit = edits.Edit("calls", "label", "a wrong answer", at, ["public"], "", [("src/run.rt", "a", "b")])
        return edits.judge_said(edit, said)

    def test_a_fact_of_the_promise(self):
        for declared in ["returns-clause-image_after", "last", "deep", "loop-rows-preserved-then-last", "again"]:
            self.assertIsNone(self.judged("run", at_error(f"`{declared}`: {FACT}")))

    def test_the_other_words_for_a_fact(self):
        for said in [
            "`omega`: the goal does not follow from what it read",
            "what it leaves must be a path whose two ends are equal",
            "computed as far as they go, the two types differ only where one has `3`",
            "give a proof of that as the last argument, `rw L t` (`rw L ?` shows it as a hole's goal), or add",
            "expected type `a type that is longer than what rt prints of a line",
            "`search`: no proof of `an equation that is longer than what rt prints of a line",
        ]:
            self.assertIsNone(self.judged("run", at_error(f"`last`: {said}")))

    def test_another_function(self):
        self.assertIn("refused at run", self.judged("check", at_error(f"`last`: {FACT}")))

    def test_a_function_of_a_module(self):
        self.assertIsNone(self.judged("run", at_error(f"`last`: {FACT}")))
        path = edits.TOP / "crates/calls/proofs/calls/Calls/check/Answers.antt"
        path.parent.mkdir(parents=True)
        path.write_text(ANSWERS, encoding="utf-8")
        self.assertIsNone(self.judged("check", at_error(f"`last`: {FACT}", "./proofs/calls/Calls/check/Answers.antt")))

    def test_what_a_callee_asks(self):
        for declared in ["asked-requires", "ends"]:
            said = at_error(f"`{declared}`: {FACT}")
            self.assertIn("(asks)", self.judged("run", said))
            self.assertIsNone(self.judged("run (asks)", said))

    def test_a_law(self):
        said = at_error(f"`values`: {FACT} not shown (computing it took more than 200000 steps)", "./proofs/Values.antt")
        self.assertIsNone(self.judged("values in Values", said))
        self.assertIn("values in Values", self.judged("values in Bounds", said))
        self.assertIn("values in Values", self.judged("values", said))

    def test_an_unfit_proof_file(self):
        for message in ["`Goals` has no `last` that can be named from here", "record `Start` has no field `before`"]:
            self.assertIn("unfit", self.judged("run", at_error(f"`last`: {message}")))
        named = "only because a proof file names what the edit took away, so this says little of the contract: change a value"
        self.assertIn("names what the edit", self.judged("run", f"refused, as it must be ({named}): ./proofs/run/Answers.antt"))

    def test_a_limit(self):
        self.assertIn("limit", self.judged("run", at_error("`last`: a resource limit was met")))
        self.assertIn("limit", self.judged("run", at_error("`last`: computing it took more than 100000 steps")))
        limit = "only by a limit of the prover, which gave no verdict, so this says less of the contract: choose a change"
        self.assertIn("by a limit", self.judged("run", f"refused, as it must be ({limit}): src/run.rt"))

    def test_anything_else(self):
        self.assertIn("no fact", self.judged("run", at_error("`last`: a name is missing")))
        self.assertIn("no fact", self.judged("run", at_note(11, "a line of another kind")))
        self.assertIn("not say where", self.judged("run", "refused, as it must be"))
        self.assertIn("does not say where", self.judged("", at_error(f"`last`: {FACT}")))

    def test_no_proof_file(self):
        for at in "run", "run (search)":
            self.assertIsNone(self.judged(at, at_note(10, PROMISED)))
        self.assertIn("refused at run", self.judged("run (asks)", at_note(10, PROMISED)))
        self.assertIn("refused at run", self.judged("check", at_note(10, PROMISED)))
        self.assertIsNone(self.judged("run (asks)", at_note(14, ASKED)))
        self.assertIn("(asks)", self.judged("run", at_note(14, ASKED)))
        self.assertIn("refused at run", self.judged("run (search)", at_error(f"`last`: {FACT}")))
        # the name of the goal may be cut off
        self.assertIsNone(self.judged("check", at_note(18, "it is not proved that what the function ensures holds when it retu")))
        self.assertIsNone(self.judged("check (asks)", at_note(21, "it is not proved that what `asked_by_a_function_of_a_lon")))

    def test_the_function_of_a_line(self):
        found = [edits.function_at(SOURCE, line) for line in range(1, 25)]
        wanted = [None] * 9 + ["run"] * 6 + [None] * 2 + ["check"] * 5 + [None] * 2
        self.assertEqual(found, wanted)

    def test_proved_all_the_same(self):
        self.assertIn("NOT REFUSED", self.judged("run", "NOT REFUSED: the crate is still proved with this edit"))

    def test_what_did_not_count(self):
        for said in ["BAD EDIT: it changes nothing", "NOT TRIED: its check was killed"]:
            self.assertEqual(self.judged("run", said), said)

    def test_the_whole_of_what_was_printed(self):
        edit = edits.Edit("calls", "label", "a wrong answer", "run", ["public"], "", [])
        well = f"rt: must-fail calls/label.edit: {at_note(10, PROMISED)}"
        self.assertEqual(list(edits.judge_log([edit], f"rt: calls proved\n{well}\n1 passed, 0 failed\n")), [])
        self.assertIn("not tried", list(edits.judge_log([edit], well.replace("label", "other")))[0])
        self.assertIn("not tried", list(edits.judge_log([edit], "rt: calls proved\n"))[0])
        given_up = well.replace("the facts known there", "`search` gave up at one of its limits")
        self.assertIn("a limit was met", list(edits.judge_log([edit], given_up))[0])


class Faults(unittest.TestCase):
    def faults(self, **changed):
        found = [edit._replace(**changed) if edit.label == "settled_when_spent" else edit for edit in edits.edits()]
        return "\n".join(edits.faults(found))

    def test_none(self):
        self.assertEqual(self.faults(), "")

    def test_each(self):
        for changed, said in [
            (dict(rules_out=""), "what it rules out"),
            (dict(at=""), "no line '# at"),
            (dict(at="run (asks)"), "'public' is said"),
            (dict(at="values in Values"), "has no law values"),
            (dict(reasons=[]), "no line '# for"),
            (dict(reasons=["definition"]), "'definition' or 'table'"),
            (dict(pairs=[]), "edits nothing"),
            (dict(pairs=[("src/run.rt", "Ending", "b")]), "times in src/run.rt"),
            (dict(pairs=[("proofs/Lib.antt", "a", "b")]), "below src/ or specs/"),
            (dict(pairs=[("src/price.rt", "answer_of result ≡", "b")]), "edits a contract"),
            (dict(pairs=[("src/price.rt", "PriceAllowed t samples.now", "b")]), "edits a contract"),
            (dict(pairs=[("src/price.rt", "ghost use Rattle.model.specs.Accepted", "b")]), "edits a contract"),
            (dict(pairs=[("src/price.rt", "// Price judges", "b")]), "edits a contract"),
            (dict(label="renamed"), "calls/settled_when_spent is no edit"),
            (dict(rules_out="another answer"), "stale"),
        ]:
            self.assertIn(said, self.faults(**changed))

    def test_two_for_each_public_promise(self):
        found = [edit for edit in edits.edits() if (edit.crate, edit.at) != ("tape_writer", "write")]
        self.assertIn("write has 0 edits", "\n".join(edits.faults(found)))

    def test_contracts(self):
        text = SOURCE.replace("{ result ≡ r }", "value {\n        result ≡ r\n    }").replace("settled: bool", "ghost fits: { settled }")
        for old in ["result ≡ r", "value {\n        result", "ghost fits", "settled }"]:
            self.assertTrue(edits.in_a_contract(text, old), old)
        for old in ["    r\n}", "struct Ended", "self.settled\n"]:
            self.assertFalse(edits.in_a_contract(text, old), old)


if __name__ == "__main__":
    unittest.main()
