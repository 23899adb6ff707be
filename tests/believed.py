#!/usr/bin/env python3
"""Tests of tools/believed.py: which promises and definitions it finds, and that it is not silent where it does not understand.

    python3 tests/believed.py
"""

import pathlib
import sys
import unittest

sys.dont_write_bytecode = True
sys.path.insert(0, str(pathlib.Path(__file__).resolve().parent.parent / "tools"))
import believed  # noqa: E402

SOURCE = """ghost use Rattle.std.specs.Prelude.{◌≡◌, ◌↔◌, length};
ghost use Rattle.std.specs.Io.{
    WroteAll,
};
ghost use Rattle.model.specs.Calls.{price_answer, pairs_of};
ghost use Rattle.model.specs.Tape.{read_answer as read};
ghost use Rattle.model.specs.Order.{◌≪◌};
ghost use Rattle.model.specs.Plain as plain;

pub fn price(a: u8) -> u8
    requires { pairs_of a.now }
    ensures WroteAll { result ≡
        price_answer a }
    ensures pairs_of { read result × { a } }
{
    a
}

fn inner(a: u8) -> u8
    ensures { pairs_of a }
{
    a
}

impl Price {
    pub fn of<R: Read>(&self, r: &mut R) -> u8
        ensures { self.now ≪ length r.new }
    {
        if true {
        }
    }
}
"""
MODEL = "Rattle.model.specs."


class Believed(unittest.TestCase):
    def test_promises(self):
        said = believed.promises(SOURCE, "price")
        self.assertEqual(said.split(), "result ≡ price_answer a read result × { a }".split())
        self.assertEqual(believed.promises(SOURCE, "of").split(), "self.now ≪ length r.new".split())
        self.assertIsNone(believed.promises(SOURCE, "inner"))
        for text in "", "    ensures { λ r.\n", "    ensures a { r } and more\n":
            with self.assertRaises(SystemExit):
                believed.promises(f"pub fn price(a: u8) -> u8\n{text}{{\n    a\n}}\n", "price")

    def test_cited(self):
        prelude, whole = "Rattle.std.specs.Prelude", MODEL + "Plain"
        said = believed.promises(SOURCE, "price")
        self.assertEqual(list(believed.cited(SOURCE, said)), [prelude, MODEL + "Calls", MODEL + "Tape", whole])
        said = believed.promises(SOURCE, "of")
        self.assertEqual(list(believed.cited(SOURCE, said)), [prelude, MODEL + "Order", whole])
        self.assertEqual(list(believed.cited(SOURCE, "f.read")), [whole])
        self.assertIn("Rattle.std.specs.Io", believed.cited(SOURCE, "WroteAll a"))
        with self.assertRaises(SystemExit):
            list(believed.cited(SOURCE, "Rattle.model.specs.Calls.price_answer a"))
        with self.assertRaises(SystemExit):
            list(believed.cited("ghost use Rattle.model.specs.Calls.{a} hiding;\n", "a"))

    def test_files(self):
        self.assertEqual(believed.file_of(MODEL + "Calls"), "model/specs/Calls.antt")
        self.assertEqual(believed.file_of(MODEL + "declared.Terms"), "model/src/lib.rt")
        self.assertEqual(believed.file_of(MODEL + "declared.Answer.TheVariants"), "model/src/lib.rt")
        self.assertEqual(believed.file_of("Rattle.tape_records.specs.declared.state.ParserState"), "tape_records/src/state.rt")
        self.assertIsNone(believed.file_of("Rattle.std.specs.Io"))
        for module in [MODEL + "Nowhere", "Rattle.lists.proofs.Tables", "Rattle.lists", MODEL + "declared"]:
            with self.assertRaises(SystemExit):
                believed.file_of(module)

    def test_reached(self):
        files, toolchain = believed.reached()
        for file in ["Demand", "RoundTrip", "Answers", "Plain", "Root"]:
            self.assertIn(f"model/specs/{file}.antt", files)
        self.assertNotIn("model/specs/Values.antt", files)
        self.assertEqual(toolchain, ["std.proofs.Math.IntN", "std.specs.Counts", "std.specs.Int.Signed", "std.specs.Io.KnownBytes"])


if __name__ == "__main__":
    unittest.main()
