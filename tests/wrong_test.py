#!/usr/bin/env python3
"""Tests the script wrong.py on small crates, and compares what it prints with what it should print.

    python3 tests/wrong_test.py

A *wrong body* is a deliberate error in a function, which the prover should refuse. Each wrong body is a file, which is
called an *edit*. Each test case writes a crate and its edits into a temporary folder. Each test case is about one
situation, for example two edits of the same function.

The script needs only the toolchain, and takes about a minute of processor time. The status is 1 if a test case fails.
"""
import pathlib
import subprocess
import sys
import tempfile
import unittest

WRONG = pathlib.Path(__file__).resolve().parent / "wrong.py"
HEAD = """//! A small crate.

#![tactic(auto)]

ghost use Rattle.std.specs.Prelude.{◌≡◌, ◌+◌, ◌≤◌};
"""
NEXT = """
/// The next number, of numbers up to a thousand.
pub fn next(a: u32) -> u32
    requires { a ≤ 1000 }
    ensures { result ≡ a + 1 }
{
    a + 1
}
"""
LARGER = """
/// The larger of two numbers.
pub fn larger(a: u32, b: u32) -> u32
    ensures first { a ≤ result }
    ensures second { b ≤ result }
{
    if a < b { b } else { a }
}
"""
SECOND_NEXT = """
/// The number after the next.
pub fn second_next(a: u32) -> u32
    requires { a ≤ 999 }
    ensures { result ≡ a + 2 }
{
    let one = next(a);
    next(one)
}
"""
LIMITED = """
const LARGEST: u32 = 10;

/// The number, or ten if it is larger.
pub fn limited(a: u32) -> u32
    ensures { result ≤ 10 }
{
    if a < LARGEST { a } else { LARGEST }
}
"""
SQUARE = """
/// A figure with sides.
pub trait Sides {
    fn sides(&self) -> u32
        ensures { 3 ≤ result };
}

/// A square.
pub struct Square;

impl Sides for Square {
    fn sides(&self) -> u32 {
        4
    }
}
"""
CITING = """
/// The next number, by a proof that cites the call.
pub fn citing(a: u32) -> u32
    requires { a ≤ 1000 }
    ensures { result ≡ a + 1 }
{
    next(a)
}
"""
CITED = """use Rattle.citing.proofs.citing.Goals as goal

pub returns : goal.returns
returns c = c.next.ensures
"""


class WrongBodies(unittest.TestCase):
    def said_of(self, crate, source, edits, proofs=()):
        """Runs wrong.py on a crate with these edits. Returns the lines that wrong.py prints, and its status.

        `source` is the text of the crate after HEAD. `edits` has the old and the new text of each edit, by the edit's
        name. `proofs` are pairs of the path and the text of a file with proofs.
        """
        with tempfile.TemporaryDirectory() as top:
            folder = pathlib.Path(top, "crates", crate)
            for below in ("src", "wrong"):
                (folder / below).mkdir(parents=True)
            pathlib.Path(top, "crates.txt").write_text(f"{crate}:\n")
            (folder / "src/lib.rt").write_text(HEAD + source)
            for path, text in proofs:
                (folder / path).parent.mkdir(parents=True)
                (folder / path).write_text(text)
            for name, (old, new) in edits.items():
                (folder / "wrong" / f"{name}.edit").write_text(f"file: src/lib.rt\nold: {old}\nnew: {new}\n")
            run = subprocess.run([sys.executable, "-B", WRONG, "--top", top], capture_output=True, text=True, check=False)
        return run.stdout.splitlines(), run.returncode

    def test_a_wrong_body_is_refused(self):
        said, status = self.said_of("simple", NEXT, {"next_adds_two": ("    a + 1", "    a + 2")})
        self.assertEqual((said, status), (["simple: 1 of 1 wrong bodies refused, in 1 checks", "1 passed, 0 failed"], 0))

    def test_a_harmless_edit_is_told(self):
        same = {"larger_asks_the_other_way": ("if a < b { b } else { a }", "if b <= a { a } else { b }")}
        said, status = self.said_of("harmless", LARGER, same)
        self.assertEqual((said[0], status), ("harmless/larger_asks_the_other_way: it is still proved", 1))
        self.assertEqual(said[-1], "0 passed, 1 failed")

    def test_an_edit_that_fits_nowhere_is_told(self):
        said, status = self.said_of("nowhere", LARGER, {"larger_of_none": ("if a > b", "if a < b")})
        self.assertEqual((said[0], status), ("nowhere/larger_of_none: it can't be applied", 1))

    def test_an_edit_that_does_not_compile_is_told(self):
        edits = {"next_adds_nothing_known": ("    a + 1", "    a + unknown"), "larger_takes_the_first": ("{ b } else { a }", "{ a } else { a }")}
        said, status = self.said_of("unread", NEXT + LARGER, edits)
        self.assertTrue(said[0].startswith("unread/next_adds_nothing_known: it couldn't be tried: "), said)
        self.assertEqual((said[-1], status), ("1 passed, 1 failed", 1))

    def test_a_method_of_a_trait_is_found(self):
        said, status = self.said_of("method", SQUARE, {"sides_of_a_square_are_two": ("        4", "        2")})
        self.assertEqual((said[-1], status), ("1 passed, 0 failed", 0))

    def test_two_edits_of_one_function_take_two_rounds(self):
        edits = {"larger_takes_the_first": ("{ b } else { a }", "{ a } else { a }"), "larger_takes_the_second": ("{ b } else { a }", "{ b } else { b }")}
        said, status = self.said_of("two", LARGER, edits)
        self.assertEqual((said, status), (["two: 2 of 2 wrong bodies refused, in 2 checks", "2 passed, 0 failed"], 0))

    def test_an_edited_caller_is_judged_beside_the_edited_function(self):
        edits = {"next_adds_two": ("    a + 1", "    a + 2"), "second_next_adds_one": ("    next(one)", "    one")}
        said, status = self.said_of("caller", NEXT + SECOND_NEXT, edits)
        self.assertEqual((said, status), (["caller: 2 of 2 wrong bodies refused, in 1 checks", "2 passed, 0 failed"], 0))

    def test_an_edited_caller_without_a_fault_of_its_own_waits(self):
        edits = {"next_adds_two": ("    a + 1", "    a + 2"), "second_next_in_braces": ("    next(one)", "    { next(one) }")}
        said, status = self.said_of("waiting", NEXT + SECOND_NEXT, edits)
        self.assertEqual((said[0], status), ("waiting/second_next_in_braces: it is still proved", 1))
        self.assertEqual(said[1], "waiting: 1 of 2 wrong bodies refused, in 2 checks")

    def test_an_edit_outside_functions_is_tried_with_the_whole_crate(self):
        edits = {"limited_to_eleven": ("u32 = 10;", "u32 = 11;"), "next_adds_two": ("    a + 1", "    a + 2")}
        said, status = self.said_of("outside", NEXT + LIMITED, edits)
        self.assertEqual((said, status), (["outside: 2 of 2 wrong bodies refused, in 2 checks", "2 passed, 0 failed"], 0))

    def test_a_refusal_for_a_name_alone_is_told(self):
        edits = {"citing_adds_one_itself": ("    next(a)", "    a + 2")}
        said, status = self.said_of("citing", NEXT + CITING, edits, [("proofs/citing/Answers.antt", CITED)])
        self.assertTrue(said[0].startswith("citing/citing_adds_one_itself: a proof names what it takes away"), said)
        self.assertEqual(status, 1)


if __name__ == "__main__":
    unittest.main()
