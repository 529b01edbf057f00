#!/usr/bin/env python3
"""module STAND-IN: the tests of the module, over the judge and, in processes of their own, over the library in the folder STAND-IN.
The last line is `N passed, M failed`."""
import inspect
import io
import os
import pathlib
import re
import subprocess
import sys
import threading
import unittest

HERE = pathlib.Path(__file__).resolve().parent
sys.path.insert(0, str(HERE.parent))

import kilteshva
from kilteshva import Answer, LibraryError, judge

STAND_IN = sys.argv.pop()
HEADER = (HERE.parent.parent / "c" / "kilteshva.h").read_text(encoding="utf-8")
ARCHIVE = HERE.parent.parent.parent / "target" / "library" / "libkilteshva.a"

# The register starts at 65; thread 0 invokes Read; thread 1 writes 66 (trace 14 of document 01).
TRACE_14 = b"RAW1\x00\x82\x01\x00\x01\x02\x00\x84\x01\x03\x00"

# The register starts at 65; thread 0 writes 66; thread 1 then reads 65 (trace 5).
STALE_READ = b"RAW1\x00\x82\x01\x00\x00\x84\x01\x01\x00\x02\x01\x03\x01\x82\x01"

# A register that starts at 0.
REGISTER = b"RAW1\x00\x00"
READ = b"\x00\x01\x01\x01\x00"


def constant(name):
    return int(re.search(rf"\bKILTESHVA_{name} = (\d+)", HEADER)[1])


def python(code, library):
    """What a process prints that imports the module, over the library in a folder."""
    code = f"import sys; sys.path.insert(0, {str(HERE.parent)!r}); import kilteshva\n{code}"
    environment = {**os.environ, "KILTESHVA_LIBRARY": str(library)}
    run = subprocess.run([sys.executable, "-B", "-c", code], capture_output=True, text=True, env=environment)
    return run.stdout + run.stderr


class Verdicts(unittest.TestCase):
    def test_order(self):
        for model in ("linearizable", "sequential"):
            self.assertEqual(judge(TRACE_14, model, 2), Answer("Order", 2, (0, 1)))
        self.assertEqual(judge(REGISTER + 64 * READ), Answer("Order", 64, 64 * (0,)))

    def test_no_order_for_one_model_and_an_order_for_the_other(self):
        self.assertEqual(judge(STALE_READ, "linearizable"), Answer("No order", 3))
        self.assertEqual(judge(STALE_READ, "sequential"), Answer("Order", 4, (1, 0)))

    def test_undecided(self):
        self.assertEqual(judge(STALE_READ, budget=2), Answer("Undecided", 2))
        self.assertEqual(judge(STALE_READ, budget=0), Answer("Undecided"))

    def test_invalid(self):
        self.assertEqual(judge(REGISTER + b"\x00\x01\x00\x01"), Answer("Invalid", refusal=4, place=8))
        self.assertEqual(judge(REGISTER + b"\x00\x01\x03\x00"), Answer("Invalid", refusal=5, place=8))

    def test_refused(self):
        self.assertEqual(judge(REGISTER + 65 * READ), Answer("Refused", refusal=6, place=326))
        self.assertEqual(judge(b""), Answer("Refused", refusal=21))
        self.assertEqual(judge(bytes(65_536)), Answer("Refused", refusal=21))
        self.assertEqual(judge(bytes(65_537)), Answer("Refused", refusal=20))
        self.assertEqual(judge(bytes(10_000_000)), Answer("Refused", refusal=20))

    def test_linearizable_within_a_billion_attempts_unless_asked(self):
        self.assertEqual(judge(STALE_READ), judge(STALE_READ, "linearizable"))
        self.assertEqual(inspect.signature(judge).parameters["budget"].default, 1_000_000_000)

    def test_only_an_order_of_something_is_green(self):
        green = [judge(TRACE_14)]
        empty = [judge(REGISTER), judge(REGISTER + b"\x00\x01")]
        others = [judge(STALE_READ), judge(STALE_READ, budget=2), judge(REGISTER + b"\x01\x00"), judge(b"")]
        self.assertEqual([answer.is_green for answer in green + empty + others], [True] + 6 * [False])
        self.assertEqual([answer.is_empty for answer in green + empty + others], [False, True, True] + 4 * [False])

    def test_an_answer_is_not_taken_for_green_because_it_is_there(self):
        with self.assertRaises(TypeError):
            bool(judge(STALE_READ))

    def test_threads_at_once(self):
        answers = []

        def work():
            answers.extend(judge(STALE_READ, model) for model in 100 * ["linearizable", "sequential"])

        threads = [threading.Thread(target=work) for _ in range(8)]
        for thread in threads:
            thread.start()
        for thread in threads:
            thread.join()
        self.assertEqual(len(answers), 1600)
        self.assertEqual(answers.count(Answer("No order", 3)), 800)
        self.assertEqual(answers.count(Answer("Order", 4, (1, 0))), 800)


class Inputs(unittest.TestCase):
    def test_bytes_of_any_kind(self):
        spread = bytearray(2 * len(TRACE_14))
        spread[::2] = TRACE_14
        for data in (bytearray(TRACE_14), memoryview(TRACE_14), memoryview(spread)[::2]):
            self.assertEqual(judge(data), judge(TRACE_14))

    def test_what_is_no_bytes(self):
        for data in ("RAW1", 15, None, [82, 65], 1.5):
            with self.assertRaises(TypeError, msg=data):
                judge(data)

    def test_what_is_no_model(self):
        for model in ("", "both", "Linearizable", 0, 1, None):
            with self.assertRaises(ValueError, msg=model):
                judge(TRACE_14, model)

    def test_what_is_no_budget(self):
        for budget in (-1, 2**64, -(2**64) + 2):
            with self.assertRaises(ValueError, msg=budget):
                judge(TRACE_14, budget=budget)
        for budget in ("2", 2.0, None):
            with self.assertRaises(TypeError, msg=budget):
                judge(TRACE_14, budget=budget)
        self.assertEqual(judge(TRACE_14, budget=2**64 - 1), Answer("Order", 2, (0, 1)))


class Library(unittest.TestCase):
    def test_digest(self):
        self.assertRegex(kilteshva.library_digest(), "^[0-9a-f]{64}$")
        self.assertIn(kilteshva.library_digest().encode() + b"\0", ARCHIVE.read_bytes())

    def test_another_library(self):
        said = python("kilteshva.library_digest()", STAND_IN)
        self.assertIn("LibraryError: the library is not the judge: it does not say what it was made from", said)
        said = python("kilteshva.judge(bytes(80))", STAND_IN)
        self.assertIn("LibraryError: the library is not the judge (it returned 0)", said)
        green = "kilteshva.judge(bytes([0, 0, 0, 1] + 13 * [0] + 63 * [255]))"
        self.assertEqual(python(f"print({green}.is_green)", STAND_IN), "True\n")

    def test_no_library(self):
        for call in ("judge(b'')", "library_digest()"):
            said = python(f"kilteshva.{call}", HERE)
            self.assertIn(f"LibraryError: {HERE / 'libkilteshva.so'} is not there", said)

    def test_the_header_says_the_same(self):
        meanings = dict(re.findall(r'case KILTESHVA_(\w+): return "(.*)";', HEADER))
        self.assertEqual({constant(name): words for name, words in meanings.items()}, kilteshva.REFUSALS)
        names = [verdict.upper().replace(" ", "_") for verdict in kilteshva.VERDICTS]
        self.assertEqual([constant(name) for name in names], [0, 1, 2, 3, 4])
        self.assertEqual({name: constant(name.upper()) for name in kilteshva.MODELS}, kilteshva.MODELS)
        self.assertEqual(constant("LONGEST_FILE"), kilteshva.LONGEST_FILE)


def main():
    said = io.StringIO()
    tests = unittest.defaultTestLoader.loadTestsFromModule(sys.modules["__main__"])
    result = unittest.TextTestRunner(said).run(tests)
    failed = len({test.id() for test, _ in result.failures + result.errors})
    if failed or not result.wasSuccessful():
        sys.stderr.write(said.getvalue())
    print(f"{result.testsRun - failed} passed, {failed} failed")
    return 0 if result.wasSuccessful() else 1


if __name__ == "__main__":
    sys.exit(main())
