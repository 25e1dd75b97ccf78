"""Which of the three tests/listing/run says is alone."""

import importlib.machinery
import importlib.util
import pathlib
import unittest

LOADER = importlib.machinery.SourceFileLoader("run", str(pathlib.Path(__file__).resolve().parent / "run"))
SPEC = importlib.util.spec_from_loader("run", LOADER)
run = importlib.util.module_from_spec(SPEC)
LOADER.exec_module(run)

WHOLE, ANSWER = ["0 1 5 0", "0 43 1 1 5"], ["0 1 5 0"]
OTHER, THIRD = ["0 1 5 0", "0 43 1 1 6"], ["7 1 1 0"]


def case(is_whole):
    """A case that expects rows, or the answer alone."""
    rows = [[0, 43, 1, 1, 5]] if is_whole else None
    return run.language.Case("case", ("x.cases", 1), "a", "", [], call="list",
                             expected=run.language.Expected((0, 1, 5, 0), rows=rows, points=[]))


class Verdicts(unittest.TestCase):
    def test_whole(self):
        for own, other, came, verdict in (
                (WHOLE, WHOLE, WHOLE, None), (WHOLE, WHOLE, OTHER, "The program is alone."),
                (WHOLE, OTHER, WHOLE, "The independent implementation is alone."),
                (WHOLE, OTHER, OTHER, "The expectation is alone."), (WHOLE, OTHER, THIRD, "All three differ.")):
            self.assertEqual(run.judged(case(True), own, other, came), verdict)

    def test_answer_alone(self):
        for other, came, verdict in (
                (WHOLE, WHOLE, None), (THIRD, THIRD, "The expectation is alone."),
                (WHOLE, THIRD, "The program is alone."),
                (WHOLE, OTHER, "The case does not say what the program and the implementation differ in.")):
            self.assertEqual(run.judged(case(False), ANSWER, other, came), verdict)

    def test_expected(self):
        self.assertEqual((run.expected(case(True)), run.expected(case(False))), (WHOLE, ANSWER))


if __name__ == "__main__":
    unittest.main()
