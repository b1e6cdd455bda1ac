"""Tests of the Python module on the cases of examples/c, and on what it refuses. check.sh runs them."""

import pathlib
import re
import unittest

import koelchair

ROOT = pathlib.Path(__file__).resolve().parents[3]


def example(number):
    """The bytes of a worked example."""
    return case(f"example{number}")


def case(name):
    """The bytes of a case of examples/c."""
    return (ROOT / "examples/c" / f"{name}.bytes").read_bytes()


def formula_value(element, nesting, fixpoint=False, ex=False):
    """What value and whole answer."""
    return koelchair.FormulaValue(element, koelchair.FormulaFacts(nesting, fixpoint, ex))


class Examples(unittest.TestCase):
    def test_example_1(self):
        desk = koelchair.Desk(example(1))
        self.assertEqual(desk.rows(), [[2]])
        self.assertEqual(desk.sizes(), koelchair.Sizes(3, 1, 1, 1, 1))
        self.assertEqual(desk.step(), koelchair.Step("round", 1, 1))
        self.assertEqual(desk.step(), koelchair.Step("settled", 2, 1))
        self.assertEqual(desk.step(), koelchair.Step("settled", 2, 1))
        self.assertEqual((desk.rows(), desk.score()), ([[1]], 1))
        self.assertEqual((desk.value(0, 1, 0), desk.whole(0, 2)), (formula_value(1, 0), formula_value(1, 0)))
        self.assertEqual((desk.share(1), desk.share(2)), (100, 0))
        self.assertEqual((desk.judge(desk.show()), desk.judge([2])), (True, False))
        # Sound, and not a simulation.
        self.assertIs(desk.judge([0]), True)

    def test_example_4(self):
        desk = koelchair.Desk(example(4))
        self.assertEqual(desk.step(), koelchair.Step("row", None, 0))
        self.assertEqual(desk.step(), koelchair.Step("round", 1, 3))
        self.assertEqual(desk.rows(), [[1, 0], [0, 0]])
        standing = desk.standing
        self.assertEqual((standing.round, standing.row, standing.second_whole, standing.lowerings), (1, 0, True, 3))
        self.assertEqual(desk.step(), koelchair.Step("row", None, 3))
        self.assertEqual(desk.settle(), 3)
        self.assertEqual((desk.standing.lowerings, standing.lowerings), (4, 3))
        self.assertEqual(desk.show(), bytes(4))
        self.assertEqual((desk.standing.settled, standing.settled), (True, False))
        self.assertEqual((desk.whole(0, 1), desk.whole(0, 2)), (formula_value(0, 1), formula_value(1, 1)))
        self.assertEqual((desk.judge(bytes(4)), desk.judge([1, 0, 0, 0]), desk.judge([0, 0, 0, 1])), (True, False, False))

    def test_lowerings_are_those_of_the_whole_rounds(self):
        desk = koelchair.Desk(case("covered-from"))
        table, counted = desk.show(), 0
        while not desk.standing.settled:
            step = desk.step()
            counted += sum(old != new for old, new in zip(table, desk.show()))
            table = desk.show()
            self.assertEqual((step.lowerings, desk.standing.lowerings), (counted, counted))
        self.assertEqual(counted, 9)

    def test_facts_of_formulas(self):
        # p & !q; AX !q; p & AX (q | AX p); AG p; AX EX AX p
        desk = koelchair.Desk(case("covered-from"))
        expected = [(0, False, False), (1, False, False), (2, False, False), (1, True, False), (2, False, True)]
        self.assertEqual([desk.whole(f, 1).facts for f in range(5)], expected)
        self.assertEqual([desk.value(f, 2, 0).facts for f in range(5)], expected)
        self.assertEqual((desk.value(2, 1, 0), desk.value(2, 2, 0)), (formula_value(0, 2), formula_value(1, 2)))

    def test_which_rounds_cover_a_formula(self):
        desk = koelchair.Desk(case("covered-from"))
        facts = [desk.whole(f, 1).facts for f in range(5)]
        self.assertEqual([f.covered_from() for f in facts], [1, 2, 3, "settled", None])
        covered = []
        while not desk.standing.settled:
            covered.append([i for i, f in enumerate(facts) if f.covered_in(desk.standing.round, False)])
            while desk.step().kind == "row":
                pass
        self.assertEqual(covered, [[], [0], [0, 1], [0, 1, 2]])
        self.assertEqual([f.covered_in(desk.standing.round, True) for f in facts], [True, True, True, True, False])

    def test_entries_of_the_next_round(self):
        desk = koelchair.Desk(example(4))

        def entries():
            return [desk.entry(q1, q2) for q1 in range(2) for q2 in range(2)]

        round_0 = [koelchair.WorkedEntry(1, 4), (0, 4), (0, 0), (0, 0)]
        self.assertEqual(entries(), round_0)
        desk.step()  # works a row of the table that is not shown
        self.assertEqual(entries(), round_0)
        desk.step()
        self.assertEqual(desk.rows(), [[1, 0], [0, 0]])
        self.assertEqual(entries(), [(0, 4), (0, 4), (0, 0), (0, 0)])

    def test_another_case_replaces_the_former(self):
        desk = koelchair.Desk(example(4))
        desk.settle()
        desk.open(example(1))
        self.assertEqual((desk.standing.round, desk.standing.lowerings, desk.settle()), (0, 0, 2))

    def test_a_case_is_written_back(self):
        for bytes_read in [example(1), example(4), case("covered-from")]:
            desk = koelchair.Desk(bytes_read + b"in no part")
            self.assertEqual(desk.write(), bytes_read)
            desk.step()
            self.assertEqual(desk.write(), bytes_read)
            desk.settle()
            self.assertEqual(desk.write(), bytes_read)
            self.assertTrue(desk.standing.settled)
            desk.open(desk.write())
            self.assertEqual((desk.standing.round, desk.write()), (0, bytes_read))

    def test_listing(self):
        lines = "rounds 3\nrow 0: 0 0\nrow 1: 0 0\nscore 0\nformula 0: 0 1\n"
        self.assertEqual(koelchair.listing(example(4)), lines)
        self.assertEqual(koelchair.listing(b""), "refused 1 255\n")


class Refusals(unittest.TestCase):
    def refused(self, call, number, part, words):
        with self.assertRaises(koelchair.Refused) as raised:
            call()
        refusal = raised.exception
        self.assertEqual((refusal.number, refusal.part, refusal.words), (number, part, words))
        return str(refusal)

    def test_no_case(self):
        said = self.refused(lambda: koelchair.Desk(b""), 1, None, "the case is empty or over 32,768 bytes")
        self.assertEqual(said, "refused 1 255: the case is empty or over 32,768 bytes")

    def test_a_refused_case_leaves_the_desk(self):
        desk = koelchair.Desk(example(4))
        desk.settle()
        words = "the part is empty, overlaps what stands before it, or ends beyond the case"
        said = self.refused(lambda: desk.open(example(1)[:-1]), 3, 3, words)
        self.assertEqual(said, f"refused 3 3: {words} (part 3 of the case)")
        self.assertEqual((desk.standing.round, desk.standing.settled, desk.show()), (3, True, bytes(4)))
        self.assertEqual(desk.standing.lowerings, 4)

    def test_out_of_range(self):
        desk = koelchair.Desk(example(4))
        words = "a formula, model, state or element is out of range, or the table to be judged is no table of elements of this size"
        for call in [
            lambda: desk.value(1, 1, 0),
            lambda: desk.value(0, 3, 0),
            lambda: desk.value(0, 2, 2),
            lambda: desk.whole(255, 1),
            lambda: desk.share(2),
            lambda: desk.judge([0, 0, 0]),
            lambda: desk.judge(b""),
            lambda: desk.entry(2, 0),
            lambda: desk.entry(0, 2),
        ]:
            self.refused(call, 13, None, words)

    def test_no_byte(self):
        desk = koelchair.Desk(example(4))
        for call in [
            lambda: desk.value(256, 1, 0),
            lambda: desk.value(0, 257, 0),
            lambda: desk.value(0, 1, -1),
            lambda: desk.whole(0, 258),
            lambda: desk.share(256),
            lambda: desk.judge([0, 0, 0, 256]),
            lambda: desk.entry(256, 0),
            lambda: desk.entry(0, -1),
        ]:
            self.assertRaises(ValueError, call)


class Header(unittest.TestCase):
    def test_version_and_lengths(self):
        header = (ROOT / "include/koelchair.h").read_text()
        defined = dict(re.findall(r"#define KOELCHAIR_(\w+) (\S+)", header))
        self.assertEqual(f'"{koelchair.VERSION}"', defined["VERSION"])
        for name in ["STORE_LENGTH", "TABLE_LENGTH", "LISTING_LENGTH", "WRITTEN_MOST"]:
            self.assertEqual(str(getattr(koelchair, name)), defined[name])


if __name__ == "__main__":
    unittest.main()
