"""The proved desk for latticed simulation, called from Python.

    import koelchair

    with open("case.bytes", "rb") as file:  # written by: koelchair encode FILE > case.bytes
        desk = koelchair.Desk(file.read())
    print("settled after", desk.settle(), "rounds and", desk.standing.lowerings, "lowerings, score", desk.score())
    for row in desk.rows():
        print(*row)
    for formula in range(desk.sizes().formulas):
        whole = desk.whole(formula, 1)
        print("formula", formula, "is", whole.element, "and covered from", whole.facts.covered_from())
    with open("written.bytes", "wb") as file:  # read by: koelchair decode written.bytes
        file.write(desk.write())

`build.sh` makes the shared library libkoelchair.so, which stands beside this file, from the proved archive. This module passes
arguments on and reads answers; its own is only how FormulaFacts says which rounds cover a formula, by the conditions of
docs/SPECIFICATION.md, which also says how a case is laid out byte for byte. Elements, states and formulas are numbers from 0,
models are 1 and 2.

    Desk(case)      a desk with an accepted case; its calls are methods
    FormulaValue    a formula's element with its FormulaFacts, which say from which round on a table covers the formula
    WorkedEntry     an entry of the next round with the number of pairs of states that working it one pair after another looks at
    listing(case)   the whole result as text, without a desk
    Refused         the exception by which a call says that it is refused
    VERSION         the library's version
"""

import ctypes
import pathlib
from ctypes import c_bool, c_char, c_char_p, c_size_t, c_uint8, c_uint32
from typing import NamedTuple, Optional


class Standing(ctypes.Structure):
    """Where a desk stands: states of the models, round, next row, three flags, and lowerings, the entries that differ from the round
    before, summed over the whole rounds since the case was opened."""

    _fields_ = [
        ("states1", c_uint8),
        ("states2", c_uint8),
        ("round", c_uint32),
        ("row", c_uint8),
        ("changed", c_bool),
        ("settled", c_bool),
        ("second_whole", c_bool),
        ("lowerings", c_uint32),
    ]


class _Answer(ctypes.Structure):
    _fields_ = [
        ("kind", c_uint8),
        ("number", c_uint8),
        ("part", c_uint8),
        ("byte", c_uint8),
        ("value", c_uint32),
        ("second", c_uint32),
        ("flag1", c_bool),
        ("flag2", c_bool),
    ]


class _Moved(ctypes.Structure):
    _fields_ = [("standing", Standing), ("answer", _Answer)]


class _Shown(ctypes.Structure):
    _fields_ = [("table", c_uint8), ("length", c_size_t)]


class _DeskSizes(ctypes.Structure):
    _fields_ = [
        ("number", c_uint8),
        ("part", c_uint8),
        ("elements", c_uint8),
        ("propositions", c_uint8),
        ("states1", c_uint8),
        ("states2", c_uint8),
        ("formulas", c_uint8),
    ]


class _WorkedEntry(ctypes.Structure):
    _fields_ = [("number", c_uint8), ("part", c_uint8), ("value", c_uint8), ("pairs", c_uint32)]


_BYTES = [c_char_p, c_size_t]
_DESK = [Standing] + 3 * _BYTES

# Each function's arguments and what it returns, as include/koelchair.h declares them.
_FUNCTIONS = {
    "open": ([Standing] + 4 * _BYTES, _Moved),
    "step": (_DESK, _Moved),
    "show": (_DESK, _Shown),
    "value": (_DESK + [c_uint8, c_uint8, c_uint8], _Answer),
    "whole": (_DESK + [c_uint8, c_uint8], _Answer),
    "score": (_DESK, _Answer),
    "share": (_DESK + [c_uint8], _Answer),
    "judge": (_DESK + _BYTES, _Answer),
    "write": (_DESK + _BYTES, _Answer),
    "sizes": (_DESK, _DeskSizes),
    "entry": (_DESK + [c_uint8, c_uint8], _WorkedEntry),
    "listing": (_BYTES + [c_char_p], c_size_t),
    "words": ([c_uint8], c_char_p),
}

# The structs above, by their names in the header.
_STRUCTS = {
    "standing": Standing,
    "answer": _Answer,
    "moved": _Moved,
    "shown": _Shown,
    "desk_sizes": _DeskSizes,
    "worked_entry": _WorkedEntry,
}

# Kinds of answers, and what step calls its own.
_REFUSED, _FORMULA_VALUE = 0, 9
_STEPS = {2: "row", 3: "round", 4: "settled"}


def _load(path):
    """The library, with its functions declared; an error where a struct here is not that of the header."""
    if not path.is_file():
        raise ImportError(f"there is no {path}: examples/python/build.sh makes a folder with it and this module")
    library = ctypes.CDLL(str(path))
    for name, (arguments, result) in _FUNCTIONS.items():
        function = getattr(library, "koelchair_" + name)
        function.argtypes, function.restype = arguments, result
    for name, struct in _STRUCTS.items():
        declared = c_size_t.in_dll(library, f"koelchair_{name}_bytes").value
        if ctypes.sizeof(struct) != declared:
            raise ImportError(f"koelchair_{name} has {declared} bytes in {path}, and {ctypes.sizeof(struct)} here")
    return library


def _size(name):
    return c_size_t.in_dll(_library, f"koelchair_{name}").value


_library = _load(pathlib.Path(__file__).resolve().parent / "libkoelchair.so")

VERSION = ctypes.string_at(ctypes.addressof(c_char.in_dll(_library, "koelchair_version"))).decode()
STORE_LENGTH, TABLE_LENGTH = _size("store_length"), _size("table_length")
LISTING_LENGTH, WRITTEN_MOST = _size("listing_length"), _size("written_most")


class Refused(Exception):
    """A call was refused: `number` says why, in words `words`; `part` is the part of the case that is at fault, or None."""

    def __init__(self, number, part):
        self.number = number
        self.part = None if part == 255 else part
        self.words = _library.koelchair_words(number).decode()
        where = "" if self.part is None else f" (part {part} of the case)"
        super().__init__(f"refused {number} {part}: {self.words}{where}")


class Step(NamedTuple):
    """What step answers: `kind` is "row", "round" or "settled"; `round` is the round that was ended, T where settled, else None;
    `lowerings` is the standing's count after the step. The rows of an unfinished round do not count."""

    kind: str
    round: Optional[int]
    lowerings: int


class FormulaFacts(NamedTuple):
    """A formula as it is written: the deepest nesting of AX, whether a fixpoint and whether EX occurs."""

    nesting: int
    fixpoint: bool
    ex: bool

    def covered_in(self, round, settled):
        """Whether the shown table covers the formula; its round, and whether it is settled, are those of the standing.

        Each entry is then at or below 'not the value at the state of model 2, joined with the value at the state of model 1', and
        the score at or below 'not the whole value on model 2, joined with the whole value on model 1'.
        """
        return not self.ex and (settled or (not self.fixpoint and self.nesting < round))

    def covered_from(self):
        """From when on a table covers the formula: a round, "settled", or None where no table does."""
        if self.ex:
            return None
        return "settled" if self.fixpoint else self.nesting + 1


class FormulaValue(NamedTuple):
    """What value and whole answer: the formula's element, and the facts that say which tables cover the formula."""

    element: int
    facts: FormulaFacts


class Sizes(NamedTuple):
    """What a desk holds: elements of the lattice, propositions, states of models 1 and 2, formulas."""

    elements: int
    propositions: int
    states1: int
    states2: int
    formulas: int


class WorkedEntry(NamedTuple):
    """An entry of the next round, and how many pairs of states working it one pair after another looks at."""

    value: int
    pairs: int


def _accepted(answer):
    """The value of an answer, with the formula's facts where it has them; raises Refused."""
    if answer.kind == _REFUSED:
        raise Refused(answer.number, answer.part)
    if answer.kind == _FORMULA_VALUE:
        return FormulaValue(answer.value, FormulaFacts(answer.byte, answer.flag1, answer.flag2))
    return answer.value


def _told(told):
    """What sizes and entry tell; raises Refused."""
    if told.number != 0:
        raise Refused(told.number, told.part)
    return told


def _byte(number):
    """A number for an argument of one byte, into which ctypes would fit any number by leaving bits out."""
    if not 0 <= number <= 255:
        raise ValueError(f"{number} is no number from 0 to 255")
    return number


class Desk:
    """A desk with an accepted case. Use it in one thread at a time."""

    def __init__(self, case):
        """Takes a case; refused with 1 to 10."""
        self._standing = Standing()
        self._store = ctypes.create_string_buffer(STORE_LENGTH)
        self._first = ctypes.create_string_buffer(TABLE_LENGTH)
        self._second = ctypes.create_string_buffer(TABLE_LENGTH)
        self.open(case)

    def _lent(self):
        """The store and the tables with their lengths, as every call takes them."""
        return [self._store, STORE_LENGTH, self._first, TABLE_LENGTH, self._second, TABLE_LENGTH]

    def _asked(self, function, *arguments):
        return _accepted(function(self._standing, *self._lent(), *arguments))

    def open(self, case):
        """Takes another case, which replaces the former one; refused with 1 to 10, and then the desk stays as it was."""
        case = bytes(case)
        moved = _library.koelchair_open(self._standing, case, len(case), *self._lent())
        _accepted(moved.answer)
        self._standing = moved.standing

    def step(self):
        """Works the next row of the next round. A settled desk answers so again and is left unchanged."""
        moved = _library.koelchair_step(self._standing, *self._lent())
        value = _accepted(moved.answer)
        self._standing = moved.standing
        kind = _STEPS[moved.answer.kind]
        return Step(kind, None if kind == "row" else value, moved.answer.second)

    def settle(self):
        """Steps until the desk is settled; gives T, the first round that equals the one before."""
        while True:
            step = self.step()
            if step.kind == "settled":
                return step.round

    @property
    def standing(self):
        """Where the desk stands, as a copy."""
        return Standing.from_buffer_copy(self._standing)

    def show(self):
        """The shown table as bytes: the entry of states q1 and q2 is byte q1 · N2 + q2."""
        shown = _library.koelchair_show(self._standing, *self._lent())
        table = self._second if shown.table == 2 else self._first
        return table[: shown.length]

    def rows(self):
        """The shown table: a list for each state of model 1, in it an element for each state of model 2."""
        table, columns = self.show(), self._standing.states2
        return [list(table[i : i + columns]) for i in range(0, len(table), columns)]

    def value(self, formula, model, state):
        """A formula's element at a state of model 1 or 2, and its facts, as a FormulaValue; refused with 13."""
        return self._asked(_library.koelchair_value, _byte(formula), _byte(model), _byte(state))

    def whole(self, formula, model):
        """A formula's element on the whole of model 1 or 2, and its facts, as a FormulaValue; refused with 13."""
        return self._asked(_library.koelchair_whole, _byte(formula), _byte(model))

    def score(self):
        """The score of the shown table, an element."""
        return self._asked(_library.koelchair_score)

    def share(self, element):
        """The per cent of shown entries at or above an element, rounded to whole per cent, an exact half to the even neighbour;
        refused with 13."""
        return self._asked(_library.koelchair_share, _byte(element))

    def judge(self, table):
        """Whether a table of N1 · N2 elements, as bytes, is sound: each entry is at or below that of F of the table, in the lattice's
        order. Such a table lies at or below the greatest simulation, and need not be a simulation itself; refused with 13."""
        table = bytes(table)
        return self._asked(_library.koelchair_judge, table, len(table)) == 1

    def write(self):
        """The desk's case as bytes: its directory, then its parts without gaps, the lattice in the form in which it was opened. Neither
        rounds nor entries nor gaps can be seen in them; a desk of these bytes begins at round 0."""
        out = ctypes.create_string_buffer(WRITTEN_MOST)
        length = self._asked(_library.koelchair_write, out, WRITTEN_MOST)
        return out[:length]

    def sizes(self):
        """What the desk holds."""
        held = _told(_library.koelchair_sizes(self._standing, *self._lent()))
        return Sizes(held.elements, held.propositions, held.states1, held.states2, held.formulas)

    def entry(self, q1, q2):
        """The entry of states q1 and q2 in the next round, and how many pairs of states working it one pair after another looks at, as
        a WorkedEntry; refused with 13."""
        worked = _told(_library.koelchair_entry(self._standing, *self._lent(), _byte(q1), _byte(q2)))
        return WorkedEntry(worked.value, worked.pairs)


def listing(case):
    """What the program `report` prints for a case: T, the table, score and formulas, or the line with the refusal."""
    case = bytes(case)
    text = ctypes.create_string_buffer(LISTING_LENGTH)
    length = _library.koelchair_listing(case, len(case), text)
    return text[:length].decode()
