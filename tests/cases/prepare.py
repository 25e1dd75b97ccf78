"""prepare.py OUT: writes every case of tests/cases, and those that the independent implementation makes, in the form
that tests/c/cases.c reads. Its status is 1 where the independent implementation does not read what it writes as the
table that it was given.

All numbers are little-endian. How many cases are those of tests/cases (u32) comes first. A case is its call (u32: 0
check, 1 unfold, 2 read, 3 write); the lengths (u32) of its text as it stands in its file, of the model and of the
transfer file, and their bytes; what is lent; what is expected by hand, and what the independent implementation answers.

Lent is, for unfolding, the text room (u32); for reading the rooms text, marks, rows, cells, points, index and answer
(u32 each) and the seed (u64); for writing text, marks, rows, cells and points, each as a part, then the counts of
objects, cells and points and the width (u64 each), the rooms output, index and answer (u32 each) and the seed (u64).

Expected and answered are the parts of the call: the one number that C gets, and behind it for unfolding text; for
reading text, marks, rows, cells, points, answer; for writing output, answer.

A part is the count of its numbers (u32) and these, a byte each in text, marks and output and else eight. In what is
expected and answered, zeros behind a part's numbers go without saying, and 2^32 - 1 as the count says that nothing is
expected by hand."""

import array
import struct
import sys

import language
from language import oracle
import generated  # noqa: E402
import reads  # noqa: E402
import writes  # noqa: E402

CALLS = {"check": 0, "unfold": 1, "read": 2, "write": 3}
NOTHING = struct.pack("<I", 2 ** 32 - 1)
TABLE = (("text", "B"), ("marks", "B"), ("rows", "Q"), ("cells", "q"), ("points", "q"))
GENERATED = "made by tests/oracle: "


def packed(values, code):
    """Numbers as bytes."""
    if code == "B":
        return bytes(values)
    numbers = array.array(code, values)
    if sys.byteorder == "big":
        numbers.byteswap()
    return numbers.tobytes()


def part(values, code):
    """A part with all its numbers."""
    return struct.pack("<I", len(values)) + packed(values, code)


def used_part(values, code):
    """A part without the zeros at its end; nothing where nothing is expected."""
    if values is None:
        return NOTHING
    content, size = packed(values, code), 1 if code == "B" else 8
    used = -(-len(content.rstrip(b"\0")) // size)
    return struct.pack("<I", used) + content[:used * size]


def code_part(answer):
    """The one number that C gets."""
    return part([answer[0] + 256 * answer[1]], "Q")


def answer_part(answer, room):
    return used_part((list(answer) + [0] * room)[:room], "Q")


def lent_to_read(rooms, index, answer_room, seed):
    return struct.pack("<IIIIIIIQ", rooms.text, rooms.marks, rooms.rows, rooms.cells, rooms.points, index, answer_room,
                       seed)


def lent_to_write(t, width, room, index, answer_room, seed):
    return (b"".join(part(getattr(t, which), code) for which, code in TABLE)
            + struct.pack("<QQQQIIIQ", t.objects, t.cells_used, t.points_used, width, room, index, answer_room, seed))


def read_parts(result, answer_room):
    """What reading leaves: of the independent implementation, or as expected by hand."""
    return (code_part(result.answer) + b"".join(used_part(getattr(result, which), code) for which, code in TABLE)
            + answer_part(result.answer, answer_room))


def expected_table(expected):
    """What is expected by hand of reading, buffer by buffer."""
    e = expected
    if e.answer[0]:
        return oracle.Result(e.answer, [], [], [], [], [])
    rows = cells = None
    if e.rows is not None:
        cells = [cell for row in e.rows for cell in row]
        rows = [sum(map(len, e.rows[:n])) for n in range(len(e.rows))]
    points = None if e.points is None else [cell for point in e.points for cell in point]
    return oracle.Result(e.answer, e.text, e.marks, rows, cells, points)


def unexpected(count):
    """So many parts of which nothing is expected."""
    return NOTHING * count


class Prepared:
    """The cases as they are written, and what was wrong with them."""

    def __init__(self, out):
        self.out, self.count, self.wrong = out, 0, []
        self.asked = self.result = None

    def put(self, call, text, model, file, lent, expected, answered):
        text = text.encode("latin-1", "replace")
        self.out.write(struct.pack("<IIII", CALLS[call], len(text), len(model), len(file)) + text + bytes(model)
                       + bytes(file) + lent + expected + answered)
        self.count += 1

    def check(self, text, model, answer=None):
        expected = code_part(answer) if answer else unexpected(1)
        self.put("check", text, model, b"", b"", expected, code_part(oracle.check(model)))

    def unfold(self, text, model, file, room, expected=None):
        answer, content = oracle.unfold(model, file, room)
        by_hand = unexpected(2) if expected is None else (
            code_part(expected.answer) + used_part(b"" if expected.answer[0] else expected.text, "B"))
        self.put("unfold", text, model, file, struct.pack("<I", room), by_hand,
                 code_part(answer) + used_part(content, "B"))

    def read(self, text, model, file, rooms, index, seed, answer_room, expected=None):
        by_hand = unexpected(7) if expected is None else read_parts(expected_table(expected), answer_room)
        asked = model, file, vars(rooms)
        if asked != self.asked:                   # the independent implementation has no index and no seed
            self.asked, self.result = asked, oracle.read(model, file, rooms)
        self.put("read", text, model, file, lent_to_read(rooms, index, answer_room, seed), by_hand,
                 read_parts(self.result, answer_room))

    def write(self, text, model, t, width, room, index, seed, answer_room, expected=None):
        answer, output = oracle.write(model, t, width, room)
        if answer[0] == 0 and not writes.is_read_again(model, bytes(output[:answer[1]]), t, width):
            self.wrong.append(text)
        by_hand = unexpected(3)
        if expected is not None:
            said = b"" if expected.answer[0] else expected.output
            by_hand = code_part(expected.answer) + used_part(said, "B") + answer_part(expected.answer, answer_room)
        self.put("write", text, model, b"", lent_to_write(t, width, room, index, answer_room, seed), by_hand,
                 code_part(answer) + used_part(output, "B") + answer_part(answer, answer_room))


def put_case(prepared, case):
    """A case of tests/cases; those of the listing program are tried by tests/listing/run."""
    text = "%s, line %d:\n%s" % (*case.place, case.source)
    rooms, expected = case.rooms, case.expected
    last = (rooms["index"], rooms["seed"], rooms["answer"], expected)
    {"check": lambda: prepared.check(text, case.model, expected.answer),
     "unfold": lambda: prepared.unfold(text, case.model, case.file, rooms["text"], expected),
     "read": lambda: prepared.read(text, case.model, case.file, language.rooms_of(case), *last),
     "write": lambda: prepared.write(text, case.model, case.table, case.width, rooms["output"], *last),
     "list": lambda: None}[case.call]()


def put_generated(prepared, cases):
    """The cases that the independent implementation makes, also from those of tests/cases but single values."""
    for name, call, arguments in generated.generated():
        if call in ("check", "unfold"):
            getattr(prepared, call)(GENERATED + name, *arguments)
    read = list(language.read_cases(cases))
    written = [(case.name, case.model, case.table, case.width, case.rooms["output"]) for case in cases
               if case.call == "write" and case.block == "case"]
    for name, *arguments in reads.all_cases(read):
        prepared.read(GENERATED + name, *arguments)
    for name, *arguments in writes.all_cases(written, read):
        prepared.write(GENERATED + name, *arguments)


def main(words):
    if len(words) != 1:
        raise SystemExit(__doc__)
    cases = language.all_cases()
    by_hand = sum(case.call != "list" for case in cases)
    with open(words[0], "wb") as out:
        out.write(struct.pack("<I", by_hand))
        prepared = Prepared(out)
        for case in cases:
            put_case(prepared, case)
        try:
            put_generated(prepared, cases)
        except AssertionError:
            prepared.wrong.append("Not all cases could be made.")
    for text in prepared.wrong:
        print("%s\nThe independent implementation does not read what it writes, or makes, as what it was.\n" % text)
    print("prepared: %d cases of tests/cases, %d made by tests/oracle" % (by_hand, prepared.count - by_hand))
    return 1 if prepared.wrong else 0


if __name__ == "__main__":
    raise SystemExit(main(sys.argv[1:]))
