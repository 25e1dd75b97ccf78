"""The cases of tests/cases, from the words that tests/README.md explains. A line that is wrong ends the reading, and is
told with its place."""

import dataclasses
import functools
import pathlib
import re
import sys

ROOT = pathlib.Path(__file__).resolve().parents[2]
sys.path.insert(0, str(ROOT / "tests" / "oracle"))
import oracle  # noqa: E402
import words  # noqa: E402
from words import Wrong, need, number, told, unescaped  # noqa: E402

CELL = (-2 ** 63, 2 ** 63 - 1)
ROOMS = ("text", "marks", "rows", "cells", "points", "output", "index", "answer", "seed")
LINE = re.compile(r"(?:(?P<first>[0-9]+)(?:-(?P<last>[0-9]+))? |\+(?P<before>[0-9]+) )?(?P<times>[0-9]+ times )?"
                  r"\|(?: (?P<content>.*))?")
LEFT_OUT = re.compile(r"([0-9]+)(?:-([0-9]+))? -")
# what of the buffers each call leaves, and what else a case of it may say
PARTS = {"check": (), "unfold": ("text",), "read": ("text", "marks", "rows", "points"), "write": ("output",),
         "list": ("rows", "points")}
GIVEN = {"check": (), "unfold": ("line", "rooms"), "read": ("line", "rooms"),
         "write": ("line", "rooms", "width", "counts", "change"), "list": ("line",)}
ONCE = ("answer", "as", "rooms", "width", "counts", "marks", "text", "output")
CALL = re.compile(r"(?:(?P<check>check)|(?P<call>unfold|read|write|list)(?: (?P<file>.+?))? against)"
                  r"(?: (?P<model>.+))?")
CHANGE = re.compile(r"(text|marks|rows|cells|points) ([0-9]+) is (.+)")
BLOCKS = ("case", "values", "cells", "model", "file", "rooms")
BEHIND_MODEL = ("rooms", "answer")
UNENDED = re.compile(r"(?:[^\\]|\\.)*\\c")
RANGE = re.compile(r"\\x([0-9a-f]{2})\.\.\\x([0-9a-f]{2})")


@dataclasses.dataclass
class Expected:
    """What is expected by hand; None where nothing is said."""
    answer: tuple = None
    text: bytes = None
    marks: list = None
    rows: list = None
    points: list = None
    output: bytes = None


@dataclasses.dataclass
class Case:
    """A case: where it stands, its words, what it derives from, the call with all it is given, and what is expected."""
    block: str
    place: tuple
    name: str
    source: str
    sentences: list
    call: str = None
    model: bytes = b""
    file: bytes = b""
    rooms: dict = None
    width: int = 80
    table: oracle.Lent = None
    is_whole: bool = True
    expected: Expected = dataclasses.field(default_factory=Expected)


@dataclasses.dataclass
class File:
    """The lines of a usual file, and before which of them a case's own lines go."""
    lines: list
    gap: int = None


class Known:
    """The models, files and rooms that blocks have said, and by which model a table is read where a model is bad."""

    def __init__(self):
        self.models, self.readers, self.files, self.rooms = {}, {}, {}, {}

    def of(self, what, name):
        need(name in getattr(self, what), "there is no %s %s" % (what[:-1], name))
        return getattr(self, what)[name]


def content_lines(line):
    """The lines that a line behind | says, each with its end."""
    content = line["content"] or ""
    lines = words.repeated(line["times"] + content) if line["times"] else [content]
    return [unescaped(one[:-2]) if UNENDED.fullmatch(one) else unescaped(one) + b"\n" for one in lines]


def rooms_said(line, usual):
    """The rooms that `rooms text 168 rows 1` says."""
    said = line.split()[1:]
    need(len(said) % 2 == 0, "a room is its name and a number")
    rooms = dict(usual)
    for name, value in zip(said[::2], said[1::2]):
        need(name in ROOMS, "there is no room %s" % name)
        rooms[name] = number(value)
    return rooms


def answer_of(words_, call):
    """The four numbers of an answer."""
    answer = tuple(number(word) for word in words_)
    need(len(answer) == 4, "an answer is four numbers")
    need(answer[0] <= 21, "there is no refusal %d" % answer[0])
    need(answer[3] == 0 or (answer[0] == 0 and call in ("read", "list")), "the last number is 0")
    need(answer[2] == 0 or call in ("read", "list"), "the third number is 0")
    return answer


def said_sentences(rest):
    """The readings and sentences that `from` says."""
    return [part.strip() for part in re.findall(r'"[^"]*"|[^;"]+', rest) if part.strip(" ;")]


class Lines:
    """The lines of a file with their changes, or lines of their own."""

    def __init__(self, base=None):
        self.base, self.own, self.edits = base, [], []

    def line(self, line):
        content = content_lines(line)
        if line["before"]:
            self.edits.append((int(line["before"]), int(line["before"]), content))
        elif line["first"]:
            self.edits.append((int(line["first"]), int(line["last"] or line["first"]) + 1, content))
        else:
            (self.edits[-1][2] if self.edits else self.own).extend(content)

    def left_out(self, first, last):
        self.edits.append((int(first), int(last or first) + 1, []))

    def content(self):
        """The bytes that the lines make."""
        lines = self.base.lines if self.base else []
        edits = list(self.edits)
        if self.own:
            need(not self.base or self.base.gap is not None, "the file has no ... for lines without a number")
            at = self.base.gap + 1 if self.base else 1
            edits.append((at, at, self.own))
        out, at = [], 0
        for first, behind, new in sorted(edits, key=lambda edit: edit[:2]):
            need(first <= behind <= len(lines) + 1, "the file has %d lines" % len(lines))
            need(at < first, "line %d is changed twice" % first)
            out += lines[at:first - 1] + new
            at = behind - 1
        return b"".join(out + lines[at:])


class Body:
    """What the lines of a case have said so far."""

    def __init__(self, case, known, cases):
        self.case, self.known, self.cases = case, known, cases
        self.reader, self.counts, self.changes, self.said = None, None, [], set()
        self.model_words, self.in_model = None, False
        self.parts = {"file": Lines()}
        self.lines = self.parts["file"]

    def line(self, at, line):
        word = line.split(" ")[0]
        self.in_model = self.in_model and not (word in BEHIND_MODEL or LINE.fullmatch(line) or LEFT_OUT.fullmatch(line))
        if self.in_model:
            self.model_words.append((at, line))
        elif CALL.fullmatch(line):
            self.call(CALL.fullmatch(line))
        elif CHANGE.fullmatch(line):
            self.may_say("change")
            self.changes.append(CHANGE.fullmatch(line).groups())
        elif LINE.fullmatch(line) or LEFT_OUT.fullmatch(line):
            self.file_line(line)
        else:
            method = getattr(self, "word_" + word, None)
            need(method, "the word is unknown: %s" % word)
            self.may_say(word)
            method(line[len(word) + 1:])

    def may_say(self, word):
        """Whether a case of this call may say this, and has not yet."""
        part = {"row": "rows", "point": "points"}.get(word, word)
        if word == "from":
            return
        need(self.case.call, "the call comes first")
        need(part in ("answer", "as") + PARTS[self.case.call] + GIVEN[self.case.call],
             "a case of %s does not say %s" % (self.case.call, word))
        need(word not in ONCE or word not in self.said, "%s is said twice" % word)
        self.said.add(word)

    def file_line(self, line):
        """A line of the file, or of the text or output that is expected."""
        if self.lines is self.parts["file"]:
            self.may_say("line")
        if LINE.fullmatch(line):
            self.lines.line(LINE.fullmatch(line))
        else:
            self.lines.left_out(*LEFT_OUT.fullmatch(line).groups())

    def call(self, said):
        need(not self.case.call, "there is a call already")
        self.case.call = said["check"] or said["call"]
        if said["model"]:
            self.case.model = self.known.of("models", said["model"])
            self.reader = self.known.readers[said["model"]]
        else:
            self.model_words, self.in_model = [], True
        if said["file"]:
            self.parts["file"].base = self.known.of("files", said["file"])

    def word_from(self, rest):
        self.case.sentences += said_sentences(rest)

    def word_rooms(self, rest):
        self.case.rooms = rooms_said("rooms " + rest, self.known.rooms)

    def word_width(self, rest):
        self.case.width = number(rest)

    def word_counts(self, rest):
        self.counts = [number(word) for word in rest.split()]
        need(len(self.counts) == 3, "three counts are due")

    def word_answer(self, rest):
        need("as" not in self.said, "answer and as are said")
        self.case.is_whole = not rest.endswith(" alone")
        self.case.expected.answer = answer_of(rest.removesuffix(" alone").split(), self.case.call)

    def word_as(self, rest):
        need("answer" not in self.said, "answer and as are said")
        like = [case for case in self.cases if case.name == rest]
        need(like, "no case before this one is named %s" % rest)
        self.case.expected = dataclasses.replace(like[0].expected)

    def word_marks(self, rest):
        self.case.expected.marks = [number(word, 0, 255) for word in rest.split()]

    def cells_of(self, which, rest):
        said = getattr(self.case.expected, which) or []
        setattr(self.case.expected, which, said + [[number(word, *CELL) for word in rest.split()]])

    def word_row(self, rest):
        self.cells_of("rows", rest)

    def word_point(self, rest):
        self.cells_of("points", rest)

    def content_of(self, part, rest):
        """Lines that follow, or a file's lines, which those that follow change."""
        need(not rest or rest.startswith("of "), "lines, or those of a file, are due")
        self.lines = self.parts[part] = Lines(self.known.of("files", rest[3:]) if rest else None)

    def word_text(self, rest):
        self.content_of("text", rest)

    def word_output(self, rest):
        self.content_of("output", rest)

    def finish(self):
        need(self.case.call, "there is no call")
        need(self.case.expected.answer, "there is no answer")
        if self.model_words is not None:
            need(self.model_words, "there is no model")
            self.case.model = self.reader = words.model(self.model_words, self.known.models)
        self.case.file = self.parts.pop("file").content()
        for part, lines in self.parts.items():
            setattr(self.case.expected, part, lines.content())
        self.case.rooms = self.case.rooms or dict(self.known.rooms)
        if self.case.call == "write":
            self.case.table = lent_table(self.case, self.reader, self.changes, self.counts)
        complete(self.case)


def lent_table(case, reader, changes, counts):
    """The table that reading the file gives, with its changes, as much of it as is lent."""
    rooms = case.rooms
    large = oracle.Rooms(max(len(case.file), rooms["text"]), max(576, rooms["marks"]), max(2000, rooms["rows"]),
                         max(20000, rooms["cells"]), max(20000, rooms["points"]))
    result = oracle.read(reader, case.file, large)
    need(result.answer[0] == 0, "the independent implementation refuses the file: %d %d %d %d" % result.answer)
    for which, at, said in changes:
        bounds = {"marks": (0, 255), "rows": (0, 2 ** 64 - 1)}.get(which, CELL)
        values = list(unescaped(said)) if which == "text" else [number(word, *bounds) for word in said.split()]
        need(int(at) + len(values) <= rooms[which], "this place is not lent")
        getattr(result, which)[int(at):int(at) + len(values)] = values
    lent = [list(getattr(result, which))[:rooms[which]] for which in ("text", "marks", "rows", "cells", "points")]
    return oracle.Lent(*lent, *(counts or result.answer[1:]))


def complete(case):
    """What goes without saying, and what must agree in what is said."""
    e = case.expected
    if e.answer[0]:
        need(not any((e.text, e.marks, e.rows, e.points, e.output)), "after a refusal all buffers are zero")
        return
    if case.call in ("read", "unfold") and e.text is None:
        if b"\r" not in case.file and case.model[6:7] + b"\n" not in case.file:
            e.text = case.file
    if case.call in ("read", "list"):
        e.rows = [] if e.answer[1] == 0 and e.rows is None else e.rows
        e.points = [] if e.answer[3] == 0 and e.points is None else e.points
        rows, cells, points = (len(e.rows or []), sum(map(len, e.rows or [])), len(e.points or []))
        need(e.rows is None or (rows, cells) == e.answer[1:3],
             "%d rows of %d cells are said, and the answer counts %d of %d" % (rows, cells, *e.answer[1:3]))
        need(all(len(point) == 4 for point in e.points or []), "a point is four cells")
        need(e.points is None or points == e.answer[3],
             "%d points are said, and the answer counts %d" % (points, e.answer[3]))
    said = {"unfold": e.text, "write": e.output}.get(case.call)
    need(said is None or len(said) == e.answer[1],
         "%d bytes are said, and the answer counts %d" % (len(said or b""), e.answer[1]))
    missing = [part for part in PARTS[case.call] if getattr(e, part) is None]
    need(not missing or not case.is_whole, "no %s; or is the answer expected `alone`?" % " and no ".join(missing))
    need(missing or case.is_whole, "the answer is not `alone`")


def blocks(path):
    """Each block of a file: the number of its first line, that line, and the others with their numbers."""
    block = None
    for at, line in enumerate(path.read_text(encoding="latin-1").split("\n"), 1):
        if line.strip() == "" or line.lstrip().startswith("#"):
            continue
        if line != line.rstrip() or "\t" in line or not line.isascii():
            raise SystemExit("%s, line %d: a blank at a line's end, a tab or a byte above 7E; in bytes these are "
                             "\\s, \\t and \\xHH" % (place(path), at))
        if not line.startswith(" "):
            if block:
                yield block
            block = (at, line, [])
        elif block:
            block[2].append((at, line.strip()))
        else:
            raise SystemExit("%s, line %d: a block begins at the margin" % (place(path), at))
    if block:
        yield block


def place(path):
    return str(path.relative_to(ROOT) if path.is_relative_to(ROOT) else path)


def said_case(path, block, known, cases):
    """A case from its block."""
    at, head, lines = block
    name = head.split(" ", 1)[1]
    need(all(case.name != name for case in cases), "another case has this name")
    source = "\n".join(["  " + head] + ["    " + line for _, line in lines])
    body = Body(Case("case", (place(path), at), name, source, []), known, cases)
    for at, line in lines:
        with told(at):
            body.line(at, line)
    body.finish()
    return body.case


def value_lines(lines):
    """Each line of a block of values with its number, a range as one for each of its bytes."""
    for at, line in lines:
        span = RANGE.match(line)
        if span:
            with told(at):
                need(span[1] < span[2], "a range goes up")
            for byte in range(int(span[1], 16), int(span[2], 16) + 1):
                yield at, "\\x%02x%s" % (byte, line[span.end():])
        else:
            yield at, line


def read_value(case, said, known):
    """A case that reads a field: `-5.00 is 1 -500`, `-5.01 refused 14`, `\\x00 answer 4 7 0 0`."""
    field, how, *numbers = said
    need(how in ("is", "refused", "answer"), "a field is, is refused, or has an answer")
    case.call, case.expected = "read", Expected()
    case.file = with_object(known, unescaped(field))
    if how == "is":
        case.expected = Expected((0, 1, 5, 0), marks=[1, 1], rows=[[0, 43, 1] + [number(n, *CELL) for n in numbers]])
    else:
        case.expected = Expected(answer_of(numbers if how == "answer" else numbers + ["7", "3", "0"], "read"))


def write_value(case, said, known):
    """A case that writes a pair of cells: `1 -500 as -5.00`, `1 1000 refused 19`."""
    first, second, how, what = said
    need(how in ("as", "refused"), "cells are written as a field, or refused")
    case.call = "write"
    cells = [0, 0, 1, number(first, *CELL), number(second, *CELL)]
    case.table = oracle.Lent(list(b"a"), [1, 1], [0], cells, [], 1, 5, 0)
    output = with_object(known, unescaped(what))
    refused = Expected(answer_of([what, "0", "0", "0"], "write")) if how == "refused" else None
    case.expected = refused or Expected((0, len(output), 0, 0), output=output)


def with_object(known, field):
    """The file `table` with an object of this one field."""
    file = known.of("files", "table")
    return b"".join(file.lines[:file.gap] + [b"OBJE a " + field + b"\n"] + file.lines[file.gap:])


def said_values(path, block, known, cases):
    """Adds the cases of a block of values or cells."""
    first, head, lines = block
    word, kind = head.split(" ", 1)
    need(kind.split()[0] not in ("coordinate", "line"), "values are of types with one field")
    model = words.model([(first, "topic N; table A; V " + kind)], known.models)
    sentences = []
    for at, line in value_lines(lines):
        if line.startswith("from "):
            sentences = sentences + said_sentences(line[5:])
            continue
        name = "%s: %s" % (kind, " ".join(line.split()))
        case = Case(word, (place(path), at), name, "  %s\n    %s" % (head, line), sentences, model=model,
                    rooms=dict(known.rooms))
        with told(at):
            need(all(name != other.name for other in cases), "the value is there already")
            (read_value if word == "values" else write_value)(case, line.split(), known)
            complete(case)
        cases.append(case)


def said_file(lines):
    """A usual file from its lines."""
    file = File([])
    for at, line in lines:
        if line == "...":
            with told(at):
                need(file.gap is None, "a file has one ...")
            file.gap = len(file.lines)
        else:
            said = LINE.fullmatch(line)
            with told(at):
                need(said and not (said["first"] or said["before"]), "a line of a file stands behind |")
                file.lines += content_lines(said)
    return file


def reader_of(known, name, lines):
    """The model by which tables of this one are read: itself, or where it is bad the one that it is like."""
    like = [line[5:] for line in lines if line.startswith("like ")]
    return known.readers[like[0]] if like and oracle.check(known.models[name])[0] else known.models[name]


def said_block(path, block, known, cases):
    """Takes up a block: what it makes known, or its cases."""
    _, head, lines = block
    word, _, name = head.partition(" ")
    need(word in BLOCKS and name, "a block is one of %s, with a name or more behind it" % ", ".join(BLOCKS))
    if word == "rooms":
        need(not lines, "rooms have one line")
        known.rooms = rooms_said(head, known.rooms)
    elif word == "model":
        need(name not in known.models, "the model is there already")
        known.models[name] = words.model(lines, known.models)
        known.readers[name] = reader_of(known, name, [line for _, line in lines])
    elif word == "file":
        need(name not in known.files, "the file is there already")
        known.files[name] = said_file(lines)
    elif word == "case":
        cases.append(said_case(path, block, known, cases))
    else:
        said_values(path, block, known, cases)


def usual():
    """What usual.cases makes known to all."""
    known = Known()
    for block in blocks(ROOT / "tests" / "cases" / "usual.cases"):
        take(ROOT / "tests" / "cases" / "usual.cases", block, known, [])
    return known


def take(path, block, known, cases):
    try:
        with told(block[0]):
            said_block(path, block, known, cases)
    except Wrong as wrong:
        raise SystemExit("%s, line %d: %s" % (place(path), wrong.at, wrong)) from None


def cases_of(path):
    """The cases of a file."""
    known, cases = usual(), []
    for block in blocks(path):
        take(path, block, known, cases)
    return cases


def question(case):
    """All that a case asks, to tell it from others."""
    table = case.table and (*(tuple(getattr(case.table, which)) for which in ROOMS[:5]), case.table.objects,
                            case.table.cells_used, case.table.points_used)
    rooms = () if case.call in ("check", "list") else tuple(sorted(case.rooms.items()))
    return case.call, case.model, case.file if case.call != "write" else b"", rooms, case.width, table


@functools.cache
def all_cases():
    """The cases of all files, none of which asks what another does."""
    files, cases = sorted((ROOT / "tests" / "cases").glob("*.cases")), {}
    for path in files:
        for case in cases_of(path) if path.name != "usual.cases" else []:
            other = cases.setdefault(question(case), case)
            if other is not case:
                raise SystemExit("%s, line %d: %s asks what %s in %s, line %d asks" % (
                    *case.place, case.name, other.name, *other.place))
    return list(cases.values())


def rooms_of(case):
    """The rooms of a case that is read."""
    return oracle.Rooms(*(case.rooms[which] for which in ROOMS[:5]))


def read_cases(cases):
    """(name, model, file, rooms) of the cases that are read, or listed, but single values."""
    for case in cases:
        if case.call == "read" and case.block == "case":
            yield case.name, case.model, case.file, rooms_of(case)
        elif case.call == "list" and len(case.model + case.file) <= oracle.LISTING_LIMIT:
            yield (case.name,) + oracle.split_input(case.model + case.file) + (oracle.LISTING_ROOMS,)


if __name__ == "__main__":
    for case in all_cases():
        print("%s, line %d: %s" % (*case.place, case.name))
