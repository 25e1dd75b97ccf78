"""Document 01 with request 1 of document 02 once more, in ordinary Python, to compare the definitions and the proved
code with.

Written from documents 01 and 02, our readings of them and document 000 alone, before the definitions were read.
Everything is done the plain way: no care is taken of speed, but that a model that was asked is kept. An answer is a
tuple of four numbers. Buffers come back as lists, as long as they were lent, zero behind their used part and all zero
after a refusal.
"""

import functools

MODEL_LIMIT = 65536
FILE_LIMIT = 16777216
BOUND = 10 ** 18

TRANSFER, MODEL, TOPIC, TABLE, ATTRIBUTE, END = 1, 2, 3, 4, 5, 6
REFERENCE, COORDINATE2, COORDINATE3, NUMBER, TEXT, DATE, ENUMERATION, LINE = 1, 2, 3, 4, 5, 6, 7, 8


class Refusal(Exception):
    """A refusal number and its two place numbers."""

    def __init__(self, number, place=0, field=0):
        Exception.__init__(self, number, place, field)
        self.answer = (number, place, field, 0)


# ---- The compiled model ---------------------------------------------------------------------------------------

class Component:
    def __init__(self, decimals, least, greatest):
        self.decimals, self.least, self.greatest = decimals, least, greatest


class Attribute:
    """One attribute; `at` is the byte of its record."""

    def __init__(self, at, optional, kind, name):
        self.at, self.optional, self.kind, self.name = at, optional, kind, name
        self.table = None        # reference: the table's number in the whole model
        self.longest = None      # text
        self.leaves = None       # enumeration
        self.forms = None        # line
        self.components = []     # coordinate, number, line

    def fields(self):
        """How many fields the attribute has on its object's line."""
        if self.kind == LINE:
            return 0
        if self.kind in (COORDINATE2, COORDINATE3):
            return len(self.components)
        return 1

    def pairs(self):
        """How many pairs of cells the attribute has in a row."""
        return len(self.components) if self.kind in (COORDINATE2, COORDINATE3) else 1


class Table:
    def __init__(self, optional, name, topic):
        self.optional, self.name, self.topic, self.attributes = optional, name, topic, []


class Model:
    def __init__(self):
        self.blank = self.undefined = self.mark = None
        self.transfer = self.name = None
        self.topics = []         # names
        self.tables = []         # of the whole model, in order

    def tables_of(self, topic):
        return [n for n, t in enumerate(self.tables) if t.topic == topic]


def u16(b, at):
    return b[at] + 256 * b[at + 1]


def i64(b, at):
    return int.from_bytes(bytes(b[at:at + 8]), "little", signed=True)


def is_letter(c):
    return 0x41 <= c <= 0x5A or 0x61 <= c <= 0x7A


def is_digit(c):
    return 0x30 <= c <= 0x39


def is_name(name, longest):
    """000, 2.2.1.1: a letter, then letters, digits and underlines."""
    return (1 <= len(name) <= longest and is_letter(name[0])
            and all(is_letter(c) or is_digit(c) or c == 0x5F for c in name))


def special_byte_ok(c):
    """A blank, undefined or continuation byte: 21 to 7E, no letter, digit, + - . or /."""
    return 0x21 <= c <= 0x7E and not is_letter(c) and not is_digit(c) and c not in b"+-./"


class Bad(Exception):
    def __init__(self, at):
        Exception.__init__(self, at)
        self.at = at


def need(condition, at):
    if not condition:
        raise Bad(at)


def read_components(payload, at, count, record):
    out = []
    for n in range(count):
        o = at + 17 * n
        need(o + 17 <= len(payload), record)
        decimals, least, greatest = payload[o], i64(payload, o + 1), i64(payload, o + 9)
        need(decimals <= 9, record)
        need(-BOUND < least < BOUND and -BOUND < greatest < BOUND and least <= greatest, record)
        out.append(Component(decimals, least, greatest))
    return out


def read_attribute(payload, record):
    need(len(payload) >= 2, record)
    optional, kind = payload[0], payload[1]
    need(optional in (0, 1), record)
    a = Attribute(record, optional == 1, kind, None)
    at = 2
    if kind in (REFERENCE, TEXT, ENUMERATION):
        need(len(payload) >= 4, record)
        number = u16(payload, 2)
        at = 4
        if kind == REFERENCE:
            a.table = number
        elif kind == TEXT:
            need(number >= 1, record)
            a.longest = number
        else:
            need(number >= 1, record)
            a.leaves = number
    elif kind in (COORDINATE2, COORDINATE3, NUMBER):
        count = {COORDINATE2: 2, COORDINATE3: 3, NUMBER: 1}[kind]
        a.components = read_components(payload, 2, count, record)
        at = 2 + 17 * count
    elif kind == DATE:
        pass
    elif kind == LINE:
        need(len(payload) >= 4, record)
        a.forms, count = payload[2], payload[3]
        need(a.forms in (1, 2, 3) and count in (2, 3), record)
        a.components = read_components(payload, 4, count, record)
        at = 4 + 17 * count
    else:
        raise Bad(record)
    a.name = bytes(payload[at:])
    need(is_name(a.name, 24), record)
    return a


def decode(model):
    """The model, or Bad with the first bad record's byte."""
    return decoded(bytes(model))


@functools.lru_cache(maxsize=256)
def decoded(model):
    need(len(model) <= MODEL_LIMIT, 0)
    m = Model()
    at = 0
    last = None                                   # the kind of the record before
    follows = {None: (TRANSFER,), TRANSFER: (MODEL,), MODEL: (TOPIC,), TOPIC: (TABLE,), TABLE: (ATTRIBUTE,),
               ATTRIBUTE: (ATTRIBUTE, TABLE, TOPIC, END)}
    while last != END:
        need(at < len(model), len(model))         # a missing record is at the model's end
        need(at + 4 <= len(model), at)            # overruns the model
        length, kind = u16(model, at), u16(model, at + 2)
        need(at + 4 + length <= len(model), at)
        need(kind in follows[last], at)
        payload = model[at + 4:at + 4 + length]
        if kind == TRANSFER:
            need(len(payload) >= 3, at)
            m.blank, m.undefined, m.mark = payload[0], payload[1], payload[2]
            need(all(special_byte_ok(c) for c in payload[:3]), at)
            need(len(set(payload[:3])) == 3, at)
            m.transfer = payload[3:]
            need(is_name(m.transfer, 63), at)
        elif kind == MODEL:
            m.name = payload
            need(is_name(m.name, 63), at)
        elif kind == TOPIC:
            need(is_name(payload, 24), at)
            need(payload not in m.topics, at)
            need(len(m.topics) < 64, at)
            m.topics.append(payload)
        elif kind == TABLE:
            need(len(payload) >= 1 and payload[0] in (0, 1), at)
            name, topic = payload[1:], len(m.topics) - 1
            need(is_name(name, 24), at)
            need(all(m.tables[n].name != name for n in m.tables_of(topic)), at)
            need(len(m.tables) < 512, at)
            m.tables.append(Table(payload[0] == 1, name, topic))
        elif kind == ATTRIBUTE:
            a = read_attribute(payload, at)
            table = m.tables[-1]
            need(all(b.name != a.name for b in table.attributes), at)
            need(len(table.attributes) < 64, at)
            table.attributes.append(a)
        else:
            need(length == 0, at)
        last = kind
        at += 4 + length
    need(at == len(model), at)                    # bytes behind the end record
    for t in m.tables:                            # references are judged last, in order
        for a in t.attributes:
            if a.kind == REFERENCE:
                need(a.table < len(m.tables) and m.tables[a.table].topic == t.topic, a.at)
    return m


def good_model(model):
    try:
        return decode(model)
    except Bad as bad:
        raise Refusal(2, bad.at)


def check(model):
    """The model check: 0, topics, 0, 0 or 2."""
    try:
        return (0, len(good_model(model).topics), 0, 0)
    except Refusal as r:
        return r.answer


# ---- Unfolding ------------------------------------------------------------------------------------------------

def is_permitted(c):
    return c == 0x09 or 0x20 <= c <= 0x7E or 0xA0 <= c


PERMITTED = bytes(c for c in range(256) if is_permitted(c))


def physical_lines(file):
    """Pairs of a line's bytes before its LF and whether it has one."""
    pieces = bytes(file).split(b"\n")
    lines = [(p, True) for p in pieces[:-1]]
    if pieces[-1]:
        lines.append((pieces[-1], False))
    return lines


def logical_lines(mark, file):
    """The logical lines, or refusal 3, 4 or 5."""
    done, rest, continued = [], b"", False
    physical = physical_lines(file)
    for n, (content, has_end) in enumerate(physical):
        number = len(done) + 1
        is_last = n + 1 == len(physical)
        if not has_end:
            raise Refusal(3, number)
        if content.endswith(b"\r"):
            content = content[:-1]
        marked = content.endswith(bytes([mark]))
        if is_last and marked:
            raise Refusal(3, number)
        if continued and not content.startswith(b"CONT "):
            raise Refusal(5, number)
        if content.translate(None, PERMITTED):    # what is left without the permitted bytes
            raise Refusal(4, number)
        part = content[5:] if continued else content
        if marked:
            rest += part[:-1]
        else:
            done.append(rest + part)
            rest = b""
        continued = marked
    return done


def text_of(lines):
    return b"".join(line + b"\n" for line in lines)


def filled(content, room):
    content = list(content)
    return content + [0] * (room - len(content))


def unfold(model, file, room):
    """The unfolding: its answer and the lent text."""
    try:
        if len(file) > FILE_LIMIT:
            raise Refusal(1)
        m = good_model(model)
        text = text_of(logical_lines(m.mark, file))
        if len(text) > room:
            raise Refusal(6)
    except Refusal as r:
        return r.answer, [0] * room
    return (0, len(text), 0, 0), filled(text, room)


# ---- Lines and fields -----------------------------------------------------------------------------------------

class Field:
    """A longest run without space or tab: its bytes and its start in the unfolded text."""

    def __init__(self, start, content):
        self.start, self.bytes = start, content


def fields_of(line, start):
    out, at = [], 0
    while at < len(line):
        if line[at] in b" \t":
            at += 1
            continue
        end = at
        while end < len(line) and line[end] not in b" \t":
            end += 1
        out.append(Field(start + at, line[at:end]))
        at = end
    return out


def is_value_byte(c):
    """The bytes of an identification, a reference and a text."""
    return 0x21 <= c <= 0x7E or (0xC0 <= c and c not in (0xD7, 0xF7))


class Wrong(Exception):
    """13 or 14 for a field's value."""

    def __init__(self, number):
        Exception.__init__(self, number)
        self.number = number


def all_digits(b):
    return len(b) > 0 and all(is_digit(c) for c in b)


def number_value(component, b):
    negative = b[:1] == b"-"
    digits = b[1:] if b[:1] in (b"+", b"-") else b
    d = component.decimals
    if d > 0:
        if len(digits) < d + 2 or digits[-d - 1:-d] != b".":
            raise Wrong(13)
        digits = digits[:-d - 1] + digits[-d:]
    if not all_digits(digits) or len(digits) > 18:
        raise Wrong(13)
    value = -int(digits) if negative else int(digits)
    if not component.least <= value <= component.greatest:
        raise Wrong(14)
    return value


def enumeration_value(leaves, b):
    if not all_digits(b) or len(b) > 18:
        raise Wrong(13)
    if int(b) >= leaves:
        raise Wrong(14)
    return int(b)


def days_of(year, month):
    """How many days the month has: the Gregorian rule for every year from 0 on; none where there is no such month."""
    if month == 2:
        leap = year % 4 == 0 and (year % 100 != 0 or year % 400 == 0)
        return 29 if leap else 28
    if month in (4, 6, 9, 11):
        return 30
    return 31 if 1 <= month <= 12 else 0


def date_value(b):
    if not all_digits(b) or len(b) != 8:
        raise Wrong(13)
    if not 1 <= int(b[6:8]) <= days_of(int(b[:4]), int(b[4:6])):
        raise Wrong(14)
    return int(b)


def check_shape(b):
    if not b or not all(is_value_byte(c) for c in b):
        raise Wrong(13)


class Rooms:
    """Lengths of the lent buffers: text bytes, marks, rows, cells, and the points' cells (four for a point)."""

    def __init__(self, text, marks, rows, cells, points):
        self.text, self.marks, self.rows, self.cells, self.points = text, marks, rows, cells, points


class Reading:
    """Reads logical lines under a model; raises Refusal."""

    def __init__(self, m, lines, rooms):
        self.m, self.rooms = m, rooms
        self.lines, self.at = [], 0
        start = 0
        for line in lines:
            self.lines.append((start, line))
            start += len(line) + 1
        self.marks = [0] * (len(m.topics) + len(m.tables))
        self.rows, self.cells, self.points = [], [], []
        self.identifications = {}                 # bytes -> object's number
        self.pending = []                         # references: object, field, table, bytes, cell

    # one line at a time

    def next_line(self):
        """The fields of the next line; 7 one past the last if there is none, 7 where it has no fields."""
        self.at += 1
        if self.at > len(self.lines):
            raise Refusal(7, self.at, 1)
        start, line = self.lines[self.at - 1]
        self.fields = fields_of(line, start)
        if not self.fields:
            raise Refusal(7, self.at, 1)
        return self.fields[0].bytes

    def refuse(self, number, field):
        raise Refusal(number, self.at, field)

    def field(self, n):
        """Field n, counted from 1; 11 where it is missing."""
        if n > len(self.fields):
            self.refuse(11, n)
        return self.fields[n - 1]

    def no_field_behind(self, n):
        if len(self.fields) > n:
            self.refuse(11, n + 1)

    # the order of lines, 000, 3.3

    def read(self):
        if self.next_line() != b"SCNT":
            self.refuse(7, 1)
        self.no_field_behind(1)
        self.read_description()
        code = self.next_line()
        if code == b"MOTR":
            self.refuse(8, 1)
        if code != b"MTID":
            self.refuse(7, 1)
        if self.field(2).bytes != self.m.transfer:
            self.refuse(9, 2)
        self.no_field_behind(2)
        if self.next_line() != b"MODL":
            self.refuse(7, 1)
        if self.field(2).bytes != self.m.name:
            self.refuse(9, 2)
        self.no_field_behind(2)
        self.read_topics()
        if self.next_line() != b"ENDE":
            self.refuse(7, 1)
        self.no_field_behind(1)
        if self.at < len(self.lines):
            raise Refusal(7, self.at + 1, 1)
        self.settle_references()

    def read_description(self):
        while True:
            self.at += 1
            if self.at > len(self.lines):
                raise Refusal(7, self.at, 1)
            start, line = self.lines[self.at - 1]
            if line.startswith(b"////"):
                self.fields = fields_of(line, start)
                if self.fields[0].bytes != b"////":
                    self.refuse(7, 1)
                self.no_field_behind(1)
                return

    def read_topics(self):
        last = -1
        while True:
            code = self.next_line()
            if code == b"EMOD":
                self.no_field_behind(1)
                return
            if code != b"TOPI":
                self.refuse(7, 1)
            name = self.field(2).bytes[:24]
            found = [n for n, t in enumerate(self.m.topics) if t == name]
            if not found or found[0] <= last:
                self.refuse(9, 2)
            self.no_field_behind(2)
            last = found[0]
            self.marks[last] = 1
            self.read_topic(last)

    def read_topic(self, topic):
        due = self.m.tables_of(topic)             # tables that may still come, in order
        while True:
            code = self.next_line()
            if code == b"ETOP":
                if any(not self.m.tables[n].optional for n in due):
                    self.refuse(10, 1)
                self.no_field_behind(1)
                return
            if code != b"TABL":
                self.refuse(7, 1)
            name = self.field(2).bytes[:24]
            found = [n for n in due if self.m.tables[n].name == name]
            if not found:
                self.refuse(9, 2)
            if any(not self.m.tables[n].optional for n in due if n < found[0]):
                self.refuse(10, 2)
            self.no_field_behind(2)
            due = [n for n in due if n > found[0]]
            self.marks[len(self.m.topics) + found[0]] = 1
            self.read_table(found[0])

    def read_table(self, number):
        while True:
            code = self.next_line()
            if code == b"ETAB":
                self.no_field_behind(1)
                return
            if code != b"OBJE":
                self.refuse(7, 1)
            self.read_object(number)

    # an object

    def is_undefined(self, b):
        return b == bytes([self.m.undefined])

    def is_undefined_rest(self, b):
        return b == bytes([self.m.undefined]) * 2

    def read_object(self, number):
        table, this = self.m.tables[number], len(self.rows)
        identification = self.field(2)
        if self.is_undefined(identification.bytes) or self.is_undefined_rest(identification.bytes):
            self.refuse(12, 2)
        try:
            check_shape(identification.bytes)
        except Wrong as w:
            self.refuse(w.number, 2)
        if identification.bytes in self.identifications:
            self.refuse(15, 2)
        pairs = self.read_fields(table, this)
        row = [number, identification.start, len(identification.bytes)]
        for a in pairs:
            for pair in a:
                row += pair
        if len(self.rows) + 1 > self.rooms.rows or len(self.cells) + len(row) > self.rooms.cells:
            raise Refusal(16, self.at, 0)
        first = len(self.cells)
        self.identifications[identification.bytes] = (this, number)
        self.rows.append(first)
        self.cells += row
        at = first + 3
        for a in table.attributes:
            if a.kind == LINE:
                self.cells[at:at + 2] = self.read_line(a)
            at += 2 * a.pairs()

    def read_fields(self, table, this):
        """The pairs of each attribute; a line's pair is filled in later."""
        slots = [(i, a, c) for i, a in enumerate(table.attributes) for c in range(a.fields())]
        pairs = [[[0, 0] for _ in range(a.pairs())] for a in table.attributes]
        n = 2                                     # the last field read
        first_defined = None                      # of the coordinate at hand
        for s, (i, a, c) in enumerate(slots):
            n += 1
            f = self.field(n)
            if self.is_undefined_rest(f.bytes):
                # it stands for this field and all remaining ones of the line
                if any(not b.optional for _, b, _ in slots[s:]):
                    self.refuse(12, n)
                if c > 0 and first_defined:
                    self.refuse(12, n)
                break
            undefined = self.is_undefined(f.bytes)
            if c == 0:
                if undefined and not a.optional:
                    self.refuse(12, n)
                first_defined = not undefined
            elif first_defined == undefined:
                self.refuse(12, n)                # mixed
            if undefined:
                continue
            try:
                pairs[i][c] = self.value(a, c, f, this, n)
            except Wrong as w:
                self.refuse(w.number, n)
        self.no_field_behind(n)
        return pairs

    def value(self, a, c, f, this, n):
        if a.kind in (COORDINATE2, COORDINATE3, NUMBER):
            return [1, number_value(a.components[c], f.bytes)]
        if a.kind == DATE:
            return [1, date_value(f.bytes)]
        if a.kind == ENUMERATION:
            return [1, enumeration_value(a.leaves, f.bytes)]
        check_shape(f.bytes)
        if a.kind == TEXT:
            if len(f.bytes) > a.longest:
                raise Wrong(14)
            return [1 + len(f.bytes), f.start]
        pair = [1, None]                          # a reference, settled at the end
        self.pending.append((this, n, a.table, f.bytes))
        return pair

    # a line attribute

    def read_line(self, a):
        """STPT, then one or more of LIPT or ARCP LIPT, then ELIN; or ELIN alone. Gives the pair."""
        first = len(self.points)
        state = "start"
        allowed = {"start": (b"STPT", b"ELIN"), "first": (b"LIPT", b"ARCP"), "next": (b"LIPT", b"ARCP", b"ELIN"),
                   "chord": (b"LIPT",)}
        while True:
            code = self.next_line()
            if code not in allowed[state]:
                self.refuse(7, 1)
            if code == b"ARCP" and a.forms == 1:
                self.refuse(18, 1)
            if code == b"LIPT" and state != "chord" and a.forms == 2:
                self.refuse(18, 1)
            if code == b"ELIN":
                if state == "start" and not a.optional:
                    self.refuse(12, 1)
                self.no_field_behind(1)
                count = len(self.points) - first
                return [1 + count, first] if count else [0, 0]
            self.read_point(a, {b"STPT": 0, b"LIPT": 1, b"ARCP": 2}[code])
            state = {b"STPT": "first", b"LIPT": "next", b"ARCP": "chord"}[code]

    def read_point(self, a, kind):
        point = [kind, 0, 0, 0]
        for c, component in enumerate(a.components):
            f = self.field(2 + c)
            if self.is_undefined(f.bytes) or self.is_undefined_rest(f.bytes):
                self.refuse(12, 2 + c)
            try:
                point[1 + c] = number_value(component, f.bytes)
            except Wrong as w:
                self.refuse(w.number, 2 + c)
        self.no_field_behind(1 + len(a.components))
        if len(self.points) + 1 > self.rooms.points // 4:
            raise Refusal(16, self.at, 0)
        self.points.append(point)

    # at the end

    def settle_references(self):
        values = []
        for this, n, table, b in self.pending:
            found = self.identifications.get(b)
            if found is None or found[1] != table:
                raise Refusal(17, this, n)
            values.append(found[0])
        values.reverse()
        self.cells = [values.pop() if c is None else c for c in self.cells]

    def flat_points(self):
        return [v for p in self.points for v in p]


class Result:
    """The answer of reading and the content of each lent buffer."""

    def __init__(self, answer, text, marks, rows, cells, points):
        self.answer, self.text, self.marks, self.rows, self.cells, self.points = (
            answer, text, marks, rows, cells, points)


def read(model, file, rooms):
    """Reading: 0, objects, cells, points, or a refusal; and all result buffers."""
    try:
        if len(file) > FILE_LIMIT:
            raise Refusal(1)
        m = good_model(model)
        lines = logical_lines(m.mark, file)
        text = text_of(lines)
        if len(text) > rooms.text or len(m.topics) + len(m.tables) > rooms.marks:
            raise Refusal(6)
        r = Reading(m, lines, rooms)
        r.read()
    except Refusal as refusal:
        return Result(refusal.answer, [0] * rooms.text, [0] * rooms.marks, [0] * rooms.rows, [0] * rooms.cells,
                      [0] * rooms.points)
    return Result((0, len(r.rows), len(r.cells), len(r.points)), filled(text, rooms.text),
                  filled(r.marks, rooms.marks), filled(r.rows, rooms.rows), filled(r.cells, rooms.cells),
                  filled(r.flat_points(), rooms.points))


# ---- Writing --------------------------------------------------------------------------------------------------

class Lent:
    """A table as it is handed to writing: the lent slices and the three counts."""

    def __init__(self, text, marks, rows, cells, points, objects, cells_used, points_used):
        self.text, self.marks, self.rows, self.cells, self.points = text, marks, rows, cells, points
        self.objects, self.cells_used, self.points_used = objects, cells_used, points_used

    def copy(self):
        return Lent(list(self.text), list(self.marks), list(self.rows), list(self.cells), list(self.points),
                    self.objects, self.cells_used, self.points_used)


class NoLines(Exception):
    """No lines read as this table (19)."""


def number_digits(decimals, value):
    """The shortest digits that read as the value, - only below zero."""
    digits = str(abs(value)).rjust(decimals + 1, "0")
    if decimals:
        digits = digits[:-decimals] + "." + digits[-decimals:]
    return ("-" if value < 0 else "").encode() + digits.encode()


class Lines:
    """The lines that a table would be written as. NoLines where there can be none."""

    def __init__(self, m, lent):
        self.m, self.t = m, lent
        if (lent.objects > len(lent.rows) or lent.cells_used > len(lent.cells)
                or 4 * lent.points_used > len(lent.points)
                or len(m.topics) + len(m.tables) > len(lent.marks)):
            raise NoLines()
        self.rows = lent.rows[:lent.objects]
        self.cells = lent.cells[:lent.cells_used]
        self.points = [lent.points[4 * n:4 * n + 4] for n in range(lent.points_used)]
        self.marks = lent.marks[:len(m.topics) + len(m.tables)]

    def cell(self, n):
        if not 0 <= n < len(self.cells):
            raise NoLines()
        return self.cells[n]

    def stretch(self, start, length):
        if start < 0 or length < 0 or start + length > len(self.t.text):
            raise NoLines()
        return bytes(self.t.text[start:start + length])

    def identification(self, number):
        if not 0 <= number < len(self.rows):
            raise NoLines()
        row = self.rows[number]
        return self.stretch(self.cell(row + 1), self.cell(row + 2))

    def all(self):
        lines = [b"SCNT", b"////", b"MTID " + self.m.transfer, b"MODL " + self.m.name]
        number = 0
        for topic, name in enumerate(self.m.topics):
            if not self.marks[topic]:
                continue
            lines.append(b"TOPI " + name)
            for n in self.m.tables_of(topic):
                if not self.marks[len(self.m.topics) + n]:
                    continue
                lines.append(b"TABL " + self.m.tables[n].name)
                while number < len(self.rows) and self.cell(self.rows[number]) == n:
                    lines += self.object(self.m.tables[n], self.rows[number], number)
                    number += 1
                lines.append(b"ETAB")
            lines.append(b"ETOP")
        if number != len(self.rows):
            raise NoLines()
        return lines + [b"EMOD", b"ENDE"]

    def object(self, table, row, number):
        fields, behind = [b"OBJE", self.identification(number)], []
        at = row + 3
        for a in table.attributes:
            if a.kind == LINE:
                behind += self.line(a, self.cell(at), self.cell(at + 1))
                at += 2
                continue
            for c in range(a.fields()):
                fields.append(self.one_field(a, c, self.cell(at), self.cell(at + 1)))
                at += 2
        return [b" ".join(fields)] + behind

    def one_field(self, a, c, first, second):
        if first == 0:
            return bytes([self.m.undefined])
        if a.kind in (COORDINATE2, COORDINATE3, NUMBER):
            return number_digits(a.components[c].decimals, second)
        if a.kind == DATE:
            return b"%08d" % second
        if a.kind == ENUMERATION:
            return b"%d" % second
        if a.kind == TEXT:
            return self.stretch(second, first - 1)
        return self.identification(second)

    def line(self, a, first, second):
        if first == 0:
            return [b"ELIN"]
        if first < 0 or second < 0 or second + first - 1 > len(self.points):
            raise NoLines()
        out = []
        for kind, *values in self.points[second:second + first - 1]:
            if kind not in (0, 1, 2):
                raise NoLines()
            fields = [number_digits(c.decimals, v) for c, v in zip(a.components, values)]
            out.append(b" ".join([(b"STPT", b"LIPT", b"ARCP")[kind]] + fields))
        return out + [b"ELIN"]


def without_starts(m, rows, cells):
    """The cells with the starts of texts and identifications set to 0."""
    out = list(cells)
    for row in rows:
        out[row + 1] = 0
        at = row + 3
        for a in m.tables[cells[row]].attributes:
            if a.kind == TEXT and cells[at] != 0:
                out[at + 1] = 0
            at += 2 * a.pairs()
    return out


NO_LIMIT = Rooms(1 << 40, 1 << 40, 1 << 40, 1 << 40, 1 << 40)


def lines_of_table(m, lent):
    """The lines that read as this table; Refusal 19 where there are none."""
    try:
        own = Lines(m, lent)
        lines = own.all()
        r = Reading(m, lines, NO_LIMIT)
        r.read()
    except (NoLines, Refusal):
        raise Refusal(19)
    same = (r.rows == own.rows and len(r.cells) == len(own.cells) and r.points == own.points
            and r.marks == own.marks)
    if not same or any(c1 != c2 for c1, c2 in zip(without_starts(m, r.rows, r.cells),
                                                  without_starts(m, r.rows, own.cells))):
        raise Refusal(19)
    return lines


def cut_line(mark, width, line):
    """A logical line as physical lines of at most the width."""
    out, prefix, rest = b"", b"", line
    while True:
        fits = width - len(prefix)
        if len(rest) <= fits and not rest.endswith(bytes([mark])):
            return out + prefix + rest + b"\n"
        out += prefix + rest[:fits - 1] + bytes([mark]) + b"\n"
        rest = rest[fits - 1:]
        prefix = b"CONT "


def write(model, lent, width, room):
    """Writing: 0, bytes, 0, 0 or a refusal; and the lent output."""
    try:
        m = good_model(model)
        if not 16 <= width <= 65535:
            raise Refusal(20)
        lines = lines_of_table(m, lent)
        out = b"".join(cut_line(m.mark, width, line) for line in lines)
        if len(out) > room or len(out) > FILE_LIMIT:
            raise Refusal(21)
    except Refusal as r:
        return r.answer, [0] * room
    return (0, len(out), 0, 0), filled(out, room)


# ---- The listing program --------------------------------------------------------------------------------------

LISTING_LIMIT = 65536
LISTING_ROOMS = Rooms(65536, 576, 1024, 8192, 4 * 2048)


def split_input(data):
    """Model and file: the model goes, record by record, up to its first of kind 6."""
    at = 0
    while at + 4 <= len(data) and at + 4 + u16(data, at) <= len(data):
        kind = u16(data, at + 2)
        at += 4 + u16(data, at)
        if kind == END:
            return data[:at], data[at:]
    return data, b""


def print_result(result):
    lines = [" ".join(str(v) for v in result.answer)]
    if result.answer[0] == 0:
        _, objects, cells, points = result.answer
        ends = result.rows[1:objects] + [cells]
        for n in range(objects):
            lines.append(" ".join(str(v) for v in result.cells[result.rows[n]:ends[n]]))
        for n in range(points):
            lines.append(" ".join(str(v) for v in result.points[4 * n:4 * n + 4]))
    return "".join(line + "\n" for line in lines)


def listing(data):
    """What the listing program prints."""
    data = bytes(data)
    if len(data) > LISTING_LIMIT:
        return "1 0 0 0\n"
    model, file = split_input(data)
    return print_result(read(model, file, LISTING_ROOMS))


# ---- A builder of compiled models -----------------------------------------------------------------------------

def record(kind, payload=b""):
    return len(payload).to_bytes(2, "little") + kind.to_bytes(2, "little") + payload


def component(decimals, least, greatest):
    return (bytes([decimals]) + (least % 2 ** 64).to_bytes(8, "little") + (greatest % 2 ** 64).to_bytes(8, "little"))


def transfer(name=b"T", special=b"_@\\"):
    return record(TRANSFER, special + name)


def model_record(name=b"M"):
    return record(MODEL, name)


def topic(name):
    return record(TOPIC, name)


def table(name, optional=0):
    return record(TABLE, bytes([optional]) + name)


def attribute(name, kind, parameters=b"", optional=0):
    return record(ATTRIBUTE, bytes([optional, kind]) + parameters + name)


def two_bytes(n):
    return n.to_bytes(2, "little")


def reference(name, number, optional=0):
    return attribute(name, REFERENCE, two_bytes(number), optional)


def coordinate(name, components, optional=0):
    kind = COORDINATE2 if len(components) == 2 else COORDINATE3
    return attribute(name, kind, b"".join(component(*c) for c in components), optional)


def number(name, c, optional=0):
    return attribute(name, NUMBER, component(*c), optional)


def text(name, longest, optional=0):
    return attribute(name, TEXT, two_bytes(longest), optional)


def date(name, optional=0):
    return attribute(name, DATE, b"", optional)


def enumeration(name, leaves, optional=0):
    return attribute(name, ENUMERATION, two_bytes(leaves), optional)


def line(name, forms, components, optional=0):
    return attribute(name, LINE, bytes([forms, len(components)]) + b"".join(component(*c) for c in components),
                     optional)


def end():
    return record(END)
