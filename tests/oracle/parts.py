"""Parts that cases are made of: the sample, a rich file, models of one table, cuts, and random ones."""

import oracle as o

LAGE = [(1, 0, 999), (1, 0, 999)]

SAMPLE_MODEL = (
    o.transfer() + o.model_record() + o.topic(b"Netz")
    + o.table(b"Knoten") + o.text(b"Nr", 4) + o.coordinate(b"Lage", LAGE)
    + o.table(b"Leitung") + o.reference(b"Von", 0) + o.number(b"Tiefe", (2, -500, 999), 1)
    + o.line(b"Verlauf", 3, LAGE) + o.end())

SAMPLE_LINES = [
    b"SCNT", b"////", b"MTID T", b"MODL M", b"TOPI Netz", b"TABL Knoten", b"OBJE k1 A_1 10.0 20.5", b"ETAB",
    b"TABL Leitung", b"OBJE p1 k1 @", b"STPT 10.0 20.5", b"ARCP 11.0 21.0", b"LIPT 12.0 20.5", b"ELIN", b"ETAB",
    b"ETOP", b"EMOD", b"ENDE"]

SAMPLE_ANSWER = ("0 2 18 3\n0 51 2 4 54 1 100 1 205\n1 91 2 1 0 0 0 4 0\n"
                 "0 100 205 0\n2 110 210 0\n1 120 205 0\n")


def file_of(lines):
    return b"".join(line + b"\n" for line in lines)


SAMPLE_FILE = file_of(SAMPLE_LINES)


def sample_with(n, *lines):
    """The sample with its line n replaced by these."""
    return file_of(SAMPLE_LINES[:n - 1] + list(lines) + SAMPLE_LINES[n:])


def frame(*lines):
    """The sample's frame for the models of `one`: line 7 is the first line inside the table."""
    return file_of([b"SCNT", b"////", b"MTID T", b"MODL M", b"TOPI N", b"TABL A"] + list(lines)
                   + [b"ETAB", b"ETOP", b"EMOD", b"ENDE"])


def head(name=b"T", special=b"_@\\"):
    return o.transfer(name, special) + o.model_record()


def one(*attributes):
    return head() + o.topic(b"N") + o.table(b"A") + b"".join(attributes) + o.end()


D, X_, Y = o.date(b"D"), o.text(b"X", 4, 1), o.text(b"Y", 4)
P_, P = o.coordinate(b"P", LAGE, 1), o.coordinate(b"P", LAGE)
E, R_ = o.enumeration(b"E", 3), o.reference(b"R", 0, 1)
L1, L2, L_ = o.line(b"L", 1, LAGE), o.line(b"L", 2, LAGE), o.line(b"L", 3, LAGE, 1)
NO_TOPICS_FILE = file_of([b"SCNT", b"////", b"MTID T", b"MODL M", b"EMOD", b"ENDE"])


def many(kind, count):
    """A model of so many topics, tables or attributes."""
    if kind == "topics":
        return head() + b"".join(o.topic(b"N%d" % n) + o.table(b"A") + D for n in range(count)) + o.end()
    if kind == "tables":
        return head() + o.topic(b"N") + b"".join(o.table(b"A%d" % n) + D for n in range(count)) + o.end()
    return (head() + o.topic(b"N") + o.table(b"A") + b"".join(o.date(b"D%d" % n) for n in range(count))
            + o.end())


def model_of_size(size):
    """A good model of exactly so many bytes, 5,000 at least."""
    out = head() + o.topic(b"N")
    wide = [o.coordinate(b"P%02d" % n, [(0, 0, 0)] * 3) for n in range(63)]
    table = 0
    while size - len(out) > 2 * 60 * 64:
        out += o.table(b"A%03d" % table) + b"".join(wide)
        table += 1
    out += o.table(b"B")
    n = 0
    while size - 4 - len(out) > 0:
        left = size - 4 - len(out)
        if n == 60:
            out, n = out + o.table(b"C%d" % left), 0
            continue
        if left > 200:
            out += o.coordinate(b"P%02d" % n, [(0, 0, 0)] * 3)
        else:
            record = left if left <= 30 else 30 if left >= 37 else left - 7
            out += o.date((b"D%02d" % n + b"d" * 24)[:record - 6])
        n += 1
    return out + o.end()


def lent_of(model, file, spare=0):
    """The table of an accepted file as it is handed to writing, with room behind each count."""
    rooms_ = o.Rooms(len(file) + spare, 600, 1100, 9000, 9000)
    r = o.read(model, file, rooms_)
    assert r.answer[0] == 0, r.answer
    m = o.decode(model)
    _, objects, cells, points = r.answer
    text = o.unfold(model, file, len(file) + 1)
    return o.Lent(text[1][:text[0][1]] + [0] * spare, r.marks[:len(m.topics) + len(m.tables) + spare],
                  r.rows[:objects + spare], r.cells[:cells + spare], r.points[:4 * points + spare], objects, cells,
                  points)


RICH_MODEL = (
    head() + o.topic(b"N")
    + o.table(b"A") + X_ + o.coordinate(b"P", [(0, -9, 9), (1, 0, 99), (2, -100, 100)], 1) + E
    + o.table(b"B", 1) + o.line(b"L", 1, LAGE, 1) + o.reference(b"R", 0, 1) + o.line(b"K", 2, LAGE)
    + o.topic(b"O") + o.table(b"A", 1) + o.date(b"D", 1) + o.table(b"C") + Y + o.end())

RICH_LINES = [
    b"SCNT", b"////", b"MTID T", b"MODL M",
    b"TOPI N", b"TABL A", b"OBJE a xy -9 9.9 -1.00 2", b"OBJE b @ @ @ @ 0", b"ETAB",
    b"TABL B", b"OBJE c b", b"STPT 1.0 2.0", b"LIPT 3.0 4.0", b"ELIN", b"STPT 5.0 6.0", b"ARCP 7.0 8.0",
    b"LIPT 9.0 1.0", b"ELIN", b"ETAB", b"ETOP",
    b"TOPI O", b"TABL A", b"OBJE d @", b"ETAB", b"TABL C", b"OBJE e x", b"ETAB", b"ETOP", b"EMOD", b"ENDE"]


def cut(rng, mark, lines, often=0.3, cr=0.3):
    """A random cut of the lines: parts, marks and line ends."""
    out = b""
    for line in lines:
        part = b""
        for n in range(len(line) + 1):
            while rng.random() < often / (n + 1) or (n == len(line) and part.endswith(mark)):
                out += part + mark + (b"\r\n" if rng.random() < cr else b"\n")
                part = b"CONT "
            if n < len(line):
                part += line[n:n + 1]
        out += part + (b"\r\n" if rng.random() < cr else b"\n")
    return out


# ---- Random models and files of their grammar -----------------------------------------------------------------

NAME_BYTES = b"abcXYZ019_"
VALUE_BYTES = b"!#$%&'()*+,-./019:;<=>?AZaz[]^_`{|}~@\\\xc0\xd6\xd8\xf6\xf8\xff"
YEARS = (0, 400, 2000, 2004, 1500, 1582, 1900, 1999, 2003, 2100, 9999)


def random_name(rng, longest):
    size = rng.choice((1, 1, 2, 3, 5, longest))
    return bytes([rng.choice(b"ABCxyz")] + [rng.choice(NAME_BYTES) for _ in range(size - 1)])


def unique_names(rng, count, longest):
    names = []
    while len(names) < count:
        name = random_name(rng, longest)
        if name not in names:
            names.append(name)
    return names


def random_component(rng):
    decimals = rng.choice((0, 0, 1, 2, 3, 9))
    least = rng.choice((0, -5, -100, -10 ** 18 + 1, 7, rng.randrange(-10 ** 6, 10 ** 6)))
    return decimals, least, least + rng.choice((0, 1, 99, 10 ** 6))


def random_attribute(rng, name, first_table, tables):
    optional = rng.randrange(2)
    kind = rng.randrange(1, 9)
    if kind == o.REFERENCE:
        return o.reference(name, first_table + rng.randrange(tables), optional)
    if kind in (o.COORDINATE2, o.COORDINATE3):
        return o.coordinate(name, [random_component(rng) for _ in range(kind)], optional)
    if kind == o.NUMBER:
        return o.number(name, random_component(rng), optional)
    if kind == o.TEXT:
        return o.text(name, rng.choice((1, 2, 5, 40)), optional)
    if kind == o.DATE:
        return o.date(name, optional)
    if kind == o.ENUMERATION:
        return o.enumeration(name, rng.choice((1, 3, 12, 65535)), optional)
    return o.line(name, rng.choice((1, 2, 3)), [random_component(rng) for _ in range(rng.choice((2, 3)))], optional)


def random_model(rng):
    special = rng.choice((b"_@\\", b"_@\\", b"_@\\", b"!#$", b"\"~*", b"@_&"))
    out = o.transfer(random_name(rng, 63), special) + o.model_record(random_name(rng, 63))
    first_table = 0
    for topic in unique_names(rng, rng.choice((1, 1, 2, 3)), 24):
        out += o.topic(topic)
        tables = rng.choice((1, 2, 3))
        for table in unique_names(rng, tables, 24):
            out += o.table(table, rng.randrange(2))
            for name in unique_names(rng, rng.choice((1, 2, 3, 4)), 24):
                out += random_attribute(rng, name, first_table, tables)
        first_table += tables
    return out + o.end()


def random_value(rng, m, longest):
    while True:
        value = bytes(rng.choice(VALUE_BYTES) for _ in range(rng.choice((1, 1, 2, 3, longest))))[:longest]
        if value not in (bytes([m.undefined]), bytes([m.undefined]) * 2):
            return value


def random_number(rng, c):
    value = rng.choice((c.least, c.greatest, rng.randrange(c.least, c.greatest + 1)))
    digits = o.number_digits(c.decimals, value)
    if value >= 0 and rng.random() < 0.2 and len(digits) < 15:
        digits = rng.choice((b"+", b"+0", b"0", b"000")) + digits
    return digits


def random_month(rng, months):
    """Any year or one of those above, and one of the months, more often February."""
    year = rng.choice((rng.randrange(10000), rng.choice(YEARS)))
    return year, rng.choice((2, rng.choice(months), rng.choice(months)))


def random_day(rng):
    """A day that exists, as a number."""
    year, month = random_month(rng, range(1, 13))
    last = o.days_of(year, month)
    return 10000 * year + 100 * month + rng.choice((1, last, rng.randrange(1, last + 1)))


def wrong_day(rng):
    """One that does not exist, of eight digits or fewer."""
    year, month = random_month(rng, range(14))
    last = o.days_of(year, month)
    return 10000 * year + 100 * month + rng.choice((0, last + 1, rng.randrange(last + 1, 100)))


def with_wrong_day(rng, m, t):
    """The table with one of its dates changed to a day that does not exist; None where it has no date."""
    dates = []
    for row in t.rows[:t.objects]:
        at = row + 3
        for a in m.tables[t.cells[row]].attributes:
            if a.kind == o.DATE and t.cells[at]:
                dates.append(at + 1)
            at += 2 * a.pairs()
    if not dates:
        return None
    new = t.copy()
    new.cells[rng.choice(dates)] = wrong_day(rng)
    return new


def random_field(rng, m, a, c, identifications):
    if a.kind in (o.COORDINATE2, o.COORDINATE3, o.NUMBER):
        return random_number(rng, a.components[c])
    if a.kind == o.DATE:
        return b"%08d" % random_day(rng)
    if a.kind == o.ENUMERATION:
        return b"%d" % rng.choice((0, a.leaves - 1, rng.randrange(a.leaves)))
    if a.kind == o.TEXT:
        return random_value(rng, m, a.longest)
    return rng.choice(identifications[a.table])


def random_points(rng, a):
    def point(code):
        return b" ".join([code] + [random_number(rng, c) for c in a.components])
    if a.optional and rng.random() < 0.4:
        return [b"ELIN"]
    lines = [point(b"STPT")]
    for _ in range(rng.choice((1, 2, 3))):
        if a.forms == 2 or (a.forms == 3 and rng.random() < 0.5):
            lines.append(point(b"ARCP"))
        lines.append(point(b"LIPT"))
    return lines + [b"ELIN"]


def random_object(rng, m, table, identification, identifications):
    fields, lines = [b"OBJE", identification], []
    last = 1                                       # the last field that is not undefined
    for a in table.attributes:
        if a.kind == o.LINE:
            lines += random_points(rng, a)
        elif a.optional and (rng.random() < 0.4 or (a.kind == o.REFERENCE and not identifications[a.table])):
            fields += [bytes([m.undefined])] * a.fields()
        else:
            fields += [random_field(rng, m, a, c, identifications) for c in range(a.fields())]
            last = len(fields) - 1
    if last + 1 < len(fields) and rng.random() < 0.5:
        fields[rng.randrange(last + 1, len(fields)):] = [bytes([m.undefined]) * 2]
    separator = rng.choice((b" ", b" ", b" ", b"  ", b"\t"))
    return [separator.join(fields)] + lines


def random_lines(rng, m):
    """Lines of a file that reading has to accept."""
    delivered = [t for t in range(len(m.topics)) if rng.random() < 0.8]
    tables = [n for n, t in enumerate(m.tables)
              if t.topic in delivered and (not t.optional or rng.random() < 0.7)]
    identifications, used = {n: [] for n in range(len(m.tables))}, set()
    for n in tables:
        for _ in range(rng.choice((0, 1, 1, 2, 3))):
            name = random_value(rng, m, 6)
            if name not in used:
                used.add(name)
                identifications[n].append(name)
    changed = True
    while changed:                                 # no object whose mandatory reference has nothing to name
        changed = False
        for n in tables:
            if identifications[n] and any(a.kind == o.REFERENCE and not a.optional and not identifications[a.table]
                                          for a in m.tables[n].attributes):
                identifications[n], changed = [], True
    lines = [b"SCNT"] + rng.choice(([], [b""], [b"a description", b" ////"], [b"TOPI x"]))
    lines += [b"////", b"MTID " + m.transfer, b"MODL " + m.name]
    for t in delivered:
        lines.append(b"TOPI " + m.topics[t] + (b"x" if len(m.topics[t]) == 24 and rng.random() < 0.5 else b""))
        for n in tables:
            if m.tables[n].topic == t:
                lines.append(b"TABL " + m.tables[n].name)
                for identification in identifications[n]:
                    lines += random_object(rng, m, m.tables[n], identification, identifications)
                lines.append(b"ETAB")
        lines.append(b"ETOP")
    return lines + [b"EMOD", b"ENDE"]


def random_damage(rng, file, special):
    file = bytearray(file)
    for _ in range(rng.choice((1, 1, 2))):
        place = rng.randrange(len(file))
        how = rng.randrange(4)
        if how == 0:
            file[place] = rng.choice(special + b" \t\r\n0159.+-AEx\x00\x80\xa0\xd7")
        elif how == 1:
            file.insert(place, rng.choice(special + b" \t\n09.@"))
        elif how == 2:
            del file[place]
        else:
            lines = bytes(file).split(b"\n")
            at = rng.randrange(len(lines))
            lines[at:at + 1] = rng.choice(([], [lines[at]] * 2, [lines[at] + b" " + special[1:2]],
                                           [special[1:2].join(lines[at].rsplit(b" ", 1))],
                                           [b" ".join(lines[at].split(b" ")[:-1] + [special[1:2] * 2])]))
            file = bytearray(b"\n".join(lines))
    return bytes(file)
