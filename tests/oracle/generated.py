"""Cases that are asked beside those of tests/cases: each rule at its borders, damages, cuts and random ones. Always the
same cases in the same order.

A case is a tuple of its name, its call and that call's arguments:
    ("listing", input)                  ("check", model)                 ("unfold", model, file, room)
    ("read", model, file, rooms)        ("write", model, lent, width, room)
"""

import random

import oracle as o
from parts import (LAGE, SAMPLE_MODEL, SAMPLE_LINES, file_of, SAMPLE_FILE, frame, head, one, D, X_, Y, P_, E, R_, L_,
                   lent_of, RICH_MODEL, RICH_LINES, cut, random_model, random_lines, random_damage, with_wrong_day)

CODES = [b"SCNT", b"////", b"MTID T", b"MOTR", b"MODL M", b"TOPI N", b"TOPI O", b"TABL A", b"TABL B", b"TABL C",
         b"OBJE z", b"OBJE z @@", b"STPT 1.0 2.0", b"LIPT 1.0 2.0", b"ARCP 1.0 2.0", b"ELIN", b"ETAB", b"ETOP",
         b"EMOD", b"ENDE", b"CONT x", b"PERI a", b""]


def codes_at_states():
    """Each line code in front of, and in place of, each line of the rich file."""
    for n in range(len(RICH_LINES) + 1):
        for code in CODES:
            yield ("code %s before line %d" % (code.decode(), n + 1),
                   RICH_MODEL, file_of(RICH_LINES[:n] + [code] + RICH_LINES[n:]))
    for n in range(len(RICH_LINES)):
        for code in CODES:
            yield ("code %s for line %d" % (code.decode(), n + 1),
                   RICH_MODEL, file_of(RICH_LINES[:n] + [code] + RICH_LINES[n + 1:]))


def undefined_everywhere():
    """@, @@ and other fields at each place of each line; each field left out; one more at the end."""
    for name, model, lines in (("sample", SAMPLE_MODEL, SAMPLE_LINES), ("rich", RICH_MODEL, RICH_LINES)):
        for n, line in enumerate(lines):
            fields = line.split(b" ")

            def changed(new):
                return model, file_of(lines[:n] + [b" ".join(new)] + lines[n + 1:])
            for f in range(1, len(fields) + 1):
                for field in (b"@", b"@@", b"@@@"):
                    if f < len(fields):
                        yield ("%s line %d field %d %s" % (name, n + 1, f + 1, field.decode()),) + changed(
                            fields[:f] + [field] + fields[f + 1:])
                        yield ("%s line %d ends in field %d %s" % (name, n + 1, f + 1, field.decode()),) + changed(
                            fields[:f] + [field])
                    else:
                        yield ("%s line %d one more %s" % (name, n + 1, field.decode()),) + changed(fields + [field])
                yield ("%s line %d without field %d" % (name, n + 1, f),) + changed(fields[:f - 1] + fields[f:])


def undefined_rows():
    """All ways to fill the fields of an object with @, @@, a good value or a bad one, up to one field too many."""
    model = one(X_, P_, o.date(b"D", 1))
    good = [b"ab", b"1.0", b"2.0", b"19990101"]

    def fill(f):
        yield b"@"
        yield b"@@"
        yield good[f] if f < 4 else b"x"
    rows = [[]]
    for f in range(5):
        rows += [r + [v] for r in rows if len(r) == f for v in fill(f)]
    for r in rows:
        if len(r) < 5 or r[-1] == b"@@":
            yield "row " + b" ".join(r).decode(), model, frame(b" ".join([b"OBJE a"] + r))


def values():
    """Fields of each type near their rules."""
    numbers = [b"0", b"-0", b"+0", b"+", b"-", b".", b"0.", b".0", b"1.0", b"1.00", b"01", b"9", b"10", b"-9", b"-10",
               b"+9", b"--1", b"+-1", b"1-", b"1e0", b"\xb2", b"0x1", b"999999999999999999", b"0999999999999999999",
               b"9.9", b"9.99", b"10.00", b"-9.99", b"-10.00", b"1.000", b"1,00", b"1..00", b"1.0.0", b"00.10",
               b"0000000000000000.05", b"00000000000000000.05", b"-0.05", b"+0.05", b"-.05", b"1.-5", b"1.+5"]
    for c in ((0, -9, 9), (1, -99, 99), (2, -999, 999), (9, -10 ** 18 + 1, 10 ** 18 - 1), (0, 5, 5), (2, -300, -100)):
        model = one(o.number(b"Z", c))
        more = [o.number_digits(c[0], v) for v in (c[1] - 1, c[1], c[1] + 1, c[2] - 1, c[2], c[2] + 1)]
        for field in numbers + more:
            yield "number %s %s" % (c, field), model, frame(b"OBJE a " + field)
    dates = [b"19990101", b"19991231", b"19991232", b"19991331", b"19990031", b"19990100", b"00000101", b"99999999",
             b"1999010", b"199901011", b"1999010x", b"+9990101", b"1999.101", b"19990230", b"19000229", b"20000229"]
    for field in dates:
        yield "date %s" % field, one(D), frame(b"OBJE a " + field)
    for leaves in (1, 3, 5, 65535):
        model = one(o.enumeration(b"E", leaves))
        for field in [b"%d" % v for v in (0, leaves - 1, leaves, leaves + 1)] + [b"00", b"-0", b"+0", b"0.0", b"x",
                                                                              b"0" * 18, b"0" * 19, b"9" * 18]:
            yield "enumeration %d %s" % (leaves, field), model, frame(b"OBJE a " + field)
    for c in range(256):
        if c not in (9, 10, 13, 32):
            b = bytes([c])
            yield ("byte %02X in a text and an identification" % c, one(Y),
                   frame(b"OBJE a " + b + b"x", b"OBJE " + b + b" x"))
    for longest in (1, 2, 65535):
        for n in (1, 2, 3):
            yield "text %d of %d" % (n, longest), one(o.text(b"Y", longest)), frame(b"OBJE a " + b"x" * n)


def damaged(rng, count):
    """Files with bytes changed, inserted, left out; lines left out, doubled and swapped."""
    for n in range(count):
        model, lines = rng.choice(((SAMPLE_MODEL, SAMPLE_LINES), (RICH_MODEL, RICH_LINES)))
        lines = list(lines)
        how = rng.randrange(7)
        at = rng.randrange(len(lines))
        if how == 0:
            del lines[at]
        elif how == 1:
            lines.insert(at, lines[at])
        elif how == 2:
            other = rng.randrange(len(lines))
            lines[at], lines[other] = lines[other], lines[at]
        file = bytearray(file_of(lines))
        if how >= 3:
            for _ in range(rng.choice((1, 1, 1, 2, 3))):
                place = rng.randrange(len(file))
                byte = rng.choice(b" \t\r\n\\@_.-+/0159AEk\x00\x1f\x7f\x80\xa0\xd7\xff")
                if how == 3:
                    file[place] = byte
                elif how == 4:
                    file.insert(place, byte)
                elif how == 5:
                    del file[place]
                else:
                    file[place] = rng.randrange(256)
        yield "damaged %d" % n, model, bytes(file)


def cuts(rng, count):
    for n in range(count):
        model, lines = rng.choice(((SAMPLE_MODEL, SAMPLE_LINES), (RICH_MODEL, RICH_LINES)))
        file = cut(rng, b"\\", lines)
        whole = o.listing(model + file_of(lines))
        assert o.listing(model + file) == whole
        yield "cut %d" % n, model, file
        if n % 2:
            broken = bytearray(file)
            place = rng.randrange(len(broken))
            broken[place] = rng.choice(b"\\\nC \r\x01x")
            yield "broken cut %d" % n, model, bytes(broken)


def other_special_bytes(rng):
    """Other blank, undefined and continuation bytes."""
    for special in (b"!#$", b"@_\\", b"\\@_", b"~`|", b"\"'*", b"_\\@"):
        model = (o.transfer(b"T", special) + o.model_record() + o.topic(b"N") + o.table(b"A") + X_ + R_ + o.end())
        u, k = special[1:2], special[2:3]
        for row in (b"OBJE a " + u + b" " + u, b"OBJE a " + u * 2, b"OBJE a @ @", b"OBJE a \\ a", b"OBJE a _ a",
                    b"OBJE a x" + k, b"OBJE " + u + b" x a", b"OBJE a x " + k + b"\nCONT a", b"OBJE a x \\\nCONT a"):
            yield "special bytes %s %s" % (special, row), model, frame(row)


def bad_models(rng, count):
    """The sample's and the rich model damaged, record by record and byte by byte."""
    for name, model in (("sample", SAMPLE_MODEL), ("rich", RICH_MODEL)):
        records, at = [], 0
        while at < len(model):
            size = 4 + o.u16(model, at)
            records.append(model[at:at + size])
            at += size
        for n in range(len(records)):
            yield "%s model without record %d" % (name, n), b"".join(records[:n] + records[n + 1:])
            yield "%s model, record %d twice" % (name, n), b"".join(records[:n + 1] + records[n:])
            yield "%s model, record %d cut off" % (name, n), b"".join(records[:n])
            for other in range(n):
                swapped = list(records)
                swapped[n], swapped[other] = swapped[other], swapped[n]
                yield "%s model, records %d and %d swapped" % (name, other, n), b"".join(swapped)
            for kind in (0, 1, 2, 3, 4, 5, 6, 7, 256, 65535):
                changed = records[n][:2] + o.two_bytes(kind) + records[n][4:]
                yield "%s model, record %d of kind %d" % (name, n, kind), b"".join(
                    records[:n] + [changed] + records[n + 1:])
    for at in range(len(SAMPLE_MODEL)):
        yield "sample model's first %d bytes" % at, SAMPLE_MODEL[:at]
        for v in (0, 1, SAMPLE_MODEL[at] ^ 1, SAMPLE_MODEL[at] ^ 0x80, 255):
            if v != SAMPLE_MODEL[at]:
                yield ("sample model, byte %d is %d" % (at, v),
                       SAMPLE_MODEL[:at] + bytes([v]) + SAMPLE_MODEL[at + 1:])
    for n in range(count):
        model = bytearray(rng.choice((SAMPLE_MODEL, RICH_MODEL)))
        for _ in range(rng.choice((1, 2))):
            place = rng.randrange(len(model))
            how = rng.randrange(3)
            if how == 0:
                model[place] = rng.randrange(256)
            elif how == 1:
                model.insert(place, rng.choice((0, 1, 6, 65)))
            else:
                del model[place]
        yield "damaged model %d" % n, bytes(model)


def with_topic(*tables):
    return head() + o.topic(b"N") + b"".join(tables) + o.end()


def name_borders():
    """Special bytes and names of a model."""
    for c in range(256):
        yield "blank byte %02X" % c, o.transfer(b"T", bytes([c]) + b"#$") + o.model_record()
        yield "name's first byte %02X" % c, head(bytes([c]))
        yield "name's second byte %02X" % c, head(b"T" + bytes([c]))
    for special in (b"_@_", b"__\\", b"_@@", b"@_\\", b"\\_@", b"_A\\", b"_@/", b"+@\\", b"_-\\", b"_@.", b"_@ ",
                    b"\x21\x7e\x7d", b"_@0", b"_@\x7f", b"_@\x20", b"_@\x80"):
        yield "special bytes %r" % special, o.transfer(b"T", special) + o.model_record()
    for size in (0, 1, 23, 24, 25, 62, 63, 64):
        name = b"n" * size
        yield "transfer name of %d" % size, o.transfer(name) + o.model_record()
        yield "model name of %d" % size, o.transfer() + o.model_record(name)
        yield "topic name of %d" % size, head() + o.topic(name) + o.table(b"A") + D + o.end()
        yield "table name of %d" % size, with_topic(o.table(name), D)
        yield "attribute name of %d" % size, one(o.date(name))


def record_borders():
    """The lengths of a model's records, and bytes in them."""
    for size in range(4):
        yield "transfer of %d bytes" % size, o.record(1, b"_@\\T"[:size]) + o.model_record()
    for v in (0, 1, 2, 3, 255):
        yield "table's optional byte %d" % v, with_topic(o.table(b"A", v), D)
        yield "attribute's optional byte %d" % v, one(o.date(b"D", v))
        yield "forms %d" % v, one(o.line(b"L", v, LAGE))
        yield "end of %d bytes" % v, one(D)[:-4] + o.record(6, b"\x00" * v)
    for kind in range(12):
        for size in (0, 1, 2, 3, 17, 18, 19, 34, 35, 36, 37, 51, 52, 53, 54):
            content = (b"\x01" + b"\x00" * 16 + b"A" * 40)[:size]
            yield "type %d, %d bytes" % (kind, size), one(o.attribute(b"", kind, content))
    for count in range(5):
        parameters = bytes([3, count]) + o.component(0, 0, 0) * count
        yield "line of %d components" % count, one(o.attribute(b"L", o.LINE, parameters))


def number_borders():
    """The decimals and bounds of a model's numbers."""
    big = 10 ** 18
    for decimals in (0, 1, 8, 9, 10, 255):
        yield "decimals %d" % decimals, one(o.number(b"Z", (decimals, 0, 0)))
    for least, greatest in ((0, 0), (1, 0), (-1, 0), (0, -1), (-big + 1, big - 1), (-big, 0), (0, big), (-big, big),
                            (-2 ** 63, 0), (0, 2 ** 63 - 1), (-2 ** 63, 2 ** 63 - 1), (big - 1, big - 1),
                            (-big + 1, -big + 1), (big, big), (-big, -big), (5, 4), (-4, -5)):
        c = (2, least, greatest)
        yield "bounds %d %d" % (least, greatest), one(o.number(b"Z", c))
        yield "second bounds %d %d" % (least, greatest), one(o.coordinate(b"Z", [(0, 0, 0), c]))
        yield "third bounds %d %d" % (least, greatest), one(o.coordinate(b"Z", [(0, 0, 0), (0, 0, 0), c]))
        yield "line's bounds %d %d" % (least, greatest), one(o.line(b"Z", 3, [(0, 0, 0), (0, 0, 0), c]))


def other_borders():
    """The numbers of a model's other types, a record's length, and nothing."""
    for v in (0, 1, 2, 255, 256, 65535):
        yield "text of %d" % v, one(o.text(b"Y", v))
        yield "%d leaves" % v, one(o.enumeration(b"E", v))
        yield "reference to %d" % v, with_topic(o.table(b"A"), o.reference(b"R", v), o.table(b"B"), D)
        yield "optional reference to %d" % v, with_topic(o.table(b"A"), D, o.table(b"B"), o.reference(b"R", v, 1))
    for length in (0, 1, 3, 4, 5, 6, 255, 256, 65535):
        broken = bytearray(one(D))
        broken[13:15] = o.two_bytes(length)
        yield "topic's length %d" % length, bytes(broken)
    yield "nothing", b""


def model_borders():
    """Each rule of the compiled model at its border and beyond."""
    for borders in (name_borders, record_borders, number_borders, other_borders):
        yield from borders()


def all_rooms():
    """Each room at 0, one short, exact and one more."""
    for name, model, lines in (("sample", SAMPLE_MODEL, SAMPLE_LINES), ("rich", RICH_MODEL, RICH_LINES)):
        file = file_of(lines)
        m = o.decode(model)
        _, objects, cells, points = o.read(model, file, o.Rooms(9000, 600, 1000, 9000, 9000)).answer
        exact = [len(file), len(m.topics) + len(m.tables), objects, cells, 4 * points]
        for which in range(5):
            for v in sorted({0, 1, exact[which] - 4, exact[which] - 3, exact[which] - 1, exact[which],
                             exact[which] + 1, exact[which] + 3, exact[which] // 2}):
                r = list(exact)
                r[which] = max(v, 0)
                yield "%s with rooms %s" % (name, r), model, file, o.Rooms(*r)
        for which in range(5):
            r = [0] * 5
            r[which] = exact[which]
            yield "%s with rooms %s" % (name, r), model, file, o.Rooms(*r)


def unfold_rooms():
    for file in (b"", b"\n", b"x\n", b"ab\\\nCONT cd\n", b"ab\\\r\nCONT cd\r\n", SAMPLE_FILE, b"x", b"\\\n", b"\x80\n"):
        whole = o.unfold(SAMPLE_MODEL, file, 400)[0]
        for room in sorted({0, 1, max(whole[1] - 1, 0), whole[1], whole[1] + 2}):
            yield "unfolding %r into %d" % (file[:20], room), SAMPLE_MODEL, file, room
    yield "unfolding under a bad model", SAMPLE_MODEL[:-1], b"x", 10


def unfoldings(rng, count):
    """Short files over the bytes that unfolding looks at."""
    for n in range(count):
        pieces = [b"a", b"b ", b"\\", b"\\\n", b"\n", b"\r\n", b"\\\r\n", b"\\\nCONT ", b"CONT ", b"CONT", b"\r",
                  b"\x01", b"\\\nCONT x", b"\xa0", b"\x80", b" "]
        file = b"".join(rng.choice(pieces) for _ in range(rng.randrange(1, 9)))
        if rng.random() < 0.7:
            file += b"\n"
        yield "short file %d %r" % (n, file), SAMPLE_MODEL, file, 60


def changed_values(name, model, t):
    """A table with each of its cells, rows, points and marks changed, and each of its counts."""
    for which in ("cells", "rows", "points", "marks"):
        for at, old in enumerate(getattr(t, which)):
            choices = [0, 1, old + 1, old - 1, 2]
            if which == "marks":
                choices = [0, 1, 2, 255]
            elif which == "rows":
                choices = [c for c in choices + [10 ** 6] if c >= 0]
            else:
                choices += [-1, 10 ** 18, 2 ** 63 - 1, -2 ** 63]
            for v in sorted(set(choices) - {old}):
                changed = t.copy()
                getattr(changed, which)[at] = v
                yield "%s, %s %d is %d" % (name, which, at, v), model, changed, 20, 700
    for count in ("objects", "cells_used", "points_used"):
        old = getattr(t, count)
        for v in (0, 1, old - 1, old + 1, 2 ** 62, 2 ** 64 - 1):
            if v >= 0 and v != old:
                changed = t.copy()
                setattr(changed, count, v)
                yield "%s, %s is %d" % (name, count, v), model, changed, 20, 700


def damaged_tables(rng):
    """Tables of accepted files, changed cell by cell, and written."""
    short_model = one(X_, L_)
    short = frame(b"OBJE a xy", b"STPT 1.0 1.0", b"ARCP 2.0 2.0", b"LIPT 3.0 3.0", b"ELIN", b"OBJE b @", b"ELIN")
    refs = (head() + o.topic(b"N") + o.table(b"A") + E + o.table(b"B", 1) + R_ + P_ + o.date(b"D", 1)
            + o.number(b"Z", (2, -500, 500), 1) + o.end())
    refs_file = file_of([b"SCNT", b"////", b"MTID T", b"MODL M", b"TOPI N", b"TABL A", b"OBJE a 2", b"OBJE b 0",
                         b"ETAB", b"TABL B", b"OBJE c b 1.0 2.0 19991231 -5.00", b"OBJE d @@", b"ETAB", b"ETOP",
                         b"EMOD", b"ENDE"])
    for name, model, file in (("sample", SAMPLE_MODEL, SAMPLE_FILE), ("short", short_model, short),
                              ("references", refs, refs_file), ("rich", RICH_MODEL, file_of(RICH_LINES))):
        t = lent_of(model, file)
        for width in (16, 17, 20, 65535):
            yield "%s, width %d" % (name, width), model, t, width, 700
        yield from changed_values(name, model, t)
        spare = lent_of(model, file, 3)
        spare.cells[-1], spare.points[-1] = 77, 77
        yield "%s with room behind" % name, model, spare, 20, 700
        for n in range(30):
            changed = t.copy()
            for _ in range(rng.choice((1, 2))):
                changed.text[rng.randrange(len(t.text))] = rng.choice(b" \t\n@\\kpx\x00\xd7\xe4")
            yield "%s, text changed %d" % (name, n), model, changed, rng.choice((16, 17, 20, 65535)), 700


RANDOM_MODELS = 200


def random_cases(rng, count):
    """Random models, each with a good file, cuts and damages of it, and its table written whole and damaged."""
    for n in range(count):
        model = random_model(rng)
        m = o.decode(model)
        special = bytes([m.blank, m.undefined, m.mark])
        lines = random_lines(rng, m)
        file = cut(rng, bytes([m.mark]), lines, rng.choice((0, 0.2)), rng.choice((0, 0.3)))
        r = o.read(model, file, o.LISTING_ROOMS)
        assert r.answer[0] == 0, (r.answer, file)
        yield "random %d" % n, "listing", (model + file,)
        for k in range(3):
            yield "random %d damaged %d" % (n, k), "listing", (model + random_damage(rng, file, special),)
        rooms_ = o.Rooms(len(file), len(m.topics) + len(m.tables), max(r.answer[1] - rng.randrange(2), 0),
                         max(r.answer[2] - rng.randrange(2), 0), max(4 * r.answer[3] - rng.randrange(2), 0))
        yield "random %d with rooms" % n, "read", (model, file, rooms_)
        t = lent_of(model, file)
        yield "random %d written" % n, "write", (model, t, rng.choice((16, 17, 20, 33, 80, 65535)), 3000)
        for k in range(2):
            changed = t.copy()
            which = rng.choice([w for w in ("cells", "cells", "rows", "points", "marks", "text") if getattr(t, w)])
            values = getattr(changed, which)
            at = rng.randrange(len(values))
            choices = [0, 1, 2, values[at] + 1, max(values[at] - 1, 0), rng.choice(values)]
            if which in ("cells", "points"):
                choices += [-1, -values[at], values[at] - 1]
            elif which == "text":
                choices = list(b" @x\\") + list(special)
            values[at] = rng.choice(choices) % (256 if which in ("text", "marks") else 2 ** 64)
            if which in ("cells", "points") and values[at] >= 2 ** 63:
                values[at] -= 2 ** 64
            yield "random %d changed %d" % (n, k), "write", (model, changed, rng.choice((16, 20, 65535)), 3000)
        changed = with_wrong_day(rng, m, t)
        if changed:
            lines = o.Lines(m, changed).all()
            yield "random %d, a wrong day" % n, "listing", (model + cut(rng, bytes([m.mark]), lines),)
            yield "random %d, a wrong day to be written" % n, "write", (model, changed, 80, 3000)


def written_bytes():
    """Every byte in a text and in an identification of a lent table."""
    model = one(Y)
    t = lent_of(model, frame(b"OBJE ab xy"))
    at, text_at = t.cells[1] + 1, t.cells[4] + 1
    for c in range(256):
        for place, what in ((at, "an identification"), (text_at, "a text")):
            changed = t.copy()
            changed.text[place] = c
            yield "byte %02X in %s to be written" % (c, what), model, changed, 20, 200


def generated():
    """(name, call, arguments)"""
    rng = random.Random(1999)
    for source in (codes_at_states(), undefined_everywhere(), undefined_rows(), values(), damaged(rng, 400),
                   cuts(rng, 150), other_special_bytes(rng)):
        for name, model, file in source:
            yield name, "listing", (model + file,)
    for source in (bad_models(rng, 200), model_borders()):
        for name, model in source:
            yield name, "check", (model,)
    for name, model, file, rooms_ in all_rooms():
        yield name, "read", (model, file, rooms_)
    for source in (unfold_rooms(), unfoldings(rng, 300)):
        for name, model, file, room in source:
            yield name, "unfold", (model, file, room)
    for name, model, lent, width, room in damaged_tables(rng):
        yield name, "write", (model, lent, width, room)
    yield from random_cases(random.Random(2026), RANDOM_MODELS)
    for name, model, lent, width, room in written_bytes():
        yield name, "write", (model, lent, width, room)
