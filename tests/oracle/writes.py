"""Cases of writing beside those of tests/cases, from these and generated ones: (name, model, table, width, room, index
length, seed, answer room). Always the same cases in the same order. `known` are the cases of tests/cases that are
written, (name, model, table, width, room), and `read` those that are read, (name, model, file, rooms)."""

import random

import generated
import oracle as o
import parts
import reads

WIDTHS = (16, 17, 20, 33, 80, 65535)


def starts(m, t):
    """The cells that are starts in the text, each with the length of its stretch."""
    for row in t.rows[:t.objects]:
        yield row + 1, t.cells[row + 2]
        at = row + 3
        for a in m.tables[t.cells[row]].attributes:
            if a.kind == o.TEXT and t.cells[at]:
                yield at + 1, t.cells[at] - 1
            at += 2 * a.pairs()


def moved(rng, m, t):
    """The same table with its identifications and texts elsewhere in the text, in another order, with other bytes
    between them."""
    new, text = t.copy(), []
    places = list(starts(m, t))
    rng.shuffle(places)
    for cell, length in places:
        text += [rng.randrange(256) for _ in range(rng.randrange(4))]
        new.cells[cell] = len(text)
        text += t.text[t.cells[cell]:t.cells[cell] + length]
    new.text = text
    return new


def other(rng, which, values, at):
    """Another value than the one at this place."""
    old = values[at]
    if which == "marks":
        return rng.choice([v for v in (0, 1, 2, 255) if v != old])
    near = [old + 1, max(old - 1, 0), 0, 1, 2, rng.choice(values)]
    if which == "rows":
        near += [10 ** 6, 2 ** 63, 2 ** 64 - 1]
    else:
        near += [-1, old - 1, -old, 10 ** 18, 2 ** 63 - 1, -2 ** 63]
    return rng.choice([v for v in near if v != old])


def damages(rng, m, t):
    """(what, table): one cell, row, mark, point, count, lent length, start or date changed."""
    for which in ("cells", "cells", "rows", "marks", "points"):
        values = getattr(t, which)
        if values:
            at, new = rng.randrange(len(values)), t.copy()
            getattr(new, which)[at] = other(rng, which, values, at)
            yield "%s %d is %d" % (which, at, getattr(new, which)[at]), new
    for count in ("objects", "cells_used", "points_used"):
        old, new = getattr(t, count), t.copy()
        near = (0, 1, old - 1, old + 1, 2 ** 63, 2 ** 64 - 1)
        setattr(new, count, rng.choice([v for v in near if v >= 0 and v != old]))
        yield "%s is %d" % (count, getattr(new, count)), new
    for which in ("text", "marks", "rows", "cells", "points"):
        if getattr(t, which):
            new = t.copy()
            getattr(new, which).pop()
            yield "%s one shorter" % which, new
    places = list(starts(m, t))
    if places:
        (cell, length), new = rng.choice(places), t.copy()
        new.cells[cell] = rng.choice((-1, 0, len(t.text) - length, len(t.text) - length + 1, 2 ** 63 - 1, -2 ** 63))
        yield "start in cell %d is %d" % (cell, new.cells[cell]), new
    new = parts.with_wrong_day(rng, m, t)
    if new:
        yield "a wrong day", new


def tables_written(rng, read):
    """Each table at several widths: into a room just enough, one byte less and some more; moved in its text, with room
    behind its counts, and damaged."""
    for name, model, file in reads.good_files(read):
        m, t = o.decode(model), parts.lent_of(model, file)
        for width in rng.sample(WIDTHS, 2):
            size = o.write(model, t, width, 1 << 16)[0][1]
            yield "%s, width %d, just enough" % (name, width), model, t, width, size
            yield "%s, width %d, one byte less" % (name, width), model, t, width, size - 1
            yield "%s, width %d, moved" % (name, width), model, moved(rng, m, t), width, size + rng.randrange(9)
        longer = t.copy()
        for which in ("text", "marks", "rows", "cells", "points"):
            getattr(longer, which).extend(rng.randrange(256) for _ in range(rng.randrange(5)))
        yield name + ", more behind the counts", model, longer, rng.choice(WIDTHS), size + 99
        for what, new in damages(rng, m, t):
            yield "%s, %s" % (name, what), model, new, rng.choice(WIDTHS), size + 99


def sample_widths():
    """The sample at every width up to where no line is cut, at the borders, and under a bad model."""
    t = parts.lent_of(parts.SAMPLE_MODEL, parts.SAMPLE_FILE)
    for width in (*range(24), 65534, 65535, 65536, 2 ** 32, 2 ** 32 + 16, 2 ** 63, 2 ** 64 - 1):
        for room in (0, 168, 169, 175, 176, 200):
            yield "the sample, width %d, room %d" % (width, room), parts.SAMPLE_MODEL, t, width, room
    for length in range(0, len(parts.SAMPLE_MODEL), 7):
        yield "the sample under a model of %d bytes" % length, parts.SAMPLE_MODEL[:length], t, 80, 200


def many_objects(count):
    model, file = reads.many_objects(count)
    return model, parts.lent_of(model, file)


def index_lengths(t):
    """None, too short, just usable, and roomy."""
    return (0, 1, len(t.rows), len(t.rows) + 1, 3 * len(t.rows) + 1)


def plain_cases(rng, known, read):
    """(name, model, table, width, room)"""
    yield from known
    for name, call, arguments in generated.generated():
        if call == "write":
            yield (name,) + arguments
    yield from tables_written(rng, read)
    yield from sample_widths()


def all_cases(known, read):
    rng = random.Random(1912)
    for name, model, t, width, room in plain_cases(rng, known, read):
        yield (name, model, t, width, room, rng.choice(index_lengths(t)), rng.choice(reads.SEEDS),
               rng.choice((4, 4, 4, 0, 1, 2, 3, 7)))
    for count in (1, 2, 50, 1000):
        model, t = many_objects(count)
        size = o.write(model, t, 80, 1 << 20)[0][1]
        for seed in reads.SEEDS if count < 1000 else reads.SEEDS[:2]:
            for index in index_lengths(t):
                yield "%d objects, index %d, seed %d" % (count, index, seed), model, t, 80, size, index, seed, 4


def is_read_again(model, file, lent, width):
    """Whether a written file reads as the table (starts aside), and its table is written as that file again."""
    m = o.decode(model)
    try:
        again = parts.lent_of(model, file)
    except AssertionError:
        return False
    counts = ("objects", "cells_used", "points_used")
    if any(getattr(again, n) != getattr(lent, n) for n in counts) or again.rows != lent.rows[:lent.objects]:
        return False
    cells, points = lent.cells[:lent.cells_used], lent.points[:4 * lent.points_used]
    if o.without_starts(m, again.rows, again.cells) != o.without_starts(m, again.rows, cells):
        return False
    if again.points != points or again.marks != lent.marks[:len(again.marks)]:
        return False
    texts = [[bytes(t.text[c[r + 1]:c[r + 1] + c[r + 2]]) for r in again.rows]
             for t, c in ((again, again.cells), (lent, cells))]
    if texts[0] != texts[1] or any(len(line) > width for line in file.split(b"\n")):
        return False
    return o.write(model, again, width, len(file)) == ((0, len(file), 0, 0), list(file))
