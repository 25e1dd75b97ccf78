"""Cases of reading beside those of tests/cases, from these and generated ones: (name, model, file, rooms, index length,
seed, answer room). Always the same cases in the same order. `known` are the cases of tests/cases that are read: (name,
model, file, rooms)."""

import random

import generated
import oracle as o
import parts

SEEDS = (0, 1, 663608941, 2 ** 30, 2 ** 32 - 1, 2 ** 63, 2 ** 64 - 1)
ENOUGH = o.Rooms(1000, 10, 20, 200, 80)


def index_lengths(rooms):
    """None, too short, just usable, and roomy."""
    return (0, 1, rooms.rows, rooms.rows + 1, 3 * rooms.rows + 1)


def good_files(known):
    """Models with a file that is read: the known ones, and random ones."""
    seen = set()
    for name, model, file, rooms in known:
        if (model, file) not in seen and o.read(model, file, o.LISTING_ROOMS).answer[0] == 0:
            yield name, model, file
        seen.add((model, file))
    rng = random.Random(1895)
    for n in range(120):
        model = parts.random_model(rng)
        m = o.decode(model)
        yield "good %d" % n, model, parts.cut(rng, bytes([m.mark]), parts.random_lines(rng, m),
                                              rng.choice((0, 0.2, 0.5)), rng.choice((0, 0.3)))


def just_enough(model, file):
    """The least rooms in which a good file is read."""
    r = o.read(model, file, o.LISTING_ROOMS)
    m = o.decode(model)
    return o.Rooms(len(o.text_of(o.logical_lines(m.mark, file))), len(m.topics) + len(m.tables), r.answer[1],
                   r.answer[2], 4 * r.answer[3])


def rooms_just_enough(known):
    """Each room just enough and one less, and three more cells for points, which are no room for one."""
    for name, model, file in good_files(known):
        least = just_enough(model, file)
        yield name + ", just enough", model, file, least
        for which in ("text", "marks", "rows", "cells", "points"):
            if getattr(least, which):
                fewer = o.Rooms(least.text, least.marks, least.rows, least.cells, least.points)
                setattr(fewer, which, getattr(least, which) - 1)
                yield "%s, one of %s less" % (name, which), model, file, fewer
        more = o.Rooms(least.text, least.marks, least.rows, least.cells, least.points + 3)
        yield name + ", three more for points", model, file, more


def changed_samples():
    """The sample with each byte changed, left out and doubled; with lines left out, doubled and swapped."""
    file, lines = parts.SAMPLE_FILE, parts.SAMPLE_LINES
    for at, byte in enumerate(file):
        others = {*b"\x00\t\n\r @\\k1.-/CO", (byte + 1) % 256, (byte - 1) % 256, byte ^ 0x20, 0xA0, 0xE4}
        for other in sorted(others - {byte}):
            yield "byte %d as %02X" % (at, other), file[:at] + bytes([other]) + file[at + 1:]
        yield "byte %d left out" % at, file[:at] + file[at + 1:]
        yield "byte %d doubled" % at, file[:at + 1] + file[at:]
    for n in range(len(lines)):
        yield "line %d left out" % (n + 1), parts.file_of(lines[:n] + lines[n + 1:])
        yield "line %d doubled" % (n + 1), parts.file_of(lines[:n + 1] + lines[n:])
        for k in range(n):
            swapped = list(lines)
            swapped[k], swapped[n] = lines[n], lines[k]
            yield "lines %d and %d swapped" % (k + 1, n + 1), parts.file_of(swapped)
    for at in range(len(file)):
        if file[at:at + 1] != b"\n":
            yield "cut before byte %d" % at, file[:at] + b"\\\nCONT " + file[at:]
            yield "cut before byte %d without its space" % at, file[:at] + b"\\\nCONT" + file[at:]


def many_objects(count):
    """So many objects of one table, each with a reference to another."""
    rng = random.Random(count)
    names = [b"o%d" % n for n in range(count)]
    rng.shuffle(names)
    return parts.one(parts.R_), parts.frame(*[b"OBJE %s %s" % (name, rng.choice(names)) for name in names])


def plain_cases(known):
    """(name, model, file, rooms)"""
    yield from known
    for name, call, arguments in generated.generated():
        if call == "read":
            yield (name,) + arguments
        elif call == "listing":
            yield (name,) + o.split_input(arguments[0]) + (o.LISTING_ROOMS,)
    yield from rooms_just_enough(known)
    for name, file in changed_samples():
        yield name, parts.SAMPLE_MODEL, file, ENOUGH


def all_cases(known):
    rng = random.Random(1945)
    for name, model, file, rooms in plain_cases(known):
        yield (name, model, file, rooms, rng.choice(index_lengths(rooms)), rng.choice(SEEDS),
               rng.choice((4, 4, 4, 0, 1, 2, 3, 7)))
    for count in (1, 2, 50, 1000):
        model, file = many_objects(count)
        rooms = just_enough(model, file)
        for seed in SEEDS:
            for index in index_lengths(rooms):
                yield "%d objects, index %d, seed %d" % (count, index, seed), model, file, rooms, index, seed, 4
