"""The bytes that a file of cases says in words: lines with their escapes, and compiled models."""

import contextlib
import re
import struct

PIECE = re.compile(r"[^\\]|\\(?:(?P<own>[tsrn\\])|x(?P<hex>[0-9a-f]{2})|(?P<count>[0-9]+)\*(?P<many>\\.x?|.))")
OWN = {"t": b"\t", "s": b" ", "r": b"\r", "n": b"\n", "\\": b"\\"}
USUAL = (("transfer", "T", "_", "@", "\\\\"), ("model", "M"))
FORMS = {"straights": 1, "arcs": 2}


class Wrong(Exception):
    """What is wrong in a line of a file of cases, and the line's number where it is not the block's first."""

    def __init__(self, what, at=None):
        Exception.__init__(self, what)
        self.at = at


def need(condition, what):
    if not condition:
        raise Wrong(what)


@contextlib.contextmanager
def told(at):
    """Says of what is wrong in a line its number."""
    try:
        yield
    except Wrong as wrong:
        raise Wrong(str(wrong), wrong.at or at) from None
    except (ValueError, IndexError):
        raise Wrong("words are missing, or there are too many", at) from None


def unescaped(words):
    """The bytes that these words stand for."""
    out, at = b"", 0
    while at < len(words):
        piece = PIECE.match(words, at)
        need(piece, "an escape is unknown: %s" % words[at:at + 2])
        end = piece.end()
        if piece["own"]:
            out += OWN[piece["own"]]
        elif piece["hex"]:
            out += bytes([int(piece["hex"], 16)])
        elif piece["count"]:
            end = end + 2 if piece["many"] == "\\x" else end
            out += unescaped(words[piece.start("many"):end]) * int(piece["count"])
        else:
            out += piece[0].encode("ascii")
        at = end
    return out


def number(word, least=0, greatest=2 ** 64 - 1):
    need(re.fullmatch(r"-?[0-9]+", word), "a number is due, not %s" % word)
    need(least <= int(word) <= greatest, "%s is not from %d to %d" % (word, least, greatest))
    return int(word)


def repeated(line):
    """A line, or as many as it says, with n from 0."""
    times = re.fullmatch(r"([1-9][0-9]*) times (.*)", line, re.S)
    if not times:
        return [line]
    return [times[2].replace("{n}", str(n)) for n in range(int(times[1]))]


def record(kind, payload=b""):
    need(len(payload) < 65536 and kind < 65536, "the record is too long, or its kind too high")
    return struct.pack("<HH", len(payload), kind) + payload


def components(words):
    """The components that these words say, decimals before bounds."""
    out, count, decimals = b"", 0, None
    for word in words:
        bounds = re.fullmatch(r"(-?[0-9]+)\.\.(-?[0-9]+)", word)
        if bounds:
            need(decimals is not None, "the decimals are missing")
            least, greatest = (number(b, -2 ** 63, 2 ** 63 - 1) for b in bounds.groups())
            out, count = out + struct.pack("<Bqq", decimals, least, greatest), count + 1
        else:
            decimals = number(word, 0, 255)
    return out, count


def table_number(word, tables, topic):
    """The number of the table that a reference names."""
    if word.isdigit():
        return number(word, 0, 65535)
    found = [n for n, table in enumerate(tables) if table == (topic, word)]
    need(len(found) == 1, "the topic has no table %s" % word)
    return found[0]


def attribute(words, tables, topic):
    """An attribute's record: name, type, its parameters, optional."""
    optional = words[-1] == "optional"
    name, kind, *rest = words[:-1] if optional else words
    need(kind in PARAMETERS, "the type is unknown: %s" % kind)
    code, parameters = PARAMETERS[kind](rest, tables, topic)
    return record(5, bytes([optional, code]) + parameters + named(name))


def reference_parameters(words, tables, topic):
    need(len(words) == 1, "a reference has the table that it refers to")
    return 1, struct.pack("<H", table_number(words[0], tables, topic))


def coordinate_parameters(words, tables, topic):
    content, count = components(words)
    need(count in (2, 3), "a coordinate has two or three components")
    return count, content


def number_parameters(words, tables, topic):
    content, count = components(words)
    need(count == 1, "a number has one component")
    return 4, content


def counted(code, what):
    """The parameters of a type that has one number."""
    def parameters(words, tables, topic):
        need(len(words) == 1, what)
        return code, struct.pack("<H", number(words[0], 0, 65535))
    return parameters


def date_parameters(words, tables, topic):
    need(not words, "a date has no parameters")
    return 6, b""


def line_parameters(words, tables, topic):
    forms = [word for word in words if word in FORMS]
    content, count = components([word for word in words if word not in FORMS])
    need(forms and count in (2, 3), "a line has straights, arcs or both, and two or three components")
    return 8, bytes([sum(FORMS[word] for word in forms), count]) + content


def any_parameters(words, tables, topic):
    """The parameters of an attribute of any type: bytes, each an escape, then components."""
    code, *rest = words
    count = [word.startswith("\\") for word in rest + ["0"]].index(False)
    return number(code, 0, 255), b"".join(map(unescaped, rest[:count])) + components(rest[count:])[0]


PARAMETERS = {"reference": reference_parameters, "coordinate": coordinate_parameters, "number": number_parameters,
              "text": counted(5, "a text has its longest length"), "date": date_parameters,
              "enumeration": counted(7, "an enumeration has its count of leaves"), "line": line_parameters,
              "type": any_parameters}


def named(word):
    return b"" if word == '""' else unescaped(word)


def with_usual(lines):
    """The lines of a model, each with its number, with those that need not be said."""
    first = [line[0] for _, line in lines]
    if first[:1] in (["bare"], ["like"]):
        return lines[first[0] == "bare":]
    transfer = [(None, USUAL[0])] if first[:1] != ["transfer"] else []
    named_at = 1 - len(transfer)
    name = [(None, USUAL[1])] if first[named_at:named_at + 1] != ["model"] else []
    need("transfer" not in first[1:] and "model" not in first[named_at + 1:], "transfer and model come first")
    end = [] if "end" in first or "no" in first else [(None, ("end",))]
    return transfer + lines[:named_at] + name + lines[named_at:] + end


def tables_of(lines):
    """Each table with the number of its topic."""
    tables, topic = [], 0
    for _, line in lines:
        topic += line[0] == "topic"
        if line[0] == "table":
            tables.append((topic, line[1]))
    return tables


def model(lines, known):
    """The bytes of a model, from its lines with their numbers; `known` are the models before it."""
    lines = with_usual([(at, tuple(part.split())) for at, line in lines for many in repeated(line)
                        for part in many.split("; ")])
    tables, out, topic = tables_of(lines), b"", 0
    for at, line in lines:
        topic += line[0] == "topic"
        with told(at):
            if line[0] == "less":
                need(number(line[1]) <= len(out), "the model is shorter")
                out = out[:len(out) - number(line[1])]
            else:
                out += model_line(line, tables, topic, known)
    return out


def model_line(line, tables, topic, known):
    """What a line of a model adds."""
    word, rest = line[0], line[1:]
    if word == "transfer":
        need(len(rest) in (1, 4), "a transfer has a name, and may have its three bytes")
        return record(1, b"".join(map(unescaped, rest[1:] or USUAL[0][2:])) + named(rest[0]))
    if word in ("model", "topic"):
        need(len(rest) == 1, "a %s has a name" % word)
        return record(2 if word == "model" else 3, named(rest[0]))
    if word == "table":
        need(rest[1:] in ((), ("optional",)), "only optional may stand behind a table")
        return record(4, bytes([len(rest) == 2]) + named(rest[0]))
    if word == "record":
        return record(number(rest[0], 0, 65535), unescaped(" ".join(rest[1:])))
    if word == "bytes":
        return unescaped(" ".join(rest))
    if word == "like":
        need(" ".join(rest) in known, "there is no model %s" % " ".join(rest))
        return known[" ".join(rest)]
    if word in ("end", "no"):
        need(line in (("end",), ("no", "end")), "no attribute is named %s" % word)
        return record(6) if word == "end" else b""
    return attribute(line, tables, topic)
