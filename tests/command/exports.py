"""What export has to write, once more and in another way: from the fields of the file's lines, without a table."""
import decimal
import itertools

import oracle


def quoted(field, blank=None):
    text = field.decode("latin-1")
    return '"%s"' % (text.replace(chr(blank), " ") if blank else text).replace('"', '""')


def number(field):
    value = decimal.Decimal(field.decode())
    return format(value if value else abs(value), "f")


def position(fields):
    return " ".join(map(number, fields))


def in_wkt(kind, attribute, inside):
    return "%s%s (%s)" % (kind, " Z" if len(attribute.components) == 3 else "", inside)


def polyline(attribute, lines):
    """A line attribute from its lines before ELIN: its segments, then those of one form joined."""
    segments, first, arc = [], None, []
    for code, *fields in lines:
        point = position(fields)
        if code == b"ARCP":
            arc = [point]
            continue
        if code == b"LIPT":
            segments.append((bool(arc), [first, *arc, point]))
        first, arc = point, []
    if not segments:
        return ""
    if not any(arc for arc, _ in segments):
        return '"%s"' % in_wkt("LINESTRING", attribute, ",".join([segments[0][1][0]] + [s[1][1] for s in segments]))
    members = []
    for arc, run in itertools.groupby(segments, lambda segment: segment[0]):
        run = [points for _, points in run]
        inside = ",".join(run[0] + [point for points in run[1:] for point in points[1:]])
        members.append(in_wkt("CIRCULARSTRING", attribute, inside) if arc else "(%s)" % inside)
    return '"%s"' % in_wkt("COMPOUNDCURVE", attribute, ",".join(members))


def value(m, attribute, fields):
    """An attribute from its fields, none where it is undefined."""
    if not fields or fields[0] == bytes([m.undefined]):
        return ""
    if attribute.kind in (oracle.COORDINATE2, oracle.COORDINATE3):
        return '"%s"' % in_wkt("POINT", attribute, position(fields))
    if attribute.kind == oracle.DATE:
        digits = fields[0].decode()
        return "-".join((digits[:4], digits[4:6], digits[6:]))
    if attribute.kind == oracle.ENUMERATION:
        return str(int(fields[0]))
    if attribute.kind == oracle.NUMBER:
        return number(fields[0])
    return quoted(fields[0], m.blank if attribute.kind == oracle.TEXT else None)


def row(m, table, identification, fields, lines):
    """One line of CSV from an object's fields and the lines behind them; these are taken away."""
    if bytes([m.undefined]) * 2 in fields:
        fields = fields[:fields.index(bytes([m.undefined]) * 2)]
    columns = [quoted(identification)]
    for attribute in table.attributes:
        if attribute.kind == oracle.LINE:
            until = [line[0] for line in lines].index(b"ELIN")
            columns.append(polyline(attribute, lines[:until]))
            del lines[:until + 1]
        else:
            columns.append(value(m, attribute, fields[:attribute.fields()]))
            fields = fields[attribute.fields():]
    return ",".join(columns) + "\n"


def rows(model, file):
    """The CSV files of a right file, by their names."""
    m = oracle.decode(model)
    tables = {b"%s.%s.csv" % (m.topics[table.topic], table.name): table for table in m.tables}
    found = {name: ",".join(["_tid"] + [a.name.decode() for a in table.attributes]) + "\n"
             for name, table in tables.items()}
    lines = [line.split() for line in oracle.logical_lines(m.mark, file)]
    del lines[:lines.index([b"////"]) + 1]
    topic = name = None
    while lines:
        code, *fields = lines.pop(0) or [b""]
        if code == b"TOPI":
            topic = fields[0][:24]
        elif code == b"TABL":
            name = b"%s.%s.csv" % (topic, fields[0][:24])
        elif code == b"OBJE":
            found[name] += row(m, tables[name], fields[0], fields[1:], lines)
    return {name.decode(): content.encode() for name, content in found.items()}
