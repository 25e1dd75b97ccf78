"""Holds the independent implementation's months against Python's calendar, where that has the year, and against 400
years. Its exit status is 0 only where all agree."""

import calendar

import oracle


def months():
    """(what, expected, got)"""
    for year in range(1, 10000):
        expected = [0] + [calendar.monthrange(year, month)[1] for month in range(1, 13)] + [0]
        yield "days in %04d" % year, expected, [oracle.days_of(year, month) for month in range(14)]
    yield "months of 2000", list(range(1, 13)), [m for m in range(100) if oracle.days_of(2000, m)]
    yield "leap years from 0 to 399", 97, sum(oracle.days_of(year, 2) == 29 for year in range(400))
    yield "days from 0 to 399", 146097, sum(oracle.days_of(year, month) for year in range(400) for month in range(14))


if __name__ == "__main__":
    wrong = ["%s: expected %s, got %s" % said for said in months() if said[1] != said[2]]
    print("\n".join(wrong) or "the independent implementation's months are those of the calendar")
    raise SystemExit(bool(wrong))
