#!/usr/bin/env python3
"""Makes the input of the program `run_vectors`: random calls, and what each must answer.

Run from the root of the repository, and then check:

    python3 scripts/make_run_vectors.py > crates/run_vectors/stdin
    cd crates/run_vectors && rt run < stdin

The calls are sent through three views (declination, reversed, mirrored, from the top) over a survey journal and,
the same calls, over a survey table. This script knows nothing of the library: it models a survey by a Python list,
a journal by how many entries are free, a table by its 256 places, and a view by arithmetic on bearings.

Format: whole numbers parted by blanks.
  line 1: declination, entries supplied to the journal, calls, legs left in the journal, legs left in the table
  a line for each call: its kind, six arguments, the answer over the journal, the answer over the table.
    kinds: 0 enter (from to bearing weight wet limit), 1 strike (start end), 2 amend (start end weight wet limit),
    3 count, 4 leg (number), 5 may enter, 6 may amend; an argument that the kind has not is 0.
    an answer is the number of the refusal, 0 where accepted, and six values, those not told 0.
  a line for each leg that is left below the views, in the journal and then in the table: its six numbers

The file `stdout` beside it has what the program must print: every answer and every leg agrees.
"""
import random

SEED = 20240611
DECLINATION = 4321
ENTRIES = 400
CALLS = 1000
TABLE = 256


def ends(leg):
    """The two ends of a leg: station and bearing."""
    start, stop, bearing = leg[0], leg[1], leg[2]
    return {(start, bearing), (stop, (bearing + 1800) % 3600)}


def attribute_fault(weight, wet, limit):
    for which, (value, most) in enumerate([(weight, 1000), (wet, 1), (limit, 999)], start=1):
        if value > most:
            return (4, which)
    return None


def range_fault(legs, start, end):
    return (6, len(legs)) if start > end or end > len(legs) else None


class Survey:
    """A list of legs: a journal of so many free entries, or a table where `entries` is None."""

    def __init__(self, entries):
        self.legs = []
        self.entries = entries

    def may_enter(self):
        return self.entries > 0 if self.entries is not None else len(self.legs) < TABLE

    def may_amend(self):
        return self.entries > 0 if self.entries is not None else True

    def changed(self):
        if self.entries is not None:
            self.entries -= 1
        return (0, 0)

    def enter(self, leg):
        if not (1 <= leg[0] <= 9999 and 1 <= leg[1] <= 9999):
            return (1, 0)
        if leg[0] == leg[1]:
            return (2, leg[0])
        if leg[2] > 3599:
            return (3, leg[2])
        fault = attribute_fault(*leg[3:])
        if fault:
            return fault
        for i, other in enumerate(self.legs):
            if ends(other) & ends(leg):
                return (5, i)
        if not self.may_enter():
            return (7, len(self.legs))
        self.legs.append(leg)
        return self.changed()

    def strike(self, start, end):
        fault = range_fault(self.legs, start, end)
        if fault:
            return fault
        if not self.may_amend():
            return (7, len(self.legs))
        del self.legs[start:end]
        return self.changed()

    def amend(self, start, end, weight, wet, limit):
        fault = attribute_fault(weight, wet, limit) or range_fault(self.legs, start, end)
        if fault:
            return fault
        if not self.may_amend():
            return (7, len(self.legs))
        for i in range(start, end):
            self.legs[i] = self.legs[i][:3] + (weight, wet, limit)
        return self.changed()

    def call(self, kind, args):
        if kind == 0:
            return self.enter(tuple(args))
        if kind == 1:
            return self.strike(*args[:2])
        if kind == 2:
            return self.amend(*args[:5])
        if kind == 3:
            return (0, len(self.legs))
        if kind == 4:
            return (0,) + self.legs[args[0]] if args[0] < len(self.legs) else (8, len(self.legs))
        return (0, int(self.may_enter() if kind == 5 else self.may_amend()))


def below(leg):
    """The leg that stands below the views: 3,600 minus the bearing of the leg seen from its other end, less the declination."""
    start, stop, bearing, *attributes = leg
    bearing = (bearing - DECLINATION) % 3600
    start, stop, bearing = stop, start, (bearing + 1800) % 3600
    return (start, stop, (3600 - bearing) % 3600, *attributes)


def random_attributes(rng):
    one_in = lambda n: rng.randrange(n) == 0
    return (
        1001 if one_in(40) else rng.randrange(1001),
        2 if one_in(40) else rng.randrange(2),
        1000 if one_in(40) else rng.randrange(1000),
    )


def random_leg(rng):
    start, stop = rng.randrange(1, 81), rng.randrange(1, 81)
    bearing = rng.choice([rng.randrange(3600), 100 * rng.randrange(36), 3599])
    fault = rng.randrange(60)
    if fault == 0:
        start = rng.choice([0, 10000, 4000000000])
    elif fault == 1:
        stop = rng.choice([0, 10000, 4000000000])
    elif fault == 2:
        bearing = rng.choice([3600, 3601, 5399, 5400, 7200, 4294967295])
    return (start, stop, bearing) + random_attributes(rng)


def random_range(rng, count):
    """Mostly a short range of the legs, sometimes an empty one, one to the end, or none at all."""
    start = rng.randrange(count + 1)
    end = min(count, start + rng.choice([0, 1, 1, 2]))
    return rng.choice([(start, end)] * 7 + [(count, count), (max(count, 1) - 1, count + 1), (end + 1, start)])


def random_call(rng, count):
    kind = rng.choices(range(7), [60, 6, 9, 6, 12, 4, 4])[0]
    if kind == 0:
        args = random_leg(rng)
    elif kind == 1:
        args = random_range(rng, count)
    elif kind == 2:
        args = random_range(rng, count) + random_attributes(rng)
    elif kind == 4:
        args = (rng.randrange(count + 3),)
    else:
        args = ()
    return kind, list(args) + [0] * (6 - len(args))


def padded(answer):
    return list(answer) + [0] * (7 - len(answer))


def main():
    rng = random.Random(SEED)
    journal, table = Survey(ENTRIES), Survey(None)
    rows = []
    for _ in range(CALLS):
        kind, args = random_call(rng, len(rng.choice([journal, table]).legs))
        rows.append([kind] + args + padded(journal.call(kind, args)) + padded(table.call(kind, args)))
    print(DECLINATION, ENTRIES, CALLS, len(journal.legs), len(table.legs))
    for row in rows:
        print(*row)
    for leg in journal.legs + table.legs:
        print(*below(leg))


main()
