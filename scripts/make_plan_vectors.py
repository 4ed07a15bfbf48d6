#!/usr/bin/env python3
"""Random caves with what planning them must answer, by a model of its own.

Run from the root of the repository:

    python3 scripts/make_plan_vectors.py > crates/plan_vectors/stdin

Each cave is one line of whole numbers:

    legs outer_leg outer_side, then from to bearing for each leg,
    then the number and the value of the answer (0 0 where it is accepted),
    and where it is accepted: stations faces, then for each face, by its lowest end,
    the lowest end and the demand plus one.

The model keeps the rotation of each station as a sorted list and the faces as lists of ends that it
traces; it shares no code and no shortcut with the library. The seed is fixed, so the output is too.
"""
import random
import sys


def ends_by_station(legs):
    """station -> its ends in clockwise order, as (bearing, end) pairs sorted by bearing"""
    around = {}
    for i, (a, b, bearing) in enumerate(legs):
        around.setdefault(a, []).append((bearing, 2 * i))
        around.setdefault(b, []).append(((bearing + 1800) % 3600, 2 * i + 1))
    for ends in around.values():
        ends.sort()
    return {s: [e for _, e in ends] for s, ends in around.items()}


def components(legs):
    """the set of legs joined to leg 0, by a search over stations"""
    reached, todo, joined = set(), [legs[0][0]], set()
    while todo:
        s = todo.pop()
        if s in reached:
            continue
        reached.add(s)
        for i, (a, b, _) in enumerate(legs):
            if s in (a, b):
                joined.add(i)
                todo.extend((a, b))
    return joined


def traced_faces(legs, around):
    """the faces as lists of ends: walk out along an end, turn as far left as one can, until back"""
    place = {e: (s, k) for s, ends in around.items() for k, e in enumerate(ends)}
    left, faces = set(place), []
    while left:
        start = min(left)
        walk, e = [], start
        while True:
            walk.append(e)
            left.discard(e)
            other = e ^ 1
            s, k = place[other]
            there = around[s]
            e = there[(k + 1) % len(there)]
            if e == start:
                break
        faces.append(walk)
    return faces


def changes(ends):
    """how often the direction changes round a station"""
    out = [e % 2 == 0 for e in ends]
    return sum(1 for k in range(len(out)) if out[k] != out[(k + 1) % len(out)])


def answer(legs, leg, side):
    n = len(legs)
    if n == 0:
        return (9, 0, None)
    if n > 256:
        return (10, n, None)
    if leg >= n or side > 1:
        return (11, n, None)
    joined = components(legs)
    for i in range(n):
        if i not in joined:
            return (12, i, None)
    around = ends_by_station(legs)
    station_of = {e: s for s, ends in around.items() for e in ends}
    for e in range(2 * n):
        if changes(around[station_of[e]]) > 2:
            return (13, station_of[e], None)
    faces = traced_faces(legs, around)
    if len(around) - n + len(faces) != 2:
        return (14, len(faces), None)
    face_of = {e: k for k, walk in enumerate(faces) for e in walk}
    switches = [0] * len(faces)
    for ends in around.values():
        for k, e in enumerate(ends):
            after = ends[(k + 1) % len(ends)]
            # the angle lies clockwise of e, to the right as one goes out along it:
            # that is the left of the other end of the leg
            if e % 2 == 0 and after % 2 == 0:
                switches[face_of[e ^ 1]] += 1
    outer = face_of[2 * leg + side]
    told = []
    for k, walk in sorted(enumerate(faces), key=lambda f: min(f[1])):
        demand = switches[k] + 1 if k == outer else switches[k] - 1
        told.append((min(walk), demand))
    return (0, 0, (len(around), len(faces), told))


def valid(legs):
    """no station is left by two ends at one bearing, and no leg joins a station to itself"""
    seen = set()
    for a, b, bearing in legs:
        for key in ((a, bearing), (b, (bearing + 1800) % 3600)):
            if key in seen or a == b:
                return False
            seen.add(key)
    return True


def crossing(p, q, r, s):
    def turn(a, b, c):
        return (b[0] - a[0]) * (c[1] - a[1]) - (b[1] - a[1]) * (c[0] - a[0])

    if len({p, q, r, s}) < 4:
        return False
    return turn(p, q, r) * turn(p, q, s) <= 0 and turn(r, s, p) * turn(r, s, q) <= 0


def drawn(rng, points, tries, flips):
    """a cave drawn in the plane without crossings; water runs down but for some legs"""
    import math

    spots = []
    while len(spots) < points:
        spot = (rng.randrange(200), rng.randrange(200))
        if spot not in spots:
            spots.append(spot)
    legs, segments = [], []
    for _ in range(tries):
        i, j = rng.sample(range(points), 2)
        p, q = spots[i], spots[j]
        if (p[1], p[0]) < (q[1], q[0]):
            i, j, p, q = j, i, q, p
        if any({p, q} == {a, b} or crossing(p, q, a, b) for a, b in segments):
            continue
        if any(abs((q[0] - p[0]) * (r[1] - p[1]) - (q[1] - p[1]) * (r[0] - p[0])) < 400 and r not in (p, q) for r in spots):
            continue
        bearing = round(math.degrees(math.atan2(q[0] - p[0], q[1] - p[1])) * 10) % 3600
        a, b = i + 1, j + 1
        if rng.random() < flips:
            a, b, bearing = b, a, (bearing + 1800) % 3600
        if valid(legs + [(a, b, bearing)]):
            legs.append((a, b, bearing))
            segments.append((p, q))
    return legs


def joined_part(legs):
    """the legs joined to the first, stations as they are"""
    if not legs:
        return legs
    keep = components(legs)
    return [leg for i, leg in enumerate(legs) if i in keep]


def loose(rng, stations, count):
    """legs between random stations at random bearings"""
    legs = []
    while len(legs) < count:
        a, b = rng.sample(range(1, stations + 1), 2)
        leg = (a, b, rng.randrange(3600))
        if valid(legs + [leg]):
            legs.append(leg)
    return legs


def caves(rng):
    yield [(1, 2, 0)], 0, 0
    yield [(1, 2, 0), (2, 3, 1200), (3, 1, 2400)], 0, 0
    yield [(1, 2, 0), (2, 3, 1200), (3, 1, 2400)], 0, 1
    yield [(1, 2, 0), (3, 1, 2700), (1, 4, 1800), (5, 1, 900)], 0, 0
    yield [(1, 2, 0), (1, 2, 100), (1, 2, 200)], 0, 0
    yield [], 0, 0
    yield [(k + 1, k + 2, (k * 37) % 3600) for k in range(256)], 255, 1
    for k in range(93):
        kind = k % 8
        if kind < 4:
            legs = joined_part(drawn(rng, rng.randrange(4, 18), 60, 0.0 if kind < 3 else 0.15))
        elif kind == 4:
            legs = drawn(rng, rng.randrange(8, 24), 14, 0.0)
        elif kind == 5:
            legs = loose(rng, rng.randrange(3, 6), rng.randrange(2, 7))
        elif kind == 6:
            legs = joined_part(loose(rng, rng.randrange(4, 9), rng.randrange(3, 9)))
        else:
            legs = joined_part(drawn(rng, rng.randrange(18, 40), 400, 0.02))
        legs = legs[:256]
        leg = rng.randrange(len(legs) + (1 if k % 16 == 9 else 0)) if legs else 0
        side = rng.randrange(2) if k % 13 else rng.randrange(3)
        yield legs, leg, side


def main():
    rng = random.Random(20261117)
    kinds = {}
    for legs, leg, side in caves(rng):
        assert valid(legs)
        number, value, told = answer(legs, leg, side)
        kinds[number] = kinds.get(number, 0) + 1
        row = [len(legs), leg, side]
        for a, b, bearing in legs:
            row += [a, b, bearing]
        row += [number, value]
        if told is not None:
            stations, faces, demands = told
            row += [stations, faces]
            for name, demand in demands:
                row += [name, demand + 1]
        print(*row)
    print("answers:", dict(sorted(kinds.items())), file=sys.stderr)


if __name__ == "__main__":
    main()
