#!/usr/bin/env python3
"""Writes the networks that the program flow_vectors solves, with least prices found by networkx.

Run from the repository's root, with Python 3 and networkx (made with 3.6.1):

    python3 scripts/make_flow_vectors.py > crates/flow_vectors/stdin

The output is whole numbers parted by blanks: how many networks there are, and for each
  nodes pairs
  wants gives                                   (a line for each node)
  from to room room-back weight wet free        (a line for each pair of opposite arcs)
  feasible plain first second                   (what the outside solver found; zeros where no flow meets the demands)
A unit over an arc costs two bends: twice the weight, or nothing where the arc is free.
The ranked price is found as one number, first * BIG + second. The networks do not depend on the run: the seed is fixed.
"""
import random

import networkx as nx

BIG = 10**9


def price(pair, ranked):
    _, _, _, _, weight, wet, free = pair
    if free:
        return 0
    return 2 * weight * (BIG if ranked and wet else 1)


def least(demands, pairs, ranked):
    """The least price of a flow that meets the demands, or None."""
    graph = nx.MultiDiGraph()
    for v, (wants, gives) in enumerate(demands):
        graph.add_node(v, demand=wants - gives)
    for pair in pairs:
        a, b, room, back = pair[:4]
        if a == b:
            continue
        graph.add_edge(a, b, capacity=room, weight=price(pair, ranked))
        graph.add_edge(b, a, capacity=back, weight=price(pair, ranked))
    try:
        return nx.network_simplex(graph)[0]
    except nx.NetworkXUnfeasible:
        return None


def by_hand():
    # one arc, one unit; two units; one unit too many; an arc without room
    yield [(0, 1), (1, 0)], [(0, 1, 1, 0, 5, 0, 0)]
    yield [(0, 2), (2, 0)], [(0, 1, 2, 0, 5, 1, 0)]
    yield [(0, 2), (2, 0)], [(0, 1, 1, 0, 5, 1, 0)]
    yield [(0, 1), (1, 0)], [(0, 1, 0, 1, 5, 0, 0)]
    # nothing is asked; a node that gives what it wants; demands that do not add up, both ways
    yield [(0, 0), (0, 0)], [(0, 1, 1, 1, 5, 0, 0)]
    yield [(3, 3), (0, 0)], [(0, 1, 1, 1, 5, 0, 0)]
    yield [(0, 1), (2, 0)], [(0, 1, 5, 5, 1, 0, 0)]
    yield [(0, 2), (1, 0)], [(0, 1, 5, 5, 1, 0, 0)]
    # parallel arcs, the cheaper of little room; a free arc; an arc used against its listing
    yield [(0, 3), (3, 0)], [(0, 1, 2, 0, 1, 0, 0), (0, 1, 9, 0, 4, 0, 0), (0, 1, 9, 0, 7, 1, 0)]
    yield [(0, 2), (2, 0)], [(0, 1, 1, 0, 9, 0, 1), (1, 0, 0, 4, 3, 0, 0)]
    # the second unit has to take the first one's middle step back
    yield [(0, 2), (0, 0), (0, 0), (2, 0)], [(0, 1, 1, 0, 1, 0, 0), (0, 2, 1, 0, 4, 0, 0), (1, 2, 1, 0, 1, 0, 0), (1, 3, 1, 0, 4, 0, 0), (2, 3, 1, 0, 1, 0, 0)]
    # a wet short cut against a long dry way
    yield [(0, 1), (0, 0), (1, 0)], [(0, 2, 1, 0, 1, 1, 0), (0, 1, 1, 0, 900, 0, 0), (1, 2, 1, 0, 900, 0, 0)]
    # no way at all; a way that is cut in the middle; two takers and one giver
    yield [(0, 1), (0, 0), (1, 0)], [(0, 1, 1, 1, 1, 0, 0)]
    yield [(0, 2), (0, 0), (2, 0)], [(0, 1, 5, 0, 1, 0, 0), (1, 2, 1, 0, 1, 0, 0)]
    yield [(0, 3), (1, 0), (2, 0)], [(0, 1, 5, 5, 3, 0, 0), (1, 2, 5, 5, 2, 1, 0), (0, 2, 1, 0, 1, 0, 0)]


def at_random(rng):
    n = rng.randint(2, 12)
    demands = [[0, 0] for _ in range(n)]
    for _ in range(rng.randint(0, 8)):
        demands[rng.randrange(n)][0] += 1
        demands[rng.randrange(n)][1] += 1
    if rng.random() < 0.1:
        demands[rng.randrange(n)][rng.randrange(2)] += 1
    pairs = []
    for _ in range(rng.randint(n - 1, 24)):
        a, b = rng.sample(range(n), 2)
        room = rng.choice([0, 1, 1, 2, 3, 999])
        back = rng.choice([0, 0, 1, 2, 999])
        pairs.append((a, b, room, back, rng.choice([0, 1, 2, 3, 5, 8, 999, 1000]), rng.randrange(2), int(rng.random() < 0.15)))
    return [tuple(d) for d in demands], pairs


def main():
    rng = random.Random(20)
    networks = list(by_hand()) + [at_random(rng) for _ in range(65)]
    print(len(networks))
    for demands, pairs in networks:
        print(len(demands), len(pairs))
        for d in demands:
            print(*d)
        for p in pairs:
            print(*p)
        plain, ranked = least(demands, pairs, False), least(demands, pairs, True)
        assert (plain is None) == (ranked is None)
        print(*((0, 0, 0, 0) if plain is None else (1, plain, ranked // BIG, ranked % BIG)))


main()
