#!/usr/bin/env python3
"""Writes a drawn road network of uneven streets, many of them one-way, with a few long fast roads.

    bench/uneven_network.py SEED SIDE > network.csv

Nodes stand on a square, row by row, with ids from 1. Of the streets between neighbours one in seven is missing; of the
others half are one-way, and a street takes 10 to 100 seconds, each way its own time. The streets around the square go
both ways. Four long roads, two along rows and two along columns, join every fifth node at 8 seconds a step, so that they
are some seven times as fast.
"""
import random
import sys


def network(seed, side):
    draw = random.Random(seed)
    node = lambda i, j: i * side + j + 1
    rows = []
    for i in range(side):
        for j in range(side):
            for k, l in ((i, j + 1), (i + 1, j)):
                if k >= side or l >= side:
                    continue
                around = i == k and i in (0, side - 1) or j == l and j in (0, side - 1)
                if not around and draw.randrange(7) == 0:
                    continue
                ends = [(node(i, j), node(k, l)), (node(k, l), node(i, j))]
                if not around and draw.randrange(2) == 0:
                    ends = [draw.choice(ends)]
                rows += [(a, b, draw.randint(10, 100)) for a, b in ends]
    for line in draw.sample(range(side), 2):
        for place in range(0, side - 5, 5):
            for a, b in ((node(line, place), node(line, place + 5)), (node(place, line), node(place + 5, line))):
                rows += [(a, b, 40), (b, a, 40)]
    return rows


def main():
    if len(sys.argv) != 3:
        sys.exit(__doc__)
    print("from,to,seconds")
    for row in network(int(sys.argv[1]), int(sys.argv[2])):
        print(*row, sep=",")


if __name__ == "__main__":
    main()
