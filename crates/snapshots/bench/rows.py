#!/usr/bin/env python3
"""rows.py OBJECTS HEIGHT: rows of a period of four instants. The first object stands there from the first instant on, each
eighth one comes after the period, and the others are there at its last instant alone, in at most three cells for four
objects of a grid that is 2 ^ HEIGHT wide."""
import random
import sys

objects, height = int(sys.argv[1]), int(sys.argv[2])
draw = random.Random(7)
side = 2 ** height
pool = [(draw.randrange(side), draw.randrange(side)) for _ in range(objects * 3 // 4)]
for place in range(objects):
    x, y = draw.choice(pool)
    if place % 8 == 7:
        x, y = (0, 0) if place == 7 else (side - 1, side - 1)
        print(f"{place},7,{x},{y}")
    else:
        print(f"{place},{0 if place == 0 else 3},{x},{y}")
