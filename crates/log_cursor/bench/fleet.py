#!/usr/bin/env python3
"""fleet.py OBJECTS INSTANTS SEED: rows of ships, one report a minute in metres and seconds, one ship after the other. Of ten
ships four are under way, four lie at anchor and two drift. Reports have an error of some metres, and now and then a ship is
silent for some minutes."""
import math
import random
import sys

objects, instants, seed = map(int, sys.argv[1:])
draw = random.Random(seed)
SIDE = 200_000


class Ship:
    def __init__(self):
        self.kind = draw.random()
        self.x, self.y = draw.uniform(0, SIDE), draw.uniform(0, SIDE)
        self.course = draw.uniform(0, 2 * math.pi)
        self.turn = 0.0
        self.speed = draw.uniform(4, 11) if self.kind < 0.4 else 0.2
        self.radius = draw.choice([0, 80, 150])

    def step(self):
        """Goes on for a minute, and gives where the ship then is."""
        if 0.4 <= self.kind < 0.8:
            self.course += draw.gauss(0, 0.02)
            return self.x + self.radius * math.cos(self.course), self.y + self.radius * math.sin(self.course)
        if draw.random() < 0.01:
            self.turn = draw.uniform(-0.04, 0.04)
        elif draw.random() < 0.05:
            self.turn = 0.0
        if not (0 < self.x < SIDE and 0 < self.y < SIDE):
            self.course, self.turn = math.atan2(SIDE / 2 - self.y, SIDE / 2 - self.x), 0.0
        self.course += self.turn if self.kind < 0.4 else draw.gauss(0, 0.1)
        self.x += 60 * self.speed * math.cos(self.course)
        self.y += 60 * self.speed * math.sin(self.course)
        return self.x, self.y


for number in range(objects):
    ship = Ship()
    silent = 0
    for instant in range(instants):
        x, y = ship.step()
        if draw.random() < 0.004:
            silent = draw.randrange(1, 40)
        silent -= 1
        if silent < 0:
            second = 60 * instant + draw.randrange(60)
            print(f"{1000 + 7 * number},{second},{round(x + draw.gauss(0, 4))},{round(y + draw.gauss(0, 4))}")
