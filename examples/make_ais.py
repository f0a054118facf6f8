#!/usr/bin/env python3
"""Prints an export as receivers of AIS give them, of so many rows: ships that sail between ports of the western Baltic.

The ships report about once a minute from 2022-06-01 00:00 UTC on, with gaps, and now and then without a position, as AIS does
(latitude 91, longitude 181). There is a ship for each 1,400 rows, so that the export lasts a little more than a day. The same
words give the same export. Nothing in it is real but the places of the ports.

    examples/make_ais.py ROWS [SEED] > export.csv
"""

import datetime
import math
import random
import sys

START = datetime.datetime(2022, 6, 1)

# Latitude and longitude.
PORTS = {
    "Copenhagen": (55.71, 12.64),
    "Rostock": (54.19, 12.09),
    "Trelleborg": (55.36, 13.15),
    "Ronne": (55.10, 14.68),
    "Karlskrona": (56.13, 15.59),
    "Gdynia": (54.55, 18.58),
    "Sassnitz": (54.49, 13.60),
}

# Where a ship turns that must go round land: from the first port to the second.
TURNS = {
    frozenset(("Copenhagen", "Trelleborg")): [(55.28, 12.72)],
    frozenset(("Copenhagen", "Rostock")): [(55.28, 12.72), (54.85, 12.45)],
    frozenset(("Copenhagen", "Ronne")): [(55.28, 12.72)],
    frozenset(("Copenhagen", "Sassnitz")): [(55.28, 12.72)],
    frozenset(("Copenhagen", "Karlskrona")): [(55.28, 12.72), (55.25, 14.30)],
    frozenset(("Copenhagen", "Gdynia")): [(55.28, 12.72), (54.95, 14.30), (54.90, 18.60)],
    frozenset(("Rostock", "Karlskrona")): [(54.80, 13.20), (55.25, 14.30)],
    frozenset(("Rostock", "Gdynia")): [(54.75, 13.40), (54.90, 18.60)],
    frozenset(("Trelleborg", "Karlskrona")): [(55.25, 14.30)],
}

# A sea mile is a minute of latitude, so this is what a knot makes in a minute, in degrees of latitude.
KNOT = 1 / 3600


class Ship:
    """A ship that sails from port to port, and lies there for some hours."""

    def __init__(self, number, rnd):
        self.rnd = rnd
        self.number = 219000000 + 1000 * number + rnd.randrange(1000)
        self.name = rnd.choice(["STORM", "NORD", "BALTIC", "FREJA", "ALMA", "HAV"]) + rnd.choice(["", ", EMMA", " STAR", " II"])
        self.knots = 8 + 12 * rnd.random()
        self.port = rnd.choice(sorted(PORTS))
        self.at = PORTS[self.port]
        self.ahead, self.waiting, self.silent = [], rnd.randrange(240), 0

    def leave(self):
        goal = self.rnd.choice([port for port in sorted(PORTS) if port != self.port])
        turns = TURNS.get(frozenset((self.port, goal)), [])
        # The turns stand in one direction, and are sailed in the other too.
        if turns and math.dist(turns[0], PORTS[self.port]) > math.dist(turns[-1], PORTS[self.port]):
            turns = turns[::-1]
        self.ahead, self.port = [*turns, PORTS[goal]], goal

    def sail(self):
        """A minute passes."""
        if not self.ahead:
            self.waiting -= 1
            if self.waiting < 0:
                self.leave()
            return
        latitude, longitude = self.at
        narrow = math.cos(math.radians(latitude))
        north, east = self.ahead[0][0] - latitude, (self.ahead[0][1] - longitude) * narrow
        far, step = math.hypot(north, east), KNOT * self.knots * (0.95 + 0.1 * self.rnd.random())
        if far <= step:
            self.at = self.ahead.pop(0)
            self.waiting = 60 + self.rnd.randrange(300)
        else:
            self.at = latitude + north / far * step, longitude + east / far * step / narrow

    def report(self, minute):
        """What is received of it in this minute: a line, or nothing."""
        if self.silent:
            self.silent -= 1
            return None
        if self.rnd.random() < 0.004:
            self.silent = self.rnd.randrange(20)
            return None
        time = START + datetime.timedelta(minutes=minute, seconds=self.rnd.randrange(60))
        latitude = self.at[0] + self.rnd.gauss(0, 0.00005)
        longitude = self.at[1] + self.rnd.gauss(0, 0.00009)
        if self.rnd.random() < 0.001:
            latitude, longitude = 91, 181
        speed = self.knots if self.ahead else 0
        return f'{self.number},{time.isoformat()},{latitude:.5f},{longitude:.5f},{speed:.1f},"{self.name}"'


def main():
    if len(sys.argv) not in (2, 3) or not all(word.isdigit() for word in sys.argv[1:]):
        sys.exit("make_ais.py: ROWS [SEED], whole numbers")
    rows = int(sys.argv[1])
    rnd = random.Random(int(sys.argv[2]) if len(sys.argv) > 2 else 1)
    ships = [Ship(number, rnd) for number in range(-(-rows // 1400))]
    print("MMSI,BaseDateTime,LAT,LON,SOG,VesselName")
    minute = 0
    while rows:
        for ship in ships:
            ship.sail()
            line = ship.report(minute)
            if line and rows:
                print(line)
                rows -= 1
        minute += 1


if __name__ == "__main__":
    main()
