"""Reads places from a CSV file with a header, and finds those that touch a window, and those nearest to a point, all in degrees.

    PYTHONPATH=bindings/python python3 examples/places.py examples/places.csv
"""

import csv
import sys

from juicedelta import Grid, RTree

with open(sys.argv[1], newline="", encoding="utf-8") as file:
    lines = csv.DictReader(file)
    rows = ((int(it["id"]), [float(it[end]) for end in ("west", "south", "east", "north")], it["name"]) for it in lines)
    places = RTree.from_items(rows, grid=Grid(10_000_000))

print(*sorted(place.object for place in places.intersection((0, 45, 13.5, 55), objects=True)))
print(*[place.object for place in places.nearest((8.55, 47.37), 2, objects=True)])
