"""Turns lines of id,west,east,south,north,name in degrees into INSERTs in ten millionths of a degree.

    python3 examples/degrees.py trees < trees.csv > trees.sql

Minima are rounded down and maxima up, so that a box holds all that it held. A field that is no number stays as it is: rtsh refuses
its row. Fractions are exact: as a float, one number of seven decimals in eight would miss its own whole number.
"""

import csv
import math
import sys
from fractions import Fraction


def whole(degrees, rounded):
    try:
        return rounded(Fraction(degrees) * 10**7)
    except ValueError:
        return degrees


def text(name):
    return "'" + name.replace("'", "''") + "'" if name else "NULL"


for id, west, east, south, north, *name in csv.reader(sys.stdin, skipinitialspace=True):
    box = [whole(west, math.floor), whole(east, math.ceil), whole(south, math.floor), whole(north, math.ceil)]
    values = ",".join(map(str, [id, *box, text("".join(name))]))
    print(f"INSERT INTO {sys.argv[1]} VALUES ({values});")
