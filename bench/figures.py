"""What bench/run has measured, for the tables and the plot."""
import csv
import math
import os

FOLDER = os.path.join(os.path.dirname(os.path.abspath(__file__)), "..", "target", "bench")
PEERS = ["register", "twin", "parted", "scan", "rstar", "quadratic"]
SIDES = [3, 30, 300]  # of a pane, in centimetres
COUNTS = [f"count {side} cm" for side in SIDES]
CHANGES = ["insert", "strike", "insert again"]
STAGES = CHANGES + COUNTS


def number(text):
    try:
        return int(text)
    except ValueError:
        return float(text)


def rows(name):
    """The lines of a file of figures, as dictionaries."""
    with open(os.path.join(FOLDER, name), newline="") as file:
        for row in csv.DictReader(file):
            yield {key: value if key in ("peer", "stage") else number(value) for key, value in row.items()}


def by_peer(name):
    """The lines of a file by number of marks, stage and peer."""
    return {(row["n"], row["stage"], row["peer"]): row for row in rows(name)}


def sizes(figures):
    return sorted({n for n, _, _ in figures})


def levels(n):
    """D(n): the largest D with 4^D <= 3^D n."""
    d = 0
    while 4 ** (d + 1) <= 3 ** (d + 1) * n:
        d += 1
    return d


def bound(n):
    """The most visits of a count of n marks."""
    return (4 * levels(n) + 1) * (2 * levels(n) + 1)


def log_squared(n):
    return math.log2(n) ** 2


def mean_visits(row):
    return row["visits"] / row["operations"]
