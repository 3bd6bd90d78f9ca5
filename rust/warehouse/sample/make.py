#!/usr/bin/env python3
"""Writes three-rows.mtx: the stiffness of three free-standing rows of pallet racking, plane frames of beams and uprights.

Three unknowns a node: displacement along the row, upward, and rotation. The floor's nodes are held and left out.
Units: kN and m. Uprights E I = 80, E A = 60,000; beams E I = 120, E A = 90,000.
"""
import math

ROWS = [(5, 4, 2.7, 1.8), (4, 3, 2.7, 2.0), (3, 5, 1.8, 1.5)]  # bays, levels, bay width, level height


def beam(ea, ei, x0, y0, x1, y1):
    length = math.hypot(x1 - x0, y1 - y0)
    c, s = (x1 - x0) / length, (y1 - y0) / length
    a, b = ea / length, ei / length**3
    k = [
        [a, 0, 0, -a, 0, 0],
        [0, 12 * b, 6 * b * length, 0, -12 * b, 6 * b * length],
        [0, 6 * b * length, 4 * b * length**2, 0, -6 * b * length, 2 * b * length**2],
        [-a, 0, 0, a, 0, 0],
        [0, -12 * b, -6 * b * length, 0, 12 * b, -6 * b * length],
        [0, 6 * b * length, 2 * b * length**2, 0, -6 * b * length, 4 * b * length**2],
    ]
    t = [[c, s, 0, 0, 0, 0], [-s, c, 0, 0, 0, 0], [0, 0, 1, 0, 0, 0], [0, 0, 0, c, s, 0], [0, 0, 0, -s, c, 0], [0, 0, 0, 0, 0, 1]]
    kt = [[sum(k[i][m] * t[m][j] for m in range(6)) for j in range(6)] for i in range(6)]
    return [[sum(t[m][i] * kt[m][j] for m in range(6)) for j in range(6)] for i in range(6)]


entries, first = {}, 0
for bays, levels, width, height in ROWS:
    def node(bay, level):
        return None if level == 0 else first + bay * levels + level - 1

    members = [((b, l), (b, l + 1), 60000.0, 80.0) for b in range(bays + 1) for l in range(levels)]
    members += [((b, l), (b + 1, l), 90000.0, 120.0) for b in range(bays) for l in range(1, levels + 1)]
    for (b0, l0), (b1, l1), ea, ei in members:
        k = beam(ea, ei, b0 * width, l0 * height, b1 * width, l1 * height)
        ends = [node(b0, l0), node(b1, l1)]
        for i in range(6):
            for j in range(6):
                u, v = ends[i // 3], ends[j // 3]
                if u is None or v is None or k[i][j] == 0.0:
                    continue
                r, c = 3 * u + i % 3, 3 * v + j % 3
                if c <= r:
                    entries[r, c] = entries.get((r, c), 0.0) + k[i][j]
    first += (bays + 1) * levels
n = 3 * first
with open(__file__.replace("make.py", "three-rows.mtx"), "w") as f:
    f.write("%%MatrixMarket matrix coordinate real symmetric\n")
    f.write("% Three free-standing rows of pallet racking, 3 unknowns a node (make.py).\n")
    f.write(f"{n} {n} {len(entries)}\n")
    for (r, c) in sorted(entries):
        f.write(f"{r + 1} {c + 1} {entries[r, c]!r}\n")
