#!/usr/bin/env python3
"""Makes large parts to time the tool with (docs/SPEED.md has the figures).

  python3 make_parts.py torus TRIANGLES FILE    a ring of about so many triangles, 140 mm wide
  python3 make_parts.py pores COUNT FILE        a block of 100 mm with so many round pores of 128 triangles each

Every machine writes the same triangles up to the last bit of its sine and cosine.
"""

import math
import struct
import sys
from array import array


def torus(triangles):
    """A ring around the z axis, about twice as many places around it as across."""
    across = max(3, round(math.sqrt(triangles / 4)))
    around = max(3, round(triangles / 2 / across))

    def place(i, j):
        u, v = 2 * math.pi * (i % around) / around, 2 * math.pi * (j % across) / across
        out = 50.0 + 20.0 * math.cos(v)
        return out * math.cos(u), out * math.sin(u), 20.0 * math.sin(v)

    for i in range(around):
        for j in range(across):
            a, b, c, d = place(i, j), place(i + 1, j), place(i + 1, j + 1), place(i, j + 1)
            yield a, b, c
            yield a, c, d


def ball():
    """An octahedron whose sides are halved twice and pushed out to radius 1, seen from inside."""
    tips = [(1, 0, 0), (0, 1, 0), (-1, 0, 0), (0, -1, 0)]
    sides = []
    for a, b in zip(tips, tips[1:] + tips[:1]):
        sides += [(b, a, (0, 0, 1)), (a, b, (0, 0, -1))]

    def middle(p, q):
        total = [x + y for x, y in zip(p, q)]
        size = math.sqrt(sum(x * x for x in total))
        return tuple(x / size for x in total)

    for _ in range(2):
        finer = []
        for a, b, c in sides:
            ab, bc, ca = middle(a, b), middle(b, c), middle(c, a)
            finer += [(a, ab, ca), (ab, b, bc), (ca, bc, c), (ab, bc, ca)]
        sides = finer
    return sides


def block(size):
    corner = lambda n: tuple(size * (n >> axis & 1) for axis in range(3))
    for a, b, c, d in ((0, 2, 3, 1), (4, 5, 7, 6), (0, 1, 5, 4), (2, 6, 7, 3), (0, 4, 6, 2), (1, 3, 7, 5)):
        yield corner(a), corner(b), corner(c)
        yield corner(a), corner(c), corner(d)


def pores(count):
    """A block with pores at the first places of the least cube of places that has so many."""
    yield from block(100.0)
    row = math.ceil(round(count ** (1 / 3), 9))
    step = 100.0 / row
    radius, shape = 0.4 * step, ball()
    for n in range(count):
        middle = [step * (n // row**axis % row + 0.5) for axis in range(3)]
        for side in shape:
            yield tuple(tuple(m + radius * x for m, x in zip(middle, point)) for point in side)


def main():
    makers = {"torus": torus, "pores": pores}
    if len(sys.argv) != 4 or sys.argv[1] not in makers:
        print(__doc__)
        return 2
    records = bytearray()
    count = 0
    for triangle in makers[sys.argv[1]](int(sys.argv[2])):
        numbers = array("f", [0.0] * 3 + [x for point in triangle for x in point])
        records += struct.pack("<12fH", *numbers, 0)
        count += 1
    with open(sys.argv[3], "wb") as file:
        file.write(b"made by make_parts.py".ljust(80) + struct.pack("<I", count) + records)
    print(f"{count} triangles")
    return 0


if __name__ == "__main__":
    sys.exit(main())
