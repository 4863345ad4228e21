#!/usr/bin/env python3
"""Makes socket.stl: a closed rope socket, 142 mm long, as it leaves the foundry.

A wire rope enters the narrow end of the conical basket and is cast into its bore; the bail at the wide end
takes the pin. The solid is given by a function that is negative inside, and its surface is walked
tetrahedron by tetrahedron, so that it is closed and oriented outwards. Only square roots and the four
operations are used: every machine writes the same file.

  python3 make_socket.py [FILE]      writes FILE, by default socket.stl beside this script
"""

import itertools
import math
import os
import struct
import sys

STEP = 4.0  # mm between the places where the function is asked
LOW, HIGH = (-38.0, -34.0, -5.0), (38.0, 34.0, 147.0)


def length(*parts):
    return math.sqrt(sum(part * part for part in parts))


def soft_max(a, b, width):
    """The larger of two numbers, rounded off where they are nearly equal."""
    near = max(width - abs(a - b), 0.0) / width
    return max(a, b) + near * near * width / 4.0


def soft_min(a, b, width):
    return -soft_max(-a, -b, width)


def cone(x, y, z, radius, slope):
    """Outside of a cone around the z axis, with this radius at z = 0."""
    return (length(x, y) - radius - slope * z) / math.sqrt(1.0 + slope * slope)


def bail(x, y, z):
    """A bent bar: two legs from the basket's wide end, joined by half a ring."""
    if z > 110.0:
        return length(length(x, z - 110.0) - 24.0, y) - 8.0
    return length(abs(x) - 24.0, y, min(z - 60.0, 0.0)) - 8.0


def socket(x, y, z):
    basket = soft_max(cone(x, y, z, 15.0, 0.2), max(-z, z - 72.0), 3.0)
    body = soft_min(basket, bail(x, y, z), 8.0)
    bore = max(cone(x, y, z, 7.0, 0.13), z - 80.0)
    return soft_max(body, -bore, 2.0)


def samples():
    """The function at every place of a grid: {(i, j, k): (value, point)}."""
    counts = [int((high - low) / STEP) + 1 for low, high in zip(LOW, HIGH)]
    found = {}
    for place in itertools.product(*map(range, counts)):
        point = tuple(low + STEP * n for low, n in zip(LOW, place))
        found[place] = (socket(*point), point)
    return found


def tetrahedra(place):
    """The six tetrahedra of a cube: one for each order of the axes, from corner to corner."""
    for order in itertools.permutations(range(3)):
        corner, corners = list(place), [place]
        for axis in order:
            corner[axis] += 1
            corners.append(tuple(corner))
        yield corners


def cut(found, inner, outer):
    """Where the surface cuts an edge, in 32-bit floats; the same from both ends."""
    first, second = sorted((inner, outer))
    (a, p), (b, q) = found[first], found[second]
    part = a / (a - b)
    return struct.unpack("<3f", struct.pack("<3f", *(u + part * (v - u) for u, v in zip(p, q))))


def sides(found, corners):
    """The triangles of the surface in one tetrahedron."""
    inner = [corner for corner in corners if found[corner][0] < 0.0]
    outer = [corner for corner in corners if found[corner][0] >= 0.0]
    cuts = [[cut(found, a, b) for b in outer] for a in inner]
    if len(inner) == 1:
        polygons = [cuts[0]]
    elif len(inner) == 3:
        polygons = [[row[0] for row in cuts]]
    elif len(inner) == 2:
        (a, b), (c, d) = cuts
        polygons = [[a, b, c], [c, b, d]]
    else:
        return
    away = [
        sum(found[corner][1][axis] for corner in outer) / len(outer)
        - sum(found[corner][1][axis] for corner in inner) / len(inner)
        for axis in range(3)
    ]
    for triangle in polygons:
        yield outwards(triangle, away)


def outwards(triangle, away):
    """The triangle with its normal, turned so that the normal points away from the inside."""
    a, b, c = triangle
    u, v = [[q - p for p, q in zip(a, end)] for end in (b, c)]
    normal = [u[1] * v[2] - u[2] * v[1], u[2] * v[0] - u[0] * v[2], u[0] * v[1] - u[1] * v[0]]
    if sum(n * w for n, w in zip(normal, away)) < 0.0:
        normal, b, c = [-n for n in normal], c, b
    size = length(*normal)
    return [n / size if size > 0.0 else 0.0 for n in normal], (a, b, c)


def surface(found):
    for place in found:
        far = tuple(n + 1 for n in place)
        if far in found:
            for corners in tetrahedra(place):
                for normal, triangle in sides(found, corners):
                    if len(set(triangle)) == 3:
                        yield normal, triangle


def main():
    beside = os.path.join(os.path.dirname(os.path.abspath(__file__)), "socket.stl")
    target = sys.argv[1] if len(sys.argv) > 1 else beside
    triangles = list(surface(samples()))
    with open(target, "wb") as file:
        file.write(b"rope socket, made by make_socket.py".ljust(80) + struct.pack("<I", len(triangles)))
        for normal, corners in triangles:
            file.write(struct.pack("<12fH", *normal, *itertools.chain(*corners), 0))
    print(f"{len(triangles)} triangles")


if __name__ == "__main__":
    main()
