#!/usr/bin/env python3
"""Writes the maps of the benchmark into a folder, each as a file of frames.

    bench/maps.py FOLDER

The maps are connected, and the same at every call.
"""
import random
import sys
from itertools import combinations
from pathlib import Path


# Random edges by their density, over a random tree that keeps the map connected.
def scattered(n, density, seed):
    rng = random.Random(seed)
    tree = {(int(rng.random() * v), v) for v in range(1, n)}
    return n, tree | {edge for edge in combinations(range(n), 2) if rng.random() < density}


# One cycle through all vertices.
def ring(n):
    return n, {(v, v + 1) for v in range(n - 1)} | {(0, n - 1)}


# A square of side * side vertices, each joined to those beside, above and below it.
def lattice(side):
    across = {(v, v + 1) for v in range(side * side) if (v + 1) % side}
    down = {(v, v + side) for v in range(side * (side - 1))}
    return side * side, across | down


# Two complete maps of n vertices each, with some edges between them.
def cliques(n, bridges):
    halves = set(combinations(range(n), 2)) | set(combinations(range(n, 2 * n), 2))
    return 2 * n, halves | {(n - 1 - k, n + k) for k in range(bridges)}


# Vertices as words of bits, joined where they differ in one bit.
def cube(bits):
    n = 1 << bits
    return n, {(v, v | 1 << k) for v in range(n) for k in range(bits) if not v >> k & 1}


# Two halves of n vertices, each vertex joined to the whole other half.
def bipartite(n):
    return 2 * n, {(u, n + v) for u in range(n) for v in range(n)}


# The maps by their names.
def maps():
    return {
        "sparse-50": scattered(50, 0.12, 1),
        "dense-50": scattered(50, 0.6, 2),
        "sparse-100": scattered(100, 0.06, 3),
        "dense-100": scattered(100, 0.5, 4),
        "sparse-200": scattered(200, 0.03, 5),
        "dense-200": scattered(200, 0.5, 6),
        "ring-200": ring(200),
        "lattice-196": lattice(14),
        "cliques-200": cliques(100, 5),
        "cube-128": cube(7),
        "bipartite-200": bipartite(100),
    }


# A map as frames: a make, then a join for each edge.
def frames(n, edges):
    return f"01{n:02X}\n" + "".join(f"02{u:02X}{v:02X}\n" for u, v in sorted(edges))


# Writes each map into the folder.
def main(folder):
    folder.mkdir(parents=True, exist_ok=True)
    for name, (n, edges) in maps().items():
        (folder / f"{name}.txt").write_text(frames(n, edges))


if __name__ == "__main__":
    if len(sys.argv) != 2:
        sys.exit("usage: bench/maps.py FOLDER")
    main(Path(sys.argv[1]))
