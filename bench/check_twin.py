#!/usr/bin/env python3
"""Holds the twin against the flows of networkx, on small random maps.

    bench/check_twin.py [MAPS [PROGRAM]]

Without a program it is the twin in target/bench, where bench/run puts it.
"""
import random
import subprocess
import sys
from pathlib import Path

import networkx as nx
from networkx.algorithms.flow import preflow_push

TWIN = Path(__file__).resolve().parent.parent / "target/bench/twin"


# A map of random edges, connected or not.
def scattered(rng):
    n = rng.randrange(1, 13)
    density = rng.choice([0.15, 0.3, 0.5, 0.8])
    graph = nx.empty_graph(n)
    graph.add_edges_from((u, v) for u in range(n) for v in range(u) if rng.random() < density)
    return graph


# A lattice with gaps, its vertices numbered at random. On such maps a path often has to step back
# along an earlier one, which it hardly ever has to among random edges.
def gapped(rng):
    graph = nx.grid_2d_graph(rng.randrange(3, 5), rng.randrange(4, 7))
    graph.remove_edges_from([edge for edge in graph.edges if rng.random() < 0.1])
    numbers = list(range(len(graph)))
    rng.shuffle(numbers)
    return nx.relabel_nodes(graph, dict(zip(graph, numbers)))


# The digraph of arcs of capacity 1.
def unit_digraph(nodes, arcs):
    digraph = nx.DiGraph()
    digraph.add_nodes_from(nodes)
    digraph.add_edges_from(arcs, capacity=1)
    return digraph


# Each edge as two arcs.
def both_ways(graph):
    return unit_digraph(graph, graph.to_directed().edges)


# Each vertex but a and b as an entry v and an exit n + v, with one arc between them.
def split(graph, a, b):
    n = len(graph)

    def way_out(v):
        return v if v in (a, b) else n + v

    through = [(v, n + v) for v in graph if v not in (a, b)]
    across = [(way_out(u), v) for u, v in graph.to_directed().edges]
    return unit_digraph(range(2 * n), through + across)


# The value of a largest flow from a to b, and what a reaches in its residual graph.
def settle(digraph, a, b):
    residual = preflow_push(digraph, a, b, value_only=False)
    room = ((p, q) for p, q, arc in residual.edges(data=True) if arc["flow"] < arc["capacity"])
    left = nx.DiGraph(room)
    left.add_node(a)
    return residual.graph["flow_value"], nx.descendants(left, a) | {a}


# The sum of the edges with one end in a side.
def edge_items(graph, side):
    crossing = (sorted(edge) for edge in graph.edges if (edge[0] in side) != (edge[1] in side))
    return sum(low * 256 + high for low, high in crossing)


# The sum of the vertices at which arcs leave a side that has a.
def vertex_items(graph, a, side):
    def is_cut(v):
        return v != a and len(graph) + v not in side if v in side else graph.has_edge(a, v)

    return sum(v for v in graph if is_cut(v))


# The five sums of a map.
def totals(graph):
    pairs = edge_values = unjoined = vertex_values = items = 0
    line = both_ways(graph)
    for a in range(min(8, len(graph))):
        for b in range(a + 1, len(graph)):
            value, side = settle(line, a, b)
            pairs += 1
            edge_values += value
            items += edge_items(graph, side)
            if not graph.has_edge(a, b):
                value, side = settle(split(graph, a, b), a, b)
                unjoined += 1
                vertex_values += value
                items += vertex_items(graph, a, side)
    return f"{pairs} {edge_values} {unjoined} {vertex_values} {items}\n"


# A map as frames: a make, then a join for each edge, either end first.
def frames(graph):
    return f"01{len(graph):02X}\n" + "".join(f"02{u:02X}{v:02X}\n" for u, v in graph.edges)


# What a program prints for a map.
def told(program, graph):
    run = subprocess.run([program], input=frames(graph), capture_output=True, text=True, check=True)
    return run.stdout


# Compares a program with the sums on so many maps.
def main(rounds=300, program=TWIN):
    for seed in range(int(rounds)):
        graph = (scattered, gapped)[seed % 2](random.Random(seed))
        found, expected = told(program, graph), totals(graph)
        if found != expected:
            sys.exit(f"seed {seed}: printed {found.strip()}, expected {expected.strip()}")
    print(f"{rounds} maps, the same sums")


if __name__ == "__main__":
    main(*sys.argv[1:])
