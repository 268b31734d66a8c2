"""Shapes of networks, and networks from a file of Graphviz. Hosts get the next numbers, links the lowest devices."""
from __future__ import annotations

import random
from pathlib import Path
from typing import Callable

from planet_tools.python import missing
from planet_tools.scenario.faults import Fault
from planet_tools.scenario.network import DEVICES_MAX, HOSTS_MAX, NAME_OF_HOST, Network

Pairs = list[tuple[int, int]]
DRAWS = 100


def line(count: int) -> Pairs:
    """Hosts in a row."""
    return [(at, at + 1) for at in range(count - 1)]


def ring(count: int) -> Pairs:
    """A row whose last host is joined to the first."""
    return [(at, (at + 1) % count) for at in range(count)] if count > 2 else line(count)


def star(count: int) -> Pairs:
    """All hosts around the first."""
    return [(0, at) for at in range(1, count)]


def tree(count: int) -> Pairs:
    """Each host has two below it, as long as there are any."""
    return [((at - 1) // 2, at) for at in range(1, count)]


def grid(rows: int, columns: int) -> Pairs:
    """Rows below each other, each host joined to its right and its lower neighbour."""
    pairs: Pairs = []
    for at in range(rows * columns):
        if at % columns < columns - 1:
            pairs.append((at, at + 1))
        if at // columns < rows - 1:
            pairs.append((at, at + columns))
    return pairs


SHAPES: dict[str, Callable[[int], Pairs]] = {"line": line, "ring": ring, "star": star, "tree": tree}
WORDS = (*SHAPES, "grid", "random", "topology")


def add(network: Network, at: int, words: list[str], folder: Path) -> None:
    """Adds what a line `line N`, `grid N M`, `random N DEGREE seed S` or `topology FILE` asks for."""
    kind = words[0]
    if kind == "topology":
        if len(words) != 2:
            raise Fault(at, "BadWord: a topology is 'topology FILE'")
        add_file(network, at, folder / words[1])
    elif kind == "random":
        if len(words) != 5 or words[3] != "seed":
            raise Fault(at, "BadWord: a random network is 'random HOSTS DEGREE seed NUMBER'")
        hosts, degree = number(at, words[1], HOSTS_MAX), number(at, words[2], DEVICES_MAX)
        add_pairs(network, at, hosts, drawn(at, hosts, degree, words[4]))
    elif kind == "grid":
        if len(words) != 3:
            raise Fault(at, "BadWord: a grid is 'grid ROWS COLUMNS'")
        rows, columns = number(at, words[1], HOSTS_MAX), number(at, words[2], HOSTS_MAX)
        add_pairs(network, at, rows * columns, grid(rows, columns))
    else:
        if len(words) != 2:
            raise Fault(at, f"BadWord: a {kind} is '{kind} HOSTS'")
        count = number(at, words[1], HOSTS_MAX)
        add_pairs(network, at, count, SHAPES[kind](count))


def number(at: int, word: str, most: int) -> int:
    """A number of hosts or links."""
    if not (word.isascii() and word.isdigit() and 1 <= int(word) <= most):
        raise Fault(at, f"BadNumber: {word} is no number from 1 to {most}")
    return int(word)


def add_pairs(network: Network, at: int, count: int, pairs: Pairs) -> None:
    """Adds so many hosts with the next numbers, and the links between them."""
    first = network.next_number()
    for place in range(count):
        network.add_host(at, first + place)
    for one, other in pairs:
        network.link(at, first + one, first + other)


def drawn(at: int, hosts: int, degree: int, seed: str) -> Pairs:
    """A connected network in which each host has so many links, drawn by a seed."""
    if degree >= hosts or hosts * degree % 2 or (degree < 2 and hosts > 2):
        raise Fault(at, f"BadArgument: no connected network of {hosts} hosts has {degree} links at each: the degree is "
                        "from 2 to one below the hosts, and hosts times degree is even")
    see_package(at, "networkx", "python3-networkx")
    import networkx
    source = random.Random(seed)
    for _ in range(DRAWS):
        graph = networkx.random_regular_graph(degree, hosts, source)
        if networkx.is_connected(graph):
            return sorted((min(pair), max(pair)) for pair in graph.edges)
    raise Fault(at, f"BadArgument: of {DRAWS} networks that were drawn none is connected")


def see_package(at: int, package: str, debian: str) -> None:
    """Refuses a line that needs a package which isn't there."""
    lacks = missing(package, debian)
    if lacks is not None:
        raise Fault(at, lacks)


def add_file(network: Network, at: int, path: Path) -> None:
    """Adds the graph of a file of Graphviz: a node that is a number is that host, another names the next one."""
    see_package(at, "pydot", "python3-pydot")
    import pydot
    if not path.is_file():
        raise Fault(at, f"read fault: no file {path}")
    graphs = pydot.graph_from_dot_file(str(path))
    if not graphs:
        raise Fault(at, f"BadArgument: {path} is no graph of Graphviz")
    graph = graphs[0]
    hosts: dict[str, int] = {}

    def host(word: str) -> int:
        node = word.split(":")[0].strip('"')
        if node not in hosts:
            if node.isascii() and node.isdigit():
                hosts[node] = int(node)
            elif NAME_OF_HOST.fullmatch(node):
                hosts[node] = network.next_number()
                network.name(at, node, hosts[node])
            else:
                raise Fault(at, f"BadWord: the node {node} of {path} is no number, and no name of letters, digits, _")
            network.add_host(at, hosts[node])
        return hosts[node]

    for node in graph.get_nodes():
        if node.get_name() not in ("node", "edge", "graph", "\\n", '"\\n"'):
            host(node.get_name())
    pairs = [(host(str(edge.get_source())), host(str(edge.get_destination()))) for edge in graph.get_edges()]
    for one, other in pairs:
        network.link(at, one, other)
