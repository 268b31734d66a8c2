"""Shapes are the networks that they name, with the lowest free device at each end of a link."""
from __future__ import annotations

from pathlib import Path

import pytest

from planet_tools import python
from planet_tools.python import is_there
from planet_tools.scenario import topology
from planet_tools.scenario.faults import Fault
from planet_tools.scenario.network import End, Network


def made(*lines: str, folder: Path = Path(".")) -> Network:
    network = Network()
    for number, line in enumerate(lines, 1):
        topology.add(network, number, line.split(), folder)
    return network


def ends(network: Network) -> list[tuple[End, End]]:
    return [(one, other) for one, other, _ in network.links]


def test_line() -> None:
    assert ends(made("line 3")) == [((1, 1), (2, 1)), ((2, 2), (3, 1))]


def test_ring() -> None:
    assert ends(made("ring 3")) == [((1, 1), (2, 1)), ((2, 2), (3, 1)), ((3, 2), (1, 2))]
    assert ends(made("ring 2")) == [((1, 1), (2, 1))]


def test_star() -> None:
    assert ends(made("star 4")) == [((1, 1), (2, 1)), ((1, 2), (3, 1)), ((1, 3), (4, 1))]


def test_tree() -> None:
    pairs = [(one[0], other[0]) for one, other in ends(made("tree 7"))]
    assert pairs == [(1, 2), (1, 3), (2, 4), (2, 5), (3, 6), (3, 7)]


def test_grid() -> None:
    pairs = [(one[0], other[0]) for one, other in ends(made("grid 2 3"))]
    assert pairs == [(1, 2), (1, 4), (2, 3), (2, 5), (3, 6), (4, 5), (5, 6)]
    assert made("grid 3 3").longest_way() == 4


def test_shapes_stand_beside_each_other() -> None:
    network = made("line 2", "line 2")
    assert ends(network) == [((1, 1), (2, 1)), ((3, 1), (4, 1))]


@pytest.mark.skipif(not is_there("networkx"), reason="networkx is missing")
def test_random_networks_are_connected_and_drawn_by_their_seed() -> None:
    network = made("random 8 3 seed 1")
    assert ends(network) == ends(made("random 8 3 seed 1"))
    assert ends(network) != ends(made("random 8 3 seed 2"))
    assert all(len(network.neighbours(host)) == 3 for host in network.without)
    reached, edge = {1}, [1]
    while edge:
        for _, (there, _device) in network.neighbours(edge.pop()):
            if there not in reached:
                reached.add(there)
                edge.append(there)
    assert reached == set(range(1, 9))


@pytest.mark.skipif(not is_there("pydot"), reason="pydot is missing")
def test_a_graph_of_a_file(tmp_path: Path) -> None:
    (tmp_path / "a.dot").write_text('graph { node [shape=box]; near -- 4 -- "far"; far -- near; lone }')
    network = made("topology a.dot", folder=tmp_path)
    assert network.names == {"lone": 1, "near": 2, "far": 5}
    assert ends(network) == [((2, 1), (4, 1)), ((4, 2), (5, 1)), ((5, 2), (2, 2))]


@pytest.mark.skipif(not is_there("pydot"), reason="pydot is missing")
def test_what_is_no_graph_is_refused(tmp_path: Path) -> None:
    (tmp_path / "a.dot").write_text("graph {")
    with pytest.raises(Fault, match="no graph"):
        made("topology a.dot", folder=tmp_path)
    (tmp_path / "b.dot").write_text('graph { "a b" -- c }')
    with pytest.raises(Fault, match="BadWord: the node a b"):
        made("topology b.dot", folder=tmp_path)


def test_a_missing_package_is_a_fault_of_the_line(monkeypatch: pytest.MonkeyPatch) -> None:
    """So a run of a sweep that needs it has a row that says so."""
    monkeypatch.setattr(python, "is_there", lambda package: False)
    monkeypatch.setattr(python, "SYSTEM", "none")
    for line, package in (("random 4 2 seed 1", "python3-networkx"), ("topology a.dot", "python3-pydot")):
        with pytest.raises(Fault, match=f"is missing, install it with: apt-get install {package}") as fault:
            made("line 2", line)
        assert fault.value.line == 2
