"""What a fleet would do that nobody can want: ports bound twice, and logs written over files that are no logs."""
from __future__ import annotations

import os
import socket
from typing import Dict, Iterator, List, Tuple

from planet_tools.fleet.files import Child, Refused, Use, use_of

LOG_HEADERS = b"planet log 1\n", b"planet log 2\n"


def is_free(port: int) -> bool:
    """Whether a port of loopback can be bound now."""
    with socket.socket(socket.AF_INET, socket.SOCK_DGRAM) as probe:
        try:
            probe.bind(("127.0.0.1", port))
        except OSError:
            return False
    return True


def port_dangers(uses: List[Tuple[Child, Use]]) -> Iterator[str]:
    """Ports that two children bind, and those that somebody else has."""
    seen: Dict[int, Child] = {}
    for child, use in uses:
        if use.port is None:
            continue
        if use.port in seen:
            yield f"port {use.port} would be bound twice, by {seen[use.port].name} and by {child.name}"
        elif not is_free(use.port):
            yield f"port {use.port} of {child.name} is taken by another process"
        seen.setdefault(use.port, child)


def what_stands(log: str) -> str:
    """Why a log can't be made under this name without a loss, or nothing."""
    if not os.path.lexists(log):
        folder = os.path.dirname(log) or "."
        return "" if os.path.isdir(folder) and os.access(folder, os.W_OK) else f"no file can be made in {folder}"
    if not os.path.isfile(log):
        return "it is no file"
    if not os.access(log, os.W_OK):
        return "it can't be written"
    try:
        with open(log, "rb") as file:
            begun = file.read(len(LOG_HEADERS[0]))
    except OSError as error:
        return f"it can't be read ({error.strerror})"
    return "" if not begun or begun in LOG_HEADERS else "it is a file that is no log, and would be lost"


def log_dangers(fleet: str, uses: List[Tuple[Child, Use]]) -> Iterator[str]:
    """Logs that are a file of the fleet, that two nodes write, or that would overwrite what is no log."""
    files = {os.path.realpath(child.file): f"the file of {child.name}" for child, _ in uses}
    files[os.path.realpath(fleet)] = "the file of the fleet"
    seen: Dict[str, Child] = {}
    for child, use in uses:
        if use.log is None:
            continue
        place = os.path.realpath(use.log)
        wrong = what_stands(use.log)
        if place == os.path.realpath(child.file):
            yield f"the log of {child.name} is its own configuration, which would be lost"
        elif place in files:
            yield f"the log {use.log} of {child.name} is {files[place]}, which would be lost"
        elif place in seen:
            yield f"the log {use.log} would be written by {seen[place].name} and by {child.name}"
        elif wrong:
            yield f"the log {use.log} of {child.name} can't be made: {wrong}"
        seen.setdefault(place, child)


def dangers(fleet: str, children: List[Child]) -> Tuple[List[str], Dict[int, Use]]:
    """All that a fleet would do so, and what each of its children takes, by the child's line."""
    found, uses = [], []
    for child in children:
        try:
            uses.append((child, use_of(child)))
        except Refused as wrong:
            found.append(f"{wrong}, which {child.name} needs")
    found += [*port_dangers(uses), *log_dangers(fleet, uses)]
    return found, {child.line: use for child, use in uses}
