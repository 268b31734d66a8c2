"""A trace or a log as JSON and as tables, and JSON as a trace or a log again."""
from __future__ import annotations

import csv
import io
import json
from typing import Dict, Iterator, List, Mapping, Sequence

from planet_tools.trace.files import Run, check_log, check_trace, shortened
from planet_tools.trace.forms import FORMS, LOG, TRACE, Line, Refused
from planet_tools.trace.stats import Cell, Table

# pieces of so many lines are written together
PIECE = 5_000


def json_text(lines: Sequence[Line], is_array: bool) -> Iterator[str]:
    """An object a line, in brackets with commas or without."""
    encode = json.JSONEncoder(ensure_ascii=False).encode
    for at in range(0, len(lines), PIECE):
        piece = [encode(line) for line in lines[at:at + PIECE]]
        if not is_array:
            yield "\n".join(piece) + "\n"
            continue
        yield ("[\n" if at == 0 else ",\n") + ",\n".join(piece)
    if is_array:
        yield "\n]\n" if lines else "[]\n"


def objects_in(text: str, name: str) -> List[Mapping[str, object]]:
    """The objects of an array, or of lines with one each."""
    try:
        if text.lstrip().startswith("["):
            found = json.loads(text)
        else:
            found = [json.loads(line) for line in text.split("\n") if line.strip()]
    except (json.JSONDecodeError, RecursionError) as fault:
        raise Refused(f"no JSON of a trace or a log: {fault}, {name}") from fault
    for place, one in enumerate(found, 1):
        if not isinstance(one, dict):
            raise Refused(f"no object of a line: {shortened(json.dumps(one))}, {name} object {place}")
    return list(found)


def run_text(text: str, name: str) -> Iterator[str]:
    """The trace or the log that such objects are; the first of them says which."""
    objects = objects_in(text, name)
    file = str(objects[0].get("kind")) if objects else "none"
    if file not in FORMS:
        raise Refused(f"neither a trace nor a log: its kind is {shortened(file)}, {name} object 1")
    forms = TRACE if file == "trace" else LOG
    lines: List[Line] = []
    texts: List[str] = []
    for place, one in enumerate(objects, 1):
        line: Line = dict(one)  # type: ignore[arg-type]
        said = forms.write(line)
        if said is None:
            raise Refused(f"no object of a {file}'s line: {shortened(json.dumps(one))}, {name} object {place}")
        lines.append(line)
        texts.append(said + "\n")
    (check_trace if file == "trace" else check_log)(lines, name)
    for at in range(0, len(texts), PIECE):
        yield "".join(texts[at:at + PIECE])


def trace_text(lines: Sequence[Line]) -> Iterator[str]:
    """The lines of a trace, each of which has a form."""
    for at in range(0, len(lines), PIECE):
        yield "".join(f"{TRACE.write(line)}\n" for line in lines[at:at + PIECE])


def columns(file: str) -> List[str]:
    """The columns of a table of all lines: the fields of all forms, in the table's order, behind the kind."""
    names = {name: None for form in FORMS[file] for name in form.fields}
    front = ["event"] if "event" in names else []
    return [*front, "kind", *(name for name in names if name != "event")]


def csv_text(names: Sequence[str], rows: Sequence[Mapping[str, object]]) -> Iterator[str]:
    """Rows as comma-separated values; what a row lacks is empty, and a list is its numbers with spaces between."""
    held = io.StringIO()
    table = csv.writer(held, lineterminator="\n")
    table.writerow(names)
    for number, row in enumerate(rows, 1):
        cells = (row.get(name) for name in names)
        table.writerow(" ".join(map(str, cell)) if isinstance(cell, list) else cell for cell in cells)
        if number % PIECE == 0:
            yield held.getvalue()
            held.seek(0)
            held.truncate()
    yield held.getvalue()


def run_csv(run: Run) -> Iterator[str]:
    """All lines of a trace or a log."""
    return csv_text(columns(run.file), run.lines)


def table_csv(rows: Table) -> Iterator[str]:
    """A table of counts."""
    empty: Dict[str, Cell] = {}
    return csv_text(list(rows[0] if rows else empty), rows)
