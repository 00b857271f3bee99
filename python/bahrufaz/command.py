"""The command: files and a terminal in front of the library."""

from __future__ import annotations

import argparse
import sys
from pathlib import Path
from typing import Sequence

from . import arguments, calls, draw, importing, listing, outputs, tables
from .dot import Picture
from .graph import Graph
from .measuring import measure, measure_for
from .names import Names
from .numbers import Refused
from .progress import working
from .reading import (
    STDIN,
    about,
    by_content,
    bytes_of,
    check_store_bytes,
    graph_of,
    is_feed,
    is_pat,
    names_hint,
    order_of,
    pattern_of,
    shown,
    store_of,
    store_of_bytes,
)
from .records import MAX_CONSTRAINTS, MAX_STORE_BYTES, Constraint
from .speaking import (
    ANSWERED,
    INTERRUPTED,
    REFUSED,
    WRONG_USE,
    abandon_stdout,
    complain,
    emit,
    prepare_streams,
    tell_refusal,
)
from .store import AdmittedStore, Store
from .text import MAX_TEXT_BYTES
from .wrong import Wrong


def main(given: Sequence[str] | None = None) -> int:
    """Runs one command; 0 answered, 1 refused, 2 wrong use."""
    prepare_streams()
    try:
        status = _run(given)
        if sys.stdout:
            sys.stdout.flush()
        return status
    except BrokenPipeError:  # the reader has seen enough
        abandon_stdout()
        return ANSWERED
    except KeyboardInterrupt:
        return INTERRUPTED
    except OSError as error:
        if not error.filename:
            abandon_stdout()
        complain(f"{error.filename or 'standard output'}: {error.strerror or error}")
        return WRONG_USE


def _run(given: Sequence[str] | None) -> int:
    try:
        asked = arguments.parser().parse_args(given)
    except SystemExit as left:  # after --help, or with what is wrong about the arguments told
        return WRONG_USE if left.code else ANSWERED
    try:
        _check_streams(asked)
        return _COMMANDS[asked.command](asked)
    except Refused as refused:
        tell_refusal(refused, getattr(asked, "json", False))
        return REFUSED
    except MemoryError as error:
        complain(str(error) or "there is not enough memory for this")
    except Wrong as error:
        complain(str(error))
    return WRONG_USE


def _check_streams(asked: argparse.Namespace) -> None:
    if sys.stdout is None:
        raise Wrong("standard output is closed")
    if outputs.inputs_of(asked).count(STDIN) > 1:
        raise Wrong("standard input can be read once: '-' stands for one file")


def _say(asked: argparse.Namespace, told: str) -> None:
    """Says what was written; beside the answer where that goes to standard output."""
    to_stdout = asked.output == outputs.STDOUT
    print(f"{'standard output' if to_stdout else asked.output}: {told}", file=sys.stderr if to_stdout else sys.stdout)


def _build(asked: argparse.Namespace) -> int:
    outputs.check_bytes(asked, outputs.STORE)
    with working(f"building {shown(asked.graph)}"):
        store = _built(asked)
    if by_content(asked.output):  # a pipe has nothing beside it
        outputs.put(asked.output, store.data)
        names = None
    else:
        if store.names:
            outputs.check_names(asked)
        names = store.write(asked.output)
    _say(asked, f"{tables.counts_text(store)}" + (f"; names in {names}" if names else ""))
    return ANSWERED


def _built(asked: argparse.Namespace) -> Store:
    """The store, or the draft if that is asked for, of the text of a graph or of a draft."""
    path, data = asked.graph, None
    if not is_feed(path) and not is_pat(path):
        data = bytes_of(path, MAX_TEXT_BYTES if by_content(path) else MAX_STORE_BYTES)
        if not by_content(path) or outputs.is_store(data):
            if asked.draft:
                raise Wrong(f"--draft makes a draft of a .feed file, and {shown(path)} is none")
            draft = store_of_bytes(path, data, asked)
            with about(path):
                return AdmittedStore.built(draft.data, draft.names)
    graph = graph_of(path, data)
    with about(path):
        return Store(graph.draft(), graph.names) if asked.draft else graph.build()


def _admit(asked: argparse.Namespace) -> int:
    if is_feed(asked.store):
        raise Wrong(f"{asked.store} is the text of a graph, and a store, as 'bahrufaz build' makes it, is asked for")
    data = bytes_of(asked.store, MAX_STORE_BYTES)
    check_store_bytes(asked.store, data)
    with about(asked.store):
        AdmittedStore(data, Names())
    print(f"{shown(asked.store)} is admitted: building from its nodes, edges and constraints gives the same bytes")
    return ANSWERED


def _plan(asked: argparse.Namespace) -> int:
    store, pattern = store_of(asked, built=False), pattern_of(asked.pattern, order_of(asked))
    with about(asked.store, asked.pattern), names_hint(store, asked.store):
        plan = calls.plan(store, pattern)
    emit(tables.plan_json(plan) if asked.json else tables.plan_text(plan))
    return ANSWERED


def _show(asked: argparse.Namespace) -> int:
    store = listing.trusted_store(asked)
    if asked.json:
        listing.warn_unchecked(store)
    emit(tables.store_json(store) if asked.json else tables.store_text(store))
    return ANSWERED


def _report(asked: argparse.Namespace) -> int:
    outputs.check_report(asked)
    with working(f"reporting on {shown(asked.store)}"):
        page, status = listing.report_command(asked)
        outputs.put(asked.output, page)
    _say(asked, f"a report on {tables.counted(len(asked.pattern), 'pattern', 'patterns')}")
    return status


def _text(asked: argparse.Namespace) -> int:
    outputs.check_text(asked, ".feed")
    store = store_of(asked, built=False)
    with about(asked.store):
        outputs.put(asked.output, Graph.of_bytes(store.data, store.names).text())
    return ANSWERED


def _pattern(asked: argparse.Namespace) -> int:
    """Between the text of a pattern and its bytes."""
    store = store_of(asked, built=False) if asked.store else None
    pattern = pattern_of(asked.pattern, order_of(asked))
    if not pattern.is_of_text:
        outputs.check_text(asked, ".pat")
        outputs.put(asked.output, pattern.text(store.names if store else None))
        return ANSWERED
    if not asked.output:
        raise Wrong("-o is needed: the bytes of a pattern are not for a terminal")
    outputs.check_bytes(asked, outputs.PATTERN)
    data = _encoded(pattern, store, asked)
    outputs.put(asked.output, data)
    _say(asked, f"{tables.counted(len(data), 'byte', 'bytes')}")
    return ANSWERED


def _encoded(pattern: calls.Pattern, store: Store | None, asked: argparse.Namespace) -> bytes:
    if store is None:
        return pattern.encode()
    with names_hint(store, asked.store):
        return pattern.encode(store.names)


def _draw(asked: argparse.Namespace) -> int:
    outputs.check_picture(asked)
    with working("drawing"):
        picture = _picture(asked)
        if asked.output in (None, outputs.STDOUT):
            print(picture.dot)
            return ANSWERED
        picture.write(asked.output)
    print(f"{asked.output}: {picture.told}")
    return ANSWERED


def _picture(asked: argparse.Namespace) -> Picture:
    """What is to be drawn."""
    pattern, title = pattern_of(asked.pattern, order_of(asked)), Path(asked.pattern).name
    if asked.what == "pattern":
        names = store_of(asked, built=False).names if asked.store else None
        return draw.draw_pattern(pattern, names, title)
    if not asked.store:
        raise Wrong(f"a store is needed to draw the {asked.what}: bahrufaz draw STORE PATTERN")
    title += f" in {Path(shown(asked.store)).name}"
    if asked.what == "plan":
        store = store_of(asked, built=False)
        with about(asked.store, asked.pattern), names_hint(store, asked.store):
            return draw.draw_plan(calls.plan(store, pattern), title)
    store = listing.trusted_store(asked)
    found = listing.listed(asked, store, pattern, asked.pattern)
    listing.warn_unchecked(store)
    return draw.draw_matches(found, asked.most, asked.near, title)


def _import(asked: argparse.Namespace) -> int:
    outputs.check_text(asked, ".feed")
    keys = importing.Keys(asked.name_key, asked.label_key, asked.value_key)
    with working(f"reading {shown(asked.file)}"):
        imported = importing.import_file(asked.file, asked.nodes, asked.label, keys)
        for note in imported.notes:
            complain(f"{shown(asked.file)}: {note}")
        graph = imported.graph
        outputs.put(asked.output, graph.text())
    told = [
        tables.counted(len(graph.nodes), "node", "nodes"),
        tables.counted(len(graph.edges), "edge", "edges"),
        tables.counted(len(graph.names.labels), "label", "labels"),
    ]
    _say(asked, f"{', '.join(told)}; now give it constraints: see 'bahrufaz measure'")
    return ANSWERED


def _measure(asked: argparse.Namespace) -> int:
    outputs.check_text(asked, ".feed")
    data = bytes_of(asked.graph, MAX_TEXT_BYTES)
    with working(f"measuring {shown(asked.graph)}"):
        graph = graph_of(asked.graph, data)
        lines = [f"constraint {graph.names.constraint(one)}" for one in _measured(asked, graph)]
    in_all = len(graph.constraints) + len(lines)
    _check_number(in_all, asked)
    if not asked.output:
        emit(lines)
        return ANSWERED
    text = data.decode("utf-8-sig")
    end = "" if text.endswith("\n") else "\n"
    outputs.put(asked.output, text + end + "".join(f"{line}\n" for line in lines))
    _say(asked, f"{tables.counted(len(lines), 'constraint', 'constraints')} added, {in_all} in all")
    return ANSWERED


def _measured(asked: argparse.Namespace, graph: Graph) -> list[Constraint]:
    """The constraints that hold: those for the patterns that are named, or all."""
    if not asked.patterns:
        return measure(graph)
    patterns = [pattern_of(path) for path in asked.patterns]
    with about(asked.graph, ", ".join(asked.patterns)):
        return measure_for(graph, patterns)


def _check_number(in_all: int, asked: argparse.Namespace) -> None:
    """More constraints than a store has can be shown, but not written into a file."""
    if in_all > MAX_CONSTRAINTS:
        told = f"{in_all} constraints in all, and a store has at most {MAX_CONSTRAINTS}"
        told += ": say by --for PATTERN .. what they are for"
        if asked.output:
            raise Wrong(told)
        complain(told)


_COMMANDS = {
    "build": _build,
    "admit": _admit,
    "plan": _plan,
    "list": listing.list_command,
    "compare": listing.compare_command,
    "report": _report,
    "show": _show,
    "draw": _draw,
    "import": _import,
    "measure": _measure,
    "text": _text,
    "pattern": _pattern,
}
