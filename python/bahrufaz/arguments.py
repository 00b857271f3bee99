"""The command line: what each command takes."""

from __future__ import annotations

import argparse
from typing import Any, Callable

from . import __version__, library
from .text import shortened
from .wrong import LibraryMissing


def parser() -> argparse.ArgumentParser:
    whole = argparse.ArgumentParser(
        prog="bahrufaz",
        description="Lists the matches of a pattern in a graph store, and says beforehand how much it will read.",
        epilog="A file named - is standard input, or output after -o. Exit status: 0 answered, 1 refused, 2 wrong use. "
        "'bahrufaz COMMAND --help' has an example of each.",
    )
    whole.add_argument("--version", action=_Version, nargs=0, help="the version, and which library is loaded")
    commands = whole.add_subparsers(dest="command", title="commands", metavar="COMMAND", required=True)
    for name, (add, summary, example) in _COMMANDS.items():
        command = commands.add_parser(
            name,
            help=summary,
            description=summary[0].upper() + summary[1:] + ".",
            epilog="example:\n" + "\n".join(f"  {line}" for line in example.split("\n")),
            formatter_class=argparse.RawDescriptionHelpFormatter,
        )
        add(command)
    return whole


class _Version(argparse.Action):
    def __call__(self, parser, *_):  # type: ignore[no-untyped-def]
        try:
            found = library.find()
        except LibraryMissing as missing:
            found = str(missing)
        print(f"bahrufaz {__version__}\nlibrary: {found}")
        parser.exit()


def _count(text: str) -> int:
    """A whole number that is not negative."""
    if not text.isascii() or not text.isdigit() or len(text) > 18:
        raise argparse.ArgumentTypeError(f"expected a whole number, found '{shortened(text)}'")
    return int(text)


def _add_store(command: argparse.ArgumentParser, nargs: Any = None) -> None:
    command.add_argument(
        "store", nargs=nargs, metavar="STORE", help="a store; or a .feed file, which is built without being kept"
    )
    _add_names(command)


def _add_names(command: argparse.ArgumentParser) -> None:
    group = command.add_mutually_exclusive_group()
    group.add_argument("--names", metavar="FILE", help="names from this .names or .feed file, not from beside the store")
    group.add_argument("--no-names", action="store_true", help="leave names out: ids and label numbers are shown")


def _add_pattern(command: argparse.ArgumentParser, nargs: Any = None) -> None:
    command.add_argument(
        "pattern", metavar="PATTERN", nargs=nargs, help="a .pat file; any other is read as the bytes of a pattern"
    )


def _add_unchecked(command: argparse.ArgumentParser) -> None:
    command.add_argument(
        "--unchecked", action="store_true", help="go on with a store that is not admitted: matches may be missing"
    )


def _add_room(command: argparse.ArgumentParser) -> None:
    command.add_argument(
        "--room",
        type=_count,
        default=library.MOST_ROOM_WORDS,
        metavar="WORDS",
        help="the most words of room for matches, a word for each of their nodes (%(default)s)",
    )


def _add_build(command: argparse.ArgumentParser) -> None:
    command.add_argument("graph", metavar="GRAPH", help="a .feed file; any other is read as the bytes of a draft")
    command.add_argument("-o", "--output", required=True, metavar="STORE", help="the store; its names stand beside it")
    command.add_argument("--draft", action="store_true", help="write the draft, without an index")
    _add_names(command)
    _add_force(command)


def _add_admit(command: argparse.ArgumentParser) -> None:
    command.add_argument("store", metavar="STORE", help="the bytes of a store")


def _add_json(command: argparse.ArgumentParser) -> None:
    command.add_argument("--json", action="store_true", help="answer in JSON, refusals too")


def _add_plan(command: argparse.ArgumentParser) -> None:
    _add_store(command)
    _add_pattern(command)
    _add_json(command)


def _add_forms(command: argparse.ArgumentParser) -> None:
    forms = command.add_mutually_exclusive_group()
    forms.add_argument("--json", action="store_true", help="answer in JSON, refusals too")
    forms.add_argument("--csv", action="store_true", help="the rows as CSV")


def _add_list(command: argparse.ArgumentParser) -> None:
    _add_store(command)
    _add_pattern(command, "+")
    _add_forms(command)
    command.add_argument("--ids", action="store_true", help="node ids in place of names")
    command.add_argument("--limit", type=_count, metavar="N", help="show the first N matches")
    command.add_argument("--count", action="store_true", help="only how many, a line for each of many patterns")
    _add_unchecked(command)
    _add_room(command)


def _add_compare(command: argparse.ArgumentParser) -> None:
    _add_store(command)
    command.add_argument("first", metavar="PATTERN", help="a .pat file, as the list that was")
    command.add_argument("second", metavar="PATTERN", help="another, as the list that should be")
    command.add_argument(
        "--by",
        action="append",
        default=[],
        metavar="NODE",
        help="compare by this pattern node, or by several with commas between them; else by all that both have",
    )
    _add_forms(command)
    _add_unchecked(command)
    _add_room(command)


def _add_report(command: argparse.ArgumentParser) -> None:
    _add_store(command)
    _add_pattern(command, "+")
    command.add_argument("-o", "--output", required=True, metavar="HTML", help="the page, a single file")
    command.add_argument("--limit", type=_count, default=200, metavar="N", help="show the first N matches of each (%(default)s)")
    _add_force(command)
    _add_unchecked(command)
    _add_room(command)


def _add_show(command: argparse.ArgumentParser) -> None:
    _add_store(command)
    _add_json(command)
    _add_unchecked(command)


def _add_force(command: argparse.ArgumentParser) -> None:
    command.add_argument("--force", action="store_true", help="write over a file that is there already, whatever it is")


def _add_text(command: argparse.ArgumentParser) -> None:
    _add_store(command)
    command.add_argument("-o", "--output", metavar="FEED", help="the .feed file; else standard output")
    _add_force(command)


def _add_pattern_command(command: argparse.ArgumentParser) -> None:
    _add_pattern(command)
    _add_store(command, "?")
    command.add_argument(
        "-o", "--output", metavar="FILE", help="the bytes, or the .pat file; a text else goes to standard output"
    )
    _add_force(command)


def _add_draw(command: argparse.ArgumentParser) -> None:
    _add_store(command, "?")
    _add_pattern(command)
    command.add_argument(
        "--what", choices=("matches", "plan", "pattern"), default="matches", help="what to draw (%(default)s)"
    )
    command.add_argument("-o", "--output", metavar="FILE", help=".dot, .svg, .png or .pdf; else DOT on standard output")
    command.add_argument("--most", type=_count, default=50, metavar="N", help="draw the first N matches (%(default)s)")
    command.add_argument(
        "--near", type=_count, metavar="N", help="draw N neighbours of each node (3 round up to 8 matches, else none)"
    )
    _add_force(command)
    _add_unchecked(command)
    _add_room(command)


def _add_import(command: argparse.ArgumentParser) -> None:
    command.add_argument("file", metavar="FILE", help="a .graphml file; any other is read as an edge list in CSV")
    command.add_argument("-o", "--output", required=True, metavar="FEED", help="the .feed file")
    _add_force(command)
    command.add_argument("--nodes", metavar="CSV", help="a CSV file of nodes: name, label and, if there is one, value")
    command.add_argument("--label", metavar="NAME", help="the label of nodes that have none")
    command.add_argument("--name-key", metavar="KEY", help="the column or attribute with a node's name")
    command.add_argument("--label-key", default="label", metavar="KEY", help="that with its label (%(default)s)")
    command.add_argument("--value-key", default="value", metavar="KEY", help="that with its value (%(default)s)")


def _add_measure(command: argparse.ArgumentParser) -> None:
    command.add_argument("graph", metavar="FEED", help="a .feed file; the constraints that it has stay as they are")
    command.add_argument(
        "--for", dest="patterns", nargs="+", metavar="PATTERN", help="only the few that these patterns need to be covered"
    )
    command.add_argument("-o", "--output", metavar="FEED", help="write the graph with them into this .feed file")
    _add_force(command)


# what each command takes, what it does, and an example
_COMMANDS: dict[str, tuple[Callable[[argparse.ArgumentParser], None], str, str]] = {
    "build": (_add_build, "build the store of a graph", "bahrufaz build world.feed -o world.store"),
    "admit": (_add_admit, "say whether a store is the one that building gives", "bahrufaz admit world.store"),
    "plan": (_add_plan, "say how much listing will read, and how", "bahrufaz plan world.store a.pat"),
    "list": (
        _add_list,
        "list the matches of a pattern",
        "bahrufaz list world.store a.pat\nbahrufaz list --csv world.store a.pat >a.csv",
    ),
    "compare": (
        _add_compare,
        "show what one pattern lists and another does not",
        "bahrufaz compare world.store old.pat new.pat --by field",
    ),
    "report": (
        _add_report,
        "make a page to read and print: a checklist of patterns, each with its picture, its plan and its matches",
        "bahrufaz report world.store *.pat -o report.html",
    ),
    "show": (_add_show, "show what is in a store", "bahrufaz show world.store"),
    "draw": (
        _add_draw,
        "draw the matches of a pattern, its plan, or the pattern itself",
        "bahrufaz draw world.store a.pat -o a.svg\nbahrufaz draw --what plan world.store a.pat -o plan.svg\n"
        "bahrufaz draw --what pattern a.pat -o pattern.svg",
    ),
    "import": (
        _add_import,
        "make a .feed file of an edge list in CSV or of GraphML",
        "bahrufaz import edges.csv --nodes nodes.csv -o world.feed\nbahrufaz import drawn.graphml -o world.feed",
    ),
    "measure": (
        _add_measure,
        "find constraints that hold in a graph today, each with its smallest N",
        "bahrufaz measure world.feed\nbahrufaz measure world.feed --for a.pat -o measured.feed",
    ),
    "text": (_add_text, "write a store back as text", "bahrufaz text world.store -o world.feed"),
    "pattern": (
        _add_pattern_command,
        "turn the text of a pattern into bytes, or bytes into text",
        "bahrufaz pattern a.pat world.store -o pattern.bin",
    ),
}
