"""What a line of a step's output says: a crate proved, an edit refused, a program run, a test passed."""

import re
from typing import NamedTuple, Optional


class Event(NamedTuple):
    kind: str  # crate, edits (a crate's are begun), edit, run or test
    name: str
    passed: bool
    told: str  # what became of it


KEPT = "kept"  # a crate that was proved before, here or by another run on this machine
NOT_TRIED = "not run"  # a crate above one that failed
BY_COMPILER = r"(?: \(built by [^)]*\))?"

# in this order: a line is what the first pattern that fits says; what became of it stands here, or is the pattern's told
PATTERNS = [
    # rt ci
    ("crate", True, None, re.compile(r"rt: (?P<name>\w+) (?P<told>proved)$")),
    ("crate", True, KEPT, re.compile(r"rt: (?P<name>\w+) is kept: ")),
    ("crate", False, NOT_TRIED, re.compile(r"rt: (?P<name>\w+) NOT PROVED: its library \w+ failed$")),
    ("crate", False, None, re.compile(r"rt: (?P<name>\w+) (?P<told>NOT PROVED)$")),
    ("crate", False, None, re.compile(r"rt: (?P<name>\w+): its (?P<told>tests are NOT PROVED)$")),
    ("edits", True, None, re.compile(r"rt: (?P<name>\w+): (?P<told>trying) its must-fail edits")),
    ("edit", True, None, re.compile(r"rt: must-fail (?P<name>\S+)\.edit: (?P<told>refused), as it must be(?: \((?P<only>only [^,]+),)?")),
    ("edit", False, None, re.compile(r"rt: must-fail (?P<name>\S+)\.edit: (?P<told>.*)")),
    ("edit", False, None, re.compile(r"rt: crates/(?P<name>\S+): (?P<told>BAD EDIT: .*)")),
    ("run", True, None, re.compile(rf"rt: (?P<name>\w+) (?P<told>ran){BY_COMPILER}, and wrote")),
    ("run", False, None, re.compile(rf"rt: (?P<name>\w+){BY_COMPILER}: (?P<told>(?:the program|what the program wrote|the file)\b.*)")),
    ("run", False, None, re.compile(r"rt: (?P<name>\w+) (?P<told>was not run: .*)")),
    ("run", False, None, re.compile(r"rt: (?P<name>\w+): its (?P<told>tests FAILED)$")),
    # the summary of rt all check
    ("crate", True, KEPT, re.compile(r"(?P<name>\w+): ok$")),
    ("crate", False, None, re.compile(r"(?P<name>\w+): (?P<told>failed \(\d+\))$")),
    ("crate", False, NOT_TRIED, re.compile(r"(?P<name>\w+): not run, since \w+ failed$")),
    # cargo's tests, then Python's
    ("test", True, None, re.compile(r"test (?P<name>.+?) \.\.\. (?P<told>ok|ignored.*)$")),
    ("test", False, None, re.compile(r"test (?P<name>.+?) \.\.\. (?P<told>FAILED)$")),
    ("test", True, None, re.compile(r"(?P<name>test_\w+) \(.*\.\.\. (?P<told>ok|skipped.*|expected failure)$")),
    ("test", False, None, re.compile(r"(?P<name>test_\w+) \(.*\.\.\. (?P<told>FAIL|ERROR|unexpected success)$")),
]


# a check that keeps its work names its crate and how much was new, and then says what became of it
CHECKED = re.compile(r"crate (?P<name>\w+): modules loaded=\d+ checked=(?P<new>\d+)$")
VERDICT = re.compile(r"logic=(?P<told>proved|not-proved)\b")


class Reader:
    """Takes the lines of a step one by one, and gives the event that a line tells, or None."""

    def __init__(self):
        self.checked = None

    def event(self, line: str) -> Optional[Event]:
        verdict, checked = VERDICT.match(line), self.checked
        if not verdict:
            self.checked = CHECKED.match(line) or checked
            return event_of(line)
        self.checked = None
        if not checked:
            return None
        if verdict["told"] != "proved":
            return Event("crate", checked["name"], False, "NOT PROVED")
        return Event("crate", checked["name"], True, KEPT if checked["new"] == "0" else "proved")


def event_of(line: str) -> Optional[Event]:
    """The event that a line tells, or None."""
    for kind, passed, told, pattern in PATTERNS:
        found = pattern.match(line)
        if found:
            parts = found.groupdict()
            only = f", {parts['only']}" if parts.get("only") else ""
            return Event(kind, parts["name"], passed, (told or parts["told"]) + only)
    return None
