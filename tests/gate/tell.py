#!/usr/bin/env python3
"""Runs a step of the gate and tells what goes on: a line for each crate, edit, program and test.

tell.py STEP [--crates NAME..] [--edits] [--then STEP..] -- COMMAND..

--crates says which crates COMMAND proves, with those below them (none named: all), --edits that it
tries their must-fail edits too, --then which steps follow; from these, the lines of the crates and
the seconds in docs/CHECK-TIMES.md comes the estimate of what is left. The whole output goes to
target/gate/STEP.log (gate.sh has it brought there), and of a failure the lines that say why are told.
"""

import argparse
import os
import signal
import subprocess
import sys
import time
from pathlib import Path

from estimate import Estimate, expected_items, roughly, spoken
from events import KEPT, NOT_TRIED, Reader

ROOT = Path(__file__).resolve().parents[2]
LOGS = Path(os.environ.get("GATE_LOGS", ROOT / "target" / "gate"))
WIDEST = 300  # characters of a line that says why
STOPPED = 130  # the status of what an interrupt ended


class Teller:
    """Takes the lines of a step one by one, and tells of them."""

    def __init__(self, step, estimate, say=print, clock=time.monotonic):
        self.step, self.estimate, self.say, self.clock = step, estimate, say, clock
        self.began = clock()
        self.reader = Reader()
        self.seen = {}  # for each kind the names told, and whether all was well
        self.since = []  # the lines since the last event
        self.silent = {KEPT: 0, NOT_TRIED: 0}  # crates that are only counted
        self.following = False  # whether lines go on saying why the last event failed

    def take(self, line):
        event = self.reader.event(line)
        if event is None:
            if "NOT RUN" in line or (self.following and not line.startswith("rt: ")):
                self.say(why(line))
            else:
                self.since.append(line)
            return
        if event.kind == "edits":
            self.estimate.trying(event.name)
        elif self.is_new(event):
            self.tell(event)
        self.since = []

    def is_new(self, event):
        """Whether it is to be told of: what became of a crate or an edit once, and each line that says what a program did wrong."""
        told, known = self.seen.setdefault(event.kind, []), (event.name, event.passed)
        if known in told and event.kind != "test" and (event.kind != "run" or event.passed):
            return False
        told.append(known)
        return True

    def tell(self, event):
        self.following = False
        self.estimate.done(event.kind, event.name, event.told not in self.silent)
        if event.told in self.silent:
            self.silent[event.told] += 1
            return
        self.say(", ".join(filter(None, [self.head(event), self.left(event)])))
        if not event.passed:
            self.tell_why(event)

    def head(self, event):
        """Its place among those of its kind, its name, and what became of it."""
        if event.kind == "test":
            return f"{self.step}: {event.name} {event.told}"
        place = len({name for name, _ in self.seen[event.kind]})
        name = f"edit {event.name}" if event.kind == "edit" else event.name
        return f"{place}/{max(self.estimate.total(event.kind), place)} {name} {event.told}"

    def left(self, event):
        left = self.estimate.left(self.clock() - self.began) if event.kind != "test" else 0
        return f"about {roughly(left)} left" if left else ""

    def tell_why(self, event):
        """The prover's errors, or else the last lines before the event; of an edit they come after it."""
        self.following = event.kind == "edit"
        errors = [line for line in self.since if ": error" in line]
        for line in [] if self.following else errors[:5] or self.since[-12:]:
            self.say(why(line))

    def end(self, status):
        """The last line of the step; where it failed, first what was said since the last event."""
        took = spoken(round(self.clock() - self.began))
        if status == 0:
            known = f" ({self.silent[KEPT]} crates kept from earlier runs)" if self.silent[KEPT] else ""
            self.say(f"{self.step}: passed, {took}{known}")
            return
        if status == STOPPED:
            self.say(f"{self.step}: stopped, {took}; the output so far is in target/gate/{self.step}.log")
            return
        for line in self.since[-40:]:
            self.say(why(line))
        above = f" ({self.silent[NOT_TRIED]} crates above not tried)" if self.silent[NOT_TRIED] else ""
        self.say(f"{self.step}: FAILED, {took}{above}; the whole output is in target/gate/{self.step}.log")


def why(line):
    """A line that says why, without the path of the checkout and not too long."""
    line = line.replace(f"{ROOT}/", "")
    return "    " + (line if len(line) <= WIDEST else line[:WIDEST] + " ..")


def run(command, teller, log):
    """Runs the command, and keeps and tells its output line by line."""
    log.parent.mkdir(parents=True, exist_ok=True)
    with open(log, "w", encoding="utf-8", buffering=1) as kept, subprocess.Popen(
        command, stdout=subprocess.PIPE, stderr=subprocess.STDOUT, encoding="utf-8", errors="replace"
    ) as process:
        for line in process.stdout:
            kept.write(line)
            teller.take(line.rstrip("\n"))
    return process.returncode


def arguments():
    parser = argparse.ArgumentParser(usage=__doc__)
    parser.add_argument("step")
    parser.add_argument("--crates", nargs="*")
    parser.add_argument("--edits", action="store_true")
    parser.add_argument("--then", nargs="*", default=[])
    own, command = sys.argv[1:], []
    if "--" in own:
        own, command = own[: own.index("--")], own[own.index("--") + 1 :]
    if not command:
        parser.error("no command")
    return parser.parse_args(own), command


def main():
    sys.stdout.reconfigure(errors="replace")
    # a shell has what runs beside it ignore an interrupt
    signal.signal(signal.SIGINT, signal.default_int_handler)
    wanted, command = arguments()
    items = [] if wanted.crates is None else expected_items(ROOT, wanted.crates, wanted.edits)
    estimate = Estimate(ROOT, items, wanted.then)
    teller = Teller(wanted.step, estimate, say=lambda line: print(line, flush=True))
    try:
        status = run(command, teller, LOGS / f"{wanted.step}.log")
    except KeyboardInterrupt:
        status = STOPPED
    teller.end(status)
    if status == 0:
        with open(LOGS / "seconds.txt", "a", encoding="utf-8") as kept:
            kept.write(f"{wanted.step}: {round(teller.clock() - teller.began)}\n")
    return 1 if status < 0 else status


if __name__ == "__main__":
    sys.exit(main())
