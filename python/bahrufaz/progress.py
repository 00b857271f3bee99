"""A line on the terminal while work takes long and a person is looking."""

from __future__ import annotations

import contextlib
import sys
import threading
from typing import Iterator

_PATIENCE = 1.0  # seconds after which a person wants to know


@contextlib.contextmanager
def working(what: str) -> Iterator[None]:
    """Says what is being done if it is not done within a second; the line is gone afterwards."""
    if not sys.stderr.isatty():
        yield
        return
    told = threading.Event()

    def tell() -> None:
        told.set()
        sys.stderr.write(f"\r{what} ..")
        sys.stderr.flush()

    timer = threading.Timer(_PATIENCE, tell)
    timer.daemon = True
    timer.start()
    try:
        yield
    finally:
        timer.cancel()
        if told.is_set():
            sys.stderr.write("\r" + " " * (len(what) + 3) + "\r")
            sys.stderr.flush()
