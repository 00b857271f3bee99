"""The updater of the story: it brings a store up to date, and forgets the index.

    python3 updater.py STORE FEED

The store gets the nodes, edges and constraints of the .feed file, and its names; the index behind them stays as it was.
"""

import struct
import sys

import bahrufaz

HEADER = struct.Struct("<12I")
GROUP_BYTES = 24


def updated(store: bytes, draft: bytes) -> bytes:
    """The records of the draft, and behind them the index of the store."""
    new, old = list(HEADER.unpack_from(draft)), HEADER.unpack_from(store)
    groups, entries, at_groups = old[4], old[5], old[9]
    index = store[at_groups:]
    new[4:6] = groups, entries
    new[10] = new[9] + GROUP_BYTES * groups
    new[11] = new[9] + len(index)
    return HEADER.pack(*new) + draft[HEADER.size :] + index


def main() -> None:
    path, feed = sys.argv[1:]
    graph = bahrufaz.Graph.read(feed)
    bytes_now = updated(bahrufaz.Store.read(path).data, graph.draft())
    bahrufaz.Store(bytes_now, graph.names).write(path)


if __name__ == "__main__":
    main()
