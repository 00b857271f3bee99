#!/usr/bin/env python3
"""What 01 says of the files of the program run_panel, held on the program itself: `make programs` builds it first."""

import os
import struct
import subprocess
import tempfile
import unittest
from pathlib import Path

TOP = Path(__file__).resolve().parent.parent

FOLDER = "a folder stands where the file should"
NO_ID = 0xFFFFFFFF

KEPT_STORE = 32768
KEPT_PATTERN = 264


def store(edges, most=2):
    """Two nodes labelled 1, and the list of both. The edge records, which listing does not read, fill it up."""
    nodes = struct.pack("<HHi", 1, 0, 0) * 2
    constraints = struct.pack("<4HI", 0, 0, 0, 1, most) + struct.pack("<4HI", 0, 0, 0, 2, 1)
    groups = struct.pack("<6I", 0, NO_ID, NO_ID, NO_ID, 0, 2)
    entries = struct.pack("<2I", 0, 0) + struct.pack("<2I", 1, 0)
    offsets = [48]
    for section in (nodes, bytes(8 * edges), constraints, groups, entries):
        offsets.append(offsets[-1] + len(section))
    header = struct.pack("<12I", 1, 2, edges, 2, 1, 2, *offsets)
    return header + nodes + bytes(8 * edges) + constraints + groups + entries


def pattern(nodes, edges):
    """Nodes labelled 1 without conditions, joined so."""
    start = 24 + 16 * nodes
    header = struct.pack("<6I", 1, nodes, len(edges), 24, start, start + 2 * len(edges))
    return header + struct.pack("<H2B3I", 1, 0, 0, 0, 0, 0) * nodes + b"".join(bytes(e) for e in edges)


ONE = pattern(1, [])
LONGEST = pattern(8, [(x, y) for x in range(8) for y in range(8) if x != y])
FULL = store((KEPT_STORE - len(store(0))) // 8)
BOTH = "answer 0 matches 2 nodes 2 edges 0 bound 2\n0\n1\n"


def refused(number):
    return f"answer {number} matches 0 nodes 0 edges 0 bound 0\n"


def put(path, content):
    if content is FOLDER:
        path.mkdir()
    elif content is not None:
        path.write_bytes(content)


def printed(store_file, pattern_file, mode=0o644):
    """What the program prints where these are its files; None stands for a file that is missing."""
    with tempfile.TemporaryDirectory() as folder:
        put(Path(folder, "store.bin"), store_file)
        put(Path(folder, "pattern.bin"), pattern_file)
        for path in Path(folder).iterdir():
            if path.is_file():
                path.chmod(mode)
        run = subprocess.run([TOP / "run.sh", "run_panel"], cwd=folder, capture_output=True, check=True, text=True)
        return run.stdout


class Panel(unittest.TestCase):
    def test_the_longest_store_that_is_kept_is_answered(self):
        self.assertEqual(len(FULL), KEPT_STORE)
        self.assertEqual(printed(FULL, ONE), BOTH)

    def test_a_longer_store_is_1(self):
        self.assertEqual(printed(FULL + b"\0", ONE), refused(1))

    def test_a_longer_store_that_is_right_is_1(self):
        longer = store((KEPT_STORE - len(store(0))) // 8 + 1)
        self.assertEqual(printed(longer, ONE), refused(1))

    def test_the_longest_pattern_that_is_kept_is_read(self):
        self.assertEqual(len(LONGEST), KEPT_PATTERN)
        self.assertEqual(printed(FULL, LONGEST), refused(7))

    def test_a_longer_pattern_is_6(self):
        self.assertEqual(printed(FULL, LONGEST + b"\0"), refused(6))

    def test_a_longer_pattern_is_6_in_its_usual_place(self):
        self.assertEqual(printed(FULL + b"\0", LONGEST + b"\0"), refused(1))
        self.assertEqual(printed(store(0, most=0), LONGEST + b"\0"), refused(3))

    def test_a_missing_file_counts_as_empty(self):
        self.assertEqual(printed(None, ONE), printed(b"", ONE))
        self.assertEqual(printed(None, ONE), refused(1))
        self.assertEqual(printed(FULL, None), printed(FULL, b""))
        self.assertEqual(printed(FULL, None), refused(6))
        self.assertEqual(printed(None, None), refused(1))

    def test_a_folder_counts_as_empty(self):
        self.assertEqual(printed(FOLDER, ONE), refused(1))
        self.assertEqual(printed(FULL, FOLDER), refused(6))

    @unittest.skipIf(os.geteuid() == 0, "root may read every file")
    def test_a_file_that_may_not_be_read_counts_as_empty(self):
        self.assertEqual(printed(FULL, ONE, mode=0o000), refused(1))


if __name__ == "__main__":
    unittest.main()
