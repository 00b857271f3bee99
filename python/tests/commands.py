"""What the tests of commands have in common: a directory with the small world, and commands run in it."""

from __future__ import annotations

import contextlib
import io
import os
import shutil
import tempfile
import unittest

from bahrufaz.command import main

from .worlds import PATTERN_A, SMALL


class CommandCase(unittest.TestCase):
    """Runs commands in a directory of their own that has world.feed and a.pat."""

    def setUp(self):
        self.directory = tempfile.TemporaryDirectory()
        self.addCleanup(self.directory.cleanup)
        self.addCleanup(os.chdir, os.getcwd())
        os.chdir(self.directory.name)
        shutil.copy(SMALL, "world.feed")
        shutil.copy(PATTERN_A, "a.pat")

    def run_command(self, *arguments: str) -> tuple[int, str, str]:
        out, err = io.StringIO(), io.StringIO()
        with contextlib.redirect_stdout(out), contextlib.redirect_stderr(err):
            status = main(arguments)
        return status, out.getvalue(), err.getvalue()

    def answer(self, *arguments: str) -> str:
        status, out, err = self.run_command(*arguments)
        self.assertEqual((status, err), (0, ""), arguments)
        return out

    def assert_status(self, status: int, message: str, *arguments: str):
        told, out, err = self.run_command(*arguments)
        self.assertEqual(told, status, (out, err))
        self.assertIn(message, err)
        self.assertEqual(out, "")

    def built(self) -> str:
        self.answer("build", "world.feed", "-o", "world.store")
        return "world.store"
