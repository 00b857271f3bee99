#!/usr/bin/env python3
"""The command as it is installed: its package stands below share/, and the library beside it is the one it loads."""

import os
import sys

PREFIX = os.path.dirname(os.path.dirname(os.path.realpath(__file__)))
sys.path[0] = os.path.join(PREFIX, "share", "bahrufaz")
if not os.environ.get("BAHRUFAZ_LIB"):
    os.environ["BAHRUFAZ_LIB"] = os.path.join(PREFIX, "lib", "libbahrufaz.so")

from bahrufaz.command import main  # noqa: E402  (it is found only now)

sys.exit(main())
