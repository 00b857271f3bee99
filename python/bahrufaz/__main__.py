"""python3 -m bahrufaz"""

import sys


def run() -> int:
    """The command; an interrupt is no error even while it is being loaded."""
    try:
        from .command import main

        return main()
    except KeyboardInterrupt:
        return 130


if __name__ == "__main__":
    sys.exit(run())
