"""pages.py DIRECTORY: writes the man page and the completions for bash, zsh and fish, as they stand below a share/.

They are made from what the command says about itself, so they name what it takes today.
"""

from __future__ import annotations

import sys
from pathlib import Path

sys.dont_write_bytecode = True

import bash  # noqa: E402  (nothing is to be left in the checkout)
import fish  # noqa: E402
import man  # noqa: E402
import zsh  # noqa: E402

PAGES = {
    "man/man1/bahrufaz.1": man.page,
    "bash-completion/completions/bahrufaz": bash.completion,
    "zsh/site-functions/_bahrufaz": zsh.completion,
    "fish/vendor_completions.d/bahrufaz.fish": fish.completion,
}

if __name__ == "__main__":
    for name, text in PAGES.items():
        path = Path(sys.argv[1]) / name
        path.parent.mkdir(parents=True, exist_ok=True)
        path.write_text(text(), encoding="utf-8")
