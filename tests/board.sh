#!/bin/sh
# board.sh: the drawing board, put together and tried in Debian's chromium, driven by python3-selenium; what is missing
# is installed where apt-get and root are there. Where they cannot be had, this says so.
set -eu
cd "$(dirname "$0")/.."

# a python that has selenium
with_selenium() {
    for python in python3 /usr/bin/python3; do
        "$python" -c 'import selenium' 2>/dev/null && echo "$python" && return
    done
    return 1
}

is_ready() {
    command -v node >/dev/null && command -v chromium >/dev/null && command -v chromedriver >/dev/null && with_selenium >/dev/null
}

if ! is_ready; then
    { apt-get update && DEBIAN_FRONTEND=noninteractive apt-get install -y --no-install-recommends \
        nodejs chromium chromium-driver python3-selenium; } >/dev/null 2>&1 || true
fi
if ! is_ready; then
    echo "board-test: NOT RUN, there is no node, or no chromium with its driver and python3-selenium here"
    exit 0
fi
make --no-print-directory board
exec "$(with_selenium)" -m unittest discover --verbose --start-directory tests/board --top-level-directory tests/board
