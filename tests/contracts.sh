#!/bin/sh
# Every public function of a library has its result under contract, the pages made from the code are what the code says,
# and the names that other documents give stand where they say. Of a program nothing can be named from outside; a function
# with no contract at all has a row in docs/EXCEPTIONS.md that says so. With --write the pages are written anew.
set -eu
cd "$(dirname "$0")/.."
made=$(mktemp)
trap 'rm -f "$made"' EXIT
for page in CONTRACTS LAWS; do
    python3 "tests/pages/$(echo $page | tr A-Z a-z).py" >"$made"
    if [ "${1:-}" = --write ]; then
        cat "$made" >"docs/$page.md"
    elif ! diff "docs/$page.md" "$made"; then
        echo "docs/$page.md is not what the code says: tests/contracts.sh --write writes it anew"
        exit 1
    fi
done
python3 tests/pages/names.py
