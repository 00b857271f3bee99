#!/bin/sh
# wasm.sh CALL..: the ES module over target/wasm/bahrufaz.wasm, tested in node, then these calls against the second
# reading on the same cases as the other builds. Where there is no node, this says so.
set -eu
cd "$(dirname "$0")/.."
if ! command -v node >/dev/null; then
    echo "wasm-test: NOT RUN, there is no node here"
    exit 0
fi
node --test js/tests/ >target/wasm/tests || { cat target/wasm/tests; exit 1; }
grep '^# pass' target/wasm/tests
BAHRUFAZ_SERVE="$PWD/js/serve.mjs" BAHRUFAZ_CALLS="$*" \
    cargo test --release --offline --manifest-path tests/Cargo.toml --test boundary -- --nocapture
