#!/bin/sh
# The gate: everything that must hold. Crates are proved once, from nothing, by rt ci, or were by an earlier run on this machine;
# the library is made of what that proved, and stays in target/lib. The very last line is rt ci's own, and comes only if
# everything else passed too.
set -eu
cd "$(dirname "$0")/../.."
# a make or cargo below takes no orders that were meant for the make above
unset MAKEFLAGS MFLAGS
tell=tests/gate/tell.py
# the steps that need what was proved
after="programs boundary desk wasm-test board-test"
began=$(date +%s)

# nothing in the checkout changes before rt ci has read it, so the logs come there last
GATE_LOGS=$(mktemp -d)
export GATE_LOGS
chmod 755 "$GATE_LOGS"
trap 'mkdir -p target && rm -rf target/gate && mv "$GATE_LOGS" target/gate' EXIT
trap 'exit 130' INT TERM

fail() {
    echo "gate: FAILED, $*"
    exit 1
}

make --no-print-directory kit
$tell format -- make --no-print-directory layout
$tell contracts -- tests/contracts.sh
$tell telling -- make --no-print-directory telling

# rt ci gives back the libraries that earlier checks left in crates/*/out; where there are none, its own stay there
proved=--proved
[ -z "$(find crates -path '*/out/rlib')" ] || proved=
$tell reading -- make --no-print-directory reading &
reading=$!
status=0
# shellcheck disable=SC2086
$tell proofs --crates --edits --then library $after -- rt ci || status=$?
wait "$reading"
[ "$status" = 0 ] || exit "$status"
verdict=$(tail -n 1 "$GATE_LOGS/proofs.log")
echo "$verdict" | grep -qx '[0-9]* passed, 0 failed' || fail "rt ci ended with '$verdict'"
summary=$(grep '^rt: ok;' "$GATE_LOGS/proofs.log") || fail "rt ci has no line 'rt: ok'"
! echo "$summary" | grep -q ', [1-9][0-9]* bad' || fail "rt ci could not try every must-fail edit: $summary"

# shellcheck disable=SC2086
$tell library --crates bahrufaz -- lib/here.sh $proved
for step in $after; do
    $tell "$step" -- make --no-print-directory "$step"
done

took=$(($(date +%s) - began))
echo "gate: $took" >>"$GATE_LOGS/seconds.txt"
echo "gate: passed, $((took / 60)) min $((took % 60)) s; the whole output is in target/gate"
echo "$verdict"
