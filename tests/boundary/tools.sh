#!/bin/sh
# The tools that make an x86-64 program and run it here. Prints CC=.. and EMULATOR=.. (empty on
# x86-64) for a shell to take, and says on standard error what is used. On another processor it takes
# Debian's cross compiler and qemu-user; what is missing is installed where apt-get and root are there.
set -eu

need() { # COMMAND PACKAGE..
    command -v "$1" >/dev/null && return
    wanted=$1
    shift
    { apt-get update && DEBIAN_FRONTEND=noninteractive apt-get install -y --no-install-recommends "$@"; } >/dev/null 2>&1 || true
    command -v "$wanted" >/dev/null && return
    echo "boundary: no $wanted here (Debian has it in $*)" >&2
    exit 1
}

emulator=
if [ "$(uname -m)" = x86_64 ]; then
    compiler=gcc
    need gcc gcc libc6-dev
else
    compiler=x86_64-linux-gnu-gcc
    need "$compiler" gcc-x86-64-linux-gnu libc6-dev-amd64-cross
    need qemu-x86_64 qemu-user
    emulator=$(command -v qemu-x86_64)
fi
echo "boundary: compiled by $compiler, run by ${emulator:-the machine itself}" >&2
# an emulated 'rep stosb' clears memory byte by byte; without it the C library clears words
[ -z "$emulator" ] || emulator="$emulator -cpu max,-erms,-fsrm"
echo "CC=$compiler EMULATOR='$emulator'"
