#!/bin/sh
# run.sh PROGRAM: runs a program of crates/PROGRAM, as it was built last, in the folder one is in.
set -eu
here=$(dirname "$(readlink -f "$0")")
exec "$here/crates/$1/out/$1"
