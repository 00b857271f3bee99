#!/bin/sh
# here.sh OUT CALL..: the program that makes the library's calls, for this processor, of target/lib/libbahrufaz.a
# (make lib). What make boundary compares is the archive for x86-64 itself.
set -eu
out=$1
shift
mkdir -p "$(dirname "$out")"
defines=
for call in "$@"; do defines="$defines -DHAVE_$(echo "$call" | tr a-z A-Z)"; done
gcc -std=c11 -O2 -Wall -Wextra -Werror -pthread -Iinclude $defines tests/boundary/serve.c target/lib/libbahrufaz.a -o "$out"
