#!/bin/sh
# What an archive for C asks of the program that it is linked into: memcpy and memset, no more, so that it links without a C library.
set -eu
cd "$(dirname "$0")/../.."
if [ "$(uname -m)" != x86_64 ]; then
    echo "outside: NOT RUN, the archive of the kit is for x86-64"
    exit 0
fi
asked=$(nm -u target/lib/libbahrufaz.a | sed -n 's/^ *U //p' | sort | tr '\n' ' ')
if [ "$asked" != "memcpy memset " ]; then
    echo "outside: the library asks for $asked"
    exit 1
fi
echo "outside: the library asks for memcpy and memset alone"
