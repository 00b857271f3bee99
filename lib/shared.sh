#!/bin/sh
# shared.sh: the shared library of target/lib/libbahrufaz.a, beside it: libbahrufaz.so.VERSION, and its two shorter names, which
# are no links, since rt ci takes none in a checkout. A program asks at run time for libbahrufaz.so.0, the first number of the
# version, so a library with other calls does not take its place unseen. Only the calls of the header are seen from outside.
set -eu
cd "$(dirname "$0")/.."
version=$(cat VERSION)
soname=libbahrufaz.so.${version%%.*}
cd target/lib
echo "{ global: bahrufaz_*; local: *; };" >calls.map
"${CC:-gcc}" -shared -Wl,-soname,"$soname" -Wl,-z,defs -Wl,--version-script=calls.map \
    -Wl,--whole-archive libbahrufaz.a -Wl,--no-whole-archive -o shared.new
rm calls.map
# a program may have the old one open: the new one takes its place at once
mv shared.new "libbahrufaz.so.$version"
ln -f "libbahrufaz.so.$version" "$soname"
ln -f "$soname" libbahrufaz.so
