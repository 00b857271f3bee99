#!/bin/sh
# here.sh [--proved]: target/staticlib/libbahrufaz.a, which the kit makes for x86-64, with its LLVM module, and the library for
# the processor at hand: target/lib/libbahrufaz.a and target/lib/libbahrufaz.so. On x86-64 these come from that archive. Elsewhere
# its module is compiled by the kit's clang once more for this processor.
# --proved, right after an rt ci that found no libraries in crates/*/out: those that it proved and left there serve.
set -eu
cd "$(dirname "$0")/.."
. lib/module.sh

# of libraries that `rt lib` proves and builds anew where they changed; it makes the same archive, but keeps no module
archive_of_kept() {
    (cd crates/bahrufaz && rt lib)
    build_archive --incremental out/incremental
    cmp crates/bahrufaz/out/libbahrufaz.a target/staticlib/libbahrufaz.a
}

# of those of rt ci, which go then: no command takes them, and the next rt ci would give them back in place of its own
archive_of_ci() {
    build_archive
    rm -rf crates/*/out/rlib
}

# the archive for this processor, from the module and with the flags that the kit has for its own
archive_of_module() {
    compile_module "$ours/bahrufaz.o" --target="$processor-unknown-linux-gnu" -fPIC \
        -ffunction-sections -fdata-sections -mllvm -trap-unreachable -mllvm -no-trap-after-noreturn
    rm -f "$ours/libbahrufaz.a"
    "$tools/bin/llvm-ar" rcsD "$ours/libbahrufaz.a" "$ours/bahrufaz.o"
    mv "$ours/libbahrufaz.a" target/lib/libbahrufaz.a
}

mkdir -p target/lib
if [ "${1:-}" = --proved ]; then
    archive_of_ci
else
    archive_of_kept
fi
if [ "$processor" = x86_64 ]; then
    cp target/staticlib/libbahrufaz.a target/lib/libbahrufaz.a
else
    archive_of_module
fi
lib/shared.sh
echo "lib: target/lib has libbahrufaz.a and libbahrufaz.so for $processor"
