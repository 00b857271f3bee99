#!/bin/sh
# wasm.sh: target/wasm/bahrufaz.wasm, the library's calls as WebAssembly with no imports: the LLVM module of the
# archive for x86-64, compiled by the kit's clang for wasm32. Pointers are 32 bits wide, lengths stay 64.
set -eu
cd "$(dirname "$0")/.."
. lib/module.sh

# every call that the header declares; the stack comes first, so that too deep a one traps and overwrites nothing
link_calls() {
    exports=$(sed -n 's/^uint32_t \(bahrufaz_[a-z_]*\)(.*/--export=\1/p' include/bahrufaz.h)
    "$tools/bin/ld.lld" -flavor wasm --no-entry --stack-first -z stack-size=8388608 --export=__heap_base $exports \
        "$ours/wasm.o" -o target/wasm/bahrufaz.wasm.new
    mv target/wasm/bahrufaz.wasm.new target/wasm/bahrufaz.wasm
}

# The module is made for pointers of 64 bits. Where they have 32, two of its forms would be read otherwise than meant, and are reworded:
# a difference of addresses as words of 64 bits, and a pair read at once whose pointer comes second, which stands 8 bytes on.
reword_module() {
    words=$ours/wasm.ll
    "$tools/bin/clang" -Wno-override-module -S -emit-llvm -Xclang -disable-llvm-passes -x ir "$module" -o "$words"
    sed -i -E 's/ = ptrtoaddr ptr (.*) to i64$/ = ptrtoint ptr \1 to i64/
s/^( *)(%r[0-9]+) = load \{ i8, ptr \}, ptr (%[a-z0-9]+), align 8$/\1\2.first = load i8, ptr \3, align 8\
\1\2.at = getelementptr i8, ptr \3, i64 8\
\1\2.second = load ptr, ptr \2.at, align 8\
\1\2.half = insertvalue { i8, ptr } poison, i8 \2.first, 0\
\1\2 = insertvalue { i8, ptr } \2.half, ptr \2.second, 1/' "$words"
    if grep -nE '= ptrtoaddr|(load|store) \{[^}]*, ptr' "$words"; then
        echo "wasm: the module has a form that pointers of 32 bits would change"
        exit 1
    fi
    module=$words
}

mkdir -p target/wasm "$ours"
reword_module
compile_module "$ours/wasm.o" --target=wasm32-unknown-unknown -mbulk-memory
link_calls
echo "wasm: target/wasm/bahrufaz.wasm has $(wc -c <target/wasm/bahrufaz.wasm) bytes"
