# module.sh, for other scripts: the archive that the kit's compiler makes of crate bahrufaz for x86-64, and the LLVM module that
# it hands clang for it, kept as it passes by a clang of our own. Sets kit, tools and ours.
processor=$(uname -m)
kit=$(cd "$(dirname "$(readlink -f "$(command -v rt)")")/.." && pwd -P)
tools=$kit/toolchain
ours=$(pwd -P)/target/here

# the kit's tools, and a clang that keeps the module
own_tools() {
    rm -rf "$ours"
    mkdir -p "$ours/bin"
    for tool in clang ld.lld llvm-ar; do
        printf '#!/bin/sh\nexec "%s" "$@"\n' "$tools/bin/$tool" >"$ours/bin/$tool"
        chmod +x "$ours/bin/$tool"
    done
    sed -i "2i [ ! -f module.bc ] || cp module.bc '$ours/bahrufaz.bc'" "$ours/bin/clang"
}

# target/staticlib/libbahrufaz.a and its module bahrufaz.bc beside it, over the libraries as they stand in crates/*/out: what
# `rt lib` has rattle do there, but with these tools. build_archive FLAG..
build_archive() {
    own_tools
    for name in $(sed -n 's/^bahrufaz staticlib: //p' crates.txt); do
        set -- "$@" --extern "$name=../$name/out/rlib/$name.rlib"
    done
    for folder in crates/*/out/rlib; do
        set -- "$@" -L "dependency=../../$folder"
    done
    (cd crates/bahrufaz && "$kit/bin/rattle" build --crate-name bahrufaz src/lib.rt --crate-type staticlib \
        --extern "std=$kit/rlibs/std.rlib" -L "dependency=$kit/rlibs" --antt-project "$kit/rattle/logic/antt-project.json" \
        --logic-built "$kit/logic_built" --toolchain "$ours" "$@" -o "$ours/libbahrufaz.a")
    mkdir -p target/staticlib
    mv "$ours/bahrufaz.bc" "$ours/libbahrufaz.a" target/staticlib
}

# the kit's clang on the module, or on another form of it, with the flags of a target: compile_module OUT FLAG..
module=target/staticlib/bahrufaz.bc
compile_module() {
    out=$1
    shift
    if ! "$tools/bin/clang" -Wno-override-module -O3 "$@" -c -x ir "$module" -o "$out" 2>"$ours/log"; then
        cat "$ours/log" >&2
        exit 1
    fi
}
