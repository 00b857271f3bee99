#!/bin/sh
# Installs into a scratch prefix and uses what is there: C programs by pkg-config, with the shared and with the static
# library, and the command with its man page. Then with DESTDIR: the files stand below it, and name the prefix alone.
set -eu
cd "$(dirname "$0")/../.."
version=$(cat VERSION)
major=${version%%.*}
scratch=$(mktemp -d)
trap 'rm -rf "$scratch"' EXIT
usr=$scratch/usr
fail() {
    echo "install: $*" >&2
    exit 1
}
# runs a command, and shows what it printed only if it fails
quietly() {
    "$@" >"$scratch/log" 2>&1 || fail "$* fails: $(cat "$scratch/log")"
}

quietly make --no-print-directory install PREFIX="$usr"
found=$(cd "$usr" && find . ! -type d ! -path './share/bahrufaz/*' | sort | tr '\n' ' ')
wanted="./bin/bahrufaz ./include/bahrufaz.h ./include/bahrufaz/lent.h ./lib/libbahrufaz-lent.a ./lib/libbahrufaz.a \
./lib/libbahrufaz.so ./lib/libbahrufaz.so.$major ./lib/libbahrufaz.so.$version ./lib/pkgconfig/bahrufaz-lent.pc \
./lib/pkgconfig/bahrufaz.pc ./share/bash-completion/completions/bahrufaz ./share/fish/vendor_completions.d/bahrufaz.fish \
./share/man/man1/bahrufaz.1 ./share/zsh/site-functions/_bahrufaz "
[ "$found" = "$wanted" ] || fail "expected $wanted, found $found"

# the shared library is asked for by the first number of its version, and shows the calls of the header alone
[ "$(readlink -f "$usr/lib/libbahrufaz.so")" = "$(readlink -f "$usr")/lib/libbahrufaz.so.$version" ] || fail "libbahrufaz.so leads elsewhere"
objdump -p "$usr/lib/libbahrufaz.so" | grep -q "SONAME *libbahrufaz.so.$major\$" || fail "the soname is another"
shown=$(nm -D --defined-only "$usr/lib/libbahrufaz.so" | sed 's/.* //' | sort | tr '\n' ' ')
declared=$(sed -n 's/^uint32_t \(bahrufaz_[a-z_]*\)(.*/\1/p' "$usr/include/bahrufaz.h" | sort | tr '\n' ' ')
[ "$shown" = "$declared" ] || fail "the header declares $declared, and the library shows $shown"

if command -v pkg-config >/dev/null; then
    export PKG_CONFIG_PATH="$usr/lib/pkgconfig"
    [ "$(pkg-config --modversion bahrufaz bahrufaz-lent | uniq)" = "$version" ] || fail "another version in a pkg-config file"
    set -- PKG_CONFIG=pkg-config
    lent=$(pkg-config --cflags --libs bahrufaz-lent)
else
    echo "install: no pkg-config here, so the pkg-config files are installed but not tried"
    set -- CFLAGS="-I$usr/include" LIBS="-L$usr/lib -lbahrufaz"
    lent="-I$usr/include -L$usr/lib -lbahrufaz-lent -lbahrufaz -pthread"
fi
quietly make --no-print-directory -C examples/c "$@" OUT="$scratch/shared"
LD_LIBRARY_PATH="$usr/lib" ldd "$scratch/shared/test" | grep -q "$usr/lib/libbahrufaz.so.$major" || fail "the shared library is not the one used"
quietly env LD_LIBRARY_PATH="$usr/lib" "$scratch/shared/test"
quietly make --no-print-directory -C examples/c LIBS="$usr/lib/libbahrufaz.a" CFLAGS="-I$usr/include" OUT="$scratch/static"
quietly "$scratch/static/test"

# both headers, in C and in C++, without the checkout
cat >"$scratch/use.c" <<'END'
#include <bahrufaz/lent.h>
#include <stdio.h>
int main(void) {
    uint8_t none = 0;
    return puts(bahrufaz_version()) < 0 || lent_admit(&none, 0) != BAHRUFAZ_HEADER;
}
END
for compile in "${CC:-cc} -std=c99 -x c" "${CXX:-c++} -std=c++11 -x c++"; do
    if ! command -v "${compile%% *}" >/dev/null; then
        echo "install: no ${compile%% *} here, so the headers are not tried with it"
        continue
    fi
    # the flags of pkg-config and of the compiler are words of their own
    quietly $compile -Wall -Wextra -Wpedantic -Werror "$scratch/use.c" -x none $lent -o "$scratch/use"
    [ "$(LD_LIBRARY_PATH="$usr/lib" "$scratch/use")" = "$version" ] || fail "the header says another version, or lent_admit another number"
done

# the command, from elsewhere: its own package and library, and nothing of the directory one is in; its man page
mkdir "$scratch/elsewhere"
echo 'raise SystemExit("taken from the directory one is in")' | tee "$scratch/elsewhere/json.py" >"$scratch/elsewhere/bahrufaz.py"
told=$(cd "$scratch/elsewhere" && env -u BAHRUFAZ_LIB -u PYTHONPATH "$usr/bin/bahrufaz" --version 2>&1)
[ "$told" = "bahrufaz $version
library: $(readlink -f "$usr")/lib/libbahrufaz.so.$version" ] || fail "the command says $told"
quietly "$usr/bin/bahrufaz" list examples/small/world.feed examples/small/a.pat
grep -q "^\.TH BAHRUFAZ 1 \"\" \"bahrufaz $version\"" "$usr/share/man/man1/bahrufaz.1" || fail "the man page is of another version"

# the command's files and the example program in C: the same match; a draft, which is not admitted, is refused
quietly "$usr/bin/bahrufaz" build examples/small/world.feed -o "$scratch/world.store"
quietly "$usr/bin/bahrufaz" build --draft examples/small/world.feed -o "$scratch/draft.store"
quietly "$usr/bin/bahrufaz" pattern examples/small/a.pat "$scratch/world.store" -o "$scratch/a.bin"
told=$("$scratch/static/match" "$scratch/world.store" "$scratch/a.bin")
[ "$told" = "answer 0 matches 1 nodes 5 edges 3 bound 38
1 3 5 4" ] || fail "match prints $told"
! "$scratch/static/match" "$scratch/draft.store" "$scratch/a.bin" >"$scratch/log" 2>&1 || fail "match lists from a draft"
grep -q 'refused with 5' "$scratch/log" || fail "match says of a draft: $(cat "$scratch/log")"

quietly make --no-print-directory install PREFIX=/opt/bahrufaz DESTDIR="$scratch/package"
for name in bahrufaz bahrufaz-lent; do
    [ "$(sed -n 's/^prefix=//p' "$scratch/package/opt/bahrufaz/lib/pkgconfig/$name.pc")" = /opt/bahrufaz ] || fail "the prefix in $name.pc is wrong"
done
cmp -s target/lib/libbahrufaz.so "$scratch/package/opt/bahrufaz/lib/libbahrufaz.so" || fail "DESTDIR has another library"
! grep -rqF "$scratch/package" "$scratch/package" || fail "DESTDIR is named in what is installed"
echo "install: the command, headers, libraries and pkg-config files are found and work, with and without DESTDIR"
