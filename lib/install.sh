#!/bin/sh
# install.sh VERSION PREFIX [DESTDIR]: puts headers, libraries and pkg-config files in place, and the command with its
# man page and completions. They will be found below PREFIX; DESTDIR stands before it while a package is made.
set -eu
umask 022
cd "$(dirname "$0")/.."
version=$1
prefix=$(realpath -m -- "$2")
before=${3:-}
to=$before$prefix
case $prefix in *[!a-zA-Z0-9/._+-]*) echo "install: PREFIX $prefix has a character that pkg-config cannot read" >&2 && exit 1 ;; esac

# for programs in C: the library under its versioned name, with the two that lead to it; what tests a call before it is made
install -D -m 644 -t "$to/include" include/bahrufaz.h
install -D -m 644 -t "$to/include/bahrufaz" examples/c/lent.h
install -D -m 644 -t "$to/lib" target/lib/libbahrufaz.a target/c/libbahrufaz-lent.a
install -D -m 755 -t "$to/lib" "target/lib/libbahrufaz.so.$version"
ln -sf "libbahrufaz.so.$version" "$to/lib/libbahrufaz.so.${version%%.*}"
ln -sf "libbahrufaz.so.${version%%.*}" "$to/lib/libbahrufaz.so"
mkdir -p "$to/lib/pkgconfig"
for name in bahrufaz bahrufaz-lent; do
    sed "s|@PREFIX@|$prefix|; s|@VERSION@|$version|" "lib/$name.pc.in" >"$to/lib/pkgconfig/$name.pc"
done

# the command: its package, compiled since nobody may write there later, its man page and completions
if command -v python3 >/dev/null; then
    install -D -m 755 share/command.py "$to/bin/bahrufaz"
    rm -rf "$to/share/bahrufaz"
    (cd python && find bahrufaz -type f ! -path '*/__pycache__/*' -exec install -D -m 644 {} "$to/share/bahrufaz/{}" \;)
    python3 -m compileall -q -s "$before" "$to/share/bahrufaz"
    python3 share/pages.py "$to/share"
else
    echo "install: no python3 here, so the command is left out"
fi
echo "install: headers, libraries and what goes with them are in $to"
[ -n "$before" ] || echo "install: programs find the library once ldconfig has run, or by LD_LIBRARY_PATH=$prefix/lib"
