#!/bin/sh
# The man page names every command and option, and no formatter warns of it. The completions are made to complete, in
# each shell that is there.
set -eu
export LC_ALL=C.UTF-8
cd "$(dirname "$0")/../.."
examples=$(pwd -P)/examples
scratch=$(mktemp -d)
trap 'rm -rf "$scratch"' EXIT
fail() {
    echo "pages: $*" >&2
    exit 1
}
not_run() {
    echo "pages: NOT RUN, no $1 here: $2"
}
# whether a completion of these words is what is expected: same WORDS EXPECTED FOUND
same() {
    [ "$2" = "$3" ] || fail "'$1' is completed to '$3', expected '$2'"
}

python3 share/pages.py "$scratch"
page=$scratch/man/man1/bahrufaz.1
commands=$(bin/bahrufaz --help | sed -n 's/^    \([a-z][a-z-]*\) .*/\1/p')
[ "$(sed -n 's/^\.SS //p' "$page")" = "$commands" ] || fail "the man page has other commands"
for command in $commands; do
    sed -n "/^\.SS $command\$/,/^\.S[SH] /p" "$page" | sed 's/\\-/-/g' >"$scratch/section"
    for option in $(bin/bahrufaz "$command" --help | grep -o '^  -.*' | grep -o -e '--[a-z-]*' | sort -u); do
        [ "$option" = --help ] || grep -q "^\\\\fB.*$option" "$scratch/section" || fail "the man page has no $option of $command"
    done
done
if command -v groff >/dev/null; then
    [ -z "$(groff -man -ww -z "$page" 2>&1)" ] || fail "$(groff -man -ww -z "$page" 2>&1)"
else
    not_run groff "the man page is not formatted"
fi

cat >"$scratch/complete.bash" <<END
. "$scratch/bash-completion/completions/bahrufaz"
COMP_WORDS=("\$@") COMP_CWORD=\$((\$# - 1))
_bahrufaz
[ \${#COMPREPLY[@]} = 0 ] || printf '%s\n' "\${COMPREPLY[@]}" | sort | paste -s -d ' '
END
in_bash() {
    expected=$1
    shift
    same "bash: $*" "$expected" "$(cd "$examples" && bash "$scratch/complete.bash" "$@")"
}
in_bash "list" bahrufaz li
in_bash "--count --csv" bahrufaz list --c
in_bash "matches pattern plan" bahrufaz draw --what ""
in_bash "small/world.feed" bahrufaz list small/
in_bash "small/a.pat" bahrufaz list --room 9 small/world.feed small/
in_bash "c/lent.c c/lent.h" bahrufaz list c/le
in_bash "" bahrufaz list --room ""

if command -v fish >/dev/null; then
    in_fish() {
        same "fish: $2" "$1" "$(cd "$examples" && HOME="$scratch" fish -c "source $scratch/fish/vendor_completions.d/bahrufaz.fish; complete -C '$2'" | cut -f1 | sort | tr '\n' ' ')"
    }
    in_fish "list " "bahrufaz li"
    in_fish "--count --csv " "bahrufaz list --c"
    in_fish "matches pattern plan " "bahrufaz draw --what "
    in_fish "small/a.pat small/world.feed " "bahrufaz list small/"
else
    not_run fish "its completion is not tried"
fi

if command -v zsh >/dev/null; then
    in_zsh() {
        same "zsh: $2" "$1" "$(timeout 60 tests/desk/complete.zsh "$scratch/zsh/site-functions" "$examples" "$2")"
    }
    in_zsh "list" "bahrufaz li"
    in_zsh "--count --csv" "bahrufaz list --c"
    in_zsh "matches pattern plan" "bahrufaz draw --what "
    in_zsh "world.feed" "bahrufaz list small/"
    in_zsh "world.feed" "bahrufaz build small/"
    in_zsh "a.pat" "bahrufaz list small/world.feed small/"
else
    not_run zsh "its completion is not tried"
fi
echo "pages: the man page is whole, and the completions complete"
