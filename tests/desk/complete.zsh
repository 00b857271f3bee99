#!/usr/bin/env zsh
# complete.zsh FUNCTIONS DIRECTORY LINE: what zsh offers there for the line, asked as a person asks: on a terminal, by the
# key. Every word that is offered passes compadd, which notes it here.
zmodload zsh/zpty
told=$(mktemp)
cat >$told.rc <<END
PS1= ; fpath=($1 \$fpath); autoload -U compinit; compinit -u -D; cd $2
compadd() {
    if [[ \${@[1,(i)(-|--)]} == *-(O|A|D)\ * ]]; then builtin compadd "\$@"; return; fi
    local -a hits
    builtin compadd -A hits "\$@"
    print -r -- \$hits >>$told
    builtin compadd "\$@"
}
asked() { zle list-choices; print 'END''ED' }
zle -N asked
bindkey '^I' asked
print 'REA''DY'
END
zpty shell zsh -f -i
zpty -w shell "source $told.rc"
zpty -r shell seen '*READY*'
zpty -w -n shell "$3"$'\t'
zpty -r shell seen '*ENDED*'
zpty -d shell
print -r -- ${(o)$(<$told)}
rm $told $told.rc
