# Completes the words of tstabcomp in bash. Made by tools/texts of the texts of help, which are the place to change.

_tstabcomp() {
    local word=${COMP_WORDS[COMP_CWORD]}
    if [ "$COMP_CWORD" -eq 1 ]; then
        mapfile -t COMPREPLY < <(compgen -W '@tasks@ --help --version' -- "$word")
        return
    fi
    mapfile -t COMPREPLY < <(compgen -f -- "$word")
    compopt -o filenames 2>/dev/null
}

complete -F _tstabcomp tstabcomp
