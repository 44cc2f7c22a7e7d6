# Completes the words of tsp in bash. Made by tools/texts of the texts of help, which it makes of the texts in the code.

# The options of a plugin or the general ones; one that takes a value has a sign after it.
_tsp_options() {
    case $1 in
@options@
    esac
}

# Answers words for the word that is being written.
_tsp_answer() {
    mapfile -t COMPREPLY < <(compgen -W "$1" -- "$word")
}

_tsp() {
    local word=${COMP_WORDS[COMP_CWORD]} before=${COMP_WORDS[COMP_CWORD - 1]}
    local segment='' name=general start=0 at options
    COMPREPLY=()
    for ((at = 1; at < COMP_CWORD; at++)); do
        case ${COMP_WORDS[at]} in
        -I | -P | -O) segment=${COMP_WORDS[at]} name=${COMP_WORDS[at + 1]} start=$at ;;
        esac
    done
    if [ "${COMP_WORDS[1]}" = --help ] && [ "$COMP_CWORD" -eq 2 ]; then
        _tsp_answer '@plugins@'
        return
    fi
    if [ -n "$segment" ] && [ "$start" -eq $((COMP_CWORD - 1)) ]; then
        case $segment in
        -I) _tsp_answer '@inputs@' ;;
        -P) _tsp_answer '@plugins@' ;;
        -O) _tsp_answer '@outputs@' ;;
        esac
        return
    fi
    options=
    [ "$segment" = -I ] || [ "$segment" = -O ] || options=$(_tsp_options "$name")
    [ "$segment/$name" != -I/file ] || options='--format= --resync'
    case $segment/$name/$before in
    -I/file/--format)
        _tsp_answer '@formats@'
        return
        ;;
    esac
    case " $options " in
    *" $before= "*) return ;;
    esac
    case $segment/$name/$word in
    -I/file/[!-]* | -O/file/[!-]* | -P/inject/[!-]* | -I/file/ | -O/file/ | -P/inject/)
        mapfile -t COMPREPLY < <(compgen -f -- "$word")
        compopt -o filenames 2>/dev/null
        return
        ;;
    esac
    [ "$COMP_CWORD" -ne 1 ] || options="$options --help --version"
    _tsp_answer "${options//=/} -I -P -O"
}

complete -F _tsp tsp
