# Completes the words of tsswitch in bash. Made by tools/texts of the texts of help, which are the place to change.

_tsswitch() {
    local word=${COMP_WORDS[COMP_CWORD]} before=${COMP_WORDS[COMP_CWORD - 1]} kind=
    [ "$COMP_CWORD" -lt 3 ] || kind=${COMP_WORDS[COMP_CWORD - 2]}
    case $kind,$before in
    -I,file | -O,file)
        mapfile -t COMPREPLY < <(compgen -f -- "$word")
        compopt -o filenames 2>/dev/null
        return
        ;;
    esac
    case $before in
    -I) mapfile -t COMPREPLY < <(compgen -W '@inputs@' -- "$word") ;;
    -O) mapfile -t COMPREPLY < <(compgen -W '@outputs@' -- "$word") ;;
    --*) ;;
    *)
        case " ${COMP_WORDS[*]:0:COMP_CWORD} " in
        *' -O '*) ;;
        *' -I '*) mapfile -t COMPREPLY < <(compgen -W '-I -O' -- "$word") ;;
        *) mapfile -t COMPREPLY < <(compgen -W '@options@ -I --help --version' -- "$word") ;;
        esac
        ;;
    esac
}

complete -F _tsswitch tsswitch
