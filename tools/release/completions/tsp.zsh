#compdef tsp
# Completes the words of tsp in zsh. Made by tools/texts of the texts of help, which it makes of the texts in the code.

local -a plugins options ends
local segment='' name=general start=0 at
plugins=(
@plugins@
)
ends=('-I:an input' '-P:a plugin' '-O:the output')

for (( at = 2; at < CURRENT; at++ )); do
    case $words[at] in
    -I|-P|-O) segment=$words[at] name=$words[at+1] start=$at ;;
    esac
done

if [[ $words[2] == --help && $CURRENT -eq 3 ]]; then
    _describe plugin plugins
    return
fi
if [[ -n $segment && $start -eq $(( CURRENT - 1 )) ]]; then
    case $segment in
    -I) compadd @inputs@ ;;
    -P) _describe plugin plugins ;;
    -O) compadd @outputs@ ;;
    esac
    return
fi

options=()
if [[ -z $segment || $segment == -P ]]; then
    case $name in
@options@
    esac
fi
if [[ $segment/$name == -I/file ]]; then
    options=('--format=:how the file keeps its packets' '--resync:its packets are found again where it is damaged')
    if [[ $words[CURRENT-1] == --format ]]; then
        compadd @formats@
        return
    fi
fi
# Behind an option that takes a value comes the value.
if (( ${#options[(r)$words[CURRENT-1]=:*]} )); then
    _message value
    return
fi
if [[ $segment/$name == (-I/file|-O/file|-P/inject) && $words[CURRENT] != -* ]]; then
    _files
    return
fi
options=("${(@)options/=:/:}")
(( CURRENT != 2 )) || options+=('--help:what there is, or what one plugin does' '--version:which program this is')
_describe -o option options -- ends
