#compdef tsswitch
# Completes the words of tsswitch in zsh. Made by tools/texts of the texts of help, which are the place to change.

local -a options
options=(
@options@
    '-I:an input'
    '--help:what there is'
    '--version:which program this is'
)
case ${words[CURRENT - 1]} in
-I) compadd @inputs@ ;;
-O) compadd @outputs@ ;;
file) _files ;;
--*) ;;
*)
    if (( ${words[(I)-O]} )); then
        :
    elif (( ${words[(I)-I]} )); then
        compadd -- -I -O
    else
        _describe option options
    fi
    ;;
esac
