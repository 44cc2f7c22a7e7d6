#compdef tstabcomp
# Completes the words of tstabcomp in zsh. Made by tools/texts of the texts of help, which are the place to change.

local -a tasks
tasks=(
@tasks@
    '--help:what there is'
    '--version:which program this is'
)
if (( CURRENT == 2 )); then
    _describe task tasks
else
    _files
fi
