#compdef lmn
# Completes the words of the command lmn, for zsh: put this file under the name _lmn into a folder of $fpath.
local -a commands
commands=(
    'run:run a text'
    'compile:print the instructions of each rule'
    'demo:add up the numbers from 1 to N'
    'check:say whether a trace is one of a text'
    'debug:go through a run forward and back'
    'exec:run a text by the instructions of a listing'
    'bound:bound the firings by weights of atoms'
)
if (( CURRENT == 2 )); then
    _describe -t commands 'command' commands
    compadd -- --help --version --build --unproved
    return
fi
case $words[2] in
    run)
        words=("${(@)words[2,-1]}")
        (( CURRENT-- ))
        _arguments \
            '--trace[print every process]' \
            '--folded[print atoms in the arguments of others, and lists]' \
            '--budget=[the most firings]:firings, 0 to 9223372036854775807' \
            '--size=[the most atoms, membranes and rules in membranes]:items, 1 to 4294967295' \
            '--order=[which membrane is asked first]:order:(first turn seed)' \
            '--seed=[where the numbers of --order seed begin]:seed, 0 to 9223372036854775807' \
            '1:FILE:_files'
        ;;
    compile) (( CURRENT == 3 )) && _files ;;
    demo) (( CURRENT == 3 )) && _message 'N, 1 to 100000' ;;
    check | debug | exec | bound) (( CURRENT <= 4 )) && _files ;;
esac
