# Completes the words of the command lmn, for fish: put this file into ~/.config/fish/completions/.
function __lmn_files
    set -l words (commandline -opc)
    test (count $words) -ge 2; or return 1
    switch $words[2]
        case run
            return 0
        case compile
            test (count $words) -eq 2
        case check debug exec bound
            test (count $words) -le 3
        case '*'
            return 1
    end
end
complete -c lmn -f
complete -c lmn -n '__lmn_files' -F
complete -c lmn -n '__fish_use_subcommand' -a run -d 'run a text'
complete -c lmn -n '__fish_use_subcommand' -a compile -d 'print the instructions of each rule'
complete -c lmn -n '__fish_use_subcommand' -a demo -d 'add up the numbers from 1 to N'
complete -c lmn -n '__fish_use_subcommand' -a check -d 'say whether a trace is one of a text'
complete -c lmn -n '__fish_use_subcommand' -a debug -d 'go through a run forward and back'
complete -c lmn -n '__fish_use_subcommand' -a exec -d 'run a text by the instructions of a listing'
complete -c lmn -n '__fish_use_subcommand' -a bound -d 'bound the firings by weights of atoms'
complete -c lmn -n '__fish_use_subcommand' -l help -d 'tell how it is called'
complete -c lmn -n '__fish_use_subcommand' -l version -d 'tell which sources it is of'
complete -c lmn -n '__fish_use_subcommand' -l build -d 'prove and build the program for all commands'
complete -c lmn -n '__fish_use_subcommand' -l unproved -d 'run the same sources without a proof'
complete -c lmn -n '__fish_seen_subcommand_from run' -l trace -d 'print every process'
complete -c lmn -n '__fish_seen_subcommand_from run' -l folded -d 'print atoms in the arguments of others, and lists'
complete -c lmn -n '__fish_seen_subcommand_from run' -l budget -x -d 'the most firings'
complete -c lmn -n '__fish_seen_subcommand_from run' -l size -x -d 'the most atoms, membranes and rules in membranes'
complete -c lmn -n '__fish_seen_subcommand_from run' -l order -x -a 'first turn seed' -d 'which membrane is asked first'
complete -c lmn -n '__fish_seen_subcommand_from run' -l seed -x -d 'where the numbers of --order seed begin'
