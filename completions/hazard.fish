# Completion of hazard's words for fish.
complete -c hazard -n '__fish_is_first_token' -f -a analyse -d 'analyse the changes of a script on a netlist'
complete -c hazard -n '__fish_is_first_token' -f -a edges -d 'say how often each variable may change, behind feedback too'
complete -c hazard -n '__fish_is_first_token' -f -a explore -d 'make the changes of a script in every order, from each state that they lead to'
complete -c hazard -n '__fish_is_first_token' -f -a split -d 'look for two runs of an unsettled change that end differently'
complete -c hazard -n '__fish_is_first_token' -f -a replay -d 'replay the runs of a run text on a netlist'
complete -c hazard -n '__fish_is_first_token' -f -a convert -d 'write a run text in format 2'
complete -c hazard -n '__fish_is_first_token' -f -a vcd -d 'write the last run of a run text for a waveform viewer'
complete -c hazard -n '__fish_is_first_token' -f -a batch -d 'analyse many patterns of inputs on a netlist'
complete -c hazard -n '__fish_is_first_token' -f -a reset -d 'say what many patterns bring about from an unknown start'
complete -c hazard -n '__fish_is_first_token' -f -a demo -d 'make and analyse a circuit of a given size'
complete -c hazard -n '__fish_seen_subcommand_from demo' -f
# netlists, in .bench or .blif, come before other files
complete -c hazard -n 'test (count (commandline -opc)) -eq 2; and not __fish_seen_subcommand_from demo' -k -a '(__fish_complete_suffix .blif)' -d netlist
complete -c hazard -n 'test (count (commandline -opc)) -eq 2; and not __fish_seen_subcommand_from demo' -k -a '(__fish_complete_suffix .bench)' -d netlist
complete -c hazard -l cap -x -d 'count at most so many changes, 1 to 1000000'
complete -c hazard -l show -x -a 'nodes all' -d 'the variables that have a line'
