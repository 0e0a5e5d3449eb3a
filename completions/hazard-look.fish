# Completion of hazard-look's words for fish.
complete -c hazard-look -n '__fish_is_first_token' -f -a start -d 'the first line of a script for a netlist'
complete -c hazard-look -n '__fish_is_first_token' -f -a summary -d 'a line for each change, and what each hazard means'
complete -c hazard-look -n '__fish_is_first_token' -f -a expect -d 'check the comments #expect of a script'
complete -c hazard-look -n '__fish_is_first_token' -f -a why -d 'a short run in which a node makes its hazard'
complete -c hazard-look -n '__fish_is_first_token' -f -a orders -d 'few orders of wires under which the hazards go'
complete -c hazard-look -n '__fish_is_first_token' -f -a testbench -d 'Verilog with delays under which a node makes its hazard'
complete -c hazard-look -n '__fish_is_first_token' -f -a page -d 'a page for a browser with the circuit and its runs'
complete -c hazard-look -n '__fish_is_first_token' -f -a table -d 'the flow table'
complete -c hazard-look -n '__fish_is_first_token' -f -a clock -d 'a script with its clock edges written out'
complete -c hazard-look -n '__fish_is_first_token' -f -a from-yosys -d 'a netlist from what write_json of Yosys gives'
complete -c hazard-look -n '__fish_is_first_token' -f -a from-verilog -d 'a netlist from Verilog, which calls Yosys'
# netlists, in .bench or .blif, and designs come before other files
complete -c hazard-look -n 'test (count (commandline -opc)) -eq 2; and not __fish_seen_subcommand_from from-yosys from-verilog' -k -a '(__fish_complete_suffix .blif)' -d netlist
complete -c hazard-look -n 'test (count (commandline -opc)) -eq 2; and not __fish_seen_subcommand_from from-yosys from-verilog' -k -a '(__fish_complete_suffix .bench)' -d netlist
complete -c hazard-look -n 'test (count (commandline -opc)) -eq 2; and __fish_seen_subcommand_from from-yosys' -k -a '(__fish_complete_suffix .json)' -d design
complete -c hazard-look -n '__fish_seen_subcommand_from from-verilog' -k -a '(__fish_complete_suffix .v)' -d source
complete -c hazard-look -s h -l help -d 'say how it is called'
complete -c hazard-look -n '__fish_is_first_token' -l version -d 'say which version this is'
complete -c hazard-look -n '__fish_seen_subcommand_from start summary expect why orders testbench page table clock' -l hazard -r -F -d 'the program to ask'
complete -c hazard-look -n '__fish_seen_subcommand_from summary' -l only -x -d 'speak of these nodes alone'
complete -c hazard-look -n '__fish_seen_subcommand_from summary table' -l all -d 'leave nothing out'
complete -c hazard-look -n '__fish_seen_subcommand_from summary' -l outputs -d 'speak of the outputs alone'
complete -c hazard-look -n '__fish_seen_subcommand_from summary' -l roots -d 'leave out the echoes'
complete -c hazard-look -n '__fish_seen_subcommand_from summary table orders' -l fail -d 'end with 1 if there is a hazard'
complete -c hazard-look -n '__fish_seen_subcommand_from summary expect orders' -l json -d 'write it as JSON'
complete -c hazard-look -n '__fish_seen_subcommand_from table' -l page -d 'write a page with the states as a graph'
complete -c hazard-look -n '__fish_seen_subcommand_from expect' -l junit -d 'write it as XML of JUnit'
complete -c hazard-look -n '__fish_seen_subcommand_from why' -l save -r -F -d 'keep the run as a run text'
complete -c hazard-look -n '__fish_seen_subcommand_from orders' -l write -r -F -d 'write the script with these orders in it'
complete -c hazard-look -n '__fish_seen_subcommand_from from-yosys from-verilog' -l top -x -d 'the module to take'
complete -c hazard-look -n '__fish_seen_subcommand_from from-yosys from-verilog' -l join -d 'make gates one again that yosys split'
complete -c hazard-look -n '__fish_seen_subcommand_from from-verilog' -l gates -d 'keep each gate of the source'
