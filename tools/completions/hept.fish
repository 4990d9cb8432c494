# Completion of hept and its tools for fish; made by tools/make-files.

function __hept_nodes
    set -l words (commandline -opc)
    for word in $words[2..-1]
        test -f "$word"; and sed -n 's/.*\(^\|[^A-Za-z0-9_]\)\(node\|machine\)[ \t][ \t]*\([a-z][A-Za-z0-9_$]*\).*/\3/p' -- "$word" 2>/dev/null
    end
end

function __hept_given
    set -l words (commandline -opc)
    set -l found 0
    for word in $words[3..-1]
        string match -q -- "-*" $word; or set found (math $found + 1)
    end
    echo $found
end

complete -c hept -f
complete -c hept -n 'not __fish_seen_subcommand_from check run compile exec prove verify sweep past save resume' -a check -d 'reads a program and says accepted'
complete -c hept -n 'not __fish_seen_subcommand_from check run compile exec prove verify sweep past save resume' -a run -d 'runs a node'
complete -c hept -n 'not __fish_seen_subcommand_from check run compile exec prove verify sweep past save resume' -a compile -d 'writes the program as machines'
complete -c hept -n 'not __fish_seen_subcommand_from check run compile exec prove verify sweep past save resume' -a exec -d 'reads such a text of machines'
complete -c hept -n 'not __fish_seen_subcommand_from check run compile exec prove verify sweep past save resume' -a prove -d 'decides the contract of a node'
complete -c hept -n 'not __fish_seen_subcommand_from check run compile exec prove verify sweep past save resume' -a verify -d 'checks a certificate'
complete -c hept -n 'not __fish_seen_subcommand_from check run compile exec prove verify sweep past save resume' -a sweep -d 'makes a program of 1 to 8 tasks with a contract'
complete -c hept -n 'not __fish_seen_subcommand_from check run compile exec prove verify sweep past save resume' -a past -d 'writes the program to OUT'
complete -c hept -n 'not __fish_seen_subcommand_from check run compile exec prove verify sweep past save resume' -a save -d 'runs a node as run does'
complete -c hept -n 'not __fish_seen_subcommand_from check run compile exec prove verify sweep past save resume' -a resume -d 'runs a node from the checkpoint MEM on'
complete -c hept -n '__fish_seen_subcommand_from check; and test (__hept_given) = 0' -k -a '(__fish_complete_suffix .ept)'
complete -c hept -n '__fish_seen_subcommand_from check' -l print
complete -c hept -n '__fish_seen_subcommand_from run; and test (__hept_given) = 0' -k -a '(__fish_complete_suffix .ept)'
complete -c hept -n '__fish_seen_subcommand_from run; and test (__hept_given) = 1' -a '(__hept_nodes)'
complete -c hept -n '__fish_seen_subcommand_from run' -l contract
complete -c hept -n '__fish_seen_subcommand_from compile; and test (__hept_given) = 0' -k -a '(__fish_complete_suffix .ept)'
complete -c hept -n '__fish_seen_subcommand_from compile; and test (__hept_given) = 1' -F
complete -c hept -n '__fish_seen_subcommand_from exec; and test (__hept_given) = 0' -k -a '(__fish_complete_suffix .obc)'
complete -c hept -n '__fish_seen_subcommand_from exec; and test (__hept_given) = 1' -a '(__hept_nodes)'
complete -c hept -n '__fish_seen_subcommand_from prove; and test (__hept_given) = 0' -k -a '(__fish_complete_suffix .ept)'
complete -c hept -n '__fish_seen_subcommand_from prove; and test (__hept_given) = 1' -a '(__hept_nodes)'
complete -c hept -n '__fish_seen_subcommand_from prove; and test (__hept_given) = 2' -F
complete -c hept -n '__fish_seen_subcommand_from verify; and test (__hept_given) = 0' -k -a '(__fish_complete_suffix .ept)'
complete -c hept -n '__fish_seen_subcommand_from verify; and test (__hept_given) = 1' -a '(__hept_nodes)'
complete -c hept -n '__fish_seen_subcommand_from verify; and test (__hept_given) = 2' -F
complete -c hept -n '__fish_seen_subcommand_from past; and test (__hept_given) = 0' -k -a '(__fish_complete_suffix .ept)'
complete -c hept -n '__fish_seen_subcommand_from past; and test (__hept_given) = 1' -F
complete -c hept -n '__fish_seen_subcommand_from save; and test (__hept_given) = 0' -k -a '(__fish_complete_suffix .ept)'
complete -c hept -n '__fish_seen_subcommand_from save; and test (__hept_given) = 1' -a '(__hept_nodes)'
complete -c hept -n '__fish_seen_subcommand_from resume; and test (__hept_given) = 0' -k -a '(__fish_complete_suffix .ept)'
complete -c hept -n '__fish_seen_subcommand_from resume; and test (__hept_given) = 1' -a '(__hept_nodes)'
complete -c hept -n '__fish_seen_subcommand_from resume; and test (__hept_given) = 1' -F
# hept-explain explains a diagnostic, or runs hept and explains what it says
complete -c hept-explain -l all
complete -c hept-explain -l help
# hept-wave draws a run of a node as text, as SVG, or as a value change dump
complete -c hept-wave -l contract
complete -c hept-wave -l svg
complete -c hept-wave -l vcd
complete -c hept-wave -l lines
complete -c hept-wave -l width
complete -c hept-wave -l ascii
complete -c hept-wave -l help
complete -c hept-wave -n 'test (count (commandline -opc)) -gt 1' -f -a '(__hept_nodes)'
# hept-try tries inputs of a node until an output is false or its contract is broken
complete -c hept-try -l false
complete -c hept-try -l all
complete -c hept-try -l instants
complete -c hept-try -l runs
complete -c hept-try -l seed
complete -c hept-try -l help
complete -c hept-try -n 'test (count (commandline -opc)) -gt 1' -f -a '(__hept_nodes)'
# hept-why says why the contract of a node is lost, or what the variables of its certificate stand for
complete -c hept-why -l all
complete -c hept-why -l trace
complete -c hept-why -l help
complete -c hept-why -n 'test (count (commandline -opc)) -gt 1' -f -a '(__hept_nodes)'
complete -c hept-explain -n 'test (count (commandline -opc)) = 1' -a 'check run compile exec prove verify sweep past save resume E1 E2 E3 E4 E5 E6 E7 E8 E9 E10 E11 E12 L1 L2 L3 L4 K1 K2 K3 O1 O2 M1 M2 usage'
