# Made by tools/pages from the program's help.

function __roster_begins
    test (count (commandline -opc)) -eq 1
end

function __roster_is
    set -l words (commandline -opc)
    test (count $words) -gt 1; and contains -- $words[2] $argv
end

complete -c roster -f
complete -c roster -n __roster_begins -a show -d 'Write the rosters as they are, in one tidy form'
complete -c roster -n __roster_begins -a cost -d 'Write what the roster costs, rule by rule'
complete -c roster -n __roster_begins -a sizes -d 'Write how much the search for each nurse takes'
complete -c roster -n __roster_begins -a best -d 'Put a nurse\'s best row into the rosters, and write them'
complete -c roster -n __roster_begins -a improve -d 'Make the rosters cheaper, nurse by nurse, and write them'
complete -c roster -n __roster_begins -a bound -d 'Write a lower bound on every roster\'s cost'
complete -c roster -n __roster_begins -a polish -d 'Make the rosters much cheaper, and write them'
complete -c roster -n __roster_begins -a plan -d 'Look for rosters that keep the hard rules, and write them'
complete -c roster -n __roster_begins -a who -d 'Write who may take a shift, and what the roster costs then'
complete -c roster -n __roster_begins -a help -d 'Print this message or the help of the given subcommand(s)'
complete -c roster -n __roster_begins -s h -l help -d 'Print help'
complete -c roster -n __roster_begins -s V -l version -d 'Print version'
complete -c roster -n '__roster_is show' -F
complete -c roster -n '__roster_is show' -s h -l help -d 'Print help'
complete -c roster -n '__roster_is cost' -F
complete -c roster -n '__roster_is cost' -l json -d 'Write the report as JSON, one object a line'
complete -c roster -n '__roster_is cost' -s h -l help -d 'Print help'
complete -c roster -n '__roster_is sizes' -F
complete -c roster -n '__roster_is sizes' -l json -d 'Write the report as JSON, one object a line'
complete -c roster -n '__roster_is sizes' -s h -l help -d 'Print help'
complete -c roster -n '__roster_is best' -F
complete -c roster -n '__roster_is best' -l nurse -x -d 'The nurse\'s name in the scenario, letter for letter'
complete -c roster -n '__roster_is best' -l out -r -F -d 'Write the rosters to FILE, whole or not at all; standard output then stays empty'
complete -c roster -n '__roster_is best' -l from -x -d 'The first week that may change, 0 to 52: the weeks before it stay as they are [default: 0]'
complete -c roster -n '__roster_is best' -l keep -x -d 'Each day of a nurse that changes from the given roster costs N points more, 0 to 100 [default: 0]'
complete -c roster -n '__roster_is best' -s h -l help -d 'Print help'
complete -c roster -n '__roster_is improve' -F
complete -c roster -n '__roster_is improve' -l rounds -x -d 'The run makes at most N rounds, 0 to 1000 [default: 100]'
complete -c roster -n '__roster_is improve' -l out -r -F -d 'Write the rosters to FILE, whole or not at all; standard output then stays empty'
complete -c roster -n '__roster_is improve' -l from -x -d 'The first week that may change, 0 to 52: the weeks before it stay as they are [default: 0]'
complete -c roster -n '__roster_is improve' -l keep -x -d 'Each day of a nurse that changes from the given roster costs N points more, 0 to 100 [default: 0]'
complete -c roster -n '__roster_is improve' -s h -l help -d 'Print help'
complete -c roster -n '__roster_is bound' -F
complete -c roster -n '__roster_is bound' -l rounds -x -d 'The run makes at most N rounds, 0 to 1000 [default: 100]'
complete -c roster -n '__roster_is bound' -l nodes -x -d 'After the rounds the run makes at most N branchings, 0 to 10000 [default: 0]'
complete -c roster -n '__roster_is bound' -l seconds -x -d 'The run ends after about S seconds at the latest, 1 to 86400; what it finds then depends on the machine'
complete -c roster -n '__roster_is bound' -l from -x -d 'The first week that may change, 0 to 52: the weeks before it stay as they are [default: 0]'
complete -c roster -n '__roster_is bound' -l keep -x -d 'Each day of a nurse that changes from the given roster costs N points more, 0 to 100 [default: 0]'
complete -c roster -n '__roster_is bound' -s h -l help -d 'Print help'
complete -c roster -n '__roster_is polish' -F
complete -c roster -n '__roster_is polish' -l searches -x -d 'Apart from the first descent the run makes at most N searches, 0 to 10000000; if it is not given, 400 for each nurse, and 20000 at least; with --seconds 10000000'
complete -c roster -n '__roster_is polish' -l seconds -x -d 'The run ends after about S seconds at the latest, 1 to 86400; what it finds then depends on the machine'
complete -c roster -n '__roster_is polish' -l seed -x -d 'The seed of the run\'s random numbers, 0 to 4294967295 [default: 1]'
complete -c roster -n '__roster_is polish' -l kicks -d 'Make only kicks, no fade, and search no neighbourhoods'
complete -c roster -n '__roster_is polish' -l out -r -F -d 'Write the rosters to FILE, whole or not at all; standard output then stays empty'
complete -c roster -n '__roster_is polish' -l from -x -d 'The first week that may change, 0 to 52: the weeks before it stay as they are [default: 0]'
complete -c roster -n '__roster_is polish' -l keep -x -d 'Each day of a nurse that changes from the given roster costs N points more, 0 to 100 [default: 0]'
complete -c roster -n '__roster_is polish' -s h -l help -d 'Print help'
complete -c roster -n '__roster_is plan' -F
complete -c roster -n '__roster_is plan' -l searches -x -d 'Apart from the first descent the run makes at most N searches, 0 to 10000000; if it is not given, 400 for each nurse, and 20000 at least; with --seconds 10000000'
complete -c roster -n '__roster_is plan' -l seconds -x -d 'The run ends after about S seconds at the latest, 1 to 86400; what it finds then depends on the machine'
complete -c roster -n '__roster_is plan' -l seed -x -d 'The seed of the run\'s random numbers, 0 to 4294967295 [default: 1]'
complete -c roster -n '__roster_is plan' -l out -r -F -d 'Write the rosters to FILE, whole or not at all; standard output then stays empty'
complete -c roster -n '__roster_is plan' -l from -x -d 'The first week that may change, 0 to 52: the weeks before it stay as they are [default: 0]'
complete -c roster -n '__roster_is plan' -l keep -x -d 'Each day of a nurse that changes from the given roster costs N points more, 0 to 100 [default: 0]'
complete -c roster -n '__roster_is plan' -s h -l help -d 'Print help'
complete -c roster -n '__roster_is who' -F
complete -c roster -n '__roster_is who' -l day -x -d 'The day of the shift: the number of its week, from 0, and Mon to Sun, as in 1:Wed'
complete -c roster -n '__roster_is who' -l shift -x -d 'The shift\'s name in the scenario, letter for letter'
complete -c roster -n '__roster_is who' -l skill -x -d 'The skill\'s name in the scenario; if it is not given, any that the nurse has'
complete -c roster -n '__roster_is who' -l from -x -d 'The first week that may change, 0 to 52: the weeks before it stay as they are [default: 0]'
complete -c roster -n '__roster_is who' -l json -d 'Write the report as JSON, one object a line'
complete -c roster -n '__roster_is who' -s h -l help -d 'Print help'
complete -c roster -n '__roster_is help' -a 'show cost sizes best improve bound polish plan who help'
