# Completion of xhcitrace's command line for fish
complete -c xhcitrace -f
complete -c xhcitrace -s h -l help -d 'prints help'
complete -c xhcitrace -n __fish_use_subcommand -s V -l version -d 'prints the version'

complete -c xhcitrace -n __fish_use_subcommand -a check -d 'Checks traces against the rules of ownership'
complete -c xhcitrace -n __fish_use_subcommand -a verify -d 'Verifies a certificate'
complete -c xhcitrace -n __fish_use_subcommand -a schedule -d 'Writes the lazy schedule of a trace'
complete -c xhcitrace -n __fish_use_subcommand -a replay -d 'Replays a schedule beside a trace'
complete -c xhcitrace -n __fish_use_subcommand -a show -d 'Shows who owns what before a row'
complete -c xhcitrace -n __fish_use_subcommand -a write -d 'Writes the trace of a plan'
complete -c xhcitrace -n __fish_use_subcommand -a bench -d 'Runs a driver beside a model of the controller'
complete -c xhcitrace -n __fish_use_subcommand -a decode -d 'Tells what a block (TRB) of four words says'
complete -c xhcitrace -n __fish_use_subcommand -a explain -d 'Explains a rule, or another number that is printed'
complete -c xhcitrace -n __fish_use_subcommand -a help -d 'Prints help'

complete -c xhcitrace -n '__fish_seen_subcommand_from check verify schedule replay show write' -F
complete -c xhcitrace -n '__fish_seen_subcommand_from check verify schedule replay show write decode' -l explain -d 'says in plain words what is wrong'
complete -c xhcitrace -n '__fish_seen_subcommand_from check verify schedule replay show write' -l color -x -a 'auto always never' -d 'whether that is coloured'

complete -c xhcitrace -n '__fish_seen_subcommand_from verify replay show explain' -l format -x -a 'text json' -d 'the form of the answer'
complete -c xhcitrace -n '__fish_seen_subcommand_from check' -l format -x -a 'text json sarif' -d 'the form of the answer'
complete -c xhcitrace -n '__fish_seen_subcommand_from check' -l cert -r -F -d 'writes the certificate of an accepted trace'
complete -c xhcitrace -n '__fish_seen_subcommand_from check' -l show -d 'prints a schedule that does harm'
complete -c xhcitrace -n '__fish_seen_subcommand_from check' -l search -d 'tries more schedules for --show'
complete -c xhcitrace -n '__fish_seen_subcommand_from check' -l follow -d 'tells the first row that breaks a rule at once'
complete -c xhcitrace -n '__fish_seen_subcommand_from check' -l unjudged -x -d 'the status of a row that is not judged'
complete -c xhcitrace -n '__fish_seen_subcommand_from check' -l summary -d 'prints last how many traces had which answer'

complete -c xhcitrace -n '__fish_seen_subcommand_from bench' -l seed -x -d 'the number by which the controller is drawn'
complete -c xhcitrace -n '__fish_seen_subcommand_from bench' -l policy -x -a 'random eager lazy' -d 'when the controller does what it may'
complete -c xhcitrace -n '__fish_seen_subcommand_from bench' -l errors -x -d 'how many in a hundred events are errors'
complete -c xhcitrace -n '__fish_seen_subcommand_from bench' -l steps -x -d 'how many steps it makes at most'
complete -c xhcitrace -n '__fish_seen_subcommand_from bench' -l out -r -F -d 'where the trace and the schedule are kept'

complete -c xhcitrace -n '__fish_seen_subcommand_from help' -a 'check verify schedule replay show write bench decode explain help'
complete -c xhcitrace -n '__fish_seen_subcommand_from explain' -a 10 -d WriteToOwned
complete -c xhcitrace -n '__fish_seen_subcommand_from explain' -a 11 -d NotAsSubmitted
complete -c xhcitrace -n '__fish_seen_subcommand_from explain' -a 12 -d NotDeclared
complete -c xhcitrace -n '__fish_seen_subcommand_from explain' -a 13 -d NotWhole
complete -c xhcitrace -n '__fish_seen_subcommand_from explain' -a 14 -d LinkFault
complete -c xhcitrace -n '__fish_seen_subcommand_from explain' -a 15 -d RingFull
complete -c xhcitrace -n '__fish_seen_subcommand_from explain' -a 16 -d BadDescriptor
complete -c xhcitrace -n '__fish_seen_subcommand_from explain' -a 17 -d BadRegister
complete -c xhcitrace -n '__fish_seen_subcommand_from explain' -a 18 -d BadDoorbell
complete -c xhcitrace -n '__fish_seen_subcommand_from explain' -a 19 -d BadCommand
complete -c xhcitrace -n '__fish_seen_subcommand_from explain' -a 20 -d Busy
complete -c xhcitrace -n '__fish_seen_subcommand_from explain' -a 21 -d ImpossibleEvent
complete -c xhcitrace -n '__fish_seen_subcommand_from explain' -a 22 -d BadErdp
complete -c xhcitrace -n '__fish_seen_subcommand_from explain' -a 23 -d NotInProfile
complete -c xhcitrace -n '__fish_seen_subcommand_from explain' -a 24 -d AfterStop
complete -c xhcitrace -n '__fish_seen_subcommand_from explain' -a 25 -d BadMove
complete -c xhcitrace -n '__fish_seen_subcommand_from explain' -a 32 -d BadWithdraw
complete -c xhcitrace -n '__fish_seen_subcommand_from explain' -a 33 -d NotRestored
complete -c xhcitrace -n '__fish_seen_subcommand_from explain' -a 34 -d BadFree
complete -c xhcitrace -n '__fish_seen_subcommand_from explain' -a 35 -d BadRing
complete -c xhcitrace -n '__fish_seen_subcommand_from explain' -a 36 -d ImpossibleRead
complete -c xhcitrace -n '__fish_seen_subcommand_from explain' -a 1 -d Header
complete -c xhcitrace -n '__fish_seen_subcommand_from explain' -a 2 -d Row
complete -c xhcitrace -n '__fish_seen_subcommand_from explain' -a 3 -d Number
complete -c xhcitrace -n '__fish_seen_subcommand_from explain' -a 4 -d Limit
complete -c xhcitrace -n '__fish_seen_subcommand_from explain' -a 5 -d Shape
complete -c xhcitrace -n '__fish_seen_subcommand_from explain' -a 6 -d Magic
complete -c xhcitrace -n '__fish_seen_subcommand_from explain' -a 7 -d Length
complete -c xhcitrace -n '__fish_seen_subcommand_from explain' -a 8 -d Field
complete -c xhcitrace -n '__fish_seen_subcommand_from explain' -a 26 -d NotGiven
complete -c xhcitrace -n '__fish_seen_subcommand_from explain' -a 30 -d Memory
complete -c xhcitrace -n '__fish_seen_subcommand_from explain' -a 31 -d Device
complete -c xhcitrace -n '__fish_seen_subcommand_from explain' -a 'harm-1 harm-2 harm-3 harm-4 harm-5 harm-6' -d 'a harm'
