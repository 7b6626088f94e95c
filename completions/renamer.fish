# Completions of renamer and its tools for fish.

set -l jobs run replay check show help

complete -c renamer -f
complete -c renamer -s h -l help -d 'Print help'
complete -c renamer -n "not __fish_seen_subcommand_from $jobs" -s V -l version -d 'Print the version'

complete -c renamer -n "not __fish_seen_subcommand_from $jobs" -a run -d 'Read a batch, print the names of its clients'
complete -c renamer -n "not __fish_seen_subcommand_from $jobs" -a replay -d 'Read a schedule, print its answers'
complete -c renamer -n "not __fish_seen_subcommand_from $jobs" -a check -d 'Read grants, say whether names are tight'
complete -c renamer -n "not __fish_seen_subcommand_from $jobs" -a show -d 'Print where each wire of a network ends'
complete -c renamer -n "not __fish_seen_subcommand_from $jobs" -a help -d 'Print help'
complete -c renamer -n '__fish_seen_subcommand_from help' -a 'run replay check show'

complete -c renamer -n '__fish_seen_subcommand_from run replay show' -l network -x -a 'bitonic periodic tree' \
    -d 'The kind of network'
complete -c renamer -n '__fish_seen_subcommand_from run replay show' -l width -x -a '2 4 8 16 32 64 128 256' \
    -d 'The width of the network'
complete -c renamer -n '__fish_seen_subcommand_from check' -l width -x -a '2 4 8 16 32 64 128 256' \
    -d 'By what the names are divided for the counts'
complete -c renamer -n '__fish_seen_subcommand_from run' -l workers -x -a '(seq 64)' \
    -d 'How many workers share out the clients'
complete -c renamer -n '__fish_seen_subcommand_from run' -l hand -x -a '(seq 64)' \
    -d 'How many clients each worker walks at a time'
complete -c renamer -n '__fish_seen_subcommand_from run' -l form -x -a 'report grants' \
    -d 'What is written: report (exits and names) or grants (CSV for check)'
complete -c renamer -n '__fish_seen_subcommand_from run' -l carry -d 'Keep the counters from epoch to epoch'
complete -c renamer -n '__fish_seen_subcommand_from run' -l together \
    -d 'All workers walk each epoch at once, on one network'
complete -c renamer -n '__fish_seen_subcommand_from run check' -l large -d 'Take a large input, as far as memory goes'

complete -c renamer-number -s h -l help -d 'Print help'
complete -c renamer-number -l column -x -d 'The column of the ids, by its name or its number'
complete -c renamer-number -l share -d 'Give all rows of an id one name'
complete -c renamer-number -l epoch -x -d 'The column of the epochs'
complete -c renamer-number -l name -x -d 'What the new column is called'
complete -c renamer-number -l delimiter -x -d 'What stands between fields'

complete -c renamer-picture -s h -l help -d 'Print help'
complete -c renamer-picture -l replay -r -d 'What renamer replay prints'
complete -c renamer-picture -l output -r -d 'Where the picture goes'
complete -c renamer-picture -l at -x -d 'Draw the moment after so many events'
complete -c renamer-picture -l table -d 'Print where each client is'
complete -c renamer-picture -l beat -x -d 'How many seconds an event takes'

complete -c renamer-schedule -f -s h -l help -d 'Print help'
complete -c renamer-schedule -l clients -x -d 'How many clients'
complete -c renamer-schedule -l seed -x -d 'Of what is random'
complete -c renamer-schedule -l network -x -a 'bitonic periodic tree' -d 'The kind of network'
complete -c renamer-schedule -l width -x -a '2 4 8 16 32 64 128 256' -d 'The width of the network'
complete -c renamer-schedule -l epochs -x -d 'How many epochs'
