# Completion of osi(1) for fish.
complete -c osi -f -n __fish_use_subcommand -a show -d 'list a capture'
complete -c osi -f -n __fish_use_subcommand -a judge -d 'say who broke the protocol'
complete -c osi -f -n __fish_use_subcommand -a pair -d 'run a script of two ends'
complete -c osi -f -n __fish_use_subcommand -a help -d 'print help'
complete -c osi -n '__fish_seen_subcommand_from judge' -l script -d 'a script of what both sides did'
complete -c osi -n '__fish_seen_subcommand_from judge' -l live -d 'each finding as soon as it is certain'
complete -c osi -l help -d 'print help'
complete -c osi -l version -d 'print the version'
