# Completions of obf for fish.
complete -c obf -f
complete -c obf -n __fish_use_subcommand -a nodes -d 'the located nodes of a base in a rectangle'
complete -c obf -n __fish_use_subcommand -a dump -d 'all objects of a base'
complete -c obf -n __fish_use_subcommand -a build -d 'writes the map file that rules make of a base'
complete -c obf -n __fish_use_subcommand -a change -d 'writes the map file of one hour: what a change does to a base'
complete -c obf -n __fish_use_subcommand -a fold -d 'writes one map file of a day or a month in place of several'
complete -c obf -n __fish_use_subcommand -a ask -d 'the rows of a question over map files'
complete -c obf -n __fish_use_subcommand -a check -d 'reads a map file whole and checks every rule'
complete -c obf -n __fish_use_subcommand -a replay -d 'plays publications and questions in turn over a base'
complete -c obf -n '__fish_seen_subcommand_from nodes dump build change fold ask check replay' -F
