# Completes the words of sgfsplit in fish: subcommands, options, forms and files.
complete -c sgfsplit -n __fish_use_subcommand -f
complete -c sgfsplit -n __fish_use_subcommand -a split -d 'Writes one record per line of play, in the order of the file'
complete -c sgfsplit -n __fish_use_subcommand -a count -d 'Counts the games, nodes and lines of play'
complete -c sgfsplit -s h -l help -d 'Print help'
complete -c sgfsplit -n '__fish_seen_subcommand_from split' -l form -x -a 'list sgf gtp' -d 'How each line of play is written'
complete -c sgfsplit -n '__fish_seen_subcommand_from split' -l after -x -d 'Only the lines that follow the line of this place'
complete -c sgfsplit -n '__fish_seen_subcommand_from split' -l limit -x -d 'At most N lines, the first ones'
complete -c sgfsplit -n '__fish_seen_subcommand_from split count' -F
