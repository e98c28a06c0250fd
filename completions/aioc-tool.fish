# Completions of aioc-tool for fish: its commands, the options that each of them takes, and files.
# To use them in a shell: source completions/aioc-tool.fish

complete -c aioc-tool -n __fish_use_subcommand -f
complete -c aioc-tool -n __fish_use_subcommand -a explain -d 'tell what is wrong with a bundle'
complete -c aioc-tool -n __fish_use_subcommand -a format -d 'lay bundles out'
complete -c aioc-tool -n '__fish_seen_subcommand_from explain' -l json -d 'tell it as a JSON object'
complete -c aioc-tool -n '__fish_seen_subcommand_from explain' -l trace -d 'judge the trace section as well'
complete -c aioc-tool -n '__fish_seen_subcommand_from format' -l check -d 'name the files that are not in the layout'
complete -c aioc-tool -n '__fish_seen_subcommand_from format' -l write -d 'replace the files that are not in the layout'
