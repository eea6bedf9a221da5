# Completion of the words of cmk for fish.
set -l jobs render tree rewrite
set -l commands $jobs examples help

complete -c cmk -n "not __fish_seen_subcommand_from $commands" -f
complete -c cmk -n "not __fish_seen_subcommand_from $commands" -a render -d 'Renders a text as HTML'
complete -c cmk -n "not __fish_seen_subcommand_from $commands" -a tree -d 'Lists the tree of a text and the owner of each line'
complete -c cmk -n "not __fish_seen_subcommand_from $commands" -a rewrite -d 'Rewrites a text as CommonMark source with inline links'
complete -c cmk -n "not __fish_seen_subcommand_from $commands" -a examples -d 'Runs a file of CommonMark examples and reports mismatches'
complete -c cmk -n "not __fish_seen_subcommand_from $commands" -a help -d 'Print this message or the help of the given subcommand(s)'
complete -c cmk -n "not __fish_seen_subcommand_from $commands" -s V -l version -d 'Print version'
complete -c cmk -s h -l help -d 'Print help'
complete -c cmk -n "__fish_seen_subcommand_from $jobs" -x -l bytes -d 'The most bytes that the text may have, 1 to 1073741824'
complete -c cmk -n "__fish_seen_subcommand_from $jobs" -x -l blocks -d 'The most quotes and list items that may enclose a line, 1 to 500'
complete -c cmk -n "__fish_seen_subcommand_from $jobs" -x -l inlines -d 'How deeply emphasis, links and images may nest, 1 to 500'
complete -c cmk -n "__fish_seen_subcommand_from tree" -l json -d 'Prints the tree as JSON (mdast)'
complete -c cmk -n "__fish_seen_subcommand_from $jobs examples" -l older -d 'Uses older rules: <source> starts an HTML block, <search> does not'
complete -c cmk -n "__fish_seen_subcommand_from $jobs examples" -l strike -d 'Strikes through text between two tildes'
complete -c cmk -n "__fish_seen_subcommand_from $jobs examples" -l no-html -d 'Treats raw HTML as text'
complete -c cmk -n "__fish_seen_subcommand_from $jobs examples" -l web-links -d 'Treats links with a scheme other than http, https or mailto as text'
complete -c cmk -n "__fish_seen_subcommand_from $jobs examples" -l safe -d 'For untrusted text: --no-html and --web-links'
complete -c cmk -n "__fish_seen_subcommand_from help" -f -a "$commands"
