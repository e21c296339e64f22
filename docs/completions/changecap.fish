# Completion of changecap for fish.
complete -c changecap -f
complete -c changecap -n 'not __fish_use_subcommand; and not __fish_seen_subcommand_from shell' -F
complete -c changecap -n __fish_use_subcommand -a run -d 'Print the reply to each command of a workload'
complete -c changecap -n __fish_use_subcommand -a shell -d 'Run each line as it is read'
complete -c changecap -n __fish_use_subcommand -a load -d 'Print the lines of a workload that make a dump'
complete -c changecap -n __fish_use_subcommand -a show -d 'Print what is in a blob'
complete -c changecap -n __fish_use_subcommand -a check -d 'Say whether blobs are well formed'
complete -c changecap -n __fish_use_subcommand -a summary -d 'Count the changes of blobs'
complete -c changecap -n __fish_use_subcommand -a invert -d 'Print the inverse of a changeset'
complete -c changecap -n __fish_use_subcommand -a patchset -d 'Print the patchset of a changeset'
complete -c changecap -n __fish_use_subcommand -a concat -d 'Print the concatenation of blobs'
complete -c changecap -n __fish_use_subcommand -a rebase -d 'Print a changeset over buffers'
complete -c changecap -n __fish_use_subcommand -s V -l version -d 'Print the version'
complete -c changecap -s v -l verbose -d 'Say what failed where the status is 3'
complete -c changecap -s h -l help -d 'Print help'
complete -c changecap -n '__fish_seen_subcommand_from run' -l threads -x -d 'How many workers, 1 to 63'
complete -c changecap -n '__fish_seen_subcommand_from run' -l in-turn -d 'Workers call in the order of the lines'
complete -c changecap -n '__fish_seen_subcommand_from run' -l json -d 'Print each reply as a JSON object'
complete -c changecap -n '__fish_seen_subcommand_from run shell' -l explain -d 'Say what faults and refusals mean'
complete -c changecap -n '__fish_seen_subcommand_from run' -l progress -d 'Show how far the run is'
complete -c changecap -n '__fish_seen_subcommand_from run' -l no-progress -d 'Show no progress'
complete -c changecap -n '__fish_seen_subcommand_from shell' -s f -l file -r -F -d 'Run the lines of a file first'
complete -c changecap -n '__fish_seen_subcommand_from show' -l sql -d 'Print SQL'
complete -c changecap -n '__fish_seen_subcommand_from show' -l jsonl -d 'Print a JSON object a line'
complete -c changecap -n '__fish_seen_subcommand_from show' -l columns -x -d 'Names for the columns of a table'
complete -c changecap -n '__fish_seen_subcommand_from show' -l json -d 'Print JSON'
set -l converting show invert patchset concat rebase
complete -c changecap -n "__fish_seen_subcommand_from $converting" -l binary -d 'Blobs are bytes, not hex digits'
set -e converting[1]
set -l writing load show check summary $converting
complete -c changecap -n "__fish_seen_subcommand_from $writing" -s o -l output -r -d 'The file that is written'
complete -c changecap -n "__fish_seen_subcommand_from $converting" -l key-flags -x -a 'places ones' \
    -d 'How key columns are flagged'
