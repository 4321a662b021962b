# Completion of camr for fish: its commands, their options with the values that these take, and files. `.ci/completions` compares it
# with what `camr --help` and the help of each command say.

set -l commands asm dis check explain migrate run live replay audit show decide try help
set -l none "not __fish_seen_subcommand_from $commands"
set -l files "__fish_seen_subcommand_from asm dis check explain migrate run live replay show decide try; and not __fish_seen_subcommand_from help; and not string match -q -- '--watch=*' (commandline -ct)"
set -l migrate '__fish_seen_subcommand_from migrate; and not __fish_seen_subcommand_from help'
set -l run '__fish_seen_subcommand_from run; and not __fish_seen_subcommand_from help'
set -l live '__fish_seen_subcommand_from live; and not __fish_seen_subcommand_from help'
set -l decide '__fish_seen_subcommand_from decide; and not __fish_seen_subcommand_from help'
set -l try '__fish_seen_subcommand_from try; and not __fish_seen_subcommand_from help'
set -l show '__fish_seen_subcommand_from show; and not __fish_seen_subcommand_from help'

complete -c camr -f
complete -c camr -n "$files" -F
complete -c camr -n 'not __fish_seen_subcommand_from help' -s h -l help -d 'Print help'
complete -c camr -n "$none" -s V -l version -d 'Print the version'

complete -c camr -n "$none" -a asm -d 'Assemble the text of a program'
complete -c camr -n "$none" -a dis -d 'Print the text of a program'
complete -c camr -n "$none" -a check -d 'Verify the programs of a manifest'
complete -c camr -n "$none" -a explain -d 'Say what a code means, or why a manifest, a scenario or a trace is refused'
complete -c camr -n "$none" -a migrate -d 'Write a manifest anew in a later version'
complete -c camr -n "$none" -a run -d 'Run a scenario and print its trace'
complete -c camr -n "$none" -a live -d 'Carry out the lines of standard input as they come'
complete -c camr -n "$none" -a replay -d 'Replay a trace and say whether it is lawful'
complete -c camr -n "$none" -a audit -d 'Replay a journal and say whether it is lawful'
complete -c camr -n "$none" -a show -d 'Print what happened in a trace'
complete -c camr -n "$none" -a decide -d 'Say what a policy does with a failed command'
complete -c camr -n "$none" -a try -d 'Try policies on devices, in virtual time'
complete -c camr -n "$none" -a help -d 'Print the help, or that of a command'
complete -c camr -n "__fish_seen_subcommand_from help" -a "$commands"

complete -c camr -n "$migrate" -l to -x -a '2 3' -d 'The version to write'

complete -c camr -n "$run" -l workers -x -a '(seq 16)' -d 'How many threads serve completions'
complete -c camr -n "$run" -l strict -d 'Count the calls that were refused, and fail if any was'
complete -c camr -n "$run" -l watch -f -a 'lines terminal' -d 'Report sums on standard error'

complete -c camr -n "$live" -l clock -d 'Read the clock of the machine'
complete -c camr -n "$live" -l step -d 'A run goes on only if a line says so'
complete -c camr -n "$live" -l ack -d 'Answer each line by a line of its own'
complete -c camr -n "$live" -l journal -x -a '(__fish_complete_directories)' -d 'Keep the trace in a folder'
complete -c camr -n "$live" -l sync -d 'What is answered outlasts a stop of the machine'
complete -c camr -n "$live" -l metrics -r -F -d 'Write what is counted into a file'

complete -c camr -n '__fish_seen_subcommand_from audit' -a '(__fish_complete_directories)'

complete -c camr -n "$show" -l ccb -x -d 'Events of a CCB'
complete -c camr -n "$show" -l queue -x -d 'Events of a queue'
complete -c camr -n "$show" -l run -x -d 'Events of a run'
complete -c camr -n "$show" -l freeze -x -d 'Events of a freeze'
complete -c camr -n "$show" -l from -x -d 'Events at that clock reading or later'
complete -c camr -n "$show" -l to -x -d 'Events at that clock reading or earlier'
complete -c camr -n "$show" -l status -x -d 'Completions with that SCSI status'
complete -c camr -n "$show" -l sense -x -d 'Completions with that sense data'
complete -c camr -n "$show" -l refused -x -a 'any C1 C2 C3 C5 Q2 Q3 Q4 Q5' -d 'Calls that are refused so'
complete -c camr -n "$show" -l summary -d 'Counts in place of the account'
complete -c camr -n "$show" -l json -d 'JSON in place of text'
complete -c camr -n "$show" -l svg -r -F -d 'Draw a picture in place of the account'
complete -c camr -n "$show" -l perfetto -r -F -d 'Write trace events for Perfetto'

complete -c camr -n "$decide" -l retries -x -d 'Retries that the command has left'
complete -c camr -n "$decide" -l class -x -d 'What the command is'
complete -c camr -n "$decide" -l attempts -x -d 'How often the command was started'
complete -c camr -n "$decide" -l clock -x -d 'What the clock reads, in milliseconds'
complete -c camr -n "$decide" -l word -x -d 'A word of a table, as 0:3=5'
complete -c camr -n "$decide" -l all-sense -d 'Print a table of all sense data'

complete -c camr -n "$try" -l seed -x -d 'Draw by that seed'
complete -c camr -n "$try" -l trace -r -F -d 'Write the trace into that file'
