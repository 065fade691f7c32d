# Completes the command line of schema_server in fish: commands, options, folders, files, sources and kinds of faults.

# The sources and folders below the root that the words have.
function __schema_server_sources
    set -l words (commandline -opc)
    set -l root .
    for at in (seq (count $words))
        if test $words[$at] = --root; and test $at -lt (count $words)
            set root $words[(math $at + 1)]
        else if string match -q -- '--root=*' $words[$at]
            set root (string replace -- --root= '' $words[$at])
        end
    end
    set -l word (commandline -ct)
    for path in $root/$word*
        if test -d $path
            string replace -- $root/ '' $path/
        else if string match -q -- '*.proto' $path
            string replace -- $root/ '' $path
        end
    end
end

function __schema_server_kinds
    schema_server explain 2>/dev/null | awk '!/^device: |^out of / { print $1 }'
end

set -l commands compile check serve answer describe explain help
set -l none "not __fish_seen_subcommand_from $commands"
set -l sources '__fish_seen_subcommand_from compile check serve answer'
complete -c schema_server -f
complete -c schema_server -n $none -a compile -d 'write the FileDescriptorSet of sources'
complete -c schema_server -n $none -a check -d 'tell the faults of sources'
complete -c schema_server -n $none -a serve -d 'answer reflection over HTTP'
complete -c schema_server -n $none -a answer -d 'answer the request body on standard input'
complete -c schema_server -n $none -a describe -d 'print the descriptor of a source'
complete -c schema_server -n $none -a explain -d 'print what a fault or another line means'
complete -c schema_server -n $none -a help -d 'print the help of a command'
complete -c schema_server -s h -l help -d 'print help'
complete -c schema_server -n $none -s V -l version -d 'print the version'
complete -c schema_server -n $sources -l root -x -a '(__fish_complete_directories)' -d 'the folder of the sources'
complete -c schema_server -n $sources -l include -x -a '(__fish_complete_directories)' -d 'a folder for imports'
complete -c schema_server -n $sources -l exclude -x -a '(__fish_complete_directories)' -d 'a folder without sources'
complete -c schema_server -n $sources -l skip-custom-options -d 'take sources as if custom options were not in them'
complete -c schema_server -n $sources -l workers -x -d 'how many workers share the work'
complete -c schema_server -n $sources -l cut -x -d 'the most files that a worker takes at a time'
complete -c schema_server -n $sources -a '(__schema_server_sources)'
complete -c schema_server -n "$sources; or __fish_seen_subcommand_from describe explain" -l verbose -d 'tell what is known beside a failure'
complete -c schema_server -n '__fish_seen_subcommand_from compile' -l output -r -F -d 'the file of the set'
complete -c schema_server -n '__fish_seen_subcommand_from compile' -l dependency_out -r -F -d 'the file of the rule'
complete -c schema_server -n '__fish_seen_subcommand_from check' -l format -x -a 'text gcc github json' -d 'how faults are written'
complete -c schema_server -n '__fish_seen_subcommand_from serve answer' -l set -r -F -d 'the set to answer from'
complete -c schema_server -n '__fish_seen_subcommand_from serve answer' -l repeat -d 'send a file with each reply'
complete -c schema_server -n '__fish_seen_subcommand_from serve' -l listen -x -d 'the address and the port'
complete -c schema_server -n '__fish_seen_subcommand_from serve' -l connections -x -d 'end after so many'
complete -c schema_server -n '__fish_seen_subcommand_from serve' -l clients -x -d 'so many at once'
complete -c schema_server -n '__fish_seen_subcommand_from serve' -l client-seconds -x -d 'the time of a client'
complete -c schema_server -n '__fish_seen_subcommand_from explain' -a '(__schema_server_kinds)'
complete -c schema_server -n '__fish_seen_subcommand_from help' -a "$commands"
