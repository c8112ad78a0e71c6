# Completion of crushedit's command line for fish, as tools/completion.py makes it of the help.

# Whether the line begins with this verb, or with none if it is `plain`.
function __crushedit_begins
    set -l words (commandline -opc)
    set -l verb plain
    if set -q words[2]; and contains -- $words[2] apply diff plan tree
        set verb $words[2]
    end
    test $verb = $argv[1]
end

# Whether the first word behind the program's name is typed.
function __crushedit_first
    test (count (commandline -opc)) = 1
end

complete -c crushedit -n __crushedit_first -a apply -d 'Prints the map after the commands of scripts, or nothing at all'
complete -c crushedit -n __crushedit_first -a diff -d 'Prints what has changed from one map to another'
complete -c crushedit -n __crushedit_first -a plan -d 'Prints the commands that lead from one map to another'
complete -c crushedit -n __crushedit_first -a tree -d 'Prints the tree of a map'
complete -c crushedit -n '__crushedit_begins apply' -l dry-run -d 'Print what would change, in place of the new map'
complete -c crushedit -n '__crushedit_begins apply' -l make -d 'Allow commands to create the buckets of a location'
complete -c crushedit -n '__crushedit_begins apply' -l last-wins -d 'Allow a script to undo what another has changed'
complete -c crushedit -n '__crushedit_begins apply' -l tree -d 'With --dry-run: print a tree of what would change'
complete -c crushedit -n '__crushedit_begins apply' -l json -d 'With --dry-run: print one JSON document, for programs'
complete -c crushedit -n '__crushedit_begins apply' -l under -x -d 'With --dry-run: print only what is below this item'
complete -c crushedit -n '__crushedit_begins apply' -l down-to -x -d 'With --tree: print nothing below buckets of this type'
complete -c crushedit -n '__crushedit_begins apply' -l exit-code -d 'With --dry-run: exit with status 6 if the map changes'
complete -c crushedit -n '__crushedit_begins apply' -s o -l output -r -F -d 'Replace this file by the output, if all goes well'
complete -c crushedit -n '__crushedit_begins apply' -s h -l help -d 'Print help, and run nothing'
complete -c crushedit -n '__crushedit_begins diff' -l tree -d 'Print a tree of what has changed'
complete -c crushedit -n '__crushedit_begins diff' -l json -d 'Print one JSON document, for programs'
complete -c crushedit -n '__crushedit_begins diff' -l by-name -d 'Compare items by name alone'
complete -c crushedit -n '__crushedit_begins diff' -l under -x -d 'Print only this item and what is below it'
complete -c crushedit -n '__crushedit_begins diff' -l down-to -x -d 'In a tree, print nothing below buckets of this type'
complete -c crushedit -n '__crushedit_begins diff' -l class -x -d 'In a tree, count only the devices of this class'
complete -c crushedit -n '__crushedit_begins diff' -l exit-code -d 'Exit with status 6 if something changed or differs'
complete -c crushedit -n '__crushedit_begins diff' -s o -l output -r -F -d 'Replace this file by the output, if all goes well'
complete -c crushedit -n '__crushedit_begins diff' -s h -l help -d 'Print help, and run nothing'
complete -c crushedit -n '__crushedit_begins plan' -l as-ceph -d 'Print the commands for a shell, as Ceph'\''s own'
complete -c crushedit -n '__crushedit_begins plan' -l strict -d 'Print nothing if a difference remains (status 5)'
complete -c crushedit -n '__crushedit_begins plan' -l json -d 'Print one JSON document, for programs'
complete -c crushedit -n '__crushedit_begins plan' -l by-name -d 'Compare items by name alone'
complete -c crushedit -n '__crushedit_begins plan' -l under -x -d 'Print only this item and what is below it'
complete -c crushedit -n '__crushedit_begins plan' -l exit-code -d 'Exit with status 6 if something changed or differs'
complete -c crushedit -n '__crushedit_begins plan' -s o -l output -r -F -d 'Replace this file by the output, if all goes well'
complete -c crushedit -n '__crushedit_begins plan' -s h -l help -d 'Print help, and run nothing'
complete -c crushedit -n '__crushedit_begins tree' -l json -d 'Print one JSON document, for programs'
complete -c crushedit -n '__crushedit_begins tree' -l under -x -d 'Print only this item and what is below it'
complete -c crushedit -n '__crushedit_begins tree' -l down-to -x -d 'In a tree, print nothing below buckets of this type'
complete -c crushedit -n '__crushedit_begins tree' -l class -x -d 'In a tree, count only the devices of this class'
complete -c crushedit -n '__crushedit_begins tree' -s o -l output -r -F -d 'Replace this file by the output, if all goes well'
complete -c crushedit -n '__crushedit_begins tree' -s h -l help -d 'Print help, and run nothing'
complete -c crushedit -n '__crushedit_begins plain' -l in-turn -d 'Run the scripts one after the other, in the job'\''s order'
complete -c crushedit -n '__crushedit_begins plain' -l no-history -d 'Leave out the lines with the replies to the commands'
complete -c crushedit -n '__crushedit_begins plain' -l strict -d 'Print nothing if a command is refused (status 5)'
complete -c crushedit -n '__crushedit_begins plain' -l no-make -d 'Print nothing if a location makes a bucket (status 5)'
complete -c crushedit -n '__crushedit_begins plain' -l tree -d 'Print the tree of the map, in place of its text'
complete -c crushedit -n '__crushedit_begins plain' -l since -r -F -d 'Print what has changed since the map in this file'
complete -c crushedit -n '__crushedit_begins plain' -l as-ceph -d 'Print ceph commands that make the same changes'
complete -c crushedit -n '__crushedit_begins plain' -l to -r -F -d 'Print commands that lead to the map in this file'
complete -c crushedit -n '__crushedit_begins plain' -l by-name -d 'With --since or --to: compare items by name alone'
complete -c crushedit -n '__crushedit_begins plain' -l json -d 'Print one JSON document, for programs'
complete -c crushedit -n '__crushedit_begins plain' -l under -x -d 'Print only this item and what is below it'
complete -c crushedit -n '__crushedit_begins plain' -l down-to -x -d 'With --tree: print nothing below buckets of this type'
complete -c crushedit -n '__crushedit_begins plain' -l class -x -d 'With --tree: count only the devices of this class'
complete -c crushedit -n '__crushedit_begins plain' -l exact -d 'Print the map'\''s weights with the six digits they need'
complete -c crushedit -n '__crushedit_begins plain' -l exit-code -d 'Exit with status 6 if something changed or differs'
complete -c crushedit -n '__crushedit_begins plain' -l explain -d 'Say on standard error where an error is, and why'
complete -c crushedit -n '__crushedit_begins plain' -s s -l script -r -F -d 'Append the script in this file; up to 16 times'
complete -c crushedit -n '__crushedit_begins plain' -s o -l output -r -F -d 'Replace this file by the output, if all goes well'
complete -c crushedit -n '__crushedit_begins plain' -s h -l help -d 'Print help, and run nothing'
complete -c crushedit -n '__crushedit_begins plain' -s V -l version -d 'Print version, and run nothing'
