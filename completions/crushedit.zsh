#compdef crushedit
# Completion of crushedit's command line for zsh, as tools/completion.py makes it of the help.

_crushedit() {
    local -a verbs=(
        'apply:Prints the map after the commands of scripts, or nothing at all'
        'diff:Prints what has changed from one map to another'
        'plan:Prints the commands that lead from one map to another'
        'tree:Prints the tree of a map'
    )
    if (( CURRENT == 2 )) && [[ $words[2] != -* ]]; then
        _describe -t verbs verb verbs
        _files
        return
    fi
    case $words[2] in
    apply)
        shift words
        (( CURRENT-- ))
        _arguments \
            '--dry-run[Print what would change, in place of the new map]' \
            '--make[Allow commands to create the buckets of a location]' \
            '--last-wins[Allow a script to undo what another has changed]' \
            '--tree[With --dry-run\: print a tree of what would change]' \
            '--json[With --dry-run\: print one JSON document, for programs]' \
            '--under=[With --dry-run\: print only what is below this item]:NAME: ' \
            '--down-to=[With --tree\: print nothing below buckets of this type]:TYPE: ' \
            '--exit-code[With --dry-run\: exit with status 6 if the map changes]' \
            '(-o --output)'{-o+,--output=}'[Replace this file by the output, if all goes well]:FILE:_files' \
            '(-h --help)'{-h,--help}'[Print help, and run nothing]' \
            '1:MAP:_files' \
            '*:SCRIPT:_files'
        ;;
    diff)
        shift words
        (( CURRENT-- ))
        _arguments \
            '--tree[Print a tree of what has changed]' \
            '--json[Print one JSON document, for programs]' \
            '--by-name[Compare items by name alone]' \
            '--under=[Print only this item and what is below it]:NAME: ' \
            '--down-to=[In a tree, print nothing below buckets of this type]:TYPE: ' \
            '--class=[In a tree, count only the devices of this class]:CLASS: ' \
            '--exit-code[Exit with status 6 if something changed or differs]' \
            '(-o --output)'{-o+,--output=}'[Replace this file by the output, if all goes well]:FILE:_files' \
            '(-h --help)'{-h,--help}'[Print help, and run nothing]' \
            '1:OLD:_files' \
            '2:NEW:_files'
        ;;
    plan)
        shift words
        (( CURRENT-- ))
        _arguments \
            '--as-ceph[Print the commands for a shell, as Ceph'\''s own]' \
            '--strict[Print nothing if a difference remains (status 5)]' \
            '--json[Print one JSON document, for programs]' \
            '--by-name[Compare items by name alone]' \
            '--under=[Print only this item and what is below it]:NAME: ' \
            '--exit-code[Exit with status 6 if something changed or differs]' \
            '(-o --output)'{-o+,--output=}'[Replace this file by the output, if all goes well]:FILE:_files' \
            '(-h --help)'{-h,--help}'[Print help, and run nothing]' \
            '1:MAP:_files' \
            '2:WANTED:_files'
        ;;
    tree)
        shift words
        (( CURRENT-- ))
        _arguments \
            '--json[Print one JSON document, for programs]' \
            '--under=[Print only this item and what is below it]:NAME: ' \
            '--down-to=[In a tree, print nothing below buckets of this type]:TYPE: ' \
            '--class=[In a tree, count only the devices of this class]:CLASS: ' \
            '(-o --output)'{-o+,--output=}'[Replace this file by the output, if all goes well]:FILE:_files' \
            '(-h --help)'{-h,--help}'[Print help, and run nothing]' \
            '1:MAP:_files'
        ;;
    *)
        _arguments \
            '--in-turn[Run the scripts one after the other, in the job'\''s order]' \
            '--no-history[Leave out the lines with the replies to the commands]' \
            '--strict[Print nothing if a command is refused (status 5)]' \
            '--no-make[Print nothing if a location makes a bucket (status 5)]' \
            '--tree[Print the tree of the map, in place of its text]' \
            '--since=[Print what has changed since the map in this file]:MAP:_files' \
            '--as-ceph[Print ceph commands that make the same changes]' \
            '--to=[Print commands that lead to the map in this file]:MAP:_files' \
            '--by-name[With --since or --to\: compare items by name alone]' \
            '--json[Print one JSON document, for programs]' \
            '--under=[Print only this item and what is below it]:NAME: ' \
            '--down-to=[With --tree\: print nothing below buckets of this type]:TYPE: ' \
            '--class=[With --tree\: count only the devices of this class]:CLASS: ' \
            '--exact[Print the map'\''s weights with the six digits they need]' \
            '--exit-code[Exit with status 6 if something changed or differs]' \
            '--explain[Say on standard error where an error is, and why]' \
            '*'{-s+,--script=}'[Append the script in this file; up to 16 times]:SCRIPT:_files' \
            '(-o --output)'{-o+,--output=}'[Replace this file by the output, if all goes well]:FILE:_files' \
            '(-h --help)'{-h,--help}'[Print help, and run nothing]' \
            '(-V --version)'{-V,--version}'[Print version, and run nothing]' \
            '1:FILE:_files'
        ;;
    esac
}

_crushedit "$@"
