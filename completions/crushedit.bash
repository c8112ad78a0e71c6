# Completion of crushedit's command line for bash, as tools/completion.py makes it of the help.

_crushedit() {
    local IFS=' ' word=${COMP_WORDS[COMP_CWORD]} before=${COMP_WORDS[COMP_CWORD - 1]} often= once given it files
    COMPREPLY=()
    # bash takes `--since=MAP` for three words.
    [[ $before != = ]] || before=${COMP_WORDS[COMP_CWORD - 2]}
    case $before in
    -o | --output | --since | --to | -s | --script) return ;;
    --under | --down-to | --class) compopt +o bashdefault +o default; return ;;
    esac
    given=" ${COMP_WORDS[*]:1:COMP_CWORD - 1} "
    if [[ $COMP_CWORD == 1 && $word != -* ]]; then
        for it in apply diff plan tree; do
            [[ $it != "$word"* ]] || COMPREPLY+=("$it")
        done
        # Files can be meant too.
        if ((${#COMPREPLY[@]})); then
            mapfile -t files < <(compgen -f -- "$word")
            COMPREPLY+=("${files[@]}")
            compopt -o filenames
        fi
        return
    fi
    [[ $word == -* && $given != *' -- '* ]] || return
    [[ $COMP_CWORD == 1 ]] || it=${COMP_WORDS[1]}
    case $it in
    apply) once='--dry-run --make --last-wins --tree --json --under --down-to --exit-code -o --output -h --help' ;;
    diff) once='--tree --json --by-name --under --down-to --class --exit-code -o --output -h --help' ;;
    plan) once='--as-ceph --strict --json --by-name --under --exit-code -o --output -h --help' ;;
    tree) once='--json --under --down-to --class -o --output -h --help' ;;
    *) once='--in-turn --no-history --strict --no-make --tree --since --as-ceph --to --by-name --json --under --down-to --class --exact --exit-code --explain -o --output -h --help -V --version' often='-s --script' ;;
    esac
    for it in $once; do
        [[ $it != "$word"* || $given == *" $it "* ]] || COMPREPLY+=("$it")
    done
    for it in $often; do
        [[ $it != "$word"* ]] || COMPREPLY+=("$it")
    done
}

# Where nothing is found, files are.
complete -o bashdefault -o default -F _crushedit crushedit
