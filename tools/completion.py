#!/usr/bin/env python3
"""Writes the completions for bash, zsh and fish, completions/crushedit.{bash,zsh,fish}, out of the help of
crates/crush_options.

    python3 tools/completion.py [--check]

With these files, a shell completes the words that a user types. The first word is completed to a verb or to the name
of a file. A word that begins with `-` is completed to an option. If the line begins with a verb, the shell offers the
options of this verb, and otherwise the options of a command line without a verb. bash and zsh don't offer an option a
second time if it can be given only once. (After the letter of an option, bash still offers the long name of the
option.) If the value of an option is the name of a file, the value is completed to the name of a file, and otherwise
it isn't completed. Any other word is completed to the name of a file.

The script needs only Python 3. With --check the script writes nothing, and the status is 1 if a file isn't what the
script would write.
"""
import pathlib
import sys

sys.dont_write_bytecode = True
from manual import SCRIPT, SOURCE, verbs, words_of

FOLDER = pathlib.Path(__file__).resolve().parent.parent / "completions"
# The names that the help gives to those values of options that are names of files.
FILES = {"FILE", "MAP", "SCRIPT"}
# The comment at the top of each file, and the texts of the three files. The parts in braces are filled in below.
HEAD = "# Completion of crushedit's command line for {shell}, as tools/completion.py makes it of the help.\n"
BASH = """\
{head}
_crushedit() {{
    local IFS=' ' word=${{COMP_WORDS[COMP_CWORD]}} before=${{COMP_WORDS[COMP_CWORD - 1]}} often= once given it files
    COMPREPLY=()
    # bash takes `--since=MAP` for three words.
    [[ $before != = ]] || before=${{COMP_WORDS[COMP_CWORD - 2]}}
    case $before in
{cases}    esac
    given=" ${{COMP_WORDS[*]:1:COMP_CWORD - 1}} "
    if [[ $COMP_CWORD == 1 && $word != -* ]]; then
        for it in {verbs}; do
            [[ $it != "$word"* ]] || COMPREPLY+=("$it")
        done
        # Files can be meant too.
        if ((${{#COMPREPLY[@]}})); then
            mapfile -t files < <(compgen -f -- "$word")
            COMPREPLY+=("${{files[@]}}")
            compopt -o filenames
        fi
        return
    fi
    [[ $word == -* && $given != *' -- '* ]] || return
    [[ $COMP_CWORD == 1 ]] || it=${{COMP_WORDS[1]}}
    case $it in
{options}    esac
    for it in $once; do
        [[ $it != "$word"* || $given == *" $it "* ]] || COMPREPLY+=("$it")
    done
    for it in $often; do
        [[ $it != "$word"* ]] || COMPREPLY+=("$it")
    done
}}

# Where nothing is found, files are.
complete -o bashdefault -o default -F _crushedit crushedit
"""
ZSH = """\
#compdef crushedit
{head}
_crushedit() {{
    local -a verbs=(
{verbs}    )
    if (( CURRENT == 2 )) && [[ $words[2] != -* ]]; then
        _describe -t verbs verb verbs
        _files
        return
    fi
    case $words[2] in
{cases}    esac
}}

_crushedit "$@"
"""
FISH = """\
{head}
# Whether the line begins with this verb, or with none if it is `plain`.
function __crushedit_begins
    set -l words (commandline -opc)
    set -l verb plain
    if set -q words[2]; and contains -- $words[2] {verbs}
        set verb $words[2]
    end
    test $verb = $argv[1]
end

# Whether the first word behind the program's name is typed.
function __crushedit_first
    test (count (commandline -opc)) = 1
end

{lines}"""


def typed(head):
    """Returns the words for an option, such as `-s` and `--script`, and the name of its value.

    The name is empty if the option has no value.
    """
    words = head.replace(",", "").split()
    return [word for word in words if word.startswith("-")], words[-1] if words[-1].isupper() else ""


def lines_of_verbs():
    """Returns the name of each verb with the options of the verb.

    The last pair has the name `*`, and the options of a command line without a verb.
    """
    return [*((verb.name, verb.options) for verb in verbs()), ("*", words_of(SOURCE.read_text()))]


def bash():
    """Returns the text of the file for bash."""
    values = {}
    for _, options in lines_of_verbs():
        for head, _ in options:
            words, value = typed(head)
            if value:
                values.update(dict.fromkeys(words, value in FILES))
    files, others = ([it for it, is_file in values.items() if is_file is wanted] for wanted in (True, False))
    cases = f"    {' | '.join(files)}) return ;;\n    {' | '.join(others)}) compopt +o bashdefault +o default; return ;;\n"
    options = ""
    for name, heads in lines_of_verbs():
        once = " ".join(it for head, _ in heads if head != SCRIPT for it in typed(head)[0])
        often = " ".join(it for head, _ in heads if head == SCRIPT for it in typed(head)[0])
        options += f"    {name}) once='{once}'{f' often={chr(39)}{often}{chr(39)}' if often else ''} ;;\n"
    return BASH.format(head=HEAD.format(shell="bash"), cases=cases, options=options, verbs=" ".join(verb.name for verb in verbs()))


def quoted(text):
    """Returns a text in single quotes, as a shell reads it."""
    return "'" + text.replace("'", "'\\''") + "'"


def bracketed(text):
    """Returns a text in brackets, as zsh reads it in the specification of an option."""
    return "[" + "".join("\\" + it if it in "[]:\\" else it for it in text) + "]"


def zsh_option(head, text):
    """Returns the specification of an option for zsh's function `_arguments`."""
    words, value = typed(head)
    action = f":{value}:{'_files' if value in FILES else ' '}" if value else ""
    long = "=" if value else ""
    told = quoted(bracketed(text) + action)
    if len(words) == 1:
        return quoted(words[0] + long + bracketed(text) + action)
    both = "{" + ",".join(word + (long if word.startswith("--") else "+" if value else "") for word in words) + "}"
    before = "'*'" if head == SCRIPT else quoted(f"({' '.join(words)})")
    return before + both + told


def zsh():
    """Returns the text of the file for zsh."""
    described = "".join(f"        {quoted(f'{verb.name}:{verb.about}')}\n" for verb in verbs())
    files = {verb.name: [*(quoted(f"{number}:{name}:_files") for number, (name, _) in enumerate(verb.files, 1)),
                         *([quoted(f"*:{verb.more_files[0]}:_files")] if verb.more_files else [])] for verb in verbs()}
    files["*"] = ["'1:FILE:_files'"]
    cases = ""
    for name, options in lines_of_verbs():
        words = [*(zsh_option(*option) for option in options), *files[name]]
        shifted = "" if name == "*" else "        shift words\n        (( CURRENT-- ))\n"
        cases += f"    {name})\n{shifted}        _arguments \\\n            " + " \\\n            ".join(words) + "\n        ;;\n"
    return ZSH.format(head=HEAD.format(shell="zsh"), verbs=described, cases=cases)


def fish_option(verb, head, text):
    """Returns the line that makes fish offer an option after a verb, or without a verb if `verb` is `plain`."""
    words, value = typed(head)
    names = " ".join(f"-l {word[2:]}" if word.startswith("--") else f"-s {word[1:]}" for word in words)
    kind = "" if not value else " -r -F" if value in FILES else " -x"
    return f"complete -c crushedit -n '__crushedit_begins {verb}' {names}{kind} -d {quoted(text)}\n"


def fish():
    """Returns the text of the file for fish."""
    lines = "".join(f"complete -c crushedit -n __crushedit_first -a {verb.name} -d {quoted(verb.about)}\n" for verb in verbs())
    for name, options in lines_of_verbs():
        lines += "".join(fish_option("plain" if name == "*" else name, *option) for option in options)
    return FISH.format(head=HEAD.format(shell="fish"), verbs=" ".join(verb.name for verb in verbs()), lines=lines)


def main():
    made = {FOLDER / "crushedit.bash": bash(), FOLDER / "crushedit.zsh": zsh(), FOLDER / "crushedit.fish": fish()}
    if sys.argv[1:] == ["--check"]:
        old = [path.name for path, text in made.items() if not path.exists() or path.read_text() != text]
        sys.exit(f"completions/{old[0]} is older than the help: run tools/completion.py" if old else 0)
    for path, text in made.items():
        path.write_text(text)


main()
