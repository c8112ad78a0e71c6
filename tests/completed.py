"""Tests how bash completes command lines of crushedit. The script tests/pages_test.py calls `completion_faults`.

The test starts a bash that has read completions/crushedit.bash, in a folder with the files of FILES. For each key of
TYPED, the test types the key and a tab. The line must then be the value that TYPED has for this key. The test also
checks that bash offers exactly the options of `crushedit --help` when it completes a `-`. The program crushedit must
be in the PATH. If the system has no pseudo-terminal, the test prints this, and doesn't type.
"""
import os
import pathlib
import pty
import re
import select
import subprocess

COMPLETION = pathlib.Path(__file__).resolve().parent.parent / "completions/crushedit.bash"
FILES = ["map.txt", "alice.txt", "--trial", "with blank"]
TYPED = {
    "crushedit --in-t": "crushedit --in-turn ",
    "crushedit --strict --explain --stri": "crushedit --strict --explain --stri",
    "crushedit --since ma": "crushedit --since map.txt ",
    "crushedit --since=ma": "crushedit --since=map.txt ",
    "crushedit --to ma": "crushedit --to map.txt ",
    "crushedit map.txt -s al": "crushedit map.txt -s alice.txt ",
    "crushedit --script al": "crushedit --script alice.txt ",
    "crushedit -s alice.txt --scr": "crushedit -s alice.txt --script ",
    "crushedit --since with": r"crushedit --since with\ blank ",
    "crushedit al": "crushedit alice.txt ",
    "crushedit ap": "crushedit apply ",
    "crushedit apply --dr": "crushedit apply --dry-run ",
    "crushedit apply --in-t": "crushedit apply --in-t",
    "crushedit plan map.txt --as": "crushedit plan map.txt --as-ceph ",
    "crushedit diff ma": "crushedit diff map.txt ",
    "crushedit apply -o al": "crushedit apply -o alice.txt ",
    "crushedit -- --tr": "crushedit -- --trial ",
    "crushedit -s --tr": "crushedit -s --trial ",
}
# With these settings, Ctrl-T prints the current line between the bytes 1 and 2, and the prompt is the byte 3. The
# shell prints these bytes nowhere else. Ctrl-U removes the line.
BEGUN = r"""bind -x '"\C-t": printf "\1%s\2" "$READLINE_LINE"'; PS1=$'\3'"""
SECONDS = 20


def told_up_to(terminal, end):
    """Waits until the terminal shows this byte. Returns what the terminal shows before the byte. Raises TimeoutError
    if the terminal shows nothing for SECONDS seconds."""
    told = b""
    while end not in told:
        ready, _, _ = select.select([terminal], [], [], SECONDS)
        if not ready:
            raise TimeoutError(f"bash shows no {end!r} behind {told!r}")
        told += os.read(terminal, 4096)
    return told.partition(end)[0]


def typed_faults(here, environment):
    try:
        terminal, other = pty.openpty()
    except OSError:
        print("completed.py: the system has no terminal to type at")
        return
    shell = subprocess.Popen(["bash", "--norc", "--noprofile", "-i"], cwd=here, stdin=other, stdout=other, stderr=other,
                             env={**environment, "TERM": "dumb", "INPUTRC": os.devnull, "HISTFILE": ""}, start_new_session=True)
    try:
        os.write(terminal, f". {COMPLETION}; {BEGUN}\n".encode())
        told_up_to(terminal, b"\3")
        for typed, wanted in TYPED.items():
            os.write(terminal, f"{typed}\t\x14\x15".encode())
            line = told_up_to(terminal, b"\2").rpartition(b"\1")[2].decode()
            if line != wanted:
                yield f"completions/crushedit.bash: {typed!r} becomes {line!r}, and not {wanted!r}"
    finally:
        shell.kill()
        shell.wait()
        os.close(terminal)
        os.close(other)


def word_faults(here, environment):
    asked = f". {COMPLETION}; COMP_WORDS=(crushedit -) COMP_CWORD=1; _crushedit; echo ${{COMPREPLY[@]}}; crushedit --help"
    words, _, told = subprocess.run(["bash", "-c", asked], cwd=here, env=environment, capture_output=True, text=True).stdout.partition("\n")
    options = re.findall(r"(?m)^ +(?:(-\w), |  )(?: *)(--[a-z-]+)", told)
    helped = {word for option in options for word in option if word}
    for word in sorted(helped ^ set(words.split())):
        yield f"completions/crushedit.bash: {word} {'is not offered' if word in helped else 'is none of the help'}"


def completion_faults(folder, environment):
    """Yields a message for each line or word that bash doesn't complete as it should. The test works in a new folder
    inside `folder`."""
    here = pathlib.Path(folder, "completed")
    here.mkdir()
    for name in FILES:
        (here / name).write_text("")
    yield from typed_faults(here, environment)
    yield from word_faults(here, environment)
