"""Runs the commands of the sessions in tests/runs/, and compares what they print with what the sessions show.

    python3 tests/runs.py PROGRAM [TOPIC ..]

A session is a test of the whole program: a title, commands of a shell, and below each command exactly what it prints.
PROGRAM is the path of the program crushedit. A TOPIC is the name of a file in tests/runs/ without `.txt`. Without a
TOPIC, the sessions of all files run. The file `texts.txt` has no sessions, but texts that the other files share.

A file begins with a paragraph about its topic. Then it has texts and sessions:

    -- NAME              a text, up to the next `--` or `==`: each session finds it as the file NAME in its folder
    == TITLE             a session: what its commands show
    $ COMMAND            a command of bash, in which `crushedit` is PROGRAM
    > MORE               continues the command on another line
    2> LINE              a line of standard error
    status N             the command's status, if it isn't 0 (for a pipe, the last status in it that isn't 0)
    @NAME                in a text or in an output: the lines of the text NAME
    ...                  any lines, or none
    LINE...              a line that begins with LINE
    LINE                 a line of standard output, or of a text

Each line ends with a line feed, also the last one. Blank lines before a line that begins with `--`, `==` or `$` are
ignored. If a session needs a file that doesn't consist of lines of printable characters, a command of the session,
such as `printf`, writes the file.

Each session runs in a temporary folder of its own, and several sessions run at the same time. A command fails if its
output, its standard error or its status isn't as the session shows. For each command that fails, the script prints the
file, the line and the title of the session, the command, what was expected, and what the command printed instead. The
last line has the number of sessions, of commands, and of commands that failed. The status is 1 if a command failed, or
if there was no session.
"""

import concurrent.futures
import dataclasses
import os
import pathlib
import re
import subprocess
import sys
import tempfile

RUNS = pathlib.Path(__file__).resolve().parent / "runs"
SHARED = "texts"
# The most seconds that a command may run, far more than any command needs. Without this limit, `make check` would
# never end if a program hung.
LONGEST = 900
GAP = "..."
# If an output isn't as expected, and has at most this many lines, all its lines are printed.
SHOWN = 60


@dataclasses.dataclass
class Command:
    """A command of a session, with the lines that it must print on standard output and standard error, and its
    status."""

    words: str
    out: list = dataclasses.field(default_factory=list)
    err: list = dataclasses.field(default_factory=list)
    status: int = 0


@dataclasses.dataclass
class Session:
    """A session, whose commands run in one folder. `place` is the file and the line of its title. `texts` has the
    lines of each text that the session finds as a file, by the text's name."""

    place: str
    title: str
    texts: dict
    commands: list


def without_blank_end(lines):
    """Removes the empty lines at the end of a list, and returns the list."""
    while lines and not lines[-1]:
        lines.pop()
    return lines


def spelled(lines, texts, place):
    """Yields the lines, with the lines of a text in place of each line `@NAME`.

    If there is no such text, ends the script with a message that names `place`.
    """
    for line in lines:
        if line.startswith("@"):
            if line[1:] not in texts:
                sys.exit(f"{place}: there is no text {line[1:]}")
            yield from texts[line[1:]]
        else:
            yield line


def command_of(lines, texts, place):
    """Returns the command that these lines of a session show. The first of the lines begins with `$ `."""
    words, rest = [lines[0].removeprefix("$ ")], lines[1:]
    while rest and rest[0].startswith("> "):
        words.append(rest.pop(0).removeprefix("> "))
    command = Command("\n".join(words))
    for line in without_blank_end(rest):
        if line.startswith("2> "):
            command.err.append(line.removeprefix("2> "))
        elif re.fullmatch(r"status \d+", line):
            command.status = int(line.removeprefix("status "))
        else:
            command.out.append(line)
    command.out = list(spelled(command.out, texts, place))
    return command


def blocks_of(path):
    """Returns the texts and sessions of a file as blocks of lines.

    A block is its sign `--` or `==`, the number of the line with this sign, the rest of that line, and the lines below
    it.
    """
    heads = []
    for number, line in enumerate(path.read_text().split("\n"), 1):
        head = re.fullmatch(r"(--|==) (.+)", line)
        if head:
            heads.append((head[1], number, head[2], []))
        elif heads:
            heads[-1][3].append(line)
    return heads


def read_topic(path, shared):
    """Returns the texts of a file, together with the shared texts, and its sessions."""
    texts, sessions = dict(shared), []
    for kind, number, name, lines in blocks_of(path):
        place = f"{path.name}:{number}"
        if kind == "--":
            texts[name] = list(spelled(without_blank_end(lines), texts, place))
            continue
        starts = [at for at, line in enumerate(lines) if line.startswith("$ ")]
        if not starts or any(lines[: starts[0]]):
            sys.exit(f"{place}: a session begins with a command, `$ ..`")
        parts = [lines[at:end] for at, end in zip(starts, [*starts[1:], len(lines)])]
        sessions.append(Session(place, name, texts, [command_of(part, texts, place) for part in parts]))
    return texts, sessions


def read_sessions(topics):
    """Returns the sessions of these topics, or of all topics if none is given."""
    shared, _ = read_topic(RUNS / f"{SHARED}.txt", {})
    paths = [RUNS / f"{topic}.txt" for topic in topics] or sorted(set(RUNS.glob("*.txt")) - {RUNS / f"{SHARED}.txt"})
    return [session for path in paths for session in read_topic(path, shared)[1]]


def is_as(lines, text):
    """Returns whether an output has the expected lines.

    A line `...` stands for any number of lines, and `...` at the end of a line stands for any rest of this line.
    """
    if not any(line.endswith(GAP) for line in lines):
        return "".join(f"{line}\n" for line in lines) == text
    forms = []
    for line in lines:
        if line == GAP:
            forms.append(r"(?:[^\n]*\n)*")
        elif line.endswith(GAP):
            forms.append(re.escape(line.removesuffix(GAP)) + r"[^\n]*\n")
        else:
            forms.append(re.escape(f"{line}\n"))
    return re.fullmatch("".join(forms), text) is not None


def shown(lines):
    """Returns the lines, indented. If there are more than SHOWN, returns only lines from the beginning and the end."""
    if len(lines) > SHOWN:
        lines = [*lines[: SHOWN // 2], f"({len(lines) - SHOWN} more lines)", *lines[-SHOWN // 2 :]]
    return [f"      {line}" for line in lines] or ["      (nothing)"]


def compared(what, lines, text):
    """Returns the lines to print about an output that isn't as expected, or no lines if it is.

    `what` names the stream. `lines` are the expected lines, and `text` is the output.
    """
    if is_as(lines, text):
        return []
    came = text.split("\n")
    came = came[:-1] if came[-1] == "" else [*came[:-1], f"{came[-1]} (without a line feed)"]
    return [f"    {what}, expected:", *shown(lines), f"    {what}, came:", *shown([repr(it)[1:-1] for it in came])]


def faults_of(session, folder, path):
    """Runs the commands of a session in a folder. Yields the lines to print about each command that fails.

    `path` is the variable PATH of the commands.
    """
    for name, lines in session.texts.items():
        pathlib.Path(folder, name).write_text("".join(f"{line}\n" for line in lines))
    for command in session.commands:
        words = ["bash", "-o", "pipefail", "-c", command.words]
        try:
            run = subprocess.run(words, cwd=folder, env={**os.environ, "PATH": path, "LC_ALL": "C"}, stdin=subprocess.DEVNULL,
                                 capture_output=True, timeout=LONGEST)
        except subprocess.TimeoutExpired:
            faults = [f"    had not ended after {LONGEST} seconds"]
        else:
            out, err = (text.decode(errors="surrogateescape") for text in (run.stdout, run.stderr))
            faults = compared("standard output", command.out, out) + compared("standard error", command.err, err)
            if run.returncode != command.status:
                faults.append(f"    status, expected: {command.status}, came: {run.returncode}")
        if faults:
            yield [f"{session.place}: {session.title}", f"  $ {command.words}", *faults]


def run_sessions(sessions, program):
    """Runs the sessions. Returns the lines to print about each command that fails, in the order of the sessions."""
    with tempfile.TemporaryDirectory() as top, concurrent.futures.ThreadPoolExecutor(os.cpu_count()) as pool:
        commands = pathlib.Path(top, "bin")
        commands.mkdir()
        (commands / "crushedit").symlink_to(pathlib.Path(program).resolve())
        path = f"{commands}:{os.environ['PATH']}"

        def run(numbered):
            number, session = numbered
            folder = pathlib.Path(top, str(number))
            folder.mkdir()
            return list(faults_of(session, folder, path))

        return [fault for faults in pool.map(run, enumerate(sessions)) for fault in faults]


def main():
    if len(sys.argv) < 2:
        sys.exit(__doc__)
    sessions = read_sessions(sys.argv[2:])
    faults = run_sessions(sessions, sys.argv[1])
    for fault in faults:
        print("\n".join(fault).encode(errors="backslashreplace").decode())
    count = sum(len(session.commands) for session in sessions)
    print(f"{len(sessions)} sessions, {count} commands: {len(faults)} ended otherwise")
    return 1 if faults or not sessions else 0


if __name__ == "__main__":
    sys.exit(main())
