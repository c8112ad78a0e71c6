"""Runs crushedit with files and streams that are closed, full or endless, or whose other end is closed.

    python3 tests/streams.py crates/crushedit/out/crushedit [--table]

The tables CASES, ON_TERMINAL and OF_OTHERS have the cases and the expected results, as docs/ and tests/README.md
describe them. Each case is a command of bash, which runs in a new folder with these files:

- `job`: a map and a script with one edit.
- `large`: a map of 2,000 devices and a script with one edit. The output is larger than what a pipe can hold.
- `map`: a map without a script.
- `adjusted`: a map in which the weight of a bucket isn't the sum of its items' weights.
- `refused`: a map and a script with a command that crushedit refuses.

In a command, `$C` is the program, and `$L` is a library that the command may preload. With this library, each sync of
a file fails as if the disk were full. The script compiles the library with the C compiler that the variable CC names,
or with `cc` or `gcc`.

For each case, the script compares three results: the status (if a signal ended the run, 128 plus the signal's number),
the text on standard error, and how much of the output was written. If `--explain` is given and the program can't open
or read a file, standard error must have the file's name and the system's reason. If the program can't read standard
input, standard error has no reason. In some cases, standard error is a terminal. Then the reasons must be there also
without `--explain`.

The script prints a line for each case with another result than the expected one, and its status is then 1. With
--table, the script compares nothing, and prints the results of all cases as a table.
"""

import os
import pathlib
import pty
import shutil
import subprocess
import sys
import tempfile

sys.path.append(str(pathlib.Path(__file__).resolve().parent.parent / "bench"))
from explained import unread_text  # noqa: E402
from limited import run_limited  # noqa: E402
from make_job import map_text, script  # noqa: E402

READ, WRITE = "crushedit: read fault", "crushedit: write fault"
# The status of a run that the signal SIGXFSZ, which has the number 25, has ended.
FILE_SIZE = 128 + 25
MISSING, FORBIDDEN = "No such file or directory (os error 2)", "Permission denied (os error 13)"
FOLDER, BROKEN = "Is a directory (os error 21)", "Input/output error (os error 5)"
FULL = "No space left on device (os error 28)"
UNWRITTEN = (
    f"{WRITE}\n  the output couldn't be written or stored completely: don't use it\n"
    f"  standard output: {FULL}"
)
ADJUSTED = "type 1 host\nhost a { id -1 alg straw2 }\nhost b { id -2 alg straw2 item a weight 1 }\n"
# Opens the descriptor 4 as the writing end of a pipe whose only reader has closed its end.
NO_READER = "mkfifo pipe; exec 3<> pipe 4> pipe 3<&-"
# The C source of the library `$L`.
SYNC = """
#include <errno.h>

int fsync(int fd) {
    errno = ENOSPC;
    return -1;
}
"""
JOBS = {"job": map_text(3) + script(3, 1), "large": map_text(2000) + script(2000, 1), "adjusted": ADJUSTED, "map": map_text(3) + "# end crush map\n",
        "refused": map_text(3) + "%operator alice\nrm nope\n"}
REFUSED = "crushedit: refused 1\n# 1 alice rm nope = refused NoSuchItem 2"
# The cases. Each has a title, the command, the expected status, the expected text on standard error, and how much of
# the output of one of the jobs is written: `all`, `none`, or only the `start`. A number is the number of bytes of any
# other output. (The text of the empty map has 75 bytes.) None means that the command sends the output to another
# place.
CASES = [
    ("FILE isn't there", "$C missing", 3, READ, "none"),
    ("FILE is a directory", "$C .", 3, READ, "none"),
    ("FILE is a link to itself", "ln -s loop loop; $C loop", 3, READ, "none"),
    ("FILE is the empty word", "$C ''", 3, READ, "none"),
    ("FILE is `-`, and no such file is there", "$C - < job", 3, READ, "none"),
    ("FILE is `/dev/stdin`", "$C /dev/stdin < job", 0, "", "all"),
    ("FILE fails in a read", "$C /proc/self/mem", 3, READ, "none"),
    ("FILE is a FIFO", "mkfifo f; cat job > f & $C f", 0, "", "all"),
    ("FILE is a FIFO, and its writer writes nothing", "mkfifo f; : > f & $C f", 0, "", "75"),
    ("FILE never ends", "$C /dev/zero", 1, "crushedit: TooLong", "none"),
    ("standard input never ends", "yes '# again' | $C", 1, "crushedit: TooLong", "none"),
    ("standard input is a directory", "$C < .", 3, READ, "none"),
    ("standard input is closed", "$C <&-", 3, READ, "none"),
    ("standard input comes in pieces", "(head -c 100 job; sleep 0.2; tail -c +101 job) | $C", 0, "", "all"),
    ("the file behind standard input is removed", "cp job gone; exec 3< gone; rm gone; $C <&3", 0, "", "all"),
    ("FILE is removed while it is read",
     "mkfifo f; (head -c 100 job; rm f; tail -c +101 job) > f & $C f", 0, "", "all"),
    ("standard output is closed", "$C job >&-", 3, WRITE, None),
    ("standard output is a full disk", "$C job > /dev/full", 3, WRITE, None),
    ("the reader of standard output goes away", "$C large | true; exit ${PIPESTATUS[0]}", 3, "", None),
    ("the same behind `head`", "$C large | head -n 1 > line; exit ${PIPESTATUS[0]}", 3, "", None),
    ("the reader of standard output is gone before the first byte", f"{NO_READER}; $C job >&4", 3, "", None),
    ("standard output and standard error are one, whose reader is gone", f"{NO_READER}; $C job >&4 2>&4", 3, "", None),
    ("a limit on the size of files", "ulimit -f 1; $C large", FILE_SIZE, "", "start"),
    ("the same where SIGXFSZ is ignored", "trap '' XFSZ; ulimit -f 1; $C large", 3, WRITE, "start"),
    ("standard error is closed", "$C missing 2>&-", 3, "", "none"),
    ("standard error is a full disk", "$C missing 2> /dev/full", 3, "", "none"),
    ("the reader of standard error is gone", f"{NO_READER}; $C missing 2>&4", 3, "", "none"),
    ("standard error is closed, and the run is done", "$C job 2>&-", 0, "", "all"),
    ("standard error is closed, and a weight is replaced", "$C adjusted 2>&-", 0, "", "all"),
    ("the same where it isn't closed", "$C adjusted", 0, "crushedit: adjusted 1", "all"),
    ("standard input and output are closed", "$C job <&- >&-", 3, WRITE, None),
    ("all three are closed", "$C job <&- >&- 2>&-", 3, "", None),
    ("--help to a full disk", "$C --help > /dev/full", 3, WRITE, None),
    ("--version to a full disk", "$C --version > /dev/full", 3, WRITE, None),
    ("--help to a pipe whose reader is gone", f"{NO_READER}; $C --help >&4", 3, "", None),
    ("--help to a closed output", "$C --help >&-", 3, WRITE, None),
    ("standard output tells its error when it is synced", "LD_PRELOAD=$L $C job", 3, WRITE, "all"),
    ("the same, and it is a pipe", "LD_PRELOAD=$L $C job | cat", 0, "", "all"),
    ("--explain, and standard output is a full disk", "$C --explain job > /dev/full", 3, UNWRITTEN, None),
    ("a verb, and the same", "$C apply --dry-run map > /dev/full", 3, UNWRITTEN, None),
    ("--explain, and the reader is gone before the first byte", f"{NO_READER}; $C --explain job >&4", 3, "", None),
    ("--explain, and standard output tells its error when it is synced", "LD_PRELOAD=$L $C --explain job", 3, UNWRITTEN, "all"),
    ("--help, and the same", "LD_PRELOAD=$L $C --help > help", 3, WRITE, None),
    ("the same, and nothing was written", "LD_PRELOAD=$L $C missing", 3, READ, "none"),
    ("--explain, and FILE isn't there", "$C --explain missing", 3,
     unread_text("read fault", "missing", MISSING), "none"),
    ("--explain, and a SCRIPT isn't there", "$C --explain -s job -s no/such job", 3,
     unread_text("read fault", "no/such", MISSING), "none"),
    ("the same behind standard input", "$C --explain -s ./missing < job", 3,
     unread_text("read fault", "./missing", MISSING), "none"),
    ("--explain, and the MAP of --since isn't there", "$C --explain --since missing job", 3,
     unread_text("since: read fault", "missing", MISSING), "none"),
    ("the same without --explain", "$C --since missing job", 3, "crushedit: since: read fault", "none"),
    ("--explain, and FILE is a link to itself", "ln -s loop loop; $C --explain loop", 3,
     unread_text("read fault", "loop", "Too many levels of symbolic links (os error 40)"), "none"),
    ("--explain, and FILE is the empty word", "$C --explain ''", 3, unread_text("read fault", "", MISSING), "none"),
    ("--explain, and FILE is a directory", "$C --explain .", 3, unread_text("read fault", ".", FOLDER), "none"),
    ("--explain, and FILE fails in a read", "$C --explain /proc/self/mem", 3,
     unread_text("read fault", "/proc/self/mem", BROKEN), "none"),
    ("--explain, and a SCRIPT is a directory", "$C --explain -s . job", 3, unread_text("read fault", ".", FOLDER), "none"),
    ("--explain, and the MAP of --since is a directory", "$C --explain --since . job", 3,
     unread_text("since: read fault", ".", FOLDER), "none"),
    ("--explain, and the MAP of --to isn't there", "$C --explain --to missing job", 3,
     unread_text("to: read fault", "missing", MISSING), "none"),
    ("the MAP of --to never ends", "$C --to /dev/zero job", 1, "crushedit: to: TooLong", "none"),
    ("the MAP of --to is a FIFO", "mkfifo f; sed '/^%/,$d' job > f & $C --to f job | sed -n 1p", 0, "", "13"),
    ("--explain, and standard input is closed", "$C --explain <&-", 3, unread_text("read fault"), "none"),
    ("--strict, and a command is refused", "$C --strict refused", 5, REFUSED, "none"),
]
# Cases in which standard error is a terminal.
ON_TERMINAL = [
    ("FILE isn't there, and standard error is a terminal", "$C missing", 3, unread_text("read fault", "missing", MISSING), "none"),
    ("--strict, and a command is refused, and standard error is a terminal", "$C --strict refused", 5,
     f"{REFUSED}\n  nope doesn't exist", "none"),
]
# Cases that root can't test, because root may enter every folder.
OF_OTHERS = [
    ("--explain, and FILE is in a folder that may not be looked into",
     "mkdir -m 0 shut; $C --explain shut/job; status=$?; chmod 700 shut; exit $status", 3,
     unread_text("read fault", "shut/job", FORBIDDEN), "none"),
]


def written(out, whole):
    """Returns how much of an output was written: `none`, `all`, `start`, or its number of bytes.

    `whole` has the whole outputs of all jobs. The number is returned if `out` isn't the start of any of them.
    """
    if not out:
        return "none"
    if out in whole:
        return "all"
    return "start" if any(text.startswith(out) for text in whole) else str(len(out))


def make_library(folder):
    """Compiles the library with which each sync of a file fails, and returns its path."""
    compiler = os.environ.get("CC") or ("cc" if shutil.which("cc") else "gcc")
    library = os.path.join(folder, "sync.so")
    subprocess.run([compiler, "-shared", "-fPIC", "-x", "c", "-o", library, "-"], input=SYNC, text=True, check=True)
    return library


def has_terminals():
    """Returns whether the system has terminals for the tests. If it hasn't, prints that cases are left out."""
    try:
        for end in pty.openpty():
            os.close(end)
    except OSError:
        print("streams.py: the system has no terminal, so two cases are left out")
        return False
    return True


def shown_by(terminal):
    """Returns what was written to a terminal that nobody has open for writing any more, and closes the terminal.

    Lines end with a line feed only, as in a file.
    """
    shown = b""
    while True:
        try:
            shown += os.read(terminal, 4096)
        except OSError:
            os.close(terminal)
            return shown.replace(b"\r\n", b"\n")


def ending(program, library, folder, command, is_on_terminal):
    """Runs the command of a case in a new folder. Returns its status, standard error and standard output."""
    terminal, errors = pty.openpty() if is_on_terminal else (None, subprocess.PIPE)
    with tempfile.TemporaryDirectory(dir=folder) as case:
        for name in JOBS:
            os.link(os.path.join(folder, name), os.path.join(case, name))
        with open(os.path.join(folder, "out"), "wb") as out:
            run = run_limited(["bash", "-c", command], cwd=case, env={**os.environ, "C": program, "L": library},
                              stdin=subprocess.DEVNULL, stdout=out, stderr=errors, restore_signals=True)
        if is_on_terminal:
            os.close(errors)
        with open(os.path.join(folder, "out"), "rb") as out:
            status = run.returncode if run.returncode >= 0 else 128 - run.returncode
            told = shown_by(terminal) if is_on_terminal else run.stderr
            return status, told.decode().strip(), out.read()


def main():
    program, as_table = os.path.abspath(sys.argv[1]), "--table" in sys.argv
    cases, failed = CASES + (OF_OTHERS if os.geteuid() else []), False
    cases = [(case, False) for case in cases] + [(case, True) for case in (ON_TERMINAL if has_terminals() else [])]
    with tempfile.TemporaryDirectory() as folder:
        library = make_library(folder)
        whole = []
        for name, text in JOBS.items():
            with open(os.path.join(folder, name), "w") as out:
                out.write(text)
            whole.append(subprocess.run([program, out.name], capture_output=True, check=True).stdout)
        for (name, command, due_status, due_told, due_written), is_on_terminal in cases:
            status, told, out = ending(program, library, folder, command, is_on_terminal)
            got = [status, told, written(out, whole) if due_written is not None else None]
            due = [due_status, due_told.strip(), due_written]
            if as_table:
                lines = ", ".join(f"`{line.strip()}`" for line in told.splitlines())
                print(f"| {name} | {status} | {lines} | {got[2] or ''} |")
            elif got != due:
                failed = True
                print(f"{name}: {got} and not {due}: {command}")
    if not as_table:
        print(f"{len(cases)} cases of streams: {'some end otherwise' if failed else 'each ends as docs/ say'}")
    sys.exit(1 if failed else 0)


if __name__ == "__main__":
    main()
