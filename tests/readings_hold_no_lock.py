"""Checks that the calls which only read from the editor can't acquire the editor's lock, so they never wait for it.

These calls are `reading`, `note` and `learn`, of an `Editor` and of its `LockFreeReader`.

    python3 tests/readings_hold_no_lock.py

The script copies the sources of all crates. In the copy of the crate crush_editor, it puts an attempt to acquire the
lock into each of these calls. Then it compiles a program that uses this crate. The compiler must reject each attempt
with the message that the table TRIES has for the attempt. The messages say that `LockFreeReader` has no lock, that the
editor's lock is a private field of `StateLock`, and that `StateLock` has no method `try_lock`. Only the compiler
checks this, and contracts play no part in it.

The script needs the toolchain and the sources, and nothing has to be proved. It prints a line for each attempt that
the compiler doesn't reject with the expected message, followed by all messages of the compiler. The last line has the
number of rejected attempts. The status is 1 if an attempt isn't rejected with its message, or if a line of TRIES isn't
in the sources exactly once.
"""

import pathlib
import re
import shutil
import subprocess
import sys
import tempfile

TOP = pathlib.Path(__file__).resolve().parent.parent
CRATE = "crush_editor"
# A small program that uses this crate.
PROGRAM = "crush_two_operators"

# The messages with which the compiler must reject the attempts.
NO_FIELD = "no field `state` on type `LockFreeReader<N>`"
PRIVATE = "field `state` of struct `StateLock` is private"
NO_METHOD = "no method named `try_lock` found for type `StateLock<N, O>`"
# The attempts. Each has a file, the line of this file before which the attempt is inserted, an expression that tries
# to acquire the lock, and the message with which the compiler must reject this expression.
TRIES = [
    ("lock_free_reader.rt", "        self.gauge.read(&mut seat.reader)", "self.state.try_lock()", NO_FIELD),
    ("lock_free_reader.rt", "        let note = self.gauge.note(&mut seat.reader);", "self.state.try_lock()", NO_FIELD),
    ("lock_free_reader.rt", "        let Note { note, of: _ } = note;", "self.state.try_lock()", NO_FIELD),
    ("editor.rt", "        self.lock_free_reader.reading(seat)", "self.state_lock.state.try_lock()", PRIVATE),
    ("editor.rt", "        self.lock_free_reader.note(seat)", "self.state_lock.try_lock()", NO_METHOD),
    ("editor.rt", "        self.lock_free_reader.learn(seat, note);", "self.state_lock.state.try_lock()", PRIVATE),
]


def copy_of(folder):
    """Copies the crates to a folder, without what was built, and returns the folder with the sources of
    crush_editor."""
    for name in ("crates.txt", "HANDLES"):
        shutil.copy(TOP / name, folder / name)
    shutil.copytree(TOP / "crates", folder / "crates", ignore=shutil.ignore_patterns("out"))
    return folder / "crates" / CRATE / "src"


def tried_in(source, file, line, tried):
    """Inserts an attempt to acquire the lock before a line of a file, which must have exactly one such line.

    The inserted loop would repeat the expression `tried` until it has acquired the lock.
    """
    text = (source / file).read_text()
    if text.count(line + "\n") != 1:
        sys.exit(f"{file} has no single line {line.strip()}")
    (source / file).write_text(text.replace(line + "\n", f"        while {tried}.is_none() {{}}\n{line}\n"))


def main():
    with tempfile.TemporaryDirectory() as folder:
        source = copy_of(pathlib.Path(folder))
        for file, line, tried, _ in TRIES:
            tried_in(source, file, line, tried)
        # `rt try` compiles the program without proofs. If the sources don't compile, it prints the errors and runs
        # nothing.
        run = subprocess.run(["rt", "try"], cwd=source.parent.parent / PROGRAM, stdin=subprocess.DEVNULL, capture_output=True, text=True)
        taken = 0
        for file, line, tried, due in TRIES:
            text = (source / file).read_text()
            place = text[: text.index(f"\n{line}\n")].count("\n") + 1
            if not re.search(rf"(?m)/{CRATE}/src/{file}:{place}:\d+: error.*{re.escape(due)}", run.stderr):
                taken += 1
                print(f"{file}: {tried} before {line.strip()}: expected {due}")
    if taken:
        print(run.stdout + run.stderr)
    print(f"{len(TRIES) - taken} of {len(TRIES)} ways to the lock don't compile")
    return 1 if taken else 0


if __name__ == "__main__":
    sys.exit(main())
