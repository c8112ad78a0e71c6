"""Checks that the program isn't slow with names that would collide if the program hashed names without random keys.

    python3 tests/colliding.py crates/crushedit/out/crushedit [NAMES]

Names *collide* if a hash table puts them in the same place. The program draws random keys for each run, and hashes
names with these keys, so that nobody can find names that collide. A program that didn't use random keys would print
the same output, but it would take longer if names collide. So the test runs each job with two sets of names: with
names that collide if they are hashed without keys, and with as many other names of the same length. Each set has
NAMES names, or 8,000 if NAMES isn't given. NAMES must be greater than 1,000. The test needs a Python that hashes with
SipHash-1-3, as Python 3.11 and later versions do. With this Python, the test finds names that collide.

There are three kinds of jobs. In the job `reading`, the program reads a map, and searches for names that aren't in
the map. In the job `since`, the program reads a map that `--since` names. In the job `batches`, the program prints
why batches are refused (`--explain`), and copies the map for each batch.

For each kind of job, the test prints the processor seconds with names that collide, and then with other names. Each
time is the least of three runs. The status is 1 if the first time is more than three times the second time, or if a
run fails.
"""

import os
import pathlib
import subprocess
import sys
import tempfile

sys.path.append(str(pathlib.Path(__file__).resolve().parent.parent / "bench"))
from hostile import OPERATOR, colliding  # noqa: E402

MOST = 3


def devices(names):
    return [f"device {number} {name}" for number, name in enumerate(names)]


def reading(names, absent):
    return devices(names) + [OPERATOR] + [f"rm {name}" for name in absent * 8], []


def since(names, absent):
    return [OPERATOR], ["--since", devices(names + absent)]


def batches(names, absent):
    names = names[:2000]
    lines = [line for number in range(300) for line in
             ("begin", f"set-device-class c{number} {names[0]}", f"rm {absent[0]}", "commit")]
    return devices(names) + [OPERATOR] + lines, ["--explain"]


def seconds(program, job, words):
    """Runs a job three times with these options. Returns the least of the three processor times, in seconds."""
    taken = []
    for _ in range(3):
        with open(job, "rb") as stdin:
            run = subprocess.Popen([program, *words], stdin=stdin, stdout=subprocess.DEVNULL, stderr=subprocess.DEVNULL)
            _, how, used = os.wait4(run.pid, 0)
            run.returncode = os.waitstatus_to_exitcode(how)
        if run.returncode:
            sys.exit(f"{job.name}: status {run.returncode}")
        taken.append(used.ru_utime + used.ru_stime)
    return min(taken)


def main():
    program, count = os.path.abspath(sys.argv[1]), int(sys.argv[2]) if len(sys.argv) > 2 else 8000
    sets = colliding(count), [f"{number:020x}" for number in range(count)]
    is_slow = False
    with tempfile.TemporaryDirectory() as folder:
        job, other = pathlib.Path(folder, "job"), pathlib.Path(folder, "map")
        for kind in (reading, since, batches):
            taken = []
            for names in sets:
                lines, words = kind(names[:-1000], names[-1000:])
                job.write_text("\n".join(lines) + "\n")
                if words[1:]:
                    other.write_text("\n".join(words[1]) + "\n")
                    words[1] = str(other)
                taken.append(seconds(program, job, words))
            print(f"{kind.__name__:10}{taken[0]:8.3f}{taken[1]:8.3f}", flush=True)
            is_slow |= taken[0] > MOST * taken[1]
    sys.exit(is_slow)


if __name__ == "__main__":
    main()
