"""Measures how much time and memory crushedit takes for maps of up to 65,536 devices, the most that a map may have.

    python3 bench/figures.py crates/crushedit/out/crushedit
    python3 bench/figures.py crates/crushedit/out/crushedit --only hosts nest --repeat 3

A *job* is the text of a map, followed by commands. The script prints a line for each job. The line has the following
columns:

- `bytes`: the number of bytes of the job
- `seconds`: the processor seconds of crushedit, user and system time together
- `wc`: for comparison, the processor seconds of the command `wc` for the same job, in the locale C.UTF-8
- `ratio`: how many times as long as `wc` crushedit takes
- `memory`: the most memory that crushedit had at one time, divided by the number of bytes of the job

Each time is the shortest time of all repeats. The script measures the memory in one more run, with GNU `time`. If GNU
`time` isn't installed, the column `memory` has a `-`. If a run of crushedit takes longer than the limit, the column
`seconds` has a `-`, and the rest of the line is missing.

With --crushtool, the script also prints how long Ceph's crushtool takes to compile the map of 60,000 devices, to set
one weight, and to decompile the map. It prints nothing about crushtool if crushtool isn't installed.

The status is 1 if the program fails.
"""

import argparse
import os
import resource
import shutil
import signal
import subprocess
import tempfile

from make_job import bucket, map_text
from times import memory

# The line that ends the text of the map. The commands of the operator `a` follow.
OPERATOR = "%operator a\n"
# The largest number of devices of a map, and the largest number of calls (commands and batches) of a job.
MOST = 65536
# The file for the option `--since`. It has the map of 60,000 devices before the edit.
SINCE = "since"
TYPES = ["type 0 osd", "type 1 host", "type 3 rack", "type 11 root"]


def flat(devices):
    """Returns the text of a map in which one root holds all devices."""
    lines = [f"device {number} osd.{number}" for number in range(devices)] + TYPES
    items = [(f"osd.{number}", 1) for number in range(devices)]
    return "\n".join(lines + bucket("root", "default", 1, items)) + "\n"


def nest(depth):
    """Returns the text of a map of nested buckets. The innermost bucket holds a device."""
    lines = ["device 0 osd.0"] + TYPES
    below = "osd.0"
    for number in range(depth, 0, -1):
        lines += bucket("rack", f"b{number}", number, [(below, 1)])
        below = f"b{number}"
    return "\n".join(lines) + "\n"


def script(count, line):
    """Returns the commands of an operator: `line(0)`, `line(1)`, and so on, `count` commands in all."""
    return OPERATOR + "".join(line(number) + "\n" for number in range(count))


def far(number, count=MOST):
    """Returns a number below `count`. Two numbers that follow one another get results that are far apart.

    Different numbers below `count` get different results, because 7919 is a prime number that doesn't divide `count`.
    """
    return (count - 1 + number * 7919) % count


def reweights(number):
    """Returns a command that sets the weight of a device."""
    return f"reweight osd.{far(number)} {2 + number % 5}.5"


def jobs():
    """Yields for each job its name, a function that makes the text of the job, and the options of the command line."""
    hosts = (MOST + 19) // 20
    one = script(1, lambda number: "reweight osd.7 2.5")
    yield "hosts 5,000", lambda: map_text(5000) + one, []
    yield "hosts 60,000", lambda: map_text(60000) + one, []
    yield "tree 60,000", lambda: map_text(60000) + one, ["--tree"]
    yield "since 60,000", lambda: map_text(60000) + one, ["--since", SINCE]
    yield "hosts 65,536", lambda: map_text(MOST) + one, []
    yield "flat 65,536", lambda: flat(MOST) + one, []
    yield "reweights", lambda: map_text(MOST) + script(MOST, reweights), []
    yield "moves", lambda: map_text(MOST) + script(MOST, lambda n: f"move osd.{far(n)} host=host{n * 13 % hosts}"), []
    yield "removals", lambda: map_text(MOST) + script(MOST, lambda n: f"rm osd.{far(n)}"), []
    yield "additions", lambda: map_text(0) + "host h {\nid -2\nalg straw2\n}\n" + script(
        MOST, lambda n: f"add osd.{n} 1 host=h"), []
    yield "new buckets", lambda: map_text(60000) + script(900, lambda n: f"add-bucket new{n} rack"), []
    yield "swaps", lambda: map_text(MOST) + script(
        MOST, lambda n: f"swap-bucket host{n % 1000} host{1000 + n * 13 % 1000}"), []
    yield "renames", lambda: map_text(MOST) + script(
        MOST, lambda n: f"rename-bucket {'x' * (n // hosts % 2)}host{n % hosts} {'x' * (1 - n // hosts % 2)}host{n % hosts}"), []
    yield "nest 4,096", lambda: nest(4096) + script(1000, lambda n: f"reweight osd.0 {n % 7}.5"), []


def spent(words, path, limit):
    """Returns the processor seconds of a command, or None if the command takes longer than the limit."""
    with open(path, "rb") as stdin:
        process = subprocess.Popen(
            words, stdin=stdin, stdout=subprocess.DEVNULL, stderr=subprocess.DEVNULL,
            env={**os.environ, "LC_ALL": "C.UTF-8"},
            preexec_fn=lambda: resource.setrlimit(resource.RLIMIT_CPU, (limit, limit)))
        _, status, usage = os.wait4(process.pid, 0)
        process.returncode = os.waitstatus_to_exitcode(status)
    if process.returncode in (-signal.SIGXCPU, -signal.SIGKILL):
        return None
    if process.returncode:
        raise OSError(f"{' '.join(words)} < {path}: status {process.returncode}")
    return usage.ru_utime + usage.ru_stime


def least(words, path, options):
    """Returns the shortest time of all repeats, or None if a run takes longer than the limit."""
    runs = []
    for _ in range(options.repeat):
        run = spent(words, path, options.limit)
        if run is None:
            return None
        runs.append(run)
    return min(runs)


def crushtool(folder, options):
    """Prints how long crushtool takes for the map of 60,000 devices, if crushtool is installed."""
    if not shutil.which("crushtool"):
        return
    text, compiled, changed = [os.path.join(folder, name) for name in ["map.txt", "map.bin", "new.bin"]]
    with open(text, "w") as out:
        out.write(map_text(60000))
    total = 0.0
    for words in [["-c", text, "-o", compiled], ["-i", compiled, "--reweight-item", "osd.7", "2.5", "-o", changed],
                  ["-d", changed, "-o", text]]:
        run = least(["crushtool", *words], os.devnull, options)
        if run is None:
            print("crushtool: past the limit")
            return
        total += run
    print(f"crushtool -c, --reweight-item, -d of the map of 60,000 devices: {total:.2f} s")


def main():
    parser = argparse.ArgumentParser(description=__doc__.splitlines()[0])
    parser.add_argument("program")
    parser.add_argument("--only", nargs="+", metavar="WORD", help="the jobs whose name has one of the words")
    parser.add_argument("--repeat", type=int, default=5)
    parser.add_argument("--limit", type=int, default=120, help="processor seconds that a run may take")
    parser.add_argument("--crushtool", action="store_true")
    options = parser.parse_args()
    program = os.path.abspath(options.program)
    print(f"{'job':<14}{'bytes':>10}{'seconds':>9}{'wc':>8}{'ratio':>7}{'memory':>8}")
    with tempfile.TemporaryDirectory() as folder:
        path = os.path.join(folder, "job")
        with open(os.path.join(folder, SINCE), "w") as out:
            out.write(map_text(60000))
        for name, text, asked in jobs():
            if options.only and not any(word in name for word in options.only):
                continue
            with open(path, "w") as out:
                size = out.write(text())
            run_words = [program, *[os.path.join(folder, word) if word == SINCE else word for word in asked]]
            words = least(["wc"], path, options)
            run = least(run_words, path, options)
            if run is None:
                told = f"{'-':>9}"
            else:
                most = memory([(run_words, path)])
                held = "-" if most is None else f"{most * 1024 * 1024 / size:.1f}"
                told = f"{run:9.3f}{words:8.3f}{run / words:7.1f}{held:>8}"
            print(f"{name:<14}{size:>10}{told}", flush=True)
        if options.crushtool:
            crushtool(folder, options)


if __name__ == "__main__":
    main()
