"""Measures how much time and memory crushedit takes for jobs, and compares it with other programs.

    python3 bench/times.py crates/crushedit/out/crushedit
    python3 bench/times.py crates/crushedit/out/crushedit --devices 1000 --calls 1 1000 --rules --repeat 5
    python3 bench/times.py crates/crushedit/out/crushedit --beside earlier/crushedit
    python3 bench/times.py crates/crushedit/out/crushedit --operators 1 4 16

A *job* is the text of a map, followed by commands. A *call* is one of these commands, and an *operator* is a person
who gives some of the commands. The script measures a job for each number of devices and each number of calls. The
other programs are these:

- With --beside, another program that runs the same jobs, such as an earlier version of crushedit.
- Ceph's `crushtool`. It compiles the map of the job and decompiles it again, and makes no calls.
- The command `wc`, which counts the words of the job.

For each job, the script prints a line with the following columns:

- The number of devices and the number of calls. With --operators, also the number of operators.
- The elapsed seconds of each program. For crushtool, this is the time of both its runs together. Each time is the
  shortest time of all repeats. The programs run alternately, so that other work on the machine slows all of them in
  the same way.
- For each other program, how many times as long as this program crushedit takes.
- The most memory that each program had at one time, in MiB. The script doesn't measure the memory of `wc`. The memory
  is measured in one more run, with GNU `time`.

With --operators, the script divides the calls of each job among N operators, for each given N. There are two runs of
crushedit: in the first run, the scripts of the operators run at the same time, and in the second run (`in turn`), they
run one after the other, with the option --in-turn. At the end of the line, the script prints how many calls per second
each of the two runs makes. The time of a run includes the time to read and to print the map.

If a run takes longer than the limit, or if crushtool or GNU `time` isn't installed, the line has a `-` in place of the
number. The status is 1 if a program fails.
"""

import argparse
import os
import shutil
import subprocess
import tempfile
import time
from itertools import product

from make_job import map_text, script


def seconds(commands, limit):
    """Returns how many seconds the commands take together, or None if a command takes longer than the limit.

    Each command comes with the path of the file that is its standard input.
    """
    start = time.perf_counter()
    for words, path in commands:
        with open(path, "rb") as stdin:
            try:
                subprocess.run(words, stdin=stdin, stdout=subprocess.DEVNULL, check=True, timeout=limit)
            except subprocess.TimeoutExpired:
                return None
    return time.perf_counter() - start


def least(contenders, limit, repeat):
    """Returns the shortest time of each contender, or None for a contender that takes longer than the limit.

    A contender is a program, with one or more commands. The contenders run alternately. After a contender has taken
    longer than the limit, it isn't run again.
    """
    times = {name: [] for name in contenders}
    for _ in range(repeat):
        for name, commands in contenders.items():
            if None not in times[name]:
                times[name].append(seconds(commands, limit))
    return {name: None if None in taken else min(taken) for name, taken in times.items()}


def memory(commands):
    """Returns the most memory that one of the commands has at one time, in MiB, or None if GNU time isn't installed.

    GNU time starts the commands. If Python started them, the number that the system reports would include the memory
    that Python has when it starts a process, and this is more than a small job needs.
    """
    teller = shutil.which("time")
    if teller is None:
        return None
    most = 0
    for words, path in commands:
        with open(path, "rb") as stdin, tempfile.NamedTemporaryFile("r") as told:
            words = [teller, "-f", "%M", "-o", told.name, *words]
            subprocess.run(words, stdin=stdin, stdout=subprocess.DEVNULL, check=True)
            most = max(most, int(told.read()))
    return most / 1024


def shown(number, decimals):
    """Returns a number with so many decimals, or `-` if there is no number."""
    return "-" if number is None else f"{number:.{decimals}f}"


def ratio(ours, other):
    """Returns the quotient of two times, or None if one of them is missing."""
    return None if ours is None or other is None else ours / other


def row(folder, devices, calls, operators, options):
    """Measures all programs with one job, and returns the cells of the job's line."""
    text = map_text(devices, options.rules)
    files = {name: os.path.join(folder, name) for name in ["map.txt", "map.bin", "job"]}
    with open(files["map.txt"], "w") as out:
        out.write(text)
    with open(files["job"], "w") as out:
        out.write(text + script(devices, calls, operators))
    program = os.path.abspath(options.program)
    contenders = {"crushedit": [([program], files["job"])]}
    if options.operators:
        contenders["in turn"] = [([program, "--in-turn"], files["job"])]
    if options.beside:
        contenders["beside"] = [([os.path.abspath(options.beside)], files["job"])]
    if shutil.which("crushtool"):
        compiled = ["crushtool", "-c", files["map.txt"], "-o", files["map.bin"]]
        printed = ["crushtool", "-d", files["map.bin"]]
        contenders["crushtool"] = [(compiled, os.devnull), (printed, os.devnull)]
    contenders["wc"] = [(["wc"], files["job"])]
    times = least(contenders, options.limit, options.repeat)
    cells = [str(devices), str(calls)] + ([str(operators)] if options.operators else [])
    cells += [shown(times.get(name), 3) for name in names(options)]
    cells += [shown(ratio(times["crushedit"], times.get(name)), 2) for name in names(options)[1:]]
    for name in names(options)[:-1]:
        within = times.get(name) is not None
        cells.append(shown(memory(contenders[name]) if within else None, 1))
    if options.operators:
        cells += [shown(ratio(calls, times[name]), 0) for name in ["crushedit", "in turn"]]
    return cells


def names(options):
    """Returns the names of the programs, in the order of the columns."""
    in_turn = ["in turn"] if options.operators else []
    return ["crushedit"] + in_turn + (["beside"] if options.beside else []) + ["crushtool", "wc"]


def main():
    parser = argparse.ArgumentParser(description=__doc__.splitlines()[0])
    parser.add_argument("program")
    parser.add_argument("--beside", metavar="PROGRAM", help="another program that does the same jobs")
    parser.add_argument("--devices", type=int, nargs="+", default=[1000, 10000])
    parser.add_argument("--calls", type=int, nargs="+", default=[1, 1000, 10000])
    parser.add_argument("--operators", type=int, nargs="+", choices=range(1, 17), metavar="N",
                        help="how many operators share the calls, and --in-turn beside")
    parser.add_argument("--rules", action="store_true", help="maps with tunables and a rule")
    parser.add_argument("--repeat", type=int, default=3)
    parser.add_argument("--limit", type=float, default=300.0, help="seconds that a run may take")
    options = parser.parse_args()
    head = ["devices", "calls"] + (["operators"] if options.operators else []) + names(options)
    head += [f"/{name}" for name in names(options)[1:]]
    head += ["MiB"] + [f"{name} MiB" for name in names(options)[1:-1]]
    head += ["calls/s", "in turn/s"] if options.operators else []
    widths = [max(10, len(cell)) for cell in head]
    print(" ".join(f"{cell:>{width}}" for cell, width in zip(head, widths)))
    with tempfile.TemporaryDirectory() as folder:
        for devices, calls, operators in product(options.devices, options.calls, options.operators or [1]):
            cells = row(folder, devices, calls, operators, options)
            print(" ".join(f"{cell:>{width}}" for cell, width in zip(cells, widths)), flush=True)


if __name__ == "__main__":
    main()
