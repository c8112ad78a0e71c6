#!/usr/bin/env python3
"""Measures how long the prover takes for each crate, and writes these times into CONTRIBUTING.md.

    python3 tools/costs.py --watch LOG PROCESS
    python3 tools/costs.py LOG

With --watch, the script measures and writes the file LOG. PROCESS is the id of a process, such as the process of the
gate (`make check`). The script looks at all provers that this process has started, directly or through other
processes. It runs until the process ends, or until somebody ends the script. Each line of LOG has three words: the
name of a crate, then `proof`, `tests` or `edits`, and then the sum of the processor seconds that the provers took for
this. The word `edits` stands for the wrong bodies, which are deliberate errors that the prover must refuse.

The script looks at the provers once a second, so the last second of a prover can be missing from the sum. The script
writes LOG about every ten seconds, so LOG can lack the last seconds before the process ends.

Without --watch, the script reads LOG, and writes a table between the comments BEGIN and END of CONTRIBUTING.md. The
table has a row for each crate, and a row with the sums. Below them is a line with the longest chain of crates in which
each crate waits for the proof of the crate before it.

The script needs Linux (it reads /proc), Python 3, and the file crates.txt.
"""
import collections
import itertools
import os
import pathlib
import re
import sys
import time

CRATES = pathlib.Path(__file__).resolve().parent.parent / "crates.txt"
PAGE = pathlib.Path(__file__).resolve().parent.parent / "CONTRIBUTING.md"
# The comments of CONTRIBUTING.md between which the table is.
BEGIN, END = "<!-- made by tools/costs.py -->\n", "<!-- end -->\n"
# The columns of the table, and the second words of the lines of LOG.
WHATS = ("proof", "tests", "edits")
# The name of the prover's process.
PROVER = "rattle"
# The unit of the processor times in /proc: this many ticks are a second.
TICKS = os.sysconf("SC_CLK_TCK")


def processes():
    """Yields each process of the machine: its id, its parent's id, its processor seconds, and its command line.

    The processor seconds include those of child processes that have ended. The command line is a list of words. It is
    empty (it has only an empty word) unless the process is a prover.
    """
    for folder in os.scandir("/proc"):
        if folder.name.isdigit():
            try:
                name, _, rest = pathlib.Path(folder.path, "stat").read_text().partition("(")[2].rpartition(")")
                stat = rest.split()
                words = pathlib.Path(folder.path, "cmdline").read_bytes().decode(errors="replace") if name == PROVER else ""
            except OSError:
                continue
            yield int(folder.name), int(stat[1]), sum(map(int, stat[11:15])) / TICKS, words.split("\0")


def what_of(words):
    """Returns the crate that a prover works on, and one of `proof`, `tests` and `edits`.

    Returns None if the command line of the process names no crate.
    """
    if "--crate-name" not in words:
        return None
    crate = words[words.index("--crate-name") + 1]
    is_edit = words[1] == "check" and "-o" not in words  # with -o the prover builds a program, which counts as proof
    return crate, "tests" if "--test" in words else "edits" if is_edit else "proof"


def look(root, spent):
    """Stores in `spent` the processor seconds of each prover below the process `root`.

    Returns whether the process `root` still runs.
    """
    there = {number: (parent, seconds, words) for number, parent, seconds, words in processes()}
    for number, (parent, seconds, words) in there.items():
        while parent in there and parent != root:
            parent = there[parent][0]
        what = parent == root and what_of(words)
        if what:
            spent[number, what] = seconds
    return root in there


def watch(root, log):
    """Measures until the process `root` has ended, and writes the log about every ten seconds."""
    log.parent.mkdir(exist_ok=True)
    spent, looks = {}, itertools.count()
    while look(root, spent):
        if next(looks) % 10 == 0:
            sums = collections.Counter()
            for (_, what), seconds in spent.items():
                sums[what] += seconds
            log.write_text("".join(f"{crate} {what} {round(sums[crate, what])}\n" for crate, what in sorted(sums)))
        time.sleep(1)


def longest_chain(sums):
    """Returns the processor seconds of the longest chain, and its crates, lowest first.

    In a chain, each crate depends on the crate before it, and waits for the proof of that crate.
    """
    lines = [line for line in CRATES.read_text().splitlines() if line and not line.startswith("#")]
    stands_on = {line.split(":")[0].strip(): line.split(":")[1].split() for line in lines}
    chains = {}

    def chain_to(crate):
        if crate not in chains:
            below = max((chain_to(it) for it in stands_on[crate] if it in stands_on), default=(0, []))
            chains[crate] = below[0] + sums[crate]["proof"], [*below[1], crate]
        return chains[crate]

    # The tests of a crate are proved at the same time as the crate. So the last crate of a chain counts with its proof
    # or with its tests, whichever takes longer.
    ends = {it: (chain_to(it)[0] - sums[it]["proof"] + max(sums[it]["proof"], sums[it]["tests"]), chain_to(it)[1]) for it in stands_on}
    return max(ends.values())


def table(log):
    """Returns the table for CONTRIBUTING.md, from the text of a log."""
    sums = collections.defaultdict(collections.Counter)
    for name, what, seconds in re.findall(r"(?m)^(crush\w*) (proof|tests|edits) (\d+)$", log):
        sums[name][what] += int(seconds)
    total = collections.Counter()
    for row in sums.values():
        total.update(row)
    rows = sorted(sums.items(), key=lambda row: -sum(row[1].values()))
    lines = [f"{'crate':<22}{'proof':>7}{'tests':>7}{'edits':>7}{'all':>7}"]
    for name, row in [*rows, ("all", total)]:
        lines.append(f"{name:<22}" + "".join(f"{row[what] or '':>7}" for what in WHATS) + f"{sum(row.values()):>7}")
    seconds, crates = longest_chain(sums)
    lines += ["", f"longest chain: {seconds}, {' '.join(crates)}"]
    return "```\n" + "".join(line + "\n" for line in lines) + "```\n"


def main():
    if sys.argv[1:2] == ["--watch"]:
        watch(int(sys.argv[3]), pathlib.Path(sys.argv[2]))
        return
    text = PAGE.read_text()
    begin, end = text.index(BEGIN) + len(BEGIN), text.index(END)
    PAGE.write_text(text[:begin] + table(pathlib.Path(sys.argv[1]).read_text()) + text[end:])


main()
