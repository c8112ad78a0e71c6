"""Runs crushedit with little address space and with little stack, and prints how each run ends.

    python3 tests/limits.py crates/crushedit/out/crushedit [--space FROM TO STEP] [--stack FROM TO STEP]
    python3 tests/limits.py crates/crushedit/out/crushedit --fits 1024

The script starts crushedit with the limits FROM, FROM + STEP, and so on, up to TO. `--space` is for the address space,
and `--stack` is for the stack. The numbers are in kB (1,024 bytes), as `ulimit -v` and `ulimit -s` take them. A run
can end with status 0, with another status and a line on standard error, or by a signal. It can also end in the loader
(status 127), before the program begins. For each job, the script prints one line for each range of limits in which the
runs end in the same way. If such a run has written something, but doesn't end with status 0, the line also says how
many bytes the run has written. Without `--fits`, the status of the script is 0, however the runs end. The runs have
three parts:

1. Jobs with little address space, and the same jobs with little stack. The first job edits a map of three devices. The
   second job edits the device in the innermost of 4,096 nested buckets. The third job has two operators. Each job runs
   with and without `--in-turn`. `--jobs` selects some of these jobs.
2. Edits at the bottom of 4,094 nested buckets, with little stack. The innermost of these buckets holds two more
   buckets. There are edits of all kinds except for `add-bucket`, `set-device-class` and `rm-device-class`. There are
   also three batches, of which crushedit rolls back two. `--edits` runs only this part.
3. Outputs for which crushedit visits all nested buckets, or compares them with another map, with little stack.
   `--forms` runs only this part.

With `--fits KB`, as in the gate, the script only checks the edits of part 2, with a stack of KB kB. The script then
ends with status 1 if any of these runs doesn't end with status 0, or prints something on standard error.
"""

import argparse
import os
import pathlib
import resource
import sys
import tempfile

sys.path.append(str(pathlib.Path(__file__).resolve().parent.parent / "bench"))
from hostile import MOST_BUCKETS, OPERATOR, TYPES, bucket, nest  # noqa: E402
from limited import LimitReached, run_limited  # noqa: E402
from make_job import map_text, script  # noqa: E402

JOBS = {
    "small map": map_text(3) + script(3, 1),
    "nest of 4,096": "\n".join(nest() + [OPERATOR, "reweight osd.0 2.0"]) + "\n",
    "two operators": map_text(40) + script(40, 20, 2),
}
EDITS = [
    "reweight osd.0 2.0", "reweight-subtree left 3.0", "move osd.0 rack=right", "move left rack=right",
    "add osd.2 1.0 rack=left", "set osd.2 1.0 rack=left", "create-or-move osd.2 1.0 rack=left", "rm osd.0",
    "rename-bucket left x", "swap-bucket left right", "begin\nswap-bucket left right\nrm osd.0\ncommit",
    "begin\nreweight-subtree b1 3.0\nrm left\ncommit",
    "begin\nmove osd.0 rack=right\nadd osd.2 1.0 rack=left\nrm left\ncommit",
]

# Options for outputs for which crushedit visits all nested buckets. With `--since`, crushedit compares the map with
# the map in the file OTHER.
OTHER = "other"
FORMS = [
    ["--tree"], ["--tree", "--under", "b1"], ["--tree", "--down-to", "rack"], ["--since", OTHER], ["--tree", "--since", OTHER],
    ["--since", OTHER, "--by-name"], ["--json"], ["--json", "--since", OTHER],
]


def fork():
    """Returns the lines of a map with nested buckets, and with as many buckets as a map may have.

    The innermost of the nested buckets holds the buckets `left` and `right`. Each of these two holds one device."""
    lines = ["device 0 osd.0", "device 1 osd.1", *TYPES]
    lines += bucket("rack", "left", MOST_BUCKETS, [("osd.0", 1)])
    lines += bucket("rack", "right", MOST_BUCKETS - 1, [("osd.1", 1)])
    items = [("left", 1), ("right", 1)]
    for number in range(MOST_BUCKETS - 2, 0, -1):
        lines += bucket("rack", f"b{number}", number, items)
        items = [(f"b{number}", 2)]
    return lines


def ending(words, job, kind, limit):
    """Returns how a run with these words ends under a limit (in kB). The run starts in the folder of the job.

    `kind` is the kind of the limit, such as RLIMIT_STACK."""
    with open(job, "rb") as stdin:
        try:
            run = run_limited(words, {kind: limit * 1024}, stdin=stdin, capture_output=True, cwd=os.path.dirname(job))
        except LimitReached as reached:
            return str(reached)
        except OSError:
            return "isn't started"
    written = f", {len(run.stdout)} bytes written" if run.returncode and run.stdout else ""
    if run.returncode < 0:
        return f"signal {-run.returncode}{written}"
    told = run.stderr.decode(errors="replace").strip().splitlines()[-1:]
    return f"status {run.returncode}{written}" + (f", {told[0][-60:]}" if told else "")


def ranges(endings):
    """Yields the ranges of limits with the same ending: the first limit, the last limit and the ending of each
    range."""
    begin = last = shown = None
    for limit, how in endings:
        if how != shown:
            if shown is not None:
                yield begin, last, shown
            begin, shown = limit, how
        last = limit
    if shown is not None:
        yield begin, last, shown


def edits_at_the_foot():
    """Returns the name of each edit or batch of EDITS, and the job that makes it below the nested buckets."""
    return [(edit.replace("\n", "; "), "\n".join([*fork(), OPERATOR, edit]) + "\n") for edit in EDITS]


def misfits(program, folder, stack):
    """Yields a line for each run of an edit that doesn't end with status 0 and an empty standard error.

    `stack` is the stack of the runs in kB. Each edit has one run with and one run without `--in-turn`."""
    job = os.path.join(folder, "job")
    for name, text in edits_at_the_foot():
        with open(job, "w") as out:
            out.write(text)
        for flags in ([], ["--in-turn"]):
            how = ending([program, *flags], job, resource.RLIMIT_STACK, stack)
            if how != "status 0":
                yield f"{' '.join([name, *flags])}: {how}"


def endings_of(program, folder, name, text, forms, kinds):
    """Yields the lines to print for a job: how its runs end with each of the forms, under each kind of limit.

    `forms` are lists of options. For each kind of limit, `kinds` has its name in the output, its number for
    `setrlimit`, and the first limit, the last limit and the step."""
    job = os.path.join(folder, "job")
    with open(job, "w") as out:
        out.write(text)
    for flags in forms:
        for shown, kind, (first, last, step) in kinds:
            endings = ((limit, ending([program, *flags], job, kind, limit)) for limit in range(first, last + 1, step))
            for begin, end, how in ranges(endings):
                yield f"{name:34} {' '.join(flags):10} {shown} {begin:>6} to {end:>6}: {how}"


def main():
    parser = argparse.ArgumentParser(description=__doc__.splitlines()[0])
    parser.add_argument("program")
    parser.add_argument("--space", type=int, nargs=3, default=[2800, 14000, 10])
    parser.add_argument("--stack", type=int, nargs=3, default=[64, 4096, 32])
    parser.add_argument("--jobs", nargs="+", choices=list(JOBS), default=list(JOBS))
    parser.add_argument("--edits", action="store_true", help="only the edits at the foot of a nest")
    parser.add_argument("--forms", action="store_true", help="only the forms of output that look at a whole nest")
    parser.add_argument("--fits", type=int, metavar="KB", help="only whether each of these edits is made with so much stack")
    options = parser.parse_args()
    program = os.path.abspath(options.program)
    if options.fits is not None:
        with tempfile.TemporaryDirectory() as folder:
            found = list(misfits(program, folder, options.fits))
        print(*found or [f"{2 * len(EDITS)} edits at the foot of {MOST_BUCKETS} buckets fit {options.fits} kB of stack"], sep="\n")
        sys.exit(bool(found))
    space = "ulimit -v", resource.RLIMIT_AS, options.space
    stack = "ulimit -s", resource.RLIMIT_STACK, options.stack
    both = [[], ["--in-turn"]]
    runs = []
    if not options.edits and not options.forms:
        runs += [(name, JOBS[name], both, (space, stack)) for name in options.jobs]
    if not options.forms:
        runs += [(name, text, both, (stack,)) for name, text in edits_at_the_foot()]
    if not options.edits:
        edited = "\n".join([*fork(), OPERATOR, "reweight osd.0 2.0"]) + "\n"
        runs.append(("nest, edited", edited, [[*form, "--no-history"] for form in FORMS], (stack,)))
    with tempfile.TemporaryDirectory() as folder:
        with open(os.path.join(folder, OTHER), "w") as out:
            out.write("\n".join(fork()) + "\n")
        for run in runs:
            for line in endings_of(program, folder, *run):
                print(line, flush=True)


if __name__ == "__main__":
    main()
