"""Runs the scripts of sixteen operators at once with crushedit, and compares the result with the plain model.

    python3 tests/at_once.py crates/crushedit/out/crushedit [JOBS [SEED]]
    python3 tests/at_once.py --model [JOBS [SEED]]

A *job* is the text of a map, followed by the scripts of operators. A *call* is a command, or a batch of commands.
Each script runs in a thread of its own, so the order of the calls may differ from run to run. The program prints the
map, and then the *history*, which has a line for each call with its reply. The *plain model* of model.py, a second
implementation in Python, makes the calls one after the other, in the order of this history. Without JOBS, the test
runs 1,000 jobs. Without SEED, the test draws a random seed.

The history lines of each operator must be exactly the calls of the operator's script, in the order of the script.
Each reply must be the reply of the model at this point of the history. The printed map must be the map of the model
after all calls.

Usually, one thread makes nearly all its calls before the next thread begins. So the test loads a small library into
the program (LD_PRELOAD). In this library, the functions `malloc` and `syscall` let another thread run. The lock of
the program uses `syscall`. To compile the library, the test needs a C compiler: the one that the environment variable
CC names, or `cc`, or `gcc`. Without a compiler, the test runs without the library, and says so.

A *switch* is a history line that comes after a line of another operator. The first line of each operator doesn't
count as a switch. The test prints how many jobs agree, and the number of switches per history line. The status is 1
if a job doesn't agree with the model, or if a run fails. The status is also 1 if the test uses the library, and fewer
than one in FEWEST lines of all jobs is a switch. The calls have then hardly mixed, so the test has tested too little.

With --model, the test tests itself, without the program. The model makes the calls of each job. It mixes the calls of
the operators in a random order, but the calls of each operator keep their order. The test must accept the output of
the model. The test must reject copies of this output in which a reply, a call or the map is changed, or the last line
is missing.
"""

import os
import pathlib
import random
import shutil
import subprocess
import sys
import tempfile

from chance import call_lines, random_call, random_map
from looking import body, history_of
from model import is_change, run_call

OPERATORS = [f"op{number}" for number in range(16)]
MOST_CALLS = 100
FEWEST = 20
LIBRARY = r"""
#define _GNU_SOURCE
#include <dlfcn.h>
#include <sched.h>
#include <stddef.h>

extern void *__libc_malloc(size_t size);

void *malloc(size_t size) {
    sched_yield();
    return __libc_malloc(size);
}

/* As many words as a system call may have. */
long syscall(long number, long a, long b, long c, long d, long e, long f) {
    static long (*next)(long, ...);
    if (next == NULL)
        next = (long (*)(long, ...))dlsym(RTLD_NEXT, "syscall");
    sched_yield();
    long result = next(number, a, b, c, d, e, f);
    sched_yield();
    return result;
}
"""
END = "# end crush map\n"


def random_scripts(dice):
    """Returns a random map, and random calls for each operator. The calls name items of the map, and other items."""
    map = random_map(dice)
    calls = {name: dice.randint(0, MOST_CALLS) for name in OPERATORS}
    return map, {name: [random_call(dice, map) for _ in range(count)] for name, count in calls.items()}


def job_text(dice, map, scripts):
    sections = [f"%operator {name}\n" + "".join(call_lines(dice, call) for call in calls)
                for name, calls in scripts.items()]
    return map.text() + "".join(sections)


def parts(lines):
    """Yields the number, the operator, the call and the reply of each history line."""
    for line in lines:
        front, _, reply = line.partition(" = ")
        yield (*(front.split(" ", 3) + [""] * 4)[1:4], reply)


def fault_of(map, scripts, printed, words=(), since=None):
    """Returns what is wrong with the output of a run with these options, or None. `map` is the map before the calls,
    and `since` is the map of `--since`."""
    read, left, changes, made = map, {name: list(calls) for name, calls in scripts.items()}, 0, []
    text, history = history_of(printed, sum(len(calls) for calls in left.values()))
    for place, (number, operator, call, reply) in enumerate(parts(history), 1):
        if number != str(place) or not left.get(operator):
            return f"line {place} is of no call that an operator has left"
        made.append([left[operator].pop(0)])
        map, line = run_call(map, made[-1][0], changes)
        made[-1].append(line)
        changes += is_change(line)
        due, _, answer = line.partition(" = ")
        if call != due:
            return f"line {place} isn't the next call of {operator}: {due}"
        if reply != answer:
            return f"line {place} has another reply than the model: {answer}"
    if any(left.values()):
        return f"calls are missing: {[name for name in left if left[name]]}"
    due = body(words, since, read, map, made)
    return None if text == due else f"before the history stands something else than the model's:\n{due}"


def made_by(scripts, history):
    """Returns a pair for each line of a correct history: the call of the line, and the line."""
    left = {name: list(calls) for name, calls in scripts.items()}
    return [(left[line.split(" ")[2]].pop(0), line + "\n") for line in history]


def switches(printed):
    """Returns how many history lines there are, and how many of them are switches. The first line of each operator
    doesn't count as a switch, because this line would come after a line of another operator even if the scripts ran
    one after the other."""
    operators = [operator for _, operator, _, _ in parts(printed.partition(END)[2].splitlines())]
    begins = sum(name != before for before, name in zip([None, *operators], operators))
    return len(operators), begins - len(set(operators))


def yielding(folder):
    """Compiles the library. Returns the environment variable that loads the library into the program, or an empty
    dictionary if there is no compiler."""
    compiler = os.environ.get("CC") or shutil.which("cc") or shutil.which("gcc")
    if not compiler:
        return {}
    source, library = pathlib.Path(folder, "yield.c"), pathlib.Path(folder, "yield.so")
    source.write_text(LIBRARY)
    subprocess.run([compiler, "-O1", "-shared", "-fPIC", "-o", library, source, "-ldl"], check=True)
    return {"LD_PRELOAD": str(library)}


def by_program(program, job, environment):
    run = subprocess.run([program], input=job.encode(), capture_output=True, env={**os.environ, **environment})
    if run.returncode != 0:
        sys.exit(f"{job}\n--- status {run.returncode}\n{run.stderr.decode()}")
    return run.stdout.decode()


def by_model(dice, map, scripts):
    """Returns what the model prints if the calls of the operators mix in a random order. The calls of each operator
    keep their order."""
    order = [name for name, calls in scripts.items() for _ in calls]
    dice.shuffle(order)
    left = {name: list(calls) for name, calls in scripts.items()}
    lines, changes = [], 0
    for number, name in enumerate(order, 1):
        map, line = run_call(map, left[name].pop(0), changes)
        changes += is_change(line)
        lines.append(f"# {number} {name} {line}\n")
    return map.text() + "".join(lines)


def wrong_outputs(dice, printed):
    """Yields copies of a right output that are wrong: with another reply, with another call, without the last line,
    and with another text of the map."""
    text, history = printed.split(END)
    lines = history.splitlines()
    if lines:
        place = dice.randrange(len(lines))
        front, _, reply = lines[place].partition(" = ")
        invented = "refused Loop 40" if reply != "refused Loop 40" else "done changed 0 made 0"
        for line in (f"{front} = {invented}", f"{front}x = {reply}"):
            yield text + END + "\n".join(lines[:place] + [line] + lines[place + 1 :]) + "\n"
        yield text + END + "\n".join(lines[:-1]) + "\n"
    yield text + "\n" + END + history


def try_jobs(program, count, seed, environment):
    """Tests the jobs. Returns how many history lines all jobs have, and how many of these lines are switches."""
    lines = crossings = 0
    for index in range(count):
        dice = random.Random(f"{seed} {index}")
        map, scripts = random_scripts(dice)
        job = job_text(dice, map, scripts)
        by_dice = program == "--model"
        printed = by_model(dice, map, scripts) if by_dice else by_program(program, job, environment)
        fault = fault_of(map, scripts, printed)
        if fault:
            sys.exit(f"{job}\n--- printed\n{printed}\n--- job {index} of seed {seed}: {fault}")
        if by_dice:
            assert all(fault_of(map, scripts, wrong) for wrong in wrong_outputs(dice, printed))
        told, crossed = switches(printed)
        lines, crossings = lines + told, crossings + crossed
    return lines, crossings


def main():
    program, numbers = sys.argv[1], [int(word) for word in sys.argv[2:]]
    count = numbers[0] if numbers else 1000
    seed = numbers[1] if len(numbers) > 1 else random.randrange(2**32)
    with tempfile.TemporaryDirectory() as folder:
        environment = yielding(folder)
        lines, crossings = try_jobs(program, count, seed, environment)
    print(f"{count} jobs of seed {seed} agree; {crossings / max(lines, 1):.3f} switches a line"
          + ("" if environment else ", without a C compiler and so without yielding"))
    if environment and crossings * FEWEST < lines:
        sys.exit("operators hardly met")


if __name__ == "__main__":
    main()
