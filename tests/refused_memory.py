"""Runs crushedit on each job of examples/, and refuses the requests of crushedit for memory one by one.

    python3 tests/refused_memory.py crates/crushedit/out/crushedit [TESTS] [WORD ..]

The script compiles a C library and preloads it in each run. In one run, the library refuses the first request for
memory of the process, in the next run the second request, and so on. In the last run, the process makes fewer requests
than the number of the request to refuse, so none is refused. Each job is tested in two modes: without options, so that
its operators run at once, and with --in-turn. A run must end in one of two ways:

- The run ends with status 4, without output, and with the one line on standard error that is expected below.
- The run ends exactly as the same run without a refused request. If several operators run at once, the order of their
  calls may differ from run to run. Then the status, standard error, and the calls of each operator must be the same.

If the thread of one operator runs out of memory, the run waits until all other operators have finished. So each run
must end by itself, before it reaches a limit of `limited.py`. The program ends by a call of `_exit`. There the library
checks that no other thread is left.

The expected line on standard error is `no thread` if the refused request was for the start of a thread, and otherwise
`out of memory`. A request is for the start of a thread if the first thread of the process makes the request at one of
these times:

- in `pthread_create`;
- between the starts of the first and the last operator's thread;
- just before the start of the first operator's thread. The script assumes that there are as many such requests as
  between the starts of the first and the second operator's thread. If a job has one operator, this number isn't known,
  and the script accepts both lines for the requests before the start of the operator's thread.

In further runs, `pthread_create` fails for one thread of the job. These runs must end with status 4 and `no thread`.

After that, the script tests calls for which the map should allocate no memory. It counts the requests that the thread
of an operator makes for such calls. It also counts the requests for an equal number of calls of the same length that
are refused because a name is missing. The program copies and stores both kinds of calls in the same way, so the two
numbers must be equal.

TESTS is the path of the test program of the crate crush_run_tests. The path must contain a `/`. With TESTS, the script
runs two modules of this crate's tests:

- `run::gate_faults`: The script refuses each request and each start of a thread, as for the jobs. Each run of these
  tests must pass, however the job in the test ends. The tests check that a gate, a callback of the library, is called
  after each call of an operator, also after a call that runs out of memory.
- `editor::no_memory`: The tests of a pair make the same calls once and many times. These calls should allocate no
  memory, so the two tests must make the same number of requests.

If there are WORDs, only the jobs run whose names contain one of the words. As many runs are at work at a time as there
are processors. The script needs the /proc of Linux and a C compiler: the one that the variable CC names, or `cc`, or
`gcc`. It prints how many requests were refused. The status is 1 if a run ends in another way, if no request for memory
is made, or if two numbers of requests differ that must be equal.
"""

import concurrent.futures
import os
import pathlib
import re
import shutil
import subprocess
import sys
import tempfile

from limited import LimitReached, run_limited

EXAMPLES = pathlib.Path(__file__).resolve().parent.parent / "examples"
NO_MEMORY, NO_THREAD = b"crushedit: out of memory\n", b"crushedit: no thread\n"
OF_GATES, OF_NO_MEMORY = "run::gate_faults::", "editor::no_memory::"
PASSED, FAILED = b"test result: ok", b"assertion failed: "
# The number of a request that no run reaches: the library counts all requests, and refuses none.
MANY = 2**40
LIBRARY = r"""
#define _GNU_SOURCE
#include <dirent.h>
#include <dlfcn.h>
#include <errno.h>
#include <fcntl.h>
#include <pthread.h>
#include <stdatomic.h>
#include <stdio.h>
#include <stdlib.h>
#include <sys/syscall.h>
#include <unistd.h>

extern void *__libc_malloc(size_t size);
extern void *__libc_calloc(size_t count, size_t size);
extern void *__libc_realloc(void *block, size_t size);
extern void *__libc_memalign(size_t align, size_t size);

typedef int create(pthread_t *, const pthread_attr_t *, void *(*)(void *), void *);

static atomic_long asked;
static long refused, not_started;
static const char *told, *left, *counted, *starts;
static create *create_thread;
static pthread_t first;
/* These are about the first thread. `own` is how many requests it has made outside of `pthread_create`, and `started`
   is how often it has called `pthread_create`. before[i] is the value of `own` at the call number i, from 0.
   `is_starting` is 1 while the thread is in `pthread_create`. */
static long own, started, before[64];
static int is_starting;

static long number_of(const char *name) {
    const char *number = getenv(name);
    return number ? atol(number) : 0;
}

__attribute__((constructor)) static void begin(void) {
    told = getenv("REFUSED_FILE");
    left = getenv("LEFT_FILE");
    counted = getenv("COUNTED_FILE");
    starts = getenv("STARTS_FILE");
    create_thread = (create *)dlsym(RTLD_NEXT, "pthread_create");
    first = pthread_self();
    own = 0;
    atomic_store(&asked, 0);
    not_started = number_of("THREAD_NUMBER");
    refused = number_of("REFUSED_NUMBER");
}

static void tell(const char *name, const char *what, long one, long other) {
    int file = open(name, O_CREAT | O_TRUNC | O_WRONLY, 0600);
    dprintf(file, "%s %ld %ld", what, one, other);
    close(file);
}

static void tell_starts(void) {
    int file = open(starts, O_CREAT | O_TRUNC | O_WRONLY, 0600);
    for (long i = 0; i < started && i < 64; i++)
        dprintf(file, "%ld ", before[i]);
    close(file);
}

/* Runs if the program ends in another way than by `_exit`, as a program does that never starts threads. The library
   hasn't counted the threads then, so it writes `other` to the file of LEFT_FILE. */
__attribute__((destructor)) static void end(void) {
    tell(counted, "", atomic_load(&asked), 0);
    tell(left, "other", 0, 0);
}

static int threads(void) {
    int count = 0;
    DIR *tasks = opendir("/proc/self/task");
    if (tasks == NULL)
        return 1;
    for (struct dirent *task = readdir(tasks); task != NULL; task = readdir(tasks))
        count += task->d_name[0] != '.';
    closedir(tasks);
    return count;
}

/* Ends the process, as the C library's `_exit` does. Before that, writes how many requests there were, the values of
   `before`, and whether another thread is left. Waits up to a second for the other threads, because a joined thread
   may still exist for a moment. */
void _exit(int status) {
    refused = 0;
    tell(counted, "", atomic_load(&asked), 0);
    tell_starts();
    int wait = 0;
    while (threads() != 1 && wait++ < 1000)
        usleep(1000);
    if (threads() != 1)
        tell(left, "thread", 0, 0);
    syscall(SYS_exit_group, status);
    __builtin_unreachable();
}

/* Counts this request, and returns whether it is the one to be refused. If it is, writes to the file of REFUSED_FILE
   which thread made it. If `refused` is 0, doesn't count the request in `asked`. If `refused` is negative, refuses
   nothing, and counts only the requests of other threads than the first. */
static int is_refused(void) {
    int is_first = pthread_equal(pthread_self(), first);
    own += is_first && !is_starting;
    if (refused == 0 || (refused < 0 && is_first))
        return 0;
    if (atomic_fetch_add(&asked, 1) + 1 != refused)
        return 0;
    tell(told, !is_first ? "operator" : is_starting ? "start" : "first", own, started);
    errno = ENOMEM;
    return 1;
}

int pthread_create(pthread_t *thread, const pthread_attr_t *with, void *(*run)(void *), void *of) {
    if (started < 64)
        before[started] = own;
    if (++started == not_started) {
        tell(told, "start", own, started);
        return EAGAIN;
    }
    is_starting = 1;
    int status = create_thread(thread, with, run, of);
    is_starting = 0;
    return status;
}

void *malloc(size_t size) { return is_refused() ? NULL : __libc_malloc(size); }
void *calloc(size_t count, size_t size) { return is_refused() ? NULL : __libc_calloc(count, size); }
void *realloc(void *block, size_t size) { return is_refused() ? NULL : __libc_realloc(block, size); }
void *memalign(size_t align, size_t size) { return is_refused() ? NULL : __libc_memalign(align, size); }
void *aligned_alloc(size_t align, size_t size) { return memalign(align, size); }
int posix_memalign(void **block, size_t align, size_t size) {
    void *found = is_refused() ? NULL : __libc_memalign(align, size);
    if (found == NULL)
        return ENOMEM;
    *block = found;
    return 0;
}
"""


def built_library(folder):
    """Compiles the library, and returns its path."""
    source, library = folder / "refuse.c", folder / "refuse.so"
    source.write_text(LIBRARY)
    compiler = os.environ.get("CC") or ("cc" if shutil.which("cc") else "gcc")
    subprocess.run([compiler, "-O1", "-shared", "-fPIC", "-o", library, source], check=True)
    return library


def calls_of_each(out):
    """Returns the calls of each operator in their order, without the replies.

    The replies and the map are left out because they depend on the order of the calls of all operators.
    """
    lines = re.findall(rb"(?m)^# \d+ (\S+) (.*) = ", out.partition(b"# end crush map\n")[2])
    return {operator: [call for name, call in lines if name == operator] for operator, _ in lines}


def is_same(run, whole, is_at_once):
    """Returns whether a run ended as the run `whole`, in which no request was refused."""
    if (run.returncode, run.stderr) != (whole.returncode, whole.stderr):
        return False
    return run.stdout == whole.stdout or (is_at_once and calls_of_each(run.stdout) == calls_of_each(whole.stdout))


class Ending(Exception):
    """Says how a run ended that should have ended in another way."""


def files_in(folder):
    """Returns the paths of the files that the library writes, by the names of their environment variables.

    REFUSED_FILE exists if a request was refused or the start of a thread failed, and says which kind it was. LEFT_FILE
    exists if a thread is left at the end, or if the program didn't end by `_exit`. COUNTED_FILE has the number of
    requests. STARTS_FILE has a number for each start of a thread: how many requests the first thread had made before
    this start, outside of `pthread_create`.
    """
    names = "REFUSED_FILE", "LEFT_FILE", "COUNTED_FILE", "STARTS_FILE"
    return {name: pathlib.Path(folder, name) for name in names}


def preloaded(command, library, files, job, number, thread=0):
    """Runs a command with the library, and returns how the run ended.

    The library refuses the request with the given number, from 1. If the number is 0 or -1, it refuses none. If the
    number is 0, it also counts none. If the number is -1, it counts only the requests of other threads than the first.
    The library makes the start of the thread with the number `thread` fail, from 1, or no start if `thread` is 0.
    """
    environment = {"LD_PRELOAD": library, "REFUSED_NUMBER": number, "THREAD_NUMBER": thread, **files}
    environment = {name: str(value) for name, value in environment.items()}
    return run_limited(command, input=job, capture_output=True, env=environment)


class Refuser:
    """Runs a command on a job many times, and refuses one request in each run. `folder` gets the library's files."""

    def __init__(self, command, library, folder, name, job=b"", is_at_once=False):
        self.command, self.library, self.name, self.job, self.is_at_once = command, library, name, job, is_at_once
        self.files = files_in(folder)
        self.told, self.left, _, self.starts = self.files.values()
        self.whole, _ = self.run(0)
        self.before = [int(number) for number in self.starts.read_text().split()]

    def run(self, number, thread=0):
        """Runs the command once. Refuses the request with this number, or makes the start of this thread fail.

        The numbers begin with 1, and 0 means that no request is refused or no start fails. Returns how the run ended,
        and the words of REFUSED_FILE. The second value is None if no request was refused and no start failed.
        """
        self.told.unlink(missing_ok=True)
        try:
            run = preloaded(self.command, self.library, self.files, self.job, number, thread)
        except LimitReached as limit:
            raise Ending(f"{self.name}: request {number}, thread {thread}: {limit}") from None
        return run, self.told.read_text().split() if self.told.exists() else None

    def lines(self, told):
        """Returns the lines that standard error may have after this request was refused.

        `told` has the words of REFUSED_FILE: the kind of the request (`operator` if another thread than the first made
        it, `start` if it was in `pthread_create` or if `pthread_create` failed, otherwise `first`), and the values of
        `own` and `started` in the library.

        If at least two threads are started, the first thread makes before[1] - before[0] requests for the second of
        them before it starts this thread. It makes as many requests for the first of them. If only one thread is
        started, this number isn't known.
        """
        who, own, started = told[0], int(told[1]), int(told[2])
        if who == "operator" or who == "first" and started == len(self.before):
            return [NO_MEMORY]
        if who == "start" or started > 0:
            return [NO_THREAD]
        if len(self.before) == 1:
            return [NO_MEMORY, NO_THREAD]
        is_for_thread = own > 2 * self.before[0] - self.before[1]
        return [NO_THREAD if is_for_thread else NO_MEMORY]

    def wants(self, run, told, what):
        """Returns True if a run with a refused request or start ended with status 4 and an expected line.

        Returns False if the run ended as the run without a refusal. Raises Ending if the run ended in another way, or
        if a thread is left.
        """
        if self.left.exists():
            raise Ending(f"{self.name}: {what}: a thread is left")
        if run.returncode == 4 and not run.stdout and run.stderr in self.lines(told):
            return True
        if not is_same(run, self.whole, self.is_at_once):
            raise Ending(f"{self.name}: {what}, of {' '.join(told)}: status {run.returncode}, "
                         f"{len(run.stdout)} bytes written, {run.stderr!r}")
        return False

    def refuse_each(self):
        """Refuses each request and each start of a thread in a run of its own.

        Returns how many requests were refused, how many of these runs ended with status 4, and how many threads
        weren't started. All runs in which a thread isn't started must end with status 4.
        """
        number = wanting = 0
        while True:
            run, told = self.run(number + 1)
            if told is None:
                break
            number += 1
            wanting += self.wants(run, told, f"request {number} refused")
        if number == 0:
            raise Ending(f"{self.name}: no request was refused")
        for thread in range(1, len(self.before) + 1):
            run, told = self.run(0, thread)
            if not self.wants(run, told, f"thread {thread} not started"):
                raise Ending(f"{self.name}: thread {thread} not started: the run is the whole")
        return number, wanting, len(self.before)


class TestRefuser(Refuser):
    """Does the same as Refuser, but runs a test and not a job. The test must pass in each run."""

    def wants(self, run, told, what):
        """Returns True if the test passed and no thread is left. Otherwise raises Ending."""
        if run.returncode == 0 and run.stdout.strip() == PASSED and not self.left.exists():
            return True
        how = "" if run.stderr.startswith(FAILED) else "no assertion failed, "
        raise Ending(f"{self.name}: {what}, of {' '.join(told)}: {how}status {run.returncode}, {run.stdout!r}, "
                     f"{run.stderr!r}, {'a thread is left' if self.left.exists() else 'no thread is left'}")


def refuse_each(program, library, job, flags):
    """Refuses each request of a job that runs with these options, and returns the counts of `Refuser.refuse_each`."""
    name, text = " ".join([job.name, *flags]), job.read_bytes()
    with tempfile.TemporaryDirectory() as folder:
        is_at_once = text.count(b"\n%operator") > 1 and not flags
        return Refuser([program, *flags], library, folder, name, text, is_at_once).refuse_each()


def refuse_each_of_test(tests, library, name):
    """Refuses each request of a test, and returns the counts of `Refuser.refuse_each`."""
    with tempfile.TemporaryDirectory() as folder:
        return TestRefuser([tests, name], library, folder, name).refuse_each()


def tests_of(tests, module):
    """Returns the names of the tests of a module in a test program. Raises Ending if there are none."""
    listed = run_limited([tests, "--list"], capture_output=True, check=True).stdout.decode()
    names = re.findall(rf"(?m)^({module}\w+): test$", listed)
    if not names:
        raise Ending(f"{tests}: no test is called {module}NAME")
    return names


def count_of_test(tests, library, name):
    """Returns how many requests for memory a test makes. Raises Ending if the test doesn't pass."""
    with tempfile.TemporaryDirectory() as folder:
        files = files_in(folder)
        run = preloaded([tests, name], library, files, b"", MANY)
        if run.returncode or run.stdout.strip() != PASSED:
            raise Ending(f"{name}: status {run.returncode}, {run.stdout!r}, {run.stderr!r}")
        return int(files["COUNTED_FILE"].read_text().split()[0])


def look_often(tests, library):
    """Runs the pairs of tests that make the same calls once and many times, and returns how many pairs there are.

    Raises Ending if the two tests of a pair don't make the same number of requests, or make none.
    """
    names = [name for name in tests_of(tests, OF_NO_MEMORY) if name.endswith("_once")]
    for name in names:
        once = count_of_test(tests, library, name)
        often = count_of_test(tests, library, name.removesuffix("_once") + "_often")
        if once != often or once == 0:
            raise Ending(f"{name}: {once} requests for memory, and {often} where the calls are made often")
    return len(names)


# A map with a root that holds hosts with one device each. The map also has as many empty hosts, which are in no root.
NUMBERS = range(10, 18)
MAP = "\n".join([
    *(f"device {number} osd.{number} class ssd" for number in NUMBERS),
    "type 0 osd", "type 1 host", "type 11 root",
    *(f"host h{number} {{ id -{number} alg straw2 item osd.{number} weight 1.0 }}" for number in NUMBERS),
    *(f"host e{number} {{ id -{10 + number} alg straw2 }}" for number in NUMBERS),
    "root default { id -1 alg straw2 " + " ".join(f"item h{number} weight 1.0" for number in NUMBERS) + " }",
])
CHANGED, SAME = "done changed 1 made 0", "done changed 0 made 0"
# Calls for which the map should allocate no memory. Each has its reply, and a call of the same length that is refused
# because the map lacks one of the call's names. N stands for each of NUMBERS, and M for N + 60.
NO_MEMORY_TAKEN = [
    ("reweight osd.N 2.0", CHANGED, "reweight osd.M 2.0"),
    ("reweight osd.N 1.0", SAME, "reweight osd.M 1.0"),
    ("reweight-subtree hN 2.0", CHANGED, "reweight-subtree hM 2.0"),
    ("swap-bucket hN eN", CHANGED, "swap-bucket hM eM"),
    ("swap-bucket hN hN", "refused Nested 22", "swap-bucket hM hM"),
    ("rm osd.N", CHANGED, "rm osd.M"),
    ("rm eN", CHANGED, "rm eM"),
    ("rm hN", "refused NotEmpty 39", "rm hM"),
    ("rm-device-class osd.N", CHANGED, "rm-device-class osd.M"),
    ("set osd.N 2.0 host=hN", CHANGED, "set osd.N 2.0 hose=hN"),
    ("create-or-move osd.N 5.0 host=hN", SAME, "create-or-move osd.N 5.0 hose=hN"),
]
# Moves of a device between two hosts. After the first two moves, both hosts have room for the device, since it was in
# both.
TO, FRO = "move osd.10 host=h11", "move osd.10 host=h10"
TO_AND_FRO = ([TO, FRO], [TO, FRO] * 3, CHANGED, [TO.replace("host", "hose")] * 6)


class Counter:
    """Counts the requests for memory of an operator's calls. `folder` gets the library's files."""

    def __init__(self, program, library, folder):
        self.command, self.library, self.files = [program], library, files_in(folder)

    def count(self, before, calls, reply):
        """Runs a job with the calls `before` and then `calls`, and returns how many requests the operator's thread
        makes.

        Raises Ending if the reply to one of `calls` doesn't begin with `reply`.
        """
        job = "\n".join([MAP, "%operator a", *before, *calls, ""]).encode()
        run = preloaded(self.command, self.library, self.files, job, -1)
        replies = [line.partition(" = ")[2] for line in run.stdout.decode().splitlines() if " = " in line]
        asked = [told for told in replies[len(before):] if told.startswith(reply)]
        if run.returncode or len(asked) != len(calls) or len(replies) != len(before) + len(calls):
            raise Ending(f"{calls}: status {run.returncode}, {replies}")
        return int(self.files["COUNTED_FILE"].read_text().split()[0])


def take_none(program, library):
    """Tests the calls for which the map should allocate no memory, and returns how many kinds of them there are.

    Raises Ending if one of these kinds makes another number of requests than the refused calls of the same length, or
    makes none.
    """
    kinds = [
        ([], [line.replace("N", str(number)) for number in NUMBERS], reply,
         [beside.replace("N", str(number)).replace("M", str(60 + number)) for number in NUMBERS])
        for line, reply, beside in NO_MEMORY_TAKEN
    ]
    with tempfile.TemporaryDirectory() as folder:
        counter = Counter(program, library, folder)
        for before, calls, reply, beside in [*kinds, TO_AND_FRO]:
            made, refused = counter.count(before, calls, reply), counter.count(before, beside, "refused NoSuch")
            if made != refused or made == 0:
                raise Ending(f"{calls}: {made} requests for memory, and {refused} where they are refused")
    return len(kinds) + 1


def summed(cases):
    """Returns the sums of the counts of all cases."""
    return [sum(column) for column in zip(*(case.result() for case in cases))]


def refuse_all(pool, program, library, jobs, tests):
    """Refuses the requests of the jobs, at once and with --in-turn, and of the tests of gates. Prints the sums."""
    modes = {
        mode: [pool.submit(refuse_each, program, library, job, flags) for job in jobs]
        for mode, flags in (("at once", []), ("in turn", ["--in-turn"]))
    }
    names = tests_of(tests, OF_GATES) if tests else []
    of_gates = [pool.submit(refuse_each_of_test, tests, library, name) for name in names]
    for mode, cases in modes.items():
        refused, wanting, threads = summed(cases)
        print(f"{len(jobs)} jobs {mode}: {refused} requests refused; {wanting} runs ended with status 4, "
              f"{refused - wanting} as without a refusal; {threads} threads not started", flush=True)
    if of_gates:
        refused, _, threads = summed(of_gates)
        print(f"{len(of_gates)} tests of gates: {refused} requests refused, {threads} threads not started; each run "
              "passed", flush=True)


def main():
    program, words = os.path.abspath(sys.argv[1]), sys.argv[2:]
    tests = next((os.path.abspath(word) for word in words if "/" in word), "")
    words = [word for word in words if "/" not in word]
    jobs = [job for job in EXAMPLES.rglob("*.job") if not words or any(word in job.stem for word in words)]
    jobs.sort(key=lambda job: job.stat().st_size, reverse=True)
    with tempfile.TemporaryDirectory() as folder, concurrent.futures.ThreadPoolExecutor(os.cpu_count()) as pool:
        library = built_library(pathlib.Path(folder))
        try:
            refuse_all(pool, program, library, jobs, tests)
            print(f"{take_none(program, library)} kinds of call that take no memory of a map: none asks for any")
            if tests:
                print(f"{look_often(tests, library)} pairs of tests: 1,000 looks, and 16 closes, ask for no more "
                      "memory than one")
        except (Ending, LimitReached) as ending:
            pool.shutdown(cancel_futures=True)
            sys.exit(str(ending))


if __name__ == "__main__":
    main()
