"""Runs commands with limits of processor time and of elapsed time, for the scripts of this folder.

A test must not fail because the machine is busy with other work. So the limit that ends a command which runs for too
long is a limit of processor time: other work doesn't count for it. The limit of elapsed time is much longer. It only
ends commands that hang, that is, commands that wait and use no processor time.

recipe_test.py imports this module, and can also run on a host where the program is installed. Such a host may have an
old Python, so the module needs only Python 3.6.
"""

import resource
import signal
import subprocess

# The processor time that each process of a command may take, and the elapsed time that the command may take, both in
# seconds. A command of the tests takes far less.
PROCESSOR, ELAPSED = 120, 900


class LimitReached(SystemExit):
    """Says which command a limit has ended, and which limit it was.

    A script that doesn't catch this exception prints this text on standard error, and ends with status 1."""


def set_limits(limits):
    """Sets soft limits of the process that calls the function. `limits` maps the kind of each limit, such as
    RLIMIT_STACK, to its value. If the hard limit is less than this value, the soft limit becomes the hard limit."""
    for kind, wanted in limits.items():
        _, most = resource.getrlimit(kind)
        resource.setrlimit(kind, (wanted if most == resource.RLIM_INFINITY else min(wanted, most), most))


def run_limited(words, limits=None, check=False, **how):
    """Runs a command as `subprocess.run` does, with the limits PROCESSOR and ELAPSED, and returns how it ended.

    `limits` has further limits for `set_limits`, and `how` has further arguments of `subprocess.run`. Raises
    LimitReached if the command ends because it, or a process that a shell has started for it, has taken PROCESSOR
    seconds of processor time. Also raises LimitReached if the command hasn't ended after ELAPSED seconds."""
    command = " ".join(map(str, words))
    # The limit of processor time is set first: under a small limit of address space, Python might be out of memory.
    kinds = {resource.RLIMIT_CPU: PROCESSOR, **(limits or {})}
    try:
        run = subprocess.run(words, preexec_fn=lambda: set_limits(kinds), timeout=ELAPSED, **how)
    except subprocess.TimeoutExpired:
        raise LimitReached("{}: had not ended after {} seconds of elapsed time".format(command, ELAPSED)) from None
    # A shell ends with the status 128 + N if the signal N has ended the last process that it has started.
    if run.returncode in (-signal.SIGXCPU, 128 + signal.SIGXCPU):
        raise LimitReached("{}: took more than {} seconds of processor time".format(command, PROCESSOR))
    if check:
        run.check_returncode()
    return run
