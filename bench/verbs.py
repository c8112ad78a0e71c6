"""Measures how long verbs take, compared with command lines without a verb that do the same.

    python3 bench/verbs.py crates/crushedit/out/crushedit [--repeat 5] [--limit 120]

A *verb* is the first word of a command line, such as `diff` or `apply`. A change is *lost* if one script makes the
change and another script undoes it. The script also measures how long `apply` takes to look for lost changes.

For each map, the script prints a line with processor seconds. Each time is the shortest time of all repeats:

- `since`: `--explain --since` prints what differs between the map and the map that two scripts have changed
- `diff`: the verb `diff` does the same
- `plain`: `--explain --since` prints what differs between the map and the result of a job, which has the map and the
  two scripts
- `dry run`: `apply --dry-run --last-wins` does the same, and doesn't look for lost changes
- `apply`: `apply` applies the two scripts to the map, and looks for lost changes
- `last wins`: `apply --last-wins` applies the two scripts to the map, and doesn't look for lost changes

The last column has the time of `apply`, divided by the time of `apply --last-wins`. A `-` means that a run took longer
than the limit. Each of the two scripts sets the weights of a thousand devices. No device is in both scripts, so no
change is lost. A verb always explains errors and refusals, so the command lines without a verb have the option
--explain. A verb parses each map once, and so does a command line without a verb.

The status is 1 in these cases:

- A run takes longer than the limit.
- `diff` takes more than one and a quarter times as long as `since`.
- `dry run` takes more than one and a quarter times as long as `plain`.
- `apply` takes more than three times as long as `last wins`.
"""

import argparse
import os
import subprocess
import sys
import tempfile

from figures import least
from two_maps import grouped, nest

# The number of commands of a script.
EDITS = 1000
# The names of the maps, with functions that make the maps.
MAPS = [("60,000 devices in 3,000 hosts", lambda: grouped("", 0)), ("a nest of 4,095 buckets", lambda: nest(1))]


def script(first):
    """Returns a script that sets the weights of a thousand devices, from the device `osd.first` on."""
    return "".join(f"reweight osd.{number} 1.{number % 7 + 1}\n" for number in range(first, first + EDITS))


def write(name, text):
    with open(name, "w") as out:
        out.write(text)


def main():
    parser = argparse.ArgumentParser(description=__doc__.splitlines()[0])
    parser.add_argument("program")
    parser.add_argument("--repeat", type=int, default=5)
    parser.add_argument("--limit", type=int, default=120, help="processor seconds that a run may take")
    options = parser.parse_args()
    program, is_slow = os.path.abspath(options.program), False
    columns = ["since", "diff", "plain", "dry run", "apply", "last wins"]
    print(f"{'map':<32}" + "".join(f"{column:>11}" for column in columns) + f"{'apply/last wins':>17}")
    with tempfile.TemporaryDirectory() as folder:
        os.chdir(folder)
        for name, lines in MAPS:
            text = "\n".join(lines()) + "\n# end crush map\n"
            write("map", text)
            write("alice", script(0))
            write("bob", script(EDITS))
            write("job", f"{text}%operator alice\n{script(0)}%operator bob\n{script(EDITS)}")
            with open("new", "w") as new:
                subprocess.run([program, "--no-history", "job"], stdout=new, check=True)
            times = [
                least([program, *words], os.devnull, options)
                for words in (
                    ["--explain", "--since", "map", "new"], ["diff", "map", "new"], ["--explain", "--since", "map", "job"],
                    ["apply", "--dry-run", "--last-wins", "map", "alice", "bob"], ["apply", "map", "alice", "bob"],
                    ["apply", "--last-wins", "map", "alice", "bob"],
                )
            ]
            print(f"{name:<32}" + "".join(f"{'-' if time is None else f'{time:.3f}':>11}" for time in times), end="")
            since, diff, plain, dry, looking, last = times
            print(f"{'-' if None in times else f'{looking / last:.2f}':>17}", flush=True)
            is_slow |= None in times or diff > 1.25 * since or dry > 1.25 * plain or looking > 3 * last
    sys.exit(is_slow)


if __name__ == "__main__":
    main()
