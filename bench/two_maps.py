"""Measures how long crushedit takes with the options `--tree`, `--since` and `--to`, for pairs of maps.

    python3 bench/two_maps.py crates/crushedit/out/crushedit [--repeat 5] [--limit 120] [--only WORD ..]

`--tree` prints the first map as a tree. `--since` prints what differs between the two maps. `--to` finds the *plan*:
the commands that change the first map into the second map. For each pair, the script prints a line with these columns:

- the number of bytes of the first map
- for comparison, the processor seconds of the command `wc` for the first map
- the processor seconds with `--tree`, `--since` and `--to`. Each time is the shortest time of all repeats
- how many times as long as `--tree` the run with `--since` takes, and how many times as long as `--since` the run with
  `--to` takes

If a run takes longer than the limit, the line has a `-` in place of the number. The status is 1 in these cases:

- A run of crushedit takes longer than the limit.
- `--since` takes more than three times as long as `--tree`. (With `--since`, crushedit reads both maps, and with
  `--tree` only one.)
- `--to` takes more than four times as long as `--since`. For the pair of maps that have nothing in common, `--to` may
  take ten times as long, because the plan of this pair has 129,000 commands.
"""

import argparse
import os
import sys
import tempfile

from figures import least
from hostile import TYPES, bucket

# The numbers of devices, hosts and racks.
DEVICES, HOSTS, RACKS = 60000, 3000, 60
# The number of nested buckets.
DEPTH = 4095
# The number of rules, and the number of steps of a rule.
RULES, STEPS = 256, 64


def grouped(prefix, first_id, moved=False):
    """Returns the lines of a map of devices in hosts, which are in racks, which are in the root `default`.

    If `moved`, the first rack is in the root `other`, and otherwise this root is empty. The names of the buckets begin
    with `prefix`, and the ids of the devices begin at `first_id`.
    """
    lines, racks = list(TYPES), []
    devices = [f"osd.{first_id + number}" for number in range(DEVICES)]
    for rack in range(RACKS):
        hosts = []
        for host in range(rack * HOSTS // RACKS, (rack + 1) * HOSTS // RACKS):
            items = [(name, 1) for name in devices[host * DEVICES // HOSTS : (host + 1) * DEVICES // HOSTS]]
            lines += bucket("host", f"{prefix}host{host}", first_id + host + 101, items)
            hosts.append((f"{prefix}host{host}", len(items)))
        lines += bucket("rack", f"{prefix}rack{rack}", first_id + rack + 3, hosts)
        racks.append((f"{prefix}rack{rack}", DEVICES // RACKS))
    lines = [f"device {first_id + number} {name}" for number, name in enumerate(devices)] + lines
    lines += bucket("root", f"{prefix}other", first_id + 2, racks[:moved])
    return lines + bucket("root", f"{prefix}default", first_id + 1, racks[moved:])


def nest(last):
    """Returns the lines of a map of nested buckets. The innermost bucket holds all devices.

    The last device has the weight `last / 2`, and each other device has the weight 0.5.
    """
    weights = [1] * (DEVICES - 1) + [last]
    lines = [f"device {number} osd.{number}" for number in range(DEVICES)] + TYPES
    below, names = [(f"osd.{number}", weight / 2) for number, weight in enumerate(weights)], []
    for number in range(DEPTH, 0, -1):
        lines += bucket("rack", f"b{number}", number, below)
        names.append(f"b{number}")
        below = [(names[-1], sum(weights) / 2)]
    return lines


def with_rules(first):
    """Returns the lines of a map of devices in one root, and of rules.

    The first device has the class `first`, and all other devices have the class `hdd`. Each step of each rule takes
    the root and the class `hdd`.
    """
    lines = [f"device {number} osd.{number} class {'hdd' if number else first}" for number in range(DEVICES)] + TYPES
    lines += bucket("root", "default", 1, [(f"osd.{number}", 1) for number in range(DEVICES)])
    steps = ["step take default class hdd"] * STEPS
    for number in range(RULES):
        lines += [f"rule r{number} {{", f"id {number}", "type replicated", *steps, "}"]
    return lines


# Each pair: its name, functions that make the first map and the second map, and how many times as long as `--since`
# the run with `--to` may take.
PAIRS = [
    ("a rack moved", lambda: grouped("", 0), lambda: grouped("", 0, moved=True), 4),
    ("nothing in common", lambda: grouped("", 0), lambda: grouped("new", 70000), 10),
    ("a weight at the foot of a nest", lambda: nest(1), lambda: nest(2), 4),
    ("rules that take a class", lambda: with_rules("hdd"), lambda: with_rules("ssd"), 4),
]


def ratio_of(one, other):
    """Returns the quotient of two times, or `-` if one of them is missing."""
    return "-" if one is None or other is None else f"{one / other:.1f}"


def main():
    parser = argparse.ArgumentParser(description=__doc__.splitlines()[0])
    parser.add_argument("program")
    parser.add_argument("--repeat", type=int, default=5)
    parser.add_argument("--limit", type=int, default=120, help="processor seconds that a run may take")
    parser.add_argument("--only", nargs="+", metavar="WORD", help="the pairs whose name has one of the words")
    options = parser.parse_args()
    program, is_slow = os.path.abspath(options.program), False
    print(f"{'pair':<32}{'bytes':>9}{'wc':>8}{'tree':>8}{'since':>8}{'to':>8}{'since/tree':>12}{'to/since':>10}")
    with tempfile.TemporaryDirectory() as folder:
        one, other = (os.path.join(folder, name) for name in ("map", "other"))
        for name, before, after, most in PAIRS:
            if options.only and not any(word in name for word in options.only):
                continue
            for place, lines in ((one, before()), (other, after())):
                with open(place, "w") as out:
                    out.write("\n".join(lines) + "\n")
            words = least(["wc"], one, options)
            tree, since, to = (least([program, *asked], one, options) for asked in (["--tree"], ["--since", other], ["--to", other]))
            is_slow |= None in (tree, since, to) or since > 3 * tree or to > most * since
            times = "".join(f"{'-' if seconds is None else f'{seconds:.3f}':>8}" for seconds in (words, tree, since, to))
            print(f"{name:<32}{os.path.getsize(one):>9}{times}{ratio_of(since, tree):>12}{ratio_of(to, since):>10}", flush=True)
    sys.exit(is_slow)


if __name__ == "__main__":
    main()
