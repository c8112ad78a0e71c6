"""Prints a job: the text of a map, followed by commands that set weights of devices.

    python3 bench/make_job.py 10000 > big.job
    python3 bench/make_job.py 10000 1000 --rules > bigger.job
    time crates/crushedit/out/crushedit < big.job > big.out

The first argument is the number of devices in the map. The second argument is the number of commands, which all belong
to one operator (a person who gives commands). Without a second argument, the job has one command, which sets the
weight of the last device.

Each host holds up to 20 devices, each rack holds up to 20 hosts, and the root holds all racks. Each device weighs 0.5,
so that a root with as many devices as a map may have isn't too heavy. With --rules, the map also has tunables and a
rule, as the map of a cluster has.

The script needs only Python 3. times.py and figures.py use its functions.
"""

import sys

# The lines that the map also has with --rules.
TUNABLES = [
    "tunable choose_local_tries 0",
    "tunable choose_local_fallback_tries 0",
    "tunable choose_total_tries 50",
    "tunable chooseleaf_descend_once 1",
]
RULE = [
    "rule replicated_rule {",
    "\tid 0",
    "\ttype replicated",
    "\tmin_size 1",
    "\tmax_size 10",
    "\tstep take default",
    "\tstep chooseleaf firstn 0 type host",
    "\tstep emit",
    "}",
]


def bucket(kind, name, number, items):
    """Returns the lines of a bucket with the id `-number`. `items` has pairs: a name, and twice the item's weight."""
    lines = [f"{kind} {name} {{", f"\tid -{number}", "\talg straw2", "\thash 0"]
    lines += [f"\titem {item} weight {weight / 2:.5f}" for item, weight in items]
    return lines + ["}"]


def grouped(things, size):
    """Returns the things as a list of groups. Each group has at most `size` things."""
    return [things[start : start + size] for start in range(0, len(things), size)]


def map_text(devices, rules=False):
    """Returns the text of a map with this number of devices. With `rules`, the map also has tunables and a rule."""
    lines = TUNABLES if rules else []
    lines = lines + [f"device {number} osd.{number}" for number in range(devices)]
    lines += ["type 0 osd", "type 1 host", "type 3 rack", "type 11 root"]
    number = 1
    level = [(f"osd.{device}", 1) for device in range(devices)]
    for kind in ["host", "rack"]:
        buckets = []
        for place, items in enumerate(grouped(level, 20)):
            number += 1
            name = f"{kind}{place}"
            lines += bucket(kind, name, number, items)
            buckets.append((name, sum(weight for _, weight in items)))
        level = buckets
    lines += bucket("root", "default", 1, level)
    lines += RULE if rules else []
    return "\n".join(lines) + "\n"


def script(devices, calls, operators=1):
    """Returns `calls` commands, each of which sets the weight of a device to another value than 0.5.

    The first command is about the last device. Two commands that follow one another are about devices that are far
    apart. If there are several operators, they take the commands in turn, so that the numbers of their commands differ
    by at most one.
    """
    lines = [f"reweight osd.{(devices - 1 + call * 7919) % devices} {2 + call % 5}.5" for call in range(calls)]
    names = "abcdefghijklmnop"[:operators]
    sections = [[f"%operator {name}", *lines[place::operators]] for place, name in enumerate(names)]
    return "\n".join(line for section in sections for line in section) + "\n"


def main():
    numbers = [int(word) for word in sys.argv[1:] if word != "--rules"]
    devices, calls = (numbers + [1])[:2]
    sys.stdout.write(map_text(devices, "--rules" in sys.argv) + script(devices, calls))


if __name__ == "__main__":
    main()
