"""Tests whether Ceph's own tools get the same weights when they read the weights that `--exact` prints.

    python3 bench/exact_weights.py FOLDER [--maps N] [--monitor N [--program PROGRAM]] [--seed SEED]

A weight of 1.0 has 65,536 *units*. An *exact* weight is rounded up to six digits after the point, so that Ceph, which
rounds each weight down to units, reads the original number of units. FOLDER is the folder in which `tests/monitor.sh
install` has installed Ceph.

Without --monitor, the script tests `crushtool`. It writes each weight of a device from 1 to 6,553,600 units (100 TiB,
the largest weight of a device that `crushtool -c` accepts) in exact form. These weights are in 100 maps with 65,536
weights each.
`crushtool -c` compiles each map. Then the weights that `crushtool --dump` prints must have the same units. The weights
that `crushtool -d` prints must also have the same units, if they are rounded to the nearest unit. A map has 500
devices, and each of its buckets, except for the last one, holds all of them with other weights. Ceph allows that, and
`crushtool -c` would take long for a map with more devices. With --maps, the script tests only the first N maps. With
--jobs, it tests several maps at the same time. At the end, the script tests 2,000 random weights of buckets, from 100
to 256 TiB, in one more map.

With --monitor, the script instead tests a monitor of Ceph, the server process that keeps the map. `tests/monitor.sh
start` must have started the monitor in FOLDER. The script sends N random weights to the monitor in exact form. After
each command, the monitor must have stored the same units. This needs root. With --program, the script sends the
commands that PROGRAM prints with `--as-ceph`. Without --program, the script writes the commands itself.

The script prints how many weights it has tested, and how many of them came back with other units. It also prints some
of these weights. The status is 1 if a weight came back with other units.
"""

import argparse
import concurrent.futures
import json
import os
import pathlib
import random
import re
import subprocess
import sys
import tempfile

sys.dont_write_bytecode = True
TOP = pathlib.Path(__file__).resolve().parent.parent
sys.path.insert(0, str(TOP / "tests"))

# The number of units in a weight of 1.0, which is one TiB.
UNITS = 65536
# The number of weights in a map, and the largest number of items in a bucket. With many more items, a bucket would be
# too heavy.
WEIGHTS, HELD = 65536, 500
# The largest weight of a device, and the largest weight of a bucket, that the script tests.
HEAVIEST_DEVICE, HEAVIEST_SUM = 100 * UNITS, 256 * UNITS
# The number of devices in the monitor's map.
DEVICES = 10
TYPES = "type 0 osd\ntype 1 host\ntype 2 rack\n"


def exact(units):
    """Returns a weight in exact form: the smallest number with six digits after the point that isn't below it."""
    return "{}.{:06}".format(*divmod(-(-units * 10**6 // UNITS), 10**6))


def nearest(text):
    """Returns the number of units that is nearest to a printed weight."""
    whole, _, digits = text.partition(".")
    scale = 10**len(digits)
    return (2 * int(whole + digits) * UNITS + scale) // (2 * scale)


def bucket(kind, name, number, items):
    """Returns the text of a bucket with the id `-number`. `items` has the names of the items with their units."""
    lines = "".join(f"\titem {item} weight {exact(units)}\n" for item, units in items)
    return f"{kind} {name} {{\n\tid -{number}\n\talg straw2\n\thash 0\n{lines}}}\n"


def split(weights, most):
    """Returns the weights as a list of parts. Each part has at most `most` weights."""
    return [weights[start:start + most] for start in range(0, len(weights), most)]


def map_of_devices(weights):
    """Returns the text of a map in which several roots hold the same devices, with these weights for the items."""
    devices = "".join(f"device {number} osd.{number}\n" for number in range(min(HELD, len(weights))))
    return devices + TYPES + "".join(
        bucket("host", f"h{place}", place + 1, [(f"osd.{number}", units) for number, units in enumerate(part)])
        for place, part in enumerate(split(weights, HELD)))


def map_of_buckets(weights):
    """Returns the text of a map with an empty bucket for each weight, and roots that hold these empty buckets.

    In the roots, the empty buckets have these weights.
    """
    hosts = "".join(bucket("host", f"h{number}", number + 1, []) for number in range(len(weights)))
    items = [(f"h{number}", units) for number, units in enumerate(weights)]
    return TYPES + hosts + "".join(bucket("rack", f"r{place}", len(weights) + place + 1, part)
                                   for place, part in enumerate(split(items, HELD // 2)))


class Ceph:
    """The crushtool that is installed in a folder. It is run by the folder's own loader, so this needs no root."""

    def __init__(self, folder):
        libraries = folder / "usr/lib/x86_64-linux-gnu"
        self.words = [libraries / "ld-linux-x86-64.so.2", "--library-path", f"{libraries}:{libraries}/ceph",
                      folder / "usr/bin/crushtool"]

    def run(self, *words):
        """Runs crushtool with these arguments, and returns its output. If crushtool fails, ends the script."""
        ran = subprocess.run([*self.words, *words], capture_output=True, text=True)
        if ran.returncode:
            sys.exit(f"crushtool {' '.join(words)}: status {ran.returncode}\n{ran.stdout[-2000:]}{ran.stderr[-2000:]}")
        return ran.stdout

    def weights_of(self, text):
        """Compiles the text of a map, and returns the units of its items twice, in the order of the text.

        The first list has the units that `crushtool --dump` prints. The second list has the units that are nearest to
        the weights that `crushtool -d` prints.
        """
        with tempfile.TemporaryDirectory() as here:
            place, binary = os.path.join(here, "text"), os.path.join(here, "binary")
            pathlib.Path(place).write_text(text)
            self.run("-c", place, "-o", binary)
            dump = json.loads(self.run("-i", binary, "--dump"))
            dumped = [item["weight"] for it in sorted(dump["buckets"], key=lambda it: -it["id"]) for item in it["items"]]
            self.run("-d", binary, "-o", place)
            printed = re.findall(r"(?m)^\titem \S+ weight (\S+)$", pathlib.Path(place).read_text())
            return dumped, [nearest(weight) for weight in printed]


def try_map(ceph, text, weights):
    """Returns how many items of a map come back from crushtool with another weight.

    `weights` has the units of all items, in the order of the text.
    """
    dumped, printed = ceph.weights_of(text)
    if len(dumped) != len(weights) or len(printed) != len(weights):
        sys.exit(f"{len(weights)} items, {len(dumped)} in the dump, {len(printed)} in the text")
    others = [each for each in zip(weights, dumped, printed) if len(set(each)) > 1]
    for units, in_dump, in_text in others[:3]:
        print(f"{units} units, {exact(units)}: {in_dump} in the dump, {in_text} in the text")
    return len(others)


def printed_commands(program, weights):
    """Returns the commands that `--as-ceph` prints for these weights, each as a list of words without `ceph`.

    The first command gives the first weight to the first of ten devices, the second command gives the second weight to
    the second device, and so on. After the tenth device comes the first one again.
    """
    from against_monitor import edited
    # In this map, each device is heavier than all these weights, so that the first command for a device changes the
    # map. A unit (1/65536) has 16 digits after the point, so with 16 digits each weight is written without rounding.
    text = map_of_devices([HEAVIEST_DEVICE + 1] * DEVICES)
    script = "".join(f"reweight osd.{turn % DEVICES} {units / UNITS:.16f}\n" for turn, units in enumerate(weights))
    lines = edited(program, text, "%operator a\n" + script, "--as-ceph").splitlines()
    return [line.split()[1:] for line in lines if not line.startswith("#")]


def try_monitor(folder, program, weights):
    """Returns how many of these weights the monitor stores with other units."""
    from against_monitor import BEGIN, TUNABLES, Monitor
    commands = [["osd", "crush", "reweight", f"osd.{turn % DEVICES}", exact(units)] for turn, units in enumerate(weights)]
    if program:
        commands = printed_commands(program, weights)
    if len(commands) != len(weights):
        sys.exit(f"{len(weights)} weights, and {len(commands)} commands")
    monitor = Monitor(str(folder))
    monitor.take(BEGIN + TUNABLES + map_of_devices([UNITS] * DEVICES))
    others = 0
    for turn, (units, words) in enumerate(zip(weights, commands)):
        monitor.asked(*words)
        dump = json.loads(monitor.asked("osd", "crush", "dump"))
        stored = [item["weight"] for it in dump["buckets"] for item in it["items"] if item["id"] == turn % DEVICES]
        if stored != [units]:
            others += 1
            print(f"{' '.join(words)}: {units} units: stored {stored}")
    return others


def main():
    parser = argparse.ArgumentParser()
    parser.add_argument("folder", type=pathlib.Path)
    parser.add_argument("--maps", type=int, default=HEAVIEST_DEVICE // WEIGHTS)
    parser.add_argument("--monitor", type=int, default=0)
    parser.add_argument("--program", type=os.path.abspath)
    parser.add_argument("--seed", type=int, default=1)
    parser.add_argument("--jobs", type=int, default=1)
    asked = parser.parse_args()
    folder = asked.folder.resolve()
    dice = random.Random(asked.seed)
    if asked.monitor:
        others = try_monitor(folder, asked.program, [dice.randint(1, HEAVIEST_DEVICE) for _ in range(asked.monitor)])
        print(f"monitor: {asked.monitor} weights, {others} stored otherwise")
        return others > 0
    ceph = Ceph(folder)

    def try_devices(number):
        weights = range(number * WEIGHTS + 1, (number + 1) * WEIGHTS + 1)
        return try_map(ceph, map_of_devices(weights), weights)

    with concurrent.futures.ThreadPoolExecutor(asked.jobs) as pool:
        others = sum(pool.map(try_devices, range(asked.maps)))
    print(f"devices: {asked.maps * WEIGHTS} weights, {others} came back otherwise")
    sums = [dice.randint(HEAVIEST_DEVICE, HEAVIEST_SUM) for _ in range(2000)]
    heavy = try_map(ceph, map_of_buckets(sums), sums)
    print(f"buckets: {len(sums)} weights, {heavy} came back otherwise")
    return others + heavy > 0


if __name__ == "__main__":
    sys.exit(main())
