"""Sends plans of crushedit to a monitor of Ceph, and compares the monitor's map with the wanted map of each plan.

    python3 tests/plans_by_monitor.py crates/crushedit/out/crushedit FOLDER PAIRS SEED [--json]

A *plan* is the output of `--to`: commands that change a map into a wanted map, and the differences that remain after
these commands. The test needs root, and a monitor that `tests/monitor.sh start` has started in FOLDER.

The test makes PAIRS random pairs of maps. In three of four pairs, the second map is the first map after a script of
random commands. The plain model, a second implementation of crushedit in Python, applies this script. In every fourth
pair, the two maps are independent random maps, with names from the same short list. For each pair, the test gives the
first map to the monitor. Then it sends the monitor the commands of the plan from the first map to the second map.
After that, it sends the commands of the plan from the map that the monitor now has back to the first map. For every
other pair, the program compares the items of the two maps by name (`--by-name`). The following must be true after each
plan:

- The monitor has accepted each command.
- The monitor's map, as `crushtool -d` prints it, differs from the wanted map in exactly the differences that the plan
  reports as remaining. The plain model finds the differences.
- If the plan reports no difference, `ceph osd crush dump` shows the items of the wanted map, with the wanted types,
  places and classes. Each device has the wanted id, and rules take the wanted buckets. Each device's weight differs
  from the wanted weight by at most one unit (a 65536th of 1.0), because Ceph rounds weights down and crushedit rounds
  to the nearest unit.

With --json, the plan is the document that `--to` prints with `--json`. The test sends each command of the document
to the monitor exactly as it is. Without --json, the plan has the commands that `--to` prints with `--as-ceph`. The
test then translates the words of each command in the same way as the program `ceph`, with the descriptions of commands
that the monitor sends.

Before the pairs, the test runs the recipe `crushedit-recipe --to` in FOLDER, and the command that the recipe prints
to set the new map. Then it undoes this change with a second run of the recipe, on the commands of the file `back` that
the first run has written.

The test prints how many commands of each kind the monitor got, and which differences remained. The status is 1 if
the monitor refuses a command, or if a map isn't as it should be. All devices have names of the form `osd.N`, because a
monitor gives no other device a class. The maps have the weights of the list WEIGHTS below. In all other respects, the
random maps are as in `against_monitor.py`.
"""

import collections
import json
import os
import pathlib
import re
import shutil
import subprocess
import sys

import chance
from against_monitor import TOP, Failed, Monitor, edited, random_text, within
from planned import stays
from plans import after_script
from reading import read_map

# The weights of random maps are the first six, because `crushtool -c` accepts no weight above 100. Random commands use
# all of these weights. Ceph rounds 1.81898 and 1.00001 down to another number of units than crushedit, which rounds to
# the nearest.
WEIGHTS = ["0", "1", "3.63869", "2.5", "1.81898", "0.333", "14.55269", "100", "1.00001", "5000", "40000"]
SCRIPTED, UNLIKE = "pairs made by a script", "unlike pairs"
# A program that runs in the monitor's folder. It reads commands, one JSON object on each line, and sends each of them
# to the monitor unchanged. For each command, it prints a line with the status and the message of the monitor.
SENDER = """
import json, sys, rados
cluster = rados.Rados(conffile="/etc/ceph/ceph.conf")
cluster.connect(timeout=20)
for line in sys.stdin:
    status, _, told = cluster.mon_command(line.strip(), b"", timeout=30)
    print(json.dumps([status, told]), flush=True)
"""
# The commands that lead to the wanted map of the recipe: osd.2 gets another class and another host. A new rack gets a
# new host with the new device osd.3.
WANTED = """%operator alice
rm-device-class osd.2
set-device-class ssd osd.2
move osd.2 host=node0000
add-bucket rack9 rack
move rack9 row=row00
add osd.3 3.63869 host=node0009 rack=rack9
"""


def placed(devices, buckets):
    """Returns the bucket that holds each item, or None for an item that no bucket holds."""
    holders = {kid: name for name, (_, _, _, kids) in buckets.items() for kid, _ in kids}
    return {name: holders.get(name) for name in [*devices, *buckets]}


def weights(devices, buckets):
    """Returns the weight in units of each device that a bucket holds."""
    return {kid: weight for _, _, _, kids in buckets.values() for kid, weight in kids if kid in devices}


def is_wanted(monitor, wanted):
    """Returns whether `ceph osd crush dump` shows the wanted map.

    Compares the names of items, their places, types and classes, the ids of devices, the weights of devices (which may
    differ by one unit), and the buckets that rules take.
    """
    devices, buckets, rules = monitor.items()
    holds, due = weights(devices, buckets), {name: wanted.items[name]["weight"] for name in wanted.items
                                             if wanted.is_device(name) and wanted.parent(name)}
    return (placed(devices, buckets) == {name: wanted.parent(name) for name in wanted.items}
            and devices == {name: (item["id"], item.get("class")) for name, item in wanted.items.items() if item["id"] >= 0}
            and {name: bucket[1] for name, bucket in buckets.items()}
            == {name: wanted.types[item["kind"]] for name, item in wanted.items.items() if item["id"] < 0}
            and holds.keys() == due.keys() and all(abs(holds[name] - due[name]) <= 1 for name in due)
            and rules == [wanted.with_id(number) for rule in wanted.rules for _, number in rule["lines"] if number is not None])


class Lines:
    """Plans that are printed as Ceph's own commands (`--as-ceph`), and sent to the monitor by the words of each
    command."""

    def __init__(self, monitor):
        self.monitor = monitor

    def plan(self, edited_to):
        """Returns the commands of a plan, and the lines of the differences that the plan reports as remaining.

        `edited_to` runs the program with `--to` and the option that selects the form of the plan.
        """
        lines = edited_to("--as-ceph").splitlines()
        commands = [line for line in lines if not line.startswith("#")]
        if lines[0] != f"# {len(commands)} commands":
            raise Failed(f"{lines[0]} above {len(commands)}")
        told = re.fullmatch(r"# (\d+) differences stay", (lines[len(commands) + 1 :] or [""])[0])
        rest = lines[len(commands) + 2 :][: int(told.group(1))] if told else []
        return commands, [line.removeprefix("# ") for line in rest]

    def make(self, command):
        """Sends a command to the monitor. Returns the kind of the command, its status, and the monitor's message."""
        words = command.split()[1:]
        status, _, why = self.monitor.ask(*words)
        return words[2], status, why


class Documents:
    """Plans that are printed as JSON documents, and whose commands are sent to the monitor unchanged."""

    def __init__(self, monitor):
        self.server = subprocess.Popen(["chroot", monitor.root, "python3", "-c", SENDER], stdin=subprocess.PIPE,
                                       stdout=subprocess.PIPE, stderr=subprocess.DEVNULL, text=True)

    def plan(self, edited_to):
        document = json.loads(edited_to("--json"))
        return document["plan"], document["stays"]

    def make(self, command):
        self.server.stdin.write(json.dumps(command) + "\n")
        self.server.stdin.flush()
        line = self.server.stdout.readline()
        if not line:
            raise Failed(f"no answer to: {command}")
        return (command["prefix"].split()[-1], *json.loads(line))


def make_plan(program, monitor, text, wanted, way, identity, counts, kind):
    """Sends the monitor a plan from its map to the wanted map, and returns the text of the monitor's map afterwards.

    `text` is the text of the monitor's map, and `wanted` is the text of the wanted map. `way` is a Lines or a
    Documents. Raises Failed if the monitor refuses a command, or if its map isn't as the plan says. Adds the plan, its
    commands and the remaining differences to `counts`.
    """
    place = pathlib.Path(monitor.root, "mon", "wanted")
    place.write_text(wanted)
    commands, told = way.plan(lambda form: edited(program, text, "", "--to", str(place), form, *identity))
    for command in commands:
        word, status, why = way.make(command)
        counts["commands"][word, status] += 1
        if status:
            raise Failed(f"refused: {command}: {status}, {why}")
    now, due = monitor.text(), read_map(wanted)[0]
    rest = stays(read_map(now)[0], due)
    if rest != told:
        raise Failed(f"what stays is {rest}, and the plan told {told}")
    if not rest and not is_wanted(monitor, due):
        raise Failed("ceph osd crush dump has another map than the wanted one")
    counts["rest"].update((kind, re.sub(r"^\S+: ", "", line)) for line in rest)
    counts["plans"][kind, not rest] += 1
    return now


def monitors_text(dice):
    """Returns the text of a random map whose devices all have names of the form `osd.N`."""
    return re.sub(r"\bdisk\b", "osd.7", random_text(dice))


def trial(program, monitor, way, pairs, seed, counts):
    """Runs both plans of each pair, prints the pairs that fail, and returns how many failed."""
    wrong = 0
    for index in range(pairs):
        dice = chance.Dice(f"{seed} {index}")
        kind = UNLIKE if index % 4 == 3 else SCRIPTED
        other = monitor.take(monitors_text(dice))
        text = monitor.take(monitors_text(dice)) if kind == UNLIKE else other
        wanted = other if kind == UNLIKE else after_script(dice, read_map(text)[0]).text()
        identity = ["--by-name"] * (index % 2)
        try:
            now = make_plan(program, monitor, text, wanted, way, identity, counts["there"], kind)
            make_plan(program, monitor, now, text, way, identity, counts["back"], kind)
        except Failed as fault:
            wrong += 1
            print(f"pair {index}: {fault}\n{text}--to\n{wanted}--the monitor's map\n{monitor.text()}")
    return wrong


def recipe(program, monitor):
    """Changes the monitor's map by `crushedit-recipe --to`, and then undoes this change with the recipe's file `back`.

    Each time, the function runs the command that the recipe prints to set the new map. Raises Failed if the monitor's
    map then differs from the expected map.
    """
    root = monitor.root
    for source, name in ((program, "crushedit"), (TOP / "bin/crushedit-recipe", "crushedit-recipe")):
        shutil.copy(source, os.path.join(root, "usr/local/bin", name))
        os.chmod(os.path.join(root, "usr/local/bin", name), 0o755)
    before = monitor.take((TOP / "examples/maps/class-3.job").read_text().partition("%")[0])
    wanted = edited(program, before, WANTED, "--no-history", "--strict")
    pathlib.Path(root, "mon/wanted").write_text(wanted)
    within(root, "rm", "-rf", "/mon/to", "/mon/back")
    for words, due in (("--to /mon/wanted /mon/to", wanted), ("/mon/to/back /mon/back", before)):
        shown = within(root, "sh", "-c", f"REPLICAS=1 crushedit-recipe {words}").splitlines()
        within(root, "sh", "-c", next(line for line in shown if "setcrushmap" in line))
        rest = stays(read_map(monitor.text())[0], read_map(due)[0])
        if rest:
            raise Failed(f"behind crushedit-recipe {words} there stays {rest}")
    print("the recipe: --to a wanted map, and back by its commands: no difference stays")


def told(counts):
    """Prints how many plans and commands there were in each direction, and which differences remained."""
    for way, count in counts.items():
        commands = count["commands"]
        print(f"{way}: {sum(count['plans'].values())} plans of {sum(commands.values())} commands, of which "
              f"{sum(number for (_, status), number in commands.items() if status)} were refused")
        for kind in (SCRIPTED, UNLIKE):
            print(f"  of {kind} {count['plans'][kind, True]} led to the wanted map, {count['plans'][kind, False]} told what stays")
            for (_, rest), number in ((row, number) for row, number in count["rest"].most_common() if row[0] == kind):
                print(f"    {number} times: {rest}")
        print("  " + ", ".join(f"{word} {number}" for (word, _), number in sorted(commands.items())))


def main():
    if len(sys.argv) < 5 or sys.argv[5:] not in ([], ["--json"]):
        sys.exit(__doc__)
    program, root, pairs, seed = os.path.abspath(sys.argv[1]), os.path.realpath(sys.argv[2]), int(sys.argv[3]), sys.argv[4]
    chance.WEIGHTS[:] = WEIGHTS
    counts = {way: {"commands": collections.Counter(), "plans": collections.Counter(), "rest": collections.Counter()}
              for way in ("there", "back")}
    try:
        monitor = Monitor(root)
        way = Documents(monitor) if sys.argv[5:] else Lines(monitor)
        recipe(program, monitor)
        wrong = trial(program, monitor, way, pairs, seed, counts)
    except Failed as fault:
        sys.exit(str(fault))
    told(counts)
    sys.exit(wrong > 0)


if __name__ == "__main__":
    main()
