"""Runs the recipe `crushedit-recipe` on a monitor of Ceph, and compares what the recipe says with what Ceph then does.

    python3 tests/recipe_by_monitor.py crates/crushedit/out/crushedit FOLDER [RECIPE]

Each test case is a function below. Some test cases give the recipe a map or a command for which one of its checks must
stop the recipe. Others set the new map with the command that the recipe prints, and then look at the monitor's map. If
OSDs (the server processes of disks) run, one test case counts the placement groups (PGs, the parts of the data) that
have moved, and compares these numbers with those that the recipe has announced. Two other test cases, `exact_weights`
and `negative_sums`, run only if no OSDs run.

The script needs root, and a monitor that `tests/monitor.sh start` has started in FOLDER. The OSDs run if
`tests/monitor.sh osds` has started them too. RECIPE is the path of another copy of bin/crushedit-recipe.

Prints a line for each test case. If a test case fails, the line says why, and the output of the recipe often follows.
The status is 1 if a test case fails.
"""

import json
import os
import pathlib
import random
import re
import shutil
import subprocess
import sys

from against_monitor import TOP, Failed, Monitor, within

HEAD = "# begin crush map\n" + "".join(f"tunable {name} {number}\n" for name, number in [
    ("choose_local_tries", 0), ("choose_local_fallback_tries", 0), ("choose_total_tries", 50), ("chooseleaf_descend_once", 1),
    ("chooseleaf_vary_r", 1), ("chooseleaf_stable", 1), ("straw_calc_version", 1), ("allowed_bucket_algs", 54)])
TYPES = "".join(f"type {number} {name}\n" for number, name in [(0, "osd"), (1, "host"), (3, "rack"), (10, "root")])
RULE = """rule {name} {{
	id {id}
	type replicated
	step take {take}
	step chooseleaf firstn 0 type host
	step emit
}}
"""
DISKS = 300


def map_of(hosts, rules, kind="hdd", above="root default"):
    """Returns the text of a map with a bucket of hosts, and with rules.

    Each of `hosts` is a list of pairs of a device's number and its weight. Each of `rules` is a pair of a rule's name
    and the words after its `step take`. `kind` is the class of all devices. `above` is the type and the name of the
    bucket that holds the hosts. If this type isn't `root`, a root `default` holds this bucket.
    """
    devices = sorted((number for host in hosts for number, _ in host))
    text = HEAD + "".join(f"device {number} osd.{number} class {kind}\n" for number in devices) + TYPES
    for index, host in enumerate(hosts):
        items = "".join(f"\titem osd.{number} weight {weight}\n" for number, weight in host)
        text += f"host node{index} {{\n\tid -{index + 10}\n\talg straw2\n\thash 0\n{items}}}\n"
    items = "".join(f"\titem node{index} weight 1.0\n" for index in range(len(hosts)))
    text += f"{above} {{\n\tid -2\n\talg straw2\n\thash 0\n{items}}}\n"
    if not above.startswith("root"):
        text += f"root default {{\n\tid -1\n\talg straw2\n\thash 0\n\titem {above.split()[1]} weight 1.0\n}}\n"
    return text + "".join(RULE.format(id=index, name=name, take=take) for index, (name, take) in enumerate(rules)) + "# end crush map\n"


class Trial:
    """Runs the recipe in the monitor's folder, into which it copies the program and the recipe."""

    def __init__(self, program, monitor, recipe):
        self.monitor, self.root, self.count = monitor, monitor.root, 0
        for source, name in ((program, "crushedit"), (recipe, "crushedit-recipe")):
            shutil.copy(source, os.path.join(self.root, "usr/local/bin", name))
            os.chmod(os.path.join(self.root, "usr/local/bin", name), 0o755)

    def run(self, words, before="", folder="/mon"):
        """Runs a command of a shell in the monitor's folder. Returns its status, and what it prints on both streams.

        `before` is put before the command, for example to set a variable. `folder` is the working folder of the
        command.
        """
        mounted = ["unshare", "--mount", "sh", "-c", 'mount -t proc proc "$0/proc" && exec chroot "$0" "$@"', self.root]
        ran = subprocess.run([*mounted, "sh", "-c", f"cd {folder}; {before}{words}"], stdin=subprocess.DEVNULL,
                             stdout=subprocess.PIPE, stderr=subprocess.STDOUT, text=True)
        return ran.returncode, ran.stdout

    def recipe(self, commands, status=0, told="", before=""):
        """Runs the recipe on these commands and returns what it prints.

        Raises Failed if the recipe ends with another status, if it doesn't print the text `told`, or if it prints a
        command that sets a map although its status isn't 0. `before` is put before the command line of the recipe.
        """
        self.count += 1
        pathlib.Path(self.root, "mon/commands").write_text("".join(f"{line}\n" for line in commands))
        shutil.rmtree(os.path.join(self.root, "mon/day"), ignore_errors=True)
        ended, printed = self.run("crushedit-recipe commands day", before)
        if ended != status or told not in printed or status and "setcrushmap" in printed:
            raise Failed(f"{commands}: status {ended}\n{printed}")
        return printed

    def set(self, printed, index=0):
        """Runs a command that the recipe has printed. Returns the status of the command and what it prints.

        With the index 0, this is the command that sets the new map. With the index 1, it is the command that goes back
        to the old map.
        """
        lines = [line for line in printed.splitlines() if "osd setcrushmap" in line]
        return self.run(lines[index])

    def edit(self, *commands):
        """Runs the recipe on these commands, sets the new map, and returns what the recipe prints."""
        printed = self.recipe(commands)
        status, told = self.set(printed)
        if status:
            raise Failed(f"the command of the recipe: status {status}: {told}")
        return printed

    def take(self, text):
        """Gives the monitor the map of a text."""
        self.monitor.take(text)

    def weights(self):
        """Returns the weight that the monitor's map has for each device, in units (65536ths of 1.0), by the device's
        id."""
        dump = json.loads(self.monitor.asked("osd", "crush", "dump"))
        return {item["id"]: item["weight"] for bucket in dump["buckets"] if "~" not in bucket["name"]
                for item in bucket["items"] if item["id"] >= 0}

    def taken(self):
        """Returns the id and the name of what each step `take` of the monitor's rules takes.

        This is a bucket, or the class tree of a bucket (Ceph's copy of the bucket for a device class).
        """
        dump = json.loads(self.monitor.asked("osd", "crush", "dump"))
        return [(step["item"], step["item_name"]) for rule in dump["rules"] for step in rule["steps"] if step["op"] == "take"]


SMALL = [[(0, "1.0"), (1, "1.5")], [(2, "1.0"), (3, "1.5")], [(4, "1.0"), (5, "1.5")]]
TWO_RULES = [("all", "default"), ("disks", "default class hdd")]


def missing_device(trial):
    """Checks that the recipe stops if the cluster lacks a new device of the map, and doesn't stop if the cluster has
    it."""
    trial.take(map_of(SMALL, TWO_RULES))
    trial.recipe(["add osd.444 1.0 host=node0"], 1, "the cluster has no osd.444. ")
    trial.recipe(["add osd.6 1.0 host=node0", "set-device-class hdd osd.6"])


def old_names(trial):
    """Checks that the recipe stops if class trees have old names, and prints a command after which it works again.

    If somebody renames a bucket with Ceph's own command `rename-bucket`, the bucket's class trees keep their old
    names. In the second half of the test case, two buckets have exchanged their names. So the old name of the class
    tree looks like the name of the other bucket's class tree.
    """
    trial.take(map_of(SMALL, TWO_RULES))
    trial.monitor.asked("osd", "crush", "rename-bucket", "default", "top")
    printed = trial.recipe(["reweight osd.0 2"], 1, "rule disks takes top~hdd, which the map calls default~hdd\n")
    trial.run(next(line for line in printed.splitlines() if line.startswith("    ")))
    trial.edit("reweight osd.0 2")
    trial.monitor.asked("osd", "crush", "add-bucket", "other", "root")
    trial.monitor.asked("osd", "crush", "add", "osd.7", "1", "root=other", "host=node7")
    trial.monitor.asked("osd", "crush", "set-device-class", "hdd", "osd.7")
    for old, new in (("top", "x"), ("other", "top"), ("x", "other")):
        trial.monitor.asked("osd", "crush", "rename-bucket", old, new)
    trial.recipe(["reweight osd.0 3"], 1, "rule disks takes other~hdd, which the map calls top~hdd\n")
    trial.monitor.asked("osd", "crush", "reweight-all")
    trial.edit("reweight osd.0 3")


def names_that_the_recipe_sets(trial):
    """Checks that class trees have new names after the recipe has renamed buckets, and that the next run works."""
    trial.take(map_of(SMALL, TWO_RULES))
    before = trial.taken()
    trial.edit("rename-bucket default top")
    trial.edit("add-bucket other root", "add osd.7 1 host=node7 root=other", "set-device-class hdd osd.7")
    trial.edit("rename-bucket top x", "rename-bucket other top", "rename-bucket x other")
    if trial.taken() != [(number, name.replace("default", "other")) for number, name in before]:
        raise Failed(f"the rules take {trial.taken()} and took {before}")
    trial.edit("reweight osd.0 2")


def exact_weights(trial):
    """Checks that three runs of the recipe change no weight of 300 devices except for the weight that they set.

    There are two maps, whose weights have four and five decimals. Also prints how many of these weights would change
    if `crushtool` decompiled and compiled the map once, without the recipe.
    """
    dice = random.Random(1)
    trial.monitor.asked("osd", "setmaxosd", "400")
    for decimals in (4, 5):
        hosts = [[(10 * host + disk, f"{dice.uniform(0.5, 22):.{decimals}f}") for disk in range(10)] for host in range(DISKS // 10)]
        trial.take(map_of(hosts, TWO_RULES))
        start = trial.weights()
        trial.run("ceph osd getcrushmap > m 2>/dev/null; crushtool -d m -o m.txt; crushtool -c m.txt -o m2; "
                  "crushtool -i m2 --reweight -o m3; crushtool -i m3 --dump > m.json")
        dump = json.loads(pathlib.Path(trial.root, "mon/m.json").read_text())
        plain = {item["id"]: item["weight"] for bucket in dump["buckets"] for item in bucket["items"] if item["id"] >= 0}
        for weight in ("3.63869", "1.81898", "7.27739"):
            trial.edit(f"reweight osd.0 {weight}")
        now = trial.weights()
        off = [number for number in start if number and now[number] != start[number]]
        if off or now[0] != round(7.27739 * 65536):
            raise Failed(f"{len(off)} weights are off")
        print(f"  {DISKS} disks of {decimals} decimals: no weight is off after three rounds; crushtool alone would have cut "
              f"{sum(plain[number] != start[number] for number in start)}")


def guarded_way_back(trial):
    """Checks that the command that goes back restores the old map byte for byte.

    Ceph must refuse this command if somebody has changed the map since the recipe's new map was set.
    """
    trial.take(map_of(SMALL, TWO_RULES))
    kept = trial.monitor.asked("osd", "getcrushmap")
    printed = trial.edit("reweight osd.0 2")
    status, told = trial.set(printed, 1)
    if status or trial.monitor.asked("osd", "getcrushmap") != kept:
        raise Failed(f"the way back: status {status}: {told}")
    printed = trial.edit("reweight osd.0 2")
    trial.monitor.asked("osd", "crush", "reweight", "osd.1", "1")
    status, told = trial.set(printed, 1)
    if status == 0 or "EPERM" not in told:
        raise Failed(f"the way back over another's change: status {status}: {told}")


def contained(trial):
    """Checks that the recipe works with a `ceph` that can't find the recipe's folder, such as a `ceph` in a
    container."""
    trial.take(map_of(SMALL, TWO_RULES))
    place = pathlib.Path(trial.root, "usr/local/bin/contained")
    place.write_text('#!/bin/sh\ncd /proc && exec ceph "$@"\n')
    place.chmod(0o755)
    printed = trial.recipe(["reweight osd.0 2"], before="CEPH=contained ")
    status, told = trial.set(printed)
    if status or trial.weights()[0] != 2 * 65536:
        raise Failed(f"status {status}: {told}")


def negative_sums(trial):
    """Checks an edit of a map with a rack of 33,000 TiB, whose weight `crushtool -d` prints as a negative number."""
    trial.monitor.asked("osd", "setmaxosd", "400")
    hosts = [[(10 * host + disk, "100.0") for disk in range(10)] for host in range(33)]
    trial.take(map_of(hosts, TWO_RULES, above="rack rack0"))
    if "item rack0 weight -" not in trial.monitor.text():
        raise Failed("crushtool prints no negative weight")
    trial.edit("reweight osd.0 50")
    dump = json.loads(trial.monitor.asked("osd", "crush", "dump"))
    rack = next(bucket for bucket in dump["buckets"] if bucket["name"] == "rack0")
    if rack["weight"] % 2**32 != (33000 - 50) * 65536:
        raise Failed(f"the rack weighs {rack['weight']}")


def taken_root(trial):
    """Checks that the recipe doesn't remove a root that a rule takes, and removes it when the rule is gone.

    The test case removes the rule with commands that the recipe's message shows.
    """
    trial.take(map_of(SMALL, TWO_RULES))
    trial.edit("add osd.6 1 host=node6 root=old")
    trial.monitor.asked("osd", "crush", "rule", "create-replicated", "olds", "old", "host")
    commands = ["rm osd.6", "rm node6", "rm old"]
    printed = trial.recipe(commands, 1, "No command of crushedit changes a rule")
    if "rule olds takes old" not in printed:
        raise Failed(printed)
    trial.monitor.asked("osd", "crush", "rule", "create-replicated", "news", "default", "host")
    trial.monitor.asked("osd", "crush", "rule", "rm", "olds")
    trial.edit(*commands)
    if [name for _, name in trial.taken()] != ["default", "default~hdd", "default"]:
        raise Failed(f"rules take {trial.taken()}")


def new_class(trial):
    """Checks that the recipe points out a new class that no rule takes."""
    trial.take(map_of(SMALL, TWO_RULES))
    trial.recipe(["rm-device-class osd.0", "set-device-class sdd osd.0"], told="The class sdd is new, and no rule takes it.")


def placed(trial):
    """Returns the devices of each PG, as the monitor computes them from its map."""
    pools = json.loads(trial.monitor.asked("osd", "pool", "ls", "detail"))
    pgs = [f"{pool['pool_id']}.{number:x}" for pool in pools for number in range(pool["pg_num"])]
    return {pg: json.loads(trial.monitor.asked("pg", "map", pg))["up"] for pg in pgs}


def what_moves(trial):
    """Checks that as many PGs, and as many of their replicas or shards, move as the recipe announces for each pool.

    Also checks that the recipe stops if PGs would get fewer devices than before.
    """
    hosts = [[(2 * host, "1.81898"), (2 * host + 1, "1.81898")] for host in range(5)]
    trial.take(map_of(hosts, TWO_RULES))
    trial.run("ceph osd erasure-code-profile set four k=2 m=2 crush-failure-domain=host; "
              "ceph osd pool create rep 64 64 replicated all; ceph osd pool create ec 32 32 erasure four; ceph osd pool set rep size 3")
    before = placed(trial)
    pools = {pool["pool_name"]: pool for pool in json.loads(trial.monitor.asked("osd", "pool", "ls", "detail"))}
    for commands in (["reweight osd.9 0.9", "move osd.3 host=node0"], ["move osd.3 host=node1"], ["swap-bucket node0 node4"]):
        printed = trial.edit(*commands)
        after = placed(trial)
        for name, is_erasure in (("rep", False), ("ec", True)):
            pgs = [pg for pg in before if pg.startswith(f"{pools[name]['pool_id']}.")]
            moves = [sum(old != new for old, new in zip(before[pg], after[pg])) if is_erasure else len(set(after[pg]) - set(before[pg]))
                     for pg in pgs]
            told = f"pool {name}: {sum(move > 0 for move in moves)} of {len(pgs)} PGs move, {sum(moves)} of "
            if told not in printed:
                raise Failed(f"{commands}: the cluster did: {told}..\n{printed}")
            print(f"  {'; '.join(commands)}: {told[:-4]}")
        before = after
    trial.recipe(["reweight-subtree node0 0", "reweight-subtree node1 0"], 1, "pool ec: 32 of 32 PGs get fewer devices than before")


def has_osds(monitor):
    """Returns whether the monitor reports at least one running OSD."""
    return json.loads(monitor.asked("osd", "stat"))["num_up_osds"] > 0


def main():
    if len(sys.argv) not in (3, 4):
        sys.exit(__doc__)
    program, root = os.path.abspath(sys.argv[1]), os.path.realpath(sys.argv[2])
    recipe = os.path.abspath(sys.argv[3]) if len(sys.argv) > 3 else TOP / "bin/crushedit-recipe"
    monitor, failed = Monitor(root), 0
    trial = Trial(program, monitor, recipe)
    trials = [missing_device, old_names, names_that_the_recipe_sets, guarded_way_back, contained, taken_root, new_class]
    # exact_weights and negative_sums set maps with about 300 devices that the cluster lacks. This does no harm if no
    # OSDs run. On a cluster with pools, PGs would lack devices.
    trials += [what_moves] if has_osds(monitor) else [exact_weights, negative_sums]
    for each in trials:
        try:
            each(trial)
            print(f"passed: {each.__name__}", flush=True)
        except Failed as fault:
            failed += 1
            print(f"FAILED: {each.__name__}: {fault}", flush=True)
    sys.exit(failed > 0)


if __name__ == "__main__":
    main()
