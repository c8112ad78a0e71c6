#!/usr/bin/env python3
"""Tests the whole recipe bin/crushedit-recipe, with the stand-ins of stand_ins.py in place of Ceph's tools.

    python3 tests/recipe_test.py crates/crushedit/out/crushedit [RECIPE]

Most test cases run the recipe in a new folder, and check its status, its messages and its files. Some of them also run
the command that the recipe prints. The other test cases run the script on the page README.md, if the page is there,
and check that crushedit prints weights with `--exact` in such a form that compiling them changes no weight.

RECIPE is the path of another copy of the recipe, such as an installed copy. No test case uses a cluster or Ceph's own
tools. The script prints a line for each test case. The status is 1 if a test case fails.
"""
import json
import os
import pathlib
import random
import re
import shutil
import signal
import subprocess
import sys
import tempfile
import time
import unittest

sys.dont_write_bytecode = True
from limited import LimitReached, run_limited  # noqa: E402

HERE = pathlib.Path(__file__).resolve().parent
MAP = (HERE.parent / "examples/example.txt").read_text()
# The ends of two commands that the recipe prints: SET sets the new map, and BACK goes back to the old map.
SET = " osd setcrushmap -i - {} < {}/new.bin\n"
BACK = " osd setcrushmap -i - {} < {}/map.bin\n"
# MAP with a device of the class hdd. The rule of this map takes the root `default` with this class.
CLASSES = MAP.replace("osd.0\ndevice 1 osd.1\n", "osd.0 class hdd\ndevice 1 osd.1\n").replace(
    "take default", "take default class hdd").replace("id -1\t", "id -1\n\tid -11 class hdd\t").replace(
        "id -2\t", "id -2\n\tid -12 class hdd\t").replace("id -3\t", "id -3\n\tid -13 class hdd\t")
POOL = {"pool_id": 1, "pool_name": "rbd", "type": 1, "size": 3, "crush_rule": 0, "pg_num": 8}
PROGRAM = RECIPE = None


class Trial(unittest.TestCase):
    """A test case with a temporary folder, which has the stand-ins, and in which the recipe runs."""

    def setUp(self):
        temporary = tempfile.TemporaryDirectory()
        self.addCleanup(temporary.cleanup)
        self.here = pathlib.Path(temporary.name)
        source = (HERE / "stand_ins.py").read_text()
        self.tools = self.here / "tools"
        self.tools.mkdir()
        for name in ("ceph", "crushtool", "osdmaptool"):
            (self.tools / name).write_text("#!{} -IS\n{}".format(sys.executable, source))
            (self.tools / name).chmod(0o755)
        (self.tools / "crushedit").symlink_to(PROGRAM)
        for name, text in (("version", "42\n"), ("osds", "[0, 1, 2, 3]"), ("pools", "[]"), ("df", '{"pools": []}'), ("cluster", MAP)):
            self.put(name, text)
        self.folder = self.here / "folder"
        self.environment = {**os.environ, **{name.upper(): str(self.tools / name) for name in
                                             ("ceph", "crushtool", "osdmaptool", "crushedit")}}
        # The recipe runs crushtool twice for each size of pools in REPLICAS, so there are only two sizes. Test cases
        # that delete REPLICAS test what the recipe tries by default.
        self.environment["REPLICAS"] = "2 3"

    def put(self, name, text):
        """Writes a file that the stand-ins read."""
        (self.tools / name).write_text(text)

    def run_limited(self, words, **how):
        """Runs a command with the limits of limited.py, and returns how it ended. If a limit ends the command, the
        test case fails."""
        try:
            return run_limited(words, **how)
        except LimitReached as limit:
            told = str(limit)
        self.fail(told)

    def run_words(self, *words, **how):
        """Runs the recipe with these words in the test case's folder, and returns what it prints on both streams."""
        how = {"cwd": str(self.here), "env": self.environment, **how}
        ended = self.run_limited([str(RECIPE), *map(str, words)], stdin=subprocess.DEVNULL, stdout=subprocess.PIPE,
                                 stderr=subprocess.PIPE, **how)
        self.status, self.out, self.told = ended.returncode, ended.stdout.decode(), ended.stderr.decode()
        return self.out + self.told

    def try_commands(self, commands, status=0, words=None):
        """Runs the recipe on these commands, makes the checks of `check`, and returns what the recipe prints."""
        path = self.here / "commands"
        path.write_bytes(commands if isinstance(commands, bytes) else commands.encode())
        return self.check(status, words or (path, self.folder))

    def try_wanted(self, text, status=0):
        """Runs the recipe with --to and this text of a map, makes the checks of `check`, and returns what the recipe
        prints."""
        (self.here / "wanted").write_text(text)
        return self.check(status, ("--to", self.here / "wanted", self.folder))

    def check(self, status, words):
        """Runs the recipe with these words, checks how it ends, and returns what it prints.

        The status must be this one. If the recipe fails, it must print no command that sets a map, and leave no
        folder. It may ask Ceph only for what the stand-in for `ceph` answers without a note in the file `asked`.
        """
        printed = self.run_words(*words)
        self.assertEqual(self.status, status, printed)
        if status:
            self.assertNotIn("setcrushmap", printed)
            self.assertFalse(self.folder.exists(), "the folder blocks the next try")
        self.assertFalse((self.tools / "asked").exists(), "the recipe has asked Ceph for more than it may")
        return printed

    def run_shown(self, printed, version):
        """Runs the printed command that sets a map and names this version of the cluster's map.

        Returns the words and the standard input that the stand-in for `ceph` got.
        """
        command = next(line for line in printed.splitlines() if " - {} < ".format(version) in line)
        subprocess.run(["sh", "-c", command], cwd=str(self.here), check=True, env=self.environment)
        return (self.tools / "asked").read_text(), (self.tools / "given").read_text()


class Edits(Trial):
    """What the recipe prints and writes if the commands are right."""

    def test_a_weight_is_set(self):
        printed = self.try_commands("reweight osd.2 1.0\n")
        self.assertIn(SET.format(42, self.folder), printed)
        self.assertIn("osd.2 (2): weight 0.50000 to 1.00000\n", printed)
        self.assertEqual((self.folder / "changes").read_text().count(": "), 3)
        self.assertEqual((self.folder / "map.bin").read_text(), MAP)
        self.assertIn("osd set norebalance", printed)

    def test_the_printed_commands_run(self):
        printed = self.try_commands("reweight osd.2 1.0\n")
        asked, given = self.run_shown(printed, 42)
        self.assertEqual((asked, given), ("osd setcrushmap -i - 42\n", (self.folder / "new.bin").read_text()))

    def test_the_way_back_is_guarded(self):
        printed = self.try_commands("reweight osd.2 1.0\n")
        self.assertIn(BACK.format(43, self.folder), printed)
        asked, given = self.run_shown(printed, 43)
        self.assertEqual((asked, given), ("osd setcrushmap -i - 43\n", MAP))

    def test_nothing_is_written_by_ceph_itself(self):
        wrapper = self.tools / "contained"
        wrapper.write_text('#!/bin/sh\ncase "$*" in *" -o "* | *"-i /"*) echo "no such folder here" >&2; exit 2 ;; esac\n'
                           'exec "$(dirname "$0")/ceph" "$@"\n')
        wrapper.chmod(0o755)
        self.environment["CEPH"] = str(wrapper)
        printed = self.try_commands("reweight osd.2 1.0\n")
        self.assertEqual(self.run_shown(printed, 42)[0], "osd setcrushmap -i - 42\n")

    def test_new_buckets_are_listed(self):
        self.assertIn("Are these the names", self.try_commands("add osd.3 1 host=h3 root=default\n"))

    def test_new_class_that_no_rule_takes(self):
        printed = self.try_commands("set-device-class sdd osd.1\n")
        self.assertIn("The class sdd is new, and no rule takes it. Is that the name that you meant?\n", printed)

    def test_new_class_that_a_rule_takes(self):
        self.put("cluster", CLASSES.replace("class hdd\ndevice", "class ssd\ndevice"))
        self.assertNotIn("is new, and no rule", self.try_commands("begin\nset-device-class hdd osd.1\ncommit\n"))

    def test_operators_sections(self):
        self.assertIn(" alice reweight ", self.try_commands("%operator alice\nreweight osd.2 1.0\n"))

    def test_commands_before_a_section(self):
        printed = self.try_commands("reweight osd.1 2\n%operator alice\nreweight osd.2 2\n")
        self.assertIn("# 1 commands reweight osd.1 2.00000 = done changed 1 made 0\n# 2 alice reweight osd.2 2.00000 = done ", printed)

    def test_operators_one_after_the_other(self):
        printed = self.try_commands("%operator zoe\nadd-bucket r1 rack\n%operator alice\nmove r1 root=default\n%operator bob\nmove h1 rack=r1\n")
        self.assertRegex(printed, "# 1 zoe .*\n# 2 alice .*\n# 3 bob ")
        self.assertIn("Is that what you meant?\nr1: zoe: in (root); bob: in (root); in the end: in default\n", printed)

    def test_lost_changes(self):
        self.put("cluster", MAP.replace("item h1 weight 2.00000", "item h1 weight 3.00000"))
        printed = self.try_commands("%operator alice\nreweight osd.0 2\n%operator bob\nreweight osd.0 3\n")
        self.assertIn("Changes of a script are lost, because another script undoes them. Is that what you meant?\n"
                      "osd.0: alice: weight 2.00000; bob: weight 3.00000\n", printed)
        self.assertIn("osd.0 weight 3.000000\n", (self.folder / "new.txt").read_text())
        self.assertIn(SET.format(42, self.folder), printed)

    def test_no_change_is_lost(self):
        printed = self.try_commands("%operator alice\nreweight osd.0 2\nreweight osd.0 3\n%operator bob\nreweight osd.0 3\n")
        self.assertNotIn("Changes of a script are lost", printed)

    def test_files_of_the_steps(self):
        self.try_commands("reweight osd.2 1.0\n")
        self.assertEqual({path.name for path in self.folder.iterdir()},
                         {"map.bin", "map.txt", "before.txt", "commands", "new.txt", "raw.bin", "new.bin", "after.txt", "changes", "back"})
        self.assertEqual((self.folder / "commands").read_text(), "reweight osd.2 1.0\n")
        self.assertTrue((self.folder / "new.txt").read_text().endswith("\n# end crush map\n"))

    def test_commands_of_any_name_and_of_a_pipe(self):
        os.mkfifo(str(self.here / "a b.txt"))
        writer = subprocess.Popen(["sh", "-c", 'echo reweight osd.2 1.0 > "a b.txt"'], cwd=str(self.here))
        self.assertIn("# 1 commands reweight osd.2 1.00000 = done", self.check(0, ("a b.txt", self.folder)))
        writer.wait()

    def test_device_with_class_in_a_batch(self):
        printed = self.try_commands("begin\nadd osd.3 1 host=h1\nset-device-class hdd osd.3\ncommit\n")
        self.assertIn("osd.3 (3): made as osd in h1 (-2), weight 1.00000, class hdd\n", printed)

    def test_what_is_so_already(self):
        printed = self.try_commands("reweight osd.2 0.5\n")
        self.assertIn("There is nothing to set", printed)
        self.assertNotIn("setcrushmap", printed)
        self.assertFalse(self.folder.exists())

    def test_no_device_is_left(self):
        self.put("cluster", re.sub(r"(?s)# rules\n.*?}\n", "# rules\n", MAP))
        self.assertIn("No device is left", self.try_commands("rm osd.0\nrm osd.1\nrm osd.2\n"))


class Refusals(Trial):
    """Faults for which the recipe stops before there is a new map."""

    def test_refused_command(self):
        printed = self.try_commands("reweight osd.2 1.0\nreweight h1 1.0\n", 1)
        self.assertIn("NotADevice", printed)
        self.assertIn("\n  h1 is a bucket: ", printed)

    def test_refused_batch_has_the_line_of_its_file(self):
        printed = self.try_commands("begin\nreweight osd.0 1\nreweight h1 1\ncommit\n", 1)
        self.assertIn("\n  {}:3: reweight h1 1.00000: ".format(self.here / "commands"), printed)

    def test_faulty_line(self):
        printed = self.try_commands("reweight osd.2 1.0\nfly h1\n", 1)
        self.assertIn("crushedit: NoSuchCommand\n  {} line 2, column 1\n    fly h1\n    ^\n".format(self.here / "commands"), printed)
        self.assertIn("is not a command: see --help", printed)
        self.assertNotRegex(printed, "line [0-9][0-9]")

    def test_faulty_line_of_a_section(self):
        printed = self.try_commands("# today\n\n%operator alice\nrm\n", 1)
        self.assertIn("crushedit: BadLine\n  {} line 4\n    rm\n".format(self.here / "commands"), printed)

    def test_open_batch(self):
        printed = self.try_commands("rm osd.2\nbegin\nrm osd.1\n", 1)
        self.assertIn("crushedit: OpenBatch\n  {} line 2\n    begin\n".format(self.here / "commands"), printed)

    def test_no_commands(self):
        self.assertIn("the file has no command", self.try_commands("# later\n", 1))
        self.assertIn("is empty", self.try_commands("", 1))

    def test_root_that_a_rule_takes(self):
        self.put("cluster", CLASSES)
        printed = self.try_commands("rm osd.0\nrm osd.1\nrm osd.2\nrm h1\nrm h2\nrm default\n", 1)
        self.assertIn("the rule replicated_rule takes default", printed)
        self.assertIn("No command of crushedit changes a rule. Change it on the cluster first", printed)

    def test_wanted_map_with_another_rule(self):
        printed = self.try_wanted(MAP.replace("type host\n\tstep emit", "type rack\n\tstep emit"), 1)
        self.assertIn("No command of crushedit changes a rule", printed)

    def test_missing_programs(self):
        for name in ("CEPH", "CRUSHTOOL", "CRUSHEDIT"):
            before, self.environment[name] = self.environment[name], str(self.here / "missing")
            self.try_commands("reweight osd.2 1.0\n", 1)
            self.environment[name] = before

    def test_broken_tools(self):
        for name, told in (("broken-d", "crushtool -d failed"), ("broken-c", "crushtool -c failed")):
            self.put(name, "")
            self.assertIn(told, self.try_commands("reweight osd.2 1.0\n", 1))
            (self.tools / name).unlink()

    def test_maps_that_are_none(self):
        for text, told in (("", "wrote no map"), ("".join(MAP.splitlines(True)[:20]), "isn't a whole map"),
                           ("# begin crush map\n# end crush map\n", "has no device")):
            self.put("cluster", text)
            self.assertIn(told, self.try_commands("reweight osd.2 1.0\n", 1))
        (self.tools / "cluster").unlink()
        self.assertIn("getcrushmap failed", self.try_commands("reweight osd.2 1.0\n", 1))

    def test_versions(self):
        for text in ("a warning\n", "42\n43\n", ""):
            self.put("version", text)
            self.assertIn("printed no version", self.try_commands("reweight osd.2 1.0\n", 1))
        for text in ("42\n2026-11-26 WARNING: a monitor is slow\n", "a warning\n42\n"):
            self.put("version", text)
            shutil.rmtree(str(self.folder), ignore_errors=True)
            self.assertIn(SET.format(42, self.folder), self.try_commands("reweight osd.2 1.0\n"))

    def test_a_signal_removes_the_folder(self):
        wrapper = self.tools / "waiting"
        wrapper.write_text('#!/bin/sh\nsleep 20\n')
        wrapper.chmod(0o755)
        (self.here / "commands").write_text("reweight osd.2 1.0\n")
        started = subprocess.Popen([str(RECIPE), "commands", "folder"], cwd=str(self.here), stderr=subprocess.DEVNULL,
                                   env={**self.environment, "CRUSHTOOL": str(wrapper)})
        while not (self.folder / "map.bin").exists():
            time.sleep(0.01)
        started.send_signal(signal.SIGTERM)
        self.assertEqual(started.wait(timeout=30), 1)
        self.assertFalse(self.folder.exists())


class Harm(Trial):
    """Maps that could harm a cluster. The recipe must stop, or the new map must have exactly the wanted changes."""

    def test_device_that_the_cluster_lacks(self):
        printed = self.try_commands("add osd.444 1.0 host=h1\n", 1)
        self.assertIn("the cluster has no osd.444. ", printed)

    def test_wanted_device_that_the_cluster_lacks(self):
        wanted = MAP.replace("device 2 osd.2\n", "device 2 osd.2\ndevice 444 osd.444\n").replace(
            "\titem osd.2 weight 0.50000\n", "\titem osd.2 weight 0.50000\n\titem osd.444 weight 1.00000\n")
        self.assertIn("the cluster has no osd.444. ", self.try_wanted(wanted, 1))

    def test_device_that_both_lack_stays(self):
        self.put("osds", "[0, 1]")
        self.try_commands("reweight osd.0 2\n")

    def test_class_tree_with_an_old_name_and_a_cut_text(self):
        text = CLASSES.replace("default {", "top {").replace("class hdd\n\tstep chooseleaf firstn 0 type host\n", "\0")
        self.put("cluster", text[:text.index("take default")])
        self.put("dump", json.dumps({"devices": [], "buckets": [], "rules": [{"rule_id": 0, "rule_name": "replicated_rule", "steps": [
            {"op": "take", "item": -11, "item_name": "default~hdd"}, {"op": "emit"}]}]}))
        printed = self.try_commands("reweight osd.0 2\n", 1)
        self.assertIn("rule replicated_rule takes top~hdd, which the map calls default~hdd\n", printed)
        self.assertIn("osd crush reweight-all", printed)

    def test_class_tree_with_the_name_of_another_root(self):
        other = "root other {\n\tid -4\n\tid -14 class hdd\n\talg straw2\n\thash 0\n}\n# rules"
        self.put("cluster", CLASSES.replace("# rules", other))
        self.put("dump", json.dumps({"devices": [], "buckets": [], "rules": [{"rule_id": 0, "rule_name": "replicated_rule", "steps": [
            {"op": "take", "item": -14, "item_name": "default~hdd"}, {"op": "emit"}]}]}))
        printed = self.try_commands("reweight osd.0 2\n", 1)
        self.assertIn("rule replicated_rule takes other~hdd, which the map calls default~hdd\n", printed)

    def test_no_weight_is_cut(self):
        self.put("cluster", MAP.replace("1.00000", "1.81898").replace("h1 weight 2.00000", "h1 weight 3.63797"))
        printed = self.try_commands("reweight osd.2 14.55269\n")
        self.assertIn("\n0 made, 0 removed, 0 renamed, 0 moved, 3 of other weight, 0 of other class\n", printed)
        before, after = ((self.folder / name).read_text() for name in ("map.txt", "after.txt"))
        self.assertEqual(re.findall("osd.[01] weight .*", before), re.findall("osd.[01] weight .*", after))
        self.assertIn("item osd.0 weight 1.818985\n", (self.folder / "new.txt").read_text())

    def test_a_map_that_is_compiled_otherwise(self):
        wrapper = self.tools / "careless"
        wrapper.write_text('#!/bin/sh\n"$(dirname "$0")/crushtool" "$@" || exit\n'
                           'case $1 in -c) sed -i "s/osd.1 weight 1.0/osd.1 weight 1.1/" "$4" ;; esac\n')
        wrapper.chmod(0o755)
        self.environment["CRUSHTOOL"] = str(wrapper)
        printed = self.try_commands("reweight osd.2 1\n", 1)
        self.assertIn("osd.1 in h1 weighs 1.100007 and not 1.000000\n", printed)


class Rules(Trial):
    """What the recipe does if rules would place fewer replicas than before, and what it says about data that moves."""

    def test_rule_that_places_nothing(self):
        del self.environment["REPLICAS"]
        printed = self.try_commands("rm osd.0\nrm osd.1\nrm osd.2\n", 1)
        self.assertIn("rule replicated_rule places less than before: of 1,024 placements of 2 replicas, 0 lacked a device before, and ", printed)

    def test_sizes_that_are_asked_about(self):
        self.environment["REPLICAS"] = "3"
        printed = self.try_commands("rm osd.0\nrm osd.1\nrm osd.2\n", 1)
        self.assertIn("placements of 3 replicas, 0 lacked a device before, and 10 do now", printed)

    def test_sizes_that_are_no_numbers(self):
        for words in ("2,3", "3x", "3 0", "-1"):
            self.environment["REPLICAS"] = words
            printed = self.try_commands("rm osd.0\nrm osd.1\nrm osd.2\n", 1)
            self.assertIn("is no size of a pool", printed)

    def test_crushtool_that_dies_at_the_new_map(self):
        self.put("broken-new", "")
        self.assertIn("crushtool --test", self.try_commands("reweight osd.2 1.0\n", 1))

    def test_what_moves_without_pools(self):
        printed = self.try_commands("reweight osd.2 1.0\n")
        self.assertIn("The cluster has no pool", printed)
        self.assertIn("rule replicated_rule: 0.0 % of 30 replicas move\n", printed)

    def test_replicas_are_counted_and_not_placements(self):
        printed = self.try_commands("add osd.3 1 host=h1\nreweight osd.0 0\n")
        self.assertIn("rule replicated_rule: 33.3 % of 30 replicas move\n", printed)

    def test_shards_are_counted_by_position(self):
        self.put("cluster", MAP.replace("type replicated", "type erasure"))
        printed = self.try_commands("add osd.3 1 host=h1\nreweight osd.0 0\n")
        self.assertIn("rule replicated_rule: 66.7 % of 30 shards move\n", printed)

    def test_pools_are_asked(self):
        del self.environment["REPLICAS"]
        self.put("pools", json.dumps([POOL, {**POOL, "pool_id": 2, "pool_name": "ec", "type": 3}]))
        self.put("df", json.dumps({"pools": [{"id": 1, "stats": {"bytes_used": 3 * 2**30}}]}))
        printed = self.try_commands("add osd.3 1 host=h1\nreweight osd.0 0\n")
        self.assertIn("pool rbd: 8 of 8 PGs move, 8 of 24 replicas, about 1.0 GiB\n", printed)
        self.assertIn("pool ec: 8 of 8 PGs move, 16 of 24 shards\n", printed)

    def test_pgs_that_get_fewer_devices(self):
        del self.environment["REPLICAS"]
        self.put("pools", json.dumps([POOL]))
        printed = self.try_commands("rm osd.1\n", 1)
        self.assertIn("pool rbd: 8 of 8 PGs get fewer devices than before, such as 1.0: 2 in place of 3\n", printed)

    def test_sizes_that_no_pool_has_stop_nothing(self):
        del self.environment["REPLICAS"]
        self.put("pools", json.dumps([{**POOL, "size": 2}]))
        self.put("cluster", MAP.replace("# rules", "root empty {\n\tid -9\n\talg straw2\n\thash 0\n}\n# rules"))
        self.try_commands("rm osd.1\n")
        self.environment["OSDMAPTOOL"] = str(self.here / "missing")
        shutil.rmtree(str(self.folder))
        printed = self.try_commands("rm osd.1\n")
        self.assertIn("missing can't be called, so these are 1,024 placements of each rule that a pool has", printed)
        self.assertIn("of 20 replicas move\n", printed)


class Ways(Trial):
    """Wanted maps (--to), and the ways to undo a change."""

    def test_wanted_map_and_the_day_after(self):
        wanted = MAP.replace("osd.2 weight 0.50000", "osd.2 weight 1.00000")
        self.assertIn(SET.format(42, self.folder), self.try_wanted(wanted))
        self.assertEqual((self.folder / "commands").read_text(), "# 1 commands\nreweight osd.2 1.00000\n")
        self.put("cluster", (self.folder / "new.bin").read_text())
        shutil.rmtree(str(self.folder))
        printed = self.try_wanted(wanted)
        self.assertIn("# 0 commands\n", printed)
        self.assertNotIn("setcrushmap", printed)
        self.assertFalse(self.folder.exists())

    def test_wanted_map_that_no_command_leads_to(self):
        self.assertIn("tunables differ\n", self.try_wanted(MAP.replace("tries 50", "tries 51"), 1))

    def test_wanted_map_of_a_pipe_and_with_a_fault(self):
        (self.here / "text").write_text(MAP.replace("osd.2 weight 0.50000", "osd.2 weight 1.00000"))
        os.mkfifo(str(self.here / "a b"))
        writer = subprocess.Popen(["sh", "-c", 'cat text > "a b"'], cwd=str(self.here))
        self.assertIn(SET.format(42, self.folder), self.check(0, ("--to", "a b", self.folder)))
        writer.wait()
        shutil.rmtree(str(self.folder))
        printed = self.try_wanted(MAP.replace("host h2", "hots h2"), 1)
        self.assertRegex(printed, "crushedit: to: byte [0-9]+: UnknownType\n  {} line [0-9]+, column 1\n".format(self.here / "wanted"))

    def test_wanted_map_that_was_cut(self):
        self.assertIn("isn't a whole map", self.try_wanted("".join(MAP.splitlines(True)[:30]), 1))
        self.assertIn("is empty or isn't there", self.check(1, ("--to", "missing", self.folder)))

    def test_a_change_is_taken_back_and_another_stays(self):
        printed = self.try_commands("move osd.0 host=h2\nadd-bucket r1 rack\n")
        self.assertIn("take back this change alone:\n", printed)
        self.assertIn("    crushedit-recipe {}/back ANOTHER_FOLDER\n".format(self.folder), printed)
        back = self.here / "saved"
        shutil.copy(str(self.folder / "back"), str(back))
        self.put("cluster", (self.folder / "new.bin").read_text().replace("osd.1 weight 1.00000", "osd.1 weight 2.00000"))
        shutil.rmtree(str(self.folder))
        self.assertIn("osd.0 (0): from h2 (-3) to h1 (-2)\n", self.check(0, (back, self.folder)))
        self.assertIn("osd.1 weight 2.00000", (self.folder / "after.txt").read_text())

    def test_no_way_back(self):
        printed = self.try_commands("add-bucket top root\nmove default root=top\n")
        self.assertIn("No commands take this change back: these differences would stay.\n", printed)
        self.assertIn("    # default: in top, wanted in (root)\n    # top: not wanted\n", printed)
        self.assertNotIn("these commands take back", printed)

    def test_a_way_back_in_part(self):
        printed = self.try_commands("add-bucket top root\nmove default root=top\nreweight osd.0 2\n")
        self.assertIn("these commands take back a part of this change.", printed)
        self.assertIn("    reweight osd.0 1.00000\n", printed)

    def test_adjusted_weights_are_named_last(self):
        self.put("cluster", MAP.replace("item h1 weight 2.00000", "item h1 weight 3.00000"))
        printed = self.try_commands("reweight osd.2 1.0\n")
        self.assertIn("which replaces it: see {}/adjusted\n".format(self.folder), printed)
        shutil.rmtree(str(self.folder))
        self.assertNotIn("/adjusted", self.try_commands("rm osd.0\nrm osd.1\nrm osd.2\n", 1))

    def test_negative_sums(self):
        heavy = MAP.replace("weight 1.00000", "weight 20000.00000").replace("h1 weight 2.00000", "h1 weight 40000.00000")
        self.put("cluster", heavy)
        printed = self.try_commands("reweight osd.2 1.0\n")
        self.assertNotIn("adjusted", printed)
        self.assertIn("item h1 weight 40000.000000\n", (self.folder / "map.txt").read_text())
        self.assertIn("item h1 weight 40000.000000\n", (self.folder / "after.txt").read_text())

    def test_sums_above_256(self):
        heavy = MAP.replace("osd.0 weight 1.00000", "osd.0 weight 250.00002").replace("osd.1 weight 1.00000", "osd.1 weight 250.00000")
        heavy = heavy.replace("h1 weight 2.00000", "h1 weight 500.00002")
        self.put("cluster", heavy)
        self.assertNotIn("/adjusted", self.try_commands("reweight osd.2 1.0\n"))


class Words(Trial):
    """Unusual names of files and folders, command lines, output streams and environments."""

    def test_names_like_options(self):
        for name in ("-n", "--version", "-h"):
            (self.here / name).write_text("reweight osd.2 1.0\n")
            printed = self.check(0, (name, self.folder))
            self.assertIn(SET.format(42, self.folder), printed)
            shutil.rmtree(str(self.folder))

    def test_faults_of_files_named_like_options(self):
        for name in ("-n", "--version"):
            (self.here / name).write_text("fly h1\n")
            self.assertIn("\n  ./{} line 1, column 1\n    fly h1\n".format(name), self.check(1, (name, self.folder)))

    def test_folders_with_blanks_and_quotes(self):
        for name in ("it's $1 today", "a\\nb", "-f"):
            self.folder = self.here / name
            (self.here / "commands").write_text("reweight osd.2 1.0\n")
            printed = self.check(0, ("commands", name))
            asked, given = self.run_shown(printed, 42)
            self.assertEqual((asked, given), ("osd setcrushmap -i - 42\n", (self.folder / "new.bin").read_text()))
            (self.tools / "asked").unlink()

    def test_folder_with_control_characters(self):
        self.folder = self.here / "a\nb"
        self.assertIn("has control characters", self.try_commands("reweight osd.2 1.0\n", 1))

    def test_control_characters_of_commands(self):
        printed = self.try_commands(b"fly \x1b[31m\xff\rh1\x07\n", 1)
        self.assertIn("line 1, column 1\n    fly ?[31m? h1?\n", printed)

    def test_folder_in_place_of_a_file(self):
        self.assertIn("is a folder and not a file", self.check(1, (self.here, self.folder)))

    def test_empty_names(self):
        for words in (("", self.folder), ("--to", "", self.folder)):
            self.assertIn("recipe:  is empty or isn't there: No such file or directory\n", self.check(1, words))

    def test_full_output(self):
        (self.here / "commands").write_text("reweight osd.2 1.0\n")
        for how in ("> /dev/full", ">&-", "> /dev/full 2>&1", ">&- 2>&-"):
            command = '"$0" commands folder ' + how
            ended = subprocess.run(["bash", "-c", command, str(RECIPE)], cwd=str(self.here), env=self.environment,
                                   stdin=subprocess.DEVNULL, stdout=subprocess.PIPE, stderr=subprocess.PIPE)
            self.assertEqual((ended.returncode, self.folder.exists()), (1, False), how)
            self.assertNotIn(b"Traceback", ended.stderr)

    def test_kept_folder(self):
        self.folder.mkdir()
        (self.folder / "map.bin").write_text("kept")
        (self.here / "commands").write_text("reweight osd.2 1.0\n")
        printed = self.run_words("commands", self.folder)
        self.assertEqual((self.status, (self.folder / "map.bin").read_text()), (1, "kept"), printed)

    def test_usage(self):
        for words in ((), ("commands",), ("a", "b", "c"), ("--to", "a"), ("--to", "a", "b", "c")):
            self.assertIn("usage: crushedit-recipe COMMANDS FOLDER, or crushedit-recipe --to WANTED FOLDER", self.check(1, words))

    def test_help(self):
        printed = self.check(0, ("--help",))
        self.assertIn("usage: crushedit-recipe COMMANDS FOLDER, or crushedit-recipe --to WANTED FOLDER\n", printed)

    def test_ceph_by_sudo(self):
        (self.tools / "sudo").write_text('#!/bin/sh\nexec "$@"\n')
        (self.tools / "sudo").chmod(0o755)
        self.environment["CEPH"] = "{0}/sudo {0}/ceph".format(self.tools)
        printed = self.try_commands("reweight osd.2 1.0\n")
        self.assertIn("    {0}/sudo {0}/ceph{1}".format(self.tools, BACK.format(43, self.folder)), printed)

    def test_any_locale(self):
        self.environment.update(LC_ALL="C", PYTHONIOENCODING="")
        self.folder = self.here / "für heute"
        printed = self.try_commands("reweight osd.2 1.0\n")
        self.assertIn("< '{}/new.bin'\n".format(self.folder), printed)
        shutil.rmtree(str(self.folder))
        (self.here / "für alle").write_text("fly h1\n")
        self.assertIn("\n  für alle line 1, column 1\n    fly h1\n", self.check(1, ("für alle", self.folder)))


class Exact(Trial):
    """Weights that crushedit prints, and that the stand-in for crushtool compiles."""

    def compiled(self, weights, *words):
        """Returns the units that weights have after crushedit has printed them and the stand-in has compiled them.

        `weights` are units (65536ths of 1.0), and `words` are the options of crushedit.
        """
        lines = ["device {} osd.{}\n".format(number, number) for number in range(len(weights))] + ["type 1 host\n"]
        lines += ["host h1 { id -1 alg straw2\n"]
        lines += ["item osd.{} weight {:.5f}\n".format(number, units / 65536) for number, units in enumerate(weights)] + ["}\n"]
        run = {"input": "".join(lines).encode(), "stdout": subprocess.PIPE, "check": True}
        text = self.run_limited([str(PROGRAM), *words], **run).stdout
        (self.here / "text").write_bytes(text)
        subprocess.run([str(self.tools / "crushtool"), "-c", str(self.here / "text"), "-o", str(self.here / "new")], check=True)
        items = re.findall(r"(?m)^\titem osd\.\d+ weight (\S+)$", (self.here / "new").read_text())
        return [round(float(weight) * 65536) for weight in items]

    def test_2000_weights_come_back(self):
        dice = random.Random(1)
        for _ in range(2):
            weights = [dice.randint(1, 100 * 65536) for _ in range(1000)]
            self.assertEqual(self.compiled(weights, "--exact"), weights)
            self.assertNotEqual(self.compiled(weights), weights, "the weights show no difference between both forms")


class Page(Trial):
    """The script on the page README.md, which is tested without the recipe."""

    def run_script(self):
        """Runs the script, and returns its status and what it prints on both streams."""
        readme = HERE.parent / "README.md"
        blocks = re.findall(r"(?ms)^```sh\n(.*?)^```$", readme.read_text() if readme.exists() else "")
        if not blocks:
            self.skipTest("README.md isn't there")
        ended = subprocess.run(["bash", "-c", blocks[0]], cwd=str(self.here), stdout=subprocess.PIPE, stderr=subprocess.STDOUT,
                               env={**self.environment, "PATH": "{}:{}".format(self.tools, os.environ["PATH"])})
        return ended.returncode, ended.stdout.decode()

    def test_script(self):
        status, printed = self.run_script()
        self.assertEqual(status, 0, printed)
        self.assertIn("osd.2 (2): weight 0.50000 to 1.00000\n", printed)
        self.assertIn("# 1 alice reweight osd.2 1.00000 = done changed 1 made 0\n", printed)
        self.assertRegex(printed, "setcrushmap -i .*42")
        made, = self.here.glob("*/new.bin")
        self.assertIn("\titem osd.2 weight 1.00000\n", made.read_text())
        kept, = self.here.glob("*/map.bin")
        self.put("cluster", "# end crush map\n")
        self.assertNotEqual(self.run_script()[0], 0)
        self.assertEqual(kept.read_text(), MAP, "the kept map is overwritten")

    def test_script_of_a_cut_map(self):
        self.put("cluster", MAP.replace("# end crush map\n", ""))
        status, printed = self.run_script()
        self.assertNotEqual(status, 0, printed)
        self.assertIn("crushedit: cut\n", printed)
        self.assertNotIn("setcrushmap", printed)


def main():
    global PROGRAM, RECIPE
    if len(sys.argv) not in (2, 3):
        sys.exit(__doc__)
    PROGRAM = os.path.abspath(sys.argv[1])
    RECIPE = os.path.abspath(sys.argv[2] if len(sys.argv) > 2 else str(HERE.parent / "bin/crushedit-recipe"))
    unittest.main(argv=["recipe_test.py"], verbosity=2)


if __name__ == "__main__":
    main()
