#!/usr/bin/env python3
"""Tests the functions of the recipe bin/crushedit-recipe one by one.

    python3 tests/recipe_units_test.py

The tests need no program except for Python. The status is 1 if a test fails.
"""
import importlib.machinery
import importlib.util
import io
import os
import pathlib
import sys
import tempfile
import unittest
from unittest import mock

sys.dont_write_bytecode = True
TOP = pathlib.Path(__file__).resolve().parent.parent
sys.path.insert(0, str(TOP / "tests"))
from recipe_test import CLASSES, MAP, POOL  # noqa: E402

# The name of the recipe doesn't end with `.py`, so a plain `import` wouldn't find the recipe.
loader = importlib.machinery.SourceFileLoader("recipe", str(TOP / "bin/crushedit-recipe"))
recipe = importlib.util.module_from_spec(importlib.util.spec_from_loader("recipe", loader))
sys.modules["recipe"] = recipe
loader.exec_module(recipe)


class Printing(unittest.TestCase):
    def test_shown(self):
        self.assertEqual(recipe.shown("a\tb\x1b[31m\x00\nä\u202e\ufffd"), "a b?[31m?\nä??")

    def test_quoted(self):
        self.assertEqual(recipe.quoted("day-1/a_b.c"), "day-1/a_b.c")
        self.assertEqual(recipe.quoted("it's \\n"), "'it'\"'\"'s \\n'")
        for name in ("a\nb", "a\x1bb", os.fsdecode(b"a\xff")):
            with self.assertRaises(recipe.Stop):
                recipe.quoted(name)

    def test_indented(self):
        self.assertEqual(recipe.indented("a\n b\n"), "    a\n     b")

    def test_bytes_of(self):
        for number, words in ((0, "0 B"), (1023, "1023 B"), (1536, "1.5 KiB"), (3 * 2**40, "3.0 TiB"), (2**52, "4096.0 TiB")):
            self.assertEqual(recipe.bytes_of(number), words)


class CommandLine(unittest.TestCase):
    def asked(self, *words):
        request = recipe.request_of(list(words))
        return request.commands, request.wanted, request.folder

    def test_request_of(self):
        self.assertEqual(self.asked("commands", "day1"), ("commands", None, "day1"))
        self.assertEqual(self.asked("-n", "--to"), ("./-n", None, "./--to"))
        self.assertEqual(self.asked("--to", "wanted", "day1"), (None, "wanted", "day1"))
        self.assertEqual(self.asked("--to", "-w", "-d"), (None, "./-w", "./-d"))
        for words in ((), ("a",), ("a", "b", "c"), ("--to",), ("--to", "a"), ("--to", "a", "b", "c"), ("--fly", "a", "b")):
            with self.assertRaises(recipe.Stop):
                recipe.request_of(list(words))

    def test_help_ends_with_status_0(self):
        with mock.patch("sys.stdout", io.StringIO()) as printed, self.assertRaises(SystemExit) as end:
            recipe.request_of(["--help"])
        self.assertFalse(end.exception.code)
        self.assertIn(recipe.USAGE, printed.getvalue())

    def test_tools_of(self):
        tools = recipe.tools_of({"CEPH": " sudo  ceph ", "CRUSHTOOL": ""})
        self.assertEqual(tools, (["sudo", "ceph"], ["crushtool"], ["osdmaptool"], ["crushedit"]))

    def test_sizes_of(self):
        self.assertIsNone(recipe.sizes_of({}))
        self.assertIsNone(recipe.sizes_of({"REPLICAS": " "}))
        self.assertEqual(recipe.sizes_of({"REPLICAS": "3  6"}), [3, 6])
        for words in ("2,3", "3x", "0", "-1", "1000", "3\n4 x"):
            with self.assertRaises(recipe.Stop):
                recipe.sizes_of({"REPLICAS": words})


class Files(unittest.TestCase):
    def setUp(self):
        temporary = tempfile.TemporaryDirectory()
        self.addCleanup(temporary.cleanup)
        self.here = temporary.name

    def test_new_folder(self):
        name = os.path.join(self.here, "day1")
        for is_kept in (False, True):
            with recipe.new_folder(name) as folder:
                folder.is_kept = is_kept
                self.assertEqual(folder.write("a", "ä\n"), os.path.join(name, "a"))
                self.assertEqual((folder.read("a"), folder.text("a")), ("ä\n".encode(), "ä\n"))
            self.assertEqual(os.path.exists(name), is_kept)
        for path in (name, os.path.join(self.here, "none", "day1")):
            with self.assertRaises(recipe.Stop), recipe.new_folder(path):
                pass
        self.assertTrue(os.path.exists(name))

    def test_read_file(self):
        path = os.path.join(self.here, "file")
        for data in (b"", b"x" * (recipe.LONGEST_JOB + 1)):
            with open(path, "wb") as file:
                file.write(data)
            with self.assertRaises(recipe.Stop):
                recipe.read_file(path)
        for path in (self.here, os.path.join(self.here, "none")):
            with self.assertRaises(recipe.Stop):
                recipe.read_file(path)
        self.assertEqual(recipe.read_file(str(TOP / "examples/example.txt")), MAP.encode())

    def test_run(self):
        code = "import sys; print(1); print(2, file=sys.stderr); sys.exit(3)"
        self.assertEqual(recipe.run([sys.executable, "-c", code]), (3, b"1\n", "2\n"))
        with self.assertRaises(recipe.Stop) as stop:
            recipe.output_of([sys.executable, "-c", code], "the trial")
        self.assertEqual((str(stop.exception), stop.exception.detail), ("the trial failed with status 3", "2"))
        with self.assertRaises(recipe.Stop):
            recipe.run([os.path.join(self.here, "none")])

    def test_ask_ceph(self):
        tools = recipe.Tools([sys.executable, "-c", "print(); print('[1, 2]')"], [], [], [])
        self.assertEqual(recipe.ask_ceph(tools, "osd", "ls"), [1, 2])
        with self.assertRaises(recipe.Stop):
            recipe.ask_ceph(tools._replace(ceph=[sys.executable, "-c", "print('no')"]), "osd", "ls")


class Weights(unittest.TestCase):
    UNITS = [0, 1, 2, 3, 119208, 119209, 238465, 65535, 65536, 6553600, 2**31, 4294967295, *range(1000003, 4 * 10**9, 39999983)]

    def test_units_of(self):
        for weight, units in (("0", 0), ("1", 65536), ("1.0", 65536), ("0.00002", 1), ("1.81897", 119208), ("3.63869", 238465),
                              ("0.00000762939453125", 1), ("0.00000762939453124", 0)):
            self.assertEqual(recipe.units_of(weight), units)

    def test_exact_weight(self):
        for units, weight in ((1, "0.000016"), (119208, "1.818970"), (238465, "3.638688"), (4294967295, "65535.999985")):
            self.assertEqual(recipe.exact_weight(units), weight)
        for units in self.UNITS:
            weight = recipe.exact_weight(units)
            self.assertEqual(recipe.units_of(weight), units)
            self.assertEqual(int(weight.replace(".", "")) * 65536 // 1000000, units)

    def test_with_dumped_weights(self):
        text = MAP.replace("h1 weight 2.00000", "h1 weight -25536.00000").replace("osd.0 weight 1.00000", "osd.0 weight 1.819")
        dump = {"devices": [{"id": number, "name": "osd.{}".format(number)} for number in range(3)],
                "buckets": [{"id": -2, "name": "h1", "items": [{"id": 0, "weight": 119209}, {"id": 1, "weight": 65536}]},
                            {"id": -1, "name": "default", "items": [{"id": -2, "weight": 40000 * 65536 - 2**32}]}]}
        self.assertEqual(recipe.with_dumped_weights(text, dump), MAP.replace("h1 weight 2.00000", "h1 weight 40000.000000").replace(
            "osd.0 weight 1.00000", "osd.0 weight 1.818985").replace("osd.1 weight 1.00000", "osd.1 weight 1.000000"))


class Texts(unittest.TestCase):
    def test_read_map(self):
        read = recipe.read_map(CLASSES)
        self.assertEqual(read.devices, {0: ("osd.0", "hdd"), 1: ("osd.1", ""), 2: ("osd.2", "")})
        self.assertEqual(read.settings[0], ["tunable", "choose_total_tries", "50"])
        self.assertEqual(read.settings[1:], [["type", number, name] for number, name in
                                             (("0", "osd"), ("1", "host"), ("3", "rack"), ("11", "root"))])
        self.assertEqual(list(read.buckets), ["h1", "h2", "default"])
        default, rule = read.buckets["default"], read.rules["replicated_rule"]
        self.assertEqual(default.ids(), {"": -1, "hdd": -11})
        self.assertEqual(default.items(), {"h1": 131072, "h2": 32768})
        self.assertEqual(default.settings(), ("root", -1, [["alg", "straw2"], ["hash", "0"]], ["h1", "h2"]))
        self.assertEqual((rule.takes(), recipe.rule_id(rule)), (["default~hdd"], 0))
        self.assertEqual((read.classes(), read.taken_classes()), ({"hdd"}, {"hdd"}))
        self.assertEqual(read.names(), {0: "osd.0", 1: "osd.1", 2: "osd.2", -1: "default", -2: "h1", -3: "h2", -11: "default~hdd",
                                        -12: "h1~hdd", -13: "h2~hdd"})

    def test_a_text_that_was_cut_anywhere(self):
        for length in range(len(CLASSES)):
            read = recipe.read_map(CLASSES[:length])
            read.names(), read.taken_classes(), [bucket.settings() for bucket in read.buckets.values()]

    def test_check_whole(self):
        recipe.check_whole(MAP, "map.txt")
        with self.assertRaises(recipe.Stop):
            recipe.check_whole(MAP.replace("# end", "#end"), "map.txt")

    def dump(self, item, name):
        return {"rules": [{"rule_name": "replicated_rule", "steps": [{"op": "take", "item": item, "item_name": name},
                                                                     {"op": "emit"}]}]}

    def test_false_takes(self):
        read = recipe.read_map(CLASSES)
        self.assertEqual(recipe.false_takes(read, self.dump(-11, "default~hdd")), [])
        for item, name, true in ((-11, "top~hdd", "default~hdd"), (-12, "default~hdd", "h1~hdd"), (-99, "x~hdd", "the id -99")):
            self.assertEqual(recipe.false_takes(read, self.dump(item, name)), [("replicated_rule", name, true)])
        other = recipe.read_map(CLASSES.replace("take default class hdd", "take h1 class hdd"))
        self.assertEqual(len(recipe.false_takes(other, self.dump(-11, "default~hdd"))), 1)
        cut = recipe.read_map(CLASSES[:CLASSES.index("default class hdd")])
        self.assertEqual(recipe.false_takes(cut, self.dump(-11, "default~hdd")), [])
        self.assertEqual(len(recipe.false_takes(cut, self.dump(-11, "top~hdd"))), 1)

    def test_differences(self):
        meant = recipe.read_map(MAP)
        classes = CLASSES.replace("osd.0 class hdd", "osd.0").replace("default class hdd", "default")
        self.assertEqual(recipe.differences(meant, recipe.read_map(classes)), [])
        for old, new, line in (("1 osd.1\n", "1 osd.1 class ssd\n", "the devices differ"), ("tries 50", "tries 51", "the tunables or types differ"),
                               ("type 3 rack", "type 3 shelf", "the tunables or types differ"), ("step emit", "step take h1", "the rules differ"),
                               ("id -2", "id -4", "the bucket h1 differs"), ("alg straw2", "alg straw", "the bucket h1 differs"),
                               ("\titem osd.2 weight 0.50000\n", "", "the bucket h2 differs"),
                               ("osd.2 weight 0.50000", "osd.2 weight 0.50002", "osd.2 in h2 weighs 0.500016 and not 0.500000"),
                               ("h2 weight 0.50000", "h2 weight 0.50002", "h2 in default weighs 0.500016 and not 0.500000")):
            self.assertEqual(recipe.differences(meant, recipe.read_map(MAP.replace(old, new, 1)))[0], line)

    def test_any_map_is_read(self):
        for path in sorted((TOP / "examples").glob("maps/*.job")):
            text = path.read_text().partition("%")[0]
            read = recipe.read_map(text)
            self.assertEqual(len(read.devices), text.count("\ndevice "), path.name)
            read.names(), read.taken_classes()

    def test_fault_lines(self):
        told = "crushedit: line 45: NoSuchCommand\n  day (1)/commands line 2, column 1\n    fly\n    ^\n  why\n"
        self.assertEqual(recipe.fault_lines(told, "day (1)/commands", "a\\1b"),
                         "crushedit: NoSuchCommand\n  a\\1b line 2, column 1\n    fly\n    ^\n  why\n")
        self.assertEqual(recipe.fault_lines("crushedit: refused 1\n# 1 a\n  t??g/commands:5: rm x: why\n", "t\u00e4g/commands", "file"),
                         "crushedit: refused 1\n# 1 a\n  file:5: rm x: why\n")
        other = "crushedit: byte 5: BadWord\n  day/map.txt line 2, column 1\n    day/commands line 2\n"
        self.assertEqual(recipe.fault_lines(other, "day/commands", "file"), other)
        self.assertEqual(recipe.fault_lines("", "day/commands", "file"), "")

    def test_lost_changes(self):
        folder = recipe.Folder("day")
        for status, errors, lost in ((0, "crushedit: adjusted 1\nh1: 1.00000 was written, the sum is 2.00000\n", []),
                                     (5, "crushedit: conflicts 2\nosd.0: a: removed; b: removed\nr1: a: made\nmore\n",
                                      ["osd.0: a: removed; b: removed", "r1: a: made"])):
            tools = recipe.Tools([], [], [], [sys.executable, "-c", "import sys; sys.stderr.write({!r}); sys.exit({})".format(errors, status)])
            self.assertEqual(recipe.lost_changes(tools, folder), lost)
        tools = recipe.Tools([], [], [], [sys.executable, "-c", "import sys; sys.exit('crushedit: out of memory')"])
        with self.assertRaises(recipe.Stop):
            recipe.lost_changes(tools, folder)


class Placements(unittest.TestCase):
    def test_devices_of(self):
        self.assertEqual(recipe.devices_of("1,2147483647,0"), [1, None, 0])
        self.assertEqual(recipe.devices_of(""), [])
        self.assertEqual(recipe.count_of([1, None, 0]), 2)

    def test_moved(self):
        for before, after, replicas, shards in (([0, 1, 2], [0, 1, 2], 0, 0), ([0, 1, 2], [2, 0, 1], 0, 3), ([0, 1, 2], [0, 3, 1], 1, 2),
                                                ([0, 1], [0, 1, 2], 1, 1), ([0, 1, 2], [0, None, 2], 0, 0), ([0, None], [0, 5], 1, 1)):
            self.assertEqual((recipe.moved(before, after, False), recipe.moved(before, after, True)), (replicas, shards))

    def test_check_pgs(self):
        recipe.check_pgs([POOL], {1: {"0": [0, 1], "1": [0]}}, {1: {"0": [2, 3], "1": [4, 5]}})
        with self.assertRaises(recipe.Stop) as stop:
            recipe.check_pgs([POOL], {1: {"0": [0, 1], "a": [0, 1]}}, {1: {"0": [2, 3], "a": [4, None]}})
        self.assertEqual(stop.exception.detail,
                         "pool rbd: 1 of 2 PGs get fewer devices than before, such as 1.a: 1 in place of 2")

    def test_pool_line(self):
        before, after = {"0": [0, 1, 2], "1": [3, 4, 5]}, {"0": [1, 0, 3], "1": [3, 4, 5]}
        self.assertEqual(recipe.pool_line(POOL, before, after, 6 * 2**30),
                         "pool rbd: 1 of 2 PGs move, 1 of 6 replicas, about 1.0 GiB")
        self.assertEqual(recipe.pool_line({**POOL, "type": 3}, before, after, None), "pool rbd: 1 of 2 PGs move, 3 of 6 shards")
        self.assertEqual(recipe.pool_line(POOL, {"0": []}, {"0": []}, 5), "pool rbd: 0 of 1 PGs move, 0 of 0 replicas")


if __name__ == "__main__":
    unittest.main()
