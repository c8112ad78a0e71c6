"""Compares the map in the documents of `--json` with the output of Ceph's `crushtool --dump` for the same map.

    python3 tests/json_by_crushtool.py crates/crushedit/out/crushedit [MAPS [SEED [FILE ..]]]

The test makes MAPS maps (40 if MAPS isn't given), and then reads the map's text in each FILE. Without a SEED, the seed
is random. The test needs a `crushtool` of version 18. The environment variable CRUSHTOOL can name another crushtool
than the one in the PATH.

- Every other map comes from `crushtool --build`, with random layers. Some of its devices then get other weights with
  `--reweight-item`. The other maps are the random maps of `against_crushtool.py`, with device classes, and with rules
  that have random steps.
- If crushedit refuses the map of a FILE, the test leaves out this FILE, and prints its name.
- From every third map, the test removes the line of type 0, unless a rule needs this type.

crushtool compiles each map, and computes the weights of its buckets anew. Then crushtool prints the resulting binary
map in two forms: as a text, which crushedit reads, and with `--dump`. The lists of devices, types, buckets and rules
must be equal in crushedit's document and in the dump, also in their order. The page docs/user/json.md says what
crushtool prints in another way, or in addition. The test accepts only the following differences in these four lists:

- A device `deviceN` for each unused id N below the greatest id of a device.
- A type with the number 0 and the name `device`, if the map declares no type 0.
- The buckets of *class trees*, that is, Ceph's copies of the buckets for each device class. The ids of these buckets
  must be exactly the class ids in the map's text, and their names must be `NAME~CLASS`.
- A number in place of the name of a rule's step, for the steps in NUMBERED.

The test stops at the first difference that it doesn't accept. It also stops if crushtool is missing, or if crushtool
or crushedit fails or crashes. If the test stops, the status is 1. Otherwise the test prints at the end how many maps
and how many objects of each list it has compared.
"""

import collections
import json
import os
import pathlib
import random
import re
import subprocess
import sys
import tempfile

from against_crushtool import Crashed, Crushtool, Failed, in_decimals, random_map, run, with_tunables
from documents import SERVED, with_classes, with_rules

TYPE = "type 0 osd\n"
# The steps that crushtool prints with the members `opcode`, `arg1` and `arg2`. The key is the value of `opcode`.
NUMBERED = {10: "set_choose_local_tries", 11: "set_choose_local_fallback_tries", 12: "set_chooseleaf_vary_r", 13: "set_chooseleaf_stable"}
COMPARED = ["devices", "types", "buckets", "rules"]


def built(dice, crushtool):
    """Returns the text of a map that `crushtool --build` makes. Up to five of its devices get random weights."""
    layers = [word for kind in ("host", "rack", "row")[: dice.randint(1, 3)]
              for word in (kind, dice.choice(["straw2", "straw", "list"]), str(dice.randint(2, 5)))]
    count, file = dice.randint(1, 40), crushtool.file("built")
    run([crushtool.program, "--build", "--num_osds", str(count), *layers, "root", "straw2", "0", "-o", file])
    for number in dice.sample(range(count), min(count, 5)):
        run([crushtool.program, "-i", file, "--reweight-item", f"osd.{number}", in_decimals(dice), "-o", file])
    return crushtool.text("built")


def drawn(dice):
    """Returns the text of a random map with device classes, rules and tunables."""
    map = with_classes(dice, random_map(dice, in_decimals))
    classes = sorted({item["class"] for item in map.items.values() if "class" in item})
    return with_tunables(with_rules(dice, map, classes, list(SERVED)).text())


def told(step):
    """Returns a step of crushtool's dump, with the step's name in place of its number."""
    return {"op": NUMBERED[step["opcode"]], "num": step["arg1"]} if "opcode" in step else step


def without_what_is_added(dumped, ours):
    """Returns the four lists of crushtool's dump without the things that only crushtool may print.

    Everything else that only crushtool prints stays in the lists, so the comparison finds it."""
    numbers = {device["id"] for device in ours["devices"]}
    unused = [{"id": number, "name": f"device{number}"} for number in range(max(numbers, default=-1)) if number not in numbers]
    undeclared = [{"type_id": 0, "name": "device"}] if all(kind["type_id"] for kind in ours["types"]) else []
    rules = [{**rule, "steps": [told(step) for step in rule["steps"]]} for rule in dumped["rules"]]
    return {"devices": [device for device in dumped["devices"] if device not in unused],
            "types": [kind for kind in dumped["types"] if kind not in undeclared],
            "buckets": [bucket for bucket in dumped["buckets"] if "~" not in bucket["name"]], "rules": rules}


def class_buckets(text):
    """Yields the id and the name of each bucket of a class tree, for the class ids in the text of a map."""
    for name, block in re.findall(r"(?ms)^\S+ (\S+) \{\n(\tid .*?)^\}", text):
        yield from ((int(number), f"{name}~{kind}") for number, kind in re.findall(r"id (-\d+) class (\S+)", block))


def compare(program, crushtool, text, is_untyped, counts):
    """Returns a text that shows the first difference between the dump and the document of a map, or None.

    If `is_untyped` is true, the line of type 0 is removed from the map, unless a rule needs this type."""
    is_untyped = is_untyped and TYPE in text and " type osd\n" not in text
    counts["without type 0"] += is_untyped
    crushtool.compiled(text.replace(TYPE, "") if is_untyped else text, "map")
    # crushtool also prints the line of type 0 if the compiled text has no such line.
    printed = crushtool.text("map").replace(TYPE, "") if is_untyped else crushtool.text("map")
    dumped = json.loads(run([crushtool.program, "-i", crushtool.file("map"), "--dump", "--format", "json"]))
    ours = json.loads(run([program, "--json"], printed))["map"]
    theirs = without_what_is_added(dumped, ours)
    for part in COMPARED:
        counts[part] += len(ours[part])
        if ours[part] != theirs[part]:
            return f"{printed}--- {part} here\n{json.dumps(ours[part], sort_keys=True)}\n--- dumped\n{json.dumps(theirs[part], sort_keys=True)}"
    of_classes = {(bucket["id"], bucket["name"]) for bucket in dumped["buckets"] if "~" in bucket["name"]}
    counts["steps"] += sum(len(rule["steps"]) for rule in ours["rules"])
    counts["buckets of classes"] += len(of_classes)
    return None if of_classes == set(class_buckets(printed)) else f"{printed}--- buckets of classes dumped\n{of_classes}"


def is_refused(program, text):
    return subprocess.run([program], input=text.encode(), capture_output=True).returncode == 1


def texts(crushtool, program, maps, seed, files):
    """Yields the name and the text of each map. Prints the name of each file whose map crushedit refuses."""
    for index in range(maps):
        dice = random.Random(f"{seed} {index}")
        yield f"map {index} of seed {seed}", built(dice, crushtool) if index % 2 else drawn(dice)
    for file in files:
        text = pathlib.Path(file).read_text()
        if is_refused(program, text):
            print(f"{file}: refused")
        else:
            yield file, text


def main(program, maps=40, seed=None, *files):
    program, seed, counts = os.path.abspath(program), seed or random.randrange(10**6), collections.Counter()
    with tempfile.TemporaryDirectory() as folder:
        crushtool = Crushtool(os.environ.get("CRUSHTOOL", "crushtool"), folder)
        try:
            for index, (name, text) in enumerate(texts(crushtool, program, int(maps), seed, files)):
                fault = compare(program, crushtool, text, index % 3 == 2, counts)
                if fault:
                    sys.exit(f"{fault}\n--- {name}")
                counts["maps"] += 1
        except FileNotFoundError as fault:
            sys.exit(f"{fault.filename} isn't there: crushtool is in Debian's package ceph-base, or CRUSHTOOL names it")
        except (Failed, Crashed) as fault:
            sys.exit(f"{fault}\n--- {name}")
    print(f"{counts.pop('maps')} maps of seed {seed} are dumped alike: " + ", ".join(f"{what} {count}" for what, count in sorted(counts.items())))


if __name__ == "__main__":
    main(*sys.argv[1:])
