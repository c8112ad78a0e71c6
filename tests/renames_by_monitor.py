"""Renames buckets on a monitor of Ceph, and checks the names of the buckets' class trees.

    python3 tests/renames_by_monitor.py crates/crushedit/out/crushedit FOLDER N SEED [--leave-out]

A *class tree* is Ceph's copy of a bucket for a device class. The copy has only the devices of this class. Its name is
the name of the bucket, followed by `~` and the class. The test needs root, and a monitor that `tests/monitor.sh start`
has started in FOLDER.

The monitor gets N random maps, one after the other. Each map has rules with a step `take BUCKET class CLASS`. A script
of `rename-bucket` commands gives new names to these buckets. The test sends the monitor the commands that `--as-ceph`
prints for the script, and the monitor must accept each of them. After that, the part of each class tree's name before
the `~` must be the name of a bucket of the map. In the text that `crushtool -d` prints of the monitor's map, the steps
`take` must have the new names.

With --leave-out, the test doesn't send the commands `reweight-all`. Then some class trees keep their old names, which
shows that the test notices such names.

The test prints how many maps, commands and class trees there were, and how many class trees have the name of no
bucket. The status is 1 if there is such a class tree, if the monitor refuses a command, or if a rule doesn't take the
new name of its bucket.
"""

import json
import os
import re
import sys

import chance
from against_monitor import Failed, Monitor, edited, random_text

CLASSES = ("hdd", "ssd")
RULE = """rule taken{number} {{
	id {id}
	type replicated
	step take {bucket} class {kind}
	step chooseleaf firstn 0 type osd
	step emit
}}
"""


def with_rules(text, dice):
    """Adds rules to the text of a map, each with a step `take BUCKET class CLASS`. No two rules take the same bucket.
    Returns the new text and the names of these buckets."""
    names = re.findall(r"(?m)^(?:host|rack|row|root|room) (\S+) \{$", text)
    taken = dice.sample(names, min(len(names), dice.choice((1, 2, 3))))
    rules = "".join(RULE.format(number=number, id=number + 10, bucket=name, kind=dice.choice(CLASSES)) for number, name in enumerate(taken))
    return text.replace("# end crush map", rules + "\n# end crush map"), taken


def other_names(monitor):
    """Returns the names of all class trees of the monitor's map, and then those names whose part before the `~` isn't
    the name of a bucket."""
    names = [bucket["name"] for bucket in json.loads(monitor.asked("osd", "crush", "dump"))["buckets"]]
    trees = [name for name in names if "~" in name]
    return trees, [name for name in trees if name.partition("~")[0] not in names]


def main():
    leaves_out = "--leave-out" in sys.argv
    program, root, count, seed = [word for word in sys.argv[1:] if word != "--leave-out"]
    monitor, dice = Monitor(os.path.realpath(root)), chance.Dice(int(seed))
    maps = sent = trees = others = 0
    while maps < int(count):
        text, taken = with_rules(random_text(dice), dice)
        if not taken:
            continue
        try:
            text = monitor.take(text)
        except Failed:
            continue  # The map is refused, because a rule takes a class that no device below the bucket has.
        maps += 1
        script = "%operator a\n" + "".join(f"rename-bucket {name} new-{name}\n" for name in taken)
        for line in edited(program, text, script, "--as-ceph").splitlines():
            if not line.startswith("#") and not (leaves_out and line.endswith("reweight-all")):
                monitor.asked(*line.split()[1:])
                sent += 1
        found, wrong = other_names(monitor)
        now = monitor.text() if not wrong else ""
        if now and any(f"step take new-{name} class" not in now for name in taken):
            raise Failed(f"{text}{script}the rules take other names:\n{now}")
        trees, others = trees + len(found), others + len(wrong)
    print(f"{maps} maps, {sent} commands, {trees} class trees, of which {others} have the name of no bucket")
    sys.exit(others > 0)


main()
