"""Computes Ceph's own commands for a list of edits, as `--as-ceph` prints them: a part of the plain model.

The plain model is a second implementation of crushedit, in Python, with which tests compare the program. An *edit* is
one command of crushedit, as the list of its words. A command of Ceph can do several edits.
"""

from model import run_one, shown, with_exact_weight

REWEIGHT_ALL = ["reweight-all"]


def is_placed(map, name):
    return name in map.items and map.parent(name) is not None


def leaves_old_name(map, words):
    """Returns whether an edit renames a bucket that a rule of the map takes with a class.

    Ceph keeps a copy of such a bucket for the class. The copy keeps its old name until a `reweight-all`."""
    if words[0] != "rename-bucket":
        return False
    taken = [number for rule in map.rules for line, number in rule["lines"] if number is not None and " class " in line]
    return words[1] in map.items and map.items[words[1]]["id"] in taken


def steps_of(map, edits):
    """Yields the steps that Ceph must do for these edits: the words of each edit, and `reweight-all`.

    The first edit is made on the given map. If no bucket holds the device of a `set`, the step is an `add`. A
    `reweight-all` follows after an edit for which `leaves_old_name` is true. If several such edits follow one another,
    it follows only after the last one."""
    was_left = False
    for words in edits:
        is_left = leaves_old_name(map, words)
        if was_left and not is_left:
            yield REWEIGHT_ALL
        added = words[0] == "set" and not is_placed(map, words[1])
        yield shown(["add", *words[1:]] if added else words).split()
        map, was_left = run_one(map, words)[0], is_left
    if was_left:
        yield REWEIGHT_ALL


def is_joined(last, step):
    """Returns whether one command of Ceph can do both a step and the last step before it."""
    kinds = (last[0], step[0])
    return (kinds == ("rm-device-class", "rm-device-class")
            or kinds in (("add-bucket", "move"), ("set-device-class", "set-device-class")) and last[1] == step[1])


def commands_of_ceph(map, edits):
    """Returns the words of each command of Ceph for these edits. The first edit is made on the given map."""
    commands, last = [], None
    for step in steps_of(map, edits):
        if last and is_joined(last, step):
            commands[-1] = commands[-1] + (step[1:] if step[0] == "rm-device-class" else step[2:])
        else:
            commands.append(step)
        last = step
    return commands


def ceph_lines(map, edits):
    """Returns the line `# N commands`, and a line for each command of Ceph. Weights have six decimal digits."""
    commands = commands_of_ceph(map, edits)
    lines = [f"# {len(commands)} commands"]
    for words in commands:
        sure = " --yes-i-really-mean-it" if words[0] == "swap-bucket" else ""
        end = "-- " if any(word.startswith("-") for word in words[1:]) else ""
        lines.append(f"ceph osd crush {end}{' '.join(with_exact_weight(words))}{sure}")
    return lines
