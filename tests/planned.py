"""Computes the text of a plan, and the differences that remain after a plan: a part of the plain model.

The plain model is a second implementation of crushedit, in Python, with which tests compare the program. A *plan* is
the output of `--to`: the commands that change one map into the *wanted map*, and the differences that remain after
these commands. The module compares the items of two maps by their names. Some functions check the order of a plan's
commands. A command is given as the list of its words.
"""

from looking import place_of, tree_rows, type_name
from model import is_change, run_one, shown, text_of


def counterpart(map, other, name):
    """Returns whether the map has the counterpart of an item of the other map.

    The counterpart has the same name. Either both are buckets, or both are devices with the same id."""
    if name not in map.items:
        return False
    if map.is_device(name) and other.is_device(name):
        return map.items[name]["id"] == other.items[name]["id"]
    return map.is_device(name) == other.is_device(name)


def place(map, name):
    return map.parent(name) or place_of(map, name)


def parts(map, wanted, name):
    """Yields the differences that a plan reports for an item that both maps have."""
    one, other = map.items[name], wanted.items[name]
    if type_name(map, name) != type_name(wanted, name) and not map.is_device(name):
        yield f"type {type_name(map, name)}, wanted {type_name(wanted, name)}"
    if place(map, name) != place(wanted, name):
        yield f"in {place(map, name)}, wanted in {place(wanted, name)}"
    if map.is_device(name) and abs(one["weight"] - other["weight"]) > 1:
        yield f"weight {text_of(one['weight'])}, wanted {text_of(other['weight'])}"
    for word, key in (("class", "class"), ("alg", "alg")):
        if one.get(key) != other.get(key):
            yield f"{word} {one.get(key) or '(none)'}, wanted {other.get(key) or '(none)'}"


def rule_lines(map):
    return [[line if number is None else line.format(map.with_id(number)) for line, number in rule["lines"]]
            for rule in map.rules]


def stays(map, wanted):
    """Returns the lines about the differences between a map and the wanted map, except for different ids."""
    lines = []
    for _, name in tree_rows(wanted):
        if counterpart(map, wanted, name):
            told = list(parts(map, wanted, name))
        else:
            told = [f"wanted as {type_name(wanted, name)} in {place(wanted, name)}"]
        if told:
            lines.append(f"{name}: {'; '.join(told)}")
    lines += [f"{name}: not wanted" for _, name in tree_rows(map) if not counterpart(wanted, map, name)]
    lines += ["tunables differ"] * (list(map.tunables) != list(wanted.tunables))
    lines += ["types differ"] * (map.types != wanted.types)
    return lines + ["rules differ"] * (rule_lines(map) != rule_lines(wanted))


def aside_counts(map, wanted):
    """Counts the buckets that both maps have with different ids, and those with different class ids."""
    both = [name for name in wanted.items if not wanted.is_device(name) and counterpart(map, wanted, name)]
    pairs = [(map.items[name], wanted.items[name]) for name in both]
    return {"ids": sum(one["id"] != other["id"] for one, other in pairs),
            "class_ids": sum(list(one.get("ids", ())) != list(other.get("ids", ())) for one, other in pairs)}


def aside(map, wanted):
    """Returns the lines with the counts of `aside_counts`. A count of 0 has no line."""
    counts = aside_counts(map, wanted)
    return [f"{what} of {count} buckets differ" for what, count in (("ids", counts["ids"]), ("class ids", counts["class_ids"])) if count]


def made_by(map, commands):
    """Returns the map after these commands.

    Raises `ValueError` if a command is refused, if it changes nothing, or if a history line shows it in another
    form."""
    for words in commands:
        map, line = run_one(map, words)
        if not is_change(line):
            raise ValueError(f"a command of a plan isn't done, or changes nothing: {line}")
        if shown(words) != " ".join(words):
            raise ValueError(f"a command of a plan reads as another: {shown(words)}")
    return map


def remade(map, wanted, made, commands):
    """Yields the names of the buckets that the commands have removed and created again, although both maps have them.

    `made` is the map after the commands. A bucket counts as removed if no item of `made` has the bucket's id, or if
    one of the created buckets has this id."""
    created = [words[1] for words in commands if words[0] == "add-bucket"]
    for name in created:
        if counterpart(map, wanted, name) and made.with_id(map.items[name]["id"]) in [None, *created]:
            yield name


def moved_late(commands):
    """Yields the buckets that a plan creates and moves, if the first move isn't the next command."""
    for at, words in enumerate(commands):
        if words[0] == "add-bucket":
            moves = [later for later, other in enumerate(commands) if later > at and other[:2] == ["move", words[1]]]
            if moves and moves[0] != at + 1:
                yield words[1]


def class_after(commands, at, device):
    """Returns the first class that the command at this index, or a later command, gives to the device, or None."""
    return next((words[1] for words in commands[at:] if words[0] == "set-device-class" and words[2] == device), None)


def class_of_command(commands, at):
    """Returns the class that a command is about.

    If the command sets the class of a device, it is this class. If the command removes the class of a device, it is
    the class that the device gets later, or None if the device gets none. For any other command, it is None."""
    words = commands[at]
    if words[0] == "set-device-class":
        return words[1]
    return class_after(commands, at, words[1]) if words[0] == "rm-device-class" else None


def out_of_class(commands):
    """Yields the devices that have no class and wait for a new class, while a command isn't about this new class."""
    waiting = {}
    for at, words in enumerate(commands):
        if words[0] == "set-device-class":
            waiting.pop(words[2], None)
        its = class_of_command(commands, at)
        yield from (device for device, due in waiting.items() if due != its)
        if words[0] == "rm-device-class" and its:
            waiting[words[1]] = its


def is_applied(map, commands):
    """Returns whether the map refuses none of the commands, and each of them changes the map."""
    for words in commands:
        map, line = run_one(map, words)
        if not is_change(line):
            return False
    return True


def weighed_twice(map, commands):
    """Yields the devices whose weight is set by an unnecessary `reweight`.

    A later `reweight-subtree` sets the weight of the device again. The `reweight` is unnecessary if the commands after
    it, up to this `reweight-subtree`, are all applied without the `reweight`, and each of them changes the map."""
    weighed = {}
    for at, words in enumerate(commands):
        if words[0] == "reweight-subtree":
            for name in [name for name in weighed if name in map.below(words[1])]:
                before, first = weighed.pop(name)
                if is_applied(before, commands[first + 1:at + 1]):
                    yield name
        if words[0] == "reweight":
            weighed[words[1]] = map, at
        map, _ = run_one(map, words)


def plan_text(commands, map, wanted):
    """Returns the text of a plan with these commands. `map` is the map after the commands."""
    rest = stays(map, wanted)
    lines = [f"# {len(commands)} commands", *(" ".join(words) for words in commands)]
    lines += [f"# {len(rest)} differences stay"] * bool(rest) + [f"# {line}" for line in rest + aside(map, wanted)]
    return "".join(line + "\n" for line in lines)


def commands_of(text):
    """Returns the commands in the text of a plan, each as the list of its words."""
    return [line.split() for line in text.splitlines() if not line.startswith("#")]
