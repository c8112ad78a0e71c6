"""Computes what a run prints, and how the run ends: a part of the plain model.

The plain model is a second implementation of crushedit, in Python, with which tests compare the program. This module
computes three of the outputs that a run can print in place of the map's text. These are the tree (`--tree`), what has
changed since another map (`--since`), and Ceph's own commands (`--as-ceph`). The module also computes the status and
standard error of a run with a valid job, for example with `--strict` or `--no-make`.

- A *call* is a batch, or a command that is in no batch. Its *history line* shows the call and the reply to the call.
- The parameter `made` of many functions is the list of the calls of a run, in the order in which they were made. For
  each call, the list has the call and its history line.
"""

import re

from explained import by_id, created_text, in_order, makes_more, refused_text, tree_rows, written_text
from for_ceph import ceph_lines
from model import is_change, run_call, run_one, text_of


def type_name(map, name):
    kind = 0 if map.is_device(name) else map.items[name]["kind"]
    return map.types.get(kind, "osd")


def tree_text(map):
    rows = []
    for depth, name in tree_rows(map):
        item = map.items[name]
        what = name if map.is_device(name) else f"{type_name(map, name)} {name}"
        rows.append([str(item["id"]), item.get("class") or "", text_of(map.weight(name)),
                     " " * min(4 * depth, 64) + what])
    heads = ["ID", "CLASS", "WEIGHT"]
    widths = [max(len(row[column]) for row in [heads, *rows]) for column in range(3)]
    lines = ["  ".join([*(head.ljust(width) for head, width in zip(heads, widths)), "TYPE NAME"])]
    lines += ["  ".join([*(word.rjust(width) for word, width in zip(row, widths)), row[3]]) for row in rows]
    return "".join(line + "\n" for line in lines)


def place_of(map, name):
    parent = map.parent(name)
    if parent:
        return f"{parent} ({map.items[parent]['id']})"
    return "(unplaced)" if map.is_device(name) else "(root)"


def parent_id(map, name):
    parent = map.parent(name)
    return map.items[parent]["id"] if parent else None


def whole(map, name):
    """Returns what is printed about an item that only one of two maps has."""
    kind = map.items[name].get("class")
    return (f"{type_name(map, name)} in {place_of(map, name)}, weight {text_of(map.weight(name))}"
            + (f", class {kind}" if kind else ""))


def differences(old, was, new, name):
    """Yields the parts of the line of an item that both maps have, each with the name of the count that counts it.

    The counts are in the last line of the output, for example `moved`. If no count counts a part, the part has None in
    place of the name. `was` is the item's name in the old map, and `name` is the item's name in the new map."""
    one, other = old.items[was], new.items[name]
    if was != name:
        yield "renamed", f"was {was}"
    if one.get("kind") != other.get("kind"):
        yield None, f"type {type_name(old, was)} to {type_name(new, name)}"
    if parent_id(old, was) != parent_id(new, name):
        yield "moved", f"from {place_of(old, was)} to {place_of(new, name)}"
    if old.weight(was) != new.weight(name):
        yield "of other weight", f"weight {text_of(old.weight(was))} to {text_of(new.weight(name))}"
    if one.get("class") != other.get("class"):
        yield "of other class", f"class {one.get('class') or '(none)'} to {other.get('class') or '(none)'}"
    if one.get("alg") != other.get("alg"):
        yield None, f"alg {one['alg']} to {other['alg']}"
    if list(one.get("ids", ())) != list(other.get("ids", ())):
        yield None, "class ids"


def total(map):
    return sum(item["weight"] for name, item in map.items.items() if map.is_device(name) and map.parent(name))


def weight_as(map, number, kind):
    """Returns the total weight of the devices below the bucket with this id, or 0 if the map has no such bucket.

    If `kind` is the name of a class, only the devices of this class count. If `kind` is None, all devices count."""
    name = map.with_id(number)
    below = map.below(name) if name else []
    return sum(map.items[n]["weight"] for n in below if map.is_device(n) and kind in (None, map.items[n].get("class")))


def emptied(old, new):
    """Yields a line for each step with which a rule of the new map takes a bucket that weighs nothing any more.

    The bucket with the same id weighed more than 0 in the old map, and weighs 0 in the new map. If the step names a
    class, only the devices of this class count."""
    for rule in new.rules:
        for step, number in rule["lines"]:
            if number is not None:
                kind = step.partition(" class ")[2] or None
                if weight_as(old, number, kind) and not weight_as(new, number, kind):
                    taken = new.with_id(number) + (f"~{kind}" if kind else "")
                    yield f"rule {rule['name']} takes nothing: {taken} weighs {text_of(0)}"


def changed_rules(old, new):
    """Returns the lines about the rules that differ. If only the order of the rules differs, there is one line.

    `old` and `new` are the rules of the two maps. Each rule is a pair: its name, and everything else that the map says
    about the rule."""
    if old == new:
        return []
    before, after = dict(old), dict(new)
    lines = [f"rule {name} {'differs' if name in before else 'is new'}" for name, rest in new if before.get(name) != rest]
    lines += [f"rule {name} is gone" for name, _ in old if name not in after]
    return lines or ["rules stand in another order"]


def class_weights(map):
    """Returns the total weight of the devices of each class, for the classes that at least one device has."""
    weights = {}
    for name, item in map.items.items():
        if map.is_device(name) and item.get("class"):
            weights[item["class"]] = weights.get(item["class"], 0) + item["weight"]
    return weights


def classes_taken(map):
    steps = [step for rule in map.rules for step, number in rule["lines"] if number is not None]
    return {step.split(" class ")[1].strip() for step in steps if " class " in step}


def class_lines(old, new):
    """Yields a line for each class whose devices have another total weight than in the old map.

    Then it yields a line for each class that only the new map has and that no rule of the new map takes."""
    was, now = class_weights(old), class_weights(new)
    for kind in sorted({*was, *now}):
        if was.get(kind, 0) != now.get(kind, 0):
            yield f"class {kind} weighed {text_of(was.get(kind, 0))}, weighs {text_of(now.get(kind, 0))}"
    for kind in sorted({*now} - {*was} - classes_taken(new)):
        yield f"class {kind} is new, and no rule takes it"


def since_text(old, new):
    before, after = by_id(old), by_id(new)
    counts = dict.fromkeys(["made", "removed", "renamed", "moved", "of other weight", "of other class"], 0)
    lines = []
    for number in in_order({*before, *after}):
        was, name = before.get(number), after.get(number)
        if was is None:
            counts["made"] += 1
            parts = [f"made as {whole(new, name)}"]
        elif name is None:
            counts["removed"] += 1
            parts = [f"removed, was {whole(old, was)}"]
        else:
            told = list(differences(old, was, new, name))
            parts = [part for _, part in told]
            for heading, _ in told:
                if heading:
                    counts[heading] += 1
        if parts:
            lines.append(f"{was if name is None else name} ({number}): {'; '.join(parts)}")
    if list(old.tunables) != list(new.tunables):
        lines.append("tunables differ")
    if old.types != new.types:
        lines.append("types differ")
    lines += changed_rules(*([(rule["name"], rule["lines"]) for rule in map.rules] for map in (old, new)))
    lines += emptied(old, new)
    lines += class_lines(old, new)
    lines.append(f"total {text_of(total(old))} to {text_of(total(new))}")
    lines.append(", ".join(f"{count} {heading}" for heading, count in counts.items()))
    return "".join(line + "\n" for line in lines)


def ceph_text(map, made):
    """Returns Ceph's own commands for all commands of the calls that changed the map.

    `map` is the map before the first of the calls in `made`."""
    edits = [words for (_, edits), line in made if is_change(line) for words in edits]
    return "".join(line + "\n" for line in ceph_lines(map, edits))


def body(words, since, read, map, made):
    """Returns what a run prints before the history, if its command line has these words.

    `since` is the map of `--since`, `read` is the map before the calls, and `map` is the map after the calls."""
    if "--tree" in words:
        return tree_text(map)
    if "--since" in words:
        return since_text(since, map)
    return ceph_text(read, made) if "--as-ceph" in words else map.text()


def run_in_turn(map, scripts):
    """Makes the calls of the scripts, one script after the other.

    Returns the map after all calls, and the list of the calls, each with its history line. `scripts` has the operator
    and the calls of each script."""
    made, changes = [], 0
    for operator, calls in scripts:
        for call in calls:
            map, line = run_call(map, call, changes)
            changes += is_change(line)
            made.append((call, f"# {len(made) + 1} {operator} {line}\n"))
    return map, made


def is_refusal(line):
    return " = refused " in line


def reasons(words, read, made, adjusted, text, files):
    """Returns what a run prints on standard error about refused calls and the map's text, except for `first_line`.

    `words` are the words of the command line. With `--explain`, the result has the refused calls with their reasons,
    and the lines about the map's text. With only `--strict`, it has the history lines of the refused calls. `read` is
    the map before the first call of `made`. `adjusted` has the weights of the map's text that crushedit has replaced.
    `text` is the text of the job, and `files` are the files of the job, as `own_line` in explained.py takes them."""
    if "--explain" in words:
        return refused_text(read, made, text, files) + written_text(adjusted, text)
    return "".join(line for _, line in made if is_refusal(line)) if "--strict" in words else ""


def first_line(status, refused, adjusted):
    """Returns the first line on standard error of a run with status 0, or with status 5 because of refused calls.

    A run with status 0 prints such a line only if it has replaced weights. Otherwise the result is "". `refused` has
    the refused calls, and `adjusted` has the replaced weights."""
    if status == 5:
        return f"crushedit: refused {len(refused)}\n"
    return f"crushedit: adjusted {len(adjusted)}\n" if adjusted else ""


def created_notes(words, read, made):
    """Returns what `--no-make` prints on standard error about calls that created more buckets than they may.

    These are the calls that created more buckets than they have commands `add-bucket`. Without `--no-make`, or if
    there is no such call, the result is "". `read` is the map before the first call of `made`."""
    count = sum(makes_more(call, line) for call, line in made)
    if "--no-make" not in words or count == 0:
        return ""
    return f"crushedit: made {count}\n" + created_text(read, made, "--explain" in words)


def ending(words, since, read, adjusted, scripts, text, files):
    """Returns the status, the standard output and the standard error of a run whose scripts run one after the other.

    `since` is the map of `--since`, and `read` is the map before the scripts. `adjusted` has the weights of the map's
    text that crushedit has replaced. `text` and `files` are the job, as `reasons` takes them."""
    map, made = run_in_turn(read, scripts)
    refused = [line for _, line in made if is_refusal(line)]
    told = reasons(words, read, made, adjusted, text, files)
    created = created_notes(words, read, made)
    if "--strict" in words and refused:
        return 5, "", first_line(5, refused, adjusted) + told + created
    if created:
        return 5, "", created + told
    history = "" if "--no-history" in words else "".join(line for _, line in made)
    return 0, body(words, since, read, map, made) + history, first_line(0, refused, adjusted) + told


def history_of(printed, count):
    """Splits the output of a run with `count` calls: returns what is before the history, and the history lines."""
    lines = printed.splitlines(keepends=True)
    return "".join(lines[: len(lines) - count]), [re.sub(r"\n$", "", line) for line in lines[len(lines) - count :]]
