"""Compares the JSON documents that crushedit prints for random jobs with documents that the plain model computes.

    python3 tests/documents.py crates/crushedit/out/crushedit [JOBS [SEED]]

Without JOBS, the test runs 1,000 jobs. SEED may be any word. Without SEED, the test draws a random seed. The jobs are
those of chance.py, with tunables, device classes, ids for device classes, and rules with all kinds of steps.

For each job, the program prints several documents (`--json`): of the map, of the tree, of a part of the tree
(`--under NAME`, `--down-to TYPE`), of the changes since another map (`--since`), of the changes in a part, and of
plans to the other map (`--to`, with and without `--by-name`). The module parts.py says which items a part has. The
program prints each document twice, with the history and without it. In these runs, the scripts of the job run one
after the other. In a last run, which prints the document of the map, the scripts run at once, each in its own thread.
The history may then differ from run to run. So the document of this run is compared with the document that the model
computes for the same history.

The *plain model* is a second implementation of the program, in Python. The model makes the calls of the job, and this
script computes a value for each document from the model's map and history lines. The script was written from
docs/user/json.md alone. For `--since`, the script reads from the text that the model prints without `--json` which
items, rules and settings have changed, and the numbers of changes. The commands of a plan are those that the program
prints for `--to` without `--json`. The model applies these commands.

Each document must be one line of ASCII that Python's module json can read. The document must be byte for byte what
the module json writes for the value, with the members sorted by name. The weights in plans are the only decimals, and
must have six digits after the point.

After the jobs, the test checks the stored documents in examples/asked/. Each document must be one line of ASCII that
the module json can read. The module json must write the same bytes for what it has read.

The test prints how many documents it has compared, and what they contain. The status is 1 if a document is wrong.
"""

import collections
import json
import os
import pathlib
import random
import re
import sys
import tempfile

from against_reference import run
from at_once import made_by
from chance import Dice, random_job
from explained import by_id, tree_rows
from looking import class_weights, classes_taken, run_in_turn, since_text, total, type_name
from model import exact_text_of, is_change, run_call, units_of
from parts import cut, part_ids
from planned import aside_counts, commands_of, made_by as made_by_plan, stays
from plans import TUNABLES, after_script, any_map, expect
from reading import read_job, read_map

ASKED = pathlib.Path(__file__).resolve().parent.parent / "examples/asked"
CLASSES = ["hdd", "ssd", "nvme"]
SERVED = {"replicated": 1, "erasure": 3}
# The steps of a rule, except for the step `take`, which takes a bucket.
STEPS = ["step set_choose_tries 100", "step set_chooseleaf_tries 5", "step set_choose_local_tries 0", "step set_chooseleaf_vary_r 1",
         "step set_choose_local_fallback_tries 2", "step set_chooseleaf_stable 1", "step choose firstn 0 type rack",
         "step chooseleaf firstn -1 type host", "step choose indep 4 type osd", "step chooseleaf indep 0 type row", "step emit"]
OPERATOR, UNTOLD = re.compile(r"(?m)^(?=%)"), "--no-history"
# The names of a command's members in a document, in the order of the command's words in a script.
COMMANDS = {
    "move": ("name",), "swap-bucket": ("source", "dest"), "reweight": ("name", "weight"), "reweight-subtree": ("name", "weight"),
    "rm": ("name",), "add-bucket": ("name", "type"), "rename-bucket": ("srcname", "dstname"), "set-device-class": ("class", "ids"),
    "rm-device-class": ("ids",), "add": ("id", "weight"), "set": ("id", "weight"), "create-or-move": ("id", "weight"),
}


def without_none(value):
    return {name: member for name, member in value.items() if member is not None}


def step_value(map, line, number):
    """Returns the value of a rule's step. `line` is the step as the model stores it, and `number` is the id of the
    bucket that the step takes, or None."""
    first, *rest = line.split()[1:]
    if first == "take":
        kind = rest[2] if rest[1:] else None
        class_ids = {own: number for number, own in map.items[map.with_id(number)].get("ids", ())}
        return {"op": first, "item": class_ids.get(kind) if kind else number,
                "item_name": map.with_id(number) + (f"~{kind}" if kind else "")}
    if first in ("choose", "chooseleaf"):
        return {"op": f"{first}_{rest[0]}", "num": int(rest[1]), "type": rest[3]}
    return {"op": first, "num": int(rest[0]) if rest else None}


def rule_value(map, rule):
    serves = rule["lines"][2][0].split()[1]
    steps = [without_none(step_value(map, line, number)) for line, number in rule["lines"] if line.startswith("\tstep ")]
    return {"rule_id": rule["id"], "rule_name": rule["name"], "steps": steps, "type": SERVED.get(serves, serves)}


def bucket_value(map, name):
    item = map.items[name]
    items = [{"id": map.items[kid]["id"], "pos": place, "weight": map.weight(kid)} for place, kid in enumerate(item["kids"])]
    return {"alg": item["alg"], "hash": "rjenkins1", "id": item["id"], "items": items, "name": name,
            "type_id": item["kind"], "type_name": map.types[item["kind"]], "weight": map.weight(name)}


def map_value(map):
    names = list(by_id(map).values())
    devices = [{"class": map.items[name].get("class"), "id": map.items[name]["id"], "name": name}
               for name in names if map.is_device(name)]
    return {"buckets": [bucket_value(map, name) for name in names if not map.is_device(name)],
            "devices": [without_none(device) for device in devices],
            "rules": [rule_value(map, rule) for rule in sorted(map.rules, key=lambda rule: rule["id"])],
            "tunables": dict(map.tunables),
            "types": [{"name": map.types[kind], "type_id": kind} for kind in sorted(map.types)]}


def tree_value(map, part):
    """Returns the value of the tree of a part. The children of a bucket are all its items in the map, even if they
    aren't in the part."""
    told = {False: [], True: []}
    for depth, name in tree_rows(part):
        item, is_device = map.items[name], map.is_device(name)
        children = None if is_device else [map.items[kid]["id"] for kid in item["kids"]]
        node = {"children": children, "depth": depth, "device_class": item.get("class"), "id": item["id"], "name": name,
                "type": type_name(map, name), "type_id": item.get("kind", 0), "weight": map.weight(name)}
        told[is_device and not map.parent(name)].append(without_none(node))
    return {"nodes": told[False], "stray": told[True]}


def class_ids_value(map, name):
    """Returns the value of the ids that a bucket has for device classes, or None for a device."""
    return None if map.is_device(name) else [{"class": kind, "id": number} for number, kind in map.items[name].get("ids", ())]


def seen_value(map, name):
    """Returns the value that describes the item with this name in a map. If the map doesn't have the item, the name is
    None, and the result is None."""
    return name and without_none({"alg": map.items[name].get("alg"), "class": map.items[name].get("class"),
                                  "class_ids": class_ids_value(map, name), "name": name, "parent": map.parent(name),
                                  "type": type_name(map, name), "weight": map.weight(name)})


def rule_changes_value(text):
    """Yields the values for the lines about rules in the text of `--since`."""
    for line in text.splitlines():
        differs = re.fullmatch(r"rule (\S+) (?:is )?(new|differs|gone)", line)
        emptied = re.fullmatch(r"rule (\S+) takes nothing: ([^\s~]+)(?:~(\S+))? weighs 0.00000", line)
        if differs:
            yield {"change": differs[2], "name": differs[1]}
        elif emptied:
            yield without_none({"bucket": emptied[2], "change": "takes nothing", "class": emptied[3], "name": emptied[1]})
        elif line == "rules stand in another order":
            yield {"change": "other order"}


def class_changes_value(old, new):
    """Returns the values of the classes whose total weight differs, and of the new classes that no rule takes."""
    was, now, taken = class_weights(old), class_weights(new), classes_taken(new)
    other = {kind for kind in {*was, *now} if was.get(kind, 0) != now.get(kind, 0)}
    return [{"is": now.get(kind, 0), "name": kind, "taken": kind in taken, "was": was.get(kind, 0)}
            for kind in sorted(other | {*now} - {*was} - taken)]


def since_value(old, new, under):
    """Returns the value of what has changed. The items and numbers are read from the model's text of `--since`. For a
    part (if `under` isn't None), the value only has the items of the part."""
    text = since_text(old, new)
    ids = [int(number) for number in re.findall(r"(?m)^\S+ \((-?\d+)\): ", text)]
    own = set(ids) if under is None else part_ids(old, new, under)
    items = [without_none({"id": number, "is": seen_value(new, new.with_id(number)), "was": seen_value(old, old.with_id(number))})
             for number in ids if number in own]
    if under is not None:
        return {"items": items}
    counts = {words.removeprefix("of other "): int(count) for count, words in re.findall(r"(\d+) ([a-z ]+)", text.splitlines()[-1])}
    differ = {what: f"\n{what} differ\n" in f"\n{text}" for what in ("tunables", "types")}
    return {"classes": class_changes_value(old, new), "counts": counts, "items": items, "rules": list(rule_changes_value(text)),
            "total": [total(old), total(new)], **differ}


def command_value(words):
    """Returns the value of a plan's command, in the form that a monitor of Ceph accepts. The weight is a text that
    begins with `=`, because `bare` replaces the decimals of a document with such texts."""
    first, *rest = words
    names = COMMANDS[first]
    members = dict(zip(names, rest))
    value = {"prefix": f"osd crush {first}", **members}
    if "id" in names:
        value["id"] = int(members["id"].removeprefix("osd."))
    if "weight" in names:
        value["weight"] = f"={exact_text_of(units_of(members['weight']))}"
    if "ids" in names:
        value["ids"] = [members["ids"]]
    if "id" in names or first == "move":
        value["args"] = rest[len(names):]
    return {**value, "yes_i_really_mean_it": True} if first == "swap-bucket" else value


def entry_value(line):
    """Returns the value of a history line."""
    number, operator, told = line.rstrip("\n").split(" ", 3)[1:]
    call, _, reply = told.rpartition(" = ")
    value = {"call": call, "number": int(number), "operator": operator, "reply": reply}
    refused = re.fullmatch(r"refused (?:at (\d+) )?(\w+) (\d+)(?: changes (\d+))?", reply)
    if refused:
        at, name, errno, changes = (int(word) if word and word.isdigit() else word for word in refused.groups())
        return without_none({**value, "refusal": name, "errno": errno, "at": at, "changes": changes})
    changed, made = re.search(r" changed (\d+) made (\d+)$", reply).groups()
    return {**value, "changed": int(changed), "made": int(made)}


def bare(text):
    """Replaces each decimal weight of a document with a text: a `=` and the same digits. No other text in a document
    begins with `=`. So the test compares the digits of the decimals, and not only their values."""
    return re.sub(r'(?<=[{,]"weight":)(\d+\.\d{6})(?=[,}])', r'"=\1"', text)


def expect_document(what, text, due):
    """Checks that the text is the document of this value, byte for byte. Otherwise raises ValueError."""
    if not text.isascii() or text.count("\n") != 1 or not text.endswith("\n"):
        raise ValueError(f"{what}: no line of ASCII: {text!r}")
    json.loads(text)
    expect(what, bare(text), json.dumps(due, sort_keys=True, separators=(",", ":")) + "\n")


def with_classes(dice, map):
    """Gives about half of the map's devices a random class, and returns the map."""
    for name, item in map.items.items():
        if map.is_device(name) and dice.random() < 0.5:
            item["class"] = dice.choice(CLASSES)
    return map


def with_class_ids(dice, map):
    """Gives each bucket of the map up to two ids for device classes, and returns the map."""
    spare = iter(range(-40, -100, -1))
    for name, item in map.items.items():
        if not map.is_device(name):
            item["ids"] = [(next(spare), kind) for kind in dice.sample(CLASSES, dice.randint(0, 2))]
    return map


def with_rules(dice, map, classes, served):
    """Gives the map up to three rules, and returns the map. Each rule takes one or two buckets, with one of these
    classes or without a class. The type of the rule is one of `served`."""
    buckets = [name for name in map.items if not map.is_device(name)]
    map.rules = []
    for number in dice.sample(range(6), dice.randint(0, 3)):
        kinds = ["", *(f" class {kind}" for kind in classes)]
        takes = [(f"\tstep take {{}}{dice.choice(kinds)}", map.items[dice.choice(buckets)]["id"]) for _ in range(dice.randint(1, 2))]
        steps = [(f"\t{step}", None) for step in dice.sample(STEPS, dice.randint(0, 4))]
        head = [f"rule rule{number} {{", f"\tid {number}", f"\ttype {dice.choice(served)}"]
        map.rules.append({"name": f"rule{number}", "id": number, "lines": [*((line, None) for line in head), *takes, *steps, ("}", None)]})
    return map


def job_of(dice):
    """Returns a random job, and the text of the other map, for `--since` and `--to`."""
    front, *sections = OPERATOR.split(random_job(dice)[0])
    map = with_class_ids(dice, with_classes(dice, read_map(front)[0]))
    map.tunables = dice.choice(TUNABLES)
    with_rules(dice, map, CLASSES, [*SERVED, "msr"])
    other = after_script(dice, map) if dice.random() < 0.7 else any_map(dice)
    return map.text() + "".join(sections), other.text()


def printed(program, folder, words):
    status, text, told = run(program, words, "", folder)
    expect(f"status and standard error of {' '.join(words)}", (status, told), (0, ""))
    return text


def part_words(dice, map):
    """Returns random options `--under` and `--down-to`, and the part of the map that they select. If neither option
    is drawn, the part is the whole map."""
    under = dice.choice([None, *map.items])
    kind = dice.choice([None, None, *map.types.values()])
    words = (["--under", under] if under else []) + (["--down-to", kind] if kind else [])
    return words, cut(map, under, kind)


def values(program, folder, dice, map, wanted):
    """Yields pairs: options, and the value of the document that the program must print with them, without the
    history. `map` is the map after the scripts, and `wanted` is the other map."""
    yield [], {"map": map_value(map)}
    for words, part in (([], cut(map, None, None)), part_words(dice, map)):
        yield ["--tree", *words], {"tree": tree_value(map, part)}
    under = dice.choice(list(map.items))
    yield ["--since", "MAP"], {"since": since_value(wanted, map, None)}
    yield ["--tree", "--since", "MAP"], {"since": since_value(wanted, map, None)}
    yield ["--since", "MAP", "--under", under], {"since": since_value(wanted, map, under)}
    for words in ([], ["--by-name"]):
        commands = commands_of(printed(program, folder, ["--in-turn", UNTOLD, "--to", "MAP", *words, "JOB"]))
        made = made_by_plan(map, commands)
        yield ["--to", "MAP", *words], {"aside": aside_counts(made, wanted), "plan": [command_value(words) for words in commands],
                                        "stays": stays(made, wanted)}


def check(program, folder, dice, job, other, counts):
    read, _, scripts = read_job(job)
    wanted = read_map(other)[0]
    map, made = run_in_turn(read, scripts)
    history = [entry_value(line) for _, line in made]
    for words, value in values(program, folder, dice, map, wanted):
        for more, due in (([], {"history": history, **value}), ([UNTOLD], value)):
            asked = ["--in-turn", "--json", *words, *more]
            expect_document(" ".join(asked), printed(program, folder, [*asked, "JOB"]), due)
            counts[" and ".join(value)] += 1
        counts["commands"] += len(value.get("plan", ()))
    counts.update(entry["reply"].split()[0] for entry in history)
    at_once = json.loads(printed(program, folder, ["--json", "JOB"]))
    lines = [f"# {entry['number']} {entry['operator']} {entry['call']} = {entry['reply']}" for entry in at_once["history"]]
    check_at_once(read, made_by(dict(scripts), lines), at_once)
    counts["at once"] += 1


def check_at_once(map, made, told):
    """Checks the document of a run at once. `made` has the calls in the order of the document's history, each with
    its history line. The document must be the one that the model computes for these calls."""
    changes = 0
    for number, (call, line) in enumerate(made, 1):
        operator = line.split(" ")[2]
        map, due = run_call(map, call, changes)
        changes += is_change(due)
        expect("at once", line, f"# {number} {operator} {due}\n")
    expect("at once", told, {"history": [entry_value(line) for _, line in made], "map": map_value(map)})


def stored_faults(counts):
    """Yields a message for each stored output of a run with `--json` that isn't one line of ASCII, or that Python's
    module json can't read, or for which the module json then writes other bytes."""
    for words in sorted(ASKED.glob("*.words")):
        out = words.with_suffix(".out")
        if "--json" in words.read_text().split() and out.exists():
            counts["stored"] += 1
            text = out.read_bytes().decode("latin-1")
            try:
                expect_document(out.name, text, json.loads(bare(text)))
            except ValueError as fault:
                yield f"examples/asked/{out.name}: {fault}"


def main(program, jobs=1000, seed=None):
    program, jobs = os.path.abspath(program), int(jobs)
    seed = seed or random.randrange(10**6)
    print(f"{jobs} jobs of seed {seed}")
    counts, wrong = collections.Counter(), 0
    for index in range(jobs):
        dice = Dice(f"{seed} {index}")
        job, other = job_of(dice)
        with tempfile.TemporaryDirectory() as folder:
            for name, text in (("JOB", job), ("MAP", other)):
                pathlib.Path(folder, name).write_text(text)
            try:
                check(program, folder, dice, job, other, counts)
            except (ValueError, KeyError, IndexError) as fault:
                print(f"job {index}: {type(fault).__name__} {fault}\n{job}--- MAP\n{other}")
                wrong += 1
    faults = list(stored_faults(counts))
    print("\n".join([*faults, f"{wrong + len(faults)} wrong; " + ", ".join(f"{what} {count}" for what, count in sorted(counts.items()))]))
    return wrong or faults


if __name__ == "__main__":
    sys.exit(1 if main(*sys.argv[1:]) else 0)
