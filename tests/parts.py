"""Checks with the plain model what crushedit prints for parts of random maps, and for comparisons by names.

    python3 tests/parts.py crates/crushedit/out/crushedit [JOBS [SEED]]

The plain model is a second implementation of crushedit, in Python. A *part* of a map is an item with everything below
the item (`--under`). A part can also leave out everything below the buckets of a type (`--down-to`). A comparison by
names compares two maps by the names of their items (`--by-name`). There are JOBS jobs (1000 if JOBS isn't given). The
SEED may be any word. Without a SEED, the test draws a random seed. The test prints the seed.

Each job has a map and scripts, which run one after the other. The map after the scripts is compared with a second map,
which is in the file MAP. For three of every four jobs, the second map is the job's map after another random script.
For the fourth job, it is an independent random map, with names from the same short list. The test checks these
outputs:

- `--tree` with `--under NAME` or `--down-to TYPE` or both: the output must be the model's tree of the same part. The
  weights must be those of the whole tree.
- The same with `--class CLASS`: the tree must have only the devices of the class, and the items that have such a
  device below them. The weight of an item must be the sum of the weights of these devices.
- `--since MAP --under NAME`: the second map is the old map, and the map after the scripts is the new map. The output
  must have the model's lines about the items that are in the part in the new map, in the old map, or in both. In the
  old map, the part begins with the item that has the id of NAME.
- `--since MAP --by-name`, with and without `--under NAME`: the output must have the lines that docs/dev/names.md
  describes. This script computes these lines (`changed_lines`).
- `--to MAP --under NAME`, with and without `--by-name`: `check_plan` says what the plan must be like.

All runs have the option `--exit-code`. The status of a run without `--strict` must be 6 if the output has a difference
or a command. For a tree, the status must be 6 if the scripts have changed the map. In all other cases, the status must
be 0, with one exception. The run must end with status 1 if the map doesn't have the NAME, TYPE or CLASS. Standard
error must then say `no item`, `no type` or `no class`. The test counts such a run as `missing`.

The test prints each job for which something is wrong. Its last line has the number of these jobs, and the numbers of
the compared outputs. If a job is wrong, the status is 1.
"""

import collections
import os
import pathlib
import random
import sys
import tempfile

from against_reference import run
from chance import KINDS, NAMES, Dice, random_job
from explained import by_id, tree_rows
from looking import (changed_rules, class_lines, run_in_turn, since_text, total, tree_text, type_name,
                     weight_as)
from model import Map, is_change, number_of, text_of
from planned import aside, commands_of, made_by, place, rule_lines, stays
from plans import after_script, any_map, expect, with_settings
from reading import read_job, read_map

HISTORY = "--no-history"
# The number of parts for which the test compares the trees of a job.
TREES = 4
NOWHERE = "nowhere"


class Cut(Map):
    """A part of a map, whose items have the weights that they have in the whole map.

    `names` are the names of the items in the part. For the items in `closed`, the part has nothing below them."""

    def __init__(self, map, names, closed):
        super().__init__(map.types)
        self.whole = map
        self.items = {name: dict(map.items[name], kids=[] if name in closed else map.items[name]["kids"]) for name in names}

    def weight(self, name):
        return self.whole.weight(name)


def cut(map, under, kind):
    """Returns the part of a map that `--under` and `--down-to` select.

    `under` is the name for `--under`, and `kind` is the type for `--down-to`. Each of them is None if its option isn't
    given."""
    closed = {name for name in map.items if not map.is_device(name) and map.types[map.items[name]["kind"]] == kind}

    def names_below(name):
        return [name, *(below for kid in map.items[name]["kids"] if name not in closed for below in names_below(kid))]

    tops = [name for name in map.items if not map.parent(name)] if under is None else [under]
    return Cut(map, [name for top in tops for name in names_below(top)], closed)


class OfClass(Map):
    """The items of a part that are devices of a class, or that have such devices below them in the whole map.

    The weight of an item is the sum of the weights of these devices."""

    def __init__(self, part, of_class):
        super().__init__(part.types)
        own = {name: devices_of(part.whole, name, of_class) for name in part.items}
        self.weights = {name: sum(part.whole.weight(device) for device in devices) for name, devices in own.items()}
        self.items = {name: dict(item, kids=[kid for kid in item["kids"] if own[kid]]) for name, item in part.items.items() if own[name]}

    def weight(self, name):
        return self.weights[name]


def devices_of(map, name, of_class):
    """Returns those devices of a class that are the item itself or below it."""
    return [own for own in [name, *map.below(name)] if map.items[own].get("class") == of_class]


def names_at(map, name):
    """Returns the names of an item and of all items below it. If the map doesn't have the item, there are none."""
    return {name, *map.below(name)} if name in map.items else set()


def ids_at(map, name):
    return {map.items[own]["id"] for own in names_at(map, name)}


def part_ids(old, new, under):
    """Returns the ids of all items that are in a part in the new map, in the old map, or in both.

    In the new map, the part begins with the item of the name `under`. In the old map, it begins with the item of the
    same id."""
    return ids_at(new, under) | ids_at(old, old.with_id(new.items[under]["id"]))


def since_part(old, new, under):
    """Returns the lines about what has changed, for the items of a part."""
    own = part_ids(old, new, under)
    names = {f"{(new if number in by_id(new) else old).with_id(number)} ({number}):" for number in own}
    return "".join(line for line in since_text(old, new).splitlines(keepends=True) if " ".join(line.split(" ", 2)[:2]) in names)


def is_there(map, other, name):
    """Returns whether the other map has the counterpart of an item of the map.

    The counterpart has the same name. Either both are buckets, or both are devices."""
    return name in other.items and map.is_device(name) == other.is_device(name)


def told_whole(map, name):
    kind = map.items[name].get("class")
    return f"{type_name(map, name)} in {place(map, name)}, weight {text_of(map.weight(name))}" + (f", class {kind}" if kind else "")


def changes(old, new, name):
    """Yields the parts of the line of an item that both maps have, each with the name of the count that counts it.

    The counts are in the last line of the output, for example `moved`. If no count counts a part, the part has None in
    place of the name."""
    one, other = old.items[name], new.items[name]
    if not new.is_device(name) and type_name(old, name) != type_name(new, name):
        yield None, f"type {type_name(old, name)} to {type_name(new, name)}"
    if place(old, name) != place(new, name):
        yield "moved", f"from {place(old, name)} to {place(new, name)}"
    if old.weight(name) != new.weight(name):
        yield "of other weight", f"weight {text_of(old.weight(name))} to {text_of(new.weight(name))}"
    if one.get("class") != other.get("class"):
        yield "of other class", f"class {one.get('class') or '(none)'} to {other.get('class') or '(none)'}"
    if one.get("alg") != other.get("alg"):
        yield None, f"alg {one['alg']} to {other['alg']}"


def changed_lines(old, new, under):
    """Returns the lines about the items that differ in a comparison by names, and the counts of the differences.

    If `under` is a name, only the items of its part have lines. The counts are always about all items."""
    counts = dict.fromkeys(["made", "removed", "renamed", "moved", "of other weight", "of other class"], 0)
    lines, was, own = [], names_at(old, under), names_at(new, under)
    for _, name in tree_rows(new):
        both = is_there(new, old, name)
        told = list(changes(old, new, name)) if both else [("made", f"made as {told_whole(new, name)}")]
        for heading, _ in told:
            if heading:
                counts[heading] += 1
        if told and (under is None or name in own or both and name in was):
            lines.append(f"{name}: {'; '.join(part for _, part in told)}")
    for _, name in tree_rows(old):
        if not is_there(old, new, name):
            counts["removed"] += 1
            if under is None or name in was:
                lines.append(f"{name}: removed, was {told_whole(old, name)}")
    return lines, counts


def emptied_by_name(old, new):
    """Yields a line for each step with which a rule of the new map takes a bucket that weighs nothing any more.

    The bucket of the same name weighed more than 0 in the old map, and weighs 0 in the new map. If the step names a
    class, only the devices of this class count."""
    for rule in new.rules:
        for step, number in rule["lines"]:
            taken = number is not None and new.with_id(number)
            if taken and taken in old.items and not old.is_device(taken):
                kind = step.partition(" class ")[2] or None
                if weight_as(old, old.items[taken]["id"], kind) and not weight_as(new, number, kind):
                    yield f"rule {rule['name']} takes nothing: {taken}{f'~{kind}' if kind else ''} weighs {text_of(0)}"


def since_by_name(old, new, under):
    """Returns the text about what differs in a comparison by names, and whether it has a line about a difference."""
    lines, counts = changed_lines(old, new, under)
    if under is None:
        lines += ["tunables differ"] * (list(old.tunables) != list(new.tunables)) + ["types differ"] * (old.types != new.types)
        lines += changed_rules(*([*zip((rule["name"] for rule in map.rules), rule_lines(map))] for map in (old, new)))
        lines += [*emptied_by_name(old, new), *class_lines(old, new)]
    last = [] if under else [f"total {text_of(total(old))} to {text_of(total(new))}",
                             ", ".join(f"{count} {heading}" for heading, count in counts.items())]
    return "".join(line + "\n" for line in lines + last), bool(lines)


def stays_part(map, wanted, under):
    """Yields the lines about the differences from the wanted map, for the items of a part."""
    own, due = names_at(map, under), names_at(wanted, under)
    for line in stays(map, wanted):
        name, _, told = line.partition(": ")
        where = own if told == "not wanted" else due if told.startswith("wanted as ") else own | due
        if told and name in where:
            yield line


def kept(map, names):
    """Returns a copy of the map that has only the items of these names."""
    other = map.copy()
    other.items = {name: item for name, item in other.items.items() if name in names}
    return other


def aside_part(map, wanted, under):
    """Returns the lines that count the buckets of a part with different ids, and those with different class ids."""
    names = names_at(map, under) | names_at(wanted, under)
    return aside(kept(map, names), kept(wanted, names))


def called(words):
    """Returns the names of the items that a command edits, each with the name that the item has after the command.

    If the command removes the item, the second name is None. The names in the location of the command don't count."""
    first, *names = words
    if first == "swap-bucket":
        return [(names[0], names[1]), (names[1], names[0])]
    if first == "rename-bucket":
        return [(names[0], names[1])]
    return [(names[0], None)] if first == "rm" else [(names[-1 if first == "set-device-class" else 0],) * 2]


def strangers(map, wanted, under, commands):
    """Yields the commands that edit an item outside of the part.

    An item is outside of the part if two conditions hold. It wasn't in the part before the plan. And the part of the
    wanted map doesn't have the name that the item has after the command."""
    stood, shall, now = ids_at(map, under), names_at(wanted, under), map
    for words in commands:
        for before, behind in called(words):
            if not (before in now.items and now.items[before]["id"] in stood or behind in shall):
                yield " ".join(words)
        now = made_by(now, [words])


def spare_names(commands):
    """Returns the names that a plan gives with `rename-bucket`.

    A plan gives some of these names only for a time, or to buckets that it can't remove."""
    return {words[2] for words in commands if words[0] == "rename-bucket"}


def check_plan(ran, map, wanted, under, words):
    """Checks the plan for a part, and raises `ValueError` if the plan is wrong.

    - The model applies the commands. It must refuse none of them, and each command must change the map.
    - The plan must report exactly the differences of the part that remain after the commands. If the plan has
      commands, fewer differences must remain than without the commands.
    - Each item that a command edits must have been in the part before the plan, or the wanted map must have it in the
      part (`strangers`). The commands must create no bucket outside of the part of the wanted map.
    - A second run must print the same plan. A run with `--strict`, whose job has no scripts, must end with status 5 if
      differences remain.

    `ran` runs the program with these words. Returns how many commands the plan has, and how many differences
    remain."""
    status, text, told = ran(words)
    commands = commands_of(text)
    made = made_by(map, commands)
    rest, before = list(stays_part(made, wanted, under)), list(stays_part(map, wanted, under))
    due = [f"# {len(commands)} commands", *(" ".join(words) for words in commands)] + [f"# {len(rest)} differences stay"] * bool(rest)
    expect("a plan", text, "".join(f"{line}\n" for line in due + [f"# {line}" for line in rest + aside_part(made, wanted, under)]))
    expect("its end", (status, told), (6 if commands or rest else 0, ""))
    expect("buckets created elsewhere", sorted(set(made.items) - set(map.items) - names_at(wanted, under) - spare_names(commands)), [])
    expect("commands of other items", list(strangers(map, wanted, under, commands)), [])
    if commands and len(rest) >= len(before):
        raise ValueError("the commands help nothing")
    expect("a second run", ran(words)[1], text)
    strict = (5, "", "".join(f"{line}\n" for line in [f"crushedit: differs {len(rest)}", *rest]))
    expect("with --strict", ran([*words, "--strict"], "AFTER"), strict if rest else (status, text, ""))
    return len(commands), len(rest)


def missing(map, under, kind, of_class=None):
    """Returns how a run must end if the map doesn't have the item, the type or the class, and otherwise None."""
    if under is not None and under not in map.items:
        return 1, "", f"crushedit: no item {under}\n"
    if kind is not None and number_of(map, kind) is None:
        return 1, "", f"crushedit: no type {kind}\n"
    if of_class is not None and of_class not in classes_of(map):
        return 1, "", f"crushedit: no class {of_class}\n"
    return None


def classes_of(map):
    return {item["class"] for item in map.items.values() if item.get("class")}


def any_name(dice, map):
    """Returns the name of a random item. A bucket with items is four times as probable as any other item."""
    return dice.choice([name for name, item in map.items.items() for _ in range(4 if item["kids"] else 1)])


def any_part(dice, map):
    """Returns a random name for `--under` and a random type for `--down-to`.

    One of them may be None. The map may lack the name or the type."""
    own = [map.types[map.items[name]["kind"]] for name in map.items if map.items[name]["kids"]]
    kind = dice.choice([None, None, *KINDS, *own, *own, *own])
    under = dice.choice([any_name(dice, map)] * 5 + NAMES[:1])
    return (None if kind and dice.random() < 0.2 else under), kind


def with_classes(dice, map):
    """Gives a random class to about half of the devices that have no class, and returns the map."""
    for name, item in map.items.items():
        if map.is_device(name) and not item.get("class") and dice.random() < 0.5:
            item["class"] = dice.choice(["hdd", "ssd"])
    return map


def job_of(dice, index):
    """Returns the text of a random job, and the text of the second map, with which the job's map is compared."""
    front, *sections = random_job(dice)[0].partition("%")
    map = with_classes(dice, with_settings(dice, read_map(front)[0]))
    other = any_map(dice) if index % 4 == 3 else after_script(dice, map)
    return map.text() + "".join(sections), other.text()


class Trial:
    """The runs of a job, and the outputs that the model computes for these runs.

    The folder has the job in the file JOB, the second map in the file MAP, and the map after the scripts in the file
    AFTER."""

    def __init__(self, program, folder, job, counts):
        self.program, self.folder, self.counts = program, folder, counts
        read, _, scripts = read_job(job)
        self.map, made = run_in_turn(read, scripts)
        self.wanted = read_map(pathlib.Path(folder, "MAP").read_text())[0]
        self.has_changed = any(is_change(line) for _, line in made)
        pathlib.Path(folder, "AFTER").write_text(self.map.text())

    def ran(self, words, of="JOB"):
        return run(self.program, ["--in-turn", HISTORY, "--exit-code", *words, of], "", self.folder)

    def compare(self, what, words, text, differs, lacks=None):
        """Runs the program with these words, and checks its status and its output.

        `text` is what the run must print, and `differs` says whether the status must be 6. If `lacks` is given, the
        map lacks a name, and `lacks` is how the run must end."""
        expect(what, self.ran(words), lacks or (6 if differs else 0, text, ""))
        self.counts["missing" if lacks else what] += 1

    def tree(self, under, kind):
        lacks = missing(self.map, under, kind)
        words = (["--under", under] if under else []) + (["--down-to", kind] if kind else [])
        text = "" if lacks else tree_text(cut(self.map, under, kind))
        self.compare("trees", ["--tree", *words], text, self.has_changed, lacks)

    def tree_of_class(self, under, kind, of_class):
        lacks = missing(self.map, under, kind, of_class)
        words = (["--under", under] if under else []) + (["--down-to", kind] if kind else [])
        text = "" if lacks else tree_text(OfClass(cut(self.map, under, kind), of_class))
        self.compare("trees of classes", ["--tree", "--class", of_class, *words], text, self.has_changed, lacks)

    def changes(self, under):
        text = since_part(self.wanted, self.map, under)
        self.compare("parts of changes", ["--since", "MAP", "--under", under], text, text != "")
        self.compare("parts of changes by names", ["--since", "MAP", "--by-name", "--under", under],
                     *since_by_name(self.wanted, self.map, under))

    def plans(self, under):
        for identity in ([], ["--by-name"]):
            words = ["--to", "MAP", "--under", under, *identity]
            commands, rest = check_plan(self.ran, self.map, self.wanted, under, words)
            self.counts.update({"parts of plans": 1, "commands": commands, "lines that stay": rest})

    def check(self, dice):
        for _ in range(TREES):
            part = any_part(dice, self.map)
            self.tree(*part)
            self.tree_of_class(*part, dice.choice([*sorted(classes_of(self.map)) * 3, NOWHERE]))
        self.compare("changes by names", ["--since", "MAP", "--by-name"], *since_by_name(self.wanted, self.map, None))
        under = any_name(dice, self.map)
        self.changes(under)
        self.plans(under)
        words = dice.choice([["--since", "MAP"], ["--since", "MAP", "--by-name"], ["--to", "MAP"]])
        self.compare("parts", [*words, "--under", NOWHERE], "", False, missing(self.map, NOWHERE, None))


def main(program, jobs=1000, seed=None):
    program, jobs = os.path.abspath(program), int(jobs)
    seed = seed or random.randrange(10**6)
    print(f"{jobs} jobs of seed {seed}")
    counts, wrong = collections.Counter(), 0
    for index in range(jobs):
        dice = Dice(f"{seed} {index}")
        job, other = job_of(dice, index)
        with tempfile.TemporaryDirectory() as folder:
            for name, text in (("JOB", job), ("MAP", other)):
                pathlib.Path(folder, name).write_text(text)
            try:
                Trial(program, folder, job, counts).check(dice)
            except ValueError as fault:
                print(f"job {index}: {fault}\n{job}--- MAP\n{other}")
                wrong += 1
    print(f"{wrong} jobs wrong; " + ", ".join(f"{what} {count}" for what, count in sorted(counts.items())))
    return wrong


if __name__ == "__main__":
    sys.exit(1 if main(*sys.argv[1:]) else 0)
