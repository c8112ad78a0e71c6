"""Compares the lost changes that `crushedit apply` reports for random scripts with those that the plain model finds.

    python3 tests/conflicts.py crates/crushedit/out/crushedit [JOBS [SEED]]

Without JOBS, the test runs 400 jobs. SEED may be any word. Without SEED, the test draws a random seed.

Each job has a random map, and random scripts of two to four operators. In two of three jobs, no command is refused
when all scripts run one after the other. A script changes an *aspect* of an item, for example the weight of a device.
This change is *lost* if the aspect has another value after all scripts than it has if only this script runs. So the
*plain model*, a second implementation of the program in Python, computes the map after each script alone, and the map
after all scripts one after the other. Then it compares the aspects of each item. When a script runs alone, a batch
with `begin at N` counts as a batch without `at N`.

If a change is lost, `crushedit apply` must print nothing, and end with status 5. Standard error must end with the
lines of the model. If no change is lost, but a call is refused, `apply` must also print nothing, and end with status
5. In all other jobs, the status must be 0. With `--last-wins`, `apply` must report no lost change.

The test prints how many jobs have lost changes, and how many jobs are wrong. The status is 1 if a job is wrong.
"""

import os
import random
import sys
import tempfile

from chance import Dice, random_call, random_map
from limited import LimitReached, run_limited
from looking import type_name
from model import is_change, run_call, text_of
from reading import read_map

OPERATORS = ["alice", "bob", "carol", "dan"]
FIRST = ("removed", "made")


def alone(map, calls):
    """Returns the map after these calls. A refused call changes nothing. A guarded batch (`begin at N`) counts as a
    batch without `at N`."""
    for kind, commands in calls:
        map, _ = run_call(map, (kind if kind in ("one", "batch") else "batch", commands), 0)
    return map


def in_turn(map, scripts):
    """Returns the map after all scripts, and a list of their history lines without numbers and operators."""
    lines, changes = [], 0
    for script in scripts:
        for call in script:
            map, line = run_call(map, call, changes)
            lines.append(line)
            changes += is_change(line)
    return map, lines


def key_of(before, map, name):
    """Returns the key of an item: its id if the map before the scripts has this id, and otherwise its name."""
    number = map.items[name]["id"]
    return number if before.with_id(number) else name


def place_in(before, map, name):
    """Returns the key of the bucket that holds an item, and the text for this place. The key is None if no bucket
    holds the item."""
    parent = map.parent(name)
    if parent is None:
        return None, "(unplaced)" if map.is_device(name) else "(root)"
    key = key_of(before, map, parent)
    return key, before.with_id(key) if isinstance(key, int) else parent


def aspects_of(before, map, key):
    """Returns the aspects of the item with this key in a map, each with its value and the text for this value."""
    name = next((n for n in map.items if key_of(before, map, n) == key), None)
    if name is None:
        return {"there": (False, "removed")}
    item, kind = map.items[name], type_name(map, name)
    place, where = place_in(before, map, name)
    weighs = {"weight": (item["weight"], f"weight {text_of(item['weight'])}")} if map.is_device(name) else {}
    return {"there": (True, "made"), "type": (item.get("kind", 0), f"as {kind}"), "place": (place, f"in {where}"), **weighs,
            "name": (name, f"called {name}"), "class": (item.get("class"), f"class {item.get('class') or '(none)'}")}


def differing(one, other):
    """Returns the aspects in `one` that `other` doesn't have, or that have another value in `other`."""
    return {aspect for aspect in one if aspect not in other or one[aspect][0] != other[aspect][0]}


def conflict_line(name, old, each, new):
    """Returns a list with the line of an item if a change of the item is lost, and otherwise an empty list. `old` has
    the aspects before the scripts. `each` has pairs of an operator and the aspects after this operator's script
    alone. `new` has the aspects after all scripts."""
    lost = {aspect for _, own in each for aspect in differing(own, old) & differing(own, new)}
    if not lost:
        return []
    told = []
    for operator, own in each:
        removed = {"there"} if old["there"][0] and not own["there"][0] else set()
        told.append((operator, own, (differing(own, old) & lost) | removed))
    parts = [f"{operator}: {', '.join(own[a][1] for a in own if a in what)}" for operator, own, what in told if what]
    if all(what <= differing(own, new) for _, own, what in told):
        gone = {"there"} if not new["there"][0] else set()
        parts.append(f"in the end: {', '.join(new[a][1] for a in new if a in lost | gone)}")
    return [f"{name}: {'; '.join(parts)}\n"]


def tree_order(map):
    def walk(name):
        return [name, *(n for kid in map.items[name]["kids"] for n in walk(kid))]
    tops = [n for n in map.items if not map.parent(n)]
    roots = sorted((n for n in tops if not map.is_device(n)), key=lambda n: -map.items[n]["id"])
    unplaced = sorted((n for n in tops if map.is_device(n)), key=lambda n: map.items[n]["id"])
    return [n for top in [*roots, *unplaced] for n in walk(top)]


def conflict_lines(map, scripts):
    """Returns the lines of all items with a lost change, and the history lines of the run."""
    after, history = in_turn(map, scripts)
    own = [alone(map, script) for script in scripts]
    new = sorted({key for one in own for key in (key_of(map, one, n) for n in one.items) if isinstance(key, str)})
    lines = []
    for name, key in [(n, map.items[n]["id"]) for n in tree_order(map)] + [(n, n) for n in new]:
        each = [(operator, aspects_of(map, one, key)) for operator, one in zip(OPERATORS, own)]
        lines += conflict_line(name, aspects_of(map, map, key), each, aspects_of(map, after, key))
    return lines, history


def lines_of(call):
    """Returns the lines of a call in a script."""
    kind, commands = call
    if kind == "one":
        return " ".join(commands[0]) + "\n"
    begin = "begin" if kind == "batch" else f"begin at {kind}"
    return "".join(line + "\n" for line in [begin, *(" ".join(words) for words in commands), "commit"])


def changing_script(dice, map):
    """Returns a script of some random calls. Most of the calls change the map if the script runs alone."""
    script, count, changes = [], dice.randint(1, 4), 0
    for _ in range(60):
        call = random_call(dice, map)
        later, line = run_call(map, call, changes)
        if is_change(line) or dice.random() < 0.05:
            script.append(call)
            map, changes = later, changes + is_change(line)
        if len(script) == count:
            break
    return script


def without_refused(map, scripts):
    """Returns the scripts without the calls that are refused when all scripts run one after the other."""
    changes, kept = 0, []
    for script in scripts:
        kept.append([])
        for call in script:
            later, line = run_call(map, call, changes)
            if " = refused" not in line:
                kept[-1].append(call)
                map, changes = later, changes + is_change(line)
    return kept


def any_job(dice, index):
    map = read_map(random_map(dice).text())[0]
    scripts = [changing_script(dice, map) for _ in range(dice.randint(2, 4))]
    return map, without_refused(map, scripts) if index % 3 else scripts


def run(program, folder, words):
    ran = run_limited([program, *words], cwd=folder, capture_output=True)
    return ran.returncode, ran.stdout.decode("latin-1"), ran.stderr.decode("latin-1")


def fault_of(program, folder, map, scripts):
    """Returns what is wrong with a job, or an empty text if nothing is wrong."""
    lines, history = conflict_lines(map, scripts)
    with open(os.path.join(folder, "map"), "w") as out:
        out.write(map.text())
    files = []
    for operator, script in zip(OPERATORS, scripts):
        files.append(f"{operator}.txt")
        with open(os.path.join(folder, files[-1]), "w") as out:
            out.write("".join(lines_of(call) for call in script))
    due = "".join([f"crushedit: conflicts {len(lines)}\n", *lines]) if lines else ""
    status, text, told = run(program, folder, ["apply", "--make", "map", *files])
    is_refused = any(" = refused" in line for line in history)
    if (status, text) != (5, "") if lines or is_refused else status != 0:
        return f"status {status}, and {len(text)} bytes"
    if not told.endswith(due) or ("crushedit: conflicts" in told) != bool(lines):
        return f"{told!r} in the place of {due!r}"
    if "crushedit: conflicts" in run(program, folder, ["apply", "--make", "--last-wins", "map", *files])[2]:
        return "conflicts with --last-wins"
    return ""


def main(program, jobs=400, seed=None):
    program, jobs = os.path.abspath(program), int(jobs)
    seed = seed or random.randrange(10**6)
    print(f"{jobs} jobs of seed {seed}")
    wrong = told = 0
    for index in range(jobs):
        map, scripts = any_job(Dice(f"{seed} {index}"), index)
        told += bool(conflict_lines(map, scripts)[0])
        with tempfile.TemporaryDirectory() as folder:
            try:
                fault = fault_of(program, folder, map, scripts)
            except LimitReached as limit:
                fault = limit
        if fault:
            wrong += 1
            sections = "".join(f"%operator {name}\n{''.join(calls)}" for name, calls in zip(OPERATORS, ([lines_of(call) for call in script] for script in scripts)))
            print(f"job {index}: {fault}\n{map.text()}{sections}")
    print(f"{told} jobs with lost changes, {wrong} wrong")
    return wrong > 0


if __name__ == "__main__":
    sys.exit(main(*sys.argv[1:]))
