"""Runs crushedit with `--to` on pairs of random maps, and checks the plans with the plain model.

    python3 tests/plans.py crates/crushedit/out/crushedit [PAIRS [SEED]]

The plain model is a second implementation of crushedit, in Python. A *plan* is the output of `--to`: the commands that
change one map into another map (the *wanted map*), and the differences that remain after these commands. There are
PAIRS pairs (1000 if PAIRS isn't given). The SEED may be any word. Without a SEED, the test draws a random seed. The
test prints the seed.

In three of every four pairs, the second map is the first map after a random script. In the fourth pair, the two maps
are independent random maps, with names from the same short list. For each pair, the test checks the plan from the
first map to the second map (*there*), and the plan from the second map to the first map (*back*). For every other
pair, the program gets the option `--by-name`. These are the checks:

- The model applies the commands. It must refuse none of them, and each command must change the map. The text of the
  plan must be the text that the model prints for these commands (`planned.py`), with the differences that then remain.
- If a plan has commands, fewer differences must remain after the commands than before them. Different ids don't count.
- If both maps have a bucket of the same name, the plan must not remove this bucket and create it again.
- If a plan creates a bucket and moves it, the first move must be the next command (`moved_late`).
- A plan may remove the class of a device, and later give the device a new class. All commands in between must be about
  the new class (`out_of_class`).
- No `reweight` may be unnecessary because of a later `reweight-subtree` (`weighed_twice`).
- After the commands of a plan, a second plan to the same wanted map must have no commands.
- A second run must print the same plan. With `--as-ceph`, the program must print Ceph's own commands for the same
  plan.
- With `--strict`, the run must end with status 5 if a difference remains.

For each wrong plan, the test prints what is wrong, and the two maps. At the end, it prints the number of the other
plans, the number of their commands, and the number of wrong plans. The plans from a first map to the same map after a
script are also counted separately. The test prints how many of them leave a difference, and which differences these
are. The status is 1 if a plan is wrong, or if more than 4 in 100 of these plans (rounded up) leave a difference.
"""

import collections
import math
import os
import random
import re
import sys
import tempfile

from chance import Dice, random_command, random_map
from for_ceph import ceph_lines
from limited import LimitReached, run_limited
from model import run_one
from planned import commands_of, made_by, moved_late, out_of_class, plan_text, remade, stays, weighed_twice
from reading import read_map

# At most so many of 100 plans may leave a difference. Only plans from a map to the same map after a script count.
MOST_STAYING = 4
TUNABLES = [[], [("choose_total_tries", 50)], [("choose_total_tries", 51)]]


def with_settings(dice, map):
    """Gives the map random tunables, and a rule that takes a random bucket of the map, and returns the map."""
    map.tunables = dice.choice(TUNABLES)
    buckets = [name for name in map.items if not map.is_device(name)]
    take = "\tstep take {}" + dice.choice(["", " class ssd"])
    steps = [(take, map.items[dice.choice(buckets)]["id"]), ("\tstep chooseleaf firstn 0 type host", None), ("\tstep emit", None)]
    lines = [(line, None) for line in ("rule r {", "\tid 0", "\ttype replicated")]
    map.rules = [{"name": "r", "id": 0, "lines": lines + steps + [("}", None)]}]
    return map


def any_map(dice):
    map = random_map(dice)
    return with_settings(dice, map) if dice.random() < 0.5 else map


def after_script(dice, map):
    for _ in range(dice.randint(1, 12)):
        map, _ = run_one(map, random_command(dice, map))
    return map


def pair_of(dice, index):
    """Returns two maps, as the model reads them from their texts, and whether a script has made the second map."""
    map = any_map(dice)
    is_scripted = index % 4 < 3
    other = after_script(dice, map) if is_scripted else any_map(dice)
    return read_map(map.text())[0], read_map(other.text())[0], is_scripted


def run(program, folder, words):
    ran = run_limited([program, *words], cwd=folder, capture_output=True)
    return ran.returncode, ran.stdout.decode("latin-1"), ran.stderr.decode("latin-1")


def expect(what, got, due):
    if got != due:
        raise ValueError(f"{what}: {got!r} in the place of {due!r}")


def plan_after(program, folder, words, made):
    """Returns the commands of a second plan to the same wanted map. `made` is the map after the first plan."""
    with open(os.path.join(folder, "made"), "w") as out:
        out.write(made.text())
    return commands_of(run(program, folder, [*words, "made"])[1])


def check(program, folder, map, wanted, identity):
    """Checks the plan from the map in the file `map` to the map in the file `wanted`.

    `identity` has the option `--by-name`, or no option. Raises `ValueError` if the plan is wrong. Returns the lines
    about the differences that remain, and the number of commands."""
    words = ["--to", "wanted", *identity]
    status, text, told = run(program, folder, [*words, "map"])
    expect("status and standard error", (status, told), (0, ""))
    expect("a second run", run(program, folder, [*words, "map"])[1], text)
    commands = commands_of(text)
    made = made_by(map, commands)
    expect("the text", text, plan_text(commands, made, wanted))
    rest, before = stays(made, wanted), stays(map, wanted)
    if commands and len(rest) >= len(before):
        raise ValueError("the commands help nothing")
    expect("buckets removed and created again", list(remade(map, wanted, made, commands)), [])
    expect("new buckets that are moved too late", list(moved_late(commands)), [])
    expect("devices that are without a class while another class is set", list(out_of_class(commands)), [])
    expect("devices that are weighed twice", list(weighed_twice(map, commands)), [])
    expect("a second plan, after the first", plan_after(program, folder, words, made), [])
    ceph = run(program, folder, [*words, "--as-ceph", "map"])[1]
    lines = ceph_lines(map, commands) + [line for line in text.splitlines()[1:] if line.startswith("#")]
    expect("Ceph's commands", ceph, "".join(line + "\n" for line in lines))
    strict = run(program, folder, [*words, "--strict", "map"])
    due = (5, "", "".join(line + "\n" for line in [f"crushedit: differs {len(rest)}", *rest])) if rest else (0, text, "")
    expect("with --strict", strict, due)
    return rest, len(commands)


def main(program, pairs=1000, seed=None):
    program, pairs = os.path.abspath(program), int(pairs)
    seed = seed or random.randrange(10**6)
    print(f"{pairs} pairs of seed {seed}")
    counts, kinds, wrong = collections.Counter(), collections.Counter(), 0
    for index in range(pairs):
        one, other, is_scripted = pair_of(Dice(f"{seed} {index}"), index)
        for way, map, wanted in (("there", one, other), ("back", other, one)):
            with tempfile.TemporaryDirectory() as folder:
                for name, own in (("map", map), ("wanted", wanted)):
                    with open(os.path.join(folder, name), "w") as out:
                        out.write(own.text())
                try:
                    rest, commands = check(program, folder, map, wanted, ["--by-name"] * (index % 2))
                except (ValueError, LimitReached) as fault:
                    print(f"pair {index} {way}: {fault}\n{map.text()}--to\n{wanted.text()}")
                    wrong += 1
                    continue
            counts["plans"] += 1
            counts["commands"] += commands
            if is_scripted and way == "there":
                counts["scripted"] += 1
                counts["staying"] += bool(rest)
                kinds.update(re.sub(r"^\S+: ", "", line) if ": " in line else line for line in rest)
    print(f"{counts['plans']} plans of {counts['commands']} commands, {wrong} of them wrong")
    print(f"of {counts['scripted']} pairs made by scripts {counts['staying']} leave a difference there")
    for kind, count in kinds.most_common():
        print(f"{count} times: {kind}")
    return wrong or counts["staying"] > math.ceil(counts["scripted"] * MOST_STAYING / 100)


if __name__ == "__main__":
    sys.exit(1 if main(*sys.argv[1:]) else 0)
