"""Makes random maps, calls and jobs for the scripts that compare the program with the plain model (model.py)."""

import random

from model import Map, is_change, run_call, units_of

NAMES = ["h1", "h2", "h3", "h4", "r1", "r2", "w1", "default", "other", "x", "osd.4", "disk"]
KINDS = ["osd", "host", "rack", "row", "root", "pod"]
WEIGHTS = ["0", "1", "0.333", "2.5", "1.00001", "32767.99998", "32768", "40000", "0.00001"]


def random_map(dice):
    """Returns a random map. No weight in the map exceeds the limits of the program."""
    while True:
        map = any_map(dice)
        if not map.is_heavy():
            return map


def any_map(dice):
    map = Map({0: "osd", 1: "host", 3: "rack", 4: "row", 11: "root"})
    for number in dice.sample(range(9), dice.randint(1, 7)):
        name = "disk" if number == 7 else f"osd.{number}"
        map.items[name] = {"id": number, "weight": 0, "kids": []}
    spare = list(map.items)
    numbers = dice.sample(range(-9, 0), 9)
    for name in dice.sample(NAMES[:9], dice.randint(1, 6)):
        kids = dice.sample(spare, dice.randint(0, min(3, len(spare))))
        spare = [n for n in spare if n not in kids] + [name]
        for kid in kids:
            if map.is_device(kid):
                map.items[kid]["weight"] = units_of(dice.choice(WEIGHTS[:6] + WEIGHTS[:5]))
        map.items[name] = {"id": numbers.pop(), "kind": dice.choice([1, 3, 4, 11]),
                           "alg": dice.choice(["straw2", "straw", "list"]), "kids": kids}
    return map


def random_command(dice, map):
    def name():
        if map.items and dice.random() < 0.75:
            return dice.choice(list(map.items))
        return dice.choice(NAMES + [f"osd.{dice.randint(0, 9)}" for _ in range(6)])

    def pair():
        bucket = name()
        if bucket in map.items and dice.random() < 0.8:
            return f"{map.types[map.items[bucket].get('kind', 1)]}={bucket}"
        return f"{dice.choice(KINDS[1:5] * 4 + KINDS)}={bucket}"

    def pairs():
        return [pair() for _ in range(dice.choice([0] + [1] * 9 + [2] * 6 + [3] * 2))]

    word = dice.choice(["add", "set", "create-or-move"] * 3 + ["move"] * 6 + [
        "swap-bucket", "reweight", "reweight-subtree", "rm", "remove", "add-bucket",
        "rename-bucket", "set-device-class", "rm-device-class"] * 2)
    if word in ("add", "set", "create-or-move"):
        return [word, f"osd.{dice.randint(0, 9)}", dice.choice(WEIGHTS + WEIGHTS[:6] * 2)] + pairs()
    if word == "move":
        return [word, name()] + pairs()
    if word in ("reweight", "reweight-subtree"):
        return [word, name(), dice.choice(WEIGHTS)]
    if word in ("rm", "remove", "rm-device-class"):
        return [word, name()]
    if word == "add-bucket":
        return [word, name(), dice.choice(KINDS)]
    if word == "set-device-class":
        return [word, dice.choice(["hdd", "ssd"]), name()]
    return [word, name(), name()]


def random_call(dice, map):
    """Returns a random call: its kind, and a list of its commands, each as a list of words. The kind is `one` for a
    command outside of a batch, and `batch` for a batch. For a guarded batch (`begin at N`), the kind is the number N
    of earlier changes that the batch names."""
    kind = dice.choice(["one"] * 8 + ["batch", dice.randint(0, 4)])
    count = 1 if kind == "one" else dice.randint(0, 4)
    return kind, [random_command(dice, map) for _ in range(count)]


def call_lines(dice, call):
    """Returns the lines of a call in a script."""
    kind, commands = call
    if kind != "one":
        begin = "begin" if kind == "batch" else f"begin at {dice.choice(['', '', '000'])}{kind}"
        return f"{begin}\n" + "".join(" ".join(words) + "\n" for words in commands) + "commit\n"
    return " ".join(commands[0]) + dice.choice(["", "", " # why not", "\r"]) + "\n"


def random_job(dice):
    """Returns the text of a random job, and what the program must print if the scripts of the job run in turn."""
    map = random_map(dice)
    job, lines, number, changes = map.text(), [], 0, 0
    for operator in dice.sample(["a", "b", "c.d"], dice.randint(0, 3)):
        job += f"%operator {operator}\n"
        for _ in range(dice.randint(0, 6)):
            number += 1
            call = random_call(dice, map)
            job += call_lines(dice, call)
            map, line = run_call(map, call, changes)
            changes += is_change(line)
            lines.append(f"# {number} {operator} {line}\n")
    return job, map.text() + "".join(lines)


class Dice(random.Random):
    """Makes the choices of `randint`, `choice` and `sample` only with the method `random`, which gives the same
    numbers for a seed in every version of Python."""

    def randint(self, low, high):
        return low + int(self.random() * (high - low + 1))

    def choice(self, things):
        return things[self.randint(0, len(things) - 1)]

    def sample(self, things, count):
        left = list(things)
        return [left.pop(self.randint(0, len(left) - 1)) for _ in range(count)]


def numbered(count, seed):
    """Yields the random jobs of a seed, each with the output that the program must print for it."""
    return (random_job(Dice(f"{seed} {index}")) for index in range(count))
