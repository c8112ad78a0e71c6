"""Takes the place of Ceph's programs `ceph`, `crushtool` and `osdmaptool` in the tests of the recipe.

With these stand-ins, recipe_test.py tests the recipe on machines without Ceph. It copies this file into a folder under
the three names. Each copy does the work of the program whose name it has, as far as the tests need it. The copies read
and write these files in their folder:

- cluster: the map of the cluster. The stand-ins use the text of a map also as the binary map.
- version: what `ceph osd getcrushmap` prints on standard error.
- osds, pools, df: the JSON that `ceph osd ls`, `ceph osd pool ls detail` and `ceph df` print.
- asked: the words of each command of `ceph` except for the commands above and `osd getmap`. If a word is `-`, the file
  `given` gets the command's standard input.
- broken-c, broken-d: if the file exists, `crushtool -c` or `crushtool -d` fails.
- broken-new: if the file exists, a signal kills `crushtool --test` of 2 replicas, unless it tests the cluster's own
  map.
- dump: if the file exists, it is what `crushtool --dump` prints for the cluster's own map.

Like Ceph's own program, the stand-in for `crushtool -c` rounds weights down to whole units (65536ths of 1.0). The
stand-in for `crushtool -d` prints weights as 32-bit floats with five decimals, and weights of 32768.0 and more as
negative numbers. Each rule places replicas on the first devices of the map whose weight isn't 0. `crushtool --test`
does this for ten inputs, and `osdmaptool` for each PG (placement group) of each pool.
"""
import json
import os
import re
import signal
import struct
import sys
from fractions import Fraction

HERE = os.path.dirname(os.path.abspath(__file__))
ITEM = re.compile(r"(?m)^(\titem \S+ weight |\t# weight )(-?[0-9.]+)$")
UNITS = 65536


def has(name):
    return os.path.exists(os.path.join(HERE, name))


def text_of(name):
    with open(name if os.path.isabs(name) else os.path.join(HERE, name)) as file:
        return file.read()


def output(text, words):
    """Writes a text to the file that follows the option -o, or to standard output if there is no such option."""
    if "-o" in words:
        with open(words[words.index("-o") + 1], "w") as file:
            file.write(text)
    else:
        sys.stdout.write(text)


def blocks_of(text):
    """Returns the kind, the name and the lines of each bucket and each rule. A line is a list of words, without its
    comment."""
    return [(kind, name, [line.split("#")[0].split() for line in lines.splitlines()])
            for kind, name, lines in re.findall(r"(?ms)^(\w+) (\S+) \{\n(.*?)^\}", text)]


def ceph(words):
    if words[:2] == ["osd", "getcrushmap"]:
        sys.stderr.write(text_of("version"))
        return output(text_of("cluster"), words)
    for name, asked in (("osds", ["osd", "ls"]), ("pools", ["osd", "pool", "ls", "detail"]), ("df", ["df"])):
        if words == asked + ["-f", "json"]:
            return output("\n" + text_of(name), [])
    if words[:2] == ["osd", "getmap"]:
        return output("the OSD map", words)
    with open(os.path.join(HERE, "asked"), "a") as file:
        file.write(" ".join(words) + "\n")
    if "-" in words:
        with open(os.path.join(HERE, "given"), "w") as file:
            file.write(sys.stdin.read())
    return None


def cut(text):
    """Returns the text that `crushtool -c` writes: weights are rounded down to units, and history lines are left
    out."""
    def units(found):
        return "{}{:.5f}".format(found[1], int(Fraction(found[2]) * UNITS) / UNITS)
    return re.sub(r"(?m)^# [0-9].*\n", "", ITEM.sub(units, text))


def printed(text):
    """Returns the text that `crushtool -d` writes."""
    def weight(found):
        number, = struct.unpack("f", struct.pack("f", float(found[2]) - (65536 if float(found[2]) >= 32768 else 0)))
        return "{}{:.5f}".format(found[1], number)
    return ITEM.sub(weight, text)


def dump(text):
    """Returns the JSON that `crushtool --dump` prints: devices, buckets with their items, and the steps `take` of
    rules."""
    if has("dump") and text == text_of("cluster"):
        return text_of("dump")
    ids, rules, buckets = {name: int(number) for number, name in re.findall(r"(?m)^device (\d+) (\S+)", text)}, [], []
    devices = [{"id": number, "name": name} for name, number in ids.items()]
    for kind, name, lines in blocks_of(text):
        if kind != "rule":
            ids.update(("~".join([name] + line[3:]), int(line[1])) for line in lines if line[:1] == ["id"])
            items = [{"id": ids[line[1]], "weight": round(Fraction(line[3]) * UNITS)} for line in lines if line[:1] == ["item"]]
            buckets.append({"id": ids[name], "name": name, "items": items})
            continue
        steps = [{"op": "take", "item": ids["~".join(line[2::2])], "item_name": "~".join(line[2::2])}
                 for line in lines if line[:2] == ["step", "take"]]
        rules.append({"rule_id": int(lines[0][1]), "rule_name": name, "steps": steps})
    return json.dumps({"devices": devices, "buckets": buckets, "rules": rules})


def placed(text, size):
    """Returns the numbers of the devices on which a rule places `size` replicas."""
    return re.findall(r"(?m)^\titem osd\.(\d+) weight .*[1-9].*$", text)[:size]


def tested(text, words):
    """Does the work of `crushtool --test`. With --show-mappings, prints all placements, and otherwise those that lack
    a device."""
    size = words[words.index("--num-rep") + 1]
    if has("broken-new") and size == "2" and text != text_of("cluster"):
        os.kill(os.getpid(), signal.SIGSEGV)
    if not size.isdigit():
        sys.exit(1)
    for kind, _, lines in blocks_of(text):
        number = lines[0][1] if kind == "rule" else None
        if kind != "rule" or "--rule" in words and words[words.index("--rule") + 1] != number:
            continue
        devices = placed(text, int(size))
        for index in range(10):
            if "--show-mappings" in words:
                print("CRUSH rule {} x {} [{}]".format(number, index, ",".join(devices)))
            elif len(devices) < int(size):
                print("bad mapping rule {} x {} num_rep {} result [{}]".format(number, index, size, ",".join(devices)))


def crushtool(words):
    if has("broken" + words[0]):
        sys.exit(1)
    text = text_of(os.path.abspath(words[1]))
    if words[0] == "-d":
        return output(printed(text), words)
    if words[0] == "-c":
        return output(cut(text), words)
    if "--reweight" in words:
        return output(text, words)
    if "--dump" in words:
        return output(dump(text), [])
    return tested(text, words)


def osdmaptool(words):
    text = text_of(os.path.abspath(words[words.index("--import-crush") + 1]))
    with open(words[0], "a") as file:
        file.write(text)
    for pool in json.loads(text_of("pools")):
        print("pool {} pg_num {}".format(pool["pool_id"], pool["pg_num"]))
        for number in range(pool["pg_num"]):
            devices = placed(text, pool["size"])
            print("{}.{:x}\t[{}]\t{}".format(pool["pool_id"], number, ",".join(devices), devices[0] if devices else -1))


if __name__ == "__main__":
    {"ceph": ceph, "crushtool": crushtool, "osdmaptool": osdmaptool}[os.path.basename(__file__)](sys.argv[1:])
