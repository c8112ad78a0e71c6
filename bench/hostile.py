"""Measures how many processor seconds crushedit takes for inputs that are made to take long.

    python3 bench/hostile.py crates/crushedit/out/crushedit [--megabytes 1 16] [--limit 5 60] [--only WORD ..]
    python3 bench/hostile.py --write FOLDER [--megabytes 1 16] [--only WORD ..]

The script runs crushedit with each input in each size of --megabytes. A megabyte is 1,000,000 bytes, and an input has
at most this number of bytes. With 1 MB and more, the only exception is `full_swaps`: its map alone has 2 MB. For each
run, the script prints the name of the input, its bytes, the processor seconds, the status of crushedit, and what
crushedit has written to standard error.

--limit has one limit for each size. Without --limit, crushedit may take 5 seconds for inputs of at most 1 MB, and 60
seconds for larger inputs. If a run takes longer, the script ends the run and prints `> LIMIT` in place of the seconds.
With --write, the script writes the inputs into FOLDER and runs nothing.

An input for `--to`, which finds the commands that change one map into another map, has two files: a map, and the
wanted map, whose name ends in `.wanted`. The size of the input is the size of both files together.

The three inputs whose names begin with `documents_` are the same map, in which the devices are in the innermost of
nested buckets. The script runs them with the options of WORDS, which print a tree or a JSON document. If a JSON
document takes more than three times as long as the tree, the script prints `> 3 x TREE` after the status, where TREE
is the time of the tree.

The status is 1 in these cases: a run takes longer than its limit, a signal ends a run, or a JSON document takes more
than three times as long as the tree.
"""

import argparse
import itertools
import os
import resource
import signal
import subprocess
import sys
import tempfile

# The largest numbers of devices and buckets of a map, and the largest number of calls (commands and batches) of a job.
MOST_DEVICES, MOST_BUCKETS, MOST_CALLS = 65536, 4096, 65536
TYPES = ["type 0 osd", "type 1 host", "type 2 chassis", "type 3 rack", "type 11 root"]
# The line that ends the text of the map. The commands of the operator `a` follow.
OPERATOR = "%operator a"
# The index of a map has an entry for each item, and finds the entry by the item's id. If the id is nearer to 0 than
# this number, the entry may be in a vector. The entries of all other ids, the *far* ids, are in a hash table.
FAR = 131072


def bytes_of(lines):
    """Returns the number of bytes of these lines, with their line feeds."""
    return sum(len(line) + 1 for line in lines)


def filled(lines, size, more, most=MOST_CALLS):
    """Returns the lines, followed by `more(0)`, `more(1)`, and so on.

    Stops before all lines together would have more than `size` bytes, and at the latest after `more(most - 1)`.
    """
    left, lines = size - bytes_of(lines), list(lines)
    for number in range(most):
        line = more(number)
        left -= len(line) + 1
        if left < 0:
            break
        lines.append(line)
    return lines


def bucket(kind, name, number, items, ids=()):
    """Returns the lines of a bucket with the id `-number`. `ids` has the lines with its class ids."""
    lines = [f"{kind} {name} {{", f"id -{number}", *ids, "alg straw2"]
    return lines + [f"item {item} weight {weight}" for item, weight in items] + ["}"]


def flat(devices, hosts=1, weight=0.5):
    """Returns the lines of a map of devices in hosts, and of a root that holds the hosts."""
    lines = [f"device {number} osd.{number}" for number in range(devices)] + TYPES
    names = []
    for host in range(hosts):
        items = [(f"osd.{number}", weight) for number in range(host, devices, hosts)]
        names.append((f"h{host}", weight * len(items)))
        lines += bucket("host", f"h{host}", host + 2, items)
    return lines + bucket("root", "default", 1, names)


def nest(depth=MOST_BUCKETS, first_id=1, devices=1):
    """Returns the lines of a map of nested buckets. The innermost bucket holds the devices.

    The id of the outermost bucket is `-first_id`.
    """
    lines = [f"device {number} osd.{number}" for number in range(devices)] + TYPES
    items = [(f"osd.{number}", 1) for number in range(devices)]
    for number in range(depth, 0, -1):
        lines += bucket("rack", f"b{number}", first_id + number - 1, items)
        items = [(f"b{number}", devices)]
    return lines


def fork_at_the_foot(first_id, beside=()):
    """Returns the lines of a map of nested buckets, of which the innermost holds two hosts. One host holds the device.

    Before the nested buckets, the map has an empty host with the id `-number` for each number of `beside`.
    """
    depth = MOST_BUCKETS - 2 - len(beside)
    lines = ["device 0 osd.0"] + TYPES
    for number in beside:
        lines += bucket("host", f"beside{number}", number, [])
    lines += bucket("host", "left", first_id + depth, [("osd.0", 1)])
    lines += bucket("host", "right", first_id + depth + 1, [])
    items = [("left", 1), ("right", 0)]
    for number in range(depth, 0, -1):
        lines += bucket("rack", f"b{number}", first_id + number - 1, items)
        items = [(f"b{number}", 1)]
    return lines


def long_name(number):
    """Returns a name of 255 bytes. Two such names differ only in their last bytes."""
    return f"{number:0>255}"


def devices_for(size):
    """Returns how many devices, with their items, take about half of `size` bytes in the map of `flat`.

    Returns at most the number of devices that a map may have.
    """
    return min(MOST_DEVICES, size // 2 // 50)


# Most of the following functions return the lines of one input, for a size in bytes. The name of such a function is
# the name of the input.

def deep_reweights(size):
    return filled(nest() + [OPERATOR], size, lambda n: f"reweight osd.0 {n % 7}.5")


def hundred_deep_reweights(size):
    return nest() + [OPERATOR] + [f"reweight osd.0 {n % 7}.5" for n in range(100)]


def deep_subtrees(size):
    return filled(nest() + [OPERATOR], size, lambda n: f"reweight-subtree b1 {n % 7}.5")


def deep_renames(size):
    return filled(nest() + [OPERATOR], size, lambda n: f"rename-bucket {['b4096 c', 'c b4096'][n % 2]}")


def deep_moves(size):
    """Moves the inner half of the nested buckets to another root and back, again and again."""
    lines = nest(MOST_BUCKETS - 1) + bucket("root", "other", MOST_BUCKETS, [])
    return filled(lines + [OPERATOR], size, lambda n: f"move b2048 {['root=other', 'rack=b2047'][n % 2]}")


def deep_absent(size):
    return filled(nest() + [OPERATOR], size, lambda n: "rm x")


def deep_batches(size):
    return filled(nest() + [OPERATOR], size, lambda n: "begin\ncommit")


def deep_pairs_of_edits(size):
    return filled(nest() + [OPERATOR], size, lambda n: f"begin\nreweight osd.0 {n % 7}\nreweight osd.0 9\ncommit")


def deep_swaps(size):
    """Exchanges the items of buckets of one nest with those of buckets of another nest.

    A nest is a chain of nested buckets.
    """
    half = MOST_BUCKETS // 2
    lines = ["device 0 osd.0", "device 1 osd.1"] + TYPES
    for side in range(2):
        below = f"osd.{side}"
        for number in range(half - 1, -1, -1):
            lines += bucket("rack", f"b{side}_{number}", side * half + number + 1, [(below, 1)])
            below = f"b{side}_{number}"
    return filled(lines + [OPERATOR], size, lambda n: f"swap-bucket b0_{n % 2000} b1_{n % 2000}")


def moves_at_the_foot(size, first_id=1, beside=()):
    """One batch that moves the device between the two innermost hosts, again and again."""
    lines = filled(fork_at_the_foot(first_id, beside) + [OPERATOR, "begin"], size - 7,
                   lambda n: f"move osd.0 host={['right', 'left'][n % 2]}", 65536)
    return lines + ["commit"]


def moves_at_the_foot_of_far_ids(size):
    """The batch of `moves_at_the_foot` with far ids, so that each way up from a host begins in the hash table."""
    return moves_at_the_foot(size, FAR)


def moves_at_the_foot_of_near_and_far_ids(size):
    """The batch of `moves_at_the_foot` with far ids, on a map that also has an empty host with the id -1."""
    return moves_at_the_foot(size, FAR, [1])


def weights_at_the_foot(size, first_id=1):
    """One batch that sets the weight of the device in the innermost of nested buckets again and again."""
    lines = filled(nest(first_id=first_id) + [OPERATOR, "begin"], size - 7, lambda n: f"reweight osd.0 {n % 7}.5", 65536)
    return lines + ["commit"]


def weights_at_the_foot_of_far_ids(size):
    """The batch of `weights_at_the_foot` with far ids."""
    return weights_at_the_foot(size, FAR)


def swaps_at_the_foot_of_far_ids(size):
    """One batch that exchanges the two innermost hosts, which have far ids, again and again.

    For each exchange, the program finds the way from each of the two hosts up to the root more than once.
    """
    lines = filled(fork_at_the_foot(FAR) + [OPERATOR, "begin"], size - 7, lambda n: "swap-bucket left right", 65536)
    return lines + ["commit"]


def classes_at_the_foot(size):
    """One batch that sets and removes the class of the device in the innermost of nested buckets, again and again."""
    lines = filled(nest() + [OPERATOR, "begin"], size - 7,
                   lambda n: ["set-device-class c osd.0", "rm-device-class osd.0"][n % 2], 65536)
    return lines + ["commit"]


def batches_of_a_far_device(size):
    """Batches of two commands on a map of 10,001 devices, one of which has the last id that isn't far."""
    lines = flat(10000, 100)
    lines = [f"device {FAR - 1} far"] + lines
    return filled(lines + [OPERATOR], size, lambda n: f"begin\nreweight osd.{n % 10000} {n % 7}\nreweight osd.0 9\ncommit")


def full_swaps(size):
    """Exchanges the items of two hosts that together hold nearly all devices that a map may have.

    The map has 2 MB, and the commands have at most `size` bytes.
    """
    lines = [f"device {n} {n}" for n in range(MOST_DEVICES)] + TYPES
    for host, name in enumerate("ab"):
        lines += [f"host {name} {{", f"id -{host + 1}", "alg straw2"]
        lines += [f"item {n}" for n in range(host, MOST_DEVICES - 2, 2)] + ["}"]
    return filled(lines + [OPERATOR], bytes_of(lines) + size, lambda n: "swap-bucket a b")


def swaps_of_far_ids(size):
    """One batch that exchanges two hosts, whose devices have far ids, again and again."""
    count = min(MOST_DEVICES, size // 2 // 60)
    lines = [f"device {FAR + n} osd.{FAR + n}" for n in range(count)] + TYPES
    for host in range(2):
        lines += bucket("host", f"h{host}", host + 2, [(f"osd.{FAR + n}", 0.25) for n in range(host, count, 2)])
    lines = filled(lines + [OPERATOR, "begin"], size - 7, lambda n: "swap-bucket h0 h1", 65536)
    return lines + ["commit"]


def the_end_of_a_bucket(size):
    """Removes the first device of a host, and then sets the weight of the last device again and again."""
    count = devices_for(size)
    lines = flat(count, 1, 0.25) + [OPERATOR, "rm osd.0"]
    return filled(lines, size, lambda n: f"set osd.{count - 1} {n % 2} host=h0")


def batches_of_two_on(lines, edits):
    """Returns the function of an input: batches of edits that leave the map as it was, on a map of a few lines."""
    return lambda size: filled(lines + [OPERATOR], size, lambda n: f"begin\n{edits}\ncommit")


# The map has one device, which no bucket holds. Its id is the last one that isn't far.
batches_of_a_far_class = batches_of_two_on([f"device {FAR - 1} x"], "set-device-class c x\nrm-device-class x")

# The same with two devices, of which one has a far id.
batches_of_near_and_far_classes = batches_of_two_on(
    [f"device {FAR - 1} x", f"device {FAR} y"], "set-device-class c x\nset-device-class c y\nrm-device-class x\nrm-device-class y")

# Two roots with the last ids that aren't far.
batches_of_far_roots = batches_of_two_on(
    TYPES + bucket("root", "a", FAR - 1, []) + bucket("root", "b", FAR - 2, []), "swap-bucket a b\nswap-bucket a b")

# A device and a bucket with the last ids that aren't far.
batches_of_a_far_device_and_a_far_bucket = batches_of_two_on(
    [f"device {FAR - 1} x"] + TYPES + bucket("host", "h", FAR - 1, [("x", 1)]), "rename-bucket h g\nrename-bucket g h")


def batches_of_a_move_and_a_weight(size):
    """Batches that move a device between two hosts, and set its weight."""
    count = devices_for(size)
    lines = flat(count, 2)
    return filled(lines + [OPERATOR], size, lambda n: f"begin\nmove osd.0 host=h{(n + 1) % 2}\nreweight osd.0 {n % 7}\ncommit")


def batches_of_new_names(size):
    """Batches that give a host another name and then its old name again, on a map of many devices."""
    lines = flat(devices_for(size), 2)
    return filled(lines + [OPERATOR], size, lambda n: "begin\nrename-bucket h0 x\nrename-bucket x h0\ncommit")


def batches_of_long_names(size):
    """Batches of two commands on a map whose devices have the longest names that are allowed."""
    lines = filled([], size // 2, lambda n: f"device {n} {long_name(n)}", MOST_DEVICES)
    last = len(lines)
    lines += TYPES + bucket("host", "h", 1, [(long_name(n), 0.25) for n in range(0, last, 8)])
    return filled(lines + [OPERATOR], max(size, bytes_of(lines) + size // 4), lambda n: "begin\nadd-bucket x host\nrm x\ncommit")


def a_wide_level_over_a_nest(size):
    """Sets the weight of the device in the innermost of nested buckets, whose root also holds many other devices."""
    count = devices_for(size) // 2
    lines = ["device 0 osd.0"] + [f"device {n} osd.{n}" for n in range(1, count)] + TYPES
    below = "osd.0"
    for number in range(MOST_BUCKETS - 1, 0, -1):
        lines += bucket("rack", f"b{number}", number + 1, [(below, 1)])
        below = f"b{number}"
    lines += bucket("root", "default", 1, [(f"osd.{n}", 0.25) for n in range(1, count)] + [(below, 1)])
    return filled(lines + [OPERATOR], size, lambda n: f"reweight osd.0 {n % 7}.5")


def batches_of_sixteen_operators(size):
    """Ten batches of each of sixteen operators, on a map with as many devices as fit."""
    sections = [line for o in range(16) for line in [f"%operator o{o}"] + ["begin", "reweight osd.0 1", "reweight osd.1 2", "commit"] * 10]
    count = min(MOST_DEVICES - 1, (size - bytes_of(sections)) // 55)
    return flat(count, 100, 0.25) + sections


def devices_alone(size):
    return filled([], size, lambda n: f"device {n} osd.{n}", MOST_DEVICES)


def long_names(size):
    return filled([], size, lambda n: f"device {n} {long_name(n)}", MOST_DEVICES)


def long_absent_names(size):
    lines = filled([], size // 2, lambda n: f"device {n} {long_name(n)}", MOST_DEVICES)
    return filled(lines + [OPERATOR], size, lambda n: f"rm {long_name(n + 100000)}")


def colliding(count):
    """Returns `count` names that would be in the same place of a hash table with this many names.

    The hashes agree in the bits that choose the place, if the hash function has no secret keys. The hash function is
    SipHash-1-3, with zeros for keys. If PYTHONHASHSEED is 0, Python 3.11 and later versions hash bytes in this way.
    """
    bits = max(count // 9, 1).bit_length()
    found = subprocess.run([sys.executable, "-c", COLLIDING, str(count), str(bits)], stdout=subprocess.PIPE,
                           env={**os.environ, "PYTHONHASHSEED": "0"}, check=True)
    return found.stdout.decode().split()


# The program that finds these names. Its arguments are the number of names, and the number of bits that must agree.
COLLIDING = """
import sys
if sys.hash_info.algorithm != "siphash13":
    sys.exit("needs a Python that hashes by SipHash-1-3, as from 3.11 on")
count, mask = int(sys.argv[1]), (1 << int(sys.argv[2])) - 1
number = 0
while count:
    name = b"%020x" % number
    key = hash(name)
    if not (key ^ key >> 32) & mask:
        print(name.decode())
        count -= 1
    number += 1
"""


def colliding_names(size):
    """Devices whose names collide, and edits of items that don't exist and whose names collide with these names."""
    count = min(16000, size // 2 // 35)
    names = colliding(count + count // 4)
    lines = [f"device {number} {name}" for number, name in enumerate(names[:count])]
    absent = names[count:]
    return filled(lines + [OPERATOR], size, lambda n: f"rm {absent[n % len(absent)]}")


def new_buckets(size):
    return filled(TYPES + [OPERATOR], size, lambda n: f"add-bucket b{n} rack", 32000)


def new_devices(size):
    return filled(flat(1) + [OPERATOR], size, lambda n: f"add osd.{n + 1} 0.5 host=h0", 20000)


def flat_batches(size):
    return filled(flat(2000, 100) + [OPERATOR], size, lambda n: "begin\ncommit")


def batches_of_two(size):
    count = devices_for(size)
    return filled(flat(count, 100) + [OPERATOR], size,
                  lambda n: f"begin\nreweight osd.{n % count} {n % 7}\nreweight osd.0 {n % 5}\ncommit")


def refused_batches(size):
    """Batches whose last edit is refused, so that the other edit of the batch is undone."""
    count = devices_for(size)
    return filled(flat(count, 100) + [OPERATOR], size,
                  lambda n: f"begin\nreweight osd.{n % count} {n % 7}\nrm x\ncommit")


def one_batch(size):
    count = devices_for(size)
    lines = filled(flat(count, 100) + [OPERATOR, "begin"], size - 7, lambda n: f"reweight osd.{n % count} {n % 7}")
    return lines + ["commit"]


def removals_at_the_front(size):
    count = devices_for(size)
    return filled(flat(count) + [OPERATOR], size, lambda n: f"rm osd.{n}", count)


def removals_taken_back(size):
    """One batch that removes the devices of a host, always the first one, and then is refused."""
    count = devices_for(size)
    lines = filled(flat(count) + [OPERATOR, "begin"], size - 12, lambda n: f"rm osd.{n}", min(count, MOST_CALLS - 1))
    return lines + ["rm x", "commit"]


def names_taken_back(size):
    """One batch that renames the innermost of nested buckets again and again, and then is refused."""
    lines = filled(nest() + [OPERATOR, "begin"], size - 12, lambda n: f"rename-bucket {['b4096 c', 'c b4096'][n % 2]}", MOST_CALLS - 1)
    return lines + ["rm x", "commit"]


def moves_from_the_front(size):
    count = devices_for(size)
    lines = flat(count) + bucket("host", "other", 3, [])
    return filled(lines + [OPERATOR], size, lambda n: f"move osd.{n} host=other", count)


def moves_there_and_back(size):
    lines = flat(devices_for(size)) + bucket("host", "other", 3, [])
    return filled(lines + [OPERATOR], size, lambda n: f"move osd.0 host={['other', 'h0'][n % 2]}")


def subtrees(size):
    return filled(flat(devices_for(size), 100) + [OPERATOR], size, lambda n: f"reweight-subtree default {n % 7}")


def large_swaps(size):
    return filled(flat(devices_for(size), 2) + [OPERATOR], size, lambda n: "swap-bucket h0 h1")


def take_steps(size):
    lines = TYPES + [line for n in range(MOST_BUCKETS) for line in bucket("rack", f"b{n}", n + 1, [])]
    for rule in range(256):
        steps = [f"step take b{MOST_BUCKETS - 1 - (rule * 64 + n) % 64}" for n in range(64)]
        rule_lines = [f"rule r{rule} {{", f"id {rule}", "type replicated", *steps, "}"]
        if bytes_of(lines) + bytes_of(rule_lines) > size:
            break
        lines += rule_lines
    return filled(lines + [OPERATOR], size, lambda n: f"rm b{MOST_BUCKETS - 1 - n % 64}")


def pairs_over_types(size):
    lines = [f"type {number} t{number}" for number in range(256)] + [OPERATOR]
    return filled(lines, size, lambda n: "move x " + " ".join(f"t{255 - (n + k) % 255}=y{k}" for k in range(16)), 4096)


def routes_without_room(size):
    """Edits that would each create sixteen buckets, which is one more than the map has room for."""
    lines = TYPES + [f"type {number} t{number}" for number in range(20, 36)]
    lines += [line for n in range(MOST_BUCKETS - 15) for line in bucket("rack", f"b{n}", n + 1, [])]
    pairs = " ".join(f"t{number}=y{number}" for number in range(20, 36))
    return filled(lines + [OPERATOR], size, lambda n: f"add osd.{n} 1 {pairs}")


def class_ids(size):
    def one(number):
        ids = [f"id -{number * 17 + 2 + k} class c{k}" for k in range(16)]
        return "\n".join(bucket("rack", f"b{number}", number * 17 + 1, [], ids))
    return filled(TYPES, size, one, MOST_BUCKETS)


def new_buckets_of_class_ids(size):
    """Creates a bucket and removes it, again and again.

    The class ids of the map are the ids nearest to 0, so the search for a free id goes through all of them.
    """
    lines = filled(TYPES, size // 2, lambda n: "\n".join(bucket(
        "rack", f"b{n}", 100000 + n, [], [f"id -{n * 16 + 1 + k} class c{k}" for k in range(16)])), MOST_BUCKETS // 2)
    return filled(lines + [OPERATOR], size, lambda n: f"{['add-bucket x rack', 'rm x'][n % 2]}")


def sixteen_operators(size):
    lines = flat(2000, 100)
    sections = [[f"%operator o{o}"] for o in range(16)]
    each = (size - bytes_of(lines)) // 16
    return lines + [line for o, section in enumerate(sections) for line in filled(
        section, each, lambda n: f"reweight osd.{(n * 7 + o) % 2000} {n % 7}", MOST_CALLS // 16)]


def a_comment(size):
    return ["#" + "x" * (size - 2)]


def a_word(size):
    return ["x" * (size - 1)]


def blank_lines(size):
    return [""] * size


def comments_in_a_section(size):
    return [OPERATOR] + ["#"] * ((size - len(OPERATOR) - 1) // 2)


def blanks_in_a_line(size):
    return [OPERATOR, "rm" + " " * (size - len(OPERATOR) - 5) + "x"]


def spaces_of_operators(size):
    return filled([], size, lambda n: f"%operator o{n}", 10**7)


def documents_of_a_nest(size):
    """A map of 4,000 nested buckets. The innermost bucket holds as many devices as fit, but at most 32,768."""
    room = size - bytes_of(nest(4000))
    return nest(4000, devices=min(MOST_DEVICES // 2, room // 50))


# The inputs of INPUTS that are run with options, and these options.
WORDS = {"documents_tree": ["--tree"], "documents_map_as_json": ["--json"], "documents_tree_as_json": ["--json", "--tree"]}

# How many times as long as the tree a JSON document may take.
MOST_TREES = 3


def planned(words, make):
    """Returns the function of an input for `--to`. `words` has further options.

    `make` returns the lines of a map and the lines of the wanted map.
    """
    return lambda size: (words, *make(size))


def other_names_of_a_nest(size):
    """Each of the nested buckets gets the name of the bucket inside it, and the innermost that of the outermost."""
    depth = min(MOST_BUCKETS, size // 2 // 70)
    lines = nest(depth)
    names = {f"b{number}": f"b{number % depth + 1}" for number in range(1, depth + 1)}
    return lines, [" ".join(names.get(word, word) for word in line.split(" ")) for line in lines]


def other_weights_at_the_foot(size, depth=4000):
    """Each device in the innermost of nested buckets gets another weight than all other devices."""
    depth = min(depth, size // 4 // 70)
    count = min(MOST_DEVICES, (size - 2 * 70 * depth) // 2 // 60)
    head = [f"device {number} osd.{number}" for number in range(count)] + TYPES

    def lines(weight):
        items, made = [(f"osd.{number}", weight(number)) for number in range(count)], list(head)
        for number in range(depth, 0, -1):
            made += bucket("rack", f"b{number}", number, items)
            items = [(f"b{number}", 0)]
        return made
    return lines(lambda number: 0.001), lines(lambda number: round(0.01 + number / 100000, 5))


def other_places_at_the_foot(size):
    """All devices move from one of the two hosts in the innermost bucket to the other host."""
    depth = min(4000, size // 4 // 70)
    count = min(MOST_DEVICES, (size - 2 * 70 * depth) // 2 // 60)
    head = [f"device {number} osd.{number}" for number in range(count)] + TYPES

    def lines(full):
        items = [(f"osd.{number}", 0.01) for number in range(count)]
        made = list(head)
        for side in range(2):
            made += bucket("host", f"h{side}", depth + 1 + side, items if side == full else [])
        items = [("h0", 0), ("h1", 0)]
        for number in range(depth, 0, -1):
            made += bucket("rack", f"b{number}", number, items)
            items = [(f"b{number}", 0)]
        return made
    return lines(0), lines(1)


def names_that_help_nothing(size):
    """The hosts in the innermost of nested buckets get each other's names, and another algorithm.

    If the program compares the hosts by their ids, their names differ. If it compares them by their names, only their
    algorithms differ, which no command can set.
    """
    half = min(MOST_BUCKETS // 2, size // 4 // 70)

    def lines(turn, alg):
        made = list(TYPES)
        for number in range(half):
            made += [line.replace("straw2", alg) for line in bucket("host", f"h{(number + turn) % half}", half + 1 + number, [])]
        items = [(f"h{number}", 0) for number in range(half)]
        for number in range(half, 0, -1):
            made += bucket("rack", f"b{number}", number, items)
            items = [(f"b{number}", 0)]
        return made
    return lines(0, "straw2"), lines(1, "list")


# The inputs for `--to`, and all other inputs: the name of each input, and the function that makes it for a size in
# bytes.
PLANS = {
    "other_names_of_a_nest": planned([], other_names_of_a_nest),
    "other_names_under_a_nest": planned(["--under", "b1"], other_names_of_a_nest),
    "other_weights_at_the_foot": planned([], other_weights_at_the_foot),
    "other_weights_under_a_nest": planned(["--under", "b1"], other_weights_at_the_foot),
    "other_places_at_the_foot": planned([], other_places_at_the_foot),
    "names_that_help_nothing": planned([], names_that_help_nothing)}

INPUTS = {
    **{name: documents_of_a_nest for name in WORDS},
    "batches_of_a_far_class": batches_of_a_far_class, "batches_of_near_and_far_classes": batches_of_near_and_far_classes,
    "batches_of_far_roots": batches_of_far_roots, "batches_of_a_far_device_and_a_far_bucket": batches_of_a_far_device_and_a_far_bucket,
    **{function.__name__: function for function in (
    hundred_deep_reweights, deep_reweights, deep_subtrees, deep_renames, deep_moves, deep_absent, deep_batches,
    deep_pairs_of_edits, deep_swaps, devices_alone, long_names, long_absent_names, colliding_names, new_buckets,
    new_devices, flat_batches, batches_of_two, refused_batches, one_batch, removals_at_the_front,
    removals_taken_back, names_taken_back, moves_from_the_front, moves_there_and_back, subtrees, large_swaps, take_steps, pairs_over_types,
    routes_without_room, class_ids, new_buckets_of_class_ids, sixteen_operators, a_comment, a_word, blank_lines,
    comments_in_a_section, blanks_in_a_line, spaces_of_operators, moves_at_the_foot, moves_at_the_foot_of_far_ids,
    moves_at_the_foot_of_near_and_far_ids, weights_at_the_foot, weights_at_the_foot_of_far_ids,
    swaps_at_the_foot_of_far_ids, classes_at_the_foot,
    batches_of_a_far_device, batches_of_a_move_and_a_weight, full_swaps, swaps_of_far_ids, the_end_of_a_bucket,
    batches_of_new_names, batches_of_long_names, a_wide_level_over_a_nest, batches_of_sixteen_operators)}}


def timed(program, job, limit, words=()):
    """Runs a job with these options. Returns the processor seconds, the status, and the text of standard error.

    If the run takes longer than the limit, the seconds are None, the status is 0, and the text is empty.
    """

    def limited():
        resource.setrlimit(resource.RLIMIT_CPU, (limit, limit + 1))

    with open(job, "rb") as stdin, tempfile.TemporaryFile() as told:
        run = subprocess.Popen([program, *words], stdin=stdin, stdout=subprocess.DEVNULL, stderr=told, preexec_fn=limited)
        _, how, used = os.wait4(run.pid, 0)
        run.returncode = os.waitstatus_to_exitcode(how)
        told.seek(0)
        if run.returncode in (-signal.SIGXCPU, -signal.SIGKILL):
            return None, 0, ""
        return used.ru_utime + used.ru_stime, run.returncode, told.read().decode().strip()


def written(folder, name, made):
    """Writes an input into a folder. Returns the files of the input, first the job, and the options to run it with."""
    words, *texts = made if isinstance(made, tuple) else ([], made)
    files = [os.path.join(folder, name + end) for end, _ in zip(("", ".wanted"), texts)]
    for file, lines in zip(files, texts):
        with open(file, "w") as out:
            out.write("\n".join(lines) + "\n")
    wanted = files[1:]
    return files, [*words, "--to", *wanted] if wanted else words


def main():
    parser = argparse.ArgumentParser(description=__doc__.splitlines()[0])
    parser.add_argument("program", nargs="?", help="not with --write")
    parser.add_argument("--write", metavar="FOLDER")
    parser.add_argument("--megabytes", type=float, nargs="+", default=[1, 16])
    parser.add_argument("--limit", type=int, nargs="+", help="processor seconds that a run may take, for each size")
    parser.add_argument("--only", nargs="+", metavar="WORD", help="inputs whose name has one of these words")
    options = parser.parse_args()
    if bool(options.program) == bool(options.write):
        parser.error("a program or --write FOLDER")
    limits = options.limit or [5 if megabytes <= 1 else 60 for megabytes in options.megabytes]
    if len(limits) != len(options.megabytes):
        parser.error("a limit for each of the sizes")
    failed = False
    tree = None
    with tempfile.TemporaryDirectory() as own:
        folder = options.write or own
        os.makedirs(folder, exist_ok=True)
        for (megabytes, limit), (name, make) in itertools.product(zip(options.megabytes, limits), {**INPUTS, **PLANS}.items()):
            if options.only and not any(word in name for word in options.only):
                continue
            files, words = written(folder, f"{name}.{megabytes:g}", make(int(megabytes * 1_000_000)))
            if options.write:
                continue
            size = sum(os.path.getsize(file) for file in files)
            seconds, status, told = timed(os.path.abspath(options.program), files[0], limit, [*words, *WORDS.get(name, ())])
            for file in files:
                os.remove(file)
            failed |= status < 0 or seconds is None
            shown = f"> {limit}" if seconds is None else f"{seconds:.2f}"
            if name == "documents_tree":
                tree = seconds
            elif name in WORDS and tree is not None and seconds is not None and seconds > MOST_TREES * tree:
                failed, told = True, f"> {MOST_TREES} x {tree:.2f} {told}"
            print(f"{name:26} {size:>9} {shown:>7} {status:>3} {told}".rstrip(), flush=True)
    sys.exit(1 if failed else 0)


if __name__ == "__main__":
    main()
