"""Reads the texts of maps and jobs into the plain model of `model.py`, and finds the faults in these texts.

The module is a part of the plain model, a second implementation of crushedit with which the tests compare the program.
It was written only from the grammar in docs/user/FORMATS.md and the tables in docs/user/RULES.md. It reads the text of
a map word by word. If a word has several faults, the module reports the fault that has the lowest number in RULES.md.
"""

import re

from explained import fault_text
from looking import ending
from model import MOST, Map, number_of, units_of

# The function `words` ends its list with one of these: END if the text ends there, BAD if a byte isn't allowed there
# or a word is too long.
END, BAD = "", "?"
# The faults of a text, in the order of their numbers.
FAULTS = ("BadWord", "Ended", "Unexpected", "BadNumber", "BadWeight", "DuplicateId", "DuplicateName", "UnknownType",
          "UnknownItem", "SecondParent", "OtherAlgorithm", "LeftOut", "UnknownBucketInRule", "TooMany", "SumTooLarge")
RESERVED = ("tunable", "device", "type", "rule", "class", "choose_args")
ALGORITHMS = ("straw", "straw2", "list")
MOST_OF = {"tunable": 64, "device": 65536, "type": 256, "rule": 256, "bucket": 4096}
MOST_CLASS_IDS, MOST_STEPS, MOST_PAIRS, MOST_OPERATORS = 16, 64, 16, 16
MOST_EDITS = MOST_CALLS = MOST_ENTRIES = 65536
LONGEST_NAME, LONGEST_JOB, LARGEST = 255, 16777216, 2**31 - 1
NUMBER, NEGATIVE, SIGNED = "[0-9]{1,10}", "-[0-9]{1,10}", "-?[0-9]{1,10}"
WEIGHT = r"[0-9]{1,10}(\.[0-9]{1,18})?"
NAME = "[A-Za-z0-9._-]{1,255}"
# The kinds of the words that must follow the first word of each command. A location consists of up to MOST_PAIRS pairs
# TYPE=NAME. The function `is_guard` checks the words that follow `begin`.
COMMANDS = {
    "add": ("device", "weight", "location"), "set": ("device", "weight", "location"),
    "create-or-move": ("device", "weight", "location"), "move": ("name", "location"),
    "swap-bucket": ("name", "name"), "reweight": ("name", "weight"), "reweight-subtree": ("name", "weight"),
    "rm": ("name",), "remove": ("name",), "add-bucket": ("name", "name"), "rename-bucket": ("name", "name"),
    "set-device-class": ("name", "name"), "rm-device-class": ("name",),
    "begin": (), "commit": (),
}


class Fault(Exception):
    """A fault of a text or a job. Its message is what the program prints on standard error after `crushedit: `, or
    after `crushedit: since: ` for a fault in the file of `--since`."""


def words(text):
    """Returns the words of a text as pairs of a place and a word. The place is the number of bytes before the word.

    The last pair has END in place of a word or, if the text has an invalid byte or a word that is too long, BAD. The
    words after BAD are left out.
    """
    found, at = [], 0
    while at < len(text):
        if text[at] in " \t\n\r":
            at += 1
        elif text[at] == "#":
            end = text.find("\n", at)
            at = len(text) if end < 0 else end
        else:
            word = re.compile("[{}]|[A-Za-z0-9._-]+").match(text, at)
            if not word or len(word[0]) > LONGEST_NAME:
                return found + [(at, BAD)]
            found.append((at, word[0]))
            at = word.end()
    return found + [(len(text), END)]


def number(word, form, least, most):
    """Returns the number that a word spells, or None if the word doesn't have this form or the number isn't in the
    range."""
    return int(word) if re.fullmatch(form, word) and least <= int(word) <= most else None


def weight(word):
    """Returns the weight that a word spells, in units (65536ths of 1.0). Returns None if the word isn't a weight, or
    if a bucket can't weigh that much."""
    units = units_of(word) if re.fullmatch(WEIGHT, word) else MOST["bucket"] + 1
    return units if units <= MOST["bucket"] else None


class Reader:
    """Reads the text of a map, from its first word to its last.

    `left` has the words that aren't read yet, the next one last. `map` is the map so far, and `held` has the names of
    the items that a bucket holds. `total` is the weight of all devices in buckets, in units. `adjusted` has an entry
    for each bucket whose written weight isn't the sum of its items' weights: the bucket's name, the written word, and
    the sum in units. `is_behind` is true once a bucket or a rule has begun. After that, no tunable, device or type may
    follow.
    """

    def __init__(self, text):
        self.left = words(text)[::-1]
        self.map, self.held, self.total, self.adjusted, self.is_behind = Map({}, [], []), set(), 0, [], False

    def is_next(self, word):
        return self.left[-1][1] == word

    def take(self, *faults):
        """Takes the next word and returns it.

        Each of `faults` is a pair of a fault's name and a function that says whether a word has this fault. If the
        word has one of these faults, or is BAD or END, raises Fault with the fault that has the lowest number.
        """
        place, word = self.left[-1]
        tests = dict([("BadWord", lambda w: w == BAD), ("Ended", lambda w: w == END), *faults])
        for name in sorted(tests, key=FAULTS.index):
            if tests[name](word):
                raise Fault(f"byte {place}: {name}")
        self.left.pop()
        return word

    def key(self, *keys):
        """Takes the next word, which must be one of these words, and returns it."""
        return self.take(("Unexpected", lambda w: w not in keys))

    def skip(self, key):
        """Takes the next word if it is this word, and returns whether it is."""
        return self.is_next(key) and bool(self.take())

    def plain(self, *faults):
        """Takes the next word, which may be any word except for a brace, and returns it."""
        return self.take(("Unexpected", lambda w: w in "{}"), *faults)

    def number(self, form, least, most, used=()):
        """Takes the next word, which must be a number of this form and in this range, and returns the number. It must
        not be one of the used numbers."""
        return int(self.plain(("BadNumber", lambda w: number(w, form, least, most) is None),
                              ("DuplicateId", lambda w: int(w) in used)))

    def count(self, word):
        """Returns how many statements the map has so far of the kind that begins with this word."""
        buckets = sum(item["id"] < 0 for item in self.map.items.values())
        return {"tunable": len(self.map.tunables), "device": len(self.map.items) - buckets,
                "type": len(self.map.types), "rule": len(self.map.rules)}.get(word, buckets)

    def statements(self):
        while not self.is_next(END):
            first = self.take(
                ("Unexpected", lambda w: w in "{}" or w == "class"
                 or self.is_behind and w in ("tunable", "device", "type")),
                ("UnknownType", lambda w: w not in RESERVED and not number_of(self.map, w)),
                ("LeftOut", lambda w: w == "choose_args"),
                ("TooMany", lambda w: self.count(w) >= MOST_OF.get(w, MOST_OF["bucket"])))
            read = {"tunable": self.tunable, "device": self.device, "type": self.type, "rule": self.rule}.get(first)
            self.is_behind = self.is_behind or first not in ("tunable", "device", "type")
            if read:
                read()
            else:
                self.bucket(number_of(self.map, first))

    def tunable(self):
        name = self.plain(("DuplicateName", lambda w: w in dict(self.map.tunables)))
        self.map.tunables.append((name, self.number(NUMBER, 0, 2**32 - 1)))

    def device(self):
        number = self.number(NUMBER, 0, LARGEST, self.map.used_ids())
        name = self.plain(("DuplicateName", lambda w: w in self.map.items))
        self.map.items[name] = {"id": number, "weight": 0, "kids": []}
        if self.skip("class"):
            self.map.items[name]["class"] = self.plain()

    def type(self):
        number = self.number(NUMBER, 0, 65535, self.map.types)
        self.map.types[number] = self.take(
            ("Unexpected", lambda w: w in "{}" or number != 0 and w in RESERVED),
            ("DuplicateName", lambda w: w in self.map.types.values()))

    def bucket(self, kind):
        name = self.plain(("DuplicateName", lambda w: w in self.map.items))
        self.key("{")
        self.key("id")
        used = self.map.used_ids()
        used.append(self.number(NEGATIVE, -2**31, -1, used))
        bucket = {"id": used[-1], "kind": kind, "ids": [], "kids": []}
        while self.take(("Unexpected", lambda w: w not in ("id", "alg")),
                        ("TooMany", lambda w: w == "id" and len(bucket["ids"]) == MOST_CLASS_IDS)) == "id":
            used.append(self.number(NEGATIVE, -2**31, -1, used))
            self.key("class")
            classes = [other for _, other in bucket["ids"]]
            bucket["ids"].append((used[-1], self.plain(("DuplicateName", lambda w: w in classes))))
        bucket["alg"] = self.plain(("OtherAlgorithm", lambda w: w not in ALGORITHMS))
        if self.skip("hash"):
            self.number(NUMBER, 0, 0)
        sum = 0
        while self.take(("Unexpected", lambda w: w not in ("item", "}") and not (w == "pos" and bucket["kids"])),
                        ("LeftOut", lambda w: w == "pos")) == "item":
            sum += self.item(bucket["kids"], sum)
        self.map.items[name] = bucket

    def item(self, kids, sum):
        """Reads an item of a bucket, after the word `item`, and returns the item's weight in units.

        `kids` has the bucket's items so far, and gets the new item. `sum` is the weight of the items so far, in units.
        """

        def own(name, written):
            return written if self.map.is_device(name) else self.map.weight(name)

        def is_too_heavy(name, written):
            total = self.total + (written if self.map.is_device(name) else 0)
            return sum + own(name, written) > MOST["bucket"] or total > MOST["map"]

        is_alone = self.left[-2][1] != "weight" if len(self.left) > 1 else True
        name = self.plain(("UnknownItem", lambda w: w not in self.map.items),
                          ("SecondParent", lambda w: w in self.held),
                          ("SumTooLarge", lambda w: is_alone and is_too_heavy(w, 65536)))
        written = None
        if self.skip("weight"):
            heaviest = MOST["device" if self.map.is_device(name) else "bucket"]
            written = self.plain(
                ("BadWeight", lambda w: weight(w) is None or weight(w) > heaviest),
                ("SumTooLarge", lambda w: is_too_heavy(name, weight(w))))
        units = own(name, weight(written or "1"))
        if self.map.is_device(name):
            self.map.items[name]["weight"] = units
            self.total += units
        if written and weight(written) != units:
            self.adjusted.append((name, written, units))
        kids.append(name)
        self.held.add(name)
        return units

    def rule(self):
        names, numbers = [rule["name"] for rule in self.map.rules], [rule["id"] for rule in self.map.rules]
        name = self.plain(("DuplicateName", lambda w: w in names))
        self.key("{")
        self.key("id", "ruleset")
        number = self.number(NUMBER, 0, LARGEST, numbers)
        self.key("type")
        lines = [f"rule {name} {{", f"\tid {number}", f"\ttype {self.plain()}"]
        for size in ("min_size", "max_size"):
            if self.skip(size):
                lines.append(f"\t{size} {self.number(NUMBER, 0, LARGEST)}")
        steps = []
        while self.take(("Unexpected", lambda w: w not in ("step", "}")),
                        ("TooMany", lambda w: w == "step" and len(steps) == MOST_STEPS)) == "step":
            steps.append(self.step())
        lines = [(line, None) for line in lines]
        self.map.rules.append({"name": name, "id": number, "lines": lines + steps + [("}", None)]})

    def step(self):
        """Reads a step of a rule, after the word `step`.

        Returns the line of the step as it is printed, and the id of the bucket that the step takes, or None. The line
        of a step `take` has `{}` in place of the bucket's name.
        """
        first = self.take(
            ("Unexpected", lambda w: w not in ("take", "choose", "chooseleaf", "choosemsr", "emit")
             and not w.startswith("set_")),
            ("LeftOut", lambda w: w == "choosemsr"))
        if first == "take":
            taken = self.plain(("UnknownBucketInRule",
                                lambda w: w not in self.map.items or self.map.is_device(w)))
            kind = f" class {self.plain()}" if self.skip("class") else ""
            return f"\tstep take {{}}{kind}", self.map.items[taken]["id"]
        if first in ("choose", "chooseleaf"):
            how = self.key("firstn", "indep")
            count = self.number(SIGNED, -2**31, LARGEST)
            self.key("type")
            kind = self.plain(("UnknownType", lambda w: number_of(self.map, w) is None))
            return f"\tstep {first} {how} {count} type {kind}", None
        return f"\tstep {first}" + ("" if first == "emit" else f" {self.number(NUMBER, 0, LARGEST)}"), None


def read_map(text):
    """Returns the map of a text, and the weights of buckets in the text that aren't the sums of the items' weights.

    The second value has the form of `Reader.adjusted`. Raises Fault if the text has a fault.
    """
    reader = Reader(text)
    reader.statements()
    return reader.map, reader.adjusted


def is_of(kind, word):
    """Returns whether a word of a command is of this kind: a name, a weight, a device, or a pair TYPE=NAME."""
    if kind == "weight":
        return weight(word) is not None
    if kind == "device":
        return bool(re.fullmatch(r"osd\.(0|[1-9][0-9]{0,9})", word)) and int(word[4:]) <= LARGEST
    return bool(re.fullmatch(f"{NAME}={NAME}" if kind == "pair" else NAME, word))


def is_command(words):
    """Returns whether the words after the first word of a command are of the kinds that COMMANDS requires."""
    kinds = list(COMMANDS[words[0]])
    if "location" in kinds:
        pairs = len(words) - len(kinds)
        if not 0 <= pairs <= MOST_PAIRS:
            return False
        kinds[-1:] = ["pair"] * pairs
    return len(kinds) == len(words) - 1 and all(map(is_of, kinds, words[1:]))


def is_guard(words):
    """Returns whether `begin` is the only word of a line, or only `at` and a number up to MOST_ENTRIES follow it."""
    return not words[1:] or (words[1] == "at" and len(words) == 3 and bool(re.fullmatch("0*[0-9]{1,5}", words[2]))
                             and int(words[2][-5:]) <= MOST_ENTRIES)


def read_scripts(lines, before):
    """Returns the scripts of a job in their order. Each is a pair of the operator's name and the list of its calls.

    `lines` are the lines of the job from the first line that begins with `%`, and `before` is the number of lines
    before that line. A call is a pair of its kind and its commands, each as a list of words. The kind is `one` for a
    command that is in no batch, `batch` for a batch, and the number N for a batch that begins with `begin at N`.
    Raises Fault if a line has a fault.
    """
    scripts, batch, begun, kind, calls = [], None, 0, "batch", 0
    for place, line in enumerate(lines, before + 1):
        line = line[:-1] if line.endswith("\r") else line
        words = [word for word in re.split("[ \t]", line.split("#")[0]) if word]
        if line.startswith("%"):
            if batch is not None:
                raise Fault(f"line {begun}: OpenBatch")
            if words[0] != "%operator" or len(words) != 2 or not is_of("name", words[1]):
                raise Fault(f"line {place}: BadLine")
            if len(scripts) == MOST_OPERATORS:
                raise Fault(f"line {place}: TooManyOperators")
            if words[1] in dict(scripts):
                raise Fault(f"line {place}: DuplicateOperator")
            scripts.append((words[1], []))
            continue
        if not words:
            continue
        if words[0] not in COMMANDS:
            raise Fault(f"line {place}: NoSuchCommand")
        is_misplaced = {"begin": batch is not None, "commit": batch is None}.get(
            words[0], batch is not None and len(batch) == MOST_EDITS)
        if not (is_guard(words) if words[0] == "begin" else is_command(words)) or is_misplaced:
            raise Fault(f"line {place}: BadLine")
        if words[0] == "commit":
            scripts[-1][1].append((kind, batch))
            batch = None
        elif batch is not None:
            batch.append(words)
        else:
            calls += 1
            if calls > MOST_CALLS:
                raise Fault(f"line {place}: TooManyCalls")
            if words[0] == "begin":
                batch, begun, kind = [], place, int(words[2][-5:]) if words[1:] else "batch"
            else:
                scripts[-1][1].append(("one", [words]))
    if batch is not None:
        raise Fault(f"line {begun}: OpenBatch")
    return scripts


def read_job(text):
    """Returns the map of a job, the weights of buckets that aren't the sums (as `read_map` returns them), and the
    scripts."""
    if len(text) > LONGEST_JOB:
        raise Fault("TooLong")
    lines = text.split("\n")
    before = next((place for place, line in enumerate(lines) if line.startswith("%")), len(lines))
    front = "\n".join(lines[:before]) + ("\n" if 0 < before < len(lines) else "")
    read, adjusted = read_map(front)
    return read, adjusted, read_scripts(lines[before:], before)


def begins_section(script):
    """Returns whether the first line of a script begins with `%`. Empty lines and lines with only a comment don't
    count."""
    lines = (line for line in script.split("\n") if line.split("#")[0].strip(" \t\r"))
    return next(lines, "").startswith("%")


def joined(text, name, scripts):
    """Appends script files to the text of a job. Returns the whole text, and the list of its files.

    `scripts` are pairs of a file's name and its text. A script that doesn't begin with a line `%operator` gets such a
    line. The operator's name is then the file's name without its folder, up to its first dot. If this can't be the
    name of an operator, the added line has no name, which is a fault.

    Each file of the list has three values: the file's name, the number of its first line in the whole text, and the
    number of that line in the file itself, which is 0 for an added line `%operator`. The first file is the job's own
    file, and `name` is its name.
    """
    files = [(name, 1, 1)]
    for script, own in scripts:
        text += "" if text.endswith("\n") else "\n"
        operator = script.rpartition("/")[2].partition(".")[0]
        named = f"%operator {operator}\n" if is_of("name", operator) else "%operator\n"
        put = "" if begins_section(own) else named
        files.append((script, text.count("\n") + 1, 0 if put else 1))
        text += put + own
    return text, files


def outcome(text, words=(), since=None, name="", scripts=()):
    """Returns the status, the standard output and the standard error that a run with `--in-turn` should have.

    `text` is the text of the job, and `words` are the words of the command line. `since` is the text of the file of
    `--since`, which messages call MAP. `scripts` are pairs of the name and the text of a script file. `name` is the
    name of the job's file. Messages contain this name only if there are script files.
    """
    explain = "--explain" in words
    text, files = joined(text, name if scripts else "", scripts)
    try:
        read, adjusted, calls = read_job(text)
    except Fault as fault:
        return 1, "", f"crushedit: {fault}\n" + (fault_text(text, str(fault), files) if explain else "")
    try:
        old = read_since(since) if "--since" in words else None
    except Fault as fault:
        told = fault_text(since, str(fault), [("MAP", 1, 1)], "since: ") if explain else ""
        return 1, "", f"crushedit: since: {fault}\n" + told
    return ending(words, old, read, adjusted, calls, text, files)


def read_since(text):
    """Returns the map of a text that has no scripts. Raises Fault if the text is too long or has a fault."""
    if len(text) > LONGEST_JOB:
        raise Fault("TooLong")
    return read_map(text)[0]
