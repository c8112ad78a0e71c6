"""Computes the lines that `--explain` prints: a part of the plain model.

The plain model is a second implementation of crushedit, in Python, with which tests compare the program. With
`--explain`, crushedit prints more lines on standard error. Most of these lines say where an error is, and what is
wrong. This module computes these lines as the page docs/user/FORMATS.md describes them. Their sentences are those of
the page docs/user/RULES.md. The module reads some of the sentences from the tables of this page, and has the other
sentences itself. It also computes the lines that `--no-make` prints (`created_text`).

- A *fault* is the reason why the text of a map or a job is invalid. A *refusal* is the reason why a map refuses a
  command.
- The *place* of a word in a text is the number of bytes before the word. The model reads each byte of a text as one
  character.
- A *call* is a batch, or a command that is in no batch. Its *history line* shows the call and the reply to the call.
- An *edit* is one command. The functions take an edit as the list of its words, or as one string (`edit_reason`).
"""

import collections
import os
import pathlib
import re

from model import is_change, make, number_of, route, text_of, units_of

RULES = pathlib.Path(__file__).resolve().parent.parent / "docs/user/RULES.md"
# A message shows at most 72 bytes of a line. If the error has a place in the line, these bytes begin at most 40 bytes
# before this place.
MOST_SHOWN, MOST_BEFORE = 72, 40
# crushedit searches for similar names only for the first 256 refused calls, and only for the first 256 created buckets
# that `created_text` counts.
MOST_LOOKS = 256


def unquoted(cell):
    """Returns the sentence of a table's cell without the backquotes around it.

    If the sentence itself has backquotes, the cell has two backquotes on each side of the sentence."""
    return cell[2:-2].strip(" ") if cell.startswith("``") else cell.strip("`")


def sentences(heading, name):
    """Returns the sentences of the table in a section of RULES.md, by the names in the table's column `name`.

    `heading` is the heading of the section."""
    section = RULES.read_text().partition(f"\n## {heading}\n")[2].partition("\n## ")[0]
    rows = [re.split(r" ?\| ?", line)[1:-1] for line in re.findall(r"(?m)^\|.*\|$", section)]
    own, said = rows[0].index(name), rows[0].index("Sentence")
    return {row[own].split("`")[1]: unquoted(row[said]) for row in rows[2:]}


OF_TEXTS, OF_JOBS = sentences("Faults of a text", "Fault"), sentences("Faults of a job", "Fault")
OF_REFUSALS, OF_RUNS = sentences("Refusals", "Refusal"), sentences("Sentences of runs", "Line")
OF_NAMES = sentences("Refusals that name what is in the way", "Refusal")
# The key is the first word of a line. The value has the form of the rest of the line, and the kinds of its words.
FORMS = {
    "%operator": ("NAME", ["name"]), "begin": ("at N", ["at", "count"]), "commit": ("", []),
    "add": ("osd.N WEIGHT TYPE=NAME ..", ["device", "weight", "pairs"]),
    "set": ("osd.N WEIGHT TYPE=NAME ..", ["device", "weight", "pairs"]),
    "create-or-move": ("osd.N WEIGHT TYPE=NAME ..", ["device", "weight", "pairs"]),
    "move": ("NAME TYPE=NAME ..", ["name", "pairs"]), "swap-bucket": ("NAME NAME", ["name", "name"]),
    "reweight": ("NAME WEIGHT", ["name", "weight"]), "reweight-subtree": ("NAME WEIGHT", ["name", "weight"]),
    "rm": ("NAME", ["name"]), "remove": ("NAME", ["name"]), "add-bucket": ("NAME TYPE", ["name", "name"]),
    "rename-bucket": ("FROM TO", ["name", "name"]), "set-device-class": ("CLASS NAME", ["name", "name"]),
    "rm-device-class": ("NAME", ["name"]),
}
# The commands, `begin` and `commit`, in the order in which `no_command` compares them with a mistyped word.
COMMANDS = ["add", "set", "create-or-move", "move", "swap-bucket", "reweight", "reweight-subtree", "rm", "remove",
            "add-bucket", "rename-bucket", "set-device-class", "rm-device-class", "begin", "commit"]
OPEN, MOST_EDITS = "a batch is already open: end it with `commit`", "a batch has at most 65536 edits"
# The sentences for a fault of a line `%operator NAME` that crushedit itself has put before the script of a file.
OF_FILES = {
    "BadLine": "the file's name can't be used as an operator's name: begin the file with a line %operator NAME",
    "DuplicateOperator": "another operator above has this name: give one of the two files a line %operator NAME",
}
# Phrases for what the grammar of a map's text allows at some places, and ranges of numbers.
STATEMENT = "`tunable`, `device`, `type`, `rule` or the name of a type"
LATER = "`rule` or the name of a type; tunables, devices and types must come before the first bucket or rule"
STEP_WORDS = "`take`, `choose`, `chooseleaf`, `emit` or `set_..`"
LARGE, NEGATIVE = "0 to 2147483647", "-1 to -2147483648"
NEGATIVE_ID = "a negative id, such as -2", NEGATIVE
# The sentence for most texts in which already the first byte is wrong.
NOT_BEGUN = "this is not a text map: use `crushtool -d` to make one"


def shown(text):
    """Returns a text as messages show it: without bytes that can control a terminal.

    A tab or a carriage return becomes a space, and any other byte that isn't printable ASCII becomes `?`."""
    return "".join(" " if byte in "\t\r" else byte if " " <= byte <= "~" else "?" for byte in text)


def shown_line(line):
    return shown(line[:MOST_SHOWN])


def is_name(word):
    return re.fullmatch("[A-Za-z0-9._-]{1,255}", word) is not None


def weight_fault(word):
    """Returns "" if a word is a weight, "large" if the word is a weight that is too large, and otherwise "syntax"."""
    if not re.fullmatch(r"[0-9]{1,10}(\.[0-9]{1,18})?", word):
        return "syntax"
    return "" if units_of(word) <= 2**32 - 1 else "large"


def is_device(word):
    return re.fullmatch("osd\\.(0|[1-9][0-9]{0,9})", word) is not None and int(word[4:]) < 2**31


def is_pair(word):
    kind, equals, name = word.partition("=")
    return equals == "=" and is_name(kind) and is_name(name)


def bare(word):
    return word[1:-1] if len(word) > 1 and word[0] in "\"'" and word[-1] in "\"'" else word


def weight_meant(word):
    if not weight_fault(word):
        return f"did you mean {word}?"
    parts = re.fullmatch("([0-9]{0,10})[,.]([0-9]{1,18})", word)
    if parts:
        return f"did you mean {parts[1] or 0}.{parts[2]}?"
    number = re.match("[0-9.]*", word)[0]
    if not weight_fault(number) and re.fullmatch("[A-Za-z]+", word[len(number):]):
        return "weights are in TiB, without a unit: a disk sold as 4 TB weighs 3.63869"
    return "write a number such as 1.5"


def wrong(slot, word, count):
    """Returns what `--explain` says about a word of a script's line that doesn't fit.

    `slot` is the kind of word that fits here (as in FORMS), or "" if the form has no more words. `count` is the number
    of pairs TYPE=NAME before the word."""
    told = f"`{shown_line(word)}`"
    if slot == "device":
        digits = re.sub("^osd\\.", "", bare(word))
        is_number = re.fullmatch("[0-9]{1,10}", digits) and int(digits) < 2**31
        return f"{told} is not a device: " + (f"did you mean osd.{int(digits)}?" if is_number else
                                              "write osd.N with N from 0 to 2147483647")
    if slot == "weight":
        large = weight_fault(word) == "large" or re.fullmatch("[0-9]{11,}", word)
        return told + (" is too large: weights are in TiB, at most 65535.99998" if large
                       else f" is not a weight: {weight_meant(bare(word))}")
    if slot == "name":
        own = bare(word)
        return told + (f" is not a name: did you mean {own}?" if is_name(own) else
                       " is not a name: use letters, digits, `-`, `_` and `.`, at most 255")
    if slot == "pairs":
        return f"{told} is not a pair: write TYPE=NAME without spaces" if count < 16 else "too many pairs: at most 16"
    if slot == "at":
        return f"unexpected word {told}: expected `at N` or the end of the line"
    return f"{told} is not a number of changes: expected 0 to 65536" if slot == "count" else f"unexpected extra word {told}"


def fits(slot, word, count):
    return {"device": is_device, "weight": lambda word: not weight_fault(word), "name": is_name,
            "pairs": lambda word: count < 16 and is_pair(word), "at": lambda word: word == "at",
            "count": lambda word: re.fullmatch("[0-9]+", word) is not None and int(word) <= 65536}[slot](word)


def line_words(line):
    line = line.removesuffix("\r").partition("#")[0]
    return [word for word in re.split("[ \t]", line) if word]


def line_reason(line):
    """Returns the index of the word that makes a script's line invalid, and what `--explain` says about the line.

    The index counts the words of the line from 0. It is None if the first word is wrong. It is also None if no word is
    wrong, for example if a word is missing. If a word after the first word is wrong or missing, what `--explain` says
    begins with the form of the line."""
    first, *rest = line_words(line)
    if first not in FORMS:
        return None, "a line that begins with % must be `%operator NAME`"
    form, slots = FORMS[first]
    form = f"{'rm' if first == 'remove' else first} {form}".rstrip()
    slots, count = list(slots), 0
    for number, word in enumerate(rest, 1):
        slot = slots[0] if slots else ""
        if not slot or not fits(slot, word, count):
            return number, f"{form}: {wrong(slot, word, count)}"
        count += slot == "pairs"
        slots = slots if slot == "pairs" else slots[1:]
    if slots and slots[0] not in ("pairs", "at"):
        return None, f"{form}: {form.split()[len(rest) + 1]} is missing"
    if first == "commit":
        return None, "no batch is open: start one with `begin`"
    return None, OPEN if first == "begin" else MOST_EDITS


def is_near_command(word, command):
    """Returns whether a word becomes the command by one small change.

    Such a change replaces, removes or adds one byte, or exchanges two neighbouring bytes."""
    same = len(os.path.commonprefix([word, command]))
    word, command = word[same:], command[same:]
    return word[1:] == command[1:] or word[1:] == command or word == command[1:] or (
        len(word) > 1 and word[1::-1] == command[:2] and word[2:] == command[2:])


def no_command(line):
    """Returns what `--explain` says about a line whose first word isn't a command."""
    words = line_words(line)
    if words[:3] == ["ceph", "osd", "crush"]:
        return "leave out `ceph osd crush`"
    meant = [command for command in COMMANDS if is_near_command(words[0], command)]
    return f"`{shown_line(words[0])}` is not a command: " + (f"did you mean {meant[0]}?" if meant else "see --help")


def bucket_wanted(words):
    """Returns what the grammar allows after these words of a bucket.

    The first of these words is the word after the bucket's name. If the grammar requires a whole number, the result is
    a pair of a phrase and the range of the number. Otherwise, also for a weight, the result is only a phrase."""
    head = ["`{`", "`id`", NEGATIVE_ID]
    if len(words) < len(head):
        return head[len(words)]
    words = words[3:]
    while words[:1] == ["id"]:
        class_id = [NEGATIVE_ID, "`class`", "a device class"]
        if len(words) - 1 < len(class_id):
            return class_id[len(words) - 1]
        words = words[4:]
    if not words:
        return "`id` or `alg`"
    if len(words) == 1:
        return "`straw2`, `straw` or `list`"
    words = words[2:]
    if not words:
        return "`hash`, `item` or `}`"
    if words[0] == "hash":
        if len(words) == 1:
            return "a number", "0"
        words = words[2:]
    while words:
        if len(words) == 1:
            return "the name of a device or a bucket"
        if len(words) == 2:
            return "`weight`, `item` or `}`"
        if words[2] == "weight":
            if len(words) == 3:
                return "a weight, such as 1.5"
            words = words[4:]
        else:
            words = words[2:]
    return "`item` or `}`"


def rule_wanted(words):
    """Returns what the grammar allows after these words of a rule, in the form that `bucket_wanted` returns.

    The first of these words is the word after the rule's name."""
    head = ["`{`", "`id` or `ruleset`", ("a number", LARGE), "`type`", "a rule type, such as replicated"]
    if len(words) < len(head):
        return head[len(words)]
    words, due = words[5:], "`min_size`, `max_size`, `step` or `}`"
    for size, later in (("min_size", "`max_size`, `step` or `}`"), ("max_size", "`step` or `}`")):
        if words[:1] == [size]:
            if len(words) == 1:
                return "a number", LARGE
            words, due = words[2:], later
    while words:
        words, due = words[1:], "`step` or `}`"
        if not words:
            return STEP_WORDS
        if words[0] == "take":
            if len(words) < 3:
                return ["the name of a bucket", "`class`, `step` or `}`"][len(words) - 1]
            if words[2] == "class" and len(words) == 3:
                return "a device class"
            words = words[4:] if words[2] == "class" else words[2:]
        elif words[0] in ("choose", "chooseleaf"):
            of_choose = ["`firstn` or `indep`", ("a number", "-2147483648 to 2147483647"), "`type`", "the name of a type"]
            if len(words) - 1 < len(of_choose):
                return of_choose[len(words) - 1]
            words = words[5:]
        elif words[0].startswith("set_"):
            if len(words) == 1:
                return "a number", LARGE
            words = words[2:]
        else:
            words = words[1:]
    return due


def wanted(found):
    """Returns what the grammar allows after these words of a map's text, and the bucket or rule that isn't closed.

    `found` is the list of the words, each as a pair of its place and the word. All these words fit the grammar. What
    the grammar allows has the form that `bucket_wanted` returns. The bucket or rule is returned as a pair of its place
    and its first two words. This pair is None if every bucket and rule is closed, or if the last word is the first
    word of a bucket or rule."""
    late = False
    while found:
        texts = [word for _, word in found]
        if texts[0] in ("tunable", "device", "type"):
            due = {"tunable": ["a name", ("a number", "0 to 4294967295")], "device": [("a number", LARGE), "a name"],
                   "type": [("a number", "0 to 65535"), "a name other than tunable, device, type, rule, class and choose_args"]}[texts[0]]
            if len(found) - 1 < len(due):
                return due[len(found) - 1], None
            if texts[0] == "device" and len(found) == 3:
                return f"`class`, {STATEMENT}", None
            has_class = texts[0] == "device" and texts[3] == "class"
            if has_class and len(found) == 4:
                return "a device class", None
            found = found[5:] if has_class else found[3:]
            continue
        if len(found) == 1:
            return "a name", None
        end = texts.index("}") if "}" in texts else None
        if end is None:
            of = rule_wanted if texts[0] == "rule" else bucket_wanted
            return of(texts[2:]), (found[0][0], " ".join(texts[:2]))
        found, late = found[end + 1:], True
    return LATER if late else STATEMENT, None


def is_first_of_line(text, at):
    return not text[:at].rpartition("\n")[2].strip(" \t\r")


def defined_at(text, name):
    """Returns the place of the name in the definition of the last bucket of this name.

    If the text defines no bucket of this name, the result is 0."""
    from reading import words

    found = words(text)[:-1]
    places = [found[i + 1][0] for i in range(len(found) - 2)
              if found[i][1] != "rule" and found[i + 1][1] == name and found[i + 2][1] == "{"]
    return places[-1] if places else 0


def not_begun(text):
    if text.startswith("\xef\xbb\xbf"):
        return "the text begins with a byte order mark: save it without one"
    return "this file is compressed with gzip: unpack it first" if text.startswith("\x1f\x8b") else NOT_BEGUN


def flaw_told(text, kind, at, files):
    """Returns the place that `--explain` shows for a fault of a map's text, and the sentence about this fault.

    `kind` is the name of the fault, and `at` is its place. `files` are the files of the text, as `own_line` takes
    them. If the text ends too early, the place that is shown is the place of the last word."""
    from reading import words

    word = (re.compile("[{}]|[A-Za-z0-9._-]+").match(text, at) or [""])[0]
    found = words(text[:at])[:-1]
    due, is_open = wanted(found)
    due, range = due if isinstance(due, tuple) else (due, "")
    block = ""
    if is_open and due != "`{`":
        begun, head = is_open
        line = line_told(text[:begun].count(chr(10)) + 1, files).rpartition(" ")[2]
        block = f"{head}, which begins at line {line}"
    if kind in ("BadWord", "Unexpected") and at == 0:
        return at, not_begun(text)
    if kind == "BadWord":
        return at, "a word has at most 255 characters" if word else OF_TEXTS[kind].replace("WORDS", due)
    if kind == "Ended":
        shown_at = found[-1][0] if found else 0
        return shown_at, f"{block}, is not closed" if block else OF_TEXTS[kind].replace("WORDS", due)
    if kind == "Unexpected":
        return at, OF_TEXTS[kind].replace("WORDS", due) + (f" (in {block})" if block else "")
    if kind == "BadNumber":
        first, _, last = range.partition(" to ")
        out = "number out of range: FIRST to LAST" if re.fullmatch("-?[0-9]+", word) else OF_TEXTS[kind]
        return at, (out.replace("FIRST", first).replace("LAST", last) if last else "expected 0")
    if kind == "BadWeight":
        # The name of the weighed item is the second word before the weight. If a `device` line declares this name, the
        # item is a device.
        is_device = any(a[1] == "device" and c[1] == found[-2][1] for a, c in zip(found, found[2:]))
        return at, ("crushtool -d prints a bucket's weight of 32768 and more as a negative number: write 0, and the sum of "
                    "the bucket's items takes its place" if word.startswith("-")
                    else OF_TEXTS[kind].replace("LAST", "32767.99998" if is_device else "65535.99998"))
    before = [word for _, word in found[-2:]]
    if kind == "DuplicateId":
        # The number of a type or a device follows right after the word `type` or `device`. The id of a rule comes
        # after the opening brace of the rule.
        in_rule = bool(is_open) and block.startswith("rule ")
        return at, ("another type has this number" if before[-1] == "type" else "another device has this id"
                    if before[-1] == "device" else "another rule has this id" if in_rule
                    else "another `id` line has this id")
    if kind == "DuplicateName":
        return at, ("this tunable is set above" if before[-1] == "tunable" else
                    "another type has this name" if before[0] == "type" and before[-1].isdigit() else
                    "another `id` line of this bucket has this class" if before[-1] == "class" and block else
                    "another rule has this name" if before[-1] == "rule" else
                    "another device or bucket has this name")
    if kind == "UnknownType":
        if word in FORMS and is_first_of_line(text, at):
            return at, "this looks like a command: commands go below a line `%operator NAME`"
        if word == "ID":
            return at, "this looks like the output of `ceph osd tree`: a text map is the output of `crushtool -d`"
        hint = "; did you mean `class`?" if due.startswith("`class`, `tunable`") and not is_first_of_line(text, at) else ""
        return at, OF_TEXTS[kind].replace("NAME", shown_line(word)) + hint
    if kind in ("UnknownItem", "UnknownBucketInRule"):
        below = defined_at(text, word)
        line = line_told(text[:below].count("\n") + 1, files).rpartition(" ")[2]
        return at, (f"`{shown_line(word)}` is defined below, at line {line}: move that bucket up" if below > at
                    else OF_TEXTS[kind])
    if kind == "LeftOut":
        return at, {"choosemsr": "maps with MSR rules (choosemsr) can't be edited here",
                    "pos": "`pos` isn't supported: if the items are already in the order of these numbers, remove each "
                           "`pos` and its number"}.get(word, OF_TEXTS[kind])
    if kind == "TooMany":
        if block:
            return at, "a rule has at most 64 steps" if word == "step" else "a bucket has at most 16 class ids"
        things = {"tunable": "64 tunables", "device": "65536 devices", "type": "256 types", "rule": "256 rules"}
        return at, OF_TEXTS[kind].replace("COUNT THINGS", things.get(word, "4096 buckets"))
    return at, OF_TEXTS[kind]


def own_line(line, files):
    """Returns the name of the file from which a line of the text comes, and the number of the line in this file.

    `files` are the files whose lines make up the text, in the order of the text. Each file is given as its name, the
    number of its first line in the text, and the number of this line in the file itself. The name may be "". The
    number in the file is 0 if crushedit has put this line before the lines of the file, and otherwise 1. A line
    belongs to the last file whose first line isn't after it."""
    name, first, number = [file for file in files if file[1] <= line][-1]
    return name, line - first + number


def line_told(line, files):
    name, number = own_line(line, files)
    return f"{shown(name)} line {number}" if name else f"line {number}"


def command_head(line, files):
    """Returns the words with which the reason for a refused batch begins: the file and the line of the refused
    command.

    They have the form `drain.txt:5: `, or the form `line 53: ` if the file has no name."""
    name, number = own_line(line, files)
    return f"{shown(name)}:{number}: " if name else f"line {number}: "


def edit_lines(text):
    """Returns the numbers of the lines with the commands of each operator, whether the commands are in batches or not.

    The lines are counted in the whole text. The result is a dict by the names of the operators."""
    lines, own = {}, None
    for number, line in enumerate(text.split("\n"), 1):
        words = line_words(line)
        if line.startswith("%"):
            own = lines.setdefault(words[1], [])
        elif own is not None and words and words[0] not in ("begin", "commit"):
            own.append(number)
    return lines


def place(text, at, files):
    """Returns three lines that show a place in the text.

    The first of these lines has the numbers of the line and the column, after the name of the file if the file has
    one. The second line shows the text's line at this place, or only a part if that line is long. The third line has a
    `^` below the place."""
    before = text[:at]
    behind = len(before) - (before.rfind("\n") + 1)
    kept = min(behind, MOST_BEFORE)
    line = text[at - kept :].split("\n", 1)[0]
    told = line_told(before.count("\n") + 1, files)
    return f"{told}, column {behind + 1}\n    {shown_line(line)}\n    {' ' * kept}^\n"


def fault_text(text, fault, files=(("", 1, 1),), of_runs=""):
    """Returns the lines that `--explain` prints about a fault.

    `text` is the text with the fault, and `files` are its files, as `own_line` takes them. `fault` has the words of
    the first line on standard error, such as `byte 326: UnknownType`. `of_runs` is `since: ` if the text is the map of
    `--since`, and otherwise "". If a fault of this map has no place, its sentence is in the section "Sentences of
    runs" of RULES.md. An example is `TooLong`."""
    where, _, kind = fault.rpartition(": ")
    if where.startswith("byte "):
        at, reason = flaw_told(text, kind, int(where[5:]), files)
        return f"  {place(text, at, files)}  {reason}\n"
    if where.startswith("line "):
        number = int(where[5:])
        lines, told = text.split("\n"), line_told(number, files)
        line, word, reason = lines[number - 1], None, OF_JOBS[kind]
        if told.endswith("line 0"):
            reason = OF_FILES.get(kind, reason)
        elif kind == "BadLine":
            word, reason = line_reason(line)
        elif kind == "NoSuchCommand":
            word, reason = 0, no_command(line)
        if word is None:
            return f"  {told}\n    {shown_line(line)}\n  {reason}\n"
        starts = [found.start() for found in re.finditer("[^ \t]+", line)]
        at = sum(len(before) + 1 for before in lines[: number - 1]) + starts[word]
        return f"  {place(text, at, files)}  {reason}\n"
    return f"  {OF_RUNS[of_runs + kind] if of_runs else OF_JOBS[kind]}\n"


def unread_text(line, name="", reason=""):
    """Returns the standard error of a run with `--explain` that can't open or can't read its input.

    `line` is the first line without `crushedit: `, such as `read fault`. `name` is the name of the file, and `reason`
    is the system's reason. Without a reason, the input is standard input, and no line names it."""
    return f"crushedit: {line}\n  {OF_RUNS[line]}\n" + (f"  {shown(name)}: {reason}\n" if reason else "")


def written_text(written, text):
    """Returns the lines that `--explain` prints about the map's text at the beginning of a job.

    There is a line if the map's text has carriage returns, but no line feeds. There is also a line for each bucket
    whose weight in the text isn't the sum of the weights of its devices. `written` has the name of each such bucket,
    the weight as it is in the text, and the sum. `text` is the text of the whole job."""
    text = "" if text.startswith("%") else text.partition("\n%")[0] + "\n" * ("\n%" in text)
    alone = "\r" in text and "\n" not in text
    returns = "the text has carriage returns but no line feeds, so its first comment never ends\n" if alone else ""
    return returns + "".join(f"{name}: {word} was written, the sum is {text_of(sum)}\n" for name, word, sum in written)


def by_id(map):
    """Returns the names of the items, as a dict by ids: first the buckets from id -1 downward, then the devices
    upward."""
    names = {item["id"]: name for name, item in map.items.items()}
    return {number: names[number] for number in in_order(names)}


def in_order(numbers):
    return sorted(numbers, key=lambda number: (number >= 0, abs(number)))


def tree_rows(map):
    """Yields the depth and the name of each item, in the order of the tree.

    First come the roots, each followed by all items below it. Then come the devices that no bucket holds."""

    def of(name, depth):
        yield depth, name
        for kid in map.items[name]["kids"]:
            yield from of(kid, depth + 1)

    alone = [name for name in by_id(map).values() if not map.parent(name)]
    for name in alone:
        yield from of(name, 0)


def location_of(words):
    return [tuple(pair.split("=")) for pair in words if "=" in pair]


def blamed_of_location(map, at, kind):
    """Returns the type or bucket of a location that a refusal is about, or None if it is about another name.

    `at` is the location, as a list of pairs of a type and a bucket. `kind` is the name of the refusal."""
    kinds, names = [kind for kind, _ in at], [name for _, name in at]
    if kind == "BadLocation":
        wrong = [own for place, own in enumerate(kinds) if number_of(map, own) == 0 or own in kinds[place + 1 :]]
        return (wrong + [own for place, own in enumerate(names) if own in names[place + 1 :]])[0]
    if kind == "NoSuchType":
        return next(own for own in kinds if number_of(map, own) is None)
    return route(map, at)[1] if kind in ("NotABucket", "WrongType", "Loop") else None


def blamed(map, words, kind):
    """Returns the name that the refusal of a command is about.

    `map` is the map that refused the command, and `kind` is the name of the refusal."""
    command, names = words[0], words[1:]
    if command in ("add", "set", "create-or-move", "move"):
        return blamed_of_location(map, location_of(names), kind) or names[0]
    if command == "swap-bucket":
        second = kind == "NoSuchItem" and names[0] in map.items or kind == "NotABucket" and not map.is_device(names[0])
        return names[1] if second else names[0]
    if command == "add-bucket":
        return names[1] if kind in ("NoSuchType", "WrongType") else names[0]
    if command == "rename-bucket":
        return names[1] if kind in ("NameTaken", "AlreadyRenamed") else names[0]
    return names[1] if command == "set-device-class" else names[0]


def is_exchanged(name, other):
    """Returns whether a name becomes the other name if two neighbouring letters are exchanged."""
    return len(name) == len(other) and any(
        name[:place] + name[place + 1] + name[place] + name[place + 2 :] == other for place in range(len(name) - 1))


def is_near(name, other):
    """Returns whether two names are similar.

    They are similar if one of them has one letter more or one different letter, if two neighbouring letters are
    exchanged, if only upper and lower case differ, or if `other` is `osd.` followed by `name`."""
    if other == f"osd.{name}":
        return True
    short, long = sorted((name, other), key=len)
    if len(long) == len(short):
        return sum(a != b for a, b in zip(long, short)) <= 1 or is_exchanged(long, short) or long.lower() == short.lower()
    return any(long[:place] + long[place + 1 :] == short for place in range(len(long)))


def near_item(map, name):
    return next((other for _, other in tree_rows(map) if is_near(name, other)), None)


def near_name(map, name, kind):
    """Returns the first similar name of an item or a type, for a name that the map doesn't have.

    `kind` is the name of the refusal. The result is None if no name is similar, or if `kind` is neither `NoSuchType`
    nor `NoSuchItem`."""
    if kind == "NoSuchType":
        return next((other for other in map.types.values() if is_near(name, other)), None)
    return near_item(map, name) if kind == "NoSuchItem" else None


def taking_rule(map, name):
    return next(rule["name"] for rule in map.rules if any(number == map.items[name]["id"] for _, number in rule["lines"]))


def sentence_of(words, kind, is_itself, count, near):
    """Returns the sentence about a refusal, before words in capital letters, such as NAME, are replaced.

    `words` are the words of the refused command, and `kind` is the name of the refusal. If the refusal is `Loop`,
    `is_itself` says whether the command would move a bucket into itself. If the refusal is `NotEmpty`, `count` is the
    number of items in the bucket. `near` is the similar name that `near_name` has found, if there is one."""
    if kind == "NotADevice" and words[0].endswith("device-class"):
        return "NAME is a bucket: only devices have a class"
    if kind == "WrongType" and words[0] == "add-bucket":
        return "NAME is the type of devices"
    if kind == "Loop" and is_itself:
        return "NAME can't be moved into itself"
    if kind == "NotEmpty" and count == 1:
        return "NAME holds 1 item: move or remove it first"
    if kind == "NoSuchItem" and near:
        return "NAME doesn't exist: did you mean NEAR?"
    if kind == "NoSuchType" and near:
        return "NAME is not a type of the map: did you mean NEAR?"
    return OF_NAMES.get(kind, OF_REFUSALS[kind])


def seen_in(map, words, name, kind):
    """Returns what replaces the words in capital letters of a sentence about the name, except for NAME and NEAR.

    The result is a dict, such as {"BUCKET": "h1"}. Its values come from the map that refused the command, or from the
    command."""
    item = map.items.get(name)
    if kind == "AlreadyPlaced":
        return {"BUCKET": map.parent(name)}
    if kind == "WrongType" and words[0] != "add-bucket":
        return {"TYPE": map.types[item["kind"]], "WANTED": next(own for own, other in location_of(words) if other == name)}
    if kind == "ClassBound":
        return {"CLASS": item["class"]}
    if kind == "InUse":
        return {"RULE": taking_rule(map, name)}
    return {"MOVED": words[1]} if kind == "Loop" else {"N": str(len(item["kids"]))} if kind == "NotEmpty" else {}


def edit_reason(map, edit, kind, looks):
    """Returns the sentence that says why the map refused a command.

    `edit` is the command, and `kind` is the name of the refusal. `looks` says whether to search for a similar name."""
    words = edit.split(" ")
    name = blamed(map, words, kind)
    near = near_name(map, name, kind) if looks else None
    count = len(map.items[name]["kids"]) if kind == "NotEmpty" else 0
    seen = {"NAME": name, "NEAR": near, **seen_in(map, words, name, kind)}
    sentence = sentence_of(words, kind, name == words[1], count, near)
    return re.sub(r"\b(" + "|".join(seen) + r")\b", lambda word: seen[word[0]], sentence)


def after_edits(map, edits):
    for words in edits:
        map = make(map, words)[0]
    return map


def call_reason(map, call, line, heads, looks):
    """Returns the text that says why the map refused a call.

    `line` is the history line of the call. `heads` has the result of `command_head` for each command of a batch.
    `looks` says whether to search for a similar name."""
    at, kind = re.search(r" = refused (?:at (\d+) )?(\w+) ", line).groups()
    seen, count = re.search(r" begin at (\d+) ", line), re.search(r" changes (\d+)$", line)
    told = line.split(" ", 3)[3].rpartition(" = refused ")[0]
    if kind == "Stale":
        return (f"{seen[1]} changes of this run were expected, but there have been {count[1]}" if int(count[1]) < int(seen[1])
                else OF_REFUSALS[kind])
    if at:
        edit = told.split(" ; ")[1 + int(at)]
        return f"{heads[int(at)]}{edit}: {edit_reason(after_edits(map, call[1][: int(at)]), edit, kind, looks)}"
    return edit_reason(map, told, kind, looks)


def refused_text(map, made, job, files):
    """Returns the history lines of the refused calls, each followed by a line that says why the call was refused.

    `made` is the list of all calls of a run, each with its history line, in the order of the history. `map` is the map
    before the first call. `job` is the text of the job with these calls, and `files` are its files, as `own_line`
    takes them."""
    text, refused, given, lines = "", 0, collections.Counter(), edit_lines(job)
    for call, line in made:
        operator = line.split(" ", 3)[2]
        if " = refused " in line:
            heads = [command_head(number, files) for number in lines[operator][given[operator] :][: len(call[1])]]
            text += f"{line}  {call_reason(map, call, line, heads, refused < MOST_LOOKS)}\n"
            refused += 1
        given[operator] += len(call[1])
        if is_change(line):
            map = after_edits(map, call[1])
    return text


def count_made(line):
    """Returns how many buckets the call of a history line created."""
    count = re.search(r" = (?:done|dones \d+) changed \d+ made (\d+)$", line)
    return int(count[1]) if count else 0


def makes_more(call, line):
    """Returns whether a call created more buckets than it has commands `add-bucket`."""
    return count_made(line) > sum(words[0] == "add-bucket" for words in call[1])


def created_hints(map, edits):
    """Returns the hints for the buckets that the locations of these edits create.

    The first edit is made on the given map, and each further edit on the result of the edit before it. A bucket has a
    hint if the map before its edit has an item with a similar name."""
    text = ""
    for words in edits:
        at = location_of(words[1:])
        created = [name for _, name in route(map, at)[0]]
        for name in [name for _, name in at if name in created]:
            near = near_item(map, name)
            text += f"  {name} was created: did you mean {near}?\n" if near else ""
        map = make(map, words)[0]
    return text


def created_text(map, made, explain):
    """Returns the history line of each call that created more buckets than it has commands `add-bucket`.

    If `explain` is true, the hints for the buckets that the locations of the call created follow after its history
    line. The function counts all buckets that the calls with such lines created. The hints end before the call with
    which this count exceeds MOST_LOOKS. `made` is the list of all calls of a run, each with its history line. `map` is
    the map before the first call."""
    text, looks = "", MOST_LOOKS
    for call, line in made:
        if makes_more(call, line):
            count = count_made(line)
            text += line + (created_hints(map, call[1]) if explain and count <= looks else "")
            looks = max(looks - count, 0)
        if is_change(line):
            map = after_edits(map, call[1])
    return text


def is_reason(line, reason, job, files):
    """Returns whether a line on standard error can be the reason for a refused call, whatever map refused the call.

    `line` is the history line of the call, and `reason` is the line after it. If the call is a batch that isn't stale,
    the reason must name a line on which the operator of the call has a command. `job` is the text of the job, and
    `files` are its files, as `own_line` takes them."""
    at, kind = re.search(r" = refused (?:at (\d+) )?(\w+) ", line).groups()
    if kind == "Stale":
        return reason == f"  {call_reason(None, None, line, [], True)}\n"
    told = line.split(" ", 3)[3].rpartition(" = refused ")[0]
    edit = told.split(" ; ")[1 + int(at)] if at else told
    words = edit.split(" ")
    forms = [sentence_of(words, kind, itself, count, near) for itself in (False, True) for count in (1, 2) for near in (None, "")
             ] + [sentence_of(words, kind, False, 2, "NEAR")]
    names = {"NoSuchItem": "NAME|NEAR", "NoSuchType": "NAME|NEAR", "AlreadyPlaced": "NAME|BUCKET", "WrongType": "NAME|TYPE|WANTED",
             "ClassBound": "NAME|CLASS", "InUse": "NAME|RULE", "Loop": "NAME|MOVED", "NotEmpty": "NAME|N"}.get(kind, "NAME")
    heads = [command_head(number, files) for number in edit_lines(job)[line.split(" ", 3)[2]]] if at else []
    front = f"(?:{'|'.join(map(re.escape, heads))}){re.escape(edit)}: " if at else ""
    return any(re.fullmatch("  " + front + re.sub(rf"\b({names})\b", lambda word: r"\S+", re.escape(form)) + "\n", reason)
               for form in forms)
