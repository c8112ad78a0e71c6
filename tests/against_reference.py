"""Runs random and stored jobs with crushedit, and compares status, standard error and output with a plain model.

    python3 tests/against_reference.py crates/crushedit/out/crushedit [JOBS [SEED]]

A *job* is the text of a map, followed by the scripts of operators. The *plain model* is a second implementation of
the program, in Python, which was written from docs/ alone. Its main module is `model.py`, and its module `reading.py`
reads jobs.

Without JOBS, the test draws 1,000 jobs. SEED may be any word, and the same seed gives the same jobs. Without SEED,
the test draws a random seed. The test prints the seed at the end, or together with the first difference.

The test draws random jobs, jobs of sixteen operators, and the jobs that the crate crush_examples stores. The stored
jobs are those of examples/, also those that the program refuses. Many of them have tunables, rules and classes. For
each job, the test also runs two changed copies. In the first copy, a *mutation*, some words, lines or bytes are
changed. The second copy, a *prefix*, is only the beginning of the job. Half of the jobs and copies run with random
options: `--tree`, `--since MAP`, `--as-ceph`, `--strict`, `--explain`, `--script` and `--no-history`.

With each job, the test also runs a *job in files*, that is, a random job whose scripts are in files of their own. In
half of the jobs in files, a faulty line is inserted. In many of them, the text has weights of buckets that aren't the
sums of the weights of their items. Each job in files runs with `--script`, and most of them also run with
`--explain`. Their other options are random.

The modules `looking.py` and `explained.py` compute what the program must print with these options. If the program
doesn't have one of the first six options, the test prints this, and runs without the option. If the program lacks
`--explain` or `--script`, the test runs no jobs in files.

The test runs each job in turn (`--in-turn`), in turn with `--no-make`, and at once. *In turn* means that the scripts
run one after the other. In these runs, all bytes must be those of the model. *At once* means that each script has its
own thread, so the history may differ from run to run. The model then makes the calls in the order of the history that
the program has printed (`at_once.py`). A run at once with `--strict` prints no history if a call is refused. The test
then checks only the status, that nothing is printed, and that standard error has the right form.

At the end, the test prints how many jobs ended in which way, and how often each refusal occurred. If a run differs
from the model, the test prints the job and the difference, and ends with status 1.
"""

import collections
import os
import pathlib
import random
import re
import sys
import tempfile

from at_once import fault_of, job_text, made_by, random_scripts
from chance import Dice, call_lines, random_call, random_job, random_map
from explained import is_reason
from limited import LimitReached, run_limited
from looking import first_line, history_of, is_refusal, reasons
from model import Map, run_call
from reading import joined, outcome, read_job, read_since

DATA = pathlib.Path(__file__).resolve().parent.parent / "crates/crush_examples/data"
# What a mutation may insert into a job: words and bytes, of which some may stand in a job and others may not, and
# numbers at the limits of their ranges and beyond.
PIECES = [
    " ", "\t", "\n", "\r", "#", "{", "}", " { ", " } ", "$", "\0", "\x1f", "\x7f", "\xe9", "=", "%", ".", "-", "_",
    "\n%operator a\n", "\n%operator zz\n", "\nbegin\n", "\ncommit\n", "\nrm x\n", "\nfly\n", " host=h1", " x=y",
    " osd=x", " class ssd ", " class ", " weight 1.5 ", " weight ", " hash 0 ", " hash 1 ", " pos 0 ", " min_size 1 ",
    " max_size 2 ", " step emit ", " step choosemsr ", " step set_x 1 ", " step take default ", " step choose firstn -1 type host ",
    " choose_args 0 ", " tunable t 1 ", " device 7 osd.7 ", " type 2 chassis ", " rule r { id 9 type x } ",
    " host z { id -99 alg straw2 } ", " id -7 class ssd ", " item osd.1 ", " uniform ", "a" * 255, "a" * 256,
    "0", "00", "1", "-0", "-1", "4294967295", "4294967296", "2147483647", "2147483648", "-2147483648", "-2147483649",
    "65535", "65536", "32767.99998", "32767.99999", "65535.99999", "65536.0", ".5", "5.", "0.0000001", "01234567890",
]
# WRITTEN has words that replace the written weight of a bucket. FAULTY has lines that are errors at nearly every place
# of a script, and FAULTY_OF_MAPS has lines that are errors at nearly every place of a map's text.
WRITTEN = ["0", "1", "00001.50", "0.333", "2.500000000000000000", "65535.99998", "0.00001"]
FAULTY = [
    "fly", "\tfly osd.1 # so", "reweight osd.0", "rm", "rm " + "a" * 90 + " b", "%", "%operator", "%operator a b",
    "begin", "commit", "begin at 65537", "add osd.01 1", "move x y=z z", "reweight osd.1 1.", "rm \xe9", "rm osd.1\r\r",
]
FAULTY_OF_MAPS = ["$", "device 7 osd.7 {", "type 1 twice", "\t\xe9", "host", "fly", "choose_args 0", "rule r {", "}"]


def place(dice, things):
    return dice.randint(0, len(things))


def without_a_part(dice, text):
    begin = place(dice, text)
    return text[:begin] + text[begin + dice.choice([1, 1, 2, 5, 20, 100]):]


def with_a_part_again(dice, text):
    begin, at = place(dice, text), place(dice, text)
    return text[:at] + text[begin : begin + dice.choice([1, 5, 20, 100])] + text[at:]


def with_a_piece(dice, text):
    at = place(dice, text)
    return text[:at] + dice.choice(PIECES) + text[at + dice.choice([0, 0, 1]):]


def with_another_word(dice, text):
    """Replaces a word, or the blanks between two words, with another word or blanks of the job, or with a piece."""
    words = re.split(r"(\s+)", text)
    words[place(dice, words[1:])] = dice.choice([dice.choice(words), dice.choice(PIECES)])
    return "".join(words)


def with_lines_exchanged(dice, text):
    lines = text.splitlines(keepends=True) or [""]
    one, other = place(dice, lines[1:]), place(dice, lines[1:])
    lines[one], lines[other] = lines[other], lines[one]
    return "".join(lines)


def with_a_line_less_or_more(dice, text):
    lines = text.splitlines(keepends=True) or [""]
    at = place(dice, lines[1:])
    lines[at : at + 1] = [lines[at]] * dice.choice([0, 2])
    return "".join(lines)


MUTATIONS = [without_a_part, with_a_part_again, with_a_piece, with_a_piece, with_another_word, with_another_word,
             with_lines_exchanged, with_a_line_less_or_more]


def mutated(dice, text):
    for _ in range(dice.choice([1, 1, 1, 2, 4])):
        text = dice.choice(MUTATIONS)(dice, text)
    return text


def prefix(dice, text):
    return text[: place(dice, text)]


def any_job(dice, examples, refused):
    kind = dice.randint(0, 5)
    if kind == 0:
        return job_text(dice, *random_scripts(dice))
    if kind < 3:
        return dice.choice(refused if kind == 1 else examples)
    return random_job(dice)[0]


def run(program, flags, text, folder=None):
    ran = run_limited([program, *flags], input=text.encode("latin-1"), cwd=folder, capture_output=True)
    return ran.returncode, ran.stdout.decode("latin-1"), ran.stderr.decode("latin-1")


def words_of(program):
    """Returns which of the tested options the program has."""
    asked = {"--tree": [], "--since": [os.devnull], "--as-ceph": [], "--strict": [], "--explain": [], "--script": [os.devnull]}
    return {word for word, more in asked.items() if run(program, [word, *more], "")[0] == 0}


def any_words(dice, there):
    """Returns random options that the program has. At most one of them makes the program print something else than a
    map."""
    shown = dice.choice([[], ["--tree"], ["--tree"], ["--since"], ["--since"], ["--as-ceph"]])
    words = [word for word in ["--no-history", "--strict", "--explain", "--script"] if dice.randint(0, 2) == 0] + shown
    return [word for word in words if word in there | {"--no-history"}]


def any_map_text(dice, text):
    """Returns the text of a map for `--since`. This is the map of the job, a mutation of this map, or another random
    map."""
    own = text.partition("\n%")[0] + "\n"
    return dice.choice([own, own, mutated(dice, own), random_map(dice).text(), random_map(dice).text()])


def is_line_of(line, calls):
    """Returns whether the history line of a refused call is the line of one of these calls. Each of these calls is a
    text that begins with the name of its operator."""
    return line.split(" ", 2)[2].partition(" = refused ")[0] in calls


def refusals_fault(printed, refused, scripts):
    """Returns what is wrong with a strict run at once that ended with status 5, or None. Such a run must print
    nothing. Of its history, only the lines of refused calls are known, from standard error. There must be such lines,
    each must belong to a call of the scripts, and their numbers must ascend."""
    if printed or not refused:
        return f"at once: printed {printed!r}, {len(refused)} refused"
    calls = {f"{name} {run_call(Map({}), call, 0)[1].partition(' = ')[0]}" for name, made in scripts for call in made}
    numbers = [int(line.split(" ", 2)[1]) for line in refused]
    if numbers != sorted(set(numbers)) or not all(is_line_of(line, calls) for line in refused):
        return f"at once: refused {refused}"
    return None


def told_fault(told, refused, words, adjusted, text, files):
    """Returns what is wrong with standard error of a strict run at once that ended with status 5, or None. Of the
    history of such a run, only the lines of refused calls are known. With --explain, a line with the reason follows
    each refused line. The reason depends on the map at this point of the run, which isn't known. So the test only
    checks that the reason has the right form."""
    lines = told.splitlines(keepends=True)
    below = reasons(words, None, [], adjusted, text, files) if "--explain" in words else ""
    front, pairs = lines[0], lines[1 : len(lines) - len(below.splitlines())]
    if front != first_line(5, refused, adjusted) or told != front + "".join(pairs) + below:
        return f"at once: {told}"
    if "--explain" not in words:
        return None if pairs == refused else f"at once: {told}"
    right = pairs[::2] == refused and len(pairs) == 2 * len(refused) and all(
        is_reason(line, reason, text, files) for line, reason in zip(refused, pairs[1::2]))
    return None if right else f"at once: {told}"


def at_once_fault(text, files, ran, words, since):
    """Returns what is wrong with a run at once of a job without errors, or None. The history may differ from run to
    run. So the output and standard error are compared with what the model computes for the history of this run."""
    status, printed, told = ran
    read, adjusted, scripts = read_job(text)
    if status == 5 and "--strict" in words:
        refused = [line for line in told.splitlines(keepends=True) if line.startswith("# ") and is_refusal(line)]
        return told_fault(told, refused, words, adjusted, text, files) or refusals_fault(printed, refused, scripts)
    fault = fault_of(read, dict(scripts), printed, words, read_since(since) if "--since" in words else None)
    if status != 0 or fault:
        return f"at once: status {status}, {told}\n{fault}"
    history = history_of(printed, sum(len(calls) for _, calls in scripts))[1]
    made = made_by(dict(scripts), history)
    refused = [line for _, line in made if is_refusal(line)]
    if "--strict" in words and refused:
        return f"at once: a strict run printed {printed}"
    due = first_line(0, refused, adjusted) + reasons(words, read, made, adjusted, text, files)
    return None if told == due else f"at once: {told}\n--- and not {due}"


def parted(text):
    """Splits a job into the text before its sections, and a file for each section. Returns this text, and a list with
    the name and the content of each file. There are at most sixteen files, so the last file may have several
    sections. The text and the files together are the same job again. If possible, a file is named after its operator,
    and then the file doesn't have the line `%operator`. A section is a line that begins with `%`, and the lines up to
    the next section. If the job begins with a section, it isn't split, and the list is empty."""
    front, *sections = re.split(r"(?m)^(?=%)", text)
    if not front:
        return text, []  # after an empty text, the program would add a line feed
    scripts = []
    for number, section in enumerate(sections[:16]):
        head = re.match(r"%operator ([A-Za-z0-9_-]+)\n(?=[ \t]*[a-z])", section)
        is_called = head and len(head[1]) < 200
        rest = "".join(sections[16:]) if number == 15 else ""
        scripts.append((f"{number}/{head[1]}.txt", section[head.end():] + rest) if is_called
                       else (f"{number}/script", section + rest))
    return front, scripts


def any_name(dice, number):
    """Returns a random name for the file of a script. Most names are the name of an operator and `.txt`. Several
    files may have the same operator's name, and some names can't be used as an operator's name."""
    name = dice.choice([f"op{number}.txt"] * 32 + [f"op{number}", f"op{number}.b.txt", "my script.txt", "a#b.txt", ".txt", "same"])
    return dice.choice(["", f"{number}/", f"./{number}/"] if name.startswith("op") else [f"{number}/"]) + name


def any_script(dice, map, number):
    """Returns the text of a random script. The text may begin with lines without words, may then have a line that
    names the operator, and may end without a line feed."""
    calls = "".join(call_lines(dice, random_call(dice, map)) for _ in range(dice.randint(0, 4)))
    own = f"%operator own{number}\n"
    head = dice.choice(["", "# a script\n", " \t\r\n\n", "#%\n", " # so\r\n"])
    head += dice.choice([""] * 12 + [own] * 8 + [" " + own, "% \n"])
    script = head + calls
    return script[:-1] if dice.randint(0, 3) == 0 else script


def with_other_weights(dice, text):
    """Replaces the weights that the text has for buckets inside other buckets. Most of the new weights aren't the
    sums of the buckets' items. Some are the same sums, with or without a further zero at the end."""
    return re.sub(r"(?m)^(\titem (?!osd|disk)\S+ weight )(\S+)",
                  lambda found: found[1] + dice.choice([*WRITTEN, found[2], found[2] + "0"]), text)


def with_a_line(dice, text, lines):
    """Inserts one of these lines into the text, before, between or after its lines."""
    own = text.splitlines(keepends=True)
    at = place(dice, own)
    return "".join(own[:at]) + dice.choice(lines) + "\n" + "".join(own[at:])


def any_files(dice):
    """Returns the text of a job, and a list of scripts in files that follow it. In half of the cases, a faulty line,
    such as a `begin` without `commit`, is inserted into the text or into one of the scripts. Some weights of the text
    are replaced (`with_other_weights`)."""
    map = random_map(dice)
    text = dice.choice([map.text()] * 6 + [map.text()[:-1], map.text() + "%operator own\nrm x\n", "", "\n"])
    scripts = [(any_name(dice, number), any_script(dice, map, number)) for number in range(dice.randint(1, 5))]
    text, wrong = with_other_weights(dice, text), dice.randint(0, 5)
    if wrong == 0:
        return with_a_line(dice, text, FAULTY_OF_MAPS), scripts
    if wrong < 3:
        at = place(dice, scripts[1:])
        scripts[at] = scripts[at][0], with_a_line(dice, scripts[at][1], FAULTY)
    return text, scripts


Case = collections.namedtuple("Case", "text words since name scripts")


def flags_of(case):
    """Returns the arguments of the command line: the options with the names of their files, and then the name of the
    job's file, if the job is in a file."""
    more = {"--since": [["--since", "MAP"]], "--script": [["--script", name] for name, _ in case.scripts]}
    flags = [flag for word in case.words for part in more.get(word, [[word]]) for flag in part]
    return flags + [case.name] * (case.name != "")


def write_files(folder, case):
    for name, own in [("MAP", case.since), *case.scripts, *[(case.name, case.text)] * (case.name != "")]:
        path = pathlib.Path(folder, name)
        path.parent.mkdir(exist_ok=True)
        path.write_bytes(own.encode("latin-1"))


def difference(program, case, due):
    """Runs a case in turn, in turn with --no-make, and at once. Returns how the program differs from the model, or
    None. `due` is the result of the model for the run in turn."""
    flags, given = flags_of(case), "" if case.name else case.text
    with tempfile.TemporaryDirectory() as folder:
        write_files(folder, case)
        got = run(program, ["--in-turn", *flags], given, folder)
        if got != due:
            return f"in turn: {got}\n--- and not {due}"
        made = outcome(*case._replace(words=[*case.words, "--no-make"]))
        got = run(program, ["--in-turn", "--no-make", *flags], given, folder)
        if got != made:
            return f"in turn with --no-make: {got}\n--- and not {made}"
        got = run(program, [flag for flag in flags if flag != "--no-history"], given, folder)
    if due[0] == 1:
        return f"at once: {got}" if got != due else None
    text, files = joined(case.text, case.name if case.scripts else "", case.scripts)
    return at_once_fault(text, files, got, case.words, case.since)


def any_case(dice, own, text, there):
    """Returns a job with random options and files. Half of the jobs have options. If `--script` is among the options,
    the scripts are moved into files. Half of the jobs are in a file, and the others come from standard input. `own`
    is a separate source of random numbers, so that the choice between file and standard input doesn't change the
    following jobs."""
    words = any_words(dice, there) if dice.randint(0, 1) else []
    since = any_map_text(dice, text)
    text, scripts = parted(text) if "--script" in words else (text, [])
    return Case(text, words, since, own.choice(["", "my.job"]), scripts)


def cases(seed, index, there, examples, refused):
    """Yields a job, a mutation of the job, and a prefix of the job. If the program has the options `--script` and
    `--explain`, also yields a job in files. Most of the jobs in files have the option `--explain`."""
    dice, own = Dice(f"{seed} {index}"), Dice(f"{seed} {index} files")
    job = any_job(dice, examples, refused)
    for name, text in (("job", job), ("mutation", mutated(dice, job)), ("prefix", prefix(dice, job))):
        yield name, any_case(dice, own, text, there)
    if {"--script", "--explain"} <= there:
        text, scripts = any_files(own)
        words = [word for word in any_words(own, there) if word not in ("--script", "--explain")] + ["--script"]
        words += own.choice([[], ["--explain"], ["--explain"], ["--explain"]])
        yield "job in files", Case(text, words, any_map_text(own, text), own.choice(["", "my.job"]), scripts)


def lines_told(case, told):
    """Yields two counts, each with its name: how many lines on standard error name a place in the file of a script,
    and how many say that a weight in the text isn't the sum."""
    names = "|".join(re.escape(name) for name, _ in case.scripts)
    yield "places in scripts", len(re.findall(rf"(?m)^  (?:{names}) line \d", told)) if names else 0
    yield "weights written", told.count(" was written, the sum is ")


def compare(program, count, seed):
    there = words_of(program)
    missing = sorted({"--tree", "--since", "--as-ceph", "--strict", "--explain", "--script"} - there)
    if missing:
        print(f"this program has no {', '.join(missing)}: without these")
    examples = [path.read_bytes().decode("latin-1") for path in sorted(DATA.glob("*.job"))]
    records = (DATA / "records").read_bytes().decode("latin-1").split("\x1e")
    told, refusals = collections.Counter(), collections.Counter()
    for index in range(count):
        drawn = list(cases(seed, index, there, examples, records))
        kinds = [name for name, _ in drawn]
        for name, case in drawn:
            due = outcome(*case)
            try:
                wrong = difference(program, case, due)
            except LimitReached as limit:
                wrong = limit
            if wrong:
                sys.stdout.reconfigure(errors="backslashreplace")
                print(*case, f"--- {wrong}", sep="\n--- ")
                sys.exit(f"{name} {index} of seed {seed} differs")
            told[{0: "done", 5: "strict and refused"}.get(due[0]) or due[2].splitlines()[0].split()[-1]] += 1
            told.update(case.words)
            told.update(dict(lines_told(case, due[2])))
            refusals.update(re.findall(r" = refused (?:at \d+ )?(\w+) \d+(?: changes \d+)?\n", due[1]))
    print(f"{count} jobs of seed {seed}, each with a {', a '.join(kinds[1:])}, in turn and at once, end as the model "
          "says:", ", ".join(f"{name} {number}" for name, number in sorted(told.items())))
    print("refusals:", ", ".join(f"{name} {number}" for name, number in sorted(refusals.items())))


def main():
    words = dict(enumerate(sys.argv))
    compare(os.path.abspath(words[1]), int(words.get(2, 1000)), words.get(3, random.randrange(2**32)))


if __name__ == "__main__":
    main()
