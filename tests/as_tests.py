#!/usr/bin/env python3
"""Copies the examples into the data of the program crush_examples, with the expected result of each run.

    python3 tests/as_tests.py [--check]

Without --check, the script writes the files of crates/crush_examples/data and the file `stdout` of this crate, and
removes all other files of the folder data. With --check, the script writes nothing, and the status is 1 if the crate
has other files or other bytes.

A *job* is the text of a map, followed by the scripts of operators. Each NAME.job in examples/, and in the folders
maps/ and worked/ there, has a NAME.out, which is the expected output. If something is expected on standard error,
there is also a NAME.err. Each job becomes a file of crates/crush_examples/data. For each run of a job, the file
`jobs` has a line with the options and the name of the job, and the file `expected` has a part. The program compares
what the run writes with this part. For each run, the file `stdout` of the crate has one short line. Between two parts
of `expected` is a NUL byte, so that grep considers `expected` a binary file, and doesn't show lines of it. If a run
has an output, its part also has a summary of the run, which this script computes from NAME.out and NAME.err.

- A job of several operators runs with --in-turn, because it may have several outputs without --in-turn. Other jobs
  run without this option. There is one exception: the job each_mode runs once for each list of options in MODES.
- For each job of examples/ and maps/ whose NAME.out isn't empty, there are two more runs. NAME.again.job is the
  output, which the program runs once more: the map must stay the same. NAME.alone.job is the map of the job without
  scripts. The program must print this map unchanged, or print NAME.map if this file exists.
- For a job of at_once/, there are several possible outputs. NAME.OPERATOR.out is the output if the script of OPERATOR
  runs first. For each of these outputs, NAME.OPERATOR.job has the section of OPERATOR (the line `%operator` and the
  script) before the other sections, and runs with --in-turn.
- A job of asked/ runs once for each line of NAME.words, with the options of this line. The output has the history,
  but a run with --no-history must leave out the history. If the runs succeed with another status than 0, NAME.status
  has this status. The files *.txt of this folder are copied too, because some of the options name them.
- In a table of refused/, each row is the end of a job that is refused. The file `records` has all these jobs, and
  after them random jobs of one seed. The plain model of tests/model.py computes the output of the random jobs.
  Between two jobs is a record separator. `expected` has a part for each job, and `stdout` has one line for all of
  them.
- The file `growths` has jobs with their outputs. The program runs each of these jobs many times. In the first run,
  the first request for memory is refused, in the second run the second request, and so on.
"""
import json
import pathlib
import re
import sys

TOP = pathlib.Path(__file__).resolve().parent.parent
EXAMPLES = TOP / "examples"
sys.dont_write_bytecode = True
from chance import numbered  # noqa: E402
from reading import read_map  # noqa: E402

CRATE = TOP / "crates/crush_examples"
# Separates two jobs in the files `records` and `growths`. No job contains this byte.
SEPARATOR = "\x1e"
# Separates the parts of a job in the file `growths`.
GROWTH_SEPARATOR = "\x1f"
# Separates the expected results of two runs in the file `expected`.
EXPECTED_SEPARATOR = "\0"
# If a run prints no output, and its standard error begins with one of these texts, the run ends with this status.
# With any other standard error, such a run ends with status 1.
STATUSES = {"crushedit: refused ": 5, "crushedit: made ": 5, "crushedit: differs ": 5, "crushedit: read fault": 3,
            "crushedit: to: read fault": 3}
# The number of random jobs, and their seed.
CHANCE, SEED = 200, 1
# For a job that runs more than once: the options of each run, which stand before the job's name.
MODES = {"each_mode": ["", "--in-turn ", "--in-turn --no-history "]}


def read(path):
    return path.read_bytes().decode("latin-1") if path.exists() else ""


def lines_before(text, begin):
    """Returns the lines before the first line whose beginning matches this regular expression."""
    return re.split(f"(?m)^{begin}", text, maxsplit=1)[0]


def sections(job):
    """Returns the sections of a job, each with the line `%operator` that begins it."""
    return re.findall(r"(?ms)^%.*?(?=^%|\Z)", job)


def mode(job):
    """Returns the options of a job. The scripts of several operators run in turn, so that there is only one output."""
    return "--in-turn " if len(sections(job)) > 1 else ""


def document_of(out):
    """Returns the JSON document of an output, or an empty dictionary if the output isn't a document."""
    return json.loads(out) if out.startswith("{") else {}


def map_of(out):
    """Returns an output without its history."""
    if document := document_of(out):
        document.pop("history")
        return json.dumps(document, separators=(",", ":")) + "\n"
    return lines_before(out, "# 1 (?!commands$|differences stay$)")


def history_of(out):
    """Returns the history lines of an output. If the output is a document, the lines have neither numbers nor names
    of operators."""
    if document := document_of(out):
        return [f"# {entry['call']} = {entry['reply']}" for entry in document["history"]]
    return out[len(map_of(out)) :].splitlines()


def summary(out, err):
    """Returns the summary of a run: how many weights were replaced, how many calls there were, and how many of the
    calls changed the map or created buckets."""
    adjusted = re.match(r"crushedit: adjusted (\d+)\n", err)
    history = history_of(out)
    changes = [re.search(r" = (?:done|dones \d+) changed (\d+) made (\d+)$", line) for line in history]
    changed = sum(counts is not None and counts.groups() != ("0", "0") for counts in changes)
    return f"adjusted {adjusted.group(1) if adjusted else 0} calls {len(history)} changes {changed}"


def expected(words, out, err, done=0):
    """Returns the expected result of a run with these options, as a part of `expected`. `done` is the status of a run
    that has an output. A run that is refused or fails has no output, and its status follows from its standard error
    (STATUSES)."""
    status = next((status for told, status in STATUSES.items() if err.startswith(told)), 1)
    ending = f"< {summary(out, err)}\n{err}< status {done}\n" if out else f"< not done\n{err}< status {status}\n"
    return f"{map_of(out) if '--no-history' in words else out}{ending}"


def runs(job):
    """Yields the runs of an example. A run is a tuple: the options, the name and the bytes of the job, the expected
    output, and the expected standard error."""
    name, text, out, err = job.stem, read(job), read(job.with_suffix(".out")), read(job.with_suffix(".err"))
    assert job.with_suffix(".out").exists(), f"{job.name} has no output"
    for words in MODES.get(name, [mode(text)]):
        yield words, f"{name}.job", text, out, err
    if out and job.parent.name != "worked":
        alone = lines_before(text, "%")
        yield mode(alone), f"{name}.alone.job", alone, read(job.with_suffix(".map")) or alone, err
        yield mode(out), f"{name}.again.job", out, map_of(out), ""


def asked(job):
    """Yields the runs of a job of asked/, one for each line of options. All these runs have the same output (but
    without history if there is --no-history), or none of them has an output. The last member of a run is its status
    if there is an output."""
    text, out, err = read(job), read(job.with_suffix(".out")), read(job.with_suffix(".err"))
    done = int(read(job.with_suffix(".status")) or 0)
    for words in read(job.with_suffix(".words")).splitlines():
        yield f"{words} ", job.name, text, out, err, done


def orders(job):
    """Yields the runs in turn that give the possible outputs of a job of at_once/. In each run, another operator's
    section comes first."""
    text = read(job)
    for out in sorted(job.parent.glob(f"{job.stem}.*.out")):
        first = f"%operator {out.stem.rpartition('.')[2]}\n"
        ordered = sorted(sections(text), key=lambda section: not section.startswith(first))
        name = f"{out.stem}.job"
        yield mode(text), name, lines_before(text, "%") + "".join(ordered), read(out), ""


def spelled(text):
    """Returns the text that a table spells in ASCII. The table has escapes of Python, `@` for a word that is too
    long, and `~` for a word of the greatest length."""
    return text.encode("ascii").decode("unicode_escape").replace("@", "0" * 256).replace("~", "a" * 255)


def refused(table):
    """Yields the jobs of a table of refused/, each with its standard error. A row that begins with two blanks is the
    end of a job. The nearest line `prefix` above the row, with the lines `lines` that follow this `prefix`, is the
    beginning of the job. The nearest line above the row that names an error says why the job is refused. If this line
    also names a place, it is exactly what the program reports. Otherwise the program reports the error at the byte
    that `^` marks in the row."""
    prefix, fault = "", ""
    for line in read(table).split("\n"):
        word, _, rest = line.partition(" ")
        if line.startswith("  "):
            text = prefix + spelled(line[2:])
            told = fault if " " in fault else f"byte {text.index('^')}: {fault}"
            yield text.replace("^", ""), f"crushedit: {told}\n"
        elif word == "prefix":
            prefix = spelled(rest)
        elif word == "lines":
            first, last, text = rest.split(" ", 2)
            prefix += "".join(spelled(text).replace("%", str(n)) for n in range(int(first), int(last) + 1))
        elif word != "#":
            fault = line


def each_run():
    """Yields the runs of the file `jobs`."""
    jobs = [job for folder in (EXAMPLES, EXAMPLES / "maps", EXAMPLES / "worked") for job in sorted(folder.glob("*.job"))]
    at_once = sorted((EXAMPLES / "at_once").glob("*.job"))
    asked_for = sorted((EXAMPLES / "asked").glob("*.job"))
    names = {job.name for job in jobs + at_once + asked_for}
    assert len(names) == len(jobs + at_once + asked_for), "two examples have one name"
    yield from (run for job in jobs for run in runs(job))
    yield from (run for job in at_once for run in orders(job))
    yield from (run for job in asked_for for run in asked(job))


def each_record():
    """Yields the jobs of the file `records`, each with its output and its standard error."""
    for table in sorted((EXAMPLES / "refused").glob("*.txt")):
        yield from ((text, "", err) for text, err in refused(table))
    yield from ((text, out, "") for text, out in numbered(CHANCE, SEED))


def each_growth():
    """Yields the jobs of the file `growths`: the jobs of examples/ and worked/ that have an output. The output of each
    of them has the whole history, and is the only possible output if the scripts run one after the other. The parts
    of a job are its name, the text of its map, the map as the plain model prints it, the job itself, and the
    output."""
    for job in [job for folder in (EXAMPLES, EXAMPLES / "worked") for job in sorted(folder.glob("*.job"))]:
        text, out = lines_before(read(job), "%"), read(job.with_suffix(".out"))
        if out:
            yield job.stem, text, read_map(text)[0].text(), read(job), out


def joined(separator, parts):
    """Returns the parts as one text, with the separator between two parts. No part may contain the separator."""
    assert not any(separator in part for part in parts), f"a part has {separator!r}"
    return separator.join(parts)


def wanted():
    """Returns the text of each file of the crate that this script writes, by its path."""
    run, records, growths = list(each_run()), list(each_record()), list(each_growth())
    lines = [f"{words}{name}" for words, name, *_ in run]
    parts = [expected(words, *told) for words, _, _, *told in run] + [expected("", *told) for _, *told in records]
    told = [f"{line}: as expected" for line in lines] + [f"{len(records)} records: as expected"]
    told += [f"{name}: each growth was refused" for name, *_ in growths]
    data = {name: text for _, name, text, *_ in run}
    data |= {script.name: read(script) for script in (EXAMPLES / "asked").glob("*.txt")}
    data["jobs"] = "".join(f"{line}\n" for line in lines)
    data["records"] = joined(SEPARATOR, [text for text, *_ in records])
    data["expected"] = joined(EXPECTED_SEPARATOR, parts)
    data["growths"] = joined(SEPARATOR, [joined(GROWTH_SEPARATOR, growth) for growth in growths])
    files = {CRATE / "data" / name: text for name, text in data.items()}
    return files | {CRATE / "stdout": "".join(f"{line}\n" for line in told)}


def main():
    files = wanted()
    there = {CRATE / "stdout", *(CRATE / "data").glob("*")}
    if sys.argv[1:] == ["--check"]:
        same = there == files.keys() and all(read(path) == text for path, text in files.items())
        sys.exit(0 if same else "crush_examples is older than the examples: run tests/as_tests.py")
    (CRATE / "data").mkdir(exist_ok=True)
    for path in there - files.keys():
        path.unlink()
    for path, text in files.items():
        path.write_bytes(text.encode("latin-1"))


main()
