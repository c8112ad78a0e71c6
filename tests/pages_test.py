#!/usr/bin/env python3
"""Runs the examples of the pages, compares their output with the pages, and checks some statements of the pages.

    python3 tests/pages_test.py crates/crushedit/out/crushedit

The pages are those of PAGES. These are the rules for their examples:

- A console block is an example. In this block, a line that begins with `$ ` has a command, and the lines after the
  command are the output that the command must print. Console blocks that call `make` don't run.
- A bash block is also an example, if the line "It prints:" and a text block with the output follow after it.
- In an output, a line of two dots stands for any lines. Words may follow after the two dots and a space.
- Each example runs in a new folder. There, map.txt is the map of the page, and examples/ leads to the folder examples/
  of the repository.
- The first line of a Python block can be a comment with a file name. Then the folders of the page's examples have a
  file of this name, with the other lines of the block.

Then the test checks these statements:

- The commands of ENDS end with the right statuses. README's table of statuses has the first line that each of these
  commands prints on standard error.
- If crushedit reads a map that `crushtool` has printed, and prints this map again, only the order of the buckets may
  differ.
- bash completes command lines of crushedit as it should (completed.py).
- In the archive of packaging/dist.sh, each link of a page leads to a file of the archive. There are exceptions: links
  to web pages, and links to the sources of the crates.
- README's shell script first shows what changes (`--dry-run`), and then makes the new map from the same files.
- Each page links the map of its examples.
- `make try` prints what has changed, and not the whole map.

The test needs bash and make. It prints a line for each example and each check. If an example prints something else, or
a check fails, the test prints what is wrong, and the status is 1.
"""
import os
import pathlib
import re
import subprocess
import sys
import tarfile
import tempfile

sys.dont_write_bytecode = True
from completed import completion_faults

TOP = pathlib.Path(__file__).resolve().parent.parent
FIRST_MAP, SMALL_MAP = "examples/map.txt", "examples/example.txt"
# The pages, and the map that the examples of each page use.
PAGES = {"README.md": FIRST_MAP, "docs/user/OPERATING.md": FIRST_MAP, "docs/user/FORMATS.md": SMALL_MAP}
MAPS = TOP / "examples/maps"
# Commands, each with the status with which it must end. README's table must have the first line that the command
# prints on standard error. A run ends with status 4 only if the system refuses memory or a thread.
# tests/refused_memory.py tests such runs.
ENDS = [
    (0, "crushedit old.txt"),
    (1, "(cat map.txt; echo '%operator a'; echo fly osd.1) | crushedit"),
    (1, "echo nothing | crushedit"),
    (1, "crushedit /dev/zero"),
    *((1, f"{given} | crushedit --{word} /dev/stdin map.txt") for word in ("since", "to") for given in ("echo nothing", "cat /dev/zero")),
    (2, "crushedit --fly"),
    (3, "crushedit missing"),
    (3, "crushedit map.txt > /dev/full"),
    *((3, f"crushedit --{word} missing map.txt") for word in ("since", "to")),
    *((1, f"head -n 20 map.txt | crushedit {words}") for words in ("apply -", "diff - map.txt", "plan map.txt -")),
    (5, "(cat map.txt; echo '%operator a'; echo rm default) | crushedit --strict"),
    (5, "sed 's/total_tries 50/total_tries 51/' map.txt | crushedit --strict --to map.txt"),
    (5, "(cat map.txt; echo '%operator a'; echo move osd.0 host=h9) | crushedit --no-make"),
    (5, "cp map.txt whole.txt; echo '# end crush map' >> whole.txt; echo reweight osd.0 2 > a; echo reweight osd.0 3 > b; crushedit apply whole.txt a b"),
    (6, "(cat old.txt; echo '%operator a'; echo reweight osd.0 2) | crushedit --exit-code"),
]
UNTRIED = {"4"}


def steps_of(block):
    """Yields the commands of a console block, each with the output that it must print."""
    for step in re.split(r"(?m)^\$ ", block)[1:]:
        lines = step.splitlines(keepends=True)
        # If a line of a command ends with a backslash, the command continues on the next line. If the first line has
        # <<'END', the command continues up to the line END.
        last = (lambda line: line == "END\n") if "<<'END'" in lines[0] else (lambda line: not line.endswith("\\\n"))
        count = next(number for number, line in enumerate(lines, 1) if last(line))
        yield "".join(lines[:count]), "".join(lines[count:])


def examples_of(text):
    """Yields the examples of a page in their order. An example is a list of commands, each with its output."""
    console, typed = r"^```console\n(?P<console>.*?)^```$", r"^```bash\n(?P<bash>.*?)^```\n\nIt prints:\n\n```text\n(?P<text>.*?)^```$"
    for block in re.finditer(rf"(?ms){console}|{typed}", text):
        if "$ make " not in (block["console"] or ""):
            yield list(steps_of(block["console"])) if block["console"] else [(block["bash"], block["text"])]


def scripts_of(text):
    """Returns the file names and the texts of the Python blocks of a page."""
    return re.findall(r"(?ms)^```python\n# (\S+)\n(.*?)^```$", text)


def is_shown(printed, shown):
    parts = re.split(r"(?m)^ *\.\.(?: .*)?\n", shown)
    return re.fullmatch(r"(?s:.*)".join(re.escape(part) for part in parts), printed) is not None


def run_in(here, command, environment, stdout=None):
    """Runs a command of bash in this folder, and returns its status and its output as a `CompletedProcess`.

    If `stdout` is given, standard output goes there, and the `stderr` of the result has standard error. Otherwise the
    `stdout` of the result has standard output and standard error together."""
    return subprocess.run(["bash", "-c", command], cwd=here, env=environment, text=True,
                          stdout=stdout or subprocess.PIPE, stderr=subprocess.PIPE if stdout else subprocess.STDOUT)


def example_folder(folder, name):
    here = pathlib.Path(folder, name)
    here.mkdir()
    (here / "map.txt").write_text((TOP / SMALL_MAP).read_text())
    (here / "old.txt").write_text((MAPS / "class-100-v16.job").read_text().partition("%")[0])
    return here


def has_line(cell, line):
    """Returns whether a cell of README's table of statuses has a line that is printed on standard error.

    The cell has forms of lines in backquotes. In a form, NAME stands for any word, and L, P and N stand for numbers.
    If a form ends with `: `, any words may follow. If the cell has the form `since: ` or `to: `, then the line may
    also have this word after `crushedit: `."""
    forms = re.findall(r"`([^`]+)`", cell)
    for word in ("since: ", "to: "):
        line = line.replace(f"crushedit: {word}", "crushedit: ") if word in forms else line
    names = {r"\bNAME\b": r"\\w+", r"\b[LPN]\b": r"\\d+"}
    for form in forms:
        pattern = re.escape(form)
        for name, words in names.items():
            pattern = re.sub(name, words, pattern)
        if re.fullmatch(pattern + (".*" if form.endswith(": ") else ""), line):
            return True
    return False


def status_faults(folder, environment):
    """Yields what is wrong with the statuses of the commands of ENDS.

    A command may end with another status, or README's table may not have the command's line in the row of this status.
    Or the table has a status with which no command of ENDS ends, and which isn't in UNTRIED."""
    here, rows = example_folder(folder, "ends"), {}
    for status, cell in re.findall(r"(?m)^\| (\d) \|.*\| (.*) \|$", (TOP / "README.md").read_text()):
        rows[status] = rows.get(status, "") + (rows[cell[-1]] if cell.startswith("as with ") else cell)
    for status, command in ENDS:
        ran = run_in(here, f"set -o pipefail; {command}", environment, stdout=subprocess.DEVNULL)
        line = ran.stderr.partition("\n")[0]
        if ran.returncode != status or not has_line(rows.get(str(status), ""), line):
            yield f"README.md: {command}\nends with status {ran.returncode} and {line!r}, which its row doesn't tell"
    for status in sorted(rows.keys() - UNTRIED - {str(status) for status, _ in ENDS}):
        yield f"README.md: nothing is tried that ends with status {status}"


def without_order(text):
    """Returns the part of a map's text before its buckets, and the sorted list of its buckets and rules."""
    head, _, rest = text.partition("# buckets\n")
    return head, sorted(re.split(r"(?m)(?<=^}\n)", rest))


def order_faults(folder, environment):
    """Yields each map of `crushtool` that crushedit prints with another difference than the order of its buckets.

    A map doesn't count if crushedit prints something on standard error for it. It is also a fault if crushedit prints
    none of the maps with another order of the buckets."""
    here, orders = example_folder(folder, "order"), 0
    for job in sorted(MAPS.glob("*.job")):
        text = job.read_text().partition("%")[0]
        (here / "job.txt").write_text(text)
        ran = subprocess.run(["crushedit", "--no-history", "job.txt"], cwd=here, env=environment, capture_output=True, text=True)
        if ran.stderr or ran.stdout == text:
            continue
        orders += 1
        if without_order(ran.stdout) != without_order(text):
            yield f"README.md: {job.name} is printed otherwise than in another order of its buckets"
    if orders == 0:
        yield "README.md: no map is printed in another order of its buckets"


def shown_is_made(_program, _folder):
    """Returns whether README's script makes the new map from the same files whose changes it has shown before."""
    script = re.search(r"(?ms)^```sh\n(.*?)^```$", (TOP / "README.md").read_text())[1]
    runs = re.findall(r"(?m)^crushedit apply (--dry-run|-o new\.txt) (.*?) *#", script)
    return [how for how, _ in runs] == ["--dry-run", "-o new.txt"] and runs[0][1] == runs[1][1]


def maps_are_linked(_program, _folder):
    """Returns whether each page links the file with the map of its examples."""
    return all(f"]({'../' * page.count('/')}{map_file})" in (TOP / page).read_text() for page, map_file in PAGES.items())


def tried_is_short(_program, _folder):
    """Returns whether `make try` runs crushedit with `--since`, so that it doesn't print the whole map."""
    ran = subprocess.run(["make", "-n", "try"], cwd=TOP, capture_output=True, text=True)
    return " --since map " in ran.stdout


def archive_faults(program, folder):
    """Yields which files the archive lacks: the completion for bash, two pages, and files to which its pages link.

    Links to the sources of the crates don't count, because the archive doesn't have these sources."""
    ran = subprocess.run([TOP / "packaging/dist.sh", program, folder], capture_output=True, text=True, check=True)
    with tarfile.open(ran.stdout.split()[0]) as archive:
        names = set(archive.getnames())
        pages = {name: archive.extractfile(name).read().decode() for name in names if name.endswith(".md")}
    top = min(names, key=len)
    for name in ("bash-completion/completions/crushedit", "doc/crushedit/README.md", "doc/crushedit/docs/user/OPERATING.md"):
        if f"{top}/share/{name}" not in names:
            yield f"the archive has no {name}"
    for page, text in sorted(pages.items()):
        for link in re.findall(r"\]\(([^)#\s]+)", text):
            to = os.path.normpath(os.path.join(os.path.dirname(page), link))
            if not link.startswith("http") and not re.search(r"/doc/crushedit/crates/\w+/", to):
                if to not in names and not any(name.startswith(f"{to}/") for name in names):
                    yield f"the archive's {page.partition('/doc/crushedit/')[2]} has a link to {link}, which isn't packed"


def main():
    program, failed = os.path.abspath(sys.argv[1]), False
    with tempfile.TemporaryDirectory() as folder:
        os.symlink(program, os.path.join(folder, "crushedit"))
        environment = {**os.environ, "PATH": f"{folder}:{os.environ['PATH']}", "LC_ALL": "C.UTF-8"}
        for page, map_file in PAGES.items():
            text = (TOP / page).read_text()
            for number, steps in enumerate(examples_of(text), 1):
                here = os.path.join(folder, f"{pathlib.Path(page).stem}{number}")
                os.mkdir(here)
                os.symlink(TOP / "examples", os.path.join(here, "examples"))
                for name, own in [("map.txt", (TOP / map_file).read_text()), *scripts_of(text)]:
                    pathlib.Path(here, name).write_text(own)
                for command, shown in steps:
                    ran = run_in(here, command, environment)
                    if not is_shown(ran.stdout, shown):
                        print(f"{page}, example {number}: {command}prints\n{ran.stdout}and not\n{shown}")
                        failed = True
                print(f"{page}, example {number}: run")
        for test in (status_faults, order_faults, completion_faults):
            faults = list(test(folder, environment))
            print("\n".join([*faults, f"{test.__name__}: {len(faults)}"]))
            failed |= bool(faults)
        faults = list(archive_faults(program, os.path.join(folder, "archive")))
        print("\n".join([*faults, f"archive_faults: {len(faults)}"]))
        failed |= bool(faults)
        for test in (shown_is_made, maps_are_linked, tried_is_short):
            is_so = test(program, os.path.join(folder, "archive"))
            print(f"{test.__name__}: {'so' if is_so else 'NOT so'}")
            failed |= not is_so
    sys.exit(failed)


main()
