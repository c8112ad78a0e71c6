#!/usr/bin/env python3
"""Compares the pages (docs/, README.md, CONTRIBUTING.md and others) with the sources.

    python3 -B tools/check.py

The script needs only Python 3. If the toolchain's command `rt` is installed, the script also runs `rt version`. The
script prints one line for each fault that it finds. The status is 1 if it has found a fault. It checks the following:

- Names. If a page of docs/ or CONTRIBUTING.md has a name in backticks, the crates must declare this name, for example
  as a function, a type, a definition or a clause of a contract. The name may also be the name of a crate, of a file of
  a crate or of a job of examples/, or a word in a code block of the same page. The crates of tests don't count, except
  on a line that names a crate of tests. SIGNATURES.md is left out. The pages of WORDS_OF_TEXTS (in sources.py) are
  left out, too, because they also have words of jobs and words of Ceph in backticks.
- Files. If one of these pages has a file or a folder in backticks, the repository must have it.
- Links. Each link of a page, except for a link to the web, must lead to a file. If the link names a heading, the file
  must have this heading.
- Additions. CONTRIBUTING.md lists the files that each kind of addition touches. If a file in src/, specs/ or proofs/
  of a crate has all variants of an enum of ADDED, or all words of a list of NAMED, the section of CONTRIBUTING.md
  about this addition must list the file. The crates of tests don't count.
- Contracts. If a public function has several possible errors, a clause of its contract must say which error the
  function returns. If a public function can fail and has a `&mut` argument, a clause must say what the argument is
  after an error. TOLD and LEFT have the names of these clauses. PROVED.md must explain these clauses, and must list
  each function that needs such a clause and has none. PROVED.md must also list the functions that may wait.
- Wrong bodies. A *wrong body* is a deliberate error that the prover must refuse. The name of its file must contain the
  name of a function of its crate, or begin with `display_`.
- Examples. examples/README.md must name each folder of examples/, and each job of examples/ and examples/worked/.
- Layers. The table of docs/ARCHITECTURE.md must put each crate into a layer, except for programs, crates of tests and
  the crate `crush`. The table must also list the calls between layers. No layer may call a layer above it.
- Versions. Each file of VERSIONS must have the version that `crushedit --version` prints. If `rt` is installed, then
  `crushedit --version` and PROVED.md must name the logic (the version of the prover's rules) that `rt version` prints.
- Written files. The files that the scripts of MADE_BY write must be what the scripts would write now.

The script also runs told.py, which compares further statements of the pages with the sources. And it runs paths.py,
which checks each path that a page, a script or a comment names.
"""
import re
import shutil
import subprocess
import sys

sys.dont_write_bytecode = True
from sources import COMMAND_LINE, CONTRIBUTING, FACADE, LINKED, PAGES, PROGRAMS, TOP, WORDS_OF_TEXTS  # noqa: E402
from sources import contracts, crate_files, fields_of_records, files_below, known_words, quoted, sections_of, variants  # noqa: E402
from paths import path_faults  # noqa: E402
from told import told_faults  # noqa: E402

# One name. The types or modules that contain it may come first, and `()` may follow.
NAME = re.compile(r"^[A-Za-z_][A-Za-z0-9_]*(?:(?:::|\.)[A-Za-z_][A-Za-z0-9_]*)*(?:\(\))?$")
# A file or a folder of the repository.
FILE = re.compile(r"^(?:[a-z0-9_./-]*/[A-Za-z0-9_./+-]*|[A-Za-z0-9_]+\.(?:md|rt|antt|txt|job|py|edit))$")
# For each of these sections of CONTRIBUTING.md: the file and the name of the enum that gets a new variant by the
# addition that the section describes.
ADDED = {
    "An edit": ("crush_edits/src/edit.rt", "Edit"),
    "A refusal": ("crush_edits/src/refusal.rt", "Refusal"),
    "A fault of a text": ("crush_text/src/fault.rt", "TextFaultKind"),
    "A fault of a job": ("crush_script/src/fault.rt", "JobFault"),
}
# Sections of CONTRIBUTING.md about additions that belong to no single enum, each with lists of words. The section must
# list each file of the crates that has all words of one of the lists.
NAMED = {
    "A column": [["set_name", "set_class"]],
    "A call or a reply": [["BatchRefused", "Stale"], ["Batch", "Guarded"]],
}
# The files that name the version of the program, each with the text that it must have. `{}` is the version.
VERSIONS = {
    "CHANGELOG.md": "## {}\n", "man/crushedit.1": '"crushedit {}"', "man/crushedit-recipe.1": '"crushedit {}"',
    "docs/user/FORMATS.md": "`crushedit {}`", "README.md": "`out/crushedit-{}-linux-x86_64.tar.gz`",
}
# The section of CHANGELOG.md that has the changes since the newest version.
TO_COME = "To come"
# The names of the clauses that say which of several possible errors a function returns (TOLD), and of the clauses that
# say what a `&mut` argument is after an error (LEFT).
TOLD = {"refused", "fault", "flaw", "full", "none", "memory"}
LEFT = {"unchanged", "as_before", "err", "nothing", "writes"}
# Types that a function may return in place of a `Result`, each with the type of the error that it can have.
ENDINGS = {"Ending": "RunFault"}
# The scripts of tools/ that write files from the sources.
MADE_BY = ["manual.py", "completion.py", "signatures.py"]


def naming_all(names):
    """Yields the files in src/, specs/ and proofs/ that have all these words, as paths below crates/.

    Crates of tests are left out.
    """
    for path in crate_files():
        crate, folder = path.relative_to(TOP / "crates").parts[:2]
        if folder in {"src", "specs", "proofs"} and not crate.endswith("_tests"):
            if set(names) <= set(re.findall(r"\w+", path.read_text())):
                yield str(path.relative_to(TOP / "crates"))


def anchors(text):
    """Returns the words that a link can have after `#`: the headings of a page, in the form that links use."""
    heads = re.findall(r"(?m)^#+ (.*)$", re.sub(r"```.*?```", "", text, flags=re.S))
    return {re.sub(r"[^\w -]", "", head.lower()).replace(" ", "-") for head in heads}


def link_faults(page):
    """Yields the links of a page that lead to no file, or to no heading of the file. Web links aren't checked."""
    for link in re.findall(r"\]\(([^)\s]+)\)", page.read_text()):
        file, _, anchor = link.partition("#")
        to = page.parent / file if file else page
        if not link.startswith("http") and not (to.exists() and (not anchor or anchor in anchors(to.read_text()))):
            yield f"{page.relative_to(TOP)}: no {link}"


def example_faults():
    """Yields the jobs and folders that examples/README.md doesn't name."""
    named = set(quoted(re.sub(r"```.*?```", "", (TOP / "examples/README.md").read_text(), flags=re.S)))
    for job in sorted([*(TOP / "examples").glob("*.job"), *(TOP / "examples/worked").glob("*.job")]):
        if not {job.name, job.stem} & named:
            yield f"{job.name} isn't named"
    for folder in sorted(path.name for path in (TOP / "examples").iterdir() if path.is_dir()):
        if f"{folder}/" not in named and not folder.startswith("__"):
            yield f"{folder}/ isn't named"


def version_faults():
    """Yields the files that don't have the version which the command line prints.

    If `rt` is installed, also checks that `crushedit --version` and PROVED.md name the logic of the toolchain.
    """
    version, toolchain = re.search(r'VERSION: &str = "(\S+) \((.+)\)"', (TOP / COMMAND_LINE).read_text()).groups()
    for name, form in VERSIONS.items():
        if form.format(version) not in (TOP / name).read_text():
            yield f"{name} doesn't have the version {version}"
    heads = re.findall(r"(?m)^## (.*)$", (TOP / "CHANGELOG.md").read_text())
    if next(head for head in heads if head != TO_COME) != version:
        yield f"the newest version of CHANGELOG.md isn't {version}"
    if shutil.which("rt"):
        told = subprocess.run(["rt", "version"], capture_output=True, text=True, check=True).stdout.strip()
        logic = re.search(r"logic \w+", told).group(0)
        if toolchain != f"rattle {logic}":
            yield f"--version names the toolchain {toolchain}, and rt version prints {told}"
        if f"`{logic}`" not in (TOP / "docs/dev/PROVED.md").read_text():
            yield f"PROVED.md doesn't name the toolchain's {logic}"


def made_faults():
    """Yields the messages of the scripts of MADE_BY, which with --check report files that aren't up to date."""
    for script in MADE_BY:
        command = [sys.executable, "-B", str(TOP / "tools" / script), "--check"]
        told = subprocess.run(command, capture_output=True, text=True, check=False).stderr
        yield from told.splitlines()


def edit_faults():
    """Yields the wrong bodies whose file names have no function of their crate.

    People search for the wrong bodies of a function by the function's name. A name that begins with `display_` is
    allowed: such a wrong body is in code that prints a value with `{}`.
    """
    for folder in sorted([*TOP.glob("crates/*/must-fail"), *TOP.glob("crates/*/wrong")]):
        sources = "".join(path.read_text() for path in (folder.parent / "src").rglob("*.rt"))
        functions = set(re.findall(r"\bfn (\w+)", sources))
        for path in sorted(folder.glob("*.edit")):
            if not path.stem.startswith("display_") and not any(f"_{name}_" in f"_{path.stem}" for name in functions):
                yield f"the must-fail edit {path.stem} is called by no function of its crate"


def told_of(head):
    """Returns the name of the error type that a function with this head returns, or None if there is none."""
    found = re.search(r"-> Result<.*?(\w+)(?:<\w+>)?>\s*(?:where|requires|ensures|//|$)", head, re.S)
    return found[1] if found else next((ENDINGS[name] for name in ENDINGS if re.search(rf"-> {name}\b", head)), None)


def call_faults():
    """Yields the functions that lack a clause about their errors and aren't in PROVED.md's list of such functions.

    Also yields the clauses of TOLD and LEFT that PROVED.md doesn't explain, and the functions for which PROVED.md is
    wrong about whether they may wait. A function may wait only if its head names the trait `Wait`.
    """
    section = sections_of("PROVED.md")["Each public function"]
    sources, named, waiting = "".join(path.read_text() for path in crate_files()), set(quoted(section)), set()
    without, records = set(quoted(section.partition("### Functions without such a clause")[2])), fields_of_records()
    for _, name, text in contracts():
        fault, head = told_of(text), re.split(r"\bensures\b|\brequires\b", text)[0]
        body = re.search(rf"pub enum {fault}(?:Kind)?\b[^{{]*\{{(.*?)\n\}}", sources, re.S) if fault else None
        several = body and len(re.findall(r"(?m)^    [A-Z]", body[1])) > 1
        clauses = set(re.findall(r"\bensures (\w+) \{", text))
        clauses.update(*(records.get(name, ()) for name in re.findall(r"\bensures (?:\w+ )?\{ (\w+)", text)))
        for wanted, asked in ((TOLD, several), (LEFT, fault and "&mut" in head)):
            if asked and not clauses & wanted and not {name, name.split("::")[0]} & without:
                yield f"{name} has no clause of {', '.join(sorted(wanted))}"
        if re.search(r"\bWait\b", head):
            waiting.add(name)
    for clause in sorted((TOLD | LEFT) - named):
        yield f"Each public function doesn't tell of the clause {clause}"
    told = {call for line in section.splitlines() if "`Wait`" in line for call in quoted(line) if call != "Wait"}
    for call in sorted(waiting ^ told):
        yield f"{call} {'may wait' if call in waiting else 'does not wait'}"


def adding_faults():
    """Yields the files that a section of CONTRIBUTING.md about an addition has to list, and doesn't list."""
    sections = {title: quoted(section) for title, section in sections_of(CONTRIBUTING, "###").items()}
    wanted = {title: [variants(name, enum)] for title, (name, enum) in ADDED.items()}
    for title, names in {**wanted, **NAMED}.items():
        for file in sorted({file for words in names for file in naming_all(words)}):
            if file not in sections.get(title, []):
                yield f"{title} doesn't name {file}"


def calls_of(crate):
    """Returns the other crates of this repository whose items the code of a crate names.

    Lines that begin a comment or a clause of a contract don't count, and neither do lines that begin with `ghost`.
    """
    named = set()
    for path in (TOP / "crates" / crate / "src").rglob("*.rt"):
        code = "\n".join(line for line in path.read_text().splitlines() if not line.strip().startswith(("ghost", "//", "ensures", "requires")))
        named.update(re.findall(r"\b(crush_\w+)::", code))
    return named & {path.name for path in (TOP / "crates").iterdir()} - {crate}


def layer_faults():
    """Yields what is wrong with the table of layers in docs/ARCHITECTURE.md.

    A crate may have no layer, or the column of calls may differ from the calls of the code. Or a layer may call a
    layer that is higher up in the table.
    """
    rows = re.findall(r"(?m)^\| ([a-z ]+) \| (`crush.*?) \| .*? \| (.*?) ?\| \[", (TOP / "docs/ARCHITECTURE.md").read_text())
    layers = {layer: quoted(crates) for layer, crates, _ in rows}
    layer_of = {crate: layer for layer, crates in layers.items() for crate in crates}
    for line in (TOP / "crates.txt").read_text().splitlines():
        crate = line.split(":")[0]
        if line[:1] not in {"", "#"} and not crate.endswith("_tests") and crate not in {*layer_of, *PROGRAMS, FACADE}:
            yield f"no layer has {crate}"
    for place, (layer, crates, listed) in enumerate(rows):
        called = {layer_of[name] for crate in quoted(crates) for name in calls_of(crate)} - {layer}
        for other in sorted(called ^ set(filter(None, listed.split(", ")))):
            yield f"the layer {layer} {'calls' if other in called else 'does not call'} {other}"
        for other in sorted(called & {name for name, _, _ in rows[:place]}):
            yield f"the layer {layer} calls {other}, which stands above it"


def main():
    words, of_tests = known_words(), known_words(of_tests=True)
    files = {str(path.relative_to(TOP)) for path in files_below(TOP)}
    faults = []
    for page in PAGES:
        blocks = " ".join(re.findall(r"```.*?```", page.read_text(), flags=re.S))
        text = re.sub(r"```.*?```", "", page.read_text(), flags=re.S)
        if page.name in WORDS_OF_TEXTS:
            continue
        for line in text.splitlines():
            known = words | set(re.findall(r"\w+", blocks)) | (of_tests if re.search(r"`crush_\w+_tests`", line) else set())
            for name in quoted(line):
                if re.search(r"\b[A-Z]{4,}\b", name.replace("_", " ")):
                    continue  # a word of four or more capital letters stands for any name
                if FILE.match(name):
                    if not any(f"/{file}".endswith("/" + name.strip("/")) for file in files):
                        faults.append(f"{page.name}: no file {name}")
                elif NAME.match(name) and not set(re.findall(r"[A-Za-z_]\w*", name)) <= known:
                    faults.append(f"{page.name}: nothing is named {name}")
    faults += [f"ARCHITECTURE.md: {fault}" for fault in layer_faults()]
    for page in [*PAGES, *LINKED]:
        faults += link_faults(page)
    faults += [f"CONTRIBUTING.md: {fault}" for fault in adding_faults()]
    faults += [f"PROVED.md: {fault}" for fault in call_faults()]
    faults += [f"examples/README.md: {fault}" for fault in example_faults()]
    faults += [*path_faults(), *told_faults(), *version_faults(), *made_faults(), *edit_faults()]
    for fault in faults:
        print(fault)
    sys.exit(1 if faults else 0)


main()
