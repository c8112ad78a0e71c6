#!/usr/bin/env python3
"""Lets the prover check the wrong bodies of the crates. The prover must refuse each of them.

    python3 tests/wrong.py [--jobs N] [--top FOLDER] [CRATE ..]

A *wrong body* is a deliberate error in the sources of a crate, which breaks a promise of a contract. If the prover
still accepts the function with the error, then no contract makes the promise. Each wrong body is a file of
crates/NAME/wrong/, which this script calls an *edit*. The file has a line `file: src/..`, then pairs of lines
`old: TEXT` and `new: TEXT`. The command `rt must-fail` reads files of the same form.

`rt must-fail` checks the whole crate for each edit. This script works in rounds instead. In each round, it applies as
many edits of a crate as it can to one copy of the crate, but at most one edit for each function. Then it lets the
prover check only the edited functions (`rattle check --only`). This is enough, because a proof uses the contracts of
other functions, and never their bodies. So an edit of one function changes nothing for another function. An edit waits
for a further round in three cases: if the round already has an edit of the same function, if the edit can't be applied
after the other edits of the round, or if the only complaint of the prover about the function is that it calls a
function that isn't proved. An edit outside of functions, for example in a constant, has a round of its own, in which
the prover checks the whole crate.

The script works on copies of the sources. It needs the libraries that `rt ci` or `rt check` has built for all crates
on which the crate depends. The crate itself must have been proved, too. Otherwise, the prover may refuse a function
for another reason than its edit. --jobs says how many crates are checked at a time (1 by default). --top names another
repository. Without a CRATE, the script checks all crates that have wrong bodies.

The script prints a line for each edit except for those that the prover refuses because of the broken promise, a line
for each crate, and at the end `N passed, M failed`. The status is 1 if one of these is true for an edit:

- The edited function is still proved.
- The edit can't be applied, or the prover can't read the edited sources.
- The prover refuses the function only because its proof names something that the edit has removed, or only because the
  prover has reached one of its limits.
- The edit couldn't be checked for another reason.
"""
import argparse
import collections
import concurrent.futures
import dataclasses
import pathlib
import re
import shutil
import subprocess
import sys
import tempfile

TOP = pathlib.Path(__file__).resolve().parent.parent
# The first line of a function, with its indentation and its name, and the first line of an impl.
FUNCTION = re.compile(r"^(\s*)(?:pub(?:\([^)]*\))?\s+)?(?:const\s+|unsafe\s+)*fn\s+(\w+)")
IMPL = re.compile(r"^(?:unsafe\s+)?impl\b(.*)")
# What the prover says about a function that it refuses. WAITS matches if the only reason is another function, which
# isn't proved.
REFUSED = re.compile(r"not proved|no proof")
WAITS = re.compile(r"(not proved|no proof): (it calls|it passes|a call of)")
# Complaints about a proof that names something which the edited sources don't have any more. Such a complaint says
# nothing about the contract.
NAMES_ALONE = re.compile(r"has no field|is not in scope|has no `|was not admitted")
# What the prover says if it has reached one of its limits.
LIMIT = re.compile(r"antt ran out of|outgrew the memory limit|stopped at the step limit")

REFUSED_WELL = "refused"
PROVED = "it is still proved"

# Where an edit is: the module, the type of the impl (None if the edit is in no impl), and the function. The function
# is None if the edit is outside of functions.
Place = collections.namedtuple("Place", "module owner function")


@dataclasses.dataclass(frozen=True)
class Repository:
    """A repository of crates (`top`), and the folder of the toolchain (`kit`)."""

    top: pathlib.Path
    kit: pathlib.Path

    def crate(self, name):
        """Returns the folder of a crate."""
        return self.top / "crates" / name

    def dependencies(self):
        """Returns the crates and libraries on which each crate depends, as crates.txt lists them, by the crate's
        name."""
        lines = (self.top / "crates.txt").read_text().splitlines()
        rows = [line.split(":") for line in lines if line and not line.startswith("#")]
        return {name.strip(): below.split() for name, below in rows}

    def below(self, name):
        """Returns all crates of the repository on which this crate depends, directly or through other crates.

        Each crate comes after the crates on which it depends itself.
        """
        stands_on, found = self.dependencies(), []
        for other in stands_on[name]:
            if other in stands_on:
                found += [it for it in [*self.below(other), other] if it not in found]
        return found

    def check_command(self, name):
        """Returns the words of the command that checks this crate with the libraries that have been built."""
        stands_on = self.dependencies()
        root = "src/main.rt" if (self.crate(name) / "src/main.rt").exists() else "src/lib.rt"
        words = [self.kit / "bin/rattle", "check", "--crate-name", name, root]
        for library in ["std", *stands_on[name]]:
            folder = self.crate(library) / "out/rlib" if library in stands_on else self.kit / "rlibs"
            words += ["--extern", f"{library}={folder / library}.rlib"]
        for folder in [self.kit / "rlibs", *(self.crate(it) / "out/rlib" for it in self.below(name))]:
            words += ["-L", f"dependency={folder}"]
        words += ["--antt-project", self.kit / "rattle/logic/antt-project.json"]
        return [*words, "--logic-built", self.kit / "logic_built", "--links", f"{name}=", "--jobs", "1"]


def module_of(path):
    """Returns the module of a file of src/, or the empty text for the root of the crate."""
    module = path.removeprefix("src/").removesuffix(".rt").replace("/", "::")
    return "" if module in ("lib", "main") else module


def plain_type(text):
    """Returns the name of a type without its path and its parameters."""
    return re.sub(r"<.*", "", text.strip().lstrip("&")).split("::")[-1].strip()


def impl_owner(head, module, folder):
    """Returns the module and the name under which the prover lists the methods of an impl.

    The prover lists the methods of a type in the module that declares the type, under the name of the type. It lists
    the methods of a trait in the module of the impl, under the name of the type followed by the name of the trait.
    """
    text = re.sub(r"^\s*<(?:[^<>]|<[^<>]*>)*>", "", head).strip().removesuffix("{").split(" where ")[0]
    first, _, second = text.partition(" for ")
    if second:
        return module, plain_type(second) + plain_type(first)
    declaration = re.compile(rf"(?m)^(pub(\([^)]*\))? )?(struct|enum) {plain_type(first)}\b")
    for path in sorted((folder / "src").rglob("*.rt")):
        if declaration.search(path.read_text()):
            module = module_of(str(path.relative_to(folder)))
    return module, plain_type(first)


def place_of(text, offset, path, folder):
    """Returns the place of a character of a file. `offset` is the number of characters before it, and `path` is the
    file's path."""
    module, function = module_of(path), None
    for line in reversed(text[: text.find("\n", offset)].split("\n")):
        if function is None:
            found = FUNCTION.match(line)
            function = found and found[2]
            if found and not found[1]:
                break
            if not found and (line.startswith("}") or re.match(r"(pub )?(const|static) ", line)):
                break
        elif IMPL.match(line):
            return Place(*impl_owner(IMPL.match(line)[1], module, folder), function)
    return Place(module, None, function)


def applied(edit, folder, given):
    """Returns the new texts of the files that an edit changes, and the edit's places.

    If the edit can't be applied, there are no texts. `given` has the texts of the files that other edits of this round
    have already changed.
    """
    texts, places, path, old = {}, set(), None, None
    for line in edit.read_text().split("\n"):
        if line.startswith("file: "):
            path = line[6:].strip()
        elif line.startswith("old: "):
            old = line[5:]
        elif line.startswith("new:"):
            text = texts.get(path) or given.get(path) or (folder / path).read_text()
            if text.count(old) != 1:
                return {}, places
            places.add(place_of(text, text.index(old), path, folder))
            texts[path] = text.replace(old, line[4:].removeprefix(" "))
    return texts, places


def path_of(place):
    """Returns the path of a place, with `::` between its parts, as the prover prints it after the crate's name."""
    return "::".join(it for it in place if it)


def is_outside(places):
    """Returns whether one of the places is outside of functions."""
    return any(it.function is None for it in places)


def choose(edits, folder, results):
    """Returns the edits of the next round with their places, and the texts of the files after these edits.

    Adds to `results` the edits that can't be applied at all.
    """
    chosen, texts = {}, {}
    for edit in edits:
        alone, places = applied(edit, folder, {})
        if not alone:
            results[edit] = "it can't be applied"
        elif is_outside(places):
            if not chosen:
                return {edit: places}, alone
        elif not any(places & other for other in chosen.values()):
            made, _ = applied(edit, folder, texts)
            if made:
                chosen[edit] = places
                texts |= made
    return chosen, texts


def complaints_of(said, places):
    """Returns the lines of the prover's output that complain about the proofs of the functions at these places."""
    folders = ["proofs/" + path_of(it).replace("::", "/") + "/" for it in places]
    lines = [line for line in said.split("\n") if re.match(r"(note: )?(\./)?\S+:\d+:\d+:", line)]
    return [line for line in lines if any(folder in line for folder in folders)]


def verdict(said, crate, places):
    """Returns what the prover's output `said` means for an edit, or None if the edit must wait for another round."""
    names = {f"{crate}::{path_of(it)}" for it in places}
    found = re.findall(r"(?m)^fn (\S+): (.*)$", said)
    told = [words for name, words in found if is_outside(places) or name in names]
    own = [words for words in told if REFUSED.match(words) and not WAITS.match(words)]
    if own:
        complaints = complaints_of(said, places)
        if complaints and all(NAMES_ALONE.search(line) for line in complaints):
            return f"a proof names what it takes away, so its refusal shows nothing: {complaints[0]}"
        return REFUSED_WELL
    if told and all(words.startswith("proved") for words in told):
        return PROVED
    return None


def unread(said):
    """Returns the line in which the prover says that it can't read the edited sources, or None."""
    lines = said.split("\n")
    if any(line.startswith("fn ") for line in lines):
        return None
    return next((line for line in lines if re.search(r"\berror\b|^rattle", line)), None)


def try_edits(crate, edits, folder, check):
    """Checks edits of a crate in rounds, and returns the result of each edit.

    `check` runs the prover in a folder, and returns its output.
    """
    results, left = {}, list(edits)
    with tempfile.TemporaryDirectory(prefix="wrong-") as room:
        while left:
            chosen, texts = choose(left, folder, results)
            if chosen:
                said = check_round(chosen, texts, folder, pathlib.Path(room), check)
                found = {edit: verdict(said, crate, places) for edit, places in chosen.items()}
                results |= {edit: it for edit, it in found.items() if it}
                if not any(found.values()):
                    # The output says nothing about any edit of this round. If it is a single edit, it can't be
                    # checked. Otherwise, each edit is checked alone.
                    why = unread(said) or (said.strip().split("\n") or [""])[-1]
                    what = "only a limit of the prover refuses it" if LIMIT.search(said) else "it couldn't be tried"
                    lone = next(iter(chosen))
                    if len(chosen) == 1:
                        results[lone] = f"{what}: {why[:200]}"
                    else:
                        results |= each_alone(crate, chosen, folder, check)
            left = [it for it in left if it not in results]
    return results


def each_alone(crate, edits, folder, check):
    """Checks each edit in rounds of its own, and returns the result of each edit."""
    results = {}
    for edit in edits:
        results |= try_edits(crate, [edit], folder, check)
    return results


def check_round(chosen, texts, folder, room, check):
    """Copies the crate with these texts, lets the prover check the edited functions, and returns the prover's output.

    If an edit is outside of functions, the prover checks the whole crate.
    """
    copy = room / "crate"
    shutil.rmtree(copy, ignore_errors=True)
    for part in ("src", "specs", "proofs"):
        if (folder / part).is_dir():
            shutil.copytree(folder / part, copy / part)
    for path, text in texts.items():
        (copy / path).write_text(text)
    places = set().union(*chosen.values())
    only = [] if is_outside(places) else sorted(path_of(it) for it in places)
    return check([word for path in only for word in ("--only", path)], copy, room / "kept")


def of_crate(repository, crate):
    """Checks the edits of a crate. Returns the lines to print, how many edits were refused, and how many weren't."""
    edits, checks = sorted((repository.crate(crate) / "wrong").glob("*.edit")), []

    def check(only, folder, kept):
        words = [*repository.check_command(crate), *only, "--incremental", kept]
        run = subprocess.run(words, cwd=folder, stdin=subprocess.DEVNULL, stdout=subprocess.PIPE, stderr=subprocess.STDOUT, text=True, errors="replace")
        checks.append(run.returncode)
        return run.stdout

    results = try_edits(crate, edits, repository.crate(crate), check)
    lines = [f"{crate}/{edit.stem}: {it}" for edit, it in sorted(results.items()) if it != REFUSED_WELL]
    refused = len(edits) - len(lines)
    lines.append(f"{crate}: {refused} of {len(edits)} wrong bodies refused, in {len(checks)} checks")
    return lines, refused, len(edits) - refused


def toolchain():
    """Returns the folder of the toolchain."""
    page = subprocess.run(["rt", "doc"], stdout=subprocess.PIPE, text=True, check=True).stdout.strip()
    return pathlib.Path(page).parent


def main():
    parser = argparse.ArgumentParser(description=__doc__.splitlines()[0])
    parser.add_argument("--jobs", type=int, default=1, metavar="N", help="how many crates are tried at a time")
    parser.add_argument("--top", type=pathlib.Path, default=TOP, metavar="FOLDER", help="the repository, by default this one")
    parser.add_argument("crates", nargs="*", metavar="CRATE")
    options = parser.parse_args()
    repository = Repository(options.top.resolve(), toolchain())
    crates = options.crates or [it for it in repository.dependencies() if (repository.crate(it) / "wrong").is_dir()]
    passed = failed = 0
    with concurrent.futures.ThreadPoolExecutor(options.jobs) as pool:
        for lines, refused, others in pool.map(lambda crate: of_crate(repository, crate), crates):
            print("\n".join(lines), flush=True)
            passed, failed = passed + refused, failed + others
    print(f"{passed} passed, {failed} failed")
    sys.exit(1 if failed else 0)


if __name__ == "__main__":
    main()
