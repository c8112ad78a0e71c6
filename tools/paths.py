"""Checks whether each path that a text of the repository names exists. check.py calls `path_faults`.

The texts are the pages, the scripts, the Makefile, .ci/run, the sources of the crates with their comments, and some
other files (see READ and READ_TOO). A path is a word that begins with one of FOLDERS, such as `tools/check.py`. In a
path, `*` and a word of three or more capital letters stand for any name, and `{a,b}` stands for each of the names `a`
and `b`. A path with a folder `out` may be missing, because builds create these folders.

If a page has a file name in backticks, such as the name of a script or of a page, the repository must have a file with
this name. docs/README.md must have a link to each page of docs/.
"""
import functools
import re

from sources import TOP, files_below

# The folders at the top of the repository with which a path may begin.
FOLDERS = (".ci", "bench", "bin", "completions", "crates", "docs", "examples", "man", "packaging", "tests", "tools")
# Paths that texts may name although this repository doesn't have them. They belong to the archive that `make dist`
# writes and to the toolchain. The last three stand for the toolchain's own folder for wrong bodies (deliberate errors
# that the prover must refuse), which this repository doesn't use.
ELSEWHERE = {"bin/crushedit", "bin/rattle", "crates/*/must-fail", "crates/NAME/must-fail", "crates/NAME/must-fail/"}
# A path. The text before it must not belong to a longer path, except for `$top/` in a shell script.
PATH = re.compile(r"(?:(?<![\w./$})-])|(?<=\$top/))(?:" + "|".join(map(re.escape, FOLDERS)) + r")/(?:[\w.*+/-]|\{[^{}\n]*\})*(?![\w.*+/\[\\-])")
# The name of a file in backticks.
NAME = re.compile(r"`([\w.-]+\.(?:py|sh|md|rt|antt|edit|bash))`")
# The files that are checked: those with these suffixes, and these other files.
READ = {".md", ".py", ".sh", ".rt", ".antt", ".edit", ".bash", ".1"}
READ_TOO = {"Makefile", ".ci/run", "bin/crushedit-recipe", "crates.txt", ".gitattributes", ".editorconfig"}


def texts():
    """Yields each file that is checked, with its path from the top of the repository."""
    for path in files_below(TOP):
        name = str(path.relative_to(TOP))
        if path.is_file() and (path.suffix in READ or name in READ_TOO) and not re.match(r"crates/\w+/data/", name):
            yield name, path


@functools.cache
def there():
    """Returns the paths of all files and folders of the repository, from the top of the repository."""
    return {str(path.relative_to(TOP)) for path in files_below(TOP)}


def spelled(path):
    """Returns the paths that a path with braces stands for.

    Braces without a comma are part of a format string, and stand for any name.
    """
    braces = re.search(r"\{([^{}]*)\}", path)
    if braces is None:
        return [path]
    words = braces[1].split(",") if "," in braces[1] else ["*"]
    return [it for word in words for it in spelled(path[: braces.start()] + word.strip() + path[braces.end() :])]


def is_there(path):
    """Whether a file or a folder has this path, in which `*` and a word of capital letters stand for any name."""
    parts = path.rstrip("/").split("/")
    if "out" in parts:
        return True
    forms = [re.escape(re.sub(r"\b[A-Z]{3,}\b(?!\.md|\.antt|\.rt)", "*", part)).replace(r"\*", ".*") for part in parts]
    if ".*" not in "".join(forms):
        return "/".join(parts) in there()
    form = re.compile("/".join("(?:[^/]+/)*[^/]+" if it == ".*.*" else it.replace(".*", "[^/]*") for it in forms))
    return any(form.fullmatch(it) for it in there())


def path_faults():
    """Yields the paths and the names of files that don't exist, each with the text that names it.

    Also yields the pages of docs/ to which docs/README.md has no link.
    """
    names = {path.rpartition("/")[2] for path in there()}
    for name, path in texts():
        text = path.read_text(errors="replace")
        for found in sorted(set(PATH.findall(text)) - ELSEWHERE):
            for it in spelled(found.rstrip(".")):
                if not is_there(it):
                    yield f"{name}: no {it}"
        for found in sorted(set(NAME.findall(text)) - names if path.suffix == ".md" else ()):
            if not re.search(r"[A-Z]{3,}", found.partition(".")[0]) or found.endswith(".md"):
                yield f"{name}: no file {found}"
    index = (TOP / "docs/README.md").read_text()
    for page in sorted((TOP / "docs").rglob("*.md")):
        link = str(page.relative_to(TOP / "docs"))
        if page.name != "README.md" and f"]({link})" not in index:
            yield f"docs/README.md: no link to {link}"
