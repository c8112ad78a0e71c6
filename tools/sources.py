"""Has the functions with which other scripts read the pages and the sources. The module does nothing by itself.

The scripts check.py, told.py, paths.py, doors.py and signatures.py import this module.
"""
import functools
import os
import pathlib
import re

TOP = pathlib.Path(__file__).resolve().parent.parent
# The page that signatures.py writes.
MADE = TOP / "docs/dev/SIGNATURES.md"
# The page for contributors, with a section for each kind of addition.
CONTRIBUTING = TOP / "CONTRIBUTING.md"
# The pages whose statements are compared with the sources.
PAGES = sorted(set((TOP / "docs").rglob("*.md")) - {MADE}) + [TOP / "README.md", CONTRIBUTING, TOP / "bench/README.md", TOP / "tests/README.md"]
# Further pages, whose links are checked, too.
LINKED = [MADE, TOP / "SECURITY.md", TOP / "bench/RESULTS.md", TOP / "crates/README.md", TOP / "examples/README.md", TOP / "tools/README.md"]
# The crates that are programs. No other crate calls a function of a program.
PROGRAMS = {path.parent.parent.name for path in TOP.glob("crates/*/src/main.rt")}
# The crate that re-exports what callers of the library use, and declares nothing itself.
FACADE = "crush"
# The source that has the options of the command line, the help and the version.
COMMAND_LINE = "crates/crush_options/src/command_line.rt"
# The sections of RULES.md that must have a row for each variant of an enum, with the file and the name of the enum.
ROWS = {
    "Refusals": ("crush_edits/src/refusal.rt", "Refusal"),
    "Faults of a text": ("crush_text/src/fault.rt", "TextFaultKind"),
    "Faults of a job": ("crush_script/src/fault.rt", "JobFault"),
}
# The names of the pages that have not only names of the code in backticks, but also words of jobs and words of Ceph.
# On these pages, check.py doesn't check the names in backticks. (told.py checks some of them.)
WORDS_OF_TEXTS = {"FORMATS.md", "OPERATING.md", "DECISIONS.md", "README.md"}


def files_below(top):
    """Yields all files and folders below `top`, except for the folders `out` and `.git`.

    The toolchain (`rt`) and git may keep hundreds of thousands of files in these folders.
    """
    for folder, folders, files in os.walk(top):
        folders[:] = sorted(set(folders) - {"out", ".git"})
        for name in sorted(folders + files):
            yield pathlib.Path(folder) / name


@functools.cache
def crate_files():
    """Returns the sources, the definitions and proofs, and the wrong bodies of all crates."""
    return [path for path in sorted(files_below(TOP / "crates")) if path.suffix in {".rt", ".antt", ".edit"}]


# Words that pages may have in backticks although no crate declares them: words of the language, and a program of Ceph.
OTHER_WORDS = {"self", "now", "match", "requires", "ensures", "crushtool"}
# Regular expressions for what a file declares, by the suffix of the file. In a source (.rt), these are items and
# modules, fields and parameters, variants, clauses of contracts, and `ghost` items. In definitions and proofs (.antt),
# these are definitions, records and data types. A string that consists of one word also counts.
DECLARED = {
    ".rt": [r"\b(?:fn|struct|enum|trait|type|const|static|mod)\s+(\w+)", r"\b(\w+):", r"(?m)^ {4,8}([A-Z]\w*)\b", r"\b(?:ensures|requires) (\w+) \{", r"\bghost (\w+)\b", r"\"(\w+)\""],
    ".antt": [r"(?m)^ *(?:(?:abbrev|unfoldable|opaque|def|private) )*(?:pub )?(?:record |data |module )?(\w+) .*?:", r"(?m)^ *pub (?:record |data )?(\w+)", r"\"(\w+)\""],
}
# The names that a source imports or derives.
TAKEN = re.compile(r"(?ms)^\s*(?:pub(?:\([^)]*\))? |ghost )?use (.*?)(?:;|$)|#\[derive\((.*?)\)\]")


def declared(path):
    """Returns the names that a file declares, imports or derives. Words in comments don't count."""
    text = re.sub(r"(?m)(?:--|//).*$", "", path.read_text())
    names = {name for form in DECLARED[path.suffix] for name in re.findall(form, text)}
    for parts in TAKEN.findall(text):
        names.update(re.findall(r"\w+", " ".join(parts)))
    return names


@functools.cache
def known_words(of_tests=False):
    """Returns the names that the crates declare, and the names of crates, of their files and of the jobs of examples/.

    With `of_tests`, returns the names that the crates of tests declare, and otherwise those of all other crates.

    If a function was removed, its name may still be a word of a comment, of a longer string or of a test. Such words
    don't count, so that check.py finds each page that still names the function.
    """
    words = {path.stem for path in (TOP / "examples").rglob("*.job")} | OTHER_WORDS
    words.update(re.findall(r"\w+", re.sub(r"(?m)^#.*$", "", (TOP / "crates.txt").read_text())))
    for path in crate_files():
        parts = path.relative_to(TOP / "crates").parts
        if parts[0].endswith("_tests") == of_tests:
            words.update({path.stem, *parts})
            if path.suffix != ".edit":
                words.update(declared(path))
    return words


def cells(row):
    """Returns the cells of a row of a table."""
    return [cell.strip() for cell in re.split(r"(?<!\\)\|", row.strip().strip("|"))]


def tables(text):
    """Yields each table of a page, as its head and a list of its rows. The head and each row are lists of cells."""
    head, rows = None, []
    for line in text.splitlines() + [""]:
        if line.startswith("|"):
            if head is None:
                head = cells(line)
            elif not re.match(r"^\|[\s:|-]+\|$", line):
                rows.append(cells(line))
        elif head is not None:
            yield head, rows
            head, rows = None, []


def quoted(text):
    """Returns the texts in backticks. Instead of `a/{b,c}.rt`, returns `a/b.rt` and `a/c.rt`."""
    names = []
    for name in re.findall(r"`([^`]+)`", text):
        files = re.fullmatch(r"([\w./]+/)\{([\w/,]+)\}([\w./]+)", name)
        names += [files[1] + file + files[3] for file in files[2].split(",")] if files else [name]
    return names


def variants(name, enum):
    """Returns the variants of the enum `enum`, which is in the file `name` of crates/."""
    body = re.search(rf"pub enum {enum}\b[^{{]*{{(.*?)\n}}", (TOP / "crates" / name).read_text(), re.S).group(1)
    return re.findall(r"^    ([A-Z]\w*)", body, re.M)


def page_of(name):
    """Returns the path of the page of docs/ with this name. If `name` is already a path, returns this path."""
    return name if isinstance(name, pathlib.Path) else next((TOP / "docs").rglob(name))


def sections_of(page, level="##"):
    """Returns the sections of a page at a level of headings, by their titles.

    `page` is the name of a page of docs/, or the path of another page.
    """
    sections = re.split(rf"(?m)^(?={level} )", page_of(page).read_text())
    # A section of the level `###` also ends before a heading of the level `##`. Headings with one `#` aren't searched
    # for, because a line in a code block may begin with `#`.
    sections = [re.split(r"(?m)^(?=## )", section)[0] if level == "###" else section for section in sections]
    return {section.split("\n", 1)[0].removeprefix(level).strip(): section for section in sections if section.startswith(f"{level} ")}


def contracts():
    """Yields each public function of the crates: its crate, its name, and the text of its head and its contract.

    The name of a method has the name of its type in front, as in `Weight::read`. The text begins after the name of the
    function. Crates of tests and programs are left out, and so are functions of private modules that lib.rt doesn't
    re-export.
    """
    start = re.compile(r"(?m)^(?:impl\b[^{;]*\{|\}|(?P<in> *)pub (?:const |unsafe )?fn (?P<name>\w+))")
    for path in crate_files():
        crate, folder = path.relative_to(TOP / "crates").parts[:2]
        if folder != "src" or crate.endswith("_tests") or crate in PROGRAMS or path.suffix != ".rt":
            continue
        text, owner, library = path.read_text(), "", (TOP / "crates" / crate / "src/lib.rt").read_text()
        module = path.relative_to(TOP / "crates" / crate / "src").parts[0].removesuffix(".rt")
        for found in start.finditer(text):
            if found["name"]:
                if not found["in"] and not re.search(rf"pub mod {module};|\b{found['name']}\b", library):
                    continue  # the function is in a private module
                end = re.compile(rf"(?m)^{found['in']}\{{").search(text, found.end())
                name = f"{owner}::{found['name']}" if found["in"] else found["name"]
                yield crate, name, text[found.end() : end.start() if end else None]
            else:
                head = re.sub(r"<[^<>]*>", "", re.sub(r"<[^<>]*>", "", found[0]))
                owner = (re.findall(r"(\w+)\s*(?:\bwhere\b.*)?\{", head, re.S) or [""])[0]


def fields_of_records():
    """Returns the fields of each record of specs/, by the name of the record.

    If a clause of a contract uses a record, each field of the record counts as a clause.
    """
    fields = {}
    for path in crate_files():
        if path.suffix == ".antt" and "specs" in path.parts:
            for name, body in re.findall(r"(?m)^pub record (\w+)[^\n]*\n((?:  pub [^\n]*\n)+)", path.read_text()):
                fields.setdefault(name, set()).update(re.findall(r"(?m)^  pub (\w+) :", body))
    return fields
