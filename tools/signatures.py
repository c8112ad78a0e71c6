#!/usr/bin/env python3
"""Writes docs/dev/SIGNATURES.md: the types, functions and constants that a caller of the library needs.

    python3 tools/signatures.py [--check]

The page has the names in the table of docs/dev/CALLING.md, and the names of OFFERED in tools/doors.py. It also has
each type that occurs in the signature of a function, in a field or in a variant of another item of the page. Each type
and each function is in the section of the last crate, in the order of crates.txt, that declares or re-exports it. (The
crate `crush` doesn't count.) The page shows these things:

- For a type: its public fields or its variants, its public methods, and its traits. A method is left out if its head
  names a type of INSIDE, because a caller never has a value of such a type.
- For a function: its head, and the names of the clauses of its contract.
- For a module of constants: each constant.
- For each type, function, method, field, variant and constant: its whole comment.

The script needs only Python 3. With --check the script writes nothing, and the status is 1 if the page isn't what the
script would write.
"""
import pathlib
import re
import sys
import textwrap

sys.dont_write_bytecode = True
from doors import OFFERED, TOP  # noqa: E402
from sources import FACADE  # noqa: E402

CRATES = TOP / "crates"
PAGE = TOP / "docs/dev/SIGNATURES.md"
# The beginning of the page.
HEAD = """\
# Signatures

This page is for a programmer who calls the library. It lists the types, functions and constants that a caller needs. The page goes crate by crate, and the lowest crate comes first. Read [CALLING](CALLING.md) first, which shows how to use the library. The contract of each function is in the sources, above the function's body. The script `tools/signatures.py` writes this page from the sources.

For example, the method `finish` of a `MapBuilder` has the comment `// requires; ensures stands, shrunk`. So the contract of `finish` has one condition for the caller, and two promises, which have the names `stands` and `shrunk`.

- A comment `// requires a; ensures b, c` has the names of the clauses in a function's contract. If no name follows `requires`, then the contract has a condition without a name.
- A comment `// traits: ..` has the traits that the type below it implements.
- The type parameter `A` is the allocator of a map's memory. The type parameter `N` is the name of an editor. The type parameter `O` says whether an editor keeps a copy of its opening map, the map before the first call.
"""
# Types of which a caller never has a value, because a caller gets a map from a reader or a builder. The page has
# neither these types nor methods whose heads name them.
INSIDE = {"Hierarchy", "Guide"}
# Traits that the page doesn't show: every type has `Drop`, and only contracts use `Model`.
UNTOLD = {"Drop", "Model"}
# The number of columns to which the code on the page is wrapped.
WIDTH = 116
# The heads of functions, types, functions of a trait, and constants.
FUNCTION = re.compile(r"(?m)^(?P<in>(?:    )?)pub (?P<kind>(?:const )?(?:unsafe )?)fn (?P<name>\w+)")
TYPE = re.compile(r"(?m)^pub (?P<kind>struct|enum|trait|type) (?P<name>\w+)")
OF_TRAIT = re.compile(r"(?m)^(?P<in>    )fn (?P<name>\w+)")
CONSTANT = re.compile(r"(?m)^pub const (\w+): .*;$")
# A field or a variant, with the comment and the attributes above it.
PART = re.compile(r"((?:[ \t]*///.*\n|[ \t]*//.*\n|[ \t]*#\[(?:[^\[\]]|\[[^\]]*\])*\]\n|\s*\n)*)[ \t]*(\S(?:[^,{(<]|\((?:[^()]|\([^()]*\))*\)|<(?:[^<>]|<[^<>]*>)*>|\{[^{}]*\})*),?")


def code_of(path):
    """Returns the text of a file without `ghost` items, which only the prover reads."""
    return re.sub(r"(?m)^\s*ghost [^;{]*(?:\{[^}]*\})?[^;]*;\n", "", path.read_text())


def order():
    """Returns the names of the crates in the order of crates.txt, without the crate that only re-exports items."""
    lines = (TOP / "crates.txt").read_text().splitlines()
    names = [line.split(":")[0] for line in lines if line and not line.startswith("#")]
    return [name for name in names if name != FACADE]


class Crate:
    """A crate: its files, the names that it declares publicly, and the names that it re-exports from other crates.

    `public` has the names of its public modules. `shown` has the names that it makes public with `pub use` from its
    own modules. `handed` has the names that it re-exports from other crates, each with the crate from which it comes.
    """

    def __init__(self, name):
        self.name, folder = name, CRATES / name / "src"
        self.head = code_of(folder / "lib.rt")
        self.files = {path: path.read_text() for path in sorted(folder.rglob("*.rt"))}
        self.public = set(re.findall(r"(?m)^pub mod (\w+);", self.head))
        self.shown, self.handed = set(), {}
        for path in re.findall(r"(?ms)^pub use (.*?);", self.head):
            origin, names = path.split("::")[0], re.findall(r"\b\w+\b", re.split(r"::\{|::(?=\w+$)", path, maxsplit=1)[1])
            for it in names:
                if origin.startswith("crush_"):
                    self.handed[it] = origin
                else:
                    self.shown.add(it)

    def is_public(self, path, name):
        """Whether code outside the crate can use the item `name` of the file `path`."""
        return name in self.shown or path.relative_to(CRATES / self.name / "src").parts[0].removesuffix(".rt") in self.public


def docs_above(text, at):
    """Returns the paragraphs of the comment (`///`) above a position of a text."""
    lines = []
    for line in reversed(text[:at].splitlines()):
        line = line.strip()
        if line.startswith("///"):
            lines.insert(0, line[3:].strip())
        elif not line.startswith("#[") and not line.startswith("//"):
            break
    return paragraphs(lines)


def paragraphs(lines):
    """Returns the paragraphs of the lines of a comment. A link to an item becomes the name of the item."""
    said = re.split(r"\n\s*\n", "\n".join(lines).strip())
    return [re.sub(r"\[(`[^`]+`)\](../?:\([\w:]+\))?", r"\1", " ".join(part.split())) for part in said if part.strip()]


def commented(said, indent=""):
    """Yields the lines of a comment that has these paragraphs."""
    for number, part in enumerate(said):
        if number:
            yield f"{indent}///"
        yield from (f"{indent}/// {line}" for line in textwrap.wrap(part, WIDTH - 4 - len(indent), break_on_hyphens=False))


def braced(text, at):
    """Returns the text between the first brace after a position and the brace that closes it.

    Braces in comments and literals don't count.
    """
    begin, depth = text.index("{", at), 0
    for found in re.compile(r"""//.*|"(?:[^"\\]|\\.)*"|'(?:[^'\\]|\\.)'|[{}]""").finditer(text, begin):
        depth += {"{": 1, "}": -1}.get(found[0], 0)
        if depth == 0:
            return text[begin + 1 : found.start()]
    raise ValueError(text[at : at + 60])


class Function:
    """A function: its name, its comment, its head, and the names of the clauses of its contract."""
    def __init__(self, text, found):
        end = re.compile(rf"(?m)^{found['in']}\{{|(?<=\S) \{{$|;$").search(text, found.end())
        whole = re.sub(r"(?m)^ *//.*\n", "", text[found.start() : end.start()])
        head, *clauses = re.split(r"\b(?=(?:requires|ensures) (?:\w+ )?\{)", whole)
        self.name, self.docs = found["name"], docs_above(text, found.start())
        self.head = " ".join(head.split()).rstrip(", ")
        self.head = self.head.removesuffix(" where").replace("( ", "(").replace(", )", ")")
        self.clauses = {word: [] for word in ("requires", "ensures")}
        for clause in clauses:
            word, name = re.match(r"(\w+) (?:(\w+) )?\{", clause).groups()
            self.clauses[word].append(name or "")

    def lines(self):
        """Yields the lines of the page that show the function."""
        yield from commented(self.docs)
        told = [f"{word} {', '.join(filter(None, names))}".strip() for word, names in self.clauses.items()
                if any(names) or names and word == "requires"]
        yield from behind(wrapped(self.head), "; ".join(told))


def behind(lines, remark):
    """Returns lines with a comment after the last line, or above the lines if the last line would be too long."""
    *others, last = lines
    if not remark:
        return lines
    if len(last) + len(remark) + 5 <= WIDTH:
        return [*others, f"{last}  // {remark}"]
    return [*(f"// {line}" for line in textwrap.wrap(remark, WIDTH - 3)), *lines]


def wrapped(head):
    """Returns the lines of a function's head.

    If the head doesn't fit into one line, its bounds (after `where`) are in lines of their own. If the rest of the
    head still doesn't fit into one line, each argument has a line of its own.
    """
    if len(head) <= WIDTH:
        return [head]
    head, _, bounds = head.partition(" where ")
    begin, depth, parts, last = head.index("(", head.index("fn ")), 0, [], 0
    for at in range(begin, len(head)):
        depth += {"(": 1, "<": 1, "[": 1, ")": -1, "]": -1}.get(head[at], 0) - (head[at] == ">" and head[at - 1] != "-")
        if at == begin or depth == 1 and head[at] == ",":
            parts.append(head[last : at + 1].strip())
            last = at + 1
        elif depth == 0:
            parts.append(head[last:at].strip() + ",")
            last = at
            break
    lines = [head] if len(head) <= WIDTH else [parts[0], *("    " + part for part in parts[1:]), head[last:]]
    if bounds:
        lines += ["where", *textwrap.wrap(bounds, WIDTH, initial_indent="    ", subsequent_indent="    ")]
    return lines


def parts_of(inside, is_struct, indent):
    """Yields the lines of the public fields of a struct, or of all variants of an enum and their fields.

    The comment of a field or a variant is above it.
    """
    for above, part in PART.findall(inside):
        said = paragraphs([line.strip()[3:].strip() for line in above.splitlines() if line.strip().startswith("///")])
        if is_struct and not part.startswith("pub "):
            continue
        yield from commented(said, indent)
        head, brace, fields = part.partition("{")
        if brace and "///" in fields:
            yield f"{indent}{head.strip()} {{"
            yield from parts_of(fields.rstrip().removesuffix("}"), False, indent + "    ")
            yield f"{indent}}},"
        elif brace:
            yield f"{indent}{head.strip()} {{ {' '.join(fields.rstrip().removesuffix('}').split()).rstrip(',')} }},"
        else:
            yield f"{indent}{' '.join(part.split())},"


class Library:
    """All library crates, with the types and the functions that code outside their crates can use.

    The keys of `types` and `functions` are pairs of a crate and a name.
    """
    def __init__(self):
        self.order = order()
        self.crates = {name: Crate(name) for name in self.order if (CRATES / name / "src/lib.rt").exists()}
        self.types, self.functions = {}, {}
        for crate in self.crates.values():
            for path, text in crate.files.items():
                for found in TYPE.finditer(text):
                    if crate.is_public(path, found["name"]):
                        self.types[crate.name, found["name"]] = path, found
                for found in FUNCTION.finditer(text):
                    if not found["in"] and crate.is_public(path, found["name"]):
                        self.functions[crate.name, found["name"]] = path, Function(text, found)

    def origin(self, crate, name):
        """Returns the crate that declares a name, which the crate `crate` declares or re-exports."""
        while crate in self.crates and name in self.crates[crate].handed:
            crate = self.crates[crate].handed[name]
        return crate

    def imported(self, crate, path):
        """Returns, for each type that a file imports from another crate, the crate that declares the type."""
        names = {}
        for used in re.findall(r"(?ms)^(?:pub )?use (crush_\w+)::(.*?);", self.crates[crate].files[path]):
            names.update({name: self.origin(used[0], name) for name in re.findall(r"\b[A-Z]\w*\b", used[1])})
        return names

    def named(self, crate, path, text):
        """Yields the types of the library that a text of a file names, each with the crate that declares it."""
        names = self.imported(crate, path)
        for name in re.findall(r"(?<!::)\b[A-Z]\w*\b", text):
            if (names.get(name, crate), name) in self.types:
                yield names.get(name, crate), name

    def home(self, crate, name):
        """Returns the last crate that re-exports an item, or the crate of the item if no other crate re-exports it."""
        return [other for other in self.order if other in self.crates and self.origin(other, name) == crate
                and (other == crate or name in self.crates[other].handed)][-1]

    def impls(self, crate, name):
        """Yields the `impl` blocks of a type: the file, the head, the head without type parameters, and the inside."""
        for path, text in self.crates[crate].files.items():
            for found in re.finditer(r"(?m)^(?:unsafe )?impl\b[^{;]*\{", text):
                head = " ".join(found[0].rstrip("{").split())
                flat = re.sub(r"<[^<>]*>", "", re.sub(r"<[^<>]*>", "", re.sub(r"<[^<>]*>", "", head))).split(" where ")[0]
                if flat.split()[-1] == name:
                    yield path, head, flat, braced(text, found.start())

    def body_of(self, crate, name):
        """Returns the declaration of a type, with the public fields, the variants or the functions of the type."""
        path, found = self.types[crate, name]
        text = self.crates[crate].files[path]
        line = text[found.start() : re.compile(r"[{;]").search(text, found.end()).start()]
        if found["kind"] == "type":
            return " ".join(line.split())
        if "(" in line:
            line = text[found.start() : text.index(";", found.end())]
            return " ".join(line.split()) if re.search(r"\(\s*pub ", line) else " ".join(line.split("(")[0].split())
        head = " ".join(line.split())
        if text[found.start() + len(line)] == ";":
            return head
        if found["kind"] == "trait":
            inside = braced(text, found.end())
            calls = [[f"    {line}" for line in Function(inside, it).lines()] for it in OF_TRAIT.finditer(inside)]
            return "\n".join([head + " {", *"\n\n".join("\n".join(lines) for lines in calls).splitlines(), "}"]) if calls else head
        parts = list(parts_of(braced(text, found.end()), found["kind"] == "struct", "    "))
        return "\n".join([head + " {", *parts, "}"]) if parts else head

    def traits(self, crate, name):
        """Returns the names of the traits that a type implements or derives, except for those of UNTOLD."""
        path, found = self.types[crate, name]
        above = re.search(r"((?:#\[[^\n]*\]\n)*)$", self.crates[crate].files[path][: found.start()])[1]
        names = [it for derived in re.findall(r"derive\(([^)]*)\)", above) for it in derived.split(", ")]
        names += ["Display"] if "Error" in names else []
        for _, head, flat, _ in self.impls(crate, name):
            if " for " in head:
                trait = re.sub(r"^(?:unsafe )?impl\s*(?:<.*?>\s)?", "", head.split(" for ")[0])
                names.append(re.sub(r"^impl(?:<.*?>)? ", "", trait).split("::")[-1].strip())
        return sorted(set(names) - UNTOLD)

    def methods(self, crate, name):
        """Yields the `impl` blocks of a type that have public methods: the files, the head, and the methods.

        Blocks with the same head are yielded as one block.
        """
        blocks = {}
        for path, head, _, inside in self.impls(crate, name):
            functions = [Function(inside, found) for found in FUNCTION.finditer(inside) if found["in"]]
            functions = [it for it in functions if not set(re.findall(r"\w+", it.head)) & INSIDE]
            if functions and " for " not in head:
                blocks.setdefault(head, []).append((path, functions))
        for head, files in blocks.items():
            yield {path for path, _ in files}, head, [it for _, functions in files for it in functions]


def roots(library):
    """Yields the types, functions and modules in the table of CALLING.md and in OFFERED of tools/doors.py.

    Each name comes with the crate that declares it.
    """
    listed = {}
    for crate, names in re.findall(r"(?m)^\| `(crush_\w+)` \| ([^|]*) \|", (TOP / "docs/dev/CALLING.md").read_text()):
        listed.setdefault(crate, set()).update(re.findall(r"`([\w:]+)`", names))
    for crate, names in OFFERED.items():
        listed.setdefault(crate, set()).update(names)
    for crate, names in sorted(listed.items()):
        for name in sorted({name.split("::")[0] for name in names}):
            yield library.origin(crate, name), name


def constants(library, crate, module):
    """Yields the lines of the page that show a module of constants."""
    path = CRATES / crate / "src" / f"{module}.rt"
    text = library.crates[crate].files[path]
    yield f"pub mod {module} {{"
    for found in CONSTANT.finditer(text):
        yield from (f"    {line}" for line in [*commented(docs_above(text, found.start())), found[0]])
    yield "}"


def closed(library):
    """Returns the types, functions and modules of the page: those of `roots`, and each type that these need.

    An item needs the types that it names, and all types that these types need.
    """
    types, functions, modules, waiting = set(), set(), set(), list(roots(library))
    while waiting:
        crate, name = waiting.pop()
        if name in library.crates[crate].public:
            modules.add((crate, name))
        elif (crate, name) in library.functions:
            functions.add((crate, name))
            path, function = library.functions[crate, name]
            waiting += [it for it in library.named(crate, path, function.head) if it not in types]
        elif (crate, name) in library.types and (crate, name) not in types and name not in INSIDE:
            types.add((crate, name))
            path, found = library.types[crate, name]
            if found["kind"] == "type":
                continue  # a caller only passes such a value on, so the page shows no parts of it
            waiting += library.named(crate, path, re.sub(r"(?m)^ *///.*$", "", library.body_of(crate, name)))
            for paths, head, methods in library.methods(crate, name):
                for path in paths:
                    waiting += library.named(crate, path, " ".join([head, *(it.head for it in methods)]))
    return types, functions, modules


def page():
    """Returns the text of the page."""
    library = Library()
    types, functions, modules = closed(library)
    parts = [HEAD]
    for crate in library.order:
        of_types = sorted(it for it in types if library.home(*it) == crate)
        of_functions = sorted(it for it in functions if library.home(*it) == crate)
        lines = [line for module in sorted(modules) if module[0] == crate for line in [*constants(library, *module), ""]]
        if not of_types and not of_functions and not lines:
            continue
        for it in of_types:
            path, found = library.types[it]
            lines += commented(docs_above(library.crates[it[0]].files[path], found.start()))
            traits = ", ".join(library.traits(*it))
            lines += textwrap.wrap(traits, WIDTH, initial_indent="// traits: ", subsequent_indent="//   ") if traits else []
            lines += library.body_of(*it).splitlines()
            for _, head, methods in library.methods(*it):
                lines += ["", f"{head} {{"]
                for method in methods:
                    lines += [f"    {line}".rstrip() for line in method.lines()] + [""]
                lines[-1] = "}"
            lines += [""]
        for it in of_functions:
            lines += [*library.functions[it][1].lines(), ""]
        text = "\n".join(lines).rstrip()
        parts.append(f"## {crate}\n\n```rust\n{text}\n```\n")
    return "\n".join(parts)


def main():
    if sys.argv[1:] == ["--check"]:
        is_new = PAGE.exists() and PAGE.read_text() == page()
        sys.exit(0 if is_new else "docs/dev/SIGNATURES.md is older than the crates: run tools/signatures.py")
    PAGE.write_text(page())


main()
