"""Compares statements of the pages with the sources. check.py calls `told_faults`.

These are the statements:

- RULES.md must have a row for each variant of the enums of ROWS (in sources.py), and for each limit. The row of a
  limit must have the value of the limit. The sentences of refusals and of faults of jobs must be those of the
  definitions in SENTENCES. The sentences of runs and the sentences that name an item must also be those of their
  definitions.
- MODEL.md must say how many worked examples of edits there are.
- tests/README.md must say for each script of tests/ whether the gate (`make check`) runs it.
- edits.md must list for each edit the refusals that the definition of the edit can give.
- PROVED.md must name the crates of the toolchain that are trusted, and the unsafe functions. If PROVED.md says that a
  function is in a crate, this crate must have the function.
- If a page says that a function has a clause, the function's contract must have this clause.
- The code in CALLING.md and editor.md must be lines of the programs that these pages name.
- Errors and values must have the traits that CALLING.md says they have.
- FORMATS.md must have a heading for each option of the command line, and README.md must have a row for each exit
  status.
- If a page of WORDS_OF_TEXTS (in sources.py) has a name of two or more capitalized words in backticks, such as
  `JobFault`, the crates must declare this name. Types, refusals and faults have such names.

Each function whose name ends in `_faults` yields a line for each statement that is wrong.
"""
import re

from sources import COMMAND_LINE, PAGES, ROWS, TOP, WORDS_OF_TEXTS
from sources import contracts, crate_files, fields_of_records, known_words, page_of, quoted, sections_of, tables, variants

# The files whose definitions have the sentences of refusals and of faults of jobs. A definition such as `job_sentence`
# has the sentences of an enum.
SENTENCES = "crush_reasons/specs/Sentences.antt", "crush_edits/specs/Refusal.antt"
# The first words of the names of these definitions, each with the section of RULES.md that must have the same
# sentences.
SAID = {("job",): "Faults of a job", ("refusal", "stale"): "Refusals"}
# The faults of a job whose sentences depend on the text of the map, or on the faulty line.
NO_SENTENCE = {"Text", "BadLine", "NoSuchCommand"}


def rule_faults():
    """Yields the refusals, faults and limits that have no row in RULES.md."""
    sections = sections_of("RULES.md")
    wanted = {title: variants(name, enum) for title, (name, enum) in ROWS.items()}
    limits = (TOP / "crates/crush_units/src/limits.rt").read_text()
    wanted["Limits"] = re.findall(r"(?m)^pub const (\w+)", limits)
    for title, names in wanted.items():
        rows = [row for _, rows in tables(sections.get(title, "")) for row in rows]
        there = {name for row in rows for cell in row[:2] for name in quoted(cell)}
        there.update(name for line in re.findall(r"(?m)^- .*$", sections.get(title, "")) for name in quoted(line))
        for name in names:
            if name not in there:
                yield f"{title} has no row for {name}"


def sentence_faults():
    """Yields the refusals and faults of jobs that have no sentence, or that have another sentence in RULES.md."""
    specs, sections = "\n".join((TOP / "crates" / name).read_text() for name in SENTENCES), sections_of("RULES.md")
    said = re.findall(r'(?m)^(\w+)_sentence (?:\(?(?:\w+\.)?(\w+)[^=\n]*)?= codes "(.*)"$', specs)
    for word, title in SAID.items():
        wanted = {name or other.capitalize(): sentence for other, name, sentence in said if other in word}
        for head, rows in tables(sections.get(title, "")):
            told = {quoted(row[head.index(title.split(" ")[0].rstrip("s"))])[0]: row[head.index("Sentence")].strip("`") for row in rows}
            for name in sorted(wanted | told):
                if name not in NO_SENTENCE and wanted.get(name) != told.get(name):
                    yield f"{title} has another sentence of {name} than {' and '.join(SENTENCES)}"
        for name in variants(*ROWS[title]):
            if name not in wanted and name not in NO_SENTENCE:
                yield f"{' and '.join(SENTENCES)}: no sentence for {name}"


def run_sentence_faults():
    """Yields the sentences of runs that RULES.md lacks, and the sentences that RULES.md has and no run prints."""
    report = (TOP / "crates/crush_input/specs/Report.antt").read_text()
    said = {sentence for sentence in re.findall(r'codes "  (.*?)\\n"', report)}
    told = {row[1].strip("`") for _, rows in tables(sections_of("RULES.md")["Sentences of runs"]) for row in rows}
    for sentence in sorted(said ^ told):
        yield f"Sentences of runs: {'no row' if sentence in said else 'no run'} has {sentence}"


def named_sentence_faults():
    """Yields the sentences with the name of an item that RULES.md lacks.

    Also yields the parts of RULES.md's sentences, for such refusals and for faults of a text, that no definition of
    crush_reasons has.
    """
    specs = "\n".join(path.read_text() for path in sorted((TOP / "crates/crush_reasons/specs").glob("*.antt")))
    told = {quoted(row[0])[0]: row[1].strip("`") for _, rows in tables(sections_of("RULES.md")["Refusals that name what is in the way"]) for row in rows}
    for name, said in re.findall(r'(?m)^said_of refusal\.(\w+) = Some \(codes "(.*)"\)$', specs):
        if told.get(name) != f"NAME{said}":
            yield f"Refusals that name what is in the way has no row of {name} with {said!r}"
    for title, column in (("Refusals that name what is in the way", 0), ("Faults of a text", 1)):
        for head, rows in tables(sections_of("RULES.md")[title]):
            for row in rows:
                for part in unprinted(row[head.index("Sentence")].strip("`"), specs):
                    yield f"{title}: nothing prints {part!r}, as of {row[column]}"


def unprinted(sentence, specs):
    """Splits a sentence at its words in capital letters, and returns the parts that no definition has."""
    literals = re.findall(r'codes "([^"]*)"', specs)
    parts = [part.strip(" `") for part in re.split(r"\b(?:[A-Z]{4,}|N)\b", sentence)]
    return [part for part in parts if not any(part in literal for literal in literals)]


def gate_faults():
    """Yields the scripts of tests/ that tests/README.md doesn't name, or whose column about the gate is wrong."""
    text = re.sub(r"(?ms)^```.*?^```$", "", (TOP / "tests/README.md").read_text())
    gate = (TOP / ".ci/run").read_text().replace("\n", " ")
    in_gate = {path.name for path in (TOP / "tests").iterdir() if f"tests/{path.name} " in gate}
    rows = {quoted(row[0])[0]: row[-1] for head, rows in tables(text) if head[-1] == "In the gate" for row in rows}
    for name in sorted(in_gate ^ {name for name, cell in rows.items() if cell.startswith("yes")}):
        yield f"tests/README.md: {name} {'is' if name in in_gate else 'is not'} in the gate"
    for path in sorted((TOP / "tests").iterdir()):
        if path.suffix in {".py", ".sh"} and path.name not in quoted(text):
            yield f"tests/README.md doesn't name {path.name}"


def number_faults():
    """Yields the limits for which RULES.md lacks the value, and a wrong number of worked examples in MODEL.md.

    Also yields the faults of `gate_faults`.
    """
    text = (TOP / "crates/crush_units/src/limits.rt").read_text()
    limits = {name: int(value) for name, value in re.findall(r"(?m)^pub const (\w+): \w+ = (\d+);", text)}
    for line in re.findall(r"(?m)^\| `.*$", sections_of("RULES.md")["Limits"]):
        numbers = {int(number.replace(",", "")) for number in re.findall(r"(?<![\d.,])\d[\d,]*(?![\d.,]*\d)", line)}
        for name in quoted(line):
            if name in limits and limits[name] not in numbers:
                yield f"RULES.md: {name} is {limits[name]}"
    worked = "".join(path.read_text() for path in (TOP / "crates/crush_edits/proofs/Worked").glob("*.antt"))
    count = len(re.findall(r"(?m)^\w+ : ", worked))
    if f"`crates/crush_edits/proofs/Worked` has {count} such lines" not in (TOP / "docs/dev/MODEL.md").read_text():
        yield f"MODEL.md: there are {count} worked lines"
    yield from gate_faults()


def met_faults():
    """Yields the edits for which edits.md lists other refusals than the definition of the edit tests for."""
    specs = "\n".join(path.read_text() for path in sorted((TOP / "crates/crush_edits/specs").glob("*.antt")))
    bodies = dict(re.findall(r"(?m)^(\w+_tests?) [^:=\n]*=((?: .*|\n    .*)+)$", specs))
    edits = re.findall(r"(?m)^tests s t \((?:Place )?(\w+)[^)]*\) a = (\w+_tests)", specs)
    numbers = {name: number for number, name in enumerate(variants(*ROWS["Refusals"]), 1)}

    def met(name):
        return {numbers[it] for it in re.findall(r"\((\w+),", bodies[name]) if it in numbers}.union(
            *(met(it) for it in re.findall(r"\b\w+_tests?\b", bodies[name])))

    told = {}
    for _, rows in tables(sections_of("edits.md")["What an edit answers"]):
        for row in rows:
            spans = [span.split("-") for span in re.findall(r"\d+(?:-\d+)?", row[2].split(", of the first")[0])]
            of_all = {number for span in spans for number in range(int(span[0]), int(span[-1]) + 1)}
            first = {int(number) for number in re.findall(r"of the first (\d+)", row[2])}
            for place, name in enumerate(quoted(re.sub(r"\]\([^)]*\)", "]", row[0]))):
                told[name] = of_all if place else of_all | first
    for name, definition in edits:
        if told.get(name) != met(definition):
            yield f"edits.md: {name} may meet the refusals {sorted(met(definition))}"


def trust_faults():
    """Yields what is wrong with the lists of PROVED.md about what is trusted and what is only tested.

    The list of what is trusted must have exactly the crates of the toolchain on which a crate of this repository
    depends. The list of what is only tested must name each unsafe function and its crate.
    """
    lines = [line.split(":") for line in (TOP / "crates.txt").read_text().splitlines() if line and not line.startswith("#")]
    ours = {line[0] for line in lines}
    others = {name for line in lines for name in line[1].split()} - ours
    named = set(quoted(sections_of("PROVED.md")["What is trusted"]))
    for name in sorted(others ^ named):
        yield f"What is trusted {'does not name' if name in others else 'names'} {name}"
    tested = quoted(sections_of("PROVED.md")["What is only tested"])
    for path in crate_files():
        if path.suffix == ".rt" and (found := re.findall(r"(?m)^[^/\n]*\bunsafe fn (\w+)", path.read_text())):
            crate = path.relative_to(TOP / "crates").parts[0]
            for name in {crate, *found} - set(tested):
                yield f"What is only tested doesn't name {name}, which is unsafe, or has what is"


def clause_faults():
    """Yields the clauses that a page gives to a function whose contract doesn't have them.

    On the pages, the names of the clauses are in brackets after the function, or in PROVED.md after the function and
    its crate. Also yields the functions that PROVED.md places in a crate that doesn't have them.
    """
    records, clauses, by_crate = fields_of_records(), {}, {}
    for crate, name, text in contracts():
        there = set(re.findall(r"\bensures (\w+) \{", text))
        by_crate[crate, name] = set(there)
        there.update(*(records.get(record, ()) for record in re.findall(r"\bensures (?:\w+ )?\{ (\w+)", text)))
        for called in {name, name.split("::")[-1]}:
            clauses.setdefault(called, set()).update(there)
    carried = re.compile(r"`([\w:]+)` in `(crush_\w+)`(?:, clauses? ((?:`\w+`(?:, | and )?)+))?")
    for call, crate, named in carried.findall((TOP / "docs/dev/PROVED.md").read_text()):
        if (crate, call) not in by_crate and not any(it[0] == crate and it[1].startswith(f"{call}::") for it in by_crate):
            yield f"PROVED.md: {crate} has no public call {call}"
        for clause in quoted(named):
            if clause not in by_crate.get((crate, call), ()):
                yield f"PROVED.md: {call} of {crate} has no clause {clause}"
    told = re.compile(r"((?:`[\w:]+`, )*`[\w:]+`)(?:, clauses? |: )((?:`\w+`(?:, | and )?)+)(?::|$)")
    for page in sorted((TOP / "docs").rglob("*.md")):
        for inside in re.findall(r"\(([^()]+)\)", page.read_text()):
            for part in inside.split("; "):
                found = told.match(part)
                for call in quoted(found[1]) if found else []:
                    for clause in quoted(found[2]):
                        if call in clauses and clause not in clauses[call]:
                            yield f"{page.name}: {call} has no clause {clause}"


def plain_lines(text):
    """Returns the lines of code of a text, without comments, contracts and blank lines."""
    lines, is_clause = [], False
    for line in text.splitlines():
        word = line.strip()
        if not word or word.startswith(("//", "ghost ")):
            continue
        if word.startswith(("ensures", "requires")):
            is_clause = True
        elif is_clause and (word == "{" or re.match(r"\{ \S.*[^}] \},$", word)):
            is_clause = False
        if not is_clause:
            lines.append(line.rstrip())
        is_clause = is_clause and not word.endswith(";")
    return "\n" + "\n".join(lines) + "\n"


def shown_faults():
    """Yields the blocks of code in CALLING.md and editor.md that the program named above the block doesn't have.

    A line `..` of a block stands for lines that the page leaves out.
    """
    for name in ("CALLING.md", "editor.md"):
        page = page_of(name).read_text()
        for found in re.finditer(r"(?s)```rust\n(.*?)```", page):
            file = re.findall(r"`(crates/crush_[\w/]+\.rt)`", page[: found.start()])[-1]
            program = plain_lines((TOP / file).read_text())
            for part in re.split(r"(?m)^ *\.\.\n", found[1]):
                if plain_lines(part) not in program:
                    yield f"{name}: {file} has other lines"


def caller_faults():
    """Yields the errors and values that lack a trait which CALLING.md says they have."""
    surface, traits = (TOP / "docs/dev/SIGNATURES.md").read_text(), []
    for line in surface.splitlines():
        if re.match("// +", line) and (traits or line.startswith("// traits: ")):
            traits += re.findall(r"\w+", line)
        elif found := re.match(r"pub (?:enum|struct) (\w+)", line):
            name = found[1]
            for trait, has in (("Error", "Fault" in name or name == "Refusal"), ("Display", name in {"Weight", "Name", "Edit", "Call", "Reply", "Line", "Refusal"} or name != "ById" and re.search("[a-z]Id$", name))):
                if has and trait not in traits and name not in {"ShadowId", "TypeId"}:
                    yield f"CALLING.md: {name} has no {trait}"
            traits = []


def word_faults():
    """Yields the options that have no heading in FORMATS.md, and the headings for options that don't exist.

    Also yields the exit statuses that only README.md lists, or only the help.
    """
    source = (TOP / COMMAND_LINE).read_text()
    there = {*re.findall(r'\b(?:flag|option)\(alloc, "([a-z-]+)"', source), *re.findall(r'\.long\("([a-z-]+)"\)', source)}
    section = sections_of("FORMATS.md")["The command line"]
    told = {name for head in re.findall(r"(?m)^### .*$", section) for name in re.findall(r"`--([a-z-]+)", head)}
    # The options whose headings have the letter of the option, and not its long name.
    told |= {name for head, name in re.findall(r"(?ms)^### `(-[a-z] [A-Z]+)`\n.*?`--([a-z-]+) [A-Z]+`", section)}
    for name in sorted((there | {"help", "version"}) ^ told):
        yield f"FORMATS.md: {'no heading for' if name in there else 'there is no'} --{name}"
    helped = set(re.findall(r"(?m)^    (\d)    ", source[source.index("Exit status:") :]))
    for status in sorted(helped ^ set(re.findall(r"(?m)^\| (\d) \|", (TOP / "README.md").read_text()))):
        yield f"README.md: {'no row for' if status in helped else 'the help tells no'} status {status}"


def name_faults():
    """Yields the names of refusals, faults and types on pages of WORDS_OF_TEXTS that no crate declares.

    Only names of two or more capitalized words are checked.
    """
    words = known_words()
    for page in PAGES:
        text = re.sub(r"```.*?```", "", page.read_text(), flags=re.S)
        if page.name in WORDS_OF_TEXTS:
            names = re.findall(r"\b(?:[A-Z][a-z]*){2,}\b", " ".join(re.findall(r"`([^`\n]+)`", text)))
            yield from (f"{page.name}: nothing is named {name}" for name in names if re.search(r"[a-z]", name) and name not in words)


def told_faults():
    """Yields the faults of all functions above, each with the name of its page."""
    yield from (f"RULES.md: {fault}" for of in (rule_faults, sentence_faults, run_sentence_faults, named_sentence_faults) for fault in of())
    yield from (f"PROVED.md: {fault}" for fault in trust_faults())
    for of in (number_faults, met_faults, clause_faults, shown_faults, caller_faults, word_faults, name_faults):
        yield from of()
