#!/usr/bin/env python3
"""Finds the public functions and constants of the library crates that no other crate uses.

    python3 tools/doors.py [CRATE ..]

A *door* is a function, a method or a constant that code outside its crate can use. The script checks all library
crates, or only the crates that the command line names. For each door, one of these conditions must be true:

- Another crate uses the door in its code. Crates of tests don't count. For a constant, a contract or a proof of the
  other crate counts, too.
- The door is in OFFERED, the list of what the library offers to programs outside this repository.
- The door is a law, that is, a function with an empty body. Only the contract of a law matters, and nobody calls a
  law.

If no condition is true, make the item `pub(crate)`, or remove it if its own crate doesn't use it either. Types aren't
checked.

The script recognizes a use only by the name of the function. If two methods have the same name, a use of one method
also counts as a use of the other. So each door that the script reports is unused, but the script doesn't find every
unused door.

The script needs only Python 3. It prints each unused door, and each name of OFFERED that isn't a door of its crate.
The status is 1 if it has printed anything.
"""
import re
import sys

sys.dont_write_bytecode = True
from sources import PROGRAMS, TOP  # noqa: E402

# For each crate, the functions and constants that the library offers to programs outside this repository, even if no
# other crate of this repository uses them. docs/dev/SIGNATURES.md lists them, and docs/dev/CALLING.md shows
# how to use the library. Some of them are functions with which a caller checks whether the condition of a contract is
# met. Others are named in contracts of other crates.
OFFERED = {
    "crush_units": {"LONGEST_SHORT_NAME", "Weight::exact_text", "is_name_byte"},
    "crush_edits": {"Edit::place", "Keyword::form"},
    "crush_nodes": {"Node::has_room"},
    "crush_index": {"Hashing::keyed"},
    "crush_builder": {"MapBuilder::is_idle", "MapBuilder::is_begun", "MapBuilder::is_numbered", "MapBuilder::is_filling"},
    "crush_tree": {
        "Forest::can_attach", "Forest::attach", "Forest::grow_buffer", "Forest::replace_buffer", "Forest::set_weight", "Forest::set_subtree", "Forest::fits_weight", "Forest::fits_subtree",
        "Forest::weight_by", "Forest::set_weight_by", "Forest::set_subtree_by", "Forest::fits_weight_by", "Forest::fits_subtree_by",
    },
    "crush_map": {
        "CrushMap::culprit", "CrushMap::class_of", "CrushMap::contains", "CrushMap::kind_of", "CrushMap::weight_of_class",
    },
    "crush_history": {"Edits::try_copy", "Entry::try_copy", "Script::try_copy", "Slip::try_copy", "write_entry"},
    "crush_items": {"ById::find", "Item::class_ids", "Item::seen", "Item::view", "Items::by_id", "Items::class_ids", "Items::of", "Items::run", "Items::seen"},
    "crush_compare": {"Comparison::after", "Comparison::before", "Comparison::by_ids", "Comparison::by_names", "Comparison::by_names_part", "Comparison::difference"},
    "crush_print": {"buckets", "devices", "TreePart::whole", "WalkStep::view", "walk", "walk_below", "walk_part", "class_weights", "write_tree"},
    "crush_since": {
        "count_changes", "is_changed", "is_changed_by_name", "is_part_changed", "same_kinds", "same_rules", "same_tunables", "since_part_text", "stays",
        "write_changes_of_class", "write_since_by_name", "write_since_by_name_part",
    },
    "crush_conflicts": {"lost_changes", "map_alone"},
    "crush_json": {"write_map_document", "write_plan_document", "write_since_document", "write_tree_document"},
    "crush_reasons": {"explained_text"},
    "crush_plan": {"Plan::try_copy", "find_plan", "plan_text"},
    "crush_run": {"run_at_once"},
    "crush_editor": {
        "Book::opening", "LockFreeReader::learn", "LockFreeReader::note", "Editor::lock_free_reader", "Editor::learn", "Editor::note", "Seat::slips",
    },
}
# The head of a public function or constant.
ITEM = re.compile(r"^(?P<in> *)pub (?:const |unsafe )?(?P<kind>fn|const) (?P<name>\w+)", re.M)
# The head of an `impl`, or the brace that ends it. A method belongs to the type of the last `impl` before it.
OWNER = re.compile(r"^(?:impl\b[^{;]*\{|\})", re.M)


def libraries():
    """Yields each library crate with the crates that may use its items.

    These crates depend on the library crate, or on a crate that re-exports its items. Crates of tests are left out.
    """
    lines = (TOP / "crates.txt").read_text().splitlines()
    on = {line.split(":")[0]: set(line.split(":")[1].split()) for line in lines if line and not line.startswith("#")}
    for crate in on:
        if not crate.endswith("_tests") and crate not in PROGRAMS:
            shown = {crate} | {other for other in on if hands_on(other, crate)}
            yield crate, [other for other in on if shown & on[other] and not other.endswith("_tests")]


def hands_on(crate, below):
    """Whether a crate re-exports items of the crate `below`."""
    head = TOP / "crates" / crate / "src/lib.rt"
    return head.exists() and re.search(rf"(?m)^pub use {below}::", head.read_text()) is not None


def code_of(crate):
    """Returns the code of a crate, without comments, contracts and `ghost` lines, which only the prover reads."""
    lines = []
    for path in sorted((TOP / "crates" / crate / "src").rglob("*.rt")):
        is_clause = False
        for line in path.read_text().splitlines():
            word = line.strip()
            if word.startswith(("//", "ghost ")):
                continue
            if word.startswith(("ensures", "requires")):
                is_clause = True
            elif is_clause and (word.startswith("{") and word == "{" or word.endswith(";") and not word.endswith("};")):
                is_clause = False
            if not is_clause:
                lines.append(line)
    return "\n".join(lines)


def is_used(name, code, everything):
    """Whether `code` uses a function or a method, or `everything` (also contracts and proofs) names a constant."""
    owner, _, last = name.rpartition("::")
    if last.isupper():
        return re.search(rf"\b{last}\b", everything) is not None
    return re.search(rf"(?:\.|::){last}\b" if owner else rf"\b{last}\b", code) is not None


def body_of(text, start):
    """Returns the first characters of the body of the function whose head begins before `start`."""
    opening = re.compile(r"^ *\{\n?|\{$", re.M).search(text, start)
    return text[opening.end() : opening.end() + 40] if opening else ""


def doors(crate):
    """Yields each function, method and constant that code outside a crate can use, and whether it is a law.

    The name of a method has the name of its type in front, as in `Weight::read`.
    """
    folder = TOP / "crates" / crate / "src"
    head = (folder / "lib.rt").read_text() if (folder / "lib.rt").exists() else ""
    shown = set(re.findall(r"\w+", " ".join(re.findall(r"(?ms)^pub use (.*?);", head))))
    public = set(re.findall(r"(?m)^pub mod (\w+);", head))
    for path in sorted(folder.rglob("*.rt")):
        text, module = path.read_text(), path.relative_to(folder).parts[0].removesuffix(".rt")
        owners = [(found.start(), found[0]) for found in OWNER.finditer(text)]
        for found in ITEM.finditer(text):
            name, owner = found["name"], ""
            if found["in"]:
                if found["kind"] != "fn" or len(found["in"]) != 4:
                    continue
                heads = [it for at, it in owners if at < found.start()]
                flat = re.sub(r"<[^<>]*>", "", re.sub(r"<[^<>]*>", "", re.sub(r"<[^<>]*>", "", heads[-1]))) if heads else ""
                owner = (re.findall(r"(\w+)\s*(?:\bwhere\b.*)?\{", flat, re.S) or [""])[0]
            if module not in public and (owner or name) not in shown and module != "lib":
                continue
            is_law = found["kind"] == "fn" and re.match(r"\s*\}", body_of(text, found.end())) is not None
            yield f"{owner}::{name}" if owner else name, is_law


def main():
    wanted, faults = set(sys.argv[1:]), []
    folders = {path.name: path for path in (TOP / "crates").iterdir() if path.is_dir()}
    codes = {crate: code_of(crate) for crate in folders}
    texts = {
        crate: "\n".join(path.read_text() for path in sorted(folder.rglob("*")) if path.suffix in {".rt", ".antt"})
        for crate, folder in folders.items()
    }
    for crate, above in libraries():
        if wanted and crate not in wanted:
            continue
        there, offered = list(doors(crate)), OFFERED.get(crate, set())
        code, everything = ("\n".join(of[other] for other in above) for of in (codes, texts))
        faults += [
            f"{crate}: nobody outside uses {name}"
            for name, is_law in there
            if not is_law and name not in offered and not is_used(name, code, everything)
        ]
        faults += [f"{crate}: offers {name}, which isn't there" for name in sorted(offered - {name for name, _ in there})]
    for fault in faults:
        print(fault)
    sys.exit(1 if faults else 0)


if __name__ == "__main__":
    main()
