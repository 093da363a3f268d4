#!/usr/bin/env python3
"""Lists what one reads, and has to believe, to understand the contracts of functions: the definitions of specs/ that their
clauses reach, file by file, lowest first, and how many lines these are, without blank lines, comments and imports.

usage: python3 tools/reading-list.py [FUNCTION..]   a function as CRATE::path::name or FILE:name; without one, those of MAIN
       python3 tools/reading-list.py --public       what all public contracts reach, and what private ones alone or none reach
       python3 tools/reading-list.py --names        names with two meanings, bare participles, and facts without `Is`

A contract is a function's clauses, the types and traits in its signature with their ghost fields and members, what the Models
of these types show, and the traits' laws. Types and traits of src/, and facts whose proofs stand in specs/, are counted apart;
of these proofs, of proofs/ and of std's definitions only the names are given.
"""

import re
import sys

from parts import FILES, Part, reach
from reader import load

# The functions whose contracts are the main promises, as CRATE:name.
MAIN = [["script:run"], ["sheet:finish_line"], ["sheet:finish_stream"]]
OUTSIDE = re.compile("replay|examples|bip173")
VERBS = """Adds Admits Agrees All Allows Answers Any Appends Becomes Calls Changes Contains Corrects Covers Decides Divides Does
Drops Each Embeds Ends Every Factors Finds Fits Follows Forms Generates Gives Goes Has Holds If Is Keeps Lacks Leads Leaves
Lessens Lifts Lists Locates Maps Matches May Means Mends Names Neutral On Only Passes Proposes Reads Remains Runs Same Says
Seals Seeks Shows Solves Starts Steps Tells Vanishes Works Writes Yields""".split()
PARTICIPLE = re.compile(r"(\w+(?<![ie])ed|told|heard|said|taken|written|made|kept|held|shown|grown|sent|found|left|given|put|begun"
                        r"|known|read|fitting|coming|closing|missing|changing|sure|unsure|clear|distinct|worked)(_all)?")


def defined(part):
    return part.kind in ("abbrev", "unfoldable", "record", "data")


def in_specs(part):
    return isinstance(part, Part) and "/specs/" in part.file.path


def size(parts):
    """How many, and their lines, with the lines of the same files that open modules and fix symbols."""
    heads = sum(file.heads for file in {part.file for part in parts})
    return "%d, %d lines" % (len(parts), heads + sum(len(part.lines) for part in parts))


def in_order(seen):
    """The reached files, each after those that its reached parts cite."""
    below, order = {}, []
    for part, uses in seen.items():
        if isinstance(part, Part):
            below.setdefault(part.file.path, set()).update(use.file.path for use in uses if isinstance(use, Part))

    def visit(path, way):
        if path not in order and path not in way:
            for other in sorted(below.get(path, ())):
                visit(other, way | {path})
            order.append(path)

    for path in sorted(below):
        visit(path, frozenset())
    return order


def functions(name):
    where, _, last = name.rpartition("::" if "::" in name else ":")
    crate, *modules = where.split("::")
    for part in (part for file in FILES.values() for part in file.parts):
        inside = where.endswith(part.file.path) or part.file.crate == crate
        if part.kind == "fn" and part.name == last and inside and all(m in part.file.path + part.head for m in modules):
            yield part


def reading_list(roots):
    if [] in roots:
        sys.exit("reading-list: function %d is not found; of a main one the name is to be put into MAIN" % (roots.index([]) + 1))
    roots = [part for found in roots for part in found]
    seen = reach(roots)
    parts = [part for part in seen if isinstance(part, Part) and part not in roots and "/proofs/" not in part.file.path]
    for path in in_order(seen):
        here = [part.name for part in FILES[path].parts if part in parts]
        if here:
            print("%-36s %s" % (path, ", ".join(here)))
    print("\ndefinitions in specs/:", size([part for part in parts if in_specs(part) and defined(part)]))
    print("types and traits in src/:", size([part for part in parts if "/src/" in part.file.path]))
    for title, names in (("facts with their proofs in specs/:", {part.name for part in parts if part.kind == "lemma"}),
                         ("from proofs/:", {part.name for part in seen if isinstance(part, Part) and "/proofs/" in part.file.path}),
                         ("from std:", {part.rpartition(".")[2] for part in seen if isinstance(part, str)})):
        if names:
            print(title, *sorted(names))


def by_file(title, parts):
    print("\n%s %s" % (title, size(parts)))
    for path in sorted({part.file.path for part in parts}):
        print("  %-34s %s" % (path, ", ".join(part.name for part in parts if part.file.path == path)))


def public_list():
    parts = [part for file in FILES.values() if not OUTSIDE.match(file.crate) for part in file.parts]
    specs = [part for part in parts if in_specs(part)]
    items = [part for part in parts if "/src/" in part.file.path and part.kind != "mod"]
    libraries = {file.crate for file in FILES.values() if file.path.endswith("src/lib.rt")}
    # An impl of a trait answers for its ghost members.
    public = reach([part for part in items if (part.public or " for " in part.head) and part.file.crate in libraries])
    private = reach(items, proofs=True)
    print("from all public contracts, definitions:", size([part for part in specs if part in public and defined(part)]))
    print("facts with their proofs, beside these:", size([part for part in specs if part in public and not defined(part)]))
    by_file("from private contracts and from proofs in specs/ alone:", [part for part in specs if part in private and part not in public])
    by_file("from no contract:", [part for part in specs if part not in private])


def is_fact(part):
    """Whether it says something: a record of fields that each do, or an abbreviation for a family of types."""
    says = re.compile(r"[≡≢≤<¬↔⊎→]|\b(?!List|Option|Result)[A-Z]\w+ [\w(]")
    head, *body = part.lines
    if part.kind == "record":
        return all(says.search(line) for line in body if " : " in line)
    return part.kind == "abbrev" and head.endswith("→ Type 0") or head.endswith(": Type 0") and re.search("[≡≤<¬→]", " ".join(body))


def names():
    of = {}
    for part in (part for file in FILES.values() for part in file.parts if in_specs(part)):
        of.setdefault(part.name, []).append(part)
    print("names with two meanings or more:")
    for name, parts in sorted(of.items()):
        if len(parts) > 1:
            print("  %-16s %s" % (name, ", ".join(part.file.path for part in parts)))
    every = [part for parts in of.values() for part in parts]
    by_file("bare participles and adjectives:", [part for part in every if part.name[0].islower() and PARTICIPLE.fullmatch(part.name)])
    by_file("facts that begin with neither `Is` nor a verb:",
            [part for part in every if part.name[0].isupper() and is_fact(part) and re.match(r"[A-Z][a-z]*", part.name).group() not in VERBS])


if __name__ == "__main__":
    load()
    if "--public" in sys.argv:
        public_list()
    elif "--names" in sys.argv:
        names()
    elif sys.argv[1:]:
        reading_list([list(functions(name)) for name in sys.argv[1:]])
    else:
        reading_list([[part for name in row for part in functions(name) if part.public] for row in MAIN])
