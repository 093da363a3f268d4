"""Reads the repository's files into their parts, for the scripts beside this one. It prints nothing, and is not run by itself.

    load()      fills parts.FILES
"""

import glob
import os
import re

from parts import CRATES, FILES, TYPES, File, Part, type_of

DEFINITION = re.compile(r"(?:(unfoldable|abbrev) )?(?:pub )?(?:(record|data) (\S+)|(\S+) :(?= |$))")
ITEM = re.compile(r"(?:(pub(?:\(\w+\))?) )?(?:(?:const|unsafe) )*(fn|impl|struct|enum|trait|mod|type)\b(?: (\w+))?")
CLAUSE = re.compile(r"(?:requires|ensures)\*?(?: \w+)?\s*$")
GHOST = re.compile(r"ghost (\w+)\s*[:=]\s*\{")


def read_definitions(file):
    around, current = [], None
    for line in filter(str.strip, file.text.split("\n")):
        indent, words = len(line) - len(line.lstrip()), line.split()
        while around and indent < around[-1][0]:
            around.pop()
            current = None
        if indent == (around[-1][0] if around else 0):
            head = DEFINITION.match(line.strip())
            if words[0] in ("module", "open", "use", "infix", "infixl", "infixr") or words[:2] in (["pub", "mod"], ["pub", "use"]):
                current = None
                around += [(indent + 2, line)] if words[0] == "module" else []
                file.heads += words[0] not in ("use", "pub")
            elif head:
                current = Part(file, head[3] or head[4], head[2] or head[1] or "lemma")
                current.around = " ".join(text for _, text in around)
                file.parts.append(current)
                file.own[current.name.replace("◌", "")] = current
        if current:
            current.lines.append(line)
            if current.kind == "data" and re.match(r"\S+ :", line.strip()):
                file.own.setdefault(words[0], current)


def close(file, at):
    """Where the bracket that opens there is closed."""
    depth = 0
    for at in range(at, len(file.text)):
        depth += (file.text[at] in "([{") - (file.text[at] in ")]}")
        if not depth:
            return at
    raise ValueError(file.path + ": a bracket is not closed")


def read_items(file, at, end, around="", trait=False):
    """The items from one place to another. Those of an impl or a trait have its head around them."""
    while match := ITEM.search(file.text, at, end):
        part = Part(file, match[3] or "", match[2], match[1] == "pub" or trait)
        at = match.end()
        while file.text[at] not in ";{" or CLAUSE.search(file.text[match.end():at]):
            if file.text[at] in "([{":
                if file.text[at] == "{":
                    part.clauses.append((file, file.text[at + 1:close(file, at)]))
                at = close(file, at)
            at += 1
        part.inner, part.head, body = around != "", around + " " + file.text[match.start():at], at
        at = close(file, at) + 1 if file.text[at] == "{" else at + 1
        keep(part, file.text[match.start():at], body + 1, at)


def keep(part, text, body, end):
    file, inside = part.file, part.file.text[body:end]
    if part.kind in ("impl", "trait"):
        read_items(file, body, end - 1, part.head, part.public and part.kind == "trait")
    ghosts = [inside[m.start():close(file, body + m.end() - 1) + 1 - body] for m in GHOST.finditer(inside)]
    laws = re.findall(r"fn \w+\(\)\s*ensures[^;]*;", inside) if part.kind == "trait" else []
    if part.kind != "fn":
        part.clauses += [(file, clause) for clause in ghosts + laws]
    if part.kind in ("struct", "enum", "type"):
        part.head += inside
    if part.kind == "trait":
        types = re.findall(r"type \w+[^;]*;", inside)
        text, part.head = "\n".join([text.split("\n")[0]] + types + ghosts + laws), part.head + " ".join(types)
    if part.kind in ("struct", "enum", "trait") or part.kind == "type" and not part.inner:
        file.own.setdefault(part.name, part)
        TYPES.setdefault(part.name, []).append(part)
    part.lines = [line for line in text.split("\n") if line.strip() and not line.strip().startswith("#")]
    file.parts.append(part)


def load():
    for folder in ("src/**/*.rt", "specs/**/*.antt", "proofs/**/*.antt"):
        for path in sorted(glob.glob(os.path.join(CRATES, "*", folder), recursive=True)):
            file = FILES[os.path.relpath(path, CRATES)] = File(os.path.relpath(path, CRATES))
            read_definitions(file) if file.antt else read_items(file, 0, len(file.text))
    for part in [part for file in FILES.values() for part in file.parts if part.kind == "impl"]:
        model = re.search(r"Model for (\w+)", part.head)
        if model and (shown := type_of(part.file.crate, model[1])):
            # That a view has an inverse serves copies, and says nothing more of what is shown.
            shown.clauses += [clause for clause in part.clauses if not clause[1].startswith("ghost inverse")]
