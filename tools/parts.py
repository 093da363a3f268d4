"""What the repository's files are made of, for the scripts beside this one. It prints nothing, and is not run by itself.

    FILES           each file by its path below crates/, filled by reader.load()
    Part            a definition of an .antt file, or an item of an .rt file
    Part.uses()     what it cites: other parts, and the paths of what lies outside the repository
    reach(roots)    what some parts cite, step by step
"""

import os
import re

CRATES = os.path.join(os.path.dirname(os.path.realpath(__file__)), "..", "crates")
FILES = {}
TYPES = {}
BINDERS = re.compile(r"[({]([^(){}:]+) :|λ (?:\(?)([^.(:]+)[.:]|let (\S+)")


class Part:
    """A record, data, abbrev, unfoldable or lemma; or a fn, struct, enum, trait, type or impl."""

    def __init__(self, file, name, kind, public=True):
        self.file, self.name, self.kind, self.public, self.lines = file, name, kind, public, []
        self.around, self.head, self.clauses = "", "", []

    def uses(self):
        found = self.words_of_definition() if self.file.antt else self.words_of_item()
        return [part for part in dict.fromkeys(found) if part and part is not self]

    def words_of_item(self):
        traits = re.findall(r"\b[A-Z]\w*\.([A-Z]\w*)\.", " ".join(text for _, text in self.clauses))
        types = [self.file.type_named(word) for word in re.findall(r"\w+", self.head) + traits]
        return types + [part for at, text in self.clauses for part in at.cited(text)]

    def words_of_definition(self):
        # A record's fields, the parameters of the modules around, and an equation's arguments hide words of their names.
        hidden = re.findall(r"(?m)^ +(?:pub )?(\S+) :", "\n".join(self.lines)) if self.kind == "record" else []
        hidden += bound(self.around)
        found = self.file.cited(self.around)
        indent = re.match(" *", self.lines[0]).group()
        for text in re.split(r"\n(?=%s\S)" % indent, "\n".join(self.lines)):
            left = re.split(r" =\s", text)[0].split()
            words = [word.strip("({,})") for word in left[1:]] if left[:1] == [self.name] and left[1:2] != [":"] else []
            arguments = [word for word in words if getattr(self.file.find(word), "name", "") == word]
            found += self.file.cited(text, hidden + arguments)
        return found


class File:
    """A file, with what it defines and what its imports bring in."""

    def __init__(self, path):
        self.path, self.crate, self.antt = path, path.split("/")[0], path.endswith(".antt")
        with open(os.path.join(CRATES, path), encoding="utf-8") as f:
            text = f.read()
        text = re.sub(r"(?m)(^| )--( .*)?$" if self.antt else r"//.*", "", text)
        self.text = text if self.antt else re.sub(r'"(?:\\.|[^"\\])*"|\'(?:\\.|[^\'\\])\'', '""', text)
        self.parts, self.own, self.names, self.modules, self.types, self.again = [], {}, {}, {}, {}, []
        self.heads = 0  # lines that open modules, or fix how symbols bind
        for pub, path in re.findall(r"(?m)^ *(pub )?(?:ghost )?use (Rattle\.[^;\n]*|[a-z]\w*\.[A-Z][^;\n]*)", self.text):
            path, _, names = path.partition(".{")
            path, _, alias = path.partition(" as ")
            for name in names.rstrip("}").split(", ") if names else ():
                old, _, new = name.partition(" as ")
                self.names[(new or old).replace("◌", "")] = (path, old)
            self.modules[alias or path.rpartition(".")[2]] = path
            self.again += [path] if pub else []
        for path in [] if self.antt else re.findall(r"(?m)^ *(?:pub )?use (\w+::[^;]*);", self.text):
            for old, new in re.findall(r"(\w+)(?: as (\w+))?", path):
                self.types[new or old] = (path.split("::")[0], old)

    def type_named(self, name):
        """The declared type or trait that a name of Rust stands for here."""
        crate, old = self.types.get(name, (self.crate if name in self.own else "", name))
        return type_of(self.crate if crate in ("crate", "self", "super") else crate, old) if crate else None

    def find(self, name):
        """What a word of a clause or a definition stands for here."""
        if self.antt and name in self.own:
            return self.own[name]
        path, old = self.names.get(name, ("", ""))
        return path and (at_path(path, old) or path + "." + old)

    def cited(self, text, hidden=()):
        text = re.sub(r"([{;]\s*)\S+ =(?= )", r"\1", text)
        hidden, found = set(hidden) | set(bound(text)), []
        for word in re.findall(r"[^\s(){};,\[\]|]+", text):
            head, _, rest = word.partition(".")
            if head in self.modules and rest:
                found.append(at_path(self.modules[head], rest.split(".")[0]))
            elif head and head not in hidden:
                found.append(self.find(head))
        return found


def bound(text):
    """The names that binders, closures and lets introduce in a text."""
    return " ".join(" ".join(some) for some in BINDERS.findall(text)).split()


def type_of(crate, name):
    same = TYPES.get(name, []) if os.path.isdir(os.path.join(CRATES, crate)) else []
    return next((part for part in same if part.file.crate == crate), same[0] if same else None)


def at_path(path, name):
    """What an import's path has under a name: a definition or a declared type, or None where it is not of the repository."""
    parts = path.split(".")
    if parts[0] != "Rattle" or parts[3:4] == ["declared"]:
        kinds = [part for part in parts[4:] if part[0].isupper() and part not in ("TheVariants", "TheInside")]
        return type_of(parts[1], kinds[-1]) if kinds else None
    file, lib = (FILES.get("/".join(way) + ".antt") for way in (parts[1:], parts[1:3] + ["Lib"]))
    if file and name.replace("◌", "") in file.own:
        return file.own[name.replace("◌", "")]
    again = (file.again if file else []) + [way for way in (lib.again if lib else []) if way.endswith("." + parts[-1])]
    return next((found for way in again if (found := at_path(way, name))), None)


def reach(roots, proofs=False):
    """All that the roots cite, step by step: of a fact with its proof, what the proof cites only if asked."""
    seen, todo = {}, list(roots)
    while todo:
        part = todo.pop()
        if part not in seen:
            followed = isinstance(part, Part) and (proofs or part.kind != "lemma") and "/proofs/" not in part.file.path
            seen[part] = part.uses() if followed else []
            todo += seen[part]
    return seen
