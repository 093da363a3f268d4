#!/usr/bin/env python3
"""Lists what README and docs/ name and the repository does not have, and the places that are still to be filled in (two at signs).
It prints nothing where all is there, and ends with status 1 where something is missing. docs/history is left out.

    python3 tools/check-docs.py

It looks for
    each file and each name in backticks; not for names in docs/DIFFERENCES.md, many of which are the Rust's, nor for those of the
    examples in docs/EXTENDING.md, which the repository does not keep
    each line that docs/DIFFERENCES.md quotes, in the stored input of the program that its section names
    each public function of the library's crates, in docs/API.md
"""
import pathlib
import re
import sys

TOP = pathlib.Path(__file__).resolve().parent.parent
PAGES = [TOP / "README.md", *sorted((TOP / "docs").glob("*.md"))]
OPEN = "@" + "@"
PATH = re.compile(r"[\w./*-]+")
# a name, a path of names, or a call
NAME = re.compile(r"(\w+(::\w+)*)(\(.*\))?")
EXAMPLE = re.compile("tally|gf8|power_7", re.IGNORECASE)
LIBRARY = "fields lists checksum book slip correction script lines sheet examples".split()


def crate_files():
    return [f for f in TOP.glob("crates/*/**/*") if f.is_file() and "out" not in f.parts]


def is_file(word, names):
    """A path below the top or below a crate, or a file's bare name; or the folder of what is built."""
    bare = word.rstrip("/")
    patterns = (bare, f"docs/{bare}", f"tools/{bare}", f"crates/{bare}", f"crates/*/{bare}")
    return bare in names or bare.endswith("/out") or any(any(TOP.glob(pattern)) for pattern in patterns)


def missing_words(page, line, names, words):
    for quoted in re.findall(r"`([^`]+)`", line):
        if page.name == "EXTENDING.md" and EXAMPLE.search(quoted):
            continue
        if PATH.fullmatch(quoted) and re.search(r"/|\*|\.(rt|antt|md|py|sh|txt)$", quoted):
            yield from [] if is_file(quoted, names) else [quoted]
        elif page.name != "DIFFERENCES.md" and (name := NAME.fullmatch(quoted)):
            yield from (word for word in name[1].split("::") if word not in words)


def missing_lines(text):
    """Quoted lines, in the second column of a table below a heading that names a program."""
    stored = None
    for line in text.splitlines():
        if line.startswith("## "):
            named = re.search(r": `(\w+)`$", line)
            stored = named and (TOP / "crates" / named[1] / "stdin").read_text().splitlines()
        elif stored and line.startswith("|"):
            for quoted in re.findall(r"`([^`]+)`", line.split("|")[2]):
                if not any(kept.startswith(quoted + " =") for kept in stored):
                    yield f"no stored line: {quoted}"


def missing_functions(text):
    for crate in LIBRARY:
        for file in sorted((TOP / "crates" / crate / "src").rglob("*.rt")):
            for name in re.findall(r"(?m)^\s*pub (?:const )?fn (\w+)", file.read_text()):
                if not re.search(rf"\b{name}\b", text):
                    yield f"no word of {crate}::{name}"


def main():
    files = crate_files()
    names = {f.name for f in files} | {f.stem for f in files} | {f.name for f in TOP.glob("*")}
    text = "\n".join(f.read_text(errors="replace") for f in files) + (TOP / "crates.txt").read_text()
    words = set(re.findall(r"\w+", text)) | names
    found = []
    for page in PAGES:
        for number, line in enumerate(page.read_text().splitlines(), 1):
            where = f"{page.relative_to(TOP)}:{number}"
            found += [f"{where}: {line.strip()}"] if OPEN in line else []
            found += [f"{where}: {word}" for word in missing_words(page, line, names, words)]
    found += [f"docs/DIFFERENCES.md: {what}" for what in missing_lines((TOP / "docs/DIFFERENCES.md").read_text())]
    found += [f"docs/API.md: {what}" for what in missing_functions((TOP / "docs/API.md").read_text())]
    for line in found:
        print(line)
    sys.exit(bool(found))


main()
