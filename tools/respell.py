#!/usr/bin/env python3
"""Brings the names of definitions and lemmas to one spelling: words in snake case.

usage: tools/respell.py [--check]      at the top of the repository, once, after port.py

Every name that a file of specs/ or proofs/ declares, and every name in camel case that begins with a small
letter, is written in snake case. Types, facts and modules keep their capitals, and so does a name that joins
one to a word, as in `Root-unique`. A name that a library has keeps its spelling, and so do functions of src/,
the steps of a proof that are named after the code, strings, inputs and outputs. It prints what falls together.
"""
import os
import re
import sys

OWN = re.compile(r"^use Rattle\.(\w+)\.(specs|proofs)")
DELIM = re.compile(r"([\s(){}\[\],;.`\"«»]+)")
CAMEL = re.compile(r"^[a-z][a-z0-9]*(?:[A-Z][a-z0-9]*)+['₀₁₂]*$")
DASHED = re.compile(r"^[a-z][a-zA-Z0-9_]*(?:-[a-zA-Z0-9_]+)+['₀₁₂]*$")
# Lemmas whose name, written so, would be that of a definition.
LEMMAS = {
    "after-build": "after_build_lem",
    "axes-tested": "axes_tested_lem",
    "exact-cases": "exact_cases_lem",
    "first_step": "first_step_lem",
    "five-fields": "five_fields_lem",
    "four_bytes": "four_bytes_lem",
    "grid-of": "grid_of_lem",
    "kind-number": "kind_number_lem",
    "map_of": "map_of_lem",
    "measured-bytes": "measured_bytes_lem",
    "measured-fields": "measured_fields_lem",
    "measured-says": "measured_says_lem",
    "part-check": "part_check_lem",
    "part-entry": "part_entry_lem",
    "rows-said": "rows_said_lem",
    "sensor-count": "sensor_count_lem",
    "speed-check": "speed_check_lem",
    "speed-entries": "speed_entries_lem",
    "two_bytes": "two_bytes_lem",
}
MODIFIERS = r"(?:(?:abbrev|unfoldable|pub|private|open) )*"


def crates():
    with open("crates.txt", encoding="utf-8") as f:
        return [line.split(":")[0].split()[0] for line in f if line.strip() and not line.startswith("#")]


def files(ends):
    for crate in crates():
        for top in ("src", "specs", "proofs", "must-fail"):
            for folder, folders, names in os.walk(os.path.join("crates", crate, top)):
                folders.sort()
                for name in sorted(names):
                    if name.endswith(ends):
                        yield os.path.join(folder, name)


def read(path):
    with open(path, encoding="utf-8") as f:
        return f.read()


def snake(name):
    if "-" in name and any(part[:1].isupper() for part in name.split("-")):
        return "-".join(part if part[:1].isupper() else snake(part) for part in name.split("-"))
    name = re.sub(r"(?<=[a-z0-9])([A-Z])", lambda m: "_" + m[1].lower(), name)
    return name.replace("-", "_")


def library_names():
    """The names that the repository's files import from libraries."""
    found = set()
    own = set(crates())
    for path in files((".antt", ".rt")):
        for line in read(path).splitlines():
            m = re.match(r"^(?:ghost )?use ([\w.+'-]+)\.\{(.*)\}", line)
            if not m:
                continue
            library = re.match(r"Rattle\.(\w+)\.", m[1] + ".")
            if library and library[1] in own:
                continue
            found |= {it.strip().split(" as ")[0] for it in m[2].split(",")}
    return found


def declared():
    """The names that specs/ and proofs/ declare, with local ones; not the goals that Rattle names."""
    found = set()
    for path in files(".antt"):
        text = read(path)
        for m in re.finditer(rf"^[ \t]*{MODIFIERS}([^\s(){{}}\[\],;.:]+) :(?: |$)(.*)$", text, re.M):
            if not re.match(r"\s*(tie|goal)\.", m[2]):
                found.add(m[1])
        for m in re.finditer(r"[({]((?:[^\s(){}\[\],;.:]+ )+): ", text):
            found |= set(m[1].split())
        for m in re.finditer(r"\blet ([^\s(){}\[\],;.:]+) [:=]", text):
            found.add(m[1])
        for m in re.finditer(r"^[ \t]*([^\s(){}\[\],;.:]+) = ", text, re.M):
            found.add(m[1])
        for m in re.finditer(r"λ ((?:[^\s(){}\[\],;.:]+ ?)+)\.", text):
            found |= set(m[1].split())
    return found


def goals():
    """The names of goals in proofs that walk the code, and of their functions' proofs."""
    found = set()
    for path in files("Proof.antt"):
        text = read(path)
        found |= set(re.findall(r"^([^\s(){}\[\],;.:]+) :\s+tie\.", text, re.M))
        found |= set(re.findall(r"^(?:abbrev )?(?:pub )?([^\s(){}\[\],;.:]+-spec) :", text, re.M))
    return found


def source_names():
    found = set()
    for path in files(".rt"):
        found |= set(re.findall(r"\bfn (\w+)", read(path)))
    return found


def turned():
    library = library_names()
    mine = declared() - goals()
    words = set()
    for path in files((".antt", ".rt")):
        words |= set(DELIM.split(read(path)))
    new = {}
    for word in words | mine:
        if word in library:
            continue
        if CAMEL.match(word) or (DASHED.match(word) and word in mine):
            new[word] = snake(word)
    new = {old: name for old, name in new.items() if old != name}
    new |= {old: name for old, name in LEMMAS.items() if old in words}
    together = {}
    for old, name in new.items():
        together.setdefault(name, []).append(old)
    for name, olds in sorted(together.items()):
        if len(olds) > 1:
            print("together:", name, "from", ", ".join(sorted(olds)))
        if name in words:
            print("there already:", name, "from", ", ".join(sorted(olds)), "(a function of src/)" if name in source_names() else "")
        if name in library:
            print("in a library:", name, "from", ", ".join(sorted(olds)))
    return new


def respelled(text, new):
    return "".join(new.get(word, word) for word in DELIM.split(text))


def main():
    new = turned()
    if "--check" in sys.argv[1:]:
        for old, name in sorted(new.items()):
            print(old, name)
        return
    for path in files((".antt", ".rt", ".edit")):
        text = read(path)
        made = respelled(text, new)
        if made != text:
            with open(path, "w", encoding="utf-8") as f:
                f.write(made)
    pages = ["README.md"] + [os.path.join(folder, name) for folder, _, names in os.walk("docs") for name in names if name.endswith(".md") and name != "base.md"]
    for path in pages:
        text = read(path)
        made = re.sub(r"`[^`\n]+`", lambda m: respelled(m[0], new), text)
        if made != text:
            with open(path, "w", encoding="utf-8") as f:
                f.write(made)


main()
