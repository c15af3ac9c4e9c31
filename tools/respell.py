#!/usr/bin/env python3
"""Gives the definitions and lemmas of this repository the spelling of the library's.

A fact or a type is in upper camel case (Listed-exactly becomes ListedExactly), every other name in snake case
(first-no becomes first_no). A dash beside an operator stays (joined-++). Goals and steps that the checker names,
and names that a file brings in from the library, are left alone. Run once, at the top of the repository.
"""
import pathlib
import re
import sys

LINE = re.compile(r"^\s*(?:(?:abbrev|pub|unfoldable|data|record)\s+)*([^\s:(){}.]+)((?:\s*\{[^}]*\}|\s*\([^)]*\))*)\s*:(?!=)\s*(.*)$")
CHAIN = re.compile(r"[^\s(){}\[\];,`]+")
USE = re.compile(r"^\s*(?:ghost )?use (\S+?)\.\{(.*)\}")


def respelled(name):
    if name[0].isupper() and "-" in name:
        return "".join(w[0].upper() + w[1:] for w in name.split("-"))
    name = re.sub(r"(?<=[\w'])-(?=\w)", "_", name)
    return re.sub(r"(?<=[a-z0-9])([A-Z])(?=[a-z])", lambda m: "_" + m.group(1).lower(), name) if name[0].islower() else name


def own_names(top):
    names, fields = {}, set()
    for path in sorted(top.glob("crates/*/specs/**/*.antt")) + sorted(top.glob("crates/*/proofs/**/*.antt")):
        block = None
        for line in path.read_text().splitlines():
            if re.match(r"(pub |abbrev )*record ", line):
                block = "record"
            elif line and not line[0].isspace():
                block = None
            found = LINE.match(line)
            if not found or re.match(r"(goal|given)\.", found.group(3)) or line.lstrip().startswith(("--", "|", "let ", "use ")):
                continue
            name = found.group(1)
            if name not in ("abbrev", "pub", "unfoldable") and respelled(name) != name:
                names[name] = respelled(name)
                if block == "record" and line[0].isspace():
                    fields.add(name)
    return names, fields


def imported(text):
    found = set()
    for line in text.splitlines():
        use = USE.match(line)
        if use and not OWN.match(use.group(1)):
            for item in use.group(2).split(","):
                found.add(item.split(" as ")[-1].strip())
                found.add(item.split(" as ")[0].strip())
    return found


def turned(chain, names, fields, away):
    parts = chain.split(".")
    full = parts[0] == "Rattle"
    for i, part in enumerate(parts):
        if part in names and (part in fields if i and not full else full or part not in away):
            parts[i] = names[part]
    return ".".join(parts)


top = pathlib.Path(sys.argv[1] if len(sys.argv) > 1 else ".")
crates = [p.name for p in (top / "crates").iterdir()]
OWN = re.compile(r"Rattle\.(" + "|".join(crates) + r")\.")
names, fields = own_names(top)
for path in sorted(top.glob("crates/**/*")):
    if path.suffix not in (".rt", ".antt", ".edit") or "out" in path.parts:
        continue
    text = path.read_text()
    if path.suffix == ".edit":
        file = next(l for l in text.splitlines() if l.startswith("file: "))[6:]
        away = imported((path.parent.parent / file).read_text())
    else:
        away = imported(text)
    lines = [
        line if USE.match(line) and not OWN.match(USE.match(line).group(1))
        else CHAIN.sub(lambda m: turned(m.group(0), names, fields, away), line)
        for line in text.split("\n")
    ]
    path.write_text("\n".join(lines))
for old, new in sorted(names.items()):
    print(old, new)
