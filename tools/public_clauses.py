#!/usr/bin/env python3
"""Lists what the library crates promise in public: each public function or impl, and the names of its clauses.

usage: python3 tools/public_clauses.py [--missing]

With --missing it lists only those that docs/PROMISES.md does not name: a clause counts as named where its name and its
function's (of an impl its type's) stand between backquotes in one line. It ends with status 1 where there are some.
"""

import pathlib
import re
import sys

ROOT = pathlib.Path(__file__).resolve().parent.parent
PROGRAMS = {"steam", "console", "bench", "trial"}
# The members of an impl that say what its methods do, and the facts that each value of a type keeps.
GHOSTS = {"from_gives", "is_default", "output", "meaning", "sound", "keyed", "lawful"}


def code(source):
    """The lines of a source file without its tests and comments."""
    lines = source.read_text().split("\n")
    if "#[cfg(test)]" in lines:
        lines = lines[: lines.index("#[cfg(test)]")]
    return [line for line in lines if not line.strip().startswith("//")]


def owner_of(line):
    """Of an impl or a trait: the trait, if any, and the type."""
    head = re.sub(r"<.*?>(?=[ {]|$)", "", re.sub(r"^(pub )?(impl|trait)(<[^{]*?>(?= ))?", "", line).rstrip("{ "))
    head = re.sub(r"<[^<>]*>", "", head).strip()
    trait, _, owner = head.rpartition(" for ")
    return trait.split("::")[-1].strip(), re.sub(r"^&'\w+ ", "&", owner.strip()).split(":")[0]


def clauses(crate):
    lines = [line for source in sorted((crate / "src").rglob("*.rt")) for line in code(source)]
    types = {found.group(1) for line in lines if (found := re.match(r"pub (?:struct|enum|trait) (\w+)", line))}
    trait = owner = function = None
    for line in lines:
        if re.match(r"(pub )?(impl|trait)\b", line):
            trait, owner = owner_of(line)
            known = owner.lstrip("&") in types or owner in ("u8", "&X") or line.startswith("pub trait")
            trait = trait or (owner if line.startswith("pub trait") else "")
        elif line.startswith("pub struct"):
            trait, owner, known = "struct", re.match(r"pub struct (\w+)", line).group(1), True
        elif line.startswith("}"):
            trait = owner = function = None
        method = re.match(r"( *)(pub )?(?:const )?fn (\w+)", line)
        if method:
            inside = bool(method.group(1))
            public = known and (method.group(2) or trait) if inside else method.group(2)
            function = (owner + "::" if inside else "") + method.group(3) if public else None
        ensured = re.match(r" *ensures\*? (\w+) \{", line)
        if ensured and function:
            yield function, ensured.group(1)
        ghost = re.match(r"    (?:pub )?ghost (\w+)(?: =|:)", line)
        if ghost and owner and known and trait and ghost.group(1) in GHOSTS:
            yield f"{owner} as {trait}" if trait not in ("struct", owner) else owner, ghost.group(1)


def main():
    promises = (ROOT / "docs" / "PROMISES.md").read_text().split("\n")
    missing = 0
    for crate in sorted((ROOT / "crates").iterdir()):
        if crate.name in PROGRAMS or not (crate / "src").is_dir():
            continue
        for function, clause in clauses(crate):
            name = function.split("::")[-1].split(" as ")[0].lstrip("&")
            named = any(re.search(rf"`[^`]*\b{name}\b[^`]*`", line) and f"`{clause}`" in line for line in promises)
            if "--missing" not in sys.argv or not named:
                print(f"{crate.name}: {function}: {clause}")
                missing += not named
    sys.exit("--missing" in sys.argv and missing > 0)


main()
