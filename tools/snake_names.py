#!/usr/bin/env python3
"""Spells the repository's own names as today's Rattle does.

usage: python3 tools/snake_names.py      at the top of the repository, once, after port.py

Words (definitions, lemmas, fields, constructors, variables) become snake case, types camel case.
Names of the library and names that Rattle makes (goals, steps of a proof) keep their spelling, and so do
functions, strings and comments of src/. Prints what was renamed, and stops where two names would fall together.
"""

import glob
import re
import sys

# a name, or a run of other characters that are no name
NAME = re.compile(r"[^\s(){}\[\],.;:⟦⟧<>«»\"`→λ×≡]+")
DASHED = re.compile(r"[\w'₀-₉Ω]-[\w']")
USE = re.compile(r"^\s*(?:pub )?(?:ghost )?use (Rattle\.[^\s{}]+)(?:\.\{([^}]*)\}| as (\S+?))?;?\s*$")
# Names that meet one of src/ after the renaming, each looked at: a function, module or clause label, never in scope beside it ..
MEET = {"at-est", "at-ect", "at-lct", "available-few", "greatest-bound", "left-few", "required-few", "time-table", "turned-twice"}
# .. but for these, which their file names otherwise
ALIASES = {"crates/rules/src/overload.rt": {"some-overfull": "overfull_at_some"}}
OWN_CRATES = sorted(p.split("/")[1] for p in glob.glob("crates/*/src"))


def is_goal_file(path):
    """Whether the file stands in a folder of proofs/ that belongs to one function."""
    return path.split("/")[2] == "proofs" and len(path.split("/")) > 4


def made_by_rattle(module):
    return module.split(".")[-1] in ("Goals", "Given") or ".Goals." in module


def uses(path):
    """For each imported name: the name, its alias or None, and whether it is the repository's own."""
    for line in open(path, encoding="utf-8"):
        m = USE.match(line)
        if not m:
            continue
        own = m[1].split(".")[1] in OWN_CRATES and not made_by_rattle(m[1])
        for it in (m[2] or "").split(","):
            words = it.split()
            if words:
                yield words[0], words[2] if len(words) == 3 else None, own


def spelled(name):
    if name[0].isupper():
        return "".join(w[0].upper() + w[1:] for w in name.split("-"))
    return name.replace("-", "_")


def code(path):
    for line in open(path, encoding="utf-8"):
        yield line.split("--")[0] if re.match(r"\s*--", line) else line


def own_names(paths):
    """The repository's names with a dash: those that stand in specs/ and in lemma files, and aliases of clauses."""
    foreign, own = set(), set()
    for path in paths:
        for name, alias, is_own in uses(path):
            if not is_own:
                foreign.add(alias or name)
            elif alias and DASHED.search(alias):
                own.add(alias)
        if path.endswith(".antt") and not is_goal_file(path):
            for line in code(path):
                if not USE.match(line):
                    own |= {t for t in NAME.findall(line) if DASHED.search(t)}
    return own - foreign, foreign


def with_alias(text, name, alias):
    """The text of a source file, where the imported name goes by its alias."""
    head = re.sub(r"(?m)^(ghost use .*[{ ])" + name + r"([,}])", rf"\1{spelled(name)} as {alias}\2", text)
    return NAME.sub(lambda m: alias if m[0] == name else m[0], head)


def renamed(text, names):
    return NAME.sub(lambda m: names.get(m[0], m[0]), text)


def respell(path, names):
    with open(path, encoding="utf-8") as f:
        old = f.read()
    text = old
    for name, alias in ALIASES.get(path, {}).items():
        text = with_alias(text, name, alias)
    if path.endswith(".antt"):
        new = "".join(respelled_proof_line(path, line, names) for line in text.splitlines(keepends=True))
    else:
        new = "".join(line if line.lstrip().startswith("//") else respelled_source_line(line, names) for line in text.splitlines(keepends=True))
    if new != old:
        with open(path, "w", encoding="utf-8") as f:
            f.write(new)


def respelled_proof_line(path, line, names):
    m = USE.match(line)
    if (m and made_by_rattle(m[1])) or re.match(r"\s*--", line):
        return line
    # of a goal's name, as goal.then-x, nothing is the repository's
    kept = re.split(r"(goal\.[^\s(){},;]+)", line)
    return "".join(part if part.startswith("goal.") else renamed(part, names) for part in kept)


def respelled_source_line(line, names):
    parts = re.split(r'("(?:[^"\\]|\\.)*")', line)
    return "".join(part if part.startswith('"') else renamed(part, names) for part in parts)


def main():
    paths = sorted(glob.glob("crates/*/src/**/*.rt", recursive=True) + glob.glob("crates/*/specs/*.antt") + glob.glob("crates/*/proofs/**/*.antt", recursive=True))
    own, foreign = own_names(paths)
    names = {n: spelled(n) for n in own}
    before = {t for p in paths for line in code(p) for t in NAME.findall(line)}
    looked_at = MEET.union(*ALIASES.values())
    bad = [f"{a} -> {b}" for a, b in sorted(names.items()) if (b in before and a not in looked_at) or b in foreign or list(names.values()).count(b) > 1]
    if bad:
        sys.exit("these would fall together with another name: " + ", ".join(bad))
    for p in paths:
        respell(p, names)
    for a, b in sorted(names.items()):
        print(a, b)


if __name__ == "__main__":
    main()
