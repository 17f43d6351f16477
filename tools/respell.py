#!/usr/bin/env python3
"""Brings the repository's own words in specs/ and proofs/ to the spelling of today's Rattle, once, after the kit's port.py.

usage: python3 tools/respell.py            at the top of the repository; prints what it renamed

Types are in upper camel case, everything else in snake case. A dash stays only where it joins two names: in a lemma about
two definitions (KEPT), and in what Rattle itself names (goals and steps, GOAL). Names that come from the library, from
src/ and from strings stay. Where a new name stood in the same crate before, that is said: two names must not fall together.
"""

import glob
import re
import sys

# lemmas whose name joins the names of two definitions
KEPT = {"split-join", "join-cycle", "join-index", "join-safe", "indices-set", "stages-set", "tickets-set", "words-set"}
# not just another spelling of the dash
SPECIAL = {
    "getD-same": "get_or-same",
    "eqZ": "int_equal",
    "eqZ-true": "int_equal-true",
    "Kept-with": "KeptWith",
    "Mid-add-stands": "MidAddStands",
    "Row-shows": "RowShows",
    "Some-model": "SomeModel",
}
# names that Rattle makes from the code
GOAL = re.compile(r"^(invariant-|returns-(?!still)|overflow|loop-(slot|station)|if-|in-([A-Z]|ok-)|new-requires|slot-in-)")
# words of plain English in comments
ENGLISH = {"begin-add", "begin-put", "begin-take"}
TOKEN = re.compile(r"[^\s(){}\[\].,;:→×«»\"|]+")
DECLARED = re.compile(
    r"(?P<indent>\s*)(?:abbrev |unfoldable )?(?:pub )?(?:record |data )?(?P<name>[^\s(){}:]+)(?: [^:=]*|(?: *[({][^)}]*[)}])*) *:(?!=)"
)


def specs_and_proofs(root="."):
    return sorted(
        glob.glob(root + "/crates/*/specs/*.antt") + glob.glob(root + "/crates/*/proofs/**/*.antt", recursive=True)
    )


def sources(root="."):
    return sorted(glob.glob(root + "/crates/*/src/*.rt"))


def code(line):
    return line.split("--")[0]


def own_names(files):
    """The names with a dash that the files themselves declare or bind, and those that the library has."""
    library, found = set(), set()
    for path in files:
        with open(path) as f:
            text = f.read()
        for m in re.finditer(r"use (?:Rattle\.std|lib\.|native\.|mathlib\.|Prim\.)[^{;\n]*\{([^}]*)\}", text):
            for item in m.group(1).split(","):
                library.update(item.strip().split(" as "))
        for line in text.splitlines():
            m = DECLARED.match(code(line))
            if m and m.group("name") not in ("use", "mod"):
                found.add(m.group("name"))
            # what a λ, a let, a pattern or an argument binds
            for bound in re.findall(r"(?:λ|let|\(|\{)\s*([^\s(){}.:=]+(?: [^\s(){}.:=]+)*)\s*(?:\.|:|=)", code(line)):
                found.update(TOKEN.findall(bound))
            # what the left side of an equation binds
            m = re.match(r"\s*([^=:]*) =(?: |$)", code(line))
            if m and not re.match(r"\s*(?:use|λ|let|in)\b", line):
                found.update(TOKEN.findall(m.group(1)))
    return {n for n in found if ("-" in n[1:-1] or n in SPECIAL) and n not in library and not GOAL.match(n)}


def spelled(name):
    if name in SPECIAL:
        return SPECIAL[name]
    return name if name in KEPT else name.replace("-", "_")


def turned(line, names):
    comment = re.search(r"--|//", line)
    here = comment.start() if comment else len(line)

    def word(m):
        is_prose = m.start() >= here and m.group(0) in ENGLISH
        return m.group(0) if is_prose else names.get(m.group(0), m.group(0))

    return TOKEN.sub(word, line)


def main():
    files = specs_and_proofs() + sources()
    names = {n: spelled(n) for n in own_names(specs_and_proofs())}
    names = {n: m for n, m in names.items() if n != m}
    before = {}
    for path in files:
        crate = path.split("/")[2]
        with open(path) as f:
            text = f.read()
        before.setdefault(crate, set()).update(TOKEN.findall("\n".join(code(l) for l in text.splitlines())))
        lines = [turned(l, names) for l in text.splitlines(keepends=True)]
        with open(path, "w") as f:
            f.write("".join(lines))
    for old in sorted(names):
        print(f"{old} -> {names[old]}")
    for crate in sorted(before):
        for old in sorted(names):
            if old in before[crate] and names[old] in before[crate]:
                print(f"look: in {crate} {names[old]} stood before, beside {old}", file=sys.stderr)
    taken = {}
    for old in sorted(names):
        if names[old] in taken:
            print(f"look: {old} and {taken[names[old]]} are both {names[old]} now", file=sys.stderr)
        taken[names[old]] = old


if __name__ == "__main__":
    main()
