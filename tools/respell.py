#!/usr/bin/env python3
"""Spells the repository's own definitions, fields and lemmas in snake case.

usage: python3 tools/respell.py        at the top of the repository, once, after the port's own script

A name that specs/ or proofs/ declare, such as bigEndian or used-is, becomes big_endian or used_is
wherever it stands: in specs/, proofs/, the clauses of src/ and the must-fail edits, and between backticks
in the documents. A fact or a type keeps its capital, and a name with an operator in it its operator.
Names of the kit, of functions of src/, and names that Rattle makes for goals stay. Where the new name
is taken already, the old one stays, and a line 'left:' says so.
"""

import glob
import re
import sys

NAME = r"[^\s(){}\[\];,.@\"`«»⟨⟩]+"
DECLARED = re.compile(
    r"^\s*(?:(?:pub|abbrev|unfoldable|opaque|ghost|instance|postulate) )*(" + NAME + r")(?: +(?:\{[^{}\n]*\}|\([^()\n]*\)))* +:(?: |$)"
)
USE = re.compile(r"^\s*(?:pub )?(?:ghost )?(?:open )?use ([^\s;{]+)\.?\{([^}]*)\}", re.M)
CAMEL = re.compile(r"^[a-z][a-z0-9_]*[A-Z][A-Za-z0-9_]*(?:-[A-Za-z0-9_']+)*'*$")
DASHED = re.compile(r"^[a-z][A-Za-z0-9_']*(?:-[a-z0-9_'?≤<≡]+)+$")

# Names that would fall together with a parameter or a name of the kit.
CHOSEN = {"slotOf": "map_slot_of", "slice-val": "lent_val"}


def snake(name):
    words = re.sub(r"(?<=[a-z0-9])[A-Z]", lambda m: "_" + m[0].lower(), name)
    return words.replace("-", "_")


def read(path):
    with open(path, encoding="utf-8") as f:
        return f.read()


def code(line):
    return re.split(r"(?:^|\s)--(?:\s|$)", line)[0]


def files(*patterns):
    return sorted(p for pattern in patterns for p in glob.glob(pattern, recursive=True) if "/out/" not in p)


def main():
    own = files("crates/*/specs/*.antt", "crates/*/proofs/*.antt")
    logic = files("crates/*/specs/**/*.antt", "crates/*/proofs/**/*.antt")
    code_files = files("crates/*/src/*.rt")
    edits = files("crates/*/must-fail/*.edit")
    pages = files("*.md", "docs/**/*.md")

    declared, foreign, tokens = set(), set(), set()
    stands = {}
    for path in own:
        for line in read(path).split("\n"):
            m = DECLARED.match(code(line))
            if m:
                declared.add(m[1])
    for path in logic:
        text = "\n".join(code(line) for line in read(path).split("\n"))
        tokens.update(re.findall(NAME, text))
        bare = re.sub(r"(?m)^(\s*(?:pub )?(?:ghost )?(?:open )?use )[^\s;{]+", r"\1", text)
        stands[path] = set(re.findall(r"(?<![.])" + NAME, bare))
        for m in USE.finditer(text):
            if m[1].split(".")[1:2] and m[1].startswith("Rattle.") and glob.glob("crates/" + m[1].split(".")[1]):
                continue
            foreign.update(n.strip().split(" as ")[0] for n in m[2].split(","))

    # A name falls together with another one where a file knows both. A lemma then gets `_lem`.
    table = dict(CHOSEN)

    def taken(name, new):
        return new in table.values() or any(name in names and new in names for names in stands.values())

    for form in (CAMEL, DASHED):
        for name in sorted(declared - foreign):
            if name in table or not form.match(name):
                continue
            new = snake(name)
            if taken(name, new) and form is DASHED and not taken(name, new + "_lem"):
                new += "_lem"
            if taken(name, new):
                print(f"left: {name}: {new} is taken")
                continue
            table[name] = new

    def turned(text):
        return re.sub(NAME, lambda m: table.get(m[0], m[0]), text)

    # A name in an edit may still have the spelling that the port's script has turned in the sources.
    def turned_edit(text):
        def one(m):
            name = m[0]
            if name in table:
                return table[name]
            return snake(name) if CAMEL.match(name) and snake(name) in tokens | set(table.values()) else name

        return re.sub(NAME, one, text)

    for path in logic + code_files:
        old = read(path)
        new = turned(old)
        if new != old:
            with open(path, "w", encoding="utf-8") as f:
                f.write(new)
    for path in edits:
        old = read(path)
        new = "\n".join(turned_edit(line) if line.startswith(("old:", "new:")) else line for line in old.split("\n"))
        if new != old:
            with open(path, "w", encoding="utf-8") as f:
                f.write(new)
    for path in pages:
        old = read(path)
        new = re.sub(r"`[^`\n]+`", lambda m: turned_edit(m[0]), old)
        if new != old:
            with open(path, "w", encoding="utf-8") as f:
                f.write(new)
    print(f"{len(table)} names")
    for old, new in table.items():
        print(f"{old} {new}", file=sys.stderr)


if __name__ == "__main__":
    main()
