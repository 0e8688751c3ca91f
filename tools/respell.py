#!/usr/bin/env python3
"""Respells the repository's own definitions and lemmas: types in upper camel case, every other name in snake case.

usage: python3 tools/respell.py [--dry]     at the top of the repository, once, after the kit's port.py

A name is respelled where it is declared in a file of specs/ or proofs/ and has a dash: First-fit becomes FirstFit, name-refusal becomes
name_refusal. So are a fact that was spelled as a word, and constructors that were spelled as types. Names that the toolchain makes for goals (signatures `: goal.NAME`) keep their dashes, and so do names of the library. Comments are
left, and so is all code but clauses and ghost lines. It says what could fall together: a new name that another declaration, a source file or an
import from the library already has.
"""
import os
import re
import sys

IDENT = r"[^\s(){}\[\];,.:]+"
# where the plain respelling is a name of the code already
INSTEAD = {"Not-written": "IsNotWritten", "shared-none": "SharedNone"}
# a fact that was spelled as a word, and constructors that were spelled as types, by the module that declares them: others have such names too
OTHER_KIND = {
    "layout.specs.Shared": {"shared_none": "SharedNone"},
    "file_reader.specs.Grammar": {"Rows": "table_part", "Called": "calls_part", "Note": "note_part"},
    "file_reader.specs.Meaning": {"Accepted": "acceptance", "Refused": "refusal"},
}
KEYWORDS = {"where", "module", "use", "open", "unfolding", "let", "in", "mod", "ruleset", "infix", "infixl", "infixr", "elim"}


def files(kinds):
    for folder, dirs, names in os.walk("crates"):
        dirs[:] = sorted(d for d in dirs if d != "out")
        for n in sorted(names):
            if n.endswith(kinds):
                yield os.path.join(folder, n)


def declared():
    """Each name that specs/ or proofs/ declare: its kinds."""
    found = {}
    for path in files((".antt",)):
        if os.path.basename(path) == "Lib.antt":
            continue
        goals = os.path.basename(path) in ("Answers.antt", "Invariants.antt", "Proof.antt")
        for line in open(path, encoding="utf-8"):
            if line.startswith(("--", "use ", "pub use ")):
                continue
            m = re.match(r"^(\s*)((?:pub |abbrev |unfoldable )*)(record |data )?(" + IDENT + r")(\s*)(.*)$", line.rstrip("\n"))
            if not m or m.group(4) in KEYWORDS:
                continue
            name, rest = m.group(4), m.group(6)
            if m.group(3):
                found.setdefault(name, set()).add("type")
            elif rest.startswith(":"):
                kind = rest[1:].strip()
                if goals and kind == "goal." + name:
                    found.setdefault(name, set()).add("goal")
                    continue
                found.setdefault(name, set()).add("type" if kind.endswith("Type 0") and name[0].isupper() else "term")
    return found


def respelled(name, kinds):
    if name in INSTEAD:
        return INSTEAD[name]
    if "type" in kinds:
        return "".join(w[:1].upper() + w[1:] for w in name.split("-"))
    return name.replace("-", "_")


def imports():
    """Each name that a file takes from the library."""
    taken = set()
    for path in files((".antt", ".rt")):
        for m in re.finditer(r"use Rattle\.(?:std|core)[\w.]*\.\{([^}]*)\}", open(path, encoding="utf-8").read()):
            taken |= {n.split(" as ")[-1].strip() for n in m.group(1).split(",")}
    return taken


def other_kinds(path, text):
    """What OTHER_KIND says of the names that this file declares, or takes from where they are declared."""
    own = re.sub(r"^crates/(.*)\.antt$", r"\1", path).replace("/", ".")
    new = {}
    for module, names in OTHER_KIND.items():
        taken = set(names) if module == own else set()
        for m in re.finditer(r"use Rattle\." + re.escape(module) + r"\.\{([^}]*)\}", text):
            taken |= {n.strip() for n in m.group(1).split(",")} & set(names)
        new |= {n: names[n] for n in taken}
    return new


def turn_kinds(text, new, comment):
    if not new:
        return text
    word = re.compile(r"(?<![\w.'-])(" + "|".join(map(re.escape, new)) + r")(?![\w'-])")
    out = []
    for line in text.split("\n"):
        at = line.find(comment)
        code, rest = (line, "") if at < 0 else (line[:at], line[at:])
        out.append(word.sub(lambda m: new[m.group(1)], code) + rest)
    return "\n".join(out)


def turn(text, new, comment):
    out = []
    for line in text.split("\n"):
        at = line.find(comment)
        code, rest = (line, "") if at < 0 else (line[:at], line[at:])
        out.append(re.sub(IDENT, lambda m: new.get(m.group(0), m.group(0)), code) + rest)
    return "\n".join(out)


def main(argv):
    dry = "--dry" in argv
    found = declared()
    new = {n: respelled(n, k) for n, k in found.items() if "-" in n and "goal" not in k}
    words = set()
    for path in files((".rt",)):
        words |= set(re.findall(r"\w+", re.sub(r"//.*", "", open(path, encoding="utf-8").read())))
    taken = imports()
    back = {}
    for old, to in new.items():
        back.setdefault(to, []).append(old)
        if to in found:
            print(f"falls together: {old} becomes {to}, which is declared too")
        if to in taken:
            print(f"falls together: {old} becomes {to}, which is taken from the library somewhere")
        if old in taken:
            print(f"falls together: {old} is also taken from the library somewhere")
        if to in words:
            print(f"look: {old} becomes {to}, a word of the code")
    for to, olds in back.items():
        if len(olds) > 1:
            print(f"falls together: {', '.join(olds)} become {to}")
    for n, k in found.items():
        if "-" in n and "goal" in k and k != {"goal"}:
            print(f"look: {n} is a goal's name in one file and declared in another")
    for path in files((".antt", ".rt")):
        text = open(path, encoding="utf-8").read()
        for m in re.finditer(r"\b([cw](?:\.[\w-]+)*)\.(" + IDENT + ")", text):
            if m.group(2) in new:
                print(f"look: {path}: {m.group(0)}")
        comment = "--" if path.endswith(".antt") else "//"
        to = turn(text, new, comment)
        to = turn_kinds(to, other_kinds(path, to), comment)
        if to != text and not dry:
            open(path, "w", encoding="utf-8").write(to)
    print(f"respell: {len(new)} names")
    return 0


if __name__ == "__main__":
    raise SystemExit(main(sys.argv[1:]))
