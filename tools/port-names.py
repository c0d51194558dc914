#!/usr/bin/env python3
"""Spells the repository's own definitions and lemmas as today's Rattle does: words in snake case, types in camel case.

usage: python3 tools/port-names.py ROOT [--list]

Run once on a tree that the kit's port.py has turned. It reads every .antt file of ROOT/crates for the names that the files declare or use and
that come from none of the kit's libraries, and respells each `kebab-name` and `camelName` among them as `snake_name`, in .antt and .rt files;
port.py itself respells some of them only. Where a definition `fooBar` and a law `foo-bar` (or `foo_bar`, as port.py left it) would fall
together, the definition is `foo_bar` and the law `foo_bar_law`. Functions of src/ and the strings of a source keep their spelling.
--list prints the names and writes nothing.
"""
import os
import re
import sys

NAME = re.compile(r"[A-Za-z_][\w']*(?:-[\w']+)*")
USE = re.compile(r"^\s*(?:pub )?(?:ghost )?use ([\w'+.·-]+)\.\{([^}]*)\}", re.M)
KEBAB = re.compile(r"^[a-z_][\w']*(?:-[\w']+)+$")
CAMEL = re.compile(r"^[a-z][\w']*[A-Z][\w']*$")
DECLARED = re.compile(r"^\s*(?:abbrev |unfoldable )*(?:pub )?(?:abbrev |unfoldable |data |record )*([A-Za-z_][\w'-]*) (?:\([^)]*\) |\{[^}]*\} )*:", re.M)
FN = re.compile(r"\bfn (\w+)")

# words that name a type
TYPES = {"isCons": "IsCons"}


def snake(name):
    if name in TYPES:
        return TYPES[name]
    name = name.replace("getD", "get_or").replace("-", "_")
    name = re.sub(r"(?<=[a-z0-9'])([A-Z])", r"_\1", name)
    name = re.sub(r"_([A-Z])(?=[a-z0-9_']|$)", lambda m: "_" + m.group(1).lower(), name)
    return re.sub(r"_+", "_", name)


def files(root, ends):
    for folder, dirs, names in os.walk(os.path.join(root, "crates")):
        dirs[:] = sorted(d for d in dirs if d not in ("out", "must-fail", "data"))
        for n in sorted(names):
            if n.endswith(ends):
                yield os.path.join(folder, n)


def read(p):
    with open(p, encoding="utf-8") as f:
        return f.read()


def foreign(text, own):
    """The names that a file brings in from the kit's libraries, under the names that it uses them by."""
    out = set()
    for m in USE.finditer(text):
        head = m.group(1).split(".")
        if head[0] == "Rattle" and len(head) > 1 and head[1] in own:
            continue
        for item in m.group(2).split(","):
            out.update(w for w in re.split(r"\s+as\s+|\s+", item.strip()) if w)
    return out


def code(text):
    """The text without comments and strings."""
    return re.sub(r'--[^\n]*|//[^\n]*|"(?:[^"\\]|\\.)*"', " ", text)


def is_walk(p):
    """A Proof.antt names the borrow checker's steps too, so it declares nothing here and only follows."""
    return os.path.basename(p) == "Proof.antt"


def own_names(root, own):
    """What to respell, and what a name that stands in its way is called; the functions of src/."""
    words, declared, functions = set(), set(), set()
    for p in files(root, (".antt", ".rt")):
        t = read(p)
        if p.endswith(".rt"):
            functions.update(FN.findall(t))
        elif not is_walk(p):
            theirs = foreign(t, own)
            words.update(w for w in NAME.findall(code(t)) if w not in theirs and (KEBAB.match(w) or CAMEL.match(w)))
            declared.update(w for w in DECLARED.findall(t) if not (KEBAB.match(w) or CAMEL.match(w)))
    names = {w: snake(w) for w in words}
    camel = {names[w] for w in words if CAMEL.match(w)}
    laws = {}
    for w in words:
        if KEBAB.match(w) and (names[w] in camel or names[w] in declared):
            names[w] += "_law"
    for w in camel & declared:
        laws[w] = w + "_law"
    return names, laws, functions


def main(argv):
    root = argv[0]
    own = set(os.listdir(os.path.join(root, "crates")))
    names, laws, functions = own_names(root, own)
    if "--list" in argv:
        for w in sorted(names):
            print(w, names[w])
        for w in sorted(laws):
            print(w, laws[w], "(a law)")
        return 0
    changed = 0
    for p in files(root, (".antt", ".rt")):
        t = read(p)
        theirs = foreign(t, own)
        brought = {w.strip() for m in USE.finditer(t) for w in m.group(2).split(",")}
        ghost = False

        def turn(m):
            w, at = m.group(0), m.start()
            if w in theirs:
                return w
            if w in names:
                return names[w]
            if w not in laws:
                return w
            if p.endswith(".rt"):
                return laws[w] if ghost and w in brought else w
            if is_walk(p) and w in functions and m.string[max(0, at - 1):at] == ".":
                return w
            before = m.string[:at].rsplit("\n", 1)[-1]
            if re.match(r"\s*(?:pub )?use [^{]*$", before):
                return w
            return laws[w]

        if p.endswith(".rt"):
            lines = []
            for line in t.split("\n"):
                ghost = bool(re.match(r"\s*(?:ghost|requires|ensures)\b", line))
                parts = re.split(r'("(?:[^"\\]|\\.)*")', line)
                lines.append("".join(s if i % 2 else NAME.sub(turn, s) for i, s in enumerate(parts)))
            new = "\n".join(lines)
        else:
            new = NAME.sub(turn, t)
        if new != t:
            with open(p, "w", encoding="utf-8") as f:
                f.write(new)
            changed += 1
    print(f"port-names: {len(names)} names, {len(laws)} laws, {changed} files")
    return 0


if __name__ == "__main__":
    raise SystemExit(main(sys.argv[1:]))
