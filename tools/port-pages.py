#!/usr/bin/env python3
"""Spells the definitions and laws that the pages cite as today's .antt files do.

usage: python3 tools/port-pages.py OLD NEW [--list] [PAGE..]

OLD is the commit before the names were respelled, NEW the one in which port.py and port-names.py had respelled them. Both have the same declarations in the same order,
file by file, so the names are paired by their places; a name that would come to two is an error. What stands between backquotes in a page, by default in README.md,
CONTRIBUTING.md, docs/ and oracle/README.md, is then respelled word by word; fenced blocks stay. Names that OLD does not declare stay too: functions of src/, programs,
and what was gone by then. --list prints the names and writes nothing.
"""
import glob
import os
import re
import subprocess
import sys

ROOT = os.path.dirname(os.path.dirname(os.path.abspath(__file__)))
PAGES = ["README.md", "CONTRIBUTING.md", "docs/*.md", "docs/landings/*.md", "oracle/README.md"]
WORD = re.compile(r"[A-Za-z_][\w']*(?:-[\w']+)*")
# a declaration, a constructor or a field: its name or names, their arguments, and a colon
DECLARED = re.compile(r"^ {0,6}(?:(?:pub|abbrev|unfoldable|data|record) +)*([^\s:(){},=]+(?: +[^\s:(){},=]+)*?)\s*(?: \([^)]*\)| \{[^}]*\})* ?: ", re.M)


def git(*words):
    return subprocess.run(["git", *words], cwd=ROOT, stdout=subprocess.PIPE, check=True).stdout.decode()


def declared(commit, path):
    return [name for names in DECLARED.findall(git("show", f"{commit}:{path}")) for name in names.split()]


def respelled(old, new):
    """What each name that was respelled is called today."""
    found = {}
    for path in git("ls-tree", "-r", "--name-only", old, "crates").split("\n"):
        if not path.endswith(".antt") or path.endswith("/Proof.antt"):
            continue
        before, after = declared(old, path), declared(new, path)
        if len(before) != len(after):
            sys.exit(f"{path} declares {len(before)} names, and then {len(after)}")
        for name, today in zip(before, after):
            if found.setdefault(name, today) != today:
                sys.exit(f"{name} is {found[name]} and {today}")
    return {name: today for name, today in found.items() if name != today}


def turned(text, names):
    parts = re.split(r"(^```.*?^```$|`[^`\n]+`)", text, flags=re.M | re.S)
    spell = lambda part: WORD.sub(lambda m: names.get(m.group(0), m.group(0)), part)
    return "".join(spell(part) if part.startswith("`") and not part.startswith("```") else part for part in parts)


def main(words):
    old, new, *rest = words
    names = respelled(old, new)
    if "--list" in rest:
        print("\n".join(f"{name} {names[name]}" for name in sorted(names)))
        return
    pages = rest or [path for pattern in PAGES for path in sorted(glob.glob(os.path.join(ROOT, pattern)))]
    changed = 0
    for page in pages:
        with open(page, encoding="utf-8") as file:
            text = file.read()
        today = turned(text, names)
        if today != text:
            changed += 1
            with open(page, "w", encoding="utf-8") as file:
                file.write(today)
    print(f"port-pages: {len(names)} names, {changed} pages")


if __name__ == "__main__":
    if len(sys.argv) < 3:
        sys.exit(__doc__.split("\n")[2])
    main(sys.argv[1:])
