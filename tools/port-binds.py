#!/usr/bin/env python3
"""Mends the recursive lemmas of which the check says to bind an implicit argument on the left and to write it out at the call.

usage: python3 tools/port-binds.py CRATE_FOLDER LOG
"""
import os
import re
import sys

ERROR = re.compile(r"^(\./\S+\.antt):(\d+):\d+: error: `[^`]+`: bind .* on the left, as in `([^`]+)`, and write argument \d+ \(`[^`]+`\) out at the call `([^`]+)`, as `(\{[^`]+\})`", re.M)

crate, log = sys.argv[1], open(sys.argv[2], encoding="utf-8").read()
for m in ERROR.finditer(log):
    path, line, left, call, given = os.path.join(crate, m.group(1)), int(m.group(2)), m.group(3), m.group(4), m.group(5)
    lines = open(path, encoding="utf-8").read().split("\n")
    name = left.split()[0]
    # the clause that the line stands in
    i = line - 1
    while i >= 0 and not re.match(rf"\s*{re.escape(name)} [^:]*=\s*|\s*{re.escape(name)} [^:]*=$", lines[i]):
        i -= 1
    indent = re.match(r"\s*", lines[i]).group(0)
    old_left = lines[i].split(" =")[0].strip() if False else None
    body_at = re.search(r" =(\s|$)", re.sub(r"\{[^}]*\}", lambda g: " " * len(g.group(0)), lines[i])).start()
    lines[i] = indent + left + lines[i][body_at:]
    head = call.split()[0]
    j = line - 1
    for j in range(i, min(len(lines), line + 12)):
        rest = call[len(head):]
        if call in lines[j]:
            lines[j] = lines[j].replace(call, head + " " + given + rest)
            break
    else:
        lines[line - 1] = re.sub(rf"(?<![\w'-]){re.escape(head)}(?= )", lambda g: head + " " + given, lines[line - 1], count=1)
    open(path, "w", encoding="utf-8").write("\n".join(lines))
    print(path, line, name)
