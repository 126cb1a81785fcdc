"""Draws what a load takes, from the lines of gz-modprobe --explain=json on standard input."""

import json
import sys

takes = {}
for fact in (json.loads(line) for line in sys.stdin if line.startswith("{")):
    name = fact.get("module", fact.get("name", "")).replace("-", "_")
    if fact["what"] in ("needed_by", "softdep"):
        for taker in fact.get("through") or [fact.get("by") or fact["of"]]:
            takes.setdefault(taker, []).append(name)
    elif fact["what"] == "alias":
        takes.setdefault(name, []).append(fact["of"].replace("-", "_"))

taken = sum(takes.values(), [])
rest = [(it, 0) for it in takes if it not in taken]
while rest or takes:
    name, depth = rest.pop(0) if rest else (next(iter(takes)), 0)
    print("    " * depth + name)
    rest[:0] = [(it, depth + 1) for it in dict.fromkeys(takes.pop(name, []))]
