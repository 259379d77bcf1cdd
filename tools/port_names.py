#!/usr/bin/env python3
"""Brings the repository's own definitions and lemmas to snake case, once, after port.py.

usage: tools/port_names.py          at the top of a checkout that port.py has just turned

A name that specs/ or a file right in proofs/ declares (a definition, a lemma, a field of a record)
loses its capitals and its dashes: `storesBody` is `stores_body`, `frame-says` is `frame_says`. Where
two names would fall together in a file, the one of the lemma or the field gets `_lem`. Names that
come from elsewhere, and functions, types, strings and inputs of src/, stay. It prints the names
that it turned; docs/PORT-NAMES.txt has them all.
"""

import collections
import glob
import os
import re
import sys

TOKEN = re.compile(r"[A-Za-z][A-Za-z0-9_'\u2080-\u2089-]*")
NAME = r"[A-Za-z][A-Za-z0-9_'\u2080-\u2089-]*"
DECLARED = re.compile(r"^\s*(?:abbrev |unfoldable )?(?:pub )?((?:%s)(?:\s+%s)*)\s*:(?![:=])" % (NAME, NAME))
RULED = re.compile(r"(invariant|decreases)-|.*-requires$")


def snake(name):
    if not name[0].islower():
        return name
    return re.sub(r"([a-z0-9])([A-Z])", lambda m: m.group(1) + "_" + m.group(2).lower(), name).replace("-", "_")


def texts(pattern):
    return {p: open(p, encoding="utf-8").read() for p in sorted(glob.glob(pattern, recursive=True))}


def code(line):
    """A line of antt and its comment."""
    at = line.find("-- ") if "-- " in line else (len(line) if not line.rstrip().endswith("--") else line.rfind("--"))
    return line[:at], line[at:]


def declared(files):
    names = set()
    for text in files.values():
        for line in text.splitlines():
            line = code(line)[0]
            m = DECLARED.match(line)
            if m and not line.lstrip().startswith(("let ", "(", "use ")):
                names.update(m.group(1).split())
    return {n for n in names if not RULED.match(n)}


def imported(files, crates):
    """Names that an import brings from outside the repository, or from what Rattle makes."""
    found = set()
    for text in files.values():
        for m in re.finditer(r"use ([\w.+'-]+)\.\{([^}]*)\}", text):
            own = any(m.group(1).startswith(f"Rattle.{c}.") for c in crates)
            if not own or ".declared" in m.group(1):
                for item in m.group(2).split(","):
                    found.update(item.strip().split(" as "))
    return found


def main():
    crates = sorted(os.listdir("crates"))
    specs = texts("crates/*/specs/**/*.antt")
    laws = texts("crates/*/proofs/*.antt")
    walks = {p: t for p, t in texts("crates/*/proofs/**/*.antt").items() if p not in laws}
    code_files = texts("crates/*/src/**/*.rt")
    everything = {**specs, **laws, **walks, **code_files}
    names = declared({**specs, **laws})
    outside = imported(everything, crates)
    turned = {n: snake(n) for n in names if snake(n) != n and n not in outside}
    # names that fall together in a file
    groups = collections.defaultdict(set)
    for n in names:
        groups[turned.get(n, n)].add(n)
    tokens = {p: set(TOKEN.findall("\n".join(code(l)[0] for l in t.splitlines()))) for p, t in everything.items()}
    for new, olds in sorted(groups.items()):
        if len(olds) < 2:
            continue
        if not any(len(olds & t) > 1 for t in tokens.values()):
            continue
        camel = [o for o in olds if "-" not in o and o != new]
        first = camel[0] if camel else new
        for o in olds:
            if o != first:
                turned[o] = new + "_lem"
    for n, t in sorted(turned.items()):
        print(f"{n} {t}")

    def turn(text, table):
        return TOKEN.sub(lambda m: table.get(m.group(0), m.group(0)), text)

    plain = {o: n for o, n in turned.items() if "-" not in o}
    for p, text in {**specs, **laws, **walks}.items():
        table = dict(turned)
        if p in walks:
            # lemmas of this proof alone, and the function's own name
            for line in text.splitlines():
                m = re.match(r"^\s*(?:abbrev )?(?:pub )?(%s) ?:(?!:)(.*)" % NAME, line)
                if m and "-" in m.group(1) and not re.match(r"\s*tie\.", m.group(2)) and m.group(1) not in outside and not RULED.match(m.group(1)):
                    table.setdefault(m.group(1), snake(m.group(1)))
        for m in re.finditer(r"\blet (%s) ?[=:]" % NAME, text):
            if "-" in m.group(1) and m.group(1) not in outside:
                table.setdefault(m.group(1), snake(m.group(1)))
        lines = []
        for line in text.split("\n"):
            c, note = code(line)
            if re.match(r"\s*(pub )?use [\w.+'-]+\.\{", c) and not any(f"use Rattle.{k}." in c for k in crates):
                lines.append(c + turn(note, plain))
                continue
            note = re.sub(r"`[^`]*`", lambda m: turn(m.group(0), table), note)
            lines.append(turn(c, table) + turn(note, plain))
        with open(p, "w", encoding="utf-8") as f:
            f.write("\n".join(lines))
    for p, text in code_files.items():
        lines = []
        for line in text.split("\n"):
            if re.match(r"\s*(ghost|requires|ensures)\b", line):
                line = turn(line, turned)
            elif '"' not in line:
                line = turn(line, {o: n for o, n in plain.items()}) if re.match(r"\s*//", line) or re.match(r"\s*(\{|[^;]*[≡×→])", line) else line
            lines.append(line)
        with open(p, "w", encoding="utf-8") as f:
            f.write("\n".join(lines))
    # edits: what they look for and what stands for it
    for p in sorted(glob.glob("crates/*/must-fail/*.edit")):
        text = open(p, encoding="utf-8").read()
        lines = [turn(l, turned) if re.match(r"(old|new):", l) else turn(l, plain) for l in text.split("\n")]
        with open(p, "w", encoding="utf-8") as f:
            f.write("\n".join(lines))
    return 0


if __name__ == "__main__":
    sys.exit(main())
