#!/usr/bin/env python3
"""Respells the definitions and lemmas of specs/ and proofs/ as today's Rattle spells them: words in snake case.

usage: python3 tools/respell.py            at the top of a repository, right after port.py; --list prints the names only

A name is resolved file by file: it is renamed where the file defines it or imports it from a crate of this repository.
A lemma that would then have the name of a definition of specs/ gets _lem. Edits in must-fail/ are turned as text.
"""
import collections
import json
import os
import re
import sys

ROOT = os.getcwd()
SIG = re.compile(r"^(\s*)((?:(?:abbrev|unfoldable|pub)\s+)*)([A-Za-z][\w'₀-₉]*(?:-[\w'₀-₉]+)*)\s+:(?=\s|$)")
NAME = re.compile(r"(?<![\w'\-◌#₀-₉])[A-Za-z][\w'₀-₉]*(?:-[\w'₀-₉]+)*")
USE = re.compile(r"^\s*(?:pub\s+)?(?:ghost\s+)?use\s+(Rattle\.[\w.+'-]+?)\.\{([^}]*)\}", re.M)
ALIAS = re.compile(r"^\s*(?:pub\s+)?use\s+(Rattle\.[\w.+'-]+)\s+as\s+(\S+)", re.M)
SKIP = {"out", "must-fail", "data"}
# Names whose plain respelling is one of another thing in the same file.
OWN = {
    "add-info": "add_info_lem",
    "add-info-number": "add_info_number_lem",
    "add-number": "add_number_lem",
    "all-read": "all_read_lem",
    "allRead": "all_ranges_read",
    "anchorInfo": "anchor_info_of",
    "fullyRead": "fully_read_of",
    "id-and-time": "id_with_time",
    "in-anchors": "anchors_within",
    "in-history": "history_within",
    "inLast": "in_last_of",
    "on-zero": "on_zero_lem",
    "one-or-two": "one_or_two_lem",
    "openRangesLimit": "open_ranges_limit_of",
    "routePartition": "route_partition_of",
}


def snake(name):
    """camelCase and kebab-case to snake_case; a name that begins with a type keeps its first word."""
    if name in OWN:
        return OWN[name]
    if not re.search(r"-|(?<=[a-z0-9])[A-Z]", name):
        return name
    name = name.replace("-", "_")
    head = re.match(r"[A-Z]\w*?(?=_|$)", name)
    if head:
        return name
    return re.sub(r"(?<=[a-z0-9])([A-Z])", lambda m: "_" + m.group(1).lower(), name)


def sources():
    for folder, dirs, files in os.walk(os.path.join(ROOT, "crates")):
        dirs[:] = sorted(d for d in dirs if d not in SKIP)
        for f in sorted(files):
            if f.endswith((".antt", ".rt")):
                yield os.path.join(folder, f)


def module(path):
    """Rattle.crate.specs.X for crates/crate/specs/X.antt; None for a source file."""
    p = os.path.relpath(path, os.path.join(ROOT, "crates")).split(os.sep)
    if not path.endswith(".antt"):
        return None
    return ".".join(["Rattle", *p[:-1], p[-1][:-5]])


def records(text):
    """The names of fields of records, and of constructors."""
    found, inside, depth = set(), False, 0
    for line in text.splitlines():
        if re.match(r"^\s*(?:pub\s+)?(record|data)\s", line):
            inside, depth = True, len(line) - len(line.lstrip())
            continue
        if inside and line.strip() and len(line) - len(line.lstrip()) <= depth:
            inside = False
        m = SIG.match(line)
        if inside and m:
            found.add(m.group(3))
    return found


def main():
    texts = {p: open(p, encoding="utf-8").read() for p in sources()}
    defs, fields = {}, set()
    for p, t in texts.items():
        m = module(p)
        if m is None:
            continue
        own = {}
        fields |= records(t)
        for line in t.splitlines():
            s = SIG.match(line)
            if s and ": tie." not in line:
                own[s.group(3)] = None
        defs[m] = own
    spec_names = {snake(n) for m, d in defs.items() if ".specs." in m for n in d if snake(n) != n}
    new = {}
    for m, d in defs.items():
        for n in d:
            s = snake(n)
            if ".proofs." in m and s in spec_names and n not in fields:
                s += "_lem"
            new[m, n] = s
    field_map = {n: snake(n) for n in fields if snake(n) != n}
    out, whole = {}, collections.defaultdict(set)
    for p, t in texts.items():
        m = module(p)
        env = dict(field_map)
        for n in defs.get(m, {}):
            env[n] = new[m, n]
        for source, items in USE.findall(t):
            for item in re.findall(r"[^\s,]+(?:\s+as\s+[^\s,]+)?", items):
                n = item.split()[0]
                if (source, n) in new:
                    env[n] = new[source, n]
        aliases = {a: s for s, a in ALIAS.findall(t)}
        env = {a: b for a, b in env.items() if a != b}
        for a, b in env.items():
            whole[a].add(b)

        def turn(x):
            n, before = x.group(0), t[: x.start()]
            if before.endswith("."):
                head = re.search(r"([\w'-]+)\.$", before)
                if head and head.group(1) in aliases:
                    return new.get((aliases[head.group(1)], n), n)
                return field_map.get(n, n)
            return env.get(n, n)

        got = NAME.sub(turn, t)
        was = {x.group(0) for x in NAME.finditer(t) if not t[: x.start()].endswith((".", "::", "fn ")) and t[x.end() : x.end() + 1] not in ("(", "::")}
        if m is None:
            was = {n for n in was if re.search(rf"(?<![\w.]){re.escape(n)}\s*(:(?!:)|=)", t)} | {n for n in env if n in was}
        together = collections.defaultdict(set)
        for a in was:
            together[env.get(a, a)].add(a)
        for b, a in together.items():
            if len(a) > 1:
                print(f"falls together: {os.path.relpath(p, ROOT)}: {sorted(a)} -> {b}")
        out[p] = got
    if "--list" in sys.argv:
        return
    for p, t in out.items():
        if t != texts[p]:
            with open(p, "w", encoding="utf-8") as f:
                f.write(t)
    os.makedirs(os.path.join(ROOT, "tools"), exist_ok=True)
    with open(os.path.join(ROOT, "tools", "respelled.json"), "w", encoding="utf-8") as f:
        json.dump({a: sorted(b) for a, b in sorted(whole.items())}, f, ensure_ascii=False, indent=0)


if __name__ == "__main__":
    main()
