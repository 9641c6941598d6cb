#!/usr/bin/env python3
"""Brings the repository's own definitions and lemmas to the spelling of today's Rattle: snake case for words, a dash only between two names.
Run once, at the top of the repository, right after the toolchain's port.py. Names of src/ (functions, fields, parameters, constants) stay.

usage: python3 tools/respell.py          rewrites in place
       python3 tools/respell.py --list   prints what it would do, and which names fall together"""
import os
import re
import sys

# where two names would fall together, or a new one would stand beside a name of src/ in one file: a name of its own
OWN = {
    "askedIn": "question_of",
    "notAfter": "is_not_after",
    "inForce": "book_in_force",
    "in-force": "in_force",
    "number-here": "number_here_lem",
    "quay-of": "quay_of_lem",
    "quays-in": "quays_in_lem",
    "sailing-of": "sailing_of_lem",
    "time-here": "time_here_lem",
    "settle-first": "settle_first_lem",
    "quay-at": "quay_start",
    "all-below": "all_below_lem",
    "letter-is": "letter_is_lem",
    "no-legs": "no_legs_lem",
    "no-sooner": "no_sooner_lem",
    "some-passes": "some_passes_lem",
    "span-at": "span_at_lem",
    "weight-from": "weight_from_lem",
}

# a lemma file whose name Rattle wants for itself
MODULES = {"Hidden": "HidingLemmas"}

WORD = r"[^\W\d][\w'\-]*"
# words of the library that stand on one side of a dash
KNOWN_STD = set("length take drop set map append replicate reverse sum get_or filter flat_map cond mod".split())


def files(ends):
    for folder, dirs, names in os.walk("crates"):
        dirs[:] = sorted(d for d in dirs if d != "out")
        for name in sorted(names):
            if name.endswith(ends):
                yield os.path.join(folder, name)


def bare(text):
    return re.sub(r"--.*", "", text)


def defined():
    """names that our specs and lemma files define, and those of helpers in answers"""
    names = {}
    for path in files(".antt"):
        text = bare(open(path, encoding="utf-8").read())
        for m in re.finditer(r"^[ \t]*(?:(?:abbrev|pub|unfoldable)[ \t]+)*([^\s(){}:|.,]+)[ \t]*:[ \t]([^\n]*)", text, re.M):
            name, kind = m.group(1), m.group(2)
            if re.match(r"(goal|need|given)\.", kind) or not re.fullmatch(WORD, name):
                continue
            names.setdefault(name, set()).add(path)
    return names


def fields_of(paths):
    """the fields of our records"""
    out = set()
    for path in paths:
        inside = False
        for line in bare(open(path, encoding="utf-8").read()).split("\n"):
            if re.match(r"[ \t]*(pub )?record ", line):
                inside = True
            elif line and not line[0].isspace():
                inside = False
            m = re.match(r"[ \t]+pub ([\w'\-]+)[ \t]*:", line)
            if inside and m:
                out.add(m.group(1))
    return out


def snake(name):
    return re.sub(r"(?<=[a-z0-9])([A-Z])", lambda m: "_" + m.group(1).lower(), name)


def words():
    """functions that our specs define, by their new names: what a dash may stand between"""
    out = set(KNOWN_STD)
    for path in files(".antt"):
        if "/specs/" in path:
            for m in re.finditer(r"^(?:abbrev |unfoldable )(?:pub )?([a-z][\w']*) :", bare(open(path, encoding="utf-8").read()), re.M):
                out.add(snake(m.group(1)))
    return out


def respelled(names, fields):
    plain = words()
    out = {}
    for name in names:
        if not name[0].islower():
            continue
        if name in OWN:
            out[name] = OWN[name]
            continue
        new = name
        if re.search(r"[a-z0-9][A-Z]", name) and "-" not in name:
            new = snake(name)
        elif "-" in name:
            parts = [snake(p) for p in name.split("-")]
            new = parts[0]
            for i, part in enumerate(parts[1:], 1):
                left = re.split("-", new)[-1]
                dash = name not in fields and left in plain and "_".join(parts[i:]) in plain
                new += ("-" if dash else "_") + part
        if new != name:
            out[name] = new
    return out


def main():
    names = defined()
    listing = "--list" in sys.argv
    paths = list(files((".antt", ".rt")))
    fields = fields_of(paths)
    new = respelled(names, fields)
    texts = {p: open(p, encoding="utf-8").read() for p in paths}
    toks = {p: set(re.findall(WORD, t)) for p, t in texts.items()}
    if listing:
        by = {}
        for a, b in new.items():
            by.setdefault(b, []).append(a)
        for b, xs in sorted(by.items()):
            if len(xs) > 1:
                print("TOGETHER", b, xs)
            if b in names:
                print("TAKEN", b, xs, sorted(names[b])[:3])
        for a, b in sorted(new.items()):
            hit = [p for p in paths if a in toks[p] and b in toks[p]]
            if hit:
                print("BESIDE", a, "->", b, hit[:4], len(hit))
        for a, b in sorted(new.items()):
            if "-" in b:
                print("DASH", a, "->", b)
        return
    whole = re.compile(r"(?<![\w'\-])(" + "|".join(sorted((re.escape(n) for n in new), key=len, reverse=True)) + r")(?![\w'\-])")
    for p, t in texts.items():
        aliases = {name for path, name in re.findall(r"^use ([\w.+]+) as (\w+)", t, re.M) if not path.endswith((".Goals", ".Given"))}

        # Behind a dot a dashed name is ours only where it is a field, a constructor behind its type, or a lemma behind its module: else it is a
        # step that Rattle names. In prose the words of a name stay apart.
        def ours(m):
            name, before = m.group(1), t[: m.start()]
            if "-" not in name:
                return new[name]
            line = before[before.rfind("\n") + 1 :]
            if re.search(r"(?:^|\s)(?:--|//)", line):
                return name
            if before.endswith(".") and name not in fields:
                owner = re.search(r"(\w+)\.$", before)
                if not owner or not (owner.group(1)[0].isupper() or owner.group(1) in aliases):
                    return name
            return new[name]

        u = whole.sub(ours, t)
        for a, b in MODULES.items():
            u = re.sub(r"(?<=\bproofs\.)%s\b|(?<=\bmod )%s\b" % (a, a), b, u)
        if u != t:
            open(p, "w", encoding="utf-8").write(u)
    for a, b in MODULES.items():
        for p in paths:
            if re.fullmatch(r"crates/\w+/proofs/%s\.antt" % a, p):
                os.rename(p, p[: -len(a + ".antt")] + b + ".antt")


main()
