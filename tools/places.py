#!/usr/bin/env python3
"""Counts the places in crates/*/src where an older way of writing stands, by points; with --list prints each.

    python3 tools/places.py [--list] [POINT ..]

A place is a line, a function, or a group of functions. The counts go by text: a place that is counted is one to
look at, and docs/DESIGN-PASS.md says of each what became of it, or why it stays.
"""
import collections
import itertools
import pathlib
import re
import sys

ROOT = pathlib.Path(__file__).resolve().parent.parent / "crates"
FILES = sorted(ROOT.glob("*/src/**/*.rt"))
FN = re.compile(r"^( *)(?:pub(?:\(crate\))? )?(?:extern \"C\" )?fn (\w+)", re.M)


def name_of(path):
    return str(path.relative_to(ROOT))


class Fn:
    """A function: its name, parameters, clauses and body."""

    def __init__(self, path, text, found):
        self.path, self.name = path, found.group(2)
        self.line = text.count("\n", 0, found.start()) + 1
        i = text.index("(", found.end())
        depth, j = 0, i
        while True:
            depth += {"(": 1, ")": -1}.get(text[j], 0)
            j += 1
            if depth == 0:
                break
        self.params = [p.strip() for p in re.split(r",(?![^<\[(]*[>\])])", text[i + 1 : j - 1]) if ":" in p]
        lines = text[j:].split("\n")
        head, body, inside = [lines[0]], [], lines[0].endswith("{")
        indent = found.group(1)
        for line in lines[1:]:
            if not inside and line.strip() == "{" or not inside and line.startswith(indent + "{"):
                inside = True
                continue
            if inside and line == indent + "}":
                break
            if not inside and (line.strip().startswith(("requires", "ensures"))):
                head.append(line.strip())
                continue
            if not inside:
                break
            body.append(line)
        self.head, self.body = head, body

    def at(self):
        return f"{name_of(self.path)}:{self.line} {self.name}"


TEXT = {p: p.read_text() for p in FILES}
FNS = [Fn(p, t, m) for p, t in TEXT.items() for m in FN.finditer(t)]


def lines(pattern, skip=None):
    out = []
    for path, text in TEXT.items():
        for n, line in enumerate(text.split("\n"), 1):
            code = line.split("//")[0]
            if re.search(pattern, code) and not (skip and re.search(skip, code)):
                out.append(f"{name_of(path)}:{n} {line.strip()}")
    return out


def shape(body):
    """A body with names, numbers and strings taken out."""
    text = " ".join(l.split("//")[0].strip() for l in body)
    text = re.sub(r"b?'[^']*'|\"[^\"]*\"", "'", text)
    text = re.sub(r"\b(?!(?:if|else|match|for|while|loop|return|let|mut|in|None|Some|Ok|Err|as)\b)\w+", "x", text)
    return re.sub(r"\s+", " ", text).strip()


def alike():
    """Groups of functions whose bodies, of four lines or more, differ in names and constants alone."""
    groups = collections.defaultdict(list)
    for f in FNS:
        if len([l for l in f.body if l.strip()]) >= 4:
            groups[shape(f.body)].append(f.at())
    return [" ~ ".join(g) for g in groups.values() if len(g) > 1]


def same_name():
    """Functions and types of one name and shape in two crates or more."""
    groups = collections.defaultdict(list)
    for f in FNS:
        if "impl" not in f.name and not TEXT[f.path].count("#[test]"):
            groups[(f.name, shape(f.body))].append(f.at())
    return [" ~ ".join(g) for k, g in groups.items() if len({x.split("/")[0] for x in g}) > 1 and k[1]]


def constants():
    groups = collections.defaultdict(list)
    for path, text in TEXT.items():
        for m in re.finditer(r"^(?:pub |static |pub\(crate\) )?(?:const|static) (\w+): [^=]*= ([^;{\[]*);", text, re.M):
            groups[(m.group(1), m.group(2))].append(name_of(path))
    return [f"{k[0]} = {k[1]}: " + ", ".join(v) for k, v in groups.items() if len(v) > 1]


def travelling():
    """Three parameters or more that three functions or more of one crate share, by name and type: the largest groups."""
    out = []
    crates = collections.defaultdict(list)
    for f in FNS:
        crates[f.path.relative_to(ROOT).parts[0]].append(f)
    for crate, fns in crates.items():
        groups = collections.defaultdict(set)
        for f, g in itertools.combinations(fns, 2):
            common = frozenset(f.params) & frozenset(g.params)
            if len(common) >= 3:
                groups[common] |= {f.at(), g.at()}
        best = [(c, m) for c, m in groups.items() if len(m) >= 3]
        best = [(c, m) for c, m in best if not any(m <= o and c < d for d, o in best)]
        out += [f"{crate}: {', '.join(sorted(c))} in {len(m)}: " + ", ".join(sorted(x.split(' ')[1] for x in m)) for c, m in best]
    return out


def facts():
    """A conjunct of a requires that stands in three functions or more of one crate."""
    groups = collections.defaultdict(set)
    for f in FNS:
        for clause in f.head:
            m = re.match(r"requires(?: \w+)? \{ (.*) \}$", clause)
            for part in re.split(r" × ", m.group(1)) if m else []:
                part = part.strip("() ")
                if part:
                    groups[(f.path.relative_to(ROOT).parts[0], part)].add(f.name)
    return [f"{k[0]}: {k[1]} in {len(v)}: " + ", ".join(sorted(v)) for k, v in groups.items() if len(v) >= 3]


POINTS = {
    "1 enums of the code's own": lambda: lines(r"^\s*(pub(\(crate\))? )?enum \w+"),
    "1 an Option as an error, a bool as success": lambda: lines(r"-> Option<(Refusal|Excess|Fault)>|fn push\(.*-> bool"),
    "1 an Option or a Result taken apart by hand": lambda: lines(r"Err\(\w+\) => (return )?(Err|None|0|false|Span|false)|None => (return )?(None|Err|0|false|Ok\(None\))|Some\(\w+\) => (Ok\(Some\(|Err\()|Ok\(\w+\) => \w+,|if let Err\(|if let Some\(refusal\)|else \{$|return None;", r"\} else \{$|^\s*else \{$"),
    "1 numbers for kinds and refusals": lambda: lines(r"\b(kind|code|refusal|number|letter|state|part|class): u(8|16|32|64)\b|Refused\(u8\)"),
    "2 functions alike but for names and constants": alike,
    "2 the same function in two crates": same_name,
    "2 the same constant in two files": constants,
    "3 loops over a range of indices": lambda: lines(r"\bfor \w+ in [^{]*\.\."),
    "3 while and loop": lambda: lines(r"\b(while|loop)\b.*\{"),
    "4 conversion, equality, order, printing by hand": lambda: lines(r"fn (eq|cmp|partial_cmp|clone|fmt|number|blank|low|high|refusal|[a-z]+_text|call_of|ride_in|waiting_label|before|below|rank)\b"),
    "5 parameters that travel together": travelling,
    "5 a fact in three contracts or more": facts,
    "6 a buffer with a length beside it": lambda: lines(r"^\s*(pub(\(crate\))? )?(count|size|len|used|filled): (usize|u16|u32)") + lines(r"&mut \[u8\].*(->|at: usize)"),
    "6 fixed arrays in types and locals": lambda: lines(r"\[[\w<>]+; (\d{2,}|[A-Z_]+)\]"),
    "6 parallel arrays, halving by hand": lambda: lines(r"_lines: Vec|lo \+ \(hi - lo\) / 2"),
    "7 dyn, function pointers, a match on which step": lambda: lines(r"\bdyn\b|: fn\(|match (call|step|which|turn|command|take_turn)\b"),
}


def main():
    wanted = [a for a in sys.argv[1:] if not a.startswith("--")]
    for title, count in POINTS.items():
        if wanted and title.split()[0] not in wanted:
            continue
        places = count()
        print(f"{len(places):5}  {title}")
        if "--list" in sys.argv:
            for place in places:
                print(f"         {place}")


main()
