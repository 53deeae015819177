#!/usr/bin/env python3
"""places.py [POINT] [-l]: the places of the design pass (docs/DESIGN-PASS.md) below crates/*/src, one count a rule.
With a POINT (1 to 8) only that point's rules; -l lists the places. A place is what a rule of text finds: it is to be looked at,
and is no verdict."""
import collections
import os
import re
import sys

want = [a for a in sys.argv[1:] if a.isdigit()]
listed = "-l" in sys.argv

files = {}
for folder, _, names in sorted(os.walk("crates")):
    if "/src" not in folder or "/out" in folder:
        continue
    for name in sorted(names):
        if name.endswith(".rt"):
            path = os.path.join(folder, name)
            text = open(path).read()
            files[path] = re.sub(r"//[^\n]*", lambda m: " " * len(m.group()), text)

rules = collections.OrderedDict()


def rule(point, name):
    def keep(f):
        rules[(point, name)] = f
        return f

    return keep


def line_of(text, at):
    return text.count("\n", 0, at) + 1


def found(pattern, flags=re.M):
    for path, text in files.items():
        for m in re.finditer(pattern, text, flags):
            yield path, line_of(text, m.start()), " ".join(m.group().split())[:90]


def enums():
    for path, text in files.items():
        for m in re.finditer(r"\benum (\w+)[^{;]*\{(.*?)\n\}", text, re.S):
            body = re.sub(r"\([^()]*\)|\{[^{}]*\}", "()", m.group(2))
            yield path, line_of(text, m.start()), m.group(1), [v.strip() for v in body.split(",") if v.strip()]


def structs():
    for path, text in files.items():
        for m in re.finditer(r"\bstruct (\w+)[^{;(]*\{(.*?)\n\}", text, re.S):
            yield path, line_of(text, m.start()), m.group(1), re.findall(r"^\s*(?:pub(?:\(crate\))? )?(\w+): ([^\n]+?),?$", m.group(2), re.M)


def functions():
    for path, text in files.items():
        for m in re.finditer(r"^ *(?:pub(?:\(crate\))? )?fn (\w+)(?:<[^>]*>)?\((.*?)\)(?=\s*(?:->|\{|where|requires|ensures|\n))", text, re.S | re.M):
            yield path, line_of(text, m.start()), m.group(1), re.findall(r"(\w+): ([^,()\[\]]*(?:\[[^\]]*\])?(?:\([^)]*\))?[^,]*)", m.group(2))


@rule(1, "enums of two or three cases of which one or more carry nothing, or all carry (the shape of Option or Result)")
def _():
    for path, at, name, cases in enums():
        full = [c for c in cases if "()" in c]
        if len(cases) in (2, 3) and full and (len(cases) == 2 or len(cases) - len(full) >= 1):
            yield path, at, name + ": " + ", ".join(cases)


@rule(1, "structs with a flag beside values (good, known, failed, ended, open, is_.., has_..)")
def _():
    for path, at, name, fields in structs():
        flags = [f for f, t in fields if t.strip() == "bool" and re.match(r"(good|known|failed|ended|open|over|any|held|made|(is|has)_\w+)$", f)]
        if flags and len(fields) > len(flags):
            yield path, at, name + ": " + ", ".join(flags)


@rule(1, "numbers for kinds: constants that count up from 0, 1 .. in a row of three or more, and -1 or 0 for none")
def _():
    for path, text in files.items():
        rows = [(line_of(text, m.start()), m.group(1), int(m.group(2))) for m in re.finditer(r"^(?:pub )?const (\w+): (?:usize|u64|u8|i32) = (\d+);", text, re.M)]
        for a, b, c in zip(rows, rows[1:], rows[2:]):
            if b[2] - a[2] == 1 and c[2] - b[2] == 1:
                yield path, a[0], a[1]
    yield from found(r"(?<![\w.)])-1\b(?!\d|\.)")


@rule(2, "functions of one shape: equal but for names, numbers and texts, with three or more lines of body")
def _():
    where = collections.defaultdict(list)
    for path, text in files.items():
        lines = text.split("\n")
        for at, line in enumerate(lines):
            m = re.match(r"( *)(?:pub(?:\(crate\))? )?fn (\w+)", line)
            if not m:
                continue
            start = at
            while start < len(lines) and not re.match(m.group(1) + r"(?:[^ }].*)?\{$", lines[start]):
                start += 1
            end = start
            while end < len(lines) and lines[end] != m.group(1) + "}":
                end += 1
            body = "\n".join(lines[start + 1 : end])
            if end - start < 4:
                continue
            keep = {"let", "mut", "if", "else", "match", "return", "for", "in", "while", "as", "true", "false"}
            shape = re.sub(r'b?"[^"]*"', '"', body)
            shape = re.sub(r"[A-Za-z_]\w*(?:::\w+)*", lambda w: w.group() if w.group() in keep else "_", shape)
            shape = re.sub(r"\b\d[\w.]*", "#", shape)
            where[" ".join(shape.split())].append((path, at + 1, m.group(2)))
    for spots in sorted(where.values()):
        if len(spots) > 1:
            path, at, _ = spots[0]
            yield path, at, ", ".join("%s::%s" % (q.split("/")[1], name) for q, _, name in spots)


@rule(3, "loops with `while`")
def _():
    yield from found(r"\bwhile\b[^{]*")


@rule(3, "`for i in a..b` whose body only reads by i")
def _():
    for path, text in files.items():
        for m in re.finditer(r"^( *)for (\w+) in [^\n]*\.\.[^\n]*\{\n(.*?)^\1\}", text, re.S | re.M):
            i, body = m.group(2), m.group(3)
            uses = re.findall(r"\b%s\b" % re.escape(i), body)
            reads = re.findall(r"\w\[%s\](?!\s*=[^=])" % re.escape(i), body)
            if uses and len(uses) == len(reads):
                yield path, line_of(text, m.start()), " ".join(m.group().split())[:90]


@rule(3, "own least, greatest, capped sum and difference")
def _():
    yield from found(r"if \w[\w.]* (?:<=?|>=?) [^{;\n]*\{ [^{}\n]* \} else \{ [^{}\n]* \}")


@rule(4, "`check::same`, by hand equality")
def _():
    yield from found(r"check::same\([^)]*\)?")


@rule(4, "one-line conversions with `as` in a function of their own")
def _():
    yield from found(r"fn \w+\(\w+: \w+\) -> \w+\s*(?:ensures [^\n]*\s*)?\{\s*\w+ as \w+\s*\}")


@rule(5, "facts (one readable part of a `requires`) that stand in three or more contracts of a crate")
def _():
    where = collections.defaultdict(list)
    for path, text in files.items():
        for m in re.finditer(r"requires(?: \w+)? \{ (.*) \}", text):
            for part in m.group(1).split(" × "):
                where[(path.split("/")[1], part.strip().strip("()"))].append((path, line_of(text, m.start())))
    for (crate, fact), spots in sorted(where.items()):
        if len(spots) >= 3:
            yield spots[0][0], spots[0][1], "%d times: %s" % (len(spots), fact)


@rule(5, "four or more parameters that stand in a row in three or more functions of a crate")
def _():
    where = collections.defaultdict(set)
    for path, at, name, params in functions():
        names = [p + ": " + t.strip() for p, t in params if p != "sys"]
        for i in range(len(names) - 3):
            where[(path.split("/")[1], tuple(names[i : i + 4]))].add((path, at, name))
    for (crate, row), spots in sorted(where.items()):
        if len(spots) >= 3:
            path, at, _ = sorted(spots)[0]
            yield path, at, "%d functions: %s" % (len(spots), ", ".join(row))


@rule(6, "fixed arrays with a length or place beside them (buffers lent by `[0..; N]`), and fields l0, l1 ..")
def _():
    yield from found(r"\[\w*[\d.]+(?:u8|u64|f64)?; \w+\]")
    for path, at, name, fields in structs():
        if sum(bool(re.match(r"[a-z]\d$", f)) for f, _ in fields) > 2:
            yield path, at, name


@rule(6, "two lent slices that are walked side by side (parameters `&mut [..]` of other element types)")
def _():
    for path, at, name, params in functions():
        kinds = [t for _, t in params if re.match(r"&mut \[(usize|f64|u64)\]", t.strip())]
        if len(set(kinds)) > 1:
            yield path, at, name


@rule(7, "a parameter of type bool that chooses what is done")
def _():
    for path, at, name, params in functions():
        for p, t in params:
            if t.strip().rstrip(")") == "bool":
                yield path, at, name + "(" + p + ")"


@rule(8, "lines of proofs, of all crates")
def _():
    for folder, _, names in sorted(os.walk("crates")):
        if "/proofs" in folder and "/out" not in folder:
            for name in names:
                if name.endswith(".antt"):
                    path = os.path.join(folder, name)
                    for n, _ in enumerate(open(path)):
                        yield path, n + 1, ""


for (point, name), f in rules.items():
    if want and str(point) not in want:
        continue
    places = list(f())
    print("%d  %5d  %s" % (point, len(places), name))
    if listed and point != 8:
        for path, at, what in places:
            print("          %s:%d  %s" % (path, at, what))
