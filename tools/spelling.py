#!/usr/bin/env python3
"""Brings the repository's own definitions and lemmas to snake case, once, right after the kit's port.py.

usage: python3 tools/spelling.py [--check] [ROOT]

What turns: the names that a file of specs/ or a lemma file of proofs/ declares and that hold a capital behind a
small letter (`neededInput`) or a dash (`half-round`), each as a whole word, in every .antt file, in the clauses and
ghost imports of every .rt file, and in the lines of must-fail edits. What stays: types and modules, names from Rust
source, names that the check makes (members behind a dot in a function's own proof), and what the library declares.
A name that would fall together with another one gets the ending that EXCEPT gives it, or `_lem` if it is a lemma.
--check writes nothing and prints the table and what falls together.
"""
import collections
import glob
import os
import re
import sys

WORD = r"[^\s(){}.;,@\"«»:`\[\]]+"
TOKEN = re.compile(r"[^\s(){}.;,@\"«»:`\[\]]+")

# names that would fall together with a Rust name or another definition in a file where both are used
EXCEPT = {
    "sizeIs": "size_equals",
    "sizeHolds": "size_at_least",
    "allDigits": "only_digits",
    "isWord": "same_word",
    "stepNow": "step_now_of",
    "stepThen": "step_then_of",
    "intact-at": "intact_place",
    "positionText": "text_of_position",
}


def files(root):
    antt = sorted(glob.glob(root + "/crates/*/specs/**/*.antt", recursive=True) + glob.glob(root + "/crates/*/proofs/**/*.antt", recursive=True))
    rt = sorted(glob.glob(root + "/crates/*/src/**/*.rt", recursive=True))
    edits = sorted(glob.glob(root + "/crates/*/must-fail/*"))
    return antt, rt, edits


def own_proof(path):
    """The proof of one function: its names are made by the check."""
    return os.path.basename(path) in ("Proof.antt", "Invariants.antt", "Answers.antt")


def declared(antt):
    """Names that specs/ and lemma files declare: name -> {'spec', 'lemma'}."""
    out = collections.defaultdict(set)
    head = re.compile(r"^\s*((?:abbrev|unfoldable|opaque|pub|instance)\s+)*(" + WORD + r")((?:\s+" + WORD + r")*)\s+:\s")
    for path in antt:
        if own_proof(path):
            continue
        kind = "spec" if "/specs/" in path else "lemma"
        for line in open(path, encoding="utf-8"):
            if re.match(r"\s*(--|let\b|in\b|use\b|\(|λ)", line):
                continue
            m = head.match(line)
            if m:
                for name in [m.group(2), *m.group(3).split()]:
                    out[name].add(kind)
    return out


def imported(antt, rt):
    """Names that are taken from the library and not from the repository."""
    out = set()
    for path in antt + rt:
        text = open(path, encoding="utf-8").read()
        for m in re.finditer(r"\buse\s+([\w.'-]+)\.\{([^}]*)\}", text):
            own = m.group(1).startswith("Rattle.") and os.path.isdir(ROOT + "/crates/" + m.group(1).split(".")[1])
            if not own:
                out |= {w.split(" as ")[0].strip() for w in m.group(2).split(",")}
    return out


def snake(name):
    s = re.sub(r"(?<=[a-z0-9'])(?=[A-Z])", "_", name)
    s = re.sub(r"[A-Z]", lambda m: m.group(0).lower(), s)
    return s.replace("-", "_")


def is_camel(name):
    return re.fullmatch(r"[a-z][A-Za-z0-9_'-]*", name) is not None and re.search(r"[a-z0-9][A-Z]", name) is not None


def is_dashed(name):
    return re.fullmatch(r"[A-Za-z0-9_'-]+", name) is not None and "-" in name.strip("-") and not name.startswith("-")


def table(root):
    antt, rt, edits = files(root)
    names, kit = declared(antt), imported(antt, rt)
    turn = {}
    for name, kinds in sorted(names.items()):
        if name in kit:
            continue
        if is_camel(name) or is_dashed(name):
            turn[name] = EXCEPT.get(name, snake(name))
    return turn, names, (antt, rt, edits)


def words(path, text):
    return set(TOKEN.findall(text))


def clashes(turn, names, paths):
    antt, rt, _ = paths
    out = collections.defaultdict(set)
    back = collections.defaultdict(set)
    for o, n in turn.items():
        back[n].add(o)
    for path in antt + rt:
        has = words(path, open(path, encoding="utf-8").read())
        for o in has & turn.keys():
            n = turn[o]
            if n in has:
                out[o].add(path + ": " + n)
            for p in back[n] - {o}:
                if p in has:
                    out[o].add(path + ": " + p)
    return out


def settle(turn, names, paths):
    """A lemma that would fall together with another name gets `_lem`."""
    bad = clashes(turn, names, paths)
    taken = set(names) - set(turn)
    for o in bad:
        if is_dashed(o) and names[o] == {"lemma"} and o not in EXCEPT:
            turn[o] += "_lem"
    seen = collections.Counter(turn.values())
    for o, n in list(turn.items()):
        if is_dashed(o) and names[o] == {"lemma"} and not n.endswith("_lem") and (n in taken or seen[n] > 1):
            turn[o] = n + "_lem"
    return clashes(turn, names, paths)


def fields(antt):
    """The fields of records: they stand behind a dot."""
    out = set()
    for path in antt:
        inside = False
        for line in open(path, encoding="utf-8"):
            if re.match(r"(pub\s+)?record\b", line):
                inside = True
            elif line.strip() and not line[0].isspace():
                inside = False
            elif inside:
                m = re.match(r"\s+(" + WORD + r"(?:\s+" + WORD + r")*)\s+:\s", line)
                if m:
                    out |= set(m.group(1).split())
    return out


def spans(text, turn):
    return re.sub(r"`[^`\n]*`", lambda m: TOKEN.sub(lambda w: turn.get(w.group(0), w.group(0)), m.group(0)), text)


def turn_code(code, turn, behind):
    """Turns whole words; `behind` tells whether a word right behind a dot turns."""

    def one(m):
        w = m.group(0)
        if w not in turn:
            return w
        if m.start() and code[m.start() - 1] == "." and not behind(code, m.start(), w):
            return w
        return turn[w]

    return TOKEN.sub(one, code)


def turn_lines(text, mark, turn, behind):
    """Code by words, comments by their code spans."""
    out = []
    for line in text.split("\n"):
        at = line.find(mark)
        while at > 0 and not line[at - 1].isspace():
            at = line.find(mark, at + 1)
        code, note = (line, "") if at < 0 else (line[:at], line[at:])
        out.append(turn_code(code, turn, behind) + spans(note, turn))
    return "\n".join(out)


def main(argv):
    global ROOT
    check = "--check" in argv
    ROOT = ([a for a in argv if a != "--check"] or ["."])[0].rstrip("/")
    turn, names, paths = table(ROOT)
    bad = settle(turn, names, paths)
    if check:
        for o, n in turn.items():
            print(o, n, ",".join(sorted(names[o])))
        for o, where in bad.items():
            print("clash:", o, turn[o], sorted(where)[:4], len(where))
        return 0
    antt, rt, edits = paths
    member = fields(antt)

    def always(code, at, w):
        return True

    def in_proof(code, at, w):
        head = re.search(r"([\w'-]+)\.$", code[:at])
        return is_camel(w) or w in member or (head is not None and head.group(1) in aliases)

    for path in antt:
        text = open(path, encoding="utf-8").read()
        aliases = set(re.findall(r"\buse\s+[\w.'-]+\s+as\s+([\w'-]+)", text)) - {"tie", "c"}
        new = turn_lines(text, "--", turn, in_proof if own_proof(path) else always)
        if new != text:
            open(path, "w", encoding="utf-8").write(new)
    camel = {o: n for o, n in turn.items() if is_camel(o)}
    for path in rt:
        text = open(path, encoding="utf-8").read()
        new = turn_lines(text, "//", camel, always)
        if new != text:
            open(path, "w", encoding="utf-8").write(new)
    for path in edits:
        lines = open(path, encoding="utf-8").read().split("\n")
        kind = turn
        for i, line in enumerate(lines):
            if line.startswith("file:"):
                kind = camel if line.rstrip().endswith(".rt") else turn
            elif re.match(r"(old|new):", line):
                lines[i] = line[:4] + turn_code(line[4:], kind, always)
            else:
                lines[i] = spans(line, turn)
        open(path, "w", encoding="utf-8").write("\n".join(lines))
    for path in sorted(set(glob.glob(ROOT + "/docs/**/*.md", recursive=True) + [ROOT + "/README.md"]) - {ROOT + "/docs/CALLS.md"}):
        text = open(path, encoding="utf-8").read()
        new = spans(text, turn)
        if new != text:
            open(path, "w", encoding="utf-8").write(new)
    print(len(turn), "names turned,", len(bad), "fall together")
    return 0


if __name__ == "__main__":
    raise SystemExit(main(sys.argv[1:]))
