#!/usr/bin/env python3
"""Counts the places of docs/DESIGN-PASS.md in crates/*/src, point by point.

    tools/places.py                 the work tree: a count for each kind of place
    tools/places.py --at COMMIT     a commit
    tools/places.py --list [KIND..] the places themselves, of all kinds or of these

It goes by text: it finds candidates, and a reader judges each.
"""
import argparse
import collections
import pathlib
import re
import subprocess
import sys

ROOT = pathlib.Path(__file__).resolve().parent.parent


def sources(commit):
    """The text of each source file and each answer file, by its path."""
    if commit is None:
        paths = sorted(ROOT.glob("crates/*/src/**/*.rt")) + sorted(ROOT.glob("crates/*/proofs/**/*.antt"))
        return {str(p.relative_to(ROOT)): p.read_text() for p in paths}
    names = subprocess.run(["git", "ls-tree", "-r", "--name-only", commit, "crates"], cwd=ROOT, check=True,
                           capture_output=True, text=True).stdout.split("\n")
    names = [n for n in names if re.search(r"/src/.*\.rt$|/proofs/.*\.antt$", n)]
    return {n: subprocess.run(["git", "show", f"{commit}:{n}"], cwd=ROOT, check=True,
                              capture_output=True, text=True).stdout for n in names}


class Function:
    def __init__(self, path, line, name, params, clauses, body):
        self.path, self.line, self.name = path, line, name
        self.params, self.clauses, self.body = params, clauses, body

    def place(self):
        return f"{self.path}:{self.line}: fn {self.name}"


def closing(text, start, pair="{}"):
    """The index after the bracket that closes the one at `start`."""
    depth = 0
    for i in range(start, len(text)):
        depth += (text[i] == pair[0]) - (text[i] == pair[1])
        if depth == 0:
            return i + 1
    raise ValueError(f"no end after {text[start:start + 40]!r}")


def bare(text):
    """The text without comments, and with string and byte literals emptied; each line stays in its place."""
    text = re.sub(r'b?"(?:[^"\\]|\\.)*"', '""', text)
    text = re.sub(r"b?'(?:[^'\\]|\\.)'", "' '", text)
    return re.sub(r"//[^\n]*", "", text)


def functions(path, text):
    plain = bare(text)
    for m in re.finditer(r"^\s*(?:pub )?fn (\w+)(?:<[^>]*>)?\(", plain, re.M):
        end = closing(plain, m.end() - 1, "()")
        params = re.findall(r"(\w+): ([^,()]+(?:\([^)]*\))?)", plain[m.end():end - 1])
        i, clauses = end, []
        while True:
            brace = plain.index("{", i)
            stop = closing(plain, brace)
            head = plain[i:brace]
            if re.search(r"\b(requires|ensures)\*?(?: \w+)? $", head):
                clauses.append((head.split()[0] if "->" not in head else re.findall(r"requires|ensures", head)[-1],
                                " ".join(plain[brace + 1:stop - 1].split())))
                i = stop
            else:
                yield Function(path, plain.count("\n", 0, m.start(1)) + 1, m[1], params, clauses, plain[brace:stop])
                break


def shape(f):
    """A function's body with its own names, literals and callees replaced by numbers, in the order in which they come."""
    words, seen = re.findall(r"\w+|[^\w\s]", f.body), {}
    keep = {"if", "else", "while", "for", "in", "let", "mut", "match", "return", "self", "loop"}
    return tuple(w if w in keep or not re.match(r"\w", w) else f"#{seen.setdefault(w, len(seen))}" for w in words)


def enums(path, text):
    plain = bare(text)
    for m in re.finditer(r"^(?:pub )?enum (\w+)[^{]*\{", plain, re.M):
        inner = plain[m.end():closing(plain, m.end() - 1) - 1]
        variants = re.findall(r"^    (\w+)(\(|,)", inner, re.M)
        yield f"{path}:{plain.count(chr(10), 0, m.start()) + 1}: enum {m[1]}", variants


def conjuncts(clause):
    """The facts of a clause, of which `×` joins the outermost."""
    parts, depth, start = [], 0, 0
    for i, c in enumerate(clause):
        depth += (c in "({") - (c in ")}")
        if c == "×" and depth == 0:
            parts.append(clause[start:i])
            start = i + 1
    parts.append(clause[start:])
    return [re.sub(r"^\((.*)\)$", r"\1", p.strip()) for p in parts]


def places(files):
    found = collections.OrderedDict()

    def add(kind, place):
        found.setdefault(kind, []).append(place)

    rt = {p: t for p, t in files.items() if p.endswith(".rt")}
    fs = [f for p, t in rt.items() for f in functions(p, t)]
    shown = {p: t.split("\n") for p, t in rt.items()}

    # 1. enums of the shape of Option or Result; numbers for kinds; a flag beside a value
    for p, t in rt.items():
        for place, variants in enums(p, t):
            full = sum(v[1] == "(" for v in variants)
            if 0 < full and len(variants) <= 3:
                add("1-enum", f"{place}: {', '.join(v[0] for v in variants)}")
        for m in re.finditer(r"^ +pub (\w+): bool,", t, re.M):
            add("1-flag", f"{p}:{t.count(chr(10), 0, m.start()) + 1}: {m[1]}")
    for f in fs:
        if len(re.findall(r"^\s+\d+ =>", f.body, re.M)) > 1 or re.search(r"\b(kind|number) == \d", f.body):
            add("1-number", f.place())

    # 2. twins: bodies alike but for names, literals and types
    alike = collections.defaultdict(list)
    for f in fs:
        if len(shape(f)) >= 12:
            alike[shape(f)].append(f)
    for group in alike.values():
        if len(group) > 1:
            add("2-alike", "; ".join(g.place() for g in group))
    stems = collections.defaultdict(list)
    for f in fs:
        stem = re.sub(r"\d+", "#", f.name)
        if stem != f.name:
            stems[(f.path, stem)].append(f)
    for group in stems.values():
        if len(group) > 1:
            add("2-numbered", "; ".join(g.place() for g in group))

    # 3. loops
    for p, lines in shown.items():
        for n, line in enumerate(lines, 1):
            if re.match(r"\s*while ", line):
                add("3-while", f"{p}:{n}: {line.strip()}")
            if re.match(r"\s*for \w+ in 0\.\.", line):
                add("3-range", f"{p}:{n}: {line.strip()}")

    # 4. written by hand
    for f in fs:
        body = f.body
        if re.fullmatch(r"\{\s*if (\w+) < (\w+) \{ \w+ \} else \{ \w+ \}\s*\}", body):
            add("4-least", f.place())
        if len(re.findall(r"return (?:false|true);", body)) >= 3:
            add("4-tests", f.place())
        if len(set(re.findall(r"\b(\w+): \w+\.\1\b", body))) >= 3:
            add("4-copied", f.place())
        if re.search(r"\b(256|65536|4294967296|16777216)\b", body):
            add("4-bytes", f.place())
        if len(f.params) == 1 and re.fullmatch(r"\{\s*if [^{}]*\{\s*(return )?[01];?\s*\} *(else \{\s*[01]\s*\})?\s*[01]?\s*\}", body):
            add("4-number", f.place())
        if len(re.findall(r"\b(?:number|byte|line_end|place|window)\(rt", body)) >= 2:
            add("4-printed", f.place())

    # 5. facts in three contracts or more, parameters that travel together
    facts = collections.defaultdict(set)
    for f in fs:
        for kind, clause in f.clauses:
            if kind == "requires":
                for fact in conjuncts(clause):
                    facts[fact].add(f.place())
    for fact, where in facts.items():
        if len(where) >= 3:
            add("5-fact", f"{len(where)} functions: {fact}")
    groups = collections.defaultdict(set)
    for f in fs:
        names = [f"{n}: {t.strip()}" for n, t in f.params if n not in ("rt",)]
        for k in range(2, 7):
            for i in range(len(names) - k + 1):
                groups[tuple(names[i:i + k])].add(f.place())
    most = [(g, w) for g, w in groups.items() if len(w) >= 3]
    for g, w in most:
        if not any(len(h) > len(g) and w <= v and set(g) <= set(h) for h, v in most):
            add("5-together", f"{len(w)} functions: {', '.join(g)}")

    # 6. an array with a length beside it, a search by halves
    for p, t in rt.items():
        for m in re.finditer(r"^pub struct (\w+)[^{]*\{(.*?)^\}", t, re.M | re.S):
            if re.search(r": \[", m[2]) and re.search(r"\b(count|len|written|waiting)\b: usize", m[2]):
                add("6-length", f"{p}:{t.count(chr(10), 0, m.start()) + 1}: struct {m[1]}")
    for f in fs:
        if re.search(r"\bmid\b", f.body):
            add("6-search", f.place())
        if {"out: &mut [u8]", "at: usize"} <= {f"{n}: {t.strip()}" for n, t in f.params}:
            add("6-from-index", f.place())

    # 7. a parameter that picks the step
    for f in fs:
        for name, kind in f.params:
            if kind.strip() == "bool" and re.search(rf"if {name} \{{\s*\n\s*[\w:]+\(", f.body):
                add("7-switch", f"{f.place()}({name})")

    # 8. answers
    answers = {p: t for p, t in files.items() if p.endswith("Answers.antt") or p.endswith("Proof.antt")}
    for p, t in answers.items():
        for m in re.finditer(r"^pub (\S+) : goal\.", t, re.M):
            add("8-answer", f"{p}: {m[1]}")
    return found


def main():
    parser = argparse.ArgumentParser(description=__doc__, formatter_class=argparse.RawDescriptionHelpFormatter)
    parser.add_argument("--at", metavar="COMMIT")
    parser.add_argument("--list", metavar="KIND", nargs="*")
    args = parser.parse_args()
    found = places(sources(args.at))
    for kind, where in found.items():
        if args.list is None:
            print(f"{kind:14} {len(where)}")
        elif not args.list or kind in args.list:
            print(*(f"{kind} {place}" for place in where), sep="\n")


if __name__ == "__main__":
    sys.exit(main())
