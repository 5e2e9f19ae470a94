#!/usr/bin/env python3
"""Spells the repository's own definitions and lemmas as today's Rattle does, once, after the kit's port.py.

    tools/respell.py          rewrites crates/ in place, and prints each name that changed
    tools/respell.py --list   only prints them

A name that specs/ or proofs/ declare is in snake case. A dash joins a definition's name to a word of the library's, as in `bit-lt`, and two such words.
Types, modules, what src/ declares, strings and a comment's plain words keep their names. A name stays in a file that has it from the kit. Where two
names would fall together, the script says so and fails: APART has what such a name becomes.
"""

import pathlib
import re
import sys

ROOT = pathlib.Path(__file__).resolve().parent.parent
NAME = re.compile(r"[^\s(){}.;,@\"«»`]+")
DECLARED = re.compile(
    r"^ *(?:(?:let|where|abbrev|pub|unfoldable|opaque|instance) )*"
    r"([^\s:(){},.=|;λ→\"]+)(?: \([^()]*(?:\([^()]*\)[^()]*)*\)| \{[^{}]*\})* :(?= |$)"
)
KIT = re.compile(r"(?m)^ *(?:pub )?use (?!Rattle\.(?:%s)\b)[\w.'+·-]+\.\{([^}]*)\}")
# The words of the kit's own lemmas that are names, as in `mod-lt` and `length-drop`.
WORDS = set(
    "add sub mul div mod pow zero suc one le lt ne eq min max length take drop set append get_or nil cons map sum and or xor not shl shr mem".split()
)
# Where two names would fall together, or a name would be that of something else in its file.
LEMMAS = "shrink-units query-held shrink-held release-held same-pool in-pool put-pool put-block less-used slot-free".split()
APART = {name: name.replace("-", "_") + "_lem" for name in LEMMAS} | {"lowest-place": "is_lowest_place", "lowest-slot": "is_lowest_slot", "getD-listFrom": "get_or-list_from"}
# A field that has a definition's name, where no text cites both without a record before the field.
FIELDS = {"slots_apart"}


def snake(word):
    return re.sub(r"(?<=[a-z0-9])([A-Z])", lambda m: "_" + m[1].lower(), word)


def spelled(name, names):
    if name in APART:
        return APART[name]
    if name[0].isupper() or not re.search(r"[-′]|[a-z0-9][A-Z]|_", name[1:]):
        return name
    name = name.replace("′", "'")
    # a fact keeps its capital; so does a part that is a type's letter
    parts = [part if part[:1].isupper() else snake(part) for part in re.split(r"-|(?<=\w)_(?=\w)", name)]
    out = parts[0]
    for left, right in zip(parts, parts[1:]):
        is_name = (left in names or left[:1].isupper()) and (right in WORDS or right[:1].isupper())
        out += ("-" if is_name else "_") + right
    return out


def files(pattern):
    return sorted(p for p in ROOT.glob(pattern) if "out" not in p.relative_to(ROOT).parts)


def antt_files():
    return files("crates/*/specs/**/*.antt") + files("crates/*/proofs/**/*.antt")


def of_function(path):
    """Whether a file is a function's proof: what it declares at a goal's type has a name that the kit makes."""
    return path.stem in ("Proof", "Answers", "Invariants")


def declared():
    own, defs = {}, set()
    for path in antt_files():
        for line in path.read_text().splitlines():
            if line.lstrip().startswith("--"):
                continue
            found = DECLARED.match(line)
            if not found:
                continue
            name = found[1]
            rest = line[found.end():].strip()
            if of_function(path) and (re.match(r"(?:\(t : ℕ\) → )?(?:tie|goal|[\w-]*lts)\.", rest) or "statement" in rest or name.startswith(("invariant-", "decreases-"))):
                continue
            own.setdefault(name, set()).add(path)
            if "specs" in path.parts:
                defs.add(snake(name))
    return own, defs


def main():
    crates = "|".join(p.name for p in (ROOT / "crates").iterdir())
    kit = re.compile(KIT.pattern % crates)
    own, defs = declared()
    names = defs | WORDS
    table = {name: spelled(name, names) for name in own}
    table = {old: new for old, new in table.items() if old != new}
    back = {}
    faults = 0
    for old, new in sorted(table.items()):
        back.setdefault(new, []).append(old)
    for path in antt_files() + files("crates/*/src/**/*.rt"):
        text = path.read_text()
        is_rt = path.suffix == ".rt"
        theirs = set()
        for found in kit.finditer(text):
            theirs |= {item.strip().split(" as ")[-1] for item in found[1].split(",")}
        here = set(re.findall(r"(?<![^\s(){};,])" + NAME.pattern, re.sub(r"(?m)--.*$", "", text)))
        for old in here & table.keys() - theirs:
            new = table[old]
            others = [o for o in back[new] if o != old and o in here]
            if (new in here or others) and new not in FIELDS and not is_rt:
                print(f"falls together in {path.relative_to(ROOT)}: {old} -> {new} {others}")
                faults += 1
        if "--list" in sys.argv:
            continue

        def turned(match):
            word = match[0]
            return table[word] if word in table and word not in theirs else word

        if is_rt:
            out = re.sub(r"(?<![\w'-])[a-z]\w*[A-Z]\w*(?![\w'-])", turned, text)
            out = re.sub(r"(?<=`)[\w'-]+(?=`)", turned, out)
        else:
            out = "\n".join(NAME.sub(turned, line) if not line.lstrip().startswith("--") else re.sub(r"(?<=`)[^\s`]+(?=`)|(?<![\w'-])[a-z]\w*[A-Z]\w*(?![\w'-])", turned, line) for line in text.split("\n"))
        if out != text:
            path.write_text(out)
    for old, new in sorted(table.items()):
        print(f"{old}\t{new}")
    print(f"{len(table)} of {len(own)} names, {faults} faults", file=sys.stderr)
    return 1 if faults else 0


sys.exit(main())
