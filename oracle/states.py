#!/usr/bin/env python3
"""Turns a text of cases (oracle/states.txt) into the numbers that crates/states_run and `plain --states` read.

  oracle/states.py FILE.txt > NUMBERS        oracle/states.py --check FILE.txt NUMBERS

A case is a state, which need not be one that calls reach, and steps on it. In the text '#' starts a comment, a line that
starts with a blank goes on with the one before it, and a number may be written 2^64-1 or 0x1f.

  state NAME = WORDS              a state by name
  for A,B = 1,2 3,4               the next case is made once for each, with {A} and {B} replaced
  LABEL | WORDS | STEP; STEP      a case; where the steps are left out: alloc 64; show

WORDS start with the name of a state, unless it is all zeros, and change it, from left to right:

  lent=U,T                        the lengths of the used and the stop slice
  size g pools immediate w slots arena length live count
                                  the numbers of the record, as live=3
  block1=BASE,SIZE,POOL,SLOT,FLAGS,AREA,USED,START,END,LARGEST    or a field of it: block1.used=3
  pool1=GRANULARITY,BLOCKS,EMPTY,AREA,USED                        or a field of it: pool1.empty=1
  order1=2                        an entry of the address order; block*, pool* and order* are all of them
  crowd=N,STEP                    N blocks of a word with a span of one unit each; the next one stands STEP places on, round N places
  tidy                            the pools' units and sums and the address order, as the blocks so far ask for
  span1=A..B                      of block 1: used bits on from unit A up to B, and the stop bit of the last
  used1=A..B stop1=A..B           those bits alone
  used@A..B=WORD stop@A..B=WORD   whole words of a map

STEP is a call as in a trace's text (create, alloc, release, shrink, query, soft, hard), or `show`; 8*STEP is it 8 times.

The numbers have 64 bits, little-endian. Each case is a 1; its label, a line of 64 bytes; the lengths of the two slices; the
words of the used and of the stop slice, each as runs of equal words (up to where, the word); the ten numbers of the record
and the three pools; then steps up to a 0. A 0 behind the last case ends the cases. A step is its kind and its numbers: 1 to 7
the calls by their kinds in a trace, 8 an entry of the lists (its place, the order there, the block there), 9 show.

What is written: the label, 01's line for each call, and for `show` the lines `record` and `pool` with the numbers as above,
`entry` for each place of the lists that isn't all zeros (its place, the order there, the block there), `used` and `stop` for
each word unlike the one before it (the word before the first counts as 0).
"""

import copy
import re
import struct
import sys

HEAD = ["size", "g", "pools", "immediate", "w", "slots", "arena", "length", "live", "count"]
BLOCK = ["base", "size", "pool", "slot", "flags", "area", "used", "start", "end", "largest"]
POOL = ["granularity", "blocks", "empty", "area", "used"]
STEPS = {"create": (1, 6), "alloc": (2, 1), "release": (3, 1), "shrink": (4, 2), "query": (5, 1), "soft": (6, 0)}
STEPS |= {"hard": (7, 0), "show": (9, 0)}
LABEL = 64
WORDS_AT_MOST = 262144


class Bad(Exception):
    pass


def number(text):
    if re.fullmatch(r"0x[0-9a-f]+", text):
        return int(text, 16)
    found = re.fullmatch(r"(\d+)(?:\^(\d+))?([+-]\d+)?", text)
    if not found:
        raise Bad(f"no number: {text}")
    base, power, more = found.groups()
    value = int(base) ** int(power or 1) + int(more or 0)
    if not 0 <= value < 2**64:
        raise Bad(f"not in 64 bits: {text}")
    return value


def part(text):
    """A..B, or A alone, which is one place."""
    first, dots, end = text.partition("..")
    return range(number(first), number(end) if dots else number(first) + 1)


class State:
    def __init__(self):
        self.lent = [0, 0]
        self.head = dict.fromkeys(HEAD, 0)
        self.block = [dict.fromkeys(BLOCK, 0) for _ in range(64)]
        self.order = [0] * 64
        self.pool = [dict.fromkeys(POOL, 0) for _ in range(3)]
        self.maps = {"used": {}, "stop": {}}

    def tidy(self):
        blocks = self.block[: self.head["count"]]
        for p in range(3):
            own = [b for b in blocks if b["pool"] == p]
            sums = [self.head["g"], len(own), sum(b["flags"] & 1 for b in own)]
            sums += [sum(b["area"] for b in own), sum(b["used"] for b in own)]
            self.pool[p] = dict(zip(POOL, sums))
        ages = sorted(range(len(blocks)), key=lambda age: blocks[age]["base"])
        self.order = ages + [0] * (64 - len(ages))

    def crowd(self, count, step):
        """In turn in the pools, and in the slots from the last to the first."""
        head = self.head
        for age in range(count):
            base = head["arena"] + 65536 * (step * age % count)
            values = [base, 32 * head["g"], age % head["pools"], count - 1 - age, 2, 32, 1, 1, 32, 0]
            self.block[age] = dict(zip(BLOCK, values))
            self.set_bits("used", age, [0])
            self.set_bits("stop", age, [0])
        head["count"] = head["live"] = count
        self.tidy()

    def set_bits(self, name, block, units):
        first = 32 * self.head["w"] * self.block[block]["slot"]
        for unit in units:
            word = (first + unit) // 32
            self.maps[name][word] = self.maps[name].get(word, 0) | 1 << (first + unit) % 32

    def change(self, word):
        left, equals, right = word.partition("=")
        values = right.split(",")
        numbered = re.fullmatch(r"(block|pool|order)(\*|\d+)(?:\.(\w+))?", left)
        bits = re.fullmatch(r"(span|used|stop)(\d+)", left)
        words = re.fullmatch(r"(used|stop)@([\d.^+-]+)", left)
        if word == "tidy":
            self.tidy()
        elif left == "crowd" and len(values) == 2:
            self.crowd(*map(number, values))
        elif left == "lent" and len(values) == 2:
            self.lent = [number(value) for value in values]
        elif left in self.head and len(values) == 1:
            self.head[left] = number(right)
        elif numbered:
            self.change_entry(*numbered.groups(), [number(value) for value in values])
        elif bits:
            block, units = int(bits[2]), part(right)
            if bits[1] != "stop":
                self.set_bits("used", block, units)
            if bits[1] != "used":
                self.set_bits("stop", block, units[-1:] if bits[1] == "span" else units)
        elif words:
            self.maps[words[1]].update((word, number(right)) for word in part(words[2]))
        else:
            raise Bad(f"no such change: {word}")

    def change_entry(self, what, which, field, values):
        entries = getattr(self, what)
        for place in range(len(entries)) if which == "*" else [int(which)]:
            if what == "order":
                (entries[place],) = values
                continue
            names = [field] if field else {"block": BLOCK, "pool": POOL}[what]
            if len(names) != len(values) or not set(names) <= set(entries[place]):
                raise Bad(f"{what} has other fields, or another number of them")
            entries[place].update(zip(names, values))

    def numbers(self):
        """The state, and the steps that bring in its entries."""
        yield from self.lent
        for name, length in zip(self.maps, self.lent):
            yield from runs(self.maps[name], length)
        yield from self.head.values()
        for pool in self.pool:
            yield from pool.values()
        for place, (age, block) in enumerate(zip(self.order, self.block)):
            if age or any(block.values()):
                yield from (8, place, age, *block.values())


def runs(words, length):
    """Runs of equal words, zeros too: up to where, and the word."""
    edges = sorted({0, length, *words, *(place + 1 for place in words)})
    values = [words.get(place, 0) for place in edges[:-1]]
    for end, word, after in zip(edges[1:], values, [*values[1:], None]):
        if word != after:
            yield from (end, word)


def step_numbers(text):
    times, name, words = re.fullmatch(r"(?:(\d+)\*)?(\w*)(.*)", text).groups()
    kind, count = STEPS.get(name, (0, 0))
    arguments = words.split()
    if not kind or len(arguments) != count:
        raise Bad(f"no such step: {text}")
    return [kind, *map(number, arguments)] * int(times or 1)


def label_line(label):
    """So long that the line has 64 bytes."""
    if len(label) > LABEL - 4:
        raise Bad(f"the label is too long: {label}")
    return ("-" * (LABEL - 2 - len(label)) + " " + label + "\n").encode("ascii")


class Cases:
    def __init__(self):
        self.states = {}
        self.loop = [{}]
        self.bytes = b""
        self.count = 0

    def state(self, text):
        words = text.split()
        state = copy.deepcopy(self.states[words.pop(0)]) if words and words[0] in self.states else State()
        for word in words:
            state.change(word)
        return state

    def case(self, label, words, steps="alloc 64; show"):
        state = self.state(words)
        if max(state.lent) > WORDS_AT_MOST:
            raise Bad(f"more than {WORDS_AT_MOST} words are lent")
        if any(words and max(words) >= lent for words, lent in zip(state.maps.values(), state.lent)):
            raise Bad("a word behind the end of its slice")
        numbers = [*state.numbers()]
        for step in steps.split(";"):
            numbers += step_numbers(step.strip())
        self.bytes += packed(1) + label_line(label) + packed(*numbers, 0)
        self.count += 1

    def line(self, line):
        if line.startswith("state "):
            name, _, words = line.removeprefix("state ").partition("=")
            self.states[name.strip()] = self.state(words)
        elif line.startswith("for "):
            names, _, rows = line.removeprefix("for ").partition("=")
            names = names.strip().split(",")
            parts = len(names) - 1  # with one name a row may have commas of its own
            self.loop = [dict(zip(names, row.split(",", parts), strict=True)) for row in rows.split()]
        else:
            loop, self.loop = self.loop, [{}]
            for values in loop:
                self.case(*(column.strip().format(**values) for column in line.split("|")))


def packed(*numbers):
    return struct.pack(f"<{len(numbers)}Q", *numbers)


def logical_lines(text):
    """The lines with those that go on joined, each with its number."""
    lines = []
    for at, line in enumerate(text.splitlines(), 1):
        line = line.split("#")[0].rstrip()
        if line[:1] in (" ", "\t") and lines:
            lines[-1][1] += " " + line.strip()
        elif line:
            lines.append([at, line])
    return lines


def made(path):
    cases = Cases()
    with open(path, encoding="ascii") as file:
        for at, line in logical_lines(file.read()):
            try:
                cases.line(line)
            except (Bad, KeyError, TypeError, ValueError, IndexError) as error:
                raise Bad(f"{path}, line {at}: {error}") from error
    return cases.bytes + packed(0), cases.count


def main(words):
    check = words[:1] == ["--check"]
    if len(words) != (3 if check else 1) or words[0] in ("-h", "--help"):
        print(__doc__, file=sys.stderr)
        return 2
    try:
        numbers, count = made(words[1 if check else 0])
        if not check:
            sys.stdout.buffer.write(numbers)
            return 0
        with open(words[2], "rb") as file:
            same = file.read() == numbers
    except (Bad, OSError, UnicodeDecodeError) as error:
        print(f"oracle/states.py: {error}", file=sys.stderr)
        return 2
    print(f"{count} cases, {'as in' if same else 'unlike'} {words[2]}")
    return 0 if same else 1


if __name__ == "__main__":
    sys.exit(main(sys.argv[1:]))
