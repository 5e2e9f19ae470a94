#!/usr/bin/env python3
"""Prints the lines that the test programs numbers_run and maps_run must write of `numbers`, `slots`, `runs` and `sizes`, made
naively: units by integer arithmetic, maps bit by bit, sizes by the words of document 01.

  units    `units SIZE UNIT N`, the units of UNIT bytes that hold SIZE bytes, and `bytes N UNIT SIZE`, their bytes
  slots    over 6 words, slots of 2: `mark SLOT AT N W0 .. W5` and `unmark ..`, the words after it; `slot SLOT W0 W1`
  windows  over 3 words of used units: `search P S E N at I`, `.. tight FIRST LAST LONGEST` or `.. full`, of N units
           in the window from S up to E of pattern P; `runs P S E s-e ..`, the window's free runs, each up to its e
  sizes    `granularity ASKED G` and `base ASKED SIZE`, as in force; `round SIZE G to ROUNDED` or `.. refused N`;
           `pool SIZE OF_THREE OF_ONE`; `ideal NEWEST REQUEST SIZE`, of a new block

The outputs that the programs are held to are made again so, in the repository's root:

  { oracle/leaves numbers; oracle/runs_vectors.py units; oracle/runs_vectors.py sizes; } > crates/numbers_run/stdout
  { oracle/leaves bits; oracle/runs_vectors.py slots; oracle/runs_vectors.py windows; } > crates/maps_run/stdout
"""

import signal
import sys

SIZES = [0, 1, 63, 64, 65, 100, 192, 1023, 1024, 65536, 300032, 2147483584, 274877906880]
UNITS = [64, 128, 256, 512, 1024]


def units():
    for size in SIZES:
        for unit in UNITS:
            n = (size + unit - 1) // unit
            print("units", size, unit, n)
            print("bytes", n, unit, n * unit)


# Of a map that starts all clear, and of one that starts all set: (what, slot, at, n), one after another.
HISTORY = [
    ("mark", 0, 0, 1), ("mark", 0, 31, 2), ("mark", 1, 0, 64), ("mark", 2, 5, 40), ("unmark", 1, 30, 4),
    ("unmark", 1, 63, 1), ("unmark", 2, 6, 37), ("mark", 2, 63, 1), ("mark", 2, 64, 0), ("unmark", 0, 32, 1),
    ("unmark", 0, 0, 64), ("mark", 0, 63, 1), ("mark", 1, 33, 1), ("unmark", 2, 0, 0), ("unmark", 1, 0, 32),
]


def words_of(bits):
    return [sum(bits[32 * i + j] << j for j in range(32)) for i in range(len(bits) // 32)]


def slots():
    for start in (0, 1):
        bits = [start] * 192
        for what, slot, at, n in HISTORY:
            for unit in range(at, at + n):
                bits[64 * slot + unit] = 1 if what == "mark" else 0
            print(what, slot, at, n, *words_of(bits))
        for slot in range(3):
            print("slot", slot, *words_of(bits[64 * slot : 64 * slot + 64]))


def free_ranges(*ranges):
    """The used bits of a map in which only the units from a to b are free, both ends with them."""
    free = {unit for a, b in ranges for unit in range(a, b + 1)}
    return [int(unit not in free) for unit in range(96)]


def used_words(*words):
    return [words[unit // 32] >> unit % 32 & 1 for unit in range(96)]


PATTERNS = [
    free_ranges((0, 95)),
    free_ranges(),
    used_words(0xAAAAAAAA, 0xAAAAAAAA, 0xAAAAAAAA),
    free_ranges((8, 15)),
    free_ranges((8, 11)),
    free_ranges((30, 69)),
    free_ranges((0, 3), (31, 32), (60, 66), (95, 95)),
    used_words(0x9E3779B9, 0x7F4A7C15, 0xF39CC060),
]
ENDS = [0, 1, 4, 8, 12, 31, 32, 33, 40, 63, 64, 65, 95, 96]
COUNTS = [1, 5, 33]


def free_runs(used, start, end):
    runs, unit = [], start
    while unit < end:
        first = unit
        while unit < end and not used[unit]:
            unit += 1
        if unit > first:
            runs.append((first, unit))
        else:
            unit += 1
    return runs


def sought(used, start, end, n):
    for i in range(start, end - n + 1):
        if not any(used[i : i + n]):
            return ["at", i]
    runs = free_runs(used, start, end)
    if not runs:
        return ["full"]
    return ["tight", runs[0][0], runs[-1][1], max(e - s for s, e in runs)]


def windows():
    for p, used in enumerate(PATTERNS):
        for start in ENDS:
            for end in ENDS:
                for n in COUNTS:
                    print("search", p, start, end, n, *sought(used, start, end, n))
                print("runs", p, start, end, *(f"{s}-{e}" for s, e in free_runs(used, start, end)))


TOP = 2**64
NEWEST = [65536, 131072, 393216, 786432, 16777216, 33554432, 67108864]
REQUESTS = [64, 131072, 300032, 786496, 1000000, 1310784, 2147483584]


def rounded(size, g):
    """Up to g; rounding up wraps at the top of 64 bits."""
    up = -(-size // g) * g % TOP
    if up == 0:
        return ["refused", 1]
    return ["refused", 2] if up > 2147483647 else ["to", up]


def pool_of_three(size, g):
    if size % (4 * g) == 0:
        return 2
    return 1 if size % (2 * g) == 0 else 0


def ideal(newest, request):
    size = newest * 2 if newest < 33554432 else newest
    if request > size:
        mask = size - 1  # a bit mask: 786,432 is no power of two, so this is no multiple of it
        size = (request + mask) % TOP & ~mask
    return size


def sizes():
    for asked in (32, 96, 512, 256, 64, 128, 0):
        print("granularity", asked, asked if asked in (64, 128, 256) else 64)
    for asked in (65536, 131072, 33554432, 67108864, 0, 65537, 98304):
        print("base", asked, asked if asked in [65536 << k for k in range(10)] else 65536)
    for size in (2147483584, 0, 1, TOP - 63, TOP - 64, 2147483585):
        for g in (64, 128, 256):
            print("round", size, g, *rounded(size, g))
    for size in range(64, 2049, 64):
        print("pool", size, pool_of_three(size, 64), 0)
    for newest in NEWEST:
        for request in REQUESTS:
            print("ideal", newest, request, ideal(newest, request))


KINDS = {"units": units, "slots": slots, "windows": windows, "sizes": sizes}


def main(words):
    if len(words) != 1 or words[0] not in KINDS:
        print("usage: oracle/runs_vectors.py units|slots|windows|sizes", file=sys.stderr)
        return 2
    KINDS[words[0]]()
    return 0


if __name__ == "__main__":
    signal.signal(signal.SIGPIPE, signal.SIG_DFL)  # a reader that stops early is no error
    sys.exit(main(sys.argv[1:]))
