//! Vectors of the helpers in docs/src/src/util/mod.rs, for the tests of the ported ones.
//!
//! `leaves numbers`: lines `X A DOWN UP`, align_down(x, a) and align_up(x, a).
//! `leaves bits`: over maps of three words,
//!   `fill P I C W0 W1 W2` and `clear P I C W0 W1 W2`: pattern P with C bits from I filled or cleared;
//!   `get P I B`; `set P I W0 W1 W2`; `unset P I W0 W1 W2`;
//!   `first P I ONE ZERO`: bit_vector_index_of from I, of a one and of a zero.
//! `leaves runs`: `runs P START END HINT S E S E ...`: the free runs that BitVectorRangeIterator yields in pattern
//!   P as the used map, in the window from START to END, with the hint; where no run is left the line ends.
//! `leaves unsound`: the same for windows that no call reaches, with the words in place of P.

use original::push_back::probe;
use original::util::{
    align_down, align_up, bit_vector_clear, bit_vector_fill, bit_vector_get_bit, bit_vector_index_of,
    bit_vector_set_bit,
};

const XS: [usize; 28] = [
    0,
    1,
    63,
    64,
    65,
    100,
    128,
    4095,
    65535,
    65536,
    65537,
    131071,
    300000,
    786432,
    786496,
    1000000,
    1310784,
    2147483583,
    2147483584,
    2147483585,
    4294967295,
    4294967296,
    18446744073709551488,
    18446744073709551551,
    18446744073709551552,
    18446744073709551553,
    18446744073709551614,
    18446744073709551615,
];
const ALIGNMENTS: [usize; 9] = [1, 64, 128, 256, 65536, 131072, 786432, 33554432, 9223372036854775808];

type Map = [u32; 3];
const MAP_BITS: usize = 96;
const PATTERNS: [Map; 4] = [
    [0, 0, 0],
    [4294967295, 4294967295, 4294967295],
    [2863311530, 1431655765, 4042322160],
    [2147483648, 1, 2147483649],
];
const RANGE_STARTS: [usize; 12] = [0, 1, 15, 30, 31, 32, 33, 63, 64, 65, 94, 95];
const COUNTS: [usize; 9] = [0, 1, 2, 31, 32, 33, 64, 65, 96];
const INDICES: [usize; 11] = [0, 1, 30, 31, 32, 33, 63, 64, 65, 94, 95];

fn numbers() {
    for x in XS {
        for a in ALIGNMENTS {
            println!("{x} {a} {} {}", align_down(x, a), align_up(x, a));
        }
    }
}

/// Prints `map` as changed by `change`, behind `head`.
fn changed(head: String, mut map: Map, change: impl Fn(&mut [u32])) {
    change(&mut map);
    println!("{head} {} {} {}", map[0], map[1], map[2]);
}

fn ranges(p: usize, map: Map) {
    for i in RANGE_STARTS {
        for c in COUNTS.into_iter().filter(|c| i + c <= MAP_BITS) {
            changed(format!("fill {p} {i} {c}"), map, |words| bit_vector_fill(words, i, c));
            changed(format!("clear {p} {i} {c}"), map, |words| bit_vector_clear(words, i, c));
        }
    }
}

fn single_bits(p: usize, map: Map) {
    for i in INDICES {
        println!("get {p} {i} {}", u32::from(bit_vector_get_bit(&map, i)));
        changed(format!("set {p} {i}"), map, |words| bit_vector_set_bit(words, i, true));
        changed(format!("unset {p} {i}"), map, |words| bit_vector_set_bit(words, i, false));
        println!("first {p} {i} {} {}", bit_vector_index_of(&map, i, true), bit_vector_index_of(&map, i, false));
    }
}

fn bits() {
    for (p, map) in PATTERNS.into_iter().enumerate() {
        ranges(p, map);
    }
    for (p, map) in PATTERNS.into_iter().enumerate() {
        single_bits(p, map);
    }
}

const WINDOW_EDGES: [usize; 9] = [0, 1, 30, 31, 32, 33, 64, 95, 96];
const HINTS: [u32; 5] = [1, 2, 32, 33, u32::MAX];

fn run_line(head: String, runs: &[(u32, u32)]) {
    println!("{head}{}", runs.iter().map(|(start, end)| format!(" {start} {end}")).collect::<String>());
}

/// The walker masks only the window's start. So windows are left out that have a free unit behind their end in
/// the same word, where it would yield runs outside; calls reach none of these.
fn is_sound(map: &Map, start: usize, end: usize) -> bool {
    start <= end && (end..end.next_multiple_of(32)).all(|unit| bit_vector_get_bit(map, unit))
}

fn runs() {
    for (p, map) in PATTERNS.into_iter().enumerate() {
        for start in WINDOW_EDGES {
            for end in WINDOW_EDGES.into_iter().filter(|end| is_sound(&map, start, *end) && start < MAP_BITS) {
                for hint in HINTS {
                    run_line(format!("runs {p} {start} {end} {hint}"), &probe::runs(&map, start, end, hint, MAP_BITS));
                }
            }
        }
    }
}

/// A window whose end lies below its start; one whose end lies below the free run; one that ends where it starts.
/// The last is the window of a full block, which does occur.
fn unsound() {
    let all_free = [0, 0];
    let full = [u32::MAX, u32::MAX];
    let free_8_to_15 = [!0x0000_FF00, u32::MAX];
    let free_8_to_11 = [!0x0000_0F00, u32::MAX];
    for (words, start, end) in [(all_free, 40, 33), (free_8_to_15, 0, 4), (free_8_to_11, 0, 8), (full, 64, 0)] {
        run_line(format!("{} {} {start} {end}", words[0], words[1]), &probe::runs(&words, start, end, 1, 1));
    }
}

fn main() {
    match std::env::args().skip(1).collect::<Vec<_>>().as_slice() {
        [name] if name == "numbers" => numbers(),
        [name] if name == "bits" => bits(),
        [name] if name == "runs" => runs(),
        [name] if name == "unsound" => unsound(),
        _ => {
            eprintln!("usage: oracle/leaves numbers|bits|runs|unsound");
            std::process::exit(2);
        }
    }
}
