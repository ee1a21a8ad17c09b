//! Times searches by the crate aho-corasick, as crates/trial_run times those of `cedar_scan`: `aho FOLDER PASSES` reads the same files and
//! prints lines `search TAB nanoseconds TAB matches TAB sum`, by the time that its thread has run. The sum of a line that ends with `_made`
//! is the bytes that the automaton has on the heap.

use aho_corasick::{AhoCorasick, AhoCorasickBuilder, Match, MatchKind};
use std::env;
use std::fs;

#[repr(C)]
struct Timespec {
    seconds: i64,
    nanoseconds: i64,
}

extern "C" {
    fn clock_gettime(clock: i32, time: *mut Timespec) -> i32;
}

/// The clock of a thread's own time.
const THREAD_CLOCK: i32 = 3;

/// Nanoseconds that this thread has run.
fn thread_time() -> i64 {
    let mut time = Timespec { seconds: 0, nanoseconds: 0 };
    // It writes the two numbers, and nothing else.
    unsafe { clock_gettime(THREAD_CLOCK, &mut time) };
    time.seconds * 1_000_000_000 + time.nanoseconds
}

/// What a search has found: how many keys, and a sum over them.
#[derive(Clone, Copy, Default)]
struct Found {
    count: u64,
    sum: u64,
}

#[inline(never)]
fn added(matches: impl Iterator<Item = Match>) -> Found {
    let mut found = Found::default();
    for one in matches {
        let (number, len) = (one.pattern() as u64 + 1, (one.end() - one.start()) as u64);
        found.count += 1;
        found.sum = found.sum.wrapping_add(number.wrapping_mul(len).wrapping_add(one.start() as u64));
    }
    found
}

fn timed(name: &str, search: impl FnOnce() -> Found) {
    let begun = thread_time();
    let Found { count, sum } = search();
    println!("{name}\t{}\t{count}\t{sum}", thread_time() - begun);
}

fn made(name: &str, keys: &[&[u8]], kind: MatchKind) -> AhoCorasick {
    let begun = thread_time();
    let automaton = AhoCorasickBuilder::new().match_kind(kind).build(keys);
    println!("{name}\t{}\t0\t{}", thread_time() - begun, automaton.heap_bytes());
    automaton
}

fn main() {
    let words: Vec<String> = env::args().skip(1).collect();
    let [folder, passes] = words.as_slice() else {
        eprintln!("usage: aho FOLDER PASSES");
        std::process::exit(2);
    };
    let passes: usize = passes.parse().expect("a number of passes");
    let lines = fs::read(format!("{folder}/sorted.tsv")).expect("sorted.tsv");
    let text = fs::read(format!("{folder}/text.txt")).expect("text.txt");
    let keys: Vec<&[u8]> = lines
        .split(|byte| *byte == b'\n')
        .filter(|line| !line.is_empty())
        .map(|line| line.split(|byte| *byte == b'\t').next().unwrap_or(line))
        .collect();
    let standard = made("scanner_made", &keys, MatchKind::Standard);
    let longest = made("leftmost_made", &keys, MatchKind::LeftmostLongest);
    for _ in 0..passes {
        timed("overlapping", || added(standard.find_overlapping_iter(&text)));
        timed("leftmost", || added(longest.find_iter(&text)));
    }
}
