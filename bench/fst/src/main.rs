//! Words that are an edit away from a query, by the automata of the crate fst, measured as crates/trial_run measures them.
//! `fst_completions FOLDER PASSES` reads the files that bench/completions has written, and prints for each pass of each measure a line
//! `measure TAB nanoseconds TAB operations TAB sum`, by the time that its thread has run.

use fst::automaton::Levenshtein;
use fst::{Automaton, IntoStreamer, Map, Streamer};
use std::{env, error, fs};

type Result<T> = std::result::Result<T, Box<dyn error::Error>>;

#[repr(C)]
struct Timespec {
    seconds: i64,
    nanoseconds: i64,
}

extern "C" {
    fn clock_gettime(clock: i32, time: *mut Timespec) -> i32;
}

/// The clock of a thread's own time.
const THREAD_CLOCK: i32 = 3;

/// Nanoseconds that this thread has run.
fn thread_time() -> i64 {
    let mut time = Timespec { seconds: 0, nanoseconds: 0 };
    // It writes the two numbers, and nothing else.
    unsafe { clock_gettime(THREAD_CLOCK, &mut time) };
    time.seconds * 1_000_000_000 + time.nanoseconds
}

/// The keys of a file of records: four bytes of length, the lowest first, and the key.
fn keys_of(path: &str) -> Result<Vec<Vec<u8>>> {
    let file = fs::read(path)?;
    let mut keys = Vec::new();
    let mut rest = file.as_slice();
    while let Some((length, after)) = rest.split_first_chunk::<4>() {
        let (key, after) = after.split_at_checked(u32::from_le_bytes(*length) as usize).ok_or("a key is cut off")?;
        keys.push(key.to_vec());
        rest = after;
    }
    Ok(keys)
}

/// The value of the key at a place of a file, counted from 0.
fn value_at(place: u64) -> u64 {
    place * 2_654_435_761 % 2_147_483_629
}

/// The sum over the words that an automaton accepts.
fn found(words: &Map<Vec<u8>>, automaton: impl Automaton) -> u64 {
    let mut sum = 0u64;
    let mut stream = words.search(automaton).into_stream();
    while let Some((key, value)) = stream.next() {
        sum = sum.wrapping_add((value + 1) * key.len() as u64);
    }
    sum
}

/// Makes a measure once, and prints its line.
fn timed(measure: &str, operations: usize, call: impl FnOnce() -> Result<u64>) -> Result<()> {
    let begun = thread_time();
    let sum = call()?;
    println!("{measure}\t{}\t{operations}\t{sum}", thread_time() - begun);
    Ok(())
}

/// The words that are an edit away from each query, for which an automaton is made.
fn near(words: &Map<Vec<u8>>, queries: &[&str]) -> Result<u64> {
    let mut sum = 0u64;
    for query in queries {
        sum = sum.wrapping_add(found(words, Levenshtein::new(query, 1)?));
    }
    Ok(sum)
}

fn main() -> Result<()> {
    let arguments: Vec<String> = env::args().skip(1).collect();
    let [folder, passes] = arguments.as_slice() else {
        return Err("usage: fst_completions FOLDER PASSES".into());
    };
    let keys = keys_of(&format!("{folder}/words"))?;
    let words = Map::from_iter(keys.iter().zip((0..).map(value_at)))?;
    let asked = keys_of(&format!("{folder}/queries"))?;
    let queries = asked.iter().map(|query| std::str::from_utf8(query)).collect::<std::result::Result<Vec<&str>, _>>()?;
    for _ in 0..passes.parse()? {
        timed("near", queries.len(), || near(&words, &queries))?;
        // The automata were made before: what is left is the search.
        let automata = queries.iter().map(|query| Levenshtein::new(query, 1)).collect::<std::result::Result<Vec<_>, _>>()?;
        timed("near_searched", queries.len(), || Ok(automata.iter().fold(0, |sum: u64, near| sum.wrapping_add(found(&words, near)))))?;
    }
    Ok(())
}
