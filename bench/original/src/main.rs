//! The subject `cedarwood`: the original crate, measured as bench/cpp/measures.hpp measures the others: `original FOLDER PASSES MEASURE..`
//! prints the same lines. `original script` answers the lines `+ K V` and `= K` of a script, as the program `./cedar` does.

mod script;

use cedarwood::Cedar;
use std::collections::HashSet;
use std::fs;
use std::hint::black_box;

/// What callgrind counts, and nothing else.
#[inline(never)]
fn measured<F: FnOnce() -> u64>(body: F) -> u64 {
    black_box(body())
}

/// Where callgrind writes what it has counted since the last call.
#[no_mangle]
#[inline(never)]
extern "C" fn measure_ends() {
    black_box(());
}

#[repr(C)]
struct Timespec {
    seconds: i64,
    nanoseconds: i64,
}

extern "C" {
    fn clock_gettime(clock: i32, time: *mut Timespec) -> i32;
    fn malloc_trim(pad: usize) -> i32;
}

const MONOTONIC: i32 = 1;
const THREAD_CPU: i32 = 3;

fn clock_of(id: i32) -> u64 {
    let mut now = Timespec { seconds: 0, nanoseconds: 0 };
    // SAFETY: the place is one of a timespec, which the call fills.
    unsafe { clock_gettime(id, &mut now) };
    now.seconds as u64 * 1_000_000_000 + now.nanoseconds as u64
}

fn print(measure: &str, amount: u64, operations: u64, sum: u64) {
    println!("{measure}\t{amount}\t{operations}\t{sum}");
}

/// Runs and prints a measure. `body` tells how many operations it made, and its sum.
fn measure(name: &str, body: impl FnOnce(&mut u64) -> u64) {
    let mut operations = 0;
    let begun = clock_of(THREAD_CPU);
    let sum = measured(|| body(&mut operations));
    let spent = clock_of(THREAD_CPU) - begun;
    measure_ends();
    print(name, spent, operations, sum);
}

fn resident() -> u64 {
    let text = fs::read_to_string("/proc/self/statm").expect("statm");
    let pages: u64 = text.split(' ').nth(1).and_then(|word| word.parse().ok()).expect("pages");
    pages * 4096
}

/// A list of keys that lie one behind the other, in the order in which they are used.
struct Keys {
    bytes: Vec<u8>,
    places: Vec<(usize, usize)>,
}

impl Keys {
    fn read(path: &str) -> Keys {
        let bytes = fs::read(path).unwrap_or_else(|error| panic!("{path}: {error}"));
        let (mut places, mut at) = (Vec::new(), 0);
        while at + 4 <= bytes.len() {
            let length = u32::from_le_bytes(bytes[at..at + 4].try_into().expect("four bytes")) as usize;
            places.push((at + 4, at + 4 + length));
            at += 4 + length;
        }
        Keys { bytes, places }
    }

    fn list(&self) -> Vec<&[u8]> {
        self.places.iter().map(|&(start, end)| &self.bytes[start..end]).collect()
    }
}

type Pairs<'a> = Vec<(&'a [u8], i32)>;

struct Workload<'a> {
    sorted: Pairs<'a>,
    shuffled: Pairs<'a>,
    sorted_keys: Vec<&'a [u8]>,
    hits: Vec<&'a [u8]>,
    misses: Vec<&'a [u8]>,
    erasures: Vec<&'a [u8]>,
    prefixes: Vec<&'a [u8]>,
    text: &'a [u8],
}

fn filled(pairs: &Pairs) -> Cedar {
    let mut cedar = Cedar::new();
    for &(key, value) in pairs {
        cedar.update_bytes(key, value).expect("an update");
    }
    cedar
}

fn look_up(cedar: &Cedar, keys: &[&[u8]]) -> u64 {
    let mut sum = 0;
    for (line, key) in keys.iter().enumerate() {
        if let Some((value, _)) = cedar.exact_match_search_bytes(key) {
            sum += (line as u64 + 1) * (value as u64 + 1);
        }
    }
    sum
}

/// From each character of the text on, all keys that begin there. The crate tells the place of a key's last byte.
fn walk_text(cedar: &Cedar, text: &[u8], starts: &mut u64) -> u64 {
    let mut sum = 0;
    for place in 0..text.len() {
        if text[place] & 0xC0 == 0x80 {
            continue;
        }
        *starts += 1;
        for (value, last) in cedar.common_prefix_iter_bytes(&text[place..]) {
            sum += (value as u64 + 1) * (last as u64 + 1) + place as u64;
        }
    }
    sum
}

/// The crate tells how many bytes a key has behind the prefix.
fn predict(cedar: &Cedar, prefixes: &[&[u8]], results: &mut u64) -> u64 {
    let mut sum = 0;
    for (line, prefix) in prefixes.iter().enumerate() {
        for (value, behind) in cedar.common_prefix_predict_iter_bytes(prefix) {
            *results += 1;
            sum += (value as u64 + 1) * (prefix.len() + behind) as u64 + line as u64 + 1;
        }
    }
    sum
}

fn list_all(cedar: &Cedar, keys: &mut u64) -> u64 {
    let mut sum = 0;
    for (key, value) in cedar.entries() {
        *keys += 1;
        sum += (value as u64 + 1) * key.len() as u64 + u64::from(key[key.len() - 1]);
    }
    sum
}

fn put(name: &str, pairs: &Pairs) {
    let mut cedar = Cedar::new();
    measure(name, |operations| {
        *operations = pairs.len() as u64;
        pairs.iter().map(|&(key, value)| u64::from(cedar.update_bytes(key, value).is_ok())).sum()
    });
}

fn erase(work: &Workload) {
    let mut cedar = filled(&work.shuffled);
    measure("erase", |operations| {
        *operations = work.erasures.len() as u64;
        work.erasures.iter().map(|key| u64::from(cedar.erase_bytes(key))).sum()
    });
}

/// The time of each update by itself, as measures.hpp takes it.
fn latency(work: &Workload) {
    let mut cedar = Cedar::new();
    let mut times = Vec::with_capacity(work.shuffled.len());
    for &(key, value) in &work.shuffled {
        let used = clock_of(THREAD_CPU);
        let begun = clock_of(MONOTONIC);
        let _ = cedar.update_bytes(key, value);
        let spent = clock_of(MONOTONIC) - begun;
        times.push(spent.min(clock_of(THREAD_CPU) - used));
    }
    times.sort_unstable();
    let most = times.len() - 1;
    let levels = [
        ("latency_50", 500_000),
        ("latency_90", 100_000),
        ("latency_99", 10_000),
        ("latency_99.9", 1_000),
        ("latency_99.99", 100),
        ("latency_most", 0),
    ];
    for (name, slower) in levels {
        let above = times.len() * slower / 1_000_000;
        if above > 0 || slower == 0 {
            print(name, times[most - above], 1, 0);
        }
    }
}

fn files(work: &Workload, passes: u32, wants: &impl Fn(&str) -> bool) {
    let keys = work.sorted.len() as u64;
    let cedar = filled(&work.sorted);
    let mut file = Vec::new();
    cedar.save_to_writer(&mut file).expect("a save");
    if wants("file") {
        print("file", file.len() as u64, keys, 0);
    }
    for _ in 0..passes {
        if wants("save") {
            measure("save", |operations| {
                *operations = keys;
                file.clear();
                cedar.save_to_writer(&mut file).expect("a save");
                0
            });
        }
        if wants("load") {
            let mut loaded = None;
            measure("load", |operations| {
                *operations = keys;
                loaded = Cedar::load_from_reader(&file[..]).ok();
                u64::from(loaded.is_some())
            });
        }
    }
}

fn run(work: &Workload, passes: u32, wants: impl Fn(&str) -> bool) {
    if wants("resident") {
        // SAFETY: it gives back memory that was freed.
        unsafe { malloc_trim(0) };
        let before = resident();
        let cedar = filled(&work.sorted);
        print("resident", resident() - before, work.sorted.len() as u64, 0);
        drop(black_box(cedar));
    }
    let cedar = filled(&work.sorted);
    for (name, keys) in [("hit", &work.hits), ("hit_sorted", &work.sorted_keys), ("miss", &work.misses)] {
        if !wants(name) {
            continue;
        }
        black_box(look_up(&cedar, keys));
        for _ in 0..passes {
            measure(name, |operations| {
                *operations = keys.len() as u64;
                look_up(&cedar, keys)
            });
        }
    }
    for _ in 0..passes {
        if wants("prefix_walk") {
            measure("prefix_walk", |starts| walk_text(&cedar, work.text, starts));
        }
        if wants("prediction") {
            measure("prediction", |results| predict(&cedar, &work.prefixes, results));
        }
        if wants("entries") {
            measure("entries", |keys| list_all(&cedar, keys));
        }
        if wants("update_sorted") {
            put("update_sorted", &work.sorted);
        }
        if wants("update_shuffled") {
            put("update_shuffled", &work.shuffled);
        }
        if wants("erase") {
            erase(work);
        }
        if wants("sorted_build") {
            let mut built = None;
            measure("sorted_build", |operations| {
                *operations = work.sorted.len() as u64;
                built = Cedar::from_sorted_bytes(&work.sorted).ok();
                if built.is_some() { work.sorted.len() as u64 } else { 0 }
            });
        }
    }
    files(work, passes, &wants);
    if wants("latency") {
        latency(work);
    }
}

fn main() {
    let arguments: Vec<String> = std::env::args().skip(1).collect();
    if arguments.first().is_some_and(|word| word == "script") {
        return script::answer();
    }
    let folder = &arguments[0];
    let passes = arguments[1].parse().expect("a number of passes");
    let wanted: HashSet<&str> = arguments[2..].iter().map(String::as_str).collect();
    let read = |name: &str| Keys::read(&format!("{folder}/{name}"));
    let (sorted, shuffled, hits, misses) = (read("sorted"), read("shuffled"), read("hits"), read("misses"));
    let (erasures, prefixes) = (read("erasures"), read("prefixes"));
    let text = fs::read(format!("{folder}/text")).expect("a text");
    let values = fs::read(format!("{folder}/shuffled.values")).expect("values");
    let values = values.chunks_exact(4).map(|four| i32::from_le_bytes(four.try_into().expect("four bytes")));
    let work = Workload {
        sorted: sorted.list().into_iter().zip(0..).collect(),
        shuffled: shuffled.list().into_iter().zip(values).collect(),
        sorted_keys: sorted.list(),
        hits: hits.list(),
        misses: misses.list(),
        erasures: erasures.list(),
        prefixes: prefixes.list(),
        text: &text,
    };
    run(&work, passes, |name| wanted.contains(name));
}
