//! bench: times of the linked library beside those of the oracle, of a bare pass over the headers and of a memory copy,
//! in one run. `bench --hostile [BYTES]` measures deep nesting alone, at the limit where no number of bytes is given;
//! `bench --depth` what rule 9 and the paragraphs cost where the records are a thousand levels deep.
//! Where it was built with HWP_BEFORE, the full path of another archive, it has that library too, and `bench --beside`
//! measures the two alone. It says what was measured and never fails on a time.

#[cfg(before)]
mod before;
mod clock;
#[path = "../../compare/src/native.rs"]
mod native;
mod services;
mod shape;

use clock::{bare_pass, medians, Times, ROUNDS};
use compare::cases::sections::{hostile, HOSTILE};
use compare::random::Random;
use native::Native;
use oracle::answer::answer;
use oracle::LIMIT;
use services::{pair, Service, OF_HOST};
use std::hint::black_box;
use std::process::ExitCode;

fn size(bytes: usize) -> String {
    if bytes >= 1_000_000 {
        format!("{:.1} MiB", bytes as f64 / 1_048_576.0)
    } else {
        format!("{:.0} KiB", bytes as f64 / 1024.0)
    }
}

fn line(name: &str, length: usize, times: &Times) {
    let Times {
        library,
        oracle,
        bare,
        copy,
    } = times;
    let [to_oracle, to_bare, to_copy] = [oracle, bare, copy].map(|other| library / other);
    println!(
        "{name}, {}: library {library:.3} ms, oracle {oracle:.3} ms, bare pass {bare:.3} ms, copy {copy:.3} ms; \
         library/oracle {to_oracle:.2}, library/bare pass {to_bare:.2}, library/copy {to_copy:.2}",
        size(length)
    );
}

/// Says what records a stream has, and gives how many.
fn say_records(name: &str, stream: &[u8]) -> usize {
    let rows = oracle::read(stream, usize::MAX).unwrap_or_default();
    let deepest = rows.iter().map(|row| row.level).max().unwrap_or(0);
    println!("{name}: {} records, deepest level {deepest}", rows.len());
    rows.len()
}

/// The nanoseconds that each record of a stream takes.
fn per_record(title: &str, records: usize, times: &Times) {
    let [library, oracle] = [times.library, times.oracle].map(|took| took * 1e6 / records as f64);
    println!("{title}: for each record library {library:.2} ns, oracle {oracle:.2} ns");
}

fn bench_read(name: &str, stream: &[u8]) {
    let records = say_records(name, stream);
    let title = format!("read, {name}");
    let times = Times::of(pair(services::read, stream), stream);
    line(&title, stream.len(), &times);
    per_record(&title, records, &times);
    let mut library = services::read(&Native, stream);
    let mut other = services::read_into(stream);
    let [library, lent] = medians([&mut library, &mut other]);
    let ratio = library / lent;
    println!(
        "{title}: the oracle into lent lists {lent:.3} ms, beside it the library {library:.3} ms; library/that {ratio:.2}"
    );
    let services: [(&str, Service); 2] = [
        ("section read", services::section_read),
        ("pack", services::pack),
    ];
    for (service, call) in services {
        let times = Times::of(pair(call, stream), stream);
        line(&format!("{service}, {name}"), stream.len(), &times);
    }
}

/// The exponents of growth from each size to the next: 1 is linear.
fn growth(name: &str, points: &[(usize, f64)]) {
    let exponents = points.windows(2).map(|pair| {
        let bytes = pair[1].0 as f64 / pair[0].0 as f64;
        let times = pair[1].1 / pair[0].1;
        format!("{:.2}", times.ln() / bytes.ln())
    });
    let exponents: Vec<String> = exponents.collect();
    println!("{name}: growth exponents {}", exponents.join(", "));
}

/// The lengths of sections of real shape; a fill has room below the limit.
const LENGTHS: [usize; 3] = [1 << 16, 1 << 20, LIMIT - 4096];

fn bench_host() {
    for (name, service) in OF_HOST {
        let mut points = Vec::new();
        for length in LENGTHS {
            let section = shape::section(length);
            let times = Times::of(pair(service, &section), &section);
            line(name, section.len(), &times);
            points.push((section.len(), times.library));
        }
        growth(name, &points);
    }
    let section = hostile(&mut Random::new(1), HOSTILE);
    for (name, service) in OF_HOST {
        let times = Times::of(pair(service, &section), &section);
        line(&format!("{name}, deep nesting"), section.len(), &times);
    }
}

/// So many levels are judged in one pass: for rule 9, and for the paragraphs.
const WINDOWS: [u32; 2] = [200, 16];

/// What rule 9 and the paragraphs of chains cost, each by itself, in bare passes. A read without room is the reading
/// alone; where a record that 9 names stands behind all others, check ends with rule 9.
fn bench_depth(body: usize) {
    let deep = shape::small(LIMIT - shape::STRAY.len(), body, shape::CHAINS);
    let stray = [&deep[..], &shape::STRAY].concat();
    let answers = pair(services::check, &stray).map(|mut call| call());
    assert_eq!(answers, [answer(9, deep.len(), 0); 2]);
    let check = |stream| services::check(&Native, stream);
    let [reading, nine, all, bare] = medians([
        &mut services::reading(&Native, &stray),
        &mut check(&stray),
        &mut check(&deep),
        &mut || bare_pass(black_box(&stray)),
    ]);
    println!(
        "chains of {} levels, bodies of {body} bytes, {}: bare pass {bare:.3} ms, reading {reading:.3} ms",
        shape::CHAIN,
        size(stray.len())
    );
    let parts = [("rule 9", nine - reading), ("the paragraphs", all - nine)];
    for ((part, took), levels) in parts.into_iter().zip(WINDOWS) {
        println!(
            "  {part} alone, in windows of {levels} levels: {took:.3} ms, that is {:.1} bare passes, {:.1} readings; levels / window + 1 is {:.1}",
            took / bare,
            took / reading,
            f64::from(shape::CHAIN) / f64::from(levels) + 1.0
        );
    }
}

fn bench_depths() {
    for body in [4, 0] {
        bench_depth(body);
    }
}

/// The library that was built before, and this one, in turn.
#[cfg(before)]
fn bench_beside() {
    let rounds = 2 * ROUNDS;
    println!("before and after: medians of {rounds} rounds and of their ratios; after runs first in every other");
    for (name, service) in OF_HOST {
        for length in LENGTHS {
            let section = shape::section(length);
            let mut before = service(&before::Before, &section);
            let mut after = service(&Native, &section);
            assert_eq!(before(), after(), "the two libraries differ");
            let [before, after, ratio] = clock::beside(&mut before, &mut after);
            println!(
                "{name}, {}: before {before:.3} ms, after {after:.3} ms; after/before {ratio:.3}",
                size(section.len())
            );
        }
    }
}

#[cfg(not(before))]
fn bench_beside() {}

fn bench_all() {
    bench_beside();
    bench_read("real shape", &shape::section(LIMIT));
    bench_read("deep nesting", &hostile(&mut Random::new(1), HOSTILE));
    // parents take as long at depth as where there are none
    for (name, level) in shape::SMALL {
        bench_read(name, &shape::small(LIMIT, 4, level));
    }
    bench_depths();
    bench_host();
}

/// Paragraphs nested a thousand deep and, below all of them, records of four bytes up to so many bytes in all.
fn bench_hostile(length: usize) {
    let section = hostile(&mut Random::new(1), length);
    say_records("deep nesting", &section);
    let services: [(&str, Service); 2] = [
        ("check", services::check),
        ("section read", services::section_read),
    ];
    for (name, service) in services {
        let (times, rounds) = Times::of_slow(pair(service, &section), &section);
        let title = format!("{name}, deep nesting, library: rounds {rounds}");
        line(&title, section.len(), &times);
    }
}

/// What is to be measured.
enum Asked {
    All,
    Hostile(usize),
    Depth,
    Beside,
}

fn asked(words: &[&str]) -> Option<Asked> {
    let lawful = |length: &usize| *length <= LIMIT;
    match words {
        [] => Some(Asked::All),
        ["--hostile"] => Some(Asked::Hostile(LIMIT)),
        ["--hostile", bytes] => bytes.parse().ok().filter(lawful).map(Asked::Hostile),
        ["--depth"] => Some(Asked::Depth),
        ["--beside"] if cfg!(before) => Some(Asked::Beside),
        _ => None,
    }
}

fn main() -> ExitCode {
    let words: Vec<String> = std::env::args().skip(1).collect();
    let words: Vec<&str> = words.iter().map(String::as_str).collect();
    let Some(asked) = asked(&words) else {
        eprintln!("usage: bench [--depth | --hostile [BYTES]], at most {LIMIT} bytes; or --beside, if built with HWP_BEFORE");
        return ExitCode::from(2);
    };
    println!("medians of {ROUNDS} rounds after one; in each round every call runs once, in turn");
    println!("lists, sheets and copies are allocated once, written over in each round and not cleared between");
    println!(
        "the oracle makes its own vectors in each call, and a read then writes the lent lists"
    );
    match asked {
        Asked::All => bench_all(),
        Asked::Hostile(length) => bench_hostile(length),
        Asked::Depth => bench_depths(),
        Asked::Beside => bench_beside(),
    }
    ExitCode::SUCCESS
}
