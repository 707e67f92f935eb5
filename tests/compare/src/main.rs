//! compare --seed N --cases N [--from N] [--service NAME,NAME..]: the linked library against the oracle.
//! N cases of each service, or of those named. Fails on a difference, and where a number or an edge was not
//! reached.

mod native;

use compare::run::{run, Tally};
use compare::service::{Service, ALL};
use std::process::ExitCode;

struct Words {
    seed: u64,
    cases: u64,
    from: u64,
    services: Vec<Service>,
}

fn words() -> Result<Words, String> {
    let mut words = Words {
        seed: 1,
        cases: 20_000,
        from: 0,
        services: ALL.to_vec(),
    };
    let mut arguments = std::env::args().skip(1);
    while let Some(name) = arguments.next() {
        let value = arguments.next().ok_or(format!("{name} needs a value"))?;
        let number = || value.parse::<u64>().map_err(|_| format!("{name} {value}"));
        match name.as_str() {
            "--seed" => words.seed = number()?,
            "--cases" => words.cases = number()?,
            "--from" => words.from = number()?,
            "--service" => {
                words.services = value.split(',').map(named).collect::<Result<_, _>>()?
            }
            _ => return Err(format!("no argument {name}")),
        }
    }
    Ok(words)
}

fn named(name: &str) -> Result<Service, String> {
    let service = ALL.into_iter().find(|service| service.name() == name);
    service.ok_or(format!("no service {name}"))
}

/// Prints what the cases of a service showed, and gives how much was not reached.
fn report(service: Service, seed: u64, tally: &Tally) -> usize {
    let name = service.name();
    println!("{name}: {}", tally.counts());
    if !tally.named.is_empty() {
        println!("{name}: by tag {}", tally.named_counts());
    }
    if !tally.edges.is_empty() {
        println!("{name}: edges {}", tally.edge_counts());
    }
    for (edge, times) in &tally.edges {
        println!(" {name}: {edge}: {times}");
    }
    for (index, text) in &tally.shown {
        println!("{name}: DIFFERENCE, seed {seed} case {index}: {text}");
    }
    let missed = tally.missed(service);
    for what in &missed {
        println!("{name}: NOT REACHED: {what}");
    }
    missed.len()
}

fn main() -> ExitCode {
    let words = match words() {
        Ok(words) => words,
        Err(message) => {
            eprintln!("compare: {message}");
            return ExitCode::from(2);
        }
    };
    println!("compare: seed {}", words.seed);
    let (mut cases, mut differing, mut missed) = (0, 0, 0);
    for service in words.services {
        let to = words.from + words.cases;
        let tally = run(service, words.seed, words.from, to, &native::Native);
        missed += report(service, words.seed, &tally);
        cases += tally.cases;
        differing += tally.differing;
    }
    if missed > 0 {
        println!("compare: {missed} numbers or edges not reached");
    }
    println!("compare: {cases} cases, {differing} differences");
    if differing > 0 || missed > 0 {
        return ExitCode::FAILURE;
    }
    ExitCode::SUCCESS
}
