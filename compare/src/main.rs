//! Compares Viaductle's exported functions with the Rust crate someip_parse 0.7.2. See ../docs/COMPARISON.md; `run` starts this.

// Without the port only --record is left.
#![cfg_attr(not(feature = "port"), allow(dead_code))]

#[cfg(any(feature = "port", test))]
mod arrivals;
mod bench;
mod calls;
mod ends;
mod inputs;
mod oracle;
mod oracle_tp;
mod places;
mod plan;
#[cfg(feature = "port")]
mod port;
mod random;
mod record;
#[cfg(any(feature = "port", test))]
mod sabotage;
#[cfg(any(feature = "port", test))]
mod sd;
#[cfg(test)]
mod standin;
#[cfg(any(feature = "port", test))]
mod tally;
#[cfg(any(feature = "port", test))]
mod tp;
mod tp_inputs;
#[cfg(any(feature = "port", test))]
mod whole;

use plan::{Exhaustive, Plan};
use std::path::PathBuf;
use std::process::ExitCode;

const USAGE: &str = "\
compare [--quick] [--count N] [--sequences N] [--seed S] [--threads N]
        compare; N seeded payloads and messages (5,100,000) and N seeded sequences of segments (500,000), beside the exhaustive ones
compare --sabotage      a fault at a time in the port: each must be noticed
compare --bench         speed beside the crate, and of strict readings beside those that are not
compare --instructions  the same in instructions, under an emulator that counts them (count.c)
compare --record DIR    write the crate's answers for replay; needs no port
";

enum Task {
    Compare,
    Sabotage,
    Bench,
    Instructions,
    Record(PathBuf),
}

fn main() -> ExitCode {
    match arguments(std::env::args().skip(1)) {
        Ok((Task::Record(folder), plan)) => match record::run(&folder, plan.seed) {
            Ok(()) => ExitCode::SUCCESS,
            Err(error) => {
                eprintln!("compare: {}: {error}", folder.display());
                ExitCode::FAILURE
            }
        },
        Ok((task, plan)) => with_port(task, plan),
        Err(message) => {
            eprint!("compare: {message}\n{USAGE}");
            ExitCode::from(2)
        }
    }
}

fn arguments(words: impl Iterator<Item = String>) -> Result<(Task, Plan), String> {
    let mut task = Task::Compare;
    let mut plan = Plan {
        seed: 1,
        payloads: 5_100_000,
        sequences: 500_000,
        exhaustive: Exhaustive::Long,
        threads: std::thread::available_parallelism().map_or(1, |n| n.get()),
    };
    let mut words = words;
    while let Some(word) = words.next() {
        let mut value = || words.next().ok_or(format!("{word} needs a value"));
        let number = |text: String| {
            text.replace([',', '_'], "")
                .parse::<u64>()
                .map_err(|_| format!("{text} is no number"))
        };
        match word.as_str() {
            "--quick" => {
                plan.payloads = 200_000;
                plan.sequences = 20_000;
                plan.exhaustive = Exhaustive::Short;
            }
            "--count" => plan.payloads = number(value()?)?,
            "--sequences" => plan.sequences = number(value()?)?,
            "--seed" => plan.seed = number(value()?)?,
            "--threads" => plan.threads = number(value()?)?.max(1) as usize,
            "--sabotage" => task = Task::Sabotage,
            "--bench" => task = Task::Bench,
            "--instructions" => task = Task::Instructions,
            "--record" => task = Task::Record(value()?.into()),
            _ => return Err(format!("what is {word}?")),
        }
    }
    Ok((task, plan))
}

#[cfg(not(feature = "port"))]
fn with_port(_: Task, _: Plan) -> ExitCode {
    eprintln!("compare: built without the port; only --record can run");
    ExitCode::from(2)
}

#[cfg(feature = "port")]
fn with_port(task: Task, mut plan: Plan) -> ExitCode {
    match task {
        Task::Sabotage => {
            plan.payloads = plan.payloads.min(20_000);
            plan.sequences = plan.sequences.min(5_000);
            plan.exhaustive = Exhaustive::None;
            match sabotage::run(&port::Hub, &plan) {
                0 => ExitCode::SUCCESS,
                _ => ExitCode::FAILURE,
            }
        }
        Task::Bench => {
            bench::run(&port::Hub, &bench::TIME, plan.seed);
            ExitCode::SUCCESS
        }
        Task::Instructions => {
            bench::run(&port::Hub, &bench::INSTRUCTIONS, plan.seed);
            ExitCode::SUCCESS
        }
        _ => compare(&plan),
    }
}

#[cfg(feature = "port")]
fn compare(plan: &Plan) -> ExitCode {
    println!(
        "seed {}, {} seeded payloads and messages, {} seeded sequences, {} threads",
        plan.seed, plan.payloads, plan.sequences, plan.threads
    );
    let mut differences = 0;
    for discovery in [true, false] {
        let start = std::time::Instant::now();
        let (name, tally) = if discovery {
            let tally = whole::service_discovery(&port::Hub, plan);
            ("service discovery", tally)
        } else {
            ("streams of segments", whole::streams(&port::Hub, plan))
        };
        println!("\n== {name}, {:.0} s ==", start.elapsed().as_secs_f64());
        tally.print();
        differences += tally.differences;
    }
    if differences == 0 {
        println!("\nno difference");
        ExitCode::SUCCESS
    } else {
        println!("\n{differences} differences");
        ExitCode::FAILURE
    }
}
