//! The benchmark: our proved calls, plain Rust and tuned Rust side by side, in one process on the same inputs. All results are compared first; a
//! difference is printed and nothing is timed. A time is the best of many samples, taken in turn from the versions; standard error has the medians and how
//! far the samples spread.
//!
//!     speed [--smoke] [--plot FILE.svg] [--rounds N] [--only TEXT]

mod cases;
mod inputs;
mod kinds;
mod ours;
mod plain;
mod plain_port;
mod plot;
mod tuned;

use cases::Case;
use std::time::{Duration, Instant};

pub struct Row {
    pub name: String,
    /// ns a packet, the best of many: ours, plain Rust, tuned Rust.
    pub best: [Option<f64>; 3],
}

struct Measured {
    best: f64,
    median: f64,
    /// From the lowest tenth to the highest tenth, as a part of the median.
    spread: f64,
}

fn time(run: &mut dyn FnMut(), times: u32) -> Duration {
    let start = Instant::now();
    for _ in 0..times {
        run();
    }
    start.elapsed()
}

/// How often a version runs in one sample, so that the sample is long enough for the clock.
fn times_for(run: &mut dyn FnMut(), least: Duration) -> u32 {
    let mut times = 1;
    while time(run, times) < least {
        times *= 2;
    }
    times
}

fn measured(mut samples: Vec<f64>) -> Measured {
    samples.sort_by(f64::total_cmp);
    let at = |part: f64| samples[((samples.len() - 1) as f64 * part) as usize];
    Measured {
        best: samples[0],
        median: at(0.5),
        spread: (at(0.9) - at(0.1)) / at(0.5),
    }
}

/// Interleaved repeats: ours, plain, tuned, ours, and so on.
fn measure(case: &mut Case, rounds: usize, least: Duration) -> [Option<Measured>; 3] {
    let mut times = [1; 3];
    for (version, times) in case.versions.iter_mut().zip(&mut times) {
        if let Some(run) = version {
            *times = times_for(run, least);
        }
    }
    let mut samples: [Vec<f64>; 3] = Default::default();
    for _ in 0..rounds {
        for ((version, samples), &times) in case.versions.iter_mut().zip(&mut samples).zip(&times) {
            if let Some(run) = version {
                let passed = time(run, times).as_nanos() as f64;
                samples.push(passed / f64::from(times) / case.packets as f64);
            }
        }
    }
    samples.map(|samples| (!samples.is_empty()).then(|| measured(samples)))
}

fn number(n: Option<f64>) -> String {
    n.map_or(String::new(), |n| format!("{n:.2}"))
}

fn main() {
    let mut smoke = false;
    let mut picture = None;
    let mut rounds = 101;
    let mut only = String::new();
    let mut arguments = std::env::args().skip(1);
    while let Some(argument) = arguments.next() {
        let mut value = || arguments.next().unwrap_or_else(|| usage());
        match argument.as_str() {
            "--smoke" => smoke = true,
            "--plot" => picture = Some(value()),
            "--rounds" => rounds = value().parse().unwrap_or_else(|_| usage()),
            "--only" => only = value(),
            _ => usage(),
        }
    }
    let all = cases::all();
    if all.differences > 0 {
        eprintln!("speed: {} differences; nothing is timed", all.differences);
        std::process::exit(1);
    }
    eprintln!(
        "speed: all results of {} cases are the same",
        all.cases.len()
    );
    let (rounds, least) = if smoke {
        (1, Duration::ZERO)
    } else {
        (rounds, Duration::from_micros(100))
    };
    println!("case,ours_ns_per_packet,rust_ns_per_packet,tuned_ns_per_packet,ratio_to_rust,ratio_to_tuned");
    let mut rows = Vec::new();
    for mut case in all.cases {
        if !case.name.contains(&only) {
            continue;
        }
        let found = measure(&mut case, rounds, least);
        let best = [0, 1, 2].map(|i| found[i].as_ref().map(|m| m.best));
        let ratio = |to: usize| best[0].zip(best[to]).map(|(ours, other)| ours / other);
        println!(
            "{},{},{},{},{},{}",
            case.name,
            number(best[0]),
            number(best[1]),
            number(best[2]),
            number(ratio(1)),
            number(ratio(2)),
        );
        if !smoke {
            let said: Vec<String> = found
                .iter()
                .zip(["ours", "rust", "tuned"])
                .filter_map(|(found, version)| {
                    let m = found.as_ref()?;
                    Some(format!(
                        "{version} median {:.2}, spread {:.0}%",
                        m.median,
                        m.spread * 100.0
                    ))
                })
                .collect();
            eprintln!("speed: {}: {}", case.name, said.join("; "));
        }
        rows.push(Row {
            name: case.name,
            best,
        });
    }
    if let Some(file) = picture {
        if let Err(error) = std::fs::write(&file, plot::svg(&rows)) {
            eprintln!("speed: {file}: {error}");
            std::process::exit(1);
        }
    }
}

fn usage() -> ! {
    eprintln!("usage: speed [--smoke] [--plot FILE.svg] [--rounds N] [--only TEXT]");
    std::process::exit(2);
}
