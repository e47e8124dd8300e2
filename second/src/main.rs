//! The second program: answers the random cases of CASES.md by the rules of the scope, from which
//! alone it was written. It shares nothing with the proved crates.

#![forbid(unsafe_code)]
#![allow(
    clippy::manual_find,
    clippy::manual_range_contains,
    clippy::needless_range_loop
)]

mod byhand;
mod cases;
mod fewer;
mod kinds;
mod mistakes;
mod one;
mod port;
mod rules;
mod tried;

use mistakes::Mistake;
use std::io::{self, BufWriter, Write};
use std::process::ExitCode;

const USAGE: &str = "usage: second                  a line for each batch of cases: letters and sum
       second C                every number of case C
       second --drawn C        the trace and parameters of case C
       second --run CALL ROOM PARAMETERS SLOTS VALUES [RECORD]
                               one call on one trace: what it says and its totals
       second --runs < FILE    a call a line, in the words of --run: all their answers
       second --mistakes       the mistakes of docs/MISTAKES.md, a name and a sentence each
       second --mistake NAME --run CALL ..
                               the same call with that mistake made
       second --mistake NAME --fewer CALL N
                               small traces of fewer than N packets, and how many go wrong
       second --mistake NAME --check-by-hand
                               which of the scope's numbers that mistake gets wrong
       second --tried ROOM SLOTS VALUES
                               the value that greedy, PG with every beta, and the plan send
       second --tried --fewer N
                               small traces of fewer than N packets, and on how many of them
                               the plan sends more than greedy and than PG with any beta
       second --kinds [N]      how often each kind of case comes, of all or of the first N
       second --check-by-hand  the scope's numbers to check by hand";

fn main() -> ExitCode {
    let arguments: Vec<String> = std::env::args_os()
        .skip(1)
        .map(|argument| argument.to_string_lossy().into_owned())
        .collect();
    let words: Vec<&str> = arguments.iter().map(String::as_str).collect();
    let written = match words[..] {
        [] => write_sums(),
        ["--check-by-hand"] => return check_by_hand(None),
        ["--mistake", name, "--check-by-hand"] => match mistakes::named(name) {
            Some(mistake) => return check_by_hand(Some(mistake)),
            None => return usage(),
        },
        ["--kinds"] => return write_kinds(cases::CASES),
        ["--kinds", n] => match n.parse::<u32>() {
            Ok(n) => return write_kinds(u64::from(n)),
            Err(_) => return usage(),
        },
        ["--run", ref rest @ ..] => match one::run(rest) {
            Some(text) => write_text(&text),
            None => return usage(),
        },
        ["--runs"] => match io::read_to_string(io::stdin())
            .ok()
            .and_then(|calls| one::runs(&calls))
        {
            Some(text) => write_text(&text),
            None => return usage(),
        },
        ["--tried", "--fewer", n] => match n.parse().ok().and_then(tried::count) {
            Some((traces, more)) => {
                write_text(&format!("{traces} traces, the plan sends more on {more}\n"))
            }
            None => return usage(),
        },
        ["--tried", room, slots, values] => match tried::run(room, slots, values) {
            Some(tried) => write_tried(&tried),
            None => return usage(),
        },
        ["--mistakes"] => write_mistakes(),
        ["--mistake", name, ref rest @ ..] => match mistaken(name, rest) {
            Some(text) => write_text(&text),
            None => return usage(),
        },
        ["--drawn", c] => match c.parse::<u32>() {
            Ok(c) => write_text(&cases::drawn(u64::from(c))),
            Err(_) => return usage(),
        },
        [c] => match c.parse::<u32>() {
            Ok(c) => write_case(u64::from(c)),
            Err(_) => return usage(),
        },
        _ => return usage(),
    };
    if was_written(written) {
        ExitCode::SUCCESS
    } else {
        ExitCode::FAILURE
    }
}

/// Wrong use: status 2.
fn usage() -> ExitCode {
    let _ = writeln!(io::stderr(), "{USAGE}");
    ExitCode::from(2)
}

/// Says so where writing failed.
fn was_written(written: io::Result<()>) -> bool {
    if let Err(error) = &written {
        let _ = writeln!(
            io::stderr(),
            "second: writing to standard output failed: {error}"
        );
    }
    written.is_ok()
}

fn write_text(text: &str) -> io::Result<()> {
    let mut out = io::stdout().lock();
    out.write_all(text.as_bytes())?;
    out.flush()
}

fn mistaken(name: &str, words: &[&str]) -> Option<String> {
    let mistake = mistakes::named(name)?;
    match words {
        ["--run", rest @ ..] => mistakes::with(Some(mistake), || one::run(rest)),
        ["--fewer", call, n] => {
            let (traces, wrong) = fewer::count(mistake, call, n.parse().ok()?)?;
            Some(format!("{traces} traces, {wrong} go wrong\n"))
        }
        _ => None,
    }
}

fn write_tried(tried: &tried::Tried) -> io::Result<()> {
    let mut text = format!("greedy {}\n", tried.greedy);
    for (num, den, value) in &tried.pg {
        text += &format!("pg {num}/{den} {value}\n");
    }
    write_text(&(text + &format!("plan {}\n", tried.plan)))
}

fn write_mistakes() -> io::Result<()> {
    let mut text = String::new();
    for (_, name, sentence) in mistakes::ALL {
        text += &format!("{name}: {sentence}\n");
    }
    write_text(&text)
}

fn write_sums() -> io::Result<()> {
    let mut out = io::stdout().lock();
    for batch in 0..cases::CASES / cases::BATCH {
        writeln!(out, "{}", cases::line_of_batch(batch))?;
    }
    out.flush()
}

fn write_case(c: u64) -> io::Result<()> {
    let mut out = BufWriter::new(io::stdout().lock());
    for call in cases::calls(c) {
        write!(out, "{}", call.what)?;
        for x in call.numbers {
            write!(out, " {x}")?;
        }
        writeln!(out)?;
    }
    out.flush()
}

/// Fails where a kind does not come at all.
fn write_kinds(cases: u64) -> ExitCode {
    let mut text = String::new();
    let mut missing = 0;
    for (kind, count) in kinds::count(cases) {
        text += &format!("{count} {kind}\n");
        if count == 0 {
            missing += 1;
        }
    }
    if was_written(write_text(&text)) && missing == 0 {
        ExitCode::SUCCESS
    } else {
        ExitCode::FAILURE
    }
}

/// Fails where a number differs and no mistake was asked for.
fn check_by_hand(mistake: Option<Mistake>) -> ExitCode {
    let (passed, differing) = mistakes::with(mistake, byhand::run);
    let mut text = String::new();
    for line in &differing {
        text += &format!("{line}\n");
    }
    text += &format!("{passed} passed, {} failed\n", differing.len());
    if was_written(write_text(&text)) && (differing.is_empty() || mistake.is_some()) {
        ExitCode::SUCCESS
    } else {
        ExitCode::FAILURE
    }
}
