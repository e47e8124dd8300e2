//! One call on one trace, given in words on the command line.

use crate::mistakes;
use crate::port::{Arrival, EndOfSlot, Kind, Port};
use crate::rules::{self, Record, Refusal, Totals, Verdict, PREEMPTED, PUSHED_OUT, REJECTED, SENT};

/// Greedy, pg, mf, plan, port or audit; room; beta as num,den or lo,hi,r or - ; slots; values; for
/// the audit the record, fate/when/by a packet. Commas stand between numbers, - for none. Gives two
/// lines, what is said and the thirteen totals; nothing where the words are not understood. The
/// lists that a record is written into hold 7 before.
pub fn run(words: &[&str]) -> Option<String> {
    let [call, room, parameters, slots, values, record @ ..] = words else {
        return None;
    };
    let room = mistakes::passed(room.parse().ok()?);
    let parameters = numbers(parameters)?;
    let (slots, values) = (numbers(slots)?, numbers(values)?);
    let n = slots.len();
    let mut written = Record {
        fates: vec![7; n],
        whens: vec![7; n],
        bys: vec![7; n],
    };
    let answer = match (*call, &parameters[..], record) {
        ("greedy", [], []) => rules::greedy(&slots, &values, room, &mut written),
        ("pg", [num, den], []) => rules::pg(&slots, &values, room, (*num, *den), &mut written),
        ("mf", [lo, hi, r], []) => rules::mf(&slots, &values, room, (*lo, *hi, *r), &mut written),
        ("plan", [], []) => rules::plan(&slots, &values, room, &mut written),
        ("port", [num, den], []) => fed(&slots, &values, room, (*num, *den), &mut written),
        ("audit", [], [record]) => {
            return Some(audited(rules::audit(
                &slots,
                &values,
                room,
                &entries(record)?,
            )))
        }
        _ => return None,
    };
    Some(match answer {
        Ok(totals) => said(&record_in_words(&written), &totals),
        Err(refusal) => refused(refusal),
    })
}

/// A call a line: the two lines of each. Nothing where one is not understood.
pub fn runs(calls: &str) -> Option<String> {
    let answer = |line: &str| run(&line.split(' ').collect::<Vec<_>>());
    calls.lines().map(answer).collect()
}

/// A live port fed the trace, where PG's call accepts that: the record that its answers tell. Every
/// slot is ended; after the last arrival slots go on until the port is idle.
fn fed(
    slots: &[u64],
    values: &[u64],
    room: u64,
    (num, den): (u64, u64),
    record: &mut Record,
) -> Result<Totals, Refusal> {
    rules::pg(slots, values, room, (num, den), &mut record.clone())?;
    let (mut port, made) = Port::make(room, num, den);
    made?;
    let mut slot = 1;
    for i in 0..slots.len() {
        while slot < slots[i] {
            port = ended(port, slot, record)?.0;
            slot += 1;
        }
        let (next, answer) = port.arrival(values[i]);
        port = next;
        match answer {
            Arrival::Held { number, lost } => {
                if let Some(loss) = lost {
                    let fate = match loss.kind {
                        Kind::PushedOut => PUSHED_OUT,
                        Kind::Preempted => PREEMPTED,
                    };
                    record.set(loss.number as usize - 1, fate, slot, number);
                }
            }
            Arrival::Rejected { number } => record.set(i, REJECTED, slot, number),
            Arrival::Refused(refusal) => return Err(refusal),
        }
    }
    let mut idle = false;
    while !idle {
        (port, idle) = ended(port, slot, record)?;
        slot += 1;
    }
    Ok(rules::totals(slots, values, record))
}

/// The port after the end of a slot, and whether it was idle.
fn ended(port: Port, slot: u64, record: &mut Record) -> Result<(Port, bool), Refusal> {
    let (port, answer) = port.end_of_slot();
    match answer {
        EndOfSlot::Sent { number, .. } => record.set(number as usize - 1, SENT, slot, 0),
        EndOfSlot::Idle => return Ok((port, true)),
        EndOfSlot::Refused(refusal) => return Err(refusal),
    }
    Ok((port, false))
}

pub fn numbers(word: &str) -> Option<Vec<u64>> {
    if word == "-" {
        return Some(Vec::new());
    }
    word.split(',').map(|number| number.parse().ok()).collect()
}

fn entries(word: &str) -> Option<Record> {
    let mut record = Record {
        fates: Vec::new(),
        whens: Vec::new(),
        bys: Vec::new(),
    };
    if word == "-" {
        return Some(record);
    }
    for entry in word.split(',') {
        let [fate, when, by] = entry.split('/').collect::<Vec<_>>()[..] else {
            return None;
        };
        record.fates.push(fate.parse().ok()?);
        record.whens.push(when.parse().ok()?);
        record.bys.push(by.parse().ok()?);
    }
    Some(record)
}

fn audited(answer: Result<Verdict, Refusal>) -> String {
    match answer {
        Ok(Verdict::Passed(totals)) => said("passes", &totals),
        Ok(Verdict::Fault { number, packet }) => {
            said(&format!("fault {number} at {packet}"), &Totals::default())
        }
        Err(refusal) => refused(refusal),
    }
}

fn refused(refusal: Refusal) -> String {
    format!("refusal {} at {}\n\n", refusal.number, refusal.place)
}

fn record_in_words(record: &Record) -> String {
    let mut entries = Vec::new();
    for i in 0..record.fates.len() {
        let (fate, when, by) = (record.fates[i], record.whens[i], record.bys[i]);
        entries.push(format!("{fate}/{when}/{by}"));
    }
    entries.join(", ")
}

fn said(what: &str, totals: &Totals) -> String {
    let mut text = format!("{what}\n{} {}", totals.arrived.count, totals.arrived.value);
    for sum in &totals.fates {
        text += &format!(" {} {}", sum.count, sum.value);
    }
    text + &format!(" {}\n", totals.most_held)
}
