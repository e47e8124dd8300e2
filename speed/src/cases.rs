//! The cases. Making one runs every version of its call and compares all that they answer and write; nothing is timed before that.

use crate::inputs::{arrivals_and_ends, bursts, trace, two_values, Draw, Load, LOADS};
use crate::kinds::*;
use crate::{ours, plain, plain_port, tuned};
use std::hint::black_box;
use std::rc::Rc;

pub struct Case {
    pub name: String,
    pub packets: usize,
    /// Ours, plain Rust, and tuned Rust where there is one.
    pub versions: [Option<Box<dyn FnMut()>>; 3],
}

pub struct Cases {
    pub cases: Vec<Case>,
    pub differences: usize,
}

type Run = Rc<dyn Fn(&Trace, &mut Record) -> Answer>;

const SEED: u64 = 20_261_115;
/// A beta out of range.
const NO_BETA: Beta = Beta { num: 1, den: 1 };
const NAMES: [&str; 3] = ["ours", "rust", "tuned"];

fn poisoned(packets: usize) -> Record {
    let mut record = Record::blank(packets);
    for i in 0..packets {
        record.enter(i, 77, 77, 77);
    }
    record
}

impl Cases {
    fn differs(&mut self, case: &str, version: &str, what: &str) {
        eprintln!("speed: {case}: {version} and ours differ in {what}");
        self.differences += 1;
    }

    /// A run of each version over a trace. Returns the record.
    fn run(&mut self, name: &str, trace: &Trace, runs: [Option<Run>; 3], timed: bool) -> Record {
        let packets = trace.slots.len();
        let mut results: Vec<(Answer, Record)> = Vec::new();
        for (run, version) in runs.iter().zip(NAMES) {
            let Some(run) = run else { continue };
            let mut record = poisoned(packets);
            let answer = run(trace, &mut record);
            if answer.is_err() {
                self.differs(name, version, "being refused");
            }
            if let Some((first, first_record)) = results.first() {
                if *first != answer {
                    self.differs(name, version, "the totals");
                }
                if *first_record != record {
                    self.differs(name, version, "the record");
                }
            }
            results.push((answer, record));
        }
        if timed {
            let versions = runs.map(|run| {
                let run = run?;
                let trace = trace.clone();
                let mut record = Record::blank(packets);
                Some(Box::new(move || {
                    let answer = run(black_box(&trace), black_box(&mut record));
                    let _ = black_box(answer);
                }) as Box<dyn FnMut()>)
            });
            self.cases.push(Case {
                name: name.to_string(),
                packets,
                versions,
            });
        }
        results.swap_remove(0).1
    }

    /// A call that every version refuses, in the same words and with nothing written.
    fn refused(&mut self, name: &str, trace: &Trace, runs: [Option<Run>; 3]) {
        let packets = trace.slots.len();
        let mut first = None;
        for (run, version) in runs.iter().zip(NAMES) {
            let Some(run) = run else { continue };
            let mut record = poisoned(packets);
            let answer = run(trace, &mut record);
            if answer.is_ok() || *first.get_or_insert(answer) != answer {
                self.differs(name, version, "the refusal");
            }
            if record != poisoned(packets) {
                self.differs(name, version, "what a refusal writes");
            }
        }
    }

    fn audit(&mut self, name: &str, trace: &Trace, room: usize, record: &Record) {
        let calls: [fn(&Trace, usize, &Record) -> Answer; 3] =
            [ours::audit, plain::audit, tuned::audit];
        let first = ours::audit(trace, room, record);
        if first.is_err() {
            self.differs(name, "the scope", "the record's being lawful");
        }
        // the record as it is, and with faults in it
        let mut draw = Draw::new(SEED);
        let mut tried = record.clone();
        for turn in 0..40 {
            let first = ours::audit(trace, room, &tried);
            for (call, version) in calls.iter().zip(NAMES) {
                if call(trace, room, &tried) != first {
                    self.differs(name, version, "the audit's answer");
                }
            }
            tried = record.clone();
            let n = record.fates.len() as u32;
            let at = draw.between(0, n - 1) as usize;
            match turn % 4 {
                0 => tried.fates[at] = draw.between(0, 6),
                1 => tried.whens[at] += draw.between(0, 3),
                2 => tried.bys[at] = draw.between(0, n),
                _ => tried.enter(at, SENT, record.whens[at].max(trace.slots[at]) + 1, 0),
            }
        }
        let versions = calls.map(|call| {
            let (trace, record) = (trace.clone(), record.clone());
            Some(Box::new(move || {
                let _ = black_box(call(black_box(&trace), black_box(room), black_box(&record)));
            }) as Box<dyn FnMut()>)
        });
        self.cases.push(Case {
            name: name.to_string(),
            packets: trace.slots.len(),
            versions,
        });
    }

    fn port(&mut self, name: &str, packets: usize, events: Vec<u32>, room: usize, beta: Beta) {
        let calls: [fn(&[u32], usize, Beta) -> u64; 2] = [ours::feed, plain_port::feed];
        for length in [events.len(), events.len() / 2, 1, 0] {
            if calls[0](&events[..length], room, beta) != calls[1](&events[..length], room, beta) {
                self.differs(name, "rust", "what the port says");
            }
        }
        for (room, beta) in [(0, beta), (257, beta), (room, NO_BETA)] {
            let said = calls[0](&events, room, beta);
            if said >> 32 == 0 || said != calls[1](&events, room, beta) {
                self.differs(name, "rust", "a refused making");
            }
        }
        let versions = calls.map(|call| {
            let events = events.clone();
            Some(Box::new(move || {
                black_box(call(black_box(&events), black_box(room), black_box(beta)));
            }) as Box<dyn FnMut()>)
        });
        let [first, second] = versions;
        self.cases.push(Case {
            name: name.to_string(),
            packets,
            versions: [first, second, None],
        });
    }
}

fn runs(
    ours: impl Fn(&Trace, &mut Record) -> Answer + 'static,
    rust: impl Fn(&Trace, &mut Record) -> Answer + 'static,
    tuned: Option<Run>,
) -> [Option<Run>; 3] {
    [Some(Rc::new(ours)), Some(Rc::new(rust)), tuned]
}

fn greedy(room: usize) -> [Option<Run>; 3] {
    runs(
        move |t, r| ours::greedy(t, room, r),
        move |t, r| plain::greedy(t, room, r),
        Some(Rc::new(move |t, r| tuned::greedy(t, room, r))),
    )
}

fn pg(room: usize, beta: Beta) -> [Option<Run>; 3] {
    runs(
        move |t, r| ours::pg(t, room, beta, r),
        move |t, r| plain::pg(t, room, beta, r),
        Some(Rc::new(move |t, r| tuned::pg(t, room, beta, r))),
    )
}

fn plan(room: usize) -> [Option<Run>; 3] {
    runs(
        move |t, r| ours::plan(t, room, r),
        move |t, r| plain::plan(t, room, r),
        Some(Rc::new(move |t, r| tuned::plan(t, room, r))),
    )
}

pub fn all() -> Cases {
    let mut cases = Cases {
        cases: Vec::new(),
        differences: 0,
    };
    let mut audits: Vec<(String, Trace, usize, Record)> = Vec::new();
    let betas = [Beta { num: 3, den: 2 }, Beta { num: 9, den: 1 }];

    for (load, load_name) in LOADS {
        let trace = trace(load, PACKETS, SEED);
        for room in [1, 16, 256] {
            let name = format!("greedy room {room} {load_name}");
            let record = cases.run(&name, &trace, greedy(room), true);
            audits.push((name, trace.clone(), room, record));
            for beta in betas {
                let name = format!("pg {}/{} room {room} {load_name}", beta.num, beta.den);
                let record = cases.run(&name, &trace, pg(room, beta), true);
                audits.push((name, trace.clone(), room, record));
            }
        }
    }

    let (lo, hi, room) = (3, 40, 16);
    let trace_of_two = two_values(PACKETS, lo, hi, SEED);
    for r in [1, 16] {
        let versions = runs(
            move |t, rec| ours::mf(t, room, (lo, hi, r), rec),
            move |t, rec| plain::mf(t, room, (lo, hi, r), rec),
            None,
        );
        let name = format!("mf r {r} room {room}");
        let record = cases.run(&name, &trace_of_two, versions, true);
        audits.push((name, trace_of_two.clone(), room, record));
    }

    for values_name in ["random", "sorted", "equal"] {
        let slots = bursts(PACKETS, SEED);
        let mut values = trace(Load::Light, PACKETS, SEED).values;
        match values_name {
            "sorted" => values.sort_unstable(),
            "equal" => values.fill(1000),
            _ => {}
        }
        let trace = Trace { slots, values };
        let name = format!("plan {values_name} values room {room}");
        let record = cases.run(&name, &trace, plan(room), true);
        audits.push((name, trace, room, record));
    }

    for (name, trace, room, record) in audits {
        cases.audit(&format!("audit of {name}"), &trace, room, &record);
    }

    let beta = Beta { num: 9, den: 1 };
    for room in [16, 256] {
        let arrivals = arrivals_and_ends(PACKETS, PACKETS, SEED);
        cases.port(
            &format!("port room {room} arrival"),
            PACKETS,
            arrivals,
            room,
            beta,
        );
        let pairs = arrivals_and_ends(PACKETS, room - 1, SEED);
        cases.port(
            &format!("port room {room} arrival and end of slot"),
            PACKETS,
            pairs,
            room,
            beta,
        );
    }

    for packets in [256, 512, 1024, 2048] {
        let trace = trace(Load::Overflow, packets, SEED);
        let record = cases.run(
            &format!("growth: pg 3/2 room 256 overflow {packets} packets"),
            &trace,
            pg(256, betas[0]),
            true,
        );
        cases.audit(
            &format!("growth: audit {packets} packets"),
            &trace,
            256,
            &record,
        );
        let mut trace = trace.clone();
        trace.slots = bursts(packets, SEED);
        cases.run(
            &format!("growth: plan room 16 {packets} packets"),
            &trace,
            plan(16),
            true,
        );
    }

    compare_refused(&mut cases);
    compare_more(&mut cases);
    cases
}

/// Refused calls, compared and not timed.
fn compare_refused(cases: &mut Cases) {
    let beta = Beta { num: 3, den: 2 };
    let fine = two_values(20, 3, 40, SEED);
    let mut slots_down = fine.clone();
    slots_down.slots[6] = 0;
    let mut no_value = fine.clone();
    no_value.values[8] = VALUE + 1;
    let mut one_short = fine.clone();
    one_short.values.pop();
    for (name, trace, room) in [
        ("refused: room 0", &fine, 0),
        ("refused: room 257", &fine, 257),
        ("refused: a slot", &slots_down, 16),
        ("refused: a value", &no_value, 16),
        ("refused: lengths", &one_short, 16),
    ] {
        let mf = runs(
            move |t, r| ours::mf(t, room, (3, 40, 1), r),
            move |t, r| plain::mf(t, room, (3, 40, 1), r),
            None,
        );
        for versions in [greedy(room), pg(room, beta), plan(room), mf] {
            cases.refused(name, trace, versions);
        }
        let record = poisoned(trace.slots.len());
        let first = ours::audit(trace, room, &record);
        for audit in [plain::audit, tuned::audit] {
            if audit(trace, room, &record) != first {
                cases.differs(name, "an audit", "the refusal");
            }
        }
    }
    cases.refused("refused: beta", &fine, pg(16, NO_BETA));
}

/// Random traces that are compared and not timed: short ones, with few and many values, rooms of all sizes.
fn compare_more(cases: &mut Cases) {
    let mut draw = Draw::new(SEED);
    for turn in 0..600 {
        let packets = draw.between(0, if turn % 10 == 0 { 700 } else { 60 }) as usize;
        let high = [3, 60, VALUE][draw.between(0, 2) as usize];
        let room = if turn % 3 == 0 {
            draw.between(1, 256)
        } else {
            draw.between(1, 6)
        } as usize;
        let step = draw.between(1, 4);
        let mut slot = 1;
        let mut trace = Trace {
            slots: Vec::new(),
            values: Vec::new(),
        };
        for _ in 0..packets {
            if draw.between(0, 3) == 0 {
                slot += draw.between(1, step * step);
            }
            trace.slots.push(slot);
            trace.values.push(draw.between(1, high));
        }
        let den = draw.between(1, 9);
        let beta = Beta {
            num: den + draw.between(1, 9),
            den,
        };
        let name = format!("random trace {turn}");
        for versions in [greedy(room), pg(room, beta), plan(room)] {
            let record = cases.run(&name, &trace, versions, false);
            for audit in [plain::audit, tuned::audit] {
                if audit(&trace, room, &record) != ours::audit(&trace, room, &record) {
                    cases.differs(&name, "an audit", "its answer");
                }
            }
        }
        for value in trace.values.iter_mut() {
            *value = if *value % 3 == 0 { 9 } else { 2 };
        }
        let r = draw.between(0, 5) as usize;
        let versions = runs(
            move |t, rec| ours::mf(t, room, (2, 9, r), rec),
            move |t, rec| plain::mf(t, room, (2, 9, r), rec),
            None,
        );
        cases.run(&name, &trace, versions, false);
    }
}
