//! The random cases of CASES.md: the random source, what a case draws, what is called and said.

use crate::port::{Arrival, EndOfSlot, Kind, Port, PLACES};
use crate::rules::{self, Record, Refusal, Totals, Verdict, SENT};

pub const CASES: u64 = 20_000;
pub const BATCH: u64 = 50;

const U32_MAX: u64 = 4_294_967_295;
const PORT_PACKETS: usize = 300;
pub const GAP_ENDS: u64 = 300;

// ---------------------------------------------------------------- numbers at random

struct Source {
    s: u64,
}

impl Source {
    fn of_case(c: u64) -> Source {
        let mut source = Source {
            s: 1 + (c * 7_919 + 12_345) % 2_147_483_646,
        };
        for _ in 0..3 {
            source.step();
        }
        source
    }

    fn step(&mut self) {
        self.s = self.s * 48_271 % 2_147_483_647;
    }

    fn draw(&mut self, k: u64) -> u64 {
        self.step();
        self.s % k
    }
}

// ---------------------------------------------------------------- the trace of a case

pub struct Case {
    pub n: usize,
    pub slots: Vec<u64>,
    pub values: Vec<u64>,
    pub mf_values: Vec<u64>,
    pub room: u64,
    pub num: u64,
    pub den: u64,
    pub lo: u64,
    pub hi: u64,
    pub r: u64,
    pub lengths: Lengths,
}

/// How long the lists are that the calls are lent.
pub struct Lengths {
    pub slots: usize,
    pub values: usize,
    pub fates: usize,
    pub whens: usize,
    pub bys: usize,
}

impl Lengths {
    fn all(n: usize) -> Lengths {
        Lengths {
            slots: n,
            values: n,
            fates: n,
            whens: n,
            bys: n,
        }
    }
}

/// Items 1 to 7 of "The trace of a case".
fn make(c: u64, source: &mut Source) -> Case {
    let n = size(source);
    let room = room(source);
    let values = values(source, n);
    let slots = slots(source, n);

    let mut den = 1 + source.draw(4);
    let mut num = den + 1 + source.draw(8);
    if source.draw(8) == 0 {
        den = 1 + source.draw(65_534);
        num = den + 1 + source.draw(65_535 - den);
    }

    let lo = 1 + source.draw(50);
    let hi = lo + 1 + source.draw(50);
    let r = if source.draw(6) == 0 {
        source.draw(256)
    } else {
        source.draw(4)
    };
    let mut mf_values = Vec::new();
    for value in &values {
        mf_values.push(if value % 2 == 0 { hi } else { lo });
    }

    let mut case = Case {
        n,
        slots,
        values,
        mf_values,
        room,
        num,
        den,
        lo,
        hi,
        r,
        lengths: Lengths::all(n),
    };
    if c % 4 == 3 {
        let times = if c % 64 == 63 {
            case.n = 2_049;
            case.slots = vec![1; 2_049];
            case.values = vec![1; 2_049];
            case.mf_values = vec![lo; 2_049];
            case.lengths = Lengths::all(2_049);
            source.draw(2)
        } else {
            1 + source.draw(3)
        };
        for _ in 0..times {
            spoil(source, &mut case);
        }
    }
    case.slots.resize(case.lengths.slots, 1_000_000);
    case.values.resize(case.lengths.values, 1);
    case.mf_values.resize(case.lengths.values, 1);
    case
}

fn size(source: &mut Source) -> usize {
    let n = match source.draw(16) {
        0 => 0,
        1..=9 => 1 + source.draw(12),
        10..=13 => 1 + source.draw(100),
        14 => 1 + source.draw(400),
        _ => {
            if source.draw(8) == 0 {
                2_048
            } else {
                1 + source.draw(2_048)
            }
        }
    };
    n as usize
}

fn room(source: &mut Source) -> u64 {
    match source.draw(6) {
        0 => 1,
        1 => 2,
        2 => 3 + source.draw(4),
        3 => 1 + source.draw(16),
        4 => 1 + source.draw(256),
        _ => 256,
    }
}

fn values(source: &mut Source, n: usize) -> Vec<u64> {
    let kind = source.draw(6);
    let one = 1 + source.draw(65_535);
    let a = 1 + source.draw(100);
    let b = a + 1 + source.draw(1_000);
    let mut values = Vec::new();
    for _ in 0..n {
        values.push(match kind {
            0 => one,
            1 => {
                if source.draw(2) == 0 {
                    a
                } else {
                    b
                }
            }
            2 => 1 + source.draw(4),
            3 => 1 + source.draw(100),
            4 => 1 + source.draw(65_535),
            _ => 1 << source.draw(16),
        });
    }
    values
}

fn slots(source: &mut Source, n: usize) -> Vec<u64> {
    let mut slot = match source.draw(3) {
        0 => 1,
        1 => 1 + source.draw(10),
        _ => 999_000 + source.draw(1_000),
    };
    let gaps = source.draw(5);
    let mut slots = Vec::new();
    for i in 0..n {
        if i > 0 {
            slot += gap(source, gaps);
        }
        if slot > 1_000_000 {
            slot = 1_000_000;
        }
        slots.push(slot);
    }
    slots
}

fn gap(source: &mut Source, gaps: u64) -> u64 {
    match gaps {
        0 => 0,
        1 => source.draw(2),
        2 => {
            if source.draw(4) == 0 {
                1 + source.draw(3)
            } else {
                0
            }
        }
        3 => 1,
        _ => {
            if source.draw(8) == 0 {
                source.draw(50_000)
            } else {
                source.draw(2)
            }
        }
    }
}

/// One bad argument.
fn spoil(source: &mut Source, case: &mut Case) {
    match source.draw(20) {
        0 => case.room = 0,
        1 => case.room = 257,
        2 => case.room = U32_MAX,
        3 => case.lengths.slots = other_length(source, case.n),
        4 => case.lengths.values = other_length(source, case.n),
        5 => case.lengths.fates = other_length(source, case.n),
        6 => case.lengths.whens = other_length(source, case.n),
        7 => case.lengths.bys = other_length(source, case.n),
        way @ 8..=13 => spoil_beta(way - 8, &mut case.num, &mut case.den),
        14 => match source.draw(4) {
            0 => case.lo = case.hi,
            1 => case.lo = 0,
            2 => case.hi = 65_536,
            _ => std::mem::swap(&mut case.lo, &mut case.hi),
        },
        15 => case.r = 256,
        16 => {
            if case.n > 0 {
                let place = source.draw(case.n as u64) as usize;
                case.slots[place] = match source.draw(3) {
                    0 => 0,
                    1 => 1_000_001,
                    _ => case.slots[place].saturating_sub(1),
                };
            }
        }
        17 => {
            if case.n > 0 {
                let place = source.draw(case.n as u64) as usize;
                let value = if source.draw(2) == 0 { 0 } else { 65_536 };
                case.values[place] = value;
                case.mf_values[place] = value;
            }
        }
        _ => {
            if case.n > 0 {
                let place = source.draw(case.n as u64) as usize;
                case.mf_values[place] = match source.draw(4) {
                    0 => case.hi + 1,
                    1 => 65_535,
                    2 => case.lo + 1,
                    _ => case.lo.saturating_sub(1),
                };
            }
        }
    }
}

// The six ways in which a beta is spoilt.
fn spoil_beta(way: u64, num: &mut u64, den: &mut u64) {
    match way {
        0 => *num = 0,
        1 => *den = 0,
        2 => *num = *den,
        3 => *num = 65_536,
        4 => (*num, *den) = (65_537, 65_536),
        _ => std::mem::swap(num, den),
    }
}

fn other_length(source: &mut Source, n: usize) -> usize {
    if source.draw(2) == 0 {
        n + 1
    } else {
        n.saturating_sub(1)
    }
}

/// What a case draws, one thing a line, for a reader.
pub fn drawn(c: u64) -> String {
    let Answered { case, by_hand, .. } = answer(c);
    let mut text = String::new();
    text += &format!("slots {:?}\n", case.slots);
    text += &format!("values {:?}\n", case.values);
    text += &format!("MF's values {:?}\n", case.mf_values);
    text += &format!("room {}\n", case.room);
    text += &format!("num {} den {}\n", case.num, case.den);
    text += &format!("lo {} hi {} r {}\n", case.lo, case.hi, case.r);
    let record = case.fresh_record();
    text += &format!(
        "lengths of fates {} whens {} bys {}\n",
        record.fates.len(),
        record.whens.len(),
        record.bys.len()
    );
    if let Some(port) = by_hand {
        text += &format!(
            "port by hand: room {} num {} den {}",
            port.room, port.num, port.den
        );
        text += &format!(" last {} held {}\n", port.last, port.held);
        for place in 0..PLACES {
            let (value, number) = (port.values[place], port.numbers[place]);
            if value != 0 || number != 0 {
                text += &format!("  place {place} value {value} number {number}\n");
            }
        }
    }
    text
}

// ---------------------------------------------------------------- what is called and said

/// One call: what it is, and the numbers said of it.
pub struct Call {
    pub what: String,
    pub numbers: Vec<u64>,
}

/// All calls of a case, in order.
pub fn calls(c: u64) -> Vec<Call> {
    answer(c).calls
}

/// A case with all that was said of it, and the port made by hand, where there was one.
pub struct Answered {
    pub case: Case,
    pub by_hand: Option<Port>,
    pub calls: Vec<Call>,
}

pub fn answer(c: u64) -> Answered {
    let mut source = Source::of_case(c);
    let case = make(c, &mut source);
    let mut calls = Vec::new();

    let mut record = case.fresh_record();
    let answer = rules::greedy(&case.slots, &case.values, case.room, &mut record);
    calls.push(said_policy("greedy", answer, &record));
    calls.push(case.said_audit("audit of greedy", &case.values, case.room, &record));

    let mut record = case.fresh_record();
    let beta = (case.num, case.den);
    let answer = rules::pg(&case.slots, &case.values, case.room, beta, &mut record);
    calls.push(said_policy("PG", answer, &record));
    calls.push(case.said_audit("audit of PG", &case.values, case.room, &record));
    let pg_record = record;

    let mut record = case.fresh_record();
    let parameters = (case.lo, case.hi, case.r);
    let answer = rules::mf(
        &case.slots,
        &case.mf_values,
        case.room,
        parameters,
        &mut record,
    );
    calls.push(said_policy("MF", answer, &record));
    calls.push(case.said_audit("audit of MF", &case.mf_values, case.room, &record));

    let mut record = case.fresh_record();
    let answer = rules::plan(&case.slots, &case.values, case.room, &mut record);
    calls.push(said_policy("plan", answer, &record));
    calls.push(case.said_audit("audit of plan", &case.values, case.room, &record));

    if case.n >= 1 && c % 4 != 3 {
        for _ in 0..3 {
            let mut record = pg_record.clone();
            let damages = source.draw(3) + 1;
            for _ in 0..damages {
                damage(&mut source, &case, &mut record);
            }
            let room = if source.draw(4) == 0 { 1 } else { case.room };
            calls.push(case.said_audit("audit of damaged", &case.values, room, &record));
        }
    }

    if c % 4 != 1 {
        feed_port(&case, &mut calls);
    }
    let mut by_hand = None;
    if c % 4 != 3 {
        let port = port_by_hand(&mut source, &case);
        by_hand = Some(port.clone());
        call_port(&mut source, port, &mut calls);
    }
    Answered {
        case,
        by_hand,
        calls,
    }
}

impl Case {
    pub fn fresh_record(&self) -> Record {
        Record {
            fates: vec![7; self.lengths.fates],
            whens: vec![7; self.lengths.whens],
            bys: vec![7; self.lengths.bys],
        }
    }

    fn said_audit(&self, what: &str, values: &[u64], room: u64, record: &Record) -> Call {
        let numbers = match rules::audit(&self.slots, values, room, record) {
            Ok(Verdict::Passed(totals)) => said_totals(0, 0, &totals),
            Ok(Verdict::Fault { number, packet }) => {
                said_totals(number, packet, &Totals::default())
            }
            Err(refusal) => said_totals(refusal.number, refusal.place, &Totals::default()),
        };
        Call {
            what: what.to_string(),
            numbers,
        }
    }
}

fn said_policy(what: &str, answer: Result<Totals, Refusal>, record: &Record) -> Call {
    let mut numbers = match answer {
        Ok(totals) => said_totals(0, 0, &totals),
        Err(refusal) => said_totals(refusal.number, refusal.place, &Totals::default()),
    };
    numbers.extend(&record.fates);
    numbers.extend(&record.whens);
    numbers.extend(&record.bys);
    Call {
        what: what.to_string(),
        numbers,
    }
}

/// Number, place, thirteen totals.
fn said_totals(number: u64, place: u64, totals: &Totals) -> Vec<u64> {
    let mut said = vec![number, place];
    said.push(totals.arrived.count);
    said.push(totals.arrived.value);
    for sum in &totals.fates {
        said.push(sum.count);
        said.push(sum.value);
    }
    said.push(totals.most_held);
    said
}

/// One damage to a record.
fn damage(source: &mut Source, case: &Case, record: &mut Record) {
    let n = case.n as u64;
    let j = source.draw(n) as usize;
    match source.draw(9) {
        0 => record.fates[j] = source.draw(8),
        1 => record.bys[j] = source.draw(n + 3),
        2 => record.whens[j] = (record.whens[j] + 1).min(U32_MAX),
        3 => record.whens[j] = record.whens[j].saturating_sub(1),
        4 => record.whens[j] = U32_MAX,
        5 => {
            record.fates[j] = SENT;
            record.whens[j] = case.slots[j];
            record.bys[j] = 0;
        }
        6 => record.bys[j] = U32_MAX,
        7 => {
            let other = source.draw(n) as usize;
            record.fates.swap(j, other);
            record.whens.swap(j, other);
            record.bys.swap(j, other);
        }
        _ => {
            let more = source.draw(3);
            for i in 0..case.n {
                if record.fates[i] == SENT {
                    record.whens[i] = (record.whens[i] + more).min(U32_MAX);
                }
            }
        }
    }
}

// ---------------------------------------------------------------- the port

fn feed_port(case: &Case, calls: &mut Vec<Call>) {
    let (mut port, made) = Port::make(case.room, case.num, case.den);
    let numbers = match made {
        Ok(()) => vec![0, 0],
        Err(refusal) => vec![refusal.number, refusal.place],
    };
    calls.push(Call {
        what: "port made".to_string(),
        numbers,
    });

    let mut now = 1;
    for i in 0..case.n.min(PORT_PACKETS) {
        let slot = case.slots.get(i).copied().unwrap_or(0);
        let value = case.values.get(i).copied().unwrap_or(0);
        let ends = slot.saturating_sub(now).min(GAP_ENDS);
        for _ in 0..ends {
            port = end_slot(port, calls);
        }
        now = slot;
        let (after, answer) = port.arrival(value);
        port = after;
        calls.push(said_arrival(answer));
    }
    while port.held > 0 {
        port = end_slot(port, calls);
    }
    for _ in 0..2 {
        port = end_slot(port, calls);
    }
    calls.push(said_port(&port));
}

/// One end of slot, said.
fn end_slot(port: Port, calls: &mut Vec<Call>) -> Port {
    let (port, answer) = port.end_of_slot();
    calls.push(said_end_of_slot(answer));
    port
}

/// A port made by hand, spoilt or not.
fn port_by_hand(source: &mut Source, case: &Case) -> Port {
    let mut port = Port {
        room: case.room,
        num: case.num,
        den: case.den,
        ..Port::zero()
    };
    port.held = match source.draw(4) {
        0 => 0,
        1 => port.room,
        _ => source.draw(port.room + 1),
    };
    let mut x = if source.draw(2) == 0 {
        4_294_966_000
    } else {
        0
    };
    for place in 0..port.held as usize {
        x += 1 + source.draw(3);
        port.numbers[place] = x;
        port.values[place] = 1 + source.draw(9);
    }
    port.last = match source.draw(4) {
        0 => x,
        1 => x + source.draw(10),
        2 => U32_MAX - 1,
        _ => U32_MAX,
    };
    if source.draw(2) == 1 {
        let times = 1 + source.draw(2);
        for _ in 0..times {
            spoil_port(source, &mut port);
        }
    }
    port
}

/// One thing wrong with a port, or, now and then, nothing.
fn spoil_port(source: &mut Source, port: &mut Port) {
    let places = PLACES as u64;
    let u = port.held.min(places);
    match source.draw(24) {
        0 => port.room = 0,
        1 => port.room = 257,
        2 => port.room = U32_MAX,
        3 => {
            if u > 1 {
                port.room = u - 1;
            }
        }
        4 => port.held = 257,
        5 => port.held = U32_MAX,
        6 => {
            if port.held < places {
                port.held += 1;
            }
        }
        7 => {
            if port.held > 0 {
                port.held -= 1;
            }
        }
        way @ 8..=13 => spoil_beta(way - 8, &mut port.num, &mut port.den),
        kind @ 14..=16 => {
            if u > 0 {
                let place = source.draw(u) as usize;
                port.values[place] = match kind {
                    14 => 0,
                    15 => 65_536,
                    _ => U32_MAX,
                };
            }
        }
        17 => {
            if u > 0 {
                port.numbers[source.draw(u) as usize] = 0;
            }
        }
        18 => {
            if u > 1 {
                let j = 1 + source.draw(u - 1) as usize;
                port.numbers[j] = port.numbers[j - 1];
            }
        }
        19 => {
            if u > 1 {
                let j = 1 + source.draw(u - 1) as usize;
                port.numbers.swap(j, j - 1);
            }
        }
        20 => {
            if u > 0 {
                port.last = port.numbers[u as usize - 1].saturating_sub(1);
            }
        }
        21 => port.last = 0,
        22 => {
            if u < places {
                port.values[(u + source.draw(places - u)) as usize] = 1;
            }
        }
        _ => {
            if u < places {
                port.numbers[(u + source.draw(places - u)) as usize] = 1;
            }
        }
    }
}

/// An arrival, an end of slot, an arrival, and after each the port it handed back.
fn call_port(source: &mut Source, port: Port, calls: &mut Vec<Call>) {
    let (port, answer) = port.arrival(live_value(source));
    calls.push(by_hand(said_arrival(answer)));
    calls.push(by_hand(said_port(&port)));
    let (port, answer) = port.end_of_slot();
    calls.push(by_hand(said_end_of_slot(answer)));
    calls.push(by_hand(said_port(&port)));
    let (port, answer) = port.arrival(live_value(source));
    calls.push(by_hand(said_arrival(answer)));
    calls.push(by_hand(said_port(&port)));
}

fn by_hand(call: Call) -> Call {
    Call {
        what: format!("{} by hand", call.what),
        numbers: call.numbers,
    }
}

fn live_value(source: &mut Source) -> u64 {
    match source.draw(8) {
        0 => 0,
        1 => 65_536,
        _ => 1 + source.draw(20),
    }
}

fn said_port(port: &Port) -> Call {
    let mut numbers = vec![port.room, port.num, port.den, port.last, port.held];
    numbers.extend(&port.values);
    numbers.extend(&port.numbers);
    Call {
        what: "port".to_string(),
        numbers,
    }
}

fn said_arrival(answer: Arrival) -> Call {
    let numbers = match answer {
        Arrival::Held { number, lost: None } => vec![0, 0, number, 0, 0],
        Arrival::Held {
            number,
            lost: Some(lost),
        } => match lost.kind {
            Kind::PushedOut => vec![3, 0, number, lost.number, lost.value],
            Kind::Preempted => vec![4, 0, number, lost.number, lost.value],
        },
        Arrival::Rejected { number } => vec![2, 0, number, 0, 0],
        Arrival::Refused(refusal) => vec![refusal.number, refusal.place, 0, 0, 0],
    };
    Call {
        what: "arrival".to_string(),
        numbers,
    }
}

fn said_end_of_slot(answer: EndOfSlot) -> Call {
    let numbers = match answer {
        EndOfSlot::Idle => vec![0, 0, 0, 0, 0],
        EndOfSlot::Sent { number, value } => vec![1, 0, 0, number, value],
        EndOfSlot::Refused(refusal) => vec![refusal.number, refusal.place, 0, 0, 0],
    };
    Call {
        what: "end of slot".to_string(),
        numbers,
    }
}

// ---------------------------------------------------------------- what is written

/// A batch's line: its number, two letters for each case, the running sum over all numbers said.
pub fn line_of_batch(batch: u64) -> String {
    let mut letters = String::new();
    let mut h = 1;
    for c in batch * BATCH..(batch + 1) * BATCH {
        for call in calls(c) {
            for x in call.numbers {
                h = (h * 1_000_003 + x + 1) % 2_147_483_647;
            }
        }
        letters.push(letter(h));
        letters.push(letter(h / 26));
    }
    format!("{batch},{letters},{h}")
}

fn letter(x: u64) -> char {
    char::from(b'a' + (x % 26) as u8)
}

#[cfg(test)]
mod tests {
    use super::*;

    /// Without bad arguments each of the four records passes its audit, with the same totals.
    #[test]
    fn our_own_records_pass() {
        for c in 0..400 {
            if c % 4 == 3 {
                continue;
            }
            let calls = calls(c);
            for k in [0, 2, 4, 6] {
                assert_eq!(calls[k].numbers[0], 0);
                assert_eq!(calls[k].numbers[..15], calls[k + 1].numbers[..]);
            }
        }
    }

    /// The worked case of CASES.md.
    #[test]
    fn the_worked_case() {
        let calls = calls(484);
        let mut h = 1;
        for x in &calls[0].numbers {
            h = (h * 1_000_003 + x + 1) % 2_147_483_647;
        }
        assert_eq!((calls[0].numbers.len(), h), (33, 1_048_457_815));
        let numbers: usize = calls.iter().map(|call| call.numbers.len()).sum();
        assert_eq!(numbers, 2_392);
    }

    /// The port's sent packets and losses are those of PG on the same trace.
    #[test]
    fn the_port_does_as_pg() {
        for c in 0..400 {
            let case = make(c, &mut Source::of_case(c));
            if c % 4 == 3 || case.n > PORT_PACKETS {
                continue;
            }
            let mut record = case.fresh_record();
            let beta = (case.num, case.den);
            assert!(rules::pg(&case.slots, &case.values, case.room, beta, &mut record).is_ok());
            let mut said = Vec::new();
            feed_port(&case, &mut said);
            let mut fates = vec![0; case.n];
            for call in &said[1..said.len() - 1] {
                let x = &call.numbers;
                match x[0] {
                    0 => {}
                    2 => fates[x[2] as usize - 1] = 2,
                    fate => fates[x[3] as usize - 1] = fate,
                }
            }
            assert_eq!(fates, record.fates);
        }
    }
}
