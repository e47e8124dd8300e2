//! Counts how often each kind of case comes, so that none is missing without being seen.

use crate::cases::{answer, Answered, Call, Case, GAP_ENDS};
use crate::port::{Port, MAX_NUMBER, PLACES};
use crate::rules::{refuse_1, refuse_2, refuse_3, refuse_4_beta, refuse_4_mf, value_bad, MAX_SLOT};
use std::collections::BTreeMap;

/// How often each kind comes in the first cases. A kind that could come and does not stands at 0.
pub fn count(cases: u64) -> BTreeMap<String, u64> {
    let mut counts = BTreeMap::new();
    for kind in all() {
        counts.insert(kind, 0);
    }
    for c in 0..cases {
        let answered = answer(c);
        let mut kinds = answers(&answered);
        kinds.extend(lengths(&answered.case));
        kinds.extend(neither_lo_nor_hi(&answered));
        kinds.extend(answered.by_hand.iter().flat_map(unsound));
        kinds.extend(spent(&answered));
        kinds.extend(fed(&answered));
        for kind in kinds {
            *counts.entry(kind).or_insert(0) += 1;
        }
    }
    counts
}

const IDLE_IN_A_ROW: &str = "fed port: three or more idle ends in a row";
const IDLE_THEN_HELD: &str = "fed port: idle, then an arrival that is held";
const LONG_GAP: &str = "fed port: a gap of 300 or more slots";

const LISTS: [&str; 5] = ["slots", "values", "fates", "whens", "bys"];

const TIES: [&str; 9] = [
    "1",
    "2",
    "3",
    "4",
    "5 at that packet",
    "5 before it",
    "5 after it",
    "an out of range value before it",
    "an out of range value after it",
];

const UNSOUND: [&str; 12] = [
    "room 0",
    "room above 256",
    "num or den 0",
    "num or den above 65,535",
    "num at most den",
    "held above room",
    "held above 256",
    "a held value 0",
    "a held value above 65,535",
    "held numbers that do not rise from 1",
    "a held number above the last given",
    "an unused place not 0",
];

fn all() -> Vec<String> {
    let mut kinds = Vec::new();
    let mut add = |what: &str, numbers: &[u64]| {
        for number in numbers {
            kinds.push(format!("{what}: {number}"));
        }
    };
    for what in ["greedy", "plan"] {
        add(what, &[0, 1, 2, 3, 5, 6]);
    }
    for what in ["PG", "MF"] {
        add(what, &[0, 1, 2, 3, 4, 5, 6]);
    }
    for what in ["greedy", "plan"] {
        add(&format!("audit of {what}"), &[0, 1, 2, 3, 5, 6]);
    }
    for what in ["PG", "MF"] {
        add(&format!("audit of {what}"), &[0, 1, 2, 3, 5, 6, 11]);
    }
    add("audit of damaged", &[0, 11, 12, 13, 14, 15]);
    add("port made", &[0, 3, 4]);
    add("arrival", &[0, 2, 3, 4, 6, 8]);
    add("end of slot", &[0, 1, 8]);
    add("arrival by hand", &[0, 2, 3, 4, 6, 7, 8]);
    add("end of slot by hand", &[0, 1, 8]);
    for list in LISTS {
        for how in ["longer", "shorter"] {
            kinds.push(format!("only {list} {how}"));
        }
    }
    kinds.push("two or more lists of another length".to_string());
    kinds.push("MF's value neither lo nor hi: alone, so 6".to_string());
    for tie in TIES {
        kinds.push(format!("MF's value neither lo nor hi: with {tie}"));
    }
    for number in [6, 7] {
        kinds.push(format!("port by hand: numbers spent, answers {number}"));
    }
    for kind in [IDLE_IN_A_ROW, IDLE_THEN_HELD, LONG_GAP] {
        kinds.push(kind.to_string());
    }
    for clause in UNSOUND {
        kinds.push(format!("port by hand: {clause}"));
        if clause != "held above 256" {
            kinds.push(format!("port by hand: only {clause}"));
        }
    }
    kinds
}

/// What each call answered.
fn answers(answered: &Answered) -> Vec<String> {
    let mut kinds = Vec::new();
    for call in &answered.calls {
        if !call.what.starts_with("port by hand") && call.what != "port" {
            kinds.push(format!("{}: {}", call.what, call.numbers[0]));
        }
    }
    kinds
}

/// Which lists are not as long as n.
fn lengths(case: &Case) -> Vec<String> {
    let of = &case.lengths;
    let all = [of.slots, of.values, of.fates, of.whens, of.bys];
    let mut kinds = Vec::new();
    for (list, length) in LISTS.iter().zip(all) {
        if length > case.n {
            kinds.push(format!("only {list} longer"));
        }
        if length < case.n {
            kinds.push(format!("only {list} shorter"));
        }
    }
    if kinds.len() > 1 {
        return vec!["two or more lists of another length".to_string()];
    }
    kinds
}

/// The first packet whose value is in range and neither lo nor hi for MF, with all else that is
/// wrong with the call.
fn neither_lo_nor_hi(answered: &Answered) -> Vec<String> {
    let case = &answered.case;
    let (slots, values) = (&case.slots, &case.mf_values);
    let packets = slots.len().min(values.len());
    let neither =
        |i: &usize| !value_bad(values[*i]) && values[*i] != case.lo && values[*i] != case.hi;
    let Some(packet) = (0..packets).find(neither) else {
        return Vec::new();
    };
    let mut ties = Vec::new();
    let record = case.fresh_record();
    if refuse_1(slots, values, &record).is_err() {
        ties.push("1");
    }
    if refuse_2(slots).is_err() {
        ties.push("2");
    }
    if refuse_3(case.room).is_err() {
        ties.push("3");
    }
    if refuse_4_mf(case.lo, case.hi, case.r).is_err() {
        ties.push("4");
    }
    for i in 0..packets {
        let below = i > 0 && slots[i] < slots[i - 1];
        if slots[i] < 1 || slots[i] > MAX_SLOT || below {
            ties.push(match i.cmp(&packet) {
                std::cmp::Ordering::Less => "5 before it",
                std::cmp::Ordering::Equal => "5 at that packet",
                std::cmp::Ordering::Greater => "5 after it",
            });
        }
        if value_bad(values[i]) {
            ties.push(if i < packet {
                "an out of range value before it"
            } else {
                "an out of range value after it"
            });
        }
    }
    ties.sort();
    ties.dedup();
    if ties.is_empty() {
        let mf = answered.calls.iter().find(|call| call.what == "MF");
        let said = mf.map_or([0, 0], |call| [call.numbers[0], call.numbers[1]]);
        return vec![format!(
            "MF's value neither lo nor hi: alone, so {}",
            if said == [6, packet as u64 + 1] {
                "6"
            } else {
                "wrong"
            }
        )];
    }
    ties.iter()
        .map(|tie| format!("MF's value neither lo nor hi: with {tie}"))
        .collect()
}

/// A first arrival at a sound port whose numbers are spent, by what it answers.
fn spent(answered: &Answered) -> Option<String> {
    let port = answered.by_hand.as_ref()?;
    let arrival = |call: &&Call| call.what == "arrival by hand";
    let first = answered.calls.iter().find(arrival)?;
    if port.sound() && port.last == MAX_NUMBER {
        Some(format!(
            "port by hand: numbers spent, answers {}",
            first.numbers[0]
        ))
    } else {
        None
    }
}

/// What comes of the ends of slots of the port that is fed: rows of ends, each up to an arrival or
/// to the feed's end.
fn fed(answered: &Answered) -> Vec<String> {
    let (mut ends, mut idle) = (0, 0);
    let mut kinds = Vec::new();
    for call in &answered.calls {
        let number = call.numbers[0];
        match call.what.as_str() {
            "end of slot" => {
                ends += 1;
                idle = if number == 0 { idle + 1 } else { 0 };
                if idle == 3 {
                    kinds.push(IDLE_IN_A_ROW.to_string());
                }
                if ends == GAP_ENDS {
                    kinds.push(LONG_GAP.to_string());
                }
            }
            "arrival" => {
                if idle > 0 && [0, 3, 4].contains(&number) {
                    kinds.push(IDLE_THEN_HELD.to_string());
                }
                (ends, idle) = (0, 0);
            }
            _ => {}
        }
    }
    kinds
}

/// Each way in which a port is not sound.
fn unsound(port: &Port) -> Vec<String> {
    let mut clauses = Vec::new();
    let mut add = |wrong: bool, clause: usize| {
        if wrong {
            clauses.push(UNSOUND[clause]);
        }
    };
    add(port.room == 0, 0);
    add(port.room > 256, 1);
    add(port.num == 0 || port.den == 0, 2);
    add(port.num > 65_535 || port.den > 65_535, 3);
    add(port.num <= port.den, 4);
    add(port.held > port.room, 5);
    add(port.held > 256, 6);
    let used = (port.held as usize).min(PLACES);
    let (values, numbers) = (&port.values[..used], &port.numbers[..used]);
    add(values.contains(&0), 7);
    add(values.iter().any(|&value| value > 65_535), 8);
    let mut rise = true;
    let mut before = 0;
    for &number in numbers {
        rise = rise && number > before;
        before = number;
    }
    add(!rise, 9);
    add(numbers.iter().any(|&number| number > port.last), 10);
    let unused = port.values[used..].iter().chain(&port.numbers[used..]);
    add(unused.into_iter().any(|&x| x != 0), 11);

    let beta = refuse_4_beta(port.num, port.den).is_err();
    assert_eq!(
        beta,
        clauses.iter().any(|clause| UNSOUND[2..5].contains(clause))
    );
    assert_eq!(port.sound(), clauses.is_empty());
    let mut kinds = Vec::new();
    for clause in &clauses {
        kinds.push(format!("port by hand: {clause}"));
    }
    if let [only] = clauses[..] {
        kinds.push(format!("port by hand: only {only}"));
    }
    kinds
}
