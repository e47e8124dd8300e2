//! The scope's "Numbers to check by hand" and its bench example, against what the scope prints.

use crate::rules::{audit, greedy, mf, pg, plan, Record, Refusal, Totals, Verdict};

type Entry = (u64, u64, u64); // fate, when, by

struct Checks {
    passed: u64,
    differing: Vec<String>,
}

impl Checks {
    fn check<T: PartialEq + std::fmt::Debug>(&mut self, name: &str, ours: T, printed: T) {
        if ours == printed {
            self.passed += 1;
        } else {
            self.differing
                .push(format!("{name}: ours {ours:?}, printed {printed:?}"));
        }
    }
}

fn fresh(n: usize) -> Record {
    Record {
        fates: vec![7; n],
        whens: vec![7; n],
        bys: vec![7; n],
    }
}

fn entries(record: &Record) -> Vec<Entry> {
    let mut list = Vec::new();
    for i in 0..record.fates.len() {
        list.push((record.fates[i], record.whens[i], record.bys[i]));
    }
    list
}

fn record_of(list: &[Entry]) -> Record {
    Record {
        fates: list.iter().map(|entry| entry.0).collect(),
        whens: list.iter().map(|entry| entry.1).collect(),
        bys: list.iter().map(|entry| entry.2).collect(),
    }
}

/// The record of a run whose packets all arrive in slot 1; nothing where it was refused.
fn in_slot_1(
    values: &[u64],
    call: impl Fn(&[u64], &[u64], &mut Record) -> Result<Totals, Refusal>,
) -> Vec<Entry> {
    let slots = vec![1; values.len()];
    let mut record = fresh(values.len());
    match call(&slots, values, &mut record) {
        Ok(_) => entries(&record),
        Err(_) => Vec::new(),
    }
}

fn refused<T>(number: u64, place: u64) -> Result<T, Refusal> {
    Err(Refusal { number, place })
}

/// How many checks passed, and a line for each that differs.
pub fn run() -> (u64, Vec<String>) {
    let mut checks = Checks {
        passed: 0,
        differing: Vec::new(),
    };
    let c = &mut checks;

    // P1 empty trace, any policy: accepted, totals 0.
    let none = Totals::default;
    let empty = &mut fresh(0);
    c.check("P1 greedy", greedy(&[], &[], 1, empty), Ok(none()));
    c.check("P1 PG", pg(&[], &[], 1, (2, 1), empty), Ok(none()));
    c.check("P1 MF", mf(&[], &[], 1, (1, 2, 0), empty), Ok(none()));
    c.check("P1 plan", plan(&[], &[], 1, empty), Ok(none()));
    let passed = Ok(Verdict::Passed(none()));
    c.check("P1 audit", audit(&[], &[], 1, empty), passed);

    // P2, P3, P4 greedy, room 2.
    let greedy_2 = |s: &[u64], v: &[u64], out: &mut Record| greedy(s, v, 2, out);
    let p2 = vec![(1, 1, 0), (1, 2, 0), (2, 1, 3)];
    c.check("P2", in_slot_1(&[3, 3, 3], greedy_2), p2.clone());
    let p3 = vec![(3, 1, 3), (1, 1, 0), (1, 2, 0)];
    c.check("P3", in_slot_1(&[1, 2, 3], greedy_2), p3);
    let p4 = vec![(1, 1, 0), (3, 1, 3), (1, 2, 0)];
    c.check("P4", in_slot_1(&[2, 2, 5], greedy_2), p4);

    // P5, P6 PG, beta 3/1, room 4. P7 PG, beta 2/1, room 3.
    let pg_3_1 = |s: &[u64], v: &[u64], out: &mut Record| pg(s, v, 4, (3, 1), out);
    let p5 = vec![(4, 1, 2), (1, 1, 0)];
    c.check("P5", in_slot_1(&[2, 6], pg_3_1), p5);
    let p6 = vec![(1, 1, 0), (1, 2, 0)];
    c.check("P6", in_slot_1(&[2, 5], pg_3_1), p6);
    let pg_2_1 = |s: &[u64], v: &[u64], out: &mut Record| pg(s, v, 3, (2, 1), out);
    let p7 = vec![(4, 1, 3), (1, 1, 0), (1, 2, 0)];
    c.check("P7", in_slot_1(&[2, 1, 4], pg_2_1), p7);

    // P8 MF, lo 1, hi 4, r 1, room 3.
    let mf_1_4 = |s: &[u64], v: &[u64], out: &mut Record| mf(s, v, 3, (1, 4, 1), out);
    let p8 = vec![(5, 1, 2), (1, 1, 0)];
    c.check("P8", in_slot_1(&[1, 4], mf_1_4), p8);

    // P9 the bench trace, room 2: greedy sends value 19, the offline plan 27.
    let (slots, values) = ([1, 1, 2, 2], [1, 9, 9, 9]);
    let sent = |totals: Totals| totals.fates[0].value;
    let record = &mut fresh(4);
    let ours = greedy(&slots, &values, 2, record).map(sent);
    c.check("P9 greedy", ours, Ok(19));
    let ours = plan(&slots, &values, 2, record).map(sent);
    c.check("P9 plan", ours, Ok(27));

    // P10, P11 audit of P2's trace.
    let fault = |number, packet| Ok(Verdict::Fault { number, packet });
    let mut p10 = p2.clone();
    p10[2] = (1, 3, 0);
    let ours = audit(&[1, 1, 1], &[3, 3, 3], 2, &record_of(&p10));
    c.check("P10", ours, fault(15, 3));
    let mut p11 = p2.clone();
    p11[1] = (1, 1, 0);
    let ours = audit(&[1, 1, 1], &[3, 3, 3], 2, &record_of(&p11));
    c.check("P11", ours, fault(14, 2));

    // P12 slots 2, 1: refusal 5 at 2.
    let (slots, values, record) = ([2, 1], [1, 1], &mut fresh(2));
    let ours = greedy(&slots, &values, 1, record);
    c.check("P12 greedy", ours, refused(5, 2));
    let ours = pg(&slots, &values, 1, (2, 1), record);
    c.check("P12 PG", ours, refused(5, 2));
    let ours = mf(&slots, &values, 1, (1, 2, 0), record);
    c.check("P12 MF", ours, refused(5, 2));
    let ours = plan(&slots, &values, 1, record);
    c.check("P12 plan", ours, refused(5, 2));
    let ours = audit(&slots, &values, 1, record);
    c.check("P12 audit", ours, refused(5, 2));
    c.check("P12 writes nothing", record.clone(), fresh(2));

    // Room 256 accepted, 257 is 3. Value 65,535 accepted, 65,536 is 6. Slot 0 with value 0: 5.
    // Lists of unequal length and room 0: 1.
    let one = &mut fresh(1);
    let ours = greedy(&[1], &[1], 256, one).is_ok();
    c.check("room 256", ours, true);
    let ours = greedy(&[1], &[1], 257, one);
    c.check("room 257", ours, refused(3, 0));
    let ours = greedy(&[1], &[65_535], 1, one).is_ok();
    c.check("value 65,535", ours, true);
    let ours = greedy(&[1], &[65_536], 1, one);
    c.check("value 65,536", ours, refused(6, 1));
    let ours = greedy(&[0], &[0], 1, one);
    c.check("slot 0, value 0", ours, refused(5, 1));
    let ours = greedy(&[1, 1], &[1], 0, one);
    c.check("unequal lists, room 0", ours, refused(1, 0));

    // The bench example: PG, room 2, beta 9/1.
    let (slots, values) = ([1, 1, 2, 2], [1, 9, 9, 9]);
    let mut record = fresh(4);
    let accepted = pg(&slots, &values, 2, (9, 1), &mut record).is_ok();
    c.check("bench accepted", accepted, true);
    let mut lines = Vec::new();
    for i in 0..4 {
        let (fate, when, by) = (record.fates[i], record.whens[i], record.bys[i]);
        let number = i + 1;
        let (slot, value) = (slots[i], values[i]);
        lines.push(format!("{number},{slot},{value},{fate},{when},{by}"));
    }
    let printed = ["1,1,1,4,1,2", "2,1,9,1,1,0", "3,2,9,1,2,0", "4,2,9,1,3,0"];
    c.check("bench lines", lines, printed.map(String::from).to_vec());

    (checks.passed, checks.differing)
}

#[test]
fn numbers_checked_by_hand() {
    let (_, differing) = run();
    assert_eq!(differing, Vec::<String>::new());
}

#[test]
fn refusals_the_random_cases_never_meet() {
    let (lo, hi) = (1, 3);
    let ours = mf(&[1, 1], &[1, 2], 1, (lo, hi, 0), &mut fresh(2));
    assert_eq!(ours, refused(6, 2));
    let ours = mf(&[1], &[1], 1, (lo, 65_536, 0), &mut fresh(1));
    assert_eq!(ours, refused(4, 0));
    let mut longer = fresh(1);
    longer.whens.push(7);
    assert_eq!(plan(&[1], &[1], 1, &mut longer), refused(1, 0));
    assert_eq!(audit(&[1], &[1], 1, &longer), refused(1, 0));
}
