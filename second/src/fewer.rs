//! All small traces of a call, to see that a mistake goes wrong on none with fewer packets than the trace that
//! docs/MISTAKES.md names as the smallest.

use crate::mistakes::{self, Mistake};
use crate::one;

/// How many traces of fewer than so many packets there are, and on how many of them the mistake changes what is
/// said (the totals, where the mistake is one of totals). Slots are 1 to 3, values 1 to 4 (MF's 1 and 4, with r
/// up to 3), beta 3/2, 2/1, 5/2 and 3/1, rooms up to one more than the packets; an audited record has fates 0 to
/// 6, slots 0 to 4 and numbers up to one more than the packets.
pub fn count(mistake: Mistake, call: &str, packets: usize) -> Option<(u64, u64)> {
    let line = usize::from(mistake == Mistake::NoMostHeld);
    let (mut traces, mut wrong) = (0, 0);
    for words in (0..packets).flat_map(|n| all_words(call, n)) {
        let words: Vec<&str> = words.iter().map(String::as_str).collect();
        let right = one::run(&words)?;
        let mistaken = mistakes::with(Some(mistake), || one::run(&words))?;
        traces += 1;
        if right.lines().nth(line) != mistaken.lines().nth(line) {
            wrong += 1;
        }
    }
    Some((traces, wrong))
}

/// What `--run` takes, for every trace of n packets.
pub fn all_words(call: &str, n: usize) -> Vec<Vec<String>> {
    let parameters: &[&str] = match call {
        "pg" | "port" => &["3,2", "2,1", "5,2", "3,1"],
        "mf" => &["1,4,0", "1,4,1", "1,4,2", "1,4,3"],
        _ => &["-"],
    };
    let values = if call == "mf" {
        lists(n, &[1, 4])
    } else {
        lists(n, &[1, 2, 3, 4])
    };
    let mut slots = lists(n, &[1, 2, 3]);
    slots.retain(|list| list.is_sorted());
    let records = if call == "audit" {
        records(n)
    } else {
        vec![String::new()]
    };
    let mut all = Vec::new();
    for room in 1..=n + 1 {
        for parameters in parameters {
            for slots in &slots {
                for values in &values {
                    for record in &records {
                        let room = room.to_string();
                        let mut words = vec![call.to_string(), room, parameters.to_string()];
                        words.extend([joined(slots), joined(values)]);
                        if call == "audit" {
                            words.push(record.clone());
                        }
                        all.push(words);
                    }
                }
            }
        }
    }
    all
}

/// All lists of n of these numbers.
fn lists(n: usize, of: &[u64]) -> Vec<Vec<u64>> {
    let mut all = vec![Vec::new()];
    for _ in 0..n {
        let longer = |list: &Vec<u64>| of.iter().map(|x| [&list[..], &[*x]].concat()).collect();
        all = all.iter().flat_map::<Vec<Vec<u64>>, _>(longer).collect();
    }
    all
}

fn records(n: usize) -> Vec<String> {
    let mut entries = Vec::new();
    for fate in 0..=6 {
        for when in 0..=4 {
            for by in 0..=n + 1 {
                entries.push(format!("{fate}/{when}/{by}"));
            }
        }
    }
    let places: Vec<u64> = (0..entries.len() as u64).collect();
    let written = |list: &Vec<u64>| -> Vec<String> {
        let entry = |place: &u64| entries[*place as usize].clone();
        list.iter().map(entry).collect()
    };
    let record = |list: &Vec<u64>| match list.len() {
        0 => "-".to_string(),
        _ => written(list).join(","),
    };
    lists(n, &places).iter().map(record).collect()
}

fn joined(numbers: &[u64]) -> String {
    let words: Vec<String> = numbers.iter().map(u64::to_string).collect();
    match words.len() {
        0 => "-".to_string(),
        _ => words.join(","),
    }
}
