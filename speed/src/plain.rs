//! Plain Rust for the same answers: idiomatic and safe, written from the scope with a queue as one would write it, and no tricks.

use crate::kinds::*;
use std::cmp::Reverse;
use std::collections::VecDeque;

#[derive(Clone, Copy)]
struct Held {
    packet: usize,
    value: u32,
}

/// Refusals 1 to 6. `own` says whether the call's own parameters are in range, `takes` which values it takes.
fn check(
    trace: &Trace,
    room: usize,
    record: &Record,
    own: bool,
    takes: impl Fn(u32) -> bool,
) -> Result<(), No> {
    let n = trace.slots.len();
    let lengths = [
        trace.values.len(),
        record.fates.len(),
        record.whens.len(),
        record.bys.len(),
    ];
    if lengths.iter().any(|&length| length != n) {
        return Err(No {
            number: 1,
            place: 0,
        });
    }
    if n > PACKETS {
        return Err(No {
            number: 2,
            place: 0,
        });
    }
    if !(1..=ROOM).contains(&room) {
        return Err(No {
            number: 3,
            place: 0,
        });
    }
    if !own {
        return Err(No {
            number: 4,
            place: 0,
        });
    }
    let mut before = 0;
    for (i, (&slot, &value)) in trace.slots.iter().zip(&trace.values).enumerate() {
        let place = i as u32 + 1;
        if !(1..=SLOT).contains(&slot) || slot < before {
            return Err(No { number: 5, place });
        }
        if !takes(value) {
            return Err(No { number: 6, place });
        }
        before = slot;
    }
    Ok(())
}

fn in_range(value: u32) -> bool {
    (1..=VALUE).contains(&value)
}

pub fn totals(values: &[u32], fates: &[u32], most_held: usize) -> Totals {
    let mut totals = Totals {
        most_held: most_held as u32,
        ..Totals::default()
    };
    for (&value, &fate) in values.iter().zip(fates) {
        totals.arrived.count += 1;
        totals.arrived.value += value;
        let tally = &mut totals.fates[fate as usize - 1];
        tally.count += 1;
        tally.value += value;
    }
    totals
}

/// The arrival is held if there is room; if not, the lowest of the held packets and the arrival is lost, among equals the newest.
fn arrive(queue: &mut VecDeque<Held>, room: usize, arrival: Held, slot: u32, record: &mut Record) {
    if queue.len() < room {
        queue.push_back(arrival);
        return;
    }
    let number = arrival.packet as u32 + 1;
    let lowest = queue
        .iter()
        .enumerate()
        .min_by_key(|&(place, p)| (p.value, Reverse(place)));
    match lowest {
        Some((place, p)) if p.value < arrival.value => {
            record.enter(p.packet, PUSHED_OUT, slot, number);
            queue.remove(place);
            queue.push_back(arrival);
        }
        _ => record.enter(arrival.packet, REJECTED, slot, number),
    }
}

/// A run of plain greedy, or of PG where there is a beta.
fn run(trace: &Trace, room: usize, beta: Option<Beta>, record: &mut Record) -> Totals {
    let mut queue: VecDeque<Held> = VecDeque::with_capacity(room);
    let mut now = 1;
    let mut most = 0;
    for (packet, (&slot, &value)) in trace.slots.iter().zip(&trace.values).enumerate() {
        while now < slot {
            let Some(sent) = queue.pop_front() else { break };
            record.enter(sent.packet, SENT, now, 0);
            now += 1;
        }
        now = slot;
        if let Some(Beta { num, den }) = beta {
            let limit = u64::from(value) * u64::from(den);
            let first = queue
                .iter()
                .position(|p| u64::from(p.value) * u64::from(num) <= limit);
            if let Some(place) = first {
                record.enter(queue[place].packet, PREEMPTED, slot, packet as u32 + 1);
                queue.remove(place);
            }
        }
        arrive(&mut queue, room, Held { packet, value }, slot, record);
        most = most.max(queue.len());
    }
    while let Some(sent) = queue.pop_front() {
        record.enter(sent.packet, SENT, now, 0);
        now += 1;
    }
    totals(&trace.values, &record.fates, most)
}

pub fn greedy(trace: &Trace, room: usize, record: &mut Record) -> Answer {
    check(trace, room, record, true, in_range)?;
    Ok(run(trace, room, None, record))
}

pub fn beta_ok(beta: Beta) -> bool {
    in_range(beta.num) && in_range(beta.den) && beta.den < beta.num
}

pub fn pg(trace: &Trace, room: usize, beta: Beta, record: &mut Record) -> Answer {
    check(trace, room, record, beta_ok(beta), in_range)?;
    Ok(run(trace, room, Some(beta), record))
}

/// The end of a slot under MF: the slot's hi packets mark, the head's mark flushes, and the head is sent.
#[allow(clippy::too_many_arguments)]
fn end_of_slot(
    trace: &Trace,
    (lo, hi, r): (u32, u32, usize),
    room: usize,
    slot: u32,
    queue: &mut VecDeque<Held>,
    marks: &mut [u32],
    record: &mut Record,
) {
    for position in 0..queue.len().min(room - 1) {
        let marker = queue[position];
        if marker.value != hi || trace.slots[marker.packet] != slot {
            continue;
        }
        let unmarked = queue
            .iter()
            .take(position)
            .rev()
            .filter(|p| p.value == lo)
            .map(|p| p.packet);
        let mut left = r;
        for packet in unmarked {
            if left == 0 {
                break;
            }
            if marks[packet] == 0 {
                marks[packet] = marker.packet as u32 + 1;
                left -= 1;
            }
        }
    }
    let head_mark = queue.front().map_or(0, |p| marks[p.packet]);
    if head_mark != 0 {
        queue.retain(|p| {
            let mark = marks[p.packet];
            let goes = mark != 0 && mark <= head_mark;
            if goes {
                record.enter(p.packet, FLUSHED, slot, mark);
            }
            !goes
        });
    }
    if let Some(sent) = queue.pop_front() {
        record.enter(sent.packet, SENT, slot, 0);
    }
}

pub fn mf(trace: &Trace, room: usize, marking: (u32, u32, usize), record: &mut Record) -> Answer {
    let (lo, hi, r) = marking;
    let own = in_range(lo) && in_range(hi) && lo < hi && r <= MARKS;
    check(trace, room, record, own, |value| value == lo || value == hi)?;
    let mut queue: VecDeque<Held> = VecDeque::with_capacity(room);
    let mut marks = vec![0; trace.slots.len()];
    let mut now = 1;
    let mut most = 0;
    for (packet, (&slot, &value)) in trace.slots.iter().zip(&trace.values).enumerate() {
        while now < slot && !queue.is_empty() {
            end_of_slot(trace, marking, room, now, &mut queue, &mut marks, record);
            now += 1;
        }
        now = slot;
        arrive(&mut queue, room, Held { packet, value }, slot, record);
        most = most.max(queue.len());
    }
    while !queue.is_empty() {
        end_of_slot(trace, marking, room, now, &mut queue, &mut marks, record);
        now += 1;
    }
    Ok(totals(&trace.values, &record.fates, most))
}

/// Whether no arrival leaves more than room kept packets held.
fn fits(slots: &[u32], kept: &[bool], room: usize) -> bool {
    let mut held = 0usize;
    let mut before = 1;
    for (&slot, &keep) in slots.iter().zip(kept) {
        held = held.saturating_sub((slot - before) as usize) + usize::from(keep);
        if held > room {
            return false;
        }
        before = slot;
    }
    true
}

pub fn plan(trace: &Trace, room: usize, record: &mut Record) -> Answer {
    check(trace, room, record, true, in_range)?;
    let mut order: Vec<usize> = (0..trace.values.len()).collect();
    order.sort_by_key(|&packet| Reverse(trace.values[packet]));
    let mut kept = vec![false; trace.slots.len()];
    for packet in order {
        kept[packet] = true;
        if !fits(&trace.slots, &kept, room) {
            kept[packet] = false;
        }
    }
    let mut held = 0usize;
    let mut most = 0;
    let mut before = 1;
    let mut free = 1;
    for (packet, &slot) in trace.slots.iter().enumerate() {
        held = held.saturating_sub((slot - before) as usize);
        before = slot;
        if kept[packet] {
            let when = slot.max(free);
            record.enter(packet, SENT, when, 0);
            free = when + 1;
            held += 1;
        } else {
            record.enter(packet, REJECTED, slot, packet as u32 + 1);
        }
        most = most.max(held);
    }
    Ok(totals(&trace.values, &record.fates, most))
}

/// The audit: the packets held are listed, and those that have left are dropped from the list at each arrival.
pub fn audit(trace: &Trace, room: usize, record: &Record) -> Answer {
    check(trace, room, record, true, in_range)?;
    let slots = &trace.slots;
    let mut held: Vec<usize> = Vec::new();
    let mut last_sent = 0;
    let mut most = 0;
    for (i, &slot) in slots.iter().enumerate() {
        let number = i as u32 + 1;
        let (fate, when, by) = (record.fates[i], record.whens[i], record.bys[i]);
        let fault = |number_of_fault| No {
            number: number_of_fault,
            place: number,
        };
        if !(SENT..=FLUSHED).contains(&fate) {
            return Err(fault(11));
        }
        let by_right = match fate {
            SENT => by == 0,
            REJECTED => by == number,
            _ => by > number && by as usize <= slots.len(),
        };
        if !by_right {
            return Err(fault(12));
        }
        let when_right = match fate {
            SENT => when >= slot,
            REJECTED => when == slot,
            FLUSHED => when >= slots[by as usize - 1],
            _ => when == slots[by as usize - 1],
        };
        if !when_right {
            return Err(fault(13));
        }
        if fate == SENT {
            if when <= last_sent {
                return Err(fault(14));
            }
            last_sent = when;
        }
        held.push(i);
        held.retain(|&p| match record.fates[p] {
            SENT | FLUSHED => record.whens[p] >= slot,
            REJECTED => false,
            _ => record.bys[p] > number,
        });
        if held.len() > room {
            return Err(fault(15));
        }
        most = most.max(held.len());
    }
    Ok(totals(&trace.values, &record.fates, most))
}
