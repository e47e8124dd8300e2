//! The rules of the scope: refusals, the record and its totals, the three policies, the offline
//! plan and the audit. Quoted sentences are the scope's. Packet i of a list has number i + 1.
//! Where `mistakes` or `made` is asked, `--mistake NAME` can put a mistake in the rule's place.

use crate::mistakes::{self, made, Mistake};

pub const MAX_PACKETS: usize = 2048;
pub const MAX_SLOT: u64 = 1_000_000;
pub const MAX_VALUE: u64 = 65_535;
pub const MAX_ROOM: u64 = 256;
pub const MAX_BETA: u64 = 65_535;
pub const MAX_R: u64 = 255;

pub const SENT: u64 = 1;
pub const REJECTED: u64 = 2;
pub const PUSHED_OUT: u64 = 3;
pub const PREEMPTED: u64 = 4;
pub const FLUSHED: u64 = 5;

// ---------------------------------------------------------------- the record and its totals

/// "Three lists, one entry a packet."
#[derive(Clone, Debug, PartialEq)]
pub struct Record {
    pub fates: Vec<u64>,
    pub whens: Vec<u64>,
    pub bys: Vec<u64>,
}

impl Record {
    pub fn set(&mut self, packet: usize, fate: u64, when: u64, by: u64) {
        let length = self.fates.len();
        let Some((packet, entry)) = mistakes::entry(length, packet, [fate, when, by]) else {
            return;
        };
        self.fates[packet] = entry[0];
        self.whens[packet] = entry[1];
        self.bys[packet] = entry[2];
    }
}

#[derive(Clone, Copy, Debug, Default, PartialEq)]
pub struct Sum {
    pub count: u64,
    pub value: u64,
}

#[derive(Clone, Debug, Default, PartialEq)]
pub struct Totals {
    pub arrived: Sum,
    /// Sent, rejected, pushed out, preempted, flushed.
    pub fates: [Sum; 5],
    pub most_held: u64,
}

/// "Totals: packets arrived and their value; count and value for each of the five fates; the most
/// held just after any arrival (0 for an empty trace), held being as fault 15 below counts it."
pub fn totals(slots: &[u64], values: &[u64], record: &Record) -> Totals {
    let mut totals = Totals::default();
    for i in 0..slots.len() {
        totals.arrived.count += 1;
        totals.arrived.value += values[i];
    }
    for fate in 1..=5 {
        let sum = &mut totals.fates[fate - 1];
        for i in 0..slots.len() {
            if record.fates[i] == fate as u64 {
                sum.count += 1;
                sum.value += values[i];
            }
        }
    }
    for i in 0..slots.len() {
        totals.most_held = totals.most_held.max(held_after(slots, record, i));
    }
    if made(Mistake::NoMostHeld) {
        totals.most_held = 0;
    }
    totals
}

/// "Held are the packets up to this one that are: sent or flushed, with when not before this slot;
/// or pushed out or preempted, with by greater than this number."
fn held_after(slots: &[u64], record: &Record, this: usize) -> u64 {
    let after_sending = u64::from(made(Mistake::RoomAfterSending));
    let this_slot = slots[this] + after_sending;
    let this_number = this as u64 + 1;
    let mut held = 0;
    for i in 0..=this {
        let fate = record.fates[i];
        if (fate == SENT || fate == FLUSHED) && record.whens[i] >= this_slot {
            held += 1;
        }
        if (fate == PUSHED_OUT || fate == PREEMPTED) && record.bys[i] > this_number {
            held += 1;
        }
    }
    held
}

// ---------------------------------------------------------------- refusals

#[derive(Clone, Copy, Debug, PartialEq)]
pub struct Refusal {
    pub number: u64,
    pub place: u64,
}

fn refuse_if(cause: bool, number: u64, place: u64) -> Result<(), Refusal> {
    if cause {
        Err(Refusal { number, place })
    } else {
        Ok(())
    }
}

/// 1: "two lists differ in length, record lists included".
pub fn refuse_1(slots: &[u64], values: &[u64], record: &Record) -> Result<(), Refusal> {
    let n = slots.len();
    let differ = values.len() != n
        || record.fates.len() != n
        || record.whens.len() != n
        || record.bys.len() != n;
    refuse_if(differ, 1, 0)
}

/// 2: "more than 2,048 packets".
pub fn refuse_2(slots: &[u64]) -> Result<(), Refusal> {
    refuse_if(slots.len() > MAX_PACKETS, 2, 0)
}

/// 3: "room out of range".
pub fn refuse_3(room: u64) -> Result<(), Refusal> {
    let bad = room < 1 || room > MAX_ROOM || made(Mistake::RefusesEverything);
    refuse_if(bad, 3, 0)
}

/// 4: "beta [...] out of range": "each 1 to 65,535, num > den".
pub fn refuse_4_beta(num: u64, den: u64) -> Result<(), Refusal> {
    let num_bad = num < 1 || num > MAX_BETA;
    let den_bad = den < 1 || den > MAX_BETA;
    refuse_if(num_bad || den_bad || num <= den, 4, 0)
}

/// 4: "MF's lo, hi, r, out of range": "values with lo < hi; r 0 to 255".
pub fn refuse_4_mf(lo: u64, hi: u64, r: u64) -> Result<(), Refusal> {
    let bad = value_bad(lo) || value_bad(hi) || lo >= hi || r > MAX_R;
    refuse_if(bad, 4, 0)
}

pub fn value_bad(value: u64) -> bool {
    value < 1 || value > MAX_VALUE
}

/// 5: "slot out of range or below the one before"; 6: "value out of range; in MF, neither lo nor
/// hi". "5 and 6 name the lowest packet with either, 5 first at one packet."
fn refuse_5_6(slots: &[u64], values: &[u64], mf: Option<(u64, u64)>) -> Result<(), Refusal> {
    for i in 0..slots.len() {
        let number = i as u64 + 1;
        let out_of_range = slots[i] < 1 || slots[i] > MAX_SLOT;
        let below_the_one_before = i > 0 && slots[i] < slots[i - 1];
        refuse_if(out_of_range || below_the_one_before, 5, number)?;
        refuse_if(value_bad(values[i]), 6, number)?;
        if let Some((lo, hi)) = mf {
            refuse_if(values[i] != lo && values[i] != hi, 6, number)?;
        }
    }
    Ok(())
}

// ---------------------------------------------------------------- the calls

pub fn greedy(
    slots: &[u64],
    values: &[u64],
    room: u64,
    record: &mut Record,
) -> Result<Totals, Refusal> {
    refuse_1(slots, values, record)?;
    refuse_2(slots)?;
    refuse_3(room)?;
    refuse_5_6(slots, values, None)?;
    run(Policy::Greedy, slots, values, room as usize, record);
    Ok(totals(slots, values, record))
}

pub fn pg(
    slots: &[u64],
    values: &[u64],
    room: u64,
    (num, den): (u64, u64),
    record: &mut Record,
) -> Result<Totals, Refusal> {
    refuse_1(slots, values, record)?;
    refuse_2(slots)?;
    refuse_3(room)?;
    refuse_4_beta(num, den)?;
    refuse_5_6(slots, values, None)?;
    run(
        Policy::Pg { num, den },
        slots,
        values,
        room as usize,
        record,
    );
    Ok(totals(slots, values, record))
}

pub fn mf(
    slots: &[u64],
    values: &[u64],
    room: u64,
    (lo, hi, r): (u64, u64, u64),
    record: &mut Record,
) -> Result<Totals, Refusal> {
    refuse_1(slots, values, record)?;
    refuse_2(slots)?;
    refuse_3(room)?;
    refuse_4_mf(lo, hi, r)?;
    refuse_5_6(slots, values, Some((lo, hi)))?;
    run(
        Policy::Mf { lo, hi, r },
        slots,
        values,
        room as usize,
        record,
    );
    Ok(totals(slots, values, record))
}

pub fn plan(
    slots: &[u64],
    values: &[u64],
    room: u64,
    record: &mut Record,
) -> Result<Totals, Refusal> {
    refuse_1(slots, values, record)?;
    refuse_2(slots)?;
    refuse_3(room)?;
    refuse_5_6(slots, values, None)?;
    let kept = kept_by_the_plan(slots, values, room);
    send_the_kept(slots, &kept, record);
    Ok(totals(slots, values, record))
}

// ---------------------------------------------------------------- the policies

#[derive(Clone, Copy)]
enum Policy {
    Greedy,
    Pg { num: u64, den: u64 },
    Mf { lo: u64, hi: u64, r: u64 },
}

/// A held packet. Lists of these go from the oldest to the newest.
#[derive(Clone, Copy)]
pub struct Held {
    pub number: u64,
    pub value: u64,
}

impl Held {
    fn packet(&self) -> usize {
        self.number as usize - 1
    }
}

/// "Of the held packets and the arrival the one of lowest value is lost; among equals the newest."
/// The place of that one, the arrival standing last in the list.
pub fn lowest(held: &[Held]) -> usize {
    let mut lowest = 0;
    for place in 0..held.len() {
        if held[place].value <= held[lowest].value {
            lowest = place;
        }
    }
    if made(Mistake::OldestOfEquals) {
        return held
            .iter()
            .position(|p| p.value == held[lowest].value)
            .unwrap_or(0);
    }
    lowest
}

/// "Going from the oldest held packet, the first p with value(p) x num <= value(arrival) x den is
/// preempted, at most one." The place of p, if there is one.
pub fn preempted(held: &[Held], arrival: u64, num: u64, den: u64) -> Option<usize> {
    if let Some(mistaken) = mistakes::preempted(held, arrival, num, den) {
        return mistaken;
    }
    for place in 0..held.len() {
        if held[place].value * num <= arrival * den {
            return Some(place);
        }
    }
    None
}

/// "Within a slot packets arrive one by one, in number order. At the end of the slot the oldest
/// held packet, if any, is sent. After the last arrival, slots go on until nothing is held."
/// Slots at whose end nothing is held are passed over: nothing happens in them.
fn run(policy: Policy, slots: &[u64], values: &[u64], room: usize, record: &mut Record) {
    let mut held: Vec<Held> = Vec::new();
    let mut marks: Vec<u64> = vec![0; slots.len()]; // MF's marks, 0 for unmarked
    let mut slot = 1;
    for i in 0..slots.len() {
        while slot < slots[i] && !held.is_empty() {
            end_of_slot(policy, slots, slot, room, &mut held, &mut marks, record);
            slot += 1;
        }
        slot = slots[i];
        let arrival = Held {
            number: i as u64 + 1,
            value: values[i],
        };
        if mistakes::decided(i) == Some(false) {
            record.set(i, REJECTED, slot, arrival.number);
            continue;
        }
        if let Policy::Pg { num, den } = policy {
            preempt(arrival, slot, (num, den), &mut held, record);
            if made(Mistake::SecondPreemption) {
                preempt(arrival, slot, (num, den), &mut held, record);
            }
        }
        arrive_greedily(arrival, slot, room, &mut held, record);
    }
    while !held.is_empty() {
        end_of_slot(policy, slots, slot, room, &mut held, &mut marks, record);
        slot += 1;
    }
}

fn preempt(
    arrival: Held,
    slot: u64,
    (num, den): (u64, u64),
    held: &mut Vec<Held>,
    record: &mut Record,
) {
    if let Some(place) = preempted(held, arrival.value, num, den) {
        let lost = held.remove(place);
        record.set(lost.packet(), PREEMPTED, slot, arrival.number);
    }
}

/// "If there is room, hold the arrival. If not, [the lowest] is lost. The arrival itself is then
/// rejected, another is pushed out and the arrival held."
fn arrive_greedily(
    arrival: Held,
    slot: u64,
    room: usize,
    held: &mut Vec<Held>,
    record: &mut Record,
) {
    let there_is_room = match mistakes::there_is_room(held.len(), || lost(record), room) {
        Some(mistaken) => mistaken,
        None => held.len() < room,
    };
    held.push(arrival);
    if !there_is_room {
        let place = lowest(held);
        let lost = held.remove(place);
        if lost.number == arrival.number {
            record.set(lost.packet(), REJECTED, slot, lost.number);
        } else {
            record.set(lost.packet(), PUSHED_OUT, slot, arrival.number);
        }
    }
}

/// How many packets that were held have been lost; only a mistake asks.
fn lost(record: &Record) -> usize {
    let is_lost = |fate: &&u64| **fate == PUSHED_OUT || **fate == PREEMPTED;
    record.fates.iter().filter(is_lost).count()
}

fn end_of_slot(
    policy: Policy,
    slots: &[u64],
    slot: u64,
    room: usize,
    held: &mut Vec<Held>,
    marks: &mut [u64],
    record: &mut Record,
) {
    if let Policy::Mf { lo, hi, r } = policy {
        mark((lo, hi, r), slots, slot, room, held, marks);
        flush(slot, held, marks, record);
    }
    if !held.is_empty() {
        let sent = held.remove(0);
        record.set(sent.packet(), SENT, slot, 0);
    }
}

/// "After the slot's arrivals, go through positions 1 to room - 1 from the oldest, as far as
/// packets are held. Each hi packet that arrived in this slot marks with its own number up to r
/// unmarked lo packets, starting at the position before it and stepping down one place each time,
/// marked or not. Marks last." Position 1 is the oldest's.
fn mark(
    (lo, hi, r): (u64, u64, u64),
    slots: &[u64],
    slot: u64,
    room: usize,
    held: &[Held],
    marks: &mut [u64],
) {
    let at = |position: usize| held[position - 1];
    for position in 1..=room - 1 {
        if position > held.len() {
            break;
        }
        let marker = at(position);
        if marker.value != hi || slots[marker.packet()] != slot {
            continue;
        }
        if mistakes::mark_down((lo, r), marker.number, position, held, marks).is_some() {
            continue;
        }
        let mut left = r;
        let mut before = position - 1;
        while left > 0 && before >= 1 {
            let p = at(before);
            if p.value == lo && marks[p.packet()] == 0 {
                marks[p.packet()] = marker.number;
                left -= 1;
            }
            before -= 1;
        }
    }
}

/// "Then, if the head has mark m, every held packet with a mark at most m is flushed, once."
fn flush(slot: u64, held: &mut Vec<Held>, marks: &[u64], record: &mut Record) {
    if held.is_empty() {
        return;
    }
    let m = marks[held[0].packet()];
    if m == 0 {
        return;
    }
    let mut stay = Vec::new();
    for p in held.iter() {
        let its_mark = marks[p.packet()];
        if its_mark != 0 && its_mark <= m {
            let by = if made(Mistake::HeadMark) { m } else { its_mark };
            record.set(p.packet(), FLUSHED, slot, by);
        } else {
            stay.push(*p);
        }
    }
    *held = stay;
}

// ---------------------------------------------------------------- the offline plan

/// "Take packets by falling value, older first among equals. Keep one if, with those kept already,
/// sending the oldest kept packet at each slot's end, no arrival leaves more than room kept
/// packets held."
fn kept_by_the_plan(slots: &[u64], values: &[u64], room: u64) -> Vec<bool> {
    let mut order: Vec<usize> = (0..slots.len()).collect();
    if made(Mistake::NewestFirst) {
        order.sort_by(|&i, &j| values[j].cmp(&values[i]).then(j.cmp(&i)));
    } else {
        order.sort_by(|&i, &j| values[j].cmp(&values[i]).then(i.cmp(&j)));
    }
    let mut kept = vec![false; slots.len()];
    for i in order {
        if let Some(mistaken) = mistakes::decided(i) {
            kept[i] = mistaken;
            continue;
        }
        kept[i] = true;
        if !fits(slots, &kept, room) {
            kept[i] = false;
        }
    }
    kept
}

/// One packet leaves at each slot's end as long as any is held.
fn fits(slots: &[u64], kept: &[bool], room: u64) -> bool {
    let room = room + u64::from(made(Mistake::RoomAfterSending));
    let mut held: u64 = 0;
    for i in 0..slots.len() {
        if i > 0 {
            let ends_of_slot = slots[i] - slots[i - 1];
            held = held.saturating_sub(ends_of_slot);
        }
        if kept[i] {
            held += 1;
        }
        if held > room {
            return false;
        }
    }
    true
}

/// The kept are sent, the oldest held one at each slot's end. "All others are rejected."
fn send_the_kept(slots: &[u64], kept: &[bool], record: &mut Record) {
    let mut next_free_slot = 1;
    for i in 0..slots.len() {
        if kept[i] {
            let when = next_free_slot.max(slots[i]);
            record.set(i, SENT, when, 0);
            next_free_slot = when + 1;
        } else {
            record.set(i, REJECTED, slots[i], i as u64 + 1);
        }
    }
}

// ---------------------------------------------------------------- the audit

#[derive(Clone, Debug, PartialEq)]
pub enum Verdict {
    Passed(Totals),
    Fault { number: u64, packet: u64 },
}

/// "The audit takes packets in number order and at each tests in this order; the first fault is
/// the answer, with the packet's number."
pub fn audit(
    slots: &[u64],
    values: &[u64],
    room: u64,
    record: &Record,
) -> Result<Verdict, Refusal> {
    refuse_1(slots, values, record)?;
    refuse_2(slots)?;
    refuse_3(room)?;
    refuse_5_6(slots, values, None)?;
    let mut packets = slots.len();
    if made(Mistake::PassesEverything) {
        packets = 0;
    }
    if made(Mistake::StopsEarly) {
        packets = packets.saturating_sub(1);
    }
    for i in 0..packets {
        if let Some(number) = fault_at(slots, room, record, i) {
            let blamed = if made(Mistake::FirstBlamed) { 0 } else { i };
            let packet = blamed as u64 + 1;
            return Ok(Verdict::Fault { number, packet });
        }
    }
    Ok(Verdict::Passed(totals(slots, values, record)))
}

fn fault_at(slots: &[u64], room: u64, record: &Record, i: usize) -> Option<u64> {
    let own = i as u64 + 1;
    let packets = slots.len() as u64;
    let (fate, when, by) = (record.fates[i], record.whens[i], record.bys[i]);

    // 11: "fate outside 1 to 5."
    if fate < 1 || fate > 5 {
        return Some(11);
    }

    // 12: "by is not 0 for fate 1, not the own number for fate 2, or not a later packet of the
    // trace for 3, 4, 5."
    let by_right = match fate {
        SENT => by == 0,
        REJECTED => by == own,
        _ => by > own && by <= packets,
    };
    if !by_right {
        return Some(12);
    }

    // 13: "when is before the arrival (fate 1), differs from the arrival slot (2), differs from the
    // slot of by (3, 4), or is before the slot of by (5)."
    let when_wrong = match fate {
        SENT => when < slots[i],
        REJECTED => when != slots[i],
        PUSHED_OUT | PREEMPTED => when != slots[by as usize - 1],
        _ => when < slots[by as usize - 1],
    };
    if when_wrong {
        return Some(13);
    }

    // 14: "sent, and when isn't later than that of the last sent packet of lower number."
    if fate == SENT {
        let last_sent = (0..i).rev().find(|&j| record.fates[j] == SENT);
        if let Some(j) = last_sent {
            let same_slot_passes = made(Mistake::SameSlot) && when == record.whens[j];
            if when <= record.whens[j] && !same_slot_passes {
                return Some(14);
            }
        }
    }

    // 15: "more than room held just after this arrival."
    if held_after(slots, record, i) > room {
        return Some(15);
    }
    None
}
