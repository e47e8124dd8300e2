//! The live PG port in plain Rust: a value that each call takes and hands back.

use crate::kinds::{Beta, ROOM, VALUE};
use crate::plain::beta_ok;
use std::cmp::Reverse;

#[derive(Clone, Copy)]
pub struct Packet {
    pub number: u32,
    pub value: u32,
}

#[derive(Clone, Copy)]
pub enum Kind {
    PushedOut,
    Preempted,
}

pub enum Arrival {
    Held(u32),
    HeldLosing(u32, Packet, Kind),
    Rejected(u32),
    Refused(u32),
}

pub enum EndOfSlot {
    Sent(Packet),
    Idle,
    Refused(u32),
}

pub struct Port {
    room: usize,
    beta: Beta,
    last: u32,
    held: usize,
    values: [u32; ROOM],
    numbers: [u32; ROOM],
}

impl Port {
    /// A refused making hands back a port that is zero throughout.
    pub fn new(room: usize, beta: Beta) -> (Port, Result<(), u32>) {
        let made = if !(1..=ROOM).contains(&room) {
            Err(3)
        } else if !beta_ok(beta) {
            Err(4)
        } else {
            Ok(())
        };
        let zero = Beta { num: 0, den: 0 };
        let (room, beta) = if made.is_ok() {
            (room, beta)
        } else {
            (0, zero)
        };
        let port = Port {
            room,
            beta,
            last: 0,
            held: 0,
            values: [0; ROOM],
            numbers: [0; ROOM],
        };
        (port, made)
    }

    fn sound(&self) -> bool {
        if !(1..=ROOM).contains(&self.room) || !beta_ok(self.beta) || self.held > self.room {
            return false;
        }
        let (values, no_values) = self.values.split_at(self.held);
        let (numbers, no_numbers) = self.numbers.split_at(self.held);
        values.iter().all(|value| (1..=VALUE).contains(value))
            && numbers.windows(2).all(|pair| pair[0] < pair[1])
            && numbers.first().is_none_or(|&first| first >= 1)
            && numbers.last().is_none_or(|&last| last <= self.last)
            && no_values.iter().all(|&value| value == 0)
            && no_numbers.iter().all(|&number| number == 0)
    }

    fn push(&mut self, packet: Packet) {
        self.values[self.held] = packet.value;
        self.numbers[self.held] = packet.number;
        self.held += 1;
    }

    fn remove(&mut self, place: usize) -> Packet {
        let packet = Packet {
            number: self.numbers[place],
            value: self.values[place],
        };
        self.values.copy_within(place + 1..self.held, place);
        self.numbers.copy_within(place + 1..self.held, place);
        self.held -= 1;
        self.values[self.held] = 0;
        self.numbers[self.held] = 0;
        packet
    }

    pub fn arrive(mut self, value: u32) -> (Port, Arrival) {
        if !self.sound() {
            return (self, Arrival::Refused(8));
        }
        if !(1..=VALUE).contains(&value) {
            return (self, Arrival::Refused(6));
        }
        let Some(number) = self.last.checked_add(1) else {
            return (self, Arrival::Refused(7));
        };
        self.last = number;
        let held = &self.values[..self.held];
        let limit = u64::from(value) * u64::from(self.beta.den);
        let num = u64::from(self.beta.num);
        let first = held.iter().position(|&p| u64::from(p) * num <= limit);
        let loss = if let Some(place) = first {
            Some((place, Kind::Preempted))
        } else if held.len() < self.room {
            None
        } else {
            let lowest = held
                .iter()
                .enumerate()
                .min_by_key(|&(place, &p)| (p, Reverse(place)));
            match lowest {
                Some((place, &p)) if p < value => Some((place, Kind::PushedOut)),
                _ => return (self, Arrival::Rejected(number)),
            }
        };
        let answer = match loss {
            None => Arrival::Held(number),
            Some((place, kind)) => Arrival::HeldLosing(number, self.remove(place), kind),
        };
        self.push(Packet { number, value });
        (self, answer)
    }

    pub fn end_of_slot(mut self) -> (Port, EndOfSlot) {
        if !self.sound() {
            return (self, EndOfSlot::Refused(8));
        }
        if self.held == 0 {
            return (self, EndOfSlot::Idle);
        }
        let sent = self.remove(0);
        (self, EndOfSlot::Sent(sent))
    }
}

fn mix(sum: u64, said: u32, given: u32, packet: Packet) -> u64 {
    let said = u64::from(said) + u64::from(given) * 3;
    let packet = u64::from(packet.number) * 5 + u64::from(packet.value) * 7;
    (sum * 31 + said + packet) % (1 << 32)
}

/// Makes a port and feeds it events: 0 is an end of slot, any other number an arrival of that value. All that the port says is mixed into one number.
/// A refused making is its number times 2^32 and its place, 0, and nothing is fed.
pub fn feed(events: &[u32], room: usize, beta: Beta) -> u64 {
    let nobody = Packet {
        number: 0,
        value: 0,
    };
    let (mut port, made) = Port::new(room, beta);
    if let Err(number) = made {
        return u64::from(number) << 32;
    }
    let mut sum = 0;
    for &event in events {
        if event == 0 {
            let (left, answer) = port.end_of_slot();
            port = left;
            sum = match answer {
                EndOfSlot::Sent(packet) => mix(sum, 1, 0, packet),
                EndOfSlot::Idle => mix(sum, 0, 0, nobody),
                EndOfSlot::Refused(number) => mix(sum, number, 0, nobody),
            };
        } else {
            let (left, answer) = port.arrive(event);
            port = left;
            sum = match answer {
                Arrival::Held(number) => mix(sum, 0, number, nobody),
                Arrival::HeldLosing(number, packet, Kind::PushedOut) => mix(sum, 3, number, packet),
                Arrival::HeldLosing(number, packet, Kind::Preempted) => mix(sum, 4, number, packet),
                Arrival::Rejected(number) => mix(sum, 2, number, nobody),
                Arrival::Refused(number) => mix(sum, number, 0, nobody),
            };
        }
    }
    sum
}
