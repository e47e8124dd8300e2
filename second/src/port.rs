//! The live PG port. Quoted sentences are the scope's.

use crate::mistakes::{made, Mistake};
use crate::rules::{lowest, preempted, refuse_3, refuse_4_beta, value_bad, Held, Refusal};

pub const PLACES: usize = 256;
pub const MAX_NUMBER: u64 = 4_294_967_295;

/// "The port is a value: room, beta, the last number given, and the held packets in order. A port
/// holds its packets in 256 places, all zero when fresh."
#[derive(Clone, Debug, PartialEq)]
pub struct Port {
    pub room: u64,
    pub num: u64,
    pub den: u64,
    pub last: u64,
    pub held: u64,
    pub numbers: [u64; PLACES],
    pub values: [u64; PLACES],
}

#[derive(Clone, Copy, Debug, PartialEq)]
pub enum Kind {
    PushedOut,
    Preempted,
}

/// "Where another packet was lost, the answer holds that packet and which kind of loss it was."
#[derive(Clone, Copy, Debug, PartialEq)]
pub struct Loss {
    pub number: u64,
    pub value: u64,
    pub kind: Kind,
}

#[derive(Clone, Copy, Debug, PartialEq)]
pub enum Arrival {
    Held { number: u64, lost: Option<Loss> },
    Rejected { number: u64 },
    Refused(Refusal),
}

#[derive(Clone, Copy, Debug, PartialEq)]
pub enum EndOfSlot {
    Sent { number: u64, value: u64 },
    Idle,
    Refused(Refusal),
}

const NOT_SOUND: Refusal = Refusal {
    number: 8,
    place: 0,
};
const BAD_VALUE: Refusal = Refusal {
    number: 6,
    place: 0,
};
const NUMBERS_SPENT: Refusal = Refusal {
    number: 7,
    place: 0,
};

impl Port {
    /// "Zero throughout, which isn't sound."
    pub fn zero() -> Port {
        Port {
            room: 0,
            num: 0,
            den: 0,
            last: 0,
            held: 0,
            numbers: [0; PLACES],
            values: [0; PLACES],
        }
    }

    /// "Making a port can give 3 or 4, and a refused making hands back a port that is zero
    /// throughout."
    pub fn make(room: u64, num: u64, den: u64) -> (Port, Result<(), Refusal>) {
        let tested = refuse_3(room).and_then(|()| refuse_4_beta(num, den));
        if tested.is_err() {
            return (Port::zero(), tested);
        }
        let fresh = Port {
            room,
            num,
            den,
            ..Port::zero()
        };
        (fresh, Ok(()))
    }

    /// "A port is sound when room and beta are in range, held is at most room, held values are in
    /// range, held numbers rise and lie from 1 to the last number given, and unused places are
    /// zero."
    pub fn sound(&self) -> bool {
        if refuse_3(self.room).is_err() || refuse_4_beta(self.num, self.den).is_err() {
            return false;
        }
        if self.held > self.room {
            return false;
        }
        let held = self.held as usize;
        for place in 0..PLACES {
            let (number, value) = (self.numbers[place], self.values[place]);
            if place < held {
                if value_bad(value) || number < 1 || number > self.last {
                    return false;
                }
                if place > 0 && number <= self.numbers[place - 1] {
                    return false;
                }
            } else if number != 0 || value != 0 {
                return false;
            }
        }
        true
    }

    fn packets(&self) -> Vec<Held> {
        let mut list = Vec::new();
        for place in 0..self.held as usize {
            let (number, value) = (self.numbers[place], self.values[place]);
            list.push(Held { number, value });
        }
        list
    }

    /// The same port with these packets in its first places and zero in all others.
    fn with_packets(self, list: &[Held]) -> Port {
        let mut port = Port {
            held: list.len() as u64,
            numbers: [0; PLACES],
            values: [0; PLACES],
            ..self
        };
        for place in 0..list.len() {
            port.numbers[place] = list[place].number;
            port.values[place] = list[place].value;
        }
        port
    }

    /// PG's arrival. Refusals 8, 6, 7, in this order.
    pub fn arrival(self, value: u64) -> (Port, Arrival) {
        if !self.sound() {
            return (self, Arrival::Refused(NOT_SOUND));
        }
        if value_bad(value) {
            return (self, Arrival::Refused(BAD_VALUE));
        }
        if self.last >= MAX_NUMBER {
            return (self, Arrival::Refused(NUMBERS_SPENT));
        }
        let number = self.last + 1;
        let mut list = self.packets();
        let mut loss = None;
        if let Some(place) = preempted(&list, value, self.num, self.den) {
            let lost = list.remove(place);
            loss = Some((lost, Kind::Preempted));
        }
        let there_is_room = (list.len() as u64) < self.room;
        list.push(Held { number, value });
        if !there_is_room {
            let lost = list.remove(lowest(&list));
            loss = Some((lost, Kind::PushedOut));
        }
        let answer = match loss {
            None => Arrival::Held { number, lost: None },
            Some((lost, _)) if lost.number == number => Arrival::Rejected { number },
            Some((lost, kind)) => Arrival::Held {
                number,
                lost: Some(Loss {
                    number: lost.number,
                    value: lost.value,
                    kind,
                }),
            },
        };
        let port = Port {
            last: number,
            ..self
        };
        (port.with_packets(&list), answer)
    }

    /// "An end of slot answers the sent packet, or idle."
    pub fn end_of_slot(self) -> (Port, EndOfSlot) {
        if !self.sound() {
            return (self, EndOfSlot::Refused(NOT_SOUND));
        }
        let mut list = self.packets();
        if list.is_empty() || (made(Mistake::IdlePort) && list.len() == 1) {
            return (self, EndOfSlot::Idle);
        }
        let Held { number, value } = list.remove(0);
        (self.with_packets(&list), EndOfSlot::Sent { number, value })
    }
}

#[cfg(test)]
mod tests {
    use super::*;

    fn refused(number: u64) -> Arrival {
        Arrival::Refused(Refusal { number, place: 0 })
    }

    #[test]
    fn refusals_of_a_live_port_in_their_order() {
        let (zero, made) = Port::make(257, 1, 1);
        assert_eq!(
            made,
            Err(Refusal {
                number: 3,
                place: 0
            })
        );
        assert_eq!(zero.clone().arrival(0), (zero.clone(), refused(8)));
        let (_, made) = Port::make(1, 1, 1);
        assert_eq!(
            made,
            Err(Refusal {
                number: 4,
                place: 0
            })
        );

        let (mut port, _) = Port::make(1, 2, 1);
        port.last = MAX_NUMBER;
        assert_eq!(port.clone().arrival(65_536), (port.clone(), refused(6)));
        assert_eq!(port.clone().arrival(1), (port.clone(), refused(7)));
        port.held = u64::MAX;
        assert_eq!(port.clone().arrival(1), (port, refused(8)));
    }

    #[test]
    fn unsound_ports() {
        let (port, _) = Port::make(3, 2, 1);
        let (port, _) = port.arrival(5);
        let (port, _) = port.arrival(5);
        assert!(port.sound());
        let spoilt: [fn(&mut Port); 7] = [
            |p| p.numbers[1] = 1,
            |p| p.numbers[1] = 3,
            |p| p.numbers[0] = 0,
            |p| p.values[0] = 0,
            |p| p.values[1] = 65_536,
            |p| p.values[255] = 1,
            |p| p.room = 1,
        ];
        for spoil in spoilt {
            let mut p = port.clone();
            spoil(&mut p);
            assert!(!p.sound());
        }
    }

    #[test]
    fn the_last_number_can_be_given() {
        let (mut port, _) = Port::make(1, 2, 1);
        port.last = MAX_NUMBER - 1;
        let (port, answer) = port.arrival(1);
        let number = MAX_NUMBER;
        assert_eq!(answer, Arrival::Held { number, lost: None });
        let (_, answer) = port.end_of_slot();
        assert_eq!(answer, EndOfSlot::Sent { number, value: 1 });
    }
}
