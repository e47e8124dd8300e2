//! The inputs, made from a fixed seed.

use crate::kinds::{Trace, SLOT, VALUE};

/// A small generator of numbers (xorshift and a multiplication), so that every run has the same inputs.
pub struct Draw(u64);

impl Draw {
    pub fn new(seed: u64) -> Draw {
        Draw(seed | 1)
    }

    fn next(&mut self) -> u64 {
        self.0 ^= self.0 >> 12;
        self.0 ^= self.0 << 25;
        self.0 ^= self.0 >> 27;
        self.0.wrapping_mul(0x2545_F491_4F6C_DD1D) >> 32
    }

    /// One of low to high.
    pub fn between(&mut self, low: u32, high: u32) -> u32 {
        low + (self.next() % u64::from(high - low + 1)) as u32
    }
}

#[derive(Clone, Copy)]
pub enum Load {
    /// Hundreds of arrivals a slot.
    Overflow,
    /// One arrival a slot.
    Light,
    /// Arrivals spread over a million slots.
    Sparse,
}

pub const LOADS: [(Load, &str); 3] = [
    (Load::Overflow, "overflow"),
    (Load::Light, "light"),
    (Load::Sparse, "sparse"),
];

fn slots(load: Load, packets: usize, draw: &mut Draw) -> Vec<u32> {
    let mut slots: Vec<u32> = match load {
        Load::Overflow => {
            let mut slots = Vec::with_capacity(packets);
            let mut slot = 1;
            while slots.len() < packets {
                let many = draw.between(200, 600) as usize;
                slots.extend(std::iter::repeat_n(slot, many.min(packets - slots.len())));
                slot += 1;
            }
            slots
        }
        Load::Light => (1..=packets as u32).collect(),
        Load::Sparse => (0..packets).map(|_| draw.between(1, SLOT)).collect(),
    };
    slots.sort_unstable();
    slots
}

pub fn trace(load: Load, packets: usize, seed: u64) -> Trace {
    let mut draw = Draw::new(seed);
    let slots = slots(load, packets, &mut draw);
    let values = (0..packets).map(|_| draw.between(1, VALUE)).collect();
    Trace { slots, values }
}

/// A trace of two values, as MF takes: about one packet in four is hi.
pub fn two_values(packets: usize, lo: u32, hi: u32, seed: u64) -> Trace {
    let mut draw = Draw::new(seed);
    let mut slots = Vec::with_capacity(packets);
    let mut slot = 1;
    while slots.len() < packets {
        let many = draw.between(0, 24) as usize;
        slots.extend(std::iter::repeat_n(slot, many.min(packets - slots.len())));
        slot += 1;
    }
    let values = (0..packets)
        .map(|_| if draw.between(1, 4) == 1 { hi } else { lo })
        .collect();
    Trace { slots, values }
}

/// A trace for the plan: bursts with pauses between them.
pub fn bursts(packets: usize, seed: u64) -> Vec<u32> {
    let mut draw = Draw::new(seed);
    let mut slots = Vec::with_capacity(packets);
    let mut slot = 1;
    while slots.len() < packets {
        let many = draw.between(1, 64) as usize;
        slots.extend(std::iter::repeat_n(slot, many.min(packets - slots.len())));
        slot += draw.between(1, 24);
    }
    slots
}

/// What a live port is fed: arrivals, and an end of slot after each.
pub fn arrivals_and_ends(packets: usize, fill: usize, seed: u64) -> Vec<u32> {
    let mut draw = Draw::new(seed);
    let mut events = Vec::new();
    for i in 0..packets {
        // values rise and fall within a factor below beta, so that the port fills
        events.push(draw.between(40_000, VALUE));
        if i >= fill {
            events.push(0);
        }
    }
    events
}
