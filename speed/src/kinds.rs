//! What all versions share: a trace, a record, totals, and what a call answers.

pub const PACKETS: usize = 2048;
pub const SLOT: u32 = 1_000_000;
pub const VALUE: u32 = 65_535;
pub const ROOM: usize = 256;
pub const MARKS: usize = 255;

pub const SENT: u32 = 1;
pub const REJECTED: u32 = 2;
pub const PUSHED_OUT: u32 = 3;
pub const PREEMPTED: u32 = 4;
pub const FLUSHED: u32 = 5;

#[derive(Clone, Debug)]
pub struct Trace {
    pub slots: Vec<u32>,
    pub values: Vec<u32>,
}

#[derive(Clone, Debug, PartialEq)]
pub struct Record {
    pub fates: Vec<u32>,
    pub whens: Vec<u32>,
    pub bys: Vec<u32>,
}

impl Record {
    pub fn blank(packets: usize) -> Record {
        Record {
            fates: vec![0; packets],
            whens: vec![0; packets],
            bys: vec![0; packets],
        }
    }

    pub fn enter(&mut self, packet: usize, fate: u32, when: u32, by: u32) {
        self.fates[packet] = fate;
        self.whens[packet] = when;
        self.bys[packet] = by;
    }
}

#[derive(Clone, Copy, Debug, Default, PartialEq)]
pub struct Tally {
    pub count: u32,
    pub value: u32,
}

#[derive(Clone, Copy, Debug, Default, PartialEq)]
pub struct Totals {
    pub arrived: Tally,
    /// Sent, rejected, pushed out, preempted, flushed.
    pub fates: [Tally; 5],
    pub most_held: u32,
}

/// A refusal or a fault: its number and its place.
#[derive(Clone, Copy, Debug, PartialEq)]
pub struct No {
    pub number: u32,
    pub place: u32,
}

pub type Answer = Result<Totals, No>;

#[derive(Clone, Copy, Debug)]
pub struct Beta {
    pub num: u32,
    pub den: u32,
}
