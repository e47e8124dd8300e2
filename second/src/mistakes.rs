//! The mistakes of docs/MISTAKES.md, by name. Each is a small variant of one rule; `made` is true of one only
//! where `--mistake NAME` asked for it, and never while the random cases are answered.

use crate::rules::Held;
use std::cell::Cell;

#[derive(Clone, Copy, Debug, PartialEq)]
pub enum Mistake {
    BetaRounded,
    QuotientRoundedUp,
    RoomAfterSending,
    HeldNotLowered,
    SecondPreemption,
    OldestOfEquals,
    CheapestPreempted,
    NewestFirst,
    OwnPosition,
    MarkedAgain,
    MarkedUsesR,
    StandsStill,
    HeadMark,
    SameSlot,
    PaperRoom,
    RefusesEverything,
    OneRecord,
    WritesNothing,
    RejectsEverything,
    KeepsEverything,
    FirstOnly,
    NumberedFromTwo,
    NoMostHeld,
    StopsEarly,
    FirstBlamed,
    PassesEverything,
    IdlePort,
}

use Mistake::*;

/// Every mistake, its name and what it is.
pub const ALL: [(Mistake, &str, &str); 27] = [
    (
        BetaRounded,
        "beta-rounded",
        "PG goes by beta rounded down to a whole number",
    ),
    (
        QuotientRoundedUp,
        "quotient-rounded-up",
        "PG preempts at most value(arrival) / beta rounded up",
    ),
    (
        RoomAfterSending,
        "room-after-sending",
        "room is tested as if the slot's sending had been",
    ),
    (
        HeldNotLowered,
        "held-not-lowered",
        "a count of held packets that a loss doesn't lower",
    ),
    (
        SecondPreemption,
        "second-preemption",
        "one arrival preempts twice",
    ),
    (
        OldestOfEquals,
        "oldest-of-equals",
        "among equals of lowest value the oldest is lost",
    ),
    (
        CheapestPreempted,
        "cheapest-preempted",
        "of those that qualify PG preempts the cheapest",
    ),
    (
        NewestFirst,
        "newest-first",
        "the plan takes the newest first among equals",
    ),
    (
        OwnPosition,
        "own-position",
        "MF marks from the hi packet's own position on",
    ),
    (
        MarkedAgain,
        "marked-again",
        "MF marks a marked packet again, which uses up r",
    ),
    (
        MarkedUsesR,
        "marked-uses-r",
        "a marked packet keeps its mark and uses up r",
    ),
    (
        StandsStill,
        "stands-still",
        "MF's step stands still at a marked packet",
    ),
    (
        HeadMark,
        "head-mark",
        "a flushed packet is written with the head's mark",
    ),
    (
        SameSlot,
        "same-slot",
        "fault 14 passes a sending at the slot of the last one",
    ),
    (
        PaperRoom,
        "paper-000-room",
        "the B of document 000 is passed as room, which is B + 1",
    ),
    (
        RefusesEverything,
        "refuses-everything",
        "every call is refused with 3",
    ),
    (OneRecord, "one-record", "every entry written is 0/0/0"),
    (WritesNothing, "writes-nothing", "no entry is written"),
    (
        RejectsEverything,
        "rejects-everything",
        "every packet is rejected",
    ),
    (
        KeepsEverything,
        "keeps-everything",
        "the plan keeps every packet",
    ),
    (
        FirstOnly,
        "first-only",
        "the first packet is decided, the rest rejected",
    ),
    (
        NumberedFromTwo,
        "numbered-from-two",
        "packets are numbered from 2",
    ),
    (NoMostHeld, "no-most-held", "the most held is always 0"),
    (
        StopsEarly,
        "stops-early",
        "the audit stops before the last packet",
    ),
    (
        FirstBlamed,
        "first-blamed",
        "the audit names packet 1 at every fault",
    ),
    (
        PassesEverything,
        "passes-everything",
        "the audit passes every record",
    ),
    (
        IdlePort,
        "idle-port",
        "the port is idle while it holds one packet",
    ),
];

thread_local! {
    static MADE: Cell<Option<Mistake>> = const { Cell::new(None) };
}

/// This mistake was asked for.
pub fn made(mistake: Mistake) -> bool {
    MADE.get() == Some(mistake)
}

pub fn named(name: &str) -> Option<Mistake> {
    let found = ALL.iter().find(|(_, its_name, _)| *its_name == name)?;
    Some(found.0)
}

/// Does this with the mistake made, and undoes that.
pub fn with<T>(mistake: Option<Mistake>, act: impl FnOnce() -> T) -> T {
    let before = MADE.replace(mistake);
    let done = act();
    MADE.set(before);
    done
}

// ---------------------------------------------------------------- the mistaken rules
// Each gives nothing where no mistake of its rule is made.

/// The place of the packet that PG preempts.
pub fn preempted(held: &[Held], arrival: u64, num: u64, den: u64) -> Option<Option<usize>> {
    let mut places = 0..held.len();
    match MADE.get()? {
        BetaRounded => Some(places.find(|&place| held[place].value * (num / den) <= arrival)),
        QuotientRoundedUp => {
            Some(places.find(|&place| held[place].value <= (arrival * den).div_ceil(num)))
        }
        CheapestPreempted => {
            let qualify = places.filter(|&place| held[place].value * num <= arrival * den);
            Some(qualify.min_by_key(|&place| held[place].value))
        }
        _ => None,
    }
}

/// What the caller passes for a room: document 000's B is one less. A B of 0 is no room, and is refused at once;
/// there the mistake is not made.
pub fn passed(room: u64) -> u64 {
    match made(PaperRoom) && room > 1 {
        true => room - 1,
        false => room,
    }
}

/// Whether there is room, where so many packets that were held have been lost so far.
pub fn there_is_room(held: usize, lost: impl Fn() -> usize, room: usize) -> Option<bool> {
    match MADE.get()? {
        RoomAfterSending => Some(held <= room),
        HeldNotLowered => Some(held + lost() < room),
        _ => None,
    }
}

/// Whether a packet is held or kept, before the rule is asked.
pub fn decided(packet: usize) -> Option<bool> {
    match MADE.get()? {
        RejectsEverything => Some(false),
        FirstOnly if packet > 0 => Some(false),
        KeepsEverything => Some(true),
        _ => None,
    }
}

/// MF's marking by one hi packet at this position, the oldest's being 1.
pub fn mark_down(
    (lo, r): (u64, u64),
    marker: u64,
    position: usize,
    held: &[Held],
    marks: &mut [u64],
) -> Option<()> {
    let made = MADE.get()?;
    if ![OwnPosition, MarkedAgain, MarkedUsesR, StandsStill].contains(&made) {
        return None;
    }
    let own = usize::from(made == OwnPosition);
    let mut left = r;
    let mut before = position - 1;
    while left > 0 && before >= 1 {
        let p = held[before + own - 1];
        let its_mark = &mut marks[p.number as usize - 1];
        if p.value == lo && *its_mark == 0 {
            *its_mark = marker;
            left -= 1;
        } else if p.value == lo && made == MarkedAgain {
            *its_mark = marker;
            left -= 1;
        } else if p.value == lo && made == MarkedUsesR {
            left -= 1;
        } else if p.value == lo && made == StandsStill {
            break; // nothing more comes of looking at this packet again
        }
        before -= 1;
    }
    Some(())
}

/// What is written as a packet's entry, and where, in lists of this length; nothing where nothing is.
pub fn entry(length: usize, packet: usize, entry: [u64; 3]) -> Option<(usize, [u64; 3])> {
    let [fate, when, by] = entry;
    match MADE.get() {
        Some(OneRecord) => Some((packet, [0, 0, 0])),
        Some(WritesNothing) => None,
        Some(NumberedFromTwo) if packet + 1 == length => None,
        Some(NumberedFromTwo) if by == 0 => Some((packet + 1, entry)),
        Some(NumberedFromTwo) => Some((packet + 1, [fate, when, by + 1])),
        _ => Some((packet, entry)),
    }
}
