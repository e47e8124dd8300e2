//! The proved calls, through the static library. A slice crosses as a pointer and a length.

use crate::kinds::*;

// A call on a trace and a record: the trace, the room, what is the call's own, the record's lists and the totals.
macro_rules! door {
    ($($name:ident($($own:ident: $kind:ty),*) $list:ty;)*) => {
        extern "C" {
            $(fn $name(
                slots: *const u32, slots_len: usize, values: *const u32, values_len: usize, room: usize, $($own: $kind,)*
                fates: $list, fates_len: usize, whens: $list, whens_len: usize, bys: $list, bys_len: usize,
                totals: *mut u32, totals_len: usize,
            ) -> u64;)*
        }
    };
}

door! {
    host_greedy() *mut u32;
    host_pg(num: u32, den: u32) *mut u32;
    host_mf(lo: u32, hi: u32, r: usize) *mut u32;
    host_plan() *mut u32;
    host_audit() *const u32;
}

extern "C" {
    fn host_port(events: *const u32, events_len: usize, room: usize, num: u32, den: u32) -> u64;
}

/// What the list of totals holds before a call.
const BEFORE: [u32; 13] = [77; 13];

/// The first number of a fault: a refusal's is below it.
const FAULT: u32 = 11;

/// A refusal writes no totals, and a fault's are all 0.
fn answer(code: u64, t: [u32; 13]) -> Answer {
    if code != 0 {
        let number = (code >> 32) as u32;
        let left = if number < FAULT { BEFORE } else { [0; 13] };
        assert_eq!(t, left, "the totals of a call that answered {number}");
        return Err(No {
            number,
            place: code as u32,
        });
    }
    let tally = |at: usize| Tally {
        count: t[at],
        value: t[at + 1],
    };
    Ok(Totals {
        arrived: tally(0),
        fates: [tally(2), tally(4), tally(6), tally(8), tally(10)],
        most_held: t[12],
    })
}

macro_rules! call {
    ($call:ident, $trace:expr, $record:expr, $lent:ident, $room:expr $(, $own:expr)*) => {{
        let mut totals = BEFORE;
        // SAFETY: every pointer and length is that of one living list, and the lists that are written are lent mutably; the audit writes the totals alone.
        let code = unsafe {
            $call(
                $trace.slots.as_ptr(), $trace.slots.len(), $trace.values.as_ptr(), $trace.values.len(), $room, $($own,)*
                $record.fates.$lent(), $record.fates.len(), $record.whens.$lent(), $record.whens.len(),
                $record.bys.$lent(), $record.bys.len(), totals.as_mut_ptr(), totals.len(),
            )
        };
        answer(code, totals)
    }};
}

pub fn greedy(trace: &Trace, room: usize, record: &mut Record) -> Answer {
    call!(host_greedy, trace, record, as_mut_ptr, room)
}

pub fn pg(trace: &Trace, room: usize, beta: Beta, record: &mut Record) -> Answer {
    call!(host_pg, trace, record, as_mut_ptr, room, beta.num, beta.den)
}

pub fn mf(
    trace: &Trace,
    room: usize,
    (lo, hi, r): (u32, u32, usize),
    record: &mut Record,
) -> Answer {
    call!(host_mf, trace, record, as_mut_ptr, room, lo, hi, r)
}

pub fn plan(trace: &Trace, room: usize, record: &mut Record) -> Answer {
    call!(host_plan, trace, record, as_mut_ptr, room)
}

pub fn audit(trace: &Trace, room: usize, record: &Record) -> Answer {
    call!(host_audit, trace, record, as_ptr, room)
}

pub fn feed(events: &[u32], room: usize, beta: Beta) -> u64 {
    // SAFETY: the pointer and the length are those of the events.
    unsafe { host_port(events.as_ptr(), events.len(), room, beta.num, beta.den) }
}
