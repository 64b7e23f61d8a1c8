//! Traces and counters of an end.

use crate::end::{lent, End};
use crate::ffi;
use std::str;

/// What a trace keeps.
#[derive(Clone, Copy, Debug, PartialEq, Eq, Hash)]
pub enum Trace {
    /// There is no trace.
    Off = 0,
    /// Counters.
    Counts = 1,
    /// Counters, and lines for a log.
    Lines = 2,
}

/// The direction of a trace.
#[derive(Clone, Copy, Debug, PartialEq, Eq, Hash)]
pub enum Direction {
    /// The octets that [`End::feed`] used.
    Received = 0,
    /// The octets that [`End::taken`] says are sent.
    Sent = 1,
}

/// What the trace of one direction has counted; once it has stopped, up to then, and all 0 once you were told of it.
#[derive(Clone, Copy, Debug, Default, PartialEq, Eq, Hash)]
pub struct Tally {
    /// Octets.
    pub octets: u64,
    /// Packets (RFC 1006 section 6).
    pub packets: u64,
    /// Transport units (X.224 section 13).
    pub units: u64,
    /// Whole TSDUs.
    pub tsdus: u64,
    /// Session units (X.225 section 8).
    pub session_units: u64,
    /// Packets, transport units and TSDUs that break a rule of spelling.
    pub refused: u64,
}

/// What both traces of an end have counted.
#[derive(Clone, Copy, Debug, Default, PartialEq, Eq, Hash)]
pub struct Counters {
    /// Of what was received.
    pub received: Tally,
    /// Of what was sent.
    pub sent: Tally,
}

impl Tally {
    fn of(shown: &ffi::osi_tally) -> Self {
        Tally {
            octets: shown.octets,
            packets: shown.packets,
            units: shown.units,
            tsdus: shown.tsdus,
            session_units: shown.session_units,
            refused: shown.refused,
        }
    }
}

// SAFETY, of each call below: as of those in `end.rs`.
impl End {
    /// Begins a trace in both directions, and ends an earlier one. An end begins without one.
    ///
    /// Call it right after you have made the end, because the first octet that a trace takes has to begin a packet. A
    /// trace never changes what the end does, and its memory is bounded: in each direction it keeps a packet and TSDUs
    /// that are not whole yet (of at most 64 DST-REFs), and at most 1,048,576 octets of lines that you have not fetched. If it
    /// would keep more, or if an allocation fails, the trace of this direction stops.
    ///
    /// ```
    /// # use osi_session::{Direction, End, Terms, Trace};
    /// # fn main() -> Result<(), osi_session::Error> {
    /// let mut end = End::caller(Terms::default())?;
    /// end.trace(Trace::Lines);
    /// // after each `feed` and `taken`:
    /// end.traced(|direction, line| println!("{direction:?} {}", line.unwrap_or("the trace has stopped")));
    /// # Ok(())
    /// # }
    /// ```
    pub fn trace(&mut self, what: Trace) {
        // It answers OSI_OK, since the slot holds an end, and the number is one of the three.
        unsafe { ffi::osi_trace(self.at(), what as u32) };
    }

    /// Fetches the lines that you have not fetched, and passes each, without its line feed: what `osi show` prints for the
    /// packets that were whole since then. `None`: the trace of this direction has stopped; you are told once, after its
    /// last lines. Call it after [`feed`](End::feed) and after [`taken`](End::taken); then the lines come in the order in
    /// which the packets passed.
    pub fn traced(&mut self, mut on_line: impl FnMut(Direction, Option<&str>)) {
        for direction in [Direction::Received, Direction::Sent] {
            let mut octets = ffi::lend(&[]);
            // SAFETY, in addition: the lines are lent until the next call with this end, which comes after the loop.
            let (code, lines) = unsafe {
                let code = ffi::osi_trace_fetch(self.at(), direction as u32);
                ffi::osi_trace_lines(self.at(), &mut octets);
                (code, lent(octets))
            };
            for line in str::from_utf8(lines).unwrap_or_default().lines() {
                on_line(direction, Some(line));
            }
            if code == ffi::OSI_NO_MEMORY {
                on_line(direction, None);
            }
        }
    }

    /// What both traces have counted: all 0 without a trace.
    pub fn counts(&mut self) -> Counters {
        let mut shown = ffi::osi_counters::default();
        unsafe { ffi::osi_counts(self.at(), &mut shown) };
        Counters { received: Tally::of(&shown.received), sent: Tally::of(&shown.sent) }
    }
}
