//! The declarations of `include/osi.h`, with the same layout. The tests compare each struct and each number
//! with what the C compiler says of them.

use std::os::raw::{c_char, c_void};

/// A slot that holds one end, or none.
#[repr(C)]
pub struct osi_end {
    pub full: bool,
    pub inner: osi_end_inner,
}

#[repr(C)]
pub struct osi_end_inner {
    pub at: *mut c_void,
}

/// `OSI_END`.
pub const OSI_END: osi_end = osi_end { full: false, inner: osi_end_inner { at: std::ptr::null_mut() } };

#[repr(C)]
#[derive(Clone, Copy)]
pub struct osi_octets {
    pub at: *const u8,
    pub length: usize,
}

#[repr(C)]
pub struct osi_terms {
    pub classes: u8,
    pub size: u8,
    pub window: u8,
}

#[repr(C)]
#[derive(Clone, Copy)]
pub struct osi_sides {
    pub data: u8,
    pub minor: u8,
    pub major: u8,
    pub release: u8,
}

#[repr(C)]
pub struct osi_opening {
    pub requirements: u16,
    pub serial: u32,
    pub wishes: osi_sides,
    pub calling_tsap: osi_octets,
    pub called_tsap: osi_octets,
    pub calling_selector: osi_octets,
    pub called_selector: osi_octets,
    pub user_data: osi_octets,
    pub size_from_asker: u16,
    pub size_from_answerer: u16,
}

#[repr(C)]
#[derive(Clone, Copy)]
pub struct osi_fault {
    pub fault: u8,
    pub si: u8,
    pub spelling: u8,
    pub parameter: u8,
    pub offset: u64,
}

#[repr(C)]
#[derive(Clone, Copy)]
pub struct osi_indication {
    pub tag: u32,
    pub number: u32,
    pub reference: u16,
    pub requirements: u16,
    pub has_number: u8,
    pub confirm: u8,
    pub tokens: u8,
    pub reason: u8,
    pub sides: osi_sides,
    pub fault: osi_fault,
    pub user_data: osi_octets,
    pub size_from_asker: u16,
    pub size_from_answerer: u16,
}

#[repr(C)]
pub struct osi_fed {
    pub used: usize,
    pub waits: bool,
}

#[repr(C)]
#[derive(Clone, Copy, Default)]
pub struct osi_tsap {
    pub octets: [u8; 32],
    pub length: u8,
}

#[repr(C)]
#[derive(Clone, Copy, Default)]
pub struct osi_selector {
    pub octets: [u8; 16],
    pub length: u8,
}

#[repr(C)]
#[derive(Clone, Copy, Default)]
pub struct osi_addressing {
    pub calling_tsap: osi_tsap,
    pub called_tsap: osi_tsap,
    pub calling_selector: osi_selector,
    pub called_selector: osi_selector,
}

#[repr(C)]
#[derive(Clone, Copy, Default)]
pub struct osi_tally {
    pub octets: u64,
    pub packets: u64,
    pub units: u64,
    pub tsdus: u64,
    pub session_units: u64,
    pub refused: u64,
}

#[repr(C)]
#[derive(Clone, Copy, Default)]
pub struct osi_counters {
    pub received: osi_tally,
    pub sent: osi_tally,
}

/// A slot that holds the judge of a byte connection, or none.
#[repr(C)]
pub struct osi_judge {
    pub full: bool,
    pub inner: osi_end_inner,
}

/// `OSI_JUDGE`.
pub const OSI_JUDGE: osi_judge = osi_judge { full: false, inner: osi_end_inner { at: std::ptr::null_mut() } };

#[repr(C)]
#[derive(Clone, Copy, Default)]
pub struct osi_verdict {
    pub offset: u64,
    pub connection: u64,
    pub kind: u32,
    pub side: u32,
    pub by: u32,
    pub rule: u32,
    pub said: u32,
    pub left: u16,
    pub right: u16,
}

pub const OSI_NO_CONNECTION: u64 = u64::MAX;
pub const OSI_VERDICT_TEXT: usize = 96;
pub const OSI_OK: u32 = 0;
pub const OSI_NO_MEMORY: u32 = 3;
pub const OSI_NOTHING: u32 = 5;
pub const OSI_END_NONE: u32 = 0;

/// A call of a user with user data alone.
pub type Says = unsafe extern "C" fn(*mut osi_end, u16, *const u8, usize) -> u32;

extern "C" {
    pub fn osi_caller(end: *mut osi_end, terms: *const osi_terms) -> u32;
    pub fn osi_called(end: *mut osi_end, terms: *const osi_terms) -> u32;
    pub fn osi_free(end: *mut osi_end);
    pub fn osi_connect_with_size(
        end: *mut osi_end,
        asked: *const osi_opening,
        size: usize,
        reference: *mut u16,
    ) -> u32;
    pub fn osi_accept(
        end: *mut osi_end,
        reference: u16,
        requirements: u16,
        number: u32,
        sides: *const osi_sides,
        data: *const u8,
        length: usize,
    ) -> u32;
    pub fn osi_accept_sized(
        end: *mut osi_end,
        reference: u16,
        requirements: u16,
        number: u32,
        sides: *const osi_sides,
        size_from_asker: u16,
        size_from_answerer: u16,
        data: *const u8,
        length: usize,
    ) -> u32;
    pub fn osi_refuse(end: *mut osi_end, reference: u16, data: *const u8, length: usize) -> u32;
    pub fn osi_refuse_with(
        end: *mut osi_end,
        reference: u16,
        reason: u8,
        data: *const u8,
        length: usize,
    ) -> u32;
    pub fn osi_data(end: *mut osi_end, reference: u16, data: *const u8, length: usize) -> u32;
    pub fn osi_give(end: *mut osi_end, reference: u16, tokens: u8) -> u32;
    pub fn osi_please(end: *mut osi_end, reference: u16, tokens: u8, data: *const u8, length: usize) -> u32;
    pub fn osi_minor(end: *mut osi_end, reference: u16, confirm: u8, data: *const u8, length: usize) -> u32;
    pub fn osi_minor_confirm(
        end: *mut osi_end,
        reference: u16,
        number: u32,
        data: *const u8,
        length: usize,
    ) -> u32;
    pub fn osi_major(end: *mut osi_end, reference: u16, data: *const u8, length: usize) -> u32;
    pub fn osi_major_confirm(end: *mut osi_end, reference: u16, data: *const u8, length: usize) -> u32;
    pub fn osi_restart(
        end: *mut osi_end,
        reference: u16,
        number: u32,
        wishes: *const osi_sides,
        data: *const u8,
        length: usize,
    ) -> u32;
    pub fn osi_restart_confirm(
        end: *mut osi_end,
        reference: u16,
        sides: *const osi_sides,
        data: *const u8,
        length: usize,
    ) -> u32;
    pub fn osi_release(end: *mut osi_end, reference: u16, data: *const u8, length: usize) -> u32;
    pub fn osi_release_accept(end: *mut osi_end, reference: u16, data: *const u8, length: usize) -> u32;
    pub fn osi_release_refuse(end: *mut osi_end, reference: u16, data: *const u8, length: usize) -> u32;
    pub fn osi_abort(end: *mut osi_end, reference: u16, data: *const u8, length: usize) -> u32;
    pub fn osi_disconnect(end: *mut osi_end, reference: u16) -> u32;
    pub fn osi_feed(end: *mut osi_end, piece: *const u8, length: usize, fed: *mut osi_fed) -> u32;
    pub fn osi_outgoing(end: *mut osi_end, octets: *mut osi_octets);
    pub fn osi_wants_write(end: *mut osi_end) -> bool;
    pub fn osi_taken(end: *mut osi_end, octets: usize) -> u32;
    pub fn osi_broken(end: *mut osi_end) -> u32;
    pub fn osi_ended(end: *mut osi_end, detail: *mut u64) -> u32;
    pub fn osi_is_over(end: *mut osi_end) -> bool;
    pub fn osi_kept(end: *mut osi_end) -> usize;
    pub fn osi_unsent(end: *mut osi_end, reference: u16) -> usize;
    pub fn osi_backlog(end: *mut osi_end) -> usize;
    pub fn osi_live(end: *mut osi_end) -> usize;
    pub fn osi_fetch(end: *mut osi_end) -> u32;
    pub fn osi_last_with_size(end: *mut osi_end, shown: *mut osi_indication, size: usize);
    pub fn osi_phase(end: *mut osi_end, reference: u16) -> u32;
    pub fn osi_held(end: *mut osi_end, reference: u16) -> u8;
    pub fn osi_next_serial(end: *mut osi_end, reference: u16) -> u32;
    pub fn osi_confirmed_below(end: *mut osi_end, reference: u16) -> u32;
    pub fn osi_lowest_restart(end: *mut osi_end, reference: u16) -> u32;
    pub fn osi_addresses(end: *mut osi_end, reference: u16, shown: *mut osi_addressing) -> u32;
    pub fn osi_trace(end: *mut osi_end, what: u32) -> u32;
    pub fn osi_trace_fetch(end: *mut osi_end, direction: u32) -> u32;
    pub fn osi_trace_lines(end: *mut osi_end, lines: *mut osi_octets);
    pub fn osi_counts(end: *mut osi_end, shown: *mut osi_counters);
    pub fn osi_judge_new(judge: *mut osi_judge) -> u32;
    pub fn osi_judge_free(judge: *mut osi_judge);
    pub fn osi_judge_feed(
        judge: *mut osi_judge,
        side: u32,
        piece: *const u8,
        length: usize,
        used: *mut usize,
    ) -> u32;
    pub fn osi_judge_next(judge: *mut osi_judge, verdict: *mut osi_verdict) -> u32;
    pub fn osi_judge_verdict(
        judge: *mut osi_judge,
        connection: u64,
        side: u32,
        verdict: *mut osi_verdict,
    ) -> u32;
    pub fn osi_judge_connections(judge: *mut osi_judge, connections: *mut u64) -> u32;
    pub fn osi_judge_write(judge: *mut osi_judge) -> u32;
    pub fn osi_judge_text(judge: *mut osi_judge, text: *mut osi_octets);
    pub fn osi_verdict_text(verdict: *const osi_verdict, text: *mut c_char, size: usize) -> usize;
    pub fn osi_version() -> *const c_char;
}

/// Octets as C takes them. The pointer of a slice is never null, even if the slice is empty.
pub fn lend(octets: &[u8]) -> osi_octets {
    osi_octets { at: octets.as_ptr(), length: octets.len() }
}

#[cfg(test)]
mod tests;
