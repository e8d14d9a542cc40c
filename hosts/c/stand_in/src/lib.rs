//! The functions that `masttomato.h` declares, over the stand-in for the static library: a program in C
//! is linked with this where no proved library is. What each function says stands in
//! `crates/nob_host/README.md`.
//!
//! All of it is unsafe in one way: what a caller owes (`masttomato.h`) is owed here, too.

use masttomato_sys::stand_in::Handle;
use masttomato_sys::{Answered, Counts, Front, PeerCounts, Tally, Told, Work};
use std::{ptr, slice};

/// The place of a space, null where there is none.
#[repr(C)]
#[derive(Debug)]
pub struct Place {
    at: *mut Kept,
}

#[derive(Debug)]
struct Kept {
    space: Handle,
    id: u16,
    n: u16,
}

// Statuses of a handle that keeps no space, and of one that keeps a space already.
const KEEPS_NONE: u32 = 65;
const KEEPS_ONE: u32 = 67;

// What a handle keeps, if it keeps something.
unsafe fn kept<'a>(handle: *mut Place) -> Option<&'a mut Kept> {
    // SAFETY: the caller owes the place of a handle, which keeps a space unless it is null, and one call at a time.
    unsafe { (*handle).at.as_mut() }
}

unsafe fn space<'a>(handle: *mut Place) -> Option<&'a mut Handle> {
    // SAFETY: as of `kept`.
    unsafe { kept(handle) }.map(|kept| &mut kept.space)
}

/// See `masttomato.h`.
///
/// # Safety
/// What a caller owes there.
#[unsafe(no_mangle)]
pub unsafe extern "C" fn nob_new(
    handle: *mut Place,
    id: u16,
    n: u16,
    window: u64,
    retry: u64,
) -> u32 {
    // SAFETY: the caller owes a handle that may be read and written.
    unsafe { keep(handle, id, n, || Handle::new(id, n, window, retry)) }
}

/// See `masttomato.h`.
///
/// # Safety
/// What a caller owes there.
// As many numbers as the header has.
#[allow(clippy::too_many_arguments)]
#[unsafe(no_mangle)]
pub unsafe extern "C" fn nob_begin_at(
    handle: *mut Place,
    id: u16,
    n: u16,
    window: u64,
    retry: u64,
    indexes: u64,
    calls: u64,
    jobs: u64,
    sessions: *const u32,
    count: usize,
) -> u32 {
    // SAFETY: the caller owes a handle that may be written, and one live slice.
    unsafe {
        let sessions = slice::from_raw_parts(sessions, count);
        keep(handle, id, n, || {
            Handle::begin_at(id, n, window, retry, indexes, calls, jobs, sessions)
        })
    }
}

// Puts a space into a handle that keeps none, if there is one: the status.
unsafe fn keep(
    handle: *mut Place,
    id: u16,
    n: u16,
    space: impl FnOnce() -> Result<Handle, u32>,
) -> u32 {
    // SAFETY: as of `kept`.
    if unsafe { kept(handle) }.is_some() {
        return KEEPS_ONE;
    }
    match space() {
        Err(status) => status,
        Ok(space) => {
            let at = Box::into_raw(Box::new(Kept { space, id, n }));
            // SAFETY: the caller owes a handle that may be written.
            unsafe { handle.write(Place { at }) };
            0
        }
    }
}

/// See `masttomato.h`.
///
/// # Safety
/// What a caller owes there.
#[unsafe(no_mangle)]
pub unsafe extern "C" fn nob_end(handle: *mut Place) {
    // SAFETY: the caller owes a handle that was never copied: so what it keeps has no other one, and was made by `nob_new`.
    unsafe {
        let Some(kept) = kept(handle) else { return };
        drop(Box::from_raw(kept));
        handle.write(Place { at: ptr::null_mut() });
    }
}

// Asks a space, and writes what is told.
unsafe fn ask(
    handle: *mut Place,
    told: *mut Told,
    ask: impl FnOnce(&mut Handle) -> Answered,
) -> u32 {
    // SAFETY: as of `space`; the caller owes a place that may be written.
    let space = unsafe { space(handle) };
    let (status, said) = space.map_or((KEEPS_NONE, Told::default()), ask);
    unsafe { told.write(said) };
    status
}

// The bytes that a caller gives.
unsafe fn bytes<'a>(at: *const u8, length: usize) -> &'a [u8] {
    // SAFETY: the caller owes one live slice.
    unsafe { slice::from_raw_parts(at, length) }
}

// Each function that asks a space and tells what came: its numbers are passed on as they are.
macro_rules! asked {
    ($($name:ident => $method:ident($($number:ident: $kind:ty),*);)*) => {$(
        /// See `masttomato.h`.
        ///
        /// # Safety
        /// What a caller owes there.
        #[unsafe(no_mangle)]
        pub unsafe extern "C" fn $name(handle: *mut Place, $($number: $kind,)* told: *mut Told) -> u32 {
            // SAFETY: the caller owes it.
            unsafe { ask(handle, told, |space| space.$method($($number),*)) }
        }
    )*};
}

asked! {
    nob_export => export();
    nob_dup => dup(owner: u16, index: u64);
    nob_release => release(owner: u16, index: u64);
    nob_take_reply => take_reply(call: u64);
    nob_claim => claim();
    nob_act => act(peer: u16);
    nob_settle => settle();
    nob_clean => clean();
    nob_withdraw => withdraw(index: u64);
    nob_transmit => transmit(peer: u16);
    nob_tick => tick(peer: u16);
    nob_close => close(peer: u16);
    nob_open => open(peer: u16);
    nob_next => bring_next();
}

// The same of those that are given bytes, too.
macro_rules! given {
    ($($name:ident => $method:ident($($number:ident: $kind:ty),*);)*) => {$(
        /// See `masttomato.h`.
        ///
        /// # Safety
        /// What a caller owes there.
        #[unsafe(no_mangle)]
        pub unsafe extern "C" fn $name(
            handle: *mut Place,
            $($number: $kind,)*
            at: *const u8,
            length: usize,
            told: *mut Told,
        ) -> u32 {
            // SAFETY: the caller owes it.
            unsafe { ask(handle, told, |space| space.$method($($number,)* bytes(at, length))) }
        }
    )*};
}

given! {
    nob_call => call(owner: u16, index: u64, method: u16);
    nob_finish => finish(job: u64, outcome: u32);
    nob_arrive => arrive();
    nob_push => push(peer: u16);
}

// What only looks, or answers a number; and what it says of a handle that keeps nothing.
macro_rules! looks {
    ($($name:ident => $method:ident($($number:ident: $kind:ty),*) -> $answer:ty, $none:expr;)*) => {$(
        /// See `masttomato.h`.
        ///
        /// # Safety
        /// What a caller owes there.
        #[unsafe(no_mangle)]
        pub unsafe extern "C" fn $name(handle: *mut Place, $($number: $kind),*) -> $answer {
            // SAFETY: the caller owes it.
            unsafe { space(handle) }.map_or($none, |space| space.$method($($number),*))
        }
    )*};
}

looks! {
    nob_restart => restart(peer: u16) -> u32, KEEPS_NONE;
    nob_value => value() -> u32, KEEPS_NONE;
    nob_lists => lists(index: u64, client: u16) -> bool, false;
    nob_reply_ready => reply_ready(call: u64) -> bool, false;
    nob_due => due(peer: u16) -> u32, 0;
    nob_live => live() -> u64, 0;
    nob_next_reply => next_reply() -> u64, 0;
}

/// See `masttomato.h`.
///
/// # Safety
/// What a caller owes there.
#[unsafe(no_mangle)]
pub unsafe extern "C" fn nob_id(handle: *mut Place) -> u16 {
    // SAFETY: the caller owes it.
    unsafe { kept(handle) }.map_or(0, |kept| kept.id)
}

/// See `masttomato.h`.
///
/// # Safety
/// What a caller owes there.
#[unsafe(no_mangle)]
pub unsafe extern "C" fn nob_n(handle: *mut Place) -> u16 {
    // SAFETY: the caller owes it.
    unsafe { kept(handle) }.map_or(0, |kept| kept.n)
}

/// See `masttomato.h`.
///
/// # Safety
/// What a caller owes there.
#[unsafe(no_mangle)]
pub unsafe extern "C" fn nob_answer(handle: *mut Place, out: *mut u8, room: usize) -> usize {
    // SAFETY: the caller owes one live slice that may be written.
    let out = unsafe { slice::from_raw_parts_mut(out, room) };
    unsafe { space(handle) }.map_or(0, |space| space.answer(out))
}

/// See `masttomato.h`.
///
/// # Safety
/// What a caller owes there.
#[unsafe(no_mangle)]
pub unsafe extern "C" fn nob_work(handle: *mut Place, work: *mut Work) {
    // SAFETY: the caller owes a place that may be written.
    unsafe { work.write(space(handle).map_or_else(Work::default, |space| space.work())) }
}

/// See `masttomato.h`.
///
/// # Safety
/// What a caller owes there.
#[unsafe(no_mangle)]
pub unsafe extern "C" fn nob_tally(handle: *mut Place, peer: u16, tally: *mut Tally) {
    // SAFETY: the caller owes a place that may be written.
    unsafe { tally.write(space(handle).map_or_else(Tally::default, |space| space.tally(peer))) }
}

/// See `masttomato.h`.
///
/// # Safety
/// What a caller owes there.
#[unsafe(no_mangle)]
pub unsafe extern "C" fn nob_counts(handle: *mut Place, counts: *mut Counts) {
    // SAFETY: the caller owes a place that may be written.
    unsafe { counts.write(space(handle).map_or_else(Counts::default, |space| space.counts())) }
}

/// See `masttomato.h`.
///
/// # Safety
/// What a caller owes there.
#[unsafe(no_mangle)]
pub unsafe extern "C" fn nob_peer_counts(handle: *mut Place, peer: u16, counts: *mut PeerCounts) {
    // SAFETY: the caller owes a place that may be written.
    let counted = unsafe { space(handle) }.map(|space| space.peer_counts(peer));
    unsafe { counts.write(counted.unwrap_or_default()) }
}

/// See `masttomato.h`.
///
/// # Safety
/// What a caller owes there.
#[unsafe(no_mangle)]
pub unsafe extern "C" fn nob_front(handle: *mut Place, peer: u16, front: *mut Front) {
    // SAFETY: the caller owes a place that may be written.
    unsafe { front.write(space(handle).map_or_else(Front::default, |space| space.front(peer))) }
}

/// See `masttomato.h`.
#[unsafe(no_mangle)]
pub extern "C" fn nob_version() -> u32 {
    masttomato_sys::VERSION
}
