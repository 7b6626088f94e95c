//! The calls of the library, and all that is unsafe in this crate.
//!
//! The header leaves to the callers: no pointer is null, what a call writes overlaps nothing else that it is passed, calls
//! on one handle do not overlap but for those that only ask, and no handle is copied. Here each pointer is made from a
//! reference or a slice, and a call that changes a handle has it by `&mut`.
#![allow(unsafe_code)]

use crate::{Client, Error, Grant, Moved, Place, Swept};
use std::ffi::c_void;
use std::ptr::null_mut;

/// A handle of the library: a pointer, which is null if it is none.
#[repr(C)]
struct Handle {
    at: *mut c_void,
}

/// A step of a client, as the library writes it.
#[repr(C)]
#[derive(Default)]
pub(crate) struct RawMoved {
    client: u64,
    has_left: u64,
    place: u64,
    number: u64,
    next: u64,
}

/// A sweep, as the library writes it.
#[repr(C)]
#[derive(Default)]
pub(crate) struct RawSwept {
    have_left: u64,
    place: u64,
    first: u64,
    clients: u64,
}

#[rustfmt::skip]
extern "C" {
    fn renamer_version() -> u32;
    fn renamer_open(lane: *mut Handle, kind: u32, width: u32, quota: u64) -> u32;
    fn renamer_open_apart(lane: *mut Handle, kind: u32, width: u32, quota: u64) -> u32;
    fn renamer_split(lane: *mut Handle, quota: u64, other: *mut Handle) -> u32;
    fn renamer_reserve(lane: *mut Handle, clients: u64) -> u32;
    fn renamer_name(lane: *mut Handle, client: u64, entry: u64, name: *mut u64) -> u32;
    fn renamer_name_many(lane: *mut Handle, clients: *const Client, client_count: usize, grants: *mut Grant, grant_count: usize) -> u32;
    fn renamer_name_list(lane: *mut Handle, clients: *const u64, client_count: usize, entry: u64, names: *mut u64, name_count: usize) -> u32;
    fn renamer_enter(lane: *mut Handle, client: u64, entry: u64) -> u32;
    fn renamer_step(lane: *mut Handle, wire: u64, moved: *mut RawMoved) -> u32;
    fn renamer_sweep(lane: *mut Handle, wire: u64, swept: *mut RawSwept) -> u32;
    fn renamer_lowest(lane: *const Handle, wire: *mut u64) -> u32;
    fn renamer_entered(lane: *const Handle, entered: *mut u64) -> u32;
    fn renamer_quota(lane: *const Handle, quota: *mut u64) -> u32;
    fn renamer_inside(lane: *const Handle, inside: *mut u64) -> u32;
    fn renamer_entries(lane: *const Handle, entries: *mut u64) -> u32;
    fn renamer_exits(lane: *const Handle, exits: *mut u64) -> u32;
    fn renamer_grant_count(lane: *const Handle, count: *mut u64) -> u32;
    fn renamer_grants(lane: *const Handle, first: u64, grants: *mut Grant, size: usize) -> u32;
    fn renamer_hand_back(lane: *mut Handle) -> u32;
    fn renamer_join(lane: *mut Handle) -> u32;
    fn renamer_take_back(of: *const Handle, back: *mut Handle) -> u32;
    fn renamer_join_all(lane: *mut Handle) -> u32;
    fn renamer_close(lane: *mut Handle, quiet: *mut Handle) -> u32;
    fn renamer_quiet_exits(quiet: *const Handle, exits: *mut u64) -> u32;
    fn renamer_quiet_clients(quiet: *const Handle, clients: *mut u64) -> u32;
    fn renamer_counts(quiet: *const Handle, counts: *mut u64, size: usize) -> u32;
    fn renamer_holders(quiet: *const Handle, holders: *mut u64, size: usize) -> u32;
    fn renamer_open_after(lane: *mut Handle, quiet: *const Handle, quota: u64) -> u32;
    fn renamer_open_takes(taker: *mut Handle, kind: u32, width: u32, apart: u32) -> u32;
    fn renamer_split_taker(taker: *mut Handle, other: *mut Handle) -> u32;
    fn renamer_take(taker: *mut Handle, entry: u64, name: *mut u64) -> u32;
    fn renamer_take_many(taker: *mut Handle, entry: u64, names: *mut u64, count: usize) -> u32;
    fn renamer_takes_entered(taker: *const Handle, entered: *mut u64) -> u32;
    fn renamer_free(lane: *mut Handle);
    fn renamer_free_quiet(quiet: *mut Handle);
    fn renamer_free_taker(taker: *mut Handle);
}

/// The version of the library.
pub(crate) fn version() -> u32 {
    // SAFETY: it takes nothing.
    unsafe { renamer_version() }
}

/// The version of this crate, as the library has its own.
fn own_version() -> u32 {
    let part = |text: &str| text.parse::<u32>().expect("cargo gives numbers");
    1_000_000 * part(env!("CARGO_PKG_VERSION_MAJOR"))
        + 1_000 * part(env!("CARGO_PKG_VERSION_MINOR"))
        + part(env!("CARGO_PKG_VERSION_PATCH"))
}

/// An archive of another version may have calls that take other things: so no floor is opened by it.
fn must_be_of_this_version() {
    assert_eq!(version(), own_version(), "librenamer.a has another version than the crate renamer");
}

/// What a status says.
#[inline]
fn done(status: u32) -> Result<(), Error> {
    if status == 0 {
        return Ok(());
    }
    Err(refusal(status))
}

/// Why a call was refused.
#[cold]
fn refusal(status: u32) -> Error {
    Error::of(status)
        .unwrap_or_else(|| panic!("the library returned the status {status}, which this crate does not know"))
}

/// A number that a call asks of a handle, and that is there as long as the handle is.
fn number<N: Default>(call: unsafe extern "C" fn(*const Handle, *mut N) -> u32, handle: &Handle) -> N {
    let mut number = N::default();
    // SAFETY: the call only asks, and the number is a variable of its own.
    done(unsafe { call(handle, &raw mut number) }).expect("a handle that is there has its numbers");
    number
}

/// How long a list is, of which the library says the length.
fn size(length: u64) -> usize {
    usize::try_from(length).expect("a list has at most 262,144 numbers")
}

fn none() -> Handle {
    Handle { at: null_mut() }
}

/// A lane, or none.
pub(crate) struct RawLane(Handle);

// SAFETY: that what a lane owns may go to another thread is proved in the library, and only its owner reaches it.
unsafe impl Send for RawLane {}

// SAFETY: by `&` a lane is only asked, and such calls write nothing, as the header says and bindings/c/tests/asked.c shows.
unsafe impl Sync for RawLane {}

impl RawLane {
    /// The first lane of a floor. No other call is made before it.
    pub(crate) fn open(kind: u32, width: u32, quota: u64) -> Result<RawLane, Error> {
        RawLane::by(renamer_open, kind, width, quota)
    }

    /// The first lane of a floor whose words lie apart.
    pub(crate) fn open_apart(kind: u32, width: u32, quota: u64) -> Result<RawLane, Error> {
        RawLane::by(renamer_open_apart, kind, width, quota)
    }

    fn by(
        open: unsafe extern "C" fn(*mut Handle, u32, u32, u64) -> u32,
        kind: u32,
        width: u32,
        quota: u64,
    ) -> Result<RawLane, Error> {
        must_be_of_this_version();
        let mut lane = none();
        // SAFETY: the handle is new, and none.
        done(unsafe { open(&raw mut lane, kind, width, quota) })?;
        Ok(RawLane(lane))
    }

    pub(crate) fn split(&mut self, quota: u64) -> Result<RawLane, Error> {
        let mut other = none();
        // SAFETY: the second handle is new, and none; `&mut` is the only way to the first.
        done(unsafe { renamer_split(&raw mut self.0, quota, &raw mut other) })?;
        Ok(RawLane(other))
    }

    pub(crate) fn reserve(&mut self, clients: u64) -> Result<(), Error> {
        // SAFETY: `&mut` is the only way to the handle.
        done(unsafe { renamer_reserve(&raw mut self.0, clients) })
    }

    #[inline]
    pub(crate) fn name(&mut self, client: u64, entry: u64) -> Result<u64, Error> {
        let mut name = 0;
        // SAFETY: `&mut` is the only way to the handle, and the name is a variable of its own.
        done(unsafe { renamer_name(&raw mut self.0, client, entry, &raw mut name) })?;
        Ok(name)
    }

    pub(crate) fn name_many(&mut self, clients: &[Client], grants: &mut [Grant]) -> Result<(), Error> {
        // SAFETY: `&mut` is the only way to the handle, and the arrays are slices of these sizes, of which only the second is
        // written.
        done(unsafe {
            let (from, to) = (clients.as_ptr(), grants.as_mut_ptr());
            renamer_name_many(&raw mut self.0, from, clients.len(), to, grants.len())
        })
    }

    pub(crate) fn name_list(&mut self, clients: &[u64], entry: u64, names: &mut [u64]) -> Result<(), Error> {
        // SAFETY: as for `name_many`.
        done(unsafe {
            let (from, to) = (clients.as_ptr(), names.as_mut_ptr());
            renamer_name_list(&raw mut self.0, from, clients.len(), entry, to, names.len())
        })
    }

    pub(crate) fn enter(&mut self, client: u64, entry: u64) -> Result<(), Error> {
        // SAFETY: `&mut` is the only way to the handle.
        done(unsafe { renamer_enter(&raw mut self.0, client, entry) })
    }

    pub(crate) fn step(&mut self, wire: u64) -> Result<Moved, Error> {
        let mut moved = RawMoved::default();
        // SAFETY: `&mut` is the only way to the handle, and what is written is a variable of its own.
        done(unsafe { renamer_step(&raw mut self.0, wire, &raw mut moved) })?;
        let RawMoved { client, has_left, place, number, next } = moved;
        Ok(match Place::of(has_left == 1, place) {
            Place::Balancer(balancer) => Moved::On { client, balancer, number, wire: next },
            Place::Exit(exit) => Moved::Out { client, exit, visit: number, name: next },
        })
    }

    pub(crate) fn sweep(&mut self, wire: u64) -> Result<Swept, Error> {
        let mut swept = RawSwept::default();
        // SAFETY: as for a step.
        done(unsafe { renamer_sweep(&raw mut self.0, wire, &raw mut swept) })?;
        let RawSwept { have_left, place, first, clients } = swept;
        Ok(Swept { place: Place::of(have_left == 1, place), first, clients })
    }

    pub(crate) fn lowest(&self) -> Result<u64, Error> {
        let mut wire = 0;
        // SAFETY: the call only asks, and the number is a variable of its own.
        done(unsafe { renamer_lowest(&raw const self.0, &raw mut wire) })?;
        Ok(wire)
    }

    pub(crate) fn entered(&self) -> u64 {
        number(renamer_entered, &self.0)
    }

    pub(crate) fn quota(&self) -> u64 {
        number(renamer_quota, &self.0)
    }

    pub(crate) fn inside(&self) -> u64 {
        number(renamer_inside, &self.0)
    }

    pub(crate) fn entries(&self) -> u64 {
        number(renamer_entries, &self.0)
    }

    pub(crate) fn exits(&self) -> u64 {
        number(renamer_exits, &self.0)
    }

    pub(crate) fn grant_count(&self) -> u64 {
        number(renamer_grant_count, &self.0)
    }

    pub(crate) fn grants(&self, first: u64, grants: &mut [Grant]) -> Result<(), Error> {
        // SAFETY: the call only asks, and the array is a slice of this size.
        done(unsafe { renamer_grants(&raw const self.0, first, grants.as_mut_ptr(), grants.len()) })
    }

    /// Hands the lane back: it is none then.
    pub(crate) fn hand_back(&mut self) -> Result<(), Error> {
        // SAFETY: `&mut` is the only way to the handle.
        done(unsafe { renamer_hand_back(&raw mut self.0) })
    }

    pub(crate) fn join(&mut self) -> Result<(), Error> {
        // SAFETY: `&mut` is the only way to the handle.
        done(unsafe { renamer_join(&raw mut self.0) })
    }

    pub(crate) fn take_back(&self) -> Result<RawLane, Error> {
        let mut back = none();
        // SAFETY: the call only asks the first handle, and the second is new, and none.
        done(unsafe { renamer_take_back(&raw const self.0, &raw mut back) })?;
        Ok(RawLane(back))
    }

    /// Joins until no lane is back.
    pub(crate) fn join_all(&mut self) -> Result<(), Error> {
        // SAFETY: `&mut` is the only way to the handle.
        done(unsafe { renamer_join_all(&raw mut self.0) })
    }

    /// Closes the floor: the lane is none then.
    pub(crate) fn close(&mut self) -> Result<RawQuiet, Error> {
        let mut quiet = none();
        // SAFETY: the second handle is new, and none; `&mut` is the only way to the first.
        done(unsafe { renamer_close(&raw mut self.0, &raw mut quiet) })?;
        Ok(RawQuiet(quiet))
    }
}

impl Drop for RawLane {
    fn drop(&mut self) {
        // SAFETY: `&mut` is the only way to the handle; one that is none may be freed.
        unsafe { renamer_free(&raw mut self.0) }
    }
}

/// A closed floor.
pub(crate) struct RawQuiet(Handle);

// SAFETY: as for a lane.
unsafe impl Send for RawQuiet {}

// SAFETY: as for a lane. A floor that goes on from it takes a share of the network by an atomic count.
unsafe impl Sync for RawQuiet {}

impl RawQuiet {
    pub(crate) fn clients(&self) -> usize {
        size(number(renamer_quiet_clients, &self.0))
    }

    pub(crate) fn counts(&self) -> Vec<u64> {
        let mut counts = vec![0; size(number(renamer_quiet_exits, &self.0))];
        // SAFETY: the call only asks, and the array is a slice of this size.
        done(unsafe { renamer_counts(&raw const self.0, counts.as_mut_ptr(), counts.len()) })
            .expect("the size is that of the counts");
        counts
    }

    pub(crate) fn holders(&self) -> Vec<u64> {
        let mut holders = vec![0; self.clients()];
        // SAFETY: as for the counts.
        done(unsafe { renamer_holders(&raw const self.0, holders.as_mut_ptr(), holders.len()) })
            .expect("the size is that of the holders");
        holders
    }

    pub(crate) fn open_after(&self, quota: u64) -> Result<RawLane, Error> {
        let mut lane = none();
        // SAFETY: the lane's handle is new, and none; of the other the call only asks.
        done(unsafe { renamer_open_after(&raw mut lane, &raw const self.0, quota) })?;
        Ok(RawLane(lane))
    }
}

impl Drop for RawQuiet {
    fn drop(&mut self) {
        // SAFETY: `&mut` is the only way to the handle.
        unsafe { renamer_free_quiet(&raw mut self.0) }
    }
}

/// A taker, or none.
pub(crate) struct RawTaker(Handle);

// SAFETY: as for a lane.
unsafe impl Send for RawTaker {}

// SAFETY: as for a lane.
unsafe impl Sync for RawTaker {}

impl RawTaker {
    /// The first taker of a floor. No other call is made before it.
    pub(crate) fn open(kind: u32, width: u32, apart: bool) -> Result<RawTaker, Error> {
        must_be_of_this_version();
        let mut taker = none();
        // SAFETY: the handle is new, and none.
        done(unsafe { renamer_open_takes(&raw mut taker, kind, width, apart.into()) })?;
        Ok(RawTaker(taker))
    }

    pub(crate) fn split(&mut self) -> Result<RawTaker, Error> {
        let mut other = none();
        // SAFETY: the second handle is new, and none; `&mut` is the only way to the first.
        done(unsafe { renamer_split_taker(&raw mut self.0, &raw mut other) })?;
        Ok(RawTaker(other))
    }

    #[inline]
    pub(crate) fn take(&mut self, entry: u64) -> Result<u64, Error> {
        let mut name = 0;
        // SAFETY: `&mut` is the only way to the handle, and the name is a variable of its own.
        done(unsafe { renamer_take(&raw mut self.0, entry, &raw mut name) })?;
        Ok(name)
    }

    pub(crate) fn take_many(&mut self, entry: u64, names: &mut [u64]) -> Result<(), Error> {
        // SAFETY: `&mut` is the only way to the handle, and the array is a slice of this size.
        done(unsafe { renamer_take_many(&raw mut self.0, entry, names.as_mut_ptr(), names.len()) })
    }

    pub(crate) fn entered(&self) -> u64 {
        number(renamer_takes_entered, &self.0)
    }
}

impl Drop for RawTaker {
    fn drop(&mut self) {
        // SAFETY: `&mut` is the only way to the handle; one that is none may be freed.
        unsafe { renamer_free_taker(&raw mut self.0) }
    }
}
