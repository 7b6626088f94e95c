//! Names for clients: the numbers 0 to k-1 for k clients, each once, given by many threads at once.
//!
//! A [`Floor`] is a counting network on atomic words. Each thread has a [`Lane`] of it, and names clients by that
//! without a lock: no two clients of a floor get the same name, and each name is below the number of clients that came
//! in. So a name is an index into a table or an array. When the threads have ended one lane takes the others in and
//! closes the floor, and the [`Quiet`] says who has which name.
//!
//! ```
//! use renamer::{Error, Floor, Kind};
//!
//! fn main() -> Result<(), Error> {
//!     let floor = Floor::open(Kind::Tree, 8, 300)?;
//!     // Each thread takes a lane, names its clients by that, and drops it.
//!     let name_100 = |first: u64| -> Result<(), Error> {
//!         let mut lane = floor.lane(100)?;
//!         (first..first + 100).try_for_each(|client| lane.name(client, 0).map(drop))
//!     };
//!     std::thread::scope(|scope| {
//!         let threads = [0, 100, 200].map(|first| scope.spawn(move || name_100(first)));
//!         threads.into_iter().try_for_each(|thread| thread.join().expect("a thread ends"))
//!     })?;
//!     let quiet = floor.close()?;
//!     assert!(quiet.iter().map(|(name, _client)| name).eq(0..300));
//!     Ok(())
//! }
//! ```
//!
//! Names are given once: a floor lets in at most [`MOST_CLIENTS`] clients, and a name comes back only with the next
//! floor. Threads that need names only, and need not know who has which, take them by a [`Taker`] each: these names do
//! not end. Numbers that come back one by one are [`Slots`].
//!
//! The calls are those of a library in which each function is proved to meet its contract. What this crate adds is not
//! proved: that the library's conditions on its callers hold. All that is unsafe stands in one file, `src/raw.rs`.
#![deny(missing_docs)]
#![deny(unsafe_code)]
#![deny(rustdoc::broken_intra_doc_links)]

mod error;
mod floor;
mod kind;
mod lane;
mod quiet;
mod raw;
mod slots;
mod steps;
mod taker;

pub use error::{Error, Refused};
pub use floor::Floor;
pub use kind::Kind;
pub use lane::{Client, Grant, Lane};
pub use quiet::Quiet;
pub use slots::{Slot, Slots};
pub use steps::{Moved, Place, Swept};
pub use taker::{OwnTaker, Taker, Takers};

/// How many clients a floor lets in at most.
pub const MOST_CLIENTS: u64 = 262_144;

/// How many clients may have come in before a floor that goes on from others.
pub const MOST_CARRIED: u64 = 2_147_483_648;

/// The version of the library: major * 1,000,000 + minor * 1,000 + patch.
#[must_use]
pub fn version() -> u32 {
    raw::version()
}
