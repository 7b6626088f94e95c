//! Why a call is refused.
use crate::{Lane, MOST_CARRIED, MOST_CLIENTS};
use std::error;
use std::fmt;

/// Why a call is refused. A refused call has changed nothing; only one that joins all may have taken in some lanes.
///
/// The numbers are those of the library's header. What it refuses with 1, a handle that is none, does not come here.
#[derive(Clone, Copy, Debug, PartialEq, Eq, Hash)]
#[non_exhaustive]
#[repr(u32)]
pub enum Error {
    /// The system gave no memory.
    Memory = 2,
    /// There is no network of this kind.
    Kind = 3,
    /// There is no network of this width.
    Width = 4,
    /// A floor takes no quota above [`MOST_CLIENTS`](crate::MOST_CLIENTS).
    Quota = 5,
    /// The network has no entry with this number.
    NoSuchEntry = 6,
    /// The lane or the taker may let in no more clients, or not so many.
    QuotaSpent = 7,
    /// There is less quota than is to be split off.
    QuotaTooSmall = 8,
    /// The lane has clients inside.
    StillWalking = 9,
    /// The lane has no client there.
    NobodyThere = 10,
    /// Other lanes have quota, names or clients of the floor.
    LanesMissing = 11,
    /// No lane of the floor was handed back.
    NothingBack = 12,
    /// A slice has the wrong size.
    Size = 13,
    /// More clients came before than [`MOST_CARRIED`](crate::MOST_CARRIED).
    Carried = 14,
    /// Other lanes of the floor are there still, with nothing of it.
    LanesThere = 15,
}

impl Error {
    const ALL: [Error; 14] = [
        Error::Memory,
        Error::Kind,
        Error::Width,
        Error::Quota,
        Error::NoSuchEntry,
        Error::QuotaSpent,
        Error::QuotaTooSmall,
        Error::StillWalking,
        Error::NobodyThere,
        Error::LanesMissing,
        Error::NothingBack,
        Error::Size,
        Error::Carried,
        Error::LanesThere,
    ];

    /// The error with this number.
    pub(crate) fn of(status: u32) -> Option<Error> {
        Error::ALL.into_iter().find(|error| *error as u32 == status)
    }
}

impl fmt::Display for Error {
    fn fmt(&self, out: &mut fmt::Formatter<'_>) -> fmt::Result {
        match self {
            Error::Memory => out.write_str("the system gave no memory"),
            Error::Kind => out.write_str("there is no such network: bitonic, periodic or tree"),
            Error::Width => out.write_str("there is no network of this width: 2, 4, 8, 16, 32, 64, 128 or 256"),
            Error::Quota => write!(out, "the quota is more than a floor takes: {MOST_CLIENTS} at most"),
            Error::NoSuchEntry => {
                out.write_str("there is no such entry: a tree has only entry 0, others those below their width")
            }
            Error::QuotaSpent => out.write_str("the quota of the lane or of the taker is spent"),
            Error::QuotaTooSmall => out.write_str("there is less quota than is to be split off"),
            Error::StillWalking => out.write_str("the lane has clients inside"),
            Error::NobodyThere => out.write_str("no client of the lane is there"),
            Error::LanesMissing => out.write_str("other lanes have quota, names or clients of the floor"),
            Error::NothingBack => out.write_str("no lane of the floor was handed back"),
            Error::Size => out.write_str("a slice has another size than what is to be written into it"),
            Error::Carried => write!(out, "too many clients came before: {MOST_CARRIED} at most"),
            Error::LanesThere => out.write_str("other lanes of the floor are there still, with nothing of it"),
        }
    }
}

impl error::Error for Error {}

/// Why a call that takes a value is refused, and the value, as it was.
#[derive(Debug)]
#[non_exhaustive]
pub struct Refused<T> {
    /// The cause.
    pub error: Error,
    /// What the call was given.
    pub value: T,
    /// How many other lanes of the floor were alive, if the call wanted to have all.
    pub others: Option<usize>,
}

impl Refused<Lane> {
    /// A lane that was to close its floor, or to be handed back.
    pub(crate) fn lane(error: Error, value: Lane) -> Refused<Lane> {
        let others = match error {
            Error::LanesMissing | Error::LanesThere => Some(value.alive() - 1),
            _ => None,
        };
        Refused { error, value, others }
    }
}

impl<T> fmt::Display for Refused<T> {
    fn fmt(&self, out: &mut fmt::Formatter<'_>) -> fmt::Result {
        self.error.fmt(out)?;
        match self.others {
            Some(others) => write!(out, " ({others} alive)"),
            None => Ok(()),
        }
    }
}

impl<T: fmt::Debug> error::Error for Refused<T> {}

/// The cause only; the value is dropped.
impl<T> From<Refused<T>> for Error {
    fn from(refused: Refused<T>) -> Error {
        refused.error
    }
}
