//! The kinds of counting networks.
use crate::Error;
use std::fmt;
use std::str::FromStr;

/// Which counting network a floor is.
///
/// ```
/// use renamer::{Error, Kind};
///
/// assert_eq!("tree".parse(), Ok(Kind::Tree));
/// assert_eq!("ring".parse::<Kind>(), Err(Error::Kind));
/// assert_eq!(Kind::Bitonic.to_string(), "bitonic");
/// ```
#[derive(Clone, Copy, Debug, PartialEq, Eq, Hash)]
#[repr(u32)]
pub enum Kind {
    /// The bitonic network.
    Bitonic = 0,
    /// The periodic network.
    Periodic = 1,
    /// The counting tree, which has one entry.
    Tree = 2,
}

impl Kind {
    /// All of them.
    pub const ALL: [Kind; 3] = [Kind::Bitonic, Kind::Periodic, Kind::Tree];

    fn word(self) -> &'static str {
        match self {
            Kind::Bitonic => "bitonic",
            Kind::Periodic => "periodic",
            Kind::Tree => "tree",
        }
    }
}

impl fmt::Display for Kind {
    fn fmt(&self, out: &mut fmt::Formatter<'_>) -> fmt::Result {
        out.pad(self.word())
    }
}

/// The kind with this name, as [`Kind`] displays it and the program takes it.
impl FromStr for Kind {
    type Err = Error;

    fn from_str(word: &str) -> Result<Kind, Error> {
        Kind::ALL.into_iter().find(|kind| kind.word() == word).ok_or(Error::Kind)
    }
}
