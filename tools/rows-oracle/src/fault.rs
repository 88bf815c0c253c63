//! Why a call gave no answer.
use std::fmt;

/// Why a call of a row gave no answer.
#[derive(Debug, Clone, Copy, PartialEq, Eq)]
pub enum Fault {
    /// The row doesn't say a call.
    Unread,
    /// What the call requires isn't met.
    Requires,
}

impl From<fmt::Error> for Fault {
    fn from(_: fmt::Error) -> Fault {
        Fault::Unread
    }
}

impl Fault {
    /// The word that stands for an answer.
    pub fn word(self) -> &'static str {
        match self {
            Fault::Unread => "unread",
            Fault::Requires => "requires",
        }
    }
}
