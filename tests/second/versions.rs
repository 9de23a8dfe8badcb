//! The two versions: of an image (docs/RULES.md, Image), and of the fold that goes with it (docs/RULES.md,
//! Fold).

use std::fmt::{self, Display, Formatter};

#[derive(Clone, Copy, PartialEq, Eq, Hash, Debug)]
pub enum Version {
    /// No lengths; the kept path is worth the sum of its inner counts.
    One,
    /// A length for each vertex; the kept path is worth the smallest of its inner counts.
    Two,
}

pub const VERSIONS: [Version; 2] = [Version::One, Version::Two];

impl Version {
    /// As a header says it.
    pub fn number(self) -> u16 {
        match self {
            Version::One => 1,
            Version::Two => 2,
        }
    }

    /// The one that a header says, where there is such.
    pub fn of_number(number: u16) -> Option<Version> {
        VERSIONS.into_iter().find(|version| version.number() == number)
    }

    /// How many lengths an image of n vertices has.
    pub fn lengths(self, n: usize) -> usize {
        match self {
            Version::One => 0,
            Version::Two => n,
        }
    }

    /// What its write is called.
    pub fn write(self) -> &'static str {
        match self {
            Version::One => "write",
            Version::Two => "write_lengths",
        }
    }
}

impl Display for Version {
    fn fmt(&self, to: &mut Formatter) -> fmt::Result {
        write!(to, "version {}", self.number())
    }
}
