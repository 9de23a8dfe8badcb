//! The four folds (docs/RULES.md, Fold, Rings): each goes by the rule of a version, and refuses a table
//! that has a cycle or takes it.

use crate::versions::Version;

/// What a fold does with a table that has a cycle.
#[derive(Clone, Copy, PartialEq, Eq, Hash, Debug)]
pub enum Rings {
    /// It is refused with 9.
    Refused,
    /// It is folded like any other, and some of its superbubbles are skipped.
    Taken,
}

#[derive(Clone, Copy, PartialEq, Eq, Hash, Debug)]
pub struct Folding {
    pub version: Version,
    pub rings: Rings,
}

pub const FOLDINGS: [Folding; 4] = [
    Folding::plain(Version::One),
    Folding::plain(Version::Two),
    Folding::of_rings(Version::One),
    Folding::of_rings(Version::Two),
];

impl Folding {
    pub const fn plain(version: Version) -> Folding {
        Folding { version, rings: Rings::Refused }
    }

    pub const fn of_rings(version: Version) -> Folding {
        Folding { version, rings: Rings::Taken }
    }

    pub fn takes_rings(self) -> bool {
        self.rings == Rings::Taken
    }

    pub fn name(self) -> &'static str {
        match (self.rings, self.version) {
            (Rings::Refused, Version::One) => "fold",
            (Rings::Refused, Version::Two) => "fold_weakest",
            (Rings::Taken, Version::One) => "fold_rings",
            (Rings::Taken, Version::Two) => "fold_rings_weakest",
        }
    }
}
