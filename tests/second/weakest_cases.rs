//! The cases for the fold of version 2 alone: small superbubbles with every choice of few counts, and
//! ones of many paths of which many are worth the same.

use crate::cases::Cases;
use crate::foldings::Folding;
use crate::graphs;
use crate::quick;
use crate::random::Random;
use crate::shapes::{self, Shape};
use crate::table::Table;
use crate::versions::Version;

const BY_WEAKEST: Folding = Folding::plain(Version::Two);

/// The counts of small superbubbles.
const FEW_COUNTS: [u64; 3] = [0, 1, 2];

impl Cases {
    pub fn weakest(&mut self) {
        for n in 3..=5 {
            for shape in superbubbles_of(n) {
                self.every_count(&shape);
            }
        }
        for (many, least, most) in [(3_500, 5, 10), (150, 11, 60), (20, 80, 120)] {
            for _ in 0..many {
                self.fold_exactly(
                    BY_WEAKEST,
                    "many paths of which some are worth the same",
                    |random| {
                        let n = random.between(least, most);
                        shapes::tangle(random, n).relabelled(random).tied(random)
                    },
                );
            }
        }
    }

    /// A graph from its first vertex to its last one, numbered at random, with every choice of counts
    /// for the vertices between.
    fn every_count(&mut self, shape: &Shape) {
        let inner = shape.n - 2;
        for choice in 0..FEW_COUNTS.len().pow(inner as u32) {
            let name = "every small superbubble with every choice of counts";
            self.fold_exactly(BY_WEAKEST, name, |random| numbered(random, shape, choice));
        }
    }
}

/// Every superbubble of n vertices, by rising edges from the first to the last.
fn superbubbles_of(n: usize) -> Vec<Shape> {
    let mut shapes = shapes::every_rising(n);
    shapes.retain(|shape| {
        let found = (quick::WAY.judge)(&shape.counted(0), 0, n - 1);
        found.is_some_and(|superbubble| superbubble.all.len() == n)
    });
    shapes
}

/// The graph numbered at random, with a choice of counts by its number. The first vertex and the last
/// have any of them.
fn numbered(random: &mut Random, shape: &Shape, choice: usize) -> Table {
    let few = FEW_COUNTS.len();
    let names = shapes::at_random(shape.n, random);
    let mut counts: Vec<u64> = (0..shape.n).map(|_| random.one_of(&FEW_COUNTS)).collect();
    for inner in 1..shape.n - 1 {
        counts[names[inner]] = FEW_COUNTS[choice / few.pow(inner as u32 - 1) % few];
    }
    graphs::of_edges(&shape.renamed(&names).edges, counts)
}
