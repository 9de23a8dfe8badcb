//! The cases for the folds that take rings, of both versions: every graph of few vertices, rings made of
//! superbubbles, with bare edges and without, in each other and one after the other; superbubbles off the
//! cycles of their table; ways back that are deep or wide; large ones; tables without a cycle, for both
//! folds of a version; and tables to be folded in turn.

use crate::cases::Cases;
use crate::fold_cases::{self, counted, Make, WITHOUT_CYCLE};
use crate::foldings::Folding;
use crate::operations::Operation;
use crate::random::Random;
use crate::shapes::{self, Shape};
use crate::versions::Version;

/// Kinds of small tables, with how many of each are folded and how many are folded in turn.
const SMALL: [(usize, usize, &str, Make); 8] = [
    (900, 10, "any graph of few vertices", |random| {
        let n = random.between(4, 6);
        shapes::any(random, n)
    }),
    (1_600, 100, "a small ring rich in superbubbles", |random| {
        let n = random.between(5, 10);
        shapes::bubbly_ring(random, n)
    }),
    (250, 40, "a ring rich in superbubbles", |random| {
        let n = random.between(11, 80);
        shapes::bubbly_ring(random, n)
    }),
    (500, 20, "a small graph rich in superbubbles", |random| {
        let n = random.between(6, 10);
        shapes::bubbly(random, n)
    }),
    (300, 10, "many paths in a ring", |random| {
        let n = random.between(5, 10);
        shapes::tangle_in_a_ring(random, n)
    }),
    (1_200, 120, "a ring of nests", |random| shapes::ring_of_nests(random, 3)),
    (500, 600, "superbubbles in a ring", superbubbles_in_a_ring),
    (900, 60, "a nest between rings", |random| shapes::nest_between_rings(random, 2)),
];

/// Kinds of large tables.
const LARGE_RINGS: [(&str, Make); 6] = [
    ("a large ring rich in superbubbles", |random| shapes::bubbly_ring(random, 2_048)),
    ("a ring of nests twenty deep", |random| shapes::nests_in_a_ring(20, 34).relabelled(random)),
    ("a ring of many nests", |random| shapes::nests_in_a_ring(2, 408).relabelled(random)),
    ("a ring of bare edges", |random| shapes::nests_in_a_ring(1, 1_023).relabelled(random)),
    ("a ring of diamonds", |random| {
        shapes::ring_of_arms(&vec![vec![1; 2]; 682], 1).relabelled(random)
    }),
    ("a ring with an arm of 2,000", |random| {
        shapes::ring_of_arms(&[vec![2_000, 1], vec![0, 3]], 1).relabelled(random)
    }),
];

/// A bare edge beside one vertex, by the lengths of the arms, and how many vertices are left beside it.
const OF_BARE_EDGE: [usize; 2] = [0, 1];
const MOST_BACK: usize = 2_045;

/// How the answer begins where nothing is folded or left, and where one is folded and none is left.
const SKIPPED: &str = "0 0 0 ";
const FOLDED: &str = "0 1 0 ";

impl Cases {
    pub fn rings(&mut self, version: Version) {
        let folding = Folding::of_rings(version);
        self.any_folds(folding);
        for shape in (0..=3).flat_map(shapes::every).chain(shapes::every_without_self_loop(4)) {
            let name = "every graph of few vertices";
            self.fold_exactly(folding, name, |random| shape.table(random));
        }
        for (many, _, name, make) in SMALL {
            for _ in 0..many {
                self.fold(folding, name, |random| counted(version, random, make));
            }
        }
        for (name, make) in LARGE_RINGS {
            self.fold_exactly(folding, name, |random| counted(version, random, make));
        }
        self.deep_ways_back(folding);
        self.wide_ways_back(folding);
        self.shares(folding);
        self.without_cycle(version);
    }

    /// A superbubble with a bare edge, and from its exit a way back over many vertices; and the same where
    /// this way is broken.
    fn deep_ways_back(&mut self, folding: Folding) {
        let closed = shapes::ring_of_arms(&[OF_BARE_EDGE.to_vec()], MOST_BACK);
        let (first, last) = (closed.n - MOST_BACK, closed.n - 1);
        let middle = first + MOST_BACK / 2;
        let broken = [(1, first), (middle, middle + 1), (last, 0)].map(|edge| closed.without(edge));
        for (shape, begin) in broken.iter().map(|shape| (shape, FOLDED)).chain([(&closed, SKIPPED)])
        {
            self.add(format!("a way back over {MOST_BACK} vertices, or nearly"), |random| {
                one_folded(folding, &shape.relabelled(random), random)
            });
            self.begins_fold(folding, begin);
        }
    }

    /// The same where the exit has a row of many targets, of which the first, the last, one between or none
    /// leads back.
    fn wide_ways_back(&mut self, folding: Folding) {
        let mut wide = shapes::arms(&[OF_BARE_EDGE.to_vec()]);
        let (first, last) = (wide.n, wide.n + MOST_BACK - 1);
        wide.n += MOST_BACK;
        wide.edges.extend((first..=last).map(|target| (1, target)));
        let back = [first, (first + last) / 2, last].map(|target| wide.and((target, 0)));
        for (shape, begin) in back.iter().map(|shape| (shape, SKIPPED)).chain([(&wide, FOLDED)]) {
            let name = format!("an exit with a row of {MOST_BACK} targets");
            self.in_each_numbering(folding, &name, begin, |random, number| {
                one_folded(folding, &shape.renamed(&number(shape.n, random)), random)
            });
        }
    }

    /// Tables without a cycle, each for both folds of a version, one behind the other.
    fn without_cycle(&mut self, version: Version) {
        for (many, (name, make)) in [400, 500, 60, 1].into_iter().zip(WITHOUT_CYCLE) {
            for _ in 0..many {
                let random = &mut self.next_random();
                let table = counted(version, random, make);
                let (room, budget) = (fold_cases::room(random, &table), fold_cases::budget(random));
                for folding in [Folding::plain(version), Folding::of_rings(version)] {
                    let table = table.clone();
                    self.add(name, |_| Operation::Fold { folding, budget, room, table });
                }
            }
        }
    }

    /// Tables to be folded in turn.
    pub fn rings_in_turn(&mut self, folding: Folding) {
        let small = SMALL.map(|(_, many, name, make)| (many, (name, make)));
        for (many, (name, make)) in small.into_iter().chain(LARGE_RINGS.map(|large| (1, large))) {
            for _ in 0..many {
                self.turns(folding, name, |random| counted(folding.version, random, make));
            }
        }
    }
}

/// A fold that folds one, if it has one.
fn one_folded(folding: Folding, shape: &Shape, random: &mut Random) -> Operation {
    let budget = random.one_of(&[1, 2, u32::MAX]);
    Operation::fold_exactly(folding, budget, shape.table(random))
}

/// Two to six superbubbles one after the other and a way back, some with a bare edge.
fn superbubbles_in_a_ring(random: &mut Random) -> Shape {
    let arms = [&[0, 1][..], &[0, 2], &[1, 1], &[1, 2], &[0, 1, 1], &[1, 1, 3], &[2, 2]];
    let superbubbles: Vec<Vec<usize>> =
        (0..random.between(2, 6)).map(|_| random.one_of(&arms).to_vec()).collect();
    shapes::ring_of_arms(&superbubbles, random.between(0, 2)).relabelled(random)
}
