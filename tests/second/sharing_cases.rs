//! The cases for the sharing of dropped reads: kept paths of few inner vertices with every remainder,
//! long ones, the largest sum, arms that are worth the same, kept bare edges, superbubbles in a row that
//! a budget parts, and some with others inside.

use crate::cases::Cases;
use crate::foldings::{Folding, Rings};
use crate::graphs;
use crate::operations::Operation;
use crate::random::Random;
use crate::shapes::{self, Shape, NUMBERINGS};
use crate::table::{Table, LARGEST_SUM, MOST_VERTICES};
use crate::versions::Version;

/// An arm of a superbubble: the counts of its vertices. The bare edge has none.
type Arm = Vec<u64>;

const BARE_EDGE: Arm = Vec::new();

/// The most inner vertices that a kept path can have where a vertex is dropped.
const LONGEST: usize = MOST_VERTICES - 3;

/// What is left when the dropped reads are divided by many inner vertices.
const REMAINDERS: [(&str, fn(&mut Random, usize) -> usize); 4] = [
    ("remainder 0", |_, _| 0),
    ("remainder 1", |_, _| 1),
    ("the largest remainder", |_, inner| inner - 1),
    ("another remainder", |random, inner| random.between(2, inner - 2)),
];

/// The reads of arms, which come near the largest sum: of the kept one, and of those that are dropped.
const LARGE_SUMS: [(&str, u64, &[u64]); 4] = [
    ("nearly none dropped", LARGEST_SUM - 1_000, &[900]),
    ("nearly half dropped", 1 << 39, &[(1 << 39) - 200]),
    ("half dropped", (1 << 39) - 200, &[1 << 38, 1 << 38]),
    ("nearly three quarters dropped", (1 << 38) + 200, &[1 << 38, 1 << 38, (1 << 38) - 400]),
];

impl Cases {
    pub fn shares(&mut self, folding: Folding) {
        self.every_remainder(folding);
        self.long_paths(folding);
        self.largest_sums(folding);
        for _ in 0..60 {
            self.one_folded(folding, "arms that are worth the same", None, |random| {
                let worth = random.one_of(&[0, 0, 1, 7, 1_000, most_worth(folding.version)]);
                let arms = worth_the_same(folding.version, random, worth);
                Counted::of(random, &[arms])
            });
        }
        for _ in 0..500 {
            self.parted(folding, "superbubbles in a row with long arms", 7, |random| {
                row_with_long_arms(folding.version, random)
            });
        }
        let large = match folding.rings {
            Rings::Refused => 4,
            Rings::Taken => 0,
        };
        for (many, most) in [(300, 150), (large, MOST_VERTICES)] {
            for _ in 0..many {
                self.parted(folding, "long arms with superbubbles inside", 3, |random| {
                    let n = random.between(most / 3, most);
                    shapes::long_armed(random, n).table(random)
                });
            }
        }
    }

    /// Fewer dropped reads than inner vertices, as many or some more, and many more.
    fn every_remainder(&mut self, folding: Folding) {
        for inner in 1..=12 {
            for remainder in 0..inner {
                for (least, most) in [(0, 0), (1, 1), (2, 1_000)] {
                    let name = format!("{inner} inner vertices, remainder {remainder}");
                    self.one_folded(folding, &name, Some(inner), |random| {
                        let reads = random.between(least, most) * inner + remainder;
                        superbubble(folding.version, random, inner, reads)
                    });
                }
            }
        }
    }

    fn long_paths(&mut self, folding: Folding) {
        // in version 2 each kept count is larger than all dropped reads
        let most = match folding.version {
            Version::One => 1 << 27,
            Version::Two => 1 << 15,
        };
        let lengths: &[usize] = match folding.rings {
            Rings::Refused => &[63, 64, 65, 255, 256, 1_000, 2_000, LONGEST],
            Rings::Taken => &[64, 255, 1_000, 1_001],
        };
        for &inner in lengths {
            for (words, remainder) in REMAINDERS {
                let name = format!("{inner} inner vertices, {words}");
                self.one_folded(folding, &name, Some(inner), |random| {
                    let remainder = remainder(random, inner);
                    let least = usize::from(remainder == 0);
                    let reads = random.one_of(&[least, 1, 1_000, most]) * inner + remainder;
                    superbubble(folding.version, random, inner, reads)
                });
            }
        }
    }

    fn largest_sums(&mut self, folding: Folding) {
        for inner in [1, 2, 3, 5, 7, 12, 100] {
            for (words, kept, dropped) in LARGE_SUMS {
                let name = format!("the largest sum, {inner} inner vertices, {words}");
                self.one_folded(folding, &name, Some(inner), |random| {
                    let mut arms = vec![kept_arm(folding.version, random, inner, kept)];
                    arms.extend(
                        dropped.iter().map(|&reads| dropped_arm(folding.version, random, reads)),
                    );
                    Counted::of(random, &[arms]).filled()
                });
            }
        }
    }

    /// One superbubble, which is folded. Where it is known how many inner vertices the kept path has, it
    /// is known how many edges are left.
    fn one_folded(
        &mut self,
        folding: Folding,
        name: &str,
        inner: Option<usize>,
        make: impl Fn(&mut Random) -> Counted,
    ) {
        let edges = inner.map_or_else(String::new, |inner| format!("{}\n", inner + 1));
        self.in_each_numbering(folding, name, &format!("0 1 0 {edges}"), |random, number| {
            let counted = make(random);
            let table = counted.table(&number(counted.shape.n, random));
            Operation::fold_exactly(folding, random.one_of(&[1, 1, 2, u32::MAX]), table)
        });
    }

    /// A table with several superbubbles, of which a budget up to this one folds some.
    fn parted(
        &mut self,
        folding: Folding,
        name: &str,
        most: usize,
        make: impl Fn(&mut Random) -> Table,
    ) {
        self.add(name, |random| {
            let table = make(random);
            Operation::fold_exactly(folding, random.between(0, most) as u32, table)
        });
    }
}

/// A graph with its counts.
struct Counted {
    shape: Shape,
    counts: Vec<u64>,
}

impl Counted {
    /// Superbubbles one after the other by their arms. A few reads lie on each entrance and exit.
    fn of(random: &mut Random, superbubbles: &[Vec<Arm>]) -> Counted {
        let lengths = |arms: &Vec<Arm>| arms.iter().map(Vec::len).collect();
        let shape = shapes::arms(&superbubbles.iter().map(lengths).collect::<Vec<_>>());
        let mut counts = vec![random.between(0, 9) as u64];
        for arms in superbubbles {
            counts.push(random.between(0, 9) as u64);
            counts.extend(arms.iter().flatten());
        }
        Counted { shape, counts }
    }

    /// The same with so many more reads on the first entrance that all come to the largest sum.
    fn filled(mut self) -> Counted {
        self.counts[0] += LARGEST_SUM - self.counts.iter().sum::<u64>();
        self
    }

    /// The table in which each vertex has the number that is named for it.
    fn table(&self, names: &[usize]) -> Table {
        let mut counts = vec![0; self.shape.n];
        for (&name, &count) in names.iter().zip(&self.counts) {
            counts[name] = count;
        }
        graphs::of_edges(&self.shape.renamed(names).edges, counts)
    }
}

/// A superbubble whose kept path has so many inner vertices, and from which so many reads are dropped.
fn superbubble(version: Version, random: &mut Random, inner: usize, reads: usize) -> Counted {
    let arms = arms(version, random, inner, reads);
    Counted::of(random, &[arms])
}

/// The arms of such a one: beside the kept arm one to three short ones, and perhaps a bare edge.
fn arms(version: Version, random: &mut Random, inner: usize, reads: usize) -> Vec<Arm> {
    // beside the longest there is room for one vertex alone
    let most = if inner == LONGEST { 1 } else { 3 };
    let lengths: Vec<usize> =
        (0..random.between(1, most)).map(|_| random.between(1, most)).collect();
    let dropped = random.parts(reads as u64, lengths.len());
    let largest = dropped.iter().max().unwrap() + random.one_of(&[1, 2, 100]);
    let with_reads = dropped.into_iter().zip(lengths);
    let mut arms: Vec<Arm> =
        with_reads.map(|(reads, length)| random.parts(reads, length)).collect();
    arms.push(match version {
        Version::One => random.parts(largest, inner),
        Version::Two => (0..inner).map(|_| largest + random.one_of(&[0, 0, 1, 9])).collect(),
    });
    if random.between(0, 3) == 0 {
        arms.push(BARE_EDGE);
    }
    let first = random.place(arms.len());
    arms.rotate_left(first);
    arms
}

/// An arm of so many vertices with these reads, which lie on them in any way; in version 2 no count is
/// 0, so that it is kept beside arms that have such a one.
fn kept_arm(version: Version, random: &mut Random, inner: usize, reads: u64) -> Arm {
    let least = match version {
        Version::One => 0,
        Version::Two => 1,
    };
    let above = random.parts(reads - least * inner as u64, inner);
    above.into_iter().map(|count| least + count).collect()
}

/// An arm of one to three vertices with these reads, and in version 2 of one more with the count 0.
fn dropped_arm(version: Version, random: &mut Random, reads: u64) -> Arm {
    let length = random.between(1, 3);
    let mut arm = random.parts(reads, length);
    if version == Version::Two {
        arm.insert(random.between(0, length), 0);
    }
    arm
}

/// The most that five arms of up to twelve vertices are worth each, so that the sum is allowed.
fn most_worth(version: Version) -> u64 {
    match version {
        Version::One => LARGEST_SUM / 6,
        Version::Two => LARGEST_SUM / 180,
    }
}

/// Two to five arms of up to twelve vertices that are worth the same: by their sums in version 1, by
/// their smallest counts in version 2. Where that is nothing, with a bare edge.
fn worth_the_same(version: Version, random: &mut Random, worth: u64) -> Vec<Arm> {
    let mut arm = || {
        let length = random.between(1, 12);
        match version {
            Version::One => random.parts(worth, length),
            Version::Two => {
                let mut arm: Arm =
                    (0..length).map(|_| worth + random.one_of(&[0, 1, 5, worth])).collect();
                arm[random.place(length)] = worth;
                arm
            }
        }
    };
    let mut arms: Vec<Arm> = (0..5).map(|_| arm()).collect();
    arms.truncate(random.between(2, 5));
    if worth == 0 {
        arms.push(BARE_EDGE);
    }
    arms
}

/// Two to six superbubbles one after the other, numbered in any way.
pub fn row_with_long_arms(version: Version, random: &mut Random) -> Table {
    let superbubbles: Vec<Vec<Arm>> =
        (0..random.between(2, 6)).map(|_| any_arms(version, random)).collect();
    let counted = Counted::of(random, &superbubbles);
    let (_, number) = random.one_of(&NUMBERINGS);
    counted.table(&number(counted.shape.n, random))
}

fn any_arms(version: Version, random: &mut Random) -> Vec<Arm> {
    if random.between(0, 5) == 0 {
        let worth = random.one_of(&[0, 7]);
        return worth_the_same(version, random, worth);
    }
    let inner = random.one_of(&[1, 2, 3, 4, 5, 7, 8, 12, 16, 33]);
    // the counts of six of these come to an allowed sum
    let largest = match version {
        Version::One => 1 << 35,
        Version::Two => 1 << 31,
    };
    let most = random.one_of(&[inner, 3 * inner, 1_000, largest]);
    let reads = random.between(0, most);
    arms(version, random, inner, reads)
}
