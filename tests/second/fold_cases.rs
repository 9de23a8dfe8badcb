//! The cases for the folds that refuse cycles, of both versions: random tables without a cycle, with
//! counts of which many are 0 or equal, numbered at random; tables with cycles; damaged ones; large ones;
//! for the cycle test every small graph, deep paths, long rows and self-loops, each with a cycle and
//! without one; and tables to be folded in turn.

use crate::cases::{self, Cases};
use crate::damages;
use crate::foldings::{Folding, Rings};
use crate::graphs::{self, Edge};
use crate::image::Room;
use crate::operations::Operation;
use crate::quick;
use crate::random::Random;
use crate::shapes::{self, Numbering, Shape, BOTTOM, NUMBERINGS, TOP};
use crate::sharing_cases;
use crate::superbubbles;
use crate::table::Table;
use crate::turns::Turns;
use crate::versions::Version;

impl Cases {
    pub fn folds(&mut self, folding: Folding) {
        let kinds: [(usize, &str, Make); 4] = [
            (2_500, "any graph without a cycle", acyclic_small),
            (8_500, "a small graph rich in superbubbles", bubbly_small),
            (400, "a graph rich in superbubbles", bubbly),
            (600, "a small graph, perhaps with a cycle", |random| {
                let n = random.between(4, 10);
                shapes::bubbly(random, n)
            }),
        ];
        let large = LARGE.map(|(name, make)| (6, name, make));
        for (many, name, make) in kinds.into_iter().chain(large) {
            for _ in 0..many {
                self.fold(folding, name, |random| counted(folding.version, random, make));
            }
        }
        self.any_folds(folding);
    }

    /// Tables of any kind, and damaged ones.
    pub fn any_folds(&mut self, folding: Folding) {
        for _ in 0..600 {
            self.fold(folding, "any graph", graphs::any);
        }
        for chosen in damages::choices(&damages::of_tables(), self.seed) {
            self.fold(folding, &damages::names(&chosen), |random| {
                damages::damaged_table(random, &chosen)
            });
        }
    }

    pub fn fold(&mut self, folding: Folding, name: &str, make: impl Fn(&mut Random) -> Table) {
        self.add(name, |random| {
            let table = make(random);
            let room = room(random, &table);
            Operation::Fold { folding, budget: budget(random), room, table }
        });
    }

    /// Tables for the cycle test. Most graphs of four vertices have a cycle, for which the version does
    /// not matter.
    pub fn cycles(&mut self, folding: Folding) {
        let most = match folding.version {
            Version::One => 4,
            Version::Two => 3,
        };
        for n in 0..=most {
            for shape in shapes::every(n) {
                let name = "every graph of few vertices";
                self.fold_exactly(folding, name, |random| shape.table(random));
            }
        }
        self.deep_paths(folding);
        self.long_rows(folding);
        self.self_loops(folding);
        for (many, (name, make)) in [150, 150, 100, 12].into_iter().zip(WITHOUT_CYCLE) {
            for _ in 0..many {
                let name = format!("{name}, and an edge that closes a cycle");
                self.fold_exactly(folding, &name, |random| {
                    make(random).closed(random).table(random)
                });
                self.begins_fold(folding, CYCLE);
            }
        }
    }

    /// Paths of many vertices, with a cycle at their end, at their beginning, between and nowhere.
    fn deep_paths(&mut self, folding: Folding) {
        // shorter ones are among the graphs of few vertices
        for n in [5, 255, 256, 257, 1_023, 1_024, 2_048] {
            let (last, middle) = (n - 1, n / 2);
            let at_the_end = [(last, last - 1), (last, last), (last, 0)];
            let at_the_beginning = [(1, 0), (0, 0)];
            let between = [(middle, middle - 1), (middle, middle), (last - 1, 1)];
            let closing = [&at_the_end[..], &at_the_beginning, &between].concat();
            let others = [(0, last), (last - 2, last)];
            self.with_one_more(
                folding,
                &format!("a chain of {n}"),
                shapes::chain(n),
                &closing,
                &others,
            );
        }
        // a row is left for a deep path, and gone on with afterwards
        let closing = [(1_024, 0), (1_025, 0), (2_047, 0), (1_024, 1_024)];
        self.with_one_more(
            folding,
            "a comb of 2,048",
            shapes::comb(2_048),
            &closing,
            &[(1_024, 1)],
        );
        let late = [(TOP, 0), (TOP, TOP), (TOP - 1, TOP), (TOP - 100, TOP - 1)];
        let closing = [&late[..], &[(BOTTOM, TOP), (BOTTOM, BOTTOM)]].concat();
        let others = [(0, BOTTOM), (TOP, BOTTOM)];
        self.with_one_more(folding, "a backbone", shapes::backbone(), &closing, &others);
        // what is done is met again, many times
        let closing = [(2_044, 0), (2_044, 2_044), (2_044, 2_045), (1, 0), (1, 2)];
        let others = [(2, 3), (0, 2_044)];
        self.with_one_more(folding, "682 diamonds", shapes::diamonds(682), &closing, &others);
        let closing = [(2_047, 0), (2_047, 2_046), (2_047, 2_047), (1, 0), (1_024, 1_020)];
        let band = shapes::band(2_048, 8_191);
        self.with_one_more(
            folding,
            "a band of 2,048 with 8,191 edges",
            band,
            &closing,
            &[(0, 2_047)],
        );
    }

    /// Rows of many targets, of which the first, the last, one between or none leads to a cycle.
    fn long_rows(&mut self, folding: Folding) {
        let closing = [(1, 0), (1_024, 0), (2_047, 0), (0, 0), (2_047, 2_047)];
        let [one, four] = [1, 4].map(|rows| shapes::wide(2_048, rows));
        self.with_one_more(
            folding,
            "a row of 2,047",
            one.clone(),
            &closing,
            &[(1, 2_047), (2_047, 1)],
        );
        self.with_one_more(
            folding,
            "four rows of 2,044 or more",
            four,
            &closing,
            &[(4, 2_047), (2_047, 4)],
        );
        let closing = [(0, 1), (0, 1_024), (0, 2_047), (0, 0)];
        let turned_round = shapes::turned_round(one);
        self.with_one_more(
            folding,
            "a row of 2,047, turned round",
            turned_round,
            &closing,
            &[(2_047, 1)],
        );
        let closing = [(128, 0), (128, 127), (128, 128), (64, 63), (1, 0)];
        let band = shapes::band(129, 8_191);
        self.with_one_more(folding, "a band of 129 with 8,191 edges", band, &closing, &[(0, 128)]);
    }

    /// Self-loops at vertices that have no other edge.
    fn self_loops(&mut self, folding: Folding) {
        let closing = [(0, 0), (1_000, 1_000), (2_047, 2_047)];
        let no_edges = Shape { n: 2_048, edges: vec![] };
        self.with_one_more(folding, "2,048 vertices", no_edges, &closing, &[(2_047, 0)]);
        let beside = Shape { n: 2_048, ..shapes::chain(2_047) };
        let name = "a vertex beside a chain of 2,047";
        self.with_one_more(folding, name, beside, &[(2_047, 2_047)], &[(2_047, 0)]);
    }

    /// A graph without a cycle, as it is and with one edge more, which closes one or does not.
    fn with_one_more(
        &mut self,
        folding: Folding,
        name: &str,
        shape: Shape,
        closing: &[Edge],
        others: &[Edge],
    ) {
        self.numbered(folding, name, &shape, NO_CYCLE);
        for (edges, begin) in [(closing, CYCLE), (others, NO_CYCLE)] {
            for &(from, to) in edges {
                let name = format!("{name}, and {from}>{to}");
                self.numbered(folding, &name, &shape.and((from, to)), begin);
            }
        }
    }

    /// A graph for which it is known how the answer begins.
    fn numbered(&mut self, folding: Folding, name: &str, shape: &Shape, begin: &str) {
        self.in_each_numbering(folding, name, begin, |random, number| {
            let table = shape.renamed(&number(shape.n, random)).table(random);
            Operation::fold_exactly(folding, budget(random), table)
        });
    }

    /// A fold for each numbering, where it is known how the answer begins.
    pub fn in_each_numbering(
        &mut self,
        folding: Folding,
        name: &str,
        begin: &str,
        make: impl Fn(&mut Random, Numbering) -> Operation,
    ) {
        for (numbered, number) in NUMBERINGS {
            self.add(format!("{name}, {numbered}"), |random| make(random, number));
            self.begins_fold(folding, begin);
        }
    }

    /// Says how the answer to the last case begins, behind the name of its fold.
    pub fn begins_fold(&mut self, folding: Folding, begin: &str) {
        self.begins(format!("{} {begin}", folding.name()));
    }

    pub fn fold_exactly(
        &mut self,
        folding: Folding,
        name: &str,
        make: impl Fn(&mut Random) -> Table,
    ) {
        self.add(name, |random| {
            let table = make(random);
            Operation::fold_exactly(folding, budget(random), table)
        });
    }

    /// Tables to be folded in turn.
    pub fn folds_in_turn(&mut self, folding: Folding) {
        let small = [100, 500, 60].into_iter().zip(WITHOUT_CYCLE);
        for (many, (name, make)) in small.chain(LARGE.map(|large| (1, large))) {
            for _ in 0..many {
                self.turns(folding, name, |random| counted(folding.version, random, make));
            }
        }
        for _ in 0..300 {
            self.turns(folding, "superbubbles in a row with long arms", |random| {
                sharing_cases::row_with_long_arms(folding.version, random)
            });
        }
    }

    pub fn turns(&mut self, folding: Folding, name: &str, make: impl Fn(&mut Random) -> Table) {
        let random = &mut self.next_random();
        let table = make(random);
        let budgets = budgets(random, folding.rings, &table);
        self.add_turns(name, Turns { folding, table, budgets, further: budget(random) });
    }
}

/// What makes the graph of a case.
pub type Make = fn(&mut Random) -> Shape;

/// Kinds of graphs without a cycle.
pub const WITHOUT_CYCLE: [(&str, Make); 4] = [
    ("any graph without a cycle", acyclic_small),
    ("a small graph rich in superbubbles", bubbly_small),
    ("a graph rich in superbubbles", bubbly),
    ("a large graph rich in superbubbles", bubbly_large),
];

const LARGE: [(&str, Make); 6] = [
    ("a large graph rich in superbubbles", bubbly_large),
    ("nests twenty deep", |random| shapes::nests(20, 34).relabelled(random)),
    ("a nest of 680", |random| shapes::nests(680, 1).relabelled(random)),
    ("many small bubbles", |random| shapes::nests(1, 1_023).relabelled(random)),
    ("a ladder", |random| shapes::ladder().relabelled(random)),
    ("a fan", |random| shapes::fan(2_048).relabelled(random)),
];

/// How the answer to a fold begins behind its name.
const NO_CYCLE: &str = "0 ";
const CYCLE: &str = "9 0 0 0\n";

/// A table to be folded by the fold of a version: for version 2 mostly such that paths tie.
pub fn counted(version: Version, random: &mut Random, make: Make) -> Table {
    let shape = make(random);
    let is_tied = version == Version::Two && random.between(0, 2) > 0;
    if is_tied {
        shape.tied(random)
    } else {
        shape.table(random)
    }
}

fn acyclic_small(random: &mut Random) -> Shape {
    let n = random.between(3, 8);
    shapes::acyclic(random, n).relabelled(random)
}

fn bubbly_small(random: &mut Random) -> Shape {
    let n = random.between(6, 10);
    shapes::bubbly_acyclic(random, n)
}

fn bubbly(random: &mut Random) -> Shape {
    let n = random.between(11, 150);
    shapes::bubbly_acyclic(random, n)
}

fn bubbly_large(random: &mut Random) -> Shape {
    shapes::bubbly_acyclic(random, 2_048)
}

/// Room for a fold of a table: what is due, and now and then, or where the table is refused, any.
pub fn room(random: &mut Random, table: &Table) -> Room {
    let n = table.starts.len().saturating_sub(1);
    let room = Room::of(n, table.targets.len());
    let is_drawn = !table.faults().is_empty() || random.between(0, 5) == 0;
    if n < 4_000 && is_drawn {
        Room { lengths: 0, ..cases::room(random, room) }
    } else {
        room
    }
}

pub fn budget(random: &mut Random) -> u32 {
    random.one_of(&[0, 1, 1, 1, 2, 2, 3, 10, 1_000, 65_536, 1 << 31, u32::MAX])
}

/// One to six budgets to fold a table in turn: any ones, or the parts of a sum, which is near the number
/// of candidates or as large as can be.
fn budgets(random: &mut Random, rings: Rings, table: &Table) -> Vec<u32> {
    if random.between(0, 2) == 0 {
        // four of the largest still come to a budget
        let many = random.between(1, 4);
        let any = |_| random.one_of(&[0, 1, 1, 2, 3, 40, 1_000_000_000]);
        return (0..many).map(any).collect();
    }
    let candidates = superbubbles::candidates(&quick::WAY, rings, table).len();
    let near = random.between(0, candidates + 2);
    let sum = random.one_of(&[near, near, near, candidates, u32::MAX as usize]);
    let parts = random.between(1, 6);
    random.parts(sum as u64, parts).into_iter().map(|part| part as u32).collect()
}
