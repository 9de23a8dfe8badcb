//! The cases for list and judge: every small graph, random ones, ones rich in superbubbles, and damaged
//! tables; every pair of many small ones is judged.

use crate::cases::Cases;
use crate::damages;
use crate::graphs::{self, Edge};
use crate::operations::{Operation, LONGEST_LIST};
use crate::quick;
use crate::random::Random;
use crate::shapes;
use crate::table::Table;

impl Cases {
    pub fn superbubbles(&mut self) {
        for n in 0..=3 {
            for shape in shapes::every(n) {
                self.every_pair("every graph of few vertices", |random| shape.table(random));
            }
        }
        for _ in 0..6_000 {
            self.list("any graph", any_small);
        }
        for _ in 0..220 {
            self.every_pair("any graph", any_small);
        }
        for _ in 0..7_000 {
            self.list("a small graph rich in superbubbles", bubbly_small);
        }
        for _ in 0..150 {
            self.every_pair("a small graph rich in superbubbles", bubbly_small);
        }
        for _ in 0..250 {
            self.some_pairs("a graph rich in superbubbles", 6, |random| {
                let n = random.between(11, 150);
                shapes::bubbly(random, n).table(random)
            });
        }
        self.large_superbubbles();
        for chosen in damages::choices(&damages::of_tables(), self.seed) {
            let make = |random: &mut Random| damages::damaged_table(random, &chosen);
            self.list(&damages::names(&chosen), make);
            self.add(damages::names(&chosen), |random| {
                let table = make(random);
                let pair = any_pair(random, table.starts.len().saturating_sub(1));
                Operation::Judge { pair, table }
            });
        }
    }

    fn large_superbubbles(&mut self) {
        for _ in 0..6 {
            self.some_pairs("a large graph rich in superbubbles", 4, |random| {
                shapes::bubbly(random, 2_040).table(random)
            });
            self.some_pairs("a large graph without a cycle", 4, |random| {
                shapes::bubbly_acyclic(random, 2_040).table(random)
            });
        }
        let plain = [
            ("a chain", shapes::chain(2_048)),
            ("a cycle", shapes::ring(2_048)),
            ("a comb", shapes::comb(2_048)),
            ("a comb turned round", shapes::turned_round(shapes::comb(2_048))),
            ("a fan", shapes::fan(2_048)),
            ("a ladder", shapes::ladder()),
            ("one nest", shapes::nests(680, 1)),
            ("many nests", shapes::nests(20, 34)),
        ];
        for (name, shape) in plain {
            self.some_pairs(&format!("{name} of 2,048 vertices or nearly"), 4, |random| {
                shape.relabelled(random).table(random)
            });
        }
        for _ in 0..3 {
            self.some_pairs("the largest table", 3, graphs::largest);
        }
    }

    // ---- a table, and pairs of it

    fn list(&mut self, name: &str, make: impl Fn(&mut Random) -> Table) {
        self.add(name, |random| {
            let table = make(random);
            let enough = 2 * table.starts.len().saturating_sub(1);
            let room = match random.between(0, 19) {
                0 => enough.saturating_sub(1),
                1 => 0,
                2 => LONGEST_LIST,
                3 | 4 => enough + random.between(1, 50),
                _ => enough,
            };
            let room = room.min(LONGEST_LIST);
            Operation::List { room, table }
        });
    }

    /// A table to be listed, and these pairs of it to be judged.
    fn judged(&mut self, name: &str, table: Table, pairs: &[(u32, u32)]) {
        self.list(name, |_| table.clone());
        for &pair in pairs {
            self.add(name, |_| Operation::Judge { pair, table: table.clone() });
        }
    }

    fn every_pair(&mut self, name: &str, make: impl Fn(&mut Random) -> Table) {
        let table = make(&mut self.next_random());
        let pairs = in_32_bits(&shapes::pairs(table.counts.len()));
        self.judged(name, table, &pairs);
    }

    /// The largest superbubble; so many others; as many pairs made of the entrance of one and the exit
    /// of another; and as many that may be anything.
    fn some_pairs(&mut self, name: &str, each: usize, make: impl Fn(&mut Random) -> Table) {
        let random = &mut self.next_random();
        let table = make(random);
        let found = (quick::WAY.superbubbles)(&table);
        let largest = found.iter().max_by_key(|one| one.all.len());
        let mut pairs: Vec<Edge> = largest.map(|one| one.pair()).into_iter().collect();
        for _ in 0..each {
            if !found.is_empty() {
                let one = &found[random.place(found.len())];
                let other = &found[random.place(found.len())];
                pairs.extend([one.pair(), (one.entrance, other.exit)]);
            }
        }
        let mut pairs = in_32_bits(&pairs);
        pairs.extend((0..each).map(|_| any_pair(random, table.counts.len())));
        self.judged(name, table, &pairs);
    }
}

fn any_small(random: &mut Random) -> Table {
    let n = random.between(4, 8);
    shapes::any(random, n).table(random)
}

fn bubbly_small(random: &mut Random) -> Table {
    let n = random.between(6, 10);
    shapes::bubbly(random, n).table(random)
}

fn in_32_bits(pairs: &[Edge]) -> Vec<(u32, u32)> {
    pairs.iter().map(|&(s, t)| (s as u32, t as u32)).collect()
}

/// A pair of a table with n vertices; now and then one that it does not have.
fn any_pair(random: &mut Random, n: usize) -> (u32, u32) {
    let mut vertex = || match random.between(0, 19) {
        0 => n as u32,
        1 => u32::MAX,
        _ => random.between(0, n.saturating_sub(1)) as u32,
    };
    (vertex(), vertex())
}
