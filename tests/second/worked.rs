//! What the rules work out themselves about superbubbles (docs/RULES.md, Twelve graphs and Worked
//! folds), with answers written by hand: the twelve lists, pairs of the twelve graphs, the folds of these
//! by every fold, folds of bare edges, folds that share reads, folds by the weakest, folds of rings, and a
//! case for each error that an analyst has met.

use crate::answers;
use crate::fold::Folded;
use crate::foldings::{Folding, FOLDINGS};
use crate::graphs::{self, lettered, Edge, BREAKING, RING, SHARED, SHRINKING, TWELVE, WEAKEST};
use crate::image::Room;
use crate::operations::Operation;
use crate::table::{Table, LARGEST_SUM};
use crate::versions::{Version, VERSIONS};

const BY_SUM: Folding = Folding::plain(Version::One);
const BY_WEAKEST: Folding = Folding::plain(Version::Two);

pub struct Worked {
    pub name: String,
    pub operation: Operation,
    pub answer: Vec<u8>,
}

pub fn all() -> Vec<Worked> {
    let mut all = twelve_lists();
    all.extend(pairs());
    for folding in FOLDINGS {
        all.extend(folds(folding));
        all.extend(folds_with_cycle(folding));
        all.extend(folds_without_interior(folding));
    }
    all.extend(VERSIONS.into_iter().flat_map(|version| rings(Folding::of_rings(version))));
    all.extend(ring());
    all.extend(bare_edges());
    all.extend(shares());
    all.extend(weakest());
    all.extend(shares_by_weakest());
    all.extend(errors());
    all
}

// ---- list and judge

fn twelve_lists() -> Vec<Worked> {
    TWELVE.iter().map(|graph| list(graph.name, &graph.table(), graph.list)).collect()
}

/// Pairs of the twelve graphs: a letter, the pair, and how many vertices U has, or none for a no.
const PAIRS: [(&str, Edge, Option<usize>); 29] = [
    ("C", (0, 1), Some(2)),
    ("C", (1, 0), None),
    ("D", (0, 3), Some(4)),
    ("D", (0, 0), None),
    ("D", (3, 0), None),
    ("E", (0, 1), None),
    ("E", (1, 0), None),
    ("F", (0, 1), Some(2)),
    ("F", (1, 2), Some(2)),
    ("F", (2, 0), Some(2)),
    ("F", (0, 2), None),
    ("G", (0, 1), None),
    ("G", (1, 1), None),
    ("H", (3, 0), Some(2)),
    ("I", (0, 1), Some(2)),
    ("I", (1, 2), Some(2)),
    ("I", (3, 0), None),
    ("J", (0, 6), Some(7)),
    ("J", (1, 4), Some(4)),
    ("J", (0, 4), None),
    ("J", (1, 6), None),
    ("J", (4, 6), None),
    ("K", (0, 3), Some(4)),
    ("K", (3, 6), Some(4)),
    // it meets the first three, but so does 0, 3
    ("K", (0, 6), None),
    ("K", (1, 5), None),
    ("L", (0, 2), Some(3)),
    ("L", (0, 1), None),
    ("L", (1, 2), None),
];

fn pairs() -> Vec<Worked> {
    PAIRS
        .iter()
        .map(|&(letter, pair, size)| judge(letter, &lettered(letter).table(), pair, size))
        .collect()
}

fn list(name: &str, table: &Table, pairs: &[Edge]) -> Worked {
    let room = 2 * table.counts.len();
    let operation = Operation::List { room, table: table.clone() };
    Worked { name: name.to_string(), operation, answer: answers::list(0, pairs, room) }
}

fn judge(name: &str, table: &Table, (s, t): Edge, size: Option<usize>) -> Worked {
    let operation = Operation::Judge { pair: (s as u32, t as u32), table: table.clone() };
    Worked { name: format!("{name}, pair {s},{t}"), operation, answer: answers::judge(0, size) }
}

// ---- fold

/// Folds of the twelve graphs that come to the same by every fold.
fn folds(folding: Folding) -> Vec<Worked> {
    let [d, j, k, l] = ["D", "J", "K", "L"].map(|letter| lettered(letter).table());
    let d_folded = folded(1, 0, &[(0, 2), (2, 3)], &[9, 0, 9, 9]);
    let j_folded = folded(1, 0, &[(0, 5), (5, 6)], &[10, 0, 0, 0, 0, 25, 10]);
    let k_once =
        folded(1, 1, &[(0, 1), (1, 3), (3, 4), (3, 5), (4, 6), (5, 6)], &[5, 4, 0, 5, 1, 4, 5]);
    let k_again = folded(1, 0, &[(0, 1), (1, 3), (3, 5), (5, 6)], &[5, 4, 0, 5, 0, 5, 5]);
    let k_at_once = Folded { folded: 2, ..k_again.clone() };
    let l_folded = folded(1, 0, &[(0, 1), (1, 2)], &[3, 0, 3]);
    let fold = |name, table, budget, folded| fold(folding, name, table, budget, folded);
    vec![
        fold("D, budget 1", &d, 1, &d_folded),
        fold("J, budget 1", &j, 1, &j_folded),
        fold("J, budget 4,294,967,295", &j, u32::MAX, &j_folded),
        fold("J, budget 0", &j, 0, &unfolded(&j, 1)),
        fold("J folded, budget 0", &j_folded.table, 0, &unfolded(&j_folded.table, 0)),
        fold("J folded, budget 1", &j_folded.table, 1, &unfolded(&j_folded.table, 0)),
        fold("K, budget 1", &k, 1, &k_once),
        fold("K again, budget 1", &k_once.table, 1, &k_again),
        fold("K, budget 2", &k, 2, &k_at_once),
        fold("K, budget 4,294,967,295", &k, u32::MAX, &k_at_once),
        fold("K, budget 0", &k, 0, &unfolded(&k, 2)),
        fold("L, budget 1", &l, 1, &l_folded),
        fold("L, budget 0", &l, 0, &unfolded(&l, 1)),
    ]
}

/// The graphs of the twelve that have a cycle: refused, or given back, since none of their superbubbles
/// has an interior.
fn folds_with_cycle(folding: Folding) -> Vec<Worked> {
    let answered = |letter: &str| {
        let table = lettered(letter).table();
        if folding.takes_rings() {
            return fold(folding, letter, &table, 1, &unfolded(&table, 0));
        }
        let room = Room::taken_by(&table);
        let answer = answers::fold(folding, 9, Folded::default(), room);
        let operation = Operation::fold_exactly(folding, 1, table);
        Worked { name: letter.to_string(), operation, answer }
    };
    ["E", "F", "G", "H", "I"].map(answered).into()
}

/// The graphs of the twelve without a superbubble that has an interior.
fn folds_without_interior(folding: Folding) -> Vec<Worked> {
    let table = |letter: &str| lettered(letter).table();
    let given_back =
        |letter: &str| fold(folding, letter, &table(letter), 1, &unfolded(&table(letter), 0));
    ["A", "B", "C"].map(given_back).into()
}

/// Tables with a cycle that come to the same in both versions, each folded, and then once more.
fn rings(folding: Folding) -> Vec<Worked> {
    let mut all = vec![
        list("a set that shrinks", &SHRINKING.table(), SHRINKING.list),
        list("an edge without which there is another", &BREAKING.table(), BREAKING.list),
    ];
    let mut add = |name: &str, table: &Table, budget, after: &Folded| {
        all.push(fold(folding, name, table, budget, after));
        all.push(fold(
            folding,
            &format!("{name}, budget 0"),
            table,
            0,
            &unfolded(table, after.folded),
        ));
        let again = unfolded(&after.table, 0);
        all.push(fold(folding, &format!("{name}, once more"), &after.table, 1, &again));
    };
    // the bare edge 2>5 and all around it stays, and 0 takes the read of 1
    let shrunk = [(0, 3), (2, 4), (2, 5), (3, 5), (4, 0), (5, 6), (6, 2)];
    let shrunk = folded(1, 0, &shrunk, &[5, 0, 9, 2, 3, 9, 9]);
    add("a set that shrinks", &SHRINKING.table(), 1, &shrunk);
    let breaking = BREAKING.table();
    let name = "an edge without which there is another";
    add(name, &breaking, 1, &unfolded(&breaking, 0));
    add(name, &breaking, u32::MAX, &unfolded(&breaking, 0));
    let two = [(0, 1), (0, 2), (1, 3), (2, 3), (3, 4), (3, 5), (4, 0), (5, 0)];
    let two = graphs::of_edges(&two, vec![5, 2, 2, 5, 1, 4]);
    let both = folded(2, 0, &[(0, 1), (1, 3), (3, 5), (5, 0)], &[5, 4, 0, 5, 0, 5]);
    add("a ring of two", &two, 2, &both);
    // 3,4 has a bare edge, lies inside 0,1, and is dropped with an arm of it
    let inside = [(0, 2), (2, 1), (0, 3), (3, 4), (3, 5), (5, 4), (4, 1), (1, 6), (6, 0)];
    let inside = graphs::of_edges(&inside, vec![1, 1, 10, 2, 3, 4, 1]);
    let dropped = folded(1, 0, &[(0, 2), (2, 1), (1, 6), (6, 0)], &[1, 1, 19, 0, 0, 0, 1]);
    add("a bare edge inside a candidate", &inside, 1, &dropped);
    // the exit 2 leads to the cycle of 3 and 4, and not back to 0
    let behind = [(0, 1), (0, 2), (1, 2), (2, 3), (3, 4), (4, 3)];
    let before = graphs::of_edges(&behind, vec![3, 0, 3, 1, 1]);
    let behind = folded(1, 0, &[(0, 1), (1, 2), (2, 3), (3, 4), (4, 3)], &[3, 0, 3, 1, 1]);
    add("a bare edge before a cycle", &before, 1, &behind);
    let once = [(0, 1), (1, 3), (3, 4), (3, 5), (4, 0), (5, 0)];
    let once = folded(1, 1, &once, &[5, 4, 0, 5, 1, 4]);
    all.push(fold(folding, "a ring of two, budget 1", &two, 1, &once));
    let again = Folded { folded: 1, ..both };
    all.push(fold(folding, "a ring of two, budget 1 again", &once.table, 1, &again));
    all
}

/// The ring of the rules, which each version folds to another path: 5 reads over 3 and 5 are 3 and 2, and
/// 10 reads go to 4.
fn ring() -> Vec<Worked> {
    let table = RING.table();
    let by_sum = [(0, 1), (0, 2), (1, 2), (2, 3), (3, 5), (5, 6), (6, 0)];
    let by_sum = folded(1, 0, &by_sum, &[0, 8, 0, 4, 0, 11, 0]);
    let by_weakest = [(0, 1), (0, 2), (1, 2), (2, 4), (4, 6), (6, 0)];
    let by_weakest = folded(1, 0, &by_weakest, &[0, 8, 0, 0, 15, 0, 0]);
    vec![
        list("a ring", &table, RING.list),
        fold(Folding::of_rings(Version::One), "a ring", &table, 1, &by_sum),
        fold(Folding::of_rings(Version::Two), "a ring", &table, 1, &by_weakest),
    ]
}

/// A bare edge that stands before the arms by its vertex: in version 1 it is kept where every count is
/// 0, in version 2 it never is.
fn bare_edges() -> Vec<Worked> {
    let edges = [(0, 1), (0, 2), (2, 1)];
    let one_arm = graphs::of_edges(&edges, vec![3, 3, 0]);
    let two_arms = graphs::of_edges(&[&edges[..], &[(0, 3), (3, 1)]].concat(), vec![0; 4]);
    // one read on the arm decides against it
    let read = graphs::of_edges(&edges, vec![3, 3, 1]);
    let read_folded = folded(1, 0, &edges[1..], &[3, 3, 1]);
    let mut folds: Vec<Worked> = Vec::new();
    for folding in FOLDINGS {
        let kept = match folding.version {
            Version::One => &edges[..1],
            Version::Two => &edges[1..],
        };
        let of_one_arm = folded(1, 0, kept, &[3, 3, 0]);
        let of_two_arms = folded(1, 0, kept, &[0; 4]);
        folds.push(fold(folding, "a bare edge beside an arm of 0", &one_arm, 1, &of_one_arm));
        folds.push(fold(folding, "a bare edge beside two arms of 0", &two_arms, 1, &of_two_arms));
        folds.push(fold(folding, "a bare edge beside an arm of 1", &read, 1, &read_folded));
    }
    folds
}

/// Folds by which several inner vertices get reads; the first comes to the same by every fold.
fn shares() -> Vec<Worked> {
    let mut shares = vec![list("a shared arm", &SHARED.table(), SHARED.list)];
    for folding in FOLDINGS {
        shares.extend(two_arms(
            folding,
            "3 reads over 1 and 2: 2 and 1",
            [&[0, 1, 2, 4], &[0, 3, 4]],
            &[5, 4, 3, 3, 5],
            &[5, 6, 4, 0, 5],
        ));
    }
    shares.extend(two_arms(
        BY_SUM,
        "8 reads over 4, 3 and 1: 3, 3 and 2",
        [&[0, 4, 3, 1, 5], &[0, 2, 5]],
        &[9, 4, 8, 3, 2, 9],
        &[9, 6, 0, 6, 5, 9],
    ));
    shares.extend(two_arms(
        BY_SUM,
        "2 reads over 5, 4, 2 and 1: 1, 1, 0 and 0",
        [&[0, 5, 4, 2, 1, 6], &[0, 3, 6]],
        &[1, 0, 3, 2, 0, 0, 1],
        &[1, 0, 3, 0, 1, 1, 1],
    ));
    let largest_sum = [0, 549_755_813_888, 0, 549_755_813_887, 0];
    assert_eq!(largest_sum.iter().sum::<u64>(), LARGEST_SUM);
    shares.extend(two_arms(
        BY_SUM,
        "the largest sum, 2^39 - 1 reads over 1 and 2: 2^38 and 2^38 - 1",
        [&[0, 1, 2, 4], &[0, 3, 4]],
        &largest_sum,
        &[0, 824_633_720_832, 274_877_906_943, 0, 0],
    ));
    shares
}

/// The worked fold By the weakest, and on its table the fold of version 1; a tie at the first place; arms that
/// are worth the same and have other sums; and what the ends have, which does not matter.
fn weakest() -> Vec<Worked> {
    let table = WEAKEST.table();
    let by_weakest = folded(1, 0, &[(0, 1), (1, 2), (2, 4)], &[0, 6, 9, 0, 0]);
    let by_sum = folded(1, 0, &[(0, 1), (1, 3), (3, 4)], &[0, 4, 0, 11, 0]);
    let mut all = vec![
        list("by the weakest", &table, WEAKEST.list),
        fold(BY_WEAKEST, "by the weakest", &table, 1, &by_weakest),
        fold(BY_WEAKEST, "by the weakest, budget 0", &table, 0, &unfolded(&table, 1)),
        fold(BY_SUM, "by the sum", &table, 1, &by_sum),
    ];
    let again = unfolded(&by_weakest.table, 0);
    all.push(fold(BY_WEAKEST, "by the weakest, once more", &by_weakest.table, 1, &again));
    let long: [&[usize]; 2] = [&[0, 4, 5], &[0, 1, 2, 3, 5]];
    let title = "a short strong arm beside a long one of weak vertices";
    all.extend(two_arms(BY_WEAKEST, title, long, &[0, 3, 3, 3, 5, 0], &[0, 0, 0, 0, 14, 0]));
    let [same, turned]: [[&[usize]; 2]; 2] = [[&[0, 1, 3], &[0, 2, 3]], [&[0, 2, 3], &[0, 1, 3]]];
    let title = "a tie at the first place";
    all.extend(two_arms(BY_WEAKEST, title, same, &[0, 7, 7, 0], &[0, 14, 0, 0]));
    all.extend(two_arms(BY_WEAKEST, title, same, &[9, 0, 0, 9], &[9, 0, 0, 9]));
    let title = "one read more at the second vertex";
    all.extend(two_arms(BY_WEAKEST, title, turned, &[0, 7, 8, 0], &[0, 0, 15, 0]));
    // 5 reads over 2 and 1: 3 and 2
    let tied: [&[usize]; 2] = [&[0, 2, 1, 4], &[0, 3, 4]];
    let title = "a tie of a long arm and a short one";
    all.extend(two_arms(BY_WEAKEST, title, tied, &[0, 5, 9, 5, 0], &[0, 7, 12, 0, 0]));
    all
}

/// Folds by the weakest by which several inner vertices get reads.
fn shares_by_weakest() -> Vec<Worked> {
    let mut shares = two_arms(
        BY_WEAKEST,
        "2 reads over 4, 3 and 1: 1, 1 and 0",
        [&[0, 4, 3, 1, 5], &[0, 2, 5]],
        &[9, 4, 2, 3, 5, 9],
        &[9, 4, 0, 4, 6, 9],
    );
    shares.extend(two_arms(
        BY_WEAKEST,
        "100 reads of an arm with a 0 over 1 and 2: 50 and 50",
        [&[0, 1, 2, 5], &[0, 3, 4, 5]],
        &[5, 1, 1, 100, 0, 5],
        &[5, 51, 51, 0, 0, 5],
    ));
    shares.extend(two_arms(
        BY_WEAKEST,
        "the largest sum, all but 2 reads over 1 and 2: 2^39 - 1 and 2^39 - 2",
        [&[0, 1, 2, 5], &[0, 3, 4, 5]],
        &[0, 1, 1, LARGEST_SUM - 2, 0, 0],
        &[0, 549_755_813_888, 549_755_813_887, 0, 0, 0],
    ));
    shares
}

/// Folds by hand of a superbubble of two arms, of which the first is kept: the paths, and the counts
/// before and after. It is folded by several budgets, and then once more.
fn two_arms(
    folding: Folding,
    name: &str,
    paths: [&[usize]; 2],
    before: &[u64],
    after: &[u64],
) -> Vec<Worked> {
    let fold =
        |name: &str, table: &_, budget, folded: &_| fold(folding, name, table, budget, folded);
    let edges = paths.map(|path| path.windows(2).map(|two| (two[0], two[1])).collect::<Vec<_>>());
    let table = graphs::of_edges(&edges.concat(), before.to_vec());
    let shared = folded(1, 0, &edges[0], after);
    let again = unfolded(&shared.table, 0);
    vec![
        fold(&format!("{name}, budget 1"), &table, 1, &shared),
        fold(&format!("{name}, budget 4,294,967,295"), &table, u32::MAX, &shared),
        fold(&format!("{name}, budget 0"), &table, 0, &unfolded(&table, 1)),
        fold(&format!("{name}, once more"), &shared.table, 1, &again),
    ]
}

/// A fold by hand: how many were folded, how many are left, the edges and the counts.
fn folded(folded: usize, left: usize, edges: &[Edge], counts: &[u64]) -> Folded {
    Folded { table: graphs::of_edges(edges, counts.to_vec()), folded, left }
}

/// A fold that gives back its input.
fn unfolded(table: &Table, left: usize) -> Folded {
    Folded { table: table.clone(), folded: 0, left }
}

fn fold(folding: Folding, name: &str, table: &Table, budget: u32, folded: &Folded) -> Worked {
    let operation = Operation::fold_exactly(folding, budget, table.clone());
    let answer = answers::fold(folding, 0, folded.clone(), Room::taken_by(table));
    Worked { name: name.to_string(), operation, answer }
}

// ---- the errors an analyst has met

fn errors() -> Vec<Worked> {
    let [h, i, j, l] = ["H", "I", "J", "L"].map(|letter| lettered(letter).table());
    let edges_of_d = [(0, 1), (0, 2), (1, 3), (2, 3)];
    let d_and = |edge: Edge| graphs::of_edges(&[&edges_of_d[..], &[edge]].concat(), vec![1; 5]);
    let into_an_arm = d_and((4, 1));
    let into_the_exit = d_and((4, 3));
    let j_folded = folded(1, 0, &[(0, 5), (5, 6)], &[10, 0, 0, 0, 0, 25, 10]);
    let l_folded = folded(1, 0, &[(0, 1), (1, 2)], &[3, 0, 3]);
    let l_again = Folded { folded: 0, ..l_folded.clone() };

    let apart = "error: a strongly connected part without the edges in and out";
    let back = "error: the edge from exit to entrance let pass";
    let inside_out = "error: folding from the inside out";
    let beside = "error: the bare edge left beside a kept arm";
    let outside = "error: edges that come in from outside forgotten";
    let heap = "error: all dropped reads heaped on one vertex";
    let mut errors = vec![
        list(apart, &i, &[(0, 1), (1, 2)]),
        judge(apart, &i, (2, 0), None),
        list(back, &h, &[(3, 0)]),
        judge(back, &h, (0, 3), None),
        fold(BY_SUM, inside_out, &j, 1, &j_folded),
        list(outside, &into_an_arm, &[]),
        judge(outside, &into_an_arm, (0, 3), None),
        list(outside, &into_the_exit, &[]),
        judge(outside, &into_the_exit, (0, 3), None),
    ];
    for folding in FOLDINGS {
        errors.push(fold(folding, beside, &l, 1, &l_folded));
        errors.push(fold(folding, beside, &l_folded.table, 1, &l_again));
    }
    // 9 reads over 2 and 1: 5 and 4
    let paths: [&[usize]; 2] = [&[0, 2, 1, 4], &[0, 3, 4]];
    errors.extend(two_arms(BY_SUM, heap, paths, &[2, 6, 4, 9, 2], &[2, 10, 9, 0, 2]));
    // 3 reads over 2 and 1: 2 and 1
    errors.extend(two_arms(BY_WEAKEST, heap, paths, &[2, 6, 4, 3, 2], &[2, 7, 6, 0, 2]));
    errors
}
