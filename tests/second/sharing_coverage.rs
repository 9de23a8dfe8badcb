//! What the cases must reach where dropped reads are shared and where folds are done in turn: kept paths
//! of each short length with each remainder, long ones, small sums and large ones; that each wrong rule
//! is told from the right one; and budgets of each number, with sums on both sides of the number of
//! candidates.

use crate::answers::numbers_in_first_line;
use crate::cases::Case;
use crate::choosing_coverage;
use crate::count::Fault;
use crate::coverage::{met, too_few};
use crate::fold::{self, Chosen};
use crate::foldings::{Folding, FOLDINGS};
use crate::operations::Operation;
use crate::parallel;
use crate::quick;
use crate::sharing::{self, Share, MOST_DEALT, WRONG};
use crate::superbubbles;
use crate::table::{Table, LARGEST_SUM};
use crate::turns::{Question, Turns};
use crate::versions::Version;
use std::cmp::Ordering;
use std::collections::BTreeSet;

/// How many cases are due at least: of each remainder, for each wrong rule, and of each kind of turns.
const OF_REMAINDER: usize = 5;
const OF_WRONG_RULE: usize = 300;
const OF_TURNS: usize = 3;

pub fn check(cases: &[Case], answers: &[Vec<u8>]) -> Vec<(String, Fault)> {
    let folds: Vec<Question> = cases.iter().zip(answers).filter_map(folded).collect();
    let mut folds: Vec<Fold> = parallel::each(&folds, Fold::of);
    let mut checks = Vec::new();
    for folding in FOLDINGS {
        let such: Vec<Fold>;
        (such, folds) = folds.into_iter().partition(|fold| fold.folding == folding);
        checks.extend(choosing_coverage::check(folding, &such));
        let name = folding.name();
        if folding.version == Version::One {
            checks.extend(met(name, &such, &[KEPT_BARE_EDGE]));
        }
        checks.extend(remainders(folding, &such));
        checks.extend(met(name, &such, &MET));
        checks.push(both_ways(name, &such));
        checks.extend(wrong_rules(name, &such));
        checks.extend(turns(folding, cases));
    }
    checks
}

// ---- reads that are shared

/// A fold that folds something, and what it folds.
pub struct Fold<'a> {
    pub folding: Folding,
    pub table: &'a Table,
    pub chosen: Vec<Chosen>,
}

/// What such a fold is asked, by its answer.
fn folded<'a>((case, answer): (&'a Case, &Vec<u8>)) -> Option<Question<'a>> {
    match (case.operation()?, &numbers_in_first_line(answer)[..]) {
        (Operation::Fold { folding, budget, table, .. }, [0, folded, ..]) if *folded > 0 => {
            Some((*folding, table, *budget))
        }
        _ => None,
    }
}

impl Fold<'_> {
    fn of<'a>(&(folding, table, budget): &Question<'a>) -> Fold<'a> {
        Fold { folding, table, chosen: fold::chosen(&quick::WAY, folding, table, budget) }
    }

    /// Whether it shares reads like this.
    fn shares(&self, such: impl Fn(&Shared) -> bool) -> bool {
        self.shared().any(|shared| such(&shared))
    }

    /// What it shares, superbubble by superbubble.
    fn shared(&self) -> impl Iterator<Item = Shared<'_>> {
        self.chosen.iter().filter(|one| one.reads > 0).map(Shared::of)
    }

    fn counts_by(&self, share: Share) -> Vec<u64> {
        fold::counts(self.table, &self.chosen, share)
    }
}

/// Dropped reads, the inner vertices that they are shared over, and what the division gives.
struct Shared<'a> {
    reads: u64,
    inner: &'a [usize],
    quotient: u64,
    remainder: usize,
}

impl Shared<'_> {
    fn of(chosen: &Chosen) -> Shared<'_> {
        let (reads, inner) = (chosen.reads, chosen.inner());
        let by = inner.len() as u64;
        Shared { reads, inner, quotient: reads / by, remainder: (reads % by) as usize }
    }

    /// Whether the vertices that get one more are not those with the smallest numbers.
    fn goes_by_the_path(&self) -> bool {
        let smallest = |vertices: &[usize]| -> Vec<usize> {
            let rising: BTreeSet<usize> = vertices.iter().copied().collect();
            rising.into_iter().take(self.remainder).collect()
        };
        smallest(&self.inner[..self.remainder]) != smallest(self.inner)
    }
}

/// Each remainder of each short length, and some of the long ones, of which the longest are left to the
/// folds that refuse cycles.
fn remainders(folding: Folding, folds: &[Fold]) -> Vec<(String, Fault)> {
    let mut checks = Vec::new();
    let fold = folding.name();
    for inner in 1..=12 {
        let kinds = (0..inner).map(|remainder| {
            let is_such =
                move |one: &Shared| one.inner.len() == inner && one.remainder == remainder;
            (format!("remainder {remainder}"), move |fold: &Fold| fold.shares(is_such))
        });
        let title = format!("{fold}, inner vertices = {inner}");
        checks.extend(in_a_line(&title, folds, OF_REMAINDER, kinds));
    }
    let long = [(100, "100"), (1_000, "1,000"), (2_000, "2,000")];
    let long = if folding.takes_rings() { &long[..2] } else { &long };
    for &(least, words) in long {
        let title = format!("{fold}, inner vertices {words} or more");
        let kinds = OF_LONG.map(|(words, has)| {
            let is_such = move |one: &Shared| one.inner.len() >= least && has(one);
            (words.to_string(), move |fold: &Fold| fold.shares(is_such))
        });
        checks.extend(in_a_line(&title, folds, OF_REMAINDER, kinds));
    }
    checks
}

const OF_LONG: [(&str, fn(&Shared) -> bool); 4] = [
    ("remainder 0", |one| one.remainder == 0),
    ("remainder 1", |one| one.remainder == 1),
    ("the largest remainder", |one| one.remainder == one.inner.len() - 1),
    ("another", |one| (2..one.inner.len() - 1).contains(&one.remainder)),
];

/// Prints in a line how many of them are of each kind, and holds each to the fewest.
fn in_a_line<T>(
    title: &str,
    all: &[T],
    fewest: usize,
    kinds: impl IntoIterator<Item = (String, impl Fn(&T) -> bool)>,
) -> Vec<(String, Fault)> {
    let mut numbers = Vec::new();
    let mut checks = Vec::new();
    for (kind, is_such) in kinds {
        let many = all.iter().filter(|one| is_such(one)).count();
        numbers.push(format!("{many} with {kind}"));
        checks.push((format!("{title}: {kind}"), too_few(many, fewest)));
    }
    println!("{title}: {}", numbers.join(", "));
    checks
}

/// What folds must meet where reads are shared, and how many at least.
type Met = (&'static str, usize, fn(&Fold) -> bool);

/// In version 1 alone.
const KEPT_BARE_EDGE: Met =
    ("that keep a bare edge", 100, |fold| fold.chosen.iter().any(|one| one.inner().is_empty()));

const MET: [Met; 8] = [
    ("that share fewer reads than there are inner vertices", 300, |fold| {
        fold.shares(|one| one.quotient == 0)
    }),
    ("that share as many reads as there are inner vertices, two or more", 50, |fold| {
        fold.shares(|one| one.inner.len() > 1 && one.reads == one.inner.len() as u64)
    }),
    ("that share with a quotient of 2^30 or more and a remainder", 200, |fold| {
        fold.shares(|one| one.quotient >= 1 << 30 && one.remainder > 0)
    }),
    ("that share reads of a table with the largest sum", 500, |fold| {
        fold.table.sum_of_counts() == u128::from(LARGEST_SUM) && fold.shares(|_| true)
    }),
    ("that share half of the largest sum or more over two inner vertices or more", 30, |fold| {
        fold.shares(|one| one.inner.len() > 1 && one.reads > LARGEST_SUM / 2)
    }),
    ("that share over several numbers of inner vertices, each with a remainder", 100, |fold| {
        let with_remainder = fold.shared().filter(|one| one.remainder > 0);
        with_remainder.map(|one| one.inner.len()).collect::<BTreeSet<_>>().len() > 1
    }),
    ("that give one more to others than the smallest inner vertices", 300, |fold| {
        fold.shares(|one| one.goes_by_the_path())
    }),
    ("that fold some superbubble without a dropped read beside one with", 100, |fold| {
        fold.shares(|_| true) && fold.chosen.iter().any(|one| one.reads == 0)
    }),
];

/// Whether reads that are dealt one by one come out as divided ones, for all that the folds share.
fn both_ways(fold: &str, folds: &[Fold]) -> (String, Fault) {
    let shared = folds.iter().flat_map(Fold::shared).map(|one| (one.reads, one.inner.len()));
    let dealt: BTreeSet<(u64, usize)> = shared.filter(|one| one.0 <= MOST_DEALT).collect();
    println!("{fold}: {} sums over inner vertices, dealt one by one and divided", dealt.len());
    let differs =
        |&&(reads, inner): &&_| sharing::dealt(reads, inner) != sharing::divided(reads, inner);
    let fault = dealt.iter().find(differs).map(|(reads, inner)| format!("not {reads} to {inner}"));
    (format!("{fold}: reads dealt one by one come out as divided"), fault)
}

/// Each wrong rule gives other counts.
fn wrong_rules(fold: &str, folds: &[Fold]) -> Vec<(String, Fault)> {
    let right: Vec<Vec<u64>> = folds.iter().map(|fold| fold.counts_by(sharing::divided)).collect();
    let mut checks = Vec::new();
    for (rule, share) in WRONG {
        let both = folds.iter().zip(&right);
        let told = both.filter(|(fold, right)| fold.counts_by(share) != **right).count();
        println!("{fold}: {told} that tell a wrong rule: {rule}");
        let title = format!("{fold}: a wrong rule is told: {rule}");
        checks.push((title, too_few(told, OF_WRONG_RULE)));
    }
    checks
}

// ---- folds in turn

/// The budgets for a table with two candidates or more, and how their sum stands to the number of these.
struct InTurn<'a> {
    budgets: &'a [u32],
    sum: Ordering,
}

impl InTurn<'_> {
    fn of<'a>(turns: &&'a Turns) -> Option<InTurn<'a>> {
        let candidates =
            superbubbles::candidates(&quick::WAY, turns.folding.rings, &turns.table).len();
        let sum = (turns.sum() as usize).cmp(&candidates);
        (candidates > 1).then_some(InTurn { budgets: &turns.budgets, sum })
    }
}

/// Each number of budgets, with each kind of sum and with a budget of 0.
fn turns(folding: Folding, cases: &[Case]) -> Vec<(String, Fault)> {
    let turns = cases.iter().filter_map(Case::turns);
    let turns: Vec<&Turns> = turns.filter(|turns| turns.folding == folding).collect();
    let turns: Vec<InTurn> = parallel::each(&turns, InTurn::of).into_iter().flatten().collect();
    let mut checks = Vec::new();
    for many in 1..=6 {
        let kinds = OF_BUDGETS.map(|(words, is_such)| {
            let is_such = move |one: &InTurn| one.budgets.len() == many && is_such(one);
            (words.to_string(), is_such)
        });
        let name = folding.name();
        let title = format!("{name} in turn, of two candidates or more, budgets = {many}");
        checks.extend(in_a_line(&title, &turns, OF_TURNS, kinds));
    }
    checks
}

const OF_BUDGETS: [(&str, fn(&InTurn) -> bool); 4] = [
    ("a sum below these", |one| one.sum == Ordering::Less),
    ("a sum of just these", |one| one.sum == Ordering::Equal),
    ("a sum above these", |one| one.sum == Ordering::Greater),
    ("a budget of 0", |one| one.budgets.contains(&0)),
];
