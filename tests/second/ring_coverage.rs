//! What the cases must reach where a fold takes rings: every small graph; superbubbles that are skipped,
//! with candidates inside them and around them, and by ways back of each length; superbubbles with a bare
//! edge that are folded, though there is a cycle; and that each wrong rule of finding candidates is told
//! from the right one. And what a skipped superbubble keeps is held to the rule.

use crate::answers::folded_in;
use crate::cases::Case;
use crate::count::Fault;
use crate::coverage::{met, too_few};
use crate::fold::Folded;
use crate::foldings::{Folding, FOLDINGS};
use crate::graphs::Edge;
use crate::operations::Operation;
use crate::parallel;
use crate::quick;
use crate::side_by_side;
use crate::skipping::{leads_to_cycle, reaches_inside, Find, Found, RIGHT, WRONG};
use crate::superbubbles::{is_small, Superbubble};
use crate::table::Table;
use std::collections::HashSet;

/// How many folds are due at least for each wrong rule, how many skipped superbubbles that keep all, and
/// how many tables that both folds of a version are asked.
const OF_WRONG_RULE: usize = 100;
const KEPT: usize = 1_000;
const PAIRS: usize = 900;

pub fn check(cases: &[Case], answers: &[Vec<u8>]) -> Vec<(String, Fault)> {
    let mut checks = Vec::new();
    for folding in FOLDINGS.into_iter().filter(|folding| folding.takes_rings()) {
        let asked: Vec<(&Case, &Vec<u8>)> = cases.iter().zip(answers).collect();
        let folds = parallel::each(&asked, |&(case, answer)| Fold::of(folding, case, answer));
        let folds: Vec<Fold> = folds.into_iter().flatten().collect();
        let name = folding.name();
        checks.extend(every_small_graph(name, &folds));
        checks.extend(met(name, &folds, &MET));
        checks.extend(wrong_rules(name, &folds));
        checks.push(keeping(name, &folds));
        checks.push(leaving(name, &folds));
        checks.push(pairs(name, cases));
    }
    checks
}

/// A fold that takes rings and is accepted, of a table that has a cycle or is small: what it finds, what
/// it gives, and what is found in that.
struct Fold<'a> {
    table: &'a Table,
    budget: usize,
    has_cycle: bool,
    found: Vec<Found>,
    /// For each one found whether it is a candidate, and whether it is folded.
    is_candidate: Vec<bool>,
    is_folded: Vec<bool>,
    given: Folded,
    found_again: Vec<Found>,
}

impl Fold<'_> {
    fn of<'a>(by: Folding, case: &'a Case, answer: &[u8]) -> Option<Fold<'a>> {
        let Operation::Fold { folding, budget, room, table } = case.operation()? else {
            return None;
        };
        let given = (*folding == by).then(|| folded_in(answer, *room, table.counts.len()))??;
        let has_cycle = (quick::WAY.has_cycle)(table);
        if !has_cycle && !is_small(table) {
            return None;
        }
        let found = Found::all_of(table);
        let budget = *budget as usize;
        let is_candidate = RIGHT(table, &found)?;
        Some(Fold {
            table,
            budget,
            has_cycle,
            is_folded: first_of(budget, &is_candidate),
            is_candidate,
            found_again: Found::all_of(&given.table),
            found,
            given,
        })
    }

    fn skipped(&self) -> impl Iterator<Item = &Found> {
        self.found.iter().filter(|one| one.is_skipped())
    }

    fn folded(&self) -> impl Iterator<Item = &Found> {
        self.found.iter().zip(&self.is_folded).filter_map(|(one, &is)| is.then_some(one))
    }

    fn candidates(&self) -> usize {
        self.is_candidate.iter().filter(|&&is_candidate| is_candidate).count()
    }

    /// How many candidates lie inside this one, of those that are folded and of those that are left.
    fn inside(&self, around: &Found) -> [usize; 2] {
        let mut inside = [0, 0];
        for (place, one) in self.found.iter().enumerate() {
            if self.is_candidate[place] && around.surrounds(one) {
                inside[usize::from(!self.is_folded[place])] += 1;
            }
        }
        inside
    }

    /// Whether a candidate around this one or inside it is folded.
    fn is_touched(&self, one: &Found) -> bool {
        self.folded().any(|folded| folded.surrounds(one) || one.surrounds(folded))
    }

    /// The same superbubble in the table that is given, where it is still one.
    fn again(&self, one: &Found) -> Option<&Superbubble> {
        let mut again = self.found_again.iter().map(|again| &again.superbubble);
        again.find(|again| again.pair() == one.superbubble.pair())
    }

    /// Whether a superbubble with a bare edge is folded whose exit leads to a cycle, or does not.
    fn folds_bare_edge(&self, to_cycle: bool) -> bool {
        let leads = leads_to_cycle(self.table);
        self.folded().any(|one| one.has_bare_edge && leads[one.superbubble.exit] == to_cycle)
    }

    /// Whether by a rule of finding the same are folded, and as many are left.
    fn is_same_by(&self, find: Find) -> bool {
        let before = find(self.table, &self.found);
        let after = find(&self.given.table, &self.found_again);
        before.zip(after).is_some_and(|(before, after)| {
            let left = after.into_iter().filter(|&is_left| is_left).count();
            first_of(self.budget, &before) == self.is_folded && left == self.given.left
        })
    }

    /// Whether one is skipped whose shortest way back has such a number of edges.
    fn has_way_back(&self, such: impl Fn(usize) -> bool) -> bool {
        self.skipped().any(|one| such(way_back(self.table, &one.superbubble)))
    }
}

/// The first of them, as many as a budget says.
fn first_of(budget: usize, candidates: &[bool]) -> Vec<bool> {
    let mut before = 0;
    let mut is_first = |&is_candidate: &bool| {
        before += usize::from(is_candidate);
        is_candidate && before <= budget
    };
    candidates.iter().map(&mut is_first).collect()
}

/// How many edges the shortest path from the exit to the entrance has.
fn way_back(table: &Table, one: &Superbubble) -> usize {
    let mut seen = HashSet::from([one.exit]);
    let mut last = vec![one.exit];
    let mut edges = 0;
    while !seen.contains(&one.entrance) {
        let next = last.iter().flat_map(|&vertex| table.row(vertex)).map(|&next| next as usize);
        last = next.collect::<Vec<_>>().into_iter().filter(|&next| seen.insert(next)).collect();
        edges += 1;
    }
    edges
}

/// Every graph of up to three vertices is folded, and every one of four without a self-loop.
fn every_small_graph(name: &str, folds: &[Fold]) -> Vec<(String, Fault)> {
    let has_self_loop = |table: &Table| table.edges().iter().any(|(from, to)| from == to);
    let graphs = |n: usize, self_loops: bool| {
        let such = folds.iter().map(|fold| fold.table).filter(|table| table.counts.len() == n);
        let such = such.filter(|table| self_loops || !has_self_loop(table));
        such.map(|table| (&table.starts, &table.targets)).collect::<HashSet<_>>().len()
    };
    let few = (0..=3).map(|n| (n, 1 << (n * n), graphs(n, true)));
    few.chain([(4, 1 << 12, graphs(4, false))])
        .map(|(n, due, graphs)| {
            println!("{name}, all graphs with n = {n}: {graphs}");
            let fault = (graphs != due).then(|| format!("{graphs}, {due} are due"));
            (format!("{name} takes graphs with n = {n}"), fault)
        })
        .collect()
}

/// What folds must meet where rings are taken, and how many at least.
type Met = (&'static str, usize, fn(&Fold) -> bool);

const MET: [Met; 29] = [
    ("by the budget 0, with a candidate", 150, |fold| fold.budget == 0 && fold.candidates() > 0),
    ("by the budget 1, with two candidates or more", 150, |fold| {
        fold.budget == 1 && fold.candidates() > 1
    }),
    ("by the budget 2, with three candidates or more", 50, |fold| {
        fold.budget == 2 && fold.candidates() > 2
    }),
    ("by a budget for all candidates, of which there are two or more", 300, |fold| {
        fold.candidates() > 1 && fold.budget >= fold.candidates()
    }),
    ("with a cycle", 5_000, |fold| fold.has_cycle),
    ("without a cycle", 1_000, |fold| !fold.has_cycle),
    ("with a skipped superbubble", 1_500, |fold| fold.skipped().next().is_some()),
    ("with ten skipped superbubbles or more", 3, |fold| fold.skipped().count() >= 10),
    ("with a thousand skipped superbubbles or more", 1, |fold| fold.skipped().count() >= 1_000),
    ("with a skipped superbubble and no candidate", 500, |fold| {
        fold.skipped().next().is_some() && fold.given.folded + fold.given.left == 0
    }),
    ("with a skipped superbubble beside candidates, some folded and some left", 150, |fold| {
        fold.skipped().next().is_some() && fold.given.folded > 0 && fold.given.left > 0
    }),
    ("with a candidate inside a skipped superbubble", 250, |fold| {
        fold.skipped().any(|one| fold.inside(one) != [0, 0])
    }),
    ("that fold a candidate inside a skipped superbubble", 200, |fold| {
        fold.skipped().any(|one| fold.inside(one)[0] > 0)
    }),
    ("that fold a candidate inside a skipped superbubble and leave one", 15, |fold| {
        fold.skipped().any(|one| fold.inside(one).iter().all(|&many| many > 0))
    }),
    ("that fold a candidate inside two skipped superbubbles", 40, |fold| {
        let around = |one: &Found| fold.skipped().filter(|other| other.surrounds(one)).count();
        fold.folded().any(|one| around(one) > 1)
    }),
    ("with a skipped superbubble whose set shrinks", 200, |fold| {
        let is_smaller =
            |one: &Found, again: &Superbubble| again.all.len() < one.superbubble.all.len();
        fold.skipped().any(|one| fold.again(one).is_some_and(|again| is_smaller(one, again)))
    }),
    ("with a skipped superbubble that stays beside a fold elsewhere", 700, |fold| {
        fold.given.folded > 0 && fold.skipped().any(|one| !fold.is_touched(one))
    }),
    ("that fold a candidate with a skipped superbubble inside", 250, |fold| {
        fold.folded().any(|one| fold.skipped().any(|skipped| one.surrounds(skipped)))
    }),
    ("that fold a candidate with a skipped superbubble around it and one inside", 40, |fold| {
        let has = |one: &Found| {
            fold.skipped().any(|skipped| one.surrounds(skipped))
                && fold.skipped().any(|skipped| skipped.surrounds(one))
        };
        fold.folded().any(has)
    }),
    ("that fold a candidate on a cycle", 1_300, |fold| fold.folded().any(|one| one.leads_back)),
    ("that fold two candidates on a cycle or more", 400, |fold| {
        fold.folded().filter(|one| one.leads_back).count() > 1
    }),
    ("that fold a superbubble with a bare edge whose exit leads to a cycle", 120, |fold| {
        fold.folds_bare_edge(true)
    }),
    ("that fold a superbubble with a bare edge in a table with a cycle elsewhere", 30, |fold| {
        fold.has_cycle && fold.folds_bare_edge(false)
    }),
    ("that fold a superbubble with a bare edge beside a skipped one", 50, |fold| {
        fold.skipped().next().is_some() && fold.folded().any(|one| one.has_bare_edge)
    }),
    ("with a way back of two edges", 250, |fold| fold.has_way_back(|edges| edges == 2)),
    ("with a way back of three edges", 250, |fold| fold.has_way_back(|edges| edges == 3)),
    ("with a way back of ten edges or more", 200, |fold| fold.has_way_back(|edges| edges >= 10)),
    ("with a way back of 1,000 edges or more", 1, |fold| fold.has_way_back(|edges| edges >= 1_000)),
    ("with a candidate folded on the way back of a skipped superbubble", 700, |fold| {
        let reaches = |from, to| (quick::WAY.reaches)(fold.table, from, to);
        let lies_on = |one: &Superbubble, skipped: &Superbubble| {
            let is_apart = !one.surrounds(skipped) && !skipped.surrounds(one);
            is_apart && reaches(skipped.exit, one.exit) && reaches(one.exit, skipped.entrance)
        };
        fold.skipped()
            .any(|skipped| fold.folded().any(|one| lies_on(&one.superbubble, &skipped.superbubble)))
    }),
];

/// By each wrong rule other superbubbles are folded, another number is left, or the table is refused.
fn wrong_rules(name: &str, folds: &[Fold]) -> Vec<(String, Fault)> {
    let mut checks = Vec::new();
    for (rule, find) in WRONG {
        let told = parallel::each(folds, |fold| !fold.is_same_by(find));
        let told = told.into_iter().filter(|&told| told).count();
        println!("{name}: {told} that tell a wrong rule of finding: {rule}");
        let title = format!("{name}: a wrong rule of finding is told: {rule}");
        checks.push((title, too_few(told, OF_WRONG_RULE)));
    }
    checks
}

/// A skipped superbubble keeps the edges inside its U and the counts of its interior, unless a candidate
/// around it or inside it is folded.
fn keeping(name: &str, folds: &[Fold]) -> (String, Fault) {
    let keeps = |fold: &Fold, one: &Superbubble| {
        let edges = |table: &Table| -> Vec<Edge> {
            let inside = |(from, to): &Edge| one.all.contains(from) && one.all.contains(to);
            table.edges().into_iter().filter(inside).collect()
        };
        let counts = |table: &Table| -> Vec<u64> {
            let interior = one.all.iter().filter(|&&vertex| one.is_interior(vertex));
            interior.map(|&vertex| table.counts[vertex]).collect()
        };
        let (before, after) = (fold.table, &fold.given.table);
        edges(before) == edges(after) && counts(before) == counts(after)
    };
    let kept = parallel::each(folds, |fold| {
        let untouched = fold.skipped().filter(|one| !fold.is_touched(one));
        untouched.map(|one| keeps(fold, &one.superbubble)).collect::<Vec<bool>>()
    });
    let folding = folds.iter().zip(kept).filter(|(fold, _)| fold.given.folded > 0);
    let kept: Vec<bool> = folding.flat_map(|(_, kept)| kept).collect();
    println!("{name}: {} skipped superbubbles that no fold around or inside changes", kept.len());
    let other = kept.iter().filter(|&&kept| !kept).count();
    let fault = (other > 0).then(|| format!("{other} do not"));
    (
        format!("{name}: skipped superbubbles keep what they have"),
        fault.or(too_few(kept.len(), KEPT)),
    )
}

/// Tables without a cycle are folded by both folds of a version.
fn pairs(name: &str, cases: &[Case]) -> (String, Fault) {
    let is_such = |two: &&[Case]| {
        two[1].operation().is_some_and(|operation| operation.name() == name)
            && side_by_side::are_pair(&two[0], &two[1])
    };
    let pairs = cases.windows(2).filter(is_such).count();
    println!("{name}: {pairs} right behind the fold that refuses cycles");
    (format!("{name}: tables for both folds of a version"), too_few(pairs, PAIRS))
}

/// Every way back of a skipped superbubble leaves its U, so it has two edges or more.
fn leaving(name: &str, folds: &[Fold]) -> (String, Fault) {
    let stays = |fold: &&Fold| {
        let has_edge_back = fold.has_way_back(|edges| edges < 2);
        has_edge_back || fold.skipped().any(|one| reaches_inside(fold.table, &one.superbubble))
    };
    let staying = folds.iter().filter(stays).count();
    let fault = (staying > 0).then(|| format!("not in {staying} cases"));
    (format!("{name}: ways back leave the set"), fault)
}
