//! What the cases must reach where a fold of version 2 chooses the path that it keeps: ties at each place
//! and zeros, other paths than the fold of version 1 keeps, bare edges, and that each wrong rule is told
//! from the right one. And all kept paths of both versions, where there are not too many to choose from,
//! are held to the definition.

use crate::choosing::WRONG;
use crate::count::Fault;
use crate::coverage::{met, too_few};
use crate::definition;
use crate::fold::Chosen;
use crate::foldings::Folding;
use crate::parallel;
use crate::sharing_coverage::Fold;
use crate::table::Table;
use crate::versions::Version;

/// The most paths of a superbubble that are laid beside each other.
const MOST_PATHS: usize = 1_000;

/// How many superbubbles of large tables are due at least, and for each wrong rule.
const OF_LARGE: usize = 1_000;
const OF_WRONG_RULE: usize = 300;
const OF_WRONG_RULE_IN_RINGS: usize = 100;

/// Holds the folds of one kind to it.
pub fn check(folding: Folding, folds: &[Fold]) -> Vec<(String, Fault)> {
    let folds: Vec<&Fold> = folds.iter().collect();
    let choices: Vec<Choice> =
        parallel::each(&folds, Choice::all_of).into_iter().flatten().collect();
    let mut checks = vec![by_all_paths(folding, &choices)];
    if folding == Folding::plain(Version::Two) {
        checks.extend(met("superbubbles folded by the weakest", &choices, &MET));
    }
    if folding.version == Version::Two {
        checks.extend(wrong_rules(folding, &choices));
    }
    checks
}

/// A superbubble that a fold folds, and all its paths.
struct Choice<'a> {
    version: Version,
    table: &'a Table,
    chosen: &'a Chosen,
    paths: Vec<Vec<usize>>,
}

impl Choice<'_> {
    /// Those of a fold whose paths are not too many.
    fn all_of<'a>(fold: &&'a Fold) -> Vec<Choice<'a>> {
        let (version, table) = (fold.folding.version, fold.table);
        let choice = |chosen: &'a Chosen| {
            let paths = definition::paths(table, &chosen.superbubble, MOST_PATHS);
            (paths.len() <= MOST_PATHS).then_some(Choice { version, table, chosen, paths })
        };
        fold.chosen.iter().filter_map(choice).collect()
    }

    fn counts(&self, vertices: &[usize]) -> Vec<u64> {
        vertices.iter().map(|&vertex| self.table.counts[vertex]).collect()
    }

    /// The counts of the kept path between its ends, and the smallest of them.
    fn kept_counts(&self) -> Vec<u64> {
        self.counts(self.chosen.inner())
    }

    fn weakest(&self) -> u64 {
        self.kept_counts().into_iter().min().unwrap_or(0)
    }

    fn has_bare_edge(&self) -> bool {
        self.paths.iter().any(|path| path.len() == 2)
    }

    /// Whether every inner vertex has the count 0.
    fn is_of_zeros(&self) -> bool {
        let inner = self.chosen.superbubble.all.iter().copied();
        let inner: Vec<usize> =
            inner.filter(|&vertex| self.chosen.superbubble.is_interior(vertex)).collect();
        self.counts(&inner).iter().all(|&count| count == 0)
    }

    /// The places, from 1 on, at which paths that are worth as much as the kept one differ from it first.
    fn ties(&self) -> Vec<usize> {
        let kept = &self.chosen.kept;
        let worth = |path: &[usize]| definition::worth(self.version, self.table, path);
        let tied = self.paths.iter().filter(|path| *path != kept && worth(path) == worth(kept));
        tied.map(|path| path.iter().zip(kept).take_while(|(one, other)| one == other).count())
            .collect()
    }

    /// Whether the smallest count of the kept path stands at one place alone, and at such a one, by how
    /// many inner vertices stand before it and behind it.
    fn is_weakest_at(&self, such: fn(usize, usize) -> bool) -> bool {
        let (counts, weakest) = (self.kept_counts(), self.weakest());
        let mut places = (0..counts.len()).filter(|&place| counts[place] == weakest);
        let first = places.next();
        first.is_some_and(|place| such(place, counts.len() - 1 - place)) && places.next().is_none()
    }

    /// Whether a vertex has less than the smallest count of the kept path.
    fn has_less(&self, vertex: usize) -> bool {
        self.table.counts[vertex] < self.weakest()
    }

    fn kept_by_sum(&self) -> Vec<usize> {
        definition::kept(Version::One, self.table, &self.chosen.superbubble)
    }
}

/// Whether each kept path is that of the definition; some of large tables must be among them.
fn by_all_paths(folding: Folding, choices: &[Choice]) -> (String, Fault) {
    let large = choices.iter().filter(|choice| choice.table.counts.len() > 10).count();
    let name = folding.name();
    println!(
        "{name}: {} kept paths laid beside all others, {large} in tables of more than 10",
        choices.len()
    );
    let kept = |choice: &Choice| {
        definition::kept(folding.version, choice.table, &choice.chosen.superbubble)
    };
    let same: Vec<bool> = parallel::each(choices, |choice| kept(choice) == choice.chosen.kept);
    let other = same.iter().filter(|&&same| !same).count();
    let fault = (other > 0).then(|| format!("{other} are other ones"));
    (format!("{name}: kept paths are those of the definition"), fault.or(too_few(large, OF_LARGE)))
}

/// What superbubbles that are folded by the weakest must meet, and how many at least.
type Met = (&'static str, usize, fn(&Choice) -> bool);

const MET: [Met; 22] = [
    ("whose kept path is another one by the sum", 1_000, |one| {
        one.kept_by_sum() != one.chosen.kept
    }),
    ("with a bare edge", 1_000, |one| one.has_bare_edge()),
    ("with a bare edge and nothing but zeros inside", 200, |one| {
        one.has_bare_edge() && one.is_of_zeros()
    }),
    ("whose bare edge is kept by the sum", 100, |one| one.kept_by_sum().len() == 2),
    ("with a bare edge before the kept path by its vertex, and a weakest of 0", 100, |one| {
        one.has_bare_edge()
            && one.weakest() == 0
            && one.chosen.superbubble.exit < one.chosen.kept[1]
    }),
    ("with nothing but zeros inside, and several paths", 500, |one| {
        one.is_of_zeros() && one.paths.len() > 2
    }),
    ("whose weakest is 0", 1_000, |one| one.weakest() == 0),
    ("whose weakest is above 0, beside a path with a 0", 1_000, |one| {
        let has_zero = |path: &Vec<usize>| one.counts(&path[1..path.len() - 1]).contains(&0);
        one.weakest() > 0 && one.paths.iter().any(has_zero)
    }),
    ("whose weakest is 2^32 or more", 100, |one| one.weakest() >= 1 << 32),
    ("without a tie", 1_000, |one| one.ties().is_empty()),
    ("with a tie", 1_000, |one| !one.ties().is_empty()),
    ("with ties at the first place", 1_000, |one| one.ties().contains(&1)),
    ("with ties at a later place alone", 300, |one| {
        one.ties().iter().min().is_some_and(|&first| first > 1)
    }),
    ("with ties at the first place and at a later one", 500, |one| {
        one.ties().contains(&1) && one.ties().iter().any(|&place| place > 1)
    }),
    ("with ties at the third place or later alone", 20, |one| {
        one.ties().iter().min().is_some_and(|&first| first > 2)
    }),
    ("with ten ties or more", 300, |one| one.ties().len() >= 10),
    ("whose weakest is the first of several inner vertices alone", 100, |one| {
        one.is_weakest_at(|before, behind| before == 0 && behind > 0)
    }),
    ("whose weakest is the last of several inner vertices alone", 100, |one| {
        one.is_weakest_at(|before, behind| before > 0 && behind == 0)
    }),
    ("whose weakest stands between others alone", 100, |one| {
        one.is_weakest_at(|before, behind| before > 0 && behind > 0)
    }),
    ("whose entrance has less than the weakest", 500, |one| {
        one.has_less(one.chosen.superbubble.entrance)
    }),
    ("whose exit has less than the weakest", 500, |one| one.has_less(one.chosen.superbubble.exit)),
    ("with a hundred paths or more", 50, |one| one.paths.len() >= 100),
];

/// Each wrong rule keeps other paths.
fn wrong_rules(folding: Folding, choices: &[Choice]) -> Vec<(String, Fault)> {
    let mut checks = Vec::new();
    let name = folding.name();
    let fewest = if folding.takes_rings() { OF_WRONG_RULE_IN_RINGS } else { OF_WRONG_RULE };
    for (rule, choose) in WRONG {
        let other = |choice: &Choice| choose(choice.table, &choice.chosen.superbubble);
        let told = parallel::each(choices, |choice| other(choice) != choice.chosen.kept);
        let told = told.into_iter().filter(|&told| told).count();
        println!("{name}: {told} that tell a wrong rule of choosing: {rule}");
        let title = format!("{name}: a wrong rule of choosing is told: {rule}");
        checks.push((title, too_few(told, fewest)));
    }
    checks
}
