//! A quick way for tables of any allowed size, which has nothing in common with growing a set from an
//! entrance. It stands on what is inevitable: from which vertices every way on comes to t, and to which
//! vertices every way has come from s.
//!
//! A pair meets reachability, matching and acyclicity exactly if s is bound for t, t is bound from s,
//! and there is no edge t to s. For along edges a vertex bound for t comes nearer to it, so no way from
//! s to t goes in a circle or loses itself, and F lies in B; the same turned round, and B lies in F; and
//! a cycle inside U would have to pass an edge t to s. (The self-test holds it to the definition.)

use crate::sharing;
use crate::superbubbles::{Superbubble, Way};
use crate::table::Table;
use crate::versions::Version;
use std::collections::{BTreeSet, VecDeque};

pub const WAY: Way = Way { superbubbles, judge, kept, share: sharing::divided, has_cycle, reaches };

/// For each vertex some of the others, its successors or its predecessors, all in one list.
struct Neighbours {
    /// Where those of each vertex begin, and at the end where the last ones end.
    starts: Vec<u32>,
    all: Vec<u32>,
}

impl Neighbours {
    /// The second vertex of each pair is a neighbour of the first one.
    fn of_pairs(n: usize, pairs: impl Iterator<Item = (usize, usize)> + Clone) -> Neighbours {
        let mut starts = vec![0; n + 1];
        pairs.clone().for_each(|(one, _)| starts[one + 1] += 1);
        for vertex in 0..n {
            starts[vertex + 1] += starts[vertex];
        }
        let mut free = starts.clone();
        let mut all = vec![0; starts[n] as usize];
        for (one, other) in pairs {
            all[free[one] as usize] = other as u32;
            free[one] += 1;
        }
        Neighbours { starts, all }
    }

    fn vertices(&self) -> usize {
        self.starts.len() - 1
    }

    fn of(&self, vertex: usize) -> &[u32] {
        &self.all[self.starts[vertex] as usize..self.starts[vertex + 1] as usize]
    }

    /// How many each vertex has.
    fn numbers(&self) -> Vec<u32> {
        self.starts.windows(2).map(|two| two[1] - two[0]).collect()
    }

    fn pairs(&self) -> impl Iterator<Item = (usize, usize)> + Clone + '_ {
        let of_one = |one| self.of(one).iter().map(move |&other| (one, other as usize));
        (0..self.vertices()).flat_map(of_one)
    }
}

fn successors(table: &Table) -> Neighbours {
    Neighbours::of_pairs(table.starts.len() - 1, table.edges().into_iter())
}

fn turned_round(neighbours: &Neighbours) -> Neighbours {
    let pairs = neighbours.pairs().map(|(one, other)| (other, one));
    Neighbours::of_pairs(neighbours.vertices(), pairs)
}

/// The vertices from which every way along `on` comes to the goal, nearer ones first: the goal, and
/// then each vertex all of whose neighbours, one at least, stand before it.
fn bound_for(goal: usize, on: &Neighbours, back: &Neighbours) -> Vec<usize> {
    let mut missing = on.numbers();
    let mut bound = vec![goal];
    let mut at = 0;
    while at < bound.len() {
        for &vertex in back.of(bound[at]) {
            let vertex = vertex as usize;
            missing[vertex] -= 1;
            if missing[vertex] == 0 && vertex != goal {
                bound.push(vertex);
            }
        }
        at += 1;
    }
    bound
}

fn superbubbles(table: &Table) -> Vec<Superbubble> {
    let successors = successors(table);
    let predecessors = turned_round(&successors);
    let n = successors.vertices();
    // for each s and t, whether s is bound for t
    let mut bound = vec![vec![false; n]; n];
    for t in 0..n {
        for s in bound_for(t, &successors, &predecessors) {
            bound[s][t] = true;
        }
    }
    (0..n).filter_map(|s| from(s, &successors, &predecessors, |t| bound[s][t])).collect()
}

fn judge(table: &Table, s: usize, t: usize) -> Option<Superbubble> {
    let successors = successors(table);
    let predecessors = turned_round(&successors);
    let is_bound = |t: usize| bound_for(t, &successors, &predecessors).contains(&s);
    from(s, &successors, &predecessors, is_bound).filter(|superbubble| superbubble.exit == t)
}

/// The superbubble with this entrance, if there is one: of the vertices with which s meets the first
/// three, its exit is the one that a walk from s in all directions comes to first, since every way to
/// another one passes it. `is_bound` says whether s is bound for a vertex.
fn from(
    s: usize,
    successors: &Neighbours,
    predecessors: &Neighbours,
    is_bound: impl Fn(usize) -> bool,
) -> Option<Superbubble> {
    let mut bound_from = vec![false; successors.vertices()];
    for t in bound_for(s, predecessors, successors) {
        bound_from[t] = true;
    }
    let mut seen = BTreeSet::from([s]);
    let mut waiting = VecDeque::from([s]);
    while let Some(vertex) = waiting.pop_front() {
        if vertex != s && is_bound(vertex) && !successors.of(vertex).contains(&(s as u32)) {
            return Some(Superbubble {
                entrance: s,
                exit: vertex,
                all: between(s, vertex, successors),
            });
        }
        let on = successors.of(vertex).iter().map(|&next| next as usize);
        waiting.extend(on.filter(|&next| bound_from[next] && seen.insert(next)));
    }
    None
}

/// The vertices that are reached from s without going on from t.
fn between(s: usize, t: usize, successors: &Neighbours) -> BTreeSet<usize> {
    let mut seen = BTreeSet::from([s, t]);
    let mut waiting = vec![s];
    while let Some(vertex) = waiting.pop() {
        let on = successors.of(vertex).iter().map(|&next| next as usize);
        waiting.extend(on.filter(|&next| seen.insert(next)));
    }
    seen
}

fn kept(version: Version, table: &Table, superbubble: &Superbubble) -> Vec<usize> {
    let (entrance, exit) = superbubble.pair();
    // of U alone, up to the exit; in version 2 the bare edge is never kept
    let is_left = |&(from, to): &(usize, usize)| {
        let is_bare_edge = (from, to) == (entrance, exit);
        superbubble.all.contains(&from)
            && from != exit
            && !(is_bare_edge && version == Version::Two)
    };
    let edges: Vec<(usize, usize)> = table.edges().into_iter().filter(is_left).collect();
    let successors = Neighbours::of_pairs(table.starts.len() - 1, edges.into_iter());
    let next = match version {
        Version::One => next_by_sum(table, exit, &successors),
        Version::Two => next_by_weakest(table, entrance, exit, &successors),
    };
    let mut path = vec![entrance];
    while path[path.len() - 1] != exit {
        path.push(next[path[path.len() - 1]]);
    }
    path
}

/// From the exit backwards: the best that can still be gathered from each vertex, and by which
/// successor, the smallest of those that are as good.
fn next_by_sum(table: &Table, exit: usize, successors: &Neighbours) -> Vec<usize> {
    let mut best = vec![0; successors.vertices()];
    let mut next = vec![exit; successors.vertices()];
    for &vertex in &bound_for(exit, successors, &turned_round(successors))[1..] {
        let by = |on: usize| if on == exit { 0 } else { table.counts[on] + best[on] };
        let all = || successors.of(vertex).iter().map(|&on| on as usize);
        let most = all().map(by).max().unwrap();
        next[vertex] = all().find(|&on| by(on) == most).unwrap();
        best[vertex] = most;
    }
    next
}

/// From the exit backwards: how large the smallest count can be of all that is still to come from each
/// vertex. Then for each vertex the smallest successor by which no count is below what the entrance can
/// have: what would be better from there on does not matter.
fn next_by_weakest(
    table: &Table,
    entrance: usize,
    exit: usize,
    successors: &Neighbours,
) -> Vec<usize> {
    let mut to_come = vec![u64::MAX; successors.vertices()];
    let by = |on: usize, to_come: &[u64]| {
        if on == exit {
            u64::MAX
        } else {
            to_come[on].min(table.counts[on])
        }
    };
    for &vertex in &bound_for(exit, successors, &turned_round(successors))[1..] {
        let all = successors.of(vertex).iter();
        to_come[vertex] = all.map(|&on| by(on as usize, &to_come)).max().unwrap();
    }
    let due = to_come[entrance];
    let next = |vertex: usize| {
        let mut all = successors.of(vertex).iter().map(|&on| on as usize);
        all.find(|&on| by(on, &to_come) >= due).unwrap_or(exit)
    };
    (0..successors.vertices()).map(next).collect()
}

/// Takes away vertices that have no predecessor left; what remains has a cycle.
fn has_cycle(table: &Table) -> bool {
    let successors = successors(table);
    let mut missing = turned_round(&successors).numbers();
    let mut taken: Vec<usize> = (0..missing.len()).filter(|&vertex| missing[vertex] == 0).collect();
    let mut at = 0;
    while at < taken.len() {
        for &vertex in successors.of(taken[at]) {
            let vertex = vertex as usize;
            missing[vertex] -= 1;
            if missing[vertex] == 0 {
                taken.push(vertex);
            }
        }
        at += 1;
    }
    taken.len() < missing.len()
}

/// Goes on from a vertex to what is new until it comes to the other one or there is nothing new.
fn reaches(table: &Table, from: usize, to: usize) -> bool {
    let mut seen = vec![false; table.starts.len() - 1];
    seen[from] = true;
    let mut waiting = vec![from];
    while let Some(vertex) = waiting.pop() {
        for &next in table.row(vertex) {
            let next = next as usize;
            if !seen[next] {
                seen[next] = true;
                waiting.push(next);
            }
        }
        if seen[to] {
            return true;
        }
    }
    false
}
