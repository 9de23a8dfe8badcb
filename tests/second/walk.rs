//! A depth-first walk over a table, from each vertex in turn and along each row, until an edge
//! leads back to its path or all is done: one more way to find a cycle. By what it meets it is
//! known what a table asks of the cycle test.

use crate::graphs::{self, Edge};
use crate::table::Table;

pub struct Walk {
    /// How many vertices stood on the path when it was longest.
    pub longest: usize,
    /// How many edges led to a vertex that was done.
    pub to_done: usize,
    pub closed: Option<Closed>,
}

/// Where an edge led back to the path.
pub struct Closed {
    pub edge: Edge,
    /// The place of the edge in its row.
    pub place: usize,
    /// How many vertices stood on the path, and how many of these are on the cycle.
    pub path: usize,
    pub cycle: usize,
}

#[derive(Clone, Copy)]
enum State {
    Unseen,
    /// At this place of the path.
    OnPath(usize),
    /// All of its row is passed.
    Done,
}

/// Walks over a well-formed table.
pub fn over(table: &Table) -> Walk {
    let n = table.counts.len();
    let mut walk = Walk { longest: 0, to_done: 0, closed: None };
    let mut states = vec![State::Unseen; n];
    // each vertex on the path, and how many of its targets are passed
    let mut path: Vec<(usize, usize)> = Vec::new();
    for first in 0..n {
        if let State::Unseen = states[first] {
            states[first] = State::OnPath(0);
            path.push((first, 0));
        }
        while let Some((vertex, place)) = path.pop() {
            let on_path = path.len() + 1;
            walk.longest = walk.longest.max(on_path);
            let Some(&target) = table.row(vertex).get(place) else {
                states[vertex] = State::Done;
                continue;
            };
            path.push((vertex, place + 1));
            let target = target as usize;
            match states[target] {
                State::Unseen => {
                    states[target] = State::OnPath(on_path);
                    path.push((target, 0));
                }
                State::OnPath(at) => {
                    let edge = (vertex, target);
                    let cycle = on_path - at;
                    walk.closed = Some(Closed { edge, place, path: on_path, cycle });
                    return walk;
                }
                State::Done => walk.to_done += 1,
            }
        }
    }
    walk
}

/// Walks over a well-formed table as if this edge were not there.
pub fn over_without(edge: Edge, table: &Table) -> Walk {
    let mut edges = table.edges();
    edges.retain(|&other| other != edge);
    over(&graphs::of_edges(&edges, table.counts.clone()))
}
