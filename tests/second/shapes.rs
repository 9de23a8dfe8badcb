//! Graphs in which superbubbles or a cycle are to be found, or nearly: every small one, random
//! ones, ones that are grown, and some of a plain shape and any size.

use crate::graphs::{self, Edge};
use crate::random::Random;
use crate::table::Table;

/// A graph by its edges. No edge stands twice.
#[derive(Clone)]
pub struct Shape {
    pub n: usize,
    pub edges: Vec<Edge>,
}

impl Shape {
    /// The table with random counts.
    pub fn table(&self, random: &mut Random) -> Table {
        graphs::of_edges(&self.edges, graphs::counts(random, self.n))
    }

    /// The table with counts by which many paths are worth the same.
    pub fn tied(&self, random: &mut Random) -> Table {
        graphs::of_edges(&self.edges, graphs::tied_counts(random, self.n))
    }

    /// The table in which every vertex has this count.
    pub fn counted(&self, count: u64) -> Table {
        graphs::of_edges(&self.edges, vec![count; self.n])
    }

    /// The same graph with its vertices numbered at random.
    pub fn relabelled(&self, random: &mut Random) -> Shape {
        self.renamed(&at_random(self.n, random))
    }

    /// The same graph with its vertices numbered from the last to the first.
    pub fn numbered_backwards(&self) -> Shape {
        self.renamed(&backwards(self.n))
    }

    /// The same graph in which each vertex has the number that is named for it.
    pub fn renamed(&self, names: &[usize]) -> Shape {
        let edges = self.edges.iter().map(|&(from, to)| (names[from], names[to])).collect();
        Shape { n: self.n, edges }
    }

    /// The same graph with one edge more, which was not there yet.
    pub fn and(&self, edge: Edge) -> Shape {
        Shape { n: self.n, edges: [&self.edges[..], &[edge]].concat() }
    }

    /// The same graph without an edge.
    pub fn without(&self, edge: Edge) -> Shape {
        let edges = self.edges.iter().copied().filter(|&other| other != edge).collect();
        Shape { n: self.n, edges }
    }

    /// A graph without a cycle, and one edge more that closes one: from the end of some path back
    /// to its beginning. Where the path has no edge, that is a self-loop.
    pub fn closed(&self, random: &mut Random) -> Shape {
        let first = random.place(self.n);
        let mut last = first;
        for _ in 0..random.one_of(&[0, 1, 2, 5, 1_000]) {
            let of_row = self.edges.iter().filter(|&&(from, _)| from == last);
            let row: Vec<usize> = of_row.map(|&(_, to)| to).collect();
            if row.is_empty() {
                break;
            }
            last = random.one_of(&row);
        }
        self.and((last, first))
    }

    /// A path from one vertex to another over so many new ones.
    fn add_arm(&mut self, from: usize, inner: usize, to: usize) {
        let mut last = from;
        for _ in 0..inner {
            self.edges.push((last, self.n));
            last = self.n;
            self.n += 1;
        }
        self.edges.push((last, to));
    }

    /// A superbubble from one vertex to another: perhaps a bare edge, plain arms, and arms with others
    /// inside, so many deep.
    fn add_nest(&mut self, random: &mut Random, from: usize, to: usize, depth: usize) {
        let has_bare_edge = random.between(0, 1) == 0;
        let nested = if depth > 1 { random.one_of(&[1, 1, 2]) } else { 0 };
        let others = usize::from(has_bare_edge) + nested;
        let plain = if others < 2 { 2 - others } else { 0 };
        self.edges.extend(has_bare_edge.then_some((from, to)));
        for _ in 0..plain + random.between(0, 1) {
            self.add_arm(from, random.one_of(&[1, 1, 2]), to);
        }
        for _ in 0..nested {
            let (entrance, exit) = (self.n, self.n + 1);
            self.n += 2;
            self.edges.extend([(from, entrance), (exit, to)]);
            self.add_nest(random, entrance, exit, depth - 1);
        }
    }

    /// A vertex more, by its number.
    fn add_vertex(&mut self) -> usize {
        self.n += 1;
        self.n - 1
    }

    /// Puts something larger in the place of one edge, of so many new vertices at the most.
    fn grow(&mut self, random: &mut Random, place: usize, most: usize) {
        let (from, to) = self.edges[place];
        let way = if most < MOST_NEW { random.between(0, 1) } else { random.between(0, 5) };
        if way != BESIDE {
            self.edges.swap_remove(place);
        }
        let new = self.n;
        match way {
            BESIDE | 1 => self.add_arm(from, 1, to),
            2 | 3 => {
                self.add_arm(from, random.between(1, 2), to);
                self.add_arm(from, random.between(1, 2), to);
            }
            4 => {
                // two arms with an edge from one to the other
                self.add_arm(from, 1, to);
                self.add_arm(from, 1, to);
                self.edges.push((new, new + 1));
            }
            _ => {
                // a bubble with a vertex before it and one after it
                self.n += 2;
                self.edges.extend([(from, new), (new + 1, to)]);
                self.add_arm(new, 1, new + 1);
                self.add_arm(new, 1, new + 1);
            }
        }
    }

    /// Grows edges into bubbles, as far as n vertices reach: each edge once, and then any, those inside
    /// of bubbles among them.
    fn grown(mut self, random: &mut Random, n: usize) -> Shape {
        let mut places = (0..self.edges.len()).rev();
        while !self.edges.is_empty() && self.n < n {
            let place = places.next().unwrap_or_else(|| random.place(self.edges.len()));
            self.grow(random, place, n - self.n);
        }
        self
    }

    /// So many edges more, between any two vertices, if they are not there yet.
    fn spoiled(mut self, random: &mut Random, edges: usize) -> Shape {
        for _ in 0..edges {
            let edge = (random.place(self.n), random.place(self.n));
            if !self.edges.contains(&edge) {
                self.edges.push(edge);
            }
        }
        self
    }
}

/// The way to grow that leaves the edge where it was, and the most vertices that any way brings. The
/// first two bring one.
const BESIDE: usize = 0;
const MOST_NEW: usize = 4;

// ---- numbers for vertices

/// A way to number so many vertices: for each the number that it is to have.
pub type Numbering = fn(usize, &mut Random) -> Vec<usize>;

pub const NUMBERINGS: [(&str, Numbering); 3] = [
    ("as it is", |n, _| (0..n).collect()),
    ("numbered backwards", |n, _| backwards(n)),
    ("numbered at random", at_random),
];

fn backwards(n: usize) -> Vec<usize> {
    (0..n).rev().collect()
}

pub fn at_random(n: usize, random: &mut Random) -> Vec<usize> {
    let mut names: Vec<usize> = (0..n).collect();
    for place in 1..n {
        names.swap(place, random.between(0, place));
    }
    names
}

// ---- small ones, and random ones

/// Every graph of n vertices, self-loops and all.
pub fn every(n: usize) -> Vec<Shape> {
    every_choice(n, &pairs(n))
}

/// Every graph of n vertices without a self-loop.
pub fn every_without_self_loop(n: usize) -> Vec<Shape> {
    let edges: Vec<Edge> = pairs(n).into_iter().filter(|(from, to)| from != to).collect();
    every_choice(n, &edges)
}

/// Every graph of n vertices whose edges all rise.
pub fn every_rising(n: usize) -> Vec<Shape> {
    every_choice(n, &rising(n))
}

/// Every graph of n vertices that has some of these edges.
fn every_choice(n: usize, edges: &[Edge]) -> Vec<Shape> {
    let chosen = |number: u32| {
        let stands = |place: &usize| number >> place & 1 == 1;
        (0..edges.len()).filter(stands).map(|place| edges[place]).collect()
    };
    (0..1 << edges.len()).map(|number| Shape { n, edges: chosen(number) }).collect()
}

fn rising(n: usize) -> Vec<Edge> {
    pairs(n).into_iter().filter(|(from, to)| from < to).collect()
}

pub fn pairs(n: usize) -> Vec<Edge> {
    (0..n).flat_map(|s| (0..n).map(move |t| (s, t))).collect()
}

/// Any graph of n vertices, of any density.
pub fn any(random: &mut Random, n: usize) -> Shape {
    some_of(random, n, pairs(n))
}

/// Any graph of n vertices whose edges all rise.
pub fn acyclic(random: &mut Random, n: usize) -> Shape {
    some_of(random, n, rising(n))
}

fn some_of(random: &mut Random, n: usize, mut edges: Vec<Edge>) -> Shape {
    let of_twelve = random.between(1, 9);
    edges.retain(|_| random.between(1, 12) <= of_twelve);
    Shape { n, edges }
}

/// A graph of at most n vertices that is rich in superbubbles, cycles allowed; it may be spoiled by
/// some edges.
pub fn bubbly(random: &mut Random, n: usize) -> Shape {
    let few = random.between(2, 4);
    let first = match random.between(0, 3) {
        0 => chain(few),
        1 => ring(few),
        2 => any(random, few),
        _ => acyclic(random, few),
    };
    let spoils = random.one_of(&[0, 0, 1, 2]);
    first.grown(random, n).spoiled(random, spoils).relabelled(random)
}

/// A ring of at most n vertices that is rich in superbubbles; it may be spoiled by an edge.
pub fn bubbly_ring(random: &mut Random, n: usize) -> Shape {
    let few = random.between(2, 4);
    let spoils = random.one_of(&[0, 0, 0, 1]);
    ring(few).grown(random, n).spoiled(random, spoils).relabelled(random)
}

/// A ring of one to three nests, so many deep at the most, with other edges between some.
pub fn ring_of_nests(random: &mut Random, most: usize) -> Shape {
    let mut shape = Shape { n: 1, edges: Vec::new() };
    let mut entrance = 0;
    for _ in 0..random.between(1, 3) {
        let exit = shape.add_vertex();
        let depth = random.between(1, most);
        shape.add_nest(random, entrance, exit, depth);
        entrance = exit;
        if random.between(0, 2) == 0 {
            let next = shape.add_vertex();
            shape.edges.push((entrance, next));
            entrance = next;
        }
    }
    shape.add_arm(entrance, random.one_of(&[0, 1, 1, 2, 5]), 0);
    shape.relabelled(random)
}

/// A nest, and a ring that leads to its entrance, a ring to which its exit leads, and one beside it, of
/// which some are missing. Now and then the second leads on to the first.
pub fn nest_between_rings(random: &mut Random, most: usize) -> Shape {
    let mut shape = Shape { n: 2, edges: Vec::new() };
    let depth = random.between(1, most);
    shape.add_nest(random, 0, 1, depth);
    let mut add_ring = |shape: &mut Shape| {
        let first = shape.add_vertex();
        let mut last = first;
        if random.between(0, 1) == 0 {
            last = shape.add_vertex();
            shape.add_nest(random, first, last, 1);
        }
        shape.add_arm(last, random.between(0, 2), first);
        first
    };
    let [before, behind, _] = [0, 1, 2].map(|_| add_ring(&mut shape));
    let kinds = random.between(0, 5);
    if kinds != 0 {
        shape.add_arm(1, random.between(0, 2), behind);
    }
    if kinds > 1 {
        shape.add_arm(before, random.between(0, 2), 0);
    }
    if kinds == 5 {
        shape.add_arm(behind, random.between(0, 2), before);
    }
    shape.relabelled(random)
}

/// A graph of at most n vertices without a cycle that is rich in superbubbles.
pub fn bubbly_acyclic(random: &mut Random, n: usize) -> Shape {
    let few = random.between(2, 5);
    let first = match random.between(0, 3) {
        0 => acyclic(random, few),
        1 => apart(few),
        _ => chain(few),
    };
    first.grown(random, n).relabelled(random)
}

/// From the first of n vertices to the last by any edges that rise, so that each vertex between lies on
/// some path: mostly one superbubble of many paths.
pub fn tangle(random: &mut Random, n: usize) -> Shape {
    let mut tangle = acyclic(random, n);
    for inner in 1..n - 1 {
        if !tangle.edges.iter().any(|&(_, to)| to == inner) {
            tangle.edges.push((random.place(inner), inner));
        }
        if !tangle.edges.iter().any(|&(from, _)| from == inner) {
            tangle.edges.push((inner, random.between(inner + 1, n - 1)));
        }
    }
    tangle
}

/// The same, and from the last vertex back to the first over a new one.
pub fn tangle_in_a_ring(random: &mut Random, n: usize) -> Shape {
    let mut tangle = tangle(random, n);
    tangle.add_arm(n - 1, 1, 0);
    tangle.relabelled(random)
}

/// Two superbubbles one after the other with arms of up to twelve vertices, in which others grow, as far
/// as n vertices reach.
pub fn long_armed(random: &mut Random, n: usize) -> Shape {
    let mut lengths = || (0..random.between(2, 3)).map(|_| random.between(1, 12)).collect();
    let superbubbles: Vec<Vec<usize>> = (0..2).map(|_| lengths()).collect();
    arms(&superbubbles).grown(random, n).relabelled(random)
}

// ---- plain shapes

pub fn chain(n: usize) -> Shape {
    Shape { n, edges: (1..n).map(|vertex| (vertex - 1, vertex)).collect() }
}

/// Edges that have nothing to do with each other.
fn apart(edges: usize) -> Shape {
    Shape { n: 2 * edges, edges: (0..edges).map(|edge| (2 * edge, 2 * edge + 1)).collect() }
}

/// A cycle of n vertices.
pub fn ring(n: usize) -> Shape {
    let mut ring = chain(n);
    ring.edges.push((n - 1, 0));
    ring
}

/// A chain, and from each of its vertices an edge to one that leads nowhere.
pub fn comb(n: usize) -> Shape {
    let mut comb = chain(n / 2);
    comb.edges.extend((0..n / 2).map(|vertex| (vertex, n / 2 + vertex)));
    Shape { n, edges: comb.edges }
}

/// The same graph with every edge turned round.
pub fn turned_round(shape: Shape) -> Shape {
    let edges = shape.edges.into_iter().map(|(from, to)| (to, from)).collect();
    Shape { n: shape.n, edges }
}

/// From each of the first vertices, so many of them, an edge to every vertex behind it: long rows.
pub fn wide(n: usize, rows: usize) -> Shape {
    let row = |from| (from + 1..n).map(move |to| (from, to));
    Shape { n, edges: (0..rows).flat_map(row).collect() }
}

/// From each vertex edges to the next ones, m in all: those to the very next, then those that pass
/// over one, and so on.
pub fn band(n: usize, m: usize) -> Shape {
    let of_length = |length| (length..n).map(move |to| (to - length, to));
    Shape { n, edges: (1..n).flat_map(of_length).take(m).collect() }
}

/// From 0 to `TOP`, and down to `BOTTOM` vertex by vertex. Each of these also has edges to two
/// vertices below `BOTTOM` and to two above `TOP`, which lead nowhere: the way down stands in the
/// middle of its row.
pub fn backbone() -> Shape {
    let mut edges = vec![(0, TOP)];
    for vertex in BOTTOM..=TOP {
        let below = [1 + vertex % 255, 256 + vertex % 256];
        let above = [TOP + 1 + vertex % 256, TOP + 257 + vertex % 256];
        edges.extend(below.into_iter().chain(above).map(|leaf| (vertex, leaf)));
    }
    edges.extend((BOTTOM..TOP).map(|vertex| (vertex + 1, vertex)));
    Shape { n: 2_048, edges }
}

pub const BOTTOM: usize = 512;
pub const TOP: usize = 1_535;

/// Superbubbles one after the other, each by the lengths of its arms, of which one may be 0: the exit of
/// each is the entrance of the next. Each exit is numbered before the arms that lead to it.
pub fn arms(superbubbles: &[Vec<usize>]) -> Shape {
    let mut shape = Shape { n: 1, edges: Vec::new() };
    let mut entrance = 0;
    for lengths in superbubbles {
        let exit = shape.n;
        shape.n += 1;
        for &inner in lengths {
            shape.add_arm(entrance, inner, exit);
        }
        entrance = exit;
    }
    shape
}

/// The same, and from the last exit back to the first entrance over so many new vertices.
pub fn ring_of_arms(superbubbles: &[Vec<usize>], back: usize) -> Shape {
    let mut shape = arms(superbubbles);
    let of_last: usize = superbubbles.last().map_or(0, |lengths| lengths.iter().sum());
    shape.add_arm(shape.n - 1 - of_last, back, 0);
    shape
}

/// From 0 to 1 by each other vertex.
pub fn fan(n: usize) -> Shape {
    arms(&[vec![1; n - 2]])
}

/// From an entrance through 510 layers of four vertices, each with an edge to all of the next layer, to
/// an exit, and on along a chain; with 34 edges more that pass over a layer, n = 2,048 and m = 8,192.
pub fn ladder() -> Shape {
    let vertex = |layer: usize, place: usize| 1 + 4 * layer + place;
    let mut edges = Vec::new();
    for place in 0..4 {
        edges.push((0, vertex(0, place)));
        edges.extend((1..510).flat_map(|layer| {
            (0..4).map(move |next| (vertex(layer - 1, place), vertex(layer, next)))
        }));
        edges.push((vertex(509, place), 2_041));
    }
    edges.extend((0..34).map(|layer| (vertex(layer, 0), vertex(layer + 2, 0))));
    edges.extend((2_041..2_047).map(|vertex| (vertex, vertex + 1)));
    Shape { n: 2_048, edges }
}

/// Superbubbles of two arms, so many one after the other.
pub fn diamonds(times: usize) -> Shape {
    arms(&vec![vec![1; 2]; times])
}

/// Superbubbles in each other, so many deep, many times one after the other: the exit of each
/// outermost one is the entrance of the next.
pub fn nests(depth: usize, times: usize) -> Shape {
    nests_and_exit(depth, times).0
}

/// The same, and from the last exit back to the first entrance over one new vertex.
pub fn nests_in_a_ring(depth: usize, times: usize) -> Shape {
    let (mut nests, exit) = nests_and_exit(depth, times);
    nests.add_arm(exit, 1, 0);
    nests
}

fn nests_and_exit(depth: usize, times: usize) -> (Shape, usize) {
    let mut nests = Shape { n: 1, edges: Vec::new() };
    let mut entrance = 0;
    for _ in 0..times {
        let exit = nests.add_vertex();
        let (mut from, mut to) = (entrance, exit);
        for _ in 1..depth {
            nests.add_arm(from, 1, to);
            let (inner_entrance, inner_exit) = (nests.n, nests.n + 1);
            nests.n += 2;
            nests.edges.extend([(from, inner_entrance), (inner_exit, to)]);
            (from, to) = (inner_entrance, inner_exit);
        }
        nests.add_arm(from, 1, to);
        nests.edges.push((from, to));
        entrance = exit;
    }
    (nests, entrance)
}
