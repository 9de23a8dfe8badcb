//! The table of the rules (docs/RULES.md, The table) as three slices that are lent, well-formed or not,
//! and the numbers 1 to 7 that it earns.

use crate::parts::Part;

pub const MOST_VERTICES: usize = 2_048;
pub const MOST_EDGES: usize = 8_192;
pub const LARGEST_SUM: u64 = 1_099_511_627_775;

#[derive(Clone, Default, PartialEq)]
pub struct Table {
    pub starts: Vec<u32>,
    pub targets: Vec<u32>,
    pub counts: Vec<u64>,
}

/// What is returned when these numbers hold, in the order in which they are given: the first, or 0.
pub fn number_given(faults: &[u32]) -> u32 {
    faults.first().copied().unwrap_or(0)
}

impl Table {
    pub fn parts(&self) -> Vec<Part> {
        vec![
            Part::slice("starts", &self.starts),
            Part::slice("targets", &self.targets),
            Part::slice("counts", &self.counts),
        ]
    }

    /// n and m of a table that is accepted.
    pub fn sizes(&self) -> (usize, usize) {
        (self.counts.len(), self.targets.len())
    }

    /// n, the length of starts less 1. There is none where starts is empty.
    pub fn vertices(&self) -> Option<usize> {
        self.starts.len().checked_sub(1)
    }

    /// The row of a vertex of a table whose starts are right.
    pub fn row(&self, vertex: usize) -> &[u32] {
        &self.targets[self.starts[vertex] as usize..self.starts[vertex + 1] as usize]
    }

    /// The edges of a table whose starts are right, row after row; those that lead to no vertex are
    /// left out.
    pub fn edges(&self) -> Vec<(usize, usize)> {
        let n = self.vertices().unwrap_or(0);
        let of_row = |from| self.row(from).iter().map(move |&to| (from, to as usize));
        (0..n).flat_map(of_row).filter(|&(_, to)| to < n).collect()
    }

    /// The numbers 1 to 5 whose condition holds, smallest first. Without a vertex count nothing
    /// after 3 can be said.
    pub fn faults_without_counts(&self) -> Vec<u32> {
        let mut faults = Vec::new();
        if self.starts.is_empty() || self.starts.len() > MOST_VERTICES + 1 {
            faults.push(1);
        }
        if self.targets.len() > MOST_EDGES {
            faults.push(2);
        }
        if self.starts_are_wrong() {
            faults.push(3);
        }
        let rows_may_be_looked_at = faults.is_empty();
        if let Some(n) = self.vertices() {
            if self.targets.iter().any(|&target| target as usize >= n) {
                faults.push(4);
            }
            if rows_may_be_looked_at && (0..n).any(|vertex| !rises_strictly(self.row(vertex))) {
                faults.push(5);
            }
        }
        faults
    }

    /// The numbers 1 to 7 whose condition holds, smallest first.
    pub fn faults(&self) -> Vec<u32> {
        let mut faults = self.faults_without_counts();
        if self.vertices().is_some_and(|n| self.counts.len() != n) {
            faults.push(6);
        }
        if self.sum_of_counts() > LARGEST_SUM as u128 {
            faults.push(7);
        }
        faults
    }

    pub fn sum_of_counts(&self) -> u128 {
        self.counts.iter().map(|&count| count as u128).sum()
    }

    fn starts_are_wrong(&self) -> bool {
        let begin = self.starts.first().is_some_and(|&first| first != 0);
        let fall = self.starts.windows(2).any(|two| two[0] > two[1]);
        let end = self.starts.last().is_some_and(|&last| last as usize != self.targets.len());
        begin || fall || end
    }
}

fn rises_strictly(row: &[u32]) -> bool {
    row.windows(2).all(|two| two[0] < two[1])
}
