//! How the dropped reads of a folded superbubble are shared (docs/RULES.md, Fold): evenly over the inner
//! vertices of the kept path, and what is left then goes to the first of them, one read to each. Two
//! ways to do it, and rules that are wrong.

use std::ops::Range;

/// A rule of sharing: what each vertex of a kept path gets, in path order, first the entrance and last
/// the exit. It is handed the number of dropped reads, and that of the inner vertices, at least one.
pub type Share = fn(u64, usize) -> Vec<u64>;

/// The most reads that are dealt one by one.
pub const MOST_DEALT: u64 = 100_000;

/// Deals the reads one by one in path order, round by round; where there are too many, divides them.
pub fn dealt(reads: u64, inner: usize) -> Vec<u64> {
    if reads > MOST_DEALT {
        return divided(reads, inner);
    }
    let mut portions = vec![0; inner + 2];
    for place in (1..=inner).cycle().take(reads as usize) {
        portions[place] += 1;
    }
    portions
}

/// Divides the reads by the number of inner vertices.
pub fn divided(reads: u64, inner: usize) -> Vec<u64> {
    to_inner(inner, |before| portion(reads, inner, before))
}

/// One of so many portions: the quotient, and one more unless as many stand before it as the remainder
/// says.
fn portion(reads: u64, portions: usize, before: usize) -> u64 {
    let portions = portions as u64;
    reads / portions + u64::from((before as u64) < reads % portions)
}

/// What each vertex gets where the inner ones alone get something: `gets` says it by how many of them
/// stand before.
fn to_inner(inner: usize, gets: impl Fn(usize) -> u64) -> Vec<u64> {
    to_places(1..inner + 1, inner, gets)
}

/// The same where these places of the path get something.
fn to_places(places: Range<usize>, inner: usize, gets: impl Fn(usize) -> u64) -> Vec<u64> {
    let at = |place| if places.contains(&place) { gets(place - places.start) } else { 0 };
    (0..inner + 2).map(at).collect()
}

/// Wrong rules, which the cases must tell from the right one.
pub const WRONG: [(&str, Share); 9] = [
    ("the remainder to the last ones", |reads, inner| {
        to_inner(inner, |before| portion(reads, inner, inner - 1 - before))
    }),
    ("a portion for the entrance", |reads, inner| {
        to_places(0..inner + 1, inner, |before| portion(reads, inner + 1, before))
    }),
    ("a portion for the exit", |reads, inner| {
        to_places(1..inner + 2, inner, |before| portion(reads, inner + 1, before))
    }),
    ("the quotient rounded up", |reads, inner| to_inner(inner, |_| reads.div_ceil(inner as u64))),
    ("all reads to the first", |reads, inner| {
        to_inner(inner, |before| if before == 0 { reads } else { 0 })
    }),
    ("division by all vertices of the kept path", |reads, inner| {
        to_inner(inner, |before| portion(reads, inner + 2, before))
    }),
    ("the remainder to nobody", |reads, inner| to_inner(inner, |_| reads / inner as u64)),
    ("the whole remainder to the first", |reads, inner| {
        let (quotient, remainder) = (reads / inner as u64, reads % inner as u64);
        to_inner(inner, |before| if before == 0 { quotient + remainder } else { quotient })
    }),
    ("the reads counted in 32 bits", |reads, inner| divided(u64::from(reads as u32), inner)),
];
