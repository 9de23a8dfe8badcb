//! Cases that the rules name themselves (docs/RULES.md, Limits), limits and one past them, with answers
//! written by hand: they hold the second program to the rules as well.

use crate::foldings::{Folding, FOLDINGS};
use crate::graphs::{self, lettered};
use crate::image::{self, Content, Room};
use crate::operations::Operation;
use crate::random::Random;
use crate::shapes::{self, Shape};
use crate::table::{Table, LARGEST_SUM, MOST_EDGES, MOST_VERTICES};
use crate::versions::Version;

/// The first line of the answer, the case in words, and what is asked.
type Limit = (String, &'static str, Operation);

/// The same where the line is written down as it is.
type Line = (&'static str, &'static str, Operation);

pub fn all(seed: u64) -> Vec<Limit> {
    let random = &mut Random::of_case(seed, usize::MAX);
    let largest = graphs::largest(random);
    let too_wide = graphs::with(random, 100, MOST_EDGES + 1);
    let mut lines = checks();
    lines.extend(sums());
    lines.push(("check 0 counted 0", "n = 2,048, m = 8,192", check_of(&largest)));
    lines.push(("check 2 counted 2", "m = 8,193", check_of(&too_wide)));
    lines.extend(writes(&largest, &too_wide));
    lines.extend(writes_with_lengths(&largest, &too_wide));
    lines.extend(looks(&largest, &too_wide));
    lines.extend(looks_at_lengths(&largest));
    lines.extend(loads(&largest, &too_wide));
    lines.extend(loads_of_lengths(&largest));
    lines.extend(lists(&largest, &too_wide));
    lines.extend(judges(&too_wide));
    let as_it_is = |(line, name, operation): Line| (line.to_string(), name, operation);
    let mut all: Vec<Limit> = lines.into_iter().map(as_it_is).collect();
    for folding in FOLDINGS {
        let folds = folds(folding, &too_wide).into_iter().chain(cycles(folding));
        let with_name =
            |(line, name, operation): Line| (format!("{} {line}", folding.name()), name, operation);
        all.extend(folds.map(with_name));
    }
    all
}

fn checks() -> Vec<Line> {
    vec![
        ("check 0 counted 0", "n = 0", vertices(&[])),
        ("check 0 counted 0", "n = 2,048", vertices(&[0; MOST_VERTICES])),
        ("check 1 counted 1", "n = 2,049", vertices(&[0; MOST_VERTICES + 1])),
        ("check 1 counted 1", "n = 4,095", vertices(&[0; 4_095])),
        ("check 1 counted 1", "no starts", check(&[], &[], &[])),
        ("check 3 counted 3", "n = 0 and a target", check(&[0], &[0], &[])),
        ("check 3 counted 3", "n = 0 and start 2^32 - 1", check(&[u32::MAX], &[], &[])),
        ("check 3 counted 3", "a start 2^32 - 1", check(&[0, u32::MAX, 2], &[0, 1], &[0, 0])),
        ("check 4 counted 4", "target n", check(&[0, 1, 1], &[2], &[0, 0])),
        ("check 4 counted 4", "target 2^32 - 1", check(&[0, 1], &[u32::MAX], &[0])),
        ("check 5 counted 5", "an edge twice", check(&[0, 2], &[0, 0], &[0])),
        ("check 5 counted 5", "a row that falls", check(&[0, 2, 2], &[1, 0], &[0, 0])),
        ("check 0 counted 0", "a self-loop", check(&[0, 1], &[0], &[0])),
        ("check 0 counted 0", "two equal rows", check(&[0, 2, 4], &[0, 1, 0, 1], &[0, 0])),
        ("check 0 counted 6", "a count and no vertex", check(&[0], &[], &[0])),
        ("check 0 counted 6", "a count missing", check(&[0, 0, 0], &[], &[0])),
    ]
}

fn sums() -> Vec<Line> {
    let one_more = [1 << 29; MOST_VERTICES];
    let mut reached = one_more;
    reached[1_000] -= 1;
    vec![
        ("check 0 counted 0", "the largest sum in one count", vertices(&[LARGEST_SUM])),
        ("check 0 counted 0", "the largest sum in two counts", vertices(&[1, LARGEST_SUM - 1])),
        ("check 0 counted 0", "the largest sum in 2,048 counts", vertices(&reached)),
        ("check 0 counted 7", "one more in one count", vertices(&[LARGEST_SUM + 1])),
        ("check 0 counted 7", "one more in two counts", vertices(&[1, LARGEST_SUM])),
        ("check 0 counted 7", "one more in 2,048 counts", vertices(&one_more)),
        ("check 0 counted 7", "a count 2^64 - 1", vertices(&[u64::MAX])),
        ("check 0 counted 7", "counts that wrap to 0", vertices(&[u64::MAX, 1])),
        ("check 0 counted 7", "counts that wrap to 4", vertices(&[u64::MAX, 3, 2])),
        ("check 0 counted 7", "counts that wrap at the last", vertices(&[3, 4, u64::MAX])),
        ("check 0 counted 7", "2,048 counts that wrap to 0", vertices(&[1 << 53; MOST_VERTICES])),
        ("check 0 counted 7", "2,048 counts 2^64 - 1", vertices(&[u64::MAX; MOST_VERTICES])),
    ]
}

fn writes(largest: &Table, too_wide: &Table) -> Vec<Line> {
    let write = |room, table| Operation::Write { room, content: Content::of_table(table) };
    let (a, j) = (lettered("A").table(), graphs::j());
    vec![
        ("wrote 0 133", "J, room 133", write(133, &j)),
        ("wrote 8 0", "J, room 132", write(132, &j)),
        ("wrote 0 133", "J, room 65,536", write(65_536, &j)),
        ("wrote 0 17", "A, room 17", write(17, &a)),
        ("wrote 8 0", "A, room 0", write(0, &a)),
        ("wrote 0 57361", "the largest table", write(57_361, largest)),
        ("wrote 8 0", "the largest table, room 57,360", write(57_360, largest)),
        ("wrote 2 0", "m = 8,193, room 65,536", write(65_536, too_wide)),
    ]
}

fn writes_with_lengths(largest: &Table, too_wide: &Table) -> Vec<Line> {
    let write = |room, table: &Table, lengths: &[u16]| {
        let content = Content::with_lengths(table, lengths);
        Operation::Write { room, content }
    };
    let (a, j) = (lettered("A").table(), graphs::j());
    let overcounted = Table { counts: vec![LARGEST_SUM, 0, 0, 0, 1, 0, 0], ..j.clone() };
    let uncounted = Table { counts: vec![1; 6], ..j.clone() };
    let mut largest_lengths = [65_535; MOST_VERTICES];
    let of_largest = |room, lengths: &[u16]| write(room, largest, lengths);
    let mut writes = vec![
        ("wrote_lengths 0 147", "J, room 147", write(147, &j, &[1, 2, 3, 4, 5, 6, 7])),
        ("wrote_lengths 0 147", "J, the ends of a byte", write(147, &j, &ENDS)),
        ("wrote_lengths 8 0", "J, room 146", write(146, &j, &ENDS)),
        ("wrote_lengths 8 0", "J, room as for version 1", write(133, &j, &ENDS)),
        ("wrote_lengths 0 147", "J, room 65,536", write(65_536, &j, &ENDS)),
        ("wrote_lengths 20 0", "J, first length 0", write(147, &j, &[0, 2, 3, 4, 5, 6, 7])),
        ("wrote_lengths 20 0", "J, a length 0", write(147, &j, &[1, 2, 3, 0, 5, 6, 7])),
        ("wrote_lengths 20 0", "J, last length 0", write(147, &j, &[1, 2, 3, 4, 5, 6, 0])),
        ("wrote_lengths 20 0", "J, a length 0, no room", write(0, &j, &[1, 2, 3, 0, 5, 6, 7])),
        ("wrote_lengths 6 0", "J, a length too few", write(147, &j, &[1; 6])),
        ("wrote_lengths 6 0", "J, a length too many", write(149, &j, &[1; 8])),
        ("wrote_lengths 6 0", "J, no lengths", write(147, &j, &[])),
        ("wrote_lengths 6 0", "J, no lengths, room as for version 1", write(133, &j, &[])),
        ("wrote_lengths 6 0", "J, lengths too few, one 0, no room", write(0, &j, &[0; 6])),
        ("wrote_lengths 6 0", "J, a count too few", write(147, &uncounted, &[1; 7])),
        ("wrote_lengths 6 0", "J, count and length too few", write(147, &uncounted, &[1; 6])),
        ("wrote_lengths 6 0", "J, lengths and counts too large", write(147, &overcounted, &[1; 8])),
        ("wrote_lengths 7 0", "J, count sum one too large", write(147, &overcounted, &[1; 7])),
        ("wrote_lengths 7 0", "J, sum and lengths, no room", write(0, &overcounted, &[0; 7])),
        ("wrote_lengths 0 17", "A, room 17", write(17, &a, &[])),
        ("wrote_lengths 8 0", "A, room 16", write(16, &a, &[])),
        ("wrote_lengths 6 0", "A, a length", write(17, &a, &[1])),
        ("wrote_lengths 0 61457", "the largest table", of_largest(61_457, &largest_lengths)),
        ("wrote_lengths 8 0", "the largest, room 61,456", of_largest(61_456, &largest_lengths)),
        ("wrote_lengths 2 0", "m = 8,193, lengths 0", write(65_536, too_wide, &[0; 100])),
    ];
    largest_lengths[MOST_VERTICES - 1] = 0;
    let last = of_largest(61_457, &largest_lengths);
    writes.push(("wrote_lengths 20 0", "the largest table, last length 0", last));
    writes
}

/// Lengths for J at which a byte ends.
const ENDS: [u16; 7] = [1, 255, 256, 257, 65_280, 65_534, 65_535];

fn looks(largest: &Table, too_wide: &Table) -> Vec<Line> {
    let look = |stream: &[u8]| Operation::Look { stream: stream.into() };
    let of = |table: &Table| look(&image::of_table(table));
    let (a, j) = (lettered("A").table(), graphs::j());
    let of_j = image::of_table(&j);
    let changed = |place: usize, byte: u8| {
        let mut image = of_j.clone();
        image[place] = byte;
        look(&image)
    };
    let counted = |counts: &[u64]| of(&Table { counts: counts.to_vec(), ..j.clone() });
    let too_long = Table { starts: vec![0; 2_050], targets: vec![], counts: vec![0; 2_049] };
    let largest_image = image::of_table(largest);
    vec![
        ("look 0 1 7 8 load 0 1 7 8", "J", of(&j)),
        ("look 0 1 0 0 load 0 1 0 0", "A", of(&a)),
        ("look 0 1 2048 8192 load 0 1 2048 8192", "the largest image", look(&largest_image)),
        (
            "look 12 0 0 0",
            "the largest image and a byte",
            look(&[&largest_image[..], &[0]].concat()),
        ),
        ("look 10 0 0 0", "an empty stream", look(&[])),
        ("look 10 0 0 0", "the first 12 bytes of J", look(&of_j[..12])),
        ("look 12 0 0 0", "the first 13 bytes of J", look(&of_j[..13])),
        ("look 12 0 0 0", "J, a byte cut off", look(&of_j[..132])),
        ("look 12 0 0 0", "J and a byte", look(&[&of_j[..], &[0]].concat())),
        ("look 10 0 0 0", "J, another mark", changed(2, b'X')),
        ("look 11 0 0 0", "J, version 0", changed(3, 0)),
        ("look 12 0 0 0", "J, version 2", changed(3, 2)),
        ("look 11 0 0 0", "J, version 3", changed(3, 3)),
        ("look 11 0 0 0", "J, version 257", changed(4, 1)),
        ("look 1 0 0 0", "n = 2,049", of(&too_long)),
        ("look 2 0 0 0", "m = 8,193", of(too_wide)),
        ("look 3 0 0 0", "J, first start 1", changed(13, 1)),
        ("look 4 0 0 0", "J, first target 7", changed(45, 7)),
        ("look 5 0 0 0", "J, a row that falls", changed(45, 6)),
        ("look 7 0 0 0", "J, count sum one too large", counted(&[LARGEST_SUM, 0, 0, 0, 1, 0, 0])),
        (
            "look 0 1 7 8 load 0 1 7 8",
            "J, the largest count sum",
            counted(&[0, 0, 0, LARGEST_SUM, 0, 0, 0]),
        ),
    ]
}

/// The same of images of version 2.
fn looks_at_lengths(largest: &Table) -> Vec<Line> {
    let look = |stream: &[u8]| Operation::Look { stream: stream.into() };
    let j = graphs::j();
    let of = |lengths: &[u16]| look(&image::with_lengths(&j, lengths));
    let counted = |counts: &[u64], lengths: &[u16]| {
        let table = Table { counts: counts.to_vec(), ..j.clone() };
        look(&image::with_lengths(&table, lengths))
    };
    let of_j = image::with_lengths(&j, &ENDS);
    let changed = |place: usize, byte: u8| {
        let mut image = of_j.clone();
        image[place] = byte;
        look(&image)
    };
    let largest_image = image::with_lengths(largest, &[65_535; MOST_VERTICES]);
    assert_eq!(largest_image.len(), image::LARGEST);
    let of_a = image::with_lengths(&lettered("A").table(), &[]);
    let overcounted = [LARGEST_SUM, 0, 0, 0, 1, 0, 0];
    vec![
        ("look 0 2 7 8 load 0 2 7 8", "J", look(&of_j)),
        ("look 0 2 0 0 load 0 2 0 0", "A", look(&of_a)),
        ("look 0 2 2048 8192 load 0 2 2048 8192", "the largest image", look(&largest_image)),
        ("look 12 0 0 0", "the largest and a byte", look(&[&largest_image[..], &[1]].concat())),
        ("look 12 0 0 0", "J, a byte cut off", look(&of_j[..146])),
        ("look 12 0 0 0", "J, the lengths cut off", look(&of_j[..133])),
        ("look 12 0 0 0", "J and a byte", look(&[&of_j[..], &[1]].concat())),
        ("look 12 0 0 0", "J with lengths, version 1", changed(3, 1)),
        ("look 11 0 0 0", "J with lengths, version 3", changed(3, 3)),
        ("look 11 0 0 0", "J with lengths, version 258", changed(4, 1)),
        ("look 11 0 0 0", "J with lengths, version 512", look(&image::with_version(&of_j, 512))),
        ("look 20 0 0 0", "J, first length 0", of(&[0, 2, 3, 4, 5, 6, 7])),
        ("look 20 0 0 0", "J, a length 0", of(&[1, 2, 3, 0, 5, 6, 7])),
        ("look 20 0 0 0", "J, last length 0", of(&[1, 2, 3, 4, 5, 6, 0])),
        ("look 7 0 0 0", "J, sum and length", counted(&overcounted, &[0, 2, 3, 4, 5, 6, 7])),
        ("look 3 0 0 0", "J, first start 1", changed(13, 1)),
        ("look 4 0 0 0", "J, first target 7", changed(45, 7)),
        ("look 5 0 0 0", "J, a row that falls", changed(45, 6)),
    ]
}

/// To be loaded are images that are looked at above.
fn loads(largest: &Table, too_wide: &Table) -> Vec<Line> {
    let load = |starts, targets, counts, stream| load([starts, targets, counts, 0], stream);
    let a = image::of_table(&lettered("A").table());
    let j = image::of_table(&graphs::j());
    let largest = image::of_table(largest);
    let too_wide = image::of_table(too_wide);
    let one_more = [&largest[..], &[0]].concat();
    vec![
        ("load 0 1 7 8", "J", load(8, 8, 7, &j)),
        ("load 8 0 0 0", "J, starts too short", load(7, 8, 7, &j)),
        ("load 8 0 0 0", "J, targets too short", load(8, 7, 7, &j)),
        ("load 8 0 0 0", "J, counts too short", load(8, 8, 6, &j)),
        ("load 0 1 7 8", "J, the most room", load(4_096, 16_384, 4_096, &j)),
        ("load 12 0 0 0", "J, a byte cut off and no room", load(0, 0, 0, &j[..132])),
        ("load 10 0 0 0", "an empty stream", load(8, 8, 7, &[])),
        ("load 0 1 0 0", "A", load(1, 0, 0, &a)),
        ("load 8 0 0 0", "A, no room", load(0, 0, 0, &a)),
        ("load 0 1 2048 8192", "the largest image", load(2_049, 8_192, 2_048, &largest)),
        ("load 8 0 0 0", "the largest image, a start less", load(2_048, 8_192, 2_048, &largest)),
        ("load 8 0 0 0", "the largest image, a target less", load(2_049, 8_191, 2_048, &largest)),
        ("load 8 0 0 0", "the largest image, a count less", load(2_049, 8_192, 2_047, &largest)),
        ("load 12 0 0 0", "the largest image and a byte", load(2_049, 8_192, 2_048, &one_more)),
        ("load 2 0 0 0", "m = 8,193", load(4_096, 16_384, 4_096, &too_wide)),
    ]
}

/// Images with lengths, and lengths lent to images without.
fn loads_of_lengths(largest: &Table) -> Vec<Line> {
    let a = image::with_lengths(&lettered("A").table(), &[]);
    let of_one = image::of_table(&graphs::j());
    let j = image::with_lengths(&graphs::j(), &ENDS);
    let zero = image::with_lengths(&graphs::j(), &[1, 2, 3, 4, 5, 6, 0]);
    let largest = image::with_lengths(largest, &[65_535; MOST_VERTICES]);
    vec![
        ("load 0 2 7 8", "J", load([8, 8, 7, 7], &j)),
        ("load 0 2 7 8", "J, the most room", load([4_096, 16_384, 4_096, 4_096], &j)),
        ("load 8 0 0 0", "J, lengths too short", load([8, 8, 7, 6], &j)),
        ("load 8 0 0 0", "J, no lengths", load([8, 8, 7, 0], &j)),
        ("load 8 0 0 0", "J, starts too short", load([7, 8, 7, 7], &j)),
        ("load 8 0 0 0", "J, targets too short", load([8, 7, 7, 7], &j)),
        ("load 8 0 0 0", "J, counts too short", load([8, 8, 6, 7], &j)),
        ("load 20 0 0 0", "J, last length 0", load([8, 8, 7, 7], &zero)),
        ("load 20 0 0 0", "J, last length 0 and no room", load([0, 0, 0, 0], &zero)),
        ("load 12 0 0 0", "J, a byte cut off and no room", load([0, 0, 0, 0], &j[..146])),
        ("load 0 1 7 8", "J of version 1, a length lent", load([8, 8, 7, 1], &of_one)),
        ("load 0 1 7 8", "J of version 1, lengths lent", load([8, 8, 7, 7], &of_one)),
        ("load 0 1 7 8", "J of version 1, 4,096 lengths lent", load([8, 8, 7, 4_096], &of_one)),
        ("load 0 2 0 0", "A", load([1, 0, 0, 0], &a)),
        ("load 0 2 2048 8192", "the largest", load([2_049, 8_192, 2_048, 2_048], &largest)),
        (
            "load 8 0 0 0",
            "the largest, a length less",
            load([2_049, 8_192, 2_048, 2_047], &largest),
        ),
    ]
}

fn load([starts, targets, counts, lengths]: [usize; 4], stream: &[u8]) -> Operation {
    let room = Room { starts, targets, counts, lengths };
    Operation::Load { room, stream: stream.into() }
}

fn lists(largest: &Table, too_wide: &Table) -> Vec<Line> {
    let list = |room, table: &Table| Operation::List { room, table: table.clone() };
    let (a, j) = (lettered("A").table(), graphs::j());
    let no_edges = Shape { n: 2_048, edges: vec![] }.counted(0);
    let too_long = shapes::chain(2_049).counted(0);
    let overcounted = Table { counts: vec![u64::MAX; 3], ..j.clone() };
    vec![
        ("list 0 2", "J, room 14", list(14, &j)),
        ("list 8 0", "J, room 13", list(13, &j)),
        ("list 8 0", "J, room for what is found alone", list(4, &j)),
        ("list 8 0", "J, room 0", list(0, &j)),
        ("list 0 2", "J, room 8,192", list(8_192, &j)),
        ("list 0 2", "J, its counts are not looked at", list(14, &overcounted)),
        ("list 0 0", "A, room 0", list(0, &a)),
        ("list 0 0", "2,048 vertices without an edge", list(4_096, &no_edges)),
        ("list 0 2047", "a chain of 2,048", list(4_096, &shapes::chain(2_048).counted(0))),
        ("list 8 0", "a chain, room 4,095", list(4_095, &shapes::chain(2_048).counted(0))),
        ("list 1 0", "a chain of 2,049", list(8_192, &too_long)),
        ("list 2 0", "m = 8,193", list(8_192, too_wide)),
        ("list 0 3", "a cycle of 3", list(6, &shapes::ring(3).counted(0))),
        ("list 0 0", "a cycle of 2", list(6, &shapes::ring(2).counted(0))),
        ("list 0 0", "a cycle of 1", list(6, &shapes::ring(1).counted(0))),
        ("list 0 2048", "a cycle of 2,048", list(4_096, &shapes::ring(2_048).counted(0))),
        ("list 8 0", "a cycle, room 4,095", list(4_095, &shapes::ring(2_048).counted(0))),
        // the last vertex of the chain has but one edge
        ("list 0 1", "a comb of 2,048", list(4_096, &shapes::comb(2_048).counted(0))),
        ("list 0 1", "a fan of 2,048", list(4_096, &shapes::fan(2_048).counted(0))),
        // the ladder, and six edges behind it
        ("list 0 7", "n = 2,048, m = 8,192", list(4_096, &shapes::ladder().counted(0))),
        ("list 0 20", "a nest of 20", list(120, &shapes::nests(20, 1).counted(0))),
        ("list 8 0", "the largest table, room 4,095", list(4_095, largest)),
    ]
}

fn judges(too_wide: &Table) -> Vec<Line> {
    let judge = |s, t, table: &Table| Operation::Judge { pair: (s, t), table: table.clone() };
    let (a, j) = (lettered("A").table(), graphs::j());
    let ring = shapes::ring(2_048).counted(0);
    let nest = shapes::nests(20, 1).counted(0);
    vec![
        ("judge 0 1 7", "J, the pair 0, 6", judge(0, 6, &j)),
        ("judge 0 0 0", "J, s = t", judge(6, 6, &j)),
        ("judge 13 0 0", "J, s = 7", judge(7, 0, &j)),
        ("judge 13 0 0", "J, t = 7", judge(0, 7, &j)),
        ("judge 13 0 0", "J, s = t = 7", judge(7, 7, &j)),
        ("judge 13 0 0", "J, s = 2^32 - 1", judge(u32::MAX, 6, &j)),
        ("judge 13 0 0", "J, t = 2^32 - 1", judge(0, u32::MAX, &j)),
        ("judge 13 0 0", "A", judge(0, 0, &a)),
        ("judge 0 0 0", "a cycle of 1", judge(0, 0, &shapes::ring(1).counted(0))),
        ("judge 0 1 2", "a cycle of 2,048, its last pair", judge(2_047, 0, &ring)),
        ("judge 0 0 0", "a cycle of 2,048, a pair further on", judge(2_047, 1, &ring)),
        ("judge 13 0 0", "a cycle of 2,048, t = 2,048", judge(2_047, 2_048, &ring)),
        ("judge 0 1 2048", "a fan of 2,048", judge(0, 1, &shapes::fan(2_048).counted(0))),
        ("judge 0 1 2042", "n = 2,048, m = 8,192", judge(0, 2_041, &shapes::ladder().counted(0))),
        ("judge 0 1 60", "a nest of 20, the outermost", judge(0, 1, &nest)),
        ("judge 0 1 57", "a nest of 20, the next", judge(3, 4, &nest)),
        ("judge 1 0 0", "a chain of 2,049", judge(0, 1, &shapes::chain(2_049).counted(0))),
        ("judge 2 0 0", "m = 8,193, s = 2^32 - 1", judge(u32::MAX, 0, too_wide)),
    ]
}

/// The lines begin behind the name of the fold.
fn folds(folding: Folding, too_wide: &Table) -> Vec<Line> {
    let fold = |budget, room, table: &Table| {
        let table = table.clone();
        Operation::Fold { folding, budget, room, table }
    };
    let of = |budget, table: &Table| Operation::fold_exactly(folding, budget, table.clone());
    let room = |starts, targets, counts| Room { starts, targets, counts, lengths: 0 };
    let (a, f, j) = (lettered("A").table(), lettered("F").table(), graphs::j());
    let one_too_large = Table { counts: vec![LARGEST_SUM, 0, 0, 0, 1, 0, 0], ..j.clone() };
    let largest_sum = Table { counts: vec![0, 1, LARGEST_SUM - 1, 0, 0, 0, 0], ..j.clone() };
    // in version 1 down on the entrances and up on the exits; in version 2 all arms are worth the same
    let [one_nest, all_nests, but_one] = match folding.version {
        Version::One => ["0 1 0 40", "0 34 0 1360", "0 33 1 1399"],
        Version::Two => ["0 1 0 2", "0 34 0 68", "0 33 1 145"],
    };
    // a table with a cycle is refused, or it is given back with so many edges
    let [three, one, most] = cyclic(folding, ["0 0 0 3", "0 0 0 1", "0 0 0 2048"]);
    let nests = shapes::nests(20, 34).counted(1);
    let bubbles = shapes::nests(1, 1_023).counted(5);
    vec![
        ("0 1 0 2", "J, room 8, 8, 7", fold(1, room(8, 8, 7), &j)),
        ("8 0 0 0", "J, room for the result alone", fold(1, room(8, 2, 7), &j)),
        ("8 0 0 0", "J, starts too short", fold(1, room(7, 8, 7), &j)),
        ("8 0 0 0", "J, targets too short", fold(1, room(8, 7, 7), &j)),
        ("8 0 0 0", "J, counts too short", fold(1, room(8, 8, 6), &j)),
        ("0 1 0 2", "J, the most room", fold(1, room(4_096, 16_384, 4_096), &j)),
        ("0 0 0 0", "A", fold(1, room(1, 0, 0), &a)),
        (three, "F", of(1, &f)),
        (three, "F, budget 0", of(0, &f)),
        ("8 0 0 0", "F, counts too short", fold(1, room(4, 3, 2), &f)),
        (one, "a self-loop", of(1, &shapes::ring(1).counted(0))),
        ("7 0 0 0", "J, count sum one too large", of(1, &one_too_large)),
        // all reads stand on the kept path
        ("0 1 0 4", "J, the largest count sum", of(1, &largest_sum)),
        ("2 0 0 0", "m = 8,193", fold(1, room(4_096, 16_384, 4_096), too_wide)),
        ("0 0 0 2047", "a chain of 2,048", of(u32::MAX, &shapes::chain(2_048).counted(1))),
        (most, "a cycle of 2,048", of(1, &shapes::ring(2_048).counted(1))),
        ("0 1 0 2", "a fan of 2,048", of(1, &shapes::fan(2_048).counted(1))),
        // one vertex of each of the 510 layers, and six edges behind the exit
        ("0 1 0 517", "n = 2,048, m = 8,192", of(1, &shapes::ladder().counted(1))),
        (one_nest, "a nest of 20", of(1, &shapes::nests(20, 1).counted(1))),
        (all_nests, "34 nests of 20", of(34, &nests)),
        (but_one, "34 nests of 20, budget 33", of(33, &nests)),
        ("0 1000 23 2069", "1,023 bubbles, budget 1,000", of(1_000, &bubbles)),
    ]
}

/// The lines of tables with a cycle, where the fold takes these.
fn cyclic<const N: usize>(folding: Folding, lines: [&'static str; N]) -> [&'static str; N] {
    lines.map(|line| if folding.takes_rings() { line } else { "9 0 0 0" })
}

/// For the cycle test: deep paths, long rows and self-loops, folded with budget 1. The lines begin
/// behind the name of the fold.
fn cycles(folding: Folding) -> Vec<Line> {
    let fold = |shape: Shape| Operation::fold_exactly(folding, 1, shape.counted(1));
    let (chain, row) = (shapes::chain(2_048), shapes::wide(2_048, 1));
    let no_edges = Shape { n: 2_048, edges: vec![] };
    let back = shapes::band(2_048, 8_191).and((2_047, 0));
    // no superbubble of these has an interior
    let [one, one_more, most] = cyclic(folding, ["0 0 0 1", "0 0 0 2048", "0 0 0 8192"]);
    vec![
        ("0 0 0 2047", "a chain of 2,048 backwards", fold(chain.numbered_backwards())),
        (one_more, "a chain and 2047>2046", fold(chain.and((2_047, 2_046)))),
        (one_more, "a chain and 2047>2047", fold(chain.and((2_047, 2_047)))),
        (one_more, "a chain and 1>0", fold(chain.and((1, 0)))),
        (one_more, "a chain and 0>0", fold(chain.and((0, 0)))),
        // the chain is kept, and the bare edge goes
        ("0 1 0 2047", "a chain and 0>2047", fold(chain.and((0, 2_047)))),
        ("0 0 0 2047", "a row of 2,047", fold(row.clone())),
        (one_more, "a row of 2,047 and 2047>0", fold(row.and((2_047, 0)))),
        (one_more, "a row of 2,048, itself among it", fold(row.and((0, 0)))),
        ("0 0 0 8182", "rows of 2,047 to 2,044", fold(shapes::wide(2_048, 4))),
        (one, "2,048 vertices and 2047>2047", fold(no_edges.and((2_047, 2_047)))),
        ("0 1 681 2726", "682 diamonds", fold(shapes::diamonds(682))),
        // the path over every vertex is kept
        ("0 1 0 2047", "a band, m = 8,192", fold(shapes::band(2_048, 8_192))),
        (most, "a band and 2047>0, m = 8,192", fold(back)),
    ]
}

fn check(starts: &[u32], targets: &[u32], counts: &[u64]) -> Operation {
    let (starts, targets, counts) = (starts.to_vec(), targets.to_vec(), counts.to_vec());
    Operation::Check { table: Table { starts, targets, counts } }
}

/// Vertices with these counts, and no edge.
fn vertices(counts: &[u64]) -> Operation {
    check(&vec![0; counts.len() + 1], &[], counts)
}

fn check_of(table: &Table) -> Operation {
    Operation::Check { table: table.clone() }
}
