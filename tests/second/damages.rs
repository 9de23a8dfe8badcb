//! Ways to damage a table, its lengths or an image. Each is made to break one of the rules, and several
//! may follow on each other; what number the result earns is for table.rs and image.rs to say, not here.

use crate::graphs;
use crate::image::{self, Content, HEADER};
use crate::operations::LONGEST_STREAM;
use crate::random::Random;
use crate::table::{Table, LARGEST_SUM, MOST_EDGES, MOST_VERTICES};
use crate::versions::Version;

/// A kind of damage: what it is called, and what it does. It does nothing where it finds no place.
pub struct Damage<T> {
    pub name: &'static str,
    pub apply: fn(&mut T, &mut Random),
}

const fn damage<T>(name: &'static str, apply: fn(&mut T, &mut Random)) -> Damage<T> {
    Damage { name, apply }
}

/// Those that make the whole table anew stand first, and the one that leaves no starts last, so that
/// damages done in this order all leave their mark.
const OF_TABLE: &[Damage<Table>] = &[
    damage("8,193 edges", |table, random| {
        *table = graphs::with(random, 100, MOST_EDGES + 1);
    }),
    damage("2,049 vertices", |table, _| lengthen(table, MOST_VERTICES + 1)),
    damage("4,095 vertices", |table, _| lengthen(table, 4_095)),
    damage("8,193 targets of one row", |table, _| {
        table.targets.resize(MOST_EDGES + 1, 0);
        set(&mut table.starts, End::Last, MOST_EDGES as u32 + 1);
    }),
    // starts
    damage("first start 1", |table, _| set(&mut table.starts, End::First, 1)),
    damage("first start 4,294,967,295", |table, _| set(&mut table.starts, End::First, u32::MAX)),
    damage("a start that falls by one", |table, random| {
        let steps: Vec<usize> =
            (1..table.starts.len()).filter(|&at| table.starts[at - 1] > 0).collect();
        if !steps.is_empty() {
            let at = random.one_of(&steps);
            table.starts[at] = table.starts[at - 1] - 1;
        }
    }),
    damage("an inner start 4,294,967,295", |table, random| {
        set_inner(&mut table.starts, random, u32::MAX)
    }),
    damage("an inner start 2,147,483,648", |table, random| {
        set_inner(&mut table.starts, random, 1 << 31)
    }),
    damage("an inner start of any 32 bits", |table, random| {
        let start = random.any() as u32;
        set_inner(&mut table.starts, random, start);
    }),
    damage("an inner start beyond the targets", |table, random| {
        let start = table.targets.len() as u32 + 1;
        set_inner(&mut table.starts, random, start);
    }),
    damage("last start one less", |table, _| {
        let start = (table.targets.len() as u32).wrapping_sub(1);
        set(&mut table.starts, End::Last, start);
    }),
    damage("last start one more", |table, _| {
        let start = table.targets.len() as u32 + 1;
        set(&mut table.starts, End::Last, start);
    }),
    damage("last start 4,294,967,295", |table, _| set(&mut table.starts, End::Last, u32::MAX)),
    damage("every start one more", |table, _| {
        for start in &mut table.starts {
            *start = start.wrapping_add(1);
        }
    }),
    damage("starts backwards", |table, _| table.starts.reverse()),
    damage("a target too many", |table, _| table.targets.push(0)),
    damage("a target too few", |table, _| {
        table.targets.pop();
    }),
    // targets
    damage("last target n", |table, _| {
        let n = table.starts.len().saturating_sub(1) as u32;
        set(&mut table.targets, End::Last, n);
    }),
    damage("a target n", |table, random| {
        let n = table.starts.len().saturating_sub(1) as u32;
        set_any(&mut table.targets, random, n);
    }),
    damage("first target 4,294,967,295", |table, _| set(&mut table.targets, End::First, u32::MAX)),
    damage("a target of any 32 bits", |table, random| {
        let target = random.any() as u32;
        set_any(&mut table.targets, random, target);
    }),
    // rows
    damage("a target twice in the first long row", |table, _| {
        long_row(table, End::First, |row| row[1] = row[0]);
    }),
    damage("a target twice at the end of the last long row", |table, _| {
        long_row(table, End::Last, |row| row[row.len() - 2] = row[row.len() - 1]);
    }),
    damage("two targets swapped in the first long row", |table, _| {
        long_row(table, End::First, |row| row.swap(0, 1));
    }),
    damage("the last long row backwards", |table, _| {
        long_row(table, End::Last, |row| row.reverse());
    }),
    // counts
    damage("a count too many", |table, _| table.counts.push(0)),
    damage("a count too few", |table, _| {
        table.counts.pop();
    }),
    damage("no counts", |table, _| table.counts.clear()),
    damage("4,096 counts", |table, _| table.counts.resize(4_096, 0)),
    damage("a count sum one too large", |table, random| {
        if !table.counts.is_empty() {
            let place = random.place(table.counts.len());
            table.counts[place] = 0;
            let others = table.sum_of_counts().min(LARGEST_SUM as u128) as u64;
            table.counts[place] = LARGEST_SUM - others + 1;
        }
    }),
    damage("a count larger than the largest sum", |table, random| {
        set_any(&mut table.counts, random, LARGEST_SUM + 1);
    }),
    damage("a count 2^64 - 1", |table, random| set_any(&mut table.counts, random, u64::MAX)),
    damage("two counts of 2^63", |table, _| {
        set(&mut table.counts, End::First, 1 << 63);
        set(&mut table.counts, End::Last, 1 << 63);
    }),
    damage("two counts with the sum 2^64 + 5", |table, _| {
        set(&mut table.counts, End::First, 10);
        set(&mut table.counts, End::Last, u64::MAX - 4);
    }),
    damage("every count 2^64 - 1", |table, _| table.counts.fill(u64::MAX)),
    damage("no starts", |table, _| table.starts.clear()),
];

/// Damage of lengths, after that of their table.
const OF_LENGTHS: &[Damage<Vec<u16>>] = &[
    damage("a length too many", |lengths, _| lengths.push(1)),
    damage("a length too few", |lengths, _| {
        lengths.pop();
    }),
    damage("no lengths", |lengths, _| lengths.clear()),
    damage("4,096 lengths", |lengths, _| lengths.resize(4_096, 1)),
    damage("first length 0", |lengths, _| set(lengths, End::First, 0)),
    damage("an inner length 0", |lengths, random| set_inner(lengths, random, 0)),
    damage("last length 0", |lengths, _| set(lengths, End::Last, 0)),
    damage("every length 0", |lengths, _| lengths.fill(0)),
];

/// Damage of the image itself, after table and lengths have been laid out.
pub const OF_IMAGE: &[Damage<Vec<u8>>] = &[
    damage("first byte of the mark lower case", |image, _| put(image, 0, b"s")),
    damage("second byte of the mark 0", |image, _| put(image, 1, &[0])),
    damage("third byte of the mark other", |image, _| put(image, 2, b"t")),
    damage("mark backwards", |image, _| put(image, 0, b"TBS")),
    damage("version 0", |image, _| put(image, 3, &[0, 0])),
    damage("version 1", |image, _| put(image, 3, &[1, 0])),
    damage("version 2", |image, _| put(image, 3, &[2, 0])),
    damage("version 3", |image, _| put(image, 3, &[3, 0])),
    damage("version 256", |image, _| put(image, 3, &[0, 1])),
    damage("version 257", |image, _| put(image, 3, &[1, 1])),
    damage("version 258", |image, _| put(image, 3, &[2, 1])),
    damage("version 512", |image, _| put(image, 3, &[0, 2])),
    damage("lengths before counts", |image, _| {
        let slices = image::room_for(image).filter(|room| room.image() == image.len());
        if let Some(room) = slices {
            let behind_targets = HEADER + 4 * room.starts + 4 * room.targets;
            image[behind_targets..].rotate_right(2 * room.lengths);
        }
    }),
    damage("header says n = 2,049", |image, _| put(image, 5, &2_049u32.to_le_bytes())),
    damage("header says n = 4,294,967,295", |image, _| put(image, 5, &u32::MAX.to_le_bytes())),
    damage("header says another n", |image, random| {
        put(image, 5, &(random.between(0, MOST_VERTICES) as u32).to_le_bytes());
    }),
    damage("header says m = 8,193", |image, _| put(image, 9, &8_193u32.to_le_bytes())),
    damage("header says m = 4,294,967,295", |image, _| put(image, 9, &u32::MAX.to_le_bytes())),
    damage("header says another m", |image, random| {
        put(image, 9, &(random.between(0, MOST_EDGES) as u32).to_le_bytes());
    }),
    damage("a byte changed", |image, random| {
        if !image.is_empty() {
            let place = random.place(image.len());
            image[place] ^= random.between(1, 255) as u8;
        }
    }),
    damage("a byte put in", |image, random| {
        let place = random.between(0, image.len());
        image.insert(place, random.any() as u8);
    }),
    damage("a byte left out", |image, random| {
        if !image.is_empty() {
            image.remove(random.place(image.len()));
        }
    }),
    damage("one byte longer", |image, random| image.push(random.any() as u8)),
    damage("longer", |image, random| {
        let length = image.len() + random.between(2, 100);
        image.resize(length, 1);
    }),
    damage("one byte shorter", |image, _| {
        image.pop();
    }),
    damage("one length shorter", |image, _| image.truncate(image.len().saturating_sub(2))),
    damage("one count shorter", |image, _| image.truncate(image.len().saturating_sub(8))),
    damage("cut anywhere", |image, random| image.truncate(random.between(0, image.len()))),
    damage("cut after its header", |image, _| image.truncate(HEADER)),
    damage("cut within its header", |image, random| image.truncate(random.between(0, HEADER - 1))),
];

// ---- damages together, by their numbers: first come those of tables, then those of lengths, then those
// of images

const FIRST_OF_LENGTHS: usize = OF_TABLE.len();
const FIRST_OF_IMAGE: usize = FIRST_OF_LENGTHS + OF_LENGTHS.len();

/// The damages that tables can have, and those that tables with lengths can.
pub fn of_tables() -> Vec<usize> {
    (0..FIRST_OF_LENGTHS).collect()
}

pub fn of_tables_with_lengths() -> Vec<usize> {
    (0..FIRST_OF_IMAGE).collect()
}

/// The damages that images of a version can have.
pub fn of_images(version: Version) -> Vec<usize> {
    let of_image = FIRST_OF_IMAGE..FIRST_OF_IMAGE + OF_IMAGE.len();
    match version {
        Version::One => of_tables().into_iter().chain(of_image).collect(),
        Version::Two => of_tables_with_lengths().into_iter().chain(of_image).collect(),
    }
}

/// Each one of these, each two, and some hundred choices of three to five; each in rising order.
pub fn choices(of: &[usize], seed: u64) -> Vec<Vec<usize>> {
    let all = of.len();
    let mut choices = Vec::new();
    for one in 0..all {
        choices.push(vec![of[one]]);
        choices.extend((one + 1..all).map(|other| vec![of[one], of[other]]));
    }
    let random = &mut Random::of_case(seed, all);
    for _ in 0..200 {
        let mut choice: Vec<usize> = (0..random.between(3, 5)).map(|_| random.one_of(of)).collect();
        choice.sort();
        choices.push(choice);
    }
    choices
}

/// What was chosen, in words.
pub fn names(damages: &[usize]) -> String {
    let of_table = OF_TABLE.iter().map(|damage| damage.name);
    let of_lengths = OF_LENGTHS.iter().map(|damage| damage.name);
    let of_image = OF_IMAGE.iter().map(|damage| damage.name);
    let all: Vec<&str> = of_table.chain(of_lengths).chain(of_image).collect();
    damages.iter().map(|&damage| all[damage]).collect::<Vec<_>>().join("; ")
}

/// Does those of the damages that are of one kind, whose first number is this.
fn apply<T>(damages: &[usize], kind: &[Damage<T>], first: usize, to: &mut T, random: &mut Random) {
    let of_kind = damages.iter().filter_map(|damage| kind.get(damage.checked_sub(first)?));
    of_kind.for_each(|damage| (damage.apply)(to, random));
}

pub fn damaged_table(random: &mut Random, damages: &[usize]) -> Table {
    let mut table = graphs::to_damage(random);
    apply(damages, OF_TABLE, 0, &mut table, random);
    table
}

/// A damaged table as an image of a version is to hold it.
pub fn damaged_content(random: &mut Random, version: Version, damages: &[usize]) -> Content {
    let table = damaged_table(random, damages);
    let mut content = graphs::content(random, version, table);
    if let Some(lengths) = &mut content.lengths {
        apply(damages, OF_LENGTHS, FIRST_OF_LENGTHS, lengths, random);
    }
    content
}

pub fn damaged_image(random: &mut Random, version: Version, damages: &[usize]) -> Vec<u8> {
    let mut image = damaged_content(random, version, damages).image();
    apply(damages, OF_IMAGE, FIRST_OF_IMAGE, &mut image, random);
    image.truncate(LONGEST_STREAM);
    image
}

// ---- what the damages share

enum End {
    First,
    Last,
}

fn set<T>(slice: &mut [T], end: End, value: T) {
    let place = match end {
        End::First => slice.first_mut(),
        End::Last => slice.last_mut(),
    };
    if let Some(place) = place {
        *place = value;
    }
}

/// As many vertices more, with empty rows and the count 0, as make n.
fn lengthen(table: &mut Table, n: usize) {
    let last = table.starts.last().copied().unwrap_or(0);
    table.starts.resize(n + 1, last);
    table.counts.resize(n, 0);
}

fn set_any<T>(slice: &mut [T], random: &mut Random, value: T) {
    if !slice.is_empty() {
        slice[random.place(slice.len())] = value;
    }
}

/// At a place that is neither the first nor the last.
fn set_inner<T>(slice: &mut [T], random: &mut Random, value: T) {
    if let [_, inner @ .., _] = slice {
        set_any(inner, random, value);
    }
}

/// Changes the first or last row that has at least two targets.
fn long_row(table: &mut Table, end: End, change: fn(&mut [u32])) {
    let all = table.targets.len();
    let mut rows = table
        .starts
        .windows(2)
        .map(|two| two[0] as usize..two[1] as usize)
        .filter(|row| row.end <= all && row.start + 2 <= row.end);
    let row = match end {
        End::First => rows.next(),
        End::Last => rows.last(),
    };
    if let Some(row) = row {
        change(&mut table.targets[row]);
    }
}

fn put(image: &mut [u8], place: usize, bytes: &[u8]) {
    if let Some(part) = image.get_mut(place..place + bytes.len()) {
        part.copy_from_slice(bytes);
    }
}
