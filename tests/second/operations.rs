//! The operations as the program `batch` takes them: for each the question that it is handed, and the
//! numbers that it earns by the rules (docs/RULES.md, Numbers).
//!
//! A question is one byte, the operation; the length of the body, 32 bits; and the body. All numbers
//! are little-endian. What is asked of a table without its counts is handed none.

use crate::foldings::{Folding, Rings};
use crate::image::{self, Content, Room};
use crate::parts::Part;
use crate::superbubbles;
use crate::table::Table;
use crate::versions::Version;

/// The longest stream that a question has: the most that a program reads.
pub const LONGEST_STREAM: usize = image::LARGEST + 1;
/// The longest slices that a question has or asks for.
pub const MOST_ROOM: Room = Room { starts: 4_096, targets: 16_384, counts: 4_096, lengths: 4_096 };
/// The longest slices that a question asks for to be listed into, and to be written into.
pub const LONGEST_LIST: usize = 8_192;
pub const LONGEST_IMAGE: usize = 65_536;

pub enum Operation {
    /// What `show` prints for a stream.
    Show { stream: Vec<u8> },
    /// The numbers of a table, without its counts and with them.
    Check { table: Table },
    /// Image writing into a slice of so many bytes, in the version that has what is handed over.
    Write { room: usize, content: Content },
    /// A look at an image, and where it is accepted a load into slices that are just as long as the
    /// look says.
    Look { stream: Vec<u8> },
    /// Loading an image into slices of so many numbers.
    Load { room: Room, stream: Vec<u8> },
    /// Listing into a slice of so many numbers.
    List { room: usize, table: Table },
    /// Judging one pair.
    Judge { pair: (u32, u32), table: Table },
    /// Folding by one of the folds into slices of so many numbers.
    Fold { folding: Folding, budget: u32, room: Room, table: Table },
}

use Operation::*;

/// An operation's name, and the numbers other than 0 that it can give, in the order in which it does.
pub const OPERATIONS: [(&str, &[u32]); 12] = [
    ("show", &[10, 11, 1, 2, 12, 3, 4, 5, 7, 20]),
    ("check", &[1, 2, 3, 4, 5, 6, 7]),
    ("write", &[1, 2, 3, 4, 5, 6, 7, 8]),
    ("write_lengths", &[1, 2, 3, 4, 5, 6, 7, 20, 8]),
    ("look", &[10, 11, 1, 2, 12, 3, 4, 5, 7, 20]),
    ("load", &[10, 11, 1, 2, 12, 3, 4, 5, 7, 20, 8]),
    ("list", &[1, 2, 3, 4, 5, 8]),
    ("judge", &[1, 2, 3, 4, 5, 13]),
    ("fold", &[1, 2, 3, 4, 5, 6, 7, 8, 9]),
    ("fold_weakest", &[1, 2, 3, 4, 5, 6, 7, 8, 9]),
    ("fold_rings", &[1, 2, 3, 4, 5, 6, 7, 8]),
    ("fold_rings_weakest", &[1, 2, 3, 4, 5, 6, 7, 8]),
];

impl Operation {
    /// A fold with exact room.
    pub fn fold_exactly(folding: Folding, budget: u32, table: Table) -> Operation {
        Fold { folding, budget, room: Room::taken_by(&table), table }
    }

    pub fn name(&self) -> &'static str {
        match self {
            Show { .. } => "show",
            Check { .. } => "check",
            Write { content, .. } => content.version().write(),
            Look { .. } => "look",
            Load { .. } => "load",
            List { .. } => "list",
            Judge { .. } => "judge",
            Fold { folding, .. } => folding.name(),
        }
    }

    /// Whether no slice is longer than `batch` takes it.
    pub fn fits(&self) -> bool {
        match self {
            Show { stream } | Look { stream } => stream.len() <= LONGEST_STREAM,
            Check { table } | Judge { table, .. } => Room::taken_by(table).is_within(MOST_ROOM),
            Write { room, content } => {
                *room <= LONGEST_IMAGE && content.room().is_within(MOST_ROOM)
            }
            Load { room, stream } => room.is_within(MOST_ROOM) && stream.len() <= LONGEST_STREAM,
            List { room, table } => {
                *room <= LONGEST_LIST && Room::taken_by(table).is_within(MOST_ROOM)
            }
            Fold { room, table, .. } => {
                room.is_within(MOST_ROOM) && Room::taken_by(table).is_within(MOST_ROOM)
            }
        }
    }

    pub fn question(&self) -> Vec<u8> {
        let mut body = Vec::new();
        let operation = match self {
            Show { stream } => {
                body.extend(stream);
                b's'
            }
            Check { table } => {
                append_lent(&mut body, table);
                b't'
            }
            Write { room, content } => {
                append_number(&mut body, *room);
                let slices = if content.lengths.is_some() { 4 } else { 3 };
                append_lengths(&mut body, &content.room().numbers()[..slices]);
                content.append_to(&mut body);
                match content.version() {
                    Version::One => b'w',
                    Version::Two => b'x',
                }
            }
            Look { stream } => {
                body.extend(stream);
                b'k'
            }
            Load { room, stream } => {
                append_lengths(&mut body, &room.numbers());
                body.extend(stream);
                b'd'
            }
            List { room, table } => {
                append_number(&mut body, *room);
                append_lent_without_counts(&mut body, table);
                b'l'
            }
            Judge { pair: (s, t), table } => {
                body.extend([s.to_le_bytes(), t.to_le_bytes()].concat());
                append_lent_without_counts(&mut body, table);
                b'j'
            }
            Fold { folding, budget, room, table } => {
                body.extend(budget.to_le_bytes());
                append_lengths(&mut body, &room.numbers()[..3]);
                append_lent(&mut body, table);
                match (folding.rings, folding.version) {
                    (Rings::Refused, Version::One) => b'f',
                    (Rings::Refused, Version::Two) => b'g',
                    (Rings::Taken, Version::One) => b'r',
                    (Rings::Taken, Version::Two) => b'q',
                }
            }
        };
        let mut question = vec![operation];
        append_number(&mut question, body.len());
        question.extend(body);
        question
    }

    /// The question taken apart.
    pub fn asked(&self) -> Vec<Part> {
        let (values, handed) = match self {
            Show { stream } | Look { stream } => (vec![], image::parts("the stream", stream)),
            Check { table } => (vec![], table.parts()),
            Write { room, content } => (vec![("room", room.to_string())], content.parts()),
            List { room, table } => (vec![("room", room.to_string())], table.parts()),
            Load { room, stream } => {
                let room = image::words(&room.numbers());
                (vec![("room", room)], image::parts("the stream", stream))
            }
            Judge { pair: (s, t), table } => (vec![("pair", format!("{s} {t}"))], table.parts()),
            Fold { budget, room, table, .. } => {
                let room = image::words(&room.numbers()[..3]);
                (vec![("budget", budget.to_string()), ("room", room)], table.parts())
            }
        };
        let values = values.into_iter().map(|(name, value)| Part::value(name, value));
        values.chain(handed).collect()
    }

    /// The numbers whose condition holds, in the order in which they are given. A cycle is looked for
    /// where rows are, and it is refused.
    pub fn faults(&self) -> Vec<u32> {
        match self {
            Show { stream } | Look { stream } => image::faults(stream),
            Check { table } => table.faults(),
            Write { room, content } => {
                let (version, m) = (content.version(), content.table.targets.len());
                let due = |n| Room::of_version(version, n, m).image();
                let room_is_below = content.table.vertices().is_some_and(|n| *room < due(n));
                with(content.faults(), 8, room_is_below)
            }
            Load { room, stream } => image::faults_of_load(stream, *room),
            List { room, table } => {
                let room_is_below = table.vertices().is_some_and(|n| *room < 2 * n);
                with(table.faults_without_counts(), 8, room_is_below)
            }
            Judge { pair: (s, t), table } => {
                let beyond = table.vertices().is_some_and(|n| (*s).max(*t) as usize >= n);
                with(table.faults_without_counts(), 13, beyond)
            }
            Fold { folding, room, table, .. } => {
                let room_is_below =
                    table.vertices().is_some_and(|n| room.is_below(n, table.targets.len()));
                let faults = with(table.faults(), 8, room_is_below);
                let is_tested = !folding.takes_rings() && faults.iter().all(|&number| number > 3);
                with(faults, 9, is_tested && (superbubbles::way(table).has_cycle)(table))
            }
        }
    }
}

/// The room that the header of a stream says, where it can be lent.
pub fn exact_room(stream: &[u8]) -> Option<Room> {
    image::room_for(stream).filter(|room| room.is_within(MOST_ROOM))
}

/// The faults, and one more where it holds.
fn with(mut faults: Vec<u32>, number: u32, holds: bool) -> Vec<u32> {
    faults.extend(holds.then_some(number));
    faults
}

fn append_number(bytes: &mut Vec<u8>, number: usize) {
    bytes.extend((number as u32).to_le_bytes());
}

/// The lengths of slices.
fn append_lengths(body: &mut Vec<u8>, lengths: &[usize]) {
    lengths.iter().for_each(|&length| append_number(body, length));
}

/// The three lengths, then the three slices.
fn append_lent(body: &mut Vec<u8>, table: &Table) {
    append_lengths(body, &Room::taken_by(table).numbers()[..3]);
    image::append_table(body, table);
}

/// The lengths of starts and targets, then these two slices.
fn append_lent_without_counts(body: &mut Vec<u8>, table: &Table) {
    append_lengths(body, &Room::taken_by(table).numbers()[..2]);
    image::append_numbers(body, &table.starts);
    image::append_numbers(body, &table.targets);
}
