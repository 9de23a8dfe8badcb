//! The answers of the program `batch` that the rules give, and how far an answer reaches in what a
//! program printed. Raw bytes stand behind an answer's first line: they are all the memory that was
//! lent, as the call left it.

use crate::count::Fault;
use crate::fold::{self, Folded};
use crate::foldings::{Folding, Rings};
use crate::image::{self, Content, Room, SLICES};
use crate::operations::Operation::{self, *};
use crate::operations::MOST_ROOM;
use crate::parts::{difference_of_parts, Part};
use crate::quick;
use crate::superbubbles::{self, Way};
use crate::table::{number_given, Table};
use crate::versions::Version;

/// What every byte of a lent image slice is before the call, and every number of the lent output.
const BYTE_BEFORE: u8 = 165;
const NUMBER_BEFORE: u8 = 7;

impl Operation {
    /// The table whose superbubbles matter, where any do.
    pub fn searched(&self) -> Option<&Table> {
        match self {
            Show { .. } | Check { .. } | Write { .. } | Look { .. } | Load { .. } => None,
            List { table, .. } | Judge { table, .. } | Fold { table, .. } => Some(table),
        }
    }

    pub fn answer(&self) -> Vec<u8> {
        self.answer_by(self.searched().map_or(&quick::WAY, superbubbles::way))
    }

    /// The answer where superbubbles are found in this way.
    pub fn answer_by(&self, way: &Way) -> Vec<u8> {
        let number = number_given(&self.faults());
        match self {
            Show { stream } => image::show_text(stream).into_bytes(),
            Check { table } => {
                let without = number_given(&table.faults_without_counts());
                format!("check {without} counted {number}\n").into_bytes()
            }
            Write { room, content } => {
                let wrote = match content.version() {
                    Version::One => "wrote",
                    Version::Two => "wrote_lengths",
                };
                let image = if number == 0 { content.image() } else { Vec::new() };
                let mut answer = format!("{wrote} {number} {}\n", image.len()).into_bytes();
                let end = answer.len() + room;
                answer.extend(image);
                answer.resize(end, BYTE_BEFORE);
                answer.push(b'\n');
                answer
            }
            Look { .. } if number != 0 => format!("look {number} 0 0 0\n").into_bytes(),
            Look { stream } => {
                let room = image::room_for(stream).expect("what is accepted has a header");
                load(&format!("look 0 {} ", sizes(&image::content_in(stream))), stream, room)
            }
            Load { room, stream } => load("", stream, *room),
            List { room, table } => {
                let found = if number == 0 { (way.superbubbles)(table) } else { Vec::new() };
                let pairs: Vec<_> = found.iter().map(|superbubble| superbubble.pair()).collect();
                list(number, &pairs, *room)
            }
            Judge { pair: (s, t), table } => {
                let found =
                    if number == 0 { (way.judge)(table, *s as usize, *t as usize) } else { None };
                judge(number, found.map(|superbubble| superbubble.all.len()))
            }
            Fold { folding, budget, room, table } => {
                let folded = (number == 0).then(|| fold::fold(way, *folding, table, *budget));
                fold(*folding, number, folded.unwrap_or_default(), *room)
            }
        }
    }

    /// The table of a fold that comes to the cycle test, by its answer, and whether it is refused
    /// there.
    pub fn cycle_tested(&self, answer: &[u8]) -> Option<(&Table, bool)> {
        match (self, &numbers_in_first_line(answer)[..]) {
            (Fold { folding, table, .. }, [number @ (0 | 9), ..]) => {
                (folding.rings == Rings::Refused).then_some((table, *number == 9))
            }
            _ => None,
        }
    }

    /// How long the answer to this question is in what a program printed, by its own first line;
    /// none where the output ends before the answer does.
    pub fn length_in(&self, output: &[u8]) -> Option<usize> {
        let first = end_of_line(output, 0)?;
        let end = match self {
            Show { .. } => (0..lines_after(&output[..first]))
                .try_fold(first, |end, _| end_of_line(output, end))?,
            _ => {
                let lent = self.lent(output);
                let bytes = lent.iter().map(|slice| slice.length * slice.width).sum::<usize>();
                // behind slices stands one more line feed
                first + bytes + usize::from(!lent.is_empty())
            }
        };
        (end <= output.len()).then_some(end)
    }

    /// The slices behind the first line of an answer; those behind that of a look are as long as it
    /// says.
    fn lent(&self, answer: &[u8]) -> Vec<LentSlice> {
        let lent = |name, length, width| LentSlice { name, length, width };
        let all = |room: Room| {
            let slices = SLICES.into_iter().zip(room.numbers()).zip([4, 4, 8, 2]);
            slices.map(|((name, length), width)| lent(name, length, width)).collect::<Vec<_>>()
        };
        match self {
            Show { .. } | Check { .. } | Judge { .. } => Vec::new(),
            Write { room, .. } => vec![lent("image", *room, 1)],
            List { room, .. } => vec![lent("out", *room, 4)],
            Look { .. } => room_looked_up(answer).map_or(Vec::new(), all),
            Load { room, .. } => all(*room),
            Fold { room, .. } => all(*room).into_iter().take(3).collect(),
        }
    }

    /// An answer taken apart: the text, and then the slices, as far as it reaches.
    pub fn parts(&self, answer: &[u8]) -> Vec<Part> {
        let lent = self.lent(answer);
        if lent.is_empty() {
            return vec![Part::text("", answer)];
        }
        let first = end_of_line(answer, 0).unwrap_or(answer.len());
        let (line, mut rest) = answer.split_at(first);
        let mut parts = vec![Part::text("", line)];
        for slice in lent {
            let (bytes, behind) = rest.split_at(rest.len().min(slice.length * slice.width));
            let numbers: Vec<u64> = bytes.chunks(slice.width).map(little_endian).collect();
            parts.push(Part::slice(slice.name, &numbers));
            rest = behind;
        }
        parts.push(Part::text("behind the slices", rest));
        parts
    }

    /// In words where another answer differs first, if it does.
    pub fn difference(&self, answer: &[u8], came: &[u8]) -> Fault {
        if answer == came {
            return None;
        }
        difference_of_parts(&self.parts(answer), &self.parts(came))
    }
}

/// A slice that was lent: how many numbers it has, and of how many bytes each is.
struct LentSlice {
    name: &'static str,
    length: usize,
    width: usize,
}

fn little_endian(bytes: &[u8]) -> u64 {
    bytes.iter().rev().fold(0, |number, &byte| number << 8 | u64::from(byte))
}

// ---- the answers by what they say

/// The answer to a question to load, behind the beginning of its line.
fn load(beginning: &str, stream: &[u8], room: Room) -> Vec<u8> {
    match number_given(&image::faults_of_load(stream, room)) {
        0 => {
            let content = image::content_in(stream);
            with_slices(format!("{beginning}load 0 {}\n", sizes(&content)), content, room)
        }
        number => {
            with_slices(format!("{beginning}load {number} 0 0 0\n"), Content::default(), room)
        }
    }
}

/// Version, n and m.
fn sizes(content: &Content) -> String {
    let (n, m) = content.table.sizes();
    format!("{} {n} {m}", content.version().number())
}

/// The answer to a question to list.
pub fn list(number: u32, pairs: &[(usize, usize)], room: usize) -> Vec<u8> {
    let mut answer = format!("list {number} {}\n", pairs.len()).into_bytes();
    let mut slice: Vec<u32> = pairs.iter().flat_map(|&(s, t)| [s as u32, t as u32]).collect();
    slice.resize(room, NUMBER_BEFORE as u32);
    image::append_numbers(&mut answer, &slice);
    answer.push(b'\n');
    answer
}

/// The answer to a question to judge: a superbubble of so many vertices, or none.
pub fn judge(number: u32, size: Option<usize>) -> Vec<u8> {
    format!("judge {number} {} {}\n", size.is_some() as u32, size.unwrap_or(0)).into_bytes()
}

/// The answer to a question to fold.
pub fn fold(folding: Folding, number: u32, folded: Folded, room: Room) -> Vec<u8> {
    let Folded { table, folded, left } = folded;
    let m = table.targets.len();
    let first_line = format!("{} {number} {folded} {left} {m}\n", folding.name());
    with_slices(first_line, Content { table, lengths: None }, room)
}

/// A first line, and then slices of this room with table and lengths at their front.
fn with_slices(first_line: String, content: Content, room: Room) -> Vec<u8> {
    let mut answer = first_line.into_bytes();
    let Content { mut table, lengths } = content;
    table.starts.resize(room.starts, NUMBER_BEFORE as u32);
    table.targets.resize(room.targets, NUMBER_BEFORE as u32);
    table.counts.resize(room.counts, NUMBER_BEFORE as u64);
    let mut lengths = lengths.unwrap_or_default();
    lengths.resize(room.lengths, NUMBER_BEFORE as u16);
    Content { table, lengths: Some(lengths) }.append_to(&mut answer);
    answer.push(b'\n');
    answer
}

// ---- what an answer says

/// The numbers in the first line of an answer.
pub fn numbers_in_first_line(answer: &[u8]) -> Vec<usize> {
    let line = &answer[..end_of_line(answer, 0).unwrap_or(answer.len())];
    String::from_utf8_lossy(line).split_whitespace().flat_map(|word| word.parse()).collect()
}

/// The room into which a look that accepts has its image loaded, by its answer; none where it refuses,
/// or where the answer says what cannot be.
fn room_looked_up(answer: &[u8]) -> Option<Room> {
    let [0, version, n, m, _, _, _, _] = numbers_in_first_line(answer)[..] else {
        return None;
    };
    let version = Version::of_number(u16::try_from(version).ok()?)?;
    Some(Room::of_version(version, n, m)).filter(|room| room.is_within(MOST_ROOM))
}

/// What an accepted fold of n vertices gave, by its answer; none where it was refused, or where the
/// answer says what cannot be.
pub fn folded_in(answer: &[u8], room: Room, n: usize) -> Option<Folded> {
    let first = end_of_line(answer, 0)?;
    let [0, folded, left, m] = numbers_in_first_line(answer)[..] else {
        return None;
    };
    if room.is_below(n, m) {
        return None;
    }
    let mut table = image::table_in(&answer[first..], room);
    table.starts.truncate(n + 1);
    table.targets.truncate(m);
    table.counts.truncate(n);
    Some(Folded { table, folded, left })
}

/// The place after the next line feed.
fn end_of_line(output: &[u8], from: usize) -> Option<usize> {
    output[from..].iter().position(|&byte| byte == b'\n').map(|place| from + place + 1)
}

/// How many lines follow on a first line `table N M`: N. On any other, none.
fn lines_after(first_line: &[u8]) -> usize {
    let line = String::from_utf8_lossy(first_line);
    let mut words = line.split_whitespace();
    match (words.next(), words.next()) {
        (Some("table"), Some(n)) => n.parse().unwrap_or(0),
        _ => 0,
    }
}
