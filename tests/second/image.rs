//! The house image of the rules (docs/RULES.md, Image): its layout in both versions, the numbers that a
//! look at it earns, the room that a load of it needs, and what the programs `look` and `show` print for
//! it.

use crate::parts::Part;
use crate::table::{number_given, Table, MOST_EDGES, MOST_VERTICES};
use crate::versions::Version;

pub const HEADER: usize = 13;
/// The longest image of version 1, and the longest of all.
pub const LARGEST_OF_ONE: usize = 57_361;
pub const LARGEST: usize = 61_457;

/// What an image holds: a table, and in version 2 its lengths. Well-formed or not.
#[derive(Clone, Default, PartialEq)]
pub struct Content {
    pub table: Table,
    pub lengths: Option<Vec<u16>>,
}

impl Content {
    pub fn of_table(table: &Table) -> Content {
        Content { table: table.clone(), lengths: None }
    }

    pub fn with_lengths(table: &Table, lengths: &[u16]) -> Content {
        Content { table: table.clone(), lengths: Some(lengths.to_vec()) }
    }

    pub fn version(&self) -> Version {
        match self.lengths {
            None => Version::One,
            Some(_) => Version::Two,
        }
    }

    pub fn parts(&self) -> Vec<Part> {
        let mut parts = self.table.parts();
        parts.extend(self.lengths.iter().map(|lengths| Part::slice("lengths", lengths)));
        parts
    }

    /// How long the slices are.
    pub fn room(&self) -> Room {
        let lengths = self.lengths.as_ref().map_or(0, Vec::len);
        Room { lengths, ..Room::taken_by(&self.table) }
    }

    /// All laid out as an image.
    pub fn image(&self) -> Vec<u8> {
        let n = (self.table.starts.len() as u32).wrapping_sub(1);
        let mut image = b"SBT".to_vec();
        image.extend(self.version().number().to_le_bytes());
        image.extend(n.to_le_bytes());
        image.extend((self.table.targets.len() as u32).to_le_bytes());
        self.append_to(&mut image);
        image
    }

    /// The slices, one after the other, little-endian.
    pub fn append_to(&self, bytes: &mut Vec<u8>) {
        append_table(bytes, &self.table);
        for length in self.lengths.iter().flatten() {
            bytes.extend(length.to_le_bytes());
        }
    }

    /// The numbers 1 to 7 whose condition holds, smallest first, and with lengths 20.
    pub fn faults(&self) -> Vec<u32> {
        let mut faults = self.table.faults();
        if let Some(lengths) = &self.lengths {
            if self.table.vertices().is_some_and(|n| lengths.len() != n) {
                faults.push(6);
            }
            if lengths.contains(&0) {
                faults.push(20);
            }
        }
        // too few counts and too few lengths are one fault
        faults.sort();
        faults.dedup();
        faults
    }
}

/// A table laid out as an image of version 1.
pub fn of_table(table: &Table) -> Vec<u8> {
    Content::of_table(table).image()
}

/// A table and its lengths laid out as an image of version 2.
pub fn with_lengths(table: &Table, lengths: &[u16]) -> Vec<u8> {
    Content::with_lengths(table, lengths).image()
}

/// An image whose header says another version.
pub fn with_version(image: &[u8], version: u16) -> Vec<u8> {
    [&image[..3], &version.to_le_bytes(), &image[5..]].concat()
}

/// Starts, targets and counts, one after the other, little-endian.
pub fn append_table(bytes: &mut Vec<u8>, table: &Table) {
    append_numbers(bytes, &table.starts);
    append_numbers(bytes, &table.targets);
    for count in &table.counts {
        bytes.extend(count.to_le_bytes());
    }
}

/// Numbers of 32 bits, one after the other, little-endian.
pub fn append_numbers(bytes: &mut Vec<u8>, numbers: &[u32]) {
    for number in numbers {
        bytes.extend(number.to_le_bytes());
    }
}

/// What a header says. The version may be none that there is.
struct Header {
    version: Option<Version>,
    n: usize,
    m: usize,
}

impl Header {
    /// The header of a stream, where it has one.
    fn of(stream: &[u8]) -> Option<Header> {
        (stream.len() >= HEADER).then(|| Header {
            version: Version::of_number(u16_at(stream, 3)),
            n: u32_at(stream, 5) as usize,
            m: u32_at(stream, 9) as usize,
        })
    }

    /// The room for what it says; there are lengths in version 2 alone.
    fn room(&self) -> Room {
        Room::of_version(self.version.unwrap_or(Version::One), self.n, self.m)
    }
}

/// The version that the header of a stream says, where it says one.
pub fn version_of(stream: &[u8]) -> Option<Version> {
    Header::of(stream)?.version
}

/// The room for what a stream holds, by its header, where it has one.
pub fn room_for(stream: &[u8]) -> Option<Room> {
    Header::of(stream).map(|header| header.room())
}

fn u16_at(bytes: &[u8], place: usize) -> u16 {
    u16::from_le_bytes(bytes[place..place + 2].try_into().unwrap())
}

fn u32_at(bytes: &[u8], place: usize) -> u32 {
    u32::from_le_bytes(bytes[place..place + 4].try_into().unwrap())
}

fn u64_at(bytes: &[u8], place: usize) -> u64 {
    u64::from_le_bytes(bytes[place..place + 8].try_into().unwrap())
}

/// What is in a stream that is at least as long as its header says.
pub fn content_in(stream: &[u8]) -> Content {
    let room = room_for(stream).expect("the stream has a header");
    let bytes = &stream[HEADER..];
    let lengths = room.bytes() - 2 * room.lengths;
    let lengths = (0..room.lengths).map(|place| u16_at(bytes, lengths + 2 * place)).collect();
    let has_lengths = version_of(stream) == Some(Version::Two);
    Content { table: table_in(bytes, room), lengths: has_lengths.then_some(lengths) }
}

/// A table whose slices have these lengths, one after the other, at the front of some bytes.
pub fn table_in(bytes: &[u8], room: Room) -> Table {
    let targets = 4 * room.starts;
    let counts = targets + 4 * room.targets;
    Table {
        starts: (0..room.starts).map(|place| u32_at(bytes, 4 * place)).collect(),
        targets: (0..room.targets).map(|place| u32_at(bytes, targets + 4 * place)).collect(),
        counts: (0..room.counts).map(|place| u64_at(bytes, counts + 8 * place)).collect(),
    }
}

/// The numbers whose condition holds of this stream, in the order in which they are given: 10, 11, 1,
/// 2, 12, 3, 4, 5, 7, 20. A fault of the table or of its lengths counts where all of them is there.
pub fn faults(stream: &[u8]) -> Vec<u32> {
    let Some(header) = Header::of(stream) else {
        return vec![10];
    };
    let due = header.room().image();
    let mut faults = Vec::new();
    if &stream[..3] != b"SBT" {
        faults.push(10);
    }
    if header.version.is_none() {
        faults.push(11);
    }
    if header.n > MOST_VERTICES {
        faults.push(1);
    }
    if header.m > MOST_EDGES {
        faults.push(2);
    }
    if stream.len() != due {
        faults.push(12);
    }
    if stream.len() >= due {
        let content = content_in(stream).faults();
        faults.extend(content.iter().filter(|&&number| [3, 4, 5, 7, 20].contains(&number)));
    }
    faults
}

/// The same of a load into slices of this room: behind all others comes 8.
pub fn faults_of_load(stream: &[u8], room: Room) -> Vec<u32> {
    let mut faults = faults(stream);
    if room_for(stream).is_some_and(|due| !due.is_within(room)) {
        faults.push(8);
    }
    faults
}

/// What is in an image that is accepted, or the number that it is refused by.
pub fn content_or_number(stream: &[u8]) -> Result<Content, u32> {
    match number_given(&faults(stream)) {
        0 => Ok(content_in(stream)),
        number => Err(number),
    }
}

/// How long the output slices are that loading and folding are lent. A fold is lent no lengths.
#[derive(Clone, Copy, PartialEq, Eq, Hash)]
pub struct Room {
    pub starts: usize,
    pub targets: usize,
    pub counts: usize,
    pub lengths: usize,
}

/// The slices by name.
pub const SLICES: [&str; 4] = ["starts", "targets", "counts", "lengths"];

/// A kind of room for a load: its name, and the room by the one that the header says, where there is
/// one that can be lent.
pub type Kind = (&'static str, fn(Option<Room>) -> Option<Room>);

/// The kinds of room with which each image is loaded. In version 1 exact room has no lengths.
pub const ROOMS: [Kind; 7] = [
    ("exact room", |exact| exact),
    ("a start less", |exact| exact.and_then(|it| it.less([1, 0, 0, 0]))),
    ("a target less", |exact| exact.and_then(|it| it.less([0, 1, 0, 0]))),
    ("a count less", |exact| exact.and_then(|it| it.less([0, 0, 1, 0]))),
    (A_LENGTH_LESS, |exact| exact.and_then(|it| it.less([0, 0, 0, 1]))),
    ("a length more", |exact| exact.map(|it| Room { lengths: it.lengths + 1, ..it })),
    ("no room", |_| Some(Room::NONE)),
];

/// The kind of room that there is in version 2 alone.
pub const A_LENGTH_LESS: &str = "a length less";

impl Room {
    pub const NONE: Room = Room { starts: 0, targets: 0, counts: 0, lengths: 0 };

    /// What a table of n vertices and m edges needs.
    pub fn of(n: usize, m: usize) -> Room {
        Room { starts: n + 1, targets: m, counts: n, lengths: 0 }
    }

    /// The same with the lengths that there are in this version.
    pub fn of_version(version: Version, n: usize, m: usize) -> Room {
        Room { lengths: version.lengths(n), ..Room::of(n, m) }
    }

    /// How long the slices of a table are.
    pub fn taken_by(table: &Table) -> Room {
        let (starts, targets) = (table.starts.len(), table.targets.len());
        Room { starts, targets, counts: table.counts.len(), lengths: 0 }
    }

    /// The lengths of the slices, in their order.
    pub fn numbers(self) -> [usize; 4] {
        [self.starts, self.targets, self.counts, self.lengths]
    }

    /// How many bytes the slices have.
    pub fn bytes(self) -> usize {
        4 * self.starts + 4 * self.targets + 8 * self.counts + 2 * self.lengths
    }

    /// The length of an image whose slices are so long.
    pub fn image(self) -> usize {
        HEADER + self.bytes()
    }

    /// Whether it is too little for a table of n vertices and m edges.
    pub fn is_below(self, n: usize, m: usize) -> bool {
        !Room::of(n, m).is_within(self)
    }

    pub fn is_within(self, other: Room) -> bool {
        !other.is_short_of(self).contains(&true)
    }

    /// For each of the slices whether it is shorter than this.
    pub fn is_short_of(self, due: Room) -> [bool; 4] {
        let (own, due) = (self.numbers(), due.numbers());
        [0, 1, 2, 3].map(|slice| own[slice] < due[slice])
    }

    /// So many numbers less of each slice, where it has as many.
    fn less(self, [starts, targets, counts, lengths]: [usize; 4]) -> Option<Room> {
        Some(Room {
            starts: self.starts.checked_sub(starts)?,
            targets: self.targets.checked_sub(targets)?,
            counts: self.counts.checked_sub(counts)?,
            lengths: self.lengths.checked_sub(lengths)?,
        })
    }
}

/// Some lengths of slices in words.
pub fn words(numbers: &[usize]) -> String {
    numbers.iter().map(usize::to_string).collect::<Vec<_>>().join(" ")
}

/// A stream taken apart: what `show` prints for it, and its bytes.
pub fn parts(name: &str, stream: &[u8]) -> Vec<Part> {
    vec![
        Part::text(&format!("{name} by show"), show_text(stream).as_bytes()),
        Part::slice(&format!("bytes of {name}"), stream),
    ]
}

/// What a program prints for a stream: its text of what is in it, or the line of a refusal.
pub fn text(stream: &[u8], of_content: impl Fn(&Content) -> String) -> String {
    match content_or_number(stream) {
        Ok(content) => of_content(&content),
        Err(number) => format!("refused {number}\n"),
    }
}

/// What `look` prints for a stream.
pub fn look_text(stream: &[u8]) -> String {
    text(stream, sizes_line)
}

/// The line with the sizes of a table, and whether it has lengths.
fn sizes_line(content: &Content) -> String {
    let (n, m) = content.table.sizes();
    let lengths = content.lengths.as_ref().map_or("", |_| " lengths");
    format!("table {n} {m}{lengths}\n")
}

/// What `show` prints for a stream.
pub fn show_text(stream: &[u8]) -> String {
    text(stream, |content| {
        let mut text = sizes_line(content);
        for (vertex, count) in content.table.counts.iter().enumerate() {
            text += &format!("{vertex} {count}");
            if let Some(lengths) = &content.lengths {
                text += &format!(" {}", lengths[vertex]);
            }
            for successor in content.table.row(vertex) {
                text += &format!(" {successor}");
            }
            text += "\n";
        }
        text
    })
}
