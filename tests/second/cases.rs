//! The cases: what is asked, in a fixed order with fixed numbers. A case depends on the seed and on
//! its own number alone; the loads behind a look, which are of the same image, on that of the look.

use crate::count::{Count, Fault};
use crate::damages;
use crate::foldings::Folding;
use crate::graphs::{self, TWELVE};
use crate::image::{self, Content, Kind, Room, ROOMS};
use crate::limits;
use crate::operations::{exact_room, Operation, LONGEST_IMAGE};
use crate::parallel;
use crate::parts::Part;
use crate::random::Random;
use crate::runs::ProgramRun;
use crate::table::{Table, LARGEST_SUM};
use crate::turns::{self, Folds, Turned, Turns};
use crate::versions::{Version, VERSIONS};
use crate::worked;
use std::fmt::{self, Display, Formatter};

pub struct Case {
    seed: u64,
    pub number: usize,
    /// What is asked, in words.
    pub name: String,
    pub asked: Asked,
    /// How the answer begins, or all of it, where it was written by hand.
    pub by_hand: Option<Vec<u8>>,
}

pub enum Asked {
    /// A question to `batch`, which takes many in one run.
    Batch(Operation),
    /// A run of another program.
    Program(ProgramRun),
    /// Folds in turn, by `batch`.
    Turns(Turns),
}

impl Case {
    pub fn operation(&self) -> Option<&Operation> {
        match &self.asked {
            Asked::Batch(operation) => Some(operation),
            Asked::Program(_) | Asked::Turns(_) => None,
        }
    }

    pub fn turns(&self) -> Option<&Turns> {
        match &self.asked {
            Asked::Turns(turns) => Some(turns),
            Asked::Batch(_) | Asked::Program(_) => None,
        }
    }

    /// The program that is asked.
    pub fn program(&self) -> &'static str {
        match &self.asked {
            Asked::Batch(_) | Asked::Turns(_) => "batch",
            Asked::Program(run) => run.program,
        }
    }

    /// What is asked, taken apart.
    pub fn parts(&self) -> Vec<Part> {
        match &self.asked {
            Asked::Batch(operation) => operation.asked(),
            Asked::Program(run) => run.asked(),
            Asked::Turns(turns) => turns.asked(),
        }
    }

    /// The answer of the second program. Folds in turn have none: they are held to each other.
    pub fn answer(&self) -> Vec<u8> {
        match &self.asked {
            Asked::Batch(operation) => operation.answer(),
            Asked::Program(run) => run.text().into(),
            Asked::Turns(_) => Vec::new(),
        }
    }

    /// An answer of the second program taken apart, or its beginning.
    pub fn parts_of(&self, answer: &[u8]) -> Vec<Part> {
        match &self.asked {
            Asked::Batch(operation) => operation.parts(answer),
            Asked::Program(_) | Asked::Turns(_) => vec![Part::text("standard output", answer)],
        }
    }
}

/// Its number, what is asked and of whom, in short.
impl Display for Case {
    fn fmt(&self, to: &mut Formatter) -> fmt::Result {
        let by = match &self.asked {
            Asked::Batch(operation) => format!("{} by batch", operation.name()),
            Asked::Program(run) => run.command(),
            Asked::Turns(_) => "folds in turn by batch".to_string(),
        };
        let asked: Vec<String> = self.parts().iter().filter_map(Part::brief).collect();
        write!(to, "case {}, {by}: {} ({})", self.number, self.name, asked.join(", "))
    }
}

/// What is wrong with the cases that are folded in turn, where this folds.
pub fn in_turn<'a>(cases: &'a [Case], folds: Folds) -> Vec<(&'a Case, Fault)> {
    let of_turns = cases.iter().filter_map(|case| Some((case, case.turns()?)));
    let (cases, turns): (Vec<&Case>, Vec<&Turns>) = of_turns.unzip();
    let turned = turns::turned(&turns, folds);
    cases.into_iter().zip(turned.iter().map(Turned::fault)).collect()
}

/// Counts cases by what is wrong with them. A failure says how to run the case again.
pub fn judge(checks: Vec<(&Case, Fault)>, count: &mut Count) {
    for (case, fault) in checks {
        let again = format!("tests/build/second case {} {}", case.number, case.seed);
        count.judge(case, fault.map(|fault| format!("{fault}; again: {again}")));
    }
}

pub fn all(seed: u64) -> Vec<Case> {
    let mut cases = Cases { seed, list: Vec::new() };
    cases.by_hand();
    cases.every_small_table();
    cases.well_formed();
    cases.damaged_tables();
    cases.damaged_images();
    cases.lengths_of_0();
    cases.j_cut_and_changed();
    cases.noise();
    cases.superbubbles();
    for version in VERSIONS {
        let folding = Folding::plain(version);
        cases.folds(folding);
        cases.cycles(folding);
        cases.shares(folding);
    }
    cases.weakest();
    VERSIONS.into_iter().for_each(|version| cases.rings(version));
    cases.programs();
    for version in VERSIONS {
        cases.folds_in_turn(Folding::plain(version));
        cases.rings_in_turn(Folding::of_rings(version));
    }
    cases.list
}

/// The answers of the second program.
pub fn answers(cases: &[Case]) -> Vec<Vec<u8>> {
    parallel::each(cases, Case::answer)
}

/// The cases so far. The makers stand here and in superbubble_cases.rs, fold_cases.rs, sharing_cases.rs,
/// weakest_cases.rs, ring_cases.rs and program_cases.rs.
pub struct Cases {
    pub seed: u64,
    list: Vec<Case>,
}

impl Cases {
    pub fn add(&mut self, name: impl Into<String>, make: impl FnOnce(&mut Random) -> Operation) {
        let (name, operation) = (name.into(), make(&mut self.next_random()));
        assert!(operation.fits(), "batch does not take it: {name}");
        self.push(name, Asked::Batch(operation));
    }

    pub fn add_run(&mut self, name: impl Into<String>, run: ProgramRun) {
        self.push(name.into(), Asked::Program(run));
    }

    pub fn add_turns(&mut self, name: &str, turns: Turns) {
        self.push(name.to_string(), Asked::Turns(turns));
    }

    fn push(&mut self, name: String, asked: Asked) {
        let (seed, number) = (self.seed, self.list.len());
        self.list.push(Case { seed, number, name, asked, by_hand: None });
    }

    /// Says how the answer to the last case begins.
    pub fn begins(&mut self, answer: impl Into<Vec<u8>>) {
        self.list.last_mut().unwrap().by_hand = Some(answer.into());
    }

    /// The random numbers of the case that is to be added.
    pub fn next_random(&self) -> Random {
        Random::of_case(self.seed, self.list.len())
    }

    /// A table, to be checked and to be written in version 1.
    fn table(&mut self, name: &str, make: impl Fn(&mut Random) -> Table) {
        self.add(name, |random| Operation::Check { table: make(random) });
        self.written(name, |random| Content { table: make(random), lengths: None });
    }

    /// A table, perhaps with lengths, to be written in the version that has these.
    fn written(&mut self, name: &str, make: impl Fn(&mut Random) -> Content) {
        self.add(name, |random| write(make(random), random));
    }

    /// A stream, to be looked at and to be loaded; and one to be shown.
    fn stream(&mut self, name: &str, make: impl Fn(&mut Random) -> Vec<u8>) {
        let stream = make(&mut self.next_random());
        self.add(name, |_| Operation::Look { stream: stream.clone() });
        self.loads(name, &stream);
        self.add(name, |random| Operation::Show { stream: make(random) });
    }

    /// A stream that was looked at, to be loaded with room of each kind.
    fn loads(&mut self, name: &str, stream: &[u8]) {
        for (kind, room) in rooms(stream, &mut self.next_random()) {
            let stream = stream.to_vec();
            self.add(format!("{name}, {kind}"), |_| Operation::Load { room, stream });
        }
    }

    /// A table as a table and as an image of each version.
    fn both(&mut self, name: &str, make: impl Fn(&mut Random) -> Table) {
        let content = |random: &mut Random, version| {
            let table = make(random);
            graphs::content(random, version, table)
        };
        self.table(name, &make);
        self.written(name, |random| content(random, Version::Two));
        for version in VERSIONS {
            self.stream(&format!("{name}, {version}"), |random| content(random, version).image());
        }
    }

    // ---- the makers

    /// The limits, and what the rules work out themselves.
    fn by_hand(&mut self) {
        for (first_line, name, operation) in limits::all(self.seed) {
            let looked_at = match &operation {
                Operation::Look { stream } => Some(stream.clone()),
                _ => None,
            };
            self.add(name, |_| operation);
            self.begins(format!("{first_line}\n"));
            if let Some(stream) = looked_at {
                self.loads(name, &stream);
            }
        }
        for worked in worked::all() {
            self.add(worked.name, |_| worked.operation);
            self.begins(worked.answer);
        }
    }

    /// Every table with up to three starts of 0, 1, 2 or 2^32 - 1 and up to two targets of 0, 1 or 2.
    fn every_small_table(&mut self) {
        for starts in words(&[0, 1, 2, u32::MAX], 3) {
            for targets in words(&[0, 1, 2], 2) {
                let n = starts.len().saturating_sub(1);
                self.both(&format!("starts {starts:?}, targets {targets:?}"), |random| {
                    let length = random.one_of(&[n, n, n, n + 1, n.saturating_sub(1)]);
                    let count = random.one_of(&[0, 1, LARGEST_SUM, LARGEST_SUM + 1, 1 << 63]);
                    let counts = vec![count; length];
                    Table { starts: starts.clone(), targets: targets.clone(), counts }
                });
            }
        }
    }

    fn well_formed(&mut self) {
        for graph in &TWELVE {
            self.both(graph.name, |_| graph.table());
        }
        for _ in 0..200 {
            self.both("a well-formed table", graphs::any);
        }
        for _ in 0..4 {
            self.both("the largest table", graphs::largest);
        }
    }

    /// Each damage of a table alone, with each other one, and several together.
    fn damaged_tables(&mut self) {
        for chosen in damages::choices(&damages::of_tables(), self.seed) {
            self.table(&damages::names(&chosen), |random| damages::damaged_table(random, &chosen));
        }
        for chosen in damages::choices(&damages::of_tables_with_lengths(), self.seed) {
            self.written(&damages::names(&chosen), |random| {
                damages::damaged_content(random, Version::Two, &chosen)
            });
        }
    }

    /// The same for images, which are damaged by table or lengths or after these were laid out.
    fn damaged_images(&mut self) {
        for version in VERSIONS {
            for chosen in damages::choices(&damages::of_images(version), self.seed) {
                let name = format!("{version}, {}", damages::names(&chosen));
                self.stream(&name, |random| damages::damaged_image(random, version, &chosen));
            }
        }
    }

    /// Tables with which nothing is wrong but one length: the first, the last or any.
    fn lengths_of_0(&mut self) {
        let places: [(&str, fn(&mut Random, usize) -> usize); 3] =
            [("first", |_, _| 0), ("last", |_, n| n - 1), ("any", |random, n| random.place(n))];
        for (words, place) in places {
            let content = |random: &mut Random| {
                let table = graphs::to_damage(random);
                let mut content = graphs::content(random, Version::Two, table);
                let lengths = content.lengths.as_mut().unwrap();
                let place = place(random, lengths.len());
                lengths[place] = 0;
                content
            };
            for _ in 0..25 {
                let name = format!("{words} length 0 alone");
                self.written(&name, content);
                self.stream(&name, |random| content(random).image());
            }
        }
    }

    /// Graph J's images: each beginning of them, some bytes more, and each of their bytes changed.
    fn j_cut_and_changed(&mut self) {
        for version in VERSIONS {
            let j = graphs::image(&mut self.next_random(), version, &graphs::j());
            for length in 0..j.len() + 5 {
                let name = format!("J, {version}, with {length} bytes");
                self.stream(&name, |_| resized(j.clone(), length));
            }
            for place in 0..j.len() {
                for change in [1, 128, 255] {
                    let mut changed = j.clone();
                    changed[place] ^= change;
                    let name = format!("J, {version}, byte {place} changed by {change}");
                    self.stream(&name, |_| changed.clone());
                }
            }
        }
    }

    /// Streams and tables of any content, some of which begin as they should.
    fn noise(&mut self) {
        for _ in 0..100 {
            self.stream("any bytes", noise);
            for version in VERSIONS {
                self.stream(&format!("any bytes after a good mark and {version}"), |random| {
                    let begin = [b"SBT", &version.number().to_le_bytes()[..]].concat();
                    [begin, noise(random)].concat()
                });
            }
            self.both("a table of small numbers", small_numbers);
        }
    }
}

// ---- what the makers share

/// Writing with room enough in most cases: the length, one byte less or more, or much more; or none.
fn write(content: Content, random: &mut Random) -> Operation {
    let length = content.image().len();
    let more = length + random.between(2, 100);
    let room = random.one_of(&[length, length, length, length + 1, more, length - 1, 0]);
    Operation::Write { room: room.min(LONGEST_IMAGE), content }
}

/// The rooms with which an image is loaded, each once: those of each kind, and a drawn one, by what the
/// header says; where there is no header, or it says far too much, none and a little.
fn rooms(stream: &[u8], random: &mut Random) -> Vec<(&'static str, Room)> {
    let exact = exact_room(stream);
    let of_kind = |(kind, of): Kind| Some((kind, of(exact)?));
    let said = image::room_for(stream);
    let n = said.map(|said| said.counts).filter(|&n| n < 4_000).unwrap_or(5);
    let m = said.map(|said| said.targets).filter(|&m| m < 9_000).unwrap_or(5);
    let version = image::version_of(stream).unwrap_or(Version::One);
    let drawn = ("any room", room(random, Room::of_version(version, n, m)));
    let mut rooms: Vec<(&str, Room)> = Vec::new();
    for (kind, room) in ROOMS.into_iter().filter_map(of_kind).chain([drawn]) {
        if rooms.iter().all(|&(_, other)| other != room) {
            rooms.push((kind, room));
        }
    }
    rooms
}

/// Room where so much is due: enough in most cases, or too little of one kind, or none.
pub fn room(random: &mut Random, due: Room) -> Room {
    let mut room = due;
    match random.between(0, 10) {
        0 => room.starts -= 1,
        1 => room.targets = room.targets.saturating_sub(1),
        2 => room.counts = room.counts.saturating_sub(1),
        3 => room.lengths = room.lengths.saturating_sub(1),
        4 => room = Room::NONE,
        5 | 6 => {
            room.starts += random.between(0, 9);
            room.targets += random.between(0, 9);
            room.counts += random.between(0, 9);
            room.lengths += random.between(0, 9);
        }
        _ => {}
    }
    room
}

/// All words of the letters, up to the length.
fn words(letters: &[u32], length: usize) -> Vec<Vec<u32>> {
    let mut all = vec![Vec::new()];
    let mut from = 0;
    for _ in 0..length {
        for at in from..all.len() {
            from += 1;
            for &letter in letters {
                let mut word = all[at].clone();
                word.push(letter);
                all.push(word);
            }
        }
    }
    all
}

/// The stream cut to a length, or with zeros up to it.
pub fn resized(mut stream: Vec<u8>, length: usize) -> Vec<u8> {
    stream.resize(length, 0);
    stream
}

fn noise(random: &mut Random) -> Vec<u8> {
    (0..random.between(0, 80)).map(|_| random.any() as u8).collect()
}

/// A table whose numbers are so small that some rules hold and some do not.
fn small_numbers(random: &mut Random) -> Table {
    let n = random.between(0, 3);
    let m = random.between(0, 4);
    let mut starts: Vec<u32> = (0..=n).map(|_| random.between(0, m) as u32).collect();
    starts.sort();
    starts[0] = random.one_of(&[0, 0, 0, 1]);
    starts[n] = random.one_of(&[m, m, m, 0]) as u32;
    Table {
        starts,
        targets: (0..m).map(|_| random.between(0, n) as u32).collect(),
        counts: (0..n).map(|_| random.one_of(&[0, 1, LARGEST_SUM])).collect(),
    }
}
