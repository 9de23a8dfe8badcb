//! What the cases must reach: each operation gives each of its numbers, and no other; each two numbers
//! that can hold together do so in some case, for otherwise their order would not be tried; images of
//! both versions, and of others, are looked at, shown, written and loaded with room of each kind; the
//! answers about superbubbles are not the easy ones alone; and the cycle test meets every small graph,
//! deep paths, long rows and self-loops, with a cycle and without one.

use crate::answers::numbers_in_first_line;
use crate::cases::Case;
use crate::count::Fault;
use crate::foldings::Folding;
use crate::image::{self, Content, Room, A_LENGTH_LESS, HEADER, ROOMS, SLICES};
use crate::operations::{exact_room, Operation, OPERATIONS};
use crate::ring_coverage;
use crate::sharing_coverage;
use crate::table::{number_given, Table, MOST_EDGES};
use crate::versions::{Version, VERSIONS};
use crate::walk::{self, Closed, Walk};
use std::collections::HashSet;

const FEWEST: usize = 5;

/// Prints for each operation how many cases give each number, and holds the cases to what they must
/// reach: for each check its name, and what is wrong.
pub fn check(cases: &[Case], answers: &[Vec<u8>]) -> Vec<(String, Fault)> {
    let mut checks = numbers(cases);
    checks.extend(rooms(cases));
    checks.extend(versions(cases));
    let lines: Vec<Vec<usize>> =
        answers.iter().map(|answer| numbers_in_first_line(answer)).collect();
    for (operation, what, fewest, holds) in REACHED {
        let of_operation = |case: &Case| case.operation().is_some_and(|of| of.name() == operation);
        let reached = |(case, line): &(&Case, &Vec<usize>)| of_operation(case) && holds(line);
        let cases = cases.iter().zip(&lines).filter(reached).count();
        println!("{operation}: {cases} {what}");
        checks.push((format!("{operation}: {what}"), too_few(cases, fewest)));
    }
    for version in VERSIONS {
        let fold = Folding::plain(version).name();
        let of_version = cases.iter().zip(answers).filter_map(|one| Fold::of(fold, one));
        let folds: Vec<Fold> = of_version.collect();
        checks.extend(every_small_graph(version, fold, &folds));
        checks.extend(met(fold, &folds, &MET));
        checks.extend(met(fold, &folds, &[self_loops_alone(version)]));
    }
    checks.extend(sharing_coverage::check(cases, answers));
    checks.extend(ring_coverage::check(cases, answers));
    checks
}

pub fn too_few(cases: usize, fewest: usize) -> Fault {
    (cases < fewest).then(|| format!("only {cases} cases, {fewest} are due"))
}

/// By the numbers in the first line of an answer: what some cases must reach, and how many at least.
type Reached = (&'static str, &'static str, usize, fn(&[usize]) -> bool);

const REACHED: [Reached; 31] = [
    ("look", "that accept, and whose load does", 400, |line| line[0] == 0 && line[4] == 0),
    ("look", "that accept version 1", 200, |line| line[1] == 1),
    ("look", "that accept version 2", 200, |line| line[1] == 2),
    ("look", "that accept 1,000 vertices or more in version 1", 2, |line| {
        line[1] == 1 && line[2] >= 1_000
    }),
    ("look", "that accept 1,000 vertices or more in version 2", 2, |line| {
        line[1] == 2 && line[2] >= 1_000
    }),
    ("load", "that accept version 2", 200, |line| line[1] == 2),
    ("write_lengths", "that write the largest image", 2, |line| line[1] == image::LARGEST),
    ("list", "with none", 1_000, |line| line == [0, 0]),
    ("list", "with one superbubble or more", 5_000, |line| line[1] >= 1),
    ("list", "with four or more", 1_000, |line| line[1] >= 4),
    ("list", "with a thousand or more", 2, |line| line[1] >= 1_000),
    ("judge", "superbubbles", 1_500, |line| line[1] == 1),
    ("judge", "superbubbles with an interior", 500, |line| line[2] > 2),
    ("judge", "superbubbles of more than 64 vertices", 20, |line| line[2] > 64),
    ("judge", "superbubbles of more than 1,000 vertices", 5, |line| line[2] > 1_000),
    ("fold", "that fold one", 2_000, |line| line[1] == 1),
    ("fold", "that fold two or more", 500, |line| line[1] >= 2),
    ("fold", "that fold some and leave some", 300, |line| line[1] > 0 && line[2] > 0),
    ("fold", "that find nothing to fold", 500, |line| line[..3] == [0, 0, 0]),
    ("fold_weakest", "that fold one", 2_000, |line| line[1] == 1),
    ("fold_weakest", "that fold two or more", 500, |line| line[1] >= 2),
    ("fold_weakest", "that fold some and leave some", 300, |line| line[1] > 0 && line[2] > 0),
    ("fold_weakest", "that find nothing to fold", 500, |line| line[..3] == [0, 0, 0]),
    ("fold_rings", "that fold one", 2_000, |line| line[1] == 1),
    ("fold_rings", "that fold two or more", 500, |line| line[1] >= 2),
    ("fold_rings", "that fold some and leave some", 300, |line| line[1] > 0 && line[2] > 0),
    ("fold_rings", "that find nothing to fold", 500, |line| line[..3] == [0, 0, 0]),
    ("fold_rings_weakest", "that fold one", 2_000, |line| line[1] == 1),
    ("fold_rings_weakest", "that fold two or more", 500, |line| line[1] >= 2),
    ("fold_rings_weakest", "that fold some and leave some", 300, |line| line[1] > 0 && line[2] > 0),
    ("fold_rings_weakest", "that find nothing to fold", 500, |line| line[..3] == [0, 0, 0]),
];

fn numbers(cases: &[Case]) -> Vec<(String, Fault)> {
    let mut checks = Vec::new();
    for (operation, numbers) in OPERATIONS {
        let asked = cases.iter().filter_map(Case::operation);
        let of_operation = asked.filter(|asked| asked.name() == operation);
        let faults: Vec<Vec<u32>> = of_operation.map(|asked| asked.faults()).collect();
        let giving = |number| faults.iter().filter(|held| number_given(held) == number).count();

        let accepted = giving(0);
        let mut line = format!("{operation}: {accepted} accepted");
        checks.push((format!("{operation} accepts"), too_few(accepted, FEWEST)));
        let other = faults.iter().flatten().find(|number| !numbers.contains(number));
        let fault = other.map(|other| format!("{other} applies in some case"));
        checks.push((format!("{operation} gives no other number"), fault));
        for (place, &first) in numbers.iter().enumerate() {
            let given = giving(first);
            line += &format!(", {given} refused {first}");
            checks.push((format!("{operation} refuses {first}"), too_few(given, FEWEST)));

            for &second in numbers[place + 1..].iter().filter(|&&second| together(first, second)) {
                let both = |held: &Vec<u32>| held.contains(&first) && held.contains(&second);
                let fault = (!faults.iter().any(both)).then(|| "no case has both".to_string());
                checks.push((format!("{operation} refuses {first} before {second}"), fault));
            }
        }
        println!("{line}");
    }
    checks
}

/// A row is looked at only when 1 to 3 don't hold, for 5 and for 9, and there are lengths in version 2
/// alone; any other two numbers can hold together.
fn together(first: u32, second: u32) -> bool {
    (![5, 9].contains(&second) || ![1, 2, 3].contains(&first)) && (first, second) != (11, 20)
}

/// A load: its image, the number that a look at this gives, its room, and the room that the header says.
struct Load<'a> {
    stream: &'a [u8],
    number: u32,
    room: Room,
    exact: Option<Room>,
}

/// Each image that is looked at is loaded with room of each kind, where there is such.
fn rooms(cases: &[Case]) -> Vec<(String, Fault)> {
    let (mut looks, mut loads) = (Vec::new(), Vec::new());
    for operation in cases.iter().filter_map(Case::operation) {
        match operation {
            Operation::Look { stream } => looks.push(&stream[..]),
            Operation::Load { room, stream } => {
                let number = number_given(&image::faults(stream));
                loads.push(Load { stream, number, room: *room, exact: exact_room(stream) });
            }
            _ => {}
        }
    }
    let loaded: HashSet<(&[u8], Room)> =
        loads.iter().map(|load| (load.stream, load.room)).collect();
    let mut checks = rooms_and_numbers(&loads);
    checks.extend(slices_alone(&loads));
    for (kind, of) in ROOMS {
        let is_left = |stream: &[u8]| {
            of(exact_room(stream)).is_some_and(|room| !loaded.contains(&(stream, room)))
        };
        let left = looks.iter().filter(|stream| is_left(stream)).count();
        let fault = (left > 0).then(|| format!("{left} are not"));
        checks.push((format!("each image that is looked at is loaded, {kind}"), fault));
    }
    checks
}

/// Images of each number that a look gives are loaded with room of each kind. Of another version than 1
/// and 2 no length is due, so none can be too few.
fn rooms_and_numbers(loads: &[Load]) -> Vec<(String, Fault)> {
    let numbers = OPERATIONS.iter().find(|(name, _)| *name == "look").map_or(&[][..], |it| it.1);
    let mut checks = Vec::new();
    for (kind, of) in ROOMS {
        let mut line = format!("load, {kind}:");
        let can_be = |number: &&u32| kind != A_LENGTH_LESS || **number != 11;
        for &number in [0].iter().chain(numbers).filter(can_be) {
            let is_such = |load: &&Load| load.number == number && of(load.exact) == Some(load.room);
            let tried = loads.iter().filter(is_such).count();
            line += &format!(" {tried} of {number}");
            let title = format!("load of an image that gives {number}, {kind}");
            checks.push((title, too_few(tried, FEWEST)));
        }
        println!("{line}");
    }
    checks
}

/// Each slice alone is too short for images that are accepted.
fn slices_alone(loads: &[Load]) -> Vec<(String, Fault)> {
    let mut checks = Vec::new();
    for (slice, name) in SLICES.iter().enumerate() {
        let alone = [0, 1, 2, 3].map(|other| other == slice);
        let is_alone = |load: &Load| Some(load.room.is_short_of(load.exact?) == alone);
        let is_such = |load: &&Load| load.number == 0 && is_alone(load) == Some(true);
        let tried = loads.iter().filter(is_such).count();
        println!("load: {tried} refused 8 for {name} alone");
        checks.push((format!("load refuses 8 for {name} alone"), too_few(tried, FEWEST)));
    }
    checks
}

/// What images and tables that are to be written must be of, and how many at least.
fn versions(cases: &[Case]) -> Vec<(String, Fault)> {
    let (mut streams, mut loads, mut written) = (Vec::new(), Vec::new(), Vec::new());
    for operation in cases.iter().filter_map(Case::operation) {
        match operation {
            Operation::Look { stream } | Operation::Show { stream } => {
                streams.push(Stream { bytes: stream, faults: image::faults(stream) });
            }
            Operation::Load { room, stream } => loads.push((*room, &stream[..])),
            Operation::Write { content, .. } => {
                written.push(Written { content, faults: operation.faults() });
            }
            _ => {}
        }
    }
    let mut checks = met("look and show", &streams, &OF_STREAMS);
    checks.extend(met("load", &loads, &OF_LOADS));
    checks.extend(met("writes", &written, &OF_WRITTEN));
    checks
}

/// A stream that is looked at or shown, and the numbers whose condition holds.
struct Stream<'a> {
    bytes: &'a [u8],
    faults: Vec<u32>,
}

impl Stream<'_> {
    fn says_version(&self, version: [u8; 2]) -> bool {
        self.bytes.len() >= HEADER && self.bytes[3..5] == version
    }

    /// The number that is given, and the version in the header.
    fn gives(&self, number: u32, version: [u8; 2]) -> bool {
        number_given(&self.faults) == number && self.says_version(version)
    }

    /// Whether it is as long as its header asks for in this version.
    fn is_as_long_as(&self, version: Version) -> bool {
        let room = image::room_for(self.bytes);
        let due = room.map(|room| Room::of_version(version, room.counts, room.targets).image());
        due == Some(self.bytes.len()) && room.is_some_and(|room| room.counts > 0)
    }

    /// Whether it is accepted with such lengths.
    fn has_lengths(&self, such: impl Fn(&[u16]) -> bool) -> bool {
        self.gives(0, TWO) && image::content_in(self.bytes).lengths.is_some_and(|it| such(&it))
    }

    /// Whether one length alone is 0, at such a place of so many.
    fn has_zero_at(&self, such: fn(usize, usize) -> bool) -> bool {
        let is_such = |lengths: Vec<u16>| {
            let zeros: Vec<usize> =
                (0..lengths.len()).filter(|&place| lengths[place] == 0).collect();
            zeros.len() == 1 && such(zeros[0], lengths.len())
        };
        self.gives(20, TWO) && image::content_in(self.bytes).lengths.is_some_and(is_such)
    }

    /// Whether these hold, and no other before the last of them.
    fn has_first(&self, numbers: &[u32]) -> bool {
        self.faults.starts_with(numbers)
    }
}

const TWO: [u8; 2] = [2, 0];

const OF_STREAMS: [(&str, usize, fn(&Stream) -> bool); 23] = [
    ("accepted in version 1", 300, |one| one.gives(0, [1, 0])),
    ("accepted in version 2", 300, |one| one.gives(0, TWO)),
    ("refused 11 for version 0", FEWEST, |one| one.gives(11, [0, 0])),
    ("refused 11 for version 3", FEWEST, |one| one.gives(11, [3, 0])),
    ("refused 11 for version 256", FEWEST, |one| one.gives(11, [0, 1])),
    ("refused 11 for version 257", FEWEST, |one| one.gives(11, [1, 1])),
    ("refused 11 for version 258", FEWEST, |one| one.gives(11, [2, 1])),
    ("refused 11 for version 512", FEWEST, |one| one.gives(11, [0, 2])),
    ("refused 12 as of version 2 without lengths", FEWEST, |one| {
        one.gives(12, TWO) && one.is_as_long_as(Version::One)
    }),
    ("refused 12 as of version 1 with lengths", FEWEST, |one| {
        one.gives(12, [1, 0]) && one.is_as_long_as(Version::Two)
    }),
    ("refused 20 for the first length alone", FEWEST, |one| one.has_zero_at(|place, _| place == 0)),
    ("refused 20 for the last length alone", FEWEST, |one| {
        one.has_zero_at(|place, all| place + 1 == all)
    }),
    ("refused 20 for a length between alone", FEWEST, |one| {
        one.has_zero_at(|place, all| place > 0 && place + 1 < all)
    }),
    ("refused 12 before 20", FEWEST, |one| one.has_first(&[12, 20])),
    ("refused 3 before 20", FEWEST, |one| one.has_first(&[3, 20])),
    ("refused 4 before 20", FEWEST, |one| one.has_first(&[4, 20])),
    ("refused 5 before 20", FEWEST, |one| one.has_first(&[5, 20])),
    ("refused 7 before 20", FEWEST, |one| one.has_first(&[7, 20])),
    ("accepted with a length 1", 50, |one| one.has_lengths(|lengths| lengths.contains(&1))),
    ("accepted with a length 255", 50, |one| one.has_lengths(|lengths| lengths.contains(&255))),
    ("accepted with a length 256", 50, |one| one.has_lengths(|lengths| lengths.contains(&256))),
    ("accepted with a length 65,535", 50, |one| {
        one.has_lengths(|lengths| lengths.contains(&u16::MAX))
    }),
    ("accepted in version 2 without a vertex", FEWEST, |one| one.has_lengths(<[u16]>::is_empty)),
];

/// A room, and a stream to be loaded.
type Loaded<'a> = (Room, &'a [u8]);

const OF_LOADS: [(&str, usize, fn(&Loaded) -> bool); 4] = [
    ("of version 1 accepted with no lengths lent", 200, |&(room, stream)| {
        is_loaded(room, stream, Version::One) && room.lengths == 0
    }),
    ("of version 1 accepted with fewer lengths lent than vertices", 100, |&(room, stream)| {
        is_loaded(room, stream, Version::One) && (1..room.counts).contains(&room.lengths)
    }),
    ("of version 1 accepted with as many lengths lent or more", 50, |&(room, stream)| {
        is_loaded(room, stream, Version::One) && room.lengths > 0 && room.lengths >= room.counts
    }),
    ("of version 2 accepted with more lengths lent than vertices", 100, |&(room, stream)| {
        is_loaded(room, stream, Version::Two)
            && image::room_for(stream).unwrap().lengths < room.lengths
    }),
];

fn is_loaded(room: Room, stream: &[u8], version: Version) -> bool {
    image::version_of(stream) == Some(version) && image::faults_of_load(stream, room).is_empty()
}

/// What is to be written, and the numbers whose condition holds.
struct Written<'a> {
    content: &'a Content,
    faults: Vec<u32>,
}

impl Written<'_> {
    /// Whether the only number is this one, in version 2.
    fn is_refused_alone(&self, number: u32) -> bool {
        self.content.version() == Version::Two && self.faults == [number]
    }

    /// Whether there are not as many counts, and lengths, as vertices.
    fn are_wrong(&self) -> [bool; 2] {
        let room = self.content.room();
        [room.counts, room.lengths].map(|numbers| numbers + 1 != room.starts)
    }
}

const OF_WRITTEN: [(&str, usize, fn(&Written) -> bool); 6] = [
    ("of version 2 refused 6 for the counts alone", FEWEST, |one| {
        one.is_refused_alone(6) && one.are_wrong() == [true, false]
    }),
    ("of version 2 refused 6 for the lengths alone", FEWEST, |one| {
        one.is_refused_alone(6) && one.are_wrong() == [false, true]
    }),
    ("of version 2 refused 6 for both", FEWEST, |one| {
        number_given(&one.faults) == 6 && one.are_wrong() == [true, true]
    }),
    ("of version 2 refused 20 with room for them", FEWEST, |one| one.is_refused_alone(20)),
    ("of version 2 refused 20 before 8", FEWEST, |one| one.faults == [20, 8]),
    ("of version 2 refused 7 before 20", FEWEST, |one| one.faults.starts_with(&[7, 20])),
];

/// A fold that comes to the cycle test: whether it is refused there, and the walk over its table.
struct Fold<'a> {
    table: &'a Table,
    is_refused: bool,
    walk: Walk,
}

impl Fold<'_> {
    fn of<'a>(fold: &str, (case, answer): (&'a Case, &Vec<u8>)) -> Option<Fold<'a>> {
        let operation = case.operation().filter(|operation| operation.name() == fold)?;
        let (table, is_refused) = operation.cycle_tested(answer)?;
        Some(Fold { table, is_refused, walk: walk::over(table) })
    }

    fn vertices(&self) -> usize {
        self.table.counts.len()
    }

    fn has_long_row(&self) -> bool {
        self.table.starts.windows(2).any(|two| two[1] - two[0] >= 1_000)
    }

    /// Whether it is refused, and the walk closes a cycle like this.
    fn closes(&self, such: impl Fn(&Closed) -> bool) -> bool {
        self.is_refused && self.walk.closed.as_ref().is_some_and(such)
    }

    /// The same, and there is no cycle without the edge that closes it.
    fn closes_alone(&self, such: impl Fn(&Closed) -> bool) -> bool {
        self.closes(|by| such(by) && walk::over_without(by.edge, self.table).closed.is_none())
    }

    /// Whether it is refused for a self-loop at such a vertex, and for no other cycle.
    fn has_self_loop_alone(&self, such: impl Fn(usize) -> bool) -> bool {
        self.closes_alone(|by| by.cycle == 1 && such(by.edge.0))
    }

    /// Whether it is refused, and the walk closes a cycle by such a place of a row that is so long.
    fn closes_in_row(&self, such: fn(usize, usize) -> bool) -> bool {
        self.closes(|by| such(by.place, self.table.row(by.edge.0).len()))
    }
}

/// How many graphs of 0, 1, 2, 3 and 4 vertices have no cycle.
const WITHOUT_CYCLE: [usize; 5] = [1, 1, 3, 25, 543];

/// Every graph of so few vertices is folded: without a cycle it is accepted, and else refused. In
/// version 2 these are graphs of up to three.
fn every_small_graph(version: Version, fold: &str, folds: &[Fold]) -> Vec<(String, Fault)> {
    let mut checks = Vec::new();
    let all = match version {
        Version::One => &WITHOUT_CYCLE[..],
        Version::Two => &WITHOUT_CYCLE[..4],
    };
    for (n, &without) in all.iter().enumerate() {
        let graphs = |is_refused| {
            let such = folds.iter().filter(|fold| fold.vertices() == n);
            let such = such.filter(|fold| fold.is_refused == is_refused);
            such.map(|fold| (&fold.table.starts, &fold.table.targets)).collect::<HashSet<_>>().len()
        };
        let (accepted, refused) = (graphs(false), graphs(true));
        println!("{fold}, all graphs with n = {n}: {accepted} accepted, {refused} refused 9");
        let with = (1 << (n * n)) - without;
        for (title, graphs, due) in [("accepts", accepted, without), ("refuses", refused, with)] {
            let fault = (graphs != due).then(|| format!("{graphs}, {due} are due"));
            checks.push((format!("{fold} {title} graphs with n = {n}"), fault));
        }
    }
    checks
}

/// What folds must meet in the cycle test, and how many at least. A path is that of the walk.
type Met = (&'static str, usize, fn(&Fold) -> bool);

const MET: [Met; 19] = [
    ("accepted, with a path of 1,000 vertices or more", 25, |fold| {
        !fold.is_refused && fold.walk.longest >= 1_000
    }),
    ("refused 9, with a path of 1,000 vertices or more", 40, |fold| {
        fold.is_refused && fold.walk.longest >= 1_000
    }),
    ("refused 9 behind a path of 1,000 vertices or more", 5, |fold| {
        fold.closes(|by| by.path <= 10 && fold.walk.longest >= 1_000)
    }),
    ("accepted, with a path of 2,048 vertices", 5, |fold| {
        !fold.is_refused && fold.walk.longest == 2_048
    }),
    ("refused 9 at the end of such a path, for a cycle of 1", 3, |fold| {
        fold.closes(|by| by.path == 2_048 && by.cycle == 1)
    }),
    ("refused 9 at the end of such a path, for a cycle of 2", 3, |fold| {
        fold.closes(|by| by.path == 2_048 && by.cycle == 2)
    }),
    ("refused 9 at the end of such a path, for a cycle of 2,048", 5, |fold| {
        fold.closes(|by| by.path == 2_048 && by.cycle == 2_048)
    }),
    ("refused 9 at the beginning of such a path", 5, |fold| {
        let goes_on = |by: &Closed| walk::over_without(by.edge, fold.table).longest == 2_048;
        fold.walk.longest <= 2 && fold.closes(goes_on)
    }),
    ("accepted, with a row of 1,000 targets or more", 15, |fold| {
        !fold.is_refused && fold.has_long_row()
    }),
    ("refused 9, with a row of 1,000 targets or more", 20, |fold| {
        fold.is_refused && fold.has_long_row()
    }),
    ("refused 9 for the first target of such a row", 5, |fold| {
        fold.closes_in_row(|place, targets| place == 0 && targets >= 1_000)
    }),
    ("refused 9 for the last target of such a row", 4, |fold| {
        fold.closes_in_row(|place, targets| place + 1 == targets && targets >= 1_000)
    }),
    ("accepted, with 1,000 edges or more to what is done", 50, |fold| {
        !fold.is_refused && fold.walk.to_done >= 1_000
    }),
    ("refused 9 behind 1,000 edges or more to what is done", 25, |fold| {
        fold.is_refused && fold.walk.to_done >= 1_000
    }),
    ("accepted, with 8,192 edges", 6, |fold| {
        !fold.is_refused && fold.table.targets.len() == MOST_EDGES
    }),
    ("refused 9, with 8,192 edges, for one without which there is no cycle", 15, |fold| {
        fold.table.targets.len() == MOST_EDGES && fold.closes_alone(|_| true)
    }),
    ("refused 9 for a self-loop alone, at the first of 1,000 vertices or more", 10, |fold| {
        fold.vertices() >= 1_000 && fold.has_self_loop_alone(|vertex| vertex == 0)
    }),
    ("refused 9 for a self-loop alone, at the last of 1,000 vertices or more", 10, |fold| {
        let n = fold.vertices();
        n >= 1_000 && fold.has_self_loop_alone(|vertex| vertex + 1 == n)
    }),
    ("refused 9 for a self-loop alone, at a vertex beside 1,000 edges or more", 3, |fold| {
        let is_at = |vertex, (from, to)| from == vertex || to == vertex;
        let edges = |at| fold.table.edges().into_iter().filter(|&edge| is_at(at, edge)).count();
        fold.table.targets.len() > 1_000 && fold.has_self_loop_alone(|vertex| edges(vertex) == 1)
    }),
];

/// Most of them are graphs of four vertices, which are not among those of version 2.
fn self_loops_alone(version: Version) -> Met {
    let fewest = match version {
        Version::One => 2_300,
        Version::Two => 400,
    };
    ("refused 9 for a self-loop alone", fewest, |fold| fold.has_self_loop_alone(|_| true))
}

/// Holds all that is of one kind to what it must meet.
pub fn met<T, Holds: Fn(&T) -> bool>(
    kind: &str,
    all: &[T],
    due: &[(&str, usize, Holds)],
) -> Vec<(String, Fault)> {
    let mut checks = Vec::new();
    for (what, fewest, holds) in due {
        let met = all.iter().filter(|one| holds(one)).count();
        println!("{kind}: {met} {what}");
        checks.push((format!("{kind}: {what}"), too_few(met, *fewest)));
    }
    checks
}
