//! A fold in a folder of its own: with which files and streams it is run, and which system calls it
//! makes.

use crate::faults::calls::Call;
use crate::faults::checks::{demand, demand_none, Judged};
use crate::faults::folders::{demand_same, Entry, Files, Folder};
use crate::faults::outcome::{demand_ended, Due};
use crate::faults::story::{Step, Story, NEW};
use crate::faults::traced::{self, Ended, Plan, Start, Stream};
use crate::foldings::Rings;
use crate::graphs::{lettered, SHRINKING};
use crate::image;
use crate::runs::{words_of_fold, ProgramRun};
use std::error::Error;
use std::io;

#[derive(Clone)]
pub struct Scene<'a> {
    pub name: &'static str,
    /// The program `fold`, by its words.
    pub program: &'a [String],
    pub rings: Rings,
    pub budget: u32,
    pub input: &'static str,
    pub output: String,
    /// The files that are there before.
    pub files: Files,
    pub streams: [Stream; 3],
    pub umask: u32,
}

impl<'a> Scene<'a> {
    /// Budget 1, and in the file IN graph K, of which two folds make two tables.
    pub fn new(program: &'a [String], name: &'static str, output: &str) -> Scene<'a> {
        Scene {
            name,
            program,
            rings: Rings::Refused,
            budget: 1,
            input: "in.sbt",
            output: output.to_string(),
            files: Files::from([("in.sbt".to_string(), of_letter("K"))]),
            streams: [Stream::Kept; 3],
            umask: 0o022,
        }
    }

    pub fn out_is_missing(program: &'a [String]) -> Scene<'a> {
        Scene::new(program, "OUT is missing", "out.sbt")
    }

    pub fn out_is_old(program: &'a [String]) -> Scene<'a> {
        let out = Entry::file(0o640, of_letter("J").content);
        Scene::new(program, "OUT is old", "out.sbt").and("out.sbt", out)
    }

    pub fn in_is_out(program: &'a [String]) -> Scene<'a> {
        Scene::new(program, "IN is OUT", "in.sbt")
    }

    /// A fold that was stopped left half a file.
    pub fn after_a_stop(program: &'a [String]) -> Scene<'a> {
        let mut half = of_letter("K");
        half.content.truncate(70);
        let scene = Scene::out_is_old(program).and(&format!("{NEW}0123456789abcdef"), half);
        Scene { name: "after a stop", ..scene }
    }

    /// The table has a cycle.
    pub fn refused(program: &'a [String]) -> Scene<'a> {
        let scene = Scene::out_is_old(program).and("in.sbt", of_letter("E"));
        Scene { name: "refused", ..scene }
    }

    /// The table has a cycle, and `--rings` takes it.
    pub fn of_rings(program: &'a [String]) -> Scene<'a> {
        let table = Entry::file(0o644, image::of_table(&SHRINKING.table()));
        let scene = Scene::out_is_old(program).and("in.sbt", table);
        Scene { name: "rings", rings: Rings::Taken, ..scene }
    }

    /// The same with this file.
    pub fn and(mut self, name: &str, entry: Entry) -> Scene<'a> {
        self.files.insert(name.to_string(), entry);
        self
    }

    pub fn laid_out(&self) -> io::Result<Folder> {
        Folder::with(&self.files)
    }

    pub fn run(&self, folder: &Folder, plan: Plan) -> io::Result<Ended> {
        let budget = self.budget.to_string();
        let words = words_of_fold(self.rings, &budget, self.input, &self.output);
        let start = Start {
            words: [self.program, &words].concat(),
            folder: folder.path(""),
            input: Vec::new(),
            streams: self.streams,
            umask: self.umask,
        };
        traced::run(&start, plan)
    }

    pub fn run_freely(&self, folder: &Folder) -> io::Result<Ended> {
        self.run(folder, &mut traced::nothing)
    }

    pub fn story<'c>(&self, ended: &'c Ended) -> Story<'c> {
        Story::new(&ended.calls, self.input, &self.output)
    }

    pub fn demand_order(&self, ended: &Ended) -> Judged {
        demand_none(self.story(ended).fault())
    }

    /// What is due where these files stand before. Whoever made IN makes a new OUT, too.
    pub fn due(&self, old: Files) -> Due {
        let input = &old[self.input];
        let (text, image) = folded(self.rings, &input.content, self.budget);
        let new = image.map(|content| {
            let fresh = Entry { owner: input.owner, ..Entry::file(0o666 & !self.umask, vec![]) };
            let out = old.get(&self.output).unwrap_or(&fresh).clone();
            let mut new = old.clone();
            new.insert(self.output.clone(), Entry { content, ..out });
            new
        });
        Due { text, old, new }
    }

    /// A run in a folder that nothing befalls ends with its answer.
    pub fn demand_answer(&self, folder: &Folder) -> Judged {
        let due = self.due(folder.files()?);
        let ended = self.run_freely(folder)?;
        due.demand_answer(&ended)?;
        demand_same(due.answered(), &folder.files()?)?;
        self.demand_order(&ended)
    }

    /// Runs it once, so that its calls are known.
    pub fn rehearsed(self) -> Result<Rehearsed<'a>, Box<dyn Error>> {
        let folder = self.laid_out()?;
        let due = self.due(folder.files()?);
        let ended = self.run_freely(&folder)?;
        demand_ended(&ended)?;
        let steps = self.story(&ended).steps;
        Ok(Rehearsed { scene: self, due, calls: ended.calls, steps })
    }
}

/// What `fold` prints for an image, and the image that it writes, where it does.
pub fn folded(rings: Rings, stream: &[u8], budget: u32) -> (String, Option<Vec<u8>>) {
    let files = vec![("in".to_string(), stream.to_vec())];
    let run = ProgramRun::fold_by_word(rings, &budget.to_string(), budget, "in", "out", files);
    let written = run.after.iter().find(|(name, _)| name == "out");
    (run.text().to_string(), written.map(|(_, image)| image.clone()))
}

/// A file with the image of one of the twelve graphs.
pub fn of_letter(letter: &str) -> Entry {
    Entry::file(0o644, image::of_table(&lettered(letter).table()))
}

// ---- a fold whose calls are known

pub struct Rehearsed<'a> {
    pub scene: Scene<'a>,
    pub due: Due,
    pub calls: Vec<Call>,
    pub steps: Vec<Step>,
}

impl Rehearsed<'_> {
    pub fn has(&self, step: Step) -> bool {
        self.steps.contains(&step)
    }

    /// Whether a step is done before a place.
    pub fn has_before(&self, place: usize, step: Step) -> bool {
        self.steps[..place].contains(&step)
    }

    /// Whether the program itself has begun at a place.
    pub fn has_begun(&self, place: usize) -> bool {
        self.steps.get(place) != Some(&Step::Loader)
    }

    /// Whether IN begins to be read at a place.
    pub fn begins_reading(&self, place: usize) -> bool {
        self.steps.iter().position(|&step| step == Step::ReadIn) == Some(place)
    }

    /// The steps that such a fold must have.
    pub fn steps_due(&self) -> Vec<Step> {
        use Step::*;
        let mut steps = vec![OpenNull, CloseNull, OpenIn, ReadIn, CloseIn, Print];
        if self.due.is_refused() {
            steps.push(Say);
            return steps;
        }
        steps.extend([LookAtOut, OpenFolder, TakeRandom, CreateNew, WriteNew, FlushNew, CloseNew]);
        steps.extend([Rename, FlushFolder, CloseFolder]);
        if self.due.old.contains_key(&self.scene.output) {
            steps.extend([AskRights, CloseOut, SetOwner, SetRights]);
        }
        steps
    }

    /// A call, as titles have it.
    pub fn title(&self, place: usize) -> String {
        let (call, step) = (self.calls[place].name(), self.steps[place]);
        format!("fold, {}, call {place}, {call} ({step:?})", self.scene.name)
    }

    /// Up to a place another run makes the same calls.
    pub fn demand_same_calls(&self, ended: &Ended, place: usize) -> Judged {
        let both = self.calls.iter().zip(&ended.calls);
        let same = both.take_while(|(call, other)| call.is_like(other)).count();
        demand(same > place, || format!("its call {same} is another one than before"))
    }
}
