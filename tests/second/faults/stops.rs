//! A fold that is stopped, at each of its system calls: it is killed and run again, or another one
//! runs to its end meanwhile.

use crate::count::quoted;
use crate::faults::calls::{Call, Deed};
use crate::faults::checks::{check, demand, demand_none, Check, Judged};
use crate::faults::folders::{demand_same, Entry};
use crate::faults::scene::{folded, Rehearsed, Scene};
use crate::faults::story::Step;
use crate::faults::traced::{only, Action, End};
use crate::parts::difference;

// ---- killed

/// Before each call, and in the middle of each write.
pub fn kills<'a>(fold: &'a Rehearsed<'a>) -> Vec<Check<'a>> {
    let mut checks = Vec::new();
    for place in 0..fold.calls.len() {
        let title = fold.title(place);
        checks.push(check(format!("{title}: killed before it"), move || {
            killed(fold, place, Action::Kill)
        }));
        if let Deed::Write(_) = fold.calls[place].deed() {
            checks.push(check(format!("{title}: killed when half is written"), move || {
                killed(fold, place, Action::HalveAndKill)
            }));
        }
    }
    checks
}

fn killed(fold: &Rehearsed, place: usize, action: Action) -> Judged {
    let Rehearsed { scene, due, .. } = fold;
    let folder = scene.laid_out()?;
    let ended = scene.run(&folder, &mut only(place, action))?;
    demand(ended.end == End::Killed, || format!("it was not killed: {:?}", ended.end))?;
    fold.demand_same_calls(&ended, place)?;
    scene.demand_order(&ended)?;

    let found = due.found(folder.files()?)?;
    demand(found.left.len() <= 1, || format!("it left {:?}", found.left))?;
    let is_true = ended.output.is_empty() || found.state == due.state_answered();
    demand(is_true && due.text.as_bytes().starts_with(&ended.output), || {
        format!("OUT is {:?}, and it prints {}", found.state, quoted(&ended.output))
    })?;
    let is_silent = ended.errors.is_empty() || due.is_refused();
    demand(is_silent, || format!("it says {:?}", ended.errors))?;

    scene.demand_answer(&folder).map_err(|fault| format!("run again: {fault}").into())
}

/// The name that a new file gets is that of a file which is there already.
pub fn name_taken<'a>(fold: &'a Rehearsed<'a>) -> Vec<Check<'a>> {
    let title = format!("fold, {}, the name of the new file is taken", fold.scene.name);
    vec![check(title, move || taken(&fold.scene))]
}

fn taken(scene: &Scene) -> Judged {
    let ended = scene.run(&scene.laid_out()?, &mut zeros_first())?;
    let made = scene.story(&ended).steps.iter().position(|&step| step == Step::CreateNew);
    let name = &ended.calls[made.ok_or("it makes no new file")?].names[0].name;

    let scene = scene.clone().and(name, Entry::file(0o600, vec![1, 2, 3]));
    let folder = scene.laid_out()?;
    let due = scene.due(folder.files()?);
    let ended = scene.run(&folder, &mut zeros_first())?;
    scene.demand_order(&ended)?;
    due.demand_either(&ended, folder.files()?)
}

/// The first random bytes are zeros.
fn zeros_first() -> impl FnMut(usize, &Call) -> Action {
    let mut is_first = true;
    move |_, call| {
        if call.deed() == Deed::TakeRandom && is_first {
            is_first = false;
            return Action::DoAndZero;
        }
        Action::Do
    }
}

// ---- two at once

/// At each call another fold runs, with this budget.
pub fn two_at_once<'a>(fold: &'a Rehearsed<'a>, budget: u32) -> Vec<Check<'a>> {
    let title = |place| format!("{}: a fold by {budget} meanwhile", fold.title(place));
    let two = |place| check(title(place), move || two(fold, place, budget));
    (0..fold.calls.len()).map(two).collect()
}

fn two(fold: &Rehearsed, place: usize, budget: u32) -> Judged {
    let scene = &fold.scene;
    let other = Scene { budget, ..scene.clone() };
    let folder = scene.laid_out()?;
    let mut meanwhile = None;
    let ended = scene.run(&folder, &mut |at, _| {
        if at == place {
            meanwhile = Some(other.run_freely(&folder));
        }
        Action::Do
    })?;
    fold.demand_same_calls(&ended, place)?;
    let other_ended = meanwhile.ok_or("it was not stopped")??;
    let (table, other_table) = two_tables(fold, place, budget)?;
    for (ended, (text, _)) in [(&ended, &table), (&other_ended, &other_table)] {
        scene.demand_order(ended)?;
        demand_none(difference(text.as_bytes(), &ended.output))?;
        demand(ended.errors.is_empty(), || format!("it says {:?}", ended.errors))?;
    }

    let (_, last) = if fold.has_before(place, Step::Rename) { other_table } else { table };
    let mut due = fold.due.answered().clone();
    due.get_mut(&scene.output).ok_or("there is no OUT")?.content = last;
    demand_same(&due, &folder.files()?)
}

/// The line and the table of a fold.
type Table = (String, Vec<u8>);

/// The tables of a fold and of the other one that ran when it was stopped. Where IN is OUT, one may
/// have read what the other one wrote.
fn two_tables(fold: &Rehearsed, place: usize, budget: u32) -> Result<(Table, Table), &'static str> {
    let scene = &fold.scene;
    let table_of = |stream: &[u8], budget| {
        let (text, image) = folded(scene.rings, stream, budget);
        image.map(|image| (text, image)).ok_or("the table is refused")
    };
    let first = &scene.files[scene.input].content;
    let is_one_file = scene.input == scene.output;
    let table = table_of(first, scene.budget)?;
    if is_one_file && fold.has_before(place, Step::Rename) {
        let other = table_of(&table.1, budget)?;
        return Ok((table, other));
    }
    let other = table_of(first, budget)?;
    if is_one_file && !fold.has_before(place, Step::OpenIn) {
        return Ok((table_of(&other.1, scene.budget)?, other));
    }
    Ok((table, other))
}
