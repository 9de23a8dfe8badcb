//! Folding in turn, by any of the folds: several budgets, each on what the last left, give the table that
//! one fold with their sum gives; the total never moves; of the candidates as many are folded as this sum
//! says, and the others are left; and where none is left, a further fold gives back its input.

use crate::count::Fault;
use crate::fold::Folded;
use crate::foldings::Folding;
use crate::parts::{difference_of_parts, Part};
use crate::table::Table;

pub struct Turns {
    pub folding: Folding,
    pub table: Table,
    /// One or more budgets whose sum is one.
    pub budgets: Vec<u32>,
    /// A budget for one more fold, whatever is left.
    pub further: u32,
}

/// A table, by which fold it is to be folded, and the budget.
pub type Question<'a> = (Folding, &'a Table, u32);

/// What folds many tables: for each what came of it, or in words why nothing did.
pub type Folds<'a> = &'a dyn Fn(&[Question]) -> Vec<Result<Folded, String>>;

impl Turns {
    /// What is asked, taken apart.
    pub fn asked(&self) -> Vec<Part> {
        let budgets: Vec<String> = self.budgets.iter().map(u32::to_string).collect();
        let mut asked = vec![
            Part::value("by", self.folding.name()),
            Part::value("budgets", budgets.join(" ")),
            Part::value("a further one", self.further),
        ];
        asked.extend(self.table.parts());
        asked
    }

    pub fn sum(&self) -> u32 {
        let sum: u64 = self.budgets.iter().map(|&budget| u64::from(budget)).sum();
        u32::try_from(sum).expect("the sum of the budgets is a budget")
    }
}

/// What came of the folds of a table.
pub struct Turned {
    /// The sum of the budgets.
    sum: u32,
    /// A fold by the budget 0: what is left then is how many candidates there are.
    by_none: State,
    /// One fold by the sum.
    pub at_once: State,
    /// A fold by each budget, on what the last left.
    pub in_turn: State,
    /// One more fold after these.
    further: State,
}

/// The table, and how many were folded on the way to it; or in words why there is none.
pub type State = Result<Folded, String>;

/// What comes of the folds of each.
pub fn turned(turns: &[&Turns], folds: Folds) -> Vec<Turned> {
    let unfolded = |one: &Turns| Folded { table: one.table.clone(), folded: 0, left: 0 };
    let before: Vec<State> = turns.iter().map(|one| Ok(unfolded(one))).collect();
    let by_none = once_more(turns, &before, |_| Some(0), folds);
    let at_once = once_more(turns, &before, |one| Some(one.sum()), folds);
    let mut in_turn = before;
    let most = turns.iter().map(|one| one.budgets.len()).max().unwrap_or(0);
    for turn in 0..most {
        in_turn = once_more(turns, &in_turn, |one| one.budgets.get(turn).copied(), folds);
    }
    let further = once_more(turns, &in_turn, |one| Some(one.further), folds);
    let sums = turns.iter().map(|one| one.sum());
    let all = sums.zip(by_none).zip(at_once).zip(in_turn).zip(further);
    all.map(|((((sum, by_none), at_once), in_turn), further)| Turned {
        sum,
        by_none,
        at_once,
        in_turn,
        further,
    })
    .collect()
}

/// Folds what each has come to, where there is a budget for it, and adds up how many were folded.
fn once_more(
    turns: &[&Turns],
    states: &[State],
    budget: impl Fn(&Turns) -> Option<u32>,
    folds: Folds,
) -> Vec<State> {
    let mut asked: Vec<Option<Question>> = Vec::new();
    for (one, state) in turns.iter().zip(states) {
        let folded = state.as_ref().ok();
        let question = folded.zip(budget(one));
        asked.push(question.map(|(before, budget)| (one.folding, &before.table, budget)));
    }
    let questions: Vec<Question> = asked.iter().flatten().copied().collect();
    let mut answers = folds(&questions).into_iter();
    let next = |(state, asked): (&State, &Option<Question>)| match (state, asked) {
        (Ok(before), Some(_)) => added_up(before, answers.next().unwrap()?),
        _ => state.clone(),
    };
    states.iter().zip(&asked).map(next).collect()
}

/// What a fold gives, and with it what was folded before.
fn added_up(before: &Folded, after: Folded) -> State {
    let totals = [before, &after].map(|folded| folded.table.sum_of_counts());
    if totals[0] != totals[1] {
        return Err(format!("the total moves from {} to {}", totals[0], totals[1]));
    }
    Ok(Folded { folded: before.folded + after.folded, ..after })
}

impl Turned {
    pub fn fault(&self) -> Fault {
        let states = [&self.by_none, &self.at_once, &self.in_turn, &self.further];
        if let Some(why) = states.into_iter().find_map(|state| state.as_ref().err()) {
            return Some(why.clone());
        }
        let [by_none, at_once, in_turn, further] = states.map(|state| state.as_ref().unwrap());
        let in_turn_parts = in_turn.parts();
        if let Some(fault) = difference_of_parts(&at_once.parts(), &in_turn_parts) {
            return Some(format!("folding in turn is not folding by the sum: {fault}"));
        }
        let candidates = by_none.left;
        let due = candidates.min(self.sum as usize);
        if [in_turn.folded, in_turn.left] != [due, candidates - due] {
            let (folded, left) = (in_turn.folded, in_turn.left);
            return Some(format!("of {candidates} candidates it folds {folded}, {left} are left"));
        }
        if in_turn.left > 0 {
            return None;
        }
        let fault = difference_of_parts(&in_turn_parts, &further.parts())?;
        Some(format!("a further fold does not give back its input: {fault}"))
    }
}
