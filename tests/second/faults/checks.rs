//! A test that is made of demands, and the tests of one kind, done some at a time.

use crate::count::{Count, Fault};
use crate::parallel;
use std::error::Error;

/// What came of a test: what is wrong, or what kept it from being done.
pub type Judged = Result<(), Box<dyn Error>>;

/// A test: its title, and what is done.
pub type Check<'a> = (String, Box<dyn Fn() -> Judged + Sync + 'a>);

pub fn check<'a>(title: String, work: impl Fn() -> Judged + Sync + 'a) -> Check<'a> {
    (title, Box::new(work))
}

pub fn demand(holds: bool, fault: impl FnOnce() -> String) -> Judged {
    if holds {
        return Ok(());
    }
    Err(fault().into())
}

/// The demand that nothing is wrong.
pub fn demand_none(fault: Fault) -> Judged {
    fault.map_or(Ok(()), |fault| Err(fault.into()))
}

/// Does the tests of one kind, some at a time, and prints how many there are.
pub fn judge_all(kind: &str, checks: Vec<Check>, count: &mut Count) {
    println!("faults: {} {kind}", checks.len());
    count.judge_all(parallel::each(&checks, |check| judged(check)));
}

/// Does the tests of one kind one after the other.
pub fn judge_in_turn(kind: &str, checks: Vec<Check>, count: &mut Count) {
    println!("faults: {} {kind}", checks.len());
    count.judge_all(checks.iter().map(judged).collect());
}

fn judged((title, work): &Check) -> (String, Fault) {
    (title.clone(), work().err().map(|error| error.to_string()))
}
