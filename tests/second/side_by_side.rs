//! The two folds of a version on one table without a cycle: the fold that takes rings gives the number,
//! the line and the slices of the one that refuses cycles. It is asked right behind it.

use crate::cases::Case;
use crate::count::Fault;
use crate::foldings::Folding;
use crate::operations::Operation;
use crate::parts::difference;

/// What is wrong with the second fold of each such pair, by the answers to both; an answer is empty where
/// none came. Where the first one refuses the cycle, nothing is known of the second.
pub fn checks<'a>(answered: &[(&'a Case, &[u8])]) -> Vec<(&'a Case, Fault)> {
    let mut checks = Vec::new();
    for two in answered.windows(2) {
        let [(plain, due), (rings, came)] = two else {
            continue;
        };
        if are_pair(plain, rings) && !behind_name(due).starts_with(b"9 ") {
            checks.push((*rings, fault(due, came)));
        }
    }
    checks
}

/// Whether the two folds of a version are asked the same.
pub fn are_pair(plain: &Case, rings: &Case) -> bool {
    let (Some(due), Some(came)) = (plain.operation(), rings.operation()) else {
        return false;
    };
    let (Operation::Fold { folding: plain, .. }, Operation::Fold { folding: rings, .. }) =
        (due, came)
    else {
        return false;
    };
    let are_two = !plain.takes_rings() && *rings == Folding::of_rings(plain.version);
    // the first byte of a question is the operation
    are_two && due.question()[1..] == came.question()[1..]
}

/// What is wrong with the answer of the second, by that of the first.
pub fn fault(due: &[u8], came: &[u8]) -> Fault {
    difference(behind_name(due), behind_name(came))
}

/// An answer without its first word, the name of the fold.
fn behind_name(answer: &[u8]) -> &[u8] {
    let name = answer.iter().position(|&byte| byte == b' ').map_or(0, |blank| blank + 1);
    &answer[name..]
}
