//! A look at an image and a load of it, in a row: the first number other than 0 that the two give is the
//! first that applies in the order of the rules; and where both give 0, they say the same version and
//! sizes.

use crate::answers::numbers_in_first_line;
use crate::cases::Case;
use crate::count::Fault;
use crate::image::{self, Room};
use crate::operations::Operation;
use std::collections::HashMap;

/// The order of the two in a row.
const ORDER: [u32; 11] = [10, 11, 1, 2, 12, 3, 4, 5, 7, 20, 8];

/// How many numbers a look or a load says: its own, the version, n and m.
const SAID: usize = 4;

/// What is wrong with each look and the load in its answer, and with each load and the look at the same
/// image before it. The answer is empty where none came.
pub fn checks<'a>(answered: impl Iterator<Item = (&'a Case, &'a [u8])>) -> Vec<(&'a Case, Fault)> {
    let mut looks: HashMap<&[u8], &[u8]> = HashMap::new();
    let mut checks = Vec::new();
    for (case, answer) in answered {
        match case.operation() {
            Some(Operation::Look { stream }) => {
                looks.insert(stream, answer);
                checks.push((case, of_look(stream, answer)));
            }
            Some(Operation::Load { room, stream }) => {
                let unseen = || Some("no case before it looks at its image".to_string());
                let looked = looks.get(&stream[..]);
                let of_load = |looked: &&[u8]| of_load(stream, *room, looked, answer);
                checks.push((case, looked.map_or_else(unseen, of_load)));
            }
            _ => {}
        }
    }
    checks
}

/// What is wrong with a look and the load in its answer.
fn of_look(stream: &[u8], answer: &[u8]) -> Fault {
    let numbers = numbers_in_first_line(answer);
    let (look, load) = numbers.split_at(numbers.len().min(SAID));
    fault(stream, image::room_for(stream).unwrap_or(Room::NONE), look, load)
}

/// What is wrong with a look and a load behind it, by the answers to them.
pub fn of_load(stream: &[u8], room: Room, looked: &[u8], loaded: &[u8]) -> Fault {
    let look = numbers_in_first_line(looked);
    fault(stream, room, &look[..look.len().min(SAID)], &numbers_in_first_line(loaded))
}

/// The same by what each says.
fn fault(stream: &[u8], room: Room, look: &[usize], load: &[usize]) -> Fault {
    let applies = image::faults_of_load(stream, room);
    let due = ORDER.into_iter().find(|number| applies.contains(number)).unwrap_or(0);
    let mut given = [look.first(), load.first()].into_iter().flatten().copied();
    let first = given.find(|&number| number != 0).unwrap_or(0);
    if first != due as usize {
        return Some(format!("look and load in a row give {first}, due {due}"));
    }
    let is_same = look.len() == SAID && look == load;
    (first == 0 && !is_same).then(|| format!("look says {look:?}, and load {load:?}"))
}
