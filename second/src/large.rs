//! The commands that write runs of as many machines and doings as there can be,
//! for measuring.

use crate::disk;
use crate::form;
use crate::record::{Act, Doing, MOST_DOINGS, MOST_MACHINES, Record, State};
use crate::reply::{Reply, Trouble};
use std::ffi::OsString;
use std::path::Path;

const MACHINES: u32 = MOST_MACHINES as u32;
const DOINGS: u32 = MOST_DOINGS as u32;

/// What a machine does at a doing, both counted from 0.
type Shape = fn(u32, u32) -> Act;

/// Writes the records of a run of this shape into a folder.
pub fn run(shape: Shape, words: &[OsString]) -> Result<Reply, Trouble> {
    let [folder] = words else {
        return Err(Trouble::new("usage: second large|tangle|circle FOLDER\n"));
    };
    for machine in 0..MOST_MACHINES {
        let bytes = form::write(&record(shape, machine));
        disk::write(Path::new(folder).join(format!("{machine:02}.rec")), &bytes)?;
    }
    Ok(Reply {
        output: String::new(),
        status: 0,
    })
}

fn record(shape: Shape, machine: u8) -> Record {
    let state = State {
        sign: true,
        amount: 1,
    };
    let doing = |number| Doing {
        act: shape(machine.into(), number),
        after: state,
    };
    Record {
        machine,
        first: state,
        doings: (0..DOINGS).map(doing).collect(),
    }
}

/// Numbers that fall, so that whoever keeps letters in order has to move all that
/// he has.
fn letter(machine: u32, doing: u32) -> u32 {
    u32::from(u16::MAX) - machine * DOINGS - doing
}

/// Half of the machines send, the others get.
pub fn large(machine: u32, doing: u32) -> Act {
    let senders = MACHINES / 2;
    let letter = letter(machine % senders, doing);
    if machine < senders {
        Act::Sends(letter)
    } else {
        Act::Gets(letter)
    }
}

/// Every doing is in a ring, and no ring has fewer doings than a machine: every
/// other doing sends a letter to the doing after it of another machine, near or
/// far and up or down in turns, and the last to another machine's first. There are
/// very many rings of the fewest doings, and a few steps lead to all machines.
pub fn tangle(machine: u32, doing: u32) -> Act {
    const APART: [u32; 6] = [1, MACHINES - 1, 3, MACHINES - 3, 9, MACHINES - 9];
    if doing % 2 == 1 {
        return Act::Sends(letter(machine, doing));
    }
    let apart = APART[doing as usize / 2 % APART.len()];
    let sender = (machine + apart) % MACHINES;
    Act::Gets(letter(sender, (doing + DOINGS - 1) % DOINGS))
}

/// One ring of all doings: each machine gets a letter first and sends one at last.
pub fn circle(machine: u32, doing: u32) -> Act {
    let last = DOINGS - 1;
    match doing {
        0 => Act::Gets(letter((machine + MACHINES - 1) % MACHINES, last)),
        _ if doing == last => Act::Sends(letter(machine, last)),
        _ => Act::Neither,
    }
}
