//! Who sends and gets letters in a small run.

use crate::chance::Chance;
use crate::compare::numbers::Numbers;
use crate::record::Act;

/// A letter that is sent and not yet got.
struct Letter {
    number: u32,
    sender: usize,
}

/// Which of the letters on the way is got; any but the oldest may overtake others.
#[derive(Clone, Copy)]
enum Choice {
    Oldest,
    Newest,
    Any,
}

/// How the machines of one run go about letters.
struct Habit {
    /// Of so many doings and two more, so many have no letter, on the average.
    idle: usize,
    /// One in so many turns goes to another machine.
    turn: usize,
    choice: Choice,
    /// Machines may get what they sent themselves.
    own: bool,
}

impl Habit {
    fn random(chance: &mut Chance) -> Self {
        Self {
            idle: *chance.pick(&[0, 0, 1, 2, 8]),
            turn: *chance.pick(&[1, 1, 2, 4]),
            choice: *chance.pick(&[Choice::Oldest, Choice::Newest, Choice::Any]),
            own: chance.one_in(6),
        }
    }
}

/// Lets the machines do one thing after another, so that no doing comes before
/// itself.
pub fn random_acts(sizes: &[usize], numbers: &mut Numbers, chance: &mut Chance) -> Vec<Vec<Act>> {
    let habit = Habit::random(chance);
    let mut acts = vec![Vec::new(); sizes.len()];
    let mut on_the_way = Vec::new();
    let mut turn = 0;
    for _ in 0..sizes.iter().sum() {
        if acts[turn].len() == sizes[turn] || chance.one_in(habit.turn) {
            let open = (0..sizes.len()).filter(|&machine| acts[machine].len() < sizes[machine]);
            turn = *chance.pick(&open.collect::<Vec<_>>());
        }
        acts[turn].push(random_act(turn, &habit, numbers, &mut on_the_way, chance));
    }
    acts
}

fn random_act(
    machine: usize,
    habit: &Habit,
    numbers: &mut Numbers,
    on_the_way: &mut Vec<Letter>,
    chance: &mut Chance,
) -> Act {
    if chance.below(habit.idle + 2) < habit.idle {
        return Act::Neither;
    }
    // Most letters are got where they can be, so that they bind.
    if !chance.one_in(3)
        && let Some(letter) = take(machine, habit, on_the_way, chance)
    {
        return Act::Gets(letter.number);
    }
    let number = numbers.draw();
    let sender = machine;
    on_the_way.push(Letter { number, sender });
    Act::Sends(number)
}

/// Takes a letter that the machine may get.
fn take(
    machine: usize,
    habit: &Habit,
    on_the_way: &mut Vec<Letter>,
    chance: &mut Chance,
) -> Option<Letter> {
    let fitting: Vec<usize> = (0..on_the_way.len())
        .filter(|&at| habit.own || on_the_way[at].sender != machine)
        .collect();
    let at = match habit.choice {
        Choice::Oldest => *fitting.first()?,
        Choice::Newest => *fitting.last()?,
        Choice::Any if fitting.is_empty() => return None,
        Choice::Any => *chance.pick(&fitting),
    };
    Some(on_the_way.remove(at))
}
