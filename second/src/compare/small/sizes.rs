//! How many doings each machine of a small run has.

use crate::chance::Chance;

/// The most cuts of such a run.
pub const MOST_CUTS: usize = 20_000;

/// Mostly a few doings of a few machines; now and then many machines, or many
/// doings.
pub fn random_sizes(chance: &mut Chance) -> Vec<usize> {
    match chance.below(8) {
        0 => random_sizes_of(10 + chance.below(31), chance),
        1 => grown(1 + chance.below(3), chance.below(300), chance),
        _ => {
            let machines = *chance.pick(&[1, 2, 2, 3, 3, 4, 5]);
            (0..machines).map(|_| chance.below(7)).collect()
        }
    }
}

/// A few doings of so many machines.
pub fn random_sizes_of(machines: usize, chance: &mut Chance) -> Vec<usize> {
    grown(machines, chance.below(16), chance)
}

/// Gives so many doings to machines, as far as that does not make too many cuts.
fn grown(machines: usize, doings: usize, chance: &mut Chance) -> Vec<usize> {
    let mut sizes = vec![0; machines];
    for _ in 0..doings {
        let machine = chance.below(machines);
        sizes[machine] += 1;
        if cuts(&sizes) > MOST_CUTS {
            sizes[machine] -= 1;
        }
    }
    sizes
}

fn cuts(sizes: &[usize]) -> usize {
    sizes.iter().map(|size| size + 1).product()
}
