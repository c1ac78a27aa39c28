//! Letters' numbers.

use crate::chance::Chance;

/// Numbers that are all different: steps of an odd width around the numbers of 32
/// bits meet each of them once.
pub struct Numbers {
    next: u32,
    step: u32,
}

impl Numbers {
    /// Small numbers, numbers down from the largest, or numbers all over.
    pub fn random(chance: &mut Chance) -> Self {
        let anywhere = (chance.within(1..=u32::MAX), chance.within(0..=u32::MAX) | 1);
        let (next, step) = *chance.pick(&[(1, 1), (u32::MAX, u32::MAX), anywhere]);
        Self { next, step }
    }

    pub fn draw(&mut self) -> u32 {
        let number = self.next;
        self.next = self.next.wrapping_add(self.step);
        // 0 is the number of no letter.
        if number == 0 { self.draw() } else { number }
    }
}

#[cfg(test)]
mod tests {
    use super::Numbers;

    #[test]
    fn numbers_pass_over_no_letter() {
        let mut numbers = Numbers {
            next: u32::MAX,
            step: 1,
        };
        assert_eq!([numbers.draw(), numbers.draw()], [u32::MAX, 1]);
    }
}
