//! Things joined step by step: each set is known by its lowest number.

pub struct Joined(Vec<u32>);

impl Joined {
    /// So many things, each on its own.
    pub fn new(count: usize) -> Self {
        Joined((0..count as u32).collect())
    }

    /// The lowest number of the set.
    pub fn lowest(&mut self, mut of: u32) -> u32 {
        while self.0[of as usize] != of {
            let above = self.0[of as usize];
            self.0[of as usize] = self.0[above as usize];
            of = above;
        }
        of
    }

    pub fn join(&mut self, one: u32, other: u32) {
        let (one, other) = (self.lowest(one), self.lowest(other));
        self.0[one.max(other) as usize] = one.min(other);
    }

    /// For each thing the number of its set, and how many sets there are; sets are numbered by first appearance.
    pub fn numbers(mut self) -> (Vec<u32>, usize) {
        let mut count = 0;
        let mut numbers = vec![0; self.0.len()];
        for thing in 0..self.0.len() {
            let lowest = self.lowest(thing as u32) as usize;
            if lowest == thing {
                numbers[thing] = count;
                count += 1;
            } else {
                numbers[thing] = numbers[lowest];
            }
        }
        (numbers, count as usize)
    }
}

#[cfg(test)]
mod tests {
    use super::*;

    #[test]
    fn sets_are_numbered_by_first_appearance() {
        let mut joined = Joined::new(7);
        for (one, other) in [(5, 6), (6, 1), (3, 2), (1, 5)] {
            joined.join(one, other);
        }
        assert_eq!(joined.numbers(), (vec![0, 1, 2, 2, 3, 1, 1], 4));
    }
}
