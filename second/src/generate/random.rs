//! A small generator of pseudo-random numbers (splitmix64), so that a seed
//! settles everything.

pub struct Random {
    state: u64,
}

impl Random {
    pub fn new(seed: u64) -> Random {
        Random { state: seed }
    }

    pub fn word(&mut self) -> u64 {
        self.state = self.state.wrapping_add(0x9e37_79b9_7f4a_7c15);
        let mut word = self.state;
        word = (word ^ (word >> 30)).wrapping_mul(0xbf58_476d_1ce4_e5b9);
        word = (word ^ (word >> 27)).wrapping_mul(0x94d0_49bb_1331_11eb);
        word ^ (word >> 31)
    }

    /// A number below the bound, which is not 0.
    pub fn below(&mut self, bound: u64) -> u64 {
        self.word() % bound
    }

    pub fn place(&mut self, bound: usize) -> usize {
        self.below(bound as u64) as usize
    }

    pub fn one_in(&mut self, count: u64) -> bool {
        self.below(count) == 0
    }

    pub fn byte(&mut self) -> u8 {
        self.word() as u8
    }

    pub fn bytes(&mut self, count: usize) -> Vec<u8> {
        (0..count).map(|_| self.byte()).collect()
    }

    pub fn pick<'a, T>(&mut self, from: &'a [T]) -> &'a T {
        &from[self.place(from.len())]
    }

    /// One of the things, or none where there are none.
    pub fn pick_any<T: Copy>(&mut self, from: &[T]) -> Option<T> {
        if from.is_empty() {
            None
        } else {
            Some(*self.pick(from))
        }
    }

    pub fn shuffle<T>(&mut self, things: &mut [T]) {
        for last in (1..things.len()).rev() {
            things.swap(last, self.place(last + 1));
        }
    }
}

#[cfg(test)]
mod tests {
    use super::*;

    #[test]
    fn known_words_of_splitmix64() {
        let mut random = Random::new(1234567);
        assert_eq!(random.word(), 6457827717110365317);
        assert_eq!(random.word(), 3203168211198807973);
        assert_eq!(random.word(), 9817491932198370423);
    }

    #[test]
    fn a_shuffle_keeps_everything() {
        let mut things: Vec<u8> = (0..100).collect();
        Random::new(5).shuffle(&mut things);
        assert_ne!(things, (0..100).collect::<Vec<u8>>());
        things.sort_unstable();
        assert_eq!(things, (0..100).collect::<Vec<u8>>());
    }
}
